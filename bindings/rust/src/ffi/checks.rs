//! The checker of a trace, as `swd.h` declares it.

use super::library::{check, compare_fields, compare_sizes, written, Difference};
use super::Item;
use core::sync::atomic::{AtomicBool, Ordering};

const WORLDS: usize = 64;

#[repr(C)]
#[derive(Clone, Copy, Debug, Default, PartialEq, Eq)]
struct Held {
    places: u64,
    word: u32,
    kind: u8,
}

#[repr(C)]
#[derive(Clone, Copy, Debug, Default, PartialEq, Eq)]
struct Range {
    first: u32,
    more: u8,
    known: u8,
}

#[repr(C)]
#[derive(Clone, Copy, Debug, Default, PartialEq, Eq)]
struct World {
    faults: u64,
    buffer: Held,
    last_returned: Held,
    tar: Range,
    reset: u8,
    sticky_error: u8,
    write_error: u8,
    read_ok: u8,
    debug: u8,
    system: u8,
    mem_ap: u8,
    bank0: u8,
    increments: u8,
    pending: u8,
    awaits: u8,
}

#[repr(C)]
#[derive(Clone, Copy, Debug)]
pub(crate) struct Check {
    worlds: [World; WORLDS],
    identification: Held,
    began: u64,
    faults_before: u64,
    gaps: u64,
    broken: u64,
    crowded: u64,
    select: u32,
    count: u8,
    overfull: u8,
    opening: u8,
    clean: u8,
    has_began: u8,
    in_gap: u8,
    stray: u8,
    rule: u8,
    is_crowded: u8,
}

#[repr(C)]
#[derive(Clone, Copy, Debug, Default)]
pub(crate) struct Verdict {
    pub place: u64,
    pub began: u64,
    pub faults: u64,
    pub gaps: u64,
    pub kind: u8,
    pub rule: u8,
    pub has_began: u8,
}

#[repr(C)]
#[derive(Clone, Copy, Debug)]
struct Layout {
    world: World,
    check: Check,
    verdict: Verdict,
    world_size: u64,
    check_size: u64,
    verdict_size: u64,
    layout_size: u64,
}

#[link(name = "swd_c", kind = "static")]
extern "C" {
    fn swd_check_layout(layout: *mut Layout);
    fn swd_check_new(check: *mut Check, start: u8, clean: u8) -> bool;
    fn swd_check_watch(check: *mut Check, item: *const Item, place: u64) -> bool;
    fn swd_check_verdict(check: *const Check, verdict: *mut Verdict) -> bool;
}

/// Whether the checker's structs passed. A program that checks nothing links nothing of it.
static IS_CHECKED: AtomicBool = AtomicBool::new(false);

/// Compares the checker's structs with those of this crate, as `check` does the others.
fn check_structs() {
    check();
    if IS_CHECKED.load(Ordering::Relaxed) {
        return;
    }
    if let Err(difference) = written(swd_check_layout).and_then(|layout| compare_layout(&layout)) {
        panic!("the libswd_c.a that is linked isn't the one of this crate: {difference}");
    }
    IS_CHECKED.store(true, Ordering::Relaxed);
}

fn compare_layout(layout: &Layout) -> Result<(), Difference> {
    compare_fields(&fields![layout;
        world.faults, world.buffer.places, world.buffer.word, world.buffer.kind, world.last_returned.places,
        world.last_returned.word, world.last_returned.kind, world.tar.first, world.tar.more, world.tar.known,
        world.reset, world.sticky_error, world.write_error, world.read_ok, world.debug, world.system, world.mem_ap,
        world.bank0, world.increments, world.pending, world.awaits,
        check.identification.places, check.identification.word, check.identification.kind, check.began,
        check.faults_before, check.gaps, check.broken, check.crowded, check.select, check.count, check.overfull,
        check.opening, check.clean, check.has_began, check.in_gap, check.stray, check.rule, check.is_crowded,
        verdict.place, verdict.began, verdict.faults, verdict.gaps, verdict.kind, verdict.rule, verdict.has_began,
    ])?;
    if layout.check.worlds.iter().any(|world| *world != layout.world) {
        return Err(Difference::Field("check.worlds"));
    }
    compare_sizes(&[
        ("world", layout.world_size, size_of::<World>()),
        ("check", layout.check_size, size_of::<Check>()),
        ("verdict", layout.verdict_size, size_of::<Verdict>()),
        ("check_layout", layout.layout_size, size_of::<Layout>()),
    ])
}

impl Check {
    /// Makes a checker, or none for a start that there isn't.
    pub fn new(start: u8, clean: bool) -> Option<Check> {
        check_structs();
        let mut check = Check {
            worlds: [World::default(); WORLDS],
            identification: Held::default(),
            began: 0,
            faults_before: 0,
            gaps: 0,
            broken: 0,
            crowded: 0,
            select: 0,
            count: 0,
            overfull: 0,
            opening: 0,
            clean: 0,
            has_began: 0,
            in_gap: 0,
            stray: 0,
            rule: 0,
            is_crowded: 0,
        };
        // SAFETY: the pointer is of a whole struct that nobody else has.
        unsafe { swd_check_new(&mut check, start, u8::from(clean)) }.then_some(check)
    }

    /// Takes an item at a place, or returns false where it is none.
    pub fn watch(&mut self, item: &Item, place: u64) -> bool {
        // SAFETY: the pointers are of two whole structs, the first of which nobody else has.
        unsafe { swd_check_watch(self, item, place) }
    }

    pub fn verdict(&self) -> Option<Verdict> {
        let mut verdict = Verdict::default();
        // SAFETY: the pointers are of two whole structs, the second of which nobody else has.
        unsafe { swd_check_verdict(self, &mut verdict) }.then_some(verdict)
    }
}

#[cfg(test)]
mod tests {
    use super::*;

    #[test]
    fn other_structs_are_found() {
        let layout = written(swd_check_layout).unwrap();
        assert_eq!(compare_layout(&layout), Ok(()));
        let mut other = layout;
        other.check.worlds[63].awaits += 1;
        assert_eq!(compare_layout(&other), Err(Difference::Field("check.worlds")));
        other = layout;
        other.verdict.gaps = 0;
        assert_eq!(compare_layout(&other), Err(Difference::Field("verdict.gaps")));
        other = layout;
        other.check_size = 8;
        assert_eq!(compare_layout(&other), Err(Difference::Size { name: "check", size: 8 }));
    }
}
