//! Whether the library that is linked is the one that this crate is for.

use super::{swd_layout, swd_plan_layout, swd_run_layout, swd_version};
use super::{Access, Cue, Decoder, Engine, Item, Planned, Run, Target, Transfer};
use core::fmt;
use core::mem::MaybeUninit;
use core::ptr;
use core::sync::atomic::{AtomicBool, Ordering};

/// The version of this crate, as the library gives its own: major, minor and patch in a byte each.
const VERSION: u32 = number(env!("CARGO_PKG_VERSION_MAJOR")) << 16
    | number(env!("CARGO_PKG_VERSION_MINOR")) << 8
    | number(env!("CARGO_PKG_VERSION_PATCH"));

/// Set in the version of a library that `./swd --library` compiled without a proof.
const UNPROVED: u32 = 0x8000_0000;

const fn number(digits: &str) -> u32 {
    let (digits, mut place, mut number) = (digits.as_bytes(), 0, 0);
    while place < digits.len() {
        number = 10 * number + (digits[place] - b'0') as u32;
        place += 1;
    }
    number
}

/// Whether the library passed. Threads that don't see it yet compare once more.
static IS_CHECKED: AtomicBool = AtomicBool::new(false);

/// Compares version and structs of the library with those of this crate, before the first struct is passed to it.
///
/// # Panics
///
/// Panics if they differ: the library would read and write outside these structs.
pub(super) fn check() {
    if IS_CHECKED.load(Ordering::Relaxed) {
        return;
    }
    if let Err(difference) = compare() {
        panic!("the libswd_c.a that is linked isn't the one of this crate: {difference}");
    }
    IS_CHECKED.store(true, Ordering::Relaxed);
}

/// How the library differs from this crate.
#[derive(Clone, Copy, Debug, PartialEq, Eq)]
pub(super) enum Difference {
    /// The version of the library.
    Version(u32),
    /// The size of a struct in the library.
    Size { name: &'static str, size: u64 },
    /// The first field that is at another offset.
    Field(&'static str),
}

impl fmt::Display for Difference {
    fn fmt(&self, f: &mut fmt::Formatter<'_>) -> fmt::Result {
        match self {
            Difference::Version(version) => {
                let [_, major, minor, patch] = version.to_be_bytes();
                write!(f, "its version is {major}.{minor}.{patch}, here {}", env!("CARGO_PKG_VERSION"))
            }
            Difference::Size { name, size } => write!(f, "its struct swd_{name} has {size} bytes"),
            Difference::Field(name) => write!(f, "its field {name} is at another offset"),
        }
    }
}

#[cold]
#[inline(never)]
fn compare() -> Result<(), Difference> {
    // SAFETY: the function takes nothing, and reads no memory.
    let version = unsafe { swd_version() };
    if version & !UNPROVED != VERSION {
        return Err(Difference::Version(version));
    }
    written(swd_layout).and_then(|layout| compare_layout(&layout))?;
    written(swd_run_layout).and_then(|layout| compare_run_layout(&layout))?;
    written(swd_plan_layout).and_then(|layout| compare_plan_layout(&layout))
}

#[repr(C)]
#[derive(Clone, Copy, Debug)]
pub(super) struct Layout {
    engine: Engine,
    cue: Cue,
    access: Access,
    decoder: Decoder,
    item: Item,
    target: Target,
    transfer: Transfer,
    engine_size: u64,
    cue_size: u64,
    access_size: u64,
    decoder_size: u64,
    item_size: u64,
    target_size: u64,
    transfer_size: u64,
    layout_size: u64,
}

#[repr(C)]
#[derive(Clone, Copy, Debug)]
pub(super) struct RunLayout {
    run: Run,
    run_size: u64,
    layout_size: u64,
}

#[repr(C)]
#[derive(Clone, Copy, Debug)]
pub(super) struct PlanLayout {
    planned: Planned,
    planned_size: u64,
    layout_size: u64,
}

/// A layout with room behind it, for a library whose structs are larger.
#[repr(C)]
struct Room<L> {
    layout: MaybeUninit<L>,
    more: [u64; 1024],
}

/// The layout that the library writes, which is a struct of numbers.
pub(super) fn written<L: Copy>(write: unsafe extern "C" fn(*mut L)) -> Result<L, Difference> {
    let mut room = Room { layout: MaybeUninit::<L>::zeroed(), more: [0; 1024] };
    // SAFETY: there is room for the struct also where it is larger than ours by 8 kB.
    unsafe { write(ptr::from_mut(&mut room).cast()) };
    if room.more.iter().any(|word| *word != 0) {
        return Err(Difference::Field("behind the layout"));
    }
    // SAFETY: each content is one of a struct of numbers, and all of it was zero before the library wrote it.
    Ok(unsafe { room.layout.assume_init() })
}

/// The name, the size in bytes and the value of each of these fields.
macro_rules! fields {
    ($of:expr; $($($field:ident).+),+ $(,)?) => {
        [$((stringify!($($field).+), size_of_val(&$of.$($field).+), u64::from($of.$($field).+))),+]
    };
}

/// Compares fields with the numbers from 1 on: each has its own in all of its bytes.
pub(super) fn compare_fields(fields: &[(&'static str, usize, u64)]) -> Result<(), Difference> {
    for ((name, size, value), number) in fields.iter().zip(1_u64..) {
        if *value != (number * 0x0101_0101_0101_0101) >> (64 - 8 * size) {
            return Err(Difference::Field(name));
        }
    }
    Ok(())
}

pub(super) fn compare_sizes(sizes: &[(&'static str, u64, usize)]) -> Result<(), Difference> {
    match sizes.iter().find(|(_, size, here)| *size != *here as u64) {
        Some((name, size, _)) => Err(Difference::Size { name, size: *size }),
        None => Ok(()),
    }
}

fn compare_layout(layout: &Layout) -> Result<(), Difference> {
    compare_fields(&fields![layout;
        engine.requests, engine.state.outcome.word, engine.state.outcome.kind, engine.state.job.kind,
        engine.state.job.place, engine.state.job.error, engine.state.job.damaged, engine.state.kind,
        engine.state.phase, engine.task.addr, engine.task.word, engine.task.kind, engine.tar.word,
        engine.tar.known, engine.tries, engine.events, engine.aims, engine.bursts, engine.ahead, engine.begun,
        engine.stray,
        cue.bits, cue.ones, cue.zeros, cue.undriven, cue.outcome.word, cue.outcome.kind, cue.kind, cue.request,
        cue.with_switch, cue.begun,
        access.addr, access.word, access.write,
        decoder.fed, decoder.run, decoder.bits, decoder.mode, decoder.one, decoder.len,
        item.count, item.bits, item.word, item.kind, item.request, item.ack, item.parity_ok,
        target.cycles, target.frame.line.bits, target.frame.line.kind, target.frame.line.reg,
        target.frame.line.flips, target.frame.line.flip, target.frame.kind, target.frame.place,
        target.frame.byte, target.frame.reply, target.target.tar.word, target.target.tar.known,
        target.target.buffer.word, target.target.buffer.known, target.target.last_returned.word,
        target.target.last_returned.known, target.target.pending.word, target.target.pending.kind,
        target.target.filler, target.target.wrap, target.target.late, target.target.reset,
        target.target.sticky_error, target.target.write_error, target.target.read_ok,
        target.target.debug_power, target.target.system_power, target.target.power_up, target.target.apsel,
        target.target.apbanksel, target.target.dpbanksel, target.target.increments, target.target.csw_upper,
        target.waits,
        transfer.addr, transfer.word, transfer.kind,
    ])?;
    compare_sizes(&[
        ("engine", layout.engine_size, size_of::<Engine>()),
        ("cue", layout.cue_size, size_of::<Cue>()),
        ("access", layout.access_size, size_of::<Access>()),
        ("decoder", layout.decoder_size, size_of::<Decoder>()),
        ("item", layout.item_size, size_of::<Item>()),
        ("target", layout.target_size, size_of::<Target>()),
        ("transfer", layout.transfer_size, size_of::<Transfer>()),
        ("layout", layout.layout_size, size_of::<Layout>()),
    ])
}

fn compare_run_layout(layout: &RunLayout) -> Result<(), Difference> {
    compare_fields(&fields![layout;
        run.engine.requests, run.engine.state.outcome.word, run.engine.state.outcome.kind,
        run.engine.state.job.kind, run.engine.state.job.place, run.engine.state.job.error,
        run.engine.state.job.damaged, run.engine.state.kind, run.engine.state.phase, run.engine.task.addr,
        run.engine.task.word, run.engine.task.kind, run.engine.tar.word, run.engine.tar.known, run.engine.tries,
        run.engine.events, run.engine.aims, run.engine.bursts, run.engine.ahead, run.engine.begun,
        run.engine.stray, run.requests, run.end.word, run.end.kind, run.answered, run.begun, run.stage,
    ])?;
    compare_sizes(&[
        ("run", layout.run_size, size_of::<Run>()),
        ("run_layout", layout.layout_size, size_of::<RunLayout>()),
    ])
}

fn compare_plan_layout(layout: &PlanLayout) -> Result<(), Difference> {
    compare_fields(&fields![layout; planned.word, planned.request])?;
    compare_sizes(&[
        ("planned", layout.planned_size, size_of::<Planned>()),
        ("plan_layout", layout.layout_size, size_of::<PlanLayout>()),
    ])
}

#[cfg(test)]
mod tests {
    use super::*;
    use std::format;
    use std::string::ToString;

    #[test]
    fn the_library_is_the_one_of_this_crate() {
        assert_eq!(compare(), Ok(()));
    }

    #[test]
    fn the_version_as_a_number() {
        let [zero, major, minor, patch] = VERSION.to_be_bytes();
        assert_eq!((zero, format!("{major}.{minor}.{patch}")), (0, env!("CARGO_PKG_VERSION").to_string()));
        assert_eq!((number("0"), number("10"), number("255")), (0, 10, 255));
    }

    // A library with another field first, or with a field that is missed, moves those behind it.
    #[test]
    fn other_structs_are_found() {
        let (layout, of_run) = (written(swd_layout).unwrap(), written(swd_run_layout).unwrap());
        let mut other = layout;
        other.cue.zeros = layout.cue.undriven;
        assert_eq!(compare_layout(&other), Err(Difference::Field("cue.zeros")));
        other = layout;
        other.transfer.kind = 0;
        assert_eq!(compare_layout(&other), Err(Difference::Field("transfer.kind")));
        other = layout;
        other.engine.requests &= 0xffff_ffff;
        assert_eq!(compare_layout(&other), Err(Difference::Field("engine.requests")));
        other = layout;
        other.target_size += 8;
        assert_eq!(compare_layout(&other), Err(Difference::Size { name: "target", size: layout.target_size + 8 }));
        let mut other = of_run;
        other.run.stage += 1;
        assert_eq!(compare_run_layout(&other), Err(Difference::Field("run.stage")));
        other = of_run;
        other.run_size = 8;
        assert_eq!(compare_run_layout(&other), Err(Difference::Size { name: "run", size: 8 }));
        let mut other = written(swd_plan_layout).unwrap();
        other.planned.request = 1;
        assert_eq!(compare_plan_layout(&other), Err(Difference::Field("planned.request")));
    }

    #[test]
    fn what_a_difference_says() {
        assert_eq!(
            Difference::Version(0x0a_0b0c).to_string(),
            format!("its version is 10.11.12, here {}", env!("CARGO_PKG_VERSION"))
        );
        assert_eq!(Difference::Size { name: "run", size: 8 }.to_string(), "its struct swd_run has 8 bytes");
        assert_eq!(Difference::Field("run.stage").to_string(), "its field run.stage is at another offset");
    }
}
