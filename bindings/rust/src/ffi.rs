//! The functions of `libswd_c`, as `swd.h` declares them, each behind a safe method of its struct.
//!
//! What makes them safe: no function has a condition on what a struct holds, none keeps a pointer, calls back or
//! allocates, and a struct has numbers alone. So a call needs nothing but references to whole structs, which Rust
//! gives. And the library has to be the one that this crate is for: what makes a struct checks that before.

#[macro_use]
mod library;
mod checks;

pub(crate) use checks::Check;
use library::{check, Layout, PlanLayout, RunLayout};

#[repr(C)]
#[derive(Clone, Copy, Debug, Default, PartialEq, Eq)]
pub(crate) struct Outcome {
    pub word: u32,
    pub kind: u8,
}

#[repr(C)]
#[derive(Clone, Copy, Debug, Default)]
struct Job {
    kind: u8,
    place: u8,
    error: u8,
    damaged: u8,
}

#[repr(C)]
#[derive(Clone, Copy, Debug, Default)]
struct State {
    outcome: Outcome,
    job: Job,
    kind: u8,
    phase: u8,
}

#[repr(C)]
#[derive(Clone, Copy, Debug, Default)]
struct Task {
    addr: u32,
    word: u32,
    kind: u8,
}

#[repr(C)]
#[derive(Clone, Copy, Debug, Default)]
struct Content {
    word: u32,
    known: u8,
}

#[repr(C)]
#[derive(Clone, Copy, Debug, Default)]
struct Engine {
    requests: u64,
    state: State,
    task: Task,
    tar: Content,
    tries: u32,
    events: u32,
    aims: u8,
    bursts: u8,
    ahead: u8,
    begun: u8,
    stray: u8,
}

#[repr(C)]
#[derive(Clone, Copy, Debug, Default)]
pub(crate) struct Run {
    pub requests: u64,
    engine: Engine,
    pub end: Outcome,
    pub answered: u32,
    pub begun: u8,
    stage: u8,
}

#[repr(C)]
#[derive(Clone, Copy, Debug, Default)]
pub(crate) struct Cue {
    pub bits: u64,
    pub ones: u32,
    pub zeros: u32,
    pub undriven: u32,
    pub outcome: Outcome,
    pub kind: u8,
    pub request: u8,
    pub with_switch: u8,
    pub begun: u8,
}

#[repr(C)]
#[derive(Clone, Copy, Debug, PartialEq, Eq)]
pub(crate) struct Access {
    pub addr: u32,
    pub word: u32,
    pub write: u8,
}

#[repr(C)]
#[derive(Clone, Copy, Debug, Default, PartialEq, Eq)]
pub(crate) struct Planned {
    pub word: u32,
    pub request: u8,
}

#[repr(C)]
#[derive(Clone, Copy, Debug, Default)]
struct LineState {
    bits: u64,
    kind: u8,
    reg: u8,
    flips: u8,
    flip: u8,
}

#[repr(C)]
#[derive(Clone, Copy, Debug, Default)]
struct Frame {
    line: LineState,
    kind: u8,
    place: u8,
    byte: u8,
    reply: u8,
}

#[repr(C)]
#[derive(Clone, Copy, Debug, Default)]
struct Pending {
    word: u32,
    kind: u8,
}

#[repr(C)]
#[derive(Clone, Copy, Debug, Default)]
struct Port {
    tar: Content,
    buffer: Content,
    last_returned: Content,
    pending: Pending,
    filler: u32,
    wrap: u8,
    late: u8,
    reset: u8,
    sticky_error: u8,
    write_error: u8,
    read_ok: u8,
    debug_power: u8,
    system_power: u8,
    power_up: u8,
    apsel: u8,
    apbanksel: u8,
    dpbanksel: u8,
    increments: u8,
    csw_upper: u8,
}

#[repr(C)]
#[derive(Clone, Copy, Debug, Default)]
pub(crate) struct Target {
    pub cycles: u64,
    frame: Frame,
    target: Port,
    waits: u8,
}

#[repr(C)]
#[derive(Clone, Copy, Debug, Default)]
pub(crate) struct Transfer {
    pub addr: u32,
    pub word: u32,
    pub kind: u8,
}

#[repr(C)]
#[derive(Clone, Copy, Debug, Default)]
pub(crate) struct Decoder {
    pub fed: u64,
    run: u64,
    bits: u64,
    mode: u8,
    one: u8,
    len: u8,
}

#[repr(C)]
#[derive(Clone, Copy, Debug, Default)]
pub(crate) struct Item {
    pub count: u64,
    pub bits: u64,
    pub word: u32,
    pub kind: u8,
    pub request: u8,
    pub ack: u8,
    pub parity_ok: u8,
}

#[link(name = "swd_c", kind = "static")]
extern "C" {
    fn swd_version() -> u32;
    fn swd_layout(layout: *mut Layout);
    fn swd_run_layout(layout: *mut RunLayout);
    fn swd_plan_layout(layout: *mut PlanLayout);
    fn swd_run_new(run: *mut Run, tries: u32);
    fn swd_run_blocks(run: *mut Run, tries: u32);
    fn swd_run_opened(run: *mut Run, accesses: *const Access, count: usize, blocks: u8, tries: u32) -> Cue;
    fn swd_run_again(run: *mut Run, tries: u32) -> bool;
    fn swd_run_cue(run: *const Run) -> Cue;
    fn swd_run_fail(run: *mut Run) -> Cue;
    fn swd_run_next(
        run: *mut Run,
        accesses: *const Access,
        count: usize,
        answers: *mut Outcome,
        room: usize,
        reply: u64,
    ) -> Cue;
    fn swd_run_plan(run: *const Run, accesses: *const Access, count: usize, plan: *mut Planned, room: usize) -> u32;
    fn swd_target_new(target: *mut Target, wraps: u8, filler: u32);
    fn swd_target_cycle(target: *mut Target, drive: u8) -> u8;
    fn swd_target_wants(target: *const Target) -> Transfer;
    fn swd_target_settle(target: *mut Target, kind: u8, word: u32) -> bool;
    fn swd_target_hold(target: *mut Target, wait: u8) -> bool;
    fn swd_decoder_new(decoder: *mut Decoder);
    fn swd_decoder_take(decoder: *mut Decoder, bits: u64, count: u8) -> u8;
    fn swd_decoder_due(decoder: *mut Decoder, item: *mut Item) -> bool;
    fn swd_decoder_last(decoder: *mut Decoder, item: *mut Item) -> bool;
}

/// The accesses as the library takes them.
pub(crate) fn listed(accesses: &[crate::Access]) -> &[Access] {
    // SAFETY: `crate::Access` is `repr(transparent)` over the struct.
    unsafe { &*(accesses as *const [crate::Access] as *const [Access]) }
}

/// The slots as the library writes them. Each content of the struct is one of a slot.
pub(crate) fn stored(slots: &mut [crate::Slot]) -> &mut [Outcome] {
    // SAFETY: `crate::Slot` is `repr(transparent)` over the struct.
    unsafe { &mut *(slots as *mut [crate::Slot] as *mut [Outcome]) }
}

/// The transactions as the library writes them. Each content of the struct is one of a transaction.
pub(crate) fn planned(room: &mut [crate::Planned]) -> &mut [Planned] {
    // SAFETY: `crate::Planned` is `repr(transparent)` over the struct.
    unsafe { &mut *(room as *mut [crate::Planned] as *mut [Planned]) }
}

impl Run {
    /// Makes a run at its beginning, for bursts of reads, or else of writes.
    pub fn beginning(blocks: bool, tries: u32) -> Run {
        check();
        let mut run = Run::default();
        let begins = if blocks { swd_run_blocks } else { swd_run_new };
        // SAFETY: the pointer is of a whole struct that nobody else has.
        unsafe { begins(&mut run, tries) };
        run
    }

    /// Makes a run over an open target. The cue is its first, or says why the list was refused.
    pub fn opened(accesses: &[Access], blocks: bool, tries: u32) -> (Run, Cue) {
        check();
        let mut run = Run::default();
        // SAFETY: the pointers are of a whole struct that nobody else has, and of as many accesses as the count says.
        let cue = unsafe { swd_run_opened(&mut run, accesses.as_ptr(), accesses.len(), u8::from(blocks), tries) };
        (run, cue)
    }

    /// Stores the transactions that come next, and returns how many.
    pub fn plan(&self, accesses: &[Access], room: &mut [Planned]) -> usize {
        let (list, count) = (accesses.as_ptr(), accesses.len());
        // SAFETY: the pointers are of a whole struct, of as many accesses as the count says, and of as many objects as
        // the room says, which nobody else has.
        let found = unsafe { swd_run_plan(self, list, count, room.as_mut_ptr(), room.len()) };
        found as usize
    }

    /// Makes the run that continues this one, where it ended so that it can be continued.
    pub fn again(&mut self, tries: u32) -> bool {
        // SAFETY: the pointer is of a whole struct that nobody else has.
        unsafe { swd_run_again(self, tries) }
    }

    pub fn cue(&self) -> Cue {
        // SAFETY: the pointer is of a whole struct that nobody writes meanwhile.
        unsafe { swd_run_cue(self) }
    }

    /// Ends a run whose line failed inside the cue.
    pub fn fail(&mut self) {
        // SAFETY: the pointer is of a whole struct that nobody else has.
        unsafe { swd_run_fail(self) };
    }

    pub fn next(&mut self, accesses: &[Access], answers: &mut [Outcome], reply: u64) -> Cue {
        let (room, stored) = (answers.len(), answers.as_mut_ptr());
        // SAFETY: the pointers are of a whole struct that nobody else has, and of as many accesses, and answers that
        // nobody else has, as the counts say.
        unsafe { swd_run_next(self, accesses.as_ptr(), accesses.len(), stored, room, reply) }
    }
}

impl Target {
    pub fn new(wraps: bool, filler: u32) -> Target {
        check();
        let mut target = Target::default();
        // SAFETY: the pointer is of a whole struct that nobody else has.
        unsafe { swd_target_new(&mut target, u8::from(wraps), filler) };
        target
    }

    pub fn cycle(&mut self, drive: u8) -> u8 {
        // SAFETY: the pointer is of a whole struct that nobody else has.
        unsafe { swd_target_cycle(self, drive) }
    }

    pub fn wants(&self) -> Transfer {
        // SAFETY: the pointer is of a whole struct that nobody writes meanwhile.
        unsafe { swd_target_wants(self) }
    }

    pub fn settle(&mut self, kind: u8, word: u32) -> bool {
        // SAFETY: the pointer is of a whole struct that nobody else has.
        unsafe { swd_target_settle(self, kind, word) }
    }

    pub fn hold(&mut self, wait: bool) -> bool {
        // SAFETY: the pointer is of a whole struct that nobody else has.
        unsafe { swd_target_hold(self, u8::from(wait)) }
    }
}

impl Decoder {
    pub fn new() -> Decoder {
        check();
        let mut decoder = Decoder::default();
        // SAFETY: the pointer is of a whole struct that nobody else has.
        unsafe { swd_decoder_new(&mut decoder) };
        decoder
    }

    pub fn take(&mut self, bits: u64, count: u8) -> u8 {
        // SAFETY: the pointer is of a whole struct that nobody else has.
        unsafe { swd_decoder_take(self, bits, count) }
    }

    pub fn due(&mut self) -> Option<Item> {
        let mut item = Item::default();
        // SAFETY: the pointers are of two whole structs that nobody else has.
        unsafe { swd_decoder_due(self, &mut item) }.then_some(item)
    }

    pub fn last(&mut self) -> Option<Item> {
        let mut item = Item::default();
        // SAFETY: the pointers are of two whole structs that nobody else has.
        unsafe { swd_decoder_last(self, &mut item) }.then_some(item)
    }
}
