//! Accesses, their answers, and the report of a run.

use crate::ffi;
use core::fmt;

/// Kinds of outcomes.
const VALUE: u8 = 2;
const WRITTEN: u8 = 3;
const BUS_FAULT: u8 = 4;
const ALL: u8 = 5;
const LOST: u8 = 6;
const TRIES_OUT: u8 = 7;
const WRONG_ID: u8 = 8;
const CONFUSED: u8 = 9;

/// A read of the word at an address, or a write of a word there. Addresses are in bytes, and multiples of 4.
///
/// It is a struct of C, so that a list is passed to the library as it is.
#[repr(transparent)]
#[derive(Clone, Copy, PartialEq, Eq)]
pub struct Access(pub(crate) ffi::Access);

impl Access {
    /// Reads the word at an address.
    #[must_use]
    pub const fn read(addr: u32) -> Access {
        Access(ffi::Access { addr, word: 0, write: 0 })
    }

    /// Writes a word at an address.
    #[must_use]
    pub const fn write(addr: u32, word: u32) -> Access {
        Access(ffi::Access { addr, word, write: 1 })
    }

    /// The address.
    #[must_use]
    pub const fn addr(self) -> u32 {
        self.0.addr
    }

    /// The word that is written, or `None` of a read.
    #[must_use]
    pub const fn word(self) -> Option<u32> {
        if self.0.write == 0 {
            None
        } else {
            Some(self.0.word)
        }
    }
}

impl fmt::Debug for Access {
    fn fmt(&self, f: &mut fmt::Formatter<'_>) -> fmt::Result {
        match self.word() {
            None => write!(f, "read({:#010x})", self.addr()),
            Some(word) => write!(f, "write({:#010x}, {word:#010x})", self.addr()),
        }
    }
}

/// As `swd run` prints it in front of its answer: `r 20000000` or `w 20000000`.
impl fmt::Display for Access {
    fn fmt(&self, f: &mut fmt::Formatter<'_>) -> fmt::Result {
        write!(f, "{} {:08x}", if self.word().is_none() { 'r' } else { 'w' }, self.addr())
    }
}

/// Returns the reads of a block: `count` words at `addr`, `addr + 4` and so on. Addresses wrap at the end of the
/// address space.
pub fn block(addr: u32, count: usize) -> impl Iterator<Item = Access> {
    (0..count).map(move |index| Access::read(addr.wrapping_add((index as u32).wrapping_mul(4))))
}

/// What an access was answered.
#[derive(Clone, Copy, Debug, PartialEq, Eq)]
pub enum Answer {
    /// The access was a read, and this word was read.
    Value(u32),
    /// The access was a write. The word was written once.
    Written,
    /// The access was made once, and was a bus error: the target's bus refused it.
    BusFault,
}

/// As `swd run` prints it: the word in eight hexadecimal digits, `written` or `busfault`.
impl fmt::Display for Answer {
    fn fmt(&self, f: &mut fmt::Formatter<'_>) -> fmt::Result {
        match self {
            Answer::Value(word) => write!(f, "{word:08x}"),
            Answer::Written => f.write_str("written"),
            Answer::BusFault => f.write_str("busfault"),
        }
    }
}

/// The place of an answer, which is empty until its access is answered. The library stores the answers there as they
/// come.
#[repr(transparent)]
#[derive(Clone, Copy, Default, PartialEq, Eq)]
pub struct Slot(pub(crate) ffi::Outcome);

impl Slot {
    /// A place without an answer.
    pub const EMPTY: Slot = Slot(ffi::Outcome { word: 0, kind: 0 });

    /// The answer, or `None` where the access wasn't answered.
    #[must_use]
    pub const fn answer(self) -> Option<Answer> {
        match self.0.kind {
            VALUE => Some(Answer::Value(self.0.word)),
            WRITTEN => Some(Answer::Written),
            BUS_FAULT => Some(Answer::BusFault),
            _ => None,
        }
    }

    /// The word that was read, or `None` for any other answer, and for none.
    #[must_use]
    pub const fn word(self) -> Option<u32> {
        match self.answer() {
            Some(Answer::Value(word)) => Some(word),
            _ => None,
        }
    }
}

impl fmt::Debug for Slot {
    fn fmt(&self, f: &mut fmt::Formatter<'_>) -> fmt::Result {
        self.answer().fmt(f)
    }
}

/// How a run ended.
#[derive(Clone, Copy, Debug, PartialEq, Eq)]
pub enum End {
    /// Every access was answered.
    All,
    /// No acknowledgement was seen. Nothing was sent after it; [`Host::resume`](crate::Host::resume) continues.
    Lost,
    /// An access, or the opening, met more events than the tries; [`Host::resume`](crate::Host::resume) continues.
    TriesOut,
    /// Bit 0 of DPIDR isn't 1. This is what was read.
    WrongId(u32),
    /// The target violated the protocol.
    Confused,
}

impl End {
    pub(crate) fn of(outcome: ffi::Outcome) -> End {
        match outcome.kind {
            ALL => End::All,
            LOST => End::Lost,
            TRIES_OUT => End::TriesOut,
            WRONG_ID => End::WrongId(outcome.word),
            CONFUSED => End::Confused,
            kind => unreachable!("end {kind}"),
        }
    }
}

/// As `swd run` prints it: `all`, `lost`, `tries`, `id 2ba01476` or `confused`.
impl fmt::Display for End {
    fn fmt(&self, f: &mut fmt::Formatter<'_>) -> fmt::Result {
        match self {
            End::All => f.write_str("all"),
            End::Lost => f.write_str("lost"),
            End::TriesOut => f.write_str("tries"),
            End::WrongId(word) => write!(f, "id {word:08x}"),
            End::Confused => f.write_str("confused"),
        }
    }
}

/// What a run did.
#[derive(Clone, Copy, Debug, PartialEq, Eq)]
pub struct Report {
    /// How many accesses were answered: the first ones of the list. Their answers are in the caller's slots.
    pub answered: usize,
    /// How many accesses after these were in flight: 0 or 1, in a block up to 2. Such an access took effect or didn't.
    pub begun: u8,
    /// How many requests were sent, by this call alone, without those that bring the target to rest first.
    pub requests: u64,
    /// How the run ended.
    pub ended: End,
}

impl Report {
    pub(crate) fn of(run: &ffi::Run) -> Report {
        // (a run that goes on, if it is left, is one that saw no acknowledgement)
        let ended = if run.end.kind == 0 { End::Lost } else { End::of(run.end) };
        Report { answered: run.answered as usize, begun: run.begun, requests: run.requests, ended }
    }

    /// The report, with what an earlier one had in flight and neither answered.
    pub(crate) fn since(self, earlier: &Report) -> Report {
        if self.ended == End::All {
            return self;
        }
        let more = self.answered.saturating_sub(earlier.answered);
        let still = usize::from(earlier.begun).saturating_sub(more) as u8;
        Report { begun: self.begun.max(still), ..self }
    }
}

impl fmt::Display for Report {
    fn fmt(&self, f: &mut fmt::Formatter<'_>) -> fmt::Result {
        write!(f, "{} answered, {} in flight, end {}", self.answered, self.begun, self.ended)
    }
}
