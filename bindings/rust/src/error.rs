//! Why a run failed, or wasn't begun.

use crate::{Access, End, Report, MOST_ACCESSES};
use core::fmt;

/// Why nothing was sent.
#[derive(Clone, Copy, Debug, PartialEq, Eq)]
pub enum Refused {
    /// The address of this access isn't a multiple of 4.
    Unaligned {
        /// Its place in the list.
        index: usize,
    },
    /// There are more than 65,536 accesses.
    TooMany {
        /// How many there are.
        accesses: usize,
    },
    /// There isn't one slot for each answer.
    TooFewSlots {
        /// How many accesses there are.
        accesses: usize,
        /// How many answers there is room for.
        slots: usize,
    },
    /// The report ended otherwise than [`End::Lost`] or [`End::TriesOut`].
    NotResumable(End),
    /// The report has more answers than the list has accesses.
    OtherReport {
        /// How many accesses there are.
        accesses: usize,
        /// How many of them the report says are answered.
        answered: usize,
    },
    /// A value that is awaited has bits outside the mask, which would never come.
    OutsideMask,
    /// The bytes of an image pass the end of the address space.
    PastEnd,
    /// The line panicked in an earlier call of this host or session; [`Line`](crate::Line) says what to do then.
    Panicked,
}

impl fmt::Display for Refused {
    fn fmt(&self, f: &mut fmt::Formatter<'_>) -> fmt::Result {
        match self {
            Refused::Unaligned { index } => write!(f, "the address of access {index} isn't a multiple of 4"),
            Refused::TooMany { accesses } => write!(f, "{accesses} accesses, where at most {MOST_ACCESSES} may be"),
            Refused::TooFewSlots { accesses, slots } => {
                write!(f, "{slots} slots, where there are {accesses} accesses")
            }
            Refused::NotResumable(end) => write!(f, "the report ended with {end}, after which nothing is resumed"),
            Refused::OtherReport { accesses, answered } => {
                write!(f, "the report has {answered} answers, where there are {accesses} accesses")
            }
            Refused::OutsideMask => f.write_str("the value has bits outside the mask"),
            Refused::PastEnd => f.write_str("the bytes pass the end of the address space"),
            Refused::Panicked => f.write_str("the line panicked in an earlier call"),
        }
    }
}

impl core::error::Error for Refused {}

/// Why a run failed, or wasn't begun. Where it began, the error has its report.
#[derive(Clone, Copy, Debug, PartialEq, Eq)]
pub enum Error<E> {
    /// Nothing was sent.
    Refused(Refused),
    /// The run ended early.
    Stopped(Report),
    /// Every access was answered, but this one as a bus error, the first of them.
    BusFault {
        /// Its place in the list.
        index: usize,
        /// The access.
        access: Access,
        /// The report, whose `ended` is [`End::All`].
        report: Report,
    },
    /// The line failed. No clock was made after that.
    Line {
        /// What the line said.
        error: E,
        /// What is certain. It ended with [`End::Lost`], and [`Host::resume`](crate::Host::resume) continues it; where
        /// every access was answered before, it ended with [`End::All`].
        report: Report,
    },
    /// A word was read as often as it may, and it never was as expected. This is what it was at last.
    NeverCame {
        /// The word.
        word: u32,
        /// The report of the last read.
        report: Report,
    },
}

impl<E> Error<E> {
    /// The report of the run, or `None` where it was refused.
    #[must_use]
    pub fn report(&self) -> Option<&Report> {
        match self {
            Error::Refused(_) => None,
            Error::Stopped(report)
            | Error::BusFault { report, .. }
            | Error::Line { report, .. }
            | Error::NeverCame { report, .. } => Some(report),
        }
    }

    /// The error of a run of which nothing was done, since what was to bring the target to rest before it ended so.
    pub(crate) fn before_run(self) -> Error<E> {
        match self {
            Error::Stopped(report) => Error::Stopped(Report { requests: 0, ..report }),
            Error::Line { error, report } => {
                Error::Line { error, report: Report { requests: 0, ended: End::Lost, ..report } }
            }
            other => other,
        }
    }

    pub(crate) fn since(self, earlier: &Report) -> Error<E> {
        match self {
            Error::Stopped(report) => Error::Stopped(report.since(earlier)),
            Error::Line { error, report } => Error::Line { error, report: report.since(earlier) },
            other => other,
        }
    }
}

impl<E> From<Refused> for Error<E> {
    fn from(refused: Refused) -> Error<E> {
        Error::Refused(refused)
    }
}

impl<E> fmt::Display for Error<E> {
    fn fmt(&self, f: &mut fmt::Formatter<'_>) -> fmt::Result {
        match self {
            Error::Refused(refused) => refused.fmt(f),
            Error::Stopped(report) => write!(f, "the run ended early: {report}"),
            Error::BusFault { index, access, .. } => write!(f, "access {index} ({access}) was a bus error"),
            Error::Line { report, .. } => write!(f, "the line failed: {report}"),
            Error::NeverCame { word, .. } => write!(f, "the word was {word:08x} at the last read"),
        }
    }
}

/// Its source is what the line said, where the line failed.
impl<E: core::error::Error + 'static> core::error::Error for Error<E> {
    fn source(&self) -> Option<&(dyn core::error::Error + 'static)> {
        match self {
            Error::Line { error, .. } => Some(error),
            _ => None,
        }
    }
}
