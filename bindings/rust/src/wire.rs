//! What cues say, over a line.

use crate::cut::{Cut, DATA_CLOCKS};
use crate::{ffi, Broken, Identification, Line, Opening};

/// Kinds of cues.
pub(crate) const REST: u8 = 0;
pub(crate) const LEAD: u8 = 1;
pub(crate) const ASK: u8 = 2;
pub(crate) const TAKE: u8 = 3;
pub(crate) const GIVE: u8 = 4;
pub(crate) const PASS: u8 = 5;

/// The requests that read DPIDR and CTRL/STAT.
const DPIDR: u8 = 0xa5;
const CTRL_STAT: u8 = 0x8d;

/// The sixteen bits that switch from JTAG to serial wire.
pub(crate) const SWITCH_BITS: u64 = 0xe79e;

/// The reply to a cue on a line that nobody drives.
pub(crate) fn silence(cue: &ffi::Cue) -> u64 {
    match cue.kind {
        ASK => 0x7,
        TAKE => 0x1_ffff_ffff,
        _ => 0,
    }
}

/// Performs cues over a line, as far as it doesn't fail.
pub(crate) struct Wire<'l, L: Line> {
    line: &'l mut L,
    pub failure: Option<L::Error>,
    /// The write's data phase inside which the line failed.
    pub cut: Option<Cut>,
    /// What was read since the last line reset, if there was one.
    pub opening: Option<Opening>,
    request: u8,
}

impl<'l, L: Line> Wire<'l, L> {
    pub fn new(line: &'l mut L) -> Self {
        Wire { line, failure: None, cut: None, opening: None, request: 0 }
    }

    /// Performs the cue, and returns the reply. Once the line has failed it makes no clock, and returns what an
    /// undriven line shows.
    pub fn reply(&mut self, cue: &ffi::Cue) -> u64 {
        if self.failure.is_none() {
            match self.perform(cue) {
                Ok(seen) => return seen,
                Err(error) => self.failure = Some(error),
            }
        }
        silence(cue)
    }

    pub fn flush(&mut self) {
        if self.failure.is_none() {
            self.failure = self.line.flush().err();
        }
    }

    fn perform(&mut self, cue: &ffi::Cue) -> Result<u64, L::Error> {
        match cue.kind {
            LEAD => {
                // (others are idle cycles alone)
                if cue.ones > 0 {
                    self.opening = Some(Opening::default());
                }
                self.lead(cue)?;
            }
            ASK => {
                self.request = cue.request;
                self.drive(u64::from(cue.request), 8)?;
                self.line.release_for(1)?;
                return self.sample(3);
            }
            TAKE => {
                let bits = self.sample(DATA_CLOCKS)?;
                self.line.release_for(1)?;
                if bits.count_ones() % 2 == 0 {
                    self.note(bits as u32);
                }
                return Ok(bits);
            }
            GIVE => {
                self.line.release_for(1)?;
                self.line.drive_bits(cue.bits, DATA_CLOCKS).map_err(|broken| {
                    self.cut = Some(Cut::new(cue.bits, broken.made));
                    broken.error
                })?;
            }
            PASS => self.line.release_for(1)?,
            kind => unreachable!("cue {kind}"),
        }
        Ok(0)
    }

    /// Samples so many levels, without what a probe may have above them.
    fn sample(&mut self, count: u32) -> Result<u64, L::Error> {
        self.line.sample_bits(count).map(|bits| bits & ((1 << count) - 1))
    }

    /// Keeps a word that was read with right parity, if it says what the target is.
    fn note(&mut self, word: u32) {
        let Some(opening) = &mut self.opening else {
            return;
        };
        match self.request {
            DPIDR => opening.dpidr = Some(Identification { word }),
            CTRL_STAT => opening.ctrl_stat = Some(word),
            _ => {}
        }
    }

    fn lead(&mut self, cue: &ffi::Cue) -> Result<(), L::Error> {
        let undriven = cue.undriven.min(cue.ones);
        if undriven > 0 {
            self.line.release_for(undriven)?;
        }
        self.hold(u64::MAX, cue.ones - undriven)?;
        if cue.with_switch != 0 {
            self.drive(SWITCH_BITS, 16)?;
            self.hold(u64::MAX, cue.ones)?;
        }
        self.hold(0, cue.zeros)
    }

    /// Drives one level, which all of these bits have.
    fn hold(&mut self, bits: u64, count: u32) -> Result<(), L::Error> {
        let mut left = count;
        while left > 0 {
            let now = left.min(64);
            self.drive(bits, now)?;
            left -= now;
        }
        Ok(())
    }

    /// Drives bits outside the data phase of a write, where no target takes part of them for a word.
    fn drive(&mut self, bits: u64, count: u32) -> Result<(), L::Error> {
        self.line.drive_bits(bits, count).map_err(|broken: Broken<L::Error>| broken.error)
    }
}
