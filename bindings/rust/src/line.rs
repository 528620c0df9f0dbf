//! The wire.

use core::fmt;

/// Why driving several bits failed, and where.
#[derive(Clone, Copy, Debug, PartialEq, Eq)]
pub struct Broken<E> {
    /// How many of the clocks were made. The next one was made or wasn't, and no other was. A probe that certainly made
    /// all of them says so; one that made all or none, and doesn't know which, says 0.
    pub made: u32,
    /// Why it failed.
    pub error: E,
}

impl<E> fmt::Display for Broken<E> {
    fn fmt(&self, f: &mut fmt::Formatter<'_>) -> fmt::Result {
        write!(f, "the line failed after {} clocks", self.made)
    }
}

/// Its source is why the line failed.
impl<E: core::error::Error + 'static> core::error::Error for Broken<E> {
    fn source(&self) -> Option<&(dyn core::error::Error + 'static)> {
        Some(&self.error)
    }
}

/// A wire to a target, one clock of SWCLK per call.
///
/// It has a pull-up: where nobody drives it, it reads 1. The target samples SWDIO at the rising edge of SWCLK, and
/// changes it after that edge where it drives. So a call sets up SWDIO, lets SWCLK fall, looks at SWDIO, and lets SWCLK
/// rise.
///
/// The calls of several clocks are made of these. A probe that has a command for many clocks implements them too:
/// [`drive_bits`](Line::drive_bits) and [`release_for`](Line::release_for) may be queued until the next
/// [`sample_bits`](Line::sample_bits) or [`flush`](Line::flush), so that a request costs one exchange with the probe. A
/// host calls nothing else.
///
/// A clock that fails may have been made or not. A line that fails inside a write's data phase leaves the target there:
/// the next run of the same host drives the rest of it so that the parity is wrong, and the target drops the word. That
/// is certain unless the line fails in that phase again, at its 32nd bit. A line that queues makes each of its calls as
/// a whole or not at all, also where the queue fails.
///
/// A call that fails leaves no reply unread: a reply to it that still comes is dropped before the next clock.
/// Otherwise each later level would be that of an earlier clock. A line that can't be brought into step again fails
/// in each later call.
///
/// Where a call panics, no error says how far it came, and what is driven next might end a word that the target then
/// writes. Each later call of the same host or session is [`Refused::Panicked`](crate::Refused::Panicked), and drives
/// nothing. Make another one once the target has lost its power: that ends the data phase.
pub trait Line {
    /// Why a clock could not be made.
    type Error;

    /// Makes one clock in which the host drives SWDIO at this level.
    fn drive(&mut self, bit: bool) -> Result<(), Self::Error>;

    /// Makes one clock in which the host doesn't drive SWDIO, and nobody looks at it.
    fn release(&mut self) -> Result<(), Self::Error>;

    /// Makes one clock in which the host doesn't drive SWDIO. Returns its level from before the rising edge.
    fn sample(&mut self) -> Result<bool, Self::Error>;

    /// Makes `count` clocks, at most 64, in which the host drives the low bits of `bits`, the least significant first.
    /// Where it fails, the error says how many clocks were made before.
    fn drive_bits(&mut self, bits: u64, count: u32) -> Result<(), Broken<Self::Error>> {
        for made in 0..count {
            self.drive(bits >> made & 1 == 1).map_err(|error| Broken { made, error })?;
        }
        Ok(())
    }

    /// Makes `count` clocks in which the host doesn't drive SWDIO, and nobody looks at it.
    fn release_for(&mut self, count: u32) -> Result<(), Self::Error> {
        for _ in 0..count {
            self.release()?;
        }
        Ok(())
    }

    /// Makes `count` clocks, at most 33, in which the host doesn't drive SWDIO. Returns its levels, the first in time
    /// least significant. Bits above these `count` are ignored.
    fn sample_bits(&mut self, count: u32) -> Result<u64, Self::Error> {
        let mut bits = 0;
        for place in 0..count {
            bits |= u64::from(self.sample()?) << place;
        }
        Ok(bits)
    }

    /// Makes what is queued. A host calls it at the end of each run.
    fn flush(&mut self) -> Result<(), Self::Error> {
        Ok(())
    }
}

impl<L: Line + ?Sized> Line for &mut L {
    type Error = L::Error;

    fn drive(&mut self, bit: bool) -> Result<(), L::Error> {
        (**self).drive(bit)
    }

    fn release(&mut self) -> Result<(), L::Error> {
        (**self).release()
    }

    fn sample(&mut self) -> Result<bool, L::Error> {
        (**self).sample()
    }

    fn drive_bits(&mut self, bits: u64, count: u32) -> Result<(), Broken<L::Error>> {
        (**self).drive_bits(bits, count)
    }

    fn release_for(&mut self, count: u32) -> Result<(), L::Error> {
        (**self).release_for(count)
    }

    fn sample_bits(&mut self, count: u32) -> Result<u64, L::Error> {
        (**self).sample_bits(count)
    }

    fn flush(&mut self) -> Result<(), L::Error> {
        (**self).flush()
    }
}
