//! The simulated target.

use crate::{ffi, Line};
use core::convert::Infallible;

/// In place of a bit: the host doesn't drive, or the transfer that is pending has to be made before.
const RELEASED: u8 = 2;
const WANTS: u8 = 2;

/// Kinds of transfers.
const READ: u8 = 1;
const WRITE: u8 = 2;

/// What came of a transfer.
const VALUE: u8 = 2;
const WRITTEN: u8 = 3;
const BUS_FAULT: u8 = 4;

/// A transfer was neither read nor written. The target answers it as a bus error.
#[derive(Clone, Copy, Debug, PartialEq, Eq)]
pub struct BusError;

impl core::fmt::Display for BusError {
    fn fmt(&self, f: &mut core::fmt::Formatter<'_>) -> core::fmt::Result {
        f.write_str("bus error")
    }
}

impl core::error::Error for BusError {}

/// What is behind a simulated target. An address may be no multiple of 4, as the host wrote it.
pub trait Bus {
    /// Reads the word at an address.
    fn read(&mut self, addr: u32) -> Result<u32, BusError>;

    /// Writes a word at an address.
    fn write(&mut self, addr: u32, word: u32) -> Result<(), BusError>;
}

impl<B: Bus + ?Sized> Bus for &mut B {
    fn read(&mut self, addr: u32) -> Result<u32, BusError> {
        (**self).read(addr)
    }

    fn write(&mut self, addr: u32, word: u32) -> Result<(), BusError> {
        (**self).write(addr, word)
    }
}

/// A simulated target, clock by clock: a debug port, whose DPIDR is 2ba01477, with a MEM-AP for words over a bus.
///
/// It is a [`Line`], so a [`Host`](crate::Host) runs over it. A transfer is made on the bus in the clock that decides
/// it.
#[derive(Clone, Debug)]
pub struct Target<B> {
    bus: B,
    target: ffi::Target,
}

impl<B: Bus> Target<B> {
    /// Makes a target that had no line reset yet. TAR wraps at the end of a kilobyte, and a read whose value is unknown
    /// gives 0.
    pub fn new(bus: B) -> Target<B> {
        Target::with_quirks(bus, true, 0)
    }

    /// Makes a target that had no line reset yet. `wraps` says whether TAR wraps at the end of a kilobyte, else it
    /// carries on; `filler` is what a read gives whose value is unknown.
    pub fn with_quirks(bus: B, wraps: bool, filler: u32) -> Target<B> {
        Target { bus, target: ffi::Target::new(wraps, filler) }
    }

    /// Makes one clock: `drive` is the bit that the host drives, `None` where it doesn't. Returns the bit on the line:
    /// the target's where it drives, else the host's, and 1 where nobody drives.
    pub fn cycle(&mut self, drive: Option<bool>) -> bool {
        let drive = drive.map_or(RELEASED, u8::from);
        let mut level = self.target.cycle(drive);
        if level == WANTS {
            self.transfer();
            level = self.target.cycle(drive);
        }
        assert!(level < WANTS, "a target takes every bit");
        self.transfer();
        level == 1
    }

    /// Makes the target busy, or ends that: while it is, a request that may get WAIT gets WAIT in place of OK, and
    /// CTRL/STAT shows no power that it didn't show before.
    pub fn hold(&mut self, busy: bool) {
        let held = self.target.hold(busy);
        assert!(held, "a target can be held at any time");
    }

    /// How many clocks were made.
    pub fn cycles(&self) -> u64 {
        self.target.cycles
    }

    /// The bus.
    pub fn bus(&self) -> &B {
        &self.bus
    }

    /// The bus, for changes from its own side.
    pub fn bus_mut(&mut self) -> &mut B {
        &mut self.bus
    }

    /// Gives the bus back.
    pub fn into_bus(self) -> B {
        self.bus
    }

    /// Makes the transfer that is pending, where one is.
    fn transfer(&mut self) {
        let wanted = self.target.wants();
        let (kind, word) = match wanted.kind {
            READ => self.bus.read(wanted.addr).map_or((BUS_FAULT, 0), |word| (VALUE, word)),
            WRITE => self.bus.write(wanted.addr, wanted.word).map_or((BUS_FAULT, 0), |()| (WRITTEN, 0)),
            _ => return,
        };
        let settled = self.target.settle(kind, word);
        assert!(settled, "a transfer that is pending takes its outcome");
    }
}

impl<B: Bus> Line for Target<B> {
    type Error = Infallible;

    fn drive(&mut self, bit: bool) -> Result<(), Infallible> {
        self.cycle(Some(bit));
        Ok(())
    }

    fn release(&mut self) -> Result<(), Infallible> {
        self.cycle(None);
        Ok(())
    }

    fn sample(&mut self) -> Result<bool, Infallible> {
        Ok(self.cycle(None))
    }
}
