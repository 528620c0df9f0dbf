//! What a target says of itself while it is opened.

use core::fmt;

/// DPIDR, the identification of a debug port, by the fields of IHI 0031, "DPIDR, Debug Port Identification register".
#[derive(Clone, Copy, Debug, PartialEq, Eq)]
pub struct Identification {
    /// The whole register.
    pub word: u32,
}

impl Identification {
    /// The JEP106 code of its designer: 0x23b is Arm.
    #[must_use]
    pub const fn designer(self) -> u32 {
        self.word >> 1 & 0x7ff
    }

    /// The version of the debug port architecture that it implements: 1 or 2.
    #[must_use]
    pub const fn version(self) -> u32 {
        self.word >> 12 & 0xf
    }

    /// Whether it is a minimal debug port, without pushed operations.
    #[must_use]
    pub const fn is_minimal(self) -> bool {
        self.word >> 16 & 1 == 1
    }

    /// The part number that its designer gave it.
    #[must_use]
    pub const fn part(self) -> u32 {
        self.word >> 20 & 0xff
    }

    /// The revision that its designer gave it.
    #[must_use]
    pub const fn revision(self) -> u32 {
        self.word >> 28
    }
}

impl fmt::Display for Identification {
    fn fmt(&self, f: &mut fmt::Formatter<'_>) -> fmt::Result {
        let (designer, part) = (self.designer(), self.part());
        write!(f, "dpidr {:08x}: designer {designer:03x}, part {part:02x}", self.word)?;
        write!(f, ", version {}, revision {}", self.version(), self.revision())?;
        f.write_str(if self.is_minimal() { ", minimal" } else { "" })
    }
}

/// The flags of CTRL/STAT that request power, each below the one that acknowledges it: CDBGPWRUPREQ and CSYSPWRUPREQ.
const DEBUG_REQUEST: u32 = 1 << 28;
const SYSTEM_REQUEST: u32 = 1 << 30;

/// What was read of a target while it was opened, as far as that came: also where the opening failed.
#[derive(Clone, Copy, Debug, Default, PartialEq, Eq)]
pub struct Opening {
    /// DPIDR, if it was read with right parity.
    pub dpidr: Option<Identification>,
    /// The last word of CTRL/STAT that was read with right parity, if any was.
    pub ctrl_stat: Option<u32>,
}

impl Opening {
    /// Whether the target acknowledged debug power.
    #[must_use]
    pub const fn has_debug_power(self) -> bool {
        self.has(DEBUG_REQUEST << 1)
    }

    /// Whether the target acknowledged system power.
    #[must_use]
    pub const fn has_system_power(self) -> bool {
        self.has(SYSTEM_REQUEST << 1)
    }

    const fn has(self, flag: u32) -> bool {
        match self.ctrl_stat {
            Some(word) => word & flag != 0,
            None => false,
        }
    }

    const fn lacks(self, request: u32) -> bool {
        self.has(request) && !self.has(request << 1)
    }
}

impl fmt::Display for Opening {
    fn fmt(&self, f: &mut fmt::Formatter<'_>) -> fmt::Result {
        let Some(dpidr) = self.dpidr else {
            return f.write_str("DPIDR was never read with right parity");
        };
        write!(f, "DPIDR was {:08x}", dpidr.word)?;
        f.write_str(match (self.lacks(DEBUG_REQUEST), self.lacks(SYSTEM_REQUEST)) {
            (true, true) => ", and CTRL/STAT acknowledged no debug and no system power",
            (true, false) => ", and CTRL/STAT acknowledged no debug power",
            (false, true) => ", and CTRL/STAT acknowledged no system power",
            (false, false) => "",
        })
    }
}
