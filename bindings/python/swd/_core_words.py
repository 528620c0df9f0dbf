"""The registers of a core's debug, by the Armv6-M, Armv7-M and Armv8-M Architecture Reference Manuals."""
from dataclasses import dataclass
from typing import Dict, Tuple

from ._errors import fail

CPUID, AIRCR, DFSR = 0xE000ED00, 0xE000ED0C, 0xE000ED30
DHCSR, DCRSR, DCRDR, DEMCR = 0xE000EDF0, 0xE000EDF4, 0xE000EDF8, 0xE000EDFC
FP_CTRL, FP_COMP0 = 0xE0002000, 0xE0002008

# DHCSR. A write needs the key in its upper half.
DBGKEY, C_DEBUGEN, C_HALT, C_STEP, C_MASKINTS = 0xA05F_0000, 1 << 0, 1 << 1, 1 << 2, 1 << 3
S_REGRDY, S_HALT, S_SLEEP, S_LOCKUP, S_RESET_ST = 1 << 16, 1 << 17, 1 << 18, 1 << 19, 1 << 25
# DCRSR: the register whose number is in the low bits is written.
REGWNR = 1 << 16
# DEMCR: a reset, a fault that escalates, halt the core.
VC_CORERESET, VC_HARDERR = 1 << 0, 1 << 10
# AIRCR: the key, and the request of a system reset.
VECTKEY, SYSRESETREQ = 0x05FA_0000, 1 << 2

# The numbers in DCRSR of the registers that are a word.
_WORDS: Dict[str, int] = {
    **{f"r{number}": number for number in range(13)},
    "sp": 13, "lr": 14, "pc": 15, "xpsr": 16, "msp": 17, "psp": 18,
    "msp_ns": 24, "psp_ns": 25, "msp_s": 26, "psp_s": 27,
    "msplim_s": 28, "psplim_s": 29, "msplim_ns": 30, "psplim_ns": 31,
    "fpscr": 33, **{f"s{number}": 64 + number for number in range(32)},
}
# The bits in a word of those that share one, and the numbers of these words.
_PARTS = {"primask": 0, "basepri": 8, "faultmask": 16, "control": 24}
_SHARED = {"": 20, "_s": 34, "_ns": 35}

# The registers that each core has.
GENERAL = (*(f"r{number}" for number in range(13)), "sp", "lr", "pc", "xpsr", "msp", "psp", "primask", "control")


def place_of(name: str) -> Tuple[int, int, int]:
    """Returns where a register is: its number in DCRSR, the lowest of its bits there, and their mask."""
    if name in _WORDS:
        return _WORDS[name], 0, 0xFFFF_FFFF
    for end, number in _SHARED.items():
        part = name[:len(name) - len(end)]
        if name.endswith(end) and part in _PARTS:
            return number, _PARTS[part], 0xFF
    fail("name", name, "that of a register, such as 'r0', 'pc', 'xpsr', 'msp', 'primask', 's0' or 'msplim_s'")


# The cores of Arm, by their part numbers in CPUID.
_PARTS_OF_ARM = {
    0xC20: "Cortex-M0", 0xC21: "Cortex-M1", 0xC23: "Cortex-M3", 0xC24: "Cortex-M4", 0xC27: "Cortex-M7",
    0xC60: "Cortex-M0+", 0xD20: "Cortex-M23", 0xD21: "Cortex-M33", 0xD22: "Cortex-M55", 0xD23: "Cortex-M85",
    0xD24: "Cortex-M52", 0xD31: "Cortex-M35P",
}
_ARM = 0x41


@dataclass(frozen=True)
class CoreIdentification:
    """CPUID, the identification of a core."""

    word: int

    @property
    def implementer(self) -> int:
        """The code of its implementer: 0x41 is Arm."""
        return self.word >> 24

    @property
    def part(self) -> int:
        """The part number that its implementer gave it."""
        return self.word >> 4 & 0xFFF

    @property
    def version(self) -> str:
        """Its revision, as `r0p1`."""
        return f"r{self.word >> 20 & 0xF}p{self.word & 0xF}"

    @property
    def name(self) -> str:
        """Its name, where it is a core of Arm whose part number is known; else its codes."""
        known = _PARTS_OF_ARM.get(self.part) if self.implementer == _ARM else None
        return known or f"part {self.part:03x} of implementer {self.implementer:02x}"

    def __str__(self) -> str:
        return f"cpuid {self.word:08x}: {self.name} {self.version}"


def comparators(fp_ctrl: int) -> int:
    """Returns how many comparators for instructions FP_CTRL says that there are."""
    return fp_ctrl >> 4 & 0xF | fp_ctrl >> 8 & 0x70


def comparator(fp_ctrl: int, addr: int) -> int:
    """Returns the word of a comparator that stops at an instruction. FP_CTRL says by its REV which form it has."""
    revision = fp_ctrl >> 28
    if revision == 1:
        return addr | 1
    if revision != 0:
        fail("FP_CTRL.REV", revision, "0 or 1")
    if addr >= 0x2000_0000:
        fail("addr", addr, "below 0x20000000: version 1 of the FPB stops nowhere else. Write a BKPT, 0xbe00, there")
    # REPLACE: the halfword of the word at COMP in which the instruction begins.
    return (2 if addr & 2 else 1) << 30 | addr & 0x1FFF_FFFC | 1
