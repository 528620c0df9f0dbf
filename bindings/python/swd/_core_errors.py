"""What a core's calls raise. Each message says what to do."""
from typing import Any, Optional, Tuple

from ._errors import SwdError


class CoreError(SwdError):
    """The base of what the calls of a `Core` raise of the core. `dhcsr` is the word of DHCSR that it was seen by, or
    None."""

    _hint = ""

    def __init__(self, message: str, dhcsr: Optional[int]) -> None:
        seen = "" if dhcsr is None else f" (DHCSR {dhcsr:08x})"
        super().__init__(f"{message}{seen}{self._hint}")
        self.message, self.dhcsr = message, dhcsr

    def __reduce__(self) -> Tuple[Any, ...]:
        return type(self), (self.message, self.dhcsr)


class DebugLocked(CoreError):
    """The core can't be debugged: its registers are bus errors, or DHCSR.C_DEBUGEN can't be set."""

    _hint = (": debug of the core is locked, or no core is there. Unlock it as the chip's manual says, which mostly "
             "erases its flash")


class CoreNotHalted(CoreError):
    """The core isn't halted, and the call needs that."""


class CoreDidNotHalt(CoreError):
    """The core runs, and wasn't halted at the last read; or a reset didn't come or didn't end."""


class CoreAsleep(CoreError):
    """The core is asleep, and didn't halt."""


class CoreLockedUp(CoreError):
    """The core is locked up, and didn't halt."""


class RegisterNotReady(CoreError):
    """The core is halted, and didn't transfer a register."""


class NoBreakpointLeft(CoreError):
    """Each comparator of the FPB is used."""
