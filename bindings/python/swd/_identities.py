"""What a target says of itself while it is opened."""
from dataclasses import dataclass, replace
from typing import Any, Callable, List, Optional

from ._cues import DATA_BITS
from ._library import ASK, TAKE

# The requests that read DPIDR and CTRL/STAT.
_DPIDR, _CTRL_STAT = 0xA5, 0x8D
# The bits of CTRL/STAT that request a power. The bit above each acknowledges it.
_POWERS = {28: "debug", 30: "system"}
_OK = 1


@dataclass(frozen=True)
class Identification:
    """DPIDR, the identification of a debug port, by the fields of IHI 0031, "DPIDR, Debug Port Identification
    register"."""

    word: int

    @property
    def designer(self) -> int:
        """The JEP106 code of its designer: 0x23b is Arm."""
        return self.word >> 1 & 0x7FF

    @property
    def version(self) -> int:
        """The version of the debug port architecture that it implements: 1 or 2."""
        return self.word >> 12 & 0xF

    @property
    def is_minimal(self) -> bool:
        """Whether it is a minimal debug port, without pushed operations."""
        return bool(self.word >> 16 & 1)

    @property
    def part(self) -> int:
        """The part number that its designer gave it."""
        return self.word >> 20 & 0xFF

    @property
    def revision(self) -> int:
        """The revision that its designer gave it."""
        return self.word >> 28

    def __str__(self) -> str:
        minimal = ", minimal" if self.is_minimal else ""
        fields = f"designer {self.designer:03x}, part {self.part:02x}, version {self.version}, revision {self.revision}"
        return f"dpidr {self.word:08x}: {fields}{minimal}"


@dataclass(frozen=True)
class Opening:
    """What was read of a target while it was opened, as far as that came: also where the opening failed. Each word is
    one that was read with right parity: DPIDR, and the last of CTRL/STAT."""

    dpidr: Optional[Identification] = None
    ctrl_stat: Optional[int] = None

    @property
    def has_debug_power(self) -> bool:
        """Whether the target acknowledged debug power."""
        return "debug" in self._powers(2)

    @property
    def has_system_power(self) -> bool:
        """Whether the target acknowledged system power."""
        return "system" in self._powers(2)

    def _powers(self, flag: int, mask: int = 2) -> List[str]:
        """The powers of which the bits under `mask`, 1 for the request and 2 for its acknowledgement, are these."""
        return [name for bit, name in _POWERS.items() if (self.ctrl_stat or 0) >> bit & mask == flag]

    def __str__(self) -> str:
        if self.dpidr is None:
            return "DPIDR was never read with right parity"
        late = self._powers(1, 3)
        powers = f", and CTRL/STAT acknowledged no {' and no '.join(late)} power" if late else ""
        return f"DPIDR was {self.dpidr.word:08x}{powers}"


class Watch:
    """Performs the cues of an opening, and keeps what the target said of itself."""

    def __init__(self, perform: Callable[[int, Any], int]) -> None:
        self._perform, self._request, self._is_answered = perform, 0, False
        self.opening = Opening()

    def perform(self, kind: int, cue: Any) -> int:
        """Performs a cue, and returns the reply."""
        reply = self._perform(kind, cue)
        if kind == ASK:
            self._request = cue.request
            self._is_answered |= reply == _OK
        elif kind == TAKE and bin(reply).count("1") % 2 == 0:
            word = reply & (1 << DATA_BITS - 1) - 1
            if self._request == _DPIDR:
                self.opening = replace(self.opening, dpidr=Identification(word))
            elif self._request == _CTRL_STAT:
                self.opening = replace(self.opening, ctrl_stat=word)
        return reply

    def __str__(self) -> str:
        """Says how far an opening came, for messages."""
        return str(self.opening) if self._is_answered else "no request was answered OK"
