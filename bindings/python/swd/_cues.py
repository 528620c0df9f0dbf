"""Cues: what a run has to send next, and as which sequences of clocks."""
from dataclasses import dataclass
from typing import Any, Callable, ClassVar, Dict, Iterator, List, Tuple, Union

from ._library import ASK, GIVE, LEAD, PASS, TAKE

_SWITCH_BITS = 0xE79E
# The bits of a data phase: a word and its parity.
DATA_BITS = 33
# The clocks that a call makes at most: as many as a sequence of a probe may have.
_MOST_CLOCKS = 64


@dataclass(frozen=True)
class Drive:
    """In each of `count` clocks, at most 64, the host drives one of the low bits of `bits`, the least significant one
    first."""

    bits: int
    count: int


@dataclass(frozen=True)
class Release:
    """In each of `count` clocks, at most 64, the host releases SWDIO, and ignores its level."""

    count: int


@dataclass(frozen=True)
class Sample:
    """In each of `count` clocks, at most 33, the host releases SWDIO, and samples it: these bits are the reply to the
    cue, the first in time least significant."""

    count: int


Sequence = Union[Drive, Release, Sample]


def _pieces(count: int) -> Iterator[int]:
    """Yields how many clocks each call makes, so that they come to so many."""
    for made in range(0, count, _MOST_CLOCKS):
        yield min(count - made, _MOST_CLOCKS)


class Performer:
    """Performs cues by calls of several clocks each."""

    def __init__(
        self, drive: Callable[[int, int], object], release: Callable[[int], object], sample: Callable[[int], int],
    ) -> None:
        self.drive, self.release, self.sample = drive, release, sample

    def perform(self, kind: int, cue: Any) -> int:
        """Performs a cue of this kind, which isn't at rest, with the fields of the library's struct. Returns the reply.
        Nothing else says which clocks a cue is made of."""
        if kind == ASK:
            self.drive(cue.request, 8)
            self.release(1)
            return self.sample(3)
        if kind == TAKE:
            reply = self.sample(DATA_BITS)
            self.release(1)
            return reply
        if kind == LEAD:
            self._lead(cue)
        else:
            self.release(1)
            if kind == GIVE:
                self.drive(cue.bits, DATA_BITS)
        return 0

    def _lead(self, cue: Any) -> None:
        undriven = min(cue.undriven, cue.ones)
        for count in _pieces(undriven):
            self.release(count)
        self._drive_ones(cue.ones - undriven)
        if cue.with_switch:
            self.drive(_SWITCH_BITS, 16)
            self._drive_ones(cue.ones)
        for count in _pieces(cue.zeros):
            self.drive(0, count)

    def _drive_ones(self, ones: int) -> None:
        for count in _pieces(ones):
            self.drive((1 << count) - 1, count)


class _Cue:
    """What cues share."""

    _kind: ClassVar[int]

    def sequences(self) -> Tuple[Sequence, ...]:
        """Returns the sequences of clocks of this cue, in order."""
        steps: List[Sequence] = []

        def sample(count: int) -> int:
            steps.append(Sample(count))
            return 0

        performer = Performer(
            lambda bits, count: steps.append(Drive(bits, count)), lambda count: steps.append(Release(count)), sample,
        )
        performer.perform(self._kind, self)
        return tuple(steps)


@dataclass(frozen=True)
class Lead(_Cue):
    """`ones` ones, of which the first `undriven` are released, since the target may be driving; with `switch` the
    sixteen bits of the switch from JTAG, and the ones again; then `zeros` zeros. A line reset, or idle cycles."""

    _kind = LEAD
    ones: int
    undriven: int
    switch: bool
    zeros: int

    @property
    def with_switch(self) -> bool:
        """`switch`, by the name that the library's struct has for it."""
        return self.switch


@dataclass(frozen=True)
class Ask(_Cue):
    """The eight bits of a request, and a turnaround. The reply is the acknowledgement: three bits."""

    _kind = ASK
    request: int


@dataclass(frozen=True)
class Take(_Cue):
    """A read's data phase, and a turnaround. The reply is the 33 bits of the data phase."""

    _kind = TAKE


@dataclass(frozen=True)
class Give(_Cue):
    """A turnaround, and the 33 bits of a write's data phase. There is no reply."""

    _kind = GIVE
    bits: int


@dataclass(frozen=True)
class Pass(_Cue):
    """A turnaround, after WAIT or FAULT. There is no reply."""

    _kind = PASS


Cue = Union[Lead, Ask, Take, Give, Pass]
_CUES: Dict[int, Callable[[Any], Cue]] = {
    LEAD: lambda cue: Lead(cue.ones, cue.undriven, bool(cue.with_switch), cue.zeros),
    ASK: lambda cue: Ask(cue.request),
    TAKE: lambda cue: Take(),
    GIVE: lambda cue: Give(cue.bits),
    PASS: lambda cue: Pass(),
}


def cue_of(struct: Any) -> Cue:
    """Returns the cue of a struct, which isn't at rest."""
    return _CUES[struct.kind](struct)
