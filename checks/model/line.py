"""The pins of a target of target.py, clock by clock: those of checks/checked, with a mark for each request.

Wants checks/ in sys.path.
"""

from __future__ import annotations

from dataclasses import dataclass, field
from typing import Callable, Optional

from checked.pins import Pins

from .bits import FAULT, OK, Request, WAIT, WORD, data_bits
from .target import CLEAN, Mark, Memory, Target

ENDS = {OK: "ok", WAIT: "wait", FAULT: "fault"}


@dataclass(frozen=True, slots=True)
class Effect:
    """A transfer at the bus: the word that it read or wrote, or that a bus error refused."""

    read: bool
    addr: int
    word: int
    done: bool


class Bus(Memory):
    """A memory that keeps the transfers that reached it, also those that were bus errors."""

    __slots__ = ("effects",)

    def __init__(self, words: dict[int, int], room: int = 1 << 30) -> None:
        super().__init__(words, room)
        self.effects: list[Effect] = []

    def transfer(self, read: bool, addr: int, word: int = 0) -> Optional[int]:
        got = super().transfer(read, addr, word)
        self.effects.append(Effect(read, addr, word if got is None else got, got is not None))
        return got


@dataclass
class Facing:
    """A target as Pins ask it."""

    target: Target
    awaits: bool = False  # the data phase of a write, or a line reset
    bug: Optional[str] = field(default=None, init=False)

    def ask(self, request: tuple[str, int, str], busy: bool) -> Optional[str]:
        return ENDS.get(self.target.answer(asked(request), busy))

    def read(self, request: tuple[str, int, str], _busy: bool) -> int:
        return self.target.value(asked(request))

    def write(self, request: tuple[str, int, str], word: Optional[int], sent: int) -> None:
        self.target.write(asked(request), data_bits(sent & WORD) ^ (word is None) << 32)

    def line_reset(self) -> None:
        self.target.reset = "fresh"
        self.target.wdataerr |= self.awaits
        self.awaits = False


def asked(request: tuple[str, int, str]) -> Request:
    port, addr, direction = request
    return Request(port == "ap", direction == "read", addr)


class MarkedPins(Pins):
    """The pins of a target. `marks` has the mark of a request by its number, from 1 on."""

    def __init__(self, target: Target, marks: Callable[[int], Mark]) -> None:
        super().__init__(Facing(target), marks)
        self.mark = CLEAN

    def answer(self, mark: Mark) -> None:
        self.mark = mark
        if mark.kind == "deaf":
            return
        super().answer(mark.kind == "wait")
        if mark.kind == "mute" and self.driven:
            self.driven[1 + mark.place] ^= 1
        if mark.kind == "flip" and len(self.driven) > 5:
            self.driven[4 + mark.place] ^= 1

    def written(self) -> None:
        if self.mark.kind == "flip":
            self.bits[self.mark.place] ^= 1
        super().written()
