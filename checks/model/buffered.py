"""A serial wire debug port with a write buffer, clock by clock: the target of target.py behind the pins of line.py.

What such a port does that the target without a buffer doesn't, from memory of IHI 0031, B4 (write buffering) and B2
(WDATAERR):

1. OK to a write, except to one of ABORT, says that the port accepted it, and nothing of earlier writes. An AP write
   waits in the buffer until the access port takes it. The access port has one transfer in progress at a time.
2. A write in the buffer is discarded, and WDATAERR is set, where a transfer before it is a bus error, and where DPIDR
   or CTRL/STAT is read or ABORT is written, since these can't wait. A write that the access port has taken ends,
   whatever is asked.
3. An AP write is answered WAIT only while the buffer is full. Every other request, except the three of rule 2, is
   answered WAIT until the buffer is empty and nothing is in progress.

`Choices` has what these rules leave to a port. Wants checks/ in sys.path.
"""

from __future__ import annotations

import random
from dataclasses import dataclass
from typing import Callable, Optional

from .bits import OK, Request, WAIT, word_of
from .line import MarkedPins
from .target import Mark, Memory, Quirks, Target

Span = tuple[int, int]  # the least and the most of a number of clocks
FAULTS = ("at once", "to writes", "behind")
DRW, DRW_READ = 12, Request(True, True, 12)


@dataclass(frozen=True)
class Choices:
    """What a port chooses. Numbers of clocks are drawn anew for each write.

    `fault` says when FAULT is the answer while a flag is set and the port isn't idle: `at once`; `to writes`, where
    every other request is answered WAIT until the port is idle; `behind`, where AP writes are, too.
    """

    depth: int = 1  # writes that wait behind the transfer in progress: 1 to 3
    start: Span = (0, 0)  # clocks until the access port takes a write, once it has nothing in progress
    transfer: Span = (0, 60)  # clocks of a transfer
    register: Span = (0, 6)  # clocks of a write of CSW or TAR
    fault: str = "at once"  # one of FAULTS
    any_flag: bool = False  # WDATAERR of damaged data, too, discards writes in the buffer, not only a bus error before
    dp_writes: bool = False  # writes of SELECT and CTRL/STAT wait in the buffer, too


@dataclass(slots=True)
class Held:
    """A write in the buffer, or what is in progress, with the clocks until it is taken or ends."""

    request: Request
    raw: int
    left: int = 0


class BufferedTarget(Target):
    """The target of target.py with a write buffer. `tick` is a clock of its access port."""

    def __init__(self, memory: Memory, chance: random.Random, choices: Choices, quirks: Quirks = Quirks()) -> None:
        super().__init__(memory, quirks)
        self.chance, self.choices = chance, choices
        self.held: list[Held] = []
        self.going: Optional[Held] = None
        self.discarded = 0  # writes so far

    # -- the access port

    def tick(self) -> None:
        if self.going is not None:
            self.going.left -= 1
            if self.going.left > 0:
                return
            ended, self.going = self.going, None
            self.carry_out(ended)
        if self.held:
            self.take()

    def settle(self) -> None:
        """Lets clocks pass until nothing is held or in progress."""
        while not self.is_idle():
            self.tick()

    def is_idle(self) -> bool:
        return self.going is None and not self.held

    def stops(self) -> bool:
        """Whether a flag discards what is in the buffer."""
        return self.stickyerr or (self.choices.any_flag and self.wdataerr)

    def take(self) -> None:
        """Takes writes from the buffer, where nothing is in progress."""
        while self.going is None and self.held:
            if self.stops():
                self.discard()
                return
            if self.held[0].left > 0:
                self.held[0].left -= 1
                return
            self.begin(self.held.pop(0))

    def begin(self, held: Held) -> None:
        transfers = held.request.ap and held.request.addr == DRW
        held.left = self.chance.randint(*(self.choices.transfer if transfers else self.choices.register))
        if held.left > 0:
            self.going = held
        else:
            self.carry_out(held)

    def carry_out(self, held: Held) -> None:
        if held.request == DRW_READ:
            super()._accept(True, 0)
        else:
            super().write(held.request, held.raw)
        if self.stickyerr:
            self.discard()

    def discard(self) -> None:
        """Discards the writes in the buffer."""
        self.wdataerr = self.wdataerr or bool(self.held)
        self.discarded += len(self.held)
        self.held.clear()

    # -- the debug port

    def answer(self, q: Request, wait: bool) -> Optional[int]:
        ack = super().answer(q, wait)
        if ack == OK and self.exempt(q):
            self.discard()
        return ack

    def _answer_common(self, q: Request, wait: bool) -> int:
        return WAIT if self.must_wait(q) else super()._answer_common(q, wait)

    def must_wait(self, q: Request) -> bool:
        is_write = q.ap and not q.read
        if self.stickyerr or self.wdataerr:
            waiting = {"at once": (), "to writes": (False,), "behind": (False, True)}[self.choices.fault]
            return is_write in waiting and not self.is_idle()
        return len(self.held) >= self.choices.depth if is_write else not self.is_idle()

    def _accept(self, read: bool, word: int) -> None:
        if read:
            self.begin(Held(DRW_READ, 0))
        else:
            super()._accept(False, word)

    def write(self, q: Request, raw: int) -> None:
        waits = self.in_mem_ap() if q.ap else self.choices.dp_writes and q.addr in (4, 8)
        if word_of(raw) is None or not waits:
            super().write(q, raw)
            return
        self.held.append(Held(q, raw, self.chance.randint(*self.choices.start)))
        if self.stops():  # by a bus error between the acknowledgement and the data
            self.discard()
        else:
            self.take()


class Line(MarkedPins):
    """The pins of a BufferedTarget, for so many clocks at most. `marks` has the mark of a request by its number, from 1
    on."""

    def __init__(self, target: BufferedTarget, marks: Callable[[int], Mark], most: int) -> None:
        super().__init__(target, marks)
        self.port, self.left = target, most

    def clock(self, level: int) -> None:
        self.left -= 1
        if not self.left:
            raise TimeoutError("the session doesn't end")
        self.port.tick()
        super().clock(level)
