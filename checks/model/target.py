"""The simulated target by requests, with a plan of marks: an independent model of the port and its memory."""

from __future__ import annotations

from dataclasses import dataclass
from typing import Optional, Protocol

from .bits import FAULT, OK, Request, SILENT, WAIT, WORD, data_bits, word_of

# ------------------------------------------------------------------- memory


@dataclass(frozen=True, slots=True)
class Transfer:
    read: bool
    addr: int
    word: int

    def __str__(self) -> str:
        return f"{'r' if self.read else 'w'} {self.addr:08x} {self.word:08x}"


class Memory:
    """Words and the log of their transfers, which holds `room` of them."""

    __slots__ = ("words", "log", "room")

    def __init__(self, words: dict[int, int], room: int, log: Optional[list[Transfer]] = None) -> None:
        self.words = words
        self.room = room
        self.log: list[Transfer] = log if log is not None else []

    @staticmethod
    def new(base: int, words: int, room: int) -> "Memory":
        return Memory({base + 4 * i: 0 for i in range(words)}, room)

    def fails(self, addr: int) -> bool:
        return addr not in self.words or len(self.log) >= self.room

    def transfer(self, read: bool, addr: int, word: int = 0) -> Optional[int]:
        """The word read or written, or None for a bus error, which changes nothing."""
        if self.fails(addr):
            return None
        if read:
            word = self.words[addr]
        else:
            self.words[addr] = word
        self.log.append(Transfer(read, addr, word))
        return word


# -------------------------------------------------------------------- marks


@dataclass(frozen=True, slots=True)
class Mark:
    kind: str = "clean"  # clean, wait, flip, deaf, mute
    place: int = 0

    def legal(self) -> bool:
        return self.place < {"flip": 33, "mute": 3}.get(self.kind, 1)

    def is_lost(self) -> bool:
        return self.kind in ("deaf", "mute")

    def is_disturbed(self) -> bool:
        return self.kind in ("wait", "flip")


CLEAN, WAITS, DEAF = Mark(), Mark("wait"), Mark("deaf")


# ------------------------------------------------------------------- due

NOTHING, TAKE, GIVE, PASS, DUE_LOST = "Nothing", "Take", "Give", "Pass", "Lost"


class Wire(Protocol):
    def due(self) -> str: ...
    def lead(self, ones: int, switch: bool, zeros: int) -> None: ...
    def ask(self, q: Request) -> int: ...
    def take(self) -> int: ...
    def give(self, value: int) -> None: ...
    def pass_(self) -> None: ...


def check_lead(due: str, ones: int, switch: bool, zeros: int) -> None:
    """The caller's condition of `lead`."""
    assert ones == 0 or ones >= 50
    assert ones == 0 or zeros >= 2
    assert not switch or ones != 0
    if due != NOTHING:
        assert ones >= 100 and not switch


# ------------------------------------------------------- (a) the one target


@dataclass(slots=True)
class Quirks:
    wrap: bool = True
    late: bool = False
    filler: int = 0xA5A5A5A5


DPIDR = Request(False, True, 0)
ABORT = Request(False, False, 0)
DP4_READ = Request(False, True, 4)
RESEND = Request(False, True, 8)
RDBUFF = Request(False, True, 12)
SIMULATED_ID = 0x2BA01477


class Target:
    """Registers of the simulated target, with its choices made by `Quirks`."""

    def __init__(self, memory: Memory, quirks: Quirks) -> None:
        self.memory = memory
        self.quirks = quirks
        self.reset = "none"  # none, fresh, live
        self.stickyerr = False
        self.wdataerr = False
        self.readok = False
        self.power28 = False
        self.power30 = False
        self.power_up = "unseen"  # unseen, late, seen
        self.select = 0
        self.single = False  # CSW AddrInc 01
        self.upper = 0  # CSW [30:24]
        self.tar = 0
        self.buffer: Optional[int] = None  # None is unknown
        self.last: Optional[int] = None
        self.pending: Optional[tuple[bool, int]] = None  # read, word

    # -- what is asked

    def dpbank(self) -> int:
        return self.select & 0xF

    def in_mem_ap(self) -> bool:
        return self.select >> 24 == 0 and (self.select >> 4) & 0xF == 0

    def exempt(self, q: Request) -> bool:
        return q == DPIDR or q == ABORT or (q == DP4_READ and self.dpbank() == 0)

    def answer(self, q: Request, wait: bool) -> Optional[int]:
        """The acknowledgement driven, or None; with everything that it changes."""
        if self.reset == "none" or (self.reset == "fresh" and q != DPIDR):
            return None
        if self.exempt(q):
            ack = OK
            if q == DP4_READ and self.power_up != "seen":
                self.power_up = "late" if wait else "seen"
        else:
            ack = self._answer_common(q, wait)
            if ack == OK and q.ap:
                self.power_up = "seen"
        if q.read and (q.ap or q == RDBUFF):
            self.readok = ack == OK
        return ack

    def _answer_common(self, q: Request, wait: bool) -> int:
        unpowered = q.ap and not (self.power28 and self.power_up != "late")
        fault = self.stickyerr or self.wdataerr or unpowered
        if not fault and self.pending is not None and self.memory.fails(self.tar):
            fault = True
        if wait and not fault:
            return WAIT
        self.complete()
        if unpowered:
            self.stickyerr = True
        return FAULT if fault else OK

    def complete(self) -> None:
        """Lets a pending transfer take effect."""
        if self.pending is None:
            return
        read, word = self.pending
        self.pending = None
        got = self.memory.transfer(read, self.tar, word)
        if got is None:
            self.stickyerr = True
            self.buffer = None  # and TAR stays as it was
            return
        if read:
            self.buffer = got
        if self.single:
            grown = self.tar + 4
            if grown & 0x3FF == 0 and self.quirks.wrap:
                grown = self.tar & ~0x3FF
            self.tar = grown & WORD

    def _known(self, value: Optional[int]) -> int:
        return self.quirks.filler if value is None else value

    def value(self, q: Request) -> int:
        """The value of a read answered OK, and what it changes."""
        self.reset = "live"
        if not q.ap:
            if q.addr == 0:
                return SIMULATED_ID
            if q.addr == 4:
                return self.ctrl_stat() if self.dpbank() == 0 else 0
            if q.addr == 8:
                return self._known(self.last)
            value = self._known(self.buffer)
            self.buffer = None
            self.last = value
            return value
        value = self._known(self.buffer)
        self.last = value
        if not self.in_mem_ap():
            self.buffer = 0
        elif q.addr == 0:
            self.buffer = self.csw()
        elif q.addr == 4:
            self.buffer = self.tar
        elif q.addr == 8:
            self.buffer = 0
        else:
            self._accept(True, 0)
        return value

    def _accept(self, read: bool, word: int) -> None:
        self.pending = (read, word)
        if not self.quirks.late:
            self.complete()

    def ctrl_stat(self) -> int:
        return (
            int(self.stickyerr) << 5
            | int(self.readok) << 6
            | int(self.wdataerr) << 7
            | (0x10000000 if self.power28 else 0)
            | (0x40000000 if self.power30 else 0)
            | (0x20000000 if self.power28 and self.power_up != "late" else 0)
            | (0x80000000 if self.power30 and self.power_up != "late" else 0)
        )

    def csw(self) -> int:
        return self.upper << 24 | 0x40 | (0x10 if self.single else 0) | 2

    def write(self, q: Request, raw: int) -> None:
        """The 33 bits of a write have come."""
        word = word_of(raw)
        if word is None:
            self.wdataerr = True
            return
        if not q.ap:
            if q.addr == 0:
                if word & 4:
                    self.stickyerr = False
                if word & 8:
                    self.wdataerr = False
            elif q.addr == 4 and self.dpbank() == 0:
                self.power28 = bool(word >> 28 & 1)
                self.power30 = bool(word >> 30 & 1)
                self.power_up = "unseen"
            elif q.addr == 8:
                self.select = word & 0xFF0000FF
            return
        self.buffer = None
        self.last = None
        if not self.in_mem_ap():
            return
        if q.addr == 0:
            self.single = (word >> 4) & 3 == 1
            self.upper = (word >> 24) & 0x7F
        elif q.addr == 4:
            self.tar = word
        elif q.addr == 12:
            self._accept(False, word)


class Counts:
    """How many requests there were, and how many were disturbed and lost."""

    def __init__(self) -> None:
        self.asked = 0
        self.disturbed = 0
        self.lost = 0

    def count(self, mark: Mark) -> None:
        self.asked += 1
        self.disturbed += mark.is_disturbed()
        self.lost += mark.is_lost()


class Bench:
    """A `Wire` over one `Target`."""

    def __init__(self, memory: Memory, quirks: Quirks, plan: list[Mark]) -> None:
        assert all(m.legal() for m in plan)
        self.target = Target(memory, quirks)
        self.plan = plan
        self.counts = Counts()
        self._due = NOTHING
        self._phase: Optional[tuple[str, Optional[Request], int]] = None
        self._mark = CLEAN

    def due(self) -> str:
        return self._due

    def memory(self) -> Memory:
        return self.target.memory

    def lead(self, ones: int, switch: bool, zeros: int) -> None:
        check_lead(self._due, ones, switch, zeros)
        if self._phase is not None and self._phase[0] == "write":
            self.target.wdataerr = True
        self._phase = None
        self._due = NOTHING
        if ones:
            self.target.reset = "fresh"

    def ask(self, q: Request) -> int:
        assert self._due == NOTHING
        i = self.counts.asked
        mark = self.plan[i] if i < len(self.plan) else CLEAN
        self.counts.count(mark)
        self._mark = mark
        if mark == DEAF:
            self._due = DUE_LOST
            return SILENT
        ack = self.target.answer(q, mark == WAITS)
        seen = SILENT if ack is None else ack
        if ack == OK:
            self._phase = ("read", None, self.target.value(q)) if q.read else ("write", q, 0)
        elif ack is not None:
            self._phase = ("pass", None, 0)
        if ack is not None and mark.kind == "mute":
            seen ^= 1 << mark.place
        if seen == OK:
            self._due = TAKE if q.read else GIVE
        elif seen in (WAIT, FAULT):
            self._due = PASS
        else:
            self._due = DUE_LOST
        return seen

    def _damage(self, value: int) -> int:
        return value ^ (1 << self._mark.place) if self._mark.kind == "flip" else value

    def take(self) -> int:
        assert self._due == TAKE and self._phase is not None
        value = self._damage(data_bits(self._phase[2]))
        self._due, self._phase = NOTHING, None
        return value

    def give(self, value: int) -> None:
        assert self._due == GIVE and self._phase is not None and self._phase[1] is not None
        q = self._phase[1]
        self._due, self._phase = NOTHING, None
        self.target.write(q, self._damage(value))

    def pass_(self) -> None:
        assert self._due == PASS
        self._due, self._phase = NOTHING, None


# ----------------------------------------------------------- calls of a wire


@dataclass(frozen=True, slots=True)
class Lead:
    ones: int
    switch: bool
    zeros: int


@dataclass(frozen=True, slots=True)
class Ask:
    request: Request


@dataclass(frozen=True, slots=True)
class Take:
    pass


@dataclass(frozen=True, slots=True)
class Give:
    value: int


@dataclass(frozen=True, slots=True)
class Pass:
    pass
