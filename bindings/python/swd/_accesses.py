"""Accesses, their answers, and the report of a run."""
import enum
from dataclasses import dataclass, field
from typing import Iterable, List, Optional, Sequence, Tuple, Union

from ._errors import (
    AccessFaulted, NotAnAccess, OutOfRange, RunStopped, TooManyAccesses, Unaligned, number, word as checked_word,
)

MOST_ACCESSES = 65_536
# The bits that an address may have.
_ADDRESSES = 0xFFFF_FFFC


@dataclass(frozen=True)
class Read:
    """Reads the word at an address, which is a multiple of 4."""

    addr: int

    def __str__(self) -> str:
        return f"r {self.addr:08x}"


@dataclass(frozen=True)
class Write:
    """Writes a word at an address, which is a multiple of 4."""

    addr: int
    word: int

    def __str__(self) -> str:
        return f"w {self.addr:08x}"


Access = Union[Read, Write]


@dataclass(frozen=True)
class Value:
    """The access read this word."""

    word: int

    def __str__(self) -> str:
        return f"{self.word:08x}"


@dataclass(frozen=True)
class Written:
    """The access wrote its word, once."""

    def __str__(self) -> str:
        return "written"


@dataclass(frozen=True)
class BusFault:
    """The access was made once, and was a bus error: the target's bus refused it."""

    def __str__(self) -> str:
        return "busfault"


Answer = Union[Value, Written, BusFault]


class End(enum.Enum):
    """How a run ended."""

    ALL = "all"
    """Every access was answered."""
    LOST = "lost"
    """No acknowledgement was seen. Nothing was sent after it; `resume` continues."""
    TRIES = "tries"
    """An access, or the opening, met more events than `tries`; `resume` continues."""
    WRONG_ID = "id"
    """Bit 0 of DPIDR isn't 1. `Report.identification` is what was read."""
    CONFUSED = "confused"
    """The target violated the protocol."""

    def __str__(self) -> str:
        return str(self.value)


_HINTS = {
    End.LOST: "no acknowledgement: is the target connected and powered?",
    End.TRIES: "more WAITs, or damaged data phases, than tries",
    End.WRONG_ID: "bit 0 of DPIDR isn't 1",
    End.CONFUSED: "the target violated the protocol",
}


@dataclass(frozen=True)
class Report:
    """What a run did.

    `answers` has the answers of the first accesses of the list, in order; an access behind them has none. `begun` is
    the number of accesses after these that were in flight: 0 or 1, in a block up to 2. Whether such an access took
    effect is unknown. `requests` is the number of requests that this call sent, without those that bring the target to
    rest first, and `ended` how it ended. `accesses` is the list; reports are compared without it."""

    answers: Tuple[Answer, ...]
    begun: int
    requests: int
    ended: End
    identification: Optional[int] = None
    accesses: Tuple[Access, ...] = field(default=(), compare=False, repr=False)

    def check(self, *, bus_errors: bool = False) -> "Report":
        """Returns this report if every access was answered, and none as a bus error.

        Raises `RunStopped` if the run ended early. Raises `AccessFaulted` if an access was a bus error, unless
        `bus_errors` allows that."""
        if self.ended is not End.ALL:
            raise RunStopped(f"the run ended {self.ended} ({_HINTS[self.ended]}): {self._counts()}", self)
        if not bus_errors:
            for index, answer in enumerate(self.answers):
                if isinstance(answer, BusFault):
                    raise self._faulted(index)
        return self

    def words(self) -> List[int]:
        """Returns the words that were read, in the order of the reads.

        Raises `AccessFaulted` if a read was a bus error: the words behind it would take its place. `answers` has
        them."""
        words = []
        for index, answer in enumerate(self.answers):
            if isinstance(answer, Value):
                words.append(answer.word)
            elif isinstance(answer, BusFault) and not isinstance(self._access(index), Write):
                raise self._faulted(index)
        return words

    def lines(self, accesses: Optional[Sequence[Access]] = None) -> List[str]:
        """Returns the report as `swd run` prints it, without line ends: a line for each answer, and one for the end.

        `accesses` is the list, for a report that was made without it."""
        listed = self.accesses if accesses is None else accesses
        lines = [f"{access} {answer}" for access, answer in zip(listed, self.answers)]
        if self.ended is End.WRONG_ID:
            lines.append(f"end id {self.identification:08x}")
        elif self.ended is End.ALL:
            lines.append(f"end all {len(self.answers)}")
        else:
            lines.append(f"end {self.ended} {len(self.answers)} begun {self.begun}")
        return lines

    def _counts(self) -> str:
        among = f" of {len(self.accesses)}" if self.accesses else ""
        return f"{len(self.answers)}{among} answered, {self.begun} in flight"

    def _access(self, index: int) -> Optional[Access]:
        return self.accesses[index] if index < len(self.accesses) else None

    def _faulted(self, index: int) -> AccessFaulted:
        access = self._access(index)
        shown = "" if access is None else f" ({access})"
        return AccessFaulted(f"access {index}{shown} was a bus error", self)


def made_report(
    answers: Tuple[Answer, ...], begun: int, requests: int, ended: End, identification: Optional[int],
    accesses: Tuple[Access, ...],
) -> Report:
    """Makes a report in half the time that the constructor takes, which sets each frozen field by a call."""
    report = Report.__new__(Report)
    report.__dict__.update(
        answers=answers, begun=begun, requests=requests, ended=ended, identification=identification, accesses=accesses,
    )
    return report


def counts(report: Report) -> str:
    """Says how far a run came, for messages."""
    return report._counts()  # pylint: disable=protected-access


def block(addr: int, count: int) -> List[Read]:
    """Returns the list of the reads that `run_block` does: `count` words at `addr`, `addr + 4` and so on."""
    addr = checked_word("addr", addr)
    count = number("count", count, 0xFFFF_FFFF)
    if count > MOST_ACCESSES:
        raise TooManyAccesses(f"count is {count}: a run has at most {MOST_ACCESSES} accesses")
    if count > 0 and addr % 4 != 0:
        raise Unaligned(f"addr is {addr:#x}: it has to be a multiple of 4")
    if addr + 4 * count > 1 << 32:
        raise OutOfRange(f"{count} words at {addr:#x} pass the end of the address space")
    return [Read(addr + 4 * index) for index in range(count)]


def listed_accesses(accesses: Iterable[Access]) -> Tuple[Access, ...]:
    """Returns the accesses, checked. Takes no more of them than a run may have, and one."""
    listed: List[Access] = []
    for index, access in enumerate(accesses):
        if index == MOST_ACCESSES:
            raise TooManyAccesses(f"accesses has more than {MOST_ACCESSES} elements, the most of a run")
        listed.append(_checked_access(index, access))
    return tuple(listed)


def _is_plain(access: Access) -> bool:
    """Whether the access is itself what a check would make of it. Most are, and checks with messages take longer."""
    if type(access) is Read:
        return type(access.addr) is int and not access.addr & ~_ADDRESSES
    return type(access) is Write and type(access.addr) is int and not access.addr & ~_ADDRESSES \
        and type(access.word) is int and not access.word >> 32


def _checked_access(index: int, access: Access) -> Access:
    if _is_plain(access):
        return access
    if not isinstance(access, (Read, Write)):
        raise NotAnAccess(f"accesses[{index}] is {access!r}: it has to be a Read or a Write")
    addr = checked_word(f"accesses[{index}].addr", access.addr)
    if addr % 4 != 0:
        raise Unaligned(f"accesses[{index}].addr is {addr:#x}: it has to be a multiple of 4")
    if isinstance(access, Write):
        return Write(addr, checked_word(f"accesses[{index}].word", access.word))
    return Read(addr)


def since(report: Report, earlier: Report) -> Report:
    """Returns the report, with what the earlier one had in flight and neither answered."""
    if report.ended is End.ALL:
        return report
    still = max(0, earlier.begun - (len(report.answers) - len(earlier.answers)))
    return Report(
        report.answers, max(report.begun, still), report.requests, report.ended, report.identification, report.accesses,
    )
