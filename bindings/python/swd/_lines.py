"""Lines to a target: of clocks, and of sequences of clocks."""
import inspect
import operator
from dataclasses import dataclass
from types import BuiltinMethodType, MethodType
from typing import Any, Callable, Hashable, List, Optional, Protocol, Sequence, Tuple, Union

from ._cues import DATA_BITS, Performer
from ._errors import NotABit, NotALine, OutOfRange
from ._uses import use_of

_CALLS = ("drive", "release", "sample")
# The clocks from a turnaround to the end of an acknowledgement. A run that continues releases the line for the clocks
# of a data phase; one that was broken off may be that far before it.
REQUEST_REST = 4


class Line(Protocol):
    """The wire, one clock of SWCLK per call. It has a pull-up: where nobody drives it, it reads 1.

    In each clock the target samples SWDIO at the rising edge. If it drives SWDIO, it changes the level after that edge.
    So a call sets up SWDIO, drives SWCLK low, samples SWDIO, and drives SWCLK high.

    A clock that fails was made or wasn't, and all clocks before it were made. A call that fails leaves no reply
    unread: if it raises, also at Ctrl-C, a reply to it that still comes is dropped before the next clock. Otherwise
    each later level would be that of an earlier clock. A line that can't be brought into step again raises in each
    later call."""

    def drive(self, bit: int) -> object:
        """Makes one clock in which the host drives SWDIO at `bit`, 0 or 1."""

    def release(self) -> object:
        """Makes one clock in which the host doesn't drive SWDIO. Its level is ignored."""

    def sample(self) -> int:
        """Makes one clock in which the host doesn't drive SWDIO. Returns its level before the rising edge, 0 or 1."""


class SequenceLine(Protocol):
    """The wire, several clocks of SWCLK per call, as a probe behind USB has it: `Sequences` makes a line of it.

    The first bit in time is the least significant. `drive` and `release` may be queued until the next `sample`, so
    that a request costs one exchange with the probe. If there is a method `flush()`, it is called at the end of each
    run, and has to make what is queued.

    A sequence has to be made as a whole or not at all, also where a call fails. If a write's data phase is broken off
    inside, the target may write another word. A call that fails leaves no reply unread, as that of a `Line`."""

    def drive(self, bits: int, count: int) -> object:
        """Makes `count` clocks, at most 64, in which the host drives the low bits of `bits`."""

    def release(self, count: int) -> object:
        """Makes `count` clocks, at most 64, in which the host doesn't drive SWDIO. Its level is ignored."""

    def sample(self, count: int) -> int:
        """Makes `count` clocks, at most 33, in which the host doesn't drive SWDIO. Returns its levels before the rising
        edges."""


class Sequences:
    """Says of a line that each of its calls is a sequence of clocks: `Session(Sequences(probe))`."""

    def __init__(self, line: SequenceLine) -> None:
        _check_calls(line)
        self.line = line


LineFunctions = Tuple[Callable[[int], object], Callable[[], int]]
AnyLine = Union[Line, LineFunctions, Sequences]


def _parity(bits: int) -> int:
    return bin(bits).count("1") & 1


@dataclass(frozen=True)
class Cut:
    """A write's data phase inside which a line of clocks failed. Of its bits `made` were certainly made, of this
    `parity`. In each of `failed` clocks the host drove `level`, and the clock was made or wasn't."""

    made: int
    parity: int
    level: int
    failed: int = 1

    @classmethod
    def at(cls, bits: int, made: int) -> "Cut":
        """Returns that of a line that failed once, after so many of these bits."""
        return cls(made, _parity(bits & (1 << made) - 1), bits >> made & 1)

    def rest(self) -> Tuple[int, int]:
        """Returns the bits after which the target drops the data phase, and their number. However many of the clocks
        that failed were made, the parity of the whole is wrong. One of these bits decides that. It is the last one that
        the target takes into the data phase in any case, and the others have the level of the clocks that failed."""
        count = DATA_BITS - self.made
        place = max(count - self.failed - 1, 0)
        deciding = 1 ^ self.parity ^ self.level & count - 1
        levels = self.level * ((1 << count) - 1)
        return levels & ~(1 << place) | deciding << place, count

    def again(self, made: int) -> "Cut":
        """Returns that of a line that failed once more, after so many bits of the rest."""
        parity = self.parity ^ _parity(self.rest()[0] & (1 << made) - 1)
        return Cut(self.made + made, parity, self.level, self.failed + 1)


def check_names(line: Any) -> None:
    """Raises `NotALine` if the line lacks a call."""
    for name in _CALLS:
        if not callable(getattr(line, name, None)):
            raise NotALine(f"line has no {name}(): it needs drive, release and sample")


def _check_calls(line: Any) -> None:
    check_names(line)
    for name in _CALLS:
        _check_call(name, getattr(line, name))


def _check_call(name: str, call: Any) -> None:
    if inspect.iscoroutinefunction(call):
        raise NotALine(f"{name} is a coroutine, which nobody would await: use swd.AsyncSequences, or swd.Run")


def _key(call: Any) -> Hashable:
    """Returns what equals that of the same function. Each look-up of a method makes another object, and these are
    equal."""
    return call if isinstance(call, (MethodType, BuiltinMethodType)) else id(call)


class Wire(Performer):
    """Performs cues over any line. `use` is the same for each wire over one line, or over the same functions."""

    def __init__(self, line: AnyLine) -> None:
        if isinstance(line, Sequences):
            self.over: Any = line.line
            self._clocks: Optional[_Clocks] = None
            sample = line.line.sample
            super().__init__(line.line.drive, line.line.release, lambda count: checked_levels(sample(count), count))
            self._flush: Any = getattr(line.line, "flush", None)
        else:
            self.over, self._flush = line, None
            self._clocks = _Clocks(line)
            super().__init__(self._clocks.drive, self._clocks.release, self._clocks.sample)
        # `over` is kept, lest another object gets its identity.
        self.use = use_of(tuple(map(_key, self.over)) if isinstance(self.over, tuple) else id(self.over))

    def begin(self, run: object) -> None:
        """Has the wire perform this run from here on: a line has nothing to plan."""

    def ends(self, accesses: Sequence[object], reads: bool) -> Tuple[int, ...]:
        """Returns where a list is cut: at its end alone."""
        return (len(accesses),)

    def leave(self) -> None:
        """Leaves the cue inside which the line failed, before a run that continues: has the target drop the data phase
        of a write, and releases SWDIO up to the end of an acknowledgement."""
        if self._clocks is not None:
            self._clocks.leave()
        self.release(REQUEST_REST)

    def flush(self) -> None:
        """Has a line of sequences make what it queued."""
        if self._flush is not None:
            self._flush()


def checked_levels(bits: Any, count: int) -> int:
    """Returns the levels that a line of sequences sampled, checked."""
    if isinstance(bits, bool) or not isinstance(bits, int) or bits >> count:
        raise OutOfRange(f"sample({count}) returned {bits!r}: it has to be a number of {count} bits")
    return bits


# The levels of each byte, and each three levels with their number; the least significant bit is first.
_LEVELS = tuple(tuple(byte >> place & 1 for place in range(8)) for byte in range(256))
_THREE = {levels[:3]: number for number, levels in enumerate(_LEVELS[:8])}
# The digits of levels, for `int`. A level that is none has a digit that is none.
_DIGITS = b"01" + b"?" * 254


def _levels(bits: int, count: int) -> List[int]:
    """Returns the low bits, the least significant one first."""
    levels: List[int] = []
    for byte in bits.to_bytes((count + 7) // 8, "little"):
        levels += _LEVELS[byte]
    return levels[:count]


def _number_of(levels: Sequence[Any]) -> int:
    """Returns the number with these bits, the least significant one first."""
    try:
        return int(bytes(levels).translate(_DIGITS)[::-1], 2)
    except (TypeError, ValueError):
        # A level that is neither, or one that only equals 0 or 1.
        for level in levels:
            if level != 0 and level != 1:
                raise NotABit(f"sample() returned {level!r}: a level is 0 or 1") from None
        return sum(1 << place for place, level in enumerate(levels) if level)


class _Clocks:
    """A line of clocks, by calls of several clocks."""

    def __init__(self, line: Union[Line, LineFunctions]) -> None:
        self._drive, self._release, self._sample = _clock_calls(line)
        self._cut: Optional[Cut] = None

    def drive(self, bits: int, count: int) -> None:
        """Drives the low bits, in so many clocks."""
        drive, levels = self._drive, iter(_LEVELS[bits] if count == 8 else _levels(bits, count))
        try:
            for level in levels:
                drive(level)
        except BaseException:
            # Of the level that was taken last, the clock was made or wasn't.
            made = max(count - operator.length_hint(levels) - 1, 0)
            if self._cut is not None:
                self._cut = self._cut.again(made)
            elif count == DATA_BITS:
                # No other call drives as many.
                self._cut = Cut.at(bits, made)
            raise

    def release(self, count: int) -> None:
        """Releases the line for so many clocks."""
        if count == 1:
            self._release()
            return
        release = self._release
        for _ in range(count):
            release()

    def sample(self, count: int) -> int:
        """Samples the levels of so many clocks."""
        sample = self._sample
        if count != 3:
            return _number_of([sample() for _ in range(count)])
        levels = sample(), sample(), sample()
        number = _THREE.get(levels)
        return _number_of(levels) if number is None else number

    def leave(self) -> None:
        """Has the target drop the write's data phase inside which the line failed."""
        if self._cut is not None:
            self.drive(*self._cut.rest())
            self._cut = None


def _clock_calls(line: Union[Line, LineFunctions]) -> Tuple[Callable[[int], object], Callable[[], object], Any]:
    """Returns what drives, releases and samples one clock."""
    if not isinstance(line, tuple):
        _check_calls(line)
        return line.drive, line.release, line.sample
    if len(line) != 2 or not all(callable(function) for function in line):
        raise NotALine(f"line is {line!r}: a tuple has to be two functions, drive(bit) and sample()")
    for name, call in zip(("drive", "sample"), line):
        _check_call(name, call)
    drive, sample = line
    return drive, sample, sample
