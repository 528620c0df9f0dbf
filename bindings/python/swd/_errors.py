"""The errors of this package, and how an argument is checked."""
import operator
from typing import TYPE_CHECKING, Any, NoReturn, Optional, SupportsIndex, Tuple, cast

if TYPE_CHECKING:
    from ._accesses import Report


class SwdError(Exception):
    """The base of every error that this package raises, but for `Interrupted` and what a bus raises."""


class LibraryNotFound(SwdError, OSError):
    """No library could be loaded. The message lists what was tried."""


class LibraryNotProved(UserWarning):
    """The library that was loaded is compiled without a proof."""


class LibraryMismatch(SwdError):
    """The library's structs aren't those of this package: it is another version, or for another processor."""


class LibraryRefused(SwdError):
    """The library refused its own struct. Something else wrote into its memory, or two threads used one object."""


class NotABit(SwdError, ValueError):
    """A bit is neither 0 nor 1. The message says which one."""


class OutOfRange(SwdError, ValueError):
    """A number is outside the range of its argument. The message names the argument and the range."""


class Unaligned(OutOfRange):
    """The address of an access isn't a multiple of 4. The message says which access."""


class TooManyAccesses(SwdError, ValueError):
    """A list has more than 65,536 accesses."""


class NotAnAccess(SwdError, TypeError):
    """An element of the list is neither `Read` nor `Write`. The message says which one."""


class NotAnItem(SwdError, TypeError):
    """What a `Checker` was fed is no item of a trace; or it was fed bits and items. The message says which."""


class NotBytes(SwdError, TypeError):
    """The data of an image is neither bytes, nor another object with a buffer of bytes."""


class NotALine(SwdError, TypeError):
    """The argument `line` lacks `drive`, `release` or `sample`, has coroutines in their place, or is a tuple but no
    pair of functions."""


class ProbeFailed(SwdError):
    """There is no such probe, it can't be used, or not any more. The message says why, and what to do."""


class NotResumable(SwdError, ValueError):
    """The report isn't one that `resume` continues. The message says why."""


class Reentered(SwdError, RuntimeError):
    """The line is in use by another call: one in another thread, or the one that called this line."""


class RunEnded(SwdError, RuntimeError):
    """`Run.next` was called after the run had ended."""


class DecoderFinished(SwdError, RuntimeError):
    """`Decoder.feed`, `Decoder.finish` or `Checker.feed` was called after `finish`."""


class BusError(Exception):
    """A `Bus` raises it if a transfer fails: nothing was read or written. The target reports a bus error."""


class RunFailed(SwdError):
    """The base of the errors of a run that began. `report` has what is certain: the answers of the first accesses of
    the list, and how many more were in flight, each of which took effect or didn't."""

    def __init__(self, message: str, report: "Report") -> None:
        super().__init__(message)
        self.report = report

    def __reduce__(self) -> Tuple[Any, ...]:
        return type(self), (self.args[0], self.report)


class RunStopped(RunFailed):
    """The run ended otherwise than `End.ALL`: `report.ended` says how."""


class AccessFaulted(RunFailed):
    """Every access was answered, but one or more as a bus error; or a read of which `Report.words` wants the word was a
    bus error. The message names the first one."""


class ConditionNotMet(RunFailed):
    """`Session.until` read the word as often as it may, and it never was as expected. `report` is that of the last
    read."""


class LineFailed(RunFailed):
    """The line raised an exception, which is `__cause__`. No clock was made after it.

    The `ended` of its report is `End.LOST`, and `resume` continues it. If every access was answered before, it is
    `End.ALL`."""


class CallbackFailed(RunFailed):
    """`on_answer` raised an exception, which is `__cause__`. No clock was made after it; `resume` continues, unless all
    was answered."""


class Interrupted(KeyboardInterrupt):
    """Ctrl-C came during a run, or before its call returned. `report` has what is certain, as that of a `RunFailed`; if
    not all was answered, `resume` continues it. In a pause of `Session.until`, `report` is that of the last read."""

    def __init__(self, message: str, report: "Report") -> None:
        super().__init__(message)
        self.report = report

    def __reduce__(self) -> Tuple[Any, ...]:
        return type(self), (self.args[0], self.report)


class ImageStopped(RunFailed):
    """A `load`, `verify` or `dump` ended early, or met a bus error. `__cause__` is what ended its last run, such as
    `RunStopped`, `AccessFaulted`, `LineFailed` or `CallbackFailed`, and `report` the report of that run.

    The first `done` bytes are certainly written or read, and `addr` is the address behind them: there another call
    continues. `data` has the bytes that were read; after a `load` it is empty.

    Of a load that ended early, the word at `addr` was written or wasn't, and the words behind it are unchanged. After a
    bus error, the other words of that run are written, too."""

    def __init__(self, message: str, report: "Report", addr: int, done: int, data: bytes = b"") -> None:
        super().__init__(message, report)
        self.addr, self.done, self.data = addr, done, data

    def __reduce__(self) -> Tuple[Any, ...]:
        return type(self), (self.args[0], self.report, self.addr, self.done, self.data)


class ImageInterrupted(Interrupted):
    """Ctrl-C came during a `load`, `verify` or `dump`, after its first run began. `addr`, `done`, `data` and `report`
    are as those of `ImageStopped`."""

    def __init__(self, message: str, report: "Report", addr: int, done: int, data: bytes = b"") -> None:
        super().__init__(message, report)
        self.addr, self.done, self.data = addr, done, data

    def __reduce__(self) -> Tuple[Any, ...]:
        return type(self), (self.args[0], self.report, self.addr, self.done, self.data)


class ImageDiffers(SwdError):
    """`verify` found a byte that isn't the image's: the first one, at `addr`. The memory has `found` there, and the
    image `expected`."""

    def __init__(self, addr: int, found: int, expected: int) -> None:
        super().__init__(f"{addr:08x} has {found:02x}, not {expected:02x}")
        self.addr, self.found, self.expected = addr, found, expected

    def __reduce__(self) -> Tuple[Any, ...]:
        return type(self), (self.addr, self.found, self.expected)


def report_of(failure: BaseException) -> Optional["Report"]:
    """Returns the report that an exception of a run carries, or None if it has none.

    `RunFailed` and `Interrupted` have one; so has any other exception that passed through a run, as `SystemExit`."""
    report: Optional["Report"] = getattr(failure, "report", None)
    return report


def fail(name: str, value: object, wanted: str) -> NoReturn:
    """Raises `OutOfRange` for an argument."""
    shown = hex(value) if isinstance(value, int) and not isinstance(value, bool) else repr(value)
    raise OutOfRange(f"{name} is {shown}: it has to be {wanted}")


def number(name: str, value: object, most: int) -> int:
    """Returns the argument as an `int` from 0 to `most`."""
    if isinstance(value, bool) or not hasattr(value, "__index__"):
        fail(name, value, f"an int from 0 to {most:#x}")
    found = operator.index(cast(SupportsIndex, value))
    if not 0 <= found <= most:
        fail(name, found, f"from 0 to {most:#x}")
    return found


def word(name: str, value: object) -> int:
    """Returns the argument as an `int` of 32 bits."""
    return number(name, value, 0xFFFF_FFFF)
