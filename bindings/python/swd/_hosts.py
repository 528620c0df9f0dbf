"""Hosts, which drive a line through runs."""
import contextlib
import time
from dataclasses import replace
from types import TracebackType
from typing import Any, Callable, Iterable, Optional, Tuple, Type, TypeVar, Union

from . import _images
from ._accesses import Access, Answer, End, Read, Report, Write, block, counts, listed_accesses
from ._errors import (
    CallbackFailed, ConditionNotMet, Interrupted, LineFailed, Reentered, RunFailed, RunStopped, fail, number, report_of,
    word as checked_word,
)
from ._identities import Identification, Opening, Watch
from ._images import Buffer, OnProgress
from ._library import REFUSED, REST, LibraryOrPath, library_functions
from ._lines import AnyLine, Wire
from ._pieces import PiecedRun
from ._probes import Probe, ProbeWire
from ._runs import OnAnswer, Run, accepted, failed, settling
from ._uses import Claim

_Result = TypeVar("_Result")
_Perform = Callable[[int, Any], int]


def _interrupted(run: Run) -> Interrupted:
    """Returns what is raised at Ctrl-C."""
    report = run.report()
    return Interrupted(f"interrupted: {counts(report)}", report)


def _checking(check: bool, bus_errors: bool) -> Callable[[Run], Report]:
    """Returns what makes of a run that ended the result of a call."""
    return lambda run: run.report().check(bus_errors=bus_errors) if check else run.report()


# The result of a call that allows nothing.
_whole = _checking(True, False)


def _word(run: Run) -> int:
    """Returns the word of a run of one read."""
    word = run.only_word()
    return run.report().check().words()[0] if word is None else word


def _attempt(run: Run, call: Callable[[], object]) -> None:
    """Makes a call to the line aside from its cues."""
    try:
        call()
    except Exception as failure:  # pylint: disable=broad-except
        raise failed(run, LineFailed, failure) from failure


class _Driver:
    """What drives runs over a line."""

    # Whether a run begins with an opening of its own, although the target is open.
    _opens_each = True

    def __init__(
        self, line: Union[AnyLine, Probe], tries: int = 8, *, bursts: bool = False, library: LibraryOrPath = None,
    ) -> None:
        self._wire: Union[Wire, ProbeWire] = ProbeWire(line) if isinstance(line, Probe) else Wire(line)
        self.tries = tries
        # Whether writes are confirmed by the next one, in place of by RDBUFF.
        self.bursts = bursts
        self._library = library
        library_functions(library)
        # How the last run over this line ended, if there was one. The target is open after End.ALL.
        self._last: Optional[End] = None
        # Whether `close` was called since the last run began.
        self._is_closed = False
        # The last run that was started.
        self._newest: Optional[Run] = None
        self._opening = Opening()
        # Whether the line isn't known to be between two cues.
        self._inside = True

    @property
    def tries(self) -> int:
        """The number of events that the opening, and each access, may meet."""
        return self._tries

    @tries.setter
    def tries(self, tries: int) -> None:
        self._tries = number("tries", tries, 0xFFFF_FFFF)

    def run(
        self, accesses: Iterable[Access], *, check: bool = True, bus_errors: bool = False, on_answer: OnAnswer = None,
    ) -> Report:
        """Performs the accesses in order, each once. Returns the report, or raises `RunStopped` if the run ended early,
        and `AccessFaulted` if an access was a bus error. `bus_errors` allows bus errors; without `check` the report is
        returned in any case, but for a target that isn't brought to rest first: that raises `RunStopped`.

        `on_answer(index, answer)` is called for each answer as it comes.

        A run that ends with `End.ALL` sends eight idle cycles, and leaves the target with power on.

        Raises `NotAnAccess`, `OutOfRange`, `Unaligned` or `TooManyAccesses` before anything is sent, and `Reentered` if
        the line is in use. Raises `LineFailed` if the line raises an `Exception`, `CallbackFailed` if `on_answer` does,
        and `Interrupted` at Ctrl-C. All that is raised after the run began has its `report` (see `report_of`). A Ctrl-C
        before it, or after the call, is a plain `KeyboardInterrupt`."""
        run = self._made(accesses, False)
        return self._performed(run, on_answer, _checking(check, bus_errors))

    def run_block(
        self, addr: int, count: int, *, check: bool = True, bus_errors: bool = False, on_answer: OnAnswer = None,
    ) -> Report:
        """Reads `count` words at `addr`, `addr + 4` and so on, at one request per word, also with `bursts`. `words()`
        of the report has them, unless one was a bus error.

        Raises what `block` and `run` raise. `resume` continues it with the list `block(addr, count)`."""
        run = self._made(block(addr, count), True)
        return self._performed(run, on_answer, _checking(check, bus_errors))

    def resume(
        self, accesses: Iterable[Access], report: Report, *, check: bool = True, bus_errors: bool = False,
        on_answer: OnAnswer = None,
    ) -> Report:
        """Continues a run of these accesses that ended with `End.LOST` or `End.TRIES`, over the same target, from the
        first access that wasn't answered. The report is that of the whole list, but `requests` counts this call alone.

        An access that was in flight may be done again. Raises `NotResumable` if the report ended otherwise, is of
        another list, or has more answers than there are accesses, and what `run` raises."""
        run = Run.resumed(accesses, report, self._tries, bursts=self.bursts, library=self._library)
        return self._performed(run, on_answer, _checking(check, bus_errors))

    def identify(self) -> Identification:
        """Opens the target, also one that is open, and returns its DPIDR. No memory is read or written.

        Raises what `run` raises. The message of a `RunStopped` says how far the opening came."""
        is_astray = self._last is not None and self._last is not End.ALL
        tries, library = self._tries, self._library
        run = settling(tries, library) if is_astray else Run.of_checked((), tries, False, False, library)
        watch = Watch(self._wire.perform)
        try:
            self._performed(run, None, _whole, watch.perform)
        except Reentered:
            # Nothing was sent: what was read before stands.
            watch.opening = self._opening
            raise
        except RunStopped as stop:
            raise RunStopped(f"{stop}; {watch}", stop.report) from None
        finally:
            self._opening = watch.opening
        assert watch.opening.dpidr is not None  # An opening that succeeds has read it.
        return watch.opening.dpidr

    @property
    def opening(self) -> Opening:
        """What the last `identify` read, also where it failed."""
        return self._opening

    def load(self, addr: int, data: Buffer, *, on_progress: OnProgress = None) -> None:
        """Writes bytes from `addr` on, which need not be a multiple of 4. Byte 0 of a word is bits 0 to 7. A word of
        which `data` has only some bytes is read first, and its other bytes keep their values; then each word is written
        once, in ascending order, by runs of at most 65,536 accesses. No bytes are no run: nothing is sent.

        `on_progress(done, total)` is called with numbers of bytes, after each 1,024 words and at the end: the first
        `done` bytes are certainly written.

        Raises `NotBytes`, and `OutOfRange` if the bytes pass the end of the address space, before anything is sent.
        Raises `ImageStopped` if a run ended early or met a bus error, if the line or `on_progress` failed, and
        `ImageInterrupted` at Ctrl-C: these say which bytes are certainly written, and where to continue. A Ctrl-C
        before the first run, or after the call, is a plain `KeyboardInterrupt`."""
        _images.load(self.run, self._newest_run, addr, data, on_progress)

    def verify(self, addr: int, data: Buffer, *, on_progress: OnProgress = None) -> None:
        """Reads as many bytes as `data` has, as `dump` does, and compares them with it once all are read. Returns if
        they are equal.

        Raises `ImageDiffers` with the first byte that differs, and what `load` raises."""
        _images.verify(self.run_block, self._newest_run, addr, data, on_progress)

    def dump(self, addr: int, count: int, *, on_progress: OnProgress = None) -> bytes:
        """Returns `count` bytes from `addr` on, which need not be a multiple of 4. Each word that has one of them is
        read once, by blocks of at most 65,536 words. `on_progress` is as for `load`.

        Raises what `load` raises but for `NotBytes`; `data` of an `ImageStopped` has the bytes that were read."""
        return _images.dump(self.run_block, self._newest_run, addr, count, on_progress)

    def _made(self, accesses: Iterable[Access], of_block: bool) -> Run:
        """Returns a run of a list, over a target that is at rest from here on."""
        checked = listed_accesses(accesses)
        if self._last is not None and self._last is not End.ALL:
            self._settle(checked)
        opened = not self._opens_each and self._last is not None
        reads = of_block or not self.bursts
        ends = self._wire.ends(checked, reads)
        if len(ends) > 1:
            return PiecedRun(checked, ends, self._tries, block=reads, opened=opened, library=self._library)
        return Run.of_checked(checked, self._tries, reads, opened, self._library)

    def _settle(self, accesses: Tuple[Access, ...]) -> None:
        """Brings a target to rest, and opens it, before a run of these accesses. What is raised has the report of that
        run, of which nothing was done, also where each request was answered."""
        try:
            self._performed(settling(self._tries, self._library), None, _whole)
        except BaseException as stop:
            report = report_of(stop)
            if isinstance(report, Report):
                ended = End.LOST if report.ended is End.ALL else report.ended
                unbegun = replace(report, requests=0, ended=ended, accesses=accesses)
                stop.report = unbegun  # type: ignore[attr-defined]
            raise

    def _newest_run(self) -> Optional[Run]:
        """Returns the last run that was started, for an image: Ctrl-C may come before a call has returned its
        report."""
        return self._newest

    def _performed(
        self, run: Run, on_answer: OnAnswer, result: Callable[[Run], _Result], perform: Optional[_Perform] = None,
    ) -> _Result:
        """Performs a run over the line, and returns what `result` makes of it. Nothing else does. `perform` takes the
        place of the line's. `result` is called in here, so that a Ctrl-C in it has the report, too."""
        claim = Claim()
        try:
            with claim:
                self._wire.use.begin(claim)
                self._last, self._is_closed, self._newest = End.LOST, False, run
                self._wire.begin(run)
                if run.continues and self._inside:
                    _attempt(run, self._wire.leave)
                self._inside = True
                self._follow(run, on_answer, perform or self._wire.perform)
                self._last, self._inside = None if self._is_closed and run.ended is End.ALL else run.ended, False
                return result(run)
        except (RunFailed, Reentered):
            raise
        except KeyboardInterrupt as stop:
            raise _interrupted(run) from stop
        except BaseException as failure:
            with contextlib.suppress(AttributeError):
                failure.report = run.report()  # type: ignore[attr-defined]
            raise

    def _follow(self, run: Run, on_answer: OnAnswer, perform: _Perform) -> None:
        step, cue, told = run.step, run.first(), run.answered
        kind = cue.kind
        while kind != REST:
            try:
                reply = perform(kind, cue)
            except Exception as failure:  # pylint: disable=broad-except
                raise failed(run, LineFailed, failure) from failure
            cue = step(reply)
            kind = cue.kind
            if kind == REFUSED:
                accepted(cue, reply)
            if on_answer is not None and run.answered > told:
                told = self._tell(run, told, on_answer)
        _attempt(run, self._wire.flush)

    @staticmethod
    def _tell(run: Run, told: int, on_answer: Callable[[int, Answer], object]) -> int:
        """Calls back for each answer from this index on. Returns how many were told."""
        for index, answer in enumerate(run.answers(told), told):
            try:
                on_answer(index, answer)
            except Exception as failure:  # pylint: disable=broad-except
                raise failed(run, CallbackFailed, failure) from failure
        return run.answered


class Host(_Driver):
    """Reads and writes words of a target over a line, each access of a list once. Each run opens the target: a line
    reset with the switch from JTAG, power-up, and a MEM-AP set up for words. A `Session` opens it once.

    `line` is an object with `drive(bit)`, `release()` and `sample()` (see `Line`), such as a `Target`, and each call is
    one clock. Or it is `Sequences(probe)`, for several clocks per call (see `SequenceLine`). Or it is a tuple of two
    functions, `(drive, sample)`: then `sample` is also called to release the line, and its result is ignored.

    `tries` is the number of events that the opening, and each access, may meet: a WAIT, a read word with wrong parity,
    or corrupted write data. At one more the run ends with `End.TRIES`.

    Each write is confirmed by a read of RDBUFF, and reads at consecutive addresses go in bursts, at one request each.
    With `bursts` writes at consecutive addresses go in bursts, too fast for some ports: a debug port with a write
    buffer may discard a write whose confirmation was the next one, and the report may be wrong."""


class Session(_Driver):
    """Reads and writes words of a target that is opened once, for any number of lists:

        with swd.Session(line) as session:
            session.write(0x20000000, 7)
            session.until(0x40001000, 1, 1)
            print(session.read(0x20000000))

    A read that is polled costs three requests. `line`, `tries` and `bursts` are as of `Host`.

    **Between two lists nothing else may drive the line, nor may the target be reset**: the reports may be wrong then.
    `close()` after such an event, and the next call opens the target again. So does the next call after one that ended
    early; it begins by bringing the target to rest."""

    _opens_each = False
    # The address of the last `read` over an open target, and its run.
    _polled: Tuple[object, Optional[Run]] = None, None

    def __enter__(self) -> "Session":
        self.open()
        return self

    def __exit__(
        self, kind: Optional[Type[BaseException]], failure: Optional[BaseException], trace: Optional[TracebackType],
    ) -> None:
        self.close()

    @property
    def is_open(self) -> bool:
        """Whether the last call left the target open."""
        return self._last is End.ALL

    def open(self) -> None:
        """Opens the target, if it isn't open. Each other call does so, too. Raises what `run` raises."""
        if not self.is_open:
            self.run([])

    def close(self) -> None:
        """Forgets that the target is open, from the end of the call that is made, if there is one. Nothing is sent: its
        power stays on."""
        self._is_closed = True
        if self.is_open:
            self._last = None

    def read(self, addr: int) -> int:
        """Returns the word at an address. Raises what `run` raises."""
        return self._poll(addr)[0]

    def write(self, addr: int, word: int) -> None:
        """Writes a word at an address, once. Raises what `run` raises."""
        self.run([Write(addr, word)])

    def until(self, addr: int, mask: int, value: int, reads: int = 1000, *, interval: float = 0.0) -> int:
        """Reads the word at an address until its bits under `mask` are `value`, at most `reads` times, and sleeps
        `interval` seconds between two of them. Returns the word.

        Raises `OutOfRange` if `value` has bits outside `mask`, since they would never come, `ConditionNotMet` after the
        last read, and what `run` raises. Ctrl-C in a pause is `Interrupted`, too, with the report of the read
        before."""
        mask, value = checked_word("mask", mask), checked_word("value", value)
        if value & ~mask:
            fail("value", value, f"within mask, {mask:#x}")
        if number("reads", reads, 0xFFFF_FFFF) == 0:
            fail("reads", reads, "1 or more")
        for left in range(reads - 1, -1, -1):
            found, run = self._poll(addr)
            if found & mask == value:
                return found
            try:
                if left > 0 and interval > 0:
                    time.sleep(interval)
            except KeyboardInterrupt as stop:
                raise _interrupted(run) from stop
        raise ConditionNotMet(f"r {addr:08x} was {found:08x} at the last of {reads} reads", run.report())

    def _poll(self, addr: int) -> Tuple[int, Run]:
        """Reads the word at an address, and returns it with its run. A read like the last one takes its run once
        more."""
        at, run = self._polled
        if run is not None and self.is_open and type(addr) is int and addr == at and run.tries == self._tries:
            run.reopen()
        else:
            run = self._made([Read(addr)], False)
            # A run with an opening can't be taken once more.
            self._polled = (addr, run) if run.opened else (None, None)
        return self._performed(run, None, _word), run
