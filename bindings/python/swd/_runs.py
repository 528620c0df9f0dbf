"""A run without I/O: it says what to send next, and takes what was seen."""
import ctypes
import struct
from dataclasses import replace
from typing import Any, Callable, Iterable, Optional, Tuple, Type

from ._accesses import (
    Access, Answer, BusFault, End, Report, Value, Write, Written, counts, listed_accesses, made_report, since,
)
from ._cues import Cue, cue_of
from ._errors import CallbackFailed, LibraryRefused, NotResumable, OutOfRange, RunEnded, RunFailed, number
from ._library import (
    BUS_FAULT, MOST_PLANNED, REFUSED, REST, SILENCE, VALUE, WRITTEN, WRONG_ID, AccessStruct, LibraryOrPath,
    OutcomeStruct, PlannedStruct, RunStruct, library_functions,
)
from ._planned import Planned

_ALL, _OK = 5, 1
_ENDS = {_ALL: End.ALL, 6: End.LOST, 7: End.TRIES, WRONG_ID: End.WRONG_ID, 9: End.CONFUSED}
_BAD_REPLY = 2

# Makes an argument of a reply, which is 64 bits. Those of acknowledgements are made once.
_argument = ctypes.c_uint64.from_param
_SHORT = tuple(map(_argument, range(8)))


class Run:
    """A run over a list of accesses, without I/O, for event loops and simulators. It returns what to send next, and
    takes what was seen:

        run = swd.Run([swd.Write(0x20000000, 7), swd.Read(0x20000000)])
        cue = run.cue()
        while cue is not None:
            run.next(reply)                            # perform cue.sequences(); the reply is what its Sample saw
            cue = run.cue()
        report = run.report().check()

    Reads at consecutive addresses go in bursts: the request for the next word returns the word before it. Each write is
    confirmed by a read of RDBUFF. With `bursts` writes at consecutive addresses go in bursts in place of reads: the
    request for the next word confirms the word before it. That is fewer requests, but a debug port with a write buffer
    may discard a write that was confirmed so: the report may then be wrong. `block` says that it is a block of reads:
    then these go in bursts also with `bursts`.

    `opened` is for a target that is open already, as a run leaves it that ended with `End.ALL`: no opening is sent.
    From the end of that run on, nothing else may have driven the line or reset the target. Otherwise the report may be
    wrong.

    The theorem of the library holds for a run whose caller performs each cue, and passes what it saw."""

    def __init__(
        self, accesses: Iterable[Access], tries: int = 8, *, block: bool = False, opened: bool = False,
        bursts: bool = False, library: LibraryOrPath = None,
    ) -> None:
        block = block or not bursts
        self._begin(listed_accesses(accesses), number("tries", tries, 0xFFFF_FFFF), block, opened, library)

    @classmethod
    def of_checked(
        cls, accesses: Tuple[Access, ...], tries: int, block: bool, opened: bool, library: LibraryOrPath,
    ) -> "Run":
        """Makes the same run from accesses and tries that were checked. `block` is False for bursts of writes."""
        run = cls.__new__(cls)
        run._begin(accesses, tries, block, opened, library)
        return run

    def _begin(
        self, accesses: Tuple[Access, ...], tries: int, block: bool, opened: bool, library: LibraryOrPath,
    ) -> None:
        self.accesses, self.tries, self.opened, self.library = accesses, tries, opened, library
        self._functions = library_functions(library)
        # Whether a cue was performed.
        self.is_begun = False
        self._earlier: Optional[Report] = None
        # The struct before the transactions that may have been made without a reply, and these.
        self._doubt: Optional[Tuple[Any, Tuple[Planned, ...]]] = None
        # The answers of copies, at which nobody looks.
        self._scratch: Any = None
        count = len(accesses)
        # An array may not be empty, to be passed.
        packed = b"".join(map(_packed, accesses)) or bytes(_ACCESS.size)
        self._listed = (AccessStruct * max(count, 1)).from_buffer_copy(packed)
        self._answers = (OutcomeStruct * max(count, 1))()
        self._run = RunStruct()
        here, listed, size = ctypes.byref(self._run), ctypes.byref(self._listed), ctypes.c_size_t.from_param(count)
        # The arguments of swd_run_next but for the reply, and those of swd_run_opened.
        self._passed = (here, listed, size, ctypes.byref(self._answers), size)
        self._opened = (here, listed, size, ctypes.c_uint8(bool(block)), ctypes.c_uint32(tries))
        self.step = _stepper(self._functions.swd_run_next, self._passed)
        # The struct of the first cue, where it is known.
        self._first: Any = None
        if opened:
            self.reopen()
        elif block:
            self._functions.swd_run_blocks(here, tries)
        else:
            self._functions.swd_run_new(here, tries)

    def reopen(self) -> None:
        """Makes this run the one of its list over a target that is open."""
        self._first = accepted(self._functions.swd_run_opened(*self._opened))

    @classmethod
    def resumed(
        cls, accesses: Iterable[Access], report: Report, tries: int = 8, *, bursts: bool = False,
        library: LibraryOrPath = None,
    ) -> "Run":
        """Makes the run that continues after a run of these accesses with this report, which ended with `End.LOST` or
        `End.TRIES`, from the first access on that wasn't answered. An access in flight may be done again. If that run
        was broken off inside a cue, release the line for four clocks before. Inside the bits of a `Give`, end them
        before that so that the parity is wrong, whether the clock that failed was made or not, or the target may write
        another word: `Host` and `Session` do. `AsyncSequences` does what its line of sequences needs.

        Raises `NotResumable` if the report ended otherwise, is of another list, or has more answers than there are
        accesses."""
        run = cls(accesses, tries, bursts=bursts, library=library)
        if report.ended not in (End.LOST, End.TRIES):
            raise NotResumable(f"report ended with '{report.ended}': only 'lost' and 'tries' can be resumed")
        # A report that was made without its list, as of answers that were kept, is taken for one of these accesses.
        if report.accesses and report.accesses != run.accesses:
            raise NotResumable("report is of another list of accesses")
        if len(report.answers) > len(run.accesses):
            raise NotResumable(f"report has {len(report.answers)} answers, accesses has {len(run.accesses)}")
        run._continue(report)
        return run

    def _continue(self, report: Report) -> None:
        """Makes this run, which is new, the one that continues after the report. The library continues from a struct
        that ended so, with this number of answers: here one that saw no acknowledgement, for which nothing is sent."""
        self._earlier = report
        self._fall_silent(self._run, self._answers)
        self._run.answered = len(report.answers)
        if not self._functions.swd_run_again(ctypes.byref(self._run), self.tries):
            raise LibraryRefused("swd_run_again refused its run")

    def cue(self) -> Optional[Cue]:
        """Returns what to send next, or None once the run has ended."""
        cue = self._cue_struct()
        return None if cue.kind == REST else cue_of(cue)

    def next(self, reply: int = 0) -> Tuple[Answer, ...]:
        """Takes the reply to the cue: the three bits seen after a request, or the 33 bits of a read's data phase, the
        first in time least significant. For other cues it is ignored. Returns the answers that came: mostly one or
        none. The first of them is that of the access with the index `answered` before the call.

        Raises `OutOfRange` for a reply that is no such number, and `RunEnded` after the end. The run is unchanged
        then."""
        if self.ended is not None:
            raise RunEnded(f"the run has ended with '{self.ended}'")
        first, reply = self.answered, number("reply", reply, 0xFFFF_FFFF_FFFF_FFFF)
        accepted(self.step(reply), reply)
        self.is_begun = True
        return self.answers(first)

    def plan(self) -> Tuple[Planned, ...]:
        """Returns the transactions that come next, at most 128. The run asks for exactly these, as long as each is
        acknowledged with OK and each word arrives with right parity, whatever words are read. They end behind a read
        whose word decides what follows, and behind the last access. There are none where the cue isn't an `Ask`."""
        here, listed, count, _, _ = self._passed
        room = (PlannedStruct * MOST_PLANNED)()
        found = self._functions.swd_run_plan(here, listed, count, ctypes.byref(room), _argument(MOST_PLANNED))
        return tuple([Planned(request, word) for word, request in _PLANNED.iter_unpack(bytes(room)[:8 * found])])

    def _led(self, run: Any) -> Tuple[Any, Callable[[int], Any]]:
        """Returns a copy of a struct of this run, and what leads it on by a reply and returns the next cue."""
        if self._scratch is None:
            self._scratch = type(self._answers)()
        copy, scratch = RunStruct.from_buffer_copy(run), ctypes.byref(self._scratch)
        _, listed, count, _, room = self._passed
        call, here = self._functions.swd_run_next, ctypes.byref(copy)
        return copy, lambda reply: call(here, listed, count, scratch, room, _argument(reply))

    def doubt(self, planned: Optional[Tuple[Planned, ...]]) -> None:
        """Says that these transactions come next, and may be made without a reply; or that none of those before is in
        doubt. A report before the end of the run counts the accesses as in flight that they begin."""
        self._doubt = None if planned is None else (RunStruct.from_buffer_copy(self._run), planned)

    def first(self) -> Any:
        """Returns the struct of the first cue, before any step."""
        return self._cue_struct() if self._first is None else self._first

    def _cue_struct(self) -> Any:
        """Returns the struct of the cue, which is at rest once the run has ended."""
        if self.answered > len(self.accesses):
            raise LibraryRefused(f"the run has {self.answered} answers, its list {len(self.accesses)} accesses")
        return accepted(self._functions.swd_run_cue(ctypes.byref(self._run)))

    def answers(self, first: int) -> Tuple[Answer, ...]:
        """Returns the answers so far, from this index on."""
        return self._answered(first, self.answered, self._answers)

    @property
    def continues(self) -> bool:
        """Whether this run continues another one."""
        return self._earlier is not None

    @property
    def answered(self) -> int:
        """The number of answered accesses, including those of the run that this one continues."""
        return int(self._run.answered)

    @property
    def ended(self) -> Optional[End]:
        """How the run ended, or None before its end."""
        return _ENDS.get(self._run.end.kind)

    def report(self) -> Report:
        """Returns the report of the run. Before its end it is what is certain so far: the report of the run as if no
        further acknowledgement came."""
        ended = self.ended
        if ended is not None:
            return self._reported(self._run, self._answers, ended)
        run, answers = RunStruct.from_buffer_copy(self._run), type(self._answers).from_buffer_copy(self._answers)
        self._fall_silent(run, answers)
        # With few tries the silence of a data phase ends a run before that of an acknowledgement.
        report = self._reported(run, answers, End.ALL if _ENDS[run.end.kind] is End.ALL else End.LOST)
        return report if self._doubt is None else self._doubted(report, *self._doubt)

    def _doubted(self, report: Report, before: Any, planned: Tuple[Planned, ...]) -> Report:
        """Returns the report with what these transactions begin, if each of them was made and was OK."""
        run, step = self._led(before)
        for _ in planned:
            step(_OK)
            step(0)
        begun = max(report.begun, run.answered + run.begun - len(report.answers))
        return replace(report, begun=begun, requests=max(report.requests, run.requests))

    def only_word(self) -> Optional[int]:
        """Returns the word of a run of one read that ended with `End.ALL`, or None of any other, without a report."""
        word, kind = _outcome(self._answers, 0)
        is_whole = self._run.end.kind == _ALL and kind == VALUE and self._earlier is None and len(self.accesses) == 1
        return word if is_whole else None

    def _reported(self, run: Any, answers: Any, ended: End) -> Report:
        identification = run.end.word if ended is End.WRONG_ID else None
        told = self._answered(0, run.answered, answers)
        report = made_report(told, run.begun, run.requests, ended, identification, self.accesses)
        return report if self._earlier is None else since(report, self._earlier)

    def _fall_silent(self, run: Any, answers: Any) -> None:
        """Takes a struct of this run to its end, over a line that nobody drives and on which nothing is sent."""
        here, there = ctypes.byref(run), ctypes.byref(answers)
        _, listed, count, _, room = self._passed
        cue = accepted(self._functions.swd_run_cue(here))
        while cue.kind != REST:
            reply = _argument(SILENCE.get(cue.kind, 0))
            cue = accepted(self._functions.swd_run_next(here, listed, count, there, room, reply))

    def _answered(self, first: int, end: int, structs: Any) -> Tuple[Answer, ...]:
        """Returns the answers of these accesses. Those of the run that this one continues are from its report."""
        if self._earlier is not None and first < len(self._earlier.answers):
            kept = self._earlier.answers[first:end]
            return kept + self._answered(first + len(kept), end, structs)
        return tuple([_answer(*_outcome(structs, index * _OUTCOME_SIZE)) for index in range(first, end)])


def settling(tries: int, library: LibraryOrPath) -> Run:
    """Returns the run that brings a target to rest, and opens it, after one that ended early: it may be inside a
    transaction. This run continues that one, over a list of no access."""
    return Run.resumed([], Report((), 0, 0, End.LOST), tries, library=library)


def failed(run: Run, kind: Type[RunFailed], failure: Exception) -> RunFailed:
    """Returns what is raised if a call of the line, or the callback, raised this."""
    report = run.report()
    what = "the callback" if kind is CallbackFailed else "the line"
    return kind(f"{what} failed: {failure!r}: {counts(report)}", report)


OnAnswer = Optional[Callable[[int, Answer], object]]


def _stepper(call: Any, passed: Tuple[Any, ...]) -> Callable[[int], Any]:
    """Returns what takes a reply of 64 bits, and returns the struct of the next cue, which `accepted` has to check."""
    here, listed, count, answers, room = passed
    return lambda reply: call(here, listed, count, answers, room, _SHORT[reply] if reply < 8 else _argument(reply))


def accepted(cue: Any, reply: int = 0) -> Any:
    """Returns a cue that the library didn't refuse. It refuses a reply that no cue has. Else a refusal says that
    something else wrote into a struct."""
    if cue.kind != REFUSED:
        return cue
    if cue.outcome.kind == _BAD_REPLY:
        raise OutOfRange(f"reply is {reply:#x}: it has to be below 8 after a request, below 2**33 for a data phase")
    raise LibraryRefused(f"the library refused its run, for reason {cue.outcome.kind}")


_WRITTEN, _BUS_FAULT = Written(), BusFault()


# The fields of an access: the address, the word and whether it is written.
_ACCESS = struct.Struct("=IIB3x")
# The fields of a transaction of a plan: the word and the request.
_PLANNED = struct.Struct("=IB3x")
# Takes the word and the kind out of an outcome, which is so many bytes.
_outcome, _OUTCOME_SIZE = struct.Struct("=IB3x").unpack_from, ctypes.sizeof(OutcomeStruct)


def _answer(word: int, kind: int) -> Answer:
    if kind == VALUE:
        return Value(word)
    if kind == WRITTEN:
        return _WRITTEN
    if kind == BUS_FAULT:
        return _BUS_FAULT
    raise LibraryRefused(f"an answer is of kind {kind}")


def _packed(access: Access) -> bytes:
    if isinstance(access, Write):
        return _ACCESS.pack(access.addr, access.word, 1)
    return _ACCESS.pack(access.addr, 0, 0)
