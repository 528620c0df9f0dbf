"""The host: an independent model of its engine, its runs and its open session, over any `Wire`.

The engine is a coroutine that yields what has to come next (its cue), and is given what was seen. With `PIPELINED` a
write is confirmed by the request of the next one, with `BLOCKS` a read brings the word of the one before.
"""

from __future__ import annotations

from dataclasses import dataclass
from typing import Generator, Optional, Union

from .bits import FAULT, NoAck, Moved, OK, Request, Tx, TxFault, TxWait, WAIT, WORD, bits_of_number, data_bits
from .bits import tx_bits, word_of
from .target import Ask, DUE_LOST, Give, Lead, Pass, Take, Wire

PIPELINED, BLOCKS = "pipelined", "blocks"


@dataclass(frozen=True, slots=True)
class Access:
    addr: int
    word: Optional[int] = None  # None is a read

    @property
    def read(self) -> bool:
        return self.word is None


@dataclass(frozen=True, slots=True)
class Value:
    word: int


@dataclass(frozen=True, slots=True)
class Written:
    pass


@dataclass(frozen=True, slots=True)
class BusFault:
    pass


Answer = Union[Value, Written, BusFault]


@dataclass(frozen=True, slots=True)
class End:
    kind: str  # All, Lost, TriesOut, WrongId, Confused
    word: int = 0


ALL, LOST, TRIES_OUT, CONFUSED = End("All"), End("Lost"), End("TriesOut"), End("Confused")


@dataclass(frozen=True, slots=True)
class Report:
    answers: tuple[Answer, ...]
    begun: int
    requests: int
    ended: End


# ---------------------------------------------------------------- requests

R_DPIDR = Request(False, True, 0)
W_ABORT = Request(False, False, 0)
R_STAT = Request(False, True, 4)
W_STAT = Request(False, False, 4)
R_RESEND = Request(False, True, 8)
W_SELECT = Request(False, False, 8)
R_RDBUFF = Request(False, True, 12)
R_CSW = Request(True, True, 0)
W_CSW = Request(True, False, 0)
W_TAR = Request(True, False, 4)
R_DRW = Request(True, True, 12)
W_DRW = Request(True, False, 12)

STICKYERR, WDATAERR = 1 << 5, 1 << 7
POWER = 1 << 29 | 1 << 31


# ------------------------------------------------------------------ engine


@dataclass(frozen=True, slots=True)
class Rest:
    pass


Cue = Union[Lead, Ask, Take, Give, Pass, Rest]


@dataclass(frozen=True, slots=True)
class Opened:
    pass


@dataclass(frozen=True, slots=True)
class Answered:
    answer: Answer


@dataclass(frozen=True, slots=True)
class Stopped:
    end: End


Outcome = Union[Opened, Answered, Stopped]
Co = Generator[Cue, object, object]


class _Stop(Exception):
    def __init__(self, end: End) -> None:
        self.end = end


class Engine:
    """One run: its cues, the number of its requests, and how many accesses are begun and not answered."""

    def __init__(self, tries: int, variant: str = PIPELINED, resumed: bool = False, opened: bool = False) -> None:
        self.tries = tries
        self.variant = variant
        self.resumed = resumed
        self.opened = opened  # over a target that the run before left open: no opening
        self.requests = 0
        self.begun = 0
        self.outcome: Optional[Outcome] = None
        self._events = 0
        self._stray = resumed  # may one stray bus fault still be passed?
        self._tar: Optional[int] = None  # what the engine knows TAR to hold
        self._next_ok = False  # the DRW request of the next access was answered OK
        self._next_sent = False  # ... was sent
        self._next_fails = False  # blocks: the next access is known to be a bus fault
        self._asking_next = False  # the request now asked is the DRW request of the next access
        self._handed: Optional[tuple[Access, Optional[Access]]] = None
        self._coroutine = self._main()
        self._cue: Cue = Rest()
        self._send(None)

    # -- the step interface

    def cue(self) -> Cue:
        return self._cue

    def finished(self) -> Optional[Outcome]:
        return self.outcome

    def done(self) -> None:
        assert isinstance(self._cue, (Lead, Give, Pass))
        self._send(None)

    def seen(self, value: int) -> None:
        assert isinstance(self._cue, Ask) and 0 <= value < 8
        self._send(value)

    def taken(self, value: int) -> None:
        assert isinstance(self._cue, Take) and 0 <= value < 2**33
        self._send(value)

    def start(self, access: Access, following: Optional[Access] = None) -> None:
        assert isinstance(self._cue, Rest) and not isinstance(self.outcome, (Stopped, type(None)))
        assert access.addr % 4 == 0 and (following is None or following.addr % 4 == 0)
        self.outcome = None
        self._handed = (access, following)
        self._send(None)

    def _send(self, value: object) -> None:
        try:
            self._cue = self._coroutine.send(value)  # type: ignore[arg-type, assignment]
        except _Stop as stop:
            self.outcome = Stopped(stop.end)
            self._cue = Rest()

    # -- single transactions

    def _ask(self, q: Request) -> Generator[Cue, int, int]:
        seen = yield Ask(q)
        self.requests += 1
        if q.ap and q.addr == 12:
            self._drw_sent(q)
        if seen not in (OK, WAIT, FAULT):
            raise _Stop(LOST)
        return seen

    def _drw_sent(self, q: Request) -> None:
        """`begun`: a DRW request was sent, for the access in hand or for the next one."""
        if self._asking_next:
            self._next_sent = True
            if self.variant == BLOCKS:
                self.begun = 2
        else:
            self.begun = max(self.begun, 1)

    def _event(self) -> None:
        self._events += 1
        if self._events > self.tries:
            raise _Stop(TRIES_OUT)

    def _exempt_read(self, q: Request) -> Co:
        """A DPIDR or CTRL/STAT read, which never gets WAIT or FAULT."""
        while True:
            seen = yield from self._ask(q)
            if seen != OK:
                yield Pass()
                raise _Stop(CONFUSED)
            word = word_of((yield Take()))
            if word is not None:
                return word
            self._event()

    def _abort(self, word: int) -> Co:
        seen = yield from self._ask(W_ABORT)
        if seen != OK:
            yield Pass()
            raise _Stop(CONFUSED)
        yield Give(data_bits(word))

    def _common(self, q: Request, word: Optional[int] = None) -> Co:
        """A request that may get WAIT or FAULT.

        Gives FAULT, or the 33 bits of a read, or None for a write.  A write whose word is not
        given stops short of its data phase.
        """
        while True:
            seen = yield from self._ask(q)
            if seen == OK:
                if q.read:
                    return (yield Take())
                if word is not None:
                    yield Give(data_bits(word))
                return None
            yield Pass()
            if seen == FAULT:
                return _FAULTED
            self._event()

    def _resend(self) -> Co:
        """RESEND until its parity is right; FAULT where it was answered."""
        while True:
            raw = yield from self._common(R_RESEND)
            if raw is _FAULTED:
                return _FAULTED
            word = word_of(raw)
            if word is not None:
                return word
            self._event()

    def _resend_or_confused(self) -> Co:
        word = yield from self._resend()
        if word is _FAULTED:
            yield from self._exempt_read(R_STAT)
            raise _Stop(CONFUSED)
        return word

    def _checked(self, raw: int) -> Co:
        """The value of an RDBUFF read that answers something."""
        word = word_of(raw)
        if word is None:
            self._event()
            word = yield from self._resend_or_confused()
        return word

    def _flags(self) -> Co:
        word = yield from self._exempt_read(R_STAT)
        return word & (STICKYERR | WDATAERR)

    def _clearing(self, owed: int) -> Co:
        """ABORT, until CTRL/STAT reads without these flags."""
        while True:
            word = (4 if owed & STICKYERR else 0) + (8 if owed & WDATAERR else 0)
            yield from self._abort(word)
            flags = yield from self._flags()
            if flags == 0:
                return None
            if flags != owed | WDATAERR:
                raise _Stop(CONFUSED)
            self._event()
            owed = flags

    def _write_again(self, flags: int, repeatable: bool) -> Co:
        """Whether the write before is to be sent again."""
        if flags == WDATAERR and repeatable:
            self._event()
            yield from self._clearing(WDATAERR)
            return None
        raise _Stop(CONFUSED)

    # -- the opening

    def _opening(self) -> Co:
        self._events = 0
        ident = yield from self._exempt_read(R_DPIDR)
        if not ident & 1:
            raise _Stop(End("WrongId", ident))
        while True:
            yield from self._abort(0x1E)
            flags = yield from self._flags()
            if not flags:
                break
            if self._stray and flags == STICKYERR:
                self._stray = False
                continue
            self._event()
        at = 4
        while True:
            if at == 4:
                got = yield from self._common(W_SELECT, 0)
                if got is _FAULTED:
                    flags = yield from self._flags()
                    if not (self._stray and flags == STICKYERR):
                        raise _Stop(CONFUSED)
                    self._stray = False
                    yield from self._clearing(flags)
                    continue
                at = 5
            elif at == 5:
                got = yield from self._common(W_STAT, 0x50000000)
                if got is _FAULTED:  # this write confirms SELECT
                    flags = yield from self._flags()
                    yield from self._write_again(flags, True)
                    at = 4
                    continue
                at = 6
            elif at == 6:
                word = yield from self._exempt_read(R_STAT)
                if word & STICKYERR:
                    raise _Stop(CONFUSED)
                if word & WDATAERR:
                    self._event()
                    yield from self._clearing(WDATAERR)
                    at = 5
                elif word & POWER != POWER:
                    self._event()
                else:
                    at = 7
            elif at == 7:
                got = yield from self._common(W_CSW, 0x23000012)
                if got is _FAULTED:
                    yield from self._flags()
                    raise _Stop(CONFUSED)
                at = 8
            elif at == 8:
                got = yield from self._common(R_CSW)
                if got is _FAULTED:  # this read confirms CSW
                    flags = yield from self._flags()
                    yield from self._write_again(flags, True)
                    at = 7
                    continue
                at = 9
            else:
                got = yield from self._common(R_RDBUFF)
                if got is _FAULTED:
                    yield from self._flags()
                    raise _Stop(CONFUSED)
                word = yield from self._checked(got)
                if word & 7 != 2 or word >> 4 & 3 != 1 or not word >> 6 & 1:
                    raise _Stop(CONFUSED)
                return None

    # -- an access

    def _main(self) -> Co:
        if not self.opened:
            yield Lead(100, False, 2) if self.resumed else Lead(56, True, 2)
            yield from self._opening()
        outcome: Outcome = Opened()
        while True:
            self.outcome = outcome
            self._handed = None
            self.begun = int(self._next_sent) if self.variant == BLOCKS else 0
            yield Rest()
            assert self._handed is not None
            self.begun = int(self._next_sent)
            access, following = self._handed
            self._events = 0
            answer = yield from self._access(access, following)
            outcome = Answered(answer)  # type: ignore[arg-type]

    def _access(self, access: Access, following: Optional[Access]) -> Co:
        drw_sent_ok, self._next_ok = self._next_ok, False
        self._next_sent = False
        if self._next_fails:  # answered at its start, with no request
            self._next_fails = False
            self._tar = None
            return BusFault()
        joined = continues(self.variant, access, following)
        drw = R_DRW if access.read else W_DRW
        tar_written = False
        at = "give" if drw_sent_ok else "tar"
        while True:
            if at == "give":  # pipelined: the DRW request of this access was answered OK already
                if not access.read:
                    yield Give(data_bits(access.word))  # type: ignore[arg-type]
                at = "confirm"
            elif at == "tar":
                if self._tar == access.addr and not tar_written:
                    at = "drw"
                    continue
                got = yield from self._common(W_TAR, access.addr)
                if got is _FAULTED:
                    yield from self._flags()
                    raise _Stop(CONFUSED)
                tar_written = True
                self._tar = access.addr
                at = "drw"
            elif at == "drw":
                got = yield from self._common(drw, access.word)
                if got is _FAULTED:  # DRW confirms TAR, where TAR was written for this access
                    flags = yield from self._flags()
                    yield from self._write_again(flags, tar_written)
                    at = "tar"
                    continue
                at = "confirm"
            else:
                self._asking_next = joined
                got = yield from self._common(drw if joined else R_RDBUFF)
                self._asking_next = False
                if got is not _FAULTED:
                    break
                flags = yield from self._flags()
                if flags == STICKYERR:
                    yield from self._clearing(flags)
                    self._tar = None
                    return BusFault()
                yield from self._write_again(flags, not access.read)
                at = "drw"
        # the confirming request was answered OK
        self._next_ok = joined
        after = (access.addr + 4) & WORD
        self._tar = None if after % 1024 == 0 else after
        if not access.read:
            return Written()
        if joined:
            return (yield from self._block_value(got))
        word = yield from self._checked(got)
        return Value(word)

    def _block_value(self, raw: int) -> Co:
        """The value that the next DRW read returned."""
        word = word_of(raw)
        if word is not None:
            return Value(word)
        self._event()
        word = yield from self._resend()
        if word is not _FAULTED:
            return Value(word)
        flags = yield from self._flags()
        if flags != STICKYERR:
            raise _Stop(CONFUSED)
        yield from self._clearing(flags)
        word = yield from self._resend_or_confused()
        self._next_ok = False
        self._next_sent = False
        self._next_fails = True
        return Value(word)


class _Faulted:
    pass


_FAULTED = _Faulted()


def continues(variant: str, access: Access, following: Optional[Access]) -> bool:
    """Does `following` continue the burst of `access`?"""
    if following is None:
        return False
    kind_is_read = variant == BLOCKS
    if access.read != kind_is_read or following.read != kind_is_read:
        return False
    return following.addr == access.addr + 4 and following.addr % 1024 != 0


# -------------------------------------------------------------------- runs

def drive(wire: Wire, engine: Engine) -> Outcome:
    """Carries out the engine's cues until there is an outcome."""
    while engine.outcome is None:
        cue = engine.cue()
        if isinstance(cue, Lead):
            wire.lead(cue.ones, cue.switch, cue.zeros)
            engine.done()
        elif isinstance(cue, Ask):
            engine.seen(wire.ask(cue.request))
        elif isinstance(cue, Take):
            engine.taken(wire.take())
        elif isinstance(cue, Give):
            wire.give(cue.value)
            engine.done()
        elif isinstance(cue, Pass):
            wire.pass_()
            engine.done()
        else:
            raise AssertionError("no cue")
    return engine.outcome


def run_engine(
    wire: Wire, engine: Engine, accesses: list[Access], answered: tuple[Answer, ...] = (), begun: int = 0
) -> Report:
    """The accesses from the first that isn't answered; `begun` is that of an earlier call."""
    answers = list(answered)
    old = len(answers)
    outcome = drive(wire, engine)
    while not isinstance(outcome, Stopped):
        if len(answers) == len(accesses):
            wire.lead(0, False, 8)
            return Report(tuple(answers), 0, engine.requests, ALL)
        i = len(answers)
        engine.start(accesses[i], accesses[i + 1] if i + 1 < len(accesses) else None)
        outcome = drive(wire, engine)
        if isinstance(outcome, Answered):
            answers.append(outcome.answer)
    now = engine.begun
    if begun:
        now = max(now, begun - (len(answers) - old))
    return Report(tuple(answers), now, engine.requests, outcome.end)


def run(wire: Wire, accesses: list[Access], tries: int, variant: str, opened: bool) -> Report:
    return run_engine(wire, Engine(tries, variant, opened=opened), accesses)


def resume(wire: Wire, accesses: list[Access], report: Report, tries: int) -> Report:
    assert report.ended == LOST and wire.due() == DUE_LOST
    return run_engine(wire, Engine(tries, PIPELINED, True), accesses, report.answers, report.begun)


# ---------------------------------------------------------------- recorder


class Recorder:
    """A `Wire` that keeps the bits as sent and seen, as the trace of a run has them."""

    def __init__(self, wire: Wire) -> None:
        self.wire = wire
        self.bits: list[int] = []
        self._request: Optional[Request] = None
        self._seen = 0

    def due(self) -> str:
        return self.wire.due()

    def lead(self, ones: int, switch: bool, zeros: int) -> None:
        self.wire.lead(ones, switch, zeros)
        self.bits += [1] * ones
        if switch:
            self.bits += bits_of_number(0xE79E, 16) + [1] * ones
        self.bits += [0] * zeros

    def _tx(self, end) -> None:
        assert self._request is not None
        self.bits += tx_bits(Tx(self._request, end))

    def ask(self, q: Request) -> int:
        self._request, self._seen = q, self.wire.ask(q)
        if self._seen not in (OK, WAIT, FAULT):
            self._tx(NoAck(self._seen))
        return self._seen

    def _data(self, value: int) -> None:
        word = value & WORD
        self._tx(Moved(word, data_bits(word) == value))

    def take(self) -> int:
        value = self.wire.take()
        self._data(value)
        return value

    def give(self, value: int) -> None:
        self.wire.give(value)
        self._data(value)

    def pass_(self) -> None:
        self.wire.pass_()
        self._tx(TxWait() if self._seen == WAIT else TxFault())
