"""A CMSIS-DAP probe: the transactions of a run by packets of transfers."""
from collections import deque
from types import TracebackType
from typing import Any, Deque, List, NamedTuple, Optional, Sequence, Tuple, Type

from ._accesses import Access, Write
from ._cues import DATA_BITS, Performer
from ._errors import ProbeFailed, number
from ._library import ASK, GIVE, LEAD, MOST_PLANNED, PASS, TAKE
from ._packets import AWAY, FIRST_SIZE, LONGEST, Packets, opened
from ._planned import HEAD, Beginning, Planned, longest_beginning
from ._runs import Run
from ._uses import Use, use_of

_INFO, _CONNECT, _DISCONNECT, _CONFIGURE, _TRANSFER = 0x00, 0x02, 0x03, 0x04, 0x05
_CLOCK, _LEAD, _TURNAROUND, _SEQUENCE, _UNKNOWN = 0x11, 0x12, 0x13, 0x1D, 0xFF
# The clocks that a packet of _LEAD drives.
_MOST_BITS = 256
_OK, _WAIT, _FAULT, _DAMAGED = 1, 2, 4, 8
# The idle cycles that the probe makes behind each transfer that is OK.
_IDLE = 8
_WRONG_PARITY = 1 << DATA_BITS - 1


class _Told(NamedTuple):
    """A transaction that the probe made: the three bits of its acknowledgement, and the 33 bits of the data phase
    behind OK."""

    planned: Planned
    seen: int
    bits: int


def _data(word: int) -> int:
    """Returns a word with its parity."""
    return word | (bin(word).count("1") & 1) << DATA_BITS - 1


class Probe:
    """A CMSIS-DAP probe, in the place of a line:

        with swd.Probe("/dev/hidraw0") as probe, swd.Session(probe) as session:
            print(hex(session.read(0x20000000)))

    `path` is a file of reports, as Linux has one for a probe of version 1 (`swd probes` lists them); or `hid:` or
    `usb:`, by Debian's python3-hid (version 1) or python3-usb (version 2), where there are several with a serial number
    behind. It may be two files, `IN,OUT`; `framed` says that each packet has its length before it, in two bytes.
    `speed` is that of SWCLK in hertz. A reply is waited for `timeout` seconds.

    A packet makes as many of the run's next transactions as fit. The probe stops at the first that isn't OK, and
    repeats none. A run of reads takes 0.07 packets a word, at packets of 64 bytes. `bursts` of a session makes no
    packet fuller: leave it off.

    Raises `ProbeFailed` if there is no such probe, or none that can be used. Where a reply can't be used, where none
    comes, and at Ctrl-C while one is awaited, the call raises what that of a line raises that fails. `begun` of its
    report then counts each access that the packet may have made. The probe is closed from then on, and each later call
    fails with `ProbeFailed`: make another one."""

    def __init__(self, path: str, *, framed: bool = False, speed: int = 1_000_000, timeout: float = 5.0) -> None:
        self._begin(opened(path, framed, timeout), speed)

    @classmethod
    def over(cls, packets: Packets, *, speed: int = 1_000_000) -> "Probe":
        """Returns a probe over a way of your own."""
        probe = cls.__new__(cls)
        probe._begin(packets, speed)
        return probe

    def _begin(self, packets: Packets, speed: int) -> None:
        self._packets, self._size = packets, FIRST_SIZE
        # Why nothing more may be sent, and whether the way is closed.
        self._failure: Optional[str] = None
        self._is_closed = False
        try:
            self._connect(number("speed", speed, 0xFFFF_FFFF))
        except BaseException:
            self._shut()
            raise

    def _connect(self, speed: int) -> None:
        reply = self.exchange(bytes([_INFO, 0xFF]), 2)
        if reply[1] != 2 or len(reply) < 4:
            raise ProbeFailed("this leads to no CMSIS-DAP probe: swd probes lists those of this machine")
        size = int.from_bytes(reply[2:4], "little")
        if not FIRST_SIZE <= size <= LONGEST:
            raise ProbeFailed(f"the probe's packets have {size} bytes: {FIRST_SIZE} to {LONGEST} can be used")
        self._size = size
        if self.exchange(bytes([_CONNECT, 1]), 2)[1] != 1:
            raise ProbeFailed("the probe has no serial wire: is it set to JTAG, or used by another program?")
        self.command(bytes([_CLOCK]) + speed.to_bytes(4, "little"))
        self.command(bytes([_CONFIGURE, _IDLE, 0, 0, 0, 0]))
        self.command(bytes([_TURNAROUND, 0]))

    @property
    def size(self) -> int:
        """The size of its packets in bytes."""
        return self._size

    def exchange(self, packet: bytes, least: int) -> bytes:
        """Sends a packet of a command, and returns its reply, which has so many bytes at least. After a failure, also
        at Ctrl-C, a reply may be unread, so that nothing more is sent."""
        if self._failure is not None:
            raise ProbeFailed(f"the probe is closed: {self._failure}")
        self._failure = "a call was broken off before its reply was read"
        try:
            reply = self._checked(packet[0], self._packets.exchange(packet, self._size), least)
        except OSError as failure:
            raise self.unusable(f"{AWAY} ({failure.strerror or failure})") from failure
        except Exception as failure:
            self._failure = str(failure)
            raise
        self._failure = None
        return reply

    @staticmethod
    def _checked(command: int, reply: bytes, least: int) -> bytes:
        if reply[:1] == bytes([_UNKNOWN]):
            raise ProbeFailed(
                f"the probe doesn't know command {command:02x}: it needs newer firmware, of CMSIS-DAP 1.2 or later",
            )
        if reply and reply[0] != command:
            raise ProbeFailed(f"the probe's reply is to command {reply[0]:02x}: does another program use it?")
        if len(reply) < least:
            raise ProbeFailed("the probe's reply is too short: are its packets framed?")
        return reply

    def command(self, packet: bytes, more: int = 0) -> bytes:
        """Sends a command whose reply is a status and so many bytes more, which it returns."""
        reply = self.exchange(packet, 2 + more)
        if reply[1] != 0:
            raise self.unusable(f"the probe refused command {packet[0]:02x}: plug it in again")
        return reply[2:2 + more]

    def unusable(self, why: str) -> ProbeFailed:
        """Closes the probe for this reason, and returns what has to be raised."""
        self._failure = why
        return ProbeFailed(why)

    def close(self) -> None:
        """Has the probe release its pins, if it can still be used, and closes it."""
        try:
            if self._failure is None:
                self.exchange(bytes([_DISCONNECT]), 1)
        except ProbeFailed:
            pass
        finally:
            self._failure = self._failure or "close() was called"
            self._shut()

    def _shut(self) -> None:
        if not self._is_closed:
            self._is_closed = True
            self._packets.close()

    def __enter__(self) -> "Probe":
        return self

    def __exit__(
        self, kind: Optional[Type[BaseException]], failure: Optional[BaseException], trace: Optional[TracebackType],
    ) -> None:
        self.close()


class ProbeWire:
    """Performs the cues of runs over a probe, ahead of the run by a packet."""

    def __init__(self, probe: Probe) -> None:
        self.over = probe
        self.use: Use = use_of(id(probe))
        self._run: Optional[Run] = None
        # What the probe made and the run didn't ask for yet; and what is left to come of the transaction it asked for.
        self._told: Deque[_Told] = deque()
        self._next: Optional[_Told] = None
        # Whether a read of the access port has a word that wasn't fetched, and whether idle cycles were made last.
        self._posted = self._idled = False
        self._clocks = Performer(self._drive, self._release, self._sample)
        self._queue: List[Tuple[int, bytes]] = []

    def begin(self, run: Run) -> None:
        """Has the wire perform this run from here on."""
        self._run, self._next = run, None
        self._told.clear()
        self._queue.clear()

    def perform(self, kind: int, cue: Any) -> int:
        """Performs a cue of the run, and returns the reply."""
        if kind == ASK:
            return self._ask(cue)
        if kind == LEAD:
            self._lead(cue)
            return 0
        told, self._next = self._next, None
        if told is None:
            return self._by_clocks(kind, cue)
        if kind == PASS or kind == GIVE and told.bits == cue.bits:
            return 0
        if kind == TAKE:
            return told.bits
        raise self.over.unusable("the run's data phase isn't the planned one")

    def _ask(self, cue: Any) -> int:
        if not self._told:
            run = self._known()
            beginning = longest_beginning(run.plan(), self.over.size, self._posted)
            if beginning is None:
                return self._ask_by_clocks(cue)
            self._make(run, beginning)
        told = self._told.popleft()
        if told.planned.request != cue.request:
            raise self.over.unusable("the run's request isn't the planned one")
        self._posted = told.planned.leaves_posted(self._posted) if told.seen == _OK else self._posted
        self._idled, self._next = told.seen == _OK, told
        return told.seen

    def _make(self, run: Run, beginning: Beginning) -> None:
        """Has the probe make these transactions. They are in doubt until the run has taken what was told of them."""
        packet = bytearray((_TRANSFER, 0, beginning.requests))
        for it in beginning.planned[:beginning.requests]:
            packet.append(it.request >> 1 & 15)
            if not it.reads:
                packet += it.word.to_bytes(4, "little")
        run.doubt(beginning.planned)
        told = _told_of(beginning, self.over.exchange(bytes(packet), HEAD))
        if told is None:
            raise self.over.unusable("the probe's reply is impossible: nothing is known of its last transfers")
        self._told.extend(told)

    def _known(self) -> Run:
        """Returns the run, which has taken what was told before."""
        assert self._run is not None
        self._run.doubt(None)
        return self._run

    def _ask_by_clocks(self, cue: Any) -> int:
        seen = self._clocks.perform(ASK, cue)
        if seen == _OK:
            self._posted = Planned(cue.request, 0).leaves_posted(self._posted)
        self._idled, self._next = False, None
        return seen

    def _by_clocks(self, kind: int, cue: Any) -> int:
        """Makes the rest of a transaction by sequences, with the turnaround behind it in the same packet."""
        if kind == TAKE:
            return self._sample(DATA_BITS + 1) & (1 << DATA_BITS) - 1
        self._clocks.perform(kind, cue)
        self.flush()
        return 0

    def _lead(self, cue: Any) -> None:
        self._known()
        is_made = self._idled and cue.ones == 0 and cue.zeros <= _IDLE
        self._idled = False
        if is_made:
            return
        self._clocks.perform(LEAD, cue)
        driven = [it for it in self._queue if not it[0] & 0x80]
        self._queue = [it for it in self._queue if it[0] & 0x80]
        self.flush()
        bits, count = 0, 0
        for info, levels in driven:
            bits, count = bits | int.from_bytes(levels, "little") << count, count + (info & 63 or 64)
        # Probes of any version know this command.
        for place in range(0, count, _MOST_BITS):
            some = min(count - place, _MOST_BITS)
            part = bits >> place & (1 << some) - 1
            self.over.command(bytes((_LEAD, some & 0xFF)) + part.to_bytes((some + 7) // 8, "little"))

    def _drive(self, bits: int, count: int) -> None:
        self._queue.append((count & 63, (bits & (1 << count) - 1).to_bytes((count + 7) // 8, "little")))

    def _release(self, count: int) -> None:
        self._queue.append((0x80 | count & 63, b""))

    def _sample(self, count: int) -> int:
        self._release(count)
        return self._exchanged(count)

    def flush(self) -> None:
        """Has the probe make the sequences that wait."""
        if self._queue:
            self._exchanged(0)

    def _exchanged(self, count: int) -> int:
        """Makes the sequences that wait, by as many packets as they need. Returns the last so many levels, of the last
        sequence."""
        packets: List[List[Tuple[int, bytes]]] = [[]]
        for it in self._queue:
            taken = packets[-1]
            if sum(1 + len(bits) for _, bits in [*taken, it]) + 2 > FIRST_SIZE or _levels([*taken, it]) + 2 > FIRST_SIZE:
                packets.append([])
            packets[-1].append(it)
        self._queue = []
        levels = b""
        for sequences in packets:
            packet = bytes((_SEQUENCE, len(sequences))) + b"".join(bytes([info]) + bits for info, bits in sequences)
            levels = self.over.command(packet, _levels(sequences))
        return int.from_bytes(levels[len(levels) - (count + 7) // 8:], "little") & (1 << count) - 1

    def leave(self) -> None:
        """There is no cue to leave: what the probe began, it made, or it is closed."""

    def ends(self, accesses: Sequence[Access], reads: bool) -> List[int]:
        """Returns where a list is cut, so that each burst of reads, or of writes, goes by one packet."""
        # A write of TAR comes before a burst, and a read of RDBUFF behind it.
        room = self.over.size - HEAD
        most = min(room // 4, MOST_PLANNED - 2) if reads else min(room // 5 - 1, MOST_PLANNED - 2)
        found, burst, before = [], 0, None
        for place, it in enumerate(accesses):
            goes_on = before is not None and isinstance(it, Write) != reads and type(it) is type(before) \
                and it.addr == before.addr + 4
            burst, before = burst + 1 if goes_on else 1, it
            if burst > most:
                found.append(place)
                burst = 1
        return [*found, len(accesses)]


def _levels(sequences: Sequence[Tuple[int, bytes]]) -> int:
    """How many bytes of levels these sequences have."""
    return sum(((info & 63 or 64) + 7) // 8 for info, _ in sequences if info & 0x80)


def _told_of(beginning: Beginning, reply: bytes) -> Optional[List[_Told]]:
    """Returns what a reply says of these transactions, up to the first that wasn't OK; or None of one that can't be."""
    done, value = reply[1], reply[2]
    planned = beginning.planned
    if done != beginning.requests if value == _OK else done >= len(planned):
        return None
    made = planned if value == _OK else planned[:done]
    told, place, behind = [], HEAD, False
    for it in made:
        word = it.word
        if behind or it.reads_dp:
            if place + 4 > len(reply):
                return None
            fetched, place = int.from_bytes(reply[place:place + 4], "little"), place + 4
            word = fetched if it.reads else word
        behind = it.posts
        told.append(_Told(it, _OK, _data(word)))
    if value == _DAMAGED and planned[done].reads:
        told.append(_Told(planned[done], _OK, _WRONG_PARITY))
    elif value != _OK:
        if value >= _DAMAGED:
            return None
        told.append(_Told(planned[done], value, 0))
    return told


