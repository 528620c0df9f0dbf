"""The decoder of traces, and the items that it returns."""
import ctypes
import re
from dataclasses import dataclass
from typing import Any, Callable, Dict, Iterable, List, Optional, Union

from ._errors import DecoderFinished, LibraryRefused, NotABit
from ._library import DecoderStruct, ItemStruct, LibraryOrPath, library_functions


@dataclass(frozen=True)
class Reset:
    """A line reset: `count` ones, at least 50."""

    count: int

    def __str__(self) -> str:
        return f"reset {self.count}"


@dataclass(frozen=True)
class Switch:
    """The sixteen bits that switch from JTAG to serial wire, directly after a line reset."""

    def __str__(self) -> str:
        return "switch"


@dataclass(frozen=True)
class Idle:
    """`count` zeros."""

    count: int

    def __str__(self) -> str:
        return f"idle {self.count}"


@dataclass(frozen=True)
class Transaction:
    """A request and its result.

    `ap` says whether the request goes to the access port or the debug port, `read` whether it reads. `addr` is the
    register's address: 0, 4, 8 or 12. `ack` is the acknowledgement's three bits: 1 OK, 2 WAIT, 4 FAULT, else no ACK.
    `word` and `parity_ok` are None unless `ack` is 1."""

    ap: bool
    read: bool
    addr: int
    ack: int
    word: Optional[int] = None
    parity_ok: Optional[bool] = None

    def __str__(self) -> str:
        if self.ack == 1:
            result = f"{'ok' if self.parity_ok else 'bad'} {self.word:08x}"
        else:
            result = {2: "wait", 4: "fault"}.get(self.ack, f"none {self.ack}")
        return f"{'ap' if self.ap else 'dp'} {self.addr:x} {'read' if self.read else 'write'} {result}"


@dataclass(frozen=True)
class Junk:
    """A bit that belongs to no other item."""

    bit: int

    def __str__(self) -> str:
        return f"junk {self.bit}"


@dataclass(frozen=True)
class Cut:
    """The end of the trace inside a line reset or a transaction: 1 to 49 bits, as characters 0 and 1."""

    bits: str

    def __str__(self) -> str:
        return f"cut {self.bits}"


Item = Union[Reset, Switch, Idle, Transaction, Junk, Cut]


def _transaction(item: Any) -> Transaction:
    request, moved = item.request, item.ack == 1
    return Transaction(
        ap=bool(request >> 1 & 1),
        read=bool(request >> 2 & 1),
        addr=(request >> 3 & 3) << 2,
        ack=item.ack,
        word=item.word if moved else None,
        parity_ok=bool(item.parity_ok) if moved else None,
    )


_ITEMS: Dict[int, Callable[[Any], Item]] = {
    1: lambda item: Reset(item.count),
    2: lambda item: Switch(),
    3: lambda item: Idle(item.count),
    4: _transaction,
    5: lambda item: Junk(item.bits),
    6: lambda item: Cut("".join(str(item.bits >> place & 1) for place in range(item.count))),
}

Bits = Union[str, Iterable[int]]
_OTHER = re.compile("[^01]")


def _characters(bits: Bits) -> str:
    """Returns the bits as a string of 0 and 1."""
    if isinstance(bits, str):
        other = _OTHER.search(bits)
        if other:
            raise NotABit(f"bits[{other.start()}] is {other.group()!r}: a bit is '0' or '1'")
        return bits
    characters = []
    for place, bit in enumerate(bits):
        if bit != 0 and bit != 1:
            raise NotABit(f"bits[{place}] is {bit!r}: a bit is 0 or 1")
        characters.append("1" if bit else "0")
    return "".join(characters)


class Decoder:
    """Decodes a trace that arrives in pieces. How it is split into pieces doesn't change the items.

    All calls together return exactly the items of the whole trace."""

    def __init__(self, *, library: LibraryOrPath = None) -> None:
        self._functions = library_functions(library)
        self._decoder, self._item = DecoderStruct(), ItemStruct()
        self._here, self._there = ctypes.byref(self._decoder), ctypes.byref(self._item)
        self._finished = False
        self._functions.swd_decoder_new(self._here)

    @property
    def fed(self) -> int:
        """The number of bits it was fed."""
        return int(self._decoder.fed)

    def feed(self, bits: Bits) -> List[Item]:
        """Takes bits: a string of 0 and 1, or an iterable of such numbers. Returns the items that they decide: an item
        is decided when no later bits can change it.

        Raises `NotABit` before it takes any bit, and `DecoderFinished` after `finish`."""
        self._check()
        characters, items = _characters(bits), []  # type: ignore[var-annotated]
        for start in range(0, len(characters), 64):
            piece = characters[start:start + 64]
            self._take(int(piece[::-1], 2), len(piece), items)
        return items

    def _take(self, bits: int, count: int, items: List[Item]) -> None:
        while count > 0:
            taken = self._functions.swd_decoder_take(self._here, bits, count)
            if taken == 0:
                raise LibraryRefused("swd_decoder_take refused its decoder")
            bits >>= taken
            count -= taken
            self._collect(self._functions.swd_decoder_due, items)

    def _collect(self, function: Any, items: List[Item]) -> None:
        while function(self._here, self._there):
            items.append(_ITEMS[self._item.kind](self._item))

    def finish(self) -> List[Item]:
        """Ends the trace, and returns the remaining items."""
        self._check()
        self._finished = True
        items: List[Item] = []
        self._collect(self._functions.swd_decoder_last, items)
        return items

    def _check(self) -> None:
        if self._finished:
            raise DecoderFinished("the trace was ended by finish(): a new one needs a new Decoder")


def decode(bits: Bits, *, library: LibraryOrPath = None) -> List[Item]:
    """Decodes a whole trace: a string of 0 and 1, or an iterable of such numbers, one for each clock.

    `str()` of an item is its line in the listing of `swd decode`. Raises `NotABit` for anything but a bit."""
    decoder = Decoder(library=library)
    return decoder.feed(bits) + decoder.finish()


def trace_bits(text: str) -> str:
    """Returns the bits of a trace file, without spaces, tabs, line ends, and comments from # to the line's end.

    Raises `NotABit` for any other character, with its line."""
    kept = []
    for number, line in enumerate(text.split("\n"), 1):
        bits = "".join(line.partition("#")[0].translate({32: None, 9: None, 13: None}))
        other = _OTHER.search(bits)
        if other:
            raise NotABit(f"line {number} has {other.group()!r}: a trace has 0, 1, blanks and comments")
        kept.append(bits)
    return "".join(kept)
