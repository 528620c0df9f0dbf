"""The checker of a trace: whether a target that conforms to the port model may show its items."""
import ctypes
from dataclasses import dataclass
from typing import Any, Dict, Iterable, List, Optional, Union, get_args

from ._decoding import Bits, Cut, Decoder, Idle, Item, Junk, Reset, Switch, Transaction
from ._errors import DecoderFinished, LibraryRefused, NotAnItem, OutOfRange, number
from ._library import CheckStruct, ItemStruct, LibraryOrPath, VerdictStruct, library_functions

_ITEMS = get_args(Item)
_STARTS = {"made": 1, "rest": 2, "any": 3}
_KINDS = {1: "fits", 2: "breaks", 3: "crowded"}
# As swd.h has them.
_RULES = {
    1: "after a line reset only a read of DPIDR is answered",
    2: "each request is acknowledged",
    3: "reads of DPIDR and CTRL/STAT and writes of ABORT get neither WAIT nor FAULT",
    4: "FAULT is answered while a sticky flag is set, and not else",
    5: "an access port without debug power answers FAULT",
    6: "FAULT takes precedence over WAIT",
    7: "a posted read returns the result of the read before it",
    8: "RESEND returns the last returned value again",
    9: "CTRL/STAT shows the flags and the powers",
    10: "DPIDR reads the same word each time, and its bit 0 is 1",
    11: "the parity of a word is even",
}


@dataclass(frozen=True)
class Verdict:
    """What the items so far show.

    `kind` is `"fits"` if some run of the port model explains them, and `"breaks"` if none explains those up to the one
    at `place`: `rule` is the rule that it breaks, in the standard's words. It is `"crowded"` if that isn't decided from
    `place` on: more states of the target are possible than a checker holds.

    A place is a number of bits. `began` is that of the first item that was checked, or None if none was: `"fits"` says
    nothing then, and `swd check` prints `crowded @0`. `faults` is how many requests were damaged or lost at least, and
    `gaps` how many times stray bits hid what came before a line reset."""

    kind: str
    place: Optional[int]
    rule: Optional[str]
    began: Optional[int]
    faults: int
    gaps: int

    def __str__(self) -> str:
        at = "" if self.place is None else f" @{self.place}"
        return f"{self.kind}{at}" + ("" if self.rule is None else f": {self.rule}")


def _count(name: str, value: object) -> Dict[str, int]:
    return {"count": number(name, value, 2**64 - 1)}


def _cut_fields(bits: object) -> Dict[str, int]:
    if not isinstance(bits, str) or not 1 <= len(bits) <= 49 or bits.strip("01"):
        raise NotAnItem(f"Cut.bits is {bits!r}: it has to be 1 to 49 characters 0 and 1")
    return {"kind": 6, "count": len(bits), "bits": int(bits[::-1], 2)}


def _request(item: Transaction) -> int:
    """Returns the eight bits of the request."""
    if item.addr not in (0, 4, 8, 12):
        raise NotAnItem(f"Transaction.addr is {item.addr!r}: it has to be 0, 4, 8 or 12")
    asked = bool(item.ap) | bool(item.read) << 1 | number("Transaction.addr", item.addr, 12)
    return 0x81 | asked << 1 | (bin(asked).count("1") & 1) << 5


def _transaction_fields(item: Transaction) -> Dict[str, int]:
    fields = {"kind": 4, "request": _request(item), "ack": number("Transaction.ack", item.ack, 7)}
    if item.ack == 1:
        fields["word"] = number("Transaction.word", item.word, 0xFFFF_FFFF)
        fields["parity_ok"] = int(bool(item.parity_ok))
    return fields


def _fields(item: object) -> Dict[str, int]:
    """Returns the fields of an item's struct that aren't 0."""
    if isinstance(item, Transaction):
        return _transaction_fields(item)
    if isinstance(item, Reset):
        return {"kind": 1, **_count("Reset.count", item.count)}
    if isinstance(item, Switch):
        return {"kind": 2}
    if isinstance(item, Idle):
        return {"kind": 3, **_count("Idle.count", item.count)}
    if isinstance(item, Junk):
        return {"kind": 5, "bits": number("Junk.bit", item.bit, 1)}
    if isinstance(item, Cut):
        return _cut_fields(item.bits)
    raise NotAnItem(f"{item!r} is no item of a trace")


def _bits_in(fields: Dict[str, int]) -> int:
    """Returns how many bits an item has (IHI 0031, B4)."""
    kind = fields["kind"]
    if kind == 4:
        return {1: 46, 2: 13, 4: 13}.get(fields["ack"], 12)
    return {2: 16, 5: 1}[kind] if kind in (2, 5) else fields["count"]


class Checker:
    """Checks a trace that arrives in pieces, as bits or as items: may a target that conforms to the port model show it?

    `start` says what is known of the target before the first item: `"made"`, its reset state, with no line reset yet
    and each register 0; `"rest"`, SELECT 0 and no transfer in progress, as after a reset of its power; or `"any"`.
    `clean` says that nothing is damaged or lost on the line, as in a simulation.

    `docs/CONFORMANCE.md` of the library's repository says what a verdict says, and what it doesn't."""

    def __init__(self, start: str = "any", clean: bool = False, *, library: LibraryOrPath = None) -> None:
        if start not in _STARTS:
            raise OutOfRange(f"start is {start!r}: it has to be 'made', 'rest' or 'any'")
        self._functions = library_functions(library)
        self._check, self._verdict = CheckStruct(), VerdictStruct()
        self._here, self._there = ctypes.byref(self._check), ctypes.byref(self._verdict)
        self._decoder: Optional[Decoder] = None
        self._library = library
        self._finished = False
        self._place = 0
        self._functions.swd_check_new(self._here, _STARTS[start], bool(clean))

    @property
    def place(self) -> int:
        """The number of bits before the next item."""
        return self._place

    @property
    def verdict(self) -> Verdict:
        """What the items so far show. Bits that don't decide an item yet aren't looked at: `finish` ends the trace."""
        if not self._functions.swd_check_verdict(self._here, self._there):
            raise LibraryRefused("swd_check_verdict refused its checker")
        found = self._verdict
        kind = _KINDS[found.kind]
        return Verdict(
            kind=kind,
            place=None if kind == "fits" else int(found.place),
            rule=_RULES[found.rule] if kind == "breaks" else None,
            began=int(found.began) if found.has_began else None,
            faults=int(found.faults),
            gaps=int(found.gaps),
        )

    def feed(self, bits_or_items: Union[Bits, Iterable[Item]]) -> None:
        """Takes bits as `Decoder.feed` does, a string of 0 and 1 or an iterable of such numbers, or an iterable of
        items in the order of the trace. A checker takes bits alone, or items alone: what has no item is taken for bits.

        Raises `NotABit`, `NotAnItem` or `OutOfRange` before it takes any, and `DecoderFinished` after `finish`."""
        if self._finished:
            raise DecoderFinished("the trace was ended by finish(): a new one needs a new Checker")
        given: Any = bits_or_items if isinstance(bits_or_items, str) else list(bits_or_items)
        if not given:
            return
        if isinstance(given, str) or not any(isinstance(it, _ITEMS) for it in given):
            decoder = self._decoding()
            items = decoder.feed(given)
            # Only now: bits that are refused leave the checker as it was.
            self._decoder = decoder
            self._watch([_fields(it) for it in items])
        elif self._decoder is not None:
            raise NotAnItem("this checker was fed bits: it takes no items")
        else:
            self._watch([_fields(it) for it in given])

    def _decoding(self) -> Decoder:
        """Returns the decoder of the bits so far, or a new one."""
        if self._decoder is None and self._place:
            raise NotAnItem("this checker was fed items: it takes no bits")
        return self._decoder or Decoder(library=self._library)

    def finish(self) -> None:
        """Ends the trace: also takes the items that its last bits are."""
        if not self._finished and self._decoder is not None:
            self._watch([_fields(it) for it in self._decoder.finish()])
        self._finished = True

    def _watch(self, items: List[Dict[str, int]]) -> None:
        for fields in items:
            item = ItemStruct(**fields)
            if not self._functions.swd_check_watch(self._here, ctypes.byref(item), self._place):
                raise LibraryRefused("swd_check_watch refused its checker")
            self._place = min(self._place + _bits_in(fields), 2**64 - 1)
