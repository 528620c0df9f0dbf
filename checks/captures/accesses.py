"""What the parts of a capture show of the target's memory, by the rules of docs/PROTOCOL.md and `swd decode --help`.

A line is a place, `r` or `w` or `gap`, an address and a word, or None where these are unknown, and `took`, `may` or
`not`.
"""
from dataclasses import dataclass, replace
from typing import NamedTuple, Optional

from captures.reading import TRANSACTIONS

STICKYERR, WDATAERR = 1 << 5, 1 << 7


class Line(NamedTuple):
    place: int
    kind: str
    address: Optional[int] = None
    word: Optional[int] = None
    how: str = "took"

    def __str__(self):
        if self.kind == "gap":
            return f"@{self.place} gap"
        numbers = ("????????" if value is None else f"{value:08x}" for value in (self.address, self.word))
        return f"@{self.place} {self.kind} {' '.join(numbers)}" + ("" if self.how == "took" else f" {self.how}")


class Sent(NamedTuple):
    """A write that was answered OK and isn't confirmed: its register, its word, its place."""
    register: str
    word: Optional[int]
    place: int


class Begun(NamedTuple):
    """A transfer that was begun and isn't confirmed."""
    reads: bool
    word: Optional[int]
    place: int


class Older(NamedTuple):
    """A read that took effect, and what holds its word: the buffer, or the value that was returned last."""
    place: int
    address: Optional[int]
    holder: str


@dataclass(frozen=True)
class Observer:
    """What is known of the target; None where it isn't."""
    select: Optional[int] = None
    increments: Optional[bool] = None
    tar: Optional[int] = None
    sent: Optional[Sent] = None
    begun: Optional[Begun] = None
    older: Optional[Older] = None

    def arrived(self):
        """The write that was sent arrived."""
        if self.sent is None:
            return self
        register, word, place = self.sent
        now = replace(self, sent=None)
        if register == "select":
            return replace(now, select=None if word is None else word & 0xFF0000FF)
        if register == "csw":
            known = word is not None and word & 7 == 2 and word >> 4 & 3 < 2
            return replace(now, increments=word >> 4 & 3 == 1 if known else None)
        if register == "tar":
            return replace(now, tar=word)
        return replace(now, begun=Begun(False, None if self.increments is None else word, place))

    def advanced(self):
        if self.increments is None:
            return None
        if not self.increments:
            return self.tar
        return None if self.tar is None or self.tar % 4 or self.tar % 1024 == 1020 else self.tar + 4

    def confirmed(self):
        now = self.arrived()
        return replace(now, tar=now.advanced() if now.begun else now.tar, begun=None, older=None)

    def doubted(self):
        now = replace(self, sent=self.sent and self.sent._replace(word=None)).arrived()
        return replace(now, tar=None if now.begun else now.tar, begun=None, older=None)

    def flight(self, how, got=None):
        """The line of the access in flight."""
        now = self.arrived()
        if now.begun is None:
            return []
        reads, word, place = now.begun
        return [Line(place, "r" if reads else "w", now.tar, got if reads else word, how)]

    def held(self, word=None):
        """The line of the older read."""
        return [Line(self.older.place, "r", self.older.address, word)] if self.older else []

    def last(self):
        return self.held() + self.flight("may")


class Request(NamedTuple):
    port: str
    address: str
    reads: bool


def effect(select, request):
    """What a request does that is answered OK: ("reads"|"writes"|"may read"|"may write"|"elsewhere"|"other",
    register)."""
    port, address, reads = request
    if port == "dp":
        return ("writes", "select") if not reads and address == "8" else ("other", None)
    register = {"0": "csw", "4": "tar", "c": "drw"}.get(address)
    if reads:
        kind = "reads" if address == "c" else "other"
    else:
        kind = "writes" if register else "other"
    if select is None:
        return {"reads": "may read", "writes": "may write"}.get(kind, kind), register
    bank = select >> 4 & 15
    if select >> 24 == 0 and bank == 0:
        return kind, register
    return ("elsewhere", None) if bank == 1 or bank == 0 and address == "c" else ("other", None)


def is_bank_zero(observer):
    known = observer.select is not None and observer.select & 15 == 0
    return known and not (observer.sent and observer.sent.register == "select")


def is_other_bank(observer):
    known = observer.select is not None and observer.select & 15 != 0
    return known and not (observer.sent and observer.sent.register == "select")


def after_status(observer, word):
    """CTRL/STAT was read in a bank that is known."""
    if not word & (STICKYERR | WDATAERR):
        return [], observer.arrived()
    lines, begun = observer.flight("not"), observer.arrived().begun
    now = replace(observer, sent=None) if word & WDATAERR else observer.arrived()
    return lines, replace(now, tar=None if word & STICKYERR and begun else now.tar, begun=None)


def after_confirm(observer, request, word, place):
    """OK to a request that can be refused."""
    arrived, now = observer.arrived(), observer.confirmed()
    kind, register = effect(now.select, request)
    posted = request.reads and (request.port == "ap" or request.address == "c")
    resend = request.port == "dp" and request.reads and request.address == "8"
    holder = "buffer" if resend else "returned" if posted and word is None and kind in ("other", "reads") else None
    slot = None
    if arrived.begun and arrived.begun.reads and holder:
        slot = Older(arrived.begun.place, arrived.tar, holder)
    known = word if observer.increments is not None else None
    returned = observer.older and (posted if observer.older.holder == "buffer" else resend)
    lines = observer.held(known if returned else None)
    if not slot:
        lines += observer.flight("took", known if posted else None)
    if kind == "elsewhere":
        lines.append(Line(place, "r" if request.reads else "w", how="may"))
    elif kind == "may read":
        lines.append(Line(place, "r", now.tar, how="may"))
        now = replace(now, tar=None)
    elif kind == "may write":
        if register == "drw":
            lines.append(Line(place, "w", now.tar, word if now.increments is not None else None, "may"))
        is_csw = register == "csw"
        now = replace(now, increments=None if is_csw else now.increments, tar=now.tar if is_csw else None)
    elif kind == "reads":
        now = replace(now, begun=Begun(True, None, place))
    elif kind == "writes":
        now = replace(now, sent=Sent(register, word, place))
    return lines, replace(now, older=slot)


def after_transaction(observer, part):
    port, address, direction, end, *word = part.line.split()
    request = Request(port, address, direction == "read")
    if end in ("wait", "fault"):
        return [], observer
    if end == "none":
        lines, now = observer.last(), observer.doubted()
        if effect(now.select, request)[0] in ("reads", "may read"):
            lines.append(Line(part.place, "r", now.tar, how="may"))
            now = replace(now, tar=None)
        return lines, now
    word = int(word[0], 16) if end == "ok" else None
    if port == "dp" and address == "0":
        return ([], observer) if request.reads else (observer.last(), observer.doubted())
    if port == "dp" and address == "4" and request.reads and not is_other_bank(observer):
        lines, now = after_status(observer, word) if word is not None and is_bank_zero(observer) else ([], observer)
        return observer.held() + lines, replace(now, older=None)
    return after_confirm(observer, request, word, part.place)


def in_gaps(parts):
    """The indexes of the parts that belong to a gap: skips, cut ends, and what stands directly before a skip."""
    gaps = set()
    for index, part in enumerate(parts):
        if part.kind in ("skip", "cut"):
            gaps.add(index)
        if part.kind == "skip":
            before = index - 1
            while before >= 0 and parts[before].kind == "idle":
                before -= 1
            if before >= 0 and parts[before].kind in TRANSACTIONS:
                gaps.update(range(before, index))
    return gaps


def accesses(parts, made=False):
    """The lines of the accesses. `made`: the target begins in its reset state."""
    observer = Observer(0, False, 0) if made else Observer()
    gaps, lines, before = in_gaps(parts), [], False
    for index, part in enumerate(parts):
        gap = index in gaps
        if gap:
            lines += observer.last() + ([] if before else [Line(part.place, "gap")])
            observer = Observer()
        elif part.kind in TRANSACTIONS:
            more, observer = after_transaction(observer, part)
            lines += more
        before = gap
    return lines + observer.last()
