"""The parts of a capture by the rules of docs/PROTOCOL.md, as a program that searches backwards from each loss."""
from dataclasses import dataclass

SWITCH = "0111100111100111"
ONES = "1" * 50
ACKS = {"100": "ok", "010": "wait", "001": "fault"}
TRANSACTIONS = ("ok", "bad", "wait", "fault", "none")
SOUND = ("ok", "wait", "fault")
DATA_PHASE = 33


def requests():
    """The bits of each request, and how its line begins."""
    for port in (0, 1):
        for reads in (0, 1):
            for address in range(4):
                low, high = address & 1, address >> 1
                parity = (port + reads + low + high) & 1
                name = f"{('dp', 'ap')[port]} {'048c'[address]} {('write', 'read')[reads]}"
                yield f"1{port}{reads}{low}{high}{parity}01", name, reads


REQUESTS = {bits: (name, reads) for bits, name, reads in requests()}
BEGINNINGS = {bits[:n] for bits in REQUESTS for n in range(1, 9)}


@dataclass(frozen=True)
class Part:
    """A part: the number of bits before it, its number of bits, its kind, and its line."""
    place: int
    length: int
    kind: str
    line: str


@dataclass(frozen=True)
class Overrun:
    """Whether a data phase follows WAIT and FAULT, and whether DP address 4 is CTRL/STAT."""
    phases: bool
    bank_zero: bool = True

    def after(self, part):
        """What is known after a transaction."""
        if part.kind != "ok":
            return self
        word = int(part.line[-8:], 16)
        if part.line.startswith("dp 8 write"):
            return Overrun(self.phases, word % 16 == 0)
        if part.line.startswith("dp 4 write") and self.bank_zero:
            return Overrun(word % 2 == 1, self.bank_zero)
        return self

    def turned(self):
        return Overrun(not self.phases, self.bank_zero)


def past(bits, at, bit="0"):
    """The place behind the equal bits here."""
    end = bits.find("10"[bit == "1"], at)
    return len(bits) if end < 0 else end


def transaction(bits, at):
    """The transaction here, without a data phase behind WAIT and FAULT, if it is whole."""
    request, ack = REQUESTS.get(bits[at:at + 8]), bits[at + 9:at + 12]
    if request is None or len(ack) < 3:
        return None
    name, reads = request
    end = ACKS.get(ack)
    if end is None:
        return Part(at, 12, "none", f"{name} none {int(ack[::-1], 2)}")
    length = 46 if end == "ok" else 13
    if at + length > len(bits):
        return None
    if end != "ok":
        return Part(at, 13, end, f"{name} {end}")
    phase = bits[at + 12:at + 45] if reads else bits[at + 13:at + 46]
    kind = "ok" if phase.count("1") % 2 == 0 else "bad"
    return Part(at, 46, kind, f"{name} {kind} {int(phase[:32][::-1], 2):08x}")


def whole(bits, at, over):
    """The same with the data phase that is expected."""
    found = transaction(bits, at)
    if found and found.kind in ("wait", "fault") and over.phases:
        return Part(at, 46, found.kind, found.line) if at + 46 <= len(bits) else None
    return found


def is_begun(bits, at, phases):
    """The rest is a proper beginning of fifty ones or of a transaction."""
    rest = bits[at:]
    if len(rest) < 50 and "0" not in rest:
        return True
    if len(rest) < 8:
        return rest in BEGINNINGS
    if rest[:8] not in REQUESTS:
        return False
    if len(rest) < 12:
        return True
    end = ACKS.get(rest[9:12])
    return end is not None and len(rest) < (46 if end == "ok" or phases else 13)


def goes_on(bits, at, soundly=False):
    """Behind any zeros: the end, fifty ones, the beginning of either, or a transaction, which is sound if that is
    asked."""
    at = past(bits, at)
    found = transaction(bits, at)
    if at == len(bits) or bits.startswith(ONES, at):
        return True
    return found.kind in SOUND or not soundly if found else is_begun(bits, at, False)


def is_lost_after(bits, found):
    end = found.place + found.length
    if found.kind == "none":
        return end != len(bits) and not bits.startswith(ONES, end)
    return not goes_on(bits, end)


def has_other_length(bits, found, over):
    end = found.place + (13 if over.phases else 46)
    return found.kind in ("wait", "fault") and end <= len(bits) and goes_on(bits, end, soundly=True)


def is_pair(bits, at, over):
    first = whole(bits, at, over)
    if not first or first.kind not in SOUND:
        return False
    second = transaction(bits, past(bits, at + first.length))
    return bool(second and second.kind in SOUND)


def first_pair(bits, at, end, over):
    return next((place for place in range(at, end) if bits[place] == "1" and is_pair(bits, place, over)), None)


def starts_at_once(bits, over):
    """A stretch begins with the capture."""
    if not goes_on(bits, 0) and not is_begun(bits, past(bits, 0), over.phases):
        return False
    found = whole(bits, past(bits, 0), over)
    return found is None or not is_lost_after(bits, found) or has_other_length(bits, found, over)


class Reader:
    """The parts so far, the place behind them, and what is known there."""

    def __init__(self, bits, phases):
        self.bits, self.over, self.parts = bits, Overrun(phases), []
        self.at, self.before = 0, None
        self.between = not starts_at_once(bits, self.over)

    def skip(self, end):
        """Skips the bits up to here, with those that were skipped directly before."""
        begin = self.at
        if end > begin:
            if self.parts and self.parts[-1].kind == "skip":
                begin = self.parts.pop().place
            self.parts.append(Part(begin, end - begin, "skip", f"skip {end - begin}"))
        self.at, self.before = end, None

    def tell(self, kind, length, line):
        self.parts.append(Part(self.at, length, kind, line))
        self.at, self.before = self.at + length, kind

    def find(self):
        """Skips the bits before the next stretch."""
        ones = self.bits.find(ONES, self.at)
        ones = len(self.bits) if ones < 0 else ones
        pair = first_pair(self.bits, self.at, ones, self.over)
        self.skip(ones if pair is None else pair)
        self.between = False

    def take(self, found):
        """Tells a transaction, or skips its bits up to the pair that begins inside it."""
        lost = is_lost_after(self.bits, found)
        if lost and has_other_length(self.bits, found, self.over):
            self.tell(found.kind, 13, found.line)
            self.before = None
            if not self.over.phases:
                self.skip(self.at + DATA_PHASE)
            self.over = self.over.turned()
            return
        pair = first_pair(self.bits, self.at + 1, self.at + found.length, self.over) if lost else None
        if pair is not None:
            self.skip(pair)
            return
        self.over = self.over.after(found)
        self.tell(found.kind, found.length, found.line)
        self.between = lost and found.kind == "none"

    def cut(self):
        rest = self.bits[self.at:]
        self.tell("cut", len(rest), f"cut {rest}")

    def step(self):
        bits, at = self.bits, self.at
        if self.between:
            self.find()
        elif bits.startswith(ONES, at):
            count = past(bits, at, "1") - at
            self.tell("reset", count, f"reset {count}")
        elif self.before == "switch":
            if "0" not in bits[at:]:
                self.cut()
            self.between = True
        elif self.before == "reset" and bits.startswith(SWITCH, at):
            self.tell("switch", 16, "switch")
        elif bits[at] == "0":
            count = past(bits, at) - at
            self.tell("idle", count, f"idle {count}")
        elif found := whole(bits, at, self.over):
            self.take(found)
        else:
            if is_begun(bits, at, self.over.phases):
                self.cut()
            self.between = True


def read(bits, phases):
    """The parts of a capture. `phases`: a data phase follows WAIT and FAULT at its beginning."""
    reader = Reader(bits, phases)
    while reader.at < len(bits):
        reader.step()
    return reader.parts
