"""Decides whether a trace fits the port model: the rules of docs/PROTOCOL.md as a program of its own.

It keeps all *worlds* in which the target may be. A world is a tuple of fields, and a word in it is `ANY` (any word,
anew at each use), `SOME` (one word, not known), a pair of a mask and the bits under it, or a set of words. An item is a
tuple: ("reset", ones), ("idle", zeros), ("switch",), ("junk", bit), ("cut", bits), or ("tx", port, address, direction,
end, word) as a listing has them, with `ap` or `dp`, 0, 4, 8 or 12, `read` or `write`, and `ok`, `bad`, `wait`, `fault`
or `none`.
"""
from collections import namedtuple
from itertools import product

MOST = 64
STRAY = 34
COMPARED = 0xF00000E0
ANY, SOME = "any", "some"
World = namedtuple(
    "World", "reset sticky damaged readok debug system memap bank0 single pending awaits tar buffer last"
)
MADE = World("none", False, False, False, "off", "off", True, True, False, None, False, (0, 0), ANY, ANY)
LIVE = MADE._replace(reset="live", tar=None)
DP = {("read", 0): "DPIDR", ("write", 0): "ABORT", ("read", 8): "RESEND", ("write", 8): "SELECT",
      ("read", 12): "RDBUFF", ("write", 12): "nothing"}
AP = {("read", 0): "CSW", ("write", 0): "CSW=", ("read", 4): "TAR", ("write", 4): "TAR=", ("read", 12): "DRW",
      ("write", 12): "DRW="}
EXEMPT = {"DPIDR", "ABORT", "STATUS"}
POSTED = {"RDBUFF", "CSW", "TAR", "DRW", "OTHER"}


def length(item):
    """How many bits an item has."""
    if item[0] in ("reset", "idle"):
        return item[1]
    if item[0] == "tx":
        return {"ok": 46, "bad": 46, "wait": 13, "fault": 13, "none": 12}[item[4]]
    return {"switch": 16, "junk": 1}.get(item[0]) or len(item[1])


def near(word):
    """The words that a data phase with wrong parity may be meant for: one of its 33 bits was changed."""
    return frozenset([word] + [word ^ 1 << place for place in range(32)])


def fixed(single):
    """The bits of CSW that are fixed where it is read, and their value."""
    return 0x77, 0x52 if single else 0x42


def is_like(word, held):
    return word in held if isinstance(held, frozenset) else word & held[0] == held[1]


def narrowed(held, seen):
    """What a held word may be once it was seen as one of these, or None."""
    if held == ANY:
        return ANY
    return frozenset(seen if held == SOME else (word for word in seen if is_like(word, held))) or None


def is_wider(a, b):
    if a == b or a == ANY or (a == SOME and b != ANY):
        return True
    return isinstance(b, frozenset) and a != SOME and all(is_like(word, a) for word in b)


# ---- one world

def register(world, item):
    port, address, direction = item[1:4]
    if port == "ap":
        other = "OTHER" if direction == "read" else "OTHER="
        return AP.get((direction, address), other) if world.memap else other
    if address == 4:
        if not world.bank0:
            return "BANK" if direction == "read" else "nothing"
        return "STATUS" if direction == "read" else "STATUS="
    return DP[direction, address]


def is_unpowered(world, item):
    return item[1] == "ap" and world.debug in ("off", "late")


def due(world, item):
    """The answer where nothing is pending and no WAIT is asked for."""
    name = register(world, item)
    if world.reset == "none" or (world.reset == "fresh" and name != "DPIDR"):
        return "silence"
    if name in EXEMPT:
        return "ok"
    return "fault" if world.sticky or world.damaged or is_unpowered(world, item) else "ok"


def advanced(tar):
    """TAR after an increment: unknown at the end of a kilobyte."""
    return (tar[0] + 4, tar[1] + 4) if tar and tar[1] % 1024 + 4 < 1024 else None


def succeeded(world):
    if not world.pending:
        return world
    return world._replace(pending=None, tar=advanced(world.tar) if world.single else world.tar,
                          buffer=SOME if world.pending == "read" else world.buffer)


def failed(world):
    return world._replace(pending=None, sticky=True, tar=None, buffer=ANY)


def given_up(world):
    """A port with a write buffer gives the pending write up, where DPIDR or CTRL/STAT is read or ABORT is written."""
    return world._replace(pending=None, damaged=True)


def accepted(world, item):
    """The world once OK is answered, before what the request does, or nothing."""
    if due(world, item) != "ok":
        return []
    if register(world, item) in EXEMPT:
        return [world]
    world = succeeded(world)
    return [world._replace(debug="seen") if item[1] == "ap" else world]


def refused(world, item):
    answer, name = due(world, item), register(world, item)
    if answer == "fault":
        before = [succeeded(world)] + ([failed(world)] if world.pending else [])
    else:
        before = [failed(world)] if answer == "ok" and world.pending and name not in EXEMPT else []
    return [x._replace(readok=x.readok and name not in POSTED, sticky=x.sticky or is_unpowered(x, item))
            for x in before]


def found(world, late):
    """The powers as a read of CTRL/STAT may find them."""
    choices = []
    for power in (world.debug, world.system):
        choices.append(["off"] if power == "off" else ["seen", "late"] if late and power != "seen" else ["seen"])
    return [world._replace(debug=debug, system=system) for debug, system in product(*choices)]


def status(world):
    return (world.sticky << 5 | world.readok << 6 | world.damaged << 7 | (world.debug != "off") << 28
            | (world.debug == "seen") << 29 | (world.system != "off") << 30 | (world.system == "seen") << 31)


def returned(world, name, buffer):
    """After an AP read or RDBUFF read that returned the read buffer."""
    world = world._replace(readok=True, last=buffer, buffer=ANY)
    if name == "CSW":
        return [world._replace(buffer=fixed(world.single))]
    if name == "TAR" and world.tar:
        return [world._replace(tar=(at, at), buffer=frozenset([at])) for at in range(world.tar[0], world.tar[1] + 1, 4)]
    if name == "DRW":
        return [world._replace(pending="read")]
    if name == "OTHER":
        return [world._replace(buffer=SOME), world._replace(sticky=True)]
    return [world]


def read(world, name, seen, late):
    """After a read that was seen as one of these words, or wasn't seen (None)."""
    if name == "DPIDR":
        return [world._replace(reset="live")]
    if name == "STATUS":
        if seen is None:
            return found(world, False)
        early = [failed(world)] if world.pending and not world.sticky else []
        return [y for x in [world] + early for y in found(x, late)
                if any((v ^ status(y)) & COMPARED == 0 for v in seen)]
    if name == "RESEND":
        last = world.last if seen is None else narrowed(world.last, seen)
        return [] if last is None else [world._replace(last=last)]
    if name in POSTED:
        buffer = world.buffer if seen is None else narrowed(world.buffer, seen)
        return [] if buffer is None else returned(world, name, buffer)
    return [world]


def arrived(world, name, word):
    """After a write whose word arrived."""
    if name == "ABORT":
        before = [world] + ([failed(world)] if world.pending and word & 4 else [])
        return [x._replace(sticky=x.sticky and not word & 4, damaged=x.damaged and not word & 8) for x in before]
    if name == "STATUS=":
        debug, system = ("unseen" if word >> bit & 1 else "off" for bit in (28, 30))
        return [world._replace(debug=debug, system=system)]
    if name == "SELECT":
        return [world._replace(memap=word & 0xFF0000F0 == 0, bank0=word & 15 == 0)]
    if name == "nothing":
        return [world]
    world = world._replace(buffer=ANY, last=ANY)
    if name == "CSW=":
        return [world._replace(single=word >> 4 & 3 == 1)]
    if name == "TAR=":
        return [world._replace(tar=(word, word))]
    if name == "DRW=":
        return [world._replace(pending="write")]
    return [world, world._replace(sticky=True)]


def after(world, item, clean):
    """The worlds after a transaction, each with the number of damaged or lost requests that it takes."""
    worlds = after_kept(world, item, clean)
    if world.pending == "write" and register(world, item) in EXEMPT:
        worlds += after_given_up(given_up(world), item, clean)
    return worlds


def after_given_up(world, item, clean):
    """The same once the pending write was given up: the target saw the request, and answered OK."""
    if item[4] == "none":
        return [] if clean else [(x, 1) for x in after_okay_lost(world, item)]
    return after_kept(world, item, clean) if item[4] in ("ok", "bad") else []


def after_kept(world, item, clean):
    """The same where no write is given up before it."""
    end, name, reads = item[4], register(world, item), item[3] == "read"
    if end == "fault":
        return [(x, 0) for x in refused(world, item)]
    if end == "wait":
        waits = due(world, item) == "ok" and name not in EXEMPT
        return [(world._replace(readok=world.readok and name not in POSTED), 0)] if waits else []
    if end == "none":
        return after_none(world, item, clean)
    now = [x._replace(awaits=False) for x in accepted(world, item)]
    good, word = end == "ok", item[5]
    if reads and (good or not clean):
        seen = frozenset([word]) if good else near(word)
        return [(y, int(not good)) for x in now for y in read(x, name, seen, good)]
    if reads:
        return []
    hurt = [(x._replace(damaged=True), int(good)) for x in now if not (clean and good)]
    words = [word] if good else [] if clean else [word ^ 1 << place for place in range(32)] + [word]
    return hurt + [(y, int(not good)) for v in words for x in now for y in arrived(x, name, v)]


def after_none(world, item, clean):
    if due(world, item) == "silence" and item[5] == 7:
        return [(world, 0)]
    if clean:
        return []
    return [(x, 1) for x in [world] + refused(world, item) + after_okay_lost(world, item)]


def after_okay_lost(world, item):
    """The worlds after OK that wasn't seen."""
    name, reads, worlds = register(world, item), item[3] == "read", []
    for x in accepted(world, item):
        x = x._replace(awaits=not reads)
        worlds += read(x, name, None, False) if reads else [x]
    return worlds


# ---- many worlds

def alike(world):
    return world._replace(debug=None, system=None, tar=None, buffer=None, last=None)


def covers(a, b):
    return (all(x == y or (x == "unseen" and y == "seen") for x, y in ((a.debug, b.debug), (a.system, b.system)))
            and (a.tar is None or (b.tar is not None and a.tar[0] <= b.tar[0] and b.tar[1] <= a.tar[1]
                                   and (a.tar[0] - b.tar[0]) % 4 == 0))
            and is_wider(a.buffer, b.buffer) and is_wider(a.last, b.last))


def joined(a, b):
    """A world that explains exactly what these two do, if there is one."""
    if alike(a) != alike(b):
        return None
    if covers(a, b) or covers(b, a):
        return a if covers(a, b) else b
    if a.tar and b.tar and b == a._replace(tar=b.tar) and (a.tar[0] - b.tar[0]) % 4 == 0:
        if a.tar[0] >> 10 == b.tar[0] >> 10 and a.tar[1] + 4 >= b.tar[0] and b.tar[1] + 4 >= a.tar[0]:
            return a._replace(tar=(min(a.tar[0], b.tar[0]), max(a.tar[1], b.tar[1])))
    return None


def add(worlds, world, faults):
    """Adds a world to the list, and returns whether there is room."""
    again = True
    while again:
        again = False
        for place, (kept, cost) in enumerate(worlds):
            both = joined(kept, world)
            if both:
                del worlds[place]
                world, faults, again = both, min(faults, cost), True
                break
    worlds.append((world, faults))
    return len(worlds) <= MOST


class Reference:
    """The verdict on a trace, item by item."""

    def __init__(self, start, clean):
        self.clean, self.ident, self.place, self.stray = clean, None, 0, 0
        self.opening = {"made": None, "rest": ("rest",), "any": ("any",)}[start]
        self.worlds = [(MADE, 0)] if start == "made" else []
        self.began = 0 if start == "made" else None
        self.spent, self.gaps, self.in_gap, self.broken, self.crowded = 0, 0, False, None, None
        self.answered = False  # whether the target acknowledged a request that was checked

    def watch(self, item):
        if self.broken is None:
            if item[0] == "junk":
                self.junk()
            elif item[0] == "reset":
                self.in_gap, self.stray, before, self.worlds = False, 0, self.worlds, []
                for world, faults in before:
                    is_damaged = world.damaged or world.awaits
                    add(self.worlds, world._replace(reset="fresh", damaged=is_damaged, awaits=False), faults)
            elif item[0] == "tx" and not self.in_gap:
                self.transact(item)
        self.place += length(item)

    def faults(self):
        return self.spent + min((faults for _, faults in self.worlds), default=0)

    def forget(self):
        self.spent, self.worlds, self.opening = self.faults(), [], ("any",)

    def junk(self):
        if self.stray:
            self.stray -= 1
        elif not self.in_gap:
            self.in_gap, self.gaps = True, self.gaps + 1
            self.forget()

    def transact(self, item):
        self.stray = STRAY if item[4] == "none" else 0
        if self.opening:
            self.open(item)
        if not self.opening:
            new = []
            room = True
            for world, faults in self.worlds:
                for x, more in after(world, item, self.clean):
                    room = room and add(new, x, faults + more)
            if not room:
                self.crowded = self.place if self.crowded is None else self.crowded
                self.forget()
            else:
                self.worlds = new
                if not new:
                    self.broken = self.place
        self.answered = self.answered or item[4] != "none" and bool(self.worlds)
        if item[1:4] == ("dp", 0, "read") and item[4] in ("ok", "bad"):
            seen = frozenset([item[5]]) if item[4] == "ok" else near(item[5])
            self.ident = frozenset(v for v in seen if v & 1 and (self.ident is None or v in self.ident))
            if not self.ident and self.broken is None:
                self.broken = self.place

    def open(self, item):
        """Before the worlds are few: SELECT is 0 and nothing is pending ("rest"), or the last write was SELECT."""
        begin = self.worlds_before(item)
        if begin is not None:
            for world in begin:
                add(self.worlds, world, 0)
            self.opening = None
            self.began = self.place if self.began is None else self.began
            return
        end, kind = item[4], item[1:4]
        if end == "wait" or (end == "fault" and self.opening == ("rest",)):
            return
        if kind == ("dp", 8, "write") and end == "ok":
            self.opening = ("selected", item[5])
        elif not (self.passes(item) or (self.opening == ("rest",) and end != "fault" and kind != ("dp", 8, "write")
                                        and kind[:2] != ("ap", 12))):
            self.opening = ("any",)

    def passes(self, item):
        """OK to this shows no flag and changes none, under the SELECT that was written last."""
        return (self.opening[0] == "selected" and item[4] in ("ok", "bad") and item[1] == "dp" and item[3] == "read"
                and (item[2] == 0 or (item[2] == 4 and self.opening[1] & 15 == 0)))

    def worlds_before(self, item):
        end, kind = item[4], item[1:4]
        if self.opening == ("rest",) and end == "ok" and kind == ("dp", 4, "read"):
            word = item[5]
            world = LIVE._replace(sticky=bool(word >> 5 & 1), readok=bool(word >> 6 & 1), damaged=bool(word >> 7 & 1))
            return [y._replace(single=single) for y in arrived(world, "STATUS=", word) for single in (False, True)]
        is_answered = end in ("ok", "bad") and kind != ("dp", 0, "write")
        if self.opening[0] == "selected" and is_answered and not self.passes(item):
            powers, first = ("off", "unseen", "late"), arrived(LIVE, "SELECT", self.opening[1])[0]
            return [first._replace(debug=debug, system=system, single=single, readok=ok)
                    for debug in powers for system in powers for single in (False, True) for ok in (False, True)]
        return None

    def verdict(self):
        if self.broken is not None:
            return f"breaks {self.broken}"
        if self.crowded is not None:
            return f"crowded {self.crowded}"
        return f"fits {'-' if self.began is None else self.began} {self.faults()} {self.gaps}"
