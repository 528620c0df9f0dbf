"""Tests of `swd.Checker`: worked rows, sessions of right and wrong targets against the reference of `checks/checker`,
bits against items, structs of any bytes, and what is refused. COUNT and SEED are as in `test_swd.py`."""
import ctypes
import fractions
import itertools
import os
import random
import sys
import unittest

import swd
import swd._library as bound
from plain import Damaged, PlainMemory, PlainTarget

ROOT = os.path.abspath(os.path.join(os.path.dirname(__file__), "..", "..", ".."))
sys.path.insert(0, os.path.join(ROOT, "checks", "checked"))
from reference import Reference  # noqa: E402  pylint: disable=wrong-import-position
from target import BUGS, session  # noqa: E402  pylint: disable=wrong-import-position

COUNT = int(os.environ.get("COUNT", "300"))
SEED = int(os.environ.get("SEED", "1"))
SESSIONS = max(200, COUNT)
ACKS = {"wait": 2, "fault": 4}


def transaction(port, addr, direction, end, word=0):
    ack = 1 if end in ("ok", "bad") else ACKS.get(end, word)
    moved = (word, end == "ok") if ack == 1 else (None, None)
    return swd.Transaction(port == "ap", direction == "read", addr, ack, *moved)


def item_of(words):
    """The item of a tuple of the reference, or of a line of a listing."""
    if words[0] == "tx":
        return transaction(*words[1:])
    if words[0] == "switch":
        return swd.Switch()
    return {"reset": swd.Reset, "idle": swd.Idle, "junk": swd.Junk, "cut": swd.Cut}[words[0]](words[1])


def items_of(listing):
    items = []
    for line in listing.splitlines():
        words = line.split()
        if words[0] in ("dp", "ap"):
            base = 10 if words[3] == "none" else 16
            items.append(transaction(words[0], int(words[1], 16), *words[2:4], *(int(it, base) for it in words[4:])))
        else:
            items.append(item_of((words[0], *(it if words[0] == "cut" else int(it) for it in words[1:]))))
    return items


class Level:
    """A level that equals 0 or 1, and is no `int`."""

    def __init__(self, level):
        self.level = level

    def __eq__(self, other):
        return self.level == other

    def __bool__(self):
        return bool(self.level)


# A session up to a write of CSW, 242 bits: a line reset, DPIDR, power, and AddrInc single.
UP = """reset 56
idle 2
dp 0 read ok 2ba01477
dp 4 write ok 50000000
dp 4 read ok f0000000
ap 0 write ok 23000012
"""

# What follows UP, whether the line is clean, and the verdict: those of `swd_checker_tests`.
ROWS = [
    ("ap 4 write ok 20000000\nap c write wait\nap 4 read ok 00000000\ndp c read ok 20000000", False, ("fits", 0)),
    ("ap 4 write ok 20000000\ndp c read fault\ndp 4 read ok f0000080", False, ("fits", 1)),
    ("ap 0 read ok 00000000\ndp c read bad 23000053\ndp 8 read ok 23000052", False, ("fits", 1)),
    ("ap 4 write ok 20000000\nap c read none 0\nreset 100\nidle 2\ndp 0 read ok 2ba01477\nap 4 read ok 00000000\n"
     "dp c read ok 20000004", False, ("fits", 1)),
    ("reset 50\nidle 2\ndp 4 read ok f0000000", False,
     ("breaks", 294, "after a line reset only a read of DPIDR is answered")),
    ("dp c read none 7", True, ("breaks", 242, "each request is acknowledged")),
    ("dp 4 read wait", False,
     ("breaks", 242, "reads of DPIDR and CTRL/STAT and writes of ABORT get neither WAIT nor FAULT")),
    ("dp c read ok 00000000\ndp c read fault", False,
     ("breaks", 288, "FAULT is answered while a sticky flag is set, and not else")),
    ("dp 4 write ok 00000000\ndp 4 read ok 00000000\nap 4 read ok 00000000", False,
     ("breaks", 334, "an access port without debug power answers FAULT")),
    ("dp c read fault\ndp c read wait", False, ("breaks", 255, "FAULT takes precedence over WAIT")),
    ("ap 0 read ok 00000000\ndp c read ok 23000050", False,
     ("breaks", 288, "a posted read returns the result of the read before it")),
    ("ap 0 read ok 00000000\ndp c read ok 23000052\ndp 8 read ok 23000053", False,
     ("breaks", 334, "RESEND returns the last returned value again")),
    ("dp 4 read ok b0000000", False, ("breaks", 242, "CTRL/STAT shows the flags and the powers")),
    ("dp 0 read ok 2ba01476", False,
     ("breaks", 242, "DPIDR reads the same word each time, and its bit 0 is 1")),
    ("dp c read bad 00000000", True, ("breaks", 242, "the parity of a word is even")),
]
CROWD = "ap 4 write ok 20000000\n" + "ap c write ok 00000001\ndp 0 write ok 00000008\n" * 69 + "ap 4 read ok 00000000"

# A start, a listing, and the place from which it is checked.
BEGINS = [
    ("made", "idle 1", 0),
    ("rest", "reset 50\nidle 2\ndp 0 read ok 2ba01477\ndp 4 read ok f0000000", 98),
    ("any", "reset 50\nidle 2\ndp 0 read ok 2ba01477\ndp 4 read ok f0000000", None),
    ("any", "reset 50\nidle 2\ndp 0 read ok 2ba01477\ndp 8 write ok 00000000\ndp 4 read ok f0000000\n"
     "dp c read ok 00000000", 190),
]


def shown(verdict):
    """A verdict as the reference says it."""
    if verdict.kind != "fits":
        return f"{verdict.kind} {verdict.place}"
    return f"fits {'-' if verdict.began is None else verdict.began} {verdict.faults} {verdict.gaps}"


class Checking(unittest.TestCase):
    """Verdicts."""

    def test_rows(self):
        for then, clean, wanted in ROWS:
            with self.subTest(then):
                checker = swd.Checker("made", clean)
                checker.feed(items_of(UP))
                checker.feed(items_of(then))
                found = checker.verdict
                numbers = (found.faults,) if found.kind == "fits" else (found.place, found.rule)
                self.assertEqual((found.kind, *numbers), wanted)
                self.assertEqual((found.began, found.gaps), (0, 0))

    def test_too_many_worlds(self):
        checker = swd.Checker("made")
        checker.feed(items_of(UP + CROWD))
        # 242 bits, 46 of TAR, and 92 of each transfer
        self.assertEqual(checker.verdict, swd.Verdict("crowded", 6636, None, 0, 0, 0))
        self.assertEqual(str(checker.verdict), "crowded @6636")

    def test_where_a_check_begins(self):
        for start, listing, began in BEGINS:
            with self.subTest(listing):
                checker = swd.Checker(start)
                checker.feed(items_of(listing))
                self.assertEqual(checker.verdict, swd.Verdict("fits", None, None, began, 0, 0))
                self.assertEqual(str(checker.verdict), "fits")

    def test_gaps(self):
        for count, gaps in ((34, 0), (35, 1)):
            checker = swd.Checker("made")
            checker.feed([transaction("dp", 0, "read", "none", 7)] + [swd.Junk(0)] * count)
            self.assertEqual(checker.verdict.gaps, gaps)

    def test_the_reference(self):
        """Sessions of right targets, and of targets with a bug, item by item: the last verdict is the reference's,
        and no right target is found wrong. They are as many as the reference needs to find a wrong one from each
        start, and more."""
        rng = random.Random(SEED)
        broken = dict.fromkeys(("made", "rest", "any"), 0)
        for number in itertools.count():
            if number >= SESSIONS and all(broken.values()):
                break
            start, clean = list(broken)[number // 2 % 3], rng.random() < 0.5
            bug = rng.choice(BUGS) if number % 2 else None
            items = session(rng, bug, clean, 60)
            reference, checker = Reference(start, clean), swd.Checker(start, clean)
            for item in items:
                reference.watch(item)
            checker.feed(item_of(item) for item in items)
            with self.subTest(number=number, bug=bug):
                self.assertEqual(shown(checker.verdict), reference.verdict())
                self.assertEqual(checker.place, reference.place)
                is_broken = reference.verdict().startswith("breaks")
                self.assertFalse(is_broken and bug is None)
            broken[start] += is_broken

    def test_bits(self):
        """The bits of a session in pieces of any size come to what its items come to."""
        rng = random.Random(SEED)
        line = Damaged(PlainTarget(PlainMemory(0x20000000, 16, 100)), [])
        swd.Host(line).run([swd.Write(0x20000000, 7), swd.Read(0x20000000), swd.Read(0x30000000)], bus_errors=True)
        whole, pieces = swd.Checker("made", clean=True), swd.Checker("made", clean=True)
        whole.feed(swd.decode(line.levels))
        at = 0
        while at < len(line.levels):
            count = rng.choice([1, 2, 63, 64, 65, 200])
            piece = line.levels[at:at + count]
            pieces.feed("".join(map(str, piece)) if rng.random() < 0.5 else piece)
            at += count
        pieces.finish()
        self.assertEqual(pieces.verdict, swd.Verdict("fits", None, None, 0, 0, 0))
        self.assertEqual(pieces.verdict, whole.verdict)
        self.assertEqual((pieces.place, whole.place), (len(line.levels), len(line.levels)))

    def test_bits_that_are_no_int(self):
        """Whatever `Decoder` takes for a bit, as levels of numpy or of a simulator, which equal 0 or 1."""
        bits = [0] * 2 + [1] * 50 + [0] * 2
        for kind in (int, bool, float, fractions.Fraction, Level):
            with self.subTest(kind):
                checker = swd.Checker("made")
                checker.feed(map(kind, bits))
                checker.feed([kind(0)])
                checker.finish()
                self.assertEqual((checker.place, checker.verdict.kind), (len(bits) + 1, "fits"))
                self.assertRaises(swd.NotABit, swd.Checker("made").feed, [kind(0), 2])

    def test_any_bytes(self):
        """A struct of any bytes, or with a byte changed, is refused or checks on."""
        rng = random.Random(SEED)
        refused = 0
        for number in range(SESSIONS):
            checker = swd.Checker(rng.choice(["made", "rest", "any"]))
            checker.feed(items_of(UP))
            room = (ctypes.c_uint8 * ctypes.sizeof(bound.CheckStruct)).from_buffer(checker._check)
            if number % 2:
                room[:] = rng.getrandbits(8 * len(room)).to_bytes(len(room), "little")
            else:
                room[rng.randrange(len(room))] = rng.randrange(256)
            before = bytes(room)
            try:
                checker.feed(items_of("dp 4 read ok f0000000"))
                self.assertIn(checker.verdict.kind, ("fits", "breaks", "crowded"))
            except swd.LibraryRefused:
                self.assertEqual(bytes(room), before)
                refused += 1
        self.assertGreater(refused, SESSIONS // 2)


class Refused(unittest.TestCase):
    """What isn't taken, and leaves the checker unchanged."""

    def test_starts(self):
        for start in ("", "MADE", None, 1):
            with self.subTest(start), self.assertRaises(swd.OutOfRange):
                swd.Checker(start)

    def test_items(self):
        for item, error in (
            (None, swd.NotAnItem), ("reset", swd.NotAnItem), (0, swd.NotAnItem), (swd.Cut("012"), swd.NotAnItem),
            (swd.Cut(""), swd.NotAnItem), (swd.Transaction(False, True, 4.0, 2), swd.OutOfRange),
            (swd.Cut("0" * 50), swd.NotAnItem), (swd.Transaction(False, True, 5, 2), swd.NotAnItem),
            (swd.Transaction(False, True, 0, 8), swd.OutOfRange), (swd.Transaction(False, True, 0, 1), swd.OutOfRange),
            (swd.Transaction(False, True, 0, 1, 2**32, True), swd.OutOfRange), (swd.Junk(2), swd.OutOfRange),
            (swd.Reset(-1), swd.OutOfRange), (swd.Idle(2**64), swd.OutOfRange),
        ):
            checker = swd.Checker("made")
            with self.subTest(item), self.assertRaises(error):
                checker.feed([swd.Reset(50), item])
            self.assertEqual(checker.place, 0)

    def test_bits(self):
        checker = swd.Checker("made")
        for bits in ("012", [0, 2]):
            with self.subTest(bits), self.assertRaises(swd.NotABit):
                checker.feed(bits)
        self.assertEqual(checker.place, 0)

    def test_items_behind_bits_that_were_refused(self):
        """Nothing was taken, so that the checker isn't one of bits."""
        for bits in ("012", "2", [None], [0, 2], ["reset"]):
            with self.subTest(bits):
                checker = swd.Checker("made")
                self.assertRaises(swd.NotABit, checker.feed, bits)
                checker.feed([swd.Reset(50)])
                self.assertEqual(checker.place, 50)
                with self.assertRaises(swd.NotAnItem) as caught:
                    checker.feed(bits)
                self.assertIn("it takes no bits", str(caught.exception))

    def test_bits_and_items(self):
        checker = swd.Checker("made")
        checker.feed("0000")
        with self.assertRaises(swd.NotAnItem):
            checker.feed([swd.Idle(2)])
        checker = swd.Checker("made")
        checker.feed([swd.Idle(2)])
        with self.assertRaises(swd.NotAnItem):
            checker.feed("0000")

    def test_a_finished_checker(self):
        checker = swd.Checker("made")
        checker.feed("000")
        checker.finish()
        checker.finish()
        self.assertEqual(checker.place, 3)
        with self.assertRaises(swd.DecoderFinished):
            checker.feed("0")

    def test_zeros(self):
        checker = swd.Checker("made")
        ctypes.memset(ctypes.byref(checker._check), 0, ctypes.sizeof(checker._check))
        with self.assertRaises(swd.LibraryRefused):
            checker.feed([swd.Idle(1)])
        with self.assertRaises(swd.LibraryRefused):
            print(checker.verdict)


if __name__ == "__main__":
    unittest.main()
