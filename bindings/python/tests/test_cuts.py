"""Tests of lines that fail at any one of their calls: after that a session reads, resumes and identifies, and what it
says has to be true of the target's memory. Of the calls of a line of clocks one of CUTS is tried: of 17 without it, and
with 1 each. Of those of a line of sequences each is."""
import collections
import itertools
import os
import sys
import unittest

import swd
from cuts import BASE, Bench, Cable, unsound, writes_of
from test_swd import program_of_the_page

# How many cases each class tried.
tried_by = collections.Counter()


def tearDownModule():
    for name, count in tried_by.items():
        print(f"{name}: a line cut at {count} places", file=sys.stderr)


class RemoteBitbang(unittest.TestCase):
    """The line of README.md."""

    BY_SEQUENCES, STEP = False, int(os.environ.get("CUTS", "17"))
    # How many calls there are at least, in all: of accesses, of a load, of readings.
    CALLS = 10_000, 8_000, 5_000

    @classmethod
    def setUpClass(cls):
        cls.program = program_of_the_page("class RemoteBitbang")

    def bench(self):
        """A session over a line that works."""
        return Bench(self.program, self.BY_SEQUENCES)

    def enough(self, tried, calls):
        """Counts cases, which are those of so many calls at least."""
        tried_by[type(self).__name__] += tried
        self.assertGreater(tried * self.STEP, calls)

    def calls_of(self, bench, act):
        """How many calls of the line an act is made of."""
        bench.cable.calls = 0
        act(bench)
        return bench.cable.calls

    def test_accesses(self):
        """Lists, polls and blocks."""
        acts = {
            "a list": lambda bench, accesses: bench.session.run(accesses),
            "a poll": lambda bench, accesses: swd.Report((swd.Value(bench.session.read(BASE)),), 0, 0, swd.End.ALL),
            "a block": lambda bench, accesses: bench.session.run_block(BASE, 5),
        }
        lists = {"a list": Bench.list, "a poll": lambda _: [swd.Read(BASE)], "a block": lambda _: swd.block(BASE, 5)}
        tried = 0
        for name, kind in itertools.product(acts, Cable.KINDS):
            bench = self.bench()
            count = self.calls_of(bench, lambda bench, name=name: acts[name](bench, lists[name](bench)))
            for at, then in zip(range(0, count, self.STEP), itertools.cycle(("read", "resume", "identify"))):
                with self.subTest(name, kind=kind, call=at, then=then):
                    tried += 1
                    here, bench = bench or self.bench(), None
                    accesses = lists[name](here)
                    if self.cut(here, accesses, lambda here=here: acts[name](here, accesses), (at, kind), then):
                        bench = here
        self.enough(tried, self.CALLS[0])

    def test_a_failure_while_it_catches_up(self):
        """Ctrl-C comes once more, at each of the calls that drop the replies of the one that it came in before."""
        bench, accesses = self.bench(), [swd.Read(BASE)]
        count = self.calls_of(bench, lambda bench: bench.session.read(BASE))
        for at, more in itertools.product(range(0, count, 11), range(8)):
            with self.subTest(call=at, more=more):
                here, bench = bench or self.bench(), None
                for place in (at, more):
                    here.cable.fail(place, "Ctrl-C after")
                    with self.assertRaises((swd.Interrupted, swd.LineFailed)) as caught:
                        here.session.read(BASE)
                here.cable.at = None
                if self.goes_on(here, accesses, caught.exception.report, {}, "read"):
                    bench = here

    def cut(self, bench, accesses, act, failure, then):
        """Makes an act whose line fails. Whether the line is usable again."""
        bench.memory.log.clear()
        before = dict(bench.memory.words)
        bench.cable.fail(*failure)
        try:
            report, is_whole = act(), True
        except (swd.RunFailed, swd.Interrupted) as failed:
            report, is_whole = failed.report, False
        bench.cable.at = None
        self.assertIsNone(unsound(accesses, report, before, bench.writes()))
        # A reply that is late, or isn't asked for any more, may be no failure.
        return not bench.cable.is_gone if is_whole else self.goes_on(bench, accesses, report, before, then)

    def goes_on(self, bench, accesses, report, before, then):
        """Reads, resumes or identifies. Whether the line is usable again; else it is closed for good."""
        session, memory = bench.session, bench.memory
        try:
            if then == "resume" and report.ended is swd.End.LOST:
                again = [access for access in accesses[len(report.answers):][:report.begun]]
                whole = session.resume(accesses, report)
                # What was in flight may be done again.
                writes = bench.writes()
                for access in again:
                    if isinstance(access, swd.Write) and writes.count((access.addr, access.word)) == 2:
                        writes.remove((access.addr, access.word))
                self.assertIsNone(unsound(accesses, whole, before, writes))
            elif then == "identify":
                self.assertEqual(session.identify().word, 0x2BA01477)
        except swd.LineFailed as failed:
            return self.is_closed(bench, failed)
        try:
            for place in (0, 2, 5):
                self.assertEqual(session.read(BASE + 4 * place), memory.words[BASE + 4 * place])
        except swd.LineFailed as failed:
            return self.is_closed(bench, failed)
        self.assertIsNone(self.foreign(bench, accesses))
        return True

    def foreign(self, bench, accesses):
        """A write of the log that no access is."""
        return next((write for write in bench.writes() if write not in writes_of(accesses)), None)

    def is_closed(self, bench, failed):
        """The line raises its own error, in each later call, too, and sends nothing more."""
        self.assertTrue(bench.cable.is_gone)
        sent = bytes(bench.cable.sent)
        for call in (bench.session.identify, lambda: bench.session.read(BASE)):
            self.assertIsInstance(failed.__cause__, bench.closed)
            with self.assertRaises(swd.LineFailed) as caught:
                call()
            failed = caught.exception
        self.assertEqual(bench.cable.sent, sent)
        return False

    def test_images(self):
        """Loads, which are continued where they stopped; and what is read back."""
        tried = 0
        for kind, (begin, size) in itertools.product(Cable.KINDS, ((0, 16), (3, 18))):
            bench = self.bench()
            addr, zeros = BASE + begin, bytes(size)
            count = self.calls_of(bench, lambda bench, addr=addr, zeros=zeros: bench.session.load(addr, zeros))
            for at in range(0, count, self.STEP):
                with self.subTest("a load", kind=kind, call=at, begin=begin):
                    tried += 1
                    here, bench = bench or self.bench(), None
                    if self.cut_load(here, BASE + begin, here.words(5)[:size], (at, kind)):
                        bench = here
        self.enough(tried, self.CALLS[1])

    def cut_load(self, bench, addr, image, failure):
        """Loads an image over a line that fails, and continues. Whether the line is usable again."""
        session, memory = bench.session, bench.memory
        memory.log.clear()
        before = self.content(memory)
        at = addr - BASE
        wanted = before[:at] + image + before[at + len(image):]
        bench.cable.fail(*failure)
        try:
            session.load(addr, image)
            bench.cable.at = None
        except (swd.ImageStopped, swd.ImageInterrupted) as stop:
            bench.cable.at = None
            self.assertEqual(stop.addr, addr + stop.done)
            now, sure, doubtful = self.content(memory), at + stop.done, (at + stop.done | 3) + 1
            self.assertEqual(now[:sure], wanted[:sure])
            self.assertIn(now[sure:doubtful], (before[sure:doubtful], wanted[sure:doubtful]))
            self.assertEqual(now[doubtful:], before[doubtful:])
            try:
                session.load(stop.addr, image[stop.done:])
            except swd.ImageStopped as failed:
                return self.is_closed(bench, failed.__cause__)
        if bench.cable.is_gone:
            return False
        self.assertEqual(self.content(memory), wanted)
        session.verify(addr, image)
        self.assertEqual(session.dump(addr, len(image)), image)
        return True

    def test_readings(self):
        """Dumps and verifications, which say what was read, and are made again."""
        tried, addr, size = 0, BASE + 3, 18
        calls = {"dump": lambda session, _: session.dump(addr, size),
                 "verify": lambda session, image: session.verify(addr, image)}
        for (name, call), kind in itertools.product(calls.items(), Cable.KINDS):
            bench = self.bench()
            count = self.calls_of(bench, lambda bench: bench.session.dump(addr, size))
            for at in range(0, count, self.STEP):
                with self.subTest(name, kind=kind, call=at):
                    tried += 1
                    here, bench = bench or self.bench(), None
                    here.session.load(BASE, here.words(6))
                    image = self.content(here.memory)[3:3 + size]
                    here.cable.fail(at, kind)
                    if self.reads(here, lambda: call(here.session, image), addr, image):
                        bench = here
        self.enough(tried, self.CALLS[2])

    def reads(self, bench, call, addr, image):
        """Reads over a line that fails, and once more. Whether the line is usable again."""
        try:
            call()
            bench.cable.at = None
        except (swd.ImageStopped, swd.ImageInterrupted) as stop:
            bench.cable.at = None
            self.assertEqual((stop.addr, stop.data), (addr + stop.done, image[:stop.done]))
            self.assertEqual(stop.report.words(), [bench.memory.words[access.addr] for access in
                                                   stop.report.accesses[:len(stop.report.answers)]])
            try:
                self.assertEqual(bench.session.dump(addr, len(image)), image)
            except swd.ImageStopped as failed:
                return self.is_closed(bench, failed.__cause__)
        return not bench.cable.is_gone

    @staticmethod
    def content(memory):
        return b"".join(memory.words[addr].to_bytes(4, "little") for addr in sorted(memory.words))


class Probe(RemoteBitbang):
    """The same line by sequences."""

    BY_SEQUENCES, STEP, CALLS = True, 1, (300, 300, 200)


if __name__ == "__main__":
    unittest.main()
