"""Tests of runs without I/O, and of lines of sequences. They are run as those of test_swd.py."""
import asyncio
import itertools
import unittest

import swd
from swd import End, Read, Write
from test_sessions import ANSWERS, LIST, Sequenced, damaged
from test_swd import BASE, program_of_the_page


class WithoutIo(unittest.TestCase):
    """Runs whose caller performs the cues."""

    def test_a_run(self):
        line, _ = damaged()
        wire = swd.Sequences(Sequenced(line)).line
        run, came = swd.Run(LIST), []
        cue = run.cue()
        while cue is not None:
            reply = 0
            for step in cue.sequences():
                if isinstance(step, swd.Drive):
                    wire.drive(step.bits, step.count)
                elif isinstance(step, swd.Release):
                    wire.release(step.count)
                else:
                    reply = wire.sample(step.count)
            self.assertEqual(run.report().ended, End.LOST if run.ended is None and len(came) < 4 else End.ALL)
            came += run.next(reply)
            self.assertEqual(run.answered, len(came))
            cue = run.cue()
        self.assertEqual(tuple(came), ANSWERS)
        self.assertEqual(run.report(), swd.Report(ANSWERS, 0, 18, End.ALL))
        self.assertRaises(swd.RunEnded, run.next)

    def test_replies_that_are_refused(self):
        run = swd.Run([Read(BASE)])
        self.assertIsInstance(run.cue(), swd.Lead)
        self.assertEqual(run.next(), ())
        self.assertEqual(run.cue(), swd.Ask(0xA5))
        for reply in (8, -1, "1", 1 << 64):
            with self.subTest(reply), self.assertRaises(swd.OutOfRange):
                run.next(reply)
        run.next(1)
        self.assertEqual(run.cue(), swd.Take())
        self.assertRaises(swd.OutOfRange, run.next, 1 << 33)

    def test_a_struct_with_too_many_answers(self):
        """Something else wrote into it."""
        for answered in (2, 65_536, 65_537, 0xFFFFFFFF):
            run = swd.Run([Read(BASE)], opened=True)
            run._run.answered = answered
            for call in (run.cue, run.report, lambda run=run: run.next(1)):
                with self.subTest(answered), self.assertRaises(swd.LibraryRefused):
                    call()

    def test_opened(self):
        run = swd.Run([Read(BASE)], opened=True)
        self.assertEqual(run.cue(), swd.Ask(0x8B))
        self.assertEqual(swd.Run([], opened=True).cue(), swd.Lead(0, 0, False, 8))

    def test_exchanges(self):
        """A word costs a probe three exchanges if written, in a burst one, and in a block two: a request costs one, and
        so does the data phase of a read."""
        for bursts, each, once in ((False, 3, 1), (True, 1, 3)):
            line, _ = damaged(words=256)
            probe = Sequenced(line)
            with swd.Session(swd.Sequences(probe), bursts=bursts) as session:
                for count in (1, 200):
                    before = probe.exchanges
                    session.run([Write(BASE + 4 * index, index) for index in range(count)])
                    self.assertEqual(probe.exchanges - before, each * count + once)
                    before = probe.exchanges
                    self.assertEqual(session.run_block(BASE, count).words(), list(range(count)))
                    self.assertEqual(probe.exchanges - before, 2 * count + 3)
                self.assertEqual(probe.queue, [])
        plainly, _ = damaged(words=256)
        swd.Session(plainly).run(LIST)
        sequenced, _ = damaged(words=256)
        swd.Session(swd.Sequences(Sequenced(sequenced))).run(LIST)
        self.assertEqual(sequenced.calls, plainly.calls)

    def test_a_probe_of_64_clocks(self):
        """A sequence of CMSIS-DAP has no more. Where a run continues, the line reset has 66 ones that are driven."""
        counts = set()

        class Probe(Sequenced):
            """A probe whose calls make at most 64 clocks."""

            def drive(self, bits, count):
                counts.add(count)
                self.queue.append((int.from_bytes(bits.to_bytes(8, "little"), "little"), count))

            def release(self, count):
                counts.add(count)
                Sequenced.release(self, count)

            def sample(self, count):
                counts.add(count)
                return Sequenced.sample(self, count)

        for mark, number in itertools.product(("wait", "flip 0", "deaf", "mute 0", "mute 1"), range(1, 18)):
            with self.subTest(mark, number=number):
                session = swd.Session(swd.Sequences(Probe(damaged({number: mark})[0])))
                report = session.run(LIST, check=False)
                if report.ended is End.LOST:
                    report = session.resume(LIST, report)
                self.assertEqual(report.answers, ANSWERS)
        self.assertLessEqual(max(counts), 64)
        for run in (swd.Run([]), swd.Run.resumed([], swd.Report((), 0, 0, End.LOST)), swd.Run([], opened=True)):
            self.assertLessEqual(max(step.count for step in run.cue().sequences()), 64)
        steps = swd.Lead(200, 70, False, 65).sequences()
        self.assertEqual([step.count for step in steps], [64, 6, 64, 64, 2, 64, 1])
        self.assertEqual([step.bits for step in steps[2:]], [(1 << 64) - 1, (1 << 64) - 1, 3, 0, 0])

    def test_sequences_that_are_refused(self):
        for level in (8, -1, None, True, "1"):
            with self.subTest(level):
                probe = Sequenced(damaged()[0])
                probe.sample = lambda count, level=level: level
                with self.assertRaises(swd.LineFailed) as caught:
                    swd.Host(swd.Sequences(probe)).run([])
                self.assertIsInstance(caught.exception.__cause__, swd.OutOfRange)
        self.assertRaises(swd.NotALine, swd.Sequences, object())

    def test_coroutines_are_refused(self):
        class Asynchronous:
            """A line of an event loop."""

            async def drive(self, bit):
                """One clock."""

            async def release(self):
                """One clock."""

            async def sample(self):
                """One clock."""

        for line in (Asynchronous(), (Asynchronous().drive, Asynchronous().sample)):
            with self.assertRaises(swd.NotALine) as caught:
                swd.Host(line)
            self.assertIn("use swd.AsyncSequences, or swd.Run", str(caught.exception))

    def test_the_asynchronous_program_of_the_page(self):
        """Two runs at once, each over its line."""
        names = {"swd": swd}
        exec(program_of_the_page("async def perform"), names)  # pylint: disable=exec-used

        class Probe(Sequenced):
            """A probe whose calls are awaited."""

            async def drive(self, bits, count):
                """Some clocks."""
                await asyncio.sleep(0)
                Sequenced.drive(self, bits, count)

            async def release(self, count):
                """Some clocks."""
                Sequenced.release(self, count)

            async def sample(self, count):
                """Some clocks."""
                await asyncio.sleep(0)
                return Sequenced.sample(self, count)

        async def both():
            lines = [damaged()[0], damaged({12: "deaf"})[0]]
            runs = (names["perform"](Probe(line), swd.Run(LIST)) for line in lines)
            return await asyncio.gather(*runs)

        whole, lost = asyncio.run(both())
        self.assertEqual(whole.check().answers, ANSWERS)
        self.assertIs(lost.ended, End.LOST)


if __name__ == "__main__":
    unittest.main()
