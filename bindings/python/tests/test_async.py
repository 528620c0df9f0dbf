"""Tests of the line of asyncio: runs that are cancelled at each call of the line, and continued. They are run as
those of test_swd.py."""
import asyncio
import itertools
import os
import tempfile
import unittest

import swd
from cuts import unsound
from plain import Damaged, PlainMemory, PlainTarget
from swd import End, Read, Write
from test_sessions import Sequenced
from test_swd import BASE, PROGRAM, plan_of, program_of_the_page


class Probe:
    """A probe whose calls are awaited. A call that is cancelled leaves its reply unread, as those of streams do,
    which the next one takes for its own. One of them stops until `go` is set, or fails."""

    def __init__(self, target):
        self.line, self.owed, self.left, self.go, self.failure = Sequenced(target), [], -1, asyncio.Event(), None

    async def _call(self, call, *arguments):
        self.left -= 1
        if self.left == -1:
            if self.failure:
                raise self.failure
            self.owed.append(call(*arguments))
            await self.go.wait()
            return self.owed.pop()
        await asyncio.sleep(0)
        if self.owed:
            self.owed.append(call(*arguments))
            return self.owed.pop(0)
        return call(*arguments)

    async def drive(self, bits, count):
        """Some clocks."""
        await self._call(self.line.drive, bits, count)

    async def release(self, count):
        """Some clocks."""
        await self._call(self.line.release, count)

    async def sample(self, count):
        """Some clocks."""
        return await self._call(self.line.sample, count)

    async def flush(self):
        """Makes what is queued."""
        await self._call(self.line.flush)


class Lines(unittest.TestCase):
    """A plain target behind a line of clocks."""

    ACCESSES = [Write(BASE, 7), Read(BASE), Write(BASE + 4, 9), Read(BASE + 4)]

    class Clocks:
        """The clocks of a target."""

        def __init__(self, target):
            self.target = target

        def drive(self, bit):
            self.target.cycle(bit)

        def release(self):
            self.target.cycle(None)

        def sample(self):
            return self.target.cycle(None)

    def made(self):
        """A memory, its target, a probe and a line."""
        memory = PlainMemory(BASE, 4, 1000)
        target = PlainTarget(memory)
        probe = Probe(self.Clocks(target))
        return memory, target, probe, swd.AsyncSequences(probe)

    def test_a_run(self):
        async def both():
            _, target, _, line = self.made()
            first = await line.perform(swd.Run(self.ACCESSES))
            return first, await line.perform(swd.Run([Read(BASE)], opened=True)), target.contended

        first, second, contended = asyncio.run(both())
        self.assertEqual((first.check().words(), second.words(), second.requests, contended), ([7, 9], [7], 3, 0))

    def test_a_run_that_is_cancelled(self):
        """At each call. Then it is continued, or another list is begun, for which the target is brought to
        rest."""
        async def tried(at, then):
            memory, target, probe, line = self.made()
            probe.left = at
            run = swd.Run(self.ACCESSES)
            task = asyncio.ensure_future(line.perform(run))
            while probe.left != -1 and not task.done():
                await asyncio.sleep(0)
            if task.done():
                return False
            await asyncio.sleep(0)
            task.cancel()
            await asyncio.wait([task])
            self.assertTrue(task.cancelled())
            report = run.report()
            before = {BASE + 4 * place: 0 for place in range(4)}
            self.assertIsNone(unsound(self.ACCESSES, report, before, [it[1:] for it in memory.log if it[0] == "w"]))
            asyncio.get_running_loop().call_later(0.001, probe.go.set)
            if then == "resume" and report.ended is End.LOST:
                report = await line.perform(swd.Run.resumed(self.ACCESSES, report))
            else:
                report = await line.perform(swd.Run(self.ACCESSES))
            self.assertEqual(report.check().words(), [7, 9])
            self.assertEqual({it[1:] for it in memory.log if it[0] == "w"}, {(BASE, 7), (BASE + 4, 9)})
            self.assertEqual(target.contended, 0)
            return True

        count = 0
        for at, then in zip(itertools.count(), itertools.cycle(("resume", "begin"))):
            with self.subTest(call=at, then=then):
                if not asyncio.run(tried(at, then)):
                    break
                count += 1
        self.assertGreater(count, 90)

    def test_a_run_behind_one_that_was_lost(self):
        """The target, which may be driving the line, is brought to rest first, each time."""
        async def tried():
            memory = PlainMemory(BASE, 4, 1000)
            target = PlainTarget(memory)
            # A run has 12 requests here, and 9 before it bring the target to rest.
            marks = {12: "mute 0", 12 + 9 + 12: "mute 0"}
            line = swd.AsyncSequences(Probe(Damaged(target, plan_of(marks))))
            ended = []
            for word in range(4):
                memory.words[BASE] = word
                report = await line.perform(swd.Run([Read(BASE)]))
                ended.append((report.ended, *report.words()))
            return ended, target.contended

        self.assertEqual(asyncio.run(tried()), ([(End.LOST,), (End.LOST,), (End.ALL, 2), (End.ALL, 3)], 0))

    def test_a_probe_that_fails(self):
        async def tried():
            memory, _, probe, line = self.made()
            for at in (90, 100):
                probe.left, probe.failure = at, OSError("unplugged")
                with self.assertRaises(swd.LineFailed) as caught:
                    await line.perform(swd.Run(self.ACCESSES))
                self.assertIs(caught.exception.__cause__, probe.failure)
                report = await line.perform(swd.Run.resumed(self.ACCESSES, caught.exception.report))
                self.assertEqual(report.check().words(), [7, 9])
            probe.left = 3
            with self.assertRaises(swd.LineFailed):
                await line.perform(swd.Run([]))
            probe.left = 3
            with self.assertRaises(swd.LineFailed) as caught:
                await line.perform(swd.Run(self.ACCESSES))
            self.assertEqual(caught.exception.report, swd.Report((), 0, 0, End.LOST))
            self.assertEqual(caught.exception.report.accesses, tuple(self.ACCESSES))
            memory.log.clear()
            return await line.perform(swd.Run.resumed(self.ACCESSES, caught.exception.report))

        self.assertEqual(asyncio.run(tried()).check().words(), [7, 9])

    def test_what_is_refused(self):
        async def tried():
            _, _, probe, line = self.made()
            probe.left = 20
            run = swd.Run(self.ACCESSES)
            task = asyncio.ensure_future(line.perform(run))
            while probe.left != -1:
                await asyncio.sleep(0)
            for other in (line, swd.AsyncSequences(probe)):
                with self.assertRaises(swd.Reentered):
                    await other.perform(swd.Run([]))
            probe.go.set()
            self.assertEqual((await task).words(), [7, 9])
            with self.assertRaises(swd.NotResumable):
                await line.perform(run)
            with self.assertRaises(swd.LineFailed):
                await swd.AsyncSequences(probe.line).perform(swd.Run([]))

        self.assertRaises(swd.NotALine, swd.AsyncSequences, object())
        asyncio.run(tried())

    @unittest.skipUnless(PROGRAM, "SWD names no program")
    def test_the_program_of_the_page(self):
        """Over `swd target` behind streams, of which a cancelled `readexactly` leaves the reply: a list that takes
        longer than it may is continued."""
        names = {"swd": swd, "asyncio": asyncio}
        exec(program_of_the_page("async def load"), names)  # pylint: disable=exec-used
        accesses = [Write(BASE + 4 * place, place + 1) for place in range(64)]

        class Streams:
            """The probe at the other end of two streams. It stops for some time in the midst."""

            def __init__(self, there, back):
                self.there, self.back, self.samples = there, back, 0

            async def drive(self, bits, count):
                """Some clocks."""
                self.there.write(b"O" + b"".join(b"eg" if bits >> place & 1 else b"df" for place in range(count)))

            async def release(self, count):
                """Some clocks."""
                self.there.write(b"o" + b"df" * count)

            async def sample(self, count):
                """Some clocks."""
                self.samples += 1
                self.there.write(b"o" + b"dcf" * count)
                if self.samples == 40:
                    await asyncio.sleep(1.5)
                levels = await self.back.readexactly(count)
                return sum((level & 1) << place for place, level in enumerate(levels))

        async def session(folder):
            memory = os.path.join(folder, "memory")
            with open(memory, "wb") as written:
                written.write(bytes(1024))
            target = await asyncio.create_subprocess_exec(PROGRAM, "target", "--memory", memory, stdin=-1, stdout=-1)
            probe = Streams(target.stdin, target.stdout)
            report = await names["load"](probe, accesses)
            await target.communicate(b"Q")
            with open(memory, "rb") as loaded:
                return report, loaded.read(256), probe.samples

        with tempfile.TemporaryDirectory() as folder:
            report, loaded, samples = asyncio.run(session(folder))
        self.assertEqual((report.ended, len(report.answers)), (End.ALL, 64))
        self.assertEqual(loaded, b"".join((place + 1).to_bytes(4, "little") for place in range(64)))
        # Of 64 writes and two openings. Without a second one they are some 80.
        self.assertGreater(samples, 90)


if __name__ == "__main__":
    unittest.main()
