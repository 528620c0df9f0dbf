"""Tests of calls that are made again: what a call leaves behind, above all where it failed, may not reach the next
one. Each failure comes twice. They are run as those of test_swd.py."""
import itertools
import unittest

import swd
from plain import Damaged, PlainMemory, PlainTarget
from swd import End, Read, Value, Write
from test_sessions import LIST, Sequenced, damaged, fail_at
from test_swd import BASE, TARGETS, WORD, plan_of, sure_of

# The requests of an opening, and of a read over a target that is open.
OPENING, POLL = 9, 3
# The idle cycles at the end of a run, and the clocks of a read over a target that is open.
IDLE = 8
READ_CLOCKS = 46 * POLL + IDLE


class Flaky:
    """A line to a target, whose levels or calls fail while `failure` is set: one that no target answers, or an
    exception that each call raises."""

    def __init__(self, target):
        self.line, self.failure = Damaged(target, []), None

    def _clock(self, call, *bits):
        if isinstance(self.failure, BaseException):
            raise self.failure
        return 1 if self.failure else call(*bits)

    def drive(self, bit):
        self._clock(self.line.drive, bit)

    def release(self):
        self._clock(self.line.release)

    def sample(self):
        return self._clock(self.line.sample)


class Polls(unittest.TestCase):
    """Reads of one word over and over."""

    FAILURES = [
        ("nobody answers", True, swd.RunStopped), ("unplugged", OSError("unplugged"), swd.LineFailed),
        ("Ctrl-C", KeyboardInterrupt(), swd.Interrupted),
    ]

    def test_a_target_that_is_gone(self):
        """No read returns the word of the one before. Once the target is there again, each returns the word that it
        has."""
        for (name, make), (how, failure, kind) in itertools.product(TARGETS.items(), self.FAILURES):
            with self.subTest(name, failure=how):
                memory = PlainMemory(BASE, 4, 100)
                line = Flaky(make(memory))
                session = swd.Session(line)
                for word in range(7, 10):
                    memory.words[BASE] = word
                    self.assertEqual([session.read(BASE) for _ in range(3)], [word] * 3)
                    line.failure = failure
                    for _ in range(2):
                        with self.assertRaises(kind) as caught:
                            session.read(BASE)
                        self.assertEqual(caught.exception.report.answers, ())
                        self.assertFalse(session.is_open)
                    line.failure = None

    def test_a_lost_request(self):
        """At each request of a poll, and of the one behind it: the next read opens the target again, and the one
        after it is a poll of three requests."""
        for mark, number in itertools.product(("deaf", "mute 0", "mute 1"), range(1, 2 * POLL + 1)):
            with self.subTest(mark, number=number):
                memory = PlainMemory(BASE, 4, 100)
                # A second one comes in the fifth read, behind another opening.
                first = OPENING + POLL + number
                second = first + OPENING + POLL + number
                target = PlainTarget(memory)
                session = swd.Session(Damaged(target, plan_of({first: mark, second: mark})))
                lost = 0
                for word in range(20):
                    memory.words[BASE] = word
                    try:
                        self.assertEqual(session.read(BASE), word)
                        self.assertTrue(session.is_open)
                    except swd.RunStopped as stop:
                        lost += 1
                        self.assertIs(stop.report.ended, End.LOST)
                        self.assertFalse(session.is_open)
                self.assertEqual(lost, 2)
                self.assertEqual(session.run([Read(BASE)]).requests, POLL)
                self.assertEqual(target.contended, 0)

    def test_too_few_tries(self):
        """The session isn't open afterwards: the next read brings the target to rest, and opens it."""
        marks = {OPENING + POLL + 2: "wait", OPENING + POLL + 2 + 1 + OPENING + POLL + 2: "wait"}
        for calls in (lambda session: session.read(BASE), lambda session: session.run([Read(BASE)]).words()[0]):
            line, memory = damaged(marks)
            session, ended = swd.Session(line, 0), []
            for word in range(8):
                memory.words[BASE] = word
                try:
                    self.assertEqual(calls(session), word)
                except swd.RunStopped as stop:
                    ended.append(stop.report.ended)
                    self.assertFalse(session.is_open)
                    # The line reset of what brings it to rest comes first, behind released clocks.
                    before = len(line.calls)
                    session.open()
                    self.assertEqual(line.calls[before], "-")
            self.assertEqual(ended, [End.TRIES] * 2)

    def test_tries_that_are_changed(self):
        """A poll has those of the session, not those of the poll before."""
        waits = {OPENING + 2 * POLL + 2: "wait", OPENING + 3 * POLL + 1 + 2: "wait"}
        session = swd.Session(damaged(waits)[0], 0)
        self.assertEqual([session.read(BASE), session.read(BASE)], [0, 0])
        session.tries = 1
        self.assertEqual(session.read(BASE), 0)
        session.tries = 0
        with self.assertRaises(swd.RunStopped) as caught:
            session.read(BASE)
        self.assertIs(caught.exception.report.ended, End.TRIES)
        self.assertEqual(caught.exception.report.answers, ())

    def test_another_word_of_the_target(self):
        """A report is of its own run, whatever the one before read."""
        line, memory = damaged()
        with swd.Session(line) as session:
            reports = []
            for word in (1, 2):
                memory.words[BASE] = word
                session.read(BASE)
                reports.append(session.run([Read(BASE)]))
        self.assertEqual([report.answers for report in reports], [(Value(1),), (Value(2),)])


class Identities(unittest.TestCase):
    """A target that is identified where the last call left it inside a transaction."""

    def test_a_target_that_is_astray(self):
        """At every other clock of a read: the target, which may be driving the line, is brought to rest first."""
        for kind, at in itertools.product((swd.Session, swd.Host), range(0, READ_CLOCKS - IDLE, 2)):
            with self.subTest(kind, clock=at):
                memory = PlainMemory(BASE, 4, 100)
                target = PlainTarget(memory)
                line = Damaged(target, [])
                host = kind(line)
                host.identify()
                opening = len(line.calls) - IDLE if kind is swd.Host else 0
                for word in (1, 2):
                    memory.words[BASE] = word
                    fail_at(line, opening + at, OSError("unplugged"))
                    self.assertRaises(swd.LineFailed, host.run, [Read(BASE)])
                    self.assertEqual(host.identify().word, 0x2BA01477)
                    self.assertEqual(host.run([Read(BASE)]).words(), [word])
                self.assertEqual(target.contended, 0)

    def test_a_target_that_is_astray_and_closed(self):
        """`close` doesn't forget where the last call left it: the next one brings it to rest first."""
        for at in range(0, READ_CLOCKS - IDLE, 2):
            with self.subTest(clock=at):
                memory = PlainMemory(BASE, 4, 100)
                target = PlainTarget(memory)
                line = Damaged(target, [])
                session = swd.Session(line)
                session.open()
                for word in (1, 2):
                    memory.words[BASE] = word
                    fail_at(line, at, OSError("unplugged"))
                    self.assertRaises(swd.LineFailed, session.read, BASE)
                    session.close()
                    self.assertEqual(session.read(BASE), word)
                self.assertEqual(target.contended, 0)

    def test_the_rest_of_a_data_phase_is_sent_once(self):
        """The line fails inside the data phase of a write, and then behind its rest, in each of the four released
        clocks: the next call drives nothing before the line reset."""
        for at in range(4):
            line, _ = damaged()
            session = swd.Session(line)
            session.open()
            # A request, a turnaround, an acknowledgement, a turnaround, and ten bits.
            fail_at(line, 8 + 1 + 3 + 1 + 10, OSError("unplugged"))
            self.assertRaises(swd.LineFailed, session.write, BASE, WORD)
            fail_at(line, 23 + at, OSError("unplugged"))
            self.assertRaises(swd.LineFailed, session.read, BASE)
            before = len(line.calls)
            self.assertEqual(session.read(BASE), 0)
            self.assertEqual(line.calls[before:before + 4], ["-"] * 4)


class Settling(unittest.TestCase):
    """Calls after one that was lost: they begin by bringing the target to rest. What fails then has a report of the
    call, of which nothing was done, and it is resumed."""

    CALLS = [
        ("a host's list", swd.Host, lambda host: host.run(LIST), LIST),
        ("a list", swd.Session, lambda session: session.run(LIST, check=False), LIST),
        ("a block", swd.Session, lambda session: session.run_block(BASE, 4), swd.block(BASE, 4)),
        ("a read", swd.Session, lambda session: session.read(BASE), [Read(BASE)]),
        ("a write", swd.Session, lambda session: session.write(BASE, WORD), [Write(BASE, WORD)]),
    ]
    FAILURES = [
        (OSError("unplugged"), swd.LineFailed), (KeyboardInterrupt(), swd.Interrupted), (SystemExit(3), SystemExit),
    ]

    class Queue(Sequenced):
        """A probe that raises this once, as it makes its queue, after so many times more. The queue is dropped then."""

        left, failure = None, None

        def flush(self):
            left, self.left = self.left, None if self.left is None else self.left - 1
            if left == 0:
                self.queue.clear()
                raise self.failure
            Sequenced.flush(self)

    def lost(self, kind, over=lambda line: line, marks=()):
        """A host whose last run was lost, over a line, and its memory, as if nothing had been done yet."""
        line, memory = damaged({12: "deaf", **dict(marks)})
        host = kind(over(line))
        self.assertIs(host.run([Write(BASE, 1)], check=False).ended, End.LOST)
        memory.log.clear()
        memory.words[BASE] = 0
        return host, line, memory

    def resumed(self, host, raised, accesses, memory):
        """Whether the report says that nothing was done; and the call is resumed."""
        report = swd.report_of(raised)
        self.assertEqual(report, swd.Report((), 0, 0, End.LOST))
        self.assertEqual(report.accesses, tuple(accesses))
        self.assertRaises(swd.RunStopped, report.check)
        self.assertEqual(memory.log, [])
        whole = host.resume(accesses, report)
        self.assertIs(whole.ended, End.ALL)
        sure_of(self, accesses, whole, memory, 65_536, 16)

    def test_a_failure_at_each_clock(self):
        """The last eight are idle cycles, behind the answers of the opening."""
        host, line, _ = self.lost(swd.Session)
        before = len(line.calls)
        host.identify()
        clocks = len(line.calls) - before
        places = [*range(0, clocks - 12, 53), *range(clocks - 12, clocks)]
        for at, (failure, kind) in itertools.product(places, self.FAILURES):
            for name, host_kind, call, accesses in self.CALLS:
                with self.subTest(name, clock=at, of=clocks, kind=kind):
                    host, line, memory = self.lost(host_kind)
                    fail_at(line, at, failure)
                    with self.assertRaises(kind) as caught:
                        call(host)
                    self.resumed(host, caught.exception, accesses, memory)

    def test_a_target_that_is_lost_again(self):
        """At each request that brings it to rest."""
        for number, (name, kind, call, accesses) in itertools.product(range(13, 22), self.CALLS):
            with self.subTest(name, request=number):
                host, _, memory = self.lost(kind, marks={number: "deaf"})
                with self.assertRaises(swd.RunStopped) as caught:
                    call(host)
                self.resumed(host, caught.exception, accesses, memory)

    def test_a_failure_of_each_queue(self):
        """The last one is flushed at the end of the run that brings the target to rest."""
        probe = self.Queue(None)

        def over(line):
            probe.line, probe.left = line, None
            return swd.Sequences(probe)

        host, _, _ = self.lost(swd.Session, over)
        probe.left = 1000
        host.identify()
        queues = 1000 - probe.left
        for at, (failure, kind) in itertools.product(range(queues), self.FAILURES):
            for name, host_kind, call, accesses in self.CALLS:
                with self.subTest(name, queue=at, of=queues, kind=kind):
                    host, _, memory = self.lost(host_kind, over)
                    probe.left, probe.failure = at, failure
                    with self.assertRaises(kind) as caught:
                        call(host)
                    self.resumed(host, caught.exception, accesses, memory)


if __name__ == "__main__":
    unittest.main()
