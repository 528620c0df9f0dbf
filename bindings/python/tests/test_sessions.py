"""Tests of sessions and of failures. They are run as those of test_swd.py."""
import copy
import itertools
import os
import pickle
import signal
import subprocess
import sys
import tempfile
import threading
import unittest
import unittest.mock

import swd
from plain import Damaged, PlainMemory, PlainTarget
from swd import BusFault, End, Read, Value, Write, Written
from test_swd import BASE, PROGRAM, WORD, library_target, plan_of, program_of_the_page, sure_of

LIST = [Write(BASE, WORD), Write(BASE + 4, 2), Read(BASE), Read(BASE + 4)]
ANSWERS = (Written(), Written(), Value(WORD), Value(2))
DEAD = (lambda bit: None, lambda: 1)
POLL_REQUESTS, POLL_CLOCKS = 3, 160


def damaged(marks=None, words=16):
    """A line to the library's target, and its memory."""
    memory = PlainMemory(BASE, words, 65_536)
    return Damaged(library_target(memory), plan_of(marks or {})), memory


def fail_at(line, at, failure):
    """Has a damaged line raise this once, after so many clocks more."""
    cycle, left = line.cycle, iter(range(at, -1, -1))

    def failing(drive):
        if next(left) == 0:
            line.cycle = cycle
            raise failure
        return cycle(drive)

    line.cycle = failing


class Breaking:
    """A line that fails after each of these numbers of clocks. A clock that fails is made or isn't."""

    def __init__(self, line, made):
        self.line, self.made, self.left = line, made, []

    def _clock(self, call, *bits):
        fails = self.left[:1] == [0]
        if fails:
            self.left.pop(0)
        elif self.left:
            self.left[0] -= 1
        if fails and not self.made:
            raise OSError("unplugged")
        level = call(*bits)
        if fails:
            raise OSError("unplugged")
        return level

    def drive(self, bit):
        self._clock(self.line.drive, bit)

    def release(self):
        self._clock(self.line.release)

    def sample(self):
        return self._clock(self.line.sample)


class Sequenced:
    """A probe: sequences of clocks over a line of clocks. What is driven waits for the next sample."""

    def __init__(self, line):
        self.line, self.queue, self.exchanges = line, [], 0

    def drive(self, bits, count):
        self.queue.append((bits, count))

    def release(self, count):
        self.queue.append((None, count))

    def flush(self):
        for bits, count in self.queue:
            for place in range(count):
                if bits is None:
                    self.line.release()
                else:
                    self.line.drive(bits >> place & 1)
        self.queue.clear()

    def sample(self, count):
        self.exchanges += 1
        self.flush()
        return sum(self.line.sample() << place for place in range(count))


class CtrlC:
    """Raises KeyboardInterrupt at one of the places of the package at which Python handles a signal: where a function
    begins, and behind a builtin; up to Python 3.10 also where a function ends. Only the files of hosts count, not the
    target at the other end of the line."""

    FILES = {os.path.join(os.path.dirname(swd.__file__), f"_{name}.py")
             for name in ("accesses", "cues", "hosts", "identities", "images", "lines", "runs")}

    def __init__(self, place, events=("call", "c_return"), without=()):
        self.left, self.events, self.without = place, events, without

    def __enter__(self):
        sys.setprofile(self._meet)
        return self

    def __exit__(self, *raised):
        sys.setprofile(None)

    def _meet(self, frame, event, _):
        code = frame.f_code
        if event not in self.events or code.co_filename not in self.FILES or (event, code.co_name) in self.without:
            return
        self.left -= 1
        if self.left < 0:
            sys.setprofile(None)
            raise KeyboardInterrupt

    @classmethod
    def at_each(cls, call, *how):
        """Makes this call with Ctrl-C at each place in turn. Yields the place and what was raised, up to a call that
        passed all of its places."""
        for place in itertools.count():
            try:
                with cls(place, *how):
                    call()
            except KeyboardInterrupt as raised:
                yield place, raised
            else:
                return


class Sessions(unittest.TestCase):
    """Lists over a target that is opened once."""

    def test_a_session(self):
        line, memory = damaged()
        with swd.Session(line) as session:
            self.assertTrue(session.is_open)
            session.write(BASE, WORD)
            self.assertEqual(session.read(BASE), WORD)
            report = session.run(LIST)
            self.assertEqual(report, swd.Report(ANSWERS, 0, 9, End.ALL))
            self.assertEqual(session.run_block(BASE, 4).words(), [WORD, 2, 0, 0])
            self.assertEqual(session.run([]), swd.Report((), 0, 0, End.ALL))
        self.assertFalse(session.is_open)
        self.assertEqual(memory.log[:2], [("w", BASE, WORD), ("r", BASE, WORD)])
        self.assertEqual(session.read(BASE), WORD)

    def test_a_poll(self):
        line, memory = damaged()
        with swd.Session(line) as session:
            for _ in range(20):
                before = len(line.levels)
                self.assertEqual(session.run([Read(BASE)]).requests, POLL_REQUESTS)
                self.assertLessEqual(len(line.levels) - before, POLL_CLOCKS)
        self.assertEqual(memory.log, [("r", BASE, 0)] * 20)

    def test_a_read_like_the_last(self):
        """Its run is taken once more. Other words, addresses, lists, bus errors, tries and openings come between."""
        line, memory = damaged()
        with swd.Session(line) as session:
            for word in (1, 2):
                memory.words[BASE] = word
                self.assertEqual([session.read(BASE), session.read(BASE)], [word, word])
            self.assertEqual([session.read(BASE + 4), session.read(BASE)], [0, 2])
            memory.words[BASE] = 3
            session.write(BASE + 4, 9)
            self.assertEqual(session.run_block(BASE, 2).words(), [3, 9])
            self.assertEqual([session.read(BASE), session.read(BASE + 4)], [3, 9])
            for _ in range(2):
                self.assertRaises(swd.AccessFaulted, session.read, 0x30000000)
            session.tries = 0
            self.assertEqual([session.read(BASE), session.read(BASE)], [3, 3])
            session.close()
            self.assertEqual([session.read(BASE) for _ in range(3)], [3, 3, 3])

    def test_close_in_a_callback(self):
        """The target is opened again by the next call, as after any other `close`: the call that is made goes on."""
        for kept in (False, True):
            with self.subTest(kept=kept):
                line, memory = damaged({15: "deaf"} if kept else {})
                session = swd.Session(line)
                report = session.run(LIST, check=False, on_answer=lambda index, answer: session.close())
                self.assertEqual((report.ended, len(report.answers)), (End.LOST, 2) if kept else (End.ALL, 4))
                self.assertFalse(session.is_open)
                # Nine requests of the opening. After a loss another run comes before, which brings the target to rest.
                self.assertEqual(session.run([Read(BASE)]).requests, POLL_REQUESTS + (0 if kept else 9))
                self.assertTrue(session.is_open)
                self.assertEqual(session.run([Read(BASE)]).requests, POLL_REQUESTS)
                self.assertEqual(session.read(BASE), WORD)

    def test_tries_that_are_changed(self):
        """They are checked as the argument is: a C library would take other numbers for them."""
        line, memory = damaged({11: "wait", 12: "wait"})
        for host in (swd.Session(line), swd.Host(line)):
            self.assertEqual(host.tries, 8)
            for tries in (-1, 1 << 32, 1.5, "8", None, True):
                with self.subTest(tries), self.assertRaises(swd.OutOfRange) as caught:
                    host.tries = tries
                self.assertIn("tries is", str(caught.exception))
                self.assertEqual(host.tries, 8)
            host.tries = 0xFFFFFFFF
            self.assertEqual(host.tries, 0xFFFFFFFF)
        session = swd.Session(line)
        session.tries = 1
        self.assertIs(session.run([Write(BASE, 1)], check=False).ended, End.TRIES)
        self.assertEqual(memory.log, [])

    def test_until(self):
        line, memory = damaged()
        with swd.Session(line) as session:
            transfer, left = memory.transfer, iter(range(3, -1, -1))

            def counted(addr, word=None):
                memory.words[BASE] = 0x80000001 if next(left) == 0 else 0xFF
                return transfer(addr, word)

            memory.transfer = counted
            self.assertEqual(session.until(BASE, 0x80000000, 0x80000000, 10), 0x80000001)
            self.assertEqual(len(memory.log), 4)
            memory.transfer = transfer
            with self.assertRaises(swd.ConditionNotMet) as caught:
                session.until(BASE, 2, 2, 5, interval=0.001)
            self.assertEqual(len(memory.log), 9)
            self.assertEqual(caught.exception.report.words(), [0x80000001])
            self.assertIn("80000001 at the last of 5 reads", str(caught.exception))
            for arguments in ((BASE, 1, 2), (BASE, 1, 1, 0), (BASE + 1, 1, 1), (BASE, 1 << 32, 0)):
                with self.subTest(arguments), self.assertRaises(swd.OutOfRange):
                    session.until(*arguments)
            self.assertEqual(len(memory.log), 9)

    def test_after_a_loss(self):
        """Nine requests of the opening, TAR, DRW and RDBUFF. The next list is done over a target opened anew."""
        for mark, number in itertools.product(("deaf", "mute 0", "mute 1"), range(1, 13)):
            with self.subTest(mark, number=number):
                target = PlainTarget(PlainMemory(BASE, 4, 100))
                session = swd.Session(Damaged(target, plan_of({number: mark})))
                report = session.run([Write(BASE, 1)], check=False)
                self.assertEqual(report.ended is End.ALL, session.is_open)
                self.assertEqual(session.run([Read(BASE + 4)]).answers, (Value(0),))
                self.assertEqual(session.run([Write(BASE, 7), Read(BASE)]).words(), [7])
                self.assertEqual(target.contended, 0)

    def test_resume(self):
        """The request that confirms the write is lost."""
        line, memory = damaged({12: "deaf"})
        with swd.Session(line) as session:
            with self.assertRaises(swd.RunStopped) as caught:
                session.run([Write(BASE, WORD)])
            lost = caught.exception.report
            self.assertEqual(lost, swd.Report((), 1, 3, End.LOST))
            self.assertFalse(session.is_open)
            self.assertEqual(session.resume([Write(BASE, WORD)], lost).answers, (Written(),))
            self.assertTrue(session.is_open)
            self.assertEqual(session.run([Read(BASE)]).requests, POLL_REQUESTS)
        self.assertEqual(memory.words[BASE], WORD)

    @unittest.skipUnless(PROGRAM, "SWD names no program")
    def test_polls_of_the_program(self):
        """A session at `swd target`: its log has each access once, and its trace the clocks of each poll."""
        names = {}
        exec(program_of_the_page("RemoteBitbang"), names)  # pylint: disable=exec-used
        with tempfile.TemporaryDirectory() as folder:
            with open(os.path.join(folder, "script"), "w", encoding="ascii") as written:
                written.write(f"memory {BASE:08x} 16\n")
            with subprocess.Popen([PROGRAM, "target", "script", "--log", "log", "--trace", "trace"], cwd=folder,
                                  stdin=subprocess.PIPE, stdout=subprocess.PIPE) as target:
                with swd.Session(names["RemoteBitbang"](target.stdin, target.stdout)) as session:
                    requests = [session.run([Read(BASE)]).requests for _ in range(10)]
                target.communicate(b"Q")
            with open(os.path.join(folder, "log"), encoding="ascii") as log:
                logged = log.read().splitlines()
            with open(os.path.join(folder, "trace"), encoding="ascii") as trace:
                clocks = len(swd.trace_bits(trace.read()))
        self.assertEqual(requests, [POLL_REQUESTS] * 10)
        self.assertEqual(logged[:-1], [f"r {BASE:08x} 00000000"] * 10)
        self.assertLessEqual(clocks, 690 + 10 * POLL_CLOCKS)


class Identities(unittest.TestCase):
    """What a target says of itself while it is opened."""

    def test_an_identification(self):
        """Of IHI 0031's DPIDR for an Arm debug port of version 1: revision 2, part ba, designer 23b."""
        for kind in (swd.Host, swd.Session):
            line, memory = damaged()
            host = kind(line)
            for _ in range(2):
                found = host.identify()
                self.assertEqual(found, swd.Identification(0x2BA01477))
                fields = found.designer, found.part, found.version, found.revision, found.is_minimal
                self.assertEqual(fields, (0x23B, 0xBA, 1, 2, False))
            self.assertEqual(str(found), "dpidr 2ba01477: designer 23b, part ba, version 1, revision 2")
            self.assertEqual(host.run(LIST).answers, ANSWERS)
            self.assertEqual(len(memory.log), len(LIST))
        minimal = "dpidr 0bc12477: designer 23b, part bc, version 2, revision 0, minimal"
        self.assertEqual(str(swd.Identification(0x0BC12477)), minimal)

    def test_a_session_is_open_afterwards(self):
        session = swd.Session(damaged()[0])
        session.identify()
        self.assertTrue(session.is_open)
        self.assertEqual(session.run([Read(BASE)]).requests, POLL_REQUESTS)

    def test_how_far_an_opening_came(self):
        """Requests 1, 3 and 6 of an opening read DPIDR and CTRL/STAT, before and after power is requested."""
        found, no_power = swd.Identification(0x2BA01477), "and CTRL/STAT acknowledged no debug and no system power"
        rows = [
            (DEAD, "no request was answered OK", None, None),
            (damaged({1: "flip 0"})[0], "DPIDR was never read with right parity", None, None),
            (damaged({4: "mute 0"})[0], "DPIDR was 2ba01477", found, 0),
            (damaged({6: "wait"})[0], f"DPIDR was 2ba01477, {no_power}", found, 0x50000000),
        ]
        for line, told, dpidr, ctrl_stat in rows:
            host = swd.Host(line, 0)
            with self.subTest(told), self.assertRaises(swd.RunStopped) as caught:
                host.identify()
            self.assertEqual(str(caught.exception).split("; ")[1], told)
            self.assertEqual(caught.exception.report.answers, ())
            self.assertEqual(host.opening, swd.Opening(dpidr, ctrl_stat))
            self.assertEqual((host.opening.has_debug_power, host.opening.has_system_power), (False, False))

    def test_an_opening_that_succeeded(self):
        session = swd.Session(damaged()[0])
        self.assertEqual(session.opening, swd.Opening())
        session.identify()
        opening = session.opening
        self.assertEqual(opening.dpidr, swd.Identification(0x2BA01477))
        self.assertEqual((opening.has_debug_power, opening.has_system_power), (True, True))
        self.assertEqual(str(opening), "DPIDR was 2ba01477")
        half = swd.Opening(swd.Identification(0x2BA01477), 0x70000000)
        self.assertEqual((half.has_debug_power, half.has_system_power), (True, False))
        self.assertEqual(str(half), "DPIDR was 2ba01477, and CTRL/STAT acknowledged no system power")

    def test_an_identification_that_is_refused(self):
        """Nothing is sent, and what was read before stands. Where the line fails, nothing was read."""
        line, _ = damaged()
        session = swd.Session(line)
        opening = swd.Opening(session.identify(), 0xF0000000)
        self.assertEqual(session.opening, opening)
        with self.assertRaises(swd.CallbackFailed) as caught:
            session.run([Write(BASE, 1)], on_answer=lambda index, answer: session.identify())
        self.assertIsInstance(caught.exception.__cause__, swd.Reentered)
        self.assertEqual(session.opening, opening)
        line.cycle = None
        self.assertRaises(swd.LineFailed, session.identify)
        self.assertEqual(session.opening, swd.Opening())

    def test_a_target_that_was_lost_before(self):
        """It is brought to rest, and identified by the opening that does so."""
        line, memory = damaged({12: "deaf"})
        session = swd.Session(line)
        self.assertRaises(swd.RunStopped, session.write, BASE, WORD)
        self.assertEqual(session.identify().word, 0x2BA01477)
        self.assertEqual(session.run(LIST).answers, ANSWERS)
        self.assertEqual(memory.log[0], ("w", BASE, WORD))


class Failures(unittest.TestCase):
    """What isn't done is an exception, with a report of what was."""

    def test_a_dead_line(self):
        for kind in (swd.Host, swd.Session):
            with self.subTest(kind):
                with self.assertRaises(swd.RunStopped) as caught:
                    kind(DEAD).run([Write(BASE, 1)])
                self.assertEqual(caught.exception.report, swd.Report((), 0, 1, End.LOST))
                self.assertIn("no acknowledgement", str(caught.exception))
                self.assertIn("0 of 1 answered, 0 in flight", str(caught.exception))
                self.assertIs(swd.report_of(caught.exception), caught.exception.report)
        with self.assertRaises(swd.RunStopped), swd.Session(DEAD):
            self.fail("the body of a session that isn't open")
        for call in (lambda: swd.Host(DEAD).run_block(BASE, 2), lambda: swd.Session(DEAD).read(BASE),
                     lambda: swd.Session(DEAD).write(BASE, 1), lambda: swd.Session(DEAD).until(BASE, 1, 1)):
            self.assertRaises(swd.RunStopped, call)

    def test_bus_errors(self):
        line, _ = damaged()
        with swd.Session(line) as session:
            with self.assertRaises(swd.AccessFaulted) as caught:
                session.run([Read(BASE), Write(0x30000000, 1)])
            self.assertIn("access 1 (w 30000000) was a bus error", str(caught.exception))
            self.assertEqual(caught.exception.report.answers, (Value(0), BusFault()))
            self.assertTrue(session.is_open)
            self.assertRaises(swd.AccessFaulted, session.read, 0x30000000)
            self.assertEqual(session.run([Read(0x30000000)], bus_errors=True).answers, (BusFault(),))
            self.assertEqual(session.run([Read(0x30000000)], check=False).answers, (BusFault(),))
            self.assertEqual(session.read(BASE), 0)

    def test_words_behind_a_bus_error(self):
        """They would take the place of the word that wasn't read. A write has no word, and takes none."""
        line, memory = damaged()
        del memory.words[BASE + 8]
        memory.words.update({BASE + 4 * place: place for place in (0, 1, 3)})
        with swd.Session(line) as session:
            for report in (session.run_block(BASE, 4, bus_errors=True),
                           session.run(swd.block(BASE, 4), check=False)):
                with self.assertRaises(swd.AccessFaulted) as caught:
                    report.words()
                self.assertIn("access 2 (r 20000008) was a bus error", str(caught.exception))
                self.assertIs(caught.exception.report, report)
                self.assertEqual(report.answers, (Value(0), Value(1), BusFault(), Value(3)))
            written = session.run([Write(BASE + 8, 1), Read(BASE + 4)], bus_errors=True)
            self.assertEqual((written.answers, written.words()), ((BusFault(), Value(1)), [1]))
        self.assertRaises(swd.AccessFaulted, swd.Report((BusFault(), Value(1)), 0, 9, End.ALL).words)

    def test_check(self):
        whole = swd.Report(ANSWERS, 0, 15, End.ALL)
        self.assertIs(whole.check(), whole)
        for ended in (End.LOST, End.TRIES, End.WRONG_ID, End.CONFUSED):
            with self.subTest(ended), self.assertRaises(swd.RunStopped):
                swd.Report((), 0, 1, ended, 0).check(bus_errors=True)
        faulted = swd.Report((BusFault(),), 0, 15, End.ALL)
        self.assertIs(faulted.check(bus_errors=True), faulted)
        self.assertRaises(swd.AccessFaulted, faulted.check)

    def stopped(self, at, failure, kind=swd.Host):
        """A run whose line raises this at a clock: the exception, the clocks made, and the memory."""
        memory = PlainMemory(BASE, 16, 100)
        line = Damaged(PlainTarget(memory), [])
        if at >= 0:
            fail_at(line, at, failure)
        host = kind(line)
        try:
            host.run(LIST)
        except BaseException as raised:  # pylint: disable=broad-except
            return raised, line, memory, host
        return None, line, memory, host

    def test_an_interrupt_at_each_clock(self):
        """The report of the interrupt is certain, and the run is resumed after it."""
        _, whole, _, _ = self.stopped(-1, None)
        for at in range(len(whole.calls)):
            with self.subTest(clock=at):
                raised, line, memory, host = self.stopped(at, KeyboardInterrupt())
                self.assertIsInstance(raised, swd.Interrupted)
                self.assertIsInstance(raised, KeyboardInterrupt)
                self.assertEqual(len(line.calls), at + 1)
                sure_of(self, LIST, raised.report, memory, 100, 16)
                if raised.report.ended is End.LOST:
                    self.assertEqual(host.resume(LIST, raised.report).answers, ANSWERS)
                self.assertEqual(host.run([Read(BASE), Read(BASE + 4)]).words(), [WORD, 2])
                self.assertEqual(line.target.contended, 0)

    def test_other_exceptions(self):
        for failure in (SystemExit(3), GeneratorExit()):
            raised, _, memory, _ = self.stopped(700, failure)
            self.assertIs(raised, failure)
            sure_of(self, LIST, swd.report_of(raised), memory, 100, 16)
        raised, _, _, _ = self.stopped(700, OSError("unplugged"))
        self.assertIsInstance(raised, swd.LineFailed)
        self.assertIn("OSError('unplugged')", str(raised))

    def test_a_failure_at_each_clock_of_a_session(self):
        """The session opens the target again, and reads what the report says was written."""
        _, whole, _, _ = self.stopped(-1, None, swd.Session)
        for at in range(len(whole.calls)):
            with self.subTest(clock=at):
                raised, line, memory, session = self.stopped(at, OSError("unplugged"), swd.Session)
                sure_of(self, LIST, raised.report, memory, 100, 16)
                written = raised.report.answers.count(Written())
                self.assertFalse(session.is_open)
                read = session.run([Read(BASE), Read(BASE + 4)]).words()
                self.assertEqual(read[:written], [WORD, 2][:written])
                self.assertEqual(line.target.contended, 0)

    def test_a_data_phase_that_is_broken_off(self):
        """At each clock of it, which is made or isn't. The target drops the word: nothing is written until the next
        list, and nothing else ever. If all its clocks were made, the word was written."""
        for word, made, at in itertools.product((0, WORD, 0x7FFFFFFF), (False, True), range(34)):
            with self.subTest(word=word, made=made, clock=at):
                memory = PlainMemory(BASE, 4, 100)
                line = Breaking(Damaged(PlainTarget(memory), []), made)
                session = swd.Session(line)
                session.open()
                # TAR, and the request for the word, come before.
                line.left = [46 + 12 + at]
                self.assertRaises(swd.LineFailed, session.write, BASE, word)
                session.open()
                self.assertEqual(memory.log, [("w", BASE, word)] if made and at == 33 else [])
                self.assertEqual(line.line.target.contended, 0)

    def test_a_data_phase_that_is_broken_off_twice(self):
        """The line fails again while the rest is driven, at any bit but the 32nd of the data phase, which decides that
        the target drops the word."""
        for word, made, first in itertools.product((0, WORD), (False, True), range(0, 33, 4)):
            for second in range(33 - first):
                if first + second == 31:
                    continue
                with self.subTest(word=word, made=made, first=first, second=second):
                    memory = PlainMemory(BASE, 4, 100)
                    line = Breaking(Damaged(library_target(memory), []), made)
                    session = swd.Session(line)
                    session.open()
                    line.left = [46 + 13 + first, second]
                    self.assertRaises(swd.LineFailed, session.write, BASE, word)
                    self.assertRaises(swd.LineFailed, session.open)
                    session.open()
                    self.assertEqual(line.left, [])
                    self.assertEqual(memory.log, [("w", BASE, word)] if made and first == 32 else [])

    def test_signals(self):
        """Ctrl-C at any place of the code, and not only inside the line. Before the run, nothing was sent."""
        # A shell that runs a command aside lets it ignore the signal.
        self.addCleanup(signal.signal, signal.SIGINT, signal.signal(signal.SIGINT, signal.default_int_handler))
        places = {"before": 0, "inside": 0}
        for number in range(60):
            with self.subTest(number):
                line, memory = damaged()
                accesses = [Write(BASE + 4 * (index % 16), index) for index in range(1000)]
                timer = threading.Timer(0.001 + 0.0013 * number, signal.raise_signal, (signal.SIGINT,))
                try:
                    timer.start()
                    swd.Host(line).run(accesses)
                    timer.join()
                except swd.Interrupted as stop:
                    places["inside"] += 1
                    sure_of(self, accesses, stop.report, memory, 65_536, 16)
                except KeyboardInterrupt:
                    places["before"] += 1
                    self.assertIn(memory.log, ([], [("w", access.addr, access.word) for access in accesses]))
        self.assertGreater(places["inside"], 20, places)

    def test_a_run_inside_a_run(self):
        for inner in (swd.Host, swd.Session):
            with self.subTest(inner):
                line, memory = damaged()
                clocks, release = itertools.count(), line.release
                host = swd.Host(line)
                other = host if inner is swd.Host else swd.Session(line)

                def reenter():
                    if next(clocks) == 30:
                        other.run([Read(BASE)])
                    release()

                line.release = reenter
                host = swd.Host(line)
                with self.assertRaises(swd.LineFailed) as caught:
                    host.run(LIST)
                self.assertIsInstance(caught.exception.__cause__, swd.Reentered)
                sure_of(self, LIST, caught.exception.report, memory, 65_536, 16)
                self.assertEqual(host.resume(LIST, caught.exception.report).answers, ANSWERS)

    def test_a_run_inside_a_run_over_functions(self):
        """Each call makes a tuple of its own, of an object's methods, or of functions, whether they have a hash or
        not."""
        class Unhashable:
            """A function as an object that is compared by its value."""

            def __init__(self, call):
                self.call = call

            def __eq__(self, other):
                return self.call == other

            def __call__(self, *bits):
                return self.call(*bits)

        for kind in ("methods", "functions", "objects"):
            for at in range(0, 900, 13):
                line, memory = damaged()
                clocks, cycle = itertools.count(), line.cycle
                calls = {"functions": [lambda bit: line.drive(bit), lambda: line.sample()],
                         "objects": [Unhashable(line.drive), Unhashable(line.sample)]}

                def made():
                    return (line.drive, line.sample) if kind == "methods" else tuple(calls[kind])

                def reenter(bit):
                    if next(clocks) == at:
                        swd.Host(made()).run([Write(BASE, 5)])
                    return cycle(bit)

                line.cycle = reenter
                with self.subTest(kind, clock=at):
                    host = swd.Host(made())
                    with self.assertRaises(swd.LineFailed) as caught:
                        host.run(LIST)
                    self.assertIsInstance(caught.exception.__cause__, swd.Reentered)
                    sure_of(self, LIST, caught.exception.report, memory, 65_536, 16)
                    self.assertEqual(host.resume(LIST, caught.exception.report).answers, ANSWERS)

    def test_an_interrupt_at_each_place(self):
        """Of the package, and not only in the line. Without a report, nothing was sent."""
        for accesses in ([Write(BASE, WORD)], LIST):
            line, memory = damaged()
            with swd.Session(swd.Sequences(Sequenced(line))) as session:
                for place, raised in CtrlC.at_each(lambda: session.run(accesses)):
                    with self.subTest(accesses, place=place):
                        report = swd.report_of(raised)
                        if report is None:
                            self.assertEqual(memory.log, [])
                        else:
                            self.assertIsInstance(raised, swd.Interrupted)
                            sure_of(self, accesses, report, memory, 65_536, 16)
                        session.open()
                        memory.log.clear()
                        memory.words.update(dict.fromkeys(memory.words, 0))
            self.assertEqual(len(memory.log), len(accesses))

    def test_an_interrupt_of_a_read(self):
        """It has the report that tells how far it came, also where the same run is taken once more."""
        line, memory = damaged()
        with swd.Session(swd.Sequences(Sequenced(line))) as session:
            for place, raised in CtrlC.at_each(lambda: session.read(BASE)):
                with self.subTest(place):
                    report = swd.report_of(raised)
                    if report is None:
                        self.assertEqual(memory.log, [])
                    else:
                        sure_of(self, [Read(BASE)], report, memory, 65_536, 16)
                    session.open()
                    self.assertEqual(session.read(BASE), 0)
                    memory.log.clear()

    def test_an_interrupt_in_a_pause(self):
        """It comes between two reads, and has the report of the one before."""
        for reads in (1, 2, 3):
            line, memory = damaged()
            with swd.Session(line) as session:
                pauses = [None] * (reads - 1) + [KeyboardInterrupt()]
                with unittest.mock.patch("time.sleep", side_effect=pauses), \
                        self.assertRaises(swd.Interrupted) as caught:
                    session.until(BASE, 1, 1, interval=0.1)
                self.assertEqual(caught.exception.report, swd.Report((Value(0),), 0, POLL_REQUESTS, End.ALL))
                self.assertIs(caught.exception.__cause__, pauses[-1])
                self.assertEqual(len(memory.log), reads)
                self.assertTrue(session.is_open)

    def test_a_line_is_free_after_each_interrupt(self):
        """Another call isn't refused, wherever Ctrl-C came in the one before."""
        line, _ = damaged()
        with swd.Session(swd.Sequences(Sequenced(line))) as session:
            for place, _ in CtrlC.at_each(lambda: session.write(BASE, 1), ("call", "c_return", "return")):
                with self.subTest(place):
                    session.write(BASE, WORD)
                    self.assertEqual(session.read(BASE), WORD)
        self.assertGreater(place, 50)

    def test_answers_as_they_come(self):
        line, _ = damaged()
        seen = []
        swd.Host(line).run(LIST, on_answer=lambda index, answer: seen.append((index, answer)))
        self.assertEqual(seen, list(enumerate(ANSWERS)))
        seen.clear()
        with swd.Session(line) as session:
            session.run_block(BASE, 3, on_answer=lambda index, answer: seen.append(answer.word))
        self.assertEqual(seen, [WORD, 2, 0])

    def test_a_callback_that_fails(self):
        for failure, kind in ((ValueError("full"), swd.CallbackFailed), (KeyboardInterrupt(), swd.Interrupted)):
            with self.subTest(kind):
                line, memory = damaged()
                host = swd.Host(line)

                def fail(index, answer):
                    if index == 1:
                        raise failure

                with self.assertRaises(kind) as caught:
                    host.run(LIST, on_answer=fail)
                self.assertIs(caught.exception.__cause__, failure)
                self.assertGreaterEqual(len(caught.exception.report.answers), 2)
                sure_of(self, LIST, caught.exception.report, memory, 65_536, 16)
                self.assertEqual(host.resume(LIST, caught.exception.report).answers, ANSWERS)

    def test_a_report_of_another_list(self):
        """It isn't taken for one of this list: its answers would be those of other accesses."""
        line, memory = damaged({15: "deaf"})
        host = swd.Host(line)
        lost = host.run(LIST, check=False)
        self.assertEqual((lost.ended, lost.answers), (End.LOST, (Written(), Written())))
        done = list(memory.log)
        for other in (LIST[::-1], LIST[:3], [*LIST, Read(BASE)], [Write(BASE, 0), *LIST[1:]], swd.block(BASE, 4)):
            with self.subTest(other):
                self.assertRaises(swd.NotResumable, host.resume, other, lost)
                self.assertRaises(swd.NotResumable, swd.Run.resumed, other, lost)
        self.assertEqual(memory.log, done)
        self.assertEqual(host.resume(tuple(LIST), lost).answers, ANSWERS)

    def test_a_report_of_another_block(self):
        host = swd.Host(damaged({14: "deaf"})[0])
        lost = host.run_block(BASE, 4, check=False)
        self.assertIs(lost.ended, End.LOST)
        for other in (swd.block(BASE, 3), swd.block(BASE + 4, 4)):
            self.assertRaises(swd.NotResumable, host.resume, other, lost)
        self.assertEqual(host.resume(swd.block(BASE, 4), lost).words(), [0] * 4)

    def test_failures_that_are_copied(self):
        """Each keeps its fields, also those of Ctrl-C, as `multiprocessing` needs them."""
        report = swd.Report((Written(),), 1, 12, End.LOST)
        image = (report, BASE + 3, 3, b"abc")
        for failure in (swd.RunStopped("told", report), swd.Interrupted("told", report),
                        swd.ImageStopped("told", *image), swd.ImageInterrupted("told", *image)):
            for copied in (pickle.loads(pickle.dumps(failure)), copy.copy(failure), copy.deepcopy(failure)):
                with self.subTest(type(failure)):
                    self.assertIs(type(copied), type(failure))
                    self.assertEqual((str(copied), vars(copied)), (str(failure), vars(failure)))

    def test_a_report_that_was_kept(self):
        """A run is resumed by another host, from nothing but the number of answers."""
        line, memory = damaged({15: "deaf"})
        lost = swd.Host(line).run(LIST, check=False)
        kept = swd.Report(lost.answers, lost.begun, 0, End.LOST)
        self.assertEqual(swd.Host(line).resume(LIST, kept).answers, ANSWERS)
        self.assertEqual(memory.words[BASE + 4], 2)


if __name__ == "__main__":
    unittest.main()
