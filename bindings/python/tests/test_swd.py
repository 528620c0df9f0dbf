"""Tests of the package swd. `python3 -m unittest` in this folder runs them; SWD_LIBRARY names the library.

SWD names the program `swd`, which random lists and traces are then compared with. COUNT is how many random lists are
run, 300 without it, and SEED where they begin."""
import asyncio
import concurrent.futures
import contextlib
import ctypes
import ctypes.util
import io
import itertools
import os
import random
import re
import subprocess
import sys
import tempfile
import unittest
import unittest.mock

import gpio
import plain
import swd
import swd._library as bound
from plain import Damaged, MemoryBus, PlainMemory, PlainTarget
from swd import BusFault, End, Read, Value, Write, Written

ROOT = os.path.abspath(os.path.join(os.path.dirname(__file__), "..", "..", ".."))
PROGRAM = os.environ.get("SWD")
COUNT = int(os.environ.get("COUNT", "300"))
SEED = int(os.environ.get("SEED", "1"))
BASE = 0x20000000
WORD = 0xDEADBEEF


def library_target(memory):
    return swd.Target(MemoryBus(memory))


TARGETS = {"the library's target": library_target, "the plain target": PlainTarget}


def plan_of(marks):
    """A plan from marks by the number of their request, from 1."""
    return [marks.get(number, ".") for number in range(1, max(marks, default=0) + 1)]


def reads(addr, count):
    return [Read(addr + 4 * index) for index in range(count)]


ROWS = os.environ.get("SWD_ROWS", os.path.join(ROOT, "crates", "swd_rows_tests", "data", "rows.txt"))
RESULTS = ("> ", "= ", "begun ", "end ", "resume ", "log ")


class Row:
    """A paragraph of rows.txt, whose head says what its lines mean."""

    def __init__(self, text):
        self.name, *self.lines = text.strip("\n").split("\n")
        self.memory = [int(word) for word in self.said("memory", "16 16").split()]
        self.tries, self.bursts = int(self.said("tries", "8")), self.said("bursts", "")
        self.block = self.said("block", "").split()
        marks = [line.split(" ", 2)[1:] for line in self.lines if line.startswith("mark ")]
        self.plan = plan_of({int(number): mark for number, mark in marks})
        self.accesses = [self.access(*line.split()) for line in self.lines if line.startswith(("r ", "w "))]

    def said(self, word, default):
        return next((line[len(word) + 1:] for line in self.lines if line.startswith(word + " ")), default)

    @staticmethod
    def access(kind, addr, word=""):
        return Read(int(addr, 16)) if kind == "r" else Write(int(addr, 16), int(word, 16))

    def is_for(self, bursts):
        """Whether it holds for a host with bursts of writes, or else of reads."""
        kind = "reads" if self.block else self.bursts
        return "late" not in self.lines and kind in ("", "writes" if bursts else "reads")

    def wanted(self):
        return [line for line in self.lines if line.startswith(RESULTS)]

    def run(self, host):
        if self.block:
            return host.run_block(int(self.block[0], 16), int(self.block[1]), check=False)
        return host.run(self.accesses, check=False)

    def came(self, target, memory, bursts):
        """What came of it, as a row has it."""
        line, lines, report = Damaged(target, self.plan), [], None
        for part in "\n".join(self.lines).split("\nresume "):
            tries = int(part.split("\n")[0]) if report else self.tries
            host = swd.Host(line, tries, bursts=bursts)
            lines += [f"resume {tries}"] * bool(report)
            report = host.resume(self.accesses, report, check=False) if report else self.run(host)
            items = [f"> {item}" for item in swd.decode(line.levels)]
            lines += items[len(items) - part.count("> "):]
            lines += ["= " + shown(answer) for answer in report.answers]
            lines += [f"begun {report.begun}"] * (report.begun > 0) + [f"end {report.ended.value} {report.requests}"]
        return lines + [f"log {kind} {addr:08x} {word:08x}" for kind, addr, word in memory.log]


def shown(answer):
    if isinstance(answer, Value):
        return f"{answer.word:08x}"
    return "written" if isinstance(answer, Written) else "busfault"


def is_wanted(line, wanted):
    """Whether a line is the wanted one: ? stands for any word. How many ones of a resumed run's lead are seen depends
    on what the target still drives."""
    if wanted == "> reset 100":
        return line.startswith("> reset ")
    return line.startswith(wanted[:-1]) if wanted.endswith("?") else line == wanted


class Rows(unittest.TestCase):
    """Worked runs, over the library's target and over a plain one."""

    def test_rows(self):
        with open(ROWS, encoding="ascii") as file:
            rows = [Row(text) for text in file.read().split("\n\n") if not text.startswith("#")]
        self.assertTrue(rows)
        for row, (target, make), bursts in itertools.product(rows, TARGETS.items(), (False, True)):
            with self.subTest(row.name, target=target, bursts=bursts):
                memory = PlainMemory(BASE, *row.memory)
                if row.is_for(bursts):
                    lines, wanted = row.came(make(memory), memory, bursts), row.wanted()
                    self.assertTrue(len(lines) == len(wanted) and all(map(is_wanted, lines, wanted)), lines)

    def test_bursts(self):
        """Nine requests of the opening, TAR and DRW, and RDBUFF behind each access, or at the end of a burst. A hundred
        words lie in one kilobyte."""
        writes = [Write(access.addr, 1) for access in reads(BASE, 100)]
        apart = [Write(BASE + 8 * index, 1) for index in range(100)]
        for bursts, accesses, requests in (
            (False, writes, 9 + 1 + 2 * 100), (True, writes, 9 + 1 + 100 + 1),
            (False, reads(BASE, 100), 9 + 1 + 100 + 1), (True, reads(BASE, 100), 9 + 1 + 2 * 100),
            (False, apart, 9 + 3 * 100), (True, apart, 9 + 3 * 100),
        ):
            with self.subTest(bursts=bursts, first=accesses[0], second=accesses[1]):
                line = library_target(PlainMemory(BASE, 256, 400))
                host = swd.Host(line, bursts=bursts)
                self.assertEqual(host.run(accesses).requests, requests)
                self.assertEqual(host.run_block(BASE, 100).requests, 9 + 1 + 100 + 1)
                session = swd.Session(line, bursts=bursts)
                session.open()
                self.assertEqual(session.run(accesses).requests, requests - 9)
                run = swd.Run(accesses, bursts=bursts)
                self.drive(run, line)
                self.assertEqual(run.report().check().requests, requests)

    def drive(self, run, line):
        """Carries out a run over a line of clocks."""
        cue = run.cue()
        while cue is not None:
            reply = 0
            for sequence in cue.sequences():
                for place in range(sequence.count):
                    if isinstance(sequence, swd.Drive):
                        line.drive(sequence.bits >> place & 1)
                    elif isinstance(sequence, swd.Sample):
                        reply |= line.sample() << place
                    else:
                        line.release()
            run.next(reply)
            cue = run.cue()

    def test_runs_one_after_the_other(self):
        """Over one target: words that one run writes are read by the next ones, one by one and as a block."""
        words = [WORD, 0, 0xFFFFFFFF, 7]
        for target, make in TARGETS.items():
            with self.subTest(target):
                host = swd.Host(Damaged(make(PlainMemory(BASE, 16, 16)), []))
                written = host.run([Write(BASE + 4 * index, word) for index, word in enumerate(words)])
                self.assertEqual(written.answers, (Written(),) * 4)
                for report in (host.run(reads(BASE, 4)), host.run_block(BASE, 4)):
                    self.assertEqual(report.answers, tuple(map(Value, words)))

    def test_resume_that_is_lost(self):
        """What an earlier call started stays begun until it is answered: here in a resumed opening whose line fails."""
        accesses = [Write(BASE, WORD), Write(BASE + 16, 1)]
        line = Damaged(PlainTarget(PlainMemory(BASE, 16, 16)), plan_of({15: "deaf"}))
        host = swd.Host(line, tries=0)
        lost = host.run(accesses, check=False)
        line.cycle = None
        with self.assertRaises(swd.LineFailed) as caught:
            host.resume(accesses, lost)
        self.assertEqual(caught.exception.report, swd.Report((Written(),), 1, 1, End.LOST))

    def test_resume_that_is_lost_later(self):
        """What an earlier call started isn't in flight any more once it is answered."""
        accesses = [Write(BASE + 16 * place, place) for place in range(3)]
        # In the second write, and where the third would begin.
        line = Damaged(PlainTarget(PlainMemory(BASE, 16, 16)), plan_of({15: "deaf", 15 + 13: "deaf"}))
        host = swd.Host(line)
        lost = host.run(accesses, check=False)
        self.assertEqual(lost, swd.Report((Written(),), 1, 15, End.LOST))
        self.assertEqual(host.resume(accesses, lost, check=False), swd.Report((Written(),) * 2, 0, 13, End.LOST))

    def test_wrong_identification(self):
        """The target's DPIDR is read as 2ba01476: its first bit and the parity bit are changed."""
        line = Damaged(PlainTarget(PlainMemory(BASE, 1, 1)), [])
        sample, count = line.sample, itertools.count()
        line.sample = lambda: sample() ^ (next(count) in (3, 35))
        report = swd.Host(line).run([Read(BASE)], check=False)
        self.assertEqual(report, swd.Report((), 0, 1, End.WRONG_ID, 0x2BA01476))
        self.assertEqual(report.lines([Read(BASE)]), ["end id 2ba01476"])

    def test_nobody_there(self):
        report = swd.Host((lambda bit: None, lambda: 1)).run([Read(BASE)], check=False)
        self.assertEqual(report, swd.Report((), 0, 1, End.LOST))

    def test_confused(self):
        """FAULT for the read of DPIDR."""
        levels = itertools.chain([1, 0, 0, 1], itertools.repeat(1))
        report = swd.Host((lambda bit: None, lambda: next(levels))).run([], check=False)
        self.assertEqual(report, swd.Report((), 0, 1, End.CONFUSED))


class Clocks(unittest.TestCase):
    """Which clocks are driven, released and sampled."""

    LEAD = "1" * 56 + plain.SWITCH + "1" * 56 + "00"
    ASK = "10100101-???"

    def test_a_run(self):
        line = Damaged(PlainTarget(PlainMemory(BASE, 1, 1)), [])
        swd.Host(line).run([])
        calls = "".join(line.calls)
        self.assertTrue(calls.startswith(self.LEAD + self.ASK + "?" * 33 + "-"), calls)
        self.assertTrue(calls.endswith("?" * 33 + "-" + "0" * 8), calls)

    def test_nothing_after_a_lost_acknowledgement(self):
        line = Damaged(PlainTarget(PlainMemory(BASE, 1, 1)), ["deaf"])
        swd.Host(line).run([], check=False)
        self.assertEqual("".join(line.calls), self.LEAD + self.ASK)

    def test_the_lead_of_resume_is_released(self):
        """The target may still drive a data phase: 34 of the hundred ones are released, and no switch is sent."""
        for mark in ("mute 0", "mute 1", "deaf"):
            with self.subTest(mark):
                target = PlainTarget(PlainMemory(BASE, 4, 4))
                line = Damaged(target, plan_of({12: mark}))
                host = swd.Host(line)
                lost = host.run([Read(BASE)], check=False)
                self.assertIs(lost.ended, End.LOST)
                before = len(line.calls)
                host.resume([Read(BASE)], lost)
                calls = "".join(line.calls[before:])
                self.assertTrue(calls.startswith("-" * 34 + "1" * 66 + "00" + self.ASK), calls)
                self.assertEqual(target.contended, 0)

    def test_two_functions(self):
        """The second function samples, and is called where the line is released."""
        target = swd.Target(MemoryBus(PlainMemory(BASE, 4, 4)))
        driven, sampled = [], []

        def drive(bit):
            driven.append(bit)
            target.drive(bit)

        def sample():
            sampled.append(target.sample())
            return sampled[-1]

        report = swd.Host((drive, sample)).run([Write(BASE, WORD), Read(BASE)])
        self.assertEqual(report, swd.Report((Written(), Value(WORD)), 0, 15, End.ALL))
        self.assertEqual(len(driven) + len(sampled), target.cycles)


def random_mark(rng):
    kind = rng.choice(["wait", "wait", "flip", "flip", "flip", "deaf", "mute"])
    return {"flip": f"flip {rng.randrange(33)}", "mute": f"mute {rng.randrange(3)}"}.get(kind, kind)


class Session:
    """A random list over a random plan."""

    WORDS = 520

    def __init__(self, seed):
        self.rng = rng = random.Random(seed)
        bad = rng.choice([0, 0.02, 0.1, 0.3])
        self.plan = [random_mark(rng) if rng.random() < bad else "." for _ in range(rng.randrange(400))]
        self.tries, self.resumes = rng.choice([0, 1, 2, 8]), rng.choice([0, 0, 1, 3])
        self.room = rng.randrange(40) if rng.random() < 0.2 and self.resumes == 0 else 65_536
        self.block = rng.random() < 0.25
        self.accesses = self._block() if self.block else self._list()

    def _addr(self):
        pick = self.rng.random()
        if pick < 0.1:
            return self.rng.choice([0, 0x30000000, 0xFFFFFFFC, BASE + 4 * self.WORDS])
        if pick < 0.4:
            return BASE + 1024 * self.rng.randrange(1, 3) - 4 * self.rng.randrange(1, 5)
        return BASE + 4 * self.rng.randrange(self.WORDS)

    def _block(self):
        return swd.block(BASE + 4 * self.rng.randrange(self.WORDS), self.rng.randrange(1, 40))

    def _list(self):
        accesses = []
        while len(accesses) < 30 and self.rng.random() < 0.92:
            addr, reads_them = self._addr(), self.rng.random() < 0.5
            for index in range(self.rng.choice([1, 1, 2, 6])):
                at = addr + 4 * index & 0xFFFFFFFF
                accesses.append(Read(at) if reads_them else Write(at, self.rng.getrandbits(32)))
        return accesses

    def run(self, host):
        """The reports of the run and of each time that it was resumed."""
        if self.block:
            reports = [host.run_block(self.accesses[0].addr, len(self.accesses), check=False)]
        else:
            reports = [host.run(self.accesses, check=False)]
        while reports[-1].ended is End.LOST and len(reports) <= self.resumes:
            reports.append(host.resume(self.accesses, reports[-1], check=False))
        return reports

    def lines(self, reports):
        """What `swd run` prints of them."""
        lines = reports[-1].lines(self.accesses)
        for report in reversed(reports[:-1]):
            place = len(report.answers)
            lines.insert(place, f"resume {place} begun {report.begun}")
        return lines

    def script(self):
        lines = [f"memory {BASE:08x} {self.WORDS}", f"room {self.room}"]
        if self.block:
            return lines + [f"block {self.accesses[0].addr:08x} {len(self.accesses)}"]
        for access in self.accesses:
            word = f" {access.word:08x}" if isinstance(access, Write) else ""
            lines.append(f"{'w' if word else 'r'} {access.addr:08x}{word}")
        return lines

    def over(self, make, bursts=False):
        """The reports over a target of this kind, its memory, its line and itself."""
        memory = PlainMemory(BASE, self.WORDS, self.room)
        target = make(memory)
        line = Damaged(target, self.plan)
        return self.run(swd.Host(line, self.tries, bursts=bursts)), memory, line, target


def sure_of(test, accesses, report, memory, room, words):
    """The answers are those of a plain memory. The transfers are those of the answered accesses, and of no more
    accesses behind them than were begun."""
    model = PlainMemory(BASE, words, room)
    answers = tuple(model.answer(access) for access in accesses[:len(report.answers)])
    test.assertEqual(report.answers, answers)
    possible = [list(model.log)]
    for access in accesses[len(answers):len(answers) + report.begun]:
        model.answer(access)
        possible.append(list(model.log))
    test.assertIn(memory.log, possible)
    left = len(accesses) - len(answers)
    test.assertLessEqual(report.begun, left)
    if accesses:
        test.assertEqual(report.ended is End.ALL, left == 0)


class Random(unittest.TestCase):
    """Random lists of accesses under random damage."""

    def test_against_plain_models(self):
        ends = {end: 0 for end in End}
        for seed in range(SEED, SEED + COUNT):
            with self.subTest(seed=seed):
                session, bursts = Session(seed), seed % 2 == 0
                reports, memory, line, target = session.over(PlainTarget, bursts)
                again, logged, levels, _ = session.over(library_target, bursts)
                self.assertEqual(again, reports)
                self.assertEqual(logged.log, memory.log)
                self.assertEqual(levels.levels, line.levels)
                self.assertEqual(target.contended, 0)
                ends[reports[-1].ended] += 1
                sure_of(self, session.accesses, reports[0], self.first(session, bursts), session.room, session.WORDS)
                self.assert_resumed(session, reports[-1], memory)
                events = (5 if bursts else 6) * session.tries
                for report, opening in zip(reports, itertools.chain([10], itertools.repeat(15))):
                    self.assertLessEqual(report.requests, opening + events + (6 + events) * len(session.accesses))
        if COUNT >= 100:
            self.assertTrue(all(ends[end] for end in (End.ALL, End.LOST, End.TRIES)), ends)

    def first(self, session, bursts):
        """The memory after the run alone."""
        resumes, session.resumes = session.resumes, 0
        _, memory, _, _ = session.over(PlainTarget, bursts)
        session.resumes = resumes
        return memory

    def assert_resumed(self, session, report, memory):
        """Answers, and words once all is done, are those of a run without a loss."""
        model = PlainMemory(BASE, session.WORDS, session.room)
        answered = session.accesses[:len(report.answers)]
        self.assertEqual(report.answers, tuple(model.answer(access) for access in answered))
        if report.ended is End.ALL:
            self.assertEqual(memory.words, model.words)

    @unittest.skipUnless(PROGRAM, "SWD names no program")
    def test_against_the_program(self):
        """The report is that of the program, whose runs have bursts of writes; and where the run wasn't resumed, each
        clock is that of its trace."""
        with tempfile.TemporaryDirectory() as folder:
            for seed in range(SEED, SEED + COUNT):
                with self.subTest(seed=seed):
                    session = Session(seed)
                    reports, _, line, _ = session.over(library_target, True)
                    for name, lines in (("script", session.script()), ("plan", session.plan)):
                        with open(os.path.join(folder, name), "w", encoding="ascii") as written:
                            written.write("".join(f"{line}\n" for line in lines))
                    told = subprocess.run(
                        [PROGRAM, "run", "script", "--plan", "plan", "--tries", str(session.tries), "--resume",
                         str(session.resumes), "--trace", "trace"],
                        cwd=folder, stdout=subprocess.PIPE, check=False, universal_newlines=True,
                    ).stdout.splitlines()
                    self.assertEqual(session.lines(reports), told)
                    with open(os.path.join(folder, "trace"), encoding="ascii") as trace:
                        bits = swd.trace_bits(trace.read())
                    if len(reports) == 1:
                        self.assertEqual("".join(map(str, line.levels)), bits)

    def test_lines_that_fail(self):
        """The line raises an exception at each clock in turn. Nothing is called after it, and what the report says is
        sure."""
        lists = ([Write(BASE, WORD), Write(BASE + 4, 2), Read(BASE), Read(0x30000000)], [Read(BASE), Write(BASE, WORD)])
        for accesses, tries in itertools.product(lists, (0, 8)):
            whole = Damaged(PlainTarget(PlainMemory(BASE, 16, 16)), [])
            swd.Host(whole, tries).run(accesses, bus_errors=True)
            for at in range(len(whole.calls)):
                with self.subTest(clock=at, tries=tries):
                    self.fails(accesses, tries, at)

    def fails(self, accesses, tries, at):
        memory = PlainMemory(BASE, 16, 16)
        line = Damaged(PlainTarget(memory), [])
        cycle, left = line.cycle, iter(range(at, -1, -1))

        def failing(drive):
            if next(left) == 0:
                raise OSError("unplugged")
            return cycle(drive)

        line.cycle = failing
        with self.assertRaises(swd.LineFailed) as caught:
            swd.Host(line, tries).run(accesses)
        report = caught.exception.report
        self.assertIsInstance(caught.exception.__cause__, OSError)
        self.assertEqual(len(line.calls), at + 1)
        sure_of(self, accesses, report, memory, 16, 16)
        self.assertIs(report.ended, End.ALL if len(report.answers) == len(accesses) else End.LOST)


class Quirks(unittest.TestCase):
    """What a target is made with, by requests that no host of this module sends."""

    def items(self, **quirks):
        """What TAR reads, and the buffer, after a write at the end of a kilobyte."""
        target = swd.Target(MemoryBus(PlainMemory(BASE, 512, 16)), **quirks)
        levels = [target.cycle(int(bit)) for bit in "1" * 50 + "00"]

        def read(byte):
            levels.extend(target.cycle(byte >> place & 1) for place in range(8))
            levels.extend(target.cycle(None) for _ in range(38))

        def write(byte, word):
            levels.extend(target.cycle(byte >> place & 1) for place in range(8))
            levels.extend(target.cycle(None) for _ in range(5))
            levels.extend(target.cycle((word | plain.parity(word) << 32) >> place & 1) for place in range(33))

        read(plain.DPIDR)
        for byte, word in ((plain.CTRL_STAT_WRITE, 0x50000000), (plain.CSW_WRITE, 0x23000012),
                           (plain.TAR, BASE + 0x3FC), (plain.DRW_WRITE, WORD)):
            write(byte, word)
        for byte in (plain.TAR_READ, plain.RDBUFF, plain.RDBUFF):
            read(byte)
        self.assertEqual(target.cycles, len(levels))
        return [item.word for item in swd.decode(levels)[-2:]]

    def test_quirks(self):
        self.assertEqual(self.items(), [BASE, 0])
        self.assertEqual(self.items(wraps=True, filler=WORD), [BASE, WORD])
        self.assertEqual(self.items(wraps=False, filler=7), [BASE + 0x400, 7])


class Decoding(unittest.TestCase):
    """The decoder against the reading of docs/PROTOCOL.md, and against the program."""

    def traces(self):
        rng = random.Random(SEED)
        for seed in range(SEED, SEED + 20):
            _, _, line, _ = Session(seed).over(PlainTarget)
            bits = "".join(map(str, line.levels))
            yield bits
            yield bits[:rng.randrange(len(bits))]
        for length in [0, 1, 7, 8, 11, 12, 13, 45, 46, 49, 50, 51, 63, 64, 65, *range(100, 3000, 100)]:
            chance = rng.random()
            bits = "".join(rng.choice("01") if rng.random() < chance else "1" for _ in range(length))
            yield bits
            yield "1" * 50 + plain.SWITCH + bits
            yield "0" + bits

    def test_against_the_reading(self):
        for number, bits in enumerate(self.traces()):
            with self.subTest(trace=number):
                self.assertEqual([str(item) for item in swd.decode(bits)], plain.reading(bits))

    def test_pieces(self):
        rng = random.Random(SEED)
        for number, bits in enumerate(self.traces()):
            with self.subTest(trace=number):
                decoder, items, at = swd.Decoder(), [], 0
                while at < len(bits):
                    size = rng.choice([1, 2, 63, 64, 65, 500])
                    items += decoder.feed([int(bit) for bit in bits[at:at + size]])
                    at += size
                self.assertEqual(decoder.fed, len(bits))
                self.assertEqual(items + decoder.finish(), swd.decode(bits))

    def test_the_example(self):
        with open(os.path.join(ROOT, "examples", "session.trace"), encoding="ascii") as trace:
            items = swd.decode(swd.trace_bits(trace.read()))
        with open(os.path.join(ROOT, "examples", "session.list"), encoding="ascii") as listing:
            self.assertEqual([str(item) for item in items], listing.read().splitlines())

    def test_items(self):
        bits = "1" * 50 + "0" + "10100101" + "1" + "100" + f"{0x2BA01477:032b}"[::-1] + "0" + "1"
        word = swd.Transaction(ap=False, read=True, addr=0, ack=1, word=0x2BA01477, parity_ok=True)
        self.assertEqual(swd.decode(bits), [swd.Reset(50), swd.Idle(1), word])
        self.assertEqual(swd.decode(bits[:51] + "10100101" + "1" + "010" + "1"),
                         [swd.Reset(50), swd.Idle(1), swd.Transaction(False, True, 0, 2)])
        self.assertEqual(swd.decode(bits[:55]), [swd.Reset(50), swd.Idle(1), swd.Cut("1010")])
        self.assertEqual(swd.decode("1" * 50 + plain.SWITCH), [swd.Reset(50), swd.Switch()])
        self.assertEqual(swd.decode("10000011"), [swd.Junk(int(bit)) for bit in "10000011"])

    @unittest.skipUnless(PROGRAM, "SWD names no program")
    def test_against_the_program(self):
        for number, bits in enumerate(self.traces()):
            with self.subTest(trace=number):
                told = subprocess.run([PROGRAM, "decode"], input=bits, stdout=subprocess.PIPE, check=True,
                                      universal_newlines=True).stdout
                self.assertEqual("".join(f"{item}\n" for item in swd.decode(bits)), told)


class FailingBus:
    """A bus that answers something else than a word, or fails."""

    def read(self, addr):
        return -1

    def write(self, addr, word):
        raise OSError("no bus")


class Refusals(unittest.TestCase):
    """Each refusal has its exception, and its message names the argument."""

    def refused(self, kind, words, call, *arguments, **named):
        with self.subTest(words):
            with self.assertRaises(kind) as caught:
                call(*arguments, **named)
            self.assertIn(words, str(caught.exception))
            self.assertTrue(issubclass(kind, swd.SwdError))

    def test_arguments(self):
        calls = []
        host = swd.Host((calls.append, lambda: calls.append("?") or 1))
        lost = swd.Report((), 0, 1, End.LOST)
        self.refused(swd.NotABit, "bits[2] is 'x'", swd.decode, "01x")
        self.refused(swd.NotABit, "bits[1] is 2", swd.decode, [0, 2])
        self.refused(swd.NotABit, "line 2 has '2'", swd.trace_bits, "01 # 2\n0\t2\r\n")
        self.refused(swd.Unaligned, "accesses[1].addr is 0x20000002", host.run, [Read(BASE), Write(BASE + 2, 0)])
        self.refused(swd.OutOfRange, "accesses[0].addr is 0x100000000", host.run, [Read(1 << 32)])
        self.refused(swd.OutOfRange, "accesses[0].addr is -0x4", host.run, [Read(-4)])
        self.refused(swd.OutOfRange, "accesses[0].addr is '20000000'", host.run, [Read("20000000")])
        self.refused(swd.OutOfRange, "accesses[0].word is 0x100000000", host.run, [Write(BASE, 1 << 32)])
        self.refused(swd.NotAnAccess, "accesses[0] is (1, 2)", host.run, [(1, 2)])
        self.refused(swd.TooManyAccesses, "65536", host.run, itertools.repeat(Read(BASE)))
        self.refused(swd.TooManyAccesses, "65537", host.run_block, BASE, 65_537)
        self.refused(swd.Unaligned, "addr is 0x20000001", host.run_block, BASE + 1, 1)
        self.refused(swd.OutOfRange, "pass the end", host.run_block, 0xFFFFFFFC, 2)
        self.refused(swd.OutOfRange, "count is -0x1", host.run_block, BASE, -1)
        self.refused(swd.NotResumable, "ended with 'all'", host.resume, [], swd.Report((), 0, 9, End.ALL))
        self.refused(swd.NotResumable, "2 answers", host.resume, [Read(BASE)],
                     swd.Report((Written(), Written()), 0, 9, End.LOST))
        self.refused(swd.Unaligned, "accesses[0].addr", host.resume, [Read(BASE + 1)], lost)
        self.refused(swd.NotALine, "release()", swd.Host, type("Half", (), {"drive": print, "sample": print})())
        self.refused(swd.NotALine, "two functions", swd.Host, (print,))
        self.refused(swd.OutOfRange, "tries is -0x1", swd.Host, (print, print), -1)
        self.refused(swd.OutOfRange, "filler is 0x100000000", swd.Target, None, filler=1 << 32)
        self.refused(swd.NotABit, "drive is 2", swd.Target(None).cycle, 2)
        self.refused(swd.NotABit, "bit is None", swd.Target(None).drive, None)
        self.assertEqual(calls, [])

    def test_no_words_at_any_address(self):
        """A block without words has no address that could be wrong."""
        report = swd.Host(library_target(PlainMemory(BASE, 1, 1))).run_block(BASE + 1, 0)
        self.assertEqual((swd.block(BASE + 1, 0), report.answers, report.ended), ([], (), End.ALL))

    def test_addresses_at_the_end(self):
        memory = PlainMemory(0xFFFFFFF8, 2, 16)
        report = swd.Host(swd.Target(MemoryBus(memory))).run_block(0xFFFFFFF8, 2)
        self.assertEqual(report.answers, (Value(0), Value(0)))

    def test_a_level_that_is_none(self):
        with self.assertRaises(swd.LineFailed) as caught:
            swd.Host((lambda bit: None, lambda: None)).run([])
        self.assertIsInstance(caught.exception.__cause__, swd.NotABit)

    def test_a_bus_that_fails(self):
        for access, cause in ((Read(BASE), swd.OutOfRange), (Write(BASE, 1), OSError)):
            with self.subTest(access), self.assertRaises(swd.LineFailed) as caught:
                swd.Host(swd.Target(FailingBus())).run([access])
            self.assertIsInstance(caught.exception.__cause__, cause)

    def test_a_finished_decoder(self):
        decoder = swd.Decoder()
        decoder.finish()
        self.refused(swd.DecoderFinished, "finish()", decoder.feed, "0")
        self.refused(swd.DecoderFinished, "finish()", decoder.finish)

    def test_structs_that_are_none(self):
        """Zeros are no engine, decoder or target."""
        decoder, target = swd.Decoder(), swd.Target(None)
        for struct in (decoder._decoder, target._target):
            ctypes.memset(ctypes.byref(struct), 0, ctypes.sizeof(struct))
        self.refused(swd.LibraryRefused, "swd_decoder_take", decoder.feed, "0")
        self.refused(swd.LibraryRefused, "swd_target_cycle", target.cycle, 0)
        self.refused(swd.LibraryRefused, "swd_target_hold", target.hold, True)


class Libraries(unittest.TestCase):
    """How the library is found, and what is refused as one."""

    def test_an_argument(self):
        library = swd.Library(swd.Library().path)
        self.assertEqual(swd.decode("000", library=library), [swd.Idle(3)])
        self.assertEqual(swd.decode("000", library=library.path), [swd.Idle(3)])

    def test_threads(self):
        """Objects are independent: sessions in eight threads at once come to what they come to one by one."""
        def reports(seed):
            return Session(seed).over(library_target)[0]

        seeds = range(SEED, SEED + 40)
        with concurrent.futures.ThreadPoolExecutor(8) as threads:
            self.assertEqual(list(threads.map(reports, seeds)), [reports(seed) for seed in seeds])

    def test_no_library(self):
        with self.assertRaises(swd.LibraryNotFound) as caught:
            swd.Library("/nowhere/libswd_c.so")
        self.assertIn("/nowhere/libswd_c.so", str(caught.exception))

    def test_another_library(self):
        with self.assertRaises(swd.LibraryMismatch) as caught:
            swd.Library(ctypes.util.find_library("c"))
        self.assertIn("has no function swd_layout", str(caught.exception))

    def test_other_structs(self):
        """A struct whose last field is its first, and one with a field more."""
        library = swd.Library()
        for function, structs in bound.LAYOUTS:
            changed, kind = structs[-1]
            fields = list(kind._fields_)
            for name, others in (("order", [fields[-1], *fields[:-1]]), ("more", [*fields, ("more", ctypes.c_uint32)])):
                crossing = (*structs[:-1], (changed, type("Changed", (ctypes.Structure,), {"_fields_": others})))
                with self.subTest(name, function=function), self.assertRaises(swd.LibraryMismatch):
                    library.check_structs(function, crossing)
            library.check_structs(function, structs)

    def test_a_library_with_other_structs(self):
        """A library is refused where it is loaded, whichever struct differs."""
        path = swd.Library().path
        for at, (function, structs) in enumerate(bound.LAYOUTS):
            for place, (name, kind) in enumerate(structs):
                fields = list(kind._fields_)
                other = type("Changed", (ctypes.Structure,), {"_fields_": [fields[-1], *fields[:-1]]})
                changed = (*structs[:place], (name, other), *structs[place + 1:])
                layouts = (*bound.LAYOUTS[:at], (function, changed), *bound.LAYOUTS[at + 1:])
                with self.subTest(name, function=function), unittest.mock.patch.object(bound, "LAYOUTS", layouts):
                    self.refused_as_another(path)
        self.assertIsInstance(swd.Library(path), swd.Library)

    def refused_as_another(self, path):
        with self.assertRaises(swd.LibraryMismatch) as caught:
            swd.Library(path)
        self.assertIn(path, str(caught.exception))

    def test_the_names_of_the_fields(self):
        """They are those of the C example that checks the header, in that order. A run has its engine's in it."""
        with open(os.path.join(ROOT, "examples", "c", "layout.c"), encoding="ascii") as source:
            fields = re.findall(r"\tCHECK\((?!run\.engine)([a-z0-9_.]+), [0-9]+\);", source.read())
        paths = [path for _, structs in bound.LAYOUTS for name, kind in structs for path, _, _ in
                 bound.leaves(name, kind())]
        engine = [path for path in paths if path.startswith("engine.")]
        self.assertEqual([path for path in paths if not path.startswith("run.engine.")], fields)
        self.assertEqual([path for path in paths if path.startswith("run.engine.")], [f"run.{path}" for path in engine])

    def test_the_version(self):
        with open(os.path.join(ROOT, "include", "swd.h"), encoding="ascii") as header:
            self.assertIn(f'#define SWD_VERSION "{swd.__version__}"', header.read())


class EndOfLevels(Exception):
    """A simulation that is over."""


def edges_of(levels, swdio):
    """Stands in for cocotb's `RisingEdge`: at each edge the line has the next of these levels."""
    left = iter(levels)

    async def edge(_):
        swdio.value = next(left, None)
        if swdio.value is None:
            raise EndOfLevels

    return edge


def programs_of_the_page():
    with open(os.path.join(ROOT, "bindings", "python", "README.md"), encoding="utf-8") as page:
        return re.findall(r"```python\n(.*?)```", page.read(), re.DOTALL)


def program_of_the_page(word):
    """The program that has this word in it."""
    return next(program for program in programs_of_the_page() if word in program)


class Pages(unittest.TestCase):
    """The programs of README.md, one after the other in one namespace."""

    @unittest.skipUnless(PROGRAM, "SWD names no program")
    def test_remote_bitbang(self):
        """The line of that page, at the program's target: its log, and the report."""
        names = {}
        exec(program_of_the_page("RemoteBitbang"), names)  # pylint: disable=exec-used
        accesses = [Write(BASE, WORD), Write(BASE + 4, 2), Read(BASE), Read(0x30000000), Read(BASE + 4)]
        answers = (Written(), Written(), Value(WORD), BusFault(), Value(2))
        with tempfile.TemporaryDirectory() as folder:
            for name, text in (("script", f"memory {BASE:08x} 16\n"), ("plan", ".\n" * 11 + "wait\nflip 3\n")):
                with open(os.path.join(folder, name), "w", encoding="ascii") as written:
                    written.write(text)
            with subprocess.Popen([PROGRAM, "target", "script", "--plan", "plan", "--log", "log"], cwd=folder,
                                  stdin=subprocess.PIPE, stdout=subprocess.PIPE) as target:
                line = names["RemoteBitbang"](target.stdin, target.stdout)
                report = swd.Host(line).run(accesses, bus_errors=True)
                target.communicate(b"Q")
            with open(os.path.join(folder, "log"), encoding="ascii") as log:
                logged = log.read().splitlines()
        self.assertEqual((report.answers, report.ended), (answers, End.ALL))
        transfers = ["w 20000000 deadbeef", "w 20000004 00000002", "r 20000000 deadbeef", "r 20000004 00000002"]
        self.assertEqual(logged[:-1], transfers)
        self.assertTrue(logged[-1].endswith(f" requests {report.requests}"), logged[-1])

    def test_gpio_lines(self):
        """The two lines of examples/python, over stand-ins of both versions of their module."""
        cases = (("pins.py", "Pins", gpio.modules_over), ("old_pins.py", "OldPins", gpio.old_modules_over))
        for file, word, modules_over in cases:
            memory = PlainMemory(BASE, 16, 100)
            names = {}
            with open(os.path.join(ROOT, "examples", "python", file), encoding="utf-8") as page:
                program = page.read()
            with self.subTest(word), unittest.mock.patch.dict(sys.modules, modules_over(library_target(memory))):
                exec(program, names)  # pylint: disable=exec-used
                with swd.Session(names[word]("/dev/gpiochip0", gpio.SWCLK, gpio.SWDIO)) as session:
                    session.write(BASE, WORD)
                    self.assertEqual(session.read(BASE), WORD)
                self.assertEqual(memory.log, [("w", BASE, WORD), ("r", BASE, WORD)])

    def test_monitor(self):
        """The monitor of that page, over levels in place of a simulation: of a run, and with an answer before any
        line reset."""
        names = {"swd": swd}
        exec(program_of_the_page("monitor"), names)  # pylint: disable=exec-used
        line = Damaged(library_target(PlainMemory(BASE, 16, 100)), [])
        swd.Host(line).run([Write(BASE, WORD), Read(BASE)])
        wait = [*(0xBD >> place & 1 for place in range(8)), 1, 0, 1, 0, 1]
        for levels, ended in ((line.levels, EndOfLevels), (wait + [0] * 60, AssertionError)):
            swclk, swdio = object(), unittest.mock.Mock()
            names["RisingEdge"] = edges_of(levels, swdio)
            with self.subTest(ended), self.assertRaises(ended):
                asyncio.run(names["monitor"](swclk, swdio))

    def test_resume(self):
        """The program of that page that resumes a run: after a loss it does, and at a bus error it raises what it
        met."""
        program = program_of_the_page("host.resume(accesses")
        for words, marks, failure in ((8, {14: "deaf"}, None), (4, {}, swd.AccessFaulted)):
            memory = PlainMemory(BASE, words, 100)
            names = {"swd": swd, "MyProbe": lambda: Damaged(library_target(memory), plan_of(marks))}
            output = io.StringIO()
            with self.subTest(failure), contextlib.redirect_stdout(output):
                if failure is None:
                    exec(program, names)  # pylint: disable=exec-used
                else:
                    self.assertRaises(failure, exec, program, names)
            self.assertIn("end all 8" if failure else "end lost", output.getvalue())
            self.assertEqual(list(memory.words.values()), list(range(words)))

    def test_programs(self):
        line = library_target(PlainMemory(BASE, 64, 1000))
        names = {"swd": swd, "MyProbe": lambda: line}
        printed = []
        for program in programs_of_the_page():
            if "swd.Core" in program or "swd.Probe" in program:
                continue
            output, here = io.StringIO(), os.getcwd()
            os.chdir(os.path.join(ROOT, "examples"))
            try:
                with contextlib.redirect_stdout(output):
                    exec(program, names)  # pylint: disable=exec-used
            finally:
                os.chdir(here)
            printed.append(output.getvalue())
        with open(os.path.join(ROOT, "examples", "session.list"), encoding="ascii") as listing:
            verdict = "breaks @176: FAULT takes precedence over WAIT\n"
            wanted = [listing.read(), verdict, "", "0xdeadbeef\n", "200 of 200\n00010203\n", "", "", "", "", "", "7\n"]
        self.assertEqual(printed, wanted)


if __name__ == "__main__":
    unittest.main()
