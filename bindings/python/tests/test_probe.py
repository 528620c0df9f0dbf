"""Tests of `swd.Probe` over the simulated probe of checks/model, which was written apart from `swd`. They are run as
those of test_swd.py."""
import errno
import os
import random
import signal
import subprocess
import sys
import tempfile
import threading
import types
import unittest
import unittest.mock

import swd
from swd import BusFault, End, Read, Value, Write, Written, _pieces
from test_sessions import CtrlC
from test_swd import ROOT

sys.path.insert(0, os.path.join(ROOT, "checks"))
# pylint: disable=wrong-import-position
from model.bits import OK  # noqa: E402
from model.dap import PinsLine, Probe as SimulatedProbe  # noqa: E402
from model.line import Bus, MarkedPins  # noqa: E402
from model.packets import SPOILS, PULLED, Spoil  # noqa: E402
from model.target import CLEAN, Mark, Quirks, Target  # noqa: E402

BASE, WORDS, BEHIND = 0x20000000, 300, 0x30000000
SESSIONS = int(os.environ.get("COUNT", "300")) // 3
OPENING = 9  # requests


class Simulated:
    """A simulated target behind a simulated probe, and the way to it. No word of the memory is zero before it is read.
    Each reply has junk behind it, but where packets have lengths."""

    def __init__(self, size=64, *, padded=True, marks=lambda number: CLEAN, late=False, wrap=False, seed=0, probe=SimulatedProbe):
        self.chance = random.Random(seed)
        self.words = {BASE + 4 * at: self.chance.getrandbits(31) | 0x80000000 for at in range(WORDS)}
        self.bus = Bus(dict(self.words))
        self.target = Target(self.bus, Quirks(late=late, wrap=wrap))
        self.pins = MarkedPins(self.target, marks)
        self.probe = probe(PinsLine(self.pins), size)
        self.padded, self.packets, self.awaits, self.spoil, self.made = padded, 0, False, None, None
        self.is_over, self.is_closed = False, False

    def exchange(self, packet, size):
        """Takes a packet as the probe does, and answers it."""
        assert not self.is_over, "a packet behind the end of the connection"
        assert not self.awaits, "a packet before the reply"
        assert 0 < len(packet) <= size
        self.packets += 1
        before = len(self.bus.effects)
        self.awaits = True
        reply = self.probe.take(packet.ljust(size, b"\0") if self.padded else packet)
        if self.spoil is not None and self.packets == self.spoil.at:
            self.is_over, self.made = self.spoil.ends(packet[0]), before
            if self.spoil.kind in PULLED:
                raise OSError(errno.EIO, "pulled out")
            reply = self.spoil.reply(reply, self.chance)
            if self.spoil.kind == "short":
                # A report is always whole.
                self.awaits = False
                return reply
        self.awaits = False
        return reply + self.chance.randbytes(size - len(reply)) if self.padded else reply

    def close(self):
        self.is_closed = True

    def session(self, **options):
        return swd.Session(swd.Probe.over(self), **options)


def random_marks(chance, most):
    """What disturbs requests behind the first opening."""
    chances = {kind: chance.choice([0, most / 4, most]) for kind in ("wait", "flip")}
    chances.update({kind: chance.choice([0, 0, 0, most / 8]) for kind in ("deaf", "mute")})

    def mark(number):
        pick = chance.random()
        for kind, part in chances.items():
            if number > OPENING and 0 <= pick < part:
                return Mark(kind, {"flip": chance.randrange(33), "mute": chance.randrange(3)}.get(kind, 0))
            pick -= part
        return CLEAN

    return mark


def random_list(chance):
    """Accesses, of which many are next to each other; some are bus errors."""
    accesses, place = [], 0
    for _ in range(chance.randrange(1, 50)):
        place = chance.randrange(WORDS + 3) if chance.random() < 0.2 else (place + 1) % WORDS
        write = chance.random() < 0.5 if chance.random() < 0.3 else accesses and isinstance(accesses[-1], Write)
        accesses.append(Write(BASE + 4 * place, chance.getrandbits(32)) if write else Read(BASE + 4 * place))
    return accesses


class Judge:
    """What a memory has, by the effects that reached it; and whether reports are true."""

    def __init__(self, simulated):
        self.bus, self.words, self.at = simulated.bus, dict(simulated.words), 0
        self.target = simulated.target

    def check(self, case, accesses, report):
        """The accesses that were answered took effect once, in order, and of those behind them at most `begun` more."""
        self.target.complete()
        effects = self.bus.effects[self.at:]
        self.at = len(self.bus.effects)
        case.assertLessEqual(len(report.answers), len(effects))
        case.assertLessEqual(len(effects), len(report.answers) + report.begun)
        case.assertLessEqual(len(effects), len(accesses))
        for access, effect in zip(accesses, effects):
            case.assertEqual((isinstance(access, Read), access.addr), (effect.read, effect.addr))
            case.assertEqual(effect.done, access.addr in self.words)
        for access, answer in zip(accesses, report.answers):
            if access.addr not in self.words:
                case.assertEqual(answer, BusFault())
            elif isinstance(access, Write):
                case.assertEqual(answer, Written())
            else:
                case.assertEqual(answer, Value(self.words[access.addr]))
            self.take(access)
        for access in accesses[len(report.answers):len(effects)]:
            self.take(access)
        case.assertEqual(self.words, self.bus.words)

    def take(self, access):
        if isinstance(access, Write) and access.addr in self.words:
            self.words[access.addr] = access.word


class TestSessions(unittest.TestCase):
    """Sessions over the simulated probe, judged against the transfers that reached the memory."""

    def session_of(self, number, spoil=None, probe=SimulatedProbe):
        chance = random.Random(number)
        simulated = Simulated(
            chance.choice([64, 512]), padded=chance.random() < 0.7, marks=random_marks(chance, chance.choice([0, 0.05, 0.2])),
            late=chance.random() < 0.5, wrap=chance.random() < 0.5, seed=number, probe=probe,
        )
        simulated.spoil = spoil
        judge, reports = Judge(simulated), []
        try:
            session = simulated.session(tries=chance.choice([8, 1000]), bursts=chance.random() < 0.3)
        except swd.ProbeFailed:
            self.assertEqual(simulated.packets, spoil.at)
            self.assertTrue(simulated.is_closed)
            return reports, simulated
        for _ in range(chance.randrange(1, 5)):
            accesses = random_list(chance)
            if chance.random() < 0.3:
                accesses = swd.block(BASE + 4 * chance.randrange(100), chance.randrange(1, 150))
            try:
                if isinstance(accesses[0], Read) and accesses == swd.block(accesses[0].addr, len(accesses)):
                    report = session.run_block(accesses[0].addr, len(accesses), check=False)
                else:
                    report = session.run(accesses, check=False)
            except (swd.LineFailed, swd.RunStopped) as failure:
                if isinstance(failure, swd.LineFailed):
                    self.assertTrue(simulated.is_over, failure)
                report = failure.report
            reports.append(report)
            judge.check(self, accesses, report)
            if report.ended is not End.ALL and simulated.is_over:
                break
        self.assertEqual(simulated.probe.clashes, 0)
        self.assertEqual(simulated.probe.repeats, 0)
        return reports, simulated

    def test_reports_are_true(self):
        ends, packets, answers = {}, 0, 0
        for number in range(SESSIONS):
            with self.subTest(number=number):
                reports, simulated = self.session_of(number)
                for report in reports:
                    ends[report.ended] = ends.get(report.ended, 0) + 1
                    answers += len(report.answers)
                packets += simulated.packets
        self.assertLess(packets, 2 * answers)
        self.assertLess(10, ends[End.ALL])
        self.assertIn(End.LOST, ends)

    def test_reports_are_true_up_to_a_spoiled_reply(self):
        begun = 0
        for number in range(SESSIONS):
            chance = random.Random(-1 - number)
            with self.subTest(number=number):
                spoil = Spoil(chance.choice(SPOILS), chance.choice([chance.randint(1, 10), chance.randint(8, 40)]))
                reports, simulated = self.session_of(number, spoil)
                begun = max([begun] + [report.begun for report in reports])
                if simulated.is_over and reports:
                    self.assertIn(reports[-1].ended, (End.LOST, End.ALL))
        # Some packet of several accesses was in doubt.
        self.assertLess(2, begun)

    def test_wrong_probes_are_found(self):
        """Those of checks/dap that break the table of transfers: the judge finds each."""
        for wrong in (FewerDone, MadeTwice, WordOfBefore):
            with self.subTest(wrong=wrong.__name__):
                with self.assertRaises(AssertionError):
                    for number in range(60):
                        self.session_of(number, probe=wrong)


class FewerDone(SimulatedProbe):
    def transfers(self, wanted):
        done, value, words = super().transfers(wanted)
        return max(0, done - (value != OK)), value, words


class MadeTwice(SimulatedProbe):
    def one(self, it):
        found = super().one(it)
        return super().one(it) if found[0] == OK and self.transactions % 23 == 0 else found


class WordOfBefore(SimulatedProbe):
    def transfers(self, wanted):
        done, value, words = super().transfers(wanted)
        return done, value, [*words[:1], *words[:-1]]


class TestPackets(unittest.TestCase):
    """How many packets calls take, and what is in them."""

    def test_calls_take_few_packets(self):
        for size, padded, most in ((64, True, 0.075), (512, False, 0.015)):
            with self.subTest(size=size):
                simulated = Simulated(size, padded=padded)
                with simulated.session() as session:
                    before = simulated.packets
                    self.assertEqual(session.run_block(BASE, WORDS).words(), list(simulated.words.values()))
                    self.assertLess((simulated.packets - before) / WORDS, most)
                    before = simulated.packets
                    session.run([Write(BASE + 4 * at, at) for at in range(WORDS)])
                    self.assertLess((simulated.packets - before) / WORDS, 0.11)
                    before = simulated.packets
                    session.read(BASE)
                    session.read(BASE)
                    self.assertEqual(simulated.packets - before, 2)

    def test_a_packet_has_nothing_hidden_in_it(self):
        """The probe makes as many transactions as the run asks for: also of lists whose packets are full."""
        for count in range(1, 40):
            accesses = [Write(BASE + 4 * at, at) for at in range(count)] + swd.block(BASE, count)
            for bursts in (False, True):
                simulated = Simulated()
                report = simulated.session(bursts=bursts).run(accesses)
                self.assertEqual(simulated.pins.asked, report.requests)

    def test_images_work_over_a_probe(self):
        simulated = Simulated()
        with simulated.session() as session:
            told = []
            session.load(BASE + 3, bytes(range(1, 200)), on_progress=lambda done, total: told.append((done, total)))
            session.verify(BASE + 3, bytes(range(1, 200)))
            self.assertEqual(session.dump(BASE + 3, 199), bytes(range(1, 200)))
            self.assertEqual(told[-1], (199, 199))
            self.assertEqual(session.identify().word, 0x2BA01477)

    def test_a_lost_run_is_resumed(self):
        lose = {OPENING + 8: Mark("mute")}
        simulated = Simulated(marks=lambda number: lose.get(number, CLEAN))
        session = simulated.session()
        accesses = [Write(BASE + 4 * at, at + 1) for at in range(8)]
        with self.assertRaises(swd.RunStopped) as stopped:
            session.run(accesses)
        report = session.resume(accesses, stopped.exception.report)
        self.assertEqual(report.answers, (Written(),) * 8)

    def test_a_plan_is_what_the_run_asks_for(self):
        run = swd.Run([Write(BASE, 5), Read(BASE), Read(BASE + 4)], opened=True)
        plan = run.plan()
        self.assertEqual([it.request for it in plan], [0x8B, 0xBB, 0xBD, 0x8B, 0x9F, 0x9F, 0xBD])
        self.assertEqual([it.word for it in plan], [BASE, 5, 0, BASE, 0, 0, 0])
        for place, it in enumerate(plan):
            self.assertEqual(run.plan(), plan[place:])
            self.assertEqual(run.cue(), swd.Ask(it.request))
            run.next(1)
            self.assertEqual(run.plan(), ())
            run.next(0)
        self.assertEqual(run.plan(), ())


class Cut(Spoil):
    """A reply of which some bytes are missing."""

    def __init__(self, at, length):
        super().__init__("cut", at)
        object.__setattr__(self, "length", length)

    def reply(self, reply, chance):
        return reply[:self.length]


class TestFailures(unittest.TestCase):
    """Probes that can't be used, and those that go away."""

    def refused(self, message, *replies):
        class Way:
            is_closed = False

            def exchange(self, packet, size):
                return left.pop(0)

            def close(self):
                self.is_closed = True

        left, way = list(replies), Way()
        with self.assertRaisesRegex(swd.ProbeFailed, message):
            swd.Probe.over(way)
        self.assertTrue(way.is_closed)
        self.assertEqual(left, [])

    def test_probes_that_are_none_are_refused(self):
        size = bytes([0, 2, 64, 0])
        self.refused("leads to no CMSIS-DAP probe", b"\0\xff")
        self.refused("packets have 32 bytes: 64 to 512", bytes([0, 2, 32, 0]))
        self.refused("packets have 513 bytes: 64 to 512", bytes([0, 2, 1, 2]))
        self.refused("has no serial wire", size, b"\x02\0")
        self.refused("refused command 11", size, b"\x02\1", b"\x11\xff")
        self.refused("doesn't know command 11", size, b"\x02\1", b"\xff")
        self.refused("is to command 12: does another", size, b"\x02\1", b"\x12\0")
        self.refused("too short", size, b"\x02\1", b"\x11")

    def test_files_that_are_none_are_refused(self):
        with self.assertRaisesRegex(swd.ProbeFailed, "cannot open nowhere: No such file"):
            swd.Probe("nowhere")
        with unittest.mock.patch("os.open", side_effect=PermissionError(errno.EACCES, "Permission denied")):
            with self.assertRaisesRegex(swd.ProbeFailed, 'Permission denied; a udev rule .*SUBSYSTEM=="hidraw"'):
                swd.Probe("/dev/hidraw0")
        with self.assertRaisesRegex(swd.ProbeFailed, "the probe went away"):
            swd.Probe("/dev/null")
        with self.assertRaisesRegex(swd.ProbeFailed, "the module hid isn't installed"):
            with unittest.mock.patch.dict(sys.modules, {"hid": None}):
                swd.Probe("hid:")
        with self.assertRaisesRegex(swd.ProbeFailed, "the module usb isn't installed"):
            with unittest.mock.patch.dict(sys.modules, {"usb": None}):
                swd.Probe("usb:")

    def test_a_probe_is_closed_for_good_after_a_reply_that_cannot_be_used(self):
        simulated = Simulated()
        session = simulated.session()
        session.open()
        simulated.spoil = Spoil("other", simulated.packets + 1)
        with self.assertRaises(swd.LineFailed) as failed:
            session.run([Write(BASE + 4 * at, 1) for at in range(20)])
        self.assertIsInstance(failed.exception.__cause__, swd.ProbeFailed)
        report = failed.exception.report
        self.assertEqual((report.answers, report.ended), ((), End.LOST))
        simulated.target.complete()
        self.assertEqual(report.begun, len(simulated.bus.effects))
        for call in (lambda: session.read(BASE), session.open, lambda: session.resume(report.accesses, report)):
            with self.assertRaises(swd.LineFailed) as closed:
                call()
            self.assertRegex(str(closed.exception.__cause__), "the probe is closed: the probe's reply is to command")

    def test_a_word_that_is_cut_off_is_none(self):
        for length in range(3, 43):
            simulated = Simulated(padded=False)
            session = simulated.session()
            session.open()
            simulated.spoil = Cut(simulated.packets + 1, length)
            with self.assertRaises(swd.LineFailed) as failed:
                session.run_block(BASE, 10)
            self.assertRegex(str(failed.exception.__cause__), "impossible")
            self.assertEqual(failed.exception.report.answers, ())
            simulated.target.complete()
            self.assertEqual(failed.exception.report.begun, len(simulated.bus.effects))
            for _ in range(2):
                with self.assertRaisesRegex(swd.LineFailed, "the probe is closed: the probe's reply is impossible"):
                    session.read(BASE)

    def test_ctrl_c_while_a_reply_is_awaited_closes_the_probe(self):
        simulated = Simulated()
        session = simulated.session()
        session.open()
        exchange = simulated.exchange

        def interrupted(packet, size):
            exchange(packet, size)
            raise KeyboardInterrupt

        simulated.exchange = interrupted
        with self.assertRaises(swd.Interrupted) as stop:
            session.run([Write(BASE + 4 * at, 1) for at in range(20)])
        simulated.target.complete()
        self.assertEqual(stop.exception.report.begun, len(simulated.bus.effects))
        simulated.exchange = exchange
        with self.assertRaises(swd.LineFailed) as closed:
            session.read(BASE)
        self.assertRegex(str(closed.exception.__cause__), "broken off before its reply was read")

    def test_ctrl_c_behind_a_reply_counts_what_was_made(self):
        """The callback is called once the first of ten writes of a packet is answered."""
        for failure in (KeyboardInterrupt, ValueError):
            simulated = Simulated()
            session = simulated.session()
            session.open()
            with self.assertRaises((swd.Interrupted, swd.CallbackFailed)) as stop:
                session.run([Write(BASE + 4 * at, 1) for at in range(20)], on_answer=unittest.mock.Mock(side_effect=failure))
            report = stop.exception.report
            simulated.target.complete()
            self.assertEqual(len(report.answers) + report.begun, len(simulated.bus.effects))
            self.assertLess(5, report.begun)
            self.assertEqual(session.resume(report.accesses, report).answers, (Written(),) * 20)

    def test_a_list_in_pieces_reports_all_of_them(self):
        for at in range(1, 26):
            simulated = Simulated()
            session = simulated.session()
            session.open()
            simulated.spoil = Spoil("missing", simulated.packets + at)
            try:
                report = session.run_block(BASE, 200)
            except swd.LineFailed as failure:
                report = failure.report
                self.assertTrue(simulated.is_over)
            simulated.target.complete()
            words = list(simulated.words.values())
            self.assertEqual(report.words(), words[:len(report.answers)])
            self.assertEqual(len(report.answers) + report.begun, len(simulated.bus.effects))

    def test_ctrl_c_between_two_pieces(self):
        """The list isn't whole then, though the piece is, and it is resumed."""
        simulated = Simulated()
        words, ends = list(simulated.words.values())[:40], set()
        with simulated.session() as session:
            for place, raised in Between.at_each(lambda: session.run_block(BASE, 40), ("c_return",)):
                with self.subTest(place=place):
                    report = swd.report_of(raised)
                    self.assertEqual(report.words(), words[:len(report.answers)])
                    ends.add((report.ended, len(report.answers)))
                    if len(report.answers) < 40:
                        self.assertEqual(session.resume(report.accesses, report).words(), words)
        self.assertEqual(ends, {(End.LOST, 15), (End.LOST, 30), (End.ALL, 40)})


class Between(CtrlC):
    """Ctrl-C while a list goes on with its next piece."""

    FILES = {_pieces.__file__}


class Served:
    """A simulated probe in a thread, at the other end of two pipes, or of fifos by their names."""

    def __init__(self, simulated, framed, room):
        self.simulated, self.framed = simulated, framed
        names = [os.path.join(room, name) for name in ("back", "there")]
        for name in names:
            os.mkfifo(name)
        self.path = ",".join(names)
        self.write, self.read = (os.open(name, os.O_RDWR) for name in names)
        self.reports = []
        threading.Thread(target=self.serve, daemon=True).start()

    def serve(self):
        while True:
            if self.framed:
                length = int.from_bytes(os.read(self.read, 2), "little")
                reply = self.simulated.exchange(os.read(self.read, length), self.simulated.probe.size)
                # In two parts.
                os.write(self.write, len(reply).to_bytes(2, "little") + reply[:1])
                os.write(self.write, reply[1:])
            else:
                report = os.read(self.read, 4096)
                self.reports.append(report)
                os.write(self.write, self.simulated.exchange(report[1:], len(report) - 1))


class TestFiles(unittest.TestCase):
    """Reports and framed packets over files."""

    def test_files_lead_to_a_probe(self):
        for framed, size in ((False, 64), (False, 512), (True, 64), (True, 512)):
            with self.subTest(framed=framed, size=size), tempfile.TemporaryDirectory() as room:
                simulated = Simulated(size, padded=not framed)
                served = Served(simulated, framed, room)
                with swd.Probe(served.path, framed=framed, speed=4_000_000) as probe, swd.Session(probe) as session:
                    self.assertEqual(session.run_block(BASE, 40).words(), list(simulated.words.values())[:40])
                    self.assertEqual(probe.size, size)
                self.assertEqual({len(report) for report in served.reports[1:]} - {1 + size}, set())
                self.assertEqual({report[0] for report in served.reports} - {0}, set())
                self.assertEqual(simulated.probe.commands[0x03], 1)

    def test_a_probe_that_does_not_answer_is_not_waited_for_for_ever(self):
        with tempfile.TemporaryDirectory() as room:
            name = os.path.join(room, "fifo")
            os.mkfifo(name)
            other = os.path.join(room, "other")
            os.mkfifo(other)
            with self.assertRaisesRegex(swd.ProbeFailed, "doesn't answer within 0.1 s"):
                swd.Probe(f"{name},{other}", timeout=0.1)

    def test_a_report_of_another_length_is_refused(self):
        with tempfile.TemporaryDirectory() as room:
            served = Served(Simulated(padded=False), False, room)
            with self.assertRaisesRegex(swd.ProbeFailed, "a report has 4 bytes, not 64: are packets framed"):
                swd.Probe(served.path)

    def test_ctrl_c_by_a_signal_ends_the_wait(self):
        with tempfile.TemporaryDirectory() as room:
            simulated = Simulated()
            served = Served(simulated, False, room)
            session = swd.Session(swd.Probe(served.path))
            session.open()
            exchange, hold = simulated.exchange, threading.Event()

            def slow(packet, size):
                reply = exchange(packet, size)
                os.kill(os.getpid(), signal.SIGINT)
                hold.wait(10)
                return reply

            simulated.exchange = slow
            with self.assertRaises(swd.Interrupted) as stop:
                session.run([Write(BASE + 4 * at, 1) for at in range(30)])
            hold.set()
            simulated.target.complete()
            self.assertEqual(stop.exception.report.begun, len(simulated.bus.effects))


class FakeHid:
    """The module `hid`, with one probe."""

    def __init__(self, simulated):
        self.simulated, self.reply = simulated, b""

    def enumerate(self):
        return [
            {"product_string": None, "serial_number": "0", "path": b"mouse"},
            {"product_string": "DAPLink CMSIS-DAP", "serial_number": "SIM1", "path": b"probe"},
        ]

    def device(self):
        return self

    def open_path(self, path):
        assert path == b"probe"

    def write(self, report):
        assert report[0] == 0
        self.reply = self.simulated.exchange(report[1:], len(report) - 1)
        return len(report)

    def read(self, size, timeout):
        assert timeout == 5000
        return list(self.reply[:size])

    def close(self):
        self.simulated.close()


class FakeUsb(types.ModuleType):
    """The module `usb`, with one probe."""

    def __init__(self, simulated):
        super().__init__("usb")
        self.simulated, self.reply, self.claimed = simulated, b"", []
        endpoints = [types.SimpleNamespace(bEndpointAddress=address) for address in (0x01, 0x82, 0x83)]

        class Interface(list):
            bInterfaceClass, bInterfaceNumber, iInterface = 0xFF, 3, 7

        self.serial_number = "SIM1"
        self.interfaces = [Interface(endpoints)]
        self.core = types.ModuleType("usb.core")
        self.core.find = lambda find_all: [self]
        self.util = types.ModuleType("usb.util")
        self.util.get_string = lambda device, index: "Simulated CMSIS-DAP v2"
        self.util.claim_interface = lambda device, number: self.claimed.append(number)
        self.util.dispose_resources = lambda device: simulated.close()

    def get_active_configuration(self):
        return self.interfaces

    def write(self, endpoint, packet, timeout):
        assert endpoint == 0x01 and timeout == 5000
        self.reply = self.simulated.exchange(bytes(packet), 512)
        return len(packet)

    def read(self, endpoint, size, timeout):
        assert endpoint == 0x82 and timeout == 5000
        return self.reply

    def modules(self):
        return {"usb": self, "usb.core": self.core, "usb.util": self.util}


class TestModules(unittest.TestCase):
    """The modules of Debian's packages, by stand-ins."""

    def use(self, simulated, path, modules):
        with unittest.mock.patch.dict(sys.modules, modules):
            with swd.Probe(path) as probe, swd.Session(probe) as session:
                self.assertEqual(session.read(BASE), simulated.words[BASE])
        self.assertTrue(simulated.is_closed)

    def test_hid(self):
        simulated = Simulated()
        for path in ("hid:", "hid:SIM1"):
            self.use(simulated, path, {"hid": FakeHid(simulated)})
        with self.assertRaisesRegex(swd.ProbeFailed, "no CMSIS-DAP probe with serial number SIM2"):
            self.use(simulated, "hid:SIM2", {"hid": FakeHid(simulated)})

    def test_usb(self):
        simulated = Simulated(512, padded=False)
        for path in ("usb:", "usb:SIM1"):
            self.use(simulated, path, FakeUsb(simulated).modules())
        with self.assertRaisesRegex(swd.ProbeFailed, "no CMSIS-DAP probe with serial number SIM2"):
            self.use(simulated, "usb:SIM2", FakeUsb(simulated).modules())


if __name__ == "__main__":
    unittest.main()
