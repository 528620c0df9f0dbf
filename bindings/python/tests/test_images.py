"""Tests of images: bytes at any address. They are run as those of test_swd.py."""
import array
import itertools
import pickle
import random
import struct
import threading
import unittest
import unittest.mock

import swd
from plain import Damaged, MemoryBus, PlainMemory, PlainTarget
from swd import BusFault, End, Read, Value, Written
from test_sessions import CtrlC, Sequenced
from test_swd import BASE, COUNT, SEED, TARGETS, library_target, plan_of, random_mark

HEAD = BASE + 0x10
KINDS = (swd.Session, swd.Host)


def memory_of(content, base=BASE):
    """A memory with these bytes."""
    memory = PlainMemory(base, len(content) // 4, 1 << 20)
    for place, (word,) in enumerate(struct.iter_unpack("<I", content)):
        memory.words[base + 4 * place] = word
    return memory


def content_of(memory):
    """The bytes of a memory, in the order of their addresses."""
    return b"".join(struct.pack("<I", memory.words[addr]) for addr in sorted(memory.words))


def filled(content, addr, data, base=BASE):
    """The content with the data written over it."""
    at = addr - base
    return content[:at] + data + content[at + len(data):]


def transfers(addr, count):
    """The addresses of the words of a range, and of those that a load reads: the ones with a byte outside it."""
    words = sorted({at & ~3 for at in range(addr, addr + count)})
    whole = set(range(addr, addr + count))
    return words, [word for word in words if not whole.issuperset(range(word, word + 4))]


def random_bytes(rng, count):
    return bytes(rng.getrandbits(8) for _ in range(count))


class Images(unittest.TestCase):
    """Bytes that are loaded, compared and read, at any address."""

    def test_short_images(self):
        """At each place in a word, and up to three words long. No other byte changes, and nothing is written twice."""
        content = bytes(range(0x80, 0xB0))
        for (target, make), begin, count in itertools.product(TARGETS.items(), range(4), range(1, 10)):
            with self.subTest(target, begin=begin, count=count):
                addr, data = HEAD + begin, bytes(range(1, count + 1))
                memory = memory_of(content)
                session = KINDS[(begin + count) % 2](Damaged(make(memory), []))
                session.load(addr, data)
                self.assertEqual(content_of(memory), filled(content, addr, data))
                words, read = transfers(addr, count)
                self.assertEqual([at for kind, at, _ in memory.log if kind == "w"], words)
                self.assertEqual([at for kind, at, _ in memory.log if kind == "r"], read)
                memory.log.clear()
                session.verify(addr, data)
                self.assertEqual(session.dump(addr, count), data)
                self.assertEqual([(kind, at) for kind, at, _ in memory.log], [("r", at) for at in words] * 2)

    def test_partial_words_are_read_first(self):
        memory = memory_of(bytes(12))
        with swd.Session(library_target(memory)) as session:
            session.load(BASE + 2, b"\x01\x02\x03\x04\x05\x06\x07\x08")
        self.assertEqual(memory.log, [
            ("r", BASE, 0), ("r", BASE + 8, 0),
            ("w", BASE, 0x02010000), ("w", BASE + 4, 0x06050403), ("w", BASE + 8, 0x00000807),
        ])

    def test_no_bytes(self):
        """Nothing is sent, and the target isn't opened."""
        target = library_target(memory_of(bytes(4)))
        seen = []
        for host, addr in itertools.product((swd.Session(target), swd.Host(target)), (BASE, BASE + 3, 0, 1 << 32)):
            host.load(addr, b"", on_progress=lambda *told: seen.append(told))
            host.verify(addr, b"", on_progress=lambda *told: seen.append(told))
            self.assertEqual(host.dump(addr, 0, on_progress=lambda *told: seen.append(told)), b"")
        self.assertEqual((target.cycles, seen), (0, []))

    def test_the_end_of_the_address_space(self):
        content = bytes(range(8))
        memory = memory_of(content, 0xFFFFFFF8)
        target = library_target(memory)
        with swd.Session(target) as session:
            session.load(0xFFFFFFFB, b"\xaa\xbb\xcc\xdd\xee")
            self.assertEqual(content_of(memory), filled(content, 0xFFFFFFFB, b"\xaa\xbb\xcc\xdd\xee", 0xFFFFFFF8))
            self.assertEqual(session.dump(0xFFFFFFFD, 3), b"\xcc\xdd\xee")
            before = target.cycles
            for call in (lambda: session.load(0xFFFFFFFD, bytes(4)), lambda: session.verify(0xFFFFFFFD, bytes(4)),
                         lambda: session.dump(0xFFFFFFFD, 4), lambda: session.dump(0, (1 << 32) + 1),
                         lambda: session.load(1 << 32, b"1"), lambda: session.dump((1 << 32) + 1, 0),
                         lambda: session.load(-1, b"1"), lambda: session.dump(BASE, -1),
                         lambda: session.dump("20000000", 1), lambda: session.dump(BASE, None)):
                self.assertRaises(swd.OutOfRange, call)
            self.assertEqual(target.cycles, before)

    def test_what_is_bytes(self):
        memory = memory_of(bytes(16))
        with swd.Session(library_target(memory)) as session:
            for data in (b"abcd", bytearray(b"abcd"), memoryview(b"abcd"), memoryview(b"dcba")[::-1],
                         array.array("B", b"abcd"), memoryview(b"abcd").cast("B", (2, 2))):
                with self.subTest(data):
                    session.load(BASE, bytes(4))
                    session.load(BASE, data)
                    session.verify(BASE, data)
                    self.assertEqual(session.dump(BASE, 4), b"abcd")
            for data in (4, "abcd", [1, 2], None):
                with self.subTest(data):
                    self.assertRaises(swd.NotBytes, session.load, BASE, data)
                    self.assertRaises(swd.NotBytes, session.verify, BASE, data)

    def test_a_byte_that_differs(self):
        content = bytes(range(32))
        for place in range(3, 19):
            with self.subTest(place):
                changed = filled(content, BASE + place, b"\xff")
                with swd.Session(library_target(memory_of(changed))) as session:
                    with self.assertRaises(swd.ImageDiffers) as caught:
                        session.verify(BASE + 3, content[3:19])
                    found = caught.exception
                    self.assertEqual((found.addr, found.found, found.expected), (BASE + place, 0xFF, place))
                    self.assertEqual(str(found), f"{BASE + place:08x} has ff, not {place:02x}")
                    self.assertEqual(str(pickle.loads(pickle.dumps(found))), str(found))
                    session.verify(BASE + place + 1, content[place + 1:])

    def test_a_long_image(self):
        """300,000 bytes in two calls, of 65,536 words and the rest."""
        rng = random.Random(SEED)
        content, data = bytes(300_012), random_bytes(rng, 300_000)
        memory, seen = memory_of(content), []
        target = library_target(memory)
        with swd.Session(target) as session:
            run, calls = session.run, []
            session.run = lambda accesses, **how: calls.append(len(accesses)) or run(accesses, **how)
            session.load(BASE + 5, data, on_progress=lambda done, total: seen.append((done, total)))
            self.assertEqual(calls, [1, 1, 65_536, 9465])
            self.assertEqual(content_of(memory), filled(content, BASE + 5, data))
            self.assertEqual(seen, [(4096 * step - 1, 300_000) for step in range(1, 74)] + [(300_000, 300_000)])
            memory.words[BASE + 300_000] ^= 0xFF00
            with self.assertRaises(swd.ImageDiffers) as caught:
                session.verify(BASE + 5, data)
            self.assertEqual(caught.exception.addr, BASE + 300_001)
        self.assertEqual(len(memory.log), 2 + 2 * 75_001)


class Damages(unittest.TestCase):
    """Images over a line that is damaged, or over a bus that refuses some words."""

    def test_random_images(self):
        """By small calls, so that an image takes several. Whatever ends them, what is told is what happened."""
        ends = {"done": 0, "stopped": 0}
        for seed in range(SEED, SEED + COUNT):
            for target, make in TARGETS.items():
                with self.subTest(target, seed=seed), unittest.mock.patch("swd._images.MOST_ACCESSES", 4):
                    ends[self.at_random(random.Random(seed), make)] += 1
        if COUNT >= 30:
            self.assertTrue(all(ends.values()), ends)

    def at_random(self, rng, make):
        """Loads an image, and continues where it stopped. Then reads it in the same way."""
        content = random_bytes(rng, 64)
        addr, count = BASE + rng.randrange(12), rng.randrange(1, 50)
        data, bad = random_bytes(rng, count), rng.choice([0, 0.05, 0.2])
        plan = [random_mark(rng) if rng.random() < bad else "." for _ in range(400)]
        memory = memory_of(content)
        session = rng.choice(KINDS)(Damaged(make(memory), plan), 2)
        at, rest, how = addr, data, "done"
        while True:
            try:
                session.load(at, rest)
                break
            except swd.RunFailed as stop:
                how = "stopped"
                self.stopped(stop, memory, at, rest, filled(content, addr, data))
                at, rest = stop.addr, rest[stop.done:]
        self.assertEqual(content_of(memory), filled(content, addr, data))
        found, left = b"", count
        while len(found) < count:
            try:
                found += session.dump(addr + len(found), left)
            except swd.ImageStopped as stop:
                self.assertEqual(stop.data, data[len(found):len(found) + stop.done])
                self.assertEqual(stop.addr, addr + len(found) + stop.done)
                found += stop.data
            left = count - len(found)
        self.assertEqual(found, data)
        return how

    def stopped(self, stop, memory, addr, data, whole):
        """The first bytes are written; behind the word in flight none is."""
        if not isinstance(stop, swd.ImageStopped):
            # The run that brings the target to rest before the load.
            self.fail(f"{stop!r}")
        self.assertEqual(stop.addr, addr + stop.done)
        self.assertIsInstance(stop.__cause__, swd.RunStopped)
        self.assertEqual(stop.data, b"")
        now = content_of(memory)
        self.assertEqual(now[:stop.addr - BASE], whole[:stop.addr - BASE])
        self.assertEqual(pickle.loads(pickle.dumps(stop)).done, stop.done)

    def test_a_lost_acknowledgement(self):
        """Nine requests of the opening, and three for each of two partial words: TAR, DRW and RDBUFF. Then TAR, and
        four words, with RDBUFF behind each, or behind the last of a burst."""
        content, data = bytes(range(0x80, 0x98)), bytes(range(1, 15))
        # The request, and how many bytes are written then for certain: the request behind a write confirms it.
        each = (11, 0), (14, 0), (17, 0), (18, 0), (19, 3), (20, 3), (21, 7), (22, 7), (23, 11), (24, 11)
        burst = (11, 0), (14, 0), (17, 0), (18, 0), (19, 3), (20, 7), (21, 11)
        for bursts, (request, done) in [(False, row) for row in each] + [(True, row) for row in burst]:
            with self.subTest(request, bursts=bursts):
                memory = memory_of(content)
                line = Damaged(library_target(memory), plan_of({request: "deaf"}))
                with swd.Session(line, bursts=bursts) as session:
                    with self.assertRaises(swd.ImageStopped) as caught:
                        session.load(BASE + 1, data)
                    stop = caught.exception
                    self.assertEqual((stop.addr, stop.done), (BASE + 1 + done, done))
                    self.assertIs(stop.report.ended, End.LOST)
                    told = f"load stopped at {BASE + 1 + done:08x}, after {done} of 14 bytes: the run ended lost"
                    self.assertIn(told, str(stop))
                    self.assertFalse(session.is_open)
                    session.load(stop.addr, data[stop.done:])
                    session.verify(BASE + 1, data)
                self.assertEqual(content_of(memory), filled(content, BASE + 1, data))

    def test_waits_and_changed_bits(self):
        """They cost tries, and no word is written twice."""
        data = bytes(range(1, 33))
        for mark in ("wait", "flip 0", "flip 31", "flip 32"):
            with self.subTest(mark):
                memory = memory_of(bytes(32))
                marks = {number: mark for number in range(11, 60, 3)}
                with swd.Session(Damaged(library_target(memory), plan_of(marks))) as session:
                    session.load(BASE, data)
                    self.assertEqual([at for kind, at, _ in memory.log if kind == "w"], list(range(BASE, BASE + 32, 4)))
                    session.verify(BASE, data)

    def test_a_bus_error(self):
        """The memory has a hole. A load writes the words behind it in the same call, and says where the hole is."""
        data = bytes(range(1, 33))
        for hole in range(0, 32, 4):
            with self.subTest(hole):
                memory = memory_of(bytes(32))
                del memory.words[BASE + hole]
                with swd.Session(library_target(memory)) as session:
                    seen = []
                    with self.assertRaises(swd.ImageStopped) as caught:
                        session.load(BASE, data, on_progress=lambda done, total: seen.append(done))
                    stop = caught.exception
                    self.assertEqual((stop.addr, stop.done, seen), (BASE + hole, hole, []))
                    self.assertIsInstance(stop.__cause__, swd.AccessFaulted)
                    self.assertIn(f"after {hole} of 32 bytes: access {hole // 4} (w {BASE + hole:08x}) was a bus error",
                                  str(stop))
                    self.assertEqual(stop.report.answers.count(Written()), 7)
                    self.assertEqual(content_of(memory), data[:hole] + data[hole + 4:])
                    self.assertTrue(session.is_open)
                    with self.assertRaises(swd.ImageStopped) as caught:
                        session.dump(BASE + 1, 31)
                    stop = caught.exception
                    self.assertEqual((stop.addr, stop.data), (BASE + max(hole, 1), data[1:hole]))
                    with self.assertRaises(swd.ImageStopped) as caught:
                        session.verify(BASE, data)
                    self.assertIn("verify stopped", str(caught.exception))

    def test_a_bus_error_at_a_partial_word(self):
        memory = memory_of(bytes(8))
        with swd.Session(library_target(memory)) as session:
            for addr, count in ((BASE + 6, 4), (BASE - 2, 4)):
                with self.assertRaises(swd.ImageStopped) as caught:
                    session.load(addr, bytes(count))
                self.assertEqual((caught.exception.addr, caught.exception.done), (addr, 0))
                self.assertEqual(caught.exception.report.accesses, (Read(BASE + 8 if addr > BASE else BASE - 4),))
        self.assertEqual([kind for kind, _, _ in memory.log], ["r"])

    def test_a_later_call_that_stops(self):
        """What the calls before wrote is counted, and so is a call that began with a partial word."""
        data = bytes(range(1, 41))
        with unittest.mock.patch("swd._images.MOST_ACCESSES", 4):
            memory = memory_of(bytes(44))
            del memory.words[BASE + 24]
            with swd.Session(library_target(memory)) as session:
                with self.assertRaises(swd.ImageStopped) as caught:
                    session.load(BASE + 2, data)
                stop = caught.exception
                self.assertEqual((stop.addr, stop.done), (BASE + 24, 22))
                self.assertEqual(stop.report.answers, (Written(), Written(), BusFault(), Written()))
                with self.assertRaises(swd.ImageStopped) as caught:
                    session.dump(BASE + 2, 40)
                self.assertEqual((caught.exception.addr, caught.exception.data), (BASE + 24, data[:22]))

    def test_a_dead_line(self):
        for call in (lambda host: host.load(BASE + 1, b"12"), lambda host: host.verify(BASE, b"12"),
                     lambda host: host.dump(BASE, 2)):
            for host in (swd.Session, swd.Host):
                with self.assertRaises(swd.ImageStopped) as caught:
                    call(host((lambda bit: None, lambda: 1)))
                self.assertEqual((caught.exception.done, caught.exception.data), (0, b""))


class Failures(unittest.TestCase):
    """Lines and callbacks that fail, and Ctrl-C, during an image."""

    DATA = bytes(range(1, 23))
    CONTENT = bytes(range(0x80, 0xA0))

    def broken(self, at, failure):
        """A load whose line raises this at a clock: the exception, the memory and the session."""
        memory = memory_of(self.CONTENT)
        line = Damaged(PlainTarget(memory), [])
        cycle, left = line.cycle, iter(range(at, -1, -1))

        def failing(drive):
            if next(left, 0) == 0 and at >= 0:
                line.cycle = cycle
                raise failure
            return cycle(drive)

        line.cycle = failing if at >= 0 else cycle
        session = swd.Session(line)
        try:
            session.load(BASE + 1, self.DATA)
        except BaseException as raised:  # pylint: disable=broad-except
            return raised, line, memory, session
        return None, line, memory, session

    def test_a_failure_at_each_clock(self):
        """The bytes that are told are written. The load is continued there, by the same session."""
        _, whole, _, _ = self.broken(-1, None)
        with unittest.mock.patch("swd._images.MOST_ACCESSES", 3):
            for at, (failure, kind) in itertools.product(
                    range(0, len(whole.calls), 7),
                    ((OSError("unplugged"), swd.ImageStopped), (KeyboardInterrupt(), swd.ImageInterrupted))):
                with self.subTest(clock=at, kind=kind):
                    raised, _, memory, session = self.broken(at, failure)
                    self.assertIsInstance(raised, kind)
                    self.assertEqual(raised.addr, BASE + 1 + raised.done)
                    self.assertIs(swd.report_of(raised), raised.report)
                    now, after = content_of(memory), filled(self.CONTENT, BASE + 1, self.DATA)
                    sure, begun = raised.addr - BASE, (raised.addr - BASE & ~3) + 4
                    self.assertEqual(now[:sure], after[:sure])
                    self.assertEqual(now[begun:], self.CONTENT[begun:])
                    session.load(raised.addr, self.DATA[raised.done:])
                    self.assertEqual(content_of(memory), after)
        self.assertIsInstance(self.broken(900, OSError("unplugged"))[0].__cause__, swd.LineFailed)

    def test_an_interrupt_at_each_place(self):
        """Of the package, also where a call has just ended. The bytes that are told are written, and no word behind the
        one at `addr`. Where nothing is told, nothing is written."""
        after = filled(self.CONTENT, BASE + 1, self.DATA)
        memory = memory_of(self.CONTENT)
        # Behind the last call the image is loaded, and Ctrl-C is the caller's.
        how = ("call", "c_return", "return"), (("return", "load"),)
        with unittest.mock.patch("swd._images.MOST_ACCESSES", 3), \
                swd.Session(swd.Sequences(Sequenced(Damaged(library_target(memory), [])))) as session:
            memory.log.clear()
            for place, raised in CtrlC.at_each(lambda: session.load(BASE + 1, self.DATA), *how):
                with self.subTest(place):
                    now, at, rest = content_of(memory), BASE + 1, self.DATA
                    if isinstance(raised, swd.ImageInterrupted):
                        at, rest = raised.addr, self.DATA[raised.done:]
                        self.assertEqual(raised.done + len(rest), len(self.DATA))
                        begun = (at - BASE & ~3) + 4
                        self.assertEqual((now[:at - BASE], now[begun:]), (after[:at - BASE], self.CONTENT[begun:]))
                    else:
                        self.assertEqual(memory.log, [])
                    session.load(at, rest)
                    self.assertEqual(content_of(memory), after)
                    session.load(BASE, self.CONTENT)
                    memory.log.clear()
        self.assertEqual(content_of(memory), after)

    def test_an_interrupt_at_each_place_of_a_reading(self):
        """The bytes that are told were read, also where Ctrl-C came behind the last call."""
        content = self.CONTENT[1:23]
        memory = memory_of(self.CONTENT)
        session = swd.Session(swd.Sequences(Sequenced(Damaged(library_target(memory), []))))
        calls = {"dump": lambda: session.dump(BASE + 1, 22), "verify": lambda: session.verify(BASE + 1, content)}
        for name, call in calls.items():
            session.open()
            memory.log.clear()
            with unittest.mock.patch("swd._images.MOST_ACCESSES", 3):
                for place, raised in CtrlC.at_each(call, ("call", "c_return", "return"), (("return", name),)):
                    with self.subTest(name, place=place):
                        if isinstance(raised, swd.ImageInterrupted):
                            self.assertEqual(raised.data, content[:raised.done])
                            self.assertEqual(raised.addr, BASE + 1 + raised.done)
                        else:
                            self.assertEqual(memory.log, [])
                        session.open()
                        memory.log.clear()
            self.assertGreater(place, 100)

    def test_other_exceptions(self):
        raised, _, memory, _ = self.broken(1000, SystemExit(3))
        self.assertIsInstance(raised, SystemExit)
        sure = 1 + raised.done
        self.assertEqual(content_of(memory)[:sure], filled(self.CONTENT, BASE + 1, self.DATA)[:sure])

    def test_between_two_calls(self):
        """Ctrl-C, or another call on the line, where no run is in progress."""
        for failure, kind in ((KeyboardInterrupt(), swd.ImageInterrupted), (swd.Reentered("in use"), swd.ImageStopped)):
            with self.subTest(kind), unittest.mock.patch("swd._images.MOST_ACCESSES", 3):
                session = swd.Session(library_target(memory_of(self.CONTENT)))
                run, calls = session.run, itertools.count()

                def once(*arguments, **how):
                    if next(calls) == 3:
                        raise failure
                    return run(*arguments, **how)

                session.open()
                session.run = once
                with self.assertRaises(kind) as caught:
                    session.load(BASE + 1, self.DATA)
                self.assertEqual((caught.exception.done, caught.exception.addr), (11, BASE + 12))
                self.assertIs(caught.exception.__cause__, failure)
        session = swd.Session(library_target(memory_of(self.CONTENT)))
        session.run = unittest.mock.Mock(side_effect=swd.Reentered("in use"))
        self.assertRaises(swd.Reentered, session.load, BASE, self.DATA)

    def test_another_thread_on_the_line(self):
        """It begins a list before a call of the image, which is refused. Its answers are none of the image's."""
        data = self.CONTENT[:24]
        rows = [("load", "run", lambda session: session.load(BASE, bytes(24))),
                ("verify", "run_block", lambda session: session.verify(BASE, data)),
                ("dump", "run_block", lambda session: session.dump(BASE, 24))]
        for (name, inner, image), refused in itertools.product(rows, (0, 1)):
            with self.subTest(name, refused=refused), unittest.mock.patch("swd._images.MOST_ACCESSES", 3):
                memory = memory_of(self.CONTENT)
                raised = self.refused(swd.Session(library_target(memory)), inner, image, refused)
                done = 12 * refused
                written, read = (bytes(done), b"") if name == "load" else (b"", data[:done])
                self.assertEqual(content_of(memory), filled(self.CONTENT, BASE, written))
                if refused:
                    self.assertEqual((raised.addr, raised.done, raised.data), (BASE + done, done, read))
                    raised = raised.__cause__
                self.assertIsInstance(raised, swd.Reentered)

    def refused(self, session, inner, image, number):
        """What an image raises, if another thread is inside a list when its call with this number begins."""
        calls, inside, leaves = itertools.count(), threading.Event(), threading.Event()
        perform = getattr(session, inner)

        def hold(index, answer):
            if index == 4:
                inside.set()
                leaves.wait()

        other = threading.Thread(target=session.run, args=([Read(BASE + 28)] * 8,), kwargs={"on_answer": hold})

        def meet(*arguments, **how):
            if next(calls) == number:
                other.start()
                inside.wait()
            return perform(*arguments, **how)

        setattr(session, inner, meet)
        try:
            with self.assertRaises(swd.SwdError) as caught:
                image(session)
        finally:
            leaves.set()
            other.join()
        return caught.exception

    def test_progress(self):
        """Every 1,024 words and at the end, of each call; and where it fails, all before it is told."""
        memory = memory_of(bytes(4 * 2200))
        data = bytes(4 * 2100 - 3)
        with swd.Session(library_target(memory)) as session:
            for call in (session.load, session.verify,
                         lambda addr, data, **how: session.dump(addr, len(data), **how)):
                seen = []
                call(BASE + 1, data, on_progress=lambda *told: seen.append(told))
                self.assertEqual(seen, [(4095, 8397), (8191, 8397), (8397, 8397)])
            for failure, kind in ((ValueError("full"), swd.ImageStopped), (KeyboardInterrupt(), swd.ImageInterrupted)):
                with self.assertRaises(kind) as caught:
                    session.load(BASE + 1, data, on_progress=unittest.mock.Mock(side_effect=failure))
                self.assertGreaterEqual(caught.exception.done, 4095)
            self.assertIn("after 4096 of 8397 bytes: the callback failed", str(self.nested(session, data)))

    def nested(self, session, data):
        """A callback that uses the line."""
        with self.assertRaises(swd.ImageStopped) as caught:
            session.load(BASE, data, on_progress=lambda *told: session.read(BASE))
        cause = caught.exception.__cause__
        self.assertIsInstance(cause, swd.CallbackFailed)
        self.assertIsInstance(cause.__cause__, swd.Reentered)
        return caught.exception


if __name__ == "__main__":
    unittest.main()
