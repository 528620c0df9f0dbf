"""Each list, block, image and poll once at its greatest size. They are run as those of test_swd.py."""
import unittest

import swd
from plain import RDBUFF, Damaged, PlainMemory
from swd import End, Read, Value, Write, Written
from test_swd import BASE, library_target, plan_of

MOST = 65_536
# The requests of a list of writes in bursts: the opening, DRW for each, and in each kilobyte TAR before its first word
# and RDBUFF after its last one.
REQUESTS = 9 + MOST + 2 * 256


def line_to(words, marks=None):
    """A line to the library's target, whose memory has so many words, and the memory. Damage takes half of the time."""
    memory = PlainMemory(BASE, words, 4 * words)
    target = library_target(memory)
    return Damaged(target, plan_of(marks)) if marks else target, memory


def writes():
    """Each word of the memory is written with the complement of its address."""
    return [Write(addr, addr ^ 0xFFFFFFFF) for addr in range(BASE, BASE + 4 * MOST, 4)]


def words():
    return tuple(Value(write.word) for write in writes())


class Status:
    """A line of sequences to a status that is 0, and 1 at the last of so many reads. The library's target is at its end
    while it is opened. Afterwards the replies alone are made: a million reads of that target take minutes."""

    def __init__(self, reads):
        self.target, self.reads = library_target(PlainMemory(BASE, 1, 1)), reads
        self.is_open, self.request = False, None

    def drive(self, bits, count):
        if not self.is_open:
            for place in range(count):
                self.target.drive(bits >> place & 1)
        elif count == 8:
            self.request = bits

    def release(self, count):
        if not self.is_open:
            self._levels(count)

    def sample(self, count):
        if not self.is_open:
            return sum(level << place for place, level in enumerate(self._levels(count)))
        if count == 3:
            return 1
        if self.request == RDBUFF:
            self.reads -= 1
        return 1 | 1 << 32 if self.reads == 0 else 0

    def _levels(self, count):
        return [self.target.sample() for _ in range(count)]


class Greatest(unittest.TestCase):
    def test_a_list_and_a_block(self):
        line, _ = line_to(MOST)
        host = swd.Host(line, bursts=True)
        report = host.run(writes())
        self.assertEqual((report.ended, report.requests), (End.ALL, REQUESTS))
        self.assertEqual(report.answers, (Written(),) * MOST)
        self.assertEqual(host.run_block(BASE, MOST).answers, words())

    def test_a_list_that_is_resumed_at_its_last_access(self):
        """The acknowledgement of the request that confirms the last write is lost."""
        line, memory = line_to(MOST, {REQUESTS: "mute 0"})
        host = swd.Host(line, bursts=True)
        lost = host.run(writes(), check=False)
        self.assertEqual((lost.ended, len(lost.answers), lost.begun), (End.LOST, MOST - 1, 1))
        resumed = host.resume(writes(), lost)
        self.assertEqual((resumed.ended, len(resumed.answers)), (End.ALL, MOST))
        self.assertEqual([memory.words[write.addr] for write in writes()], [write.word for write in writes()])

    def test_an_image_of_more_than_a_mebibyte(self):
        size = (1 << 20) + 4
        line, memory = line_to(size // 4)
        data = bytes(place % 251 for place in range(size))
        session = swd.Session(line)
        session.load(BASE, data)
        self.assertIsNone(session.verify(BASE, data))
        self.assertEqual(session.dump(BASE, size), data)

    def test_a_status_that_is_ready_at_the_last_read(self):
        reads = 1_000_000
        line = Status(reads)
        with swd.Session(swd.Sequences(line)) as session:
            line.is_open = True
            self.assertEqual(session.until(BASE, 1, 1, reads), 1)
            self.assertEqual(line.reads, 0)


if __name__ == "__main__":
    unittest.main()
