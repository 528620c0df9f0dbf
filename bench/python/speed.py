"""Counts what the package swd does in a second of processor time. Each row is the best of five rounds."""
import time

import swd

BASE = 0x20000000
WORDS = 1024


class Ram:
    """A bus of words."""

    def __init__(self):
        self.words = [0] * WORDS

    def read(self, addr):
        return self.words[(addr - BASE) // 4]

    def write(self, addr, word):
        self.words[(addr - BASE) // 4] = word


class Recorded:
    """A line of clocks that plays back the levels of a run, so that the time is the host's own."""

    def __init__(self, levels):
        self.drive = self.release = lambda bit=None: None
        self.sample = iter(levels).__next__


class RecordedSequences:
    """The same as a line of sequences."""

    def __init__(self, replies):
        self.drive = lambda bits, count: None
        self.release = lambda count: None
        replies = iter(replies)
        self.sample = lambda count: next(replies)


class Recorder:
    """A line of sequences to a target. Keeps every level, the sampled ones, and the replies."""

    def __init__(self, target):
        self.target, self.levels, self.sampled, self.replies = target, [], [], []

    def drive(self, bits, count):
        self.levels += [self.target.cycle(bits >> place & 1) for place in range(count)]

    def release(self, count):
        self.levels += [self.target.cycle(None) for _ in range(count)]

    def sample(self, count):
        self.release(count)
        seen = self.levels[-count:]
        self.sampled += seen
        self.replies.append(sum(level << place for place, level in enumerate(seen)))
        return self.replies[-1]


def best(count, makes, work):
    """How many a second of processor time over each of these, by turns, in the best of five rounds."""
    rates = [0.0] * len(makes)
    for _ in range(5):
        for place, make in enumerate(makes):
            made = make()
            before = time.process_time()
            work(made)
            rates[place] = max(rates[place], count / (time.process_time() - before))
    return rates


def polls(session):
    """Reads one word as often as a list has words, each time by a list of its own."""
    for _ in range(WORDS):
        session.read(BASE)


def rows():
    writes = [swd.Write(BASE + 4 * place, place * 0x9E3779B9 & 0xFFFFFFFF) for place in range(WORDS)]
    works = {
        "writes, in bursts": (swd.Host, lambda host: host.run(writes)),
        "reads, one by one": (swd.Host, lambda host: host.run(swd.block(BASE, WORDS))),
        "reads, as a block": (swd.Host, lambda host: host.run_block(BASE, WORDS)),
        "polls of a session": (swd.Session, polls),
    }
    for name, (kind, work) in works.items():
        line = Recorder(swd.Target(Ram()))
        work(kind(swd.Sequences(line)))
        makes = [
            lambda: kind(Recorded(line.sampled)),
            lambda: kind(swd.Sequences(RecordedSequences(line.replies))),
            lambda: kind(swd.Target(Ram())),
        ]
        figures = " ".join(f"{rate:11,.0f}" for rate in best(WORDS, makes, work))
        yield f"{name:20} {figures} accesses/s {len(line.levels) / WORDS:6.1f} clocks each"
    bits = "".join(map(str, line.levels))
    yield f"{'decode':20} {best(len(bits), [lambda: bits], swd.decode)[0]:11,.0f} bits/s of transactions"


if __name__ == "__main__":
    print(f"{'':20} {'over clocks':>11} {'sequences':>11} {'and target':>11}")
    for row in rows():
        print(row)
