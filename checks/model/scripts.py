"""Random scripts of several calls under random plans, and what has to come of them by the model of host and target.

Scripts have lists, blocks, `until` and `next`; plans have all marks, and some runs may be resumed. The model opens the
target once, and again only after a lost acknowledgement.
"""

from dataclasses import dataclass

from .bits import text_of_bits
from .host import ALL, BLOCKS, LOST, PIPELINED, Access, BusFault, Recorder, Value, resume, run
from .target import CLEAN, Bench, Mark, Quirks

BASE = 0x200003E0  # the words go past the end of a kilobyte
WORDS = 16


# ---- scripts


def address(rng):
    return BASE + 4 * (rng.randrange(WORDS) if rng.random() < 0.95 else WORDS)


def call_of(rng):
    """The kind of a call, its accesses, and of an `until` what it awaits: a mask, a value and the most reads."""
    pick = rng.random()
    if pick < 0.35:
        mask = rng.choice([0, 1, 3, 0xFFFFFFFF])
        return "until", [Access(address(rng))], (mask, rng.getrandbits(2) & mask, rng.randrange(1, 6))
    if pick < 0.5:
        first = rng.randrange(WORDS)
        return "block", [Access(BASE + 4 * (first + i)) for i in range(rng.randrange(1, 5))], None
    count = rng.randrange(1, 5)
    at = [address(rng)] * count if rng.random() < 0.3 else [BASE + 4 * (i % WORDS) for i in range(count)]
    return "list", [Access(a, rng.choice([None, rng.getrandbits(2)])) for a in at], None


def lines_of(call):
    kind, accesses, awaited = call
    if kind == "until":
        mask, value, most = awaited
        return [f"until {accesses[0].addr:x} {mask:x} {value:x} {most}"]
    if kind == "block":
        return [f"block {accesses[0].addr:x} {len(accesses)}"]
    return [f"r {a.addr:x}" if a.read else f"w {a.addr:x} {a.word:x}" for a in accesses]


def script_of(rng):
    """The lines of a script's calls, and these calls."""
    calls = [call_of(rng) for _ in range(rng.randrange(1, 6))]
    lines = []
    for before, call in zip([None, *calls], calls):
        if before is not None and before[0] != "until" and call[0] != "until":
            lines.append("next")
        lines += lines_of(call)
    if rng.random() < 0.2:
        # a last call without accesses
        calls.append(("list", [], None))
        lines.append("next")
    return lines, calls


def mark_of(rng):
    kind = rng.choice(["wait", "wait", "flip", "flip", "deaf", "mute"])
    return Mark(kind, {"flip": rng.randrange(33), "mute": rng.randrange(3)}.get(kind, 0))


def plan_of(rng):
    bad = rng.choice([0, 0.02, 0.1])
    return [mark_of(rng) if rng.random() < bad else CLEAN for _ in range(120)]


def mark_line(mark):
    return {"clean": ".", "flip": f"flip {mark.place}", "mute": f"mute {mark.place}"}.get(mark.kind, mark.kind)


# ---- the model's session


def answer_line(access, answer):
    end = "busfault" if isinstance(answer, BusFault) else "written"
    if isinstance(answer, Value):
        end = f"{answer.word:08x}"
    return f"{'r' if access.read else 'w'} {access.addr:08x} {end}"


def end_line(report):
    count = len(report.answers)
    if report.ended == ALL:
        return f"end all {count}"
    word = {"Lost": "lost", "TriesOut": "tries", "Confused": "confused"}[report.ended.kind]
    return f"end {word} {count} begun {report.begun}"


class Session:
    """The calls of a script over one wire, and the lines of their reports."""

    def __init__(self, wire, tries, resumes):
        self.wire, self.tries, self.resumes = wire, tries, resumes
        self.opened = False
        self.lines = []

    def call(self, kind, accesses):
        """One call: its report, and the places where it was resumed."""
        report = run(self.wire, accesses, self.tries, BLOCKS if kind == "block" else PIPELINED, self.opened)
        stops = []
        while report.ended == LOST and len(stops) < self.resumes:
            stops.append((len(report.answers), report.begun))
            report = resume(self.wire, accesses, report, self.tries)
        self.opened = report.ended == ALL
        return report, stops

    def tell(self, accesses, report, stops, after, end):
        told = [answer_line(*pair) + after for pair in zip(accesses, report.answers)]
        lines, done = [], 0
        for answered, begun in stops:
            lines += told[done:answered] + [f"resume {answered} begun {begun}"]
            done = answered
        self.lines += lines + told[done:] + [end]

    def until(self, accesses, mask, value, most):
        for reads in range(1, most + 1):
            report, stops = self.call("list", accesses)
            words = [answer.word for answer in report.answers if isinstance(answer, Value)]
            came = bool(words) and words[0] & mask == value
            if report.ended != ALL or came or not words:
                break
        never = report.ended == ALL and not came
        self.tell(accesses, report, stops, f" reads {reads}", "end until 1" if never else end_line(report))
        return report.ended == ALL and came

    def perform(self, calls):
        for kind, accesses, awaited in calls:
            if kind == "until":
                if not self.until(accesses, *awaited):
                    return
                continue
            report, stops = self.call(kind, accesses)
            self.tell(accesses, report, stops, "", end_line(report))
            if report.ended != ALL:
                return


@dataclass
class Expected:
    """The words of a report, the levels of a trace, the log, and how many requests there were."""

    lines: list[str]
    levels: str
    log: list[str]
    asked: int


def expected(calls, plan, tries, resumes, memory):
    """What the model makes of calls over a memory, which it changes."""
    bench = Bench(memory, Quirks(filler=0), plan)
    wire = Recorder(bench)
    session = Session(wire, tries, resumes)
    session.perform(calls)
    log = [str(transfer) for transfer in memory.log]
    return Expected(session.lines, text_of_bits(wire.bits), log, bench.counts.asked)
