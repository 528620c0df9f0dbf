"""Judges the report of a run against the transfers that reached the bus.

Each write of a run has its own word, so that a transfer names its write. `wrongs(calls, report, effects)` says what is
wrong, where the memory began as zeros or as the words that are handed over.
"""

from __future__ import annotations

from collections import Counter
from dataclasses import dataclass, field
from typing import Iterator, Optional

from .host import Access
from .line import Effect


@dataclass
class Said:
    """What a report says of the accesses of all calls, by their places in the row of these."""

    answers: dict[int, str] = field(default_factory=dict)  # written, busfault or a word
    attempts: list[tuple[int, int]] = field(default_factory=list)  # how many were answered so far, and more begun
    ended: Optional[str] = None
    misplaced: bool = False  # a line is of another access, or counts the answers wrong

    def begun(self) -> Counter[int]:
        """How often each access was begun without an answer."""
        return Counter(first + more for first, count in self.attempts for more in range(count))


def said_of(report: str, calls: list[list[Access]]) -> Said:
    said, base, rest, answered = Said(), 0, [*calls], 0
    for line in report.splitlines():
        match line.split():
            case ["r" | "w" as kind, addr, answer]:
                access = rest[0][answered]
                said.misplaced |= (kind == "r", int(addr, 16)) != (access.read, access.addr)
                said.answers[base + answered] = answer
                answered += 1
            case ["resume", first, "begun", count]:
                said.misplaced |= int(first) != answered
                said.attempts.append((base + answered, int(count)))
            case ["end", kind, *numbers]:
                begun = int(numbers[2]) if "begun" in numbers else 0
                said.misplaced |= kind != "id" and int(numbers[0]) != answered
                said.attempts.append((base + answered, begun))
                said.ended = kind
                base, answered = base + len(rest.pop(0)), 0
            case _:
                raise ValueError(f"no line of a report: {line}")
    return said


def is_of(effect: Effect, access: Access, answer: Optional[str]) -> bool:
    """Whether a transfer is that of an access with this answer, if it has one."""
    if (effect.read, effect.addr) != (access.read, access.addr) or (not access.read and effect.word != access.word):
        return False
    if answer is None:
        return True
    return effect.done == (answer != "busfault") and answer in ("busfault", "written", f"{effect.word:08x}")


def is_told(accesses: list[Access], said: Said, effects: list[Effect]) -> bool:
    """Whether the transfers are those of the accesses in their order: in each attempt from the first that had no answer
    before it up to the last that has one behind it, and as many more as were begun, or fewer."""
    places, first = {0}, 0
    for answered, begun in said.attempts:
        after = set()
        for place in places:
            for more in range(begun + 1):
                wanted = range(first, answered + more)
                found = effects[place : place + len(wanted)]
                told = (is_of(it, accesses[at], said.answers.get(at)) for it, at in zip(found, wanted))
                if len(found) == len(wanted) and all(told):
                    after.add(place + len(wanted))
        places, first = after, answered
    return len(effects) in places


def wrong_write(access: Access, answer: Optional[str], begun: int, effects: list[Effect]) -> Iterator[str]:
    """What is wrong of a write that was begun so often without an answer."""
    mine = [it for it in effects if not it.read and it.word == access.word]
    done = sum(it.done and it.addr == access.addr for it in mine)
    if any(it.addr != access.addr for it in mine):
        yield "elsewhere"
    if answer == "written" and not done:
        yield "never"
    if answer == "busfault" and (done > begun or all(it.done or it.addr != access.addr for it in mine)):
        yield "no bus error"
    if answer is None and mine and not begun:
        yield "not begun"
    elif answer != "busfault" and done > begun + (answer == "written"):
        yield "twice"


def wrong_reads(accesses: list[Access], said: Said, words: dict[int, int]) -> Iterator[str]:
    """What is wrong of the words that were read, if the words were written that the report says so of, over these."""
    memory = {addr: f"{word:08x}" for addr, word in words.items()}
    for place, access in enumerate(accesses):
        answer = said.answers.get(place)
        if access.word is not None and answer == "written":
            memory[access.addr] = f"{access.word:08x}"
        elif access.read and answer not in (None, "busfault", memory.get(access.addr, "00000000")):
            yield "read"


def wrongs(
    calls: list[list[Access]], report: str, effects: list[Effect], words: Optional[dict[int, int]] = None
) -> list[str]:
    """What a report says that isn't so; `confused` alone is no false report, but no right port may be called that.
    `words` is the memory as it began."""
    said = said_of(report, calls)
    accesses = [access for call in calls for access in call]
    begun = said.begun()
    found = set(wrong_reads(accesses, said, words or {}))
    for place, access in enumerate(accesses):
        if not access.read:
            found.update(wrong_write(access, said.answers.get(place), begun[place], effects))
    if not found and not is_told(accesses, said, effects):
        found.add("order")
    if said.misplaced:
        found.add("line")
    if said.ended in ("confused", "id"):
        found.add("confused")
    return sorted(found)


# ---- the judge itself

RIGHT = "w 20000000 written|w 20000004 written|w 20000008 written|r 20000000 00000001|end all 4"
LOST = "w 20000000 written|end lost 1 begun"
# A name, the report, the transfers (a write as ADDR=WORD, a read as ADDR, a bus error with ! behind it), and what is
# wrong.
TRIALS = (
    ("right", RIGHT, "0=1 4=2 8=3 0", ""),
    ("doubled", RIGHT, "0=1 0=1 4=2 8=3 0", "twice"),
    ("dropped", RIGHT, "0=1 4=2 0", "never"),
    ("none", RIGHT, "", "never"),
    ("moved", RIGHT, "0=1 4=2 4=3 0", "elsewhere never"),
    ("doubled elsewhere", RIGHT, "0=1 4=2 8=3 c=3 0", "elsewhere"),
    ("swapped", RIGHT, "4=2 0=1 8=3 0", "order"),
    ("read early", RIGHT, "0 0=1 4=2 8=3", "order"),
    ("read twice", RIGHT, "0=1 4=2 8=3 0 0", "order"),
    ("no read", RIGHT, "0=1 4=2 8=3", "order"),
    ("refused, said written", RIGHT, "0=1 4=2 8=3! 0", "never"),
    ("another word read", RIGHT.replace("00000001", "00000002"), "0=1 4=2 8=3 0", "read"),
    ("bus error", RIGHT.replace("8 written", "8 busfault"), "0=1 4=2 8=3! 0", ""),
    ("bus error that was none", RIGHT.replace("8 written", "8 busfault"), "0=1 4=2 8=3 0", "no bus error"),
    ("bus error that never came", RIGHT.replace("8 written", "8 busfault"), "0=1 4=2 0", "no bus error"),
    ("bus error elsewhere", RIGHT.replace("8 written", "8 busfault"), "0=1 4=2 c=3! 0", "elsewhere no bus error"),
    ("read that is no bus error", RIGHT.replace(" 00000001", " busfault"), "0=1 4=2 8=3 0", "order"),
    ("begun 0", LOST + " 0", "0=1", ""),
    ("not begun", LOST + " 0", "0=1 4=2", "not begun"),
    ("begun 1, made", LOST + " 1", "0=1 4=2", ""),
    ("begun 1, not made", LOST + " 1", "0=1", ""),
    ("begun 1, two made", LOST + " 1", "0=1 4=2 8=3", "not begun"),
    ("begun 1, made twice", LOST + " 1", "0=1 4=2 4=2", "twice"),
    ("begun 2, the second alone", LOST + " 2", "0=1 8=3", "order"),
    ("resumed, made twice", "w 20000000 written|resume 1 begun 1|" + RIGHT[19:], "0=1 4=2 4=2 8=3 0", ""),
    ("resumed, made once", "w 20000000 written|resume 1 begun 1|" + RIGHT[19:], "0=1 4=2 8=3 0", ""),
    ("resumed, made three times", "w 20000000 written|resume 1 begun 1|" + RIGHT[19:], "0=1 4=2 4=2 4=2 8=3 0",
     "twice"),
    ("resumed, another made twice", "w 20000000 written|resume 1 begun 1|" + RIGHT[19:], "0=1 0=1 4=2 8=3 0", "twice"),
    ("resumed, late", "w 20000000 written|resume 1 begun 1|" + RIGHT[19:], "0=1 4=2 8=3 4=2 0", "order"),
    ("a line of another access", RIGHT.replace("w 20000004", "w 20000008"), "0=1 4=2 8=3 0", "line"),
    ("a count of answers", LOST.replace("1", "2") + " 0", "0=1", "line"),
    ("confused", "w 20000000 written|end confused 1 begun 0", "0=1", "confused"),
)
BASE = 0x20000000


def effect_of(text: str, words: dict[int, int]) -> Effect:
    addr, _, word = text.rstrip("!").partition("=")
    at = BASE + int(addr, 16)
    if word:
        words[at] = int(word, 16)
    return Effect(not word, at, words.get(at, 0), not text.endswith("!"))


def misjudged() -> list[str]:
    """The names of the trials that aren't judged as they should be."""
    calls = [[Access(BASE, 1), Access(BASE + 4, 2), Access(BASE + 8, 3), Access(BASE)]]
    found = []
    for name, report, transfers, wanted in TRIALS:
        words: dict[int, int] = {}
        effects = [effect_of(text, words) for text in transfers.split()]
        if " ".join(wrongs(calls, report.replace("|", "\n"), effects)) != wanted:
            found.append(name)
    return found
