"""What `swd check --resync` says of captures of targets that keep the rules, with bits lost, doubled and changed."""
import collections
import concurrent.futures
import random
import subprocess
import tempfile

from captures.damage import SESSIONS, Capture, one_bit_changed, one_bit_doubled, one_bit_dropped, one_to_five_bits
from captures.damage import one_to_five_bits_and_cut
from captures.sessions import hosted, run

# Each kind, and how its captures begin: the first ones where the session does, in the target's reset state.
KINDS = [(one_bit_dropped, ["--made"]), (one_bit_doubled, ["--made"]), (one_bit_changed, ["--made"]),
         (one_to_five_bits, ["--made"]), (one_to_five_bits, ["--rest"]), (one_to_five_bits_and_cut, [])]
# The greatest share of captures of which `breaks` may be said elsewhere than before a skip: there the damage reads as a
# whole transaction, which no reading can tell.
MOST = 0.01


def asked(swd, words, bits):
    text = "".join(map(str, bits))
    done = subprocess.run([swd, *words], input=text, capture_output=True, text=True)
    return done.stdout


def verdict(swd, words, bits):
    """The verdict's first word, and where that is `breaks`, its place."""
    said = asked(swd, ["check", "--resync", *words], bits).split()
    return (said or ["none"])[0], said[1][1:] if said[:1] == ["breaks"] else None


def follows_a_skip(swd, bits, place):
    """Whether a skip is the next part, but for idle cycles, behind the transaction at this place."""
    rows = [row.split() for row in asked(swd, ["decode", "--resync", "--places"], bits).splitlines()]
    behind = [row for row in rows if int(row[0][1:]) > int(place) and row[1] != "idle"]
    return bool(behind) and behind[0][1] == "skip"


def a_verdict(swd, kind, words, taken: Capture):
    word, place = verdict(swd, words, taken.bits)
    if word != "breaks":
        return kind, word, taken
    return kind, "before a skip" if follows_a_skip(swd, taken.bits, place) else "elsewhere", taken


def sessions(rng, swd):
    """Sessions of which, undamaged, the check says `fits`."""
    with tempfile.TemporaryDirectory() as room:
        made = [hosted(rng, False) if number % 2 else run(rng, swd, room) for number in range(SESSIONS)]
    return [session for session in made if verdict(swd, ["--made"], session.bits)[0] == "fits"]


def verdicts(swd, count, seed):
    """Prints what is said by kind; whether no transaction before a skip breaks a rule, and few others do."""
    rng = random.Random(seed)
    made = sessions(rng, swd)
    rows = [(*KINDS[number % len(KINDS)], rng.choice(made)) for number in range(count)]
    taken = [(swd, kind.__name__, words, kind(rng, session, made)) for kind, words, session in rows]
    with concurrent.futures.ThreadPoolExecutor(2) as pool:
        said = list(pool.map(lambda row: a_verdict(*row), taken))
    sums = collections.Counter(word for _, word, _ in said)
    for kind in dict.fromkeys(kind.__name__ for kind, _ in KINDS):
        words = collections.Counter(word for name, word, _ in said if name == kind)
        print(f"{kind.replace('_', ' '):28} {dict(words)}")
    for kind, word, capture in said:
        if word == "before a skip":
            print(f"{kind}: breaks before a skip: {''.join(map(str, capture.bits))}")
    print(f"{count} captures of {len(made)} sessions: breaks before a skip {sums['before a skip']}, "
          f"elsewhere {sums['elsewhere']}")
    return len(made) > 0 and not sums["none"] and not sums["before a skip"] and sums["elsewhere"] <= MOST * count
