"""Twenty-one kinds of captures, and what is found, missed and invented in them.

A kind makes of a session a `Capture`: its bits, of each of them the place in the session (CHANGED + the place for a bit
that was changed, ADDED for one that isn't the session's), the session's transactions, and by how many bits a place may
differ (a bit that is dropped from a run of equal ones has no place of its own).
"""
import os
import random
import subprocess
import tempfile
from dataclasses import dataclass

from captures import openocd
from captures.reading import TRANSACTIONS, read
from captures.sessions import hosted, run

CHANGED, ADDED, OTHER_SESSION = 10**8, -1, 10**7
CAPTURES, SESSIONS = 300, 40
# The greatest shares of what is missed and what is invented, of the untouched transactions: plain, with overrun
# detection, and of OpenOCD, which repeats requests that nobody answers, each with a data phase: there a stretch ends.
MOST = {"plain": (0.004, 0.001), "overrun": (0.008, 0.0025), "openocd": (0.04, 0.004)}


@dataclass
class Capture:
    bits: list
    origins: list
    truth: list
    slack: int = 0


# ---- damage

def window(rng, session, length, start=None):
    begin = rng.randrange(max(1, len(session.bits) - 1500)) if start is None else start
    bits = session.bits[begin:begin + length]
    return Capture(list(bits), list(range(begin, begin + len(bits))), session.truth)


def drop(rng, taken):
    at = rng.randrange(len(taken.bits))
    del taken.bits[at], taken.origins[at]
    taken.slack = 1


def double(rng, taken):
    at = rng.randrange(len(taken.bits))
    taken.bits.insert(at, taken.bits[at])
    taken.origins.insert(at, ADDED)
    taken.slack = 1


def change(rng, taken):
    at = rng.randrange(len(taken.bits))
    taken.bits[at] ^= 1
    if 0 <= taken.origins[at] < CHANGED:
        taken.origins[at] += CHANGED


def insert(taken, at, bits, instead=0):
    taken.bits[at:at + instead] = bits
    taken.origins[at:at + instead] = [ADDED] * len(bits)


def turnarounds(line, length):
    return ([8, 45] if " read " in line else [8, 12]) if length == 46 else [8, 12][:1 + (length == 13)]


def as_recorded(rng, session, others):
    return window(rng, session, 6000, 0)


def begins_anywhere(rng, session, others):
    return window(rng, session, rng.choice([1500, 4000, 8000]))


def one_bit_dropped(rng, session, others):
    taken = window(rng, session, 4000, 0)
    drop(rng, taken)
    return taken


def one_bit_doubled(rng, session, others):
    taken = window(rng, session, 4000, 0)
    double(rng, taken)
    return taken


def one_bit_changed(rng, session, others):
    taken = window(rng, session, 4000, 0)
    change(rng, taken)
    return taken


def several(rng, taken):
    taken.slack = 1
    for _ in range(rng.randrange(1, 6)):
        rng.choice([drop, double, change])(rng, taken)
    return taken


def one_to_five_bits(rng, session, others):
    return several(rng, window(rng, session, 4000, 0))


def one_to_five_bits_and_cut(rng, session, others):
    return several(rng, window(rng, session, 4000))


def bursts_of_noise(rng, session, others):
    taken = window(rng, session, 4000, 0)
    for _ in range(rng.randrange(1, 4)):
        noise = [rng.getrandbits(1) for _ in range(rng.randrange(5, 80))]
        at = rng.randrange(len(taken.bits))
        insert(taken, at, noise, min(len(noise), len(taken.bits) - at) if rng.random() < 0.5 else 0)
    return taken


def glitches_of_the_clock(rng, session, others):
    taken = window(rng, session, 4000, 0)
    taken.slack = 1
    for _ in range(rng.randrange(1, 6)):
        at = rng.randrange(len(taken.bits) - 1)
        insert(taken, at, [rng.choice(taken.bits[at:at + 2])] * rng.randrange(1, 4))
    return taken


def random_turnarounds(rng, session, others):
    taken = window(rng, session, 4000)
    places = {origin: at for at, origin in enumerate(taken.origins)}
    for place, length, line in session.truth:
        for turn in turnarounds(line, length) if place in places and place + length - 1 in places else []:
            taken.bits[places[place + turn]] = rng.getrandbits(1)
    return taken


def turnarounds_of_two_clocks(rng, session, others):
    taken = window(rng, session, 4000, 0)
    ends = [place + turn for place, length, line in session.truth if place + length <= len(taken.bits)
            for turn in turnarounds(line, length)]
    for at in sorted(ends, reverse=True):
        insert(taken, at, [1])
    return taken


def two_spliced(rng, session, others):
    first, second = window(rng, session, 2500), window(rng, rng.choice(others), 2500)
    other = [session for session in others if session.truth is second.truth][0]
    origins = first.origins + [origin + OTHER_SESSION for origin in second.origins]
    truth = session.truth + [(place + OTHER_SESSION, length, line) for place, length, line in other.truth]
    return Capture(first.bits + second.bits, origins, truth)


def clocks_lost_now_and_then(rng, session, others):
    taken = window(rng, session, 6000, 0)
    taken.slack = 1
    for at in range(len(taken.bits) - 1 - rng.randrange(40), 400, -rng.randrange(180, 700)):
        del taken.bits[at], taken.origins[at]
    return taken


def strange(bits):
    bits = list(bits)
    return Capture(bits, [ADDED] * len(bits), [])


def inverted(rng, session, others):
    return strange(1 - bit for bit in window(rng, session, 4000).bits)


def reversed_in_time(rng, session, others):
    return strange(window(rng, session, 4000).bits[::-1])


def swapped(rng, session, others):
    """The clock's level at each rising edge of the data."""
    bits, last, clock, late = [], None, 0, rng.random() * 0.5
    for bit in window(rng, session, 4000).bits:
        for level in (0, 0, 1, 1):
            data = bit if level or last is None or rng.random() > late else last
            if data == 1 and last == 0:
                bits.append(clock)
            last, clock = data, level
    return strange(bits)


def payload(rng):
    kind, count = rng.randrange(4), rng.randrange(300, 500)
    if kind == 0:
        return bytes(rng.getrandbits(8) for _ in range(count))
    if kind == 1:
        return (b"The quick brown fox jumps over the lazy dog. GET /index.html HTTP/1.1\r\n" * 8)[:count]
    if kind == 2:
        return bytes(byte for n in range(count // 3) for byte in (0x9F, rng.choice([0, 0xFF]), n & 255))
    return bytes(rng.choice([0xA5, 0x81, 0xFF, 0, 0x87, 0x9F, 0xBB]) for _ in range(count))


def byte_bits(data, high_first):
    return [byte >> (7 - n if high_first else n) & 1 for byte in data for n in range(8)]


def other_spi(rng, session, others):
    return strange(byte_bits(payload(rng), rng.random() < 0.7))


def other_uart(rng, session, others):
    bits, samples = [], rng.choice([1, 1, 3, 8])
    for byte in payload(rng)[:800 // samples]:
        frame = [0] + byte_bits([byte], False) + [1] * rng.choice([1, 1, 2, 12])
        bits += [bit for bit in frame for _ in range(samples)]
    return strange(bits)


def other_jtag(rng, session, others):
    bits = []
    for _ in range(60):
        count = rng.choice([4, 8, 32, 35])
        data = [1, 1, 1] + byte_bits(payload(rng)[:5], False)[:count] + [1] * 3
        bits += [1, 0, 0] + [0] * (count - 1) + [1, 1, 0] if rng.random() < 0.5 else data
        bits += [0] * rng.choice([0, 0, 4])
    return strange(bits)


def other_i2c(rng, session, others):
    return strange([bit for byte in payload(rng) for bit in byte_bits([byte], True) + [rng.choice([0, 0, 0, 1])]])


def other_random(rng, session, others):
    return strange([rng.getrandbits(1) for _ in range(4000)])


KINDS = (as_recorded, begins_anywhere, one_bit_dropped, one_bit_doubled, one_bit_changed, one_to_five_bits,
         one_to_five_bits_and_cut, bursts_of_noise, glitches_of_the_clock, random_turnarounds,
         turnarounds_of_two_clocks, two_spliced, clocks_lost_now_and_then, inverted, reversed_in_time, swapped,
         other_spi, other_uart, other_jtag, other_i2c, other_random)


# ---- what is found

def touched_and_whole(taken):
    """By place: the transactions that the damage doesn't touch, and those that it does."""
    places = {origin: at for at, origin in enumerate(taken.origins) if 0 <= origin < CHANGED}
    changed = {origin - CHANGED: at for at, origin in enumerate(taken.origins) if origin >= CHANGED}
    whole, touched = {}, {}
    for place, length, line in taken.truth:
        at = places.get(place)
        if at is not None and taken.origins[at:at + length] == list(range(place, place + length)):
            whole[at] = line
            continue
        inner = [places[bit] - (bit - place) for bit in range(place, place + length) if bit in places]
        known = [place for place in (at, changed.get(place), *inner) if place is not None]
        if known:
            touched[known[0]] = line
    return whole, touched


def score(taken, listed, counts=lambda line: True):
    """How many transactions are whole, how many of them are found, and how many are invented, of those that count."""
    whole, touched = touched_and_whole(taken)
    whole = {at: line for at, line in whole.items() if counts(line)}
    listed = {(at, line) for at, line in listed if counts(line)}
    slack = range(-taken.slack, taken.slack + 1)
    near = range(-max(1, taken.slack), max(1, taken.slack) + 1)
    found = sum(any((at + off, line) in listed for off in slack) for at, line in whole.items())
    invented = sum(
        not any(whole.get(at + off) == line for off in slack) and not any(at + off in touched for off in near)
        for at, line in listed
    )
    return len(whole), found, invented


def listing(swd, bits, words):
    """The transactions that the program lists: place and line."""
    text = "".join(map(str, bits))
    command = [swd, "decode", "--places", "--resync", *words]
    done = subprocess.run(command, input=text, capture_output=True, text=True, check=True)
    rows = (row.split() for row in done.stdout.splitlines())
    return {(int(row[0][1:]), " ".join(row[1:5] if row[4] == "none" else row[1:])) for row in rows
            if row[1] in ("dp", "ap")}


def read_here(bits, words):
    """The same by the rules of `reading.py`."""
    parts = read("".join(map(str, bits)), "--overrun" in words)
    return {(part.place, " ".join(part.line.split()[:4]) if part.kind == "none" else part.line)
            for part in parts if part.kind in TRANSACTIONS}


def a_session(rng, number, over, swd, room):
    """Of a host that switches overrun detection every fourth, of `swd run` every fourth of the plain ones."""
    if swd and not over and number % 4 == 0:
        return run(rng, swd, room)
    return hosted(rng, over, over and number % 4 == 3)


def sessions(rng, over, swd):
    with tempfile.TemporaryDirectory() as room:
        return [a_session(rng, number, over, swd, room) for number in range(SESSIONS)]


def of_openocd(rng):
    with tempfile.TemporaryDirectory() as room:
        return [openocd.session(rng, room) for _ in range(SESSIONS)]


def table(seed, with_openocd=False):
    """Prints the table, or that of OpenOCD's sessions; whether enough is found and little enough invented."""
    swd = os.environ.get("SWD")
    good = True
    print(f"{'capture':28} {'overrun':8} {'true':>7} {'found':>7} {'missed':>7} {'invented':>8}")
    for over in (True,) if with_openocd else (False, True):
        rng = random.Random(f"{seed} {over}")
        made = of_openocd(rng) if with_openocd else sessions(rng, over, swd)
        sums = {True: [0, 0, 0], False: [0, 0, 0]}
        for kind in KINDS:
            total = [0, 0, 0]
            for _ in range(CAPTURES):
                taken = kind(rng, rng.choice(made), made)
                listed = listing(swd, taken.bits, []) if swd else read_here(taken.bits, [])
                total = [old + new for old, new in zip(total, score(taken, listed))]
            show(kind.__name__.replace("_", " "), over, total)
            sums[total[0] > 0] = [old + new for old, new in zip(sums[total[0] > 0], total)]
        show("sessions, sum", over, sums[True])
        show("others, sum", over, sums[False])
        most = MOST["openocd" if with_openocd else "overrun" if over else "plain"]
        missed, invented = (share * sums[True][0] for share in most)
        good = good and sums[True][0] - sums[True][1] <= missed and sums[True][2] <= invented
    return good


def show(name, over, total):
    true, found, invented = total
    print(f"{name:28} {'yes' if over else 'no':8} {true:7} {found:7} {true - found:7} {invented:8}", flush=True)
