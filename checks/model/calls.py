"""Random calls of accesses, each write with a word of its own, and images; and their scripts."""

from .host import Access

BASE, WORDS, BEHIND = 0x20000000, 320, 0x30000000


def is_block(call):
    return len(call) > 1 and call == [Access(call[0].addr + 4 * place) for place in range(len(call))]


def script_of(calls):
    """The script of these calls."""
    texts = []
    for call in calls:
        if is_block(call):
            texts.append(f"block {call[0].addr:08x} {len(call)}\n")
        else:
            lines = (f"r {it.addr:08x}\n" if it.read else f"w {it.addr:08x} {it.word:08x}\n" for it in call)
            texts.append("".join(lines))
    return f"memory {BASE:x} 1\n" + "next\n".join(texts)


def random_calls(rng, errors, longest=7):
    """Calls of accesses: reads, blocks, and writes that are next to each other, also across the end of a kilobyte. Up
    to `longest` writes are in a row, and blocks are nearly as long."""
    calls, call, number = [], [], 0
    for _ in range(rng.randint(2, 5)):
        at = BASE + 4 * rng.choice([rng.randrange(40), rng.randrange(240, 270)])
        if errors and rng.random() < 0.35:
            at = rng.choice([BEHIND, BASE + 4 * (WORDS - rng.randint(1, 4)), BASE + 4 * rng.randrange(8)])
        pick = rng.random()
        if pick < 0.65:
            for place in range(rng.randint(1, longest)):
                number += 1
                call.append(Access(at + 4 * place, 0x11000000 + 0x10001 * number))
        elif pick < 0.9:
            call += [Access(at + 4 * place) for place in range(rng.randint(1, 3))]
        else:
            calls += [call, [Access(at + 4 * place) for place in range(rng.randint(2, longest - 2))]]
            call = []
        if rng.random() < 0.2:
            calls.append(call)
            call = []
    return [it for it in [*calls, call] if it]


def image(rng):
    """The address and the bytes of an image of two words or more, and the accesses of its load into zeros: a call for
    each word of which it has a part, and one of the writes."""
    at, count = BASE + 4 * rng.randrange(WORDS - 40), rng.randint(2, 30)
    data = b"".join((0x51000000 + 0x10001 * number).to_bytes(4, "little") for number in range(1, count + 1))
    before, behind = rng.choice([0, 0, 1, 2]), rng.choice([0, 0, 1, 2])
    whole = bytes(before) + data[before : len(data) - behind] + bytes(behind)
    calls = [[Access(at)]] * (before > 0) + [[Access(at + 4 * count - 4)]] * (behind > 0)
    words = [int.from_bytes(whole[place : place + 4], "little") for place in range(0, len(whole), 4)]
    calls.append([Access(at + 4 * place, word) for place, word in enumerate(words)])
    return at + before, data[before : len(data) - behind], calls
