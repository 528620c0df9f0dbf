"""Sessions whose truth is known: of `swd run` under random plans, and of hosts at a target with overrun detection."""
import os
import re
import subprocess
from dataclasses import dataclass, field

from captures.target import Marks, Target

BASE, WORDS = 0x20000000, 600
ACKS = {(1, 0, 0): "ok", (0, 1, 0): "wait", (0, 0, 1): "fault"}
OPENING = [(0, 1, 0, 0), (0, 0, 0, 0x1E), (0, 0, 8, 0), (0, 0, 4, 0x50000000), (0, 1, 4, 0), (1, 0, 0, 0x23000012),
           (1, 1, 0, 0), (0, 1, 12, 0)]


@dataclass
class Session:
    """Bits, the transactions that were sent (place, length, line), whether overrun detection is used, the target's
    log."""
    bits: list
    truth: list
    over: bool
    log: list = field(default_factory=list)


def bits_of(word, count):
    return [word >> n & 1 for n in range(count)]


def number(bits):
    return sum(bit << n for n, bit in enumerate(bits))


def line_of(port, reads, address, ack, data):
    name = f"{('dp', 'ap')[port]} {address:x} {('write', 'read')[reads]} {ack}"
    if ack != "ok":
        return name
    right = sum(data[:32]) % 2 == data[32]
    return f"{name if right else name[:-2] + 'bad'} {number(data[:32]):08x}"


class Host:
    """A host that sends what it likes. `switches`: it sets and clears ORUNDETECT, and writes SELECT, in the session."""

    def __init__(self, rng, target, over, switches=False):
        self.rng, self.target, self.over, self.switches = rng, target, over, switches
        self.bits, self.truth, self.on, self.bank = [], [], False, 0
        self.idles = rng.choice([0, 0.1, 0.5])

    def drive(self, bits):
        self.bits += [int(self.target.cycle(bit)) for bit in bits]

    def look(self, count):
        seen = [int(self.target.cycle(None)) for _ in range(count)]
        self.bits += seen
        return seen

    def reset(self):
        self.drive([1] * self.rng.choice([50, 51, 56, 60, 64, 100]) + [0] * self.rng.choice([2, 3, 8, 10]))

    def ask(self, port, reads, address, word=0, wrong=False):
        """One transaction: its acknowledgement."""
        at, asked = len(self.bits), [port, reads, address >> 2 & 1, address >> 3 & 1]
        self.drive([1] + asked + [sum(asked) % 2, 0, 1])
        ack, data = ACKS.get(tuple(self.look(4)[1:]), "none"), None
        if ack == "ok" or ack != "none" and self.on:
            if reads:
                data = self.look(34)[:33]
            else:
                data = bits_of(word, 32) + [sum(bits_of(word, 32)) % 2 ^ wrong]
                self.look(1)
                self.drive(data)
        elif ack != "none":
            self.look(1)
        self.truth.append((at, len(self.bits) - at, line_of(port, reads, address, ack, data)))
        if ack == "ok" and not port and not reads and not wrong:
            self.bank = word & 15 if address == 8 else self.bank
            if address == 4 and self.bank == 0:
                self.on = self.over and word & 1 == 1
        if self.rng.random() < self.idles:
            self.drive([0] * self.rng.choice([1, 2, 3, 4, 8, 8, 12, 50, 200]))
        return ack

    def open(self):
        """Opens the target; whether it answers."""
        self.reset()
        if self.rng.random() < 0.7:
            self.drive([1] * 50 + bits_of(0xE79E, 16))
            self.reset()
        for port, reads, address, word in OPENING:
            if (port, reads, address) == (0, 0, 4):
                word |= self.over
            if self.good(port, reads, address, word, again=False) == "none":
                return False
        return True

    def good(self, port, reads, address, word=0, wrong=False, again=True):
        """A transaction, repeated after WAIT. FAULT clears the flags; a lost acknowledgement begins all anew."""
        for _ in range(40):
            ack = self.ask(port, reads, address, word, wrong)
            if ack == "wait" and self.on and self.rng.random() < 0.7:
                self.ask(0, 0, 0, 0x1E)
            if ack != "wait":
                break
        if ack == "fault":
            if self.rng.random() < 0.7:
                self.ask(0, 1, 4)
            self.ask(0, 0, 0, 0x1E)
        if ack == "none" and again:
            pick = self.rng.random()
            if pick < 0.15:
                self.drive([self.rng.getrandbits(1) for _ in range(self.rng.randrange(1, 60))])
            elif pick < 0.3:
                self.drive([0] * self.rng.randrange(1, 40))
            any(self.open() for _ in range(5))
        return ack

    def word(self):
        rng = self.rng
        sparse = rng.getrandbits(32) & rng.getrandbits(32)
        return rng.choice([rng.getrandbits(32), sparse, rng.randrange(65536), 0, 1, 0xFFFFFFFF])

    def block(self, reads):
        address = BASE + 4 * self.rng.randrange(WORDS)
        if self.rng.random() < 0.07:
            address = self.rng.choice([0x10000000, BASE + 4 * WORDS])
        self.good(1, 0, 4, address)
        for _ in range(self.rng.randrange(1, 25)):
            self.good(1, reads, 12, 0 if reads else self.word())
        self.good(0, 1, 12)

    def switch(self):
        if self.rng.random() < 0.5:
            self.good(0, 0, 4, 0x50000000 | self.rng.getrandbits(1))
            return
        self.good(0, 0, 8, 1)
        self.good(0, 0, 4, self.rng.getrandbits(10))
        self.good(0, 0, 8, 0)

    def step(self):
        rng, pick = self.rng, self.rng.random()
        if self.switches and pick < 0.3:
            self.switch()
        elif pick < 0.4:
            self.block(0)
        elif pick < 0.65:
            self.block(1)
        elif pick < 0.72:
            self.good(0, 1, 4)
        elif pick < 0.77:
            self.good(0, 0, 8, rng.choice([0, 0, 0x10, 0xF0, 0x01000000]))
            self.good(1, 1, 12)
            self.good(0, 0, 8, 0)
        elif pick < 0.82:
            self.good(1, 0, 0, rng.choice([0x23000012, 0x23000002]))
        elif pick < 0.86:
            self.good(1, 0, 12, self.word(), wrong=True)
        elif pick < 0.9:
            self.reset()
            self.good(0, 1, 0)
        elif pick < 0.93:
            self.drive([0] * rng.randrange(1, 300))
        else:
            self.good(rng.randrange(2), 1, rng.choice([0, 4, 8, 12]))


def hosted(rng, over, switches=False, count=None, mutes=False):
    """A session of such a host at a target of Python. `mutes`: acknowledgements are damaged, too."""
    wait, flip, deaf = rng.choice([0, 0.03, 0.2]), rng.choice([0, 0.02]), rng.choice([0, 0, 0.01])
    marks = Marks(rng, wait, flip, deaf, rng.choice([0, 0, 0.01 * mutes]))
    late, filler = rng.choice([False, True, "wait"]), rng.choice([0, 0xFFFFFFFF])
    target = Target(BASE, WORDS, marks, over, late, rng.random() < 0.5, filler)
    host = Host(rng, target, over, switches)
    any(host.open() for _ in range(5))
    wanted = count or rng.choice([40, 120, 250])
    while len(host.truth) < wanted:
        host.step()
    target.complete()
    return Session(host.bits, host.truth, over, target.log)


def run(rng, swd, room):
    """A session of `swd run` under a plan of WAIT and corrupted data; its trace as it is listed is the truth."""
    script, plan = [f"memory {BASE:x} 2048"], []
    while len(script) < 120:
        addr = BASE + 4 * rng.randrange(2040)
        lines = [f"r {addr:x}", f"w {addr:x} {rng.getrandbits(32):x}", f"rn {addr:x} {rng.randrange(1, 8)}"]
        script.append(rng.choice(lines))
    chance = rng.choice([0, 0.02, 0.08, 0.2])
    for _ in range(600):
        plan.append("." if rng.random() > chance else rng.choice(["wait", "wait", f"flip {rng.randrange(33)}"]))
    for name, rows in (("script", script), ("plan", plan)):
        with open(os.path.join(room, name), "w", encoding="ascii") as file:
            file.write("\n".join(rows) + "\n")
    words = [swd, "run", f"{room}/script", "--plan", f"{room}/plan", "--tries", "100", "--trace", f"{room}/trace"]
    done = subprocess.run(words, capture_output=True, text=True)
    assert done.returncode in (0, 1), done.stderr
    with open(os.path.join(room, "trace"), encoding="ascii") as file:
        bits = re.sub("[^01]", "", file.read())
    listed = subprocess.run([swd, "decode", "--places"], input=bits, capture_output=True, text=True, check=True).stdout
    truth = []
    for row in listed.splitlines():
        place, *words = row.split()
        if words[0] in ("dp", "ap"):
            length = {"ok": 46, "bad": 46, "none": 12}.get(words[3], 13)
            truth.append((int(place[1:]), length, " ".join(words[:4] if words[3] == "none" else words)))
    return Session([int(bit) for bit in bits], truth, False)
