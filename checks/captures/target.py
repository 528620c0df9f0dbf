"""A clocked target with overrun detection, which `swd target` hasn't: of IHI 0031, B4 and B2, as far as a debugger sees
it.

`Target.cycle(drive)` is one clock: `drive` is the host's bit, or None where the host leaves the line alone. The answer
is the level of the line.
"""
OK, WAIT, FAULT = 1, 2, 4
IDLE, REQUEST, LOST, RESET, TURN, ACK, READ, READ_TURN, WRITE_TURN, WRITE, PASS = range(11)
POWER = 1 << 28 | 1 << 30
ORUNDETECT, ABORT_FLAGS = 1, {"sticky_error": 4, "write_error": 8, "sticky_overrun": 16}


def odd(word):
    return bin(word).count("1") & 1


class Marks:
    """What happens to requests: each is answered WAIT, or has a bit of its data changed, or isn't heard, with these
    chances."""

    def __init__(self, rng, wait=0.0, flip=0.0, deaf=0.0, mute=0.0):
        self.rng, self.chances = rng, (("wait", wait), ("flip", flip), ("deaf", deaf), ("mute", mute))

    def next(self):
        pick = self.rng.random()
        for kind, chance in self.chances:
            if pick < chance:
                return kind, self.rng.randrange({"flip": 33, "mute": 3}.get(kind, 1))
            pick -= chance
        return None, 0


class Target:
    """`log` has the transfers that took effect: the place of the request, `r` or `w`, the address and the word."""

    def __init__(self, base, words, marks, overrun=True, late=False, wraps=True, filler=0):
        self.base, self.memory, self.marks = base, [0] * words, marks
        self.has_overrun, self.late, self.wraps, self.filler = overrun, late, wraps, filler
        self.log, self.cycles, self.asked_at, self.begun_at = [], 0, 0, 0
        self.fresh = self.live = False
        self.sticky_error = self.write_error = self.sticky_overrun = self.read_ok = False
        self.control = self.select = self.tar = 0
        self.increments, self.buffer, self.returned, self.pending = False, None, None, None
        self.phase, self.count, self.shift, self.ones = IDLE, 0, 0, 0
        self.kind, self.bit, self.word, self.request, self.answer, self.seen = None, 0, 0, None, OK, OK

    # ---- the wire

    def cycle(self, drive):
        self.cycles += 1
        if self.phase == ACK:
            return self.acknowledge()
        if self.phase == READ:
            level = self.word >> self.count & 1
            self.count += 1
            if self.count == 33:
                self.phase = READ_TURN
            return level
        level = 1 if drive is None else int(drive)
        if self.phase in (IDLE, REQUEST, LOST, RESET):
            self.listen(level)
        elif self.phase == WRITE:
            self.shift |= level << self.count
            self.count += 1
            if self.count == 33:
                self.arrive(self.shift)
                self.rest()
        elif self.phase == TURN:
            self.phase, self.count = ACK, 0
        elif self.phase == WRITE_TURN:
            self.phase, self.count, self.shift = WRITE, 0, 0
        elif self.phase == READ_TURN:
            self.rest()
        else:
            self.count -= 1
            if self.count == 0:
                self.rest()
        return level

    def acknowledge(self):
        level = self.seen >> self.count & 1
        self.count += 1
        if self.count == 3:
            self.count = 0
            if self.answer == OK:
                self.phase = READ if self.request[1] else WRITE_TURN
            else:
                self.phase, self.count = PASS, 34 if self.has_overrun and self.control & ORUNDETECT else 1
        return level

    def rest(self):
        self.phase, self.count, self.shift, self.ones = IDLE, 0, 0, 0

    def listen(self, level):
        self.ones = self.ones + 1 if level else 0
        if self.ones >= 50:
            self.fresh, self.live, self.phase = True, False, RESET
        elif self.phase == RESET and not level:
            self.phase = IDLE
        elif self.phase == IDLE and level:
            self.phase, self.count, self.shift = REQUEST, 1, 1
        elif self.phase == REQUEST:
            self.shift |= level << self.count
            self.count += 1
            if self.count == 8:
                self.ask(self.shift)

    def ask(self, byte):
        port, reads, low, high, parity = (byte >> n & 1 for n in range(1, 6))
        self.asked_at = self.cycles - 8
        if port ^ reads ^ low ^ high != parity or byte & 0x40 or not byte & 0x80:
            self.phase = LOST
            return
        self.request = port, reads, 4 * low + 8 * high
        self.kind, self.bit = self.marks.next()
        answer = None if self.kind == "deaf" else self.answered()
        if answer is None:
            self.phase = LOST
            return
        self.answer, self.phase = answer, TURN
        self.seen = answer ^ (1 << self.bit) if self.kind == "mute" else answer
        if answer == OK and reads:
            word = self.read()
            self.word = (word | odd(word) << 32) ^ (1 << self.bit if self.kind == "flip" else 0)

    # ---- the port

    def is_exempt(self):
        port, reads, address = self.request
        return not port and (address == 0 or bool(reads) and address == 4 and self.select & 15 == 0)

    def answered(self):
        port, reads, address = self.request
        if self.fresh:
            if port or not reads or address:
                return None
            self.fresh, self.live = False, True
            return OK
        if not self.live:
            return None
        if self.is_exempt():
            return OK
        unpowered = port and not self.control & 1 << 28
        refused = self.sticky_error or self.write_error or self.sticky_overrun or unpowered
        if self.kind == "wait" and not refused:
            if self.late == "wait":
                self.complete()
            self.sticky_overrun = bool(self.has_overrun and self.control & ORUNDETECT)
            return WAIT
        self.complete()
        if self.sticky_error or self.write_error or self.sticky_overrun or unpowered:
            self.sticky_error = bool(self.sticky_error or unpowered)
            return FAULT
        return OK

    def read(self):
        port, _, address = self.request
        if not port and address == 0:
            return 0x2BA01477
        if not port and address == 4:
            return self.status() if self.select & 15 == 0 else 0
        if not port and address == 8:
            return self.filler if self.returned is None else self.returned
        value = self.filler if self.buffer is None else self.buffer
        self.returned, self.read_ok, self.buffer = value, True, None
        if port:
            self.post(address)
        return value

    def status(self):
        flags = self.sticky_overrun << 1 | self.sticky_error << 5 | self.read_ok << 6 | self.write_error << 7
        return self.control | (self.control & POWER) << 1 | flags

    def post(self, address):
        """What an AP read leaves for the next one."""
        if self.select & 0xFF0000F0:
            self.buffer = 0
        elif address == 12:
            self.pending, self.begun_at = ("r", None), self.asked_at
            if not self.late:
                self.complete()
        else:
            self.buffer = {0: 0x42 | self.increments << 4, 4: self.tar}.get(address, 0)

    def arrive(self, bits):
        """The data of a write."""
        bits ^= 1 << self.bit if self.kind == "flip" else 0
        word, (port, _, address) = bits & 0xFFFFFFFF, self.request
        if odd(word) != bits >> 32:
            self.write_error = True
        elif port:
            self.buffer = self.returned = None
            if not self.select & 0xFF0000F0:
                self.write(address, word)
        elif address == 0:
            for flag, bit in ABORT_FLAGS.items():
                if word & bit:
                    setattr(self, flag, False)
        elif address == 4 and self.select & 15 == 0:
            self.control = word & (POWER | (ORUNDETECT if self.has_overrun else 0))
        elif address == 8:
            self.select = word & 0xFF0000FF

    def write(self, address, word):
        if address == 0:
            self.increments = word >> 4 & 3 == 1
        elif address == 4:
            self.tar = word
        elif address == 12:
            self.pending, self.begun_at = ("w", word), self.asked_at
            if not self.late:
                self.complete()

    def complete(self):
        """The pending transfer takes effect, or meets a bus error."""
        if self.pending is None:
            return
        (kind, word), self.pending = self.pending, None
        index = self.tar - self.base >> 2
        if self.tar % 4 or not 0 <= index < len(self.memory):
            self.sticky_error, self.buffer = True, None
            return
        if kind == "r":
            word = self.buffer = self.memory[index]
        else:
            self.memory[index] = word
        self.log.append((self.begun_at, kind, self.tar, word))
        if self.increments:
            ends = self.tar & 1020 == 1020 and self.wraps
            self.tar = self.tar & ~1023 if ends else self.tar + 4 & 0xFFFFFFFF
