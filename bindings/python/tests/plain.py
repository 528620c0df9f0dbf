"""What the library is compared with, written from docs/PROTOCOL.md and IHI 0031 alone: a target clock by clock, a plan
of damage for any target, a plain memory, and the reading of a trace. None of it calls the library."""
import swd

MASK = 0xFFFF_FFFF
SWITCH = "0111100111100111"
DPIDR, ABORT, CTRL_STAT, CTRL_STAT_WRITE, RESEND, SELECT, RDBUFF = 0xA5, 0x81, 0x8D, 0xA9, 0x95, 0xB1, 0xBD
CSW, CSW_WRITE, TAR, TAR_READ, DRW, DRW_WRITE = 0x87, 0xA3, 0x8B, 0xAF, 0x9F, 0xBB


def is_request(byte):
    """Start, Park and Stop, and even parity over the four bits and theirs."""
    return byte & 0xC1 == 0x81 and bin(byte >> 1 & 0x1F).count("1") % 2 == 0


def parity(word):
    return bin(word).count("1") % 2


class PlainMemory:
    """Words from a base on, all zero, and a log with room for so many transfers."""

    def __init__(self, base, words, room):
        self.words = {base + 4 * place: 0 for place in range(words)}
        self.log, self.room = [], room

    def transfer(self, addr, word=None):
        """The word that is read, or written; None for a bus error."""
        if addr not in self.words or len(self.log) >= self.room:
            return None
        if word is None:
            self.log.append(("r", addr, self.words[addr]))
            return self.words[addr]
        self.words[addr] = word
        self.log.append(("w", addr, word))
        return word

    def answer(self, access):
        """What an access is answered."""
        if isinstance(access, swd.Read):
            word = self.transfer(access.addr)
            return swd.BusFault() if word is None else swd.Value(word)
        return swd.BusFault() if self.transfer(access.addr, access.word) is None else swd.Written()


class MemoryBus:
    """A plain memory as the bus of the library's target."""

    def __init__(self, memory):
        self.memory = memory

    def read(self, addr):
        word = self.memory.transfer(addr)
        if word is None:
            raise swd.BusError
        return word

    def write(self, addr, word):
        if self.memory.transfer(addr, word) is None:
            raise swd.BusError


class PlainTarget:
    """A debug port with a MEM-AP over a plain memory. Its life is a generator: it yields the level that it drives in
    the next clock, or None, and is sent the level of that clock."""

    def __init__(self, memory):
        self.memory, self.busy = memory, False
        self.answers = "none"
        self.sticky_error = self.write_error = self.read_ok = False
        self.power, self.power_up = 0, "unseen"
        self.select = self.tar = self.buffer = self.last = self.csw = 0
        # How many clocks both ends drove.
        self.contended = 0
        self.life = self._live()
        self.drives = next(self.life)

    def hold(self, busy):
        self.busy = busy

    def cycle(self, drive):
        level = self.drives
        if level is None:
            level = 1 if drive is None else drive
        elif drive is not None:
            self.contended += 1
        self.drives = self.life.send(level)
        return level

    def _live(self):
        while True:
            if not (yield None):
                continue
            byte = 1
            for place in range(1, 8):
                byte |= (yield None) << place
            ack = self._acknowledge(byte) if is_request(byte) else None
            if ack is None:
                yield from self._await_reset(byte)
                continue
            value = self._read(byte) if ack == 1 and byte & 4 else None
            yield None
            for place in range(3):
                yield ack >> place & 1
            if value is not None:
                for place in range(33):
                    yield (value | parity(value) << 32) >> place & 1
                yield None
                continue
            yield None
            if ack == 1:
                yield from self._take_data(byte)

    def _await_reset(self, byte):
        """Fifty ones in a row, and a zero."""
        ones = len(f"{byte:08b}") - len(f"{byte:08b}".lstrip("1"))
        while ones < 50:
            ones = ones + 1 if (yield None) else 0
        self.answers = "dpidr"
        while (yield None):
            pass

    def _take_data(self, byte):
        bits = 0
        for place in range(33):
            bits |= (yield None) << place
        word = bits & MASK
        if parity(word) != bits >> 32:
            self.write_error = True
        else:
            self._write(byte, word)

    def _acknowledge(self, byte):
        if self.answers == "none" or self.answers == "dpidr" and byte != DPIDR:
            return None
        if byte in (DPIDR, ABORT, CTRL_STAT):
            return 1
        access_port = byte & 2
        ack = 2 if self.busy else 1
        if self.sticky_error or self.write_error:
            ack = 4
        if access_port and (not self.power & 1 or self.power_up == "late"):
            self.sticky_error, ack = True, 4
        if ack != 1 and byte & 4 and (access_port or byte == RDBUFF):
            self.read_ok = False
        if ack == 1 and access_port:
            self.power_up = "seen"
        return ack

    def _status(self):
        if self.power_up != "seen":
            self.power_up = "late" if self.busy else "seen"
        acknowledged = 0 if self.power_up == "late" else self.power
        word = self.sticky_error << 5 | self.read_ok << 6 | self.write_error << 7
        for bit, place in ((1, 28), (2, 30)):
            word |= bool(self.power & bit) << place | bool(acknowledged & bit) << place + 1
        return word

    def _read(self, byte):
        if byte == DPIDR:
            self.answers = "all"
            return 0x2BA01477
        if byte == CTRL_STAT:
            return self._status() if self.select & 15 == 0 else 0
        if byte == RESEND:
            return self.last
        word, reached = self.buffer, self.select & 0xFF00_00F0 == 0
        self.last, self.read_ok = word, True
        if byte == RDBUFF:
            self.buffer = 0
        elif not reached:
            self.buffer = 0
        elif byte == CSW:
            self.buffer = self.csw & 0x7F00_0000 | 0x42 | (self.csw >> 4 & 3 == 1) << 4
        elif byte == TAR_READ:
            self.buffer = self.tar
        elif byte == DRW:
            self._transfer(None)
        else:
            self.buffer = 0
        return word

    def _write(self, byte, word):
        if byte == ABORT:
            self.sticky_error = self.sticky_error and not word >> 2 & 1
            self.write_error = self.write_error and not word >> 3 & 1
        elif byte == CTRL_STAT_WRITE and self.select & 15 == 0:
            self.power, self.power_up = word >> 28 & 1 | word >> 29 & 2, "unseen"
        elif byte == SELECT:
            self.select = word
        if not byte & 2:
            return
        self.buffer = self.last = 0
        if self.select & 0xFF00_00F0:
            return
        if byte == CSW_WRITE:
            self.csw = word
        elif byte == TAR:
            self.tar = word
        elif byte == DRW_WRITE:
            self._transfer(word)

    def _transfer(self, word):
        moved = self.memory.transfer(self.tar, word)
        if moved is None:
            self.sticky_error, self.buffer = True, 0
            return
        if word is None:
            self.buffer = moved
        if self.csw >> 4 & 3 == 1:
            self.tar = self.tar & ~1023 | self.tar + 4 & 1023


class Damaged:
    """A line to a target whose requests meet a plan, one mark each: `.`, `wait`, `flip P`, `deaf`, `mute P`. It goes by
    what the host sends and holds back a request's bits until all eight are there. Keeps the calls, and the levels that
    the host sees."""

    def __init__(self, target, plan):
        self.target = target
        self.marks = iter([mark.split() for mark in plan])
        self.calls, self.levels = [], []
        self.life = self._live()
        next(self.life)

    def drive(self, bit):
        self.calls.append(str(bit))
        self.cycle(bit)

    def release(self):
        self.calls.append("-")
        self.cycle(None)

    def sample(self):
        self.calls.append("?")
        return self.cycle(None)

    def cycle(self, drive):
        level = self.life.send(drive)
        self.levels.append(level)
        next(self.life)
        return level

    def _meet(self, drive):
        """A clock that reaches the target as it is."""
        return self.target.cycle(drive)

    def _live(self):
        """Is sent what the host drives, yields what it sees; and yields None before each clock."""
        while True:
            drive = yield
            if drive == 0:
                yield self._meet(0)
                continue
            sent = [drive]
            yield 1
            while len(sent) < 8:
                drive = yield
                sent.append(drive)
                yield 1 if drive is None else drive
            byte = sum((bit != 0) << place for place, bit in enumerate(sent))
            if not is_request(byte):
                yield from self._outside(sent, byte)
                continue
            mark = next(self.marks, ["."])
            if mark[0] == "deaf":
                for _ in range(4):
                    drive = yield
                    yield 1 if drive is None else drive
                continue
            self.target.hold(mark[0] == "wait")
            for bit in sent:
                self._meet(bit)
            yield from self._transact(byte, mark[0], int(mark[1]) if len(mark) > 1 else None)

    def _outside(self, sent, byte):
        """Up to a zero behind fifty ones."""
        ones = 8 - len(f"{byte:08b}".lstrip("1"))
        for bit in sent:
            self._meet(bit)
        while True:
            drive = yield
            level = self._meet(drive)
            yield level
            if not level and ones >= 50:
                return
            ones = ones + 1 if level else 0

    def _transact(self, byte, kind, place):
        drive = yield
        yield self._meet(drive)
        ack = 0
        for at in range(3):
            drive = yield
            level = self._meet(drive)
            ack |= level << at
            yield level ^ (kind == "mute" and place == at)
        if ack == 1 and byte & 4:
            for at in range(33):
                drive = yield
                yield self._meet(drive) ^ (kind == "flip" and place == at)
        drive = yield
        yield self._meet(drive)
        if ack == 1 and not byte & 4:
            for at in range(33):
                drive = yield
                if kind == "flip" and place == at and drive is not None:
                    self._meet(drive ^ 1)
                    yield drive
                else:
                    yield self._meet(drive)


def reading(bits):
    """The listing lines of a trace, by the six cases of docs/PROTOCOL.md."""
    lines, at, lost, behind = [], 0, False, None
    while at < len(bits):
        rest = bits[at:at + 64]
        if rest.startswith("1" * 50):
            end = bits.find("0", at)
            end = len(bits) if end < 0 else end
            line, size, lost = f"reset {end - at}", end - at, False
        elif not lost and behind == "reset" and rest.startswith(SWITCH):
            line, size = "switch", 16
        elif not lost and behind != "switch" and rest[0] == "0":
            end = bits.find("1", at)
            end = len(bits) if end < 0 else end
            line, size = f"idle {end - at}", end - at
        else:
            line, size = (None, 0) if lost or behind == "switch" else _transaction(rest)
            if line and " none " in line:
                lost = True
        if line is None and not lost and _is_beginning(bits[at:at + 50], behind == "switch"):
            line, size = f"cut {bits[at:]}", len(bits) - at
        if line is None:
            line, size, lost = f"junk {bits[at]}", 1, True
        lines.append(line)
        behind = line.split()[0]
        at += size
    return lines


def _request(bits):
    byte = int(bits[7::-1], 2)
    return byte if is_request(byte) else None


def _transaction(bits):
    """The transaction that stands at the front, and its length."""
    byte = _request(bits) if len(bits) >= 12 else None
    if byte is None:
        return None, 0
    ack = int(bits[11:8:-1], 2)
    name = f"{'ap' if byte & 2 else 'dp'} {byte >> 1 & 12:x} {'read' if byte & 4 else 'write'}"
    if ack in (2, 4):
        return (f"{name} {'wait' if ack == 2 else 'fault'}", 13) if len(bits) >= 13 else (None, 0)
    if ack != 1:
        return f"{name} none {ack}", 12
    if len(bits) < 46:
        return None, 0
    data = bits[12:45] if byte & 4 else bits[13:46]
    word = int(data[31::-1], 2)
    return f"{name} {'ok' if parity(word) == int(data[32]) else 'bad'} {word:08x}", 46


def _is_beginning(bits, after_switch):
    """Whether so many bits, at the end of a trace, begin fifty ones or a transaction."""
    if len(bits) >= 50:
        return False
    if set(bits) == {"1"}:
        return True
    if after_switch or bits[0] == "0":
        return False
    requests = [f"{byte:08b}"[::-1] for byte in range(256) if is_request(byte)]
    if len(bits) <= 8:
        return any(request.startswith(bits) for request in requests)
    if _request(bits) is None:
        return False
    if len(bits) < 12:
        return True
    ack = int(bits[11:8:-1], 2)
    return len(bits) < {1: 46, 2: 13, 4: 13}.get(ack, 12)
