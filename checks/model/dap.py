"""A CMSIS-DAP probe before a line: each command packet is answered, as the protocol's description has it.

A line has `cycle(drive)`, one clock, in which the probe drives 0, 1 or None, and which returns the level; and
`drives()`, whether the target drives in the next clock. Written from the description of the protocol, apart from `swd`.
"""

from __future__ import annotations

import struct
from collections import Counter
from dataclasses import dataclass
from typing import Optional, Protocol

from .bits import FAULT, OK, WAIT, WORD, data_bits, word_of
from .line import MarkedPins

DAMAGED, MISMATCH = 8, 16  # VALUE of a transfer: data with wrong parity; a word that never matched
RDBUFF = 0x0E
TEXTS = {1: b"swd\0", 2: b"simulated CMSIS-DAP probe\0", 3: b"SIM0001\0", 4: b"1.2.0\0"}
TRANSFER, SEQUENCE, UNKNOWN = 0x05, 0x1D, 0xFF


class Cycles(Protocol):
    def cycle(self, drive: Optional[int]) -> int: ...
    def drives(self) -> bool: ...


class PinsLine:
    """A line to the pins of a simulated target."""

    def __init__(self, pins: MarkedPins) -> None:
        self.pins = pins

    def cycle(self, drive: Optional[int]) -> int:
        level = self.pins.level() if drive is None else drive
        self.pins.clock(level)
        return level

    def drives(self) -> bool:
        return bool(self.pins.driven) and self.pins.driven[0] is not None


@dataclass(frozen=True, slots=True)
class Asked:
    """A request of a transfer: its byte, and the word behind it."""

    code: int
    word: int = 0

    @property
    def of_ap(self) -> bool:
        return bool(self.code & 1)

    @property
    def reads(self) -> bool:
        return bool(self.code & 2)

    @property
    def matches(self) -> bool:
        """Whether the word read is compared, or is written as the mask of comparisons."""
        return bool(self.code & (0x10 if self.reads else 0x20))


class Probe:
    """`take` answers a packet. `clashes` counts the clocks in which probe and target drove."""

    def __init__(self, line: Cycles, size: int = 64, in_flight: int = 1, sequences: bool = True) -> None:
        self.line, self.size, self.in_flight = line, size, in_flight
        self.idle = self.repeats = self.compares = self.mask = 0
        self.turn, self.has_data_phase, self.level = 1, False, 1
        self.clocks = self.clashes = self.transactions = 0
        self.commands: Counter[int] = Counter()
        self.performers = {
            0x00: self.info, 0x01: lambda _: (b"\x01\0", 3), 0x02: self.connect, 0x03: lambda _: (b"\x03\0", 1),
            0x04: self.configure, 0x05: self.transfer, 0x06: self.block, 0x08: self.write_abort,
            0x09: lambda _: (b"\x09\0", 3), 0x0A: lambda _: (b"\x0a\0\0", 1), 0x10: lambda _: (b"\x10\x83", 7),
            0x11: self.set_clock, 0x12: self.lead, 0x13: self.configure_wire,
        }  # fmt: skip
        if sequences:
            self.performers[SEQUENCE] = self.sequences

    # ---- the wire

    def clock(self, drive: Optional[int]) -> int:
        self.clocks += 1
        self.clashes += drive is not None and self.line.drives()
        return self.line.cycle(drive)

    def drive(self, bits: int, count: int) -> None:
        for place in range(count):
            self.clock(bits >> place & 1)

    def sample(self, count: int) -> int:
        return sum(self.clock(None) << place for place in range(count))

    def transaction(self, code: int, word: int = 0) -> tuple[int, int]:
        """One transaction: VALUE, and the word that was read."""
        self.transactions += 1
        four = code & 15
        self.drive(0x81 | four << 1 | (bin(four).count("1") & 1) << 5, 8)
        self.sample(self.turn)
        ack = self.sample(3)
        if ack == OK:
            return self.data_phase(four, word)
        if ack not in (WAIT, FAULT):
            self.sample(33 + self.turn)
        elif self.has_data_phase and four & 2:
            self.sample(33 + self.turn)
        else:
            self.sample(self.turn)
            self.drive(0, 33 * self.has_data_phase)
        return ack, 0

    def data_phase(self, four: int, word: int) -> tuple[int, int]:
        read, value = 0, OK
        if four & 2:
            bits = self.sample(33)
            read, value = bits & WORD, DAMAGED if word_of(bits) is None else OK
            self.sample(self.turn)
        else:
            self.sample(self.turn)
            self.drive(data_bits(word), 33)
        self.drive(0, self.idle)
        return value, read

    def repeated(self, code: int, word: int = 0) -> tuple[int, int]:
        """A transaction that is repeated while it is answered WAIT, as often as the probe does."""
        for _ in range(self.repeats):
            value, read = self.transaction(code, word)
            if value != WAIT:
                return value, read
        return self.transaction(code, word)

    # ---- packets

    def take(self, packet: bytes) -> bytes:
        """The reply to a packet, which may be padded."""
        self.commands[packet[0]] += 1
        if packet[0] != 0x7F:
            return self.perform(packet)[0]
        reply, rest = packet[:2], packet[2:]
        for _ in range(packet[1]):
            more, used = self.perform(rest)
            reply, rest = reply + more, rest[used:]
        return reply

    def perform(self, packet: bytes) -> tuple[bytes, int]:
        """The reply to a command, and its length. One that is cut off is refused before any clock."""
        try:
            return self.performers.get(packet[0], lambda _: (bytes([UNKNOWN]), 1))(packet)
        except (IndexError, struct.error):
            return bytes([packet[0], 0xFF]), len(packet)

    def info(self, packet: bytes) -> tuple[bytes, int]:
        numbers = {0xF0: b"\x11", 0xFE: bytes([self.in_flight]), 0xFF: struct.pack("<H", self.size)}
        found = TEXTS.get(packet[1], numbers.get(packet[1], b""))
        return bytes([0, len(found)]) + found, 2

    def connect(self, packet: bytes) -> tuple[bytes, int]:
        return bytes([2, packet[1] <= 1]), 2

    def configure(self, packet: bytes) -> tuple[bytes, int]:
        self.idle, self.repeats, self.compares = struct.unpack("<BHH", packet[1:6])
        return b"\x04\0", 6

    def set_clock(self, packet: bytes) -> tuple[bytes, int]:
        (hertz,) = struct.unpack("<I", packet[1:5])
        return bytes([0x11, 0 if hertz else 0xFF]), 5

    def configure_wire(self, packet: bytes) -> tuple[bytes, int]:
        self.turn, self.has_data_phase = 1 + (packet[1] & 3), bool(packet[1] & 4)
        return b"\x13\0", 2

    def write_abort(self, packet: bytes) -> tuple[bytes, int]:
        (word,) = struct.unpack("<I", packet[2:6])
        self.transaction(0, word)
        return b"\x08\0", 6

    # ---- sequences

    def lead(self, packet: bytes) -> tuple[bytes, int]:
        count = packet[1] or 256
        bits, used = piece(packet, 2, count)
        self.drive(bits, count)
        return b"\x12\0", used

    def sequences(self, packet: bytes) -> tuple[bytes, int]:
        at, wanted = 2, []
        for _ in range(packet[1]):
            info, count = packet[at], packet[at] & 63 or 64
            bits, at = (None, at + 1) if info & 0x80 else piece(packet, at + 1, count)
            wanted.append((count, bits))
        reply = b"\x1d\0"
        for count, bits in wanted:
            if bits is None:
                reply += self.sample(count).to_bytes((count + 7) // 8, "little")
            else:
                self.drive(bits, count)
        return reply, at

    # ---- transfers

    def transfer(self, packet: bytes) -> tuple[bytes, int]:
        at, wanted = 3, []
        for _ in range(packet[2]):
            it, at = Asked(packet[at]), at + 1
            if not it.reads or it.matches:
                it, at = Asked(it.code, *struct.unpack("<I", packet[at : at + 4])), at + 4
            wanted.append(it)
        done, value, words = self.transfers(wanted)
        return bytes([TRANSFER, done, value]) + b"".join(struct.pack("<I", it) for it in words), at

    def transfers(self, wanted: list[Asked]) -> tuple[int, int, list[int]]:
        """How many of these requests were done, VALUE, and the words read."""
        words: list[int] = []
        value, is_posted, is_sure = OK, False, True
        for done, it in enumerate(wanted):
            if is_posted and not (it.of_ap and it.reads and not it.matches):
                value, word = self.repeated(RDBUFF)
                is_posted = False
                if value != OK:
                    return done, value, words
                words.append(word)
            value, word = self.one(it)
            if value != OK:
                return done, value, words
            if it.reads and not it.matches and (is_posted or not it.of_ap):
                words.append(word)
            is_posted = it.reads and it.of_ap and not it.matches
            is_sure = it.reads or (it.matches and is_sure)
        if is_posted or not is_sure:
            value, word = self.repeated(RDBUFF)
            if is_posted and value == OK:
                words.append(word)
        return len(wanted), value, words

    def one(self, it: Asked) -> tuple[int, int]:
        if it.matches and it.reads:
            return self.compared(it)
        if it.matches:
            self.mask = it.word
            return OK, 0
        return self.repeated(it.code, it.word)

    def compared(self, it: Asked) -> tuple[int, int]:
        """Reads until a word matches. That of an AP comes with the read behind it."""
        value, word = self.repeated(it.code) if it.of_ap else (OK, 0)
        for _ in range(self.compares + 1):
            if value == OK:
                value, word = self.repeated(it.code)
            if value != OK or word & self.mask == it.word:
                return value, word
        return value | MISMATCH, word

    def block(self, packet: bytes) -> tuple[bytes, int]:
        count, code = struct.unpack("<HB", packet[2:5])
        if code & 2:
            done, value, words = self.block_read(code, count)
            used = 5
        else:
            done, value = self.block_written(code, struct.unpack(f"<{count}I", packet[5 : 5 + 4 * count]))
            words, used = [], 5 + 4 * count
        return struct.pack("<BHB", 6, done, value) + b"".join(struct.pack("<I", it) for it in words), used

    def block_read(self, code: int, count: int) -> tuple[int, int, list[int]]:
        words: list[int] = []
        value, word = self.repeated(code) if code & 1 and count else (OK, 0)
        while value == OK and len(words) < count:
            is_last = code & 1 and len(words) == count - 1
            value, word = self.repeated(RDBUFF if is_last else code)
            if value == OK:
                words.append(word)
        return len(words), value, words

    def block_written(self, code: int, words: tuple[int, ...]) -> tuple[int, int]:
        for done, word in enumerate(words):
            value, _ = self.repeated(code, word)
            if value != OK:
                return done, value
        return len(words), self.repeated(RDBUFF)[0] if words else OK


def piece(packet: bytes, at: int, count: int) -> tuple[int, int]:
    """So many bits from a place of a packet, and the place behind them."""
    end = at + (count + 7) // 8
    if len(packet) < end:
        raise IndexError(at)
    return int.from_bytes(packet[at:end], "little"), end
