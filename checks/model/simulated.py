"""`swd probe`, and random packets for it.

A packet is refused whose commands are cut off, or whose reply might be longer than a packet.
"""

from __future__ import annotations

import os
import random
import struct
import subprocess

TRANSFER, BLOCK, EXECUTE = 0x05, 0x06, 0x7F
LENGTHS = {0x00: (2, 8), 0x01: (3, 2), 0x02: (2, 2), 0x03: (1, 2), 0x04: (6, 2), 0x07: (1, 0), 0x08: (6, 2),
           0x09: (3, 2), 0x0A: (1, 3), 0x10: (7, 2), 0x11: (5, 2), 0x13: (2, 2)}  # fmt: skip


class SimulatedProbe:
    """`swd probe` behind two fifos: packets go there, and replies come back."""

    def __init__(self, swd: str, words: list[str], room: str) -> None:
        self.there, self.back = f"{room}/there", f"{room}/back"
        os.mkfifo(self.there)
        os.mkfifo(self.back)
        command = 'exec "$0" probe "$@" <"$there" >"$back"'
        names = {**os.environ, "there": self.there, "back": self.back}
        self.process = subprocess.Popen(["sh", "-c", command, swd, *words], env=names, stderr=subprocess.DEVNULL)
        self.to = self.of = None
        self.status: int | None = None

    def connect(self) -> None:
        """Opens both ends for `take`."""
        self.to = open(self.there, "wb", buffering=0)
        self.of = open(self.back, "rb")

    def take(self, packet: bytes) -> bytes:
        """The reply to a packet."""
        self.to.write(struct.pack("<H", len(packet)) + packet)
        head = self.of.read(2)
        if len(head) < 2:
            raise OSError("swd probe ended")
        (length,) = struct.unpack("<H", head)
        return self.of.read(length)

    def __enter__(self) -> SimulatedProbe:
        return self

    def __exit__(self, *_: object) -> None:
        for end in (self.to, self.of):
            if end is not None:
                end.close()
        try:
            self.status = self.process.wait(100)
        finally:
            self.process.kill()


def shape(packet: bytes) -> tuple[int, int]:
    """How many bytes a command has, by its own counts, and its reply at most. An IndexError where it is cut off."""
    if packet[0] == 0x12:
        return 2 + ((packet[1] or 256) + 7) // 8, 2
    if packet[0] == TRANSFER:
        at, told = 3, 3
        for _ in range(packet[2]):
            has_word = not packet[at] & 2 or packet[at] & 0x10
            at, told = at + (5 if has_word else 1), told + (0 if has_word else 4)
        return at, told
    if packet[0] == BLOCK:
        count = packet[2] + 256 * packet[3]
        return (5, 4 + 4 * count) if packet[4] & 2 else (5 + 4 * count, 4)
    if packet[0] == 0x1D:
        at, told = 2, 2
        for _ in range(packet[1]):
            count = ((packet[at] & 63 or 64) + 7) // 8
            at, told = (at + 1, told + count) if packet[at] & 0x80 else (at + 1 + count, told)
        return at, told
    return LENGTHS.get(packet[0], (1, 1))


def refuses(packet: bytes, size: int) -> bool:
    """Whether a probe refuses a packet."""
    try:
        length, told = shape(packet)
    except IndexError:
        return True
    return length > len(packet) or told > size


def random_packet(rng: random.Random, number: int, base: int) -> bytes:
    """A packet: at first those that open the port, and then mostly transfers."""
    first = [
        bytes([0x04, 8, *struct.pack("<HH", rng.choice([0, 1, 3]), rng.choice([0, 2]))]),
        bytes([0x12, 136]) + b"\xff" * 7 + b"\x9e\xe7" + b"\xff" * 7 + b"\0",
        bytes([TRANSFER, 0, 1, 0x02]),
        bytes([TRANSFER, 0, 3, 0x08, 0, 0, 0, 0, 0x04, 0, 0, 0, 0x50, 0x06]),
        bytes([TRANSFER, 0, 2, 0x01, 0x12, 0, 0, 0x23, 0x03]),
    ]
    if number < len(first):
        return first[number]
    pick = rng.random()
    if pick < 0.5:
        wanted = [random_request(rng, base) for _ in range(rng.randint(1, 8))]
        return bytes([TRANSFER, 0, len(wanted)]) + b"".join(wanted)
    if pick < 0.7:
        count, code = rng.randint(1, 9), rng.choice([0x0F, 0x0D, 0x0D, 0x0E])
        data = b"" if code & 2 else rng.randbytes(4 * count)
        return bytes([BLOCK, 0, *struct.pack("<H", count), code]) + data
    return rng.choice([
        bytes([0x08, 0, 0x1E, 0, 0, 0]),
        bytes([0x04, rng.randint(0, 20), *struct.pack("<HH", rng.randint(0, 3), rng.randint(0, 3))]),
        bytes([0x13, 0]),
        bytes([0x00, rng.choice([0xF0, 0xFE, 0xFF])]),
        bytes([0x1D, 2, 0x88, 0x08, 0xFF]),
        bytes([0x02, rng.randint(0, 2)]),
        bytes([0x77]),
    ])  # fmt: skip


def random_request(rng: random.Random, base: int) -> bytes:
    """A request of DAP_Transfer."""
    word = struct.pack("<I", base + 4 * rng.randrange(20))
    return rng.choice([
        b"\x05" + word,
        b"\x0d" + rng.randbytes(4),
        b"\x0f",
        b"\x0f",
        b"\x0e",
        b"\x06",
        b"\x00\x1e\0\0\0",
        b"\x1f" + rng.randbytes(4),
        b"\x20" + rng.choice([b"\0\0\0\0", b"\xff\0\0\0"]),
        b"\x16\0\0\0\0",
    ])  # fmt: skip
