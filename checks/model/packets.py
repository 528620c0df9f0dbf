"""Serves a program that is called with --probe: packets between it and a simulated CMSIS-DAP probe.

`Server(probe, ends, chance).run(words, room)` runs the program with these arguments and --probe. `breaches` then says
what the program did that no host may: a packet before the reply to the one before, a packet behind a reply that ends
the connection. A packet of another size, or a report in pieces, is a `Breach` that ends the session.
"""

from __future__ import annotations

import os
import pty
import random
import select
import socket
import subprocess
import time
import tty
from collections.abc import Sized
from dataclasses import dataclass
from typing import Optional

from .dap import TRANSFER, UNKNOWN, Probe

FIRST_SIZE = 64  # of a report, until the probe told its own
MOST_SECONDS = 600
LATE_SECONDS = 0.03
INFO, CONNECT = 0x00, 0x02
PULLED = ("missing", "torn")
SPOILS = ("short", "other", "unknown", "refused", "done", "value", "late", *PULLED)


class Breach(Exception):
    """What no host may do."""


# ---- replies that aren't the probe's


@dataclass(frozen=True)
class Spoil:
    """How a reply is spoiled, and which, from 1 on. At those of PULLED the probe is pulled out."""

    kind: str
    at: int

    def ends(self, command: int) -> bool:
        """Whether the host has to end the connection there."""
        return self.kind != "late" and (command != INFO or self.kind not in ("refused", "done", "value"))

    def reply(self, reply: bytes, chance: random.Random) -> bytes:
        if self.kind in ("short", "torn"):
            return reply[: chance.randrange(1, len(reply))]
        if self.kind == "other":
            return bytes([reply[0] ^ chance.choice([1, 2, 4, 8, 16, 0x80])]) + reply[1:]
        if self.kind == "unknown":
            return bytes([UNKNOWN])
        if self.kind == "late":
            time.sleep(LATE_SECONDS)
            return reply
        return self.impossible(reply, chance)

    def impossible(self, reply: bytes, chance: random.Random) -> bytes:
        """A STATUS that isn't 0, a port that isn't serial wire; of transfers a DONE or a VALUE that can't be."""
        if reply[0] != TRANSFER:
            return bytes([reply[0], 0 if reply[0] in (INFO, CONNECT) else 0xFF]) + reply[2:]
        if self.kind == "done" and reply[2] == 1:
            return bytes([TRANSFER, reply[1] + chance.choice([-1, 1])]) + reply[2:]
        if self.kind == "refused":
            return bytes([TRANSFER, 0xFF]) + reply[2:]
        return reply[:2] + bytes([chance.randrange(9, 256)]) + reply[3:]


# ---- ways of packets


class Fifos:
    """Two fifos: reports of one size, each with its number before it on the way there, or packets behind lengths."""

    def __init__(self, room: str, framed: bool) -> None:
        names = f"{room}/probe-back", f"{room}/probe-there"
        for name in names:
            os.mkfifo(name)
        self.write, self.read = (os.open(name, os.O_RDWR) for name in names)
        self.framed = framed
        self.words = [f"--probe={','.join(names)}"] + ["--framed"] * framed

    def receive(self, size: int) -> bytes:
        if self.framed:
            return self.exactly(checked(int.from_bytes(self.exactly(2), "little"), size))
        return self.report(os.read(self.read, 3 + 2 * size), size)

    def report(self, report: bytes, size: int) -> bytes:
        if len(report) != 1 + size or report[0] != 0:
            raise Breach(f"a report of {len(report)} bytes, number {report[:1].hex()}")
        return report[1:]

    def exactly(self, count: int) -> bytes:
        found = b""
        while len(found) < count:
            found += os.read(self.read, count - len(found))
        return found

    def send(self, reply: bytes, padding: bytes, missing: int) -> None:
        """Sends a reply. Where packets have lengths there is no padding, and `missing` told bytes don't come."""
        if self.framed:
            os.write(self.write, (len(reply) + missing).to_bytes(2, "little") + reply)
        else:
            os.write(self.write, reply + padding)

    def close(self) -> None:
        os.close(self.read)
        os.close(self.write)


class Terminal(Fifos):
    """A terminal in place of the fifos: a file that the program sees end, once it is closed."""

    def __init__(self, framed: bool) -> None:
        self.read, self.far = pty.openpty()
        tty.setraw(self.far)
        self.write, self.framed = self.read, framed
        self.words = [f"--probe={os.ttyname(self.far)}"] + ["--framed"] * framed

    def report(self, report: bytes, size: int) -> bytes:
        """A terminal may part what is written."""
        return super().report(report + self.exactly(1 + size - len(report)), size)

    def pull_out(self) -> None:
        """What the program reads and writes from then on fails."""
        os.close(self.read)
        self.read = -1

    def close(self) -> None:
        os.close(self.far)
        if self.read >= 0:
            os.close(self.read)


class Bulk:
    """Bulk endpoints, a datagram for each packet, behind examples/c/dap_bulk.c as `relay`."""

    def __init__(self, room: str, relay: str) -> None:
        names = f"{room}/probe-back", f"{room}/probe-there"
        for name in names:
            os.mkfifo(name)
        back, there = (os.open(name, os.O_RDWR) for name in names)
        with socket.socket(socket.AF_UNIX, socket.SOCK_SEQPACKET) as listening:
            listening.bind(f"{room}/bulk")
            listening.listen(1)
            env = os.environ | {"DAP_SOCKET": f"{room}/bulk"}
            self.relay = subprocess.Popen([relay], stdin=there, stdout=back, stderr=subprocess.DEVNULL, env=env)
            self.line, _ = listening.accept()
        os.close(back)
        os.close(there)
        self.read = self.line.fileno()
        self.words = [f"--probe={','.join(names)}", "--framed"]

    def receive(self, size: int) -> bytes:
        packet = self.line.recv(4096)
        checked(len(packet), size)
        return packet

    def send(self, reply: bytes, _padding: bytes, _missing: int) -> None:
        self.line.send(reply)

    def pull_out(self) -> None:
        """The relay answers with an empty packet from then on."""
        self.line.close()

    def close(self) -> None:
        self.line.close()
        self.relay.terminate()
        self.relay.wait()


def checked(length: int, size: int) -> int:
    """The length of a packet, if it may have that."""
    if not 0 < length <= size:
        raise Breach(f"a packet of {length} bytes")
    return length


# ---- sessions


class Server:
    """Serves one program. `transfers` are those that reached the memory."""

    def __init__(
        self, probe: Probe, ends: Fifos | Bulk, chance: random.Random, spoil: Optional[Spoil] = None,
        transfers: Sized = (),
    ) -> None:
        self.probe, self.ends, self.chance, self.spoil = probe, ends, chance, spoil
        self.transfers, self.before = transfers, 0
        self.size, self.packets, self.is_over, self.is_open = FIRST_SIZE, 0, False, True
        self.breaches: set[str] = set()

    def run(self, words: list[str], room: str) -> int:
        """The status of the program with these arguments. What it says is then in the files `said` and `put`."""
        with open(f"{room}/said", "wb") as said, open(f"{room}/put", "wb") as put:
            words = [*words, *self.ends.words]
            with subprocess.Popen(words, stdin=subprocess.DEVNULL, stdout=put, stderr=said) as run:
                ended = os.pidfd_open(run.pid)
                try:
                    while self.goes_on(ended):
                        pass
                except (TimeoutError, Breach):
                    run.kill()
                    raise
                finally:
                    os.close(ended)
                    self.ends.close()
        return run.returncode

    def goes_on(self, ended: int) -> bool:
        """Answers a packet, or waits for the end of the program."""
        sources = [self.ends.read] * self.is_open + [ended]
        ready, _, _ = select.select(sources, [], [], MOST_SECONDS)
        if not ready:
            raise TimeoutError("the session doesn't end")
        if ready == [ended]:
            return False
        self.answer(self.ends.receive(self.size))
        return True

    def unanswered(self) -> int:
        """How many transfers reached the memory from the packet on whose reply can't be used."""
        return len(self.transfers) - self.before if self.is_over else 0

    def answer(self, packet: bytes) -> None:
        if self.is_over:
            self.breaches.add("a packet behind the end of the connection")
            return
        self.packets += 1
        made = len(self.transfers)
        reply = self.probe.take(packet)
        if select.select([self.ends.read], [], [], 0)[0]:
            self.breaches.add("a packet before the reply")
        if packet[:2] == b"\x00\xff":
            self.size = self.probe.size
        if self.spoil is not None and self.packets == self.spoil.at:
            self.is_over, self.before = self.spoil.ends(packet[0]), made
            self.send_spoiled(self.spoil, reply)
        else:
            self.send(reply)

    def send(self, reply: bytes) -> None:
        self.ends.send(reply, self.chance.randbytes(self.size - len(reply)), 0)

    def send_spoiled(self, spoil: Spoil, reply: bytes) -> None:
        if spoil.kind in ("short", "torn"):
            self.ends.send(spoil.reply(reply, self.chance), b"", spoil.kind == "torn")
        elif spoil.kind != "missing":
            self.send(spoil.reply(reply, self.chance))
        if spoil.kind in PULLED:
            self.ends.pull_out()
            self.is_open = False
