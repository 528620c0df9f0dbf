"""Sessions of an unmodified OpenOCD 0.12.0, connected as by examples/openocd/run. Wants openocd and a C compiler;
OPENOCD and CC name others.
"""
import contextlib
import os
import re
import socket
import subprocess

from captures.reading import transaction
from captures.sessions import BASE, WORDS, Session
from captures.target import Marks, Target

EXAMPLE = os.path.join(os.path.dirname(os.path.abspath(__file__)), "..", "..", "examples", "openocd")
MOST_BITS = 40_000


def preloaded(room):
    """The library that turns the pins of OpenOCD's linuxgpiod driver into remote_bitbang characters, built once."""
    library = f"{room}/gpiod.so"
    if not os.path.exists(library):
        options = ["-std=c99", "-O2", "-shared", "-fPIC"]
        subprocess.run([os.environ.get("CC", "cc"), *options, f"{EXAMPLE}/gpiod_bitbang.c", "-o", library], check=True)
    return library


@contextlib.contextmanager
def connected(room, commands):
    """The connection of an OpenOCD that runs these commands and ends, for which it waits."""
    with open(f"{room}/commands", "w", encoding="ascii") as to:
        to.write("".join(f"{it}\n" for it in ["init", *(f"catch {{{it}}}" for it in commands), "shutdown"]))
    with socket.create_server(("127.0.0.1", 0)) as server:
        server.settimeout(60)
        env = {**os.environ, "LD_PRELOAD": preloaded(room), "SWD_PORT": str(server.getsockname()[1])}
        files = [f"{EXAMPLE}/linuxgpiod.cfg", f"{EXAMPLE}/chip.cfg", f"{room}/commands"]
        words = [os.environ.get("OPENOCD", "openocd"), *[word for file in files for word in ("-f", file)]]
        with open(f"{room}/said", "wb") as said, subprocess.Popen(words, env=env, stdout=said, stderr=said):
            connection, _ = server.accept()
            with connection:
                connection.setsockopt(socket.IPPROTO_TCP, socket.TCP_NODELAY, 1)
                yield connection


def any_command(room, rng, address):
    """A command of OpenOCD: words, halves and bytes, at an address by this function, a file either way, a new
    connection."""
    at = address(rng)
    pick = rng.random()
    if pick < 0.25:
        return f"mdw {at:#x} {rng.randrange(1, 9)}"
    if pick < 0.45:
        return f"mww {at:#x} {rng.getrandbits(32):#x} {rng.randrange(1, 5)}"
    if pick < 0.55:
        return f"mdw {at + rng.randrange(1, 4):#x} {rng.randrange(1, 3)}"
    if pick < 0.65:
        return f"{rng.choice(['mdb', 'mdh'])} {at + 2 * rng.randrange(2):#x} {rng.randrange(1, 5)}"
    if pick < 0.72:
        return f"{rng.choice(['mwb', 'mwh'])} {at + 2 * rng.randrange(2):#x} {rng.getrandbits(8):#x}"
    if pick < 0.82:
        return f"load_image {room}/image {at:#x} bin"
    if pick < 0.92:
        return f"dump_image {room}/back {at:#x} {4 * rng.randrange(1, 80)}"
    return rng.choice(["dap init", "reset", "chip.dap memaccess 0", "chip.dap apid 0", "chip.dap info"])


def commands_of(room, rng, address):
    """Some commands, and the file that they load."""
    commands = [any_command(room, rng, address) for _ in range(rng.randrange(4, 12))]
    with open(f"{room}/image", "wb") as image:
        image.write(rng.randbytes(rng.randrange(1, 300)))
    return commands


class Pins:
    """The pins of remote_bitbang at a target of Python, and of each cycle the level and whether the host drove it.

    A cycle is a rising edge of the clock, or before it the first look at a line that the host leaves alone.
    """

    def __init__(self, target):
        self.target, self.bits, self.driven = target, [], []
        self.drives, self.is_high, self.level, self.seen = True, False, 1, None

    def cycle(self):
        self.seen = int(self.target.cycle(self.level if self.drives else None))
        self.bits.append(self.seen)
        self.driven.append(self.drives)

    def put(self, is_high, level):
        rises, self.is_high, self.level = is_high and not self.is_high, is_high, level
        if not is_high:
            self.seen = None
        elif rises and self.seen is None:
            self.cycle()

    def look(self):
        if not self.drives and self.seen is None:
            self.cycle()
        return self.level if self.drives else self.seen

    def take(self, characters):
        """The answers to these characters."""
        answers = ""
        for it in characters.decode("ascii"):
            if it in "defg":
                self.put(it in "fg", int(it in "eg"))
            elif it in "oO":
                self.drives = it == "O"
            elif it == "c":
                answers += str(self.look())
        return answers.encode("ascii")


def truth_of(bits, driven):
    """The transactions that OpenOCD sent: a request that it drove, and then a line that it left alone.

    It sends a data phase after WAIT and FAULT, and also where no acknowledgement came, which belongs to no transaction.
    """
    text, drove = ("".join(str(int(it)) for it in them) for them in (bits, driven))
    found = (transaction(text, at.start()) for at in re.finditer("(?=1{8}0{4})", drove))
    return [(it.place, 12, " ".join(it.line.split()[:4])) if it.kind == "none" else (it.place, 46, it.line)
            for it in found if it and it.place + 46 <= len(bits)]


def near(rng):
    """An address inside the target's memory, seldom outside."""
    return rng.choice([0x10000000, BASE + 4 * WORDS]) if rng.random() < 0.05 else BASE + 4 * rng.randrange(WORDS)


def session(rng, room):
    """A session of OpenOCD, which uses overrun detection, at a target of Python that has it."""
    marks = Marks(rng, rng.choice([0, 0.02, 0.1, 0.3]), rng.choice([0, 0, 0.005]), rng.choice([0, 0, 0.002]))
    target = Target(BASE, WORDS, marks, True, rng.choice([False, True, "wait"]), rng.random() < 0.5)
    pins = Pins(target)
    with connected(room, commands_of(room, rng, near)) as connection:
        connection.settimeout(60)
        while len(pins.bits) < MOST_BITS and (some := connection.recv(65536)):
            connection.sendall(pins.take(some))
    target.complete()
    return Session(pins.bits, truth_of(pins.bits, pins.driven), True, target.log)
