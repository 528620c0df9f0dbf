"""A probe of pyOCD over remote_bitbang characters to a process, such as `swd target`."""
import subprocess

from pyocd.core import exceptions
from pyocd.coresight import dap
from pyocd.probe.debug_probe import DebugProbe

OK, WAIT, FAULT = 1, 2, 4
SWITCH = 0xE79E


class Line:
    """A line of remote_bitbang characters to a process. A cycle has SWCLK low, and then high."""

    def __init__(self, words):
        self.process = subprocess.Popen(words, stdin=subprocess.PIPE, stdout=subprocess.PIPE)
        self.queue = bytearray()

    def drive(self, number, count):
        for at in range(count):
            self.queue += b"eg" if number >> at & 1 else b"df"

    def turn(self, drives):
        self.queue += b"dfO" if drives else b"odf"

    def sample(self, count):
        self.queue += b"dcf" * count
        self.send()
        levels = self.process.stdout.read(count)
        if len(levels) < count:
            raise exceptions.TransferError("the target went away")
        return sum((level & 1) << at for at, level in enumerate(levels))

    def send(self):
        self.process.stdin.write(self.queue)
        self.process.stdin.flush()
        self.queue.clear()

    def end(self):
        self.queue += b"Q"
        self.send()
        return self.process.wait()


class BitbangProbe(DebugProbe):
    """A probe of pyOCD over such a line, as a driver of two pins is: it repeats a request that gets WAIT."""

    def __init__(self, line):
        super().__init__()
        self.line = line
        self.select = None
        self.waits = 0

    @property
    def wire_protocol(self):
        return DebugProbe.Protocol.SWD

    def connect(self, protocol=None):
        self.line.queue += b"O"

    def swj_sequence(self):
        self.line.drive(-1, 56)
        self.line.drive(SWITCH, 16)
        self.line.drive(-1, 56)
        self.line.drive(0, 8)

    def flush(self):
        self.line.send()

    def transfer(self, port, read, addr, word=None):
        for _ in range(100):
            asked = port | read << 1 | (addr >> 2 & 3) << 2
            parity = bin(asked).count("1") & 1
            self.line.drive(0x81 | asked << 1 | parity << 5, 8)
            self.line.turn(False)
            ack = self.line.sample(3)
            if ack == OK and read:
                seen = self.line.sample(33)
                self.line.turn(True)
                if bin(seen).count("1") & 1:
                    raise exceptions.TransferError("wrong parity")
                return seen & 0xFFFFFFFF
            self.line.turn(True)
            if ack == OK:
                self.line.drive(word | (bin(word).count("1") & 1) << 32, 33)
                self.line.drive(0, 8)
                return None
            if ack == FAULT:
                raise exceptions.TransferFaultError()
            if ack != WAIT:
                raise exceptions.TransferError(f"no acknowledgement: {ack}")
            self.waits += 1
        raise exceptions.TransferTimeoutError()

    def read_dp(self, addr, now=True):
        word = self.transfer(0, 1, addr)
        return word if now else lambda: word

    def write_dp(self, addr, data):
        if addr == dap.DP_SELECT:
            self.select = data
        self.transfer(0, 0, addr, data)

    def choose(self, addr):
        select = addr & 0xFF0000F0
        if select != self.select:
            self.write_dp(dap.DP_SELECT, select)

    def read_ap(self, addr, now=True):
        words = self.read_ap_multiple(addr, 1)
        return words[0] if now else lambda: words[0]

    def write_ap(self, addr, data):
        self.write_ap_multiple(addr, [data])

    def read_ap_multiple(self, addr, count=1, now=True):
        self.choose(addr)
        self.transfer(1, 1, addr)
        words = [self.transfer(1, 1, addr) for _ in range(count - 1)]
        return words + [self.transfer(0, 1, dap.DP_RDBUFF)]

    def write_ap_multiple(self, addr, values):
        self.choose(addr)
        for value in values:
            self.transfer(1, 0, addr, value)
        self.transfer(0, 1, dap.DP_RDBUFF)
