"""A server of remote_bitbang for serial wire, with a target of target.py behind the pins.

`Pins(target, waits).serve(read, write)` answers what `read()` returns, bytes at a time, by `write(bytes)`, up to `Q` or
the end. `serve_run(run)` does so at the standard streams of a program.
"""
import os

RESET = 50
SPOKEN = {"ok": 1, "wait": 2, "fault": 4}


class Pins:
    """`waits` says of the number of a request whether it is answered with WAIT, where that is allowed."""

    def __init__(self, target, waits):
        self.target, self.waits = target, waits
        self.ones, self.bits, self.driven, self.asked, self.clocks = 0, [], [], 0, 0
        self.take, self.request = self.begin, None

    def level(self):
        """The level of the line where the host doesn't drive it. Nobody drives it high."""
        return self.driven[0] if self.driven and self.driven[0] is not None else 1

    def clock(self, level):
        """A rising edge."""
        self.clocks += 1
        self.ones = self.ones + 1 if level else self.ended(self.ones)
        if self.driven:
            self.driven.pop(0)
            return
        self.take(level)

    def ended(self, ones):
        """So many ones were a line reset, if they are enough."""
        if ones >= RESET:
            self.driven = []
            self.target.line_reset()
            self.take = self.begin
        return 0

    def begin(self, level):
        if level:
            self.bits, self.take = [1], self.ask

    def ask(self, level):
        self.bits.append(level)
        if len(self.bits) < 8:
            return
        start, port, direction, low, high, parity, stop, park = self.bits
        self.take = self.lost
        if not start or stop or not park or parity != (port + direction + low + high) % 2:
            return
        self.request = ("ap" if port else "dp", 4 * low + 8 * high, "read" if direction else "write")
        self.asked += 1
        self.answer(self.waits(self.asked))

    def answer(self, busy):
        end = self.target.ask(self.request, busy)
        if end is None:
            return
        spoken = SPOKEN[end]
        # A turnaround, three bits, and the host's turn, or a read's data, 33 bits, before that.
        self.driven = [None] + [spoken >> place & 1 for place in range(3)]
        self.take = self.begin
        if end == "ok" and self.request[2] == "read":
            word = self.target.read(self.request, busy)
            parity = 1 if self.target.bug == "parity_high" else bin(word).count("1") % 2
            self.driven += [word >> place & 1 for place in range(32)] + [parity]
        self.driven.append(None)
        if end == "ok" and self.request[2] == "write":
            self.bits, self.take = [], self.data

    def data(self, level):
        self.bits.append(level)
        if len(self.bits) < 33:
            return
        if all(self.bits):
            # Its parity is wrong, or it is a line reset.
            self.target.awaits, self.take = True, self.cut
            return
        self.written()
        self.take = self.begin

    def cut(self, level):
        if not level:
            self.target.awaits = False
            self.written()
            self.take = self.begin

    def written(self):
        word = sum(bit << place for place, bit in enumerate(self.bits[:32]))
        right = sum(self.bits) % 2 == 0
        self.target.write(self.request, word if right else None, word)

    def lost(self, _level):
        """Nothing is understood up to a line reset."""

    def serve(self, read, write):
        drives, high, dio = False, False, 0
        while text := read():
            out = bytearray()
            for byte in text:
                char = chr(byte)
                if char in "Oo":
                    drives = char == "O"
                elif char == "c":
                    out.append(48 + (dio if drives else self.level()))
                elif char in "defg":
                    dio = int(char in "eg")
                    rises, high = char in "fg" and not high, char in "fg"
                    if rises:
                        self.clock(dio if drives else self.level())
                elif char == "Q":
                    write(bytes(out))
                    return
            write(bytes(out))

    def serve_run(self, run):
        """Serves a program with pipes as its standard streams: its status and its standard error, once it has ended."""
        def write(levels):
            if levels:
                run.stdin.write(levels)
                run.stdin.flush()

        try:
            self.serve(lambda: os.read(run.stdout.fileno(), 1 << 16), write)
        except BrokenPipeError:
            pass
        run.stdin.close()
        said = run.stderr.read().decode()
        return run.wait(), said
