"""A session without a line."""
import struct

import swd


class Accesses:
    """The calls of a session that a core and a flash need, access by access over a bus, without a line. One access is
    lost: it was made or not, and the run ends there."""

    def __init__(self, bus, lost=None, is_made=False):
        self.bus, self.count, self.lost, self.is_made = bus, 0, lost, is_made

    def close(self):
        pass

    def _one(self, access):
        self.count += 1
        is_lost = self.count == self.lost
        if is_lost and not self.is_made:
            return None
        try:
            if isinstance(access, swd.Read):
                answer = swd.Value(self.bus.read(access.addr))
            else:
                self.bus.write(access.addr, access.word)
                answer = swd.Written()
        except swd.BusError:
            answer = swd.BusFault()
        return None if is_lost else answer

    def run(self, accesses):
        answers = []
        for access in accesses:
            answer = self._one(access)
            if answer is None:
                return swd.Report(tuple(answers), 1, 0, swd.End.LOST, accesses=tuple(accesses)).check()
            answers.append(answer)
        return swd.Report(tuple(answers), 0, 0, swd.End.ALL, accesses=tuple(accesses)).check()

    def run_block(self, addr, count):
        return self.run(swd.block(addr, count))

    def read(self, addr):
        return self.run([swd.Read(addr)]).words()[0]

    def write(self, addr, word):
        self.run([swd.Write(addr, word)])

    def until(self, addr, mask, value, reads=1000, *, interval=0.0):
        for _ in range(reads):
            report = self.run([swd.Read(addr)])
            if report.words()[0] & mask == value:
                return report.words()[0]
        raise swd.ConditionNotMet("never", report)

    def load(self, addr, data):
        data += bytes(-len(data) % 4)
        try:
            words = enumerate(struct.iter_unpack("<I", data))
            self.run([swd.Write(addr + 4 * place, word) for place, (word,) in words])
        except swd.RunStopped as stop:
            done = 4 * len(stop.report.answers)
            raise swd.ImageStopped("stopped", stop.report, addr + done, done) from stop

    def verify(self, addr, data):
        first, count = addr & ~3, (addr % 4 + len(data) + 3) // 4
        try:
            words = self.run_block(first, count).words()
        except swd.RunStopped as stop:
            raise swd.ImageStopped("stopped", stop.report, addr, 0) from stop
        found = struct.pack(f"<{count}I", *words)[addr % 4:addr % 4 + len(data)]
        if found != data:
            raise swd.ImageDiffers(addr, 0, 0)
