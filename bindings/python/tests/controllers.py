"""Models of three flash controllers, as far as docs/RECIPES.md uses them, written from their manuals. Each is a bus:
its flash is old bytes at first, and `bad` has what a host may not do."""
import swd

OLD = 0x55AA55AA
ERASED = 0xFFFFFFFF


class Controller:
    """Words of a flash, erased in units of `unit` bytes. A command takes two reads of its status."""

    def __init__(self, base, unit, count):
        self.base, self.unit = base, unit
        self.words = {base + 4 * place: OLD for place in range(count)}
        self.fresh, self.busy, self.bad = set(), 0, []
        self.reset()

    def reset(self):
        """As after a reset of the chip. The flash has what it had."""

    def read(self, addr):
        if addr in self.words:
            return self.words[addr]
        return self.register(addr)

    def status(self):
        self.busy = max(0, self.busy - 1)
        return self.busy == 0

    def begin(self, what):
        if self.busy:
            self.bad.append(f"{what} while it was busy")
        self.busy = 2

    def erase(self, addr):
        self.begin("an erase")
        first = addr - (addr - self.base) % self.unit
        for at in range(first, first + self.unit, 4):
            self.words[at] = ERASED
            self.fresh.add(at)

    def program(self, addr, word):
        if self.words[addr] != ERASED and self.words[addr] != word or addr not in self.fresh:
            self.bad.append(f"{addr:08x} wasn't erased")
        self.words[addr] &= word


class Nrf52(Controller):
    """NVMC. `writes` counts those of each word since its erase."""

    def __init__(self):
        super().__init__(0x7F000, 4096, 1024)
        self.writes = {}

    def reset(self):
        self.config = 0

    def register(self, addr):
        if addr == 0x4001E400:
            return int(self.status())
        return {0x4001E504: self.config}[addr]

    def write(self, addr, word):
        if addr == 0x4001E504:
            self.config = word
        elif addr == 0x4001E508 and self.config == 2 and word % 4096 == 0:
            self.erase(word)
            self.writes = {}
        elif addr in self.words and self.config == 1:
            self.begin("a write")
            self.program(addr, word)
            self.writes[addr] = self.writes.get(addr, 0) + 1
            if self.writes[addr] > 2:
                self.bad.append("a word was written three times")
        else:
            raise swd.BusError


class Samd21(Controller):
    """NVMCTRL: rows of four pages, and a buffer of a page."""

    def __init__(self):
        super().__init__(0x3FF00, 256, 64)

    def reset(self):
        self.error, self.addr, self.control = 0, 0, 0
        self.buffer = [ERASED] * 16

    def register(self, addr):
        if addr == 0x41004014:
            return self.status() | self.error << 1
        return {0x41004004: self.control}[addr]

    def write(self, addr, word):
        if addr in self.words:
            self.buffer[addr // 4 % 16] &= word
            self.addr = addr // 2
        elif addr == 0x41004000:
            self._command(word)
        elif addr == 0x41004004:
            self.control = word
        elif addr == 0x41004014:
            self.error &= ~(word >> 1)
        elif addr == 0x4100401C:
            self.addr = word
        elif addr != 0x41004018:
            raise swd.BusError

    def _command(self, word):
        addr = 2 * self.addr
        if word >> 8 != 0xA5 or addr not in self.words:
            self.error = 1
        elif word & 0xFF == 2:
            self.erase(addr)
        elif word & 0xFF == 0x44:
            self.begin("a clear of the buffer")
            self.buffer = [ERASED] * 16
        elif word & 0xFF == 4:
            self.begin("a write of a page")
            if not self.control & 0x80:
                self.bad.append("MANW is 0")
            for place, part in enumerate(self.buffer):
                if part != ERASED:
                    self.program((addr & ~63) + 4 * place, part)
            self.buffer = [ERASED] * 16


class Stm32G0(Controller):
    """FLASH: keys, and double words. A wrong key locks it until a reset."""

    KEYS = [0x45670123, 0xCDEF89AB]

    def __init__(self):
        super().__init__(0x08005000, 2048, 512)

    def reset(self):
        self.keys, self.control, self.errors, self.half = [], 0, 0, None

    def register(self, addr):
        if addr == 0x40022010:
            return (not self.status()) << 16 | self.errors
        return (self.keys != self.KEYS) << 31 | self.control

    def write(self, addr, word):
        if addr == 0x40022008:
            self.keys.append(word)
        elif addr == 0x40022010:
            self.errors &= ~word
        elif addr == 0x40022014:
            self._control(word)
        elif addr in self.words:
            self._word(addr, word)
        else:
            raise swd.BusError

    def _control(self, word):
        if self.keys != self.KEYS:
            self.bad.append("CR was written while it is locked")
            return
        self.control = word & 0x7FFF
        if word >> 31:
            self.keys = []
        if word >> 16 & 1 and word & 2:
            self.erase(0x08000000 + 2048 * (word >> 3 & 0x3FF))

    def _word(self, addr, word):
        if not self.control & 1 or self.errors or addr % 8 != (4 if self.half else 0):
            self.errors, self.half = 0x80, None
        elif self.half is None:
            self.half = addr, word
        else:
            self.begin("a double word")
            for at, part in (self.half, (addr, word)):
                if self.words[at] != ERASED:
                    self.bad.append(f"{at:08x} was programmed twice")
                self.program(at, part)
            self.half = None
