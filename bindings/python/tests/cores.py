"""A core behind a bus, written from the Architecture Reference Manuals alone: the debug registers, and a few
instructions."""
import swd

CPUID, AIRCR, DFSR = 0xE000ED00, 0xE000ED0C, 0xE000ED30
DHCSR, DCRSR, DCRDR, DEMCR = 0xE000EDF0, 0xE000EDF4, 0xE000EDF8, 0xE000EDFC
FP_CTRL, FP_COMP = 0xE0002000, 0xE0002008
SP, LR, PC, XPSR, MSP, PSP, CFBP = 13, 14, 15, 16, 17, 18, 20
NOP, BKPT, WFI, UDF, STAY = 0xBF00, 0xBE00, 0xBF30, 0xDE00, 0xE7FE
HALTED, BY_BKPT, CAUGHT = 1, 2, 8


class DebuggedCore:
    """The debug registers of a core, as a bus of `swd.Target`. What executes and what is in memory is a subclass's:
    `step(masked)` executes one instruction, unless it is a breakpoint, and returns `bkpt`, `sleep`, `lockup` or None;
    `get(number)` and `put(number, word)` are registers by their numbers in DCRSR; `load(addr)` and `store(addr, word)`
    are memory.

    Between two reads of DHCSR a core that runs makes `pace` instructions. `mistakes` has what a debugger may not do."""

    def __init__(self, *, cpuid=0x410FC241, comparators=6, version=0, pace=8):
        self.cpuid, self.pace, self.version = cpuid, pace, version
        self.controls, self.demcr, self.dfsr = 0, 0, 0
        self.is_halted, self.sleeps, self.locked_up, self.was_reset = False, False, False, True
        self.is_locked, self.ready_after, self.reset_lasts, self.halts_asleep = False, 0, 0, True
        self.breaks, self.comparators = False, [0] * comparators
        self.dcrdr, self.unready, self.in_reset = 0, 0, 0
        self.mistakes, self.starts, self.resets, self.silent_writes = [], 0, 0, 0

    def read(self, addr):
        if addr == CPUID:
            return self.cpuid
        if addr == DHCSR:
            return self._status()
        if addr in (DCRDR, DEMCR, DFSR):
            return {DCRDR: self.dcrdr, DEMCR: self.demcr, DFSR: self.dfsr}[addr]
        if addr == FP_CTRL:
            count = len(self.comparators)
            return self.version << 28 | (count >> 4) << 12 | 2 << 8 | (count & 15) << 4 | self.breaks
        if FP_COMP <= addr < FP_COMP + 4 * len(self.comparators):
            return self.comparators[(addr - FP_COMP) // 4]
        return self.load(addr)

    def write(self, addr, word):
        if addr == DHCSR:
            self._control(word)
        elif addr == DCRSR:
            self._register(word)
        elif addr == DCRDR:
            if self.unready:
                self.mistakes.append("DCRDR was written while a register was transferred")
            self.dcrdr = word
        elif addr == DEMCR:
            self.demcr = word
        elif addr == DFSR:
            self.dfsr &= ~word
        elif addr == AIRCR:
            if word >> 16 == 0x05FA and word & 4:
                self._reset()
        elif addr == FP_CTRL:
            self.breaks = bool(word & 1) if word & 2 else self.breaks
        elif FP_COMP <= addr < FP_COMP + 4 * len(self.comparators):
            self.comparators[(addr - FP_COMP) // 4] = word
        else:
            self.store(addr, word)

    def breaks_at(self, addr):
        """Whether a comparator stops at an instruction."""
        if self.version == 1:
            return self.breaks and addr | 1 in self.comparators
        half = 2 if addr & 2 else 1
        match = addr & ~3
        return self.breaks and any(
            it & 1 and it & 0x1FFF_FFFC == match and it >> 30 & half for it in self.comparators) and addr < 0x2000_0000

    def _status(self):
        self._pass_time()
        word = self.controls | (not self.unready) << 16 | self.is_halted << 17 | self.sleeps << 18
        word |= (self.locked_up and not self.is_halted) << 19 | (self.was_reset or self.in_reset > 0) << 25
        self.was_reset = False
        self.unready = max(0, self.unready - 1)
        return word

    def _pass_time(self):
        if self.in_reset:
            self.in_reset -= 1
            if not self.in_reset:
                self.start()
                if self.controls & 1 and (self.demcr & 1 or self.controls & 2):
                    self._halt(CAUGHT)
            return
        if not (self.is_halted or self.locked_up or self.sleeps):
            self._take(self.advance(self.pace))

    def advance(self, count):
        """Executes so many instructions, up to one that isn't followed by the next. Returns what it was."""
        for _ in range(count):
            event = self.step(False)
            if event:
                return event
        return None

    def _take(self, event):
        if event == "bkpt" and self.controls & 1:
            self._halt(BY_BKPT)
        elif event in ("bkpt", "lockup"):
            self.locked_up = True
        elif event == "sleep":
            self.sleeps = True

    def _halt(self, reason):
        self.is_halted, self.sleeps, self.locked_up = True, False, False
        self.controls |= 2
        self.dfsr |= reason

    def _control(self, word):
        if word >> 16 != 0xA05F or self.is_locked:
            self.silent_writes += 1
            return
        if (word ^ self.controls) & 8 and not word & self.controls & 2:
            self.mistakes.append("C_MASKINTS was changed, but not by a write that keeps the core halted")
        self.controls = word & 15 if word & 1 else 0
        if not self.controls & 1:
            self.is_halted = False
        elif word & 2:
            if not self.is_halted and (self.halts_asleep or not self.sleeps) and not self.in_reset:
                self._halt(HALTED)
        elif self.is_halted:
            self.is_halted = False
            if word & 4:
                self._take(self.step(bool(word & 8)))
                if not (self.is_halted or self.sleeps or self.locked_up):
                    self._halt(HALTED)
            else:
                self.starts += 1

    def _register(self, word):
        if not self.is_halted or self.unready:
            self.mistakes.append("DCRSR was written while the core ran, or transferred a register")
            return
        self.unready = self.ready_after
        number = word & 0x7F
        if word >> 16 & 1:
            self.put(number, self.dcrdr)
        else:
            self.dcrdr = self.get(number)

    def _reset(self):
        self.resets += 1
        self.was_reset, self.is_halted, self.sleeps, self.locked_up = True, False, False, False
        self.in_reset = self.reset_lasts + 1


class PlainCore(DebuggedCore):
    """A core with memory from 0 and from 20000000 on, which executes NOP, BKPT, WFI, UDF, which locks it up, and a
    branch to itself. Its vector table is at 0."""

    def __init__(self, code=(), **options):
        super().__init__(**options)
        self.words = {base + 4 * place: 0 for base in (0, 0x20000000) for place in range(64)}
        self.registers = {number: 0 for number in (*range(21), 24, 28, 33, 34, 35, *range(64, 96))}
        self.words[0], self.words[4] = 0x20000100, 0x41
        for place, half in enumerate(code):
            self.words[0x40 + place // 2 * 4] |= half << 16 * (place & 1)
        self.start()

    def start(self):
        self.registers[SP], self.registers[PC] = self.words[0], self.words[4] & ~1
        self.registers[XPSR], self.registers[LR] = 0x01000000, 0xFFFFFFFF

    def get(self, number):
        return self.registers[number]

    def put(self, number, word):
        self.registers[number] = word

    def load(self, addr):
        if addr not in self.words:
            raise swd.BusError
        return self.words[addr]

    def store(self, addr, word):
        self.load(addr)
        self.words[addr] = word

    def step(self, masked):
        at = self.registers[PC]
        half = self.words[at & ~3] >> 8 * (at & 2) & 0xFFFF
        if half == BKPT or self.breaks_at(at):
            return "bkpt"
        if half == UDF:
            return "lockup"
        if half != STAY:
            self.registers[PC] = at + 2
        return "sleep" if half == WFI else None
