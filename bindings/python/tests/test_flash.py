"""Tests of `swd.flash` over a model of a core, and of each access that may be lost. They are run as those of
test_swd.py; `checks/flash` runs an algorithm that was compiled, over an emulated core."""
import contextlib
import io
import os
import struct
import sys
import tempfile
import unittest
import unittest.mock

import swd
from accesses import Accesses
from cores import LR, PC, SP, PlainCore
from swd import flash

FLASH, RAM, PAGE = 0x08000000, 0x20000000, 16
# Instructions of the model, each a function: it does all of it, and returns to LR.
NAMES = ("Init", "UnInit", "EraseSector", "ProgramPage")
FIRST = 0xDE01
DEVICE = flash.FlashDevice("a model", FLASH, 0x200, PAGE, 0xFF, 10, 10, ((0, 0x20), (0x80, 0x40)))
CODE = struct.pack("<4H", FIRST, FIRST + 1, FIRST + 2, FIRST + 3)
ALGORITHM = flash.Algorithm(DEVICE, CODE, {name: 2 * place for place, name in enumerate(NAMES)}, 8)
# The resets of a call, and what it does of a page in one sector.
ONE_PAGE = [("Init", FLASH, 5, 1), ("EraseSector", FLASH), ("UnInit", 1),
            ("Init", FLASH, 5, 2), ("ProgramPage", FLASH, PAGE, RAM + 24), ("UnInit", 2)]


class FlashCore(PlainCore):
    """A core that executes an algorithm's functions as instructions. `calls` has their arguments, and `twice` the pages
    that were programmed though they weren't erased since."""

    COUNTS = {"Init": 3, "UnInit": 1, "EraseSector": 1, "ProgramPage": 3}

    def __init__(self, **options):
        super().__init__(**options)
        self.words.update({base + 4 * place: 0 for base, count in ((RAM, 512), (FLASH, 128)) for place in range(count)})
        self.calls, self.programmed, self.twice, self.statics, self.refused = [], set(), [], set(), None

    def step(self, masked):
        half = self.words[self.registers[PC] & ~3] >> 8 * (self.registers[PC] & 2) & 0xFFFF
        if not FIRST <= half < FIRST + 4:
            return super().step(masked)
        name = NAMES[half - FIRST]
        arguments = [self.registers[number] for number in range(self.COUNTS[name])]
        self.calls.append((name, *arguments))
        self.statics.add((self.registers[9], self.registers[SP], self.registers[20] & 1))
        if name == "EraseSector":
            size = DEVICE.sector_of(arguments[0]).size
            self.programmed.difference_update(range(arguments[0], arguments[0] + size))
            self.words.update({addr: 0xFFFFFFFF for addr in range(arguments[0], arguments[0] + size, 4)})
        elif name == "ProgramPage":
            if arguments[0] in self.programmed:
                self.twice.append(arguments[0])
            self.programmed.add(arguments[0])
            for place in range(0, PAGE, 4):
                self.words[arguments[0] + place] = self.words[arguments[2] + place]
        self.registers[0] = int(name == self.refused)
        self.registers[PC] = self.registers[LR] & ~1
        return None


def program(session, image, resumptions=0, **options):
    flash.Programmer(session, ALGORITHM, ram=(RAM, 0x400), resumptions=resumptions, clock=5).program(image, **options)


class Programs(unittest.TestCase):
    """What is called, and what the flash has then."""

    def test_a_page(self):
        """Over a line. The code begins 16 bytes behind the return, the buffer at the next multiple of 8, the data where
        the algorithm says, and the stack at the end."""
        bus = FlashCore()
        data = bytes(range(1, PAGE + 1))
        with swd.Session(swd.Target(bus)) as session:
            program(session, [(FLASH, data)])
        self.assertEqual(bus.calls, ONE_PAGE)
        self.assertEqual(bus.statics, {(RAM + 16 + 8, RAM + 0x400, 1)})
        wanted = [*struct.unpack("<4I", data), 0xFFFFFFFF]
        self.assertEqual([bus.words[FLASH + 4 * place] for place in range(5)], wanted)
        self.assertEqual((bus.is_halted, bus.demcr, bus.mistakes, bus.words[RAM]), (True, 0, [], 0xBE00BE00))

    def test_each_access_is_lost(self):
        """Whether it was made or not, each function is called once."""
        for pace in (1, 8):
            whole = Accesses(FlashCore(pace=pace))
            program(whole, [(FLASH, b"0123")])
            for lost, is_made in ((lost, is_made) for lost in range(1, whole.count + 1) for is_made in (False, True)):
                bus = FlashCore(pace=pace)
                program(Accesses(bus, lost, is_made), [(FLASH, b"0123")], resumptions=1)
                self.assertEqual((bus.calls, bus.starts, bus.mistakes), (ONE_PAGE, 6, []), (pace, lost, is_made))
                self.assertEqual(bus.words[FLASH], 0x33323130)

    def test_each_access_ends_a_call_that_a_report_continues(self):
        image = [(FLASH + 0x10, bytes(range(0x40))), (FLASH + 0x84, b"ab")]
        whole = Accesses(FlashCore())
        program(whole, image)
        ended = 0
        for lost, is_made in ((lost, is_made) for lost in range(1, whole.count + 1, 3) for is_made in (False, True)):
            bus, report = FlashCore(), io.StringIO()
            try:
                program(Accesses(bus, lost, is_made), image, report=report)
            except swd.RunFailed:
                ended += 1
            earlier, after = report.getvalue().splitlines(), io.StringIO()
            before = len(bus.calls)
            program(Accesses(bus), image, earlier=earlier, report=after)
            self.assertEqual((bus.twice, bus.mistakes), ([], []), (lost, is_made))
            self.assertEqual([bus.words[FLASH + addr] for addr in (0xC, 0x10, 0x4C, 0x50, 0x80, 0x84, 0x88)],
                             [0xFFFFFFFF, 0x03020100, 0x3F3E3D3C, 0xFFFFFFFF, 0xFFFFFFFF, 0xFFFF6261, 0xFFFFFFFF])
            lines = after.getvalue().splitlines()
            programmed = [line for line in lines if line.startswith("programmed")]
            self.assertEqual((len(programmed), lines[-1]), (5, "verified"))
            # A sector of which all pages are said to be programmed isn't erased again.
            if len([line for line in earlier if line.startswith("programmed")]) == 5:
                self.assertEqual(bus.calls[before:], [])
        # But for some accesses of a reset, which goes on by itself.
        self.assertGreater(ended, whole.count // 3 * 2 - 20)

    def test_progress(self):
        said = []
        image = [(FLASH + 0x1F, b"ab"), (FLASH + 0x80, b"c")]
        program(Accesses(FlashCore()), image, on_progress=lambda *counts: said.append(counts))
        self.assertEqual(said, [
            ("erased", 0x20, 0x80), ("erased", 0x40, 0x80), ("erased", 0x80, 0x80),
            ("programmed", 16, 48), ("programmed", 32, 48), ("programmed", 48, 48)])

    def test_run(self):
        bus = FlashCore()
        program(Accesses(bus), [(FLASH, b"a")], run=True)
        self.assertEqual((bus.is_halted, bus.resets), (False, 2))


class Failures(unittest.TestCase):
    """An algorithm that fails."""

    def failing(self, bus, wanted):
        with self.assertRaisesRegex(flash.FlashFailed, wanted):
            program(Accesses(bus), [(FLASH, b"a")])

    def test_a_function_that_returns_1(self):
        for name in NAMES:
            bus = FlashCore()
            bus.refused = name
            self.failing(bus, rf"^{name}\(.*\) returned 1$")

    def test_a_core_that_stops_elsewhere(self):
        bus = FlashCore()
        bus.version, bus.breaks, bus.comparators = 1, True, [RAM + 17]
        step = bus.step
        bus.step = lambda masked: "bkpt" if bus.breaks_at(bus.registers[PC]) else step(masked)
        self.failing(bus, r"^Init\(0x8000000, 0x5, 0x1\) stopped at 20000010: a fault")

    def test_a_flash_that_reads_otherwise(self):
        bus = FlashCore()
        read = bus.read
        bus.read = lambda addr: read(addr) ^ (addr == FLASH)
        self.failing(bus, "isn't as it was programmed")

    def test_a_function_that_never_returns(self):
        bus = FlashCore()
        bus.advance = lambda count: None
        with unittest.mock.patch("swd._flash_calls._PATIENCE", 0.0):
            self.failing(bus, r"didn't return in 0 s")

    def test_a_line_that_stays_silent(self):
        bus = FlashCore()
        session = Accesses(bus)
        run, session.run = session.run, lambda accesses: swd.Report((), 0, 0, swd.End.LOST).check()
        self.assertRaises(swd.RunStopped, program, session, [(FLASH, b"a")], resumptions=3)
        session.run = run
        program(session, [(FLASH, b"a")])


class Plans(unittest.TestCase):
    """What is erased and programmed, and what a report says of it."""

    IMAGE = [(FLASH + 0x1E, b"0123"), (FLASH + 0x84, b"ab")]

    def test_a_plan(self):
        plan = flash.Plan(DEVICE, reversed(self.IMAGE))
        sector = flash.Sector
        self.assertEqual(plan.sectors, {
            sector(FLASH, 0x20): [FLASH + 0x10], sector(FLASH + 0x20, 0x20): [FLASH + 0x20],
            sector(FLASH + 0x80, 0x40): [FLASH + 0x80]})
        self.assertEqual(plan.pages, {
            FLASH + 0x10: b"\xff" * 14 + b"01", FLASH + 0x20: b"23" + b"\xff" * 14,
            FLASH + 0x80: b"\xff" * 4 + b"ab" + b"\xff" * 10})

    def test_refusals(self):
        for image, wanted in (
            ([(FLASH - 1, b"ab")], "07ffffff isn't in the flash, 08000000 to 080001ff"),
            ([(FLASH + 0x1FF, b"ab")], "08000200 isn't in the flash"),
            ([(FLASH, b"ab"), (FLASH + 1, b"c")], "two bytes at 08000001"),
        ):
            with self.assertRaisesRegex(flash.FlashError, wanted):
                flash.Plan(DEVICE, image)
        for ram in ((RAM, 0x100), (RAM + 4, 0x400)):
            self.assertRaises(flash.FlashError, flash.Programmer, Accesses(FlashCore()), ALGORITHM, ram=ram)

    def test_what_is_left(self):
        plan = flash.Plan(DEVICE, self.IMAGE)
        done = "erased 08000000", "erased 08000020", "programmed 08000010", "erased 08000080", "programmed 08000020"
        lines = [plan.head, *done]
        self.assertEqual(list(plan.left(lines).pages), [FLASH + 0x80])
        self.assertEqual(list(plan.left([*lines, "erased 08000000"]).pages), [FLASH + 0x10, FLASH + 0x80])
        self.assertEqual(plan.left(lines[:1]).pages, plan.pages)
        other = flash.Plan(DEVICE, [(FLASH, b"0")])
        for report in ([], [other.head]):
            self.assertRaisesRegex(flash.FlashError, "another image", plan.left, report)


class Files(unittest.TestCase):
    """Images, and the arguments of the program. Those of ELF files are tried by `checks/flash`."""

    def setUp(self):
        room = tempfile.TemporaryDirectory()
        self.addCleanup(room.cleanup)
        self.path = os.path.join(room.name, "image.hex")

    def read(self, text):
        with open(self.path, "wb") as opened:
            opened.write(text)
        return flash.read_image(self.path)

    def test_records(self):
        """Checksums by hand: the bytes of a record add up to 0 modulo 256."""
        text = b":020000040800F2\r\n:0400100001020304E2\n:020000021000EC\n:0100020055A8\n:00000001FF\n"
        self.assertEqual(self.read(text), [(FLASH + 0x10, b"\1\2\3\4"), (0x10002, b"\x55")])

    def test_records_that_are_none(self):
        for text, wanted in (
            (b":00000001FF\n", "no bytes"), (b":0100020055A8\n", "no record of type 01"),
            (b":0100020055A9\n", "line 1"), (b"\n0100020055A8\n", "line 2"), (b":01000200A8\n", "line 1"),
            (b":0100020055A\n", "line 1"), (b"\xff\n", "line 1"),
        ):
            with self.assertRaisesRegex(flash.FlashError, wanted):
                self.read(text)

    def test_bytes(self):
        self.path = self.path[:-4]
        self.assertRaisesRegex(flash.FlashError, "address", self.read, b"ab")
        self.assertEqual(flash.read_image(self.path, 3), [(3, b"ab")])

    def test_a_file_that_wants_pyelftools(self):
        missing = {"elftools": None, "elftools.elf": None, "elftools.elf.elffile": None}
        with unittest.mock.patch.dict(sys.modules, missing):
            self.assertRaisesRegex(flash.FlashError, "pyelftools isn't installed", self.read, b"\x7fELF")

    def test_status(self):
        """Of what each exception is, and what is said."""
        for failure, status in (
            (flash.FlashError("so"), 2), (OSError("so"), 2), (flash.FlashFailed("so"), 1),
            (swd.CoreAsleep("so", None), 1),
            (swd.LineFailed("so", swd.Report((), 0, 0, swd.End.LOST)), 1), (KeyboardInterrupt, 1), (None, 0),
        ):
            said = io.StringIO()
            with unittest.mock.patch("swd.flash._run", side_effect=failure), contextlib.redirect_stderr(said):
                self.assertEqual(flash.main(["--line", "board:line", "a.FLM", "a.hex"]), status)
            wanted = {None: "programmed and verified", KeyboardInterrupt: "interrupted"}.get(failure, "so")
            self.assertEqual(said.getvalue(), f"swd.flash: {wanted}\n")

    def test_help(self):
        said = io.StringIO()
        with contextlib.redirect_stdout(said), self.assertRaises(SystemExit):
            flash.main(["--help"])
        self.assertIn("Not run on a chip yet", said.getvalue())
        self.assertLessEqual(max(map(len, flash._EPILOG.splitlines())), 80)
