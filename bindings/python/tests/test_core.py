"""Tests of `swd.Core` over a model of a core. They are run as those of test_swd.py."""
import contextlib
import io
import itertools
import pickle
import unittest

import cores
import swd
from accesses import Accesses
from cores import BKPT, NOP, STAY, UDF, WFI, PlainCore
from plain import Damaged
from swd import CoreState
from test_swd import plan_of, program_of_the_page

CODE = 0x40
RAM = 0x20000000
DHCSR = 0xE000EDF0


def over(bus, marks=None, **options):
    """A core of the package over the model."""
    return swd.Core(swd.Session(Damaged(swd.Target(bus), plan_of(marks or {}))), reads=20, **options)


class Cores(unittest.TestCase):
    """What each call does."""

    def test_identification(self):
        core = over(PlainCore())
        found = core.identify()
        self.assertEqual((found.name, found.version, found.implementer, found.part), ("Cortex-M4", "r0p1", 0x41, 0xC24))
        self.assertEqual(str(found), "cpuid 410fc241: Cortex-M4 r0p1")
        # A part that isn't Arm's.
        self.assertEqual(str(swd.CoreIdentification(0x63001320)), "cpuid 63001320: part 132 of implementer 63 r0p0")

    def test_halt_and_resume(self):
        bus = PlainCore([NOP] * 4 + [STAY])
        core = over(bus)
        self.assertIs(core.state, CoreState.RUNNING)
        core.halt()
        self.assertIs(core.state, CoreState.HALTED)
        self.assertEqual(core.read("pc"), CODE + 8)
        core.halt()
        core.resume()
        self.assertIs(core.state, CoreState.RUNNING)
        core.resume()
        self.assertEqual((bus.starts, bus.mistakes), (1, []))

    def test_halted(self):
        bus = PlainCore([STAY])
        core = over(bus)
        with core.halted() as same:
            self.assertIs(same, core)
            self.assertEqual(core.read("pc"), CODE)
            with core.halted():
                pass
            self.assertIs(core.state, CoreState.HALTED)
        self.assertIs(core.state, CoreState.RUNNING)
        with self.assertRaises(ZeroDivisionError), core.halted():
            raise ZeroDivisionError
        self.assertIs(core.state, CoreState.RUNNING)

    def test_registers(self):
        bus = PlainCore([STAY])
        core = over(bus)
        core.halt()
        bus.registers[cores.CFBP] = 0x04030201
        core.write("r7", 0xDEADBEEF)
        core.write("basepri", 0x40)
        core.write("control", 2)
        self.assertEqual(bus.registers[7], 0xDEADBEEF)
        self.assertEqual(bus.registers[cores.CFBP], 0x02034001)
        self.assertEqual([core.read(name) for name in ("r7", "control", "faultmask", "basepri", "primask")],
                         [0xDEADBEEF, 2, 3, 0x40, 1])
        for place, name in ((33, "fpscr"), (64, "s0"), (95, "s31"), (24, "msp_ns"), (28, "msplim_s")):
            core.write(name, place)
            self.assertEqual(bus.registers[place], place)
        core.write("control_ns", 1)
        self.assertEqual(bus.registers[35], 1 << 24)
        self.assertEqual(core.registers("pc", "r7"), {"pc": CODE, "r7": 0xDEADBEEF})
        # R0 to R12, and eight more.
        self.assertEqual(len(core.registers()), 13 + 8)
        self.assertEqual(bus.mistakes, [])

    def test_registers_that_come_late(self):
        bus = PlainCore([STAY])
        bus.ready_after = 5
        core = over(bus)
        core.halt()
        for number in range(13):
            core.write(f"r{number}", number + 1)
        self.assertEqual([core.read(f"r{number}") for number in range(13)], list(range(1, 14)))
        self.assertEqual(bus.mistakes, [])
        bus.ready_after = 100
        self.assertRaisesRegex(swd.RegisterNotReady, "S_REGRDY", core.read, "r0")

    def test_names(self):
        core = over(PlainCore([STAY]))
        for name in ("r13", "R0", "", "_s", "s32", "pc_ns"):
            with self.assertRaisesRegex(swd.OutOfRange, "that of a register"):
                core.read(name)
        core.halt()
        self.assertRaises(swd.OutOfRange, core.write, "primask", 256)
        self.assertRaises(swd.OutOfRange, core.write, "r0", 1 << 32)

    def test_step(self):
        bus = PlainCore([NOP, NOP, STAY])
        core = over(bus)
        self.assertRaises(swd.CoreNotHalted, core.step)
        core.reset(halt=True)
        for count in (1, 2, 2):
            core.step()
            self.assertEqual((core.read("pc"), core.state), (CODE + 2 * count, CoreState.HALTED))
        self.assertEqual((bus.controls & 8, bus.mistakes), (0, []))

    def test_interrupts_that_another_debugger_masked(self):
        bus = PlainCore([NOP, STAY])
        core = over(bus)
        core.halt()
        core.session.write(DHCSR, 0xA05F000B)
        core.session.write(DHCSR, 0xA05F0009)
        core.halt()
        self.assertEqual(bus.controls, 0xB)
        core.resume()
        self.assertEqual((bus.controls, bus.starts, bus.mistakes), (1, 2, []))

    def test_a_step_into_sleep(self):
        bus = PlainCore([NOP, WFI, STAY])
        bus.halts_asleep = False
        core = over(bus)
        core.reset(halt=True)
        core.step()
        self.assertRaises(swd.CoreAsleep, core.step)
        bus.halts_asleep = True
        core.halt()
        self.assertEqual((core.read("pc"), bus.mistakes), (CODE + 4, []))

    def test_a_breakpoint_instruction(self):
        core = over(PlainCore([NOP, BKPT]))
        core.reset(halt=True)
        core.resume()
        self.assertEqual(core.wait(), 2)
        self.assertEqual(core.read("pc"), CODE + 2)

    def test_reset(self):
        for lasts, code in itertools.product((0, 3), ([NOP, STAY], [UDF], [WFI])):
            bus = PlainCore(code)
            bus.reset_lasts, bus.demcr = lasts, 1 << 10
            core = over(bus)
            core.reset(halt=True)
            self.assertEqual((core.read("pc"), core.state, bus.demcr), (CODE, CoreState.HALTED, 1 << 10))
            core.reset()
            self.assertEqual((bus.is_halted, bus.demcr, bus.resets, bus.mistakes), (False, 1 << 10, 2, []))

    def test_a_reset_that_never_ends(self):
        bus = PlainCore([STAY])
        bus.reset_lasts = 1000
        self.assertRaisesRegex(swd.CoreDidNotHalt, "reset line", over(bus).reset)

    def test_a_reset_that_never_comes(self):
        bus = PlainCore([STAY])
        bus._reset = lambda: None
        self.assertRaisesRegex(swd.CoreDidNotHalt, "no reset came", over(bus).reset)

    def test_a_chip_that_is_gone_during_its_reset(self):
        """Its words are bus errors, as often as the reset lasts."""
        bus = PlainCore([STAY])
        read, reset, left = bus.read, bus._reset, []

        def reading(addr):
            if left:
                left.pop()
                raise swd.BusError
            return read(addr)

        def resetting():
            reset()
            left[:] = [None] * 5

        bus.read, bus._reset = reading, resetting
        core = over(bus)
        core.reset(halt=True)
        self.assertEqual((core.read("pc"), left), (CODE, []))


    def test_the_program_of_the_page(self):
        bus, output = PlainCore([NOP] * 4 + [STAY]), io.StringIO()
        names = {"swd": swd, "MyProbe": lambda: swd.Target(bus)}
        with contextlib.redirect_stdout(output):
            exec(program_of_the_page("swd.Core"), names)  # pylint: disable=exec-used
        lines = ["cpuid 410fc241: Cortex-M4 r0p1", "halted 0x44", f"{{'pc': {0x46}, 'sp': {RAM + 0x100}}}"]
        self.assertEqual(output.getvalue().splitlines(), lines)
        self.assertEqual((bus.registers[0], bus.is_halted, bus.mistakes), (7, False, []))


class Refusals(unittest.TestCase):
    """A core that doesn't halt says why, and what to do."""

    def test_asleep(self):
        bus = PlainCore([WFI, STAY])
        core = over(bus)
        self.assertIs(core.state, CoreState.ASLEEP)
        bus.halts_asleep = False
        self.assertRaisesRegex(swd.CoreAsleep, "debug configuration", core.halt)
        bus.halts_asleep = True
        core.halt()
        self.assertEqual(core.read("pc"), CODE + 2)

    def test_locked_up(self):
        core = over(PlainCore([UDF]))
        self.assertIs(core.state, CoreState.LOCKED_UP)
        core.halt()
        core.resume()
        with self.assertRaisesRegex(swd.CoreLockedUp, "reset"):
            core.wait()
        core.reset(halt=True)
        self.assertEqual(core.read("pc"), CODE)

    def test_a_core_that_runs_on(self):
        core = over(PlainCore([STAY]))
        core.halt()
        core.resume()
        with self.assertRaises(swd.CoreDidNotHalt) as raised:
            core.wait(reads=3)
        self.assertEqual(raised.exception.dhcsr, 0x00010001)
        self.assertRaises(swd.CoreNotHalted, core.read, "r0")
        self.assertRaises(swd.CoreNotHalted, core.write, "primask", 1)

    def test_debug_that_is_locked(self):
        bus = PlainCore([STAY])
        bus.is_locked = True
        core = over(bus)
        for call in (core.halt, core.reset):
            with self.assertRaisesRegex(swd.DebugLocked, "C_DEBUGEN stays 0") as raised:
                call()
            self.assertEqual(str(pickle.loads(pickle.dumps(raised.exception))), str(raised.exception))

    def test_no_core(self):
        """Its words are bus errors, or zeros."""
        bus = PlainCore([STAY])
        bus.read = bus.load
        core = over(bus)
        for call in (core.identify, core.halt, core.resume, core.reset):
            self.assertRaisesRegex(swd.DebugLocked, "is a bus error", call)
        bus.read = lambda addr: 0
        self.assertRaisesRegex(swd.DebugLocked, "which is no core's", over(bus).identify)


class Breakpoints(unittest.TestCase):
    """The FPB, in both of its versions."""

    def test_a_breakpoint(self):
        for version, place in itertools.product((0, 1), range(1, 5)):
            bus = PlainCore([NOP] * 6 + [STAY], version=version)
            core = over(bus)
            core.reset(halt=True)
            core.set_breakpoint(CODE + 2 * place)
            core.resume()
            self.assertEqual(core.wait(), 2)
            self.assertEqual(core.read("pc"), CODE + 2 * place)
            core.clear_breakpoint(CODE + 2 * place)
            core.resume()
            self.assertRaises(swd.CoreDidNotHalt, core.wait)

    def test_words_of_comparators(self):
        """By the manuals' tables of FP_COMPn: REPLACE, COMP and ENABLE in version 1, BPADDR and BE in version 2."""
        for version, addr, word in (
            (0, 0x08000100, 0x48000101), (0, 0x08000102, 0x88000101), (1, 0x08000102, 0x08000103),
            (1, 0x20000000, 0x20000001),
        ):
            bus = PlainCore(version=version)
            over(bus).set_breakpoint(addr)
            self.assertEqual(bus.comparators[0], word)

    def test_all_comparators(self):
        bus = PlainCore(comparators=17)
        core = over(bus)
        for _ in range(2):
            for place in range(17):
                core.set_breakpoint(CODE + 2 * place)
        self.assertEqual(len(set(bus.comparators)), 17)
        self.assertRaisesRegex(swd.NoBreakpointLeft, "of 17 comparators", core.set_breakpoint, 0)
        core.clear_breakpoint(CODE + 6)
        core.set_breakpoint(0)
        self.assertEqual(bus.comparators[3], 0x40000001)
        core.clear_breakpoints()
        self.assertEqual(bus.comparators, [0] * 17)

    def test_refusals(self):
        core = over(PlainCore())
        self.assertRaisesRegex(swd.OutOfRange, "even", core.set_breakpoint, CODE + 1)
        self.assertRaisesRegex(swd.OutOfRange, "BKPT", core.set_breakpoint, RAM)
        self.assertRaises(swd.OutOfRange, over(PlainCore(version=2)).set_breakpoint, CODE)


class Losses(unittest.TestCase):
    """A lost acknowledgement at each place in turn: the call is made again."""

    CALLS = (
        lambda core: core.halt(), lambda core: core.write("r3", 7), lambda core: core.write("control", 2),
        lambda core: core.set_breakpoint(CODE + 4), lambda core: core.reset(halt=True),
        lambda core: core.write("r3", 9), lambda core: core.clear_breakpoint(CODE + 4),
    )

    def lose(self, core_of, places):
        """Makes the calls over a core that loses an acknowledgement at each of these places in turn. Returns how often
        that ended a call."""
        lost = 0
        for place in places:
            bus = PlainCore([NOP] * 4 + [STAY])
            core, losses = core_of(bus, place), 0
            for call in self.CALLS:
                try:
                    call(core)
                except swd.RunStopped as stop:
                    self.assertIs(stop.report.ended, swd.End.LOST)
                    losses += 1
                    call(core)
            state = bus.registers[3], bus.registers[cores.CFBP], bus.comparators, bus.demcr, bus.is_halted, bus.mistakes
            self.assertEqual(state, (9, 2 << 24, [0] * 6, 0, True, []), place)
            self.assertLessEqual(losses, 1)
            lost += losses
        return lost

    def test_each_access(self):
        """It was made, or it wasn't. A reset goes on by itself."""
        whole = Accesses(PlainCore([NOP] * 4 + [STAY]))
        for call in self.CALLS:
            call(swd.Core(whole))
        places = list(itertools.product(range(1, whole.count + 1), (False, True)))
        lost = self.lose(lambda bus, place: swd.Core(Accesses(bus, *place)), places)
        self.assertTrue(len(places) - 20 < lost < len(places), (lost, len(places)))

    def test_requests(self):
        """One in five requests, over a line. The opening has nine."""
        places = list(itertools.product(range(10, 137, 5), ("mute 0", "deaf")))
        self.assertGreater(self.lose(lambda bus, place: over(bus, dict([place])), places), 40)
