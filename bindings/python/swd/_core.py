"""A core of Armv6-M, Armv7-M or Armv8-M, by its debug registers: words and polls over a session."""
import contextlib
import enum
import time
from typing import Dict, Iterator, List, Optional, Tuple

from . import _core_words as words
from ._accesses import End, Write
from ._core_errors import (
    CoreAsleep, CoreDidNotHalt, CoreError, CoreLockedUp, CoreNotHalted, DebugLocked, NoBreakpointLeft, RegisterNotReady,
)
from ._core_words import (
    AIRCR, C_DEBUGEN, C_HALT, C_MASKINTS, C_STEP, DBGKEY, DCRDR, DCRSR, DEMCR, DFSR, DHCSR, FP_COMP0, FP_CTRL, GENERAL,
    CoreIdentification,
)
from ._errors import (
    AccessFaulted, ConditionNotMet, RunStopped, SwdError, fail, number, word as checked_word,
)
from ._hosts import Session


class CoreState(enum.Enum):
    """What a core does."""

    RUNNING = "running"
    HALTED = "halted"
    ASLEEP = "asleep"
    """It waits for an event or an interrupt."""
    LOCKED_UP = "locked up"
    """It met a fault in its handler of faults, and executes nothing until it is halted or reset."""
    IN_RESET = "in reset"

    def __str__(self) -> str:
        return str(self.value)


class Core:
    """A core behind the session's access port, by its debug registers:

        core = swd.Core(session)
        with core.halted():
            print(hex(core.read("pc")))

    Making it sends nothing. Each call is a few words and polls of `session`, and raises what that raises; `reads` is
    how often a poll reads, and `interval` the seconds between two reads. After a lost acknowledgement each call can be
    made again, with the same effect, but for `step`, `resume` and `halted`: whether the core made the step, or ran, is
    then unknown.

    `session` is opened and closed by whoever made it. `CoreError` is the base of what else is raised."""

    def __init__(self, session: Session, *, reads: int = 1000, interval: float = 0.0) -> None:
        self.session = session
        if number("reads", reads, 0xFFFF_FFFF) == 0:
            fail("reads", reads, "1 or more")
        self._reads, self._interval = reads, interval

    def identify(self) -> CoreIdentification:
        """Returns CPUID. Raises `DebugLocked` if it is a bus error, or if no core has that word."""
        found = self._read(words.CPUID)
        if found in (0, 0xFFFF_FFFF):
            raise DebugLocked(f"CPUID is {found:08x}, which is no core's", None)
        return CoreIdentification(found)

    @property
    def state(self) -> CoreState:
        """What the core does."""
        found = self._read(DHCSR)
        if found & words.S_RESET_ST:
            # That it was reset since the last read. If it still is, so it is in reset.
            found = self._read(DHCSR)
        for flag, state in (
            (words.S_RESET_ST, CoreState.IN_RESET), (words.S_HALT, CoreState.HALTED),
            (words.S_LOCKUP, CoreState.LOCKED_UP), (words.S_SLEEP, CoreState.ASLEEP),
        ):
            if found & flag:
                return state
        return CoreState.RUNNING

    @property
    def is_halted(self) -> bool:
        """Whether the core is halted."""
        return bool(self._read(DHCSR) & words.S_HALT)

    def halt(self) -> None:
        """Halts the core. Returns once it is halted.

        Raises `DebugLocked`, `CoreAsleep`, `CoreLockedUp` or `CoreDidNotHalt`, which say what to do."""
        found = self._read(DHCSR)
        # C_MASKINTS may be changed only once the core is halted.
        self._control(C_HALT | (found & C_MASKINTS if found & C_DEBUGEN else 0))
        found = self._read(DHCSR)
        if not found & C_DEBUGEN:
            raise DebugLocked("DHCSR.C_DEBUGEN stays 0", found)
        self.wait()

    def wait(self, reads: Optional[int] = None) -> int:
        """Waits until the core is halted, as by a breakpoint. Returns DFSR, whose bits say what halted it: 0 a request
        or a step, 1 a breakpoint, 2 a watchpoint, 3 a vector catch, 4 an external request.

        Raises what `halt` raises if it is not halted at the last read."""
        try:
            self.session.until(
                DHCSR, words.S_HALT, words.S_HALT, self._reads if reads is None else reads, interval=self._interval,
            )
        except ConditionNotMet as never:
            raise _not_halted(never.report.words()[0]) from never
        return self._read(DFSR)

    def resume(self) -> None:
        """Lets a halted core run from its pc on; one that runs is left as it is. DFSR is cleared before.

        A breakpoint at pc halts it again at once: clear it, `step`, and set it again."""
        found = self._read(DHCSR)
        if found & words.S_HALT:
            self.session.write(DFSR, 0x1F)
            if found & C_MASKINTS:
                self._control(C_HALT)
            self._control(0)

    def step(self) -> None:
        """Has a halted core execute one instruction, with interrupts masked. Returns once it is halted again.

        Raises `CoreNotHalted` if it isn't halted, and what `halt` raises."""
        self._check_halted()
        self._control(C_HALT | C_MASKINTS)
        try:
            self._control(C_STEP | C_MASKINTS)
            self.wait()
        finally:
            # A core that didn't halt, as one that is asleep, is halted here.
            self._control(C_HALT | C_MASKINTS)
            self._control(C_HALT)

    def reset(self, halt: bool = False) -> None:
        """Resets the system by AIRCR.SYSRESETREQ, and waits until the core has come out of it. With `halt` it is halted
        before its first instruction, else it runs.

        Much of a chip is reset with the core, and some chips reset their debug port: the session is closed, and the
        next access opens the target again. While the chip doesn't answer, that is tried again, `reads` times. After a
        lost acknowledgement the reset may be made twice."""
        self._enable()
        catches = self._read(DEMCR) & ~words.VC_CORERESET
        self.session.write(DEMCR, catches | (words.VC_CORERESET if halt else 0))
        self._read(DHCSR)  # Clears S_RESET_ST.
        self._reset_once()
        if halt:
            self.wait()
            self.session.write(DEMCR, catches)
        else:
            self.resume()

    @contextlib.contextmanager
    def halted(self) -> Iterator["Core"]:
        """Halts the core for a `with` statement. At its end the core runs, if it did before."""
        was_halted = self.is_halted
        self.halt()
        try:
            yield self
        finally:
            if not was_halted:
                self.resume()

    def read(self, name: str) -> int:
        """Returns a register of a halted core, by its name: `r0` to `r12`, `sp`, `lr`, `pc`, `xpsr`, `msp`, `psp`,
        `control`, `primask`, `basepri`, `faultmask`, `fpscr`, `s0` to `s31`, and in Armv8-M those of a security state,
        as `msp_ns`, `msplim_s`, `control_ns`.

        A register that the core doesn't have reads as any word. Raises `OutOfRange` for another name, `CoreNotHalted`,
        and `RegisterNotReady`."""
        place, low, mask = words.place_of(name)
        self._check_halted()
        return self._transferred(place) >> low & mask

    def write(self, name: str, word: int) -> None:
        """Writes a register of a halted core. Raises what `read` raises, and `OutOfRange` if the word has more bits
        than the register."""
        place, low, mask = words.place_of(name)
        word = number(name, word, mask)
        self._check_halted()
        if mask != 0xFFFF_FFFF:
            word = self._transferred(place) & ~(mask << low) | word << low
        self._transfer(place, word)

    def registers(self, *names: str) -> Dict[str, int]:
        """Returns these registers of a halted core by their names; without a name those that each core has. Raises what
        `read` raises."""
        return {name: self.read(name) for name in names or GENERAL}

    def set_breakpoint(self, addr: int) -> None:
        """Sets a breakpoint of the FPB at an instruction, whose address is even. One that is there already stays.

        Raises `OutOfRange` at an odd address, and where the FPB is of version 1, which Armv6-M and Armv7-M have: from
        20000000 on. Raises `NoBreakpointLeft` if each comparator is used."""
        control, found = self._comparators(addr)
        wanted = words.comparator(control, addr)
        if wanted not in found:
            if all(it & 1 for it in found):
                raise NoBreakpointLeft(f"of {len(found)} comparators none is free: clear a breakpoint", None)
            free = next(place for place, it in enumerate(found) if not it & 1)
            self.session.write(FP_COMP0 + 4 * free, wanted)
        self.session.write(FP_CTRL, 3)

    def clear_breakpoint(self, addr: int) -> None:
        """Clears the breakpoint at this address, if there is one."""
        control, found = self._comparators(addr)
        wanted = words.comparator(control, addr)
        self.session.run([Write(FP_COMP0 + 4 * place, 0) for place, it in enumerate(found) if it == wanted])

    def clear_breakpoints(self) -> None:
        """Clears each comparator of the FPB, also those that another debugger set."""
        count = len(self._comparators(0)[1])
        self.session.run([Write(FP_COMP0 + 4 * place, 0) for place in range(count)])

    def _comparators(self, addr: int) -> Tuple[int, List[int]]:
        """Returns FP_CTRL, and the comparators for instructions."""
        if checked_word("addr", addr) & 1:
            fail("addr", addr, "even: bit 0 of a function's address isn't part of it")
        control = self._read(FP_CTRL)
        return control, self.session.run_block(FP_COMP0, words.comparators(control)).words()

    def _read(self, addr: int) -> int:
        """Reads a word that each core has."""
        try:
            return self.session.read(addr)
        except AccessFaulted as fault:
            raise DebugLocked(f"{addr:08x} is a bus error", None) from fault

    def _control(self, bits: int) -> None:
        """Writes DHCSR with debug enabled."""
        try:
            self.session.write(DHCSR, DBGKEY | C_DEBUGEN | bits)
        except AccessFaulted as fault:
            raise DebugLocked("DHCSR is a bus error", None) from fault

    def _enable(self) -> None:
        """Enables debug, if it isn't enabled."""
        if not self._read(DHCSR) & C_DEBUGEN:
            self._control(0)
            found = self._read(DHCSR)
            if not found & C_DEBUGEN:
                raise DebugLocked("DHCSR.C_DEBUGEN stays 0", found)

    def _request_reset(self) -> bool:
        """Requests a system reset. Returns whether the acknowledgement was lost: then it was requested, or wasn't. A
        bus error says that the reset came at once, or didn't."""
        is_lost = False
        try:
            self.session.write(AIRCR, words.VECTKEY | words.SYSRESETREQ)
        except AccessFaulted:
            pass
        except RunStopped as stop:
            _check_lost(stop)
            is_lost = True
        self.session.close()
        return is_lost

    def _reset_once(self) -> None:
        """Requests a reset, and waits until S_RESET_ST showed it, and then that it is over. Requests another one where
        a lost acknowledgement may have hidden it, since each read clears S_RESET_ST."""
        was_reset, is_lost = False, self._request_reset()
        failure: Optional[SwdError] = None
        for count in range(self._reads):
            if count > 0 and self._interval > 0:
                time.sleep(self._interval)
            try:
                found, failure = self._read(DHCSR), None
            except DebugLocked as stop:
                failure = stop
                continue
            except RunStopped as stop:
                _check_lost(stop)
                is_lost, failure = True, stop
                continue
            if found & words.S_RESET_ST:
                was_reset = True
            elif was_reset:
                return
            elif is_lost:
                is_lost = self._request_reset()
        if failure is not None:
            raise failure
        if was_reset:
            raise CoreDidNotHalt("the core stays in reset: is its reset line held low?", found)
        raise CoreDidNotHalt("no reset came of AIRCR.SYSRESETREQ: use the reset line", found)

    def _check_halted(self) -> None:
        found = self._read(DHCSR)
        if not found & words.S_HALT:
            raise CoreNotHalted("the core isn't halted, so it has no registers to read or write: call halt()", found)

    def _transferred(self, place: int) -> int:
        """Reads the register with this number in DCRSR."""
        self.session.write(DCRSR, place)
        self._await_register()
        return self.session.read(DCRDR)

    def _transfer(self, place: int, word: int) -> None:
        """Writes the register with this number in DCRSR."""
        self.session.run([Write(DCRDR, word), Write(DCRSR, place | words.REGWNR)])
        self._await_register()

    def _await_register(self) -> None:
        try:
            self.session.until(DHCSR, words.S_REGRDY, words.S_REGRDY, self._reads)
        except ConditionNotMet as never:
            found = never.report.words()[0]
            raise RegisterNotReady("DHCSR.S_REGRDY stays 0: reset the core", found) from never


def _check_lost(stop: RunStopped) -> None:
    """Raises what ended a run otherwise than by a lost acknowledgement, or by too few tries."""
    if stop.report.ended not in (End.LOST, End.TRIES):
        raise stop


def _not_halted(found: int) -> CoreError:
    """Returns what is raised for a core that isn't halted at the last read of DHCSR."""
    if not found & C_DEBUGEN:
        return DebugLocked("DHCSR.C_DEBUGEN is 0", found)
    if found & words.S_LOCKUP:
        return CoreLockedUp("the core is locked up by a fault in its fault handler: reset(halt=True)", found)
    if found & words.S_SLEEP:
        return CoreAsleep(
            "the core is asleep, and doesn't halt: keep its clock on in sleep by the chip's debug configuration, wake "
            "it, or reset(halt=True)", found,
        )
    return CoreDidNotHalt("the core runs, and wasn't halted in time: poll it more often, or reset(halt=True)", found)
