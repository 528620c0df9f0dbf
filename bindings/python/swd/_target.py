"""The simulated target."""
import ctypes
from typing import Optional, Protocol

from ._errors import BusError, LibraryRefused, NotABit, word as checked_word
from ._library import (
    BUS_FAULT, RELEASED, VALUE, WANTS, WANTS_READ, WANTS_WRITE, WRITTEN, LibraryOrPath, TargetStruct, library_functions,
)


class Bus(Protocol):
    """The bus of a simulated target. An address is the value of TAR, and need not be a multiple of 4."""

    def read(self, addr: int) -> int:
        """Returns the word at an address, or raises `BusError`."""

    def write(self, addr: int, word: int) -> object:
        """Writes a word at an address, or raises `BusError`."""


class Target:
    """A simulated target, clock by clock: a debug port, whose DPIDR is 2ba01477, with a MEM-AP for words over `bus`.

    It is a `Line`, so `Host(Target(bus))` is a host over it. A target that was just made had no line reset yet.

    `wraps` selects whether TAR wraps at the end of a kilobyte or increments past it. A read whose value is unknown
    returns `filler`. A transfer is made on the bus in the clock that decides it. An exception of the bus other than
    `BusError` passes through, and the transfer is tried again at the next clock."""

    def __init__(
        self, bus: Bus, *, wraps: bool = True, filler: int = 0, library: LibraryOrPath = None,
    ) -> None:
        self.bus = bus
        self._functions = library_functions(library)
        self._target = TargetStruct()
        self._here = ctypes.byref(self._target)
        self._functions.swd_target_new(self._here, bool(wraps), checked_word("filler", filler))

    @property
    def cycles(self) -> int:
        """The number of clocks made."""
        return int(self._target.cycles)

    def cycle(self, drive: Optional[int]) -> int:
        """Makes one clock: `drive` is the bit that the host drives, or None if it drives none. Returns the bit on the
        line: the target's if it drives, else the host's, and 1 if nobody drives.

        Raises `NotABit` if `drive` is neither None nor 0 nor 1."""
        if drive is None:
            given = RELEASED
        elif drive == 0 or drive == 1:
            given = int(drive)
        else:
            raise NotABit(f"drive is {drive!r}: it has to be 0, 1 or None")
        level = self._functions.swd_target_cycle(self._here, given)
        if level == WANTS:
            self._transfer()
            level = self._functions.swd_target_cycle(self._here, given)
        if level > 1:
            raise LibraryRefused("swd_target_cycle refused its target")
        self._transfer()
        return int(level)

    def drive(self, bit: int) -> None:
        """Makes one clock in which the host drives `bit`."""
        if bit is None:
            raise NotABit("bit is None: it has to be 0 or 1")
        self.cycle(bit)

    def release(self) -> None:
        """Makes one clock in which the host doesn't drive."""
        self.cycle(None)

    def sample(self) -> int:
        """Makes one clock in which the host doesn't drive. Returns the level."""
        return self.cycle(None)

    def hold(self, busy: bool) -> None:
        """Makes the target busy, or ends that. While it is busy, a request that may get WAIT gets WAIT in place of OK.
        CTRL/STAT then shows no power-up acknowledgement that it didn't show before."""
        if not self._functions.swd_target_hold(self._here, bool(busy)):
            raise LibraryRefused("swd_target_hold refused its target")

    def _transfer(self) -> None:
        """Makes the pending transfer, if there is one."""
        wanted = self._functions.swd_target_wants(self._here)
        if wanted.kind == WANTS_READ:
            self._read(int(wanted.addr))
        elif wanted.kind == WANTS_WRITE:
            self._write(int(wanted.addr), int(wanted.word))

    def _read(self, addr: int) -> None:
        try:
            word = self.bus.read(addr)
        except BusError:
            self._settle(BUS_FAULT, 0)
            return
        self._settle(VALUE, checked_word(f"the result of bus.read({addr:#x})", word))

    def _write(self, addr: int, word: int) -> None:
        try:
            self.bus.write(addr, word)
        except BusError:
            self._settle(BUS_FAULT, 0)
            return
        self._settle(WRITTEN, 0)

    def _settle(self, kind: int, word: int) -> None:
        if not self._functions.swd_target_settle(self._here, kind, word):
            raise LibraryRefused("swd_target_settle refused its target")
