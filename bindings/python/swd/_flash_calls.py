"""The functions of a flash algorithm, called by a core's registers and a breakpoint."""
import time
from typing import Callable, TypeVar

from ._accesses import End
from ._core import Core
from ._core_errors import CoreError, DebugLocked
from ._core_words import DEMCR, VC_HARDERR
from ._errors import ImageDiffers, ImageStopped, RunFailed, RunStopped
from ._flash_files import FUNCTIONS, Algorithm, FlashError, FlashFailed
from ._hosts import Session

_Result = TypeVar("_Result")
# Two instructions BKPT, to which each function returns, and where the code begins behind them.
_RETURN, _CODE = b"\x00\xbe\x00\xbe", 16
# The least room of a stack, and the seconds that a function may take in any case.
_STACK, _PATIENCE = 512, 10.0
_POLLS = 20


def _was_lost(stop: RunFailed) -> bool:
    """Whether a run ended by a lost acknowledgement, or by too few tries: not where the line failed."""
    cause = stop.__cause__ if isinstance(stop, ImageStopped) else stop
    return isinstance(cause, RunStopped) and stop.report.ended in (End.LOST, End.TRIES)


class Calls:
    """Calls the functions of an algorithm, which lies in RAM. Each call is made once, also where an acknowledgement is
    lost: whether the core was started is seen by its pc, which is the function's entry before and that of its return
    behind.

    `resumptions` is how often what has the same effect again is made again after a lost acknowledgement: the target is
    brought to rest, and opened, before."""

    def __init__(self, session: Session, algorithm: Algorithm, ram: int, ram_size: int, resumptions: int = 0) -> None:
        self.session, self.algorithm, self.resumptions = session, algorithm, resumptions
        self.core = Core(session)
        self._ram, self._top = ram, ram + ram_size & ~7
        self._code = ram + _CODE
        # Where the bytes of a page are passed.
        self.buffer = self._code + len(algorithm.code) + 7 & ~7
        wanted = self.buffer + algorithm.device.page + _STACK - ram
        if ram & 7 or wanted > ram_size:
            needed = f"{wanted} bytes of RAM at a multiple of 8"
            raise FlashError(f"the algorithm needs {needed}, not {ram_size} at {ram:08x}")
        self._demcr = 0

    def again(self, call: Callable[[], _Result]) -> _Result:
        """Makes a call, and again after a lost acknowledgement."""
        for left in range(self.resumptions, -1, -1):
            try:
                return call()
            except RunFailed as stop:
                if not left or not _was_lost(stop):
                    raise
        raise AssertionError("the last call returns or raises")

    def begin(self) -> None:
        """Resets the chip, halts its core before its first instruction, and puts the algorithm into RAM."""
        self.again(lambda: self.core.reset(halt=True))
        self._demcr = self.again(lambda: self.session.read(DEMCR))
        # A fault halts the core.
        self.again(lambda: self.session.write(DEMCR, self._demcr | VC_HARDERR))
        # No interrupts, in thread mode, on the main stack.
        for name, word in (("primask", 1), ("control", 0), ("xpsr", 1 << 24)):
            self._write(name, word)
        self.load(self._ram, _RETURN)
        self.load(self._code, self.algorithm.code)

    def end(self, run: bool) -> None:
        """Resets the chip. Its core is halted before its first instruction, or runs."""
        self.again(lambda: self.session.write(DEMCR, self._demcr))
        self.again(lambda: self.core.reset(halt=not run))

    def load(self, addr: int, data: bytes) -> None:
        """Writes bytes into RAM."""
        place = 0

        def rest() -> None:
            nonlocal place
            try:
                self.session.load(addr + place, data[place:])
            except ImageStopped as stop:
                place += stop.done
                raise

        self.again(rest)

    def verify(self, addr: int, data: bytes) -> None:
        """Compares bytes with the flash. Raises `FlashFailed` where one differs."""
        try:
            self.again(lambda: self.session.verify(addr, data))
        except ImageDiffers as differs:
            raise FlashFailed(f"the flash isn't as it was programmed: {differs}") from differs

    def call(self, name: str, *arguments: int, time_limit: float = 0.0) -> None:
        """Calls a function with at most four arguments. Raises `FlashFailed` if it returns another number than 0, if it
        doesn't return in so many seconds, and ten, or if the core stops anywhere else."""
        assert name in FUNCTIONS and len(arguments) <= 4
        entry = self._code + self.algorithm.functions[name]
        for place, word in enumerate(arguments):
            self._write(f"r{place}", word)
        for register, word in (
            ("r9", self._code + self.algorithm.static_base), ("sp", self._top), ("lr", self._ram | 1),
            ("xpsr", 1 << 24), ("pc", entry),
        ):
            self._write(register, word)
        self.again(lambda: self._start(entry))
        shown = f"{name}({', '.join(f'{it:#x}' for it in arguments)})"
        self._await(shown, time_limit + _PATIENCE)
        at = self.again(lambda: self.core.read("pc"))
        if at != self._ram:
            raise FlashFailed(f"{shown} stopped at {at:08x}: a fault, or a breakpoint that isn't its return")
        result = self.again(lambda: self.core.read("r0"))
        if result:
            raise FlashFailed(f"{shown} returned {result}")

    def _start(self, entry: int) -> None:
        """Starts the core at an entry, unless it was: then it runs, or is halted anywhere else."""
        if self.core.is_halted and self.core.read("pc") == entry:
            self.core.resume()

    def _await(self, shown: str, time_limit: float) -> None:
        """Waits until the core is halted."""
        end = time.monotonic() + time_limit
        while True:
            try:
                self.again(lambda: self.core.wait(_POLLS))
                return
            except DebugLocked:
                raise
            except CoreError as running:
                if time.monotonic() > end:
                    raise FlashFailed(f"{shown} didn't return in {time_limit:.0f} s: {running}") from running

    def _write(self, name: str, word: int) -> None:
        self.again(lambda: self.core.write(name, word))
