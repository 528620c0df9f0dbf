"""Programs a flash by the algorithm of a CMSIS pack, which runs on the target's core.

    python3 -m swd.flash --line board:line ALGORITHM.FLM IMAGE

**Not run on a chip yet**: it is tested over an emulated core.

The algorithm is put into RAM, and its functions are called by the core's registers and a breakpoint instruction. The
sectors that have a byte of the image are erased, their other bytes too; then the pages that have one are programmed,
and the image is compared with what the flash reads. A function is called once, also where an acknowledgement is lost:
whether the core was started is seen by its pc. In a program:

    algorithm = swd.flash.Algorithm.read("STM32G0x_64.FLM")
    with swd.Session(line) as session:
        programmer = swd.flash.Programmer(session, algorithm, resumptions=3)
        programmer.program(swd.flash.read_image("firmware.hex"))
"""
import argparse
import contextlib
import hashlib
import importlib
import sys
import time
from typing import Callable, Dict, Iterable, Iterator, List, Optional, Sequence, Set, TextIO, Tuple

from ._core_errors import CoreError
from ._errors import RunFailed, SwdError
from ._flash_calls import Calls
from ._flash_files import Algorithm, FlashDevice, FlashError, FlashFailed, Piece, Sector, read_image
from ._hosts import Session
from ._lines import AnyLine

__all__ = [
    "Algorithm", "FlashDevice", "FlashError", "FlashFailed", "Piece", "Plan", "Programmer", "Sector", "read_image",
]

_ERASE, _PROGRAM = 1, 2
# What `--report` has of what was done: a word, and the address.
_ERASED, _PROGRAMMED = "erased", "programmed"
OnProgress = Optional[Callable[[str, int, int], object]]


class Plan:
    """What is to be erased and programmed for an image: its sectors, and its pages by their addresses, whole."""

    def __init__(self, device: FlashDevice, image: Iterable[Piece]) -> None:
        self.device = device
        self.pieces = sorted((addr, bytes(data)) for addr, data in image)
        self.sectors: Dict[Sector, List[int]] = {}
        pages: Dict[int, bytearray] = {}
        end = 0
        for addr, data in self.pieces:
            if addr < end:
                raise FlashError(f"the image has two bytes at {addr:08x}")
            end = addr + len(data)
            place = addr
            while place < end:
                page = place - (place - device.addr) % device.page
                behind = min(page + device.page, end)
                if page not in pages:
                    self.sectors.setdefault(device.sector_of(place), []).append(page)
                    pages[page] = bytearray([device.empty]) * device.page
                pages[page][place - page:behind - page] = data[place - addr:behind - addr]
                place = behind
        self.pages = {page: bytes(data) for page, data in pages.items()}

    @property
    def head(self) -> str:
        """The first line of a report: of which image and which flash it is."""
        digest = hashlib.sha256()
        for addr, data in self.pages.items():
            digest.update(addr.to_bytes(4, "little") + data)
        return f"image {digest.hexdigest()} in {self.device.name!r} at {self.device.addr:08x}"

    def left(self, report: Sequence[str]) -> "Plan":
        """Returns what is left to do after a report: the sectors of which a page isn't said to be programmed, whole.
        Raises `FlashError` if it is the report of another image or flash."""
        if list(report[:1]) != [self.head]:
            raise FlashError("the report is of another image, or of another flash")
        programmed: Set[int] = set()
        for line in report[1:]:
            what, _, addr = line.partition(" ")
            if what == _PROGRAMMED:
                programmed.add(int(addr, 16))
            elif what == _ERASED:
                erased = self.device.sector_of(int(addr, 16))
                programmed.difference_update(self.sectors.get(erased, ()))
        left = Plan(self.device, ())
        left.sectors = {sector: pages for sector, pages in self.sectors.items() if not programmed.issuperset(pages)}
        left.pages = {page: self.pages[page] for pages in left.sectors.values() for page in pages}
        return left


class Programmer:
    """Programs images by an algorithm, over a session. `ram` is where the algorithm may lie, a multiple of 8, in so
    many bytes: its code, a page, and a stack. `resumptions` is how often what failed by a lost acknowledgement is made
    again. `clock` is what is passed to the algorithm's Init, in Hz."""

    def __init__(
        self, session: Session, algorithm: Algorithm, *, ram: Tuple[int, int] = (0x2000_0000, 0x2000),
        resumptions: int = 0, clock: int = 0,
    ) -> None:
        self.device = algorithm.device
        self._calls, self._clock = Calls(session, algorithm, *ram, resumptions), clock

    def program(
        self, image: Iterable[Piece], *, report: Optional[TextIO] = None, earlier: Optional[Sequence[str]] = None,
        run: bool = False, on_progress: OnProgress = None,
    ) -> None:
        """Erases the sectors of an image, programs its pages, and compares all of it. The chip is reset before and at
        the end: then its core is halted, or with `run` runs.

        `report` gets a line for each sector and page once it is certainly erased or programmed. `earlier` has the lines
        of a report of the same image whose call ended early: sectors of which all pages were programmed stand, and the
        others are erased again. `on_progress(what, done, total)` is called with `erased` and `programmed`, and with
        numbers of bytes.

        Raises `FlashError` before anything is sent where the image isn't in the flash, or `earlier` is of another one.
        Raises `FlashFailed` if the flash or the algorithm fails, and what `Session` and `Core` raise: then the sector
        at which it stopped is erased or programmed in part, or not at all."""
        plan = Plan(self.device, image)
        left = plan if earlier is None else plan.left(earlier)
        log = _Log(report, on_progress)
        log.say(plan.head)
        for page in [page for page in plan.pages if page not in left.pages]:
            log.say(f"{_PROGRAMMED} {page:08x}")
        self._calls.begin()
        self._erase(left, log)
        self._program(left, log)
        for addr, data in plan.pieces:
            for place in range(0, len(data), self.device.page):
                self._calls.verify(addr + place, data[place:place + self.device.page])
        log.say("verified")
        self._calls.end(run)

    @contextlib.contextmanager
    def _initialised(self, what: int) -> Iterator[None]:
        """Calls Init for a `with` statement, and UnInit at its end, unless it failed."""
        self._calls.call("Init", self.device.addr, self._clock, what)
        yield
        self._calls.call("UnInit", what)

    def _erase(self, plan: Plan, log: "_Log") -> None:
        total, done = sum(sector.size for sector in plan.sectors), 0
        if not total:
            return
        with self._initialised(_ERASE):
            for sector in plan.sectors:
                self._calls.call("EraseSector", sector.addr, time_limit=self.device.erase_time / 1000)
                done += sector.size
                log.say(f"{_ERASED} {sector.addr:08x}")
                log.count(_ERASED, done, total)

    def _program(self, plan: Plan, log: "_Log") -> None:
        size, done = self.device.page, 0
        if not plan.pages:
            return
        with self._initialised(_PROGRAM):
            for addr, data in plan.pages.items():
                self._calls.load(self._calls.buffer, data)
                arguments = addr, size, self._calls.buffer
                self._calls.call("ProgramPage", *arguments, time_limit=self.device.program_time / 1000)
                done += size
                log.say(f"{_PROGRAMMED} {addr:08x}")
                log.count(_PROGRAMMED, done, size * len(plan.pages))


class _Log:
    """Where it is said what is done."""

    def __init__(self, report: Optional[TextIO], on_progress: OnProgress) -> None:
        self._report, self._on_progress = report, on_progress

    def say(self, line: str) -> None:
        """Writes a line of the report."""
        if self._report is not None:
            self._report.write(line + "\n")
            self._report.flush()

    def count(self, what: str, done: int, total: int) -> None:
        """Says how much is done."""
        if self._on_progress is not None:
            self._on_progress(what, done, total)


_EPILOG = """\
Not run on a chip yet: it is tested over an emulated core.

ALGORITHM is the flash algorithm of a CMSIS pack. IMAGE is ELF if it begins with
7f 45 4c 46, Intel HEX if its name ends in .hex, .ihex or .ihx, and else the
bytes at --base. ELF files are read by pyelftools.

Only the sectors that have a byte of the image are erased, with the other bytes
in them. After a lost acknowledgement what was in progress is continued,
--resume times: no page is programmed again that may have been. The report has a
line for each sector and page once it is certainly erased or programmed. After a
call that ended early, --continue keeps the sectors that the report says are
programmed, and erases and programs the others.

Status: 0 if all is programmed and as the image, 1 if the flash, the core or the
line failed or Ctrl-C came, 2 at an error."""


def _hexadecimal(text: str) -> int:
    return int(text, 16)


def _parser() -> argparse.ArgumentParser:
    parser = argparse.ArgumentParser(
        prog="python3 -m swd.flash",
        description="Program a flash by the algorithm of a CMSIS pack (not run on a chip yet)",
        epilog=_EPILOG, formatter_class=argparse.RawDescriptionHelpFormatter)
    add = parser.add_argument
    add("algorithm", metavar="ALGORITHM", help="the flash algorithm, an .FLM file")
    add("image", metavar="IMAGE", help="what is programmed")
    add("--line", metavar="MODULE:NAME", required=True, help="the function of a module that makes the line")
    add("--base", metavar="ADDR", type=_hexadecimal, help="the address of a file of bytes, hexadecimal")
    add("--ram", metavar="ADDR", type=_hexadecimal, default=0x2000_0000, help="where RAM is, hexadecimal [20000000]")
    add("--ram-size", metavar="BYTES", type=int, default=0x2000, help="how much of it may be used [8192]")
    add("--clock", metavar="HZ", type=int, default=0, help="the clock that Init is told [0]")
    add("--tries", metavar="N", type=int, default=8, help="retries per access [8]")
    add("--resume", metavar="N", type=int, default=0, help="resumptions per call [0]")
    add("--report", metavar="FILE", help="write what is done to FILE, while it is")
    add("--continue", metavar="FILE", dest="earlier", help="continue after a call whose report is FILE")
    add("--progress", action="store_true", help="print progress to stderr, at most once a second")
    add("--run", action="store_true", help="let the core run at the end")
    return parser


def _line(name: str) -> AnyLine:
    """Returns the line that the function MODULE:NAME makes."""
    module, _, attribute = name.partition(":")
    try:
        found = getattr(importlib.import_module(module), attribute)
    except (ImportError, AttributeError, ValueError) as failure:
        raise FlashError(f"--line {name}: {failure}") from failure
    line: AnyLine = found()
    return line


class _Progress:
    """Says how much is done, at most once a second."""

    def __init__(self) -> None:
        self._last = time.monotonic()

    def __call__(self, what: str, done: int, total: int) -> None:
        if time.monotonic() - self._last >= 1:
            self._last = time.monotonic()
            print(f"swd.flash: {what} {done} of {total} bytes", file=sys.stderr)


def _lines_of(path: str) -> List[str]:
    """Returns the whole lines of a report."""
    with open(path, encoding="utf-8") as opened:
        return opened.read().split("\n")[:-1]


def _run(options: argparse.Namespace) -> None:
    algorithm = Algorithm.read(options.algorithm)
    image = read_image(options.image, options.base)
    earlier = None if options.earlier is None else _lines_of(options.earlier)
    plan = Plan(algorithm.device, image)
    if earlier is not None:
        plan.left(earlier)  # Refuses the report of another image, before it may be overwritten.
    session = Session(_line(options.line), options.tries)
    programmer = Programmer(
        session, algorithm, ram=(options.ram, options.ram_size), resumptions=options.resume, clock=options.clock)
    with contextlib.ExitStack() as stack:
        report = None if options.report is None else stack.enter_context(open(options.report, "w", encoding="utf-8"))
        on_progress = _Progress() if options.progress else None
        programmer.program(image, report=report, earlier=earlier, run=options.run, on_progress=on_progress)


def main(arguments: Optional[Sequence[str]] = None) -> int:
    """Does what the arguments say. Returns the status."""
    options = _parser().parse_args(arguments)
    try:
        _run(options)
    except (SwdError, OSError) as failure:
        print(f"swd.flash: {failure}", file=sys.stderr)
        return 1 if isinstance(failure, (CoreError, FlashFailed, RunFailed)) else 2
    except KeyboardInterrupt:
        print("swd.flash: interrupted", file=sys.stderr)
        return 1
    print("swd.flash: programmed and verified", file=sys.stderr)
    return 0


if __name__ == "__main__":
    sys.exit(main())
