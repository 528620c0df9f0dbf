"""Images: bytes at any address of a target, which are loaded, compared and read as words."""
import contextlib
import struct
from typing import Any, Callable, Iterator, List, Optional, Tuple, Union

from ._accesses import MOST_ACCESSES, Answer, BusFault, Read, Report, Value, Write
from ._errors import ImageDiffers, ImageInterrupted, ImageStopped, NotBytes, OutOfRange, Reentered, number, report_of
from ._runs import Run

Buffer = Union[bytes, bytearray, memoryview]
OnProgress = Optional[Callable[[int, int], object]]
Call = Callable[..., Report]
# Returns the newest run of the host, which may have ended.
Newest = Callable[[], Optional[Run]]
# The words from one call of `on_progress` to the next.
_PROGRESS_WORDS = 1024


class _Range:
    """`count` bytes at `addr`, and the words that have one of them."""

    def __init__(self, addr: int, count: int) -> None:
        self.addr, self.count = number("addr", addr, 1 << 32), count
        if self.addr + count > 1 << 32:
            raise OutOfRange(f"{count} bytes at {self.addr:#x} pass the end of the address space")
        # The address of the first word, the byte in it where the range begins, and the number of words.
        self.first, self.begin = self.addr & ~3, self.addr & 3
        self.words = (self.begin + count + 3) // 4 if count > 0 else 0

    def bytes_in(self, words: int) -> int:
        """Returns how many bytes of the range the first words have."""
        return min(self.count, max(0, 4 * words - self.begin))

    def cut(self, words: bytes) -> bytes:
        """Returns the bytes of the range that the first words have, of all bytes of these words."""
        return words[self.begin:self.begin + self.count]

    def partial_words(self) -> List[int]:
        """Returns the places of the words that have a byte outside the range: the first word, the last one, or both."""
        ends = sorted({0, self.words - 1}) if self.words > 0 else []
        return [word for word in ends if 4 * word < self.begin or self.begin + self.count < 4 * word + 4]

    def blocks(self) -> Iterator[Tuple[int, int]]:
        """Returns the place of the first word of each call, and the number of its words."""
        for word in range(0, self.words, MOST_ACCESSES):
            yield word, min(MOST_ACCESSES, self.words - word)


class _Transfer:
    """The calls for the words of a range, and how many of these are certainly done."""

    def __init__(self, name: str, span: _Range, on_progress: OnProgress, newest: Newest) -> None:
        self.name, self.span, self.on_progress, self.newest = name, span, on_progress, newest
        # How many words are done, and the bytes of those that were read.
        self.done, self.read = 0, bytearray()
        # The report of the last call.
        self.report: Optional[Report] = None
        # Whether a call for the words in their order is being made, and the last run that isn't to be counted for it.
        self.in_order, self.counted = False, newest()

    def call(self, perform: Call, *arguments: Any) -> None:
        """Makes a call for the next words in their order."""
        self.counted, self.in_order = self.newest(), True
        report = perform(*arguments, on_answer=self._counting() if self.on_progress else None)
        self._take(report)
        self.in_order = False

    def read_word(self, perform: Call, addr: int) -> int:
        """Reads a word by a call of its own."""
        self.report = perform([Read(addr)])
        return self.report.words()[0]

    def _counting(self) -> Callable[[int, Answer], None]:
        """Returns what counts the answers of the next call, up to a bus error."""
        before, on_progress, span = self.done, self.on_progress, self.span
        succeeds = True

        def count(index: int, answer: Answer) -> None:
            nonlocal succeeds
            succeeds = succeeds and not isinstance(answer, BusFault)
            words = before + index + 1
            if succeeds and on_progress and (words % _PROGRESS_WORDS == 0 or words == span.words):
                on_progress(span.bytes_in(words), span.count)

        return count

    def _take(self, report: Report) -> None:
        """Counts the accesses of a call that are done, up to a bus error, and keeps the words that were read. May be
        called again where Ctrl-C came in it."""
        self.report = report
        faults = (index for index, answer in enumerate(report.answers) if isinstance(answer, BusFault))
        count = next(faults, len(report.answers))
        words = [answer.word for answer in report.answers[:count] if isinstance(answer, Value)]
        del self.read[4 * self.done:]
        self.read += struct.pack(f"<{len(words)}I", *words)
        self.done, self.counted = self.done + count, self.newest()

    def _uncounted(self) -> Optional[Report]:
        """Returns the report of the last run, if Ctrl-C came before it was returned or counted."""
        run = self.newest()
        return None if run is None or run is self.counted else run.report()

    def tell(self, failure: BaseException) -> None:
        """Says how far the image came in what ended it after a call began: raises the exception of an image in its
        place."""
        report = report_of(failure)
        # A call that is refused has no run: the last one is that of whoever uses the line.
        if report is None and not isinstance(failure, Reentered):
            report = self._uncounted()
        if report is not None and self.in_order:
            self._take(report)
        report = report or self.report
        if report is not None:
            self._stop(failure, report)

    def _stop(self, failure: BaseException, report: Report) -> None:
        """Raises the exception of an image in place of what ended it."""
        span = self.span
        done = span.bytes_in(self.done)
        addr, data = span.addr + done, span.cut(bytes(self.read))[:done]
        told = f"{self.name} stopped at {addr:08x}, after {done} of {span.count} bytes"
        if isinstance(failure, KeyboardInterrupt):
            raise ImageInterrupted(f"{told}: interrupted", report, addr, done, data) from failure
        if isinstance(failure, Exception):
            raise ImageStopped(f"{told}: {failure}", report, addr, done, data) from failure
        with contextlib.suppress(AttributeError):
            failure.done = done  # type: ignore[attr-defined]


def _bytes_of(data: Buffer) -> bytes:
    try:
        return memoryview(data).tobytes()
    except TypeError:
        raise NotBytes(f"data is {type(data).__name__}: it has to be bytes, a bytearray or a memoryview") from None


def load(run: Call, newest: Newest, addr: int, data: Buffer, on_progress: OnProgress) -> None:
    """Loads an image by calls of `run`."""
    image = _bytes_of(data)
    span = _Range(addr, len(image))
    transfer = _Transfer("load", span, on_progress, newest)
    try:
        words = bytearray(4 * span.words)
        for word in span.partial_words():
            struct.pack_into("<I", words, 4 * word, transfer.read_word(run, span.first + 4 * word))
        words[span.begin:span.begin + span.count] = image
        for word, count in span.blocks():
            listed = enumerate(struct.unpack_from(f"<{count}I", words, 4 * word), word)
            transfer.call(run, [Write(span.first + 4 * place, value) for place, value in listed])
    except BaseException as failure:
        transfer.tell(failure)
        raise


def _read(transfer: _Transfer, run_block: Call) -> bytes:
    """Reads the bytes of a range by calls of `run_block`."""
    for word, count in transfer.span.blocks():
        transfer.call(run_block, transfer.span.first + 4 * word, count)
    return transfer.span.cut(bytes(transfer.read))


def dump(run_block: Call, newest: Newest, addr: int, count: int, on_progress: OnProgress) -> bytes:
    """Reads the bytes of a range."""
    span = _Range(addr, number("count", count, 1 << 32))
    transfer = _Transfer("dump", span, on_progress, newest)
    try:
        return _read(transfer, run_block)
    except BaseException as failure:
        transfer.tell(failure)
        raise


def _difference(found: bytes, image: bytes) -> Optional[int]:
    """Returns the place of the first byte that differs."""
    return None if found == image else next(place for place, byte in enumerate(image) if found[place] != byte)


def verify(run_block: Call, newest: Newest, addr: int, data: Buffer, on_progress: OnProgress) -> None:
    """Reads the range of an image, and compares it."""
    image = _bytes_of(data)
    transfer = _Transfer("verify", _Range(addr, len(image)), on_progress, newest)
    try:
        found = _read(transfer, run_block)
        place = _difference(found, image)
    except BaseException as failure:
        transfer.tell(failure)
        raise
    if place is not None:
        raise ImageDiffers(addr + place, found[place], image[place])
