"""The files of a flash tool: the algorithm of a CMSIS pack, and the image."""
import importlib
import struct
from dataclasses import dataclass
from typing import Any, Callable, Dict, Iterator, List, Optional, Tuple, TypeVar

from ._errors import SwdError

Piece = Tuple[int, bytes]
_Result = TypeVar("_Result")
# What an algorithm has to have.
FUNCTIONS = ("Init", "UnInit", "EraseSector", "ProgramPage")
# FlashDevice: Vers, DevName, DevType, DevAdr, szDev, szPage, Res, valEmpty, toProg, toErase; and then pairs of a
# sector's size and the offset from which on sectors have it, up to one of ones.
_DEVICE, _SECTOR, _LAST = struct.Struct("<H128sHIIIIB3xII"), struct.Struct("<II"), (0xFFFF_FFFF, 0xFFFF_FFFF)
_IS_LOADED = 2


class FlashError(SwdError):
    """A file is no algorithm or no image, or isn't for this flash; or a flash couldn't be programmed, which is
    `FlashFailed`. The message says what is wrong."""


class FlashFailed(FlashError):
    """The algorithm said that it failed, or didn't return; or the flash isn't as the image."""


@dataclass(frozen=True)
class Sector:
    """The least that is erased at once."""

    addr: int
    size: int


@dataclass(frozen=True)
class FlashDevice:
    """What an algorithm says of its flash. `sectors` has pairs of an offset and the size of the sectors from it on.
    Times are in milliseconds: of a page, and of a sector."""

    name: str
    addr: int
    size: int
    page: int
    empty: int
    program_time: int
    erase_time: int
    sectors: Tuple[Tuple[int, int], ...]

    def sector_of(self, addr: int) -> Sector:
        """Returns the sector of an address. Raises `FlashError` if the flash has none there."""
        offset = addr - self.addr
        if not 0 <= offset < self.size:
            raise FlashError(f"{addr:08x} isn't in the flash, {self.addr:08x} to {self.addr + self.size - 1:08x}")
        first, size = max(it for it in self.sectors if it[0] <= offset)
        return Sector(self.addr + first + (offset - first) // size * size, size)


@dataclass(frozen=True)
class Algorithm:
    """A flash algorithm: code that runs at any address, with its data, and where its functions and its data begin in
    it."""

    device: FlashDevice
    code: bytes
    functions: Dict[str, int]
    static_base: int = 0

    @classmethod
    def read(cls, path: str) -> "Algorithm":
        """Reads an algorithm, as those of CMSIS packs: an ELF file with the functions Init, UnInit, EraseSector and
        ProgramPage, and FlashDevice in the section DevDscr. It needs pyelftools. Raises `FlashError`, and `OSError`."""
        with open(path, "rb") as opened:
            return _of_elf(path, opened, lambda elf: _algorithm(path, elf))


def _of_elf(path: str, opened: Any, read: Callable[[Any], _Result]) -> _Result:
    """Returns what is read of an ELF file by pyelftools."""
    try:
        elffile = importlib.import_module("elftools.elf.elffile")
    except ImportError:
        raise FlashError("pyelftools isn't installed, which reads ELF files (Debian: python3-pyelftools)") from None
    try:
        found = elffile.ELFFile(opened)
        if found.elfclass == 32 and found.little_endian and found["e_machine"] == "EM_ARM":
            return read(found)
    except FlashError:
        raise
    except Exception as failure:  # pylint: disable=broad-except
        # Of a file that isn't whole, it raises one of many.
        raise FlashError(f"{path}: not an ELF file, or not a whole one: {failure}") from failure
    raise FlashError(f"{path}: an ELF file, but not of 32 bits, little-endian and for Arm")


def _data_of(part: Any, size: int) -> bytes:
    """Returns the bytes of a section or a segment, of which the file has to have all."""
    data = bytes(part.data())
    if len(data) != size:
        raise ValueError(f"it has {len(data)} bytes of {size}")
    return data


def _loaded(elf: Any) -> List[Piece]:
    """Returns the bytes that an ELF file has for memory."""
    loads = [it for it in elf.iter_segments() if it["p_type"] == "PT_LOAD" and it["p_filesz"]]
    return [(it["p_paddr"], _data_of(it, it["p_filesz"])) for it in loads]


def _algorithm(path: str, elf: Any) -> Algorithm:
    sections = [it for it in elf.iter_sections() if it["sh_flags"] & _IS_LOADED and it["sh_size"]]
    described = next((it for it in sections if it.name == "DevDscr"), None)
    symbols = {} if elf.get_section_by_name(".symtab") is None else {
        it.name: it["st_value"] for it in elf.get_section_by_name(".symtab").iter_symbols()}
    missing = [name for name in FUNCTIONS if name not in symbols]
    if described is None or missing:
        what = "section DevDscr" if described is None else f"function {missing[0]}"
        raise FlashError(f"{path}: no flash algorithm: it has no {what}")
    code = bytearray()
    for section in sections:
        if section is not described:
            end = section["sh_addr"] + section["sh_size"]
            if end > 1 << 20:
                raise FlashError(f"{path}: no flash algorithm: its code doesn't begin at 0")
            code.extend(bytes(max(0, end - len(code))))
            code[section["sh_addr"]:end] = _data_of(section, section["sh_size"])
    static = min((it["sh_addr"] for it in sections if it.name == "PrgData"), default=0)
    place = symbols.get("FlashDevice", described["sh_addr"]) - described["sh_addr"]
    functions = {name: symbols[name] & ~1 for name in FUNCTIONS}
    return Algorithm(_device(path, described.data()[place:]), bytes(code), functions, static)


def _device(path: str, data: bytes) -> FlashDevice:
    """Returns FlashDevice of the bytes of DevDscr."""
    if len(data) < _DEVICE.size:
        raise FlashError(f"{path}: no flash algorithm: FlashDevice isn't whole")
    _, name, _, addr, size, page, _, empty, program_time, erase_time = _DEVICE.unpack_from(data)
    sectors: List[Tuple[int, int]] = []
    for length, offset in _SECTOR.iter_unpack(data[_DEVICE.size:len(data) & ~7]):
        if (length, offset) == _LAST:
            break
        sectors.append((offset, length))
    is_whole = page and not page % 4 and all(length and not length % page for _, length in sectors)
    if not sectors or min(sectors)[0] != 0 or not is_whole:
        raise FlashError(f"{path}: no flash algorithm: its sectors don't begin at 0, or aren't of whole pages of words")
    text = name.split(b"\0")[0].decode("latin-1")
    return FlashDevice(text, addr, size, page, empty, program_time, erase_time, tuple(sectors))


def read_image(path: str, base: Optional[int] = None) -> List[Piece]:
    """Reads an image as pieces, each with its address. An ELF file has the bytes of its PT_LOAD segments, at their
    physical addresses, and needs pyelftools; a file whose name ends in .hex, .ihex or .ihx is Intel HEX; any other is
    bytes at `base`.

    Raises `FlashError` where it isn't one, or has no bytes, and `OSError`."""
    with open(path, "rb") as opened:
        data = opened.read()
        if data.startswith(b"\x7fELF"):
            pieces = _of_elf(path, opened, _loaded)
        elif path.lower().endswith((".hex", ".ihex", ".ihx")):
            pieces = list(_records(path, data))
        elif base is None:
            raise FlashError(f"{path}: neither ELF nor .hex: its address has to be given")
        else:
            pieces = [(base, data)] if data else []
    if not pieces:
        raise FlashError(f"{path}: no bytes")
    return pieces


def _records(path: str, data: bytes) -> Iterator[Piece]:
    """Returns the data of each record of an Intel HEX file."""
    upper = 0
    for line, text in enumerate(data.split(b"\n"), 1):
        if not text.strip():
            continue
        try:
            record = bytes.fromhex(text.strip().decode("ascii")[1:])
        except ValueError:
            record = b""
        if not text.startswith(b":") or len(record) < 5 or len(record) != record[0] + 5 or sum(record) & 0xFF:
            raise FlashError(f"{path}: line {line}: not a record, or of a wrong length or checksum")
        kind, payload = record[3], record[4:-1]
        if kind == 0 and payload:
            yield upper + int.from_bytes(record[1:3], "big"), payload
        elif kind in (2, 4):
            upper = int.from_bytes(payload, "big") << (4 if kind == 2 else 16)
        elif kind == 1:
            return
    raise FlashError(f"{path}: no record of type 01, which ends the file")
