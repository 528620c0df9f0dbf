"""Ways of packets to a CMSIS-DAP probe, and back."""
import importlib
import os
import select
import time
from typing import Any, List, Optional, Protocol, Tuple

from ._errors import ProbeFailed

# The size of a report before the probe said its own, and the longest packet that can be used.
FIRST_SIZE, LONGEST = 64, 512
_UDEV = 'a udev rule lets users open it: SUBSYSTEM=="hidraw", MODE="0660", TAG+="uaccess"'
AWAY = "the probe went away: plug it in again; what was reported until then holds"
# The class of an interface of version 2.
_VENDOR = 0xFF


class Packets(Protocol):
    """A way to a probe, for `Probe.over`: each packet is answered by one reply. One that doesn't come, or not as a
    whole, is an `OSError` or `ProbeFailed`. The probe is used no more after one."""

    def exchange(self, packet: bytes, size: int) -> bytes:
        """Sends a packet, and returns the reply. `size` is the size of the probe's packets, 64 until it said its own:
        reports have that many bytes, and both may be padded."""

    def close(self) -> None:
        """Closes the way."""


class _Files:
    """Two files, to read and to write. Nothing is waited for longer than `timeout` seconds."""

    def __init__(self, reader: int, writer: int, timeout: float) -> None:
        self._reader, self._writer, self._timeout = reader, writer, timeout

    def close(self) -> None:
        """Closes the files."""
        for file in {self._reader, self._writer}:
            os.close(file)

    def _read(self, most: int, until: float) -> bytes:
        ready, _, _ = select.select([self._reader], [], [], max(0.0, until - time.monotonic()))
        if not ready:
            raise ProbeFailed(f"the probe doesn't answer within {self._timeout} s: plug it in again")
        found = os.read(self._reader, most)
        if not found:
            raise ProbeFailed(AWAY)
        return found

    def _write(self, packet: bytes) -> float:
        """Writes a packet at once. Returns until when the reply has to come."""
        count = os.write(self._writer, packet)
        if count != len(packet):
            raise ProbeFailed(f"{count} bytes of a packet of {len(packet)} were written")
        return time.monotonic() + self._timeout


class Reports(_Files):
    """Reports of one size: a write is one of them, with its number, 0, before it, and a read is one."""

    def exchange(self, packet: bytes, size: int) -> bytes:
        """Sends a packet, padded, and returns the report that is its reply."""
        reply = self._read(size + 1, self._write(b"\0" + packet.ljust(size, b"\0")))
        if len(reply) != size:
            raise ProbeFailed(f"a report has {len(reply)} bytes, not {size}: are packets framed?")
        return reply

    def drop(self) -> None:
        """Drops the reports that another program left."""
        while select.select([self._reader], [], [], 0)[0] and os.read(self._reader, LONGEST):
            pass


class Framed(_Files):
    """Packets that have their length before them, in two bytes, the first least significant."""

    def exchange(self, packet: bytes, size: int) -> bytes:
        """Sends a packet, and returns the reply."""
        until = self._write(len(packet).to_bytes(2, "little") + packet)
        length = int.from_bytes(self._whole(2, until), "little")
        if not 0 < length <= size:
            raise ProbeFailed(f"{AWAY}, or it has packets of {length} bytes" if length else AWAY)
        return self._whole(length, until)

    def _whole(self, count: int, until: float) -> bytes:
        found = b""
        while len(found) < count:
            found += self._read(count - len(found), until)
        return found


class HidDevice:
    """Reports by the module `hid` (Debian's python3-hid)."""

    def __init__(self, device: Any, timeout: float) -> None:
        self._device, self._timeout = device, timeout
        self.close = device.close

    def exchange(self, packet: bytes, size: int) -> bytes:
        """Sends a packet, padded, and returns the report that is its reply."""
        count = self._device.write(b"\0" + packet.ljust(size, b"\0"))
        reply = bytes(self._device.read(size, int(self._timeout * 1000))) if count == size + 1 else b""
        if len(reply) != size:
            raise ProbeFailed(f"{AWAY} ({len(reply)} bytes came)")
        return reply


class Bulk:
    """Bulk endpoints by the module `usb` (Debian's python3-usb), which `device` is of."""

    def __init__(self, device: Any, there: int, back: int, timeout: float) -> None:
        self._device, self._there, self._back, self._timeout = device, there, back, int(timeout * 1000)

    def exchange(self, packet: bytes, size: int) -> bytes:
        """Sends a packet, and returns the reply."""
        count = self._device.write(self._there, packet, self._timeout)
        reply = bytes(self._device.read(self._back, size, self._timeout)) if count == len(packet) else b""
        if not reply:
            raise ProbeFailed(AWAY)
        return reply

    def close(self) -> None:
        """Gives the device back."""
        importlib.import_module("usb.util").dispose_resources(self._device)


def opened(path: str, framed: bool, timeout: float) -> Packets:
    """Opens a way: a file, or two with a comma between; `hid:` or `usb:`, with a serial number where there are several
    probes."""
    for name, find in (("hid:", _hid), ("usb:", _usb)):
        if path.startswith(name):
            return find(path[len(name):], timeout)
    files: List[int] = []
    try:
        for name in path.split(",", 1):
            # A fifo that is opened so doesn't wait for its other end.
            files.append(os.open(name, os.O_RDWR | getattr(os, "O_NOCTTY", 0) | getattr(os, "O_CLOEXEC", 0)))
    except OSError as failure:
        for file in files:
            os.close(file)
        hint = f"; {_UDEV}" if isinstance(failure, PermissionError) else ""
        raise ProbeFailed(f"cannot open {path}: {failure.strerror}{hint}") from failure
    if framed:
        return Framed(files[0], files[-1], timeout)
    reports = Reports(files[0], files[-1], timeout)
    reports.drop()
    return reports


def _hid(serial: str, timeout: float) -> Packets:
    hid = _module("hid")
    for found in hid.enumerate():
        if "CMSIS-DAP" in (found["product_string"] or "") and serial in ("", found["serial_number"]):
            device = hid.device()
            try:
                device.open_path(found["path"])
            except OSError as failure:
                raise ProbeFailed(f"cannot open {found['path']!r}: {failure}; {_UDEV}") from failure
            return HidDevice(device, timeout)
    raise ProbeFailed(_missing("hid", serial))


def _usb(serial: str, timeout: float) -> Packets:
    core, util = _module("usb.core"), _module("usb.util")
    for device in core.find(find_all=True):
        try:
            found = _endpoints(device, util) if serial in ("", device.serial_number) else None
            if found is not None:
                util.claim_interface(device, found[0])
                return Bulk(device, found[1], found[2], timeout)
        except (OSError, NotImplementedError, ValueError):
            # One that may not be opened says neither its serial number nor the names of its interfaces.
            continue
    raise ProbeFailed(_missing("usb", serial))


def _module(name: str) -> Any:
    try:
        return importlib.import_module(name)
    except ImportError as failure:
        package = name.partition(".")[0]
        raise ProbeFailed(f"the module {package} isn't installed: Debian has it in python3-{package}") from failure


def _endpoints(device: Any, util: Any) -> Optional[Tuple[int, int, int]]:
    """Returns the interface of CMSIS-DAP version 2, its endpoint to the probe and the one back."""
    for interface in device.get_active_configuration():
        name = util.get_string(device, interface.iInterface) if interface.iInterface else None
        if interface.bInterfaceClass == _VENDOR and "CMSIS-DAP" in (name or ""):
            addresses = [endpoint.bEndpointAddress for endpoint in interface]
            if len(addresses) >= 2 and not addresses[0] & 0x80 and addresses[1] & 0x80:
                return interface.bInterfaceNumber, addresses[0], addresses[1]
    return None


def _missing(kind: str, serial: str) -> str:
    which = f" with serial number {serial}" if serial else ""
    return f"{kind}: there is no CMSIS-DAP probe{which} that may be opened"
