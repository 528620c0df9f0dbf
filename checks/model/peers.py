"""Two other hosts over a simulated CMSIS-DAP probe, by their own drivers: pyOCD, where it is installed for this Python,
and OpenOCD, which is led there by examples/openocd/hidapi.c.
"""

from __future__ import annotations

import logging
import os
import socket
import subprocess
import threading
from types import SimpleNamespace
from typing import Protocol

from .bits import Request
from .calls import BASE
from .dap import PinsLine, Probe
from .line import Bus, MarkedPins
from .target import CLEAN, Quirks, Target

IDR = 0x24770011
EXAMPLE = os.path.join(os.path.dirname(os.path.abspath(__file__)), "..", "..", "examples", "openocd")
MOST_SECONDS = 600


class IdentifiedTarget(Target):
    """A target whose access port has an IDR, and no ROM table."""

    def value(self, q: Request) -> int:
        word = super().value(q)
        if q.ap and self.select == 0xF0:
            self.buffer = {12: IDR, 8: 0xFFFFFFFF}.get(q.addr, 0)
        return word


def simulated(words: int, size: int, in_flight: int = 1, marks=lambda number: CLEAN) -> tuple[Bus, Probe]:
    """A memory of so many words from BASE on, none of them zero, and a probe before its target."""
    bus = Bus({BASE + 4 * at: 0x80000000 + at for at in range(words)})
    return bus, Probe(PinsLine(MarkedPins(IdentifiedTarget(bus, Quirks()), marks)), size, in_flight)


class Takes(Protocol):
    """What answers packets: the probe of this model, or `swd probe`."""

    def take(self, packet: bytes) -> bytes: ...


def serve(probe: Takes, line: socket.socket) -> None:
    """Answers each datagram by a reply of the same size, up to the end."""
    with line:
        while packet := line.recv(4096):
            reply = probe.take(packet)
            line.send(reply.ljust(len(packet), b"\xa5"))


def opened_port(probe: object) -> object:
    """pyOCD's debug port over a probe of pyOCD, powered up, its access ports found. The write of ABORT clears each
    sticky flag: pyOCD's own leaves WDATAERR set, at which a target answers FAULT for good.
    """
    from pyocd.coresight import dap

    port = dap.DebugPort(probe, None)
    port.init()
    port.write_reg(dap.DP_ABORT, 0x1E)
    port.power_up_debug()
    port.find_aps()
    return port


def pyocd_over(probe: Takes) -> SimpleNamespace:
    """pyOCD's memory access over a probe: `access`, its `probe` and `port`, and `packets()`, how many a probe of this
    model had.
    """
    from pyocd.coresight import ap
    from pyocd.probe.cmsis_dap_probe import CMSISDAPProbe
    from pyocd.probe.debug_probe import DebugProbe
    from pyocd.probe.pydapaccess.dap_access_cmsis_dap import DAPAccessCMSISDAP
    from pyocd.probe.pydapaccess.interface.interface import Interface

    class Datagrams(Interface):
        def __init__(self, line):
            super().__init__()
            self.line, self.size = line, 64
            self.vendor_name = self.product_name = "simulated"

        def open(self):
            pass

        def close(self):
            self.line.close()

        def get_serial_number(self):
            return "SIM0001"

        def set_packet_count(self, count):
            self.packet_count = count

        def set_packet_size(self, size):
            self.size = size

        def write(self, data):
            self.line.send(bytes(data).ljust(self.size, b"\0"))

        def read(self, size=-1, timeout=-1):
            return self.line.recv(4096)

    logging.disable(logging.CRITICAL)
    here, there = socket.socketpair(socket.AF_UNIX, socket.SOCK_SEQPACKET)
    threading.Thread(target=serve, args=(probe, there), daemon=True).start()
    link = DAPAccessCMSISDAP("SIM0001")
    link._interface = Datagrams(here)
    host = CMSISDAPProbe(link)
    host.open()
    host.connect(DebugProbe.Protocol.SWD)
    port = opened_port(host)
    access = ap.MEM_AP(port, 0)
    access.init()
    host.flush()
    return SimpleNamespace(access=access, probe=host, port=port, packets=lambda: sum(probe.commands.values()))


def built_hidapi(room: str) -> str:
    """The stand-in for libhidapi, built in this folder."""
    library = f"{room}/hidapi.so"
    words = ["-std=c99", "-O2", "-shared", "-fPIC", f"{EXAMPLE}/hidapi.c", "-o", library]
    subprocess.run([os.environ.get("CC", "cc"), *words], check=True)
    return library


def openocd_over(probe: Takes, room: str, hidapi: str, commands: list[str]) -> tuple[int, str]:
    """The status of OpenOCD with these commands over a probe, and what it said."""
    name = f"{room}/hidapi"
    with socket.socket(socket.AF_UNIX, socket.SOCK_SEQPACKET) as listening:
        listening.bind(name)
        listening.listen(1)
        listening.settimeout(MOST_SECONDS)
        words = [os.environ.get("OPENOCD", "openocd"), "-c", "adapter driver cmsis-dap", "-c", "cmsis_dap_backend hid"]
        words += ["-c", "transport select swd", "-c", "adapter speed 4000", "-f", f"{EXAMPLE}/chip.cfg"]
        words += [word for it in ["init", "poll off", *commands, "shutdown"] for word in ("-c", it)]
        env = os.environ | {"LD_PRELOAD": hidapi, "DAP_SOCKET": name}
        with subprocess.Popen(words, env=env, stdout=subprocess.PIPE, stderr=subprocess.STDOUT, text=True) as run:
            line, _ = listening.accept()
            serve(probe, line)
            said = run.stdout.read()
    os.unlink(name)
    return run.returncode, said
