"""Builds the wheel of the package swd, with the standard library alone, so that `pip install .` needs no network.

The wheel has the shared library in it: the one that SWD_LIBRARY names, or the folder swd has as libswd_c.so, or in a
clone of the repository the one of `./swd --library`, which is compiled in about a minute where there is none. Its tag
is what the library says: manylinux of the glibc that it needs, or linux where it needs another library. Of a library
that isn't proved the version says so: 0.1.0+unproved.

Where SWD_LIBRARY is empty, or the system's loader finds libswd_c.so.0, the wheel has the package alone, which searches
the library when it is used. The same files give the same bytes.

`python3 backend.py FOLDER` writes the wheel to a folder, and prints its name."""
import base64
import ctypes
import hashlib
import io
import os
import re
import struct
import subprocess
import sys
import sysconfig
import tarfile
import zipfile
from typing import Any, Dict, List, Optional

HERE = os.path.dirname(os.path.abspath(__file__))
Files = Dict[str, bytes]


def _file(name: str) -> bytes:
    with open(os.path.join(HERE, name), "rb") as opened:
        return opened.read()


def _value(name: str, of: str) -> str:
    """The text of a line NAME = "TEXT"."""
    found = re.search(rf'^{name} = "(.*)"$', _file(of).decode(), re.MULTILINE)
    if found is None:
        raise ValueError(f"{of} has no {name}")
    return found.group(1)


VERSION = _value("__version__", "swd/__init__.py")
# What a library has in it that was compiled without a proof, and what the wheel's version then has at its end.
UNPROVED, MARK = b"the C library isn't proved", "+unproved"
METADATA = f"""Metadata-Version: 2.1
Name: {_value("name", "pyproject.toml")}
Version: %s
Summary: {_value("description", "pyproject.toml")}
License: {_value("license", "pyproject.toml")}
Requires-Python: {_value("requires-python", "pyproject.toml")}
Description-Content-Type: text/markdown

"""


def _package() -> Files:
    """The files of the package, but for the library."""
    names = sorted(name for name in os.listdir(os.path.join(HERE, "swd")) if name.endswith((".py", ".typed")))
    return {f"swd/{name}": _file(os.path.join("swd", name)) for name in names}


def _licenses() -> Files:
    """The license texts, from here, as in a source archive, or from the repository."""
    files: Files = {}
    for name in ("LICENSE-APACHE", "LICENSE-MIT"):
        for folder in (HERE, os.path.join(HERE, "..", "..")):
            if os.path.exists(os.path.join(folder, name)):
                files[name] = _file(os.path.join(folder, name))
                break
    return files


def _notices() -> Files:
    """The license texts of what is linked into the library, where SWD_NOTICES names them."""
    return {"LICENSES-LINKED": _file(os.environ["SWD_NOTICES"])} if "SWD_NOTICES" in os.environ else {}


def _metadata(version: str = VERSION) -> bytes:
    return (METADATA % version).encode() + _file("README.md")


def _made() -> Optional[str]:
    """The library of `./swd --library`, which makes it where it isn't there."""
    script = os.path.join(HERE, "..", "..", "swd")
    if not os.path.exists(script):
        return None
    folder = subprocess.run([script, "--library"], stdout=subprocess.PIPE, universal_newlines=True).stdout.strip()
    return os.path.join(folder, "lib", "libswd_c.so") if folder else None


def _is_in_the_system() -> bool:
    try:
        ctypes.CDLL("libswd_c.so.0")
    except OSError:
        return False
    return True


def _library() -> Optional[bytes]:
    """The shared library that goes into the wheel; None where the package is to search it."""
    beside, named = os.path.join(HERE, "swd", "libswd_c.so"), os.environ.get("SWD_LIBRARY")
    path = named or (beside if os.path.exists(beside) else None if named == "" else _made())
    if path is not None:
        with open(path, "rb") as opened:
            return opened.read()
    if named is None and not _is_in_the_system():
        raise SystemExit(
            "swd: no libswd_c.so: run ./swd --library in the repository of swd, which makes it in about a minute, and name "
            "it by SWD_LIBRARY; where that is empty, the package is installed without one"
        )
    return None


# The processors of ELF files, by e_machine, and the libraries that each glibc has.
MACHINES = {62: "x86_64", 183: "aarch64"}
GLIBC = {"libc.so.6", "libm.so.6", "libpthread.so.0", "libdl.so.2", "ld-linux-x86-64.so.2", "ld-linux-aarch64.so.1"}
# The oldest glibc whose tag pip knows, and what pip called that before.
OLDEST, OLD_TAG = 17, "manylinux2014"


def _needed(library: bytes) -> List[str]:
    """The libraries that one needs, an ELF file of 64 bits: the entries DT_NEEDED of its dynamic section."""
    table, = struct.unpack_from("<Q", library, 40)
    size, count = struct.unpack_from("<HH", library, 58)
    sections = [struct.unpack_from("<IIQQQQIIQQ", library, table + size * at) for at in range(count)]
    names = []
    for kind, start, length, link in [(it[1], it[4], it[5], it[6]) for it in sections]:
        for place in range(start, start + length, 16) if kind == 6 else ():
            tag, value = struct.unpack_from("<QQ", library, place)
            if tag == 1:
                begin = sections[link][4] + value
                names.append(library[begin:library.index(b"\0", begin)].decode())
    return names


def _platform(library: bytes) -> str:
    """The tag of the wheels that a library fits: manylinux of the glibc that it needs. Where it isn't for Linux, or
    needs another library, that of this machine."""
    here = re.sub(r"[^A-Za-z0-9]", "_", sysconfig.get_platform())
    machine = MACHINES.get(struct.unpack_from("<H", library, 18)[0]) if library[:6] == b"\x7fELF\2\1" else None
    if machine is None:
        return here
    others = sorted(set(_needed(library)) - GLIBC)
    if others:
        print(f"swd: the wheel is tagged {here}, and not manylinux: its library needs {', '.join(others)}", file=sys.stderr)
        return here
    minors = [int(it) for it in re.findall(rb"\0GLIBC_2\.(\d+)", library)]
    least = max([OLDEST, *minors])
    return f"manylinux_2_{least}_{machine}" + (f".{OLD_TAG}_{machine}" if least == OLDEST else "")


def _record(files: Files, name: str) -> bytes:
    lines = []
    for path, content in sorted(files.items()):
        digest = base64.urlsafe_b64encode(hashlib.sha256(content).digest()).rstrip(b"=").decode()
        lines.append(f"{path},sha256={digest},{len(content)}\n")
    return "".join([*lines, f"{name},,\n"]).encode()


def build_wheel(
    wheel_directory: str, config_settings: Optional[Dict[str, Any]] = None, metadata_directory: Optional[str] = None,
) -> str:
    """Writes the wheel, and returns its name (PEP 517)."""
    library, platform, version = _library(), "any", VERSION
    files = _package()
    if library is not None:
        files["swd/libswd_c.so"] = library
        platform = _platform(library)
        if UNPROVED in library:
            version += MARK
    info = f"swd-{version}.dist-info"
    pure = "true" if library is None else "false"
    tags = "".join(f"Tag: py3-none-{it}\n" for it in platform.split("."))
    files[f"{info}/METADATA"] = _metadata(version)
    files[f"{info}/WHEEL"] = f"Wheel-Version: 1.0\nGenerator: swd\nRoot-Is-Purelib: {pure}\n{tags}".encode()
    for license_name, text in {**_licenses(), **_notices()}.items():
        files[f"{info}/{license_name}"] = text
    files[f"{info}/RECORD"] = _record(files, f"{info}/RECORD")
    name = f"swd-{version}-py3-none-{platform}.whl"
    # Stored, since what deflate writes depends on zlib's version.
    with zipfile.ZipFile(os.path.join(wheel_directory, name), "w", zipfile.ZIP_STORED) as wheel:
        for path, content in sorted(files.items()):
            entry = zipfile.ZipInfo(path, (1980, 1, 1, 0, 0, 0))
            entry.external_attr = 0o100644 << 16
            entry.create_system = 3
            wheel.writestr(entry, content)
    return name


def build_sdist(sdist_directory: str, config_settings: Optional[Dict[str, Any]] = None) -> str:
    """Writes the source archive, and returns its name (PEP 517)."""
    folder = f"swd-{VERSION}"
    files = {name: _file(name) for name in ("README.md", "backend.py", "pyproject.toml")}
    files.update({**_package(), **_licenses(), "PKG-INFO": _metadata()})
    with tarfile.open(os.path.join(sdist_directory, f"{folder}.tar.gz"), "w:gz") as archive:
        for path, content in sorted(files.items()):
            entry = tarfile.TarInfo(f"{folder}/{path}")
            entry.size = len(content)
            archive.addfile(entry, io.BytesIO(content))
    return f"{folder}.tar.gz"


if __name__ == "__main__":
    print(build_wheel(sys.argv[1]))
