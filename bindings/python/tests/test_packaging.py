"""Tests of the source archive, of the wheel that is built from it, and of the search for the library. They are run as
those of test_swd.py."""
import os
import re
import subprocess
import sys
import tarfile
import tempfile
import unittest
import zipfile

import swd
from test_swd import ROOT

HERE = os.path.join(ROOT, "bindings", "python")
INFO = f"swd-{swd.__version__}"


def content_of(*path):
    with open(os.path.join(*path), "rb") as opened:
        return opened.read()


def build(sources, what, folder):
    """Builds an archive from these sources, without a library, and returns its path."""
    environment = {name: value for name, value in os.environ.items() if not name.startswith("SWD_")}
    environment["SWD_LIBRARY"] = ""
    code = f"import backend; print(backend.build_{what}({folder!r}))"
    told = subprocess.run([sys.executable, "-B", "-c", code], cwd=sources, env=environment, check=True,
                          stdout=subprocess.PIPE, universal_newlines=True).stdout
    return os.path.join(folder, told.strip())


def unpack(archive, folder):
    """Unpacks an archive of plain files."""
    with tarfile.open(archive) as opened:
        for member in opened.getmembers():
            path = os.path.join(folder, member.name)
            os.makedirs(os.path.dirname(path), exist_ok=True)
            with open(path, "wb") as unpacked:
                unpacked.write(opened.extractfile(member).read())


class Packaging(unittest.TestCase):
    """What an archive has beside the package."""

    def test_the_source_archive(self):
        """It has the licenses and the metadata, and a wheel that is built from it has them, too."""
        with tempfile.TemporaryDirectory() as folder:
            unpack(build(HERE, "sdist", folder), folder)
            sources = os.path.join(folder, INFO)
            licenses = {name: content_of(ROOT, name) for name in ("LICENSE-APACHE", "LICENSE-MIT")}
            for name, license_text in licenses.items():
                self.assertEqual(content_of(sources, name), license_text)
            metadata = content_of(sources, "PKG-INFO")
            self.assertTrue(metadata.startswith(f"Metadata-Version: 2.1\nName: swd\nVersion: {swd.__version__}\n".encode()))
            with zipfile.ZipFile(build(sources, "wheel", folder)) as wheel:
                for name, content in {**licenses, "METADATA": metadata}.items():
                    self.assertEqual(wheel.read(f"{INFO}.dist-info/{name}"), content)
                self.assertEqual(wheel.read("swd/_runs.py"), content_of(HERE, "swd", "_runs.py"))


class FirstUse(unittest.TestCase):
    """The library beside the package is found by the package alone, one that SWD_LIBRARY names before it, and one of
    the system after it."""

    CODE = """import swd
try:
    print(swd.decode("000"), swd._library._found.path)
except swd.LibraryNotFound:
    print("none")"""

    def package(self, folder):
        """Makes a package without a library, and returns its folder."""
        package = os.path.join(folder, "package", "swd")
        os.makedirs(package)
        sources = os.path.dirname(swd.__file__)
        for name in os.listdir(sources):
            if name.endswith(".py"):
                os.symlink(os.path.join(sources, name), os.path.join(package, name))
        return package

    def told(self, package, **environment):
        """What a program over this package prints: the items of a trace, and the path of the library."""
        environment["PYTHONPATH"] = os.path.dirname(package)
        return subprocess.run([sys.executable, "-B", "-c", self.CODE], env=environment, check=True,
                              stdout=subprocess.PIPE, universal_newlines=True).stdout

    def test_no_program_is_run(self):
        """PATH has nothing but programs that leave a trace of themselves."""
        with tempfile.TemporaryDirectory() as folder:
            for name in ("gcc", "cc", "ld", "ldconfig", "objdump"):
                path = os.path.join(folder, name)
                with open(path, "w", encoding="ascii") as script:
                    script.write(f"#!/bin/sh\n: >{folder}/{name}.ran\n")
                os.chmod(path, 0o755)
            package = self.package(folder)
            beside = os.path.join(package, "libswd_c.so")
            os.symlink(swd.Library().path, beside)
            for found, named in ((True, {}), (False, {"SWD_LIBRARY": "/nowhere/libswd_c.so"}), (False, {})):
                if not found and not named:
                    os.remove(beside)
                told = self.told(package, PATH=folder, **named)
                self.assertEqual(told, f"[Idle(count=3)] {beside}\n" if found else "none\n")
                self.assertEqual([name for name in os.listdir(folder) if name.endswith(".ran")], [])

    def test_the_names_that_the_loader_searches(self):
        """A package of a distribution for programs has the library's soname alone, one for building also the name
        without its number, which may lead to another version."""
        with open(os.path.join(ROOT, "release", "shared"), encoding="ascii") as script:
            soname = f"libswd_c.so.{re.findall('^abi=([0-9]+)$', script.read(), re.MULTILINE)[0]}"
        with tempfile.TemporaryDirectory() as folder:
            package = self.package(folder)
            os.symlink(swd.Library().path, os.path.join(folder, soname))
            self.assertEqual(self.told(package, LD_LIBRARY_PATH=folder), f"[Idle(count=3)] {soname}\n")
            with open(os.path.join(folder, "libswd_c.so"), "wb"):
                self.assertEqual(self.told(package, LD_LIBRARY_PATH=folder), f"[Idle(count=3)] {soname}\n")
            os.replace(os.path.join(folder, soname), os.path.join(folder, "libswd_c.so"))
            self.assertEqual(self.told(package, LD_LIBRARY_PATH=folder), "[Idle(count=3)] libswd_c.so\n")


if __name__ == "__main__":
    unittest.main()
