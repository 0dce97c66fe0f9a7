#!/usr/bin/env python3
"""Makes the shared library for clients in other languages, tests these, and installs the Python package.

usage: clients.py library | test [--no-build] [--no-install] [--no-block-tools] | install FOLDER | uninstall FOLDER

`library` makes crates/libufs/out/libufs.so of libufs.a, which `libufs.py build` makes beside it. CC names the
compiler. `test` builds both, unless --no-build is given, and runs the tests and examples of the folder python
with Debian's pytest. Then it tests the Rust crate as rust_client.py does; where cargo is missing it says so. Then
come the block tools of block_tools.py against the device, unless --no-block-tools is given. It installs pytest
and these tools with apt-get, as root, where they are missing; with --no-install it installs nothing. Its last
line is 'N passed, M failed', in which a run that was to fail and did counts as passed; the status is 0 only if
none failed. `install` copies the package with the library to FOLDER, in which Python is to look for packages,
and `uninstall` removes what is there of it.
"""
import argparse
import os
import pathlib
import re
import shutil
import subprocess
import sys

import block_tools
import packages
import rust_client
from crates import ROOT
from libufs import ARCHIVE, build

SHARED = ARCHIVE.with_suffix(".so")
CLIENT = ROOT / "python"
PACKAGE, TOLD = "butcherford", "butcherford-1.dist-info"
# Debian's Python, for which its pytest is installed.
PYTHON = "/usr/bin/python3"
PYTEST = "python3-pytest"
GOOD = ("passed", "xfailed")
COUNT = re.compile(r"(\d+) (passed|failed|errors?|skipped|xfailed|xpassed)")


class Fault(Exception):
    """What keeps the package from being tested."""


def make_library():
    """The shared library, of all that is in the archive."""
    words = [os.environ.get("CC", "cc"), "-shared", "-Wl,--whole-archive", str(ARCHIVE), "-Wl,--no-whole-archive",
             "-o", str(SHARED)]
    try:
        subprocess.run(words, check=True)
    except (OSError, subprocess.CalledProcessError) as fault:
        raise Fault(str(fault)) from fault


def has_pytest():
    """Whether Debian's Python has it."""
    return subprocess.run([PYTHON, "-c", "import pytest"], capture_output=True, check=False).returncode == 0


def missing_pytest():
    """Debian's package of pytest, where it is missing."""
    return [] if has_pytest() else [PYTEST]


def missing_block_tools():
    """The packages of the block tools that are missing."""
    return sorted({package for program, package in block_tools.PACKAGES.items() if not shutil.which(program)})


def install_missing(missing):
    """Installs these packages of Debian. What apt-get says goes to standard error."""
    try:
        for words in packages.commands(missing) if missing else ():
            subprocess.run(words, stdout=sys.stderr, check=True)
    except (OSError, subprocess.CalledProcessError) as fault:
        raise Fault(f"{fault}\ninstall {' '.join(missing)} as root, and say --no-install") from fault


def counts(text):
    """How many runs went well, and how many did not, as pytest's last line tells."""
    found = COUNT.findall((text.splitlines() or [""])[-1])
    good = sum(int(number) for number, what in found if what in GOOD)
    return good, sum(int(number) for number, what in found) - good


def run_tests():
    """Runs them, shows what pytest says, and gives the counts."""
    words = [PYTHON, "-B", "-m", "pytest", "-q", "--color=no", "-p", "no:cacheprovider"]
    try:
        done = subprocess.run(words, cwd=CLIENT, stdout=subprocess.PIPE, encoding="utf-8", check=False)
    except OSError as fault:
        raise Fault(str(fault)) from fault
    print(done.stdout, end="")
    passed, failed = counts(done.stdout)
    return passed, failed or int(done.returncode != 0 or passed == 0)


def test(asked):
    """Builds what is tested, and tests it."""
    if not asked.no_build:
        build()
    make_library()
    if not asked.no_install:
        install_missing(missing_pytest() + ([] if asked.no_block_tools else missing_block_tools()))
    os.environ.update({block_tools.LIBRARY: str(SHARED), "PYTHONPATH": str(CLIENT)})
    steps = [run_tests, rust_client.run_tests] + ([] if asked.no_block_tools else [block_tools.run_tools])
    passed, failed = (sum(counts) for counts in zip(*(step() for step in steps)))
    print(f"{passed} passed, {failed} failed")
    return int(failed != 0)


def installed():
    """The files of the package and of what pip and pytest read of it, each with the place that it comes from."""
    for source in sorted((*(CLIENT / PACKAGE).glob("*.py"), CLIENT / PACKAGE / "py.typed", SHARED)):
        yield f"{PACKAGE}/{source.name}", source
    for source in sorted((CLIENT / TOLD).iterdir()):
        yield f"{TOLD}/{source.name}", source


def install(asked):
    """Copies the package."""
    make_library()
    for name, source in installed():
        file = asked.folder / name
        file.parent.mkdir(parents=True, exist_ok=True)
        shutil.copyfile(source, file)
    print(f"installed {asked.folder / PACKAGE}")
    return 0


def uninstall(asked):
    """Removes the files that `install` copies, what Python kept beside them, and the folders if nothing is left."""
    removed = 0
    for name, _ in installed():
        file = asked.folder / name
        if file.is_file():
            file.unlink()
            removed += 1
    for folder in (asked.folder / PACKAGE, asked.folder / TOLD):
        shutil.rmtree(folder / "__pycache__", ignore_errors=True)
        if folder.is_dir() and not any(folder.iterdir()):
            folder.rmdir()
    print(f"removed {asked.folder / PACKAGE}" if removed else
          f"nothing to remove: there is no {asked.folder / PACKAGE}")
    return 0


def library(_):
    """Makes the library."""
    make_library()
    return 0


def main():
    parser = argparse.ArgumentParser(description=__doc__, formatter_class=argparse.RawDescriptionHelpFormatter)
    words = parser.add_subparsers(required=True, metavar="library | test | install | uninstall")
    words.add_parser("library").set_defaults(act=library)
    tests = words.add_parser("test")
    tests.set_defaults(act=test)
    tests.add_argument("--no-build", action="store_true", help="takes the archive that is there")
    tests.add_argument("--no-install", action="store_true", help="installs no package")
    tests.add_argument("--no-block-tools", action="store_true", help="leaves out iscsi-test-cu, fio and ext4")
    for name, act in (("install", install), ("uninstall", uninstall)):
        word = words.add_parser(name)
        word.set_defaults(act=act)
        word.add_argument("folder", type=pathlib.Path, metavar="FOLDER")
    asked = parser.parse_args()
    try:
        return asked.act(asked)
    except Fault as fault:
        print(f"clients: {fault}", file=sys.stderr)
        return 1


if __name__ == "__main__":
    sys.exit(main())
