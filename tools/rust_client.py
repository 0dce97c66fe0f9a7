#!/usr/bin/env python3
"""Runs the tests of the Rust crate, and installs it.

usage: rust_client.py test | install FOLDER | uninstall FOLDER

`test` runs the tests and the example of rust/butcherford over crates/libufs/out/libufs.a, which
`libufs.py build` makes. It needs cargo and rustc, and no registry; without cargo it says so, and counts
nothing. What is built goes to a folder that is removed again. The last line is 'N passed, M failed', and the
status is 0 only if none failed. `install` copies the crate to FOLDER, which a user's Cargo.toml names, and
`uninstall` removes what is there of it.
"""
import argparse
import os
import pathlib
import re
import shutil
import subprocess
import sys
import tempfile

from crates import ROOT
from libufs import ARCHIVE

CRATE = ROOT / "rust" / "butcherford"
EXAMPLE = "power_cut"
# How a run of tests ends: those of the crate, of each file of tests, and of the documentation.
COUNT = re.compile(r"^test result: \w+\. (\d+) passed; (\d+) failed;", re.MULTILINE)
# No registry is asked, and Cargo.lock stays as it is.
ALONE = ("--offline", "--locked", "--quiet")


def cargo(words, target):
    """Runs cargo over the crate, and gives its status and what it printed."""
    environment = {**os.environ, "BUTCHERFORD_LIB_DIR": str(ARCHIVE.parent), "CARGO_TARGET_DIR": target}
    done = subprocess.run(["cargo", *words], cwd=CRATE, env=environment, stdout=subprocess.PIPE,
                          encoding="utf-8", check=False)
    return done.returncode, done.stdout


def run_tests():
    """Runs them and the example, shows what cargo says, and gives the counts. The example counts as one."""
    if shutil.which("cargo") is None:
        print("the Rust crate was not tested: cargo is not on the PATH; install cargo and rustc")
        return 0, 0
    with tempfile.TemporaryDirectory() as target:
        status, said = cargo(["test", *ALONE, "--no-fail-fast"], target)
        example, told = cargo(["run", *ALONE, "--example", EXAMPLE], target)
    print(said + told, end="")
    found = COUNT.findall(said)
    passed, failed = (sum(int(count[place]) for count in found) for place in (0, 1))
    failed = failed or int(status != 0 or passed == 0)
    return passed + int(example == 0), failed + int(example != 0)


def test(_):
    """Tests it."""
    passed, failed = run_tests()
    print(f"{passed} passed, {failed} failed")
    return int(failed != 0)


def installed():
    """The files that a user of the crate needs, as paths in its folder."""
    for pattern in ("Cargo.toml", "Cargo.lock", "build.rs", "src/*.rs", "examples/*.rs"):
        yield from (source.relative_to(CRATE) for source in sorted(CRATE.glob(pattern)))


def install(asked):
    """Copies the crate."""
    for name in installed():
        file = asked.folder / name
        file.parent.mkdir(parents=True, exist_ok=True)
        shutil.copyfile(CRATE / name, file)
    print(f"installed {asked.folder}")
    return 0


def uninstall(asked):
    """Removes the files that `install` copies, and the folders if nothing is left in them."""
    there = [asked.folder / name for name in installed() if (asked.folder / name).is_file()]
    for file in there:
        file.unlink()
    for folder in sorted({asked.folder, *(file.parent for file in there)}, reverse=True):
        if folder.is_dir() and not any(folder.iterdir()):
            folder.rmdir()
    if there:
        print(f"removed {asked.folder}")
    else:
        print(f"nothing to remove: there is no crate in {asked.folder}")
    return 0


def main():
    layout = argparse.RawDescriptionHelpFormatter
    parser = argparse.ArgumentParser(description=__doc__, formatter_class=layout)
    words = parser.add_subparsers(required=True, metavar="WORD")
    words.add_parser("test").set_defaults(act=test)
    for name, act in (("install", install), ("uninstall", uninstall)):
        word = words.add_parser(name)
        word.set_defaults(act=act)
        word.add_argument("folder", type=pathlib.Path, metavar="FOLDER")
    asked = parser.parse_args()
    return asked.act(asked)


if __name__ == "__main__":
    sys.exit(main())
