#!/usr/bin/env python3
"""Builds the library for C, and its examples.

usage: libufs.py build | examples

`build` proves the crate libufs with those below it, and makes the archive crates/libufs/out/libufs.a:
the library, and what it takes memory by. `examples` does so too, and compiles each program of
examples/c as C and the headers as C++, with all warnings; what comes has to end with status 0, and
again under valgrind, where that is installed. CC and CXX name the compilers. The status is 0 where
all went well, and else 1.
"""
import os
import shutil
import subprocess
import sys
import tempfile
from pathlib import Path

from crates import ROOT

CRATE = ROOT / "crates" / "libufs"
PROVED = CRATE / "out" / "liblibufs.a"
ARCHIVE = CRATE / "out" / "libufs.a"
INCLUDE = ROOT / "include"
EXAMPLES = ROOT / "examples" / "c"
WARNINGS = ("-Wall", "-Wextra", "-Wpedantic", "-Werror")
VALGRIND = ("valgrind", "-q", "--leak-check=full", "--show-leak-kinds=all", "--error-exitcode=9")
HEADER_IN_CXX = """#include <ufs_dies.h>
int main() { ufs_device device = UFS_CLOSED; return ufs_close(&device) == UFS_NO_DEVICE ? 0 : 1; }
"""


def run(words, folder=ROOT):
    """Runs it, and ends the program where it did not go well."""
    done = subprocess.run([str(word) for word in words], cwd=folder, check=False)
    if done.returncode != 0:
        print(f"libufs: {Path(str(words[0])).name} ended with status {done.returncode}", file=sys.stderr)
        sys.exit(1)


def memory():
    """The kit's object by which the library takes memory: it lies beside the kit's command rt."""
    kit = Path(os.path.realpath(shutil.which("rt") or "")).parent.parent
    return kit / "c" / "liblibc_c.a"


def build():
    """Proves the library, and joins it with what it takes memory by."""
    run(["rt", "lib"], CRATE)
    joined = f"create {ARCHIVE}\naddlib {PROVED}\naddlib {memory()}\nsave\nend\n"
    done = subprocess.run(["ar", "-M"], input=joined, text=True, check=False)
    if done.returncode != 0:
        sys.exit(1)


def try_program(program):
    """Runs it by itself, and under valgrind."""
    run([program])
    if shutil.which(VALGRIND[0]):
        run([*VALGRIND, program])


def examples():
    """Compiles each example and the headers in C++, and runs what comes."""
    build()
    with tempfile.TemporaryDirectory() as folder:
        program = Path(folder) / "program"
        for source in sorted(EXAMPLES.glob("*.c")):
            run([os.environ.get("CC", "cc"), "-std=c99", "-O1", "-g", *WARNINGS, f"-I{INCLUDE}", source, ARCHIVE,
                 "-o", program])
            try_program(program)
        header = Path(folder) / "header.cpp"
        header.write_text(HEADER_IN_CXX)
        run([os.environ.get("CXX", "c++"), *WARNINGS, f"-I{INCLUDE}", header, ARCHIVE, "-o", program])
        try_program(program)


def main():
    words = {"build": build, "examples": examples}
    if len(sys.argv) != 2 or sys.argv[1] not in words:
        sys.exit("usage: libufs.py build | examples")
    words[sys.argv[1]]()


if __name__ == "__main__":
    main()
