#!/usr/bin/env python3
"""Builds user-mode Linux, and shows what its unmodified UFS driver does with the device.

usage: linux.py [--no-build] [--no-install] [--cuts N] [--log FILE]

The kernel is that of Debian's package linux-source-6.1 with the patches of clients/linux, which change
user-mode Linux and not the driver. It is built once, in the folder butcherford/linux of the user's cache
(XDG_CACHE_HOME, else ~/.cache), and again where the configuration, a patch or the package changed.
The tests of the front run first, which need no kernel. Then the kernel runs over the device of the library:
it finds the disks, discards blocks, makes a file system and writes it, and the power fails again and again
inside a program or an erase while files are written. What is missing of Debian's packages is installed with
apt-get, as root. --no-install installs nothing; with --no-build the archive of the library is the one that
is there. --cuts says how often the power fails (20). --log adds to a file what each kernel said. JOBS is how
many programs compile the kernel at a time (2).

The last line is 'N passed, M failed', and the status is 0 only if nothing failed.
"""
import argparse
import os
import pathlib
import signal
import subprocess
import sys
import tempfile

import clients
import libufs
from crates import ROOT

FOLDER = ROOT / "clients" / "linux"
CUTS = 20
INTERRUPTED = 130
# User-mode Linux names a socket in a word of the kernel's command line, so its path has to be short.
PLACE = "/tmp"


def run_tests(tally):
    """Runs the tests of the front, and counts them."""
    environment = {**os.environ, "PYTHONPATH": os.pathsep.join(map(str, (clients.CLIENT, FOLDER)))}
    words = [clients.PYTHON, "-B", "-m", "pytest", "-q", "--color=no", "-p", "no:cacheprovider", "tests"]
    done = subprocess.run(words, cwd=FOLDER, env=environment, stdout=subprocess.PIPE, encoding="utf-8",
                          check=False)
    print(done.stdout, end="", flush=True)
    passed, failed = clients.counts(done.stdout)
    tally.passed += passed
    tally.failed += failed or int(done.returncode != 0 or passed == 0)


def show(asked):
    """Builds and runs all of it."""
    import kernel
    import shows
    if not asked.no_install:
        kernel.install_packages()
        clients.install_missing(clients.missing_pytest())
    if not asked.no_build:
        libufs.build()
    clients.make_library()
    tally = shows.Tally(asked.log)
    run_tests(tally)
    built = kernel.kernel()
    with tempfile.TemporaryDirectory(prefix="linux.", dir=PLACE) as folder:
        place = pathlib.Path(folder)
        shows.show(shows.Bench(built, kernel.first_files(place), place, tally), asked.cuts)
    print(f"{tally.passed} passed, {tally.failed} failed")
    return int(tally.failed != 0)


def main():
    parser = argparse.ArgumentParser(description=__doc__, formatter_class=argparse.RawTextHelpFormatter)
    parser.add_argument("--no-build", action="store_true", help="takes the archive that is there")
    parser.add_argument("--no-install", action="store_true", help="installs no package")
    parser.add_argument("--cuts", type=int, default=CUTS, metavar="N", help="how often the power fails")
    parser.add_argument("--log", type=pathlib.Path, metavar="FILE", help="adds there what each kernel said")
    asked = parser.parse_args()
    os.environ["BUTCHERFORD_LIBRARY"] = str(clients.SHARED)
    sys.path[:0] = [str(clients.CLIENT), str(FOLDER)]
    import kernel
    # Whoever ends this program ends the kernel that it started.
    signal.signal(signal.SIGTERM, signal.default_int_handler)
    try:
        return show(asked)
    except (clients.Fault, kernel.BuildFault) as fault:
        print(f"linux: {fault}", file=sys.stderr)
        return 1
    except KeyboardInterrupt:
        return INTERRUPTED


if __name__ == "__main__":
    sys.exit(main())
