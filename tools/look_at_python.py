#!/usr/bin/env python3
"""Looks at all Python of the repository with mypy and pyflakes, as Debian has them.

usage: look_at_python.py [--no-install]

Both find what a run would trip over, such as a name that a module does not have, and run nothing. mypy looks at the
bodies of all functions, and demands a type of everything in the folders where all have one. Where mypy or pyflakes is
missing it is installed with apt-get, as root; with --no-install, or where that cannot be done, a line says that
nobody looked. What mypy learned is kept in the user's cache, so a later run takes seconds. A file counts as failed if
anything was found in it. The last line is 'N passed, M failed', and the status is 0 only if nothing was found.
"""
import argparse
import concurrent.futures
import os
import pathlib
import re
import shutil
import subprocess
import sys
from typing import Dict, List, NamedTuple, Tuple

import packages
from crates import ROOT
from verdicts import cache_folder

# Each program with its package.
PROGRAMS = {"mypy": "mypy", "pyflakes3": "pyflakes3"}
SETTINGS = "tools/mypy.ini"
# A line of either program begins with the file, and mypy has notes that explain an error.
FAULT = re.compile(r"^(\S+\.py):(?!.*: note: )")
# A test gives stand-ins for what is meant, and takes an answer that may be missing as there: it fails if it is not.
OF_TESTS = tuple(f"--disable-error-code={it}" for it in ("arg-type", "assignment", "index", "union-attr"))
# So many parts are looked at side by side: each takes some seconds at first.
LANES = 2
# What no commit has.
NOT_OURS = {"out", ".git", "__pycache__"}


class Part(NamedTuple):
    """Folders whose files mypy looks at in one run, the folders where it finds what they import, and its words."""

    folders: Tuple[str, ...]
    imports: Tuple[str, ...]
    words: Tuple[str, ...] = ()
    settings: str = SETTINGS


PARTS = (
    Part(("tools",), ("tools", "clients/linux", "python")),
    Part(("tools/tests",), ("tools",), OF_TESTS),
    Part(("python/butcherford",), ("python",), settings="python/pyproject.toml"),
    Part(("python", "python/tests", "python/examples"), ("python",), OF_TESTS),
    Part(("examples/block",), ("python", "examples/block"), ("--strict",)),
    Part(("clients/linux",), ("python", "clients/linux", "tools"), ("--strict",)),
    Part(("clients/linux/tests",), ("python", "clients/linux", "tools"), OF_TESTS),
)


def files(root: pathlib.Path = ROOT) -> Dict[str, List[str]]:
    """The Python files of the repository, by their folders."""
    found: Dict[str, List[str]] = {}
    for folder, below, names in os.walk(root):
        below[:] = sorted(set(below) - NOT_OURS)
        own = [name for name in sorted(names) if name.endswith(".py")]
        if own:
            found[str(pathlib.Path(folder).relative_to(root))] = own
    return found


def faults_in(text: str) -> List[str]:
    """The lines that tell a fault of a file."""
    return [line for line in text.splitlines() if FAULT.match(line)]


def ran(words: List[str], root: pathlib.Path, **more: str) -> List[str]:
    """What a program found. A run that failed and told no fault is one itself."""
    done = subprocess.run(words, cwd=root, env={**os.environ, **more}, stdin=subprocess.DEVNULL,
                          stdout=subprocess.PIPE, stderr=subprocess.STDOUT, encoding="utf-8", check=False)
    found = faults_in(done.stdout)
    return found if found or done.returncode == 0 else [f"{words[0]}: {done.stdout[-2000:]}"]


def typed(part: Part, there: Dict[str, List[str]], kept: pathlib.Path, root: pathlib.Path) -> List[str]:
    """What mypy finds in a part. It keeps what it learned in a folder of the part's own, since runs with other words
    would not use it."""
    named = [str(pathlib.PurePath(folder, name)) for folder in part.folders for name in there.get(folder, ())]
    if not named:
        return []
    own = kept / part.folders[0].replace("/", "-")
    words = ["mypy", "--config-file", part.settings, "--cache-dir", str(own), "--no-error-summary",
             "--no-color-output", *part.words, *named]
    return ran(words, root, MYPYPATH=os.pathsep.join(str(root / it) for it in part.imports))


def looked(kept: pathlib.Path, root: pathlib.Path = ROOT) -> Tuple[List[str], int]:
    """What was found, by whatever of the programs is there, and how many files there are."""
    there = files(root)
    named = [str(pathlib.PurePath(folder, name)) for folder, own in there.items() for name in own]
    of_parts = {folder for part in PARTS for folder in part.folders}
    found = [f"{folder}/{own[0]}: its folder is in no part" for folder, own in there.items() if folder not in of_parts]
    if shutil.which("pyflakes3"):
        found += ran(["pyflakes3", *named], root)
    if shutil.which("mypy"):
        with concurrent.futures.ThreadPoolExecutor(LANES) as pool:
            of_each = pool.map(lambda part: typed(part, there, kept, root), PARTS)
            found += [line for lines in of_each for line in lines]
    # A file that another part imports is told twice.
    return list(dict.fromkeys(found)), len(named)


def missing() -> List[str]:
    """The programs that are not there."""
    return [program for program in PROGRAMS if shutil.which(program) is None]


def install() -> None:
    """Installs what is missing, where this may be done. What apt-get says goes to standard error."""
    wanted = [PROGRAMS[it] for it in missing()]
    if not wanted or os.geteuid() != 0 or shutil.which("apt-get") is None:
        return
    for words in packages.commands(wanted):
        if subprocess.run(words, stdin=subprocess.DEVNULL, stdout=sys.stderr, check=False).returncode != 0:
            return


def main() -> int:
    parser = argparse.ArgumentParser(description="Looks at all Python of the repository with mypy and pyflakes.")
    parser.add_argument("--no-install", action="store_true", help="installs no package")
    if not parser.parse_args().no_install:
        install()
    for program in missing():
        print(f"not looked at: {program} is not there; install {PROGRAMS[program]} as root")
    found, count = looked(cache_folder().parent / "mypy")
    if found:
        print("\n".join(found))
    failed = len({line.partition(":")[0] for line in found})
    print(f"{count - failed} passed, {failed} failed")
    return int(failed != 0)


if __name__ == "__main__":
    sys.exit(main())
