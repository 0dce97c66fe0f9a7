#!/usr/bin/env python3
"""Runs a program on its stored cases, and compares what it prints with what is stored.

usage: cases.py [--proved | --write | --built RUN] [--part PART PARTS] ufsim|ufstool

A case of ufsim is a script examples/NAME.txt, which it runs, a script over an image of dies in
examples/version_1/, or wrong words in tools/bad_calls/. A case of ufstool lies in
examples/ufstool/. NAME.args has the words of the case NAME, one a line; a word that names a file
beside it or in examples/ is that file, also one that is packed as WORD.xz. The case has to print
NAME.stdout on standard output and NAME.stderr on standard error (nothing, if there is no such
file), and to end with the status in NAME.status (0, if there is no such file). The outputs of a
script are named after its whole name, as NAME.txt.stdout.

The program is built once, without a proof, but with --built RUN is run, as tools/kept.py keeps it.
With --part only each case is run whose place, counted by PARTS, is PART, so that several processes
share the cases. With --proved both programs are run that `rt ci` has proved and built here: LLVM's,
and that of Rattle's own compiler. Only these run the cases that check a script over an image, since
an unproved program, with its checks, takes seconds for each stop. Those of ufsim are also run where
standard output cannot be written, on a full disk and on a pipe that nobody reads, and have to say so;
and where standard error is a terminal, on which a check has to show how far it is. With --write the
stored files are written anew: read them then.

The last line is 'N passed, M failed'. The status is 0 if no case failed and there is one.
"""
import argparse
import contextlib
import lzma
import os
import pathlib
import re
import shutil
import signal
import subprocess
import sys
import tempfile
from typing import Any, Dict, NamedTuple, Tuple

from crates import ROOT
from kept import kept

EXAMPLES = ROOT / "examples"
WRONG_WORDS = ROOT / "tools" / "bad_calls"
# Scripts over dies that a program left which wrote pages of version 1.
OLD_DIES = EXAMPLES / "version_1"
# How the name of a packed file ends.
PACKED = ".xz"
ENDED = re.compile(r"^case=(\S+) run=(\w+)(?: status=(\d+))?.*$")
# What rt ci calls the programs that it builds: by LLVM, and by Rattle's own compiler.
BUILDS = ("", ".by-rattle")
# A proved program has so many seconds, as under rt ci. An unproved one is slower, by its checks, and has more, so
# that a busy machine fails none.
SECONDS = 120
TRY_SECONDS = 300
# No program of ours reads the environment.
NO_ENVIRONMENT: Dict[str, str] = {}
# How a program is run: its output is read as text, and its status is looked at later.
HOW: Dict[str, Any] = {"stdin": subprocess.DEVNULL, "capture_output": True, "encoding": "utf-8", "errors": "replace",
                       "check": False}


# What is run where standard output cannot be written, and what the program then says, with its status.
UNWRITTEN = tuple((it, str(ROOT / "tools" / "refused_memory" / f"{it}.txt")) for it in ("run", "check"))
SAID = ("ufsim: output\n", 1)
# What is checked where standard error is a terminal, with how many stops, what it prints, and what the terminal
# gets last.
SHOWN = {("check", "stop_in_write.txt"): 72, ("check", "profile_1.txt"): 18,
         ("check", "checked_attentions.txt"): 27,
         ("image", "check", "row.img", "row_check.txt"): 42}
COUNTED = "check stops {} bad 0\n"
LAST_SHOWN = r"\rcheck line \d+ of \d+ stops {} bad 0\r\x1b\[K$"


class Output(NamedTuple):
    """What a case printed on standard output and on standard error, and its status."""

    stdout: str
    stderr: str
    status: int


class Case(NamedTuple):
    """A call of a program: its name, its words, and the path that its outputs are named after."""

    name: str
    words: Tuple[str, ...]
    stem: pathlib.Path

    def file(self, suffix):
        return self.stem.with_name(f"{self.stem.name}.{suffix}")

    def wanted(self):
        """What is stored of the case."""
        files = [self.file(suffix) for suffix in Output._fields]
        texts = [it.read_text(encoding="utf-8") if it.is_file() else "" for it in files]
        return Output(texts[0], texts[1], int(texts[2] or 0))

    def write(self, found):
        """Makes what the case printed what it has to print."""
        texts = (found.stdout, found.stderr, f"{found.status}\n" if found.status else "")
        for suffix, text in zip(Output._fields, texts):
            if text:
                self.file(suffix).write_text(text, encoding="utf-8")
            else:
                self.file(suffix).unlink(missing_ok=True)

    def is_long(self):
        """Whether it checks a script over an image, which takes an unproved program minutes."""
        return self.stem.parent == OLD_DIES and "check" in self.words

    def files(self):
        """The files that words of the case name, some of them packed."""
        folders = (EXAMPLES, self.stem.parent)
        places = [(word, folder / f"{word}{ending}") for word in self.words for folder in folders if word
                  for ending in ("", PACKED)]
        return {word: file for word, file in places if file.is_file()}


def lay(file, place):
    """Makes a copy of a file, unpacked if it is packed."""
    if file.suffix != PACKED:
        shutil.copyfile(file, place)
        return
    with lzma.open(file) as packed, open(place, "wb") as copy:
        shutil.copyfileobj(packed, copy)


def scripts():
    """A case for each script of the examples."""
    return [Case(file.stem, ("run", file.name), file) for file in sorted(EXAMPLES.glob("*.txt"))]


def cases_in(folder):
    """The cases of a folder."""
    texts = {file: file.read_text(encoding="utf-8") for file in sorted(folder.glob("*.args"))}
    return [Case(it.stem, tuple(text.splitlines()), it.with_suffix("")) for it, text in texts.items()]


def cases_of(program):
    if program != "ufsim":
        return cases_in(EXAMPLES / program)
    return scripts() + cases_in(OLD_DIES) + cases_in(WRONG_WORDS)


def tried(program, cases, root=ROOT):
    """What the program of a repository printed in each case, as `rt try` builds it once, and what rt said."""
    with kept(f"{program}_main", root=root) as (built, said):
        return (ran(built, cases, TRY_SECONDS) if built else {}), said


def outputs_of(printed):
    """What each case wrote to standard output: it comes after a line with its name."""
    parts = re.split(r"^== (\S+)\n", printed, flags=re.M)
    return dict(zip(parts[1::2], parts[2::2]))


def endings_of(told):
    """What each case wrote to standard error, and its status, which a line after it tells."""
    found, before = {}, ""
    for line in told.splitlines(keepends=True):
        ended = ENDED.match(line)
        if ended:
            found[ended[1]] = (before, int(ended[3]) if ended[2] == "ended" and ended[3] else -1)
            before = ""
        else:
            before += line
    return found


@contextlib.contextmanager
def folder_for(case):
    """A folder with the files that the case names."""
    with tempfile.TemporaryDirectory(prefix="cases.") as folder:
        for word, file in case.files().items():
            lay(file, pathlib.Path(folder, word))
        yield folder


def ran(built, cases, seconds=SECONDS):
    """What a built program printed in each case, which has so many seconds."""
    found = {}
    for case in cases:
        with folder_for(case) as folder:
            try:
                done = subprocess.run([built, *case.words], cwd=folder, env=NO_ENVIRONMENT, timeout=seconds, **HOW)
                found[case.name] = Output(done.stdout, done.stderr, done.returncode)
            except (OSError, subprocess.TimeoutExpired) as fault:
                found[case.name] = Output("", f"{fault}\n", -1)
    return found


def show_first_difference(case, name, found, wanted):
    """Says where two texts differ first."""
    pairs = zip(found.splitlines() + ["(the end)"], wanted.splitlines() + ["(the end)"])
    for number, (is_there, is_due) in enumerate(pairs, 1):
        if is_there != is_due:
            print(f"{case}: {name}, line {number}:\n  found:  {is_there}\n  wanted: {is_due}")
            return
    if found != wanted:
        print(f"{case}: {name}: only what ends its lines is not as it is stored")


def is_good(case, found):
    """Whether the case printed what it has to print. It says what differs."""
    wanted = case.wanted()
    show_first_difference(case.name, "standard output", found.stdout, wanted.stdout)
    show_first_difference(case.name, "standard error", found.stderr, wanted.stderr)
    if found.status != wanted.status:
        print(f"{case.name}: it ended with status {found.status}, and {wanted.status} is wanted")
    return found == wanted


def judged(cases, found, said=""):
    """How many of the cases printed what they have to print."""
    missing = [case.name for case in cases if case.name not in found]
    if missing:
        print(f"not run: {' '.join(missing)}; rt said:\n{said[-4000:]}")
    return sum(is_good(case, found[case.name]) for case in cases if case.name in found)


@contextlib.contextmanager
def unread_pipe():
    """The end of a pipe at which can be written, while nobody reads at the other."""
    reader, writer = os.pipe()
    os.close(reader)
    with os.fdopen(writer, "wb") as end:
        yield end


# Where nothing can be written.
UNWRITABLE: Dict[str, Any] = {"a full disk": lambda: open("/dev/full", "wb"), "a pipe that nobody reads": unread_pipe}


def said_of_output(built, words, out):
    """What the program said on standard error, and its status, where standard output is this."""
    how = {**HOW, "capture_output": False, "stdout": out, "stderr": subprocess.PIPE}
    try:
        done = subprocess.run([built, *words], env=NO_ENVIRONMENT, timeout=SECONDS, **how)
    except (OSError, subprocess.TimeoutExpired) as fault:
        return f"{fault}\n", -1
    return done.stderr, done.returncode


def told_of_output(built):
    """How often the program said that standard output cannot be written, of the times that it could not."""
    passed = 0
    for name, opened in UNWRITABLE.items():
        for words in UNWRITTEN:
            with opened() as out:
                said = said_of_output(built, words, out)
            passed += said == SAID
            if said != SAID:
                print(f"{words[0]}, into {name}: it ended with status {said[1]}, and said: {said[0]!r}")
    return passed


def written_to(terminal):
    """All that programs write to the terminal of this end, until none has it open."""
    parts = []
    with contextlib.suppress(OSError):
        while part := os.read(terminal, 4096):
            parts.append(part)
    os.close(terminal)
    return b"".join(parts).decode(errors="replace")


def shown_on_a_terminal(built, words):
    """What the program's check printed, and what it showed on the terminal that its standard error is."""
    ours, theirs = os.openpty()
    how: Dict[str, Any] = {"stdin": subprocess.DEVNULL, "stdout": subprocess.PIPE, "stderr": theirs,
                           "encoding": "utf-8", "env": NO_ENVIRONMENT}
    with folder_for(Case("shown", words, OLD_DIES / "shown")) as folder:
        with subprocess.Popen([built, *words], cwd=folder, **how) as running:
            os.close(theirs)
            shown = written_to(ours)
            return running.communicate()[0], shown


def tells_how_far(built, words, stops):
    """Whether a check of so many stops shows on a terminal how far it is, and takes the line away."""
    said, shown = shown_on_a_terminal(built, words)
    is_right = said == COUNTED.format(stops) and re.search(LAST_SHOWN.format(stops), shown) is not None
    if not is_right:
        print(f"{built} {' '.join(words)}: it printed {said!r}, and showed {shown[-200:]!r} on a terminal")
    return is_right


def tells_of_each(built):
    """How many checks show on a terminal how far they are."""
    return sum(tells_how_far(built, words, stops) for words, stops in SHOWN.items())


def proved(program, cases):
    """How many cases come out right with the programs that rt ci has built, and how many there are."""
    folder = ROOT / "crates" / f"{program}_main" / "out"
    places = [folder / f"{program}_main{ending}" for ending in BUILDS]
    there = [it for it in places if it.is_file()]
    for place in [it for it in places if it not in there]:
        print(f"there is no {place.relative_to(ROOT)}: run `rt ci` at the top of the repository first")
    passed = sum(judged(cases, ran(str(place), cases)) for place in there)
    if program != "ufsim":
        return passed, len(places) * len(cases)
    passed += sum(told_of_output(str(place)) + tells_of_each(str(place)) for place in there)
    return passed, len(places) * (len(cases) + len(UNWRITABLE) * len(UNWRITTEN) + len(SHOWN))


def main():
    parser = argparse.ArgumentParser(description="Compares what a program prints with what is stored.")
    parser.add_argument("program", choices=("ufsim", "ufstool"))
    how = parser.add_mutually_exclusive_group()
    how.add_argument("--proved", action="store_true", help="run the programs that rt ci has built here")
    how.add_argument("--write", action="store_true", help="write anew what is stored of each case")
    how.add_argument("--built", metavar="RUN", help="run this program, which was built without a proof")
    parser.add_argument("--part", type=int, nargs=2, default=(0, 1), help="run only this part of so many parts")
    asked = parser.parse_args()
    cases = cases_of(asked.program)
    if asked.proved:
        passed, count = proved(asked.program, cases)
    else:
        cases = [case for case in cases if not case.is_long()][asked.part[0] :: asked.part[1]]
        found, said = (ran(asked.built, cases, TRY_SECONDS), "") if asked.built else tried(asked.program, cases)
        for case in cases if asked.write else ():
            if case.name in found:
                case.write(found[case.name])
        passed, count = judged(cases, found, said), len(cases)
    print(f"{passed} passed, {count - passed} failed")
    return 0 if count and passed == count else 1


if __name__ == "__main__":
    # So that what it made goes also if it is stopped.
    signal.signal(signal.SIGTERM, lambda number, frame: sys.exit(128 + number))
    sys.exit(main())
