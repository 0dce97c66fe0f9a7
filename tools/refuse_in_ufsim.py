#!/usr/bin/env python3
"""Refuses in turn the allocations that ufsim makes while it runs a script or checks one.

usage: refuse_in_ufsim.py [--each N] [--jobs N]

rt try refuses one allocation by its number, and gives those behind it. So a copy of ufsim takes memory
before all else, once for each byte of standard input, so that any allocation of its own may come to have
this number. At the end the copy tells how often it is given more. It is built once, without a proof, and run
to see what each script prints with memory and how many allocations it makes. Then these are refused, one in
a run, and as many runs go on side by side as there are processors, or as --jobs says, if that is less. The
scripts stand in tools/refused_memory/. A check makes many allocations three times, for the three contents of
pages at a stop, so of its own each seventh is refused.

Where an allocation is refused, standard output has to be a beginning of what the script prints with
memory, in whole lines. Standard error has the one line `ufsim: line L: memory`, where L is the line whose
output would come next, or the last `unit` line if it was the opening of the device. Before a line was
begun it is `ufsim: memory`. The status is 1. What is refused later never names an earlier line. Or the
allocation was not needed: all is as it is with memory.

With --each N it is each Nth of both, and with N = 1 it is all. Each script has a line as its last run ends.
The last line is 'N passed, M failed', one for each script. The status is 0 only if none failed.
"""
import argparse
import pathlib
import re
import shutil
import signal
import sys
import tempfile
from typing import NamedTuple

from crates import ROOT, needed
from refusals import REFUSED, Case, Fault, built, jobs_here, say

PROGRAM = "ufsim_main"
SCRIPTS = ROOT / "tools" / "refused_memory"
HEAD = ("butcherford: some 750 allocations of ufsim are refused, each in a run of its own; "
        "about 2 minutes on four processors, 4 on two")
# What is done with scripts, and which part of the allocations is refused.
ACTIONS = {"run": 1, "check": 7}
# What is changed in the copy's main.rt. Each text stands there once.
CHANGES = (
    ("use std::io::{ErrorKind, IsTerminal};\n",
     "use std::alloc::AllocError;\nuse std::io::{ErrorKind, IsTerminal, Read};\n"),
    ("fn main(rt: HostRuntime) -> ExitCode {\n", "fn main(rt: HostRuntime) -> ExitCode {\n    take_memory(&rt);\n"),
    ("=> run(&rt, script),\n", "=> tell_left(&rt, run(&rt, script)),\n"),
    ("=> check(&rt, script),\n", "=> tell_left(&rt, check(&rt, script)),\n"),
)
# What is added to it.
ADDED = f"""
fn memory(rt: &HostRuntime) -> Result<(), AllocError> {{
    let _byte: Vec<u8> = Vec::with_capacity(rt.alloc(), 1)?;
    Ok(())
}}

// Takes memory once for each byte of standard input.
fn take_memory(rt: &HostRuntime) {{
    let mut byte = [0u8; 1];
    while matches!(rt.stdin().read(&mut byte), Ok(1)) {{
        let _ = memory(rt);
    }}
}}

// Tells how often memory is given until it is refused.
fn tell_left(rt: &HostRuntime, status: ExitCode) -> ExitCode {{
    let mut left = 0u32;
    while left < {REFUSED} && memory(rt).is_ok() {{
        left += 1;
    }}
    let _ = rt.eprintln(format_args!("left {{left}}"));
    status
}}
"""
TOLD = re.compile(r"ufsim: (?:line (\d+): )?memory\n")


class Script(NamedTuple):
    """A script, and whether it is run or checked."""

    action: str
    text: str

    def file(self):
        return SCRIPTS / f"{self.action}.txt"

    def case(self, number):
        """The case in which the program's allocation of this number is refused; none, if it is REFUSED."""
        return Case((self.action, self.file().name), "." * (REFUSED - number))

    def lines(self):
        """The numbers of the lines that say something: first those of which the device is opened, then the others."""
        said = [(number, line) for number, line in enumerate(self.text.split("\n"), 1) if line and line[0] != "#"]
        first = [number for number, line in said if line.split()[0] in ("config", "unit")]
        return first, [number for number, _ in said if number not in first]

    def places(self, printed):
        """The lines at which memory may be refused, if so many lines were printed: 0 for none of the script."""
        first, others = self.lines()
        if self.action == "check":
            return [0, first[-1], *others]
        return [*([0, first[-1]] if printed == 0 else []), *others[printed : printed + 1]]

    def place(self, wanted, found):
        """The line at which memory was refused; None, if the program told it otherwise than it has to."""
        told = TOLD.fullmatch(found.stderr)
        is_beginning = wanted.stdout.startswith(found.stdout) and found.stdout[-1:] in ("", "\n")
        if told is None or not is_beginning or found.status != 1:
            return None
        place = int(told[1] or 0)
        return place if place in self.places(found.stdout.count("\n")) else None


def scripts():
    return [Script(it, (SCRIPTS / f"{it}.txt").read_text(encoding="utf-8")) for it in ACTIONS]


def write_copy(folder):
    """Writes the code of the program and of all below it, with the program changed."""
    lines, names = needed([PROGRAM])
    (folder / "crates.txt").write_text("".join(f"{line}\n" for line in lines), encoding="utf-8")
    shutil.copyfile(ROOT / "HANDLES", folder / "HANDLES")
    for name in names:
        shutil.copytree(ROOT / "crates" / name / "src", folder / "crates" / name / "src")
    main = folder / "crates" / PROGRAM / "src" / "main.rt"
    text = main.read_text(encoding="utf-8")
    for old, new in CHANGES:
        if text.count(old) != 1:
            raise Fault(f"this line has to stand once in the program's main.rt: {old.strip()}")
        text = text.replace(old, new)
    main.write_text(text + ADDED, encoding="utf-8")


def count_of(script, run):
    """How many allocations the program made in a run to which none was refused before its end."""
    lines = len(script.lines()[1]) if script.action == "run" else 1
    if run.output.status != 0 or run.output.stderr or run.output.stdout.count("\n") != lines:
        raise Fault(f"{script.action}: with memory it has to print {lines} lines: {run.output}")
    return run.count()


def is_good(script, wanted, numbers, found):
    """Whether the program told rightly of each of these allocations that it was refused. It says what it saw."""
    last, free = 0, 0
    for number, output in zip(numbers, found):
        if output == wanted:
            free += 1
            continue
        place = script.place(wanted, output)
        if place is None or place < last:
            say(f"{script.action}: with its allocation {number} refused, behind one of line {last}, it ended "
                f"with status {output.status}, said {output.stderr[:400]!r}, and printed "
                f"{output.stdout[-200:]!r}")
            return False
        last = place
    say(f"{script.action}: {len(numbers)} of {numbers.stop - 1} allocations were refused, the last at line "
        f"{last}, and {free} of them were not needed")
    return True


def judged(folder, each, jobs):
    """Whether each script is right, as soon as it is known."""
    write_copy(folder)
    files = [script.file() for script in scripts()]
    cases = [script.case(REFUSED) for script in scripts()]
    program = built(folder / "crates" / PROGRAM, cases, folder, files)
    with_memory = {script: program.seen[case] for script, case in zip(scripts(), cases)}
    numbers = {script: range(1, count_of(script, run) + 1, each or ACTIONS[script.action])
               for script, run in with_memory.items()}
    groups = {script: [script.case(number) for number in numbers[script]] for script in numbers}
    for script, found in program.refused(groups, jobs):
        yield is_good(script, with_memory[script].output, numbers[script], found)


def main():
    parser = argparse.ArgumentParser(description="Refuses the allocations of ufsim in turn.")
    parser.add_argument("--each", type=int, default=0, metavar="N", help="refuse each Nth allocation of both scripts")
    parser.add_argument("--jobs", type=int, default=0, metavar="N", help="run at most so many cases at once")
    asked = parser.parse_args()
    say(HEAD)
    good = []
    with tempfile.TemporaryDirectory(prefix="refuse_in_ufsim.") as folder:
        try:
            for it in judged(pathlib.Path(folder), max(0, asked.each), jobs_here(asked.jobs)):
                good.append(it)
        except Fault as fault:
            say(fault)
    count = len(scripts())
    say(f"{good.count(True)} passed, {count - good.count(True)} failed")
    return 0 if good.count(True) == count else 1


if __name__ == "__main__":
    # So that what it made goes also if it is stopped.
    signal.signal(signal.SIGTERM, lambda number, frame: sys.exit(128 + number))
    sys.exit(main())
