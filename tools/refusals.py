"""Runs a program that is built once, without a proof, in cases in which one allocation is refused.

rt try refuses one allocation by its number, and gives those behind it. So a program that is tried takes memory
first, more or less often: each allocation of its own comes to have this number in one of its cases. At the end it
takes memory until it is refused, and tells how often it was given, as `left N`.

For each case rt prepares a second run, by an interpreter, which can run no program that reads its words, and
takes most of the time. So rt runs only the cases to which nothing is refused. The program that it built for
them is kept, and runs by itself in the others, several side by side. It has the same checks: they end it by a
signal at a fault.
"""
import concurrent.futures
import contextlib
import os
import pathlib
import re
import shutil
import subprocess
import sys
import tempfile
import threading
from typing import Any, NamedTuple, Optional, Tuple

from cases import HOW, TRY_SECONDS, Output, endings_of, outputs_of
from kept import LOOK_SECONDS, end_names_check, loader_of

# The number of the allocation that is refused. No program that is tried makes as many of its own.
REFUSED = 4000
# What a program says at its end, and a line of rt itself.
LEFT = re.compile(r"left (\d+)\n\Z")
OF_RT = re.compile(r"^allocations: .*\n", re.MULTILINE)


class Fault(Exception):
    """Why nothing can be tried."""


class Case(NamedTuple):
    """The words that a program gets, and its standard input."""

    words: Tuple[str, ...]
    given: str = ""


class Run(NamedTuple):
    """What a case printed, and its status, and how often memory was given at its end: None, if it did not tell that."""

    output: Output
    left: Optional[int]

    def count(self):
        """How many allocations the program made until it told what is left, where none was refused to it."""
        if self.left is None or not 0 <= self.left < REFUSED - 1:
            raise Fault(f"this run has to tell how much memory is left: {self.output}")
        return REFUSED - 1 - self.left


class Program:
    """A program that rt builds, as it is kept: its file, the folder with files of data that it runs in, the
    words that load it, and what came of cases under rt."""

    def __init__(self, folder, data=()):
        self.file, self.place = folder / "program", folder / "place"
        self.loader: Any = None
        self.seen = {}
        self.place.mkdir()
        for file in data:
            shutil.copy(file, self.place)

    def is_kept(self):
        return self.loader is not None and self.file.is_file()

    def look(self, below):
        """Keeps the program, if rt has it just now below this folder, and sees what loads it, if it runs."""
        for file in below.glob("*/*/program"):
            # This name stays when rt removes its own, and what is still being written is whole by then.
            with contextlib.suppress(OSError):
                os.link(file, self.file)
            self.loader = loader_of(file) if self.loader is None else self.loader

    @contextlib.contextmanager
    def looked_for(self, below, rt):
        """Looks for the program of this rt again and again, until it is kept, or what is done meanwhile has ended."""
        is_over = threading.Event()

        def look_on():
            while not self.is_kept() and not is_over.wait(LOOK_SECONDS):
                end_names_check(rt)
                # A folder may go while it is looked at.
                with contextlib.suppress(OSError):
                    self.look(below)

        looker = threading.Thread(target=look_on)
        looker.start()
        try:
            yield
        finally:
            is_over.set()
            looker.join()

    def run(self, case):
        """What comes of a case."""
        how = {**HOW, "input": case.given, "cwd": self.place, "env": {}, "timeout": TRY_SECONDS}
        del how["stdin"]
        try:
            done = subprocess.run([*self.loader, str(self.file), *case.words], **how)
        except (OSError, subprocess.TimeoutExpired) as fault:
            return run_of("", f"{fault}\n", -1)
        return run_of(done.stdout, done.stderr, done.returncode)

    def runs_as_seen(self, pool):
        """Sees that the program does by itself what it did under rt."""
        for case, run in zip(self.seen, pool.map(self.run, self.seen)):
            if run != self.seen[case]:
                raise Fault(f"{' '.join(case.words)}: under rt there came {self.seen[case]}, and now {run}")

    def refused(self, groups, jobs):
        """What came of the cases of each group, as soon as they have run. So many cases run at a time."""
        if not self.is_kept():
            raise Fault("the program that rt built could not be kept while rt ran it")
        pool, shown = concurrent.futures.ThreadPoolExecutor(jobs), Shown(sum(map(len, groups.values())))
        try:
            self.runs_as_seen(pool)
            ends = {group: [pool.submit(self.run, case) for case in cases] for group, cases in groups.items()}
            for group, begun in ends.items():
                yield group, [shown.one_more(it.result().output) for it in begun]
        finally:
            pool.shutdown(cancel_futures=True)


class Shown:
    """How many of so many cases are done: a line on standard error, if that is a terminal."""

    def __init__(self, count):
        self.done, self.count = 0, count

    def one_more(self, output):
        """Shows that one more is done, of which this came."""
        self.done += 1
        if sys.stderr.isatty():
            print(f"\r{self.done} of {self.count} cases", end="", file=sys.stderr, flush=True)
        return output


def say(line):
    """Prints a line at once, in the place of the one that shows how many cases are done."""
    if sys.stderr.isatty():
        print("\r\x1b[K", end="", file=sys.stderr, flush=True)
    print(line, flush=True)


def jobs_here(asked):
    """How many cases run at a time: as many as there are processors, or fewer, if fewer are asked for."""
    processors = len(os.sched_getaffinity(0))
    return min(asked, processors) if asked > 0 else processors


def write_cases(folder, cases):
    for name, case in cases.items():
        pathlib.Path(folder, name).write_text(case.given, encoding="utf-8")
        words = "".join(f"{it}\n" for it in case.words)
        pathlib.Path(folder, f"{name}.args").write_text(words, encoding="utf-8")


def built(crate, cases, folder, data=()):
    """The program of this crate, kept in this folder, as rt builds it and runs it in these cases. The files
    of data lie beside it."""
    program, below = Program(folder, data), folder / "below"
    below.mkdir()
    with tempfile.TemporaryDirectory(prefix="refusals.") as stored:
        write_cases(stored, {str(number): case for number, case in enumerate(cases)})
        flags = ["--steps", "1", "--seconds", str(TRY_SECONDS), "--fail-alloc", str(REFUSED)]
        files = [it for file in data for it in ("--data", f"{file.name}={file}")]
        how = {"stdin": subprocess.DEVNULL, "stdout": subprocess.PIPE, "stderr": subprocess.PIPE, "encoding": "utf-8",
               "errors": "replace", "cwd": crate, "env": {**os.environ, "TMPDIR": str(below)}}
        with subprocess.Popen(["rt", "try", *flags, "--cases", stored, *files], **how) as rt, \
                program.looked_for(below, rt):
            try:
                printed, said = rt.communicate()
            finally:
                rt.terminate()
    runs = runs_of([str(number) for number in range(len(cases))], printed, OF_RT.sub("", said))
    program.seen = dict(zip(cases, runs.values()))
    return program


def runs_of(names, printed, said):
    """What came of each case, as rt printed and said it."""
    printed, ended = outputs_of(printed), endings_of(said)
    if not ended:
        raise Fault(f"nothing was run; rt said:\n{said[-4000:]}")
    found = {name: ended.get(name, ("it was not run\n", -1)) for name in names}
    return {name: run_of(printed.get(name, ""), told, status) for name, (told, status) in found.items()}


def run_of(printed, told, status):
    left = LEFT.search(told)
    return Run(Output(printed, LEFT.sub("", told), status), int(left[1]) if left else None)
