"""A copy of a crate over its built libraries, in which a round of wrong bodies is checked, and what rt says of it."""
import importlib.machinery
import importlib.util
import os
import pathlib
import re
import shutil
import subprocess
import sys
import tempfile
import time
from typing import NamedTuple

from crates import ROOT, below, needed

# What rt prints: its verdict on a function, and an error in a file of the crate.
VERDICT = re.compile(r"^fn (\w+::\S+?): (.*)$", re.MULTILINE)
ERROR = re.compile(r"^\./(\S+?):\d+:\d+: error: (.*)$", re.MULTILINE)
# Its last line, on the whole crate or on some of its functions.
LAST = re.compile(r"^(?:logic=|only=\d+ proved=).*$", re.MULTILINE)
# What it prints as it ends with a function.
ENDED = re.compile(r"^checked (\w+::\S+), \d+ of \d+$")
# A goal of the function itself that was not proved, and words of an error that only tells what else fell. A closure
# whose callers fell is proved if they give what it asks.
OPEN_GOAL = re.compile(r"`search` did not prove (.*?)(?:; it calls|$)")
ONLY_FOLLOWS = re.compile(r"which (?:is|are) not proved|which has no proof|^proved where its callers give what it asks")
# A goal or a step that the function's proof names and its code no longer makes: the bodies of other functions change
# neither.
GONE = r"(?:module|record) `{}\.(?:Goals|Lts)(?:\.[^`]*)?` has no "
FOLLOWS = re.compile(r"depends? on `|is not in scope|has no field|has no `|was not admitted|is not proved")


class Said(NamedTuple):
    """What rt said of a crate: its status, its verdicts by function, its errors, its words and their cost, and how long
    it was at each function and those that it has no line for before it."""

    status: int
    verdicts: dict
    errors: list
    text: str
    seconds: float
    waits: dict

    def reached(self):
        """Whether the prover came to a verdict on the crate."""
        told = LAST.findall(self.text)
        return bool(told) and self.status == (0 if is_all_proved(told[-1]) else 1)

    def reason_of(self, name):
        """Why the function itself fell: an open goal, or a proof of its own that no longer fits; None, if rt tells no
        reason but the fall of others."""
        verdict = self.verdicts[name]
        goal = OPEN_GOAL.search(verdict)
        if goal:
            return f"no proof of {goal[1]}"
        crate, *parts = name.split("::")
        folder = "/".join(["proofs", *parts]) + "/"
        gone = re.compile(GONE.format(re.escape(".".join(["Rattle", crate, "proofs", *parts]))))
        if verdict.startswith("not proved"):
            for file, words in self.errors:
                if file.startswith(folder) and gone.search(words):
                    return "its proof answers a goal that is gone"
                if file.startswith(folder) and not FOLLOWS.search(words):
                    return words.split(":")[0].strip() + " does not fit"
        return None

    def fell_alone(self, name):
        """Whether the function fell for no reason but the fall of others, or did not fall."""
        verdict = self.verdicts[name]
        return is_proved(verdict) or (self.reason_of(name) is None and bool(ONLY_FOLLOWS.search(verdict)))

    def first_error(self):
        """What rt says of the first function that fell for a reason of its own, else its first error or last line."""
        fell = next((f"{name}: {self.reason_of(name)}" for name in self.verdicts if self.reason_of(name)), None)
        error = next((f"{file}: {words}" for file, words in self.errors), self.text.strip().split("\n")[-1])
        return (fell or error)[:160]


def is_all_proved(last):
    """Whether the last line says that all is proved that was to be checked."""
    return last.startswith("logic=proved") or bool(re.match(r"only=(\d+) proved=\1$", last))


def is_proved(verdict):
    """Whether rt says of a function that it is proved: it may add that the function may wait."""
    return verdict.split(",")[0] == "proved"


def run(words, folder, heard=lambda line: None):
    """Runs a command, hears each line as it comes, and gives its status, what it printed, and its processor seconds."""
    how = {"stdin": subprocess.DEVNULL, "stdout": subprocess.PIPE, "stderr": subprocess.STDOUT,
           "encoding": "utf-8", "errors": "replace"}
    with subprocess.Popen(words, cwd=folder, **how) as started:
        lines = []
        for line in started.stdout:
            heard(line)
            lines.append(line)
        _, status, used = os.wait4(started.pid, 0)
        started.returncode = os.waitstatus_to_exitcode(status)
    return started.returncode, "".join(lines), used.ru_utime + used.ru_stime


class Waits:
    """How many seconds a check was at each function, by the lines that tell its end."""

    def __init__(self):
        self.found, self.last = {}, None

    def hear(self, line):
        """Notes the time of a line that tells the end of a function."""
        ended, now = ENDED.match(line), time.monotonic()
        # What comes before the first such line is mostly not that function's.
        if ended and self.last is not None:
            self.found[ended[1]] = now - self.last
        self.last = now if ended else self.last


def said_of(crate, status, text, seconds, waits=None):
    """What rt said, with what it printed taken apart."""
    verdicts = {name: words for name, words in VERDICT.findall(text) if name.split("::")[0] == crate}
    return Said(status, verdicts, ERROR.findall(text), text, seconds, waits or {})


def has_stamp(crate):
    return (ROOT / "crates" / crate / "out" / "rlib" / "stamp").exists()


def is_built(crate):
    return (ROOT / "crates" / crate / "out" / "rlib" / f"{crate}.rlib").is_dir()


def is_of_gate(crates):
    """Whether the gate built all libraries below these crates, and nothing else did."""
    libraries = {it for crate in crates for it in below(crate)}
    return all(map(is_built, libraries)) and not any(map(has_stamp, libraries))


def build_below(crates):
    """Builds in this folder what the crates stand on, and reads them; says whether that went well."""
    for crate in sorted(crates, key=lambda it: len(below(it))):
        status, text, _ = run(["rt", "check", "--only", ""], ROOT / "crates" / crate)
        if status:
            print(text[-2000:], file=sys.stderr)
            print(f"wrong_bodies: what {crate} stands on is not proved: run rt check there", file=sys.stderr)
            return False
    return True


def prove(crate):
    """Proves a crate in this folder as it stands, over what earlier checks proved, and builds its library, which those
    above it take. What rt said, its status and its cost."""
    status, text, seconds = run(["rt", "lib"], ROOT / "crates" / crate)
    return said_of(crate, status, text, seconds)


def kit_library():
    """The kit's own module, which knows the stamp of a library."""
    _, first_page, _ = run(["rt", "doc"], ROOT)
    path = pathlib.Path(first_page.strip()).parent / "bin" / "rtlib.py"
    loader = importlib.machinery.SourceFileLoader("rtlib", str(path))
    made = importlib.util.module_from_spec(importlib.util.spec_from_loader("rtlib", loader))
    sys.dont_write_bytecode = True
    sys.modules["rtlib"] = made
    loader.exec_module(made)
    return made


class RoundCopy:
    """A copy of a crate, with the libraries below it as they are built."""

    def __init__(self, crate, is_of_gate=False):
        self.crate = crate
        self.folder = pathlib.Path(tempfile.mkdtemp(prefix="wrong_bodies."))
        lines, _ = needed([crate])
        (self.folder / "crates.txt").write_text("\n".join(lines) + "\n", encoding="utf-8")
        if (ROOT / "HANDLES").exists():
            shutil.copy2(ROOT / "HANDLES", self.folder)
        for name in [*below(crate), crate]:
            self.take(name, "incremental" if name == crate else "rlib")
        if is_of_gate:
            self.stamp()

    def take(self, name, work):
        """Copies a crate's texts, and of what was built only this part."""
        source, target = ROOT / "crates" / name, self.folder / "crates" / name
        for part in ("src", "specs", "proofs"):
            if (source / part).is_dir():
                shutil.copytree(source / part, target / part)
        if (source / "out" / work).is_dir():
            shutil.copytree(source / "out" / work, target / "out" / work)

    def stamp(self):
        """Tells rt that the libraries which the gate has just built, each over the others, are built. Without their
        stamps rt would build each again. If the kit has no such stamps any more, rt does that."""
        try:
            kit, known = kit_library(), {}
            for name in below(self.crate):
                folder = self.folder / "crates" / name
                made = kit.Crate(str(folder), str(self.folder), known)
                (folder / "out" / "rlib" / "stamp").write_text(made.stamp(), encoding="utf-8")
        except Exception as fault:  # of the kit's module, whatever it is
            print(f"wrong_bodies: the libraries below {self.crate} are built once more ({fault!r})", file=sys.stderr)

    def check(self, texts, only=(), proofs=None):
        """Checks the crate with these texts of its code, and with these files added to its proofs, over what the checks
        before it proved: all of it, or only the functions with these names and those that they call. It is one
        process: four took 142 s of processor time for a round of 32 edits that one took 102 s for, and no less for
        smaller rounds."""
        folder = self.folder / "crates" / self.crate
        for file, text in texts.items():
            path = folder / file
            if path.read_text(encoding="utf-8") != text:
                path.write_text(text, encoding="utf-8")
        for file, text in (proofs or {}).items():
            (folder / file).parent.mkdir(parents=True, exist_ok=True)
            (folder / file).write_text(text, encoding="utf-8")
        parts = [word for name in sorted(only) for word in ("--only", name)]
        waits = Waits()
        status, text, seconds = run(["rt", "check", "--jobs", "1", *parts], folder, waits.hear)
        for place in {(folder / file).parent for file in proofs or {}}:
            shutil.rmtree(place)
        return said_of(self.crate, status, text, seconds, waits.found)

    def remove(self):
        shutil.rmtree(self.folder, ignore_errors=True)


def prove_after_gate(crate):
    """Proves a crate in a copy of its own, over the libraries that the gate built. What rt said, its status and its
    cost."""
    copy = RoundCopy(crate, is_of_gate=True)
    try:
        return copy.check({})
    finally:
        copy.remove()
