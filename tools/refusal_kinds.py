#!/usr/bin/env python3
"""Counts what refused wrong bodies, by the lines that wrong_bodies.py prints.

usage: refusal_kinds.py [FILE..]
       refusal_kinds.py --kept [CRATE..]

It reads files with these lines, or its input. With --kept it reads the verdicts that earlier runs kept over the
texts as they are, of these crates or of all. Each refused wrong body is of one kind:

- contract: a goal is not proved that the code itself brings: what the function ensures, what a function
  that it calls requires, what its type keeps, or that an index or a number is in its range
- loop: a goal is not proved of what a loop keeps or of its end; a proof says what that is, no contract
- gone: the proof answers a goal that is gone
- misfit: a part of the proof does not fit any more
- elsewhere: the check tells no reason in the function itself

The first kind shows that the contract excludes the body. Any other shows it only to somebody who reads the body
and the contract, so each of these has a line with its kind. The last line counts the kinds. The status is 0, or 2
if there is no line of a refused wrong body.
"""
import argparse
import pathlib
import re
import subprocess
import sys

KINDS = ("contract", "loop", "gone", "misfit", "elsewhere")
# What wrong_bodies.py prints of a wrong body: its name, and the function that fell with the reason.
REFUSED = re.compile(r"^(\S+): refused, as it must be \((.*)\)$", re.MULTILINE)
# A reason with the function before it.
REASON = re.compile(r"(?:alone: )?\w+::\S+: (.*)")
GOAL = re.compile(r"`([^`]+)`")
# A goal of a loop begins with its label and ends so. A clause of a contract may have such a name too.
OF_LOOP = re.compile(r"(?!returns|invariant_of|.*-requires).+-(?:init|preserved|smaller)(?:-clause-\w+)?")
# Prints what wrong_bodies.py printed when it kept a verdict. A verdict is found only by a program that has no other
# file of this folder than that tool has, so this is a program of its own.
KEPT = """
import sys
sys.path.insert(0, sys.argv[1])
import wrong_bodies
for name in wrong_bodies.crates_of(sys.argv[2:]):
    crate = wrong_bodies.Crate(name)
    if crate.control:
        crate.look_up(wrong_bodies.Verdicts(), wrong_bodies.texts_sum)
    for edit in crate.kept:
        print(f"{edit}: {next(filter(None, map(crate.verdicts.words, crate.names[edit.name])))}")
"""


def kept(crates):
    """What wrong_bodies.py printed of the verdicts that are kept of these crates, or of all."""
    here = pathlib.Path(__file__).resolve().parent
    done = subprocess.run([sys.executable, "-B", "-c", KEPT, str(here), *crates], stdout=subprocess.PIPE,
                          encoding="utf-8", check=True)
    return done.stdout


def kind_of(words):
    """The kind of a refusal, by the words in its brackets."""
    reason = REASON.fullmatch(words)
    why = reason[1] if reason else ""
    if why.startswith("no proof of "):
        goals = GOAL.findall(why)
        return "loop" if goals and all(map(OF_LOOP.fullmatch, goals)) else "contract"
    if why == "its proof answers a goal that is gone":
        return "gone"
    return "misfit" if why.endswith(" does not fit") else "elsewhere"


def refusals_in(text):
    """The wrong bodies that a text tells to be refused: of each its name, its kind, and the words."""
    return [(name, kind_of(words), words) for name, words in REFUSED.findall(text)]


def main():
    parser = argparse.ArgumentParser(description="Counts what refused wrong bodies, by what wrong_bodies.py prints.")
    parser.add_argument("names", nargs="*", metavar="FILE", help="what it printed; the input, if none is named")
    parser.add_argument("--kept", action="store_true", help="read kept verdicts, of the named crates or all")
    asked = parser.parse_args()
    if asked.kept:
        texts = [kept(asked.names)]
    else:
        texts = [pathlib.Path(it).read_text(encoding="utf-8") for it in asked.names] or [sys.stdin.read()]
    found = [it for text in texts for it in refusals_in(text)]
    if not found:
        print("refusal_kinds: no line tells of a refused wrong body", file=sys.stderr)
        return 2
    for name, kind, words in sorted(found, key=lambda it: KINDS.index(it[1])):
        if kind != "contract":
            print(f"{kind}: {name} ({words})")
    kinds = [kind for _, kind, _ in found]
    print(f"{len(found)} refused: " + ", ".join(f"{kind} {kinds.count(kind)}" for kind in KINDS))
    return 0


if __name__ == "__main__":
    sys.exit(main())
