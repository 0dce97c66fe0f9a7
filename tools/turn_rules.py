#!/usr/bin/env python3
"""Turns rules of the specification around, one at a time, and shows that a law refuses each.

usage: turn_rules.py [--list] [--texts] [--jobs N] [NAME..]

Wrong bodies test the code; these edits test the definitions. They stand in wrong_rules/, and
rules.py says in which form. Each is made in a copy of the crates and is undone after `rt check`. It
is refused only if the law that it names falls: a law that speaks of the rule. A law of a lower
crate that falls first is cut out of the copy, and the check goes on to the named one; a proof that
only quotes the rule's text is mended, if the edit says how. The definitions themselves have to stay
accepted.

With names only these edits are made; --list shows them all, and tells each law that is not there.
--texts only looks whether each text that an edit changes stands once, and whether its law is there.
A file of edits with a fault is told with its line, and then nothing is tried.
The last line counts. The status is 0 if each edit was refused, 1 if one was not, and 2 if nothing
could be said.
"""
import argparse
import concurrent.futures
import queue
import shutil
import signal
import sys
import time

from rules import faults_of, rules
from trial_copy import TrialCopy, has_law


def refused(rule, said, laws, lemmas, mended):
    """Whether the law fell that the rule names, and the words for it."""
    crate, law = rule.law.split("::")
    notes = [f"skipped {name}" for name in laws]
    notes += [f"cut {len(lemmas)} lemmas below"] if lemmas else []
    notes += [f"mended {file}" for file in dict.fromkeys(mended)]
    if said.crate != crate:
        fault = f" at {said.faults[0].place()}" if said.faults else ""
        return False, f"the check came to {said.crate}, not to {crate}{fault}", notes
    others = [name for name in said.fallen() if name != law]
    if law not in said.fallen():
        if law not in said.verdicts:
            return False, f"rt says nothing of {law}", notes
        return False, f"not by {law}" + (f", but by {', '.join(others)}" if others else ""), notes
    root, clauses = said.root_of(law), said.clauses_of(law)
    words = f"by {rule.law}" + (f" ({', '.join(clauses)})" if clauses else "") + (f" at {root.place()}" if root else "")
    return True, words, notes


def tried(copy, rule):
    """Turns one rule around in a copy, checks, and undoes it."""
    crate, law = rule.law.split("::")
    if not has_law(crate, law):
        return False, f"there is no law {rule.law}", []
    try:
        for file, old, new in rule.edits:
            if not copy.change(file, old, new):
                return False, f"a text to be changed does not stand once in {file}: {old.strip()[:60]}", []
        for file, old, new in rule.mends:
            if not copy.mend(file, old, new):
                return False, f"a text to be mended does not stand in {file}: {old.strip()[:60]}", []
        said, laws, lemmas = copy.reach(crate)
        return refused(rule, said, laws, lemmas, [file for file, _, _ in rule.mends])
    finally:
        copy.undo()


def stands(copy, crates):
    """Whether each crate is proved as it is, so that it can refuse something."""
    for crate in crates:
        said = copy.check(crate)
        if said.status != 0:
            print(said.text[-2000:], file=sys.stderr)
            print(f"turn_rules: {crate} is not proved as it stands, so nothing can be said", file=sys.stderr)
            return False
    return True


def run(chosen, jobs):
    """Tries each rule in one of several copies, and counts."""
    crates = sorted({rule.law.split("::")[0] for rule in chosen})
    copies = [TrialCopy(crates)]
    try:
        if not stands(copies[0], crates):
            return 2
        copies += [TrialCopy(crates, copies[0].folder) for _ in range(min(jobs, len(chosen)) - 1)]
        free = queue.Queue()
        for copy in copies:
            free.put(copy)

        def try_one(rule):
            copy, start = free.get(), time.monotonic()
            try:
                right, words, notes = tried(copy, rule)
            finally:
                free.put(copy)
            notes.append(f"{time.monotonic() - start:.0f} s")
            print(f"{rule.name}: {'refused' if right else 'NOT REFUSED:'} {words} ({'; '.join(notes)})", flush=True)
            return right

        with concurrent.futures.ThreadPoolExecutor(len(copies)) as pool:
            count = sum(pool.map(try_one, chosen))
    finally:
        for copy in copies:
            copy.remove()
    print(f"{count} refused, {len(chosen) - count} not refused")
    return 0 if count == len(chosen) else 1


def listed(chosen):
    """Shows each rule with the law that is to refuse it."""
    for rule in chosen:
        there = "" if has_law(*rule.law.split("::")) else ", which is not there"
        print(f"{rule.name} ({rule.law}{there}): {rule.says}")
    return 0


def told_texts(chosen):
    """Says which edits cannot be tried, and gives the status."""
    bad = 0
    for rule in chosen:
        is_there = has_law(*rule.law.partition("::")[::2])
        faults = faults_of(rule) + ([] if is_there else [f"{rule.name}: there is no law {rule.law}"])
        bad += bool(faults)
        for fault in faults:
            print(fault)
    print(f"{len(chosen) - bad} passed, {bad} failed")
    return 1 if bad else 0


def told_faults(every, broken):
    """Says which lines of the files are at fault, and gives the status."""
    for fault in broken:
        print(fault)
    print(f"{len(every)} passed, {len(broken)} failed")
    return 1


def main():
    parser = argparse.ArgumentParser(description="Turns rules around and shows that a law refuses each.")
    parser.add_argument("names", nargs="*", metavar="NAME", help="the edits to try; all, if none is named")
    parser.add_argument("--list", action="store_true", help="show the edits, and try none")
    parser.add_argument("--texts", action="store_true", help="only look whether each text stands once")
    parser.add_argument("--jobs", type=int, default=2, metavar="N", help="how many copies work at a time (2)")
    asked = parser.parse_args()
    every, broken = rules()
    if broken:
        return told_faults(every, broken)
    known = {rule.name: rule for rule in every}
    missing = [name for name in asked.names if name not in known]
    if missing or len(known) != len(every):
        print(f"turn_rules: there is no edit {', '.join(missing)}" if missing else "turn_rules: a name stands twice",
              file=sys.stderr)
        return 2
    chosen = [known[name] for name in asked.names] or every
    if asked.texts:
        return told_texts(chosen)
    if asked.list:
        return listed(chosen)
    if shutil.which("rt") is None:
        print("turn_rules: rt is not there", file=sys.stderr)
        return 2
    # The copies go also if the script is stopped.
    signal.signal(signal.SIGTERM, lambda number, frame: sys.exit(128 + number))
    return run(chosen, max(1, asked.jobs))


if __name__ == "__main__":
    sys.exit(main())
