#!/usr/bin/env python3
"""Sees that `ufsim check` tells wrong bodies of a device by what hosts read after stops.

usage: check_sees.py [BODY..]

Each of some wrong bodies of wrong_bodies/ is put into a copy of the crates. There ufsim is built without a proof, as
cases.py does it, and checks a script of its own, tools/check_sees/BODY.txt: its line tells stops after which the device
did not come back rightly. The program as it stands checks all scripts, and finds no such stop. Each has a line:

    BODY: check stops S bad B

The last line is 'N passed, M failed', one for each body and one for each script of the program as it stands. The
status is 0 only if none failed.
"""
import argparse
import re
import signal
import sys

from cases import Case, tried
from crates import ROOT
from edits import Fault, wrong_body
from trial_copy import TrialCopy

SCRIPTS = ROOT / "tools" / "check_sees"
# Each with its crate. What a body does is told at the head of its script.
BODIES = {
    "newest_page_gap_or_not": "recovery",
    "group_kept_with_a_page_missing": "recovery",
    "overwritten_past_the_record": "recovery",
    "moved_page_renumbered": "ftl_core",
    "erased_past_recorded_frontier": "ftl_core",
}
SAID = re.compile(r"check stops (\d+) bad (\d+)\n")


def case_of(name):
    """The check of the script of a body."""
    script = SCRIPTS / f"{name}.txt"
    return Case(name, ("check", script.name), script)


def printed_with(body, cases):
    """What ufsim with this body, or as it stands, prints of each case."""
    try:
        pairs = wrong_body(BODIES[body], body).pairs if body else ()
    except Fault as fault:
        return {}, str(fault)
    copy = TrialCopy(["ufsim_main"], leave_out=["out"])
    try:
        for file, old, new in pairs:
            if not copy.change(f"{BODIES[body]}/{file}", old, new):
                return {}, f"its text does not stand once in crates/{BODIES[body]}/{file}: {old}"
        return tried("ufsim", cases, copy.folder)
    finally:
        copy.remove()


def is_seen(said, is_wrong):
    """Whether a check found a wrong stop among its stops, or none, as is wanted."""
    found = SAID.fullmatch(said)
    return found is not None and int(found[1]) > 0 and (int(found[2]) > 0) == is_wrong


def judged(body, names):
    """Whether each check of these scripts says what is wanted, of a wrong body or of the program as it stands."""
    found, told = printed_with(body, [case_of(name) for name in names])
    good = []
    for name in names:
        said = found[name].stdout if name in found else ""
        good.append(is_seen(said, bool(body)))
        print(f"{body or 'as it stands, ' + name}: {said.strip() or 'it did not run'}", flush=True)
    if not all(good):
        print(told[-2000:])
    return good


def main():
    parser = argparse.ArgumentParser(description="Sees that `ufsim check` tells wrong bodies of a device.")
    parser.add_argument("bodies", nargs="*", metavar="BODY", help="only these bodies")
    names = parser.parse_args().bodies or list(BODIES)
    unknown = [name for name in names if name not in BODIES]
    if unknown:
        print(f"check_sees: there is no {unknown[0]}, but {', '.join(BODIES)}", file=sys.stderr)
        return 2
    good = judged(None, names) + [it for name in names for it in judged(name, [name])]
    print(f"{good.count(True)} passed, {good.count(False)} failed")
    return 0 if all(good) else 1


if __name__ == "__main__":
    # So that what it made goes also if it is stopped.
    signal.signal(signal.SIGTERM, lambda number, frame: sys.exit(128 + number))
    sys.exit(main())
