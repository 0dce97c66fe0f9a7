#!/usr/bin/env python3
"""Tries wrong bodies of the code, many in one check, and sees that the prover refuses each.

usage: wrong_bodies.py [--texts] [--list] [--compile] [--after-gate] [--anew] [--lanes N] [CRATE [NAME..]]

wrong_bodies/CRATE.edits has the edits of a crate. Each has a line 'name: NAME', a line
'file: src/lib.rt', then pairs of lines 'old: TEXT' and 'new: TEXT'; edit_files.py says how such a
file is read.

A round is one check of a copy of the crate with many edits. An edit of one function's body alone is
written beside it: the function stands there once more, with the wrong body, under another name, and
with the files that prove it under that name. So all of a crate's edits of this kind are one round,
or a few of a hundred, and no other function rests on them. A function that files prove stands there
also with its own body, as a control of its own: if that copy is not proved, its wrong bodies are
tried in its place. Any other edit is made in place. It goes into the first of the later rounds whose
edits touch none of its functions.

An edit is refused if a function of its own falls for a reason of its own: a goal that was not
proved, or a proof that no longer fits, and not only a call of what fell. If a round does not compile,
the compiler's front end finds in seconds which of its edits do not, and the others are tried without
them. What a round does not tell is tried in halves, and alone in the end, then in place and over the
whole crate.
The edit with the name control changes a body so that it means the same. It stands in each round and
has to be proved there. Only if the first round does not show that, the control is tried alone: the
whole crate has to be proved with it before anything else is tried.

A wrong body is tried only in a crate that is proved as it stands. So a round need not prove the
rest of the crate: it checks the functions that its edits and the control touch, and those that they
call, which have to be proved unless an edit touches them too.

A verdict that is as it must be is kept in the user's cache, by the sums of all that it was made
from (verdicts.py says which). A later run tries only what has no kept verdict; --anew tries all. A
crate with nothing to try is not checked.

--texts only looks whether each text that an edit changes stands once, also those of must-fail/. A
file of edits with a fault is told with its line, and then nothing is tried.
--compile only looks whether each edited text compiles, in minutes for all crates. --list shows rounds.
--after-gate takes the libraries that `rt ci` has just built in this folder.
The last line counts the edits and the controls, and the one before says how many were tried in this
run. The status is 0 if all is as it must be, 1 if not, and 2 if nothing could be said. With
WRONG_BODIES_TIMES set each check tells its processor time, and which functions it was long at.
"""
import argparse
import concurrent.futures
import os
import re
import shutil
import signal
import sys
import time

from bodies import moved_body, touched
from copies import AS_IT_STANDS, Ambiguous, added, copy_of
from crates import ROOT, below, is_static
from edits import Fault, changed, crates_of, edits_of, must_fail_edits, places, read_texts, together
from round_copy import RoundCopy, build_below, is_built, is_of_gate, is_proved, prove, prove_after_gate
from verdicts import Verdicts, apart_sum, own_texts, stated_below, stated_sum, texts_sum

# A check takes up to so much memory.
CHECK_BYTES = 4_000_000_000
# So many copies are in one round at most, as one process holds them all.
MOST = 100
# A function that takes so many seconds is worth a line.
LONG = 5
# What a verdict is made from, in two sums over a whole crate. The first is there at once. The second leaves out
# the bodies below and stays the same where only one of them changes; it wants the libraries below.
READ = (texts_sum, stated_sum)
# What rt must-fail calls unreadable: an error in the code, or in the edited text.
UNREAD = re.compile(r"^(?:\./)?src/\S+?:\d+:\d+: error: (?!`)", re.MULTILINE)


class NoControl(Exception):
    """Why nothing can be said of the wrong bodies of a crate."""


def names_in(said, functions):
    """The names in rt's verdicts of these functions, and of the closures in them."""
    return [name for name in said.verdicts if any(it.is_named(name) for it in functions)]


def shared_out(edits):
    """The edits in as few rounds as one check has room for, and these about as long as one another."""
    count = -(-len(edits) // MOST)
    return [edits[len(edits) * at // count : len(edits) * (at + 1) // count] for at in range(count)]


def is_whole(said, copy):
    """Whether a copy with the function's own body is proved."""
    names = names_in(said, {copy.as_function()})
    return bool(names) and all(is_proved(said.verdicts[name]) for name in names)


def is_unread(said):
    """Whether the edited text does not compile."""
    return bool(UNREAD.search(said.text))


class Crate:
    """A crate's wrong bodies in rounds, and what came of them."""

    def __init__(self, name, wanted=()):
        self.name, self.texts = name, read_texts(name)
        edits, self.control, self.faults = edits_of(name)
        self.edits = [it for it in edits if not wanted or it.name in wanted]
        self.missing = [it for it in wanted if not self.faults and it not in [edit.name for edit in edits]]
        self.good, self.bad, self.kept, self.seconds, self.checks = [], [], [], 0.0, 0
        self.places, self.functions, self.is_control_proved, self.unproved = {}, {}, False, None
        # The copies that hold the edits, and by function those with its own body.
        self.copies, self.whole = {}, {}
        self.verdicts, self.sums, self.names = None, [], {}

    def all(self):
        """The edits, and the control, if there is one."""
        return [*self.edits, *([self.control] if self.control else [])]

    def look_up(self, verdicts, read):
        """Takes the verdicts that earlier runs kept over what is read: only the other edits are tried."""
        self.verdicts = verdicts
        self.sums.append(read(ROOT, self.name))
        for edit in self.left() if self.sums[-1] else ():
            self.look_up_one(edit, self.sums[-1])

    def look_up_apart(self):
        """The same over what a check of the functions reads that an edit touches, if they are known. It needs the
        whole crate proved, since this sum leaves out what the others do."""
        own, stated = own_texts(ROOT, self.name), stated_below(ROOT, self.name)
        for edit in self.left() if stated and not self.unproved else ():
            if self.functions[edit.name]:
                self.look_up_one(edit, apart_sum(own, self.functions[edit.name], stated))

    def look_up_one(self, edit, read):
        """Takes the verdict that an earlier run kept on an edit, where what is read has this sum."""
        name = self.verdicts.name_of(read, edit, self.control)
        self.names.setdefault(edit.name, []).append(name)
        words = self.verdicts.words(name)
        if words:
            self.keep(edit, words)
            self.kept.append(edit)
            self.good.append(edit)
            self.is_control_proved |= edit is self.control

    def left(self):
        """The edits that no earlier run kept a verdict of, with the control."""
        return [it for it in self.all() if it not in self.kept]

    def keep(self, edit, words):
        """Keeps a verdict under each of its names."""
        for name in self.names[edit.name]:
            self.verdicts.keep(name, words)

    def is_done(self):
        """Whether each verdict was kept."""
        return len(self.kept) == len(self.all())

    def broken(self):
        """A line for each fault of the file of its edits, and for each edit whose texts do not stand once."""
        lines = [*self.faults]
        for edit in [*self.all(), *must_fail_edits(self.name)]:
            try:
                changed(edit, self.texts)
            except Fault as fault:
                lines.append(f"{edit.place}: {fault}")
        return lines

    def touch(self):
        """Finds the functions that each edit touches."""
        for edit in self.all():
            self.places[edit.name] = places(edit, self.texts)
            parts = [touched(self.texts, *it[:3]) for it in self.places[edit.name] or []]
            # With a part outside of all bodies nobody knows what the edit touches.
            self.functions[edit.name] = {it for part in parts for it in part} if parts and all(parts) else set()
            self.copy(edit)

    def plan(self):
        """Puts the edits that are to be tried into rounds."""
        kept = self.functions[self.control.name] if self.control else set()
        left = [it for it in self.edits if it not in self.kept]
        # Those of one function come together, so that its copy with its own body is mostly in one round.
        copied = sorted((it for it in left if it.name in self.copies), key=lambda it: self.copies[it.name].function)
        self.rounds, self.alone = [], []
        for edit in [it for it in left if it not in copied]:
            own = self.functions[edit.name]
            if not own or own & kept:
                self.alone.append(edit)
                continue
            for room in self.rounds:
                if not any(own & self.functions[other.name] for other in room):
                    room.append(edit)
                    break
            else:
                self.rounds.append([edit])
        self.rounds[:0] = shared_out(copied)

    def copy(self, edit):
        """Makes the copy that holds an edit, if this is of one body that may stand there twice."""
        changes = self.places[edit.name] or []
        moved = moved_body(self.texts, *changes[0]) if len(changes) == 1 else None
        if moved:
            function, body = moved
            self.functions[edit.name] = {function}
            changes = [(function.file, function.start, function.end, body)]
        own = self.functions[edit.name]
        function = next(iter(own)) if len(own) == 1 else None
        inside = function and all(it[0] == function.file and function.start <= it[1] <= it[2] <= function.end
                                  for it in changes)
        if not inside or not function.may_be_copied:
            return
        try:
            made = copy_of(self.name, self.texts, function, changes, edit.name)
            if made.proofs and function not in self.whole:
                self.whole[function] = copy_of(self.name, self.texts, function, [], AS_IT_STANDS)
            self.copies[edit.name] = made
        except Ambiguous:
            pass

    def wholes(self, edits):
        """The copies with their own bodies of the functions that these edits have copies of."""
        functions = [self.copies[it.name].function for it in edits if it.name in self.copies]
        return [self.whole[it] for it in dict.fromkeys(functions) if it in self.whole]

    def own(self, edit, in_place=False):
        """The functions that an edit touches, where it stands in a round, or in place."""
        made = None if in_place else self.copies.get(edit.name)
        return {made.as_function()} if made else self.functions[edit.name]

    def changes(self, edit):
        """The changes of the texts by which an edit stands in a round."""
        made = self.copies.get(edit.name)
        return added([made]) if made else self.places[edit.name]

    def names_of(self, edit, said, in_place=False):
        """The names in rt's verdicts of the functions that an edit touches."""
        return names_in(said, self.own(edit, in_place))

    def check(self, copy, texts, only=(), proofs=()):
        said = copy.check(texts, only, dict(proofs))
        self.seconds += said.seconds
        self.checks += 1
        if os.environ.get("WRONG_BODIES_TIMES"):
            longest = sorted(((wait, name) for name, wait in said.waits.items() if wait >= LONG), reverse=True)
            of_them = "".join(f"; {name} {wait:.0f} s" for wait, name in longest)
            print(f"{self.name}: check {self.checks} took {said.seconds:.0f} s{of_them}", flush=True)
        return said

    def check_touched(self, copy, texts, functions, proofs=()):
        """Checks these functions, and those that they call. If rt cannot tell functions apart by the ends of their
        names, it checks the whole crate."""
        said = self.check(copy, texts, {it.short_name() for it in functions}, proofs)
        return said if said.reached() or is_unread(said) else self.check(copy, texts, proofs=proofs)

    def text_of(self, edits):
        """What a round's check reads: the edits, the control, and the copies with their own bodies, and what proves
        those copies."""
        touch = [*edits, self.control]
        made = [self.copies[it.name] for it in touch if it.name in self.copies] + self.wholes(touch)
        texts = together([*map(self.changes, touch), added(self.wholes(touch))], self.texts)
        return texts, [file for it in made for file in it.proofs.items()]

    def check_round(self, copy, edits):
        """Checks a round."""
        touch = [*edits, self.control]
        texts, proofs = self.text_of(edits)
        functions = {it for edit in touch for it in self.own(edit)} | {it.as_function() for it in self.wholes(touch)}
        return self.check_touched(copy, texts, functions, proofs)

    def that_compile(self, copy, edits):
        """The edits of a round that compile together, and those that do not compile where they stand in it."""
        texts, proofs = self.text_of(edits)
        if not is_unread(self.check(copy, texts, {""}, proofs)):
            return edits, []
        if len(edits) == 1:
            return [], edits
        half = len(edits) // 2
        halves = [self.that_compile(copy, part) for part in (edits[:half], edits[half:])]
        return halves[0][0] + halves[1][0], halves[0][1] + halves[1][1]

    def reason(self, edit, said, in_place=False):
        """Why a function of the edit's own fell, if it fell for a reason of its own."""
        reasons = [(name, said.reason_of(name)) for name in self.names_of(edit, said, in_place)]
        return next((f"{name}: {why}" for name, why in reasons if why), None)

    def note(self, edit, is_right, words):
        (self.good if is_right else self.bad).append(edit)
        if is_right:
            self.keep(edit, words)
        print(f"{edit}: {words}", flush=True)

    def fault_of(self, edits, said):
        """Why a round says nothing of its edits; None, if it does."""
        if not said.reached():
            return f"the check did not come to a verdict: {said.first_error()}"
        control = self.names_of(self.control, said)
        if not control or not all(is_proved(said.verdicts[name]) for name in control):
            return "the control is not proved"
        mine = {name for edit in edits for name in self.names_of(edit, said)}
        mine |= {name for it in self.wholes(edits) for name in names_in(said, {it.as_function()})}
        others = [name for name in said.verdicts if name not in mine and not said.fell_alone(name)]
        return f"{others[0]} fell, which no edit touches: {said.verdicts[others[0]][:120]}" if others else None

    def try_round(self, copy, edits):
        """Tries the edits of a round together, and those that it does not tell of in smaller rounds."""
        said = self.check_round(copy, edits)
        fault = self.fault_of(edits, said)
        self.stand_on_control(copy, fault)
        if len(edits) > 1 and is_unread(said):
            good, odd = self.that_compile(copy, edits)
            for edit in odd:
                self.try_apart(copy, edit)
            if odd:
                self.try_rounds(copy, [good] if good else [])
                return
        if fault and len(edits) > 1:
            print(f"{self.name}: a round of {len(edits)} is tried in two halves: {fault}", flush=True)
            half = len(edits) // 2
            self.try_round(copy, edits[:half])
            self.try_round(copy, edits[half:])
            return
        for edit in edits:
            reason = None if fault else self.reason(edit, said)
            if not all(is_whole(said, it) for it in self.wholes([edit])):
                self.try_apart(copy, edit)
            elif reason:
                self.note(edit, True, f"refused, as it must be ({reason})")
            else:
                self.try_alone(copy, edit)

    def try_rounds(self, copy, rounds):
        """Tries rounds one after another."""
        for room in rounds:
            self.try_round(copy, room)

    def try_apart(self, copy, edit):
        """Tries an edit that can be in no round: first only what it touches, if that is known, and then all."""
        if self.functions[edit.name]:
            said = self.check_touched(copy, changed(edit, self.texts), self.functions[edit.name])
            reason = self.reason(edit, said, in_place=True)
            if reason and said.reached():
                self.note(edit, True, f"refused, as it must be (alone: {reason})")
                return
        self.try_alone(copy, edit)

    def try_alone(self, copy, edit):
        """Tries one edit as the kit's `rt must-fail` does: the crate must not be proved with it."""
        said = self.check(copy, changed(edit, self.texts))
        if not said.reached() or is_unread(said):
            self.note(edit, False, f"BAD EDIT: the prover could not read the edited text: {said.first_error()}")
        elif said.status == 0:
            words = f"NOT REFUSED: {self.name} is proved with it, so a contract lets it through: mend that"
            self.note(edit, False, words)
        else:
            words = self.reason(edit, said, in_place=True) or said.first_error()
            self.note(edit, True, f"refused, as it must be (alone: {words})")

    def stand_on_control(self, copy, fault):
        """Sees once that the control is proved: in the first round, or alone, if that round has a fault."""
        if self.is_control_proved:
            return
        if fault:
            said = self.check(copy, changed(self.control, self.texts))
            if said.status or not self.names_of(self.control, said, in_place=True):
                raise NoControl(said.first_error())
        self.is_control_proved = True
        self.note(self.control, True, "proved, as it must be (the control)")

    def stand_on_proof(self, of_gate):
        """Sees that the crate is proved as it stands: after the gate it has a library, as only a proved crate is built.
        Else rt proves it, as it also does with a static library, of which the gate leaves no file. What that costs
        counts, though it is kept for later runs."""
        if of_gate and not is_static(self.name):
            self.unproved = None if is_built(self.name) else "the gate did not prove it"
            return
        said = prove_after_gate(self.name) if of_gate else prove(self.name)
        self.seconds += said.seconds
        self.unproved = said.first_error() if said.status else None

    def stand_on_texts(self, copy):
        """Sees that the copy has the texts that the verdicts are kept under."""
        found = [read(copy.folder, self.name) for read in READ]
        if found != self.sums or read_texts(self.name, copy.folder) != self.texts:
            raise NoControl("files of it, or of a crate below it, were changed while this ran: run it again")

    def run(self, of_gate):
        """Tries all rounds, and then what touches the control or stands outside of all bodies."""
        copy = RoundCopy(self.name, of_gate)
        try:
            if self.unproved:
                raise NoControl(self.unproved)
            self.stand_on_texts(copy)
            self.try_rounds(copy, self.rounds)
            self.stand_on_control(copy, "no round showed it")
            for edit in self.alone:
                self.try_apart(copy, edit)
        except NoControl as fault:
            self.note(self.control, False, f"NOT PROVED: {self.name} has to be proved with it before a wrong body can "
                      f"be tried: {fault}")
            self.bad += [it for it in self.edits if it not in self.good]
        finally:
            copy.remove()
        print(f"{self.name}: {len(self.edits)} wrong bodies in {self.checks} checks, {len(self.bad)} not refused, "
              f"{len(self.kept)} verdicts kept from earlier runs; {self.seconds:.0f} s of processor time", flush=True)


def compiled(crate, of_gate):
    """Looks whether the edits of a crate compile, and gives those that do not."""
    crate.touch()
    crate.plan()
    copy = RoundCopy(crate.name, of_gate)
    try:
        odd = [edit for room in crate.rounds for edit in crate.that_compile(copy, room)[1]] + crate.alone
        said = {edit: crate.check(copy, changed(edit, crate.texts), {""}) for edit in odd}
    finally:
        copy.remove()
    bad = [edit for edit, it in said.items() if is_unread(it)]
    for edit in bad:
        print(f"{edit}: does not compile: {said[edit].first_error()}", flush=True)
    print(f"{crate.name}: {len(crate.edits)} edits, of which {len(bad)} do not compile; "
          f"{crate.seconds:.0f} s of processor time", flush=True)
    return bad


def all_compiled(crates, after_gate, lanes):
    """Looks whether each edit compiles, and counts. What is kept of earlier runs is looked at too."""
    names = [it.name for it in crates]
    of_gate = after_gate and is_of_gate(names)
    if not of_gate and not build_below(names):
        return 2
    with concurrent.futures.ThreadPoolExecutor(lanes_here(lanes)) as pool:
        bad = [edit for found in pool.map(lambda it: compiled(it, of_gate), crates) for edit in found]
    print(f"{sum(len(it.edits) for it in crates) - len(bad)} passed, {len(bad)} failed")
    return 1 if bad else 0


def free_bytes():
    """How much memory a new process may take; as much as one check, where the system does not say."""
    try:
        with open("/proc/meminfo", encoding="utf-8") as lines:
            return next(int(line.split()[1]) * 1024 for line in lines if line.startswith("MemAvailable:"))
    except (OSError, StopIteration):
        return CHECK_BYTES


def lanes_here(asked):
    """How many crates are tried at a time."""
    return asked or max(1, min(len(os.sched_getaffinity(0)), free_bytes() // CHECK_BYTES))


def listed(crates):
    """Shows the rounds of all edits."""
    for crate in crates:
        crate.touch()
        crate.plan()
        for number, room in enumerate(crate.rounds, 1):
            print(f"{crate.name}, round {number}: {' '.join(edit.name for edit in room)}")
        if crate.alone:
            print(f"{crate.name}, alone: {' '.join(edit.name for edit in crate.alone)}")
    return 0


def told_texts(crates, broken):
    """Says which edits cannot be made, and gives the status."""
    for line in broken:
        print(line)
    if broken:
        print(f"{len(broken)} faults of edits: no edit is tried before they are mended")
    count = sum(len(it.faults) + len(it.all()) + len(must_fail_edits(it.name)) for it in crates)
    print(f"{count - len(broken)} passed, {len(broken)} failed")
    return 1 if broken else 0


def told(crates, began):
    """Says what came of all crates, and gives the status."""
    good, bad = [it for crate in crates for it in crate.good], [it for crate in crates for it in crate.bad]
    if bad:
        print(f"FAILED: {' '.join(str(it) for it in bad)}")
    kept, seconds = sum(len(it.kept) for it in crates), sum(it.seconds for it in crates)
    print(f"wrong bodies: {len(good) + len(bad) - kept} tried in this run, {kept} kept from earlier runs; "
          f"{seconds / 60:.1f} minutes of processor time, {(time.monotonic() - began) / 60:.1f} minutes")
    print(f"{len(good)} passed, {len(bad)} failed")
    return 1 if bad else 0


def tried(crates, after_gate, lanes):
    """Tries the crates in lanes, those with the most rounds first, and counts."""
    began = time.monotonic()
    left = [it for it in crates if not it.is_done()]
    names = [it.name for it in left]
    of_gate = after_gate and is_of_gate(names)
    if not of_gate and not build_below(names):
        return 2
    for it in left:
        it.look_up(it.verdicts, stated_sum)
    left = [it for it in left if not it.is_done()]
    for it in sorted(left, key=lambda it: len(below(it.name))):
        it.stand_on_proof(of_gate)
        it.touch()
        it.look_up_apart()
        it.plan()
    left = [it for it in left if not it.is_done()]
    names = " ".join(it.name for it in left) or "none"
    print(f"wrong bodies: {len(left)} of {len(crates)} crates have some to be tried: {names}", flush=True)
    with concurrent.futures.ThreadPoolExecutor(lanes_here(lanes)) as pool:
        by_length = sorted(left, key=lambda it: -(len(it.rounds) + len(it.alone)))
        for done in [pool.submit(it.run, of_gate) for it in by_length]:
            done.result()
    return told(crates, began)


def main():
    parser = argparse.ArgumentParser(description="Tries wrong bodies in rounds, and sees that each is refused.")
    parser.add_argument("crate", nargs="?", metavar="CRATE", help="the crate to try; all, if none is named")
    parser.add_argument("names", nargs="*", metavar="NAME", help="the edits of it to try; all, if none is named")
    parser.add_argument("--texts", action="store_true", help="only look whether each text stands once")
    parser.add_argument("--list", action="store_true", help="show the rounds, and try none")
    parser.add_argument("--compile", action="store_true", help="only look whether each edited text compiles")
    parser.add_argument("--after-gate", action="store_true", help="take the libraries that rt ci has just built here")
    parser.add_argument("--anew", action="store_true", help="try also what an earlier run has kept a verdict of")
    parser.add_argument("--lanes", type=int, default=0, metavar="N", help="how many crates are tried at a time")
    asked = parser.parse_args()
    crates = [Crate(name, asked.names) for name in crates_of([asked.crate] if asked.crate else [])]
    missing = [name for it in crates for name in it.missing] or ([asked.crate] if not crates else [])
    if missing:
        print(f"wrong_bodies: there is no {', '.join(missing)}", file=sys.stderr)
        return 2
    broken = [line for it in crates for line in it.broken()]
    if broken or asked.texts:
        return told_texts(crates, broken)
    crates = [it for it in crates if it.edits]
    without = [it.name for it in crates if it.control is None]
    if without:
        print(f"wrong_bodies: there is no control: wrong_bodies/{without[0]}.edits has no edit of this name",
              file=sys.stderr)
        return 2
    return listed(crates) if asked.list else run(crates, asked)


def run(crates, asked):
    """Tries what has no kept verdict."""
    if shutil.which("rt") is None:
        print("wrong_bodies: rt is not there", file=sys.stderr)
        return 2
    # The copies go also if the script is stopped.
    signal.signal(signal.SIGTERM, lambda number, frame: sys.exit(128 + number))
    if asked.compile:
        return all_compiled(crates, asked.after_gate, asked.lanes)
    verdicts = Verdicts(asked.anew)
    for it in crates:
        it.look_up(verdicts, texts_sum)
    status = tried(crates, asked.after_gate, asked.lanes)
    verdicts.sweep()
    return status


if __name__ == "__main__":
    sys.exit(main())
