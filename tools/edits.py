"""Reads the wrong bodies, those of wrong_bodies/CRATE.edits and of the kit's must-fail/, and says what each changes.

edit_files.py says how a file of edits is read. A text of a wrong body is one line.
"""
import re
from typing import NamedTuple, Tuple

import edit_files
from crates import ROOT

FOLDER = ROOT / "wrong_bodies"
CONTROL = "control"
FORM = edit_files.Form(("file", "old", "new"))


class Edit(NamedTuple):
    """An edit of a crate: where it stands, and its pairs of texts, each with its file."""

    crate: str
    name: str
    place: str
    pairs: Tuple[Tuple[str, str, str], ...]

    def __str__(self):
        return f"{self.crate}/{self.name}"


class Fault(Exception):
    """Why an edit cannot be applied, or is not there."""


def must_fail_edit(crate, path):
    """The edit of a file, in the form of the kit's must-fail edits."""
    file, old, pairs = "", None, []
    for line in path.read_text(encoding="utf-8").split("\n"):
        if line.startswith("file: "):
            file = line[len("file: "):].strip()
        elif line.startswith("old: "):
            old = line[len("old: "):]
        elif line.startswith("new:"):
            pairs.append((file, old or "", re.sub(r"\A ", "", line[len("new:"):])))
            old = None
    return Edit(crate, path.stem, str(path.relative_to(ROOT)), tuple(pairs))


def pairs_of(entry):
    """The pairs of texts of an edit without a fault, each with its file."""
    file, old, pairs = "", "", []
    for line in entry.lines:
        if line.word == "file":
            file = line.text.strip()
        elif line.word == "old":
            old = line.text
        else:
            pairs.append((file, old, line.text))
    return tuple(pairs)


def edits_of(crate):
    """The wrong bodies of a crate by name, its control, if it has one, and a line for each fault of their file."""
    path = FOLDER / f"{crate}.edits"
    entries, faults = edit_files.read(path, FORM) if path.exists() else ([], [])
    edits = [Edit(crate, it.name, f"{edit_files.place(path)}:{it.number}, {it.name}", pairs_of(it)) for it in entries]
    control = next((it for it in edits if it.name == CONTROL), None)
    return [it for it in edits if it.name != CONTROL], control, faults


def wrong_body(crate, name):
    """A wrong body by its name."""
    edits, _, faults = edits_of(crate)
    found = [it for it in edits if it.name == name]
    if not found:
        raise Fault("\n".join(faults) or f"there is no wrong body {crate}/{name}")
    return found[0]


def must_fail_edits(crate):
    return [must_fail_edit(crate, path) for path in sorted((ROOT / "crates" / crate / "must-fail").glob("*.edit"))]


def read_texts(crate, root=ROOT):
    """The texts of a crate's code, by their files."""
    folder = root / "crates" / crate
    files = sorted((folder / "src").rglob("*.rt"))
    return {str(path.relative_to(folder)): path.read_text(encoding="utf-8") for path in files}


def changed(edit, texts):
    """The texts with the edit made, pair after pair, as the kit makes it."""
    texts = dict(texts)
    if not edit.pairs:
        raise Fault("it has no lines 'old: TEXT' and 'new: TEXT'")
    for file, old, new in edit.pairs:
        found = texts.get(file, "").count(old) if old else 0
        if found != 1:
            raise Fault(f"this text stands {found} times in crates/{edit.crate}/{file}, and not once: {old}")
        texts[file] = texts[file].replace(old, new)
    return texts


def places(edit, texts):
    """The parts of the texts, as they stand, that an edit changes, with what it puts there; None, if one of its pairs
    changes what another one has put there."""
    before, found = texts, []
    for pair in edit.pairs:
        file, old, new = pair
        at = before[file].index(old)
        for other, start, end, put in sorted(found, key=lambda it: it[1]):
            if other == file and start < at + len(old) and at < start + len(put):
                return None
            at -= len(put) - (end - start) if other == file and start < at else 0
        before = changed(edit._replace(pairs=(pair,)), before)
        found.append((file, at, at + len(old), new))
    return found


def together(all_places, texts):
    """The texts with the changes of several edits that do not overlap."""
    texts = dict(texts)
    for file, start, end, new in sorted((it for places_of in all_places for it in places_of), reverse=True):
        texts[file] = texts[file][:start] + new + texts[file][end:]
    return texts


def crates_of(names):
    """The crates that have wrong bodies of their own or edits that must fail, of these names."""
    crates = sorted(path.name for path in (ROOT / "crates").iterdir() if path.is_dir())
    return [it for it in crates if not names or it in names]
