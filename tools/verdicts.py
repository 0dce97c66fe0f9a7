"""Keeps which wrong bodies were refused, each under sums of all that its verdict was made from.

What was read is in the sum: the code, definitions and proofs of the crate and of those below it,
their lines of crates.txt, HANDLES, the edit, the control, this tool and the kit. So a verdict never
goes stale. The round is not in it, since a round judges each edit by itself: by the reasons that lie
in the functions of that edit alone.

A second sum has of the crates below only what they state: the texts of their built libraries that
hold signatures with contracts, definitions and lemmas. A check of a crate reads no body below it: with
one changed, rt says `checked=0` of the modules above. So where only bodies below changed, with the
answers that prove them, the verdict is found by this sum.

A third sum leaves out, of the crate's own functions, the bodies of those that the edit does not touch, and
the files that prove them. A check of one function reads of the others their heads and contracts alone.

Only a verdict that is as it must be is kept. All lies in the user's cache, none of it in the repository.
"""
import contextlib
import functools
import hashlib
import json
import os
import pathlib
import subprocess
import sys
import tempfile
import time

from bodies import functions
from crates import below, lines_of

HERE = pathlib.Path(__file__).resolve().parent
PARTS = ("src", "specs", "proofs")
# What of a built library states things to a check of a crate above it: signatures with contracts,
# definitions and lemmas. All else in it is made from bodies and from their proofs, as are these files.
STATED = ("lang", "interface/lang")
OF_BODIES = ("Answers.antt", "Invariants.antt", "Proof.antt", "made.json")
# A verdict that no run asked for in so many seconds is removed.
KEPT_FOR = 90 * 24 * 3600


def cache_folder():
    """Where verdicts are kept: in the folder that the user's system sets apart for such files."""
    place = os.environ.get("XDG_CACHE_HOME", "")
    # A path that begins nowhere has to be passed over, says the rule for this variable.
    top = pathlib.Path(place) if os.path.isabs(place) else pathlib.Path.home() / ".cache"
    return top / "butcherford" / "wrong_bodies"


def sum_of(*parts):
    return hashlib.sha256(repr(parts).encode()).hexdigest()


def files_in(folder):
    """The files of a folder with their bytes, by their paths in it."""
    found = sorted(path for path in folder.rglob("*") if path.is_file())
    return [(str(path.relative_to(folder)), path.read_bytes()) for path in found]


def tool_sum():
    """A sum of the files of this tool that run."""
    files = {getattr(module, "__file__", None) for module in [*sys.modules.values()]} - {None}
    places = sorted({pathlib.Path(file).resolve() for file in files})
    return sum_of([(path.name, path.read_bytes()) for path in places if path.parent == HERE])


def kit_line():
    """The line by which the kit names itself."""
    how = {"stdin": subprocess.DEVNULL, "stdout": subprocess.PIPE, "check": True}
    return subprocess.run(["rt", "version"], **how).stdout


def own_texts(root, crate):
    """The texts of a crate."""
    return [files_in(root / "crates" / crate / part) for part in PARTS]


def settings(root, crates):
    """What crates.txt and HANDLES say of these crates."""
    handles = root / "HANDLES"
    lines = lines_of(root)
    return handles.read_bytes() if handles.exists() else None, [lines[crate] for crate in crates]


def texts_sum(root, crate):
    """A sum of the texts that a check of a crate reads, and more: its own, and those below."""
    names = [*below(crate, root), crate]
    return sum_of(settings(root, names), [own_texts(root, name) for name in names])


@functools.lru_cache(maxsize=None)
def stated_below(root, crate):
    """A sum of what the crates below a crate state, and of their lines; None, if one is not built."""
    names = below(crate, root)
    places = [root / "crates" / name / "out" / "rlib" / f"{name}.rlib" for name in names]
    if not all((place / part).is_dir() for place in places for part in STATED):
        return None
    files = [(place.name, part, files_in(place / part)) for place in places for part in STATED]
    stated = [(name, part, [it for it in found if pathlib.PurePath(it[0]).name not in OF_BODIES])
              for name, part, found in files]
    return sum_of(settings(root, [*names, crate]), stated)


def stated_sum(root, crate):
    """A sum of the texts of a crate and of what the crates below it state; None, if one is not built."""
    stated = stated_below(root, crate)
    return stated and sum_of(own_texts(root, crate), stated)


def without_bodies(file, text, kept):
    """A text of code without the bodies of functions, but for these. A body that may not stand twice stays, since
    others may be proved together with it."""
    for it in reversed(functions(file, text)):
        if it.may_be_copied and it not in kept:
            text = text[: it.start] + text[it.end :]
    return text


def proves_another(path, kept):
    """Whether a file of proofs/ proves a function, and none of these. One that proves a cycle may prove any."""
    parts = pathlib.PurePath(path).parts
    names = {it.name for it in kept}
    return parts[-1] in OF_BODIES and not names & set(parts) and not any(it.startswith("+") for it in parts)


def apart_sum(own, kept, stated):
    """A sum of what a check of these functions of a crate reads, which has these texts, where those below it state
    what has this sum."""
    source, specs, proofs = own
    code = [(path, without_bodies(f"src/{path}", text.decode(), kept)) for path, text in source]
    return sum_of("apart", code, specs, [it for it in proofs if not proves_another(it[0], kept)], stated)


class Verdicts:
    """The verdicts that earlier runs kept."""

    def __init__(self, anew=False):
        self.anew, self.folder = anew, cache_folder()
        self.made_by = sum_of(tool_sum(), kit_line())

    def name_of(self, read, edit, control):
        """The name of the verdict on an edit in a crate, where what is read has this sum."""
        return sum_of(self.made_by, read, edit.name == control.name, edit.pairs, control.pairs)

    def words(self, name):
        """What an earlier run said of the same edit over the same; None, if it kept nothing."""
        try:
            found = json.loads((self.folder / name).read_text(encoding="utf-8"))
            if self.anew or found["name"] != name:
                return None
            os.utime(self.folder / name)
            return str(found["words"])
        except (OSError, ValueError, KeyError, TypeError):
            return None

    def keep(self, name, words):
        """Keeps a verdict: written apart and then renamed, so that no other run meets half of it."""
        try:
            self.folder.mkdir(parents=True, exist_ok=True)
            with tempfile.NamedTemporaryFile("w", prefix="new-", dir=self.folder, delete=False) as file:
                json.dump({"name": name, "words": words}, file)
            os.replace(file.name, self.folder / name)
        except OSError as fault:
            print(f"wrong_bodies: nothing is kept, so the next run tries all again: {fault}", file=sys.stderr)

    def sweep(self):
        """Removes what no run asked for in a long time."""
        oldest = time.time() - KEPT_FOR
        for path in self.folder.glob("*"):
            with contextlib.suppress(OSError):
                if path.stat().st_mtime < oldest:
                    path.unlink()
