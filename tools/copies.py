"""Writes functions once more beside themselves, each with a wrong body and under another name, with the files that
prove it. So several wrong bodies of one function stand in one check, and no other function falls with them."""
import re
from typing import NamedTuple

from bodies import Function
from crates import ROOT

AS_IT_STANDS = "as_it_stands"
# The files that prove a function.
PROOFS = ("Answers.antt", "Invariants.antt", "Proof.antt")


class Ambiguous(Exception):
    """Why a function has no copy: its name, or that of the copy, is also another one's."""


class Copy(NamedTuple):
    """A copy of a function: which one, its own name, its text, and the files of its proof by their paths."""

    function: Function
    name: str
    text: str
    proofs: dict

    def as_function(self):
        """The copy as a function of its file."""
        return self.function._replace(name=self.name)


def proof_folder(crate, function):
    """The folder with the files that prove a function; None, if it has none. A method's is that of its type, which may
    stand in another file."""
    top = ROOT / "crates" / crate / "proofs"
    if not function.owner:
        found = [top.joinpath(*function.modules(), function.name)]
    else:
        found = sorted(top.rglob(f"{function.owner}/{function.name}"))
    found = [it for it in found if any((it / name).exists() for name in PROOFS)]
    if len(found) > 1:
        raise Ambiguous(f"{function.short_name()} is the name of several functions")
    return found[0] if found else None


def proofs_of(crate, function, name):
    """The files that prove a function, as those of its copy with this name."""
    folder = proof_folder(crate, function)
    if folder is None:
        return {}
    path = ".".join(folder.relative_to(ROOT / "crates" / crate / "proofs").parts)
    above = path[: -len(function.name)]
    own = re.compile(rf"\bRattle\.{crate}\.(proofs|specs\.contracts)\.{re.escape(path)}(?![\w-])")
    proved = re.compile(rf"(?<![\w.-]){function.name}_spec(?![\w-])")
    found = {}
    for file in [folder / it for it in PROOFS if (folder / it).exists()]:
        text = own.sub(rf"Rattle.{crate}.\1.{above}{name}", file.read_text(encoding="utf-8"))
        place = folder.with_name(name) / file.name
        found[str(place.relative_to(ROOT / "crates" / crate))] = proved.sub(f"{name}_spec", text)
    return found


def copy_of(crate, texts, function, places, word):
    """The copy of a function with these parts of its body changed, and this word in its name."""
    text, name = texts[function.file], f"{function.name}_{word}"
    if any(name in it for it in texts.values()):
        raise Ambiguous(f"{name} stands in the crate's code")
    body, at = [], function.start
    for _, start, end, new in sorted(places, key=lambda it: it[1]):
        body += [text[at:start], new]
        at = end
    head = text[function.head : function.named] + name + text[function.named + len(function.name) : function.start]
    whole = head + "".join(body) + text[at : function.end]
    return Copy(function, name, whole, proofs_of(crate, function, name))


def added(copies):
    """The changes of the texts that write each copy behind its function."""
    return [(it.function.file, it.function.end, it.function.end, f"\n\n{it.text}") for it in copies]
