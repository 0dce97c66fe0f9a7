#!/usr/bin/env python3
"""Stands in for the kit's command rt in the tests of the tools: a function is proved if it gives the
number that it is named after, and if the file that proves it, where it has one, speaks of it. Each
check adds a line to the file that FAKE_LOG names: the crate, and the functions that were to be
checked, or that its library was to be built. It cannot tell which function FAKE_UNKNOWN names, and
a check of all refuses proofs of a function that is not there. A text with the word oops does not
compile. Before the checks it builds the library lower.
"""
import os
import pathlib
import re
import sys

FUNCTION = re.compile(r"fn (\w+)\(\) -> u8 \{\n    (.*)\n\}")
NUMBERS = {"ten": 10, "twenty": 20, "thirty": 30, "forty": 40}


def number_of(name):
    """The number that a function is named after, or the one that it is a copy of."""
    return NUMBERS[name.split("_")[0]]


def fits(name):
    """Whether what proves a function speaks of it, and of no name that only another one has."""
    file = pathlib.Path("proofs", name, "Answers.antt")
    text = file.read_text(encoding="utf-8") if file.exists() else f".{name}.Goals"
    return f".{name}.Goals" in text and ("-- only here" not in text or "_" not in name)


def check(crate, only, wanted):
    """Says of each function of the crate here whether it is proved, or of these alone, and gives the status."""
    with open(os.environ["FAKE_LOG"], "a", encoding="utf-8") as log:
        log.write(f"{crate} {'nothing' if only == [''] else wanted or 'all'}\n")
    text = pathlib.Path("src/lib.rt").read_text(encoding="utf-8")
    if "oops" in text:
        print("./src/lib.rt:1:1: error: nothing has the name `oops`")
        return 1
    bodies = FUNCTION.findall(text)
    if os.environ.get("FAKE_UNKNOWN") in only:
        print("rattle: the name fits several functions")
        return 2
    bodies = [(name, body) for name, body in bodies if not only or name in only]
    stray = {path.name for path in pathlib.Path("proofs").glob("*") if path.is_dir()} - {name for name, _ in bodies}
    if stray and not only:
        print(f"rattle: there is no function {stray}")
        return 2
    fallen = [name for name, body in bodies if not fits(name) or sum(map(int, body.split(" + "))) != number_of(name)]
    for name, _ in bodies:
        verdict = "not proved: `search` did not prove its result" if name in fallen else "proved"
        print(f"fn {crate}::{name}: {verdict}")
    last = "logic=failed" if fallen else "logic=proved"
    print(f"only={len(bodies)} proved={len(bodies) - len(fallen)}" if only else last)
    return 1 if fallen else 0


def build(folder):
    """Builds the library of a crate: what it states are its functions without their bodies."""
    text = (folder / "src" / "lib.rt").read_text(encoding="utf-8")
    for part in ("lang", "interface/lang"):
        place = folder / "out" / "rlib" / f"{folder.name}.rlib" / part
        place.mkdir(parents=True, exist_ok=True)
        (place / "lib.rt").write_text(FUNCTION.sub(r"fn \1() -> u8", text), encoding="utf-8")
        (place / "made.json").write_text(text, encoding="utf-8")


def main(words):
    if words == ["version"]:
        print(os.environ["FAKE_KIT"])
    elif words == ["check", "--only", ""]:
        build(pathlib.Path.cwd().parent / "lower")
    elif words[0] in ("check", "lib"):
        only = [it for flag, it in zip(words, words[1:]) if flag == "--only"]
        return check(pathlib.Path.cwd().name, only, "lib" if words[0] == "lib" else " ".join(only))
    return 0


if __name__ == "__main__":
    sys.exit(main(sys.argv[1:]))
