"""Reads crates.txt: the crates of the repository, and what each stands on."""
import pathlib

ROOT = pathlib.Path(__file__).resolve().parent.parent


def lines_of(root=ROOT):
    """The lines of crates.txt by crate, without comments."""
    text = (root / "crates.txt").read_text(encoding="utf-8")
    lines = [line.partition("#")[0].strip() for line in text.splitlines()]
    return {line.split(":")[0].split()[0]: line for line in lines if ":" in line}


def is_static(crate, root=ROOT):
    """Whether a crate is built as a static library, for programs in other languages."""
    return "staticlib" in lines_of(root).get(crate, "").partition(":")[0].split()


def uses(root=ROOT):
    """Of each crate the crates of the repository that its line names."""
    lines = lines_of(root)
    named = {crate: line.partition(":")[2].split() for crate, line in lines.items()}
    return {crate: [it for it in names if it in lines] for crate, names in named.items()}


def lowest_first(wanted, used, found=None):
    """These crates and all below them, each after those that it stands on."""
    found = [] if found is None else found
    for crate in wanted:
        if crate in used and crate not in found:
            lowest_first(used[crate], used, found)
            found.append(crate)
    return found


def below(crate, root=ROOT):
    """The crates that a crate stands on, lowest first."""
    used = uses(root)
    return lowest_first(used.get(crate, []), used)


def needed(wanted, root=ROOT):
    """The lines of crates.txt for these crates and all that they stand on, and the names of both."""
    names = lowest_first(wanted, uses(root))
    return [line for crate, line in lines_of(root).items() if crate in names], names
