"""A copy of some crates in which definitions are changed for a try, and what rt says of it.

A law of a lower crate that a change breaks keeps rt from the crates above it, with `rt check --allow-holes` too: rt
builds nothing on a crate with a hole. So `reach` cuts such a law out of the copy, with the lemmas that fell and those
that cite them, and checks again. A cut takes knowledge away and never adds any: what is proved in a crate above it is
proved without what fell.
"""
import pathlib
import re
import shutil
import subprocess
import tempfile
from typing import NamedTuple, Tuple

from crates import ROOT, needed

# These crates hold laws and lemmas only, so a part of them can be cut out. Of any other crate below, as that of the
# definitions, only lemmas can be cut, as long as its functions are proved.
CRATES_OF_LAWS = ("ufs_laws", "power_loss", "many_stops", "heard_laws")
# So many times a copy is cut before a try is given up.
MOST_CUTS = 12

# What rt prints: the crate that it checks, its verdict on a function, and an error in a file of the crate.
CRATE = re.compile(r"^rt: chose --jobs \d+ for (\w+)$", re.MULTILINE)
VERDICT = re.compile(r"^fn (\w+)::(\S+?): (.*)$", re.MULTILINE)
ERROR = re.compile(r"^\./(\S+?):(\d+):\d+: error: (.*)$", re.MULTILINE)
# An error of a declaration itself, and one that tells which others were not checked for its sake.
OWN = re.compile(r"`([^`\s]+)`: ")
FOLLOWS = re.compile(r"\d+ declarations? that depends? on `([^`]+)`.*? not checked: (.*?)(?: and (\d+) more)?$")
MISSING = re.compile(r".*`([^`]+)` is not in scope")
CLAUSE = "returns-clause-"


class Fault(NamedTuple):
    """An error: its place, the declarations that fell, and the one that they cite, if they fell for its sake.

    Of many declarations rt names some only: then those of the file may be meant, too. A name may be missing, since it
    was cut in a crate below.
    """

    file: str
    line: int
    fell: Tuple[str, ...]
    cites: str
    perhaps: frozenset = frozenset()
    missing: str = ""

    def place(self):
        name = self.fell[0] if self.fell else "?"
        cites = f", which cites {self.missing}, cut below" if self.missing else ""
        return f"{self.file}:{self.line}, {name}{cites}"


class Said(NamedTuple):
    """What rt said: its status, the crate that it came to, its verdicts there by law, and the faults there."""

    status: int
    crate: str
    verdicts: dict
    faults: list
    text: str

    def fallen(self):
        """The laws that are not proved."""
        return [law for law, verdict in self.verdicts.items() if verdict.startswith(("not proved", "no proof"))]

    def faults_of(self, law):
        """The faults in the files of one law's proof."""
        return [fault for fault in self.faults if law in pathlib.PurePath(fault.file).parts[:-1]]

    def clauses_of(self, law):
        """The clauses of a law that fell, as far as rt names them."""
        names = [name for fault in self.faults_of(law) for name in fault.fell]
        return sorted({name[len(CLAUSE):] for name in names if name.startswith(CLAUSE)})

    def root_of(self, law):
        """The fault that a law fell for: the lemma that its proof cites, and that one's, down to the first."""
        faults = self.faults_of(law)
        if not faults:
            return self.faults[0] if self.faults else None
        fault, seen = faults[0], set()
        while fault.cites and fault.cites not in seen:
            seen.add(fault.cites)
            below = [other for other in self.faults if fault.cites in other.fell]
            below = below or [other for other in self.faults if fault.cites in other.perhaps]
            if not below:
                break
            fault = below[0]
        return fault


def can_be_cut(said):
    """Whether what fell in a crate are laws and lemmas only."""
    if said.crate in CRATES_OF_LAWS:
        return True
    return bool(said.faults) and not said.fallen() and all(fault.file.startswith("proofs/") for fault in said.faults)


def read_faults(text, folder):
    """The errors that rt printed of a crate in a folder."""
    faults = []
    for file, line, words in ERROR.findall(text):
        follows = FOLLOWS.match(words)
        if follows:
            names = tuple(name.split(" (via")[0].strip() for name in follows[2].split(", "))
            perhaps = declared_in(folder / file) if follows[3] else frozenset()
            faults.append(Fault(file, int(line), names, follows[1], perhaps))
        else:
            own, missing = OWN.match(words), MISSING.match(words)
            names = (own[1],) if own else ()
            faults.append(Fault(file, int(line), names, "", missing=missing[1] if missing else ""))
    return faults


def has_law(crate, law):
    """Whether a crate has a public function of this name."""
    sources = (ROOT / "crates" / crate / "src").glob("*.rt")
    return any(re.search(rf"^ *pub fn {law}\b", file.read_text(encoding="utf-8"), re.MULTILINE) for file in sources)


class TrialCopy:
    """A copy of crates, with what earlier checks left, so that a check does only what is new, or without it."""

    def __init__(self, crates, source=ROOT, leave_out=()):
        self.folder = pathlib.Path(tempfile.mkdtemp(prefix="trial_copy."))
        self.before = {}
        lines, wanted = needed(crates)
        (self.folder / "crates.txt").write_text("\n".join(lines) + "\n", encoding="utf-8")
        if (source / "HANDLES").exists():
            shutil.copy2(source / "HANDLES", self.folder)
        for crate in wanted:
            shutil.copytree(source / "crates" / crate, self.folder / "crates" / crate, symlinks=True,
                            ignore=shutil.ignore_patterns(*leave_out))

    def remove(self):
        shutil.rmtree(self.folder, ignore_errors=True)

    # Changes

    def path(self, file):
        return self.folder / "crates" / file

    def write(self, path, text):
        """Writes a file, or takes it away, and keeps what it was."""
        self.before.setdefault(path, path.read_text(encoding="utf-8"))
        if text is None:
            path.unlink()
        else:
            path.write_text(text, encoding="utf-8")

    def change(self, file, old, new):
        """Puts a new text in the place of an old one; says whether the old one stood there once."""
        path = self.path(file)
        text = path.read_text(encoding="utf-8") if path.exists() else ""
        if text.count(old) != 1:
            return False
        self.write(path, text.replace(old, new))
        return True

    def mend(self, file, old, new):
        """Puts a new text in the place of each old one; says whether there was one."""
        path = self.path(file)
        text = path.read_text(encoding="utf-8") if path.exists() else ""
        if old not in text:
            return False
        self.write(path, text.replace(old, new))
        return True

    def undo(self):
        """Makes the copy what it was."""
        for path, text in self.before.items():
            path.parent.mkdir(parents=True, exist_ok=True)
            path.write_text(text, encoding="utf-8")
        self.before = {}

    # Checks

    def check(self, crate):
        """Runs rt in a crate, and reads what it says of the crate that it comes to."""
        ran = subprocess.run(
            ["rt", "check"], cwd=self.path(crate), stdin=subprocess.DEVNULL, stdout=subprocess.PIPE,
            stderr=subprocess.STDOUT, encoding="utf-8", errors="replace", check=False)
        came = list(CRATE.finditer(ran.stdout))
        # With nothing new rt names no crate, or only lower ones: then the verdicts tell which one it came to.
        verdicts = VERDICT.findall(ran.stdout)
        reached = came[-1][1] if came else (verdicts[-1][0] if verdicts else "nothing")
        if ran.returncode == 0 and verdicts:
            reached = verdicts[-1][0]
        text = ran.stdout[came[-1].start():] if came else ran.stdout
        laws = {name.split("::")[-1]: verdict for of, name, verdict in verdicts if of == reached}
        return Said(ran.returncode, reached, laws, read_faults(text, self.path(reached)), ran.stdout)

    def reach(self, crate):
        """Checks a crate, and cuts what falls in the crates of laws below it; says what was cut."""
        laws, lemmas = [], []
        for _ in range(MOST_CUTS):
            said = self.check(crate)
            if said.crate == crate or not can_be_cut(said):
                break
            new_laws, new_lemmas = self.cut(said)
            if not new_laws and not new_lemmas:
                break
            laws += [f"{said.crate}::{law}" for law in new_laws]
            lemmas += new_lemmas
        return said, laws, lemmas

    # Cuts

    def cut(self, said):
        """Takes out of a crate of laws the laws that fell, and the lemmas that fell."""
        laws = [law for law in said.fallen() if self.cut_law(said.crate, law)]
        if said.crate in CRATES_OF_LAWS:
            self.drop_unused(said.crate)
        # A fault's line is one of the text as it was checked.
        lemmas, texts = [], {}
        for fault in said.faults:
            path = self.path(f"{said.crate}/{fault.file}")
            if not path.exists():
                continue
            texts.setdefault(path, path.read_text(encoding="utf-8"))
            names = fault.fell or (declared_at(texts[path], fault.line),)
            for name in (*names, *(citing(texts[path], names) if fault.perhaps else ())):
                if name and self.cut_lemma(path, name):
                    self.forget(said.crate, fault.file, name)
                    lemmas.append(name)
        return laws, lemmas

    def cut_law(self, crate, law):
        """Takes out a law: its function, its name in `pub use`, and the folder of its proof."""
        was_there = False
        for path in sorted((self.path(crate) / "src").glob("*.rt")):
            text = path.read_text(encoding="utf-8")
            left = re.sub(rf"^(?:///.*\n)*pub fn {law}\(\)\n(?:.*\n)*?\{{\}}\n", "", text, flags=re.MULTILINE)
            was_there = was_there or left != text
            left = re.sub(rf"^pub use [\w:]+::{law};\n", "", left, flags=re.MULTILINE)
            uses = re.compile(r"^pub use [\w:]+::\{[^}]*\};\n", re.MULTILINE)
            left = uses.sub(lambda use: without_name(use[0], law), left)
            if left != text:
                self.write(path, left)
        for folder in (self.path(crate) / "proofs").rglob(law):
            for path in folder.rglob("*.antt"):
                self.write(path, None)
            shutil.rmtree(folder)
        return was_there

    def drop_unused(self, crate):
        """Takes away the files of lemmas that no law cites any more, and no other crate."""
        proofs = self.path(crate) / "proofs"
        uses = re.compile(rf"^use Rattle\.{crate}\.proofs\.([\w.]+?)(?:\.\{{| as |$)", re.MULTILINE)
        files = lemma_files(proofs)
        others = [path for path in (self.folder / "crates").glob("*/proofs/**/*.antt")
                  if path not in files.values()]
        wanted, left = set(), others
        while left:
            found = {name for path in left for name in uses.findall(path.read_text(encoding="utf-8"))}
            found = (found & files.keys()) - wanted
            wanted |= found
            left = [files[name] for name in found]
        for name in sorted(files.keys() - wanted):
            self.write(files[name], None)
            list_of = proofs / (name.split(".")[0] + ".antt" if "." in name else "Lib.antt")
            listed = list_of.read_text(encoding="utf-8")
            self.write(list_of, re.sub(rf"^pub mod {name.split('.')[-1]}\n", "", listed, flags=re.MULTILINE))

    def cut_lemma(self, path, name):
        """Takes out a declaration: its signature, the deeper lines and equations that follow, and an emptied block."""
        text = path.read_text(encoding="utf-8")
        kept, depth = [], None
        for line in text.splitlines(keepends=True):
            if declares(line) == name:
                depth = indent(line)
            elif depth is not None and line.strip() and not belongs(line, name, depth):
                depth = None
            if depth is None:
                kept.append(line)
        if "".join(kept) == text:
            return False
        self.write(path, drops_where("".join(kept)))
        return True

    def forget(self, crate, file, name):
        """Takes a lemma's name out of each import of its module."""
        module = f"Rattle.{crate}." + file[: -len(".antt")].replace("/", ".")
        uses = re.compile(rf"^use {re.escape(module)}\.\{{[^}}]*\}}\n", re.MULTILINE)
        for path in sorted((self.folder / "crates").glob("*/proofs/**/*.antt")):
            text = path.read_text(encoding="utf-8")
            left = uses.sub(lambda use: without_name(use[0], name), text)
            if left != text:
                self.write(path, left)


def lemma_files(proofs):
    """The files of lemmas below a folder of proofs, by the name of their module: those that a list of modules names."""
    files = {path.stem: path for path in proofs.glob("*.antt") if path.stem[0].isupper() and path.stem != "Lib"}
    for listing in proofs.glob("*.antt"):
        if listing.stem[0].islower():
            files.update((f"{listing.stem}.{path.stem}", path) for path in (proofs / listing.stem).glob("*.antt"))
    return files


def indent(line):
    """How many blanks a line begins with."""
    return len(line) - len(line.lstrip(" "))


def declares(line):
    """The name that a line of a proof declares, if it does."""
    found = re.match(r" *(?:(?:abbrev|unfoldable|pub|data|record) )*([^\s(:]+) :(?:\s|$)", line)
    if not found and indent(line) == 0:
        found = re.match(r"(?:(?:pub|data|record) )+([^\s(:]+) [^:=]*: ", line)
    return found[1] if found else None


def drops_where(text):
    """A file without empty blocks: the head of a module goes, and the `where` of a declaration."""
    lines = text.splitlines(keepends=True)
    for last in range(len(lines) - 1, -1, -1):
        # A head of several lines that went was the end of the file.
        if last >= len(lines):
            continue
        first = last if lines[last].strip() == "where" else head_of_module(lines, last)
        if first is None:
            continue
        below = next((line for line in lines[last + 1 :] if line.strip() and not line.lstrip().startswith("--")), "")
        if indent(below) <= indent(lines[first]):
            del lines[first : last + 1]
    return "".join(lines)


def head_of_module(lines, last):
    """The first line of the head of a module that ends with this line's `where`, if there is one."""
    for first in range(last, -1, -1):
        ends = re.search(r"\bwhere$", lines[first].rstrip()) is not None
        if ends != (first == last) or not lines[first].strip():
            return None
        if lines[first].lstrip().startswith("module _"):
            return first
    return None


def citing(text, names):
    """The declarations of a file that name one of these, and those that name them in turn."""
    found, bodies, name = set(names), {}, None
    for line in text.splitlines():
        name = declares(line) or name
        bodies.setdefault(name, set()).update(re.findall(r"[\w-]+", line))
    while True:
        more = {name for name, words in bodies.items() if name and name not in found and words & found}
        if not more:
            return sorted(found - set(names))
        found |= more


def belongs(line, name, depth):
    """Whether a line after the signature of a declaration is a part of it."""
    first = line.split()[0]
    follows = first in (name, "unfolding") or first[0] in ")}]"
    return indent(line) > depth or (indent(line) == depth and follows and declares(line) != name)


def declared_in(path):
    """The names that a file declares."""
    return frozenset(filter(None, map(declares, path.read_text(encoding="utf-8").splitlines())))


def declared_at(text, number):
    """The declaration that a line lies in."""
    names = [declares(line) for line in text.splitlines()[:number]]
    return next((name for name in reversed(names) if name), None)


def without_name(use, name):
    """An import or a `pub use` without one of its names; nothing, if no name is left."""
    head, names = use.split("{", 1)
    kept = [word.strip() for word in names.rsplit("}", 1)[0].split(",")]
    kept = [word for word in kept if word and word != name]
    tail = use.rsplit("}", 1)[1]
    return f"{head}{{{', '.join(kept)}}}{tail}" if kept else ""
