"""Reads the wrong rules of wrong_rules/: each is a rule of the specification, turned around.

A file wrong_rules/TOPIC.edits has the rules of a topic. edit_files.py says how such a file is read.
Each rule has these lines, which begin with their words:

    name: NAME, which no rule of any topic has besides
    says: the wrong rule in words
    law: crate::function, the law that is to refuse it: one that speaks of this rule
    file: the file below crates/ that the pairs below change
    old: TEXT, which stands in that file once
    new: TEXT in its place
    mend: a file with a proof that only quotes an old text: there the pairs below mend each place where it stands

A text of several lines has its word on each of them. Where no new text follows an old one, its
lines go.
"""
from typing import NamedTuple, Tuple

import edit_files
from crates import ROOT

FOLDER = ROOT / "wrong_rules"
FORM = edit_files.Form(("says", "law", "file", "mend", "old", "new"), is_joined=True)


class Rule(NamedTuple):
    """A wrong rule in words and where it stands, the law that is to refuse it, its changes, and what mends quotes of
    it."""

    name: str
    place: str
    says: str
    law: str
    edits: Tuple[Tuple[str, str, str], ...]
    mends: Tuple[Tuple[str, str, str], ...]


class Reader:
    """What was read of a rule so far."""

    def __init__(self):
        self.words, self.edits, self.mends = {}, [], []
        self.pairs, self.file, self.old, self.new = self.edits, "", [], []

    def end_pair(self):
        """Notes the pair that was read, if there is one."""
        if self.old:
            gone = "" if self.new else "\n"
            self.pairs.append((self.file, "\n".join(self.old) + gone, "\n".join(self.new)))
        self.old, self.new = [], []

    def take(self, word, text):
        """Takes a line of the rule."""
        if word == "new":
            self.new.append(text)
            return
        if word != "old" or self.new:
            self.end_pair()
        if word == "old":
            self.old.append(text)
        elif word in ("file", "mend"):
            self.file, self.pairs = text, self.edits if word == "file" else self.mends
        else:
            self.words[word] = text


def rule_of(entry, file):
    """The rule that stands in a file."""
    reader = Reader()
    for _, word, text in entry.lines:
        reader.take(word, text)
    reader.end_pair()
    says, law = (reader.words.get(word, "") for word in ("says", "law"))
    where = f"{file}:{entry.number}, {entry.name}"
    return Rule(entry.name, where, says, law, tuple(reader.edits), tuple(reader.mends))


def rules():
    """All wrong rules, and a line for each fault of their files."""
    found, faults = [], []
    for path in sorted(FOLDER.glob("*.edits")):
        entries, more = edit_files.read(path, FORM)
        found += [rule_of(it, edit_files.place(path)) for it in entries]
        faults += more
    return found, faults


def faults_of(rule):
    """Why a rule cannot be tried, a line for each reason."""
    def text_of(file):
        path = ROOT / "crates" / file
        return path.read_text(encoding="utf-8") if path.is_file() else ""

    is_whole = rule.says and "::" in rule.law and rule.edits
    faults = [] if is_whole else ["it wants lines says:, law:, file:, old: and new:"]
    counts = [(file, old, text_of(file).count(old)) for file, old, _ in rule.edits]
    faults += [f"this text stands {found} times in crates/{file}, and not once: {old}"
               for file, old, found in counts if found != 1]
    faults += [f"this text, to be mended, does not stand in crates/{file}: {old}"
               for file, old, _ in rule.mends if old not in text_of(file)]
    return [f"{rule.place}: {fault}" for fault in faults]
