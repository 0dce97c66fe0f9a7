"""Reads files of edits, wrong_bodies/CRATE.edits and wrong_rules/TOPIC.edits, line by line.

Such a file has one edit after another, in the order of their names. A blank line stands between two
edits, and nowhere else. An edit begins with its name, each of its lines with a word and a colon:

    name: NAME, of a to z, 0 to 9 and '_', which no other edit of the file has
    file: the file that the pairs below change; a line for each file
    old: TEXT, which stands in that file
    new: TEXT in its place

One blank after the colon does not belong to the text. All else does, byte for byte, further blanks
and those at its end too. A text may be empty. A wrong rule has more words, and texts of several
lines: rules.py tells of both.

No other line is read. Each fault of a file is told with its line, and then none of its edits is
taken. A fault is an edit without 'file:' or with an 'old:' before it, an 'old:' without 'new:' or
the other way round, a name that is not as it has to be or not at its place, a blank line too many
or too few, and any line that is none of these.
"""
import re
from typing import NamedTuple, Tuple

NAME = re.compile(r"[a-z0-9_]+")


class Form(NamedTuple):
    """What an edit may have: the words of the lines below its name, and whether several lines of one word are one
    text. Where they are, an old text may stand without a new one: then its lines go."""

    words: Tuple[str, ...]
    is_joined: bool = False


class Line(NamedTuple):
    """A line of an edit: its number in the file, its word, and its text."""

    number: int
    word: str
    text: str


class Entry(NamedTuple):
    """An edit as it stands in a file: its name, the number of that line, and the lines below it."""

    name: str
    number: int
    lines: list


class Reader:
    """What was read of a file so far, and its faults by their lines."""

    def __init__(self, form):
        self.form, self.entries, self.faults = form, [], []
        # Whether the next line has to begin an edit.
        self.begins = True

    def fault(self, number, cause):
        self.faults.append((number, cause))

    def take(self, number, line):
        """Takes a line of the file."""
        word, colon, text = line.partition(":")
        text = text[1:] if text.startswith(" ") else text
        begins, self.begins = self.begins, not line
        if colon and word == "name":
            if not begins:
                self.fault(number, "a blank line has to stand before it")
            self.begin(number, text)
        elif begins:
            self.fault(number, "here an edit has to begin, with a line 'name: NAME'")
        elif line and (not colon or word not in self.form.words):
            words = ", ".join(f"{it}:" for it in ("name", *self.form.words))
            self.fault(number, f"it begins with none of {words}, so it is not read: {line}")
        if colon and word in self.form.words and self.entries:
            self.entries[-1].lines.append(Line(number, word, text))

    def begin(self, number, name):
        """Begins an edit of this name."""
        first = next((it.number for it in self.entries if it.name == name), None)
        if not NAME.fullmatch(name):
            self.fault(number, f"a name has only a to z, 0 to 9 and '_', and not: {name}")
        elif first is not None:
            self.fault(number, f"a second edit has the name {name}: the first is in line {first}")
        elif self.entries and name < self.entries[-1].name:
            self.fault(number, f"{name} has to stand before {self.entries[-1].name}, in the order of the names")
        self.entries.append(Entry(name, number, []))

    def end(self, number):
        """Ends the file, which has so many lines."""
        if self.begins and self.entries:
            self.fault(number, "a blank line stands after the last edit")
        for entry in self.entries:
            self.faults += misplaced(entry, self.form)


def misplaced(entry, form):
    """The lines of an edit that want another one beside them, by their numbers, each with the cause."""
    words, found = [line.word for line in entry.lines], []
    if "file" not in words:
        return [(entry.number, f"{entry.name} has no line 'file:'")]
    for at, line in enumerate(entry.lines):
        before, after = words[:at], words[at + 1 : at + 2]
        is_more = form.is_joined and before[-1:] == ["new"]
        if line.word == "old" and not {"file", "mend"} & set(before):
            found.append((line.number, "no line 'file:' stands before it"))
        elif line.word == "old" and after != ["new"] and not form.is_joined:
            found.append((line.number, "no line 'new:' follows it"))
        elif line.word == "new" and before[-1:] != ["old"] and not is_more:
            found.append((line.number, "no line 'old:' stands before it"))
    return found


def place(path):
    """A file of edits, as the tools name it."""
    return f"{path.parent.name}/{path.name}"


def read(path, form):
    """The edits of a file, and its faults, a line for each. If it has faults no edit is taken."""
    lines = path.read_text(encoding="utf-8").split("\n")
    lines = lines[:-1] if lines[-1] == "" else lines
    reader = Reader(form)
    for number, line in enumerate(lines, 1):
        reader.take(number, line)
    reader.end(len(lines))
    faults = [f"{place(path)}:{number}: {cause}" for number, cause in sorted(reader.faults)]
    return ([] if faults else reader.entries), faults
