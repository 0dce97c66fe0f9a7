"""Finds the functions of a .rt file and their bodies, and which functions a changed text touches."""
import functools
import re
from typing import NamedTuple, Tuple

# Of a text without its strings: where `extern "C"` stands, blanks are left behind its first word.
HEAD = re.compile(r"^(?P<indent> *)(?:pub(?:\([^)]*\))? )?(?:const |extern +)?fn (?P<name>\w+)", re.MULTILINE)
IMPL = re.compile(r"^impl\b(?P<words>[^{;]*)\{", re.MULTILINE)
# What may not stand there a second time: a function that calls itself has one proof with all of its cycle.
ONLY_ONCE = re.compile(r"#\[(?:cycle|test|cfg|unsafe)\b")
CONSTANT = re.compile(r"^ *(?:pub(?:\([^)]*\))? )?const (?P<name>\w+): .*;$", re.MULTILINE)
# A body, and the head of a function that takes the one which stood there.
MOVED = re.compile(r"\s*(?P<body>\{.*\}) fn \w+\([^{}]*", re.DOTALL)
# A brace after these words holds a clause of a contract, and any other one opens the body.
CLAUSE = re.compile(r"\b(?:requires|ensures|ghost)\*?(?:\s+\w+)?\s*:?\s*$")


class Function(NamedTuple):
    """A function: its file, the type or trait that it is a method of, its name and the place of its body; where its
    attributes and its name begin; and whether it may stand in its file once more, under another name."""

    file: str
    owner: str
    name: str
    start: int
    end: int
    head: int
    named: int
    may_be_copied: bool

    def modules(self):
        """The modules of its file, below the crate."""
        parts = self.file[len("src/"): -len(".rt")].split("/")
        return [] if parts in (["lib"], ["main"]) else parts

    def short_name(self):
        """The end of rt's name of it. A method's has no module, as that is the one of its type, which may stand in
        another file."""
        return "::".join([self.owner, self.name] if self.owner else [*self.modules(), self.name])

    def is_named(self, said):
        """Whether rt's name of a function, as `ftl_core::ftl::Ftl::take`, is that of this one or of a closure in it."""
        parts, module = said.split("::")[1:], self.modules()
        if self.owner:
            return parts[-2:] == [self.owner, self.name] or f"fn::{self.owner}::{self.name}::" in said
        return parts == [*module, self.name] or "::".join([*module, "fn", self.name]) + "::" in "::".join(parts)


def blanked(text):
    """The text with a blank for each character of its comments and of what its strings hold."""
    words = re.compile(r'//[^\n]*|b?"(?:[^"\\\n]|\\.)*"|b?\'(?:[^\'\\\n]|\\.)\'')
    return words.sub(lambda found: " " * len(found[0]), text)


def closed(text, start):
    """The place after the brace that closes the one at this place."""
    depth = 0
    for at in range(start, len(text)):
        depth += {"{": 1, "}": -1}.get(text[at], 0)
        if depth == 0:
            return at + 1
    return len(text)


def body_of(text, start):
    """The place of the body of a function whose head begins here; None, if it has only a contract."""
    at = start
    while True:
        brace, stop = text.find("{", at), text.find(";", at)
        # A semicolon in brackets belongs to an array's type.
        while 0 <= stop < brace and text.count("[", at, stop) > text.count("]", at, stop):
            stop = text.find(";", stop + 1)
        if brace < 0 or 0 <= stop < brace:
            return None
        end = closed(text, brace)
        if not CLAUSE.search(text, max(start, brace - 60), brace):
            return brace, end
        at = end


def with_attributes(text, start):
    """The place where the attributes of what begins here begin."""
    while text[:start].rstrip().endswith("]"):
        at, depth = len(text[:start].rstrip()) - 1, 1
        while depth and at:
            at -= 1
            depth += {"]": 1, "[": -1}.get(text[at], 0)
        if not at or text[at - 1] != "#":
            break
        start = text.rfind("\n", 0, at) + 1
    return start


def owners(text):
    """The places of the impls of a file, with the name that rt gives to what they belong to, and whether each is of a
    trait."""
    found = []
    for impl in IMPL.finditer(text):
        words = re.sub(r"<[^<>]*>", "", re.sub(r"<[^<>]*>", "", impl["words"])).split()
        of_trait = "for" in words
        owner = words[-1].split("::")[-1] + (words[words.index("for") - 1].split("::")[-1] if of_trait else "")
        found.append((impl.start(), closed(text, impl.end() - 1), owner, of_trait))
    return found


@functools.lru_cache(maxsize=None)
def functions(file, text):
    """The functions of a file; one within another counts as a part of it."""
    plain, found = blanked(text), []
    impls = owners(plain)
    for head in HEAD.finditer(plain):
        body = body_of(plain, head.start("name"))
        if body is None or any(other.start < head.start() < other.end for other in found):
            continue
        around = (tuple(it[2:]) for it in impls if it[0] < head.start() < it[1])
        owner, of_trait = next(around, ("", bool(head["indent"])))
        begin = with_attributes(plain, head.start())
        is_plain = head["name"] != "main" and not ONLY_ONCE.search(plain, begin, head.start())
        found.append(Function(file, owner, head["name"], *body, begin, head.start("name"), is_plain and not of_trait))
    return tuple(found)


def using(texts, name):
    """The functions of a crate that name a constant, with those that name a constant that is made of it."""
    users, word = set(), re.compile(rf"\b{name}\b")
    for file, text in texts.items():
        plain = blanked(text)
        places = [found.start() for found in word.finditer(plain)]
        inside = functions(file, text)
        for constant in CONSTANT.finditer(plain):
            if constant["name"] != name and any(constant.start() < at < constant.end() for at in places):
                users |= using(texts, constant["name"])
        users |= {it for it in inside if any(it.start < at < it.end for at in places)}
    return users


def touched(texts, file, start, end) -> Tuple[Function, ...]:
    """The functions whose bodies a change of this part of a file changes; none, if it is neither of one function's body
    nor of constants."""
    inside = [it for it in functions(file, texts[file]) if it.start < start and end < it.end]
    if inside:
        return tuple(inside)
    declared = CONSTANT.finditer(blanked(texts[file]))
    constants = [it["name"] for it in declared if it.start() <= start and end <= it.end()]
    return tuple(sorted(using(texts, constants[0]))) if constants else ()


def moved_body(texts, file, start, end, new):
    """The function before whose body a change writes another one, and that body; None, if the change is not of this
    form. What stood there becomes the body of a function that nothing calls."""
    text = texts[file]
    found = MOVED.fullmatch(new, end - start) if new.startswith(text[start:end]) else None
    if found is None or closed(blanked(found["body"]), 0) != len(found["body"]):
        return None
    before = [it for it in functions(file, text) if it.named < end <= it.start and not text[end : it.start].strip()]
    return (before[0], found["body"]) if before else None
