"""Reads source files (.rt): what they declare, and of each function its head, its clauses and its body."""

import functools
import re
from typing import NamedTuple

# white space and comments, and behind them a quoted text or letter, a word (or a lifetime), a mark, or the end
TOKEN = re.compile(
    r"""(?:\s+|//[^\n]*|/\*.*?\*/)*
    (b?r(\#*)".*?"\2 | b?"(?:\\.|[^"\\])*" | b?'(?:\\(?:u\{[^}]*\}|x..|.)|[^\\'\n])'
    | '?\w+'* | :: | -> | => | . | \Z)""",
    re.S | re.X,
)
CLOSED_BY = {"(": ")", "[": "]", "{": "}"}
CLAUSES = ("ghost", "requires", "ensures")
TYPES = ("struct", "enum", "union")
VALUES = ("const", "static", "type")
CONTAINERS = ("impl", "trait", "mod")
# words before what an item is
BEFORE = ("unsafe", "extern")


class Failure(Exception):
    """Why a text can't be read."""


class Clause(NamedTuple):
    """A clause of a function, or a ghost item: `ensures`, its name if it has one, and what its braces hold."""

    kind: str
    name: str
    text: str


class Item(NamedTuple):
    """Something that a file declares. Its head goes up to its clauses, its block or its end; what is declared in the
    block of an `impl`, a trait or a module is `inside`."""

    kind: str
    name: str
    # where its attributes begin, it does, its block does and ends, or it ends without one; and the place behind it
    begins: int
    first: int
    opens: int
    closes: int
    end: int
    head: tuple
    is_public: bool = False
    attributes: tuple = ()
    block: tuple = ()
    clauses: tuple = ()
    inside: tuple = ()

    def is_test(self):
        return any(words[0] == "test" for words in self.attributes)

    def is_const(self):
        """Whether it is a function of which constants may be made."""
        return self.kind == "fn" and "const" in self.head[: self.head.index("fn")]

    def implements(self):
        """The trait of an `impl` (nothing if it has none), and the type."""
        words = self.head
        at = words.index("impl") + 1
        if words[at] == "<":
            at = generics_end(words, at)
        end = words.index("where") if "where" in words else len(words)
        middle = words.index("for", at) if "for" in words[at:end] else None
        return (words[at:middle], words[middle + 1 : end]) if middle else ((), words[at:end])

    def owner(self):
        """The name by which what stands in an `impl` goes, `Engine` or `EngineDisplay`, and whether that is the type's own."""
        trait, of = self.implements()
        return last_name(of) + last_name(trait), not trait


def last_name(words):
    """The last name of a path, without generic parameters; a tuple as it is written."""
    if words[:1] == ("(",):
        return "".join(words).replace(",", ", ")
    return words[words.index("<") - 1 if "<" in words else -1] if words else ""


def generics_end(words, at):
    """The place behind the generic parameters that begin at a place."""
    depth = 0
    while True:
        depth += (words[at] == "<") - (words[at] == ">")
        at += 1
        if not depth:
            return at


class Reader:
    """A text as words, each bracket with the one that closes it."""

    def __init__(self, text):
        found = [(it[1], it.start(1)) for it in TOKEN.finditer(text) if it[1]]
        self.text, self.words, self.starts = text, [it[0] for it in found], [it[1] for it in found]
        self.closes, opened = {}, []
        for at, word in enumerate(self.words):
            if word in CLOSED_BY:
                opened.append(at)
            elif word in CLOSED_BY.values():
                if not opened or CLOSED_BY[self.words[opened[-1]]] != word:
                    raise Failure(f"line {self.line(at)}: {word} closes nothing")
                self.closes[opened.pop()] = at
        if opened:
            raise Failure(f"line {self.line(opened[-1])}: {self.words[opened[-1]]} isn't closed")

    def line(self, at):
        return self.text.count("\n", 0, self.starts[at]) + 1

    def word(self, at):
        return self.words[at] if at < len(self.words) else ""

    def find(self, at, marks):
        """The first of these marks from a place on that stands in no brackets."""
        while self.word(at) not in marks:
            if at >= len(self.words):
                raise Failure(f"there is none of {' '.join(marks)} until the end")
            at = self.closes.get(at, at) + 1
        return at

    def between(self, at, end):
        """The text between two words."""
        return self.text[self.starts[at] + len(self.words[at]) : self.starts[end]]

    def items(self, at=0, end=None):
        """What is declared between two places."""
        end = len(self.words) if end is None else end
        while at < end:
            item, at = self.item(at)
            if item:
                yield item

    def item(self, at):
        """The item that begins at a place (none if attributes of the whole file do), and the place after it."""
        attributes, begins = [], self.starts[at]
        while self.word(at) == "#":
            is_of_file = self.word(at + 1) == "!"
            opened = at + 1 + is_of_file
            attributes.append(tuple(self.words[opened + 1 : self.closes[opened]]))
            at = self.closes[opened] + 1
            if is_of_file:
                return None, at
        first, is_public = at, self.word(at) == "pub"
        if is_public:
            at += 1
            if self.word(at) == "(":
                is_public, at = False, self.closes[at] + 1
        while self.word(at) in BEFORE or self.word(at) == "const" and self.word(at + 1) in (*BEFORE, "fn"):
            # (what is extern has the name of how it is called behind it)
            at += 2 if self.word(at) == "extern" else 1
        kind = self.word(at)
        if kind == "ghost":
            return self.ghost(at)
        known = {"begins": begins, "is_public": is_public, "attributes": tuple(attributes)}
        read = self.function if kind == "fn" else self.container if kind in CONTAINERS else self.plain
        return read(kind, at, first, **known)

    def made(self, kind, name, first, opens, closes, **known):
        """An item, and the place behind it."""
        places = {"first": self.starts[first], "opens": self.starts[opens], "closes": self.starts[closes]}
        places |= {"begins": self.starts[first], "end": self.starts[closes] + 1, "head": tuple(self.words[first:opens])}
        return Item(kind, name, **{**places, **known}), closes + 1

    def ghost(self, at):
        """A ghost item, or a `ghost use`."""
        end = self.find(at, ";")
        kind = "ghost use" if self.word(at + 1) == "use" else "ghost"
        clause = Clause(kind, self.word(at + 1), self.between(at + 1, end))
        return self.made(kind, self.word(at + 1), at, end, end, clauses=(clause,))

    def function(self, kind, at, first, **known):
        clauses, head_end, here = [], None, at
        while True:
            here = self.find(here, ("{", ";", *CLAUSES))
            if self.word(here) not in CLAUSES:
                break
            head_end, opened = head_end or here, self.find(here, "{")
            name = "".join(it for it in self.words[here + 1 : opened] if it not in "*:")
            kind_of_it = self.word(here) + "*" * (self.word(here + 1) == "*")
            clauses.append(Clause(kind_of_it, name, self.between(opened, self.closes[opened])))
            here = self.closes[opened] + 1
        end = self.closes.get(here, here)
        known |= {"head": tuple(self.words[first : head_end or here]), "block": tuple(self.words[here + 1 : end])}
        return self.made(kind, self.word(at + 1), first, here, end, clauses=tuple(clauses), **known)

    def container(self, kind, at, first, **known):
        """A module, a trait or an `impl`."""
        opens = self.find(at, ("{", ";"))
        end = self.closes.get(opens, opens)
        inside = tuple(self.items(opens + 1, end)) if end > opens else ()
        return self.made(kind, self.word(at + 1), first, opens, end, inside=inside, **known)

    def plain(self, kind, at, first, **known):
        """A type, a constant or a `use`."""
        if kind not in (*TYPES, *VALUES, "use"):
            raise Failure(f"line {self.line(at)}: {kind} begins no item that is known here")
        opens = self.find(at, ("{", ";") if kind in TYPES else ";")
        end = self.closes.get(opens, opens)
        block = tuple(self.words[opens + 1 : end])
        return self.made(kind, self.word(at + 1), first, opens, end, block=block, **known)


# (a test reads most texts again)
@functools.cache
def read_items(text):
    """What a source text declares."""
    return list(Reader(text).items())


def read_file(file):
    """What a source file declares."""
    try:
        return read_items(file.read_text())
    except Failure as error:
        raise Failure(f"{file}: {error}") from None


def functions_in(items, block=None):
    """The functions in these items, each with the trait or the `impl` that it stands in."""
    for it in items:
        if it.kind == "fn":
            yield it, block
        elif it.kind in CONTAINERS:
            yield from functions_in(it.inside, None if it.kind == "mod" else it)
