"""Reads files of specifications: what they import, and each definition as its tokens, without comments and layout."""

import functools
import re
from typing import NamedTuple

NAME = r'(?!--)[^\s(){}.;,@"«»]+|«[^»]*»'
# (a name with what it is taken from, as `message.Append`, is one token; a quoted text ends on its line)
TOKEN = re.compile(rf'--.*|"(?:\\.|[^"\\])*"|(?:{NAME})(?:\.(?:{NAME}))*|[(){{}}.;,@«»"]')
# before a signature
MARKS = ("unfoldable", "abbrev", "pub")
FIXITIES = ("infix", "infixl", "infixr")
# what would bring names in, or be more than a definition, by rules that aren't known here
UNKNOWN = ("open", "ruleset", "axiom", "package", "deriving", "unfold")
HOLE = "◌"


class Failure(Exception):
    """Why a text can't be read."""


class Line(NamedTuple):
    """The tokens of a line, and how far in it begins."""

    indent: int
    tokens: list


class Import(NamedTuple):
    """A name that a file has of elsewhere, and its whole path; whether it is passed on."""

    name: str
    path: tuple
    is_passed_on: bool


class Definition(NamedTuple):
    """A definition: the names that it brings (its own, then its constructors'); its tokens, behind the heads of the
    modules that it stands in; and how many of these declare it."""

    names: tuple
    tokens: list
    declares: int


class File(NamedTuple):
    """What a file of specifications has."""

    imports: list
    modules: list
    definitions: list


def lines_of(text):
    """The lines of a text that have tokens, without comments."""
    if "{-" in text:
        text = re.sub(r"\{-.*?-\}", lambda it: re.sub(r"[^\n]", " ", it[0]), text, flags=re.S)
    for line in text.split("\n"):
        tokens = TOKEN.findall(line)
        if tokens and tokens[-1].startswith("--"):
            tokens.pop()
        if tokens:
            yield Line(len(line) - len(line.lstrip()), tokens)


def tokens_of(text):
    """The tokens of a text."""
    return flat(lines_of(text))


def flat(lines):
    """The tokens of lines."""
    return [it for line in lines for it in line.tokens]


def parts(name):
    """The words by which a text uses a name: an operator's parts, or the name itself."""
    return [it for it in name.split(HOLE) if it]


def read_import(tokens, is_passed_on=False):
    """What a `use` line imports, by the tokens behind `use`: `A.b`, `A.b as c` or `A.{b, c as d}`."""
    path, members = tuple(tokens[0].split(".")), tokens[1:]
    if members[:1] == ["."]:
        if members[1] != "{" or members[-1] != "}" or "{" in members[2:]:
            raise Failure(f"use {' '.join(tokens)}")
        members, named = members[2:-1], path
    else:
        members, named = [path[-1], *members], path[:-1]
    for member in " ".join(members).split(","):
        words = member.split()
        if words and (len(words) not in (1, 3) or words[1:2] not in ([], ["as"])):
            raise Failure(f"use {' '.join(tokens)}")
        if words:
            yield Import(words[-1], (*named, *words[0].split(".")), is_passed_on)


def blocks_of(lines):
    """Lines, grouped: each that begins as far in as the first, with those behind it that are farther in."""
    found = []
    for line in lines:
        if found and line.indent > lines[0].indent:
            found[-1].append(line)
        else:
            found.append([line])
    return found


def is_signature(tokens):
    """Whether this declares something (`name : type`), and is no clause (`name x = ..`)."""
    depth = 0
    for it in tokens:
        depth += (it in "({") - (it in ")}")
        if not depth and it in (":", "="):
            return it == ":"
    return False


def head_of(block):
    """How many lines of a block its head has, which ends in `where`."""
    return next((at for at, line in enumerate(block, 1) if "where" in line.tokens), len(block))


def constructors_of(block):
    """The names of the constructors of a data type."""
    for lines in blocks_of(block[head_of(block) :]):
        yield from lines[0].tokens[: lines[0].tokens.index(":")]


def definitions_of(lines, above=()):
    """The definitions in these lines, which stand in modules with these heads."""
    names, tokens, fixity, declares = (), [], [], 0
    for block in blocks_of(lines):
        own = ["\n", *flat(block)]
        at = next(at for at, it in enumerate(own) if it not in ("\n", *MARKS))
        word = own[at]
        if word in UNKNOWN or word == "module" and own[at + 1] != "_":
            raise Failure(f"{word} {own[at + 1]}: begins no item that is known here")
        if names and word not in ("record", "data", "module", "mutual", *FIXITIES) and not is_signature(own):
            tokens += own
            continue
        if names:
            yield Definition(names, tokens, declares)
        names, tokens = (), []
        if word in FIXITIES:
            fixity += own
        elif word == "mutual":
            yield from definitions_of(block[1:], above)
        elif word == "module":
            head = head_of(block)
            yield from definitions_of(block[head:], (*above, "\n", *flat(block[:head])))
        else:
            at += word in ("record", "data")
            name = own[at]
            if not is_signature(own) or own[at + 1] not in (":", "{", "("):
                raise Failure(f"{name} {own[at + 1]}: declares nothing")
            if fixity and fixity[-1] != name:
                raise Failure(f"{' '.join(fixity).strip()}: stands above {name}")
            names = (name, *(constructors_of(block) if word == "data" else ()))
            tokens, fixity = [*above, *fixity, *own], []
            declares = len(tokens)
    if names:
        yield Definition(names, tokens, declares)


@functools.cache
def read_text(text):
    """What a text of specifications has."""
    imports, modules, rest = [], [], []
    for block in blocks_of(list(lines_of(text))):
        tokens = flat(block)
        is_public = tokens[0] == "pub"
        word, *behind = tokens[is_public:]
        if word == "use":
            imports += read_import(behind, is_public)
        elif word == "mod":
            modules.append(behind[0])
        else:
            rest += block
    return File(imports, modules, list(definitions_of(rest)))


def read_file(file):
    """What a file of specifications has."""
    try:
        return read_text(file.read_text())
    except Failure as error:
        raise Failure(f"{file}: {error}") from None
