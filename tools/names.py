"""What the names in the sources of all crates stand for: in code, in clauses and in specifications.

A place is a module or an item by its whole name, as `raft_state::ids::LogId` or `raft_state.specs.Log.last`."""

from typing import NamedTuple

import antt
import rust

TYPES = (*rust.TYPES, *rust.VALUES)
ROOTS = (("lib",), ("main",), ("Lib",))


class Failure(Exception):
    """Why a name stands for nothing."""


class Found(NamedTuple):
    """A place, and the words behind it that name a part of it, as a variant; or none, and all of a name of the kit."""

    place: str
    behind: tuple

    @property
    def whole(self):
        return ".".join((self.place, *self.behind) if self.place else self.behind)


def split(words):
    """Words at the commas that stand in no braces."""
    depth, begun = 0, 0
    for at, it in enumerate((*words, ",")):
        depth += (it == "{") - (it == "}")
        if it == "," and not depth:
            if words[begun:at]:
                yield words[begun:at]
            begun = at + 1


def uses_of(words, path=()):
    """The names that a `use` brings, each with its path, by its words: `a::b`, `a::b as c`, `a::{self, b}`."""
    if words[0] == "{":
        for member in split(words[1:-1]):
            yield from uses_of(member, path)
    elif words[1:2] == ("::",):
        yield from uses_of(words[2:], (*path, words[0]))
    elif words[1:2] == ("as",):
        yield words[2], (*path, words[0])
    elif words == ("self",):
        yield path[-1], path
    else:
        yield words[0], (*path, words[0])


def files_of(folder, ending):
    """The files below a folder, each with the names of the modules on the way to it."""
    for file in sorted(folder.rglob(f"*{ending}")):
        within = file.relative_to(folder).with_suffix("").parts
        yield file, () if within in ROOTS else within


class Names:
    """The names of each module: where each leads, to a place or by the path of what is imported."""

    def __init__(self, top, crates):
        self.top, self.crates, self.scopes = top, crates, {}
        # what each place of code and of specifications declares; and all that a module of code has
        self.items, self.definitions, self.code = {}, {}, {}
        for crate in crates:
            for file, within in files_of(top / "crates" / crate / "src", ".rt"):
                self.read_code("::".join((crate, *within)), rust.read_file(file))

    def read_code(self, module, items):
        """Takes what a module of code has."""
        if module in self.code:
            raise Failure(f"{module} is declared twice")
        names = self.scopes[module] = {}
        self.code[module] = items
        self.add_ghost(f"ghost {module}", items)
        for it in items:
            place = f"{module}::{it.name}"
            if it.kind == "use":
                for name, path in uses_of(it.head[it.head.index("use") + 1 :]):
                    names[name] = name if path == (name,) else path
            elif it.kind == "mod":
                names[it.name] = place
                if it.inside:
                    self.read_code(place, it.inside)
            elif it.kind in (*TYPES, "trait", "fn"):
                names[it.name] = place
                self.items[place] = it

    def add_ghost(self, module, items):
        """Takes what the `ghost use` among these items bring, as names of this module."""
        uses = [antt.tokens_of(it.clauses[0].text) for it in items if it.kind == "ghost use"]
        found = [it for tokens in uses for it in antt.read_import(tokens)]
        self.scopes[module] = {part: it.path for it in found for part in antt.parts(it.name)}

    def is_module(self, place):
        return self.scopes.get(place) is not None

    def is_only_called(self, place):
        """Whether this is a function, of which no constant is made."""
        it = self.items.get(place)
        return bool(it) and it.kind == "fn" and not it.is_const()

    def read_all_specs(self):
        """Reads the files of specs/ of all crates."""
        for crate in self.crates:
            for _, within in files_of(self.top / "crates" / crate / "specs", ".antt"):
                self.scope(".".join((crate, "specs", *within)))

    def scope(self, place):
        """The names of a module; none if the place is an item."""
        if place not in self.scopes:
            self.scopes[place] = self.read_specs(place) if "." in place and place not in self.definitions else None
        return self.scopes[place]

    def read_specs(self, place):
        """The names of a file of specs/ or proofs/, whose definitions are kept."""
        crate, kind, *within = place.split(".")
        file = (self.top / "crates" / crate / kind).joinpath(*within or ["Lib"]).with_suffix(".antt")
        if not file.is_file():
            raise Failure(f"{place} is no file")
        found = antt.read_file(file)
        # (what rattle makes of the code stands beside the files)
        names = {} if within else {"declared": crate, "contracts": crate}
        names |= {it: f"{place}.{it}" for it in found.modules}
        names |= {part: it.path for it in found.imports for part in antt.parts(it.name)}
        for it in found.definitions:
            own, *constructors = it.names
            self.definitions[f"{place}.{own}"] = it
            names |= {part: f"{place}.{own}" for part in (own, *antt.parts(own))}
            names |= {part: (f"{place}.{own}", name) for name in constructors for part in (name, *antt.parts(name))}
        return names

    def find(self, module, path, is_import=False):
        """What a path stands for in a module, or in an import of it: none if its first word is no name there."""
        first, rest = path[0], tuple(path[1:])
        leads = self.scope(module).get(first)
        if first == "Rattle" and len(path) > 2 and path[1] in self.crates:
            return self.within(f"{path[1]}.{path[2]}", tuple(path[3:]))
        if first in ("crate", "self", "super") and rest and module in self.code:
            above, crate = module.rpartition("::")[0], module.split("::")[0]
            return self.within({"crate": crate, "self": module, "super": above}[first], rest)
        if isinstance(leads, str):
            return self.within(leads, rest)
        if leads and leads[0] in self.definitions:
            return Found(leads[0], (*leads[1:], *rest))
        # (an import's path begins with no other import)
        if leads and not is_import:
            found = self.find(module, leads, True) or Found(None, leads)
            return self.within(found.place, (*found.behind, *rest))
        return self.within(first, rest) if first in self.crates and module in self.code else None

    def within(self, place, behind):
        """What stands at a path behind a place, as far as that has names."""
        while place and behind and self.scope(place) is not None:
            # (constants stand beside types, in a module that rattle makes)
            if behind[0] in ("TheConstants", "self"):
                behind = behind[1:]
            elif behind[0] in self.scope(place):
                place, behind = self.find(place, behind)
            else:
                raise Failure(f"{place} has no {behind[0]}")
        return Found(place, behind)
