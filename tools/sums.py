"""Sums of what the crates promise, and of the definitions that this rests on: tools/promises says what counts."""

import functools
import hashlib
import itertools
import re
from typing import NamedTuple

import antt
import names

# the attributes that say what a type is
TELLING = ("derive", "derive_where", "error", "repr")
BITS = bytes.maketrans(b"01", b"\0\1")
# what marks a file's definitions of which more counts than what they say
TRANSPARENT = {"abbrev", "unfoldable", "record", "data"}


class Item:
    """A promise, which may be a function without clauses, or a definition: its words, and the places that they name."""

    def __init__(self, is_promise, is_bare):
        self.is_promise, self.is_bare, self.words, self.places = is_promise, is_bare, [], set()


class Sums(NamedTuple):
    """The sum of what stands there, and, of a promise, that of all that it rests on as well (of a definition "-")."""

    own: str
    whole: str


def sum_of(words):
    return hashlib.sha256("\0".join(words).encode()).hexdigest()[:12]


def spelled(words):
    """Words of code as they are written."""
    return re.sub(r" ?(::|[<>&()]|,) ?", r"\1", " ".join(words)).replace(",", ", ")


class Project:
    """The promises and definitions of all crates, by their places."""

    def __init__(self, top, crates):
        self.names = names.Names(top, crates)
        self.items, self.reached = {}, {}
        self.names.read_all_specs()
        self.take([it for it in self.names.definitions if ".specs." in it])
        owned = [it for module, items in self.names.code.items() for it in self.take_code(module, items)]
        # (of proofs/ there is what definitions name)
        while left := {place for it in self.items.values() for place in it.places} - self.items.keys():
            self.take(left)
        for owner, place in owned:
            self.items[owner].places.add(place)

    def add(self, place, is_promise=False, is_bare=False):
        if place in self.items:
            raise names.Failure(f"{place} is declared twice")
        self.items[place] = Item(is_promise, is_bare)
        return self.items[place]

    def take(self, places):
        """Takes definitions. (Of a lemma in proofs/ what it says counts, and not its proof.)"""
        for place in places:
            read = self.names.definitions[place]
            says = read.tokens[: read.declares]
            is_lemma = ".proofs." in place and TRANSPARENT.isdisjoint(says)
            self.say(self.add(place), says if is_lemma else read.tokens, place.rpartition(".")[0])

    def take_code(self, module, items):
        """Takes what a module of code has, and tells to what its `impl`s of traits belong."""
        owned = []
        for it in items:
            place = f"{module}::{it.name}"
            if it.kind == "fn":
                self.take_function(place, it, module)
            elif it.kind == "trait":
                self.take_block(place, it, module, self.add(place))
            elif it.kind == "impl":
                owned += self.take_impl(it, module)
            elif it.kind in names.TYPES:
                item = self.add(place)
                for words in (*(words for words in it.attributes if words[0] in TELLING), it.head, it.block):
                    self.say_code(item, words, module)
        return owned

    def take_impl(self, it, module):
        """Takes an `impl`, and tells to what one of a trait belongs that has ghost items, or says what types are: to
        the type if that is of this crate, else to what there is of this crate in the trait."""
        trait, of = it.implements()
        traits, types = (self.places_in(words, module) for words in (trait, of))
        if not trait:
            self.take_block(types[0], it, module)
            return []
        place = f"{module}::<{spelled(of)} as {spelled(trait)}>"
        self.take_block(place, it, module, self.add(place, True))
        tells = any(one.kind not in ("fn", "ghost use") for one in it.inside)
        return [(owner, place) for owner in types[:1] or traits] if tells else []

    def places_in(self, words, module):
        """The places of this crate that words of code name."""
        crate = module.split("::")[0]
        return [place for _, place in self.paths(words, module) if place and place.split("::")[0] == crate]

    def take_block(self, place, it, module, item=None):
        """Takes what stands in a trait or an `impl` of one, which is an item, or in one of a type's own functions."""
        scope = f"ghost {place} {it.first}"
        self.names.add_ghost(scope, it.inside)
        if item:
            self.say_code(item, it.head, module)
        for one in it.inside:
            if one.kind == "fn":
                function = self.take_function(f"{place}::{one.name}", one, module, it.head, scope)
                if function and item:
                    function.places.add(place)
            elif item and one.kind == "ghost":
                tokens = antt.tokens_of(one.clauses[0].text)
                self.say(item, [one.name, *tokens], scope, f"ghost {module}", module)
            elif item and one.kind != "ghost use":
                self.say_code(item, (*one.head, *one.block), module)

    def take_function(self, place, it, module, head=(), *scopes):
        """Takes a function that has clauses, is public, or may say what a constant is. A block that it stands in has
        this head, and these names for ghost items."""
        is_promise = bool(it.clauses) or it.is_public
        if it.is_test() or not is_promise and not it.is_const():
            return None
        item = self.add(place, is_promise, not it.clauses)
        self.say_code(item, (*head, *it.head, *(it.block if it.is_const() else ())), module)
        for clause in it.clauses:
            item.words += [clause.kind, clause.name]
            self.say(item, antt.tokens_of(clause.text), f"ghost {module}", *scopes, module)
        return item

    def say(self, item, tokens, *modules):
        """Adds words of a specification or a clause, whose names are those of these modules."""
        # (a `do` block is read by an operator that it doesn't name)
        for token in (*tokens, ">>=") if "do" in tokens else tokens:
            word, places = self.meaning(token, modules)
            item.words.append(word)
            item.places |= places

    @functools.cache
    def meaning(self, token, modules):
        """A word of a specification or a clause as it goes into sums: what it stands for in the first of these modules;
        and places. (One may hide another, so what it stands for in the others counts too.)"""
        path = tuple(token.split("."))
        found = [it for module in modules for it in [self.find_dotted(module, path)] if it]
        return found[0].whole if found else token, {it.place for it in found if it.place}

    def find_dotted(self, module, path):
        """What a path of a specification or a clause stands for. (Behind a name of code is a variant, or a part.)"""
        own = path[:1] if module in self.names.code else path
        found = self.find(module, own)
        return found and names.Found(found.place, (*found.behind, *path[len(own) :]))

    @functools.cache
    def find(self, module, path):
        """What a path stands for in a module: none if it names no definition, and nothing of the kit's."""
        try:
            found = self.names.find(module, path)
        except names.Failure as error:
            raise names.Failure(f"{module}: {'.'.join(path)}: {error}") from None
        is_none = not found or self.names.is_module(found.place) or self.names.is_only_called(found.place)
        return None if is_none else found

    def say_code(self, item, words, module):
        """Adds words of code."""
        for word, place in self.paths(words, module):
            item.words.append(word)
            item.places |= {place} - {None}

    def paths(self, words, module):
        """Words of code as they go into sums, a path as one, with the place of what it stands for, if it names one."""
        at = 0
        while at < len(words):
            end = at + 1
            while words[end : end + 1] == ("::",) and words[end + 1 : end + 2] and words[end + 1][0].isalpha():
                end += 2
            found = self.find(module, words[at:end:2])
            yield (found.whole, found.place) if found else ("".join(words[at:end]), None)
            at = end

    def sums(self):
        """The sums of each item, in the order of their places."""
        places = sorted(self.items)
        own = [sum_of((place, *self.items[place].words)) for place in places]
        self.reached = self.reach(places)

        @functools.cache
        def whole(bits):
            return sum_of(itertools.compress(own, bin(bits)[:1:-1].encode().translate(BITS)))

        wholes = [whole(self.reached[it]) if self.items[it].is_promise else "-" for it in places]
        return dict(zip(places, map(Sums, own, wholes)))

    def reach(self, places):
        """What each item rests on, itself among that: a number with a bit for each place."""
        found, is_new = {place: 1 << at for at, place in enumerate(places)}, True
        while is_new:
            is_new = False
            # (in an order in which most stands behind what it rests on)
            for place, it in self.items.items():
                bits = found[place]
                for one in it.places:
                    bits |= found[one]
                is_new, found[place] = is_new or bits != found[place], bits
        return found

    def rests_on(self, place, other):
        """Whether an item rests on another, which may be gone."""
        return other in self.reached and self.reached[place] | self.reached[other] == self.reached[place]
