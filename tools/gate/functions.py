"""The functions of the crates, as their text has them, and those of a built program, as its symbols name them."""
import os
import re
from collections.abc import Iterable, Iterator
from typing import NamedTuple

from gate.cited_lemmas import TOP, crates_by_heading

FUNCTION = re.compile(r"^( *)(pub(?:\([a-z]+\))? )?(?:const |unsafe )*fn (\w+)")
BLOCK = re.compile(r"^(?:pub(?:\([a-z]+\))? )?(?:unsafe )?(impl|trait)\b(.*)$")
# The line that ends the head of a block.
OPENS = re.compile(r"\{$")
GENERIC = re.compile(r"::<.*$")


class Function(NamedTuple):
    """A function: its crate, the modules in it, the type or trait that it belongs to, or "", the trait whose it is there, or "",
    its name, whether it is public, and where it stands."""

    crate: str
    modules: tuple[str, ...]
    owner: str
    trait: str
    name: str
    is_public: bool
    path: str
    line: int

    def called(self) -> str:
        """How documents name it."""
        return "::".join(filter(None, (self.crate, self.owner, self.name)))


def last_word(text: str) -> str:
    """The name of a type or trait, without its path and what stands in brackets."""
    found = re.search(r"(\w+)$", re.sub(r"<.*", "", text.strip(), flags=re.DOTALL).strip())
    return found[1] if found else ""


def without_generics(text: str) -> str:
    """A head without the brackets right behind `impl`."""
    if not text.startswith("<"):
        return text
    depth = 0
    for place, letter in enumerate(text):
        depth += (letter == "<") - (letter == ">" and text[place - 1] != "-")
        if depth == 0:
            return text[place + 1 :]
    return ""


def block_of(kind: str, head: str) -> tuple[str, str]:
    """The type and the trait of an `impl`; of a trait its name, twice."""
    head = without_generics(head.strip()).partition(" where")[0].rstrip("{ ")
    if kind == "trait":
        name = last_word(head.partition(":")[0])
        return name, name
    trait, _, of_type = head.rpartition(" for ")
    return last_word(of_type), last_word(trait)


def modules_of(path: str) -> tuple[str, ...]:
    """The modules that a file in src/ is, in its crate."""
    parts = path.removesuffix(".rt").split("/")
    return tuple(parts[:-1] if parts[-1] in ("lib", "main", "mod") else parts)


def functions_in(crate: str, path: str, text: str) -> Iterator[Function]:
    """The functions of a file, in order. `rt fmt` lays files out, so a block begins and ends at the left."""
    owner, trait, head = "", "", ""
    for number, line in enumerate(text.splitlines(), 1):
        block = BLOCK.match(line)
        if block:
            owner, trait, head = "", "", block[2]
            kind = block[1]
        elif head and not OPENS.search(head):
            head += " " + line.strip()
        elif line and not line[0].isspace() and not line.startswith(("}", "//", "#")):
            owner, trait, head = "", "", ""
        if head and OPENS.search(head) and not owner:
            owner, trait = block_of(kind, head)
        found = FUNCTION.match(line)
        if found and len(found[1]) == (4 if owner else 0):
            is_public = found[2] == "pub " or bool(trait)
            yield Function(crate, modules_of(path), owner, trait, found[3], is_public, path, number)


def functions_of(crate: str, top: str = TOP) -> Iterator[Function]:
    """The functions of a crate, without those of its tests."""
    src = os.path.join(top, "crates", crate, "src")
    for folder, folders, names in os.walk(src):
        folders[:] = sorted(name for name in folders if name != "tests")
        for name in sorted(filter(lambda it: it.endswith(".rt") and it != "tests.rt", names)):
            path = os.path.join(folder, name)
            with open(path, encoding="utf-8") as file:
                yield from functions_in(crate, os.path.relpath(path, src), file.read())


def all_functions(top: str = TOP) -> list[Function]:
    return [it for crates in crates_by_heading(top).values() for crate in crates for it in functions_of(crate, top)]


class Symbol(NamedTuple):
    """A function of a program by its symbol: its crate, and the rest of its path."""

    crate: str
    rest: tuple[str, ...]


def symbol_of(name: str) -> Symbol:
    """A symbol without the types that it is made for."""
    crate, *rest = GENERIC.sub("", name).split("::")
    return Symbol(crate, tuple(rest))


class Program:
    """A program, by the names of its functions. Rattle's own compiler leaves one for each, also where it puts a function into others."""

    def __init__(self, names: Iterable[str]) -> None:
        self.by_crate: dict[str, set[tuple[str, ...]]] = {}
        # For each name of a function the words before it, in all crates and by crate.
        self.owners: dict[str, set[str]] = {}
        self.owners_in: dict[tuple[str, str], set[str]] = {}
        for crate, rest in map(symbol_of, names):
            self.by_crate.setdefault(crate, set()).add(rest)
            if len(rest) > 1:
                self.owners.setdefault(rest[-1], set()).add(rest[-2])
                self.owners_in.setdefault((crate, rest[-1]), set()).add(rest[-2])

    def has(self, function: Function) -> bool:
        """Whether the program has a function, for some type where it is made for several. A method that a trait declares is there if
        a type has it there. What a trait gives a type has the names of both in one word, in the module of the type."""
        if not function.owner:
            return (*function.modules, function.name) in self.by_crate.get(function.crate, ())
        if function.owner == function.trait:
            return any(function.trait in owner for owner in self.owners.get(function.name, ()))
        begin = function.owner[0].upper() + function.owner[1:] + function.trait.removesuffix("Drop")
        owners = self.owners_in.get((function.crate, function.name), ())
        return any(owner.startswith(begin) if function.trait else owner == begin for owner in owners)
