#!/usr/bin/env python3
"""Lists the files that define what is promised of `replay` and of `run`: read them if you doubt the promises.

    python3 -m gate.reading_list            prints the lists, with what each file of specs/ says of itself
    python3 -m gate.reading_list --write    puts them into docs/PROOFS.md, by their names, between the two marks there

It begins with the names in the contracts of a few functions (BEGINNINGS), and goes on with the names in their definitions,
by the `use` lines of each file, until none is new. So a file is in a list because a name of it is needed, and no list has
what serves proofs alone. A type of the code counts as its file in src/; if clauses see a type by a model, the value of the
model is followed, and not the fields.

A name that is bound in a definition and also defined elsewhere is followed: a list may have a file too many, and none too
few. The end names the libraries of the kit whose definitions are used, and does not follow them.

tools/tests/test_reading_list.py compares the document with the lists.
"""
import argparse
import functools
import os
import re
import sys
from collections.abc import Collection, Iterable, Iterator
from typing import NamedTuple

from afdx import files

TOP = os.path.normpath(os.path.join(os.path.dirname(os.path.abspath(__file__)), "..", ".."))
DOCUMENT = os.path.join(TOP, "docs", "PROOFS.md")
MARKS = "<!-- by tools/gate/reading_list.py --write: from here -->\n\n", "\n\n<!-- to here -->"

# The contracts that each list begins with, by crate, file in src/ and function: the promise itself, and what the program
# makes of it.
BEGINNINGS = {
    "replay": [("timewarp", "journal", "replay"), ("commands", "replaying", "replay")],
    "run": [
        ("worker_pool", "summary", "run_summary"),
        ("worker_pool", "tracing", "run_traced"),
        ("afdxsim", "run", "run"),
    ],
}

USE = re.compile(r"^\s*(?:ghost |pub )?use Rattle\.(\w+)\.specs\.([\w.]+?)(?:\.\{(.*?)\}| as (\w+))?;?\s*$", re.MULTILINE)
CODE_USE = re.compile(r"^\s*(?:pub )?use ((?:\w+::)+)(?:\{(.*?)\}|(\w+));", re.MULTILINE | re.DOTALL)
NAME = re.compile(r"(?<![\w)\]}.])([^\W\d][\w'-]*)((?:\.[^\W\d][\w'-]*)*)")
MODIFIERS = ("abbrev ", "unfoldable ", "pub ", "record ", "data ")
TYPE = r"^pub(?:\(\w+\))? (?:struct|enum|trait) {}\b"


class Source(NamedTuple):
    """Where a name is from: a crate, a path of modules under its specs/, and the name there; without one the module itself."""

    crate: str
    path: str
    name: str


# A name, with what stands behind a point of it.
Name = tuple[str, str]
# A crate, and the path of a file in it.
File = tuple[str, str]
# Of a file of specs/: what its `use` lines bring, the text that defines each name, and the name that each case is of.
Definitions = tuple[dict[str, Source], dict[str, str], dict[str, str]]


def without_comments(text: str) -> str:
    return re.sub(r"(?:--|//).*", "", text)


def names_in(text: str) -> set[Name]:
    """The names in a text, each with what stands behind a point of it. A field of a value is no name of its own."""
    return {(head, rest[1:]) for head, rest in NAME.findall(text)}


def defined_by(line: str) -> str:
    """The name that a line of a file of specs/ defines, or goes on to define."""
    while any(line.startswith(it) for it in MODIFIERS):
        line = line.partition(" ")[2]
    return re.split(r"[ :]", line)[0]


def definitions_in(text: str) -> dict[str, str]:
    """For each name that a file of specs/ defines the text that does, with the head of the module around it."""
    found: dict[str, str] = {}
    around, name = "", ""
    for line in filter(str.strip, USE.sub("", text).splitlines()):
        depth = len(line) - len(line.lstrip())
        if depth == 0:
            around = line if line.startswith("module ") else ""
        if line.startswith("module "):
            continue
        if depth == (2 if around else 0):
            began = defined_by(line.strip())
            name = name if began == "unfolding" else began
            found.setdefault(name, around)
        found[name] += "\n" + line
    return found


class Tree:
    """The crates of the repository, as far as names are concerned."""

    def __init__(self, top: str = TOP) -> None:
        self.crates = os.path.join(top, "crates")
        with open(os.path.join(top, "crates.txt"), encoding="utf-8") as file:
            self.order = [line.split(":")[0] for line in file if line.strip() and not line.startswith("#")]
        self.known: dict[tuple[str, str], Definitions] = {}
        self.texts: dict[tuple[str, str], str] = {}
        self.code = functools.cache(self.code)  # type: ignore[assignment]
        self.type_home = functools.cache(self.type_home)  # type: ignore[assignment]

    def text(self, crate: str, path: str) -> str:
        if (crate, path) not in self.texts:
            with open(os.path.join(self.crates, crate, *path.split("/")), encoding="utf-8") as file:
                self.texts[crate, path] = file.read()
        return self.texts[crate, path]

    def code(self, crate: str, module: str) -> str:
        return without_comments(self.text(crate, f"src/{module}.rt"))

    def home(self, crate: str, path: str) -> File:
        """The crate and the file that a `use` line names: it may name a type in it too, or a module that is passed on."""
        if crate not in self.order or path.startswith(("declared.", "contracts.")):
            return crate, path
        for other, module, *_ in USE.findall(self.text(crate, "specs/Lib.antt")):
            if path.split(".")[0] == module:
                return self.home(other, path)
        if os.path.exists(os.path.join(self.crates, crate, "specs", *path.split(".")) + ".antt"):
            return crate, path
        return self.home(crate, path.rpartition(".")[0])

    def imports_of(self, text: str) -> dict[str, Source]:
        """What the `use` lines of a text bring: for each name its source. A module with a name of its own has no name there."""
        found = {}
        for crate, path, names, alias in USE.findall(text):
            crate, path = self.home(crate, path)
            if alias:
                found[alias] = Source(crate, path, "")
            for item in filter(None, map(str.strip, names.split(","))):
                name, _, called = item.partition(" as ")
                found[called or name] = self.passed_on(Source(crate, path, name))
        return found

    def passed_on(self, source: Source) -> Source:
        """The source of a name that a file of specs/ only passes on, as `virtual_time/specs/Law.antt` does."""
        path = "specs/" + source.path.replace(".", "/") + ".antt"
        if source.crate in self.order and not source.path.startswith("declared."):
            for line in self.text(source.crate, path).splitlines():
                if line.startswith(("pub use ", "unfoldable pub use ")):
                    ((crate, home, names, _),) = USE.findall(line.removeprefix("unfoldable "))
                    if source.name in map(str.strip, names.split(",")):
                        return self.passed_on(Source(*self.home(crate, home), source.name))
        return source

    def imported(self, names: Iterable[Name], imports: dict[str, Source]) -> Iterator[Source]:
        for head, rest in names:
            if head in imports:
                source = imports[head]
                yield source if source.name else source._replace(name=rest.split(".")[0])

    def by_definition(self, source: Source) -> Iterator[Source]:
        """The sources of the names in a definition of specs/."""
        key = source.crate, source.path
        if key not in self.known:
            text = without_comments(self.text(source.crate, "specs/" + source.path.replace(".", "/") + ".antt"))
            texts = definitions_in(text)
            cases = {case: name for name, body in texts.items() for case in re.findall(r"^ +(\w+) : ", body, re.MULTILINE)}
            self.known[key] = self.imports_of(text), texts, cases
        imports, texts, cases = self.known[key]
        case = cases.get(source.name)
        names = names_in(texts.get(source.name) or (texts[case] if case is not None else ""))
        yield from self.imported(names, imports)
        yield from (source._replace(name=head) for head, _ in names if head in texts or head in cases)

    def by_type(self, crate: str, module: str, name: str) -> Iterator[Source]:
        """The sources of the names in a type of the code: those of the value of its model, else those of its fields."""
        text = self.code(crate, module)
        model = re.search(rf"^impl(?:<.*?>)? Model for {name}\b.*?^}}", text, re.MULTILINE | re.DOTALL)
        if model:
            (value,) = re.findall(r"ghost Value = \{(.*?)\}", model.group(), re.DOTALL)
            yield from self.imported(names_in(value), self.imports_of(text))
            return
        shape = re.search(TYPE.format(name) + r".*?(?:;|^})", text, re.MULTILINE | re.DOTALL)
        yield from self.types_of(crate, module, names_in(shape.group()) if shape else ())

    def types_of(self, crate: str, module: str, names: Iterable[Name]) -> Iterator[Source]:
        for head, _ in names:
            found = self.type_home(crate, module, head)
            if found:
                yield found

    def type_home(self, crate: str, module: str, name: str) -> Source | None:
        """Where the type is that a file of the code calls so, if it is one of this repository."""
        text = self.code(crate, module)
        if re.search(TYPE.format(name), text, re.MULTILINE):
            return Source(crate, f"declared.{module}.{name}", name)
        for path, names, one in CODE_USE.findall(text):
            if name in map(str.strip, (names or one).split(",")):
                first, *rest = path.removesuffix("::").split("::")
                # a module may have the name of its crate
                if first in self.order and first != crate:
                    return self.type_home(first, rest[0] if rest else "lib", name)
                inside = rest[0] if first == "crate" else first
                if os.path.exists(os.path.join(self.crates, crate, "src", inside + ".rt")):
                    return self.type_home(crate, inside, name)
        return None

    def by_contract(self, crate: str, module: str, function: str) -> Iterator[Source]:
        """The sources of the names in the contract of a function, and of the types that it takes and answers."""
        text = self.code(crate, module)
        (found,) = re.findall(rf"^ *pub fn {function}\b.*?\n *{{\n", text, re.MULTILINE | re.DOTALL)
        clauses = re.findall(r"(?:requires|ensures)[^{]*\{(.*?)\}\n", found, re.DOTALL)
        yield from self.imported(names_in("\n".join(clauses)), self.imports_of(text))
        yield from self.types_of(crate, module, names_in(re.split(r"\n +(?:requires|ensures)", found)[0]))

    def reached(self, contracts: Iterable[tuple[str, str, str]]) -> set[Source]:
        """The names that these contracts rest on."""
        waiting = [source for contract in contracts for source in self.by_contract(*contract)]
        seen: set[Source] = set()
        while waiting:
            source = waiting.pop()
            if source not in seen:
                seen.add(source)
                waiting += self.by_name(source)
        return seen

    def by_name(self, source: Source) -> Iterable[Source]:
        """The sources of the names that a name rests on; none of a library."""
        if source.crate not in self.order:
            return ()
        if not source.path.startswith("declared."):
            return self.by_definition(source)
        return self.by_type(source.crate, self.module_of(source), next(part for part in source.path.split(".")[1:] if part[0].isupper()))

    def module_of(self, source: Source) -> str:
        """The file in src/ of a name of a type."""
        return "/".join(part for part in source.path.split(".")[1:] if part[0].islower())

    def file_of(self, source: Source) -> File:
        """The crate and the file that a name stands in."""
        if source.path.startswith("declared."):
            return source.crate, f"src/{self.module_of(source)}.rt"
        return source.crate, "specs/" + source.path.replace(".", "/") + ".antt"

    def rests_on(self, contracts: Iterable[tuple[str, str, str]]) -> tuple[set[File], set[str]]:
        """The files that these contracts rest on, as pairs of a crate and a path in it; and the libraries that they name."""
        seen = self.reached(contracts)
        return {self.file_of(it) for it in seen if it.crate in self.order}, {it.crate for it in seen} - set(self.order)

    def head_of(self, crate: str, path: str) -> str:
        """What a file says of itself: the first sentence of its first comment."""
        lines: list[str] = []
        for line in self.text(crate, path).splitlines():
            if not line.startswith(("-- ", "//! ")):
                break
            lines.append(line.split(" ", 1)[1].strip())
        said = re.split(r"(?<!\.)\.(?= |$)", " ".join(lines))[0].removeprefix("Definition: ")
        return said[:1].lower() + said[1:] if said[1:2].islower() or said[1:2] == " " else said

    def by_crate(self, files: Collection[File]) -> Iterator[tuple[str, list[str], str]]:
        """For each crate, in their order, its files of specs/, and by their names those of src/ with types or the contract."""
        for crate in (it for it in self.order if any(it == crate for crate, _ in files)):
            mine = sorted(path for other, path in files if other == crate)
            types = [f"`{path.removeprefix('src/')}`" for path in mine if path.startswith("src/")]
            yield crate, [path for path in mine if path.startswith("specs/")], ", ".join(types)

    def named(self, files: Collection[File]) -> str:
        """A line for each crate."""
        rows = ["| Crate | In `specs/` | In `src/` |", "|---|---|---|"]
        for crate, specs, types in self.by_crate(files):
            names = ", ".join(f"`{path.removeprefix('specs/').removesuffix('.antt')}`" for path in specs)
            rows.append(f"| `{crate}` | {names} | {types} |")
        return "\n".join(rows)

    def listed(self, files: Collection[File]) -> str:
        """A line for each file of specs/, and one for all files of a crate with types of the code."""
        rows = ["| Crate | File | What it says |", "|---|---|---|"]
        for crate, specs, types in self.by_crate(files):
            lines = [(f"`{path}`", self.head_of(crate, path)) for path in specs]
            lines += [("`src/`: " + types, "types, or the contract")] if types else []
            rows += [f"| {'' if at else f'`{crate}`'} | {file} | {says} |" for at, (file, says) in enumerate(lines)]
        return "\n".join(rows)

    def lists(self, whole: bool = False) -> str:
        """What the document has: the two tables, each with a line that counts. With `whole` it is what the tool prints: what
        each file says of itself, and the names of the files that `run` does not need."""
        table = self.listed if whole else self.named
        replay, of_replay = self.rests_on(BEGINNINGS["replay"])
        run, of_run = self.rests_on(BEGINNINGS["run"])
        types = {name: sum(path.startswith("src/") for _, path in files) for name, files in (("replay", replay), ("run", run))}
        left_out = sorted(f"`{crate}/{path}`" for crate, path in replay - run)
        return "\n\n".join([
            f"**`replay`** rests on {len(replay)} files: {len(replay) - types['replay']} of definitions and {types['replay']} "
            "with types of the code.",
            table(replay),
            f"**`run`** rests on {len(run)} files, {len(run) - types['run']} and {types['run']}. "
            f"{len(run & replay)} of them stand above, and {len(run - replay)} are these:",
            table(run - replay),
            f"Of those above `run` does not need {len(left_out)}" + (": " + ", ".join(left_out) if whole else "") + ".",
            "Both name definitions of these libraries of the kit, which are not followed here: "
            + ", ".join(f"`{it}`" for it in sorted(of_replay | of_run)) + ".",
        ])


@files.tool("reading_list")
def main(arguments: list[str] | None = None) -> int:
    parser = argparse.ArgumentParser(prog="reading_list", description=__doc__, formatter_class=argparse.RawDescriptionHelpFormatter)
    parser.add_argument("--write", action="store_true", help="puts the lists into docs/PROOFS.md")
    tree = Tree()
    if not parser.parse_args(arguments).write:
        files.say(tree.lists(whole=True))
        return 0
    lists = tree.lists()
    with open(DOCUMENT, encoding="utf-8") as file:
        text = file.read()
    before, _, rest = text.partition(MARKS[0])
    files.write_whole(DOCUMENT, before + MARKS[0] + lists + MARKS[1] + rest.partition(MARKS[1])[2])
    return 0


if __name__ == "__main__":
    sys.exit(main())
