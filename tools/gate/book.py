#!/usr/bin/env python3
"""Prints what `run`, `seq`, `replay` and `bounds` promise as one text: their contracts, and each definition that these rest on, once.

    python3 -m gate.book > book.txt     all four
    python3 -m gate.book --of bounds    what one of them rests on

Each crate stands behind those that it uses. In each the types of its code stand first, then its definitions, each file behind those that it
uses. Imports and what serves proofs alone are left out. Each file says which of the four need it, and behind a definition stand functions
whose contracts cite it. `==` begins a file, and `--` a comment. docs/PROOFS.md, section 3, says how to read it in a day.
"""
import argparse
import os
import re
import sys
from collections.abc import Iterator

from afdx import files
from gate.crates_page import uses_of
from gate.reading_list import BEGINNINGS, USE, File, Source, Tree, defined_by, names_in, without_comments

CHAPTERS = {
    "run": BEGINNINGS["run"],
    "seq": [("commands", "sequencing", "seq"), ("seq_tables", "running", "run_tables")],
    "replay": BEGINNINGS["replay"],
    "bounds": [("commands", "bounding", "bounds")],
}
# How many functions are named behind a definition.
MOST_CITED = 6
CLAUSES = re.compile(r"^ +(?:requires|ensures)\b[^{]*\{(.*?)\}$", re.MULTILINE | re.DOTALL)
BRINGS = re.compile(r"\s*(?:pub |unfoldable |ghost )*(?:use|mod)\b")

Cited = dict[Source, list[str]]


def functions_in(text: str) -> Iterator[tuple[str, str]]:
    """The public functions of a file of the code: the name of each, and its text up to the body, with the comment before it."""
    lines = text.splitlines()
    for i, line in enumerate(lines):
        if found := re.match(r" *pub fn (\w+)\b", line):
            first, last = i, i
            while first and lines[first - 1].lstrip().startswith("///"):
                first -= 1
            while not re.search(r"(?:^ *\{\}?|[^ ] \{)$", lines[last]):
                last += 1
            yield found[1], "\n".join(lines[first:last] if lines[last].strip().startswith("{") else lines[first : last + 1])


def cited_by(tree: Tree) -> Cited:
    """For each name the public functions of the code whose contracts cite it."""
    found: Cited = {}
    for crate in tree.order:
        for module in modules_of(tree, crate):
            text = tree.code(crate, module)
            imports = tree.imports_of(text)
            for name, head in functions_in(text):
                for source in set(tree.imported(names_in("\n".join(CLAUSES.findall(head))), imports)):
                    found.setdefault(source, []).append(f"{crate}::{name}")
    return found


def modules_of(tree: Tree, crate: str) -> Iterator[str]:
    """The files of the code of a crate, without those of tests."""
    top = os.path.join(tree.crates, crate, "src")
    for folder, _, names in os.walk(top):
        for name in sorted(names):
            path = os.path.relpath(os.path.join(folder, name), top)
            if name.endswith(".rt") and "tests" not in path:
                yield path.removesuffix(".rt")


def crates_in_order() -> list[str]:
    """The crates, each behind those that it uses, else in the order of crates.txt."""
    uses, found = uses_of(), list[str]()

    def put(crate: str) -> None:
        if crate in uses and crate not in found:
            for it in uses[crate]:
                put(it)
            found.append(crate)

    for crate in uses:
        put(crate)
    return found


def block_of(lines: list[str], begins: str) -> list[str]:
    """The lines of a type or an `impl` that begins so, with the comments before it."""
    for i, line in enumerate(lines):
        if re.match(begins, line):
            first = i
            while first and lines[first - 1].startswith(("///", "#[")):
                first -= 1
            last = i
            while not lines[last].rstrip().endswith((";", "}")) or lines[last].startswith(" "):
                last += 1
            return lines[first : last + 1]
    return []


class Book:
    """The text, of some chapters."""

    def __init__(self, tree: Tree, chapters: list[str]) -> None:
        self.tree, self.chapters = tree, chapters
        self.by_chapter = {it: {source for source in tree.reached(CHAPTERS[it]) if source.crate in tree.order} for it in chapters}
        self.names: dict[File, set[str]] = {}
        for source in set().union(*self.by_chapter.values()):
            self.names.setdefault(tree.file_of(source), set()).add(source.name)
        self.needed = {it: {tree.file_of(source) for source in found} for it, found in self.by_chapter.items()}
        self.cited: dict[tuple[File, str], list[str]] = {}
        for source, functions in cited_by(tree).items():
            if source.crate in tree.order and not source.path.startswith("contracts."):
                self.cited.setdefault((tree.file_of(source), source.name), []).extend(functions)

    def text(self) -> str:
        parts = [f"What {', '.join(self.chapters)} promise\n{'=' * 60}"]
        parts += [self.contracts(it) for it in self.chapters]
        parts += [self.file(it) for it in self.in_order()]
        return "\n\n".join(parts)

    def contracts(self, chapter: str) -> str:
        """The contracts that a chapter begins with."""
        found = []
        for crate, module, name in CHAPTERS[chapter]:
            for function, head in functions_in(self.tree.text(crate, f"src/{module}.rt")):
                if function == name:
                    found.append(f"== {crate}/src/{module}.rt: the contract of `{chapter}`\n{head}")
        return "\n\n".join(found)

    # ---- files ----

    def in_order(self) -> list[File]:
        """The files: of each crate first those of its code, then its definitions, each behind those of its crate that it uses."""
        found: list[File] = []
        for crate in crates_in_order():
            mine = sorted(it for it in self.names if it[0] == crate)
            found += [it for it in mine if it[1].startswith("src/")]
            for file in mine:
                self.put(file, mine, found)
        return found

    def put(self, file: File, mine: list[File], found: list[File]) -> None:
        if file in found:
            return
        for source in self.tree.imports_of(self.tree.text(*file)).values():
            if source.crate == file[0] and (before := self.tree.file_of(source)) in mine and before != file:
                self.put(before, mine, found)
        found.append(file)

    def file(self, file: File) -> str:
        crate, path = file
        needed = [it for it in self.chapters if file in self.needed[it]]
        body = self.definitions(file) if path.startswith("specs/") else self.types(file)
        return f"== {crate}/{path} ({', '.join(needed)})\n" + body

    def definitions(self, file: File) -> str:
        """What of a file of specs/ a chapter rests on: a paragraph of comments and definitions stays if one of its names is needed."""
        crate, path = file
        _, texts, cases = self.tree.known[crate, path.removeprefix("specs/").removesuffix(".antt").replace("/", ".")]
        needed = {it if it in texts else cases.get(it, it) for it in self.names[file]}
        lines = [line for line in USE.sub("", self.tree.text(*file)).splitlines() if not BRINGS.match(line)]
        found = []
        for i, paragraph in enumerate(re.split(r"\n(?:[ ]*\n)+", "\n".join(lines).strip())):
            bare = without_comments(paragraph)
            defined = [it for it in dict.fromkeys(defined_by(line.strip()) for line in bare.splitlines()) if it in texts]
            head = re.findall(r"^module .*$", bare, re.MULTILINE)
            if i == 0 and not defined or needed.intersection(defined):
                found.append(paragraph + "".join(self.citing(file, it) for it in defined))
            elif head:
                found.append(head[0])
        return "\n\n".join(found)

    def types(self, file: File) -> str:
        """The types of a file of the code that a chapter rests on, and as what clauses see them."""
        lines = self.tree.text(*file).splitlines()
        found = ["\n".join(line for line in lines if line.startswith("//!"))]
        for name in sorted(self.names[file]):
            for shape in (rf"pub (struct|enum|trait) {name}\b", rf"impl(<.*>)? Model for {name}\b"):
                if block := block_of(lines, shape):
                    found.append("\n".join(line for line in block if not BRINGS.match(line)))
                    found[-1] += self.citing(file, name) if shape.startswith("pub") else ""
        return "\n\n".join(it for it in found if it)

    def citing(self, file: File, name: str) -> str:
        """The line behind a definition that names functions whose contracts cite it, or nothing."""
        found = list(dict.fromkeys(self.cited.get((file, name), [])))
        more = f" and {len(found) - MOST_CITED} more" if len(found) > MOST_CITED else ""
        return f"\n-- {name} is cited by {', '.join(found[:MOST_CITED])}{more}" if found else ""


@files.tool("book")
def main(arguments: list[str] | None = None) -> int:
    parser = argparse.ArgumentParser(prog="book", description=__doc__, formatter_class=argparse.RawDescriptionHelpFormatter)
    parser.add_argument("--of", choices=CHAPTERS, help="what one command rests on")
    words = parser.parse_args(arguments)
    files.say(Book(Tree(), [words.of] if words.of else list(CHAPTERS)).text())
    return 0


if __name__ == "__main__":
    sys.exit(main())
