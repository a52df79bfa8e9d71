"""Looks whether what is named is what runs: whether libraries, documents and edits speak of functions that the program has.

    python3 -m gate.what_runs                   in tools/: prints what is wrong, or that nothing is
    python3 -m gate.what_runs --functions       prints the public functions that the program has not
    python3 -m gate.what_runs --names FILE      takes the names of the program's functions from a file, a line each

A function is in the program if Rattle's own compiler has put it there: `rt ci` leaves crates/afdxsim/out/afdxsim.by-rattle,
whose symbols are the names of all functions that `main` reaches, also of those that stand inside others. It is at fault

- that no function of the program calls a library where its place is (gate/library_places.py)
- that README, PROMISES, PROOFS or QUALIFICATION names a public function that the program has not. What is kept although no
  command calls it stands in KEPT, and each item that names it says that "no command" calls it
- that an edit of must-fail/ is in a function that the program has not.

A law is a theorem, with an empty body. If nothing calls it, it may be named beside a function that the program has, or as one
of a crate of laws alone. tools/tests/test_what_runs.py calls this.
"""
import argparse
import glob
import os
import re
import shutil
import subprocess
import sys
from collections.abc import Iterable, Iterator, Mapping
from typing import NamedTuple

from afdx import files
from afdx.files import program
from gate import cited_lemmas, functions
from gate.functions import Function, Program
from gate.library_places import PLACES, Library, Place, code_in

BY_RATTLE = program.PROGRAM + ".by-rattle"
DOCUMENTS = ("README.md", "docs/PROMISES.md", "docs/PROOFS.md", "docs/QUALIFICATION.md")
# Of these the test in the gate looks at all items.
HELD = DOCUMENTS
NO_COMMAND = "no command"
# The heading in crates.txt of crates that no program has.
OF_TESTS = "For tests alone"
LAWS = ("_law", "releases", "bound", "order")

# What no command calls and is kept: a crate, a type or a function, with the reason.
KEPT = {
    "worker_pool::run": "a run by workers that returns its rows, for a program that wants them in memory",
    "process_exchange": "the exchange of single processes, the smallest engine with threads of which the same is proved",
    "process_segments": "the segments of a trace of that exchange",
    "journal::Entries": "a journal that keeps its entries; a run of groups writes its steps as words",
    "journal::Block": "a block of such a journal",
    "journal::Table": "the table that such journals share",
    "fossil::commit": "the commit of that exchange; `replay` calls `is_early` alone",
    "fossil::rows_between": "the rows of a process between two moments, for `process_segments`",
    "fossil::let_rows_go": "rows that leave a process, for `process_segments`",
    "process_queues::Process": "the calls of a process that this exchange makes; `replay` makes the others",
    "process_steps::is_committable": "what the commit of that exchange asks",
    "timewarp::World": "a look at a world, and undoing all of it, which the law of all runs speaks of",
    "nodes::Node::apply": "an event with its answer and its record, of which `handle` is the form without a copy",
    "reverse::Outbound::hold": "what `apply` puts into its room",
    "reverse::Outbound::close": "what `apply` takes out of its room",
    "reverse::forth_and_back": "events handled and undone in one call",
    "reverse::act_and_undo": "events of an actor handled and undone in one call",
    "group_exchange::GroupExchange::steps": "how many steps a run has, for whoever keeps its journal",
    "trace_segments::Segment::cut": "the segment of a process, which `process_segments` asks for",
    "commands::TellingHost": "a host that reports all, in whose terms a clause speaks",
}


# ---- the program ----


class NoNames(Exception):
    """Why the functions of the program are not known, in one line."""


def names_of(path: str = BY_RATTLE) -> list[str]:
    """The names of the functions of a program that Rattle's own compiler made."""
    nm = shutil.which("nm")
    rt = shutil.which("rt")
    kit = os.path.join(os.path.dirname(os.path.dirname(os.path.realpath(rt))), "toolchain", "bin", "clang") if rt else None
    if not os.path.isfile(path):
        raise NoNames(f"{os.path.relpath(path, program.ROOT)} is not there: `rt ci`, which ./test calls, makes it")
    if not nm and not kit:
        raise NoNames("neither nm nor the kit is on the PATH")
    # The kit's program is all of LLVM's tools, by the name that it is called by.
    run = subprocess.run(["llvm-nm" if not nm else nm, "--defined-only", path], executable=nm or kit, capture_output=True, text=True)
    names = [line.split(" ", 2)[2] for line in run.stdout.splitlines() if line.count(" ") >= 2]
    if run.returncode or not any(name.startswith("afdxsim::") for name in names):
        raise NoNames(f"{os.path.relpath(path, program.ROOT)} names no function of afdxsim")
    return names


class Tree:
    """The text of the crates, and what the program has of them."""

    def __init__(self, has: Program, top: str = program.ROOT) -> None:
        self.program, self.top = has, top
        by_heading = cited_lemmas.crates_by_heading(top)
        self.crates = [name for names in by_heading.values() for name in names]
        self.of_tests = by_heading.get(OF_TESTS, [])
        self.functions = functions.all_functions(top)
        self.by_name: dict[tuple[str, str], list[Function]] = {}
        self.by_type: dict[tuple[str, str], list[Function]] = {}
        for function in self.functions:
            self.by_name.setdefault((function.crate, function.name), []).append(function)
            if function.owner:
                self.by_type.setdefault((function.crate, function.owner), []).append(function)
        public = [it for it in self.functions if it.is_public]
        self.of_laws = {crate for crate in self.crates if all(is_law(it) for it in public if it.crate == crate)}

    def text(self, path: str) -> str:
        with open(os.path.join(self.top, path), encoding="utf-8") as file:
            return file.read()

    def found(self, crate: str, words: list[str]) -> list[Function]:
        """The public functions that a name in a document means: a function, or those of a type."""
        if len(words) == 2:
            of_name = [it for it in self.by_name.get((crate, words[1]), []) if it.owner == words[0]]
        elif words[0][0].isupper():
            of_name = self.by_type.get((crate, words[0]), [])
        else:
            of_name = self.by_name.get((crate, words[0]), [])
        return [it for it in of_name if it.is_public]

    def has_any(self, found: Iterable[Function]) -> bool:
        return any(map(self.program.has, found))


def is_law(function: Function) -> bool:
    return function.name.endswith(LAWS[0]) or function.name in LAWS[1:] and not function.owner


# ---- libraries at their places ----


def faults_of_places(tree: Tree, places: Iterable[Place] = PLACES, texts: Mapping[str, str] | None = None) -> Iterator[str]:
    """A line for each library that no function of the program calls at its place. `texts` has files in place of those of the crates."""
    for place in places:
        own = [it for it in tree.functions if it.crate == place.crate]
        code = {}
        for path in {it.path for it in own} | set(of_src(tree, place.crate)):
            name = f"crates/{place.crate}/src/{path}"
            code[path] = code_in((texts or {}).get(name) or tree.text(name))
        own = [it for path, text in code.items() for it in functions.functions_in(place.crate, path, text)]
        library = Library(place, code)
        there = [it for it in own if it.owner == place.owner or not place.owner]
        for name in place.names:
            if not any(library.is_used_by(it, name) for it in there if tree.program.has(it)):
                where = "::".join(filter(None, (place.crate, place.owner)))
                yield f"{place.library}: no function of {where} that the program has uses {name}, by which {place.purpose}"
        if place.library not in tree.program.by_crate:
            yield f"{place.library}: the program has no function of it"


def of_src(tree: Tree, crate: str) -> list[str]:
    src = os.path.join(tree.top, "crates", crate, "src")
    paths = (os.path.relpath(path, src) for path in glob.glob(os.path.join(src, "**", "*.rt"), recursive=True))
    return [path for path in paths if not path.startswith("tests")]


# ---- documents ----

CODE = re.compile(r"`([^`\n]+)`")
NAME = re.compile(r"\w+(?:::\w+)*")
BEGINS = re.compile(r"\s*(?:- |\d+\. |\||#)")


class Cited(NamedTuple):
    """A public function, or a type with its functions, as an item of a document names it."""

    line: int
    item: str
    name: str
    found: list[Function]


def items_of(text: str) -> Iterator[tuple[int, str]]:
    """The items of a document, each with the number of its first line: a paragraph, an item of a list, a row of a table."""
    item: list[str] = []
    first, is_fenced = 1, False
    for number, line in enumerate([*text.splitlines(), ""], 1):
        if item and (not line.strip() or BEGINS.match(line)):
            yield first, "\n".join(item)
            item = []
        if line.startswith("```"):
            is_fenced = not is_fenced
        elif line.strip() and not is_fenced:
            first = number if not item else first
            item.append(line)


def cited_in(tree: Tree, number: int, item: str) -> Iterator[Cited]:
    """What an item names: `crate::function`, or without the crate if that is named before; what follows a colon there are clauses."""
    crates: list[str] = []
    before, end = "", 0
    for code in CODE.finditer(item):
        between, end = item[end : code.start()], code.end()
        if before == "function" and between == ": " or before == "clause" and between in (", ", " and "):
            before = "clause"
            continue
        kind, before = before, ""
        if not NAME.fullmatch(code[1]):
            continue
        words = code[1].split("::")
        if words[0] in tree.crates:
            goes_on = kind == "crate" and len(words) == 1 and between in (", ", " and ")
            crates = [*crates, words[0]] if goes_on else [words[0]]
            words = words[1:]
        before = "" if words else "crate"
        found = [it for crate in crates for it in tree.found(crate, words)] if words else []
        if found:
            before = "function"
            yield Cited(number, item, code[1], found)


def is_kept(function: Function) -> str | None:
    """What of KEPT a function is, or None."""
    names = (function.crate, f"{function.crate}::{function.owner}", function.called())
    return next((name for name in names if name in KEPT), None)


def faults_of_document(tree: Tree, name: str, text: str) -> Iterator[str]:
    for number, item in items_of(text):
        cited = list(cited_in(tree, number, item))
        runs = any(tree.has_any(it.found) for it in cited)
        for it in cited:
            if tree.has_any(it.found) or any(found.crate in tree.of_tests for found in it.found):
                continue
            if any(is_law(found) and (runs or found.crate in tree.of_laws) for found in it.found):
                continue
            called = it.found[0].called()
            if is_law(it.found[0]):
                yield f"{name}:{it.line}: {called} is a law that nothing of the program calls, and the item names no function that the program has"
            elif not any(map(is_kept, it.found)):
                yield f"{name}:{it.line}: {called} is not in the program, and not in KEPT of tools/gate/what_runs.py"
            elif NO_COMMAND not in item:
                yield f'{name}:{it.line}: {called} is not in the program, and the item does not say "{NO_COMMAND}" calls it'


def faults_of_kept(tree: Tree) -> Iterator[str]:
    """A line for each function of KEPT that the program has, or that there is none of."""
    for name in KEPT:
        crate, *words = name.split("::")
        found = tree.found(crate, words) if words else [it for it in tree.functions if it.crate == crate and it.is_public]
        if not found:
            yield f"KEPT of tools/gate/what_runs.py: there is no {name}"
        elif all(map(tree.program.has, found)):
            yield f"KEPT of tools/gate/what_runs.py: the program has {name}"


# ---- edits ----

PAIR = re.compile(r"^file: (.*)\n(?:.*\n)*?old: (.*)$", re.MULTILINE)


def function_at(crate: str, path: str, text: str, piece: str) -> Function | None:
    """The function in which a piece of a file stands."""
    line = text[: text.index(piece)].count("\n") + 1 if piece in text else 0
    before = [it for it in functions.functions_in(crate, path, text) if it.line <= line]
    return before[-1] if before else None


def faults_of_edits(tree: Tree, edits: Mapping[str, str] | None = None) -> Iterator[str]:
    """A line for each edit that changes no function of the program. `edits` has their texts by their paths."""
    if edits is None:
        paths = sorted(glob.glob(os.path.join(tree.top, "crates", "*", "must-fail", "*.edit")))
        edits = {os.path.relpath(path, tree.top): tree.text(os.path.relpath(path, tree.top)) for path in paths}
    for name, text in edits.items():
        crate = name.split("/")[1]
        for path, piece in PAIR.findall(text):
            changed = function_at(crate, path.removeprefix("src/"), tree.text(f"crates/{crate}/{path}"), piece)
            if changed is None:
                yield f"{name}: what it changes is in no function"
            elif not tree.program.has(changed):
                yield f"{name}: it changes {changed.called()}, which is not in the program"


# ---- all ----


def check(tree: Tree) -> list[str]:
    """A line for each fault."""
    of_documents = (line for name in DOCUMENTS for line in faults_of_document(tree, name, tree.text(name)))
    return [*faults_of_places(tree), *of_documents, *faults_of_kept(tree), *faults_of_edits(tree)]


def not_there(tree: Tree) -> Iterator[str]:
    """The public functions that the program has not, and those of crates for tests left out."""
    for it in tree.functions:
        if it.is_public and it.crate not in tree.of_tests and not tree.program.has(it):
            yield f"{it.called()}{' (law)' if is_law(it) else ''}"


@files.tool("what_runs")
def main(arguments: list[str] | None = None) -> int:
    parser = argparse.ArgumentParser(prog="what_runs", description=__doc__, formatter_class=argparse.RawDescriptionHelpFormatter)
    parser.add_argument("--functions", action="store_true", help="prints the public functions that the program has not")
    parser.add_argument("--names", metavar="FILE", help="has the names of the program's functions, a line each")
    words = parser.parse_args(arguments)
    try:
        if words.names:
            with open(words.names, encoding="utf-8") as file:
                names = file.read().splitlines()
        else:
            names = names_of()
    except NoNames as fault:
        files.say(f"what_runs: {fault}")
        return 2
    tree = Tree(Program(names))
    lines = list(not_there(tree)) if words.functions else check(tree)
    for line in lines:
        files.say(line)
    if not lines:
        files.say("What is named is what runs.")
    return 1 if lines and not words.functions else 0


if __name__ == "__main__":
    sys.exit(main())
