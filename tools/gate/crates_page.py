#!/usr/bin/env python3
"""Writes the list of crates: docs/CRATES.md whole, and the table of the README between its two marks.

    python3 -m gate.crates_page            prints docs/CRATES.md
    python3 -m gate.crates_page --write    writes both

It takes the order, the headings and what each crate uses from crates.txt, the sentence of a crate from the head of its src/lib.rt, names
of clauses from its contracts, and edits from must-fail/. tools/gate/crates_page.toml has the rest: what the crate proves in at most 15
words, the names whose contracts state it, and the files to open. A crate that has no entry there is listed by its head and its laws.
tools/gate/crate_seconds.txt has what crates cost in one gate.

tools/tests/test_crates.py compares both with what is in the tree.
"""
import argparse
import functools
import os
import re
import sys
import tomllib
from collections.abc import Iterator
from typing import NamedTuple

from afdx import files
from gate.cited_lemmas import TOP, crates_by_heading

PAGE, READ_ME = (os.path.join(TOP, *path) for path in (("docs", "CRATES.md"), ("README.md",)))
MARKS = "<!-- by tools/gate/crates_page.py --write: from here -->\n\n", "\n\n<!-- to here -->"
MOST_WORDS = 15
HEAD = """# The crates

`python3 -m gate.crates_page --write`, in `tools/`, writes this page; [ARCHITECTURE.md](ARCHITECTURE.md) is the map, and [PROOFS.md](PROOFS.md),
section 2, states at length what each crate proves. A crate may use those that stand before it in its list of *uses*, and no others. Names of
clauses stand behind the function whose contract they are of; a name ending in `_law` is a theorem. *Cost* is in seconds of a processor, in one
gate beside other work. `must-fail` lists wrong bodies that the prover refuses."""
# A public function of a name, up to its body; the name of a clause; and a type.
FUNCTION = r"^ *pub fn {}\b.*?^ *\{{\}}?$"
CLAUSE = re.compile(r"^ +ensures (\w+)\b", re.MULTILINE)
TYPE = r"^ *pub (?:struct|enum|trait|type) {}\b"


class Entry(NamedTuple):
    """What is said of a crate besides what its files say."""

    proves: str
    by: tuple[str, ...]
    open: tuple[str, ...]


class Contract(NamedTuple):
    """A function, law or type by which a crate states what it proves: its name, its file, and the names of its clauses."""

    name: str
    path: str
    clauses: tuple[str, ...]


@functools.cache
def text_of(path: str) -> str:
    with open(path, encoding="utf-8") as file:
        return file.read()


def folder_of(crate: str, top: str = TOP) -> str:
    return os.path.join(top, "crates", crate)


def sources(crate: str, top: str = TOP) -> Iterator[tuple[str, str]]:
    """The files of its code, by their path in the crate, with their texts; those of its tests come last."""
    found = []
    for folder, _, names in os.walk(os.path.join(folder_of(crate, top), "src")):
        found += [os.path.join(folder, name) for name in names if name.endswith(".rt")]
    for path in sorted(found, key=lambda it: ("tests" in it, it)):
        yield os.path.relpath(path, folder_of(crate, top)), text_of(path)


def head_of(crate: str, top: str = TOP) -> str:
    """The first sentence that the head of a crate says of it."""
    path = next(it for it in (os.path.join(folder_of(crate, top), "src", name) for name in ("lib.rt", "main.rt")) if os.path.exists(it))
    lines: list[str] = []
    for line in text_of(path).splitlines():
        if not line.startswith("//! "):
            break
        lines.append(line[4:].strip())
    return re.split(r"(?<=\.) (?=[A-Z`])", " ".join(lines))[0]


def short(sentence: str) -> str:
    """A sentence in at most 15 words: up to a comma or colon, or cut."""
    words = sentence.rstrip(".").split()
    if len(words) > MOST_WORDS:
        ends = [i for i, word in enumerate(words[:MOST_WORDS], 1) if word.endswith((",", ":", ";"))]
        words = words[: ends[-1] if ends else MOST_WORDS]
    return " ".join(words).rstrip(",:;")


def entries(top: str = TOP) -> dict[str, Entry]:
    """What tools/gate/crates_page.toml says, of crates that are there."""
    with open(os.path.join(top, "tools", "gate", "crates_page.toml"), "rb") as file:
        found = tomllib.load(file)
    return {name: Entry(it["proves"], tuple(it["by"]), tuple(it["open"])) for name, it in found.items()}


def entry_of(crate: str, known: dict[str, Entry], top: str = TOP) -> Entry:
    """What is said of a crate: without an entry its head, and its laws."""
    if crate in known:
        return known[crate]
    laws = [name for _, text in sources(crate, top) for name in re.findall(r"^pub fn (\w+_law)\b", text, re.MULTILINE)]
    return Entry(short(head_of(crate, top)), tuple(sorted(laws)), ())


def contract_of(crate: str, name: str, top: str = TOP) -> Contract:
    """A name of a crate with its contract. A function may stand in a type (`fits`); a type has no clauses of its own."""
    for path, text in sources(crate, top):
        found = re.search(FUNCTION.format(name), text, re.MULTILINE | re.DOTALL)
        if found:
            return Contract(name, path, tuple(dict.fromkeys(CLAUSE.findall(found.group()))))
    for path, text in sources(crate, top):
        if re.search(TYPE.format(name), text, re.MULTILINE):
            return Contract(name, path, ())
    raise files.Fault("tools/gate/crates_page.toml", None, f"{crate} has no public function or type {name}")


def edits_of(crate: str, top: str = TOP) -> list[str]:
    folder = os.path.join(folder_of(crate, top), "must-fail")
    return sorted(it.removesuffix(".edit") for it in os.listdir(folder) if it.endswith(".edit")) if os.path.isdir(folder) else []


def uses_of(top: str = TOP) -> dict[str, list[str]]:
    """What each crate uses, by crates.txt."""
    lines = text_of(os.path.join(top, "crates.txt")).splitlines()
    return {name: rest.split() for name, _, rest in (line.partition(":") for line in lines if line and not line.startswith("#"))}


def seconds(top: str = TOP) -> dict[str, tuple[str, str]]:
    """What crates cost in one gate, in seconds of a processor: of the proof, and of edits or tests. Empty without the file."""
    path = os.path.join(top, "tools", "gate", "crate_seconds.txt")
    lines = text_of(path).splitlines() if os.path.exists(path) else []
    return {name: (proof, more) for name, proof, more in (line.split() for line in lines if not line.startswith("#"))}


# ---- the two texts ----


def shown(contract: Contract) -> str:
    clauses = ": " + ", ".join(f"`{it}`" for it in contract.clauses) if contract.clauses else ""
    return f"`{contract.name}` (`{contract.path}`{clauses})"


def section(crate: str, entry: Entry, uses: list[str], top: str = TOP) -> Iterator[str]:
    """What the page says of a crate, a line each."""
    yield f"### `{crate}`\n\n{head_of(crate, top)}\n"
    by = [shown(contract_of(crate, name, top)) for name in entry.by]
    yield f"- proves: {entry.proves}" + (f": {'; '.join(by)}" if by else "")
    if uses:
        yield "- uses: " + ", ".join(f"`{it}`" for it in uses)
    if entry.open:
        yield "- open: " + ", ".join(f"`{it}`" for it in entry.open)
    if crate in (cost := seconds(top)):
        proof, more = cost[crate]
        yield f"- cost: proof {proof} s" + (f", edits or tests {more} s" if more != "0" else "")
    edits = edits_of(crate, top)
    if edits:
        yield "- must-fail: " + ", ".join(f"`{it}`" for it in edits)


def page(top: str = TOP) -> str:
    """The text of docs/CRATES.md."""
    known, uses = entries(top), uses_of(top)
    parts = [HEAD]
    for heading, crates in crates_by_heading(top).items():
        parts.append(f"## {heading}")
        parts += ["\n".join(section(crate, entry_of(crate, known, top), uses[crate], top)) for crate in crates]
    return "\n\n".join(parts) + "\n"


def table(top: str = TOP) -> str:
    """The table of the README: crate, what it proves, contract."""
    known = entries(top)
    rows = ["| Crate | What it proves | Contract |", "|---|---|---|"]
    for heading, crates in crates_by_heading(top).items():
        rows.append(f"| *{heading}* | | |")
        for crate in crates:
            entry = entry_of(crate, known, top)
            rows.append(f"| `{crate}` | {entry.proves} | {', '.join(f'`{it}`' for it in entry.by)} |")
    return "\n".join(rows)


def between_marks(text: str) -> str:
    return text.partition(MARKS[0])[2].partition(MARKS[1])[0]


@files.tool("crates_page")
def main(arguments: list[str] | None = None) -> int:
    parser = argparse.ArgumentParser(prog="crates_page", description=__doc__, formatter_class=argparse.RawDescriptionHelpFormatter)
    parser.add_argument("--write", action="store_true", help="writes docs/CRATES.md, and the table of the README")
    if not parser.parse_args(arguments).write:
        files.say(page().rstrip("\n"))
        return 0
    files.write_whole(PAGE, page())
    before, _, rest = text_of(READ_ME).partition(MARKS[0])
    files.write_whole(READ_ME, before + MARKS[0] + table() + MARKS[1] + rest.partition(MARKS[1])[2])
    return 0


if __name__ == "__main__":
    sys.exit(main())
