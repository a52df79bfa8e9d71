#!/usr/bin/env python3
"""Lists the files of lemmas that proofs of other crates cite: `use Rattle.CRATE.proofs.FILE` in a crate that is not CRATE.

    python3 -m gate.cited_lemmas            prints the list
    python3 -m gate.cited_lemmas --write    puts its count into docs/ARCHITECTURE.md, between the two marks there

After a change in a file of this list, check the crates that stand beside it. The compiler derives that a type may go to a
thread (`TheSendSync`); this stands in no file and is not listed.

tools/tests/test_crates.py compares the document with the count.
"""
import argparse
import collections
import os
import re
import sys
from collections.abc import Iterator

from afdx import files

TOP = os.path.normpath(os.path.join(os.path.dirname(os.path.abspath(__file__)), "..", ".."))
DOCUMENT = os.path.join(TOP, "docs", "ARCHITECTURE.md")
MARKS = "<!-- by tools/gate/cited_lemmas.py --write: from here -->\n\n", "\n\n<!-- to here -->"
USE = re.compile(r"\buse Rattle\.(\w+)\.proofs\.([\w.]+?)(?:\.\{| as )")

# For each crate with cited lemmas their files, and by each crate that cites them how many lines do.
Cited = dict[str, tuple[set[str], collections.Counter[str]]]


def crates_by_heading(top: str = TOP) -> dict[str, list[str]]:
    """The names of crates.txt, in order, under the headings that its `#` lines are."""
    found: dict[str, list[str]] = {}
    names: list[str] = []
    with open(os.path.join(top, "crates.txt"), encoding="utf-8") as file:
        for line in filter(str.strip, file):
            if line.startswith("#"):
                names = found.setdefault(line[1:].strip(), [])
            else:
                names.append(re.split(r"[ :]", line)[0])
    return found


def sources_of(crate: str, top: str = TOP) -> Iterator[str]:
    """The texts of a crate's code, definitions and proofs."""
    for part in ("src", "specs", "proofs"):
        for folder, _, names in os.walk(os.path.join(top, "crates", crate, part)):
            for name in filter(lambda it: it.endswith((".rt", ".antt")), names):
                with open(os.path.join(folder, name), encoding="utf-8") as file:
                    yield file.read()


def cited(top: str = TOP) -> Cited:
    """For each crate with cited lemmas their files, and by each crate that cites them how many lines do."""
    crates = [name for names in crates_by_heading(top).values() for name in names]
    found: Cited = {name: (set(), collections.Counter()) for name in crates}
    for crate in crates:
        for text in sources_of(crate, top):
            for home, path in USE.findall(text):
                if home in found and home != crate and not path.endswith(".TheSendSync"):
                    found[home][0].add(path.replace(".", "/"))
                    found[home][1][crate] += 1
    return {name: both for name, both in found.items() if both[0]}


def counted(found: Cited) -> str:
    """The line that counts, as the document has it."""
    pairs = sum(len(by) for _, by in found.values())
    lines = sum(sum(by.values()) for _, by in found.values())
    return f"{lines} lines cite lemmas of another crate, in {pairs} pairs of crates."


def listed(found: Cited) -> str:
    """The list as it is printed: the line that counts, and a table."""
    rows = ["| Crate | Files in its `proofs/` | Cited by (lines) |", "|---|---|---|"]
    for name, (paths, by) in found.items():
        shown = ", ".join(f"`{path}`" for path in sorted(paths))
        rows.append(f"| `{name}` | {shown} | " + ", ".join(f"`{other}` {count}" for other, count in by.items()) + " |")
    return counted(found) + "\n\n" + "\n".join(rows)


@files.tool("cited_lemmas")
def main(arguments: list[str] | None = None) -> int:
    parser = argparse.ArgumentParser(prog="cited_lemmas", description=__doc__, formatter_class=argparse.RawDescriptionHelpFormatter)
    parser.add_argument("--write", action="store_true", help="puts the count into docs/ARCHITECTURE.md")
    found = cited()
    if not parser.parse_args(arguments).write:
        files.say(listed(found))
        return 0
    with open(DOCUMENT, encoding="utf-8") as file:
        before, _, rest = file.read().partition(MARKS[0])
    files.write_whole(DOCUMENT, before + MARKS[0] + counted(found) + MARKS[1] + rest.partition(MARKS[1])[2])
    return 0


if __name__ == "__main__":
    sys.exit(main())
