#!/usr/bin/env python3
"""Counts the words of the documents, without what tools write: pages as docs/CRATES.md, and what stands between two marks.

    python3 -m gate.words    prints each document with its words and its limit, and the sum

The status is 1 if a document is above its limit.
"""
import argparse
import os
import re
import sys
from collections.abc import Iterator

from afdx import files
from gate.reading_list import TOP

# How many words some documents may have.
LIMITS = {"README.md": 1800, "docs/DECISIONS.md": 5000, "CONTRIBUTING.md": 600}
WRITTEN = ("docs/CRATES.md",)
BETWEEN = re.compile(r"<!-- by tools/gate/[^>]*-->.*?<!-- to here -->", re.DOTALL)


def documents(top: str = TOP) -> Iterator[str]:
    """The documents, by their paths."""
    for name in ("README.md", "CONTRIBUTING.md", "CHANGELOG.md"):
        yield name
    for name in sorted(os.listdir(os.path.join(top, "docs"))):
        if name.endswith(".md") and f"docs/{name}" not in WRITTEN:
            yield f"docs/{name}"


def words_of(text: str) -> int:
    """How many words a document has, without what tools write into it."""
    return len(BETWEEN.sub("", text).split())


@files.tool("words")
def main(arguments: list[str] | None = None) -> int:
    parser = argparse.ArgumentParser(prog="words", description=__doc__, formatter_class=argparse.RawDescriptionHelpFormatter)
    parser.parse_args(arguments)
    counts = {}
    for name in documents():
        with open(os.path.join(TOP, name), encoding="utf-8") as file:
            counts[name] = words_of(file.read())
    for name, count in counts.items():
        files.say(f"{count:6,} {name}" + (f" (at most {LIMITS[name]:,})" if name in LIMITS else ""))
    files.say(f"{sum(counts.values()):6,} all together")
    return int(any(count > LIMITS.get(name, count) for name, count in counts.items()))


if __name__ == "__main__":
    sys.exit(main())
