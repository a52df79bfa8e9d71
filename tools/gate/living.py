#!/usr/bin/env python3
"""Plants wrong bodies that all clauses allow, one at a time, and prints what sees each: rows, drawn runs, or nothing.

The proofs hold of what one thread does with a group and with the exchange. Which group has its turn when, and that threads are woken,
has no clause. tools/gate/living has bodies that are wrong there, or that a clause does not refuse yet: patches, each with its name and a
line that says what is wrong. For each this makes a copy of the sources, applies the patch, and runs on the copy

  - the tests of `turn_rows` and of `pool_rows`, before any proof (`rt try --test`)
  - drawn runs by workers (gate.threaded_runs), of the program that is built of the copy
  - rows of whole runs of that program, and runs of which a thread stands still (tests.test_rows, tests.test_standing_still)

and it stops at the first that fails. The last result stands in docs/PROOFS.md. This is no part of ./test, which only tries that each
patch applies to the sources.
"""
import argparse
import re
import shlex
import shutil
import subprocess
import sys
import tempfile
from collections.abc import Iterator
from pathlib import Path

from afdx import files
from afdx.model import whole

TOP = Path(__file__).resolve().parents[2]
BODIES = Path(__file__).with_name("living")
ROWS = ("turn_rows", "pool_rows")
OF_THE_PROGRAM = {"rows of the program": "tests.test_rows", "a run that stands still": "tests.test_standing_still"}

EXAMPLES = """
examples, in tools/:
  python3 -m gate.living --list
        the bodies, and what is wrong with each
  python3 -m gate.living nobody_is_called
        what sees one of them
  python3 -m gate.living --build "make-it --quick"
        what sees each; `make-it --quick TREE FILE` builds the program FILE of the sources TREE

It prints a line for each body. Without --build the program is proved anew for each body, which takes an hour or more.

status:
  0  each was tried
  1  a patch does not apply, or a program could not be built
  2  a word is wrong
"""


def bodies() -> dict[str, Path]:
    """The patches, by their names."""
    return {it.stem: it for it in sorted(BODIES.glob("*.patch"))}


def wrong_of(patch: Path) -> str:
    """What is wrong with the body: the first line of its patch."""
    return patch.read_text(encoding="utf-8").partition("\n")[0].removeprefix("# ")


def does_apply(patch: Path, tree: Path = TOP, *words: str) -> bool:
    """Whether the patch applies to the sources; with no further words it is applied."""
    run = subprocess.run(["git", "apply", *words, str(patch)], cwd=tree, stdin=subprocess.DEVNULL, capture_output=True)
    return run.returncode == 0


def copied(tree: Path) -> None:
    """Copies the sources of all crates, the tools with their tests and the examples, and nothing that was built."""
    for name in ("crates", "tools", "examples", "docs"):
        shutil.copytree(TOP / name, tree / name, ignore=shutil.ignore_patterns("out", "__pycache__"))
    for name in ("crates.txt", "HANDLES"):
        shutil.copy(TOP / name, tree / name)


def is_failed(command: list[str], folder: Path) -> bool:
    return subprocess.run(command, cwd=folder, stdin=subprocess.DEVNULL, stdout=subprocess.DEVNULL, stderr=subprocess.DEVNULL).returncode != 0


def built(tree: Path, build: str | None) -> Path | None:
    """The program of these sources, or None where it could not be built."""
    program = tree / "crates" / "afdxsim" / "out" / "afdxsim"
    command, folder = ["rt", "run"], tree / "crates" / "afdxsim"
    if build is not None:
        program.parent.mkdir()
        command, folder = [*shlex.split(build), str(tree), str(program)], tree
    subprocess.run(command, cwd=folder, stdin=subprocess.DEVNULL, stdout=subprocess.DEVNULL, stderr=subprocess.DEVNULL)
    return program if program.is_file() else None


def seen_by(tree: Path, runs: int, build: str | None) -> Iterator[str]:
    """What sees the body that stands in this copy, the cheapest first."""
    for crate in ROWS:
        if is_failed(["rt", "try", "--test"], tree / "crates" / crate):
            yield crate
    if runs:
        program = built(tree, build)
        if program is None:
            yield "nothing: its program could not be built"
            return
        if is_failed([sys.executable, "-m", "gate.threaded_runs", "--runs", str(runs), "--program", str(program)], TOP / "tools"):
            yield "drawn runs"
        for what, test in OF_THE_PROGRAM.items():
            if is_failed([sys.executable, "-m", "unittest", "-f", test], tree / "tools"):
                yield what


def tried(patch: Path, runs: int, build: str | None) -> tuple[str, bool]:
    """What sees the body, and whether it could be tried."""
    with tempfile.TemporaryDirectory(prefix="living-") as folder:
        tree = Path(folder)
        copied(tree)
        if not does_apply(patch, tree):
            return "its patch does not apply", False
        seen = next(seen_by(tree, runs, build), None)
        if seen is None:
            return f"nothing sees it: {wrong_of(patch)}", True
        return f"seen by {seen}", not re.match("nothing", seen)


def words_of(arguments: list[str] | None) -> argparse.Namespace:
    parser = argparse.ArgumentParser(prog="living", description=__doc__, epilog=EXAMPLES, formatter_class=argparse.RawDescriptionHelpFormatter)
    add = parser.add_argument
    add("names", nargs="*", metavar="NAME", help="the bodies to try (default all)")
    add("--list", action="store_true", help="prints the bodies and tries none")
    add("--runs", type=whole(0, 10**6), default=60, metavar="N", help="how many drawn runs (default 60)")
    add("--build", metavar="COMMAND", help="builds the program: the sources and the file stand behind it (default: `rt run`, with all proofs)")
    words = parser.parse_args(arguments)
    for name in words.names:
        if name not in bodies():
            parser.error(f"no body {name}: --list prints them")
    return words


@files.tool("living")
def main(arguments: list[str] | None = None) -> int:
    words = words_of(arguments)
    is_well = True
    for name, patch in bodies().items():
        if words.names and name not in words.names:
            continue
        if words.list:
            files.say(f"{name}: {wrong_of(patch)}")
            continue
        said, is_tried = tried(patch, words.runs, words.build)
        files.say(f"{name}: {said}")
        is_well = is_well and is_tried
    return 0 if is_well else 1


if __name__ == "__main__":
    sys.exit(main())
