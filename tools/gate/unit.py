"""What a gate costs, in a unit that holds on every machine: the processor time of one fixed crate, proved from nothing and alone.

The same proofs take longer beside other work or on a slower machine, and so does this crate. So a figure in this unit can be
compared with that of another hour or machine. The crate is proved first and last: where the two differ much, the machine was not
equally busy, and the figure says less.
"""
import os
import re
import resource
import shutil
import tempfile
from collections.abc import Callable
from types import TracebackType

from afdx.files import program
from afdx.runs import by_rt

# The crate. It stands low, has no tests, and changes seldom.
CRATE = "heap_message"
TOP_FILE = os.path.join("src", "lib.rt")
# What runs `rt ci` in a folder, with several processes and all that it says, or as it is measured. It returns what it says, with the status.
Run = Callable[[str, bool], tuple[str, int]]


def seconds_of_children() -> float:
    """The processor time, in s, of all processes that this one started and that have ended."""
    used = resource.getrusage(resource.RUSAGE_CHILDREN)
    return used.ru_utime + used.ru_stime


class Unit:
    """A copy of the crate and of the crates below it, in which it is proved again and again."""

    def __init__(self, root: str, run: Run) -> None:
        self.root, self.run = root, run
        self.found: list[float] = []

    def __enter__(self) -> "Unit":
        self.lines = by_rt.made_of(self.root, CRATE) if program.is_clone(self.root) else {}
        self.folder = tempfile.mkdtemp(prefix="afdx-unit-")
        self.copy = os.path.join(os.path.realpath(self.folder), "copy")
        return self

    def __exit__(self, *_: type[BaseException] | BaseException | TracebackType | None) -> None:
        shutil.rmtree(self.folder, ignore_errors=True)

    def prove_below(self) -> None:
        """Proves the crates below it, which `rt` keeps: neither the unit nor the gate's own run proves them again."""
        if CRATE in self.lines:
            self.copy_crates([name for name in self.lines if name != CRATE])
            self.run(self.copy, False)

    def measure(self) -> str:
        """Proves the crate, and returns in words what that took. Each time a line of its own makes its text new, so that `rt` has no proof of it."""
        if CRATE not in self.lines:
            return f"no unit of cost: there is no crate {CRATE}"
        self.copy_crates(list(self.lines))
        with open(os.path.join(self.copy, "crates", CRATE, TOP_FILE), "a", encoding="utf-8") as out:
            out.write(f"// {os.urandom(8).hex()}\n")
        before = seconds_of_children()
        said, status = self.run(self.copy, True)
        took = seconds_of_children() - before
        if status or not re.search(rf"^rt: {CRATE} proved$", said, re.MULTILINE):
            return f"no unit of cost: {CRATE} was not proved"
        self.found.append(took)
        return f"{CRATE}, proved from nothing and alone, took {took:.1f} s of a processor: the unit of cost"

    def copy_crates(self, names: list[str]) -> None:
        """Makes the copy anew, of these crates alone: `rt` reads no file of a crate that is not listed."""
        shutil.rmtree(self.copy, ignore_errors=True)
        by_rt.copy_sources({name: self.lines[name] for name in names}, self.copy, self.root)

    def seconds(self) -> float:
        """What it took in all."""
        return sum(self.found)

    def in_units(self, seconds: float) -> str:
        """A time of processors in words, with how many times the unit that is, where it is known: the mean of what was measured."""
        said = f"{seconds:.0f} s of processors"
        return f"{said}, {seconds * len(self.found) / self.seconds():.0f} units" if self.found else said
