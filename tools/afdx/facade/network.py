"""A network as `import afdx` has it: a description that is read, changed, checked, run and written."""
import os
import re
from typing import NamedTuple

from afdx import files, model
from afdx.commands.check_command import said_if_accepted
from afdx.facade import bounds, run
from afdx.facade import by as who
from afdx.facade.by import Path
from afdx.facade.changed_text import ChangedText
from afdx.facade.rows import Link, Node, Outage, Rows, Stream, VirtualLink
from afdx.files import Fault
from afdx.files.identities import KNOWN
from afdx.model import Place, description_faults
from afdx.reckon import description_warnings

ACCEPTED = re.compile(r"ok: (\d+) processes, (\d+) virtual links, (\d+) offers\n?")


class Checked(NamedTuple):
    """What an accepted description has, and who accepted it."""

    processes: int
    virtual_links: int
    offers: int
    by: str


class Remark(NamedTuple):
    """A fault of a description or, with the number 0, a warning: its line, and what is wrong."""

    number: int
    line: int
    text: str


class Network:
    """A description of a network. Its rows are objects: `net.vl[101]`, `net.node["SWA1"]`, `net.link[3]`, `net.outage[1]` and
    `net.stream[1]`; what is set in them is set in the text, of which all else stays.

    `by` says who answers, as the word --by of the commands: "proved", "try" or "second-opinion", and without it the proved program where
    it is there. `program` is the path of a program in its place. What is asked of a description that is not accepted raises Fault,
    with the line of its first fault."""

    __slots__ = ("path", "vl", "node", "link", "outage", "stream", "_text")

    def __init__(self, path: Path, text: str | None = None) -> None:
        self.path = os.fspath(path)
        self._text = ChangedText(self.path, files.text_of(self.path) if text is None else text)
        self.vl: Rows[int, VirtualLink] = Rows(self._text, "vl", VirtualLink)
        self.node: Rows[str, Node] = Rows(self._text, "node", Node)
        self.link: Rows[int, Link] = Rows(self._text, "link", Link)
        self.outage: Rows[int, Outage] = Rows(self._text, "outage", Outage)
        self.stream: Rows[int, Stream] = Rows(self._text, "stream", Stream)

    @property
    def until_ns(self) -> int:
        """The end of the run, in ns."""
        return self._text.value(Place("top", None, "until_ns"))

    @until_ns.setter
    def until_ns(self, value: int) -> None:
        self._text.change(Place("top", None, "until_ns"), value)

    @property
    def seed(self) -> int:
        """The seed of the jitter of the offers."""
        return self._text.value(Place("top", None, "seed"))

    @seed.setter
    def seed(self, value: int) -> None:
        self._text.change(Place("top", None, "seed"), value)

    @property
    def text(self) -> str:
        """The description as it is now, in TOML."""
        return self._text.text()

    def write(self, path: Path, replace: bool = False) -> None:
        """Writes the description as it is now: whole, or nothing of it. The file that it was read from is written over only with
        replace=True."""
        path = os.fspath(path)
        if not replace and files.is_same_file(path, self.path):
            raise Fault(path, None, "is what was read, and stays: give another name, or replace=True")
        with KNOWN.anew():
            files.write_all({path: self.text})

    def explain(self) -> list[Remark]:
        """All faults of the description, the first one first, or else what is probably a mistake, as `afdx explain` prints them."""
        found, description = description_faults.findings_of(self.path, self.text)
        if not found:
            found = description_warnings.Warnings(model.Network(self.path, self.text, description)).findings
        return [Remark(it.number, it.line, description_faults.said_of(it)) for it in found]

    def check(self, by: str | None = None, program: Path | None = None) -> Checked:
        """Has the description judged, as `afdx check` does."""
        it = who.chosen(by, program)
        description = description_faults.accepted(self.path, self.text)
        if it.how == "second opinion":
            said = said_if_accepted(model.Network(self.path, description=description))
        else:
            said = who.printed(it, "check", self.path, description.text)
        found = ACCEPTED.fullmatch(said)
        if not found:
            raise Fault(self.path, None, f"{it.says} answers {files.cut(said)} to `check`")
        processes, virtual_links, offers = map(int, found.groups())
        return Checked(processes, virtual_links, offers, it.says)

    def seq(self, by: str | None = None, program: Path | None = None) -> run.Run:
        """Simulates the network in one thread, as `afdx seq` does, and returns its tables."""
        it = who.chosen(by, program)
        return run.made(it, description_faults.accepted(self.path, self.text))

    def bounds(self, by: str | None = None, program: Path | None = None) -> bounds.Bounds:
        """Computes worst-case bounds, as `afdx bounds` does: with by="second-opinion" those of the tool alone."""
        it = who.for_bounds(by, program)
        return bounds.made(it, description_faults.accepted(self.path, self.text))

    def __repr__(self) -> str:
        return f"<network {self.path}: {len(self.node)} nodes, {len(self.vl)} virtual links>"


def read(path: Path) -> Network:
    """Reads a description. Fault says why it cannot be read or is no TOML; what else is wrong with it `check` and `explain` say."""
    return Network(path)
