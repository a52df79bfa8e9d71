"""The rows of a document that a description was made of: which row speaks of which virtual link and destinations."""
import re
from collections.abc import Iterator
from typing import NamedTuple

from afdx.document.places import Place, Skip, said_of
from afdx.document.reading import Reading
from afdx.document.tables import COLUMN_SAID, Tables
from afdx.files import Fault, sheets
from afdx.model import Network
from afdx.model.document_names import DocumentNames

SKIP_SAID = re.compile(r'# --skip "(.*)"')


class RowOfLink(NamedTuple):
    """A row of a document: its place, its number, the virtual link, and the destinations of which it speaks."""

    place: Place
    number: int
    vl: int
    destinations: list[str]


class Head(NamedTuple):
    """Where names of columns stand: the place, the row, and the first column that is free in its sheet, from 0."""

    place: Place
    number: int
    free: int


class Document:
    """The rows of a document, read as afdx table reads them."""

    def __init__(self, path: str, net: Network) -> None:
        lines = net.text.split("\n")
        said = [said_of(found[1]) for line in lines if (found := COLUMN_SAID.fullmatch(line.rstrip()))]
        skips = [Skip(found[1]) for line in lines if (found := SKIP_SAID.fullmatch(line.rstrip()))]
        self.path, self.net, self.names = path, net, DocumentNames(net)
        self.tables = Tables([path], said, skips)
        self.rows = list(self.rows_of())
        self.heads = [head for reading in self.tables.readings for head in heads_of(reading)]
        if not self.rows:
            raise Fault(path, None, f"has no virtual link of {net.path}")

    def node(self, name: str) -> str:
        """The node of a name of the document, as the description has it."""
        own = self.tables.names.documents.get(name, name)
        return self.names.node_of(own) or name

    def rows_of(self) -> Iterator[RowOfLink]:
        """The rows, each with its virtual link, which must be one of the description."""
        for joint in self.tables.lines["vl"]:
            text = joint.cells.get("id", "")
            vl = self.net.vls.get(int(text)) if text.isdigit() else None
            if vl is None:
                raise Fault(joint.path, joint.number, f"has the virtual link {text or 'without a number'}, which is not in {self.net.path}: make it anew by afdx table")
            for part in joint.parts:
                own = [self.node(name) for name in sheets.names_of(part.cells.get("destinations", ""))]
                unknown = [name for name in own if name not in vl.destinations]
                if unknown:
                    raise Fault(part.path, part.number, f"names {unknown[0]}, which is no destination of virtual link {vl.id} in {self.net.path}: make it anew by afdx table")
                yield RowOfLink(part.place, part.number or 0, vl.id, list(dict.fromkeys(own)) or list(vl.destinations))


def heads_of(reading: Reading) -> Iterator[Head]:
    """The names of columns of the tables of virtual links of a sheet."""
    blocks = [block for block in reading.blocks if block.head.section == "vl"]
    ends = [block.head.first + len(block.head.texts) for block in reading.blocks]
    ends += [len(cells) for block in reading.blocks if len(block.beside) == 1 for _, cells in block.rows]
    for block in blocks:
        yield Head(reading.place, block.number, max(ends))
