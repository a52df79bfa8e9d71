"""The lines of tables: their cells by column, and where they stand."""
import functools
from collections.abc import Mapping, Sequence
from types import MappingProxyType

from afdx.document.cells import letters
from afdx.document.places import Place
from afdx.model import headings
from afdx.model.headings import REMARKS

COMMENTED = {"vl": [*headings.NAMED, *headings.LIMITS, *headings.UDP], "node": ["document_name"], "stream": ["message", "port", "rx_port", *headings.UDP]}


@functools.cache
def commented(section: str) -> tuple[str, ...]:
    """The columns of a section that become comments."""
    return (*COMMENTED.get(section, []), REMARKS)


class Line:
    """A line of a table: the sheet, the number of its row, and the cells that are not empty, by the names of their columns.
    `at` has the number of the column in which a cell stands, and `headings` those of its table by the keys of their columns.
    `is_of_receiver`: it says what a receiver reads, and of the sender nothing. `is_port_of_sender`: its port is that of the sender for
    certain. A table has many lines, so what most have alike they share: nothing changes `at`."""

    # A line of a table is made of no others.
    parts: "Sequence[Line]" = ()
    origin: "Mapping[str, Line]" = MappingProxyType({})
    streams: "Sequence[Joint]" = ()
    own: "Joint | None" = None
    is_of_receiver = is_port_of_sender = False

    def __init__(self, place: Place, number: int | None, cells: dict[str, str]) -> None:
        self.place, self.number, self.cells = place, number, cells
        self.at: Mapping[str, int] = {}
        self.headings: Mapping[str, str] = {}
        self.section, self.block = "", 0

    @property
    def path(self) -> str:
        return self.place.said()

    def by(self, column: str) -> "Line":
        """The line that has a cell."""
        return self.origin.get(column, self)

    def cell(self, column: str) -> str:
        """How a message names the cell of a column."""
        return f"cell {letters(self.at[column])}{self.number}" if column in self.at and self.place.sheet is not None else column

    def where(self, other: "Line") -> str:
        """Where it stands, for the reader of another one."""
        same = self.place == other.place
        return f"line {self.number}" + ("" if same else f" of {self.path.rstrip(',')}")


class Joint(Line):
    """A line that is made of others, its `parts`: that of a virtual link, or of a stream. `origin` has the part of each cell, and `nets`
    the networks of each destination. `own` is the virtual link's own stream, `streams` has its further ones, and `sub_vl` is the
    sub-virtual link of a stream, from 0."""

    def __init__(self, place: Place, number: int | None, block: int) -> None:
        super().__init__(place, number, {})
        self.section, self.block = "vl", block
        self.parts: list[Line] = []
        self.origin: dict[str, Line] = {}
        self.nets: dict[str, str] = {}
        self.streams: list[Joint] = []
        self.sub_vl: int | None = None

    def take(self, line: Line, column: str) -> None:
        """Takes a cell of a line."""
        self.cells[column], self.origin[column] = line.cells[column], line
