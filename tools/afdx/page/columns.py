"""The columns of the tables of a page, and how a cell is marked."""
from collections.abc import Iterable, Mapping, Sequence
from typing import Any, NamedTuple

# How a cell is marked, as the script numbers it.
WARN, BAD = 1, 2

# The rows of a table, column by column.
Rows = Mapping[str, Sequence[Any]]
# The same, of which some values are worked out each time that they are asked for.
AnyRows = Mapping[str, Iterable[Any]]


class Column(NamedTuple):
    """A column of a table of the page: where its values stand, how they look, its name and unit, what more there is to know
    of it, where it stands how a cell is coloured, where the numbers stand by which its rows are sorted, if not in itself, and
    where it stands which numbers are by another program and so have a mark."""

    key: str
    look: str
    name: str
    unit: str = ""
    hint: str = ""
    tone: str = ""
    order: str = ""
    mark: str = ""

    def data(self) -> dict[str, str]:
        """The column as the script has it: what is empty is left out."""
        return {name: value for name, value in self._asdict().items() if value}


def count_column(key: str, name: str, hint: str = "", tone: str = "", unit: str = "frames", look: str = "count") -> Column:
    return Column(key, look, name, unit, hint, tone)


def time_column(key: str, name: str, hint: str = "", tone: str = "") -> Column:
    return Column(key, "us", name, "µs", hint, tone)


def seed_column(hint: str) -> Column:
    return Column("seed", "text_number", "seed", "number", hint)


VL_COLUMN = Column("vl", "vl", "VL", "number")
DESTINATION_COLUMN = Column("where", "text", "destination")
DELIVERED_COLUMN = count_column("count", "delivered", "", "few")
COPIES_COLUMN = count_column("copies", "copies", "second copies that were dropped as duplicate, which is ordinary")
