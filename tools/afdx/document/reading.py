"""The rows of a sheet as tables: which rows name columns, which are lines of a table or may be, and which are none. What a row
that is no plain line is for is decided when all sheets are read, since it is by the names of nodes."""
from collections.abc import Iterable, Sequence
from typing import NamedTuple

from afdx.document.cells import number_of
from afdx.document.heads import Head, Heads, Row
from afdx.document.places import PASSED, Columns, Place, Skip
from afdx.model.headings import OF_COLUMN

TITLE, USED, SKIPPED, LEFT = "titles", "used", "skipped", "left"


class Reading(NamedTuple):
    """A sheet that is read: its place, its rows, what became of each by number, why some are left, and its tables."""

    place: Place
    size: int
    verdicts: dict[int, str]
    reasons: dict[int, str]
    blocks: list["Block"]
    titles: list[tuple[int, list[str]]]

    def texts(self) -> list[str]:
        """The titles outside of tables."""
        return [" ".join(filled) for _, filled in self.titles]


class Block:
    """A table: its head, the row of that, the titles above it, and its rows, which may be lines of it or titles."""

    def __init__(self, place: Place, head: Head, number: int, titles: Sequence[str]) -> None:
        self.place, self.head, self.number, self.titles = place, head, number, list(titles)
        self.first = next(filter(None, head.texts), "")
        self.rows: list[Row] = []
        self.beside: list[Block] = [self]

    def is_again(self, cells: Sequence[str]) -> bool:
        """Whether a row names the columns once more."""
        return next(filter(None, cells), "") == self.first and [cell for cell in cells if cell] == [text for text in self.head.texts if text]


class SheetReader:
    """Reads the rows of one sheet."""

    def __init__(self, place: Place, rows: Sequence[Row], columns: Columns, skips: Sequence[Skip], spans: Iterable[tuple[int, int, int]] = ()) -> None:
        self.place, self.rows, self.skips = place, rows, skips
        self.heads = Heads(place, columns, spans)
        self.spans = {(row, first): last for row, first, last in spans}
        self.verdicts: dict[int, str] = {}
        self.reasons: dict[int, str] = {}
        self.blocks: list[Block] = []
        self.open: list[Block] = []
        self.titles: list[tuple[int, list[str]]] = []
        self.new_titles: list[str] = []

    def read(self) -> Reading:
        i, is_behind_empty = 0, True
        last = 0
        while i < len(self.rows):
            number, cells = self.rows[i]
            is_behind_empty = is_behind_empty or number > last + 1
            taken = self.row(i, number, cells, is_behind_empty)
            is_behind_empty = not any(cells)
            i += taken
            last = self.rows[i - 1][0]
        return Reading(self.place, last, self.verdicts, self.reasons, self.blocks, self.titles)

    def row(self, i: int, number: int, cells: list[str], is_behind_empty: bool) -> int:
        """Reads a row, and answers how many rows that took."""
        skip = next((it for it in self.skips if it.names(self.place, number)), None)
        if skip:
            skip.used = True
            self.verdicts[number] = SKIPPED
        elif not any(cells):
            self.verdicts[number] = TITLE
        elif self.is_comment(cells):
            self.verdicts[number] = TITLE
        else:
            return self.table_row(i, number, cells, is_behind_empty)
        return 1

    def is_comment(self, cells: Sequence[str]) -> bool:
        """Whether a row is a comment: in CSV each that begins with #, unless this is the name of a column itself."""
        if not cells[0].startswith("#"):
            return False
        return not any(cells[1:]) if self.place.sheet is not None or cells[0] == "#" else True

    def table_row(self, i: int, number: int, cells: list[str], is_behind_empty: bool) -> int:
        if any(block.is_again(cells) for block in self.open):
            self.verdicts[number] = TITLE
            return 1
        if self.open and any(number_of(cell) for cell in cells if cell) and not self.is_entry(cells):
            # Names of columns have no numbers, and most lines have: that is seen sooner.
            self.line(number, cells)
            return 1
        if self.is_entry(cells):
            self.verdicts[number] = LEFT
            self.reasons[number] = f"has a value beside its name, {' '.join(cell for cell in cells if cell)!r}, and no table of columns"
            return 1
        found = self.heads.at(self.rows, i, bool(self.open) and not (is_behind_empty and not self.looks_like_line(cells)))
        if found and self.is_head(found, cells):
            taken = found[0].rows
            for k in range(taken):
                self.verdicts[self.rows[i + k][0]] = TITLE
            titles = self.new_titles + self.titles_behind()
            self.open = [Block(self.place, head, number + taken - 1, titles) for head in found]
            for block in self.open:
                block.beside = self.open
            self.blocks += self.open
            self.new_titles = []
            return taken
        if self.open:
            self.line(number, cells)
        else:
            self.outside(number, cells)
        return 1

    def is_entry(self, cells: Sequence[str]) -> bool:
        """Whether a row is one of a form: the name of a number and the number, and nothing else."""
        if sum(map(bool, cells)) != 2:
            return False
        filled = [cell for cell in cells if cell]
        if number_of(filled[0]) or not number_of(filled[1]):
            return False
        return any(it.startswith("id") or OF_COLUMN[section][it].units for section in OF_COLUMN for it in self.heads.columns.meanings(filled[0], section, self.place) if it != PASSED)

    def titles_behind(self) -> list[str]:
        """The texts of the last rows of the tables before, as far as they may be titles of the next one."""
        found: list[str] = []
        for _, cells in reversed(self.open[0].rows if self.open else []):
            filled = [cell for cell in cells if cell]
            if len(filled) > 2:
                break
            found.insert(0, " ".join(filled))
        return found

    def is_head(self, found: Sequence[Head], cells: Sequence[str]) -> bool:
        """Whether a row inside a table begins another one: most of its cells are names of columns."""
        if not self.open:
            return True
        known = sum(len(self.heads.keys(head.texts, head.section)) for head in found)
        filled = sum(1 for head in found for text in head.texts if text)
        return known * 2 >= filled and (known > 1 or filled == 1)

    def looks_like_line(self, cells: Sequence[str]) -> bool:
        """Whether a row has a cell under each column that a table before it cannot be without."""
        for block in self.open:
            needed = [k for k, text in enumerate(block.head.texts) if self.heads.keys([text], block.head.section).get(text) in NEEDED[block.head.section]]
            own = block.head.cells_of(cells)
            if needed and all(k < len(own) and own[k] for k in needed):
                return True
        return False

    def line(self, number: int, cells: list[str]) -> None:
        """A row below the names of columns: each table has its part of it."""
        for block in self.open:
            own = block.head.cells_of(cells) if len(self.open) > 1 else cells
            if any(own):
                block.rows.append((number, own))

    def outside(self, number: int, cells: list[str]) -> None:
        """A row that is of no table."""
        filled = [cell for cell in cells if cell]
        if len(filled) <= 2:
            self.verdicts[number] = TITLE
            self.titles.append((number, filled))
            self.new_titles.append(" ".join(filled))
        else:
            self.verdicts[number] = LEFT
            self.reasons[number] = f"names no columns of a table, but {', '.join(' '.join(cell.split()) for cell in filled)}"


NEEDED: dict[str, list[str]] = {"vl": ["id"], "node": ["name"], "link": ["a", "b"], "outage": ["from", "to", "from_ns", "to_ns"], "top": []}
