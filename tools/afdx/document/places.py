"""Where something stands in a document: sheets, their rows, and the words of a command line that name them."""
import os
import re
from typing import NamedTuple

from afdx.model import headings
from afdx.model.headings import normal

# Stands for a column that is to be passed over.
PASSED = "-"
SKIPPED = re.compile(r"\$?[A-Za-z]{0,3}\$?([0-9]+)(?::\$?[A-Za-z]{0,3}\$?([0-9]+))?")
EVERY_ROW = (1, 10**9)


class Place(NamedTuple):
    """A sheet, or a file of CSV as a whole: the path, and the name of the sheet or None."""

    path: str
    sheet: str | None

    def said(self) -> str:
        """As it stands before a line: `icd.xlsx, sheet VLs,`."""
        return self.path if self.sheet is None else f"{self.path}, sheet {self.sheet},"

    def names(self) -> set[str]:
        """What words may call it."""
        base = os.path.basename(self.path)
        return {self.sheet} if self.sheet is not None else {self.path, base, os.path.splitext(base)[0]}

    def called(self) -> str:
        """What a word of the command line calls it."""
        return self.sheet if self.sheet is not None else os.path.basename(self.path)

    def column_word(self, heading: str, column: str) -> str:
        """The word that says what a heading of it stands for."""
        sheet = f"{self.sheet}!" if self.sheet is not None else ""
        return repr(f"{sheet}{' '.join(heading.split())}={column}")

    def skip_word(self, first: int | None = None, last: int | None = None) -> str:
        """The word that leaves out it, or rows of it."""
        rows = "" if first is None else f"!A{first}" + (f":A{last}" if last not in (None, first) else "")
        return repr(f"{self.called()}{rows}")


class Skip:
    """What a word of --skip names: a sheet, or some of its rows."""

    def __init__(self, text: str) -> None:
        self.text = text
        sheet, mark, rows = text.rpartition("!")
        found = SKIPPED.fullmatch(rows) if mark else None
        self.sheet = (sheet if found else text).strip("'")
        self.first, self.last = (int(found[1]), int(found[2] or found[1])) if found else EVERY_ROW
        self.is_bad = not self.sheet or self.first < 1 or self.last < self.first
        self.used = False

    def names(self, place: Place, number: int) -> bool:
        return self.sheet in place.names() and self.first <= number <= self.last


class Said(NamedTuple):
    """What a word of --column says: of which sheet or of all, the heading in normal form, and the column that it is."""

    sheet: str | None
    name: str
    column: str

    def text(self) -> str:
        return f"{self.sheet + '!' if self.sheet is not None else ''}{self.name}={self.column}"


def said_of(text: str) -> Said:
    """What a word says: `HEADING=COLUMN` or `SHEET!HEADING=COLUMN`."""
    heading, _, column = text.rpartition("=")
    sheet, mark, name = heading.rpartition("!")
    own = PASSED if column.strip() == PASSED else normal(column)
    return Said(sheet.strip().strip("'") if mark else None, normal(name), own)


class Columns:
    """What words say of headings, and which of the words were of use."""

    def __init__(self, said: list[Said]) -> None:
        self.said = said
        self.used: set[Said] = set()

    def of(self, text: str, place: Place) -> Said | None:
        """What is said of a heading: that of its sheet counts first."""
        if not self.said:
            return None
        behind = headings.BEHIND.fullmatch(text.strip())
        names = {normal(text), normal(behind[1]) if behind else ""}
        fitting = [it for it in self.said if it.name in names and (it.sheet is None or it.sheet in place.names())]
        return next((it for it in fitting if it.sheet is not None), next(iter(fitting), None))

    def meanings(self, text: str, section: str, place: Place) -> list[str]:
        """The columns that a heading may be in a table of this section."""
        said = self.of(text, place)
        if said and said.column == PASSED:
            return [PASSED]
        fitting = headings.columns_of(said.column, section) if said else []
        return fitting if len(fitting) == 1 else headings.meanings(text, section)

    def use(self, text: str, section: str, place: Place) -> None:
        """Notes that what is said of a heading was of use, if it was."""
        said = self.of(text, place)
        if said and (said.column == PASSED or self.meanings(text, section, place) == headings.columns_of(said.column, section)):
            self.used.add(said)
