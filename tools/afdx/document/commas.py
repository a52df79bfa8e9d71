"""Numbers of a file with a comma in place of the point: all of its numbers have the one mark or the other."""
from afdx.document import cells
from afdx.document.lines import Line


class Commas:
    """Which mark the numbers of a file have. `may_be`: it may be a comma; `is_sure`: a comma is never one between thousands. In a
    workbook only cells with a text count, which `typed` has by sheet, row and column: a number has no mark of its own."""

    def __init__(self, may_be: bool, is_sure: bool) -> None:
        self.may_be, self.is_sure = may_be, is_sure
        self.typed: set[tuple[str | None, int, int]] | None = None
        self.first: tuple[str, Line] | None = None
        # The cells whose comma may be one between thousands.
        self.open: list[tuple[Line, str, str]] = []

    def why_not(self, line: Line, column: str, text: str, mark: str) -> str | None:
        """Why a number with a mark is none, or None."""
        if self.typed is not None and (line.place.sheet, line.number or 0, line.at[column]) not in self.typed:
            return None
        if not self.may_be:
            return "" if mark == "," else None
        if mark == "," and not self.is_sure and cells.may_be_thousands(text):
            self.open.append((line, column, text))
            return None
        if self.first is None:
            self.first = mark, line
        other, first = self.first
        if other != mark:
            return f"{column} is {text!r}, and {first.where(line)} has a number with {other!r} in place of {mark!r}"
        return None

    def unsure(self) -> list[tuple[Line, str]]:
        """What is wrong with the numbers of which the file shows nowhere whether a comma is a point."""
        if self.first and self.first[0] == ",":
            return []
        how = "write it without a comma"
        return [(line, f"{line.cell(column)}: {column} is {text!r}, which may be {text.replace(',', '')} or {text.replace(',', '.')}: {how}") for line, column, text in self.open]
