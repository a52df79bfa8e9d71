"""The values of the rows of a description, made of the cells of a line."""
import re
from collections.abc import Callable
from fractions import Fraction
from typing import Any, NamedTuple

from afdx.document import cells
from afdx.document.cells import MOST_DIGITS
from afdx.document.findings import Findings
from afdx.document.lines import Line
from afdx.files import cut
from afdx.model.headings import key_of, unit_of
from afdx.model.keys import KEYS

# Keys whose columns have words of a document, and numbers that are counted otherwise.
OTHERWISE = {"timing", "sub_vl"}
DECIMAL = re.compile(rf"[0-9]{{1,{MOST_DIGITS}}}(\.[0-9]{{1,{MOST_DIGITS}}})?")


class Value(NamedTuple):
    """A value of a description, and what a comment says of it."""

    value: Any
    said: str


# The values of a row by their keys.
Row = dict[str, Value]


def one_line(text: str) -> str:
    """A text as it may stand in a comment."""
    if text.isalnum():
        return text
    return " ".join(re.sub(r"[\x00-\x1f\x7f]", " ", text).split())


def why_none(text: str) -> str:
    """What is said of a text that is no number, or one of too many digits."""
    return f" of at most {MOST_DIGITS} digits" if text.replace("_", "").isdigit() else ""


class RowValues:
    """Makes values of cells, and reports those that are none."""

    def __init__(self, findings: Findings) -> None:
        self.findings = findings

    def add(self, line: Line, column: str, text: str) -> None:
        """A fault of a cell: with the line that has it."""
        self.findings.add(line.by(column), text)

    def value(self, line: Line, section: str, column: str) -> Any:
        """The value of a cell, or None where it is none."""
        text = line.cells[column]
        time = unit_of(column, section)
        if time:
            return self.time(line, column, text, *time)
        if column in ("payload", "message_bytes") or any(it.name == column and it.value_type == "integer" for it in KEYS[section]):
            return self.whole(line, column, text)
        if column == "net":
            return cells.nets_of(text) or text.upper()
        if column in ("kind", "priority", "policing"):
            return cells.word_of(column, text) or text.lower()
        return text

    def whole(self, line: Line, column: str, text: str) -> int | None:
        """The whole number of a cell, or None."""
        plain = text.replace("_", "")
        whole, _, rest = plain.partition(".")
        if re.fullmatch(f"[0-9]{{1,{MOST_DIGITS}}}", whole) and not rest.strip("0"):
            return int(whole)
        self.add(line, column, f"{column} is {cut(text)}, and no whole number{why_none(text)}")
        return None

    def time(self, line: Line, column: str, text: str, key: str, in_unit: Callable[[Fraction], Fraction]) -> int | None:
        """The number of a cell in the unit of a key, or None."""
        plain = text.replace("_", "")
        if not DECIMAL.fullmatch(plain):
            self.add(line, column, f"{column} is {cut(text)}, and no number{why_none(text)}")
            return None
        found = in_unit(Fraction(plain))
        if found.denominator != 1:
            self.add(line, column, f"{column} is {text}, which is no whole number of {key.rpartition('_')[2]}")
            return None
        return int(found)

    def row_of(self, line: Line, section: str, usual: dict[str, Any]) -> Row:
        """The values of the keys of a section that a line has, or else usual ones."""
        row: Row = {}
        own = [it.name for it in KEYS[section] if it.value_type != "paths" and it.name not in OTHERWISE]
        for column in line.cells:
            key = key_of(column, section)
            if key in own:
                value = self.value(line, section, column)
                if key in row:
                    self.add(line, column, f"has {key} twice, as {column} too")
                said = f"{column} {one_line(line.cells[column])}" if column != key else ""
                if value is not None:
                    row[key] = Value(value, said)
        for key, value in usual.items():
            row.setdefault(key, Value(value, "usual"))
        return row
