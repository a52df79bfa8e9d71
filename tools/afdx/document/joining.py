"""What two lines of one virtual link, or of one node, have alike, and what they say against each other."""
import re
from collections.abc import Iterable
from fractions import Fraction

from afdx.document import cells
from afdx.document.lines import Joint, Line
from afdx.model.headings import key_of, unit_of

DECIMAL = re.compile(rf"[0-9]{{1,{cells.MOST_DIGITS}}}(\.[0-9]{{1,{cells.MOST_DIGITS}}})?")


def alike(column: str, cell: str | None, section: str = "vl") -> Fraction | str | None:
    """What two cells of the same meaning have alike: a number in the unit of its key, or a word in small letters. Names of nodes
    are no such words."""
    if cell is None:
        return None
    plain = cell.replace("_", "")
    if DECIMAL.fullmatch(plain):
        unit = unit_of(column, section)
        return unit[1](Fraction(plain)) if unit else Fraction(plain)
    return cells.word_of(column, cell) or cell.lower() if column in cells.WORDS else cell


def other_of(line: Line, column: str, section: str = "vl") -> str | None:
    """The column of a line that has the key of a column, in whatever unit."""
    if column in line.cells:
        return column
    key = key_of(column, section)
    return next((it for it in line.cells if key_of(it, section) == key), None)


def is_alike(joint: Line, line: Line, column: str, section: str = "vl") -> bool:
    """Whether a cell of a line says the same as a joint line, which has its key."""
    if joint.cells.get(column) == line.cells[column]:
        return True
    other = other_of(joint, column, section)
    return other is not None and alike(column, line.cells[column], section) == alike(other, joint.cells[other], section)


def difference(joint: Joint, line: Line, columns: Iterable[str], section: str = "vl") -> list[tuple[str, Joint]]:
    """In which of some columns a line says something else than a joint line: each with the joint line."""
    return [(column, joint) for column in columns if not is_alike(joint, line, column, section) and other_of(joint, column, section) is not None]


def take(joint: Joint, line: Line, column: str, section: str = "vl") -> None:
    """Takes a cell of a line into a joint line that has none of its key."""
    if other_of(joint, column, section) is None:
        joint.take(line, column)
