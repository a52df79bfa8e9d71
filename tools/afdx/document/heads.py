"""The names of columns of a table: which rows of a sheet have them, and what they are. They may stand in two rows, of which the
first has groups or the second has units, and several tables may stand side by side."""
import re
from collections.abc import Iterable, Mapping, Sequence
from typing import NamedTuple

from afdx.document.cells import number_of
from afdx.document.directions import direction_of
from afdx.document.places import PASSED, Columns, Place
from afdx.model import heading_words, headings
from afdx.model.headings import key_of

# Which columns show what a table has. If several fit, it is the one that knows most of the columns, else the first.
SORTS = [
    ("link", {"a", "b"}),
    ("vl", {"id", "source"}),
    ("vl", {"id", "destinations"}),
    ("vl", {"id", "equipment"}),
    ("node", {"name"}),
    ("outage", {"from", "to", "from_ns"}),
    ("outage", {"from", "to", "to_ns"}),
    ("vl", {"id"}),
    ("top", {"until_ns"}),
    ("top", {"seed"}),
]
FAMILIES: tuple[Mapping[str, tuple[str, ...]], ...] = (
    heading_words.TIMES, heading_words.RATES, heading_words.BYTES, heading_words.SPEEDS, heading_words.METRES, heading_words.NUMERALS,
)
UNITS = {word for family in FAMILIES for words in family.values() for word in words}

Row = tuple[int, list[str]]


class Head(NamedTuple):
    """The names of the columns of a table: what the table has, the first cell of each row that is of it, the names as they are
    written, the group above each or nothing, and how many rows of the sheet they take."""

    section: str
    first: int
    texts: list[str]
    groups: list[str]
    rows: int

    def cells_of(self, cells: Sequence[str]) -> list[str]:
        """The cells of a row that are of this table."""
        return list(cells[self.first : self.first + len(self.texts)])


class Heads:
    """Finds the names of columns in the rows of a sheet."""

    def __init__(self, place: Place, columns: Columns, spans: Iterable[tuple[int, int, int]] = ()) -> None:
        self.place, self.columns = place, columns
        self.spans: dict[int, list[tuple[int, int]]] = {}
        for row, first, last in spans:
            self.spans.setdefault(row, []).append((first, last))

    def keys(self, texts: Iterable[str], section: str) -> dict[str, str]:
        """The headings that are known in a section, and the key of each."""
        return {text: key_of(it[0], section) for text in texts if text and len(it := self.columns.meanings(text, section, self.place)) == 1}

    def section_of(self, texts: Sequence[str]) -> tuple[int, str] | None:
        """How many columns are known, and what a table has whose columns these are, or None. No column has a number as its name."""
        if any(text.isascii() and text.isdigit() for text in texts):
            return None
        found = []
        for section, needed in SORTS:
            known = self.keys(texts, section)
            keys = set(known.values()) - {PASSED}
            names = {headings.normal(text) for text, key in known.items() if key == "name"}
            is_weak = section == "node" and not keys & headings.OF_NODES and names <= headings.WEAK
            # A list of authors has names, too.
            is_weak = is_weak or section == "node" and not keys & {*headings.OF_NODES, "kind"} and len(known) < len(set(filter(None, texts)))
            if needed <= keys and not is_weak:
                found.append((len(keys), section))
        return max(found, key=lambda it: it[0]) if found else None

    def at(self, rows: Sequence[Row], i: int, is_alone: bool) -> list[Head]:
        """The heads of tables that begin in a row, side by side: none where it is no such row. `is_alone`: it may not be a line
        of groups above the names of columns."""
        if not self.has_heading(rows[i][1]) and not self.has_heading(following(rows, i) or []):
            return []
        texts, groups, taken = self.texts_at(rows, i, is_alone)
        parts = parts_of(texts)
        found = [(first, own, self.section_of(own)) for first, own in parts]
        if len(found) > 1 and all(it and it[0] > 1 for _, _, it in found):
            return [Head(it[1], first, own, groups[first : first + len(own)], taken) for first, own, it in found if it]
        whole = self.section_of(texts)
        return [Head(whole[1], 0, texts, groups, taken)] if whole else []

    def has_heading(self, cells: Sequence[str]) -> bool:
        """Whether a row has the name of a column of some table."""
        return any(self.columns.meanings(cell, section, self.place) for cell in cells if cell for section in heading_words.COLUMNS)

    def texts_at(self, rows: Sequence[Row], i: int, is_alone: bool) -> tuple[list[str], list[str], int]:
        """The names of columns that a row has, alone or with the row below it; the groups above them; and how many rows they
        take."""
        cells = rows[i][1]
        best, groups, taken = list(cells), [""] * len(cells), 1
        below = following(rows, i)
        has_groups = sum(map(bool, cells)) > 1 and are_words(cells)
        if below and not is_alone and has_groups and are_words(below) and not are_units(below):
            texts, above = self.joined(rows[i][0], cells, below)
            before, behind = self.section_of(best), self.section_of(texts)
            if behind and (behind[0] >= max(3, before[0] + 1 if before else 0) or behind[0] > 2 and self.is_below(rows[i][0], cells, below)):
                best, groups, taken = texts, above, 2
        units = following(rows, i + taken - 1)
        if units and are_units(units) and self.section_of(best):
            size = max(len(best), len(units))
            best, groups = padded(best, size), padded(groups, size)
            return [with_unit(text, unit) for text, unit in zip(best, padded(units, size))], groups, taken + 1
        return best, groups, taken

    def is_below(self, number: int, cells: Sequence[str], below: Sequence[str]) -> bool:
        """Whether a row belongs to the names of columns above it: it has units, or stands below cells that are merged sideways, or
        merged downwards."""
        spans = self.spans.get(number, [])
        is_grouped = lambda i: any(first <= i <= last for first, last in spans)
        found = [(i, cell) for i, cell in enumerate(below) if cell and cell != (cells[i] if i < len(cells) else "")]
        return all(is_grouped(i) or unit_word(cell) in UNITS for i, cell in found) and bool(found)

    def joined(self, number: int, cells: Sequence[str], below: Sequence[str]) -> tuple[list[str], list[str]]:
        """The names of columns of two rows: a line of groups, and the names below it."""
        size = max(len(cells), len(below))
        above, under = padded(cells, size), padded(below, size)
        texts, groups = [], []
        for i in range(size):
            group = above[i] or self.group(number, above, under, i)
            has_unit = above[i] and unit_word(under[i]) in UNITS
            texts.append(with_unit(above[i], under[i]) if has_unit else self.fitting(group, under[i]) if under[i] else above[i])
            groups.append(group if under[i] else "")
        return texts, groups

    def group(self, number: int, above: Sequence[str], under: Sequence[str], i: int) -> str:
        """The group of a column above which nothing stands itself."""
        for first, last in self.spans.get(number, []):
            if first <= i <= last:
                return above[first]
        left = next((k for k in range(i, -1, -1) if above[k]), None)
        # A name of a column that stands in the first row has no others below it.
        return above[left] if left is not None and under[left] and not self.spans.get(number) else ""

    def fitting(self, group: str, text: str) -> str:
        """What a column is called, of its group and its own name: what is known. `LRU` below `Transmitters` is the end of that, and
        `Equipment` below `Side A` is what the group says itself."""
        if not group or headings.normal(group) == headings.normal(text):
            return text
        is_known = lambda name: any(self.columns.meanings(name, section, self.place) for section in heading_words.COLUMNS)
        if is_known(f"{group} {text}"):
            return f"{group} {text}"
        if headings.normal(text) in heading_words.BOXES and is_known(group):
            return group
        way = {"source": "tx", "destinations": "rx"}.get("".join(headings.meanings(group, "vl"))) or direction_of(group)
        return f"{way} {text}" if way and is_known(f"{way} {text}") else text


def following(rows: Sequence[Row], i: int) -> list[str] | None:
    """The cells of the row just below, or None."""
    if i + 1 < len(rows) and rows[i + 1][0] == rows[i][0] + 1 and any(rows[i + 1][1]):
        return rows[i + 1][1]
    return None


def padded(cells: Sequence[str], size: int) -> list[str]:
    return [*cells, *[""] * (size - len(cells))]


def unit_word(text: str) -> str:
    return headings.normal(text.strip("[](){} "))


def are_units(cells: Sequence[str]) -> bool:
    """Whether a row has units, and nothing else but dashes."""
    found = [cell for cell in cells if cell and not re.fullmatch(r"[\W_]+", cell)]
    return bool(found) and all(unit_word(cell) in UNITS for cell in found)


def with_unit(text: str, unit: str) -> str:
    return f"{text} ({unit.strip('[](){} ')})" if text and unit_word(unit) and not headings.BEHIND.fullmatch(text) else text


def are_words(cells: Sequence[str]) -> bool:
    """Whether a row may have names of columns: some cells, and no number."""
    return any(cells) and not any(number_of(cell) for cell in cells if cell)


def parts_of(texts: Sequence[str]) -> list[tuple[int, list[str]]]:
    """What stands side by side in a row, with empty cells between: the first cell of each, and its texts."""
    found: list[tuple[int, list[str]]] = []
    for i, text in enumerate(texts):
        if text and found and found[-1][0] + len(found[-1][1]) == i:
            found[-1][1].append(text)
        elif text:
            found.append((i, [text]))
    return found
