"""A description of which values are changed: its text stays as it was written, comments too, but for these values."""
import operator
from typing import Any

from afdx import model
from afdx.files import Fault, toml_edits, toml_lines
from afdx.model import KEYS, SECTIONS, Key, Place, description_faults
from afdx.model.findings import A_ROW, meant
from afdx.model.row_judge import RowJudge

# By what the rows of these sections are found; those of the others go by their numbers from 1.
NAMED_BY = {"vl": "id", "node": "name"}
KEYS_BY_NAME = {section: {key.name: key for key in keys} for section, keys in KEYS.items()}


class ChangedText:
    """The text of a description with changed values. A place is a section, a row of it from 1, and a key; the keys at the top have
    the section "top" and no row."""

    def __init__(self, path: str, text: str) -> None:
        self.path, self.before = path, text
        self.reader = toml_lines.Reader(text, {name for keys in KEYS_BY_NAME.values() for name in keys})
        try:
            self.tree = self.reader.document()
        except toml_lines.BadToml as fault:
            raise Fault(path, fault.line, f"is no TOML: {fault}") from None
        self.changes: dict[Place, Any] = {}
        self.made: model.Description | None = None
        self.places = {section: self.found(section) for section in SECTIONS}

    def found(self, section: str) -> dict[Any, int]:
        """The rows of a section that are tables, from 1, each by its name or number."""
        rows = self.tree.get(section)
        tables = [i for i, row in enumerate(rows, 1) if isinstance(row, toml_lines.Table)] if isinstance(rows, list) else []
        if section not in NAMED_BY:
            return {i: i for i in tables}
        by: dict[Any, int] = {}
        for i in tables:
            name = self.value(Place(section, i, NAMED_BY[section]))
            if isinstance(name, (int, str)):
                by.setdefault(name, i)
        return by

    def table(self, place: Place) -> toml_lines.Table:
        """The table in which the key of a place stands."""
        return self.tree if place.row is None else self.tree[place.section][place.row - 1]

    def key(self, place: Place) -> Key:
        """The key of a place, or an AttributeError that names the nearest one."""
        known = KEYS_BY_NAME[place.section]
        if place.key in known:
            return known[place.key]
        raise AttributeError(f"{place.key} is no key of {A_ROW.get(place.section, 'a description')}{meant(str(place.key), known)}")

    def value(self, place: Place) -> Any:
        """What stands at a place now; what an absent key means, which may be None."""
        key = self.key(place)
        found = self.changes[place] if place in self.changes else self.table(place).get(key.name, key.usual)
        return tuple(map(tuple, found)) if key.value_type == "paths" and RowJudge.has_type(key, found) else found

    def change(self, place: Place, value: Any) -> None:
        """Puts a value at a place. A Fault with the line refuses one of another type, or beyond its limits."""
        key, value = self.key(place), plain(value)
        if why := self.why_not(place, key, value):
            raise Fault(self.path, self.line(place), why)
        self.changes[place] = value
        self.made = None
        if key.name == NAMED_BY.get(place.section):
            self.places[place.section] = self.found(place.section)

    def why_not(self, place: Place, key: Key, value: Any) -> str | None:
        """Why a value may not stand at a place, by what is known of its row alone, which is judged as the only one."""
        row, tree = toml_lines.Table(1, "header"), toml_lines.Table(1, "header")
        known = KEYS_BY_NAME[place.section]
        for name in dict.fromkeys([*(name for name in self.table(place) if name in known), key.name]):
            row.put(name, value if name == key.name else self.current(place._replace(key=name)), 1)
        if place.row is not None:
            rows = toml_lines.Array(1, True)
            rows.put(row, 1)
            tree.put(place.section, rows, 1)
        judged = RowJudge(model.Description(self.path, self.before, row if place.row is None else tree))
        own = Place(place.section, place.row and 1, key.name), Place(place.section, place.row and 1, None)
        for it in judged.findings:
            if it.place == own[0] or it.place == own[1] and it.who.endswith(f", {key.name}"):
                who = it.who.replace(f"{place.section} row 1", f"{place.section} row {place.row}", 1)
                return description_faults.said_of(it._replace(who=who))
        return None

    def current(self, place: Place) -> Any:
        """What stands at a place now, also if it is no key that is known."""
        return self.changes.get(place, self.table(place)[place.key])

    def line(self, place: Place) -> int:
        """The line of a place in the text as it is now; that of its row where the key is absent."""
        return self.description().line(*place)

    # ---- the text ----

    def edit(self, place: Place, value: Any) -> toml_edits.Edit:
        """What a change does to the text."""
        table, key = self.table(place), str(place.key)
        if span := self.reader.places.get((id(table), key)):
            new = toml_edits.number(self.before, span, value) if isinstance(value, int) else model.written(value)
            return toml_edits.value(self.before, span, new)
        spans = [span for name in table if (span := self.reader.places.get((id(table), name)))]
        if place.row is None or not spans:
            raise Fault(self.path, table.line, f"has no {key} that could be changed: write it there first")
        return toml_edits.further(self.before, max(spans), table.origin == "value", key, model.written(value))

    def text(self) -> str:
        """The text with all changes."""
        return toml_edits.edited(self.before, [self.edit(place, value) for place, value in self.changes.items()])

    def description(self) -> model.Description:
        """The description that the text is now."""
        if self.made is None:
            same = not self.changes
            self.made = model.Description(self.path, self.before if same else self.text(), self.tree if same else None)
        return self.made


def plain(value: Any) -> Any:
    """A value as a description has it: lists, and whole numbers of Python, whatever library they are of."""
    if isinstance(value, (list, tuple)):
        return [plain(one) for one in value]
    return operator.index(value) if hasattr(value, "__index__") and not isinstance(value, bool) else value
