"""The faults of the rows of a description, each by itself: keys that are missing or unknown, of another type, or beyond a limit."""
import re
from collections.abc import Callable
from typing import Any

from afdx.files import toml_lines
from afdx.files.toml_lines import Table
from afdx.model.description import Description, Place
from afdx.model.findings import A_ROW, UNREAD, Finding, allowed, is_name, is_path, meant, nearest, shown, type_of
from afdx.model.keys import KEYS, SECTIONS, Key


class RowJudge:
    """The faults of rows, in no order. What cannot be judged, since a value is absent or of another type, is not judged: it is a
    fault already."""

    def __init__(self, description: Description) -> None:
        self.description, self.tree = description, description.tree
        self.findings: list[Finding] = []
        self.sizes: dict[str, int] = {}
        self.tables = {section: self.tables_of(section) for section in SECTIONS}
        for key in KEYS["top"]:
            self.key_of_row("top", None, self.tree, key)
        for section in SECTIONS:
            for i, row in self.tables[section]:
                for key in KEYS[section]:
                    if key.needed != "switches" or row.get("kind") == "switch":
                        self.key_of_row(section, i, row, key)
        self.unknown_keys()

    def add(self, number: int, section: str, row: int | None, key: str | None, text: str, line: int | None = None, detail: str = "") -> None:
        place = Place(section, row, key)
        line = line or self.description.line(section, row, key)
        self.findings.append(Finding(number, place, line, self.who(section, row, key) + detail, text))

    def who(self, section: str, row: int | None, key: str | None) -> str:
        """Which row it is, and which key, in the words of a reader."""
        if section == "top":
            return key or "the description"
        if not row:
            return section
        rows = self.tree[section]
        table = rows[row - 1] if isinstance(rows, list) and row <= len(rows) else {}
        get: Callable[[str], Any] = lambda key: table.get(key) if isinstance(table, dict) else None
        if section == "node":
            kind = {"es": "end system ", "switch": "switch "}.get(get("kind") if is_name(get("kind")) else "", "node ")
            named = kind + get("name") if is_name(get("name")) else ""
        elif section in ("vl", "stream"):
            key_of_number = "id" if section == "vl" else "vl"
            of = "" if section == "vl" else "stream of "
            named = f"{of}virtual link {get(key_of_number)}" if type(get(key_of_number)) is int else ""
        else:
            ends = [get(end) for end in (("a", "b") if section == "link" else ("from", "to"))]
            mark = "-" if section == "link" else ">"
            named = f"{section} {mark.join(ends)}" if all(map(is_name, ends)) else ""
        found = f"{named} ({section} row {row})" if named else f"{section} row {row}"
        return f"{found}, {key}" if key else found

    def tables_of(self, section: str) -> list[tuple[int, Table]]:
        """The rows of a section that are tables, each with its number."""
        rows = self.tree.get(section, [])
        self.sizes[section] = len(rows) if isinstance(rows, list) else 0
        if not isinstance(rows, list):
            is_table = isinstance(rows, toml_lines.Table)
            how = f"it is written [[{section}]], with two brackets" if is_table else f"each row is written [[{section}]]"
            self.add(3, section, 0, None, f"this section is {type_of(rows)}, and must be a list of tables: {how}")
            return []
        found = []
        for i, row in enumerate(rows, 1):
            if isinstance(row, toml_lines.Table):
                found.append((i, row))
            elif row is not UNREAD:
                self.add(3, section, i, None, f"the row is {type_of(row)}, {shown(row)}, and must be a table")
        return found

    def key_of_row(self, section: str, i: int | None, row: Table, key: Key) -> None:
        if key.name not in row:
            if key.is_needed(row):
                near = nearest(key.name, [name for name in row if name not in {it.name for it in KEYS[section]}])
                hint = f". Is {near} meant, in line {self.description.line(section, i, near)}?" if near else ""
                self.add(2, section, i, key.name, f"is missing: {allowed(key)}{hint}")
            return
        value = row[key.name]
        if value is UNREAD:
            return
        if not self.has_type(key, value):
            wanted = self.wanted(key, value)
            self.add(3, section, i, key.name, f"is {type_of(value)}, {shown(value)}, and must be {wanted}")
            return
        self.limits(section, i, row, key, value)

    @staticmethod
    def has_type(key: Key, value: object) -> bool:
        if key.value_type == "paths":
            return isinstance(value, list) and all(map(is_path, value))
        return type(value) is key.python_type()

    @staticmethod
    def wanted(key: Key, value: Any) -> str:
        if key.value_type == "integer":
            is_text = type(value) is str and re.fullmatch("[0-9_]+", value)
            hint = ", without quotes" if is_text else ", without a point" if type(value) is float else ""
            return allowed(key) + hint
        if key.value_type == "paths":
            return allowed(key) + (": a pair of brackets more" if is_path(value) and value else "")
        return allowed(key) if not key.choices else f"{allowed(key)}, in quotes"

    def limits(self, section: str, i: int | None, row: Table, key: Key, value: Any) -> None:
        if key.value_type == "paths":
            least, greatest = key.limits()
            for number, path in enumerate(value, 1):
                if not least <= len(path) <= greatest:
                    text = f"it has {len(path)} names, and must have {least} to {greatest}: "
                    text += "the source, each switch on the way, and the destination"
                    self.at_path(4, i, key.name, number, text)
        elif key.choices and value not in key.choices:
            near = self.near_choice(key, value)
            self.add(4, section, i, key.name, f"is {shown(value)}, and must be {allowed(key)}{near}")
        elif key.value_type == "integer" and not key.choices:
            least, greatest = key.limits()
            if not least <= value <= greatest:
                self.add(4, section, i, key.name, f"is {value}, and must be {allowed(key)}")
            elif key.name == "to_ns" and type(row.get("from_ns")) is int and 0 <= value <= row["from_ns"]:
                text = f"is {value}, and must be later than from_ns, which is {row['from_ns']}"
                self.add(4, section, i, key.name, text)
        elif key.name == "name" and not re.fullmatch("[A-Za-z0-9_-]{1,32}", value):
            odd = re.search("[^A-Za-z0-9_-]", value)
            why = f"it has {odd[0]!r}" if odd else f"it has {len(value)}"
            self.add(4, section, i, key.name, f"is {shown(value)}, and must be {allowed(key)}: {why}")

    @staticmethod
    def near_choice(key: Key, value: Any) -> str:
        if type(value) is str:
            return meant(value, map(str, key.choices or ()))
        if key.name != "bag_ms":
            return ""
        below = [it for it in key.choices or () if it < value]
        return f". The next below {value} is {below[-1]}" if below else ""

    def at_path(self, number: int, i: int | None, key: str, path: int, text: str) -> None:
        """Adds a fault of one path, from 1, of a virtual link."""
        self.add(number, "vl", i, key, text, self.description.line("vl", i, key, path), f", path {path}")

    def unknown_keys(self) -> None:
        for name in self.tree:
            if name not in [key.name for key in KEYS["top"]] + SECTIONS:
                known = [key.name for key in KEYS["top"]] + SECTIONS
                self.unknown_key("top", None, name, f"is no key of a description{meant(name, known)}")
        for section in SECTIONS:
            for i, row in self.tables[section]:
                for name in row:
                    self.maybe_unknown_key(section, i, row, name)

    def maybe_unknown_key(self, section: str, i: int, row: Table, name: str) -> None:
        keys = {key.name: key for key in KEYS[section]}
        if name not in keys:
            known = [it for it in keys if it not in row]
            self.unknown_key(section, i, name, f"is no key of {A_ROW[section]}{meant(name, known)}")
        elif keys[name].needed == "switches" and row.get("kind") not in ("switch", UNREAD):
            if row.get("kind") == "es":
                self.unknown_key(section, i, name, "is a key of switches: an end system has none")
            elif "kind" in row:
                self.unknown_key(section, i, name, 'is a key of switches, whose kind is "switch"')
            else:
                self.unknown_key(section, i, name, "is a key of switches, and this row has no kind")

    def unknown_key(self, section: str, i: int | None, name: str, text: str) -> None:
        line = self.description.line(section, i, name)
        self.add(5, section, i, None, text, line, f", {name}" if section != "top" else f": {name}")
