"""A description: its text, what the text says, and the line of each key; and descriptions written anew."""
import hashlib
import json
import re
from collections.abc import Iterable
from typing import Any, NamedTuple

from afdx.files import Fault, text_of, toml_lines
from afdx.model.keys import SECTIONS


class Place(NamedTuple):
    """A place of a description: a section, a row of it from 1, and a key, where there are such."""

    section: str
    row: int | None
    key: str | None


def place_of(text: str) -> Place:
    """A place as the program names it: a section and a row from 1 and a key, where there are such."""
    found: Any = re.fullmatch(r"(\w+)(?: (\d+))?(?: (\w+))?", text)
    section, row, key = found.groups()
    return Place(section, int(row) if row else None, key)


def place_text(place: Iterable[object]) -> str:
    return " ".join(str(part) for part in place if part is not None and part != "")


class Description:
    """The text of a description, what it says, and where: `tree` is the table that the text is. What was read already
    may be given."""

    def __init__(self, path: str, text: str | None = None, tree: toml_lines.Table | None = None) -> None:
        self.path = path
        self.text = text_of(path) if text is None else text
        try:
            self.tree = toml_lines.read(self.text) if tree is None else tree
        except toml_lines.BadToml as fault:
            raise Fault(path, fault.line, f"is no TOML: {fault}") from None

    def rows(self, section: str) -> Any:
        """The rows of a section that is a list."""
        return self.tree.get(section, toml_lines.Array(1))

    def line(self, section: str, row: int | None = None, key: str | None = None, item: int | None = None) -> int:
        """The line of a key, of a row or of a section, or of an item, from 1, of the list that a key is. Of what is not
        there it is that of what it would stand in."""
        if section == "top":
            return self.tree.lines.get(key, 1)
        lines: Any = self.tree.lines
        found: Any = self.tree
        if section not in found:
            return 1
        line, found = lines[section], found[section]
        if type(found) is not toml_lines.Array or not row or row > len(found):
            return line
        line, found = found.line_of(row - 1), found[row - 1]
        if type(found) is not toml_lines.Table or key not in found:
            return line
        return found[key].line_of(item - 1) if item else found.lines[key]

    def fault(self, section: str, row: int | None, key: str | None, text: str) -> Fault:
        """A fault that names the place as the program does."""
        return Fault(self.path, self.line(section, row, key), f"{place_text((section, row, key))} {text}")


def checksum(text: str) -> str:
    """The checksum of a description: the first digits of its SHA-256."""
    return hashlib.sha256(text.encode("utf-8")).hexdigest()[:16]


def written(value: object) -> str:
    """A value in TOML. Those of an accepted description are whole numbers, texts, and lists of them."""
    if isinstance(value, list):
        return "[" + ", ".join(map(written, value)) + "]"
    return json.dumps(value, ensure_ascii=False)


def text_of_tree(tree: dict[str, Any]) -> str:
    """A description written anew, with a row's keys one a line. Comments are lost."""
    lines = [f"{key} = {written(value)}" for key, value in tree.items() if key not in SECTIONS]
    for section in SECTIONS:
        for row in tree.get(section, []):
            lines.append(f"[[{section}]]")
            lines += (f"{key} = {written(value)}" for key, value in row.items())
    return "\n".join(lines) + "\n"


def line_of_refusal(text: str, said: str) -> int | None:
    """The line of a description at which the program refuses it, by the line that it says; None where it names none."""
    try:
        description = Description("", text)
    except Fault as fault:
        return fault.line
    place = re.search(r" at (\w+(?: \d+)?(?: \w+)?)$", said)
    return description.line(*place_of(place[1])) if place else None
