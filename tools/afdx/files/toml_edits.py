"""Values put into a text of TOML: all else in it stays, comments and layout too.

    reader = toml_lines.Reader(text, ("bag_ms",))
    tree = reader.document()
    place = reader.places[id(tree["vl"][0]), "bag_ms"]
    text = toml_edits.edited(text, [toml_edits.value(text, place, "8")])

An edit is a part of the text, from a place up to another one, and what comes there.
"""
import re
from collections.abc import Iterable
from typing import NamedTuple

# Where a value stands: from this place up to the second one.
Span = tuple[int, int]


class Edit(NamedTuple):
    """A part of a text, from `begin` up to `end`, and what comes there."""

    begin: int
    end: int
    new: str


def number(text: str, place: Span, value: int) -> str:
    """A whole number as that at the place is written, with _ between the digits or without."""
    return f"{value:_}" if "_" in text[slice(*place)] else str(value)


def value(text: str, place: Span, new: str) -> Edit:
    """Puts a value into the place of another one. A comment behind it stays in its column, as far as there is room."""
    begin, end = place
    line_end = text.find("\n", end)
    rest = text[end:] if line_end < 0 else text[end:line_end]
    blanks = len(rest) - len(rest.lstrip(" ")) if rest.lstrip(" ").startswith("#") else 0
    return Edit(begin, end + blanks, new + " " * max(1, blanks + end - begin - len(new)) if blanks else new)


def further(text: str, behind: Span, is_inline: bool, key: str, new: str) -> Edit:
    """Adds a key with its value to a table, behind the value at a place: in the same line if the table is written between
    braces, else in a line of its own."""
    _, end = behind
    if is_inline:
        return Edit(end, end, f", {key} = {new}")
    line_end = text.find("\n", end)
    if line_end < 0:
        return Edit(len(text), len(text), f"\n{key} = {new}")
    feed = "\r\n" if text[line_end - 1] == "\r" else "\n"
    return Edit(line_end + 1, line_end + 1, indent(text, end) + f"{key} = {new}{feed}")


def indent(text: str, place: int) -> str:
    """The blanks at the begin of the line of a place."""
    found = re.compile("[ \t]*").match(text, text.rfind("\n", 0, place) + 1)
    return found[0] if found else ""


def edited(text: str, edits: Iterable[Edit]) -> str:
    """The text with all edits. Edits at one place come in their order."""
    pieces: list[str] = []
    last = 0
    for it in sorted(edits, key=lambda it: (it.begin, it.end)):
        pieces += [text[last : it.begin], it.new]
        last = max(last, it.end)
    return "".join([*pieces, text[last:]])
