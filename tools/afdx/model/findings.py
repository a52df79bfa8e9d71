"""Faults and warnings of a description, and the words of their texts."""
import difflib
import re
from collections.abc import Iterable
from typing import Any, NamedTuple

from afdx.files import toml_lines
from afdx.model.description import Place, place_text, written
from afdx.model.keys import GREATEST_SEED, Key

NAMES = {
    1: "Syntax",
    2: "Missing",
    3: "WrongKind",
    4: "OutOfLimit",
    5: "UnknownName",
    6: "DoubleName",
    7: "NotALink",
    8: "NotATree",
    9: "TooMany",
}
A_ROW = {"node": "a node", "link": "a link", "outage": "an outage", "vl": "a virtual link", "stream": "a stream"}

# Stands for the value of a line that is no TOML. It is not judged.
UNREAD = object()


class Finding(NamedTuple):
    """A fault, or with the number 0 a warning. `who` is the row and what in it, for a reader; `kind` what all warnings of one kind say."""

    number: int
    place: Place | None
    line: int
    who: str
    text: str
    kind: str = ""


def answer(finding: Finding) -> str:
    """What `afdxsim` answers where this is the first fault."""
    place = "" if finding.place is None else " at " + place_text(finding.place)
    return f"{finding.number} {NAMES[finding.number]}{place}"


def limit(number: int) -> str:
    """A limit as the documents write it."""
    if number == GREATEST_SEED:
        return "2^63 - 1"
    digits = str(number)
    return f"10^{len(digits) - 1}" if len(digits) > 9 and digits.strip("0") == "1" else digits


def among(choices: Iterable[int | str]) -> str:
    words = [f'"{it}"' if type(it) is str else str(it) for it in choices]
    return words[0] if len(words) == 1 else ", ".join(words[:-1]) + " or " + words[-1]


def allowed(key: Key) -> str:
    """What a key may have, in words."""
    if key.choices:
        return among(key.choices)
    if key.value_type == "integer":
        least, greatest = map(limit, key.limits())
        return f"a whole number from {least} to {greatest}"
    if key.value_type == "paths":
        return 'a list of paths, each a list of 3 to 32 names, as [["ES1", "SW1", "ES2"]]; or []'
    if key.value_type == "name":
        return "the name of a node, in quotes"
    return f"a text of {key.least} to {key.greatest} letters, digits, _ and -"


def shown(value: Any) -> str:
    """A value as it is written, cut where it is long."""
    if isinstance(value, toml_lines.Table):
        return "{..}" if value else "{}"
    if isinstance(value, toml_lines.Moment):
        return str(value)
    if isinstance(value, list):
        return "[" + ", ".join(map(shown, value[:4])) + (", ..]" if len(value) > 4 else "]")
    text = written(value)
    return text if len(text) <= 44 else text[:40] + '.."'


def type_of(value: object) -> str:
    for value_type, words in (
        (bool, "true or false"),
        (int, "a whole number"),
        (float, "a number with a point"),
        (toml_lines.Moment, "a date or time"),
        (str, "a text"),
        (list, "a list"),
    ):
        if isinstance(value, value_type):
            return words
    return "a table"


def nearest(name: str, names: Iterable[str]) -> str | None:
    """The nearest of some names, or None."""
    plain = lambda text: re.sub("[-_ ]", "", text).lower()
    for other in names:
        if plain(other) == plain(name) and other != name:
            return other
    found = difflib.get_close_matches(name, names, 1, 0.6)
    return found[0] if found else None


def meant(name: str, names: Iterable[str]) -> str:
    found = nearest(name, list(names))
    return f"; {found}?" if found else ""


def is_name(value: object) -> bool:
    return type(value) is str


def is_path(value: object) -> bool:
    return isinstance(value, list) and all(type(name) is str for name in value)
