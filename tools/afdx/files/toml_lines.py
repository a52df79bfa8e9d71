"""A reader of TOML 1.1 that gives the line of each key, of each table and of each item of a list.

Python's own reader (tomllib) reads TOML 1.0 and gives no lines. This one takes just the texts that `afdxsim` takes: an
integer has 64 signed bits, a float is finite, arrays and inline tables are at most 80 deep in one another, and so are
the parts of a key.

    table = toml_lines.read(text)      # a dict; BadToml where the text is no TOML, with the line and what is wrong
    table.lines["until_ns"]            # the line of the key, from 1
    table["vl"].lines[0]               # the line of the first item of a list
    table["vl"][0].line                # the line in which a table begins

It reads some 3 MB of a description a second.
"""
import collections.abc
import re
import sys
from array import array
from collections.abc import Iterable, Iterator
from typing import Any, NoReturn

DEEPEST = 80

BLANK: Any = re.compile(r"(?:[ \t\n]|\r\n|#[^\x00-\x08\x0a-\x1f\x7f]*)*")
SPACE: Any = re.compile(r"[ \t]*")
LINE_BREAKS: Any = re.compile(r"(?:[ \t\n]|\r\n)*")
BARE: Any = re.compile(r"[A-Za-z0-9_-]+")
WORD: Any = re.compile(r"[A-Za-z0-9_+.:-]*(?: [0-9][A-Za-z0-9_+.:-]*)?")
PLAIN: dict[tuple[str, bool], Any] = {
    ('"', False): re.compile(r'[^"\\\x00-\x08\x0a-\x1f\x7f]*'),
    ("'", False): re.compile(r"[^'\x00-\x08\x0a-\x1f\x7f]*"),
    ('"', True): re.compile(r'(?:[^"\\\x00-\x08\x0b-\x1f\x7f]|\r\n)*'),
    ("'", True): re.compile(r"(?:[^'\x00-\x08\x0b-\x1f\x7f]|\r\n)*"),
}
ESCAPES = {"b": "\b", "e": "\x1b", "f": "\f", "n": "\n", "r": "\r", "t": "\t", '"': '"', "\\": "\\"}
HEX_ESCAPES: dict[str, Any] = {sign: re.compile("[0-9A-Fa-f]{%d}" % count) for sign, count in (("x", 2), ("u", 4), ("U", 8))}
RADIXES = {"0x": (16, "[0-9A-Fa-f]+"), "0o": (8, "[0-7]+"), "0b": (2, "[01]+")}
DECIMAL: Any = re.compile(r"([+-]?)(0|[1-9][0-9]*)(\.[0-9]+)?([eE][+-]?[0-9]+)?")
MOMENT: Any = re.compile(
    r"(?:(\d{2})(\d{2})-(\d{2})-(\d{2}))?(?:(?P<delim>[Tt ])?(\d{2}):(\d{2})(?::(\d{2})(?:\.\d+)?)?"
    r"(?P<offset>[Zz]|[+-](\d{2}):(\d{2}))?)?",
    re.ASCII,
)
# What most lines and most lists are, so that they are read at one go: a key with a text or a number, and a list of texts.
_TEXT = r'"[^"\\\x00-\x08\x0a-\x1f\x7f]*"'
PLAIN_LINE: Any = re.compile(rf"([A-Za-z0-9_-]+)[ \t]*=[ \t]*(?:({_TEXT})|(0|[1-9][0-9]{{0,17}}))[ \t]*(?=[\n#]|\Z)")
PLAIN_LIST: Any = re.compile(rf"\[[ \t]*{_TEXT}(?:[ \t]*,[ \t]*{_TEXT})*[ \t]*\]")
PLAIN_TEXTS = re.compile('"([^"]*)"')
DAYS = [31, 28, 31, 30, 31, 30, 31, 31, 30, 31, 30, 31]


class BadToml(Exception):
    """Why a text is no TOML, and the line, from 1."""

    def __init__(self, line: int, text: str) -> None:
        super().__init__(text)
        self.line = line


class Table(dict):
    """A table, and the lines of its keys. What may be added depends on what made it: a header, a dotted key or a value. The lines are
    numbers in the order of the keys, of which none is ever taken out: a network of 65,536 virtual links has a million of them."""

    __slots__ = ("line", "origin", "numbers")

    def __init__(self, line: int, origin: str) -> None:
        super().__init__()
        self.line, self.origin, self.numbers = line, origin, array("I")

    @property
    def lines(self) -> Any:
        return Lines(self)

    def put(self, key: str, value: Any, line: int) -> None:
        """Adds a key with its value and its line."""
        self[key] = value
        self.numbers.append(line)


class Lines(collections.abc.Mapping):
    """The line of each key of a table."""

    __slots__ = ("table",)

    def __init__(self, table: Table) -> None:
        self.table = table

    def __getitem__(self, key: str) -> int:
        for name, number in zip(self.table, self.table.numbers):
            if name == key:
                return number
        raise KeyError(key)

    def __iter__(self) -> Iterator[str]:
        return (name for name, _ in zip(self.table, self.table.numbers))

    def __len__(self) -> int:
        return len(self.table.numbers)


class Array(list):
    """A list, and the lines of its items. Headers in double brackets add to an open one. `own` has the lines, or is None where
    all are that in which the list begins."""

    __slots__ = ("line", "is_open", "own")

    def __init__(self, line: int, is_open: bool = False) -> None:
        super().__init__()
        self.line, self.is_open = line, is_open
        self.own: array[int] | None = None

    @property
    def lines(self) -> Any:
        return [self.line] * len(self) if self.own is None else list(self.own)

    def line_of(self, place: int) -> int:
        """The line of an item, counted from 0."""
        return self.line if self.own is None else self.own[place]

    def put(self, value: Any, line: int) -> None:
        """Adds an item with its line."""
        if self.own is None and line != self.line:
            self.own = array("I", [self.line]) * len(self)
        self.append(value)
        if self.own is not None:
            self.own.append(line)


class Moment(str):
    """A date, a time, or both, as it is written."""


def is_moment(text: str) -> bool:
    """Whether a text is one of the four date-times of TOML 1.1, with each part in its range."""
    found = MOMENT.fullmatch(text)
    if not found:
        return False
    century, year, month, day, delim, hour, minute, second, offset, hours, minutes = found.groups()
    if month is None:
        if hour is None or delim or offset:
            return False
    else:
        if (hour is None) != (delim is None):
            return False
        year, month, day = int(century + year), int(month), int(day)
        leap = month == 2 and year % 4 == 0 and (year % 100 != 0 or year % 400 == 0)
        if not (1 <= month <= 12 and 1 <= day <= DAYS[month - 1] + leap):
            return False
    in_range = hour is None or int(hour) < 24 and int(minute) < 60 and int(second or 0) <= 60
    return in_range and (hours is None or int(hours) < 24 and int(minutes) < 60)


class Reader:
    """Reads a text. Of the keys that are named it notes where in the text their values stand, by the identity of the table
    and the name of the key: from where and up to where."""

    def __init__(self, text: str, keys: Iterable[str] = ()) -> None:
        self.text, self.keys = text, keys
        self.places: dict[tuple[int, str], tuple[int, int]] = {}
        # Each name and number is kept once.
        self.known: dict[Any, Any] = {}
        self.counted, self.line = 0, 1

    def line_at(self, place: int) -> int:
        """The line of a place in the text."""
        if place < self.counted:
            self.counted, self.line = 0, 1
        self.line += self.text.count("\n", self.counted, place)
        self.counted = place
        return self.line

    def refuse(self, place: int, text: str) -> NoReturn:
        raise BadToml(self.line_at(min(place, len(self.text))), text)

    def shown(self, place: int) -> str:
        """What stands at a place, for a message."""
        rest = self.text[place : place + 40].split("\n")[0]
        return repr(rest[:24] + (".." if len(rest) > 24 else "")) if rest else "the end of the line"

    # ---- the document ----

    def document(self) -> Table:
        root = here = Table(1, "header")
        place = 1 if self.text.startswith("\ufeff") else 0
        while True:
            place = BLANK.match(self.text, place).end()
            if place == len(self.text):
                return root
            plain = PLAIN_LINE.match(self.text, place)
            if plain and plain[1] not in here:
                value = plain[2][1:-1] if plain[2] else int(plain[3])
                here.put(sys.intern(plain[1]), self.known.setdefault(value, value), self.line_at(place))
                if plain[1] in self.keys:
                    self.places[id(here), plain[1]] = plain.span(2 if plain[2] else 3)
                place = plain.end()
                continue
            begin = place
            if self.text[place] == "[":
                here, place = self.header(root, place)
            else:
                place = self.key_value(here, place, 0)
            place = SPACE.match(self.text, place).end()
            if place < len(self.text) and self.text[place] not in "#\n\r":
                if self.text[begin] == "[":
                    self.refuse(place, f"there is {self.shown(place)} after a header")
                self.refuse(place, f"there is {self.shown(place)} after a value, in the same line")

    def header(self, root: Table, begin: int) -> tuple[Table, int]:
        double = self.text.startswith("[[", begin)
        parts, place = self.key(SPACE.match(self.text, begin + 1 + double).end())
        end = "]]" if double else "]"
        if not self.text.startswith(end, place):
            self.refuse(place, f"the header does not end with {end}, but there is {self.shown(place)}")
        line, table = self.line_at(begin), root
        for part in parts[:-1]:
            table = self.through(table, part, line, begin)
        return self.opened(table, parts[-1], line, double, begin), place + len(end)

    def through(self, table: Table, part: str, line: int, begin: int) -> Table:
        """The table that a header passes through."""
        if part not in table:
            table.put(part, Table(line, "implicit"), line)
        found = table[part]
        if type(found) is Array and found.is_open:
            return found[-1]
        if type(found) is not Table or found.origin == "value":
            self.refuse(begin, f"the header goes through {part!r}, which line {table.lines[part]} makes a value")
        return found

    def opened(self, table: Table, name: str, line: int, double: bool, begin: int) -> Table:
        """The table of a header."""
        found = table.get(name)
        if double:
            if found is None:
                found = Array(line, True)
                table.put(name, found, line)
            elif type(found) is not Array or not found.is_open:
                self.refuse(begin, f"[[{name}]] adds to what line {table.lines[name]} makes no list of tables")
            found.put(Table(line, "header"), line)
            return found[-1]
        if found is None:
            found = Table(line, "header")
            table.put(name, found, line)
        elif type(found) is Table and found.origin == "implicit":
            found.origin, found.line = "header", line
        else:
            self.refuse(begin, f"[{name}] is there already, in line {table.lines[name]}")
        return found

    def key_value(self, table: Table, begin: int, depth: int) -> int:
        """Reads a key and its value into a table, and answers the place behind."""
        parts, place = self.key(begin)
        if not self.text.startswith("=", place):
            self.refuse(place, f"there is {self.shown(place)} after the key {'.'.join(parts)!r}, and not =")
        line = self.line_at(begin)
        value_begin = SPACE.match(self.text, place + 1).end()
        value, place = self.value(value_begin, depth)
        for part in parts[:-1]:
            if part not in table:
                table.put(part, Table(line, "dotted"), line)
            found = table[part]
            if type(found) is not Table or found.origin not in ("implicit", "dotted"):
                self.refuse(begin, f"a dotted key goes through {part!r}, which line {table.lines[part]} has whole")
            found.origin = "dotted"
            table = found
        if parts[-1] in table:
            self.refuse(begin, f"the key {parts[-1]!r} is there already, in line {table.lines[parts[-1]]}")
        table.put(sys.intern(parts[-1]), value, line)
        if parts[-1] in self.keys:
            self.places[id(table), parts[-1]] = value_begin, place
        return place

    def key(self, begin: int) -> tuple[list[str], int]:
        """The parts of a key, and the place behind it and behind the spaces after it."""
        parts, place = [], begin
        for _ in range(DEEPEST):
            bare = BARE.match(self.text, place)
            if bare:
                parts.append(bare[0])
                place = bare.end()
            elif self.text.startswith(('"', "'"), place):
                part, place = self.string(place, place + 1, self.text[place], False)
                parts.append(part)
            else:
                self.refuse(place, f"there is {self.shown(place)} where a key is wanted")
            place = SPACE.match(self.text, place).end()
            if not self.text.startswith(".", place):
                return parts, place
            place = SPACE.match(self.text, place + 1).end()
        self.refuse(begin, f"the key has more than {DEEPEST} parts")

    # ---- values ----

    def value(self, place: int, depth: int) -> tuple[Any, int]:
        first = self.text[place : place + 1]
        if first in ("[", "{") and first and depth == DEEPEST:
            self.refuse(place, f"lists and tables are more than {DEEPEST} deep in one another")
        if first == "[":
            return self.array(place, depth + 1)
        if first == "{":
            return self.inline_table(place, depth + 1)
        if first in ('"', "'") and first:
            if self.text.startswith(first * 3, place):
                begin = place + 3
                begin += 1 if self.text.startswith("\n", begin) else 2 if self.text.startswith("\r\n", begin) else 0
                return self.string(place, begin, first, True)
            return self.string(place, place + 1, first, False)
        word = WORD.match(self.text, place)
        # A blank goes on only behind a word.
        found = "" if word[0].startswith(" ") else word[0]
        if not found:
            self.refuse(place, f"there is {self.shown(place)} where a value is wanted")
        return self.scalar(found, place), place + len(found)

    def array(self, begin: int, depth: int) -> tuple[Array, int]:
        found, place = Array(self.line_at(begin)), begin + 1
        plain = PLAIN_LIST.match(self.text, begin)
        if plain:
            known = self.known
            found += [known.setdefault(text, text) for text in PLAIN_TEXTS.findall(plain[0])]
            return found, plain.end()
        while True:
            place = BLANK.match(self.text, place).end()
            if self.text.startswith("]", place):
                return found, place + 1
            if place == len(self.text):
                self.refuse(begin, "the list that begins here has no end")
            line = self.line_at(place)
            value, place = self.value(place, depth)
            found.put(value, line)
            place = self.after_element(place, "]", begin, "the list that begins")

    def inline_table(self, begin: int, depth: int) -> tuple[Table, int]:
        found, place = Table(self.line_at(begin), "value"), begin + 1
        while True:
            place = BLANK.match(self.text, place).end()
            if self.text.startswith("}", place):
                close(found)
                return found, place + 1
            if place == len(self.text):
                self.refuse(begin, "the table that begins here has no end")
            place = self.key_value(found, place, depth)
            place = self.after_element(place, "}", begin, "the table that begins")

    def after_element(self, place: int, end: str, begin: int, what: str) -> int:
        """Behind the comma after an element, or before the closing bracket."""
        place = BLANK.match(self.text, place).end()
        if self.text.startswith(",", place):
            return place + 1
        if place == len(self.text):
            self.refuse(begin, f"{what} here has no end")
        if not self.text.startswith(end, place):
            line = self.line_at(begin)
            wanted = f"where a comma or {end} is wanted, in {what} in line {line}"
            self.refuse(place, f"there is {self.shown(place)} {wanted}")
        return place

    def string(self, begin: int, place: int, delim: str, multi: bool) -> tuple[str, int]:
        """A text of one line or of several, and the place behind it. Its body begins at the place."""
        pieces, plain = [], PLAIN[delim, multi]
        while True:
            found = plain.match(self.text, place)
            pieces.append(found[0])
            place = found.end()
            here = self.text[place : place + 1]
            if here == delim:
                if not multi:
                    return "".join(pieces), place + 1
                count = 0
                while self.text.startswith(delim, place + count):
                    count += 1
                if count == 3:
                    return "".join(pieces), place + 3
                if count > 5:
                    self.refuse(place, f"there are {count} {delim} in a row in a text of several lines")
                pieces.append(delim)
                place += 1
            elif here == "\\":
                piece, place = self.escape(place + 1, multi)
                pieces.append(piece)
            elif here in ("", "\n", "\r"):
                self.refuse(begin, f"the text that begins here has no {delim} at its end: {self.shown(begin)}")
            else:
                self.refuse(place, f"a text has the character {here!r}, which must be written \\u{ord(here):04X}")

    def escape(self, place: int, multi: bool) -> tuple[str, int]:
        if multi:
            behind = SPACE.match(self.text, place).end()
            if self.text.startswith(("\n", "\r\n"), behind):
                return "", LINE_BREAKS.match(self.text, behind).end()
        sign = self.text[place : place + 1]
        if sign in ESCAPES and sign:
            return ESCAPES[sign], place + 1
        digits = HEX_ESCAPES[sign].match(self.text, place + 1) if sign in HEX_ESCAPES and sign else None
        code = int(digits[0], 16) if digits else -1
        if digits and code <= 0x10FFFF and not 0xD800 <= code < 0xE000:
            return chr(code), digits.end()
        self.refuse(place, f"\\{sign} is no escape in a text; a backslash is written \\\\")

    def scalar(self, word: str, place: int) -> Any:
        """The value of a word without quotes."""
        if word in ("true", "false"):
            return word == "true"
        if re.match("[0-9]+[-:]", word):
            if not is_moment(word):
                self.refuse(place, f"{word} is no number and no date or time")
            return Moment(word)
        radix, digits = RADIXES.get(word[:2], (10, None))
        is_digit = "[0-9A-Fa-f]" if radix == 16 else "[0-9]"
        if re.search(f"(?<!{is_digit})_|_(?!{is_digit})", word):
            if word[0] in "0123456789+-":
                self.refuse(place, f"{word} has a _ that does not stand between two digits")
            self.refuse(place, f"{word} is a text without quotes; it is written \"{word}\"")
        plain = word.replace("_", "")
        if digits:
            if not re.fullmatch(digits, plain[2:]):
                self.refuse(place, f"{word} is no number")
            return self.integer(plain[2:], radix, word, place)
        if plain in ("inf", "+inf", "-inf", "nan", "+nan", "-nan"):
            return float(plain)
        found = DECIMAL.fullmatch(plain)
        if not found:
            if word[0] in "0123456789+-.":
                self.refuse(place, f"{word} is no number" + self.number_hint(plain))
            self.refuse(place, f"{word} is a text without quotes; it is written \"{word}\"")
        if found[3] is None and found[4] is None:
            return self.integer(plain, 10, word, place)
        value = float(plain)
        if value in (float("inf"), float("-inf")):
            self.refuse(place, f"{word} is greater than any number that can be kept")
        return value

    @staticmethod
    def number_hint(plain: str) -> str:
        if re.fullmatch("[+-]?0[0-9]+", plain):
            return ": it has a zero in front"
        if re.fullmatch("[0-9]+( [0-9]+)+", plain):
            return f": digits are set apart by _, as in {plain.replace(' ', '_')}"
        return ""

    def integer(self, plain: str, radix: int, word: str, place: int) -> int:
        value = int(plain, radix) if len(plain.lstrip("0+-")) <= 64 else 2**64
        if not -(2**63) <= value < 2**63:
            shown = word if len(word) <= 64 else f"{word[:30]}.. of {len(word):,} characters"
            self.refuse(place, f"{shown} does not fit 64 signed bits: it must be from -2^63 to 2^63 - 1")
        return value


def close(table: Table) -> None:
    """Makes the tables that dotted keys made in an inline table values: nothing is added to them."""
    for value in table.values():
        if type(value) is Table and value.origin == "dotted":
            value.origin = "value"
            close(value)


def read(text: str) -> Table:
    """The table that a text is. BadToml where it is none."""
    return Reader(text).document()
