"""What stands in a cell: numbers with their units, words that say that nothing is there, networks, marks, and words of choices."""
import functools
import re
from typing import NamedTuple

# No number of a table has more digits than this.
MOST_DIGITS = 30
NUMBER = re.compile(r"([0-9][0-9_]*|[0-9]{1,3}(?:[ \u00a0\u202f][0-9]{3})+)(?:([.,])([0-9_]+))?\s*([^0-9\s].*)?", re.DOTALL)
# What may stand before the number of a virtual link.
NUMBER_OF_VL = re.compile(r"(?:vl|virtual link)?[ _#-]*([0-9]+)", re.IGNORECASE)
NUMBER_IN_HEX = re.compile(r"(?:vl[ _-]*)?0x([0-9a-f]+)", re.IGNORECASE)
# A cell that says that nothing is there, and one that says that it is not decided yet.
NOTHING = {"-", "--", "---", "—", "–", "n/a", "na", "n.a.", "n.a", "n/u", "not applicable", "not used", "nil", "none"}
NOT_YET = {"tbd", "tbc", "tba", "t.b.d.", "t.b.c.", "t.b.d", "to be defined", "to be determined", "to be confirmed", "?", "??", "???"}
MARKS = {"x", "✓", "✔", "●", "•", "y", "yes", "1", "true", "r", "rx", "o", "d", "dst", "dest"}
NO_MARKS = {"", "n", "no", "0", "false", "-", "–", "—", "n/a"}
SENDS = {"t", "tx", "s", "src", "source", "transmit"}

WORDS: dict[str, dict[str, str]] = {
    "kind": {
        **dict.fromkeys(("es", "e/s", "end system", "end_system", "end-system", "endsystem", "afdx end system", "afdx es"), "es"),
        **dict.fromkeys(("switch", "sw", "afdx switch", "network switch"), "switch"),
    },
    "priority": {
        **dict.fromkeys(("high", "h", "hp", "hi", "high priority"), "high"),
        **dict.fromkeys(("low", "l", "lp", "lo", "low priority"), "low"),
    },
    "policing": {
        **dict.fromkeys(("bytes", "byte", "byte based", "byte-based", "byte_based"), "bytes"),
        **dict.fromkeys(("frames", "frame", "frame based", "frame-based", "frame_based"), "frames"),
    },
    "timing": {
        **dict.fromkeys(("periodic", "sampling", "cyclic"), "periodic"),
        **dict.fromkeys(("queuing", "queueing"), "queuing"),
        **dict.fromkeys(("sporadic", "event", "event driven", "event-driven", "aperiodic", "on event"), "sporadic"),
    },
    "direction": {
        **dict.fromkeys(("tx", "t", "transmit", "transmitted", "transmission", "send", "sends", "sent", "out", "output", "outgoing", "source", "emission"), "tx"),
        **dict.fromkeys(("rx", "r", "receive", "received", "reception", "receives", "in", "input", "incoming", "destination"), "rx"),
    },
}
BOTH = {"both", "dual", "redundant", "a&b", "ab", "a+b", "yes", "y", "true", "x"}


class Number(NamedTuple):
    """A number as a cell has it: its digits with a point, the mark that stood in place of it or nothing, and what is behind it."""

    plain: str
    mark: str
    unit: str


def is_nothing(text: str) -> bool:
    return text.lower() in NOTHING


def is_not_yet(text: str) -> bool:
    return text.lower() in NOT_YET


def number_of(text: str) -> Number | None:
    """The number of a cell, or None where it is none."""
    if text.isascii() and text.isdigit():
        return Number(text, "", "")
    found = NUMBER.fullmatch(text.strip())
    if not found:
        return None
    whole, mark, rest, unit = found.groups()
    plain = re.sub(r"[_\s]", "", whole) + (f".{rest.replace('_', '')}" if rest else "")
    return Number(plain, mark or "", (unit or "").strip().strip("()[]"))


def may_be_thousands(text: str) -> bool:
    """Whether the comma of a number may stand between thousands: `1,518`."""
    return re.fullmatch(r"[1-9][0-9]{0,2}(,[0-9]{3})+(\s*[^0-9].*)?", text.strip()) is not None


def number_of_vl(text: str, in_hex: bool) -> str | None:
    """The number of a virtual link as digits: `101`, `VL 101`, `0x65`."""
    found = NUMBER_IN_HEX.fullmatch(text.strip())
    if found or in_hex and (found := re.fullmatch("([0-9a-fA-F]+)", text.strip())):
        return str(int(found[1], 16))
    found = NUMBER_OF_VL.fullmatch(text.strip())
    return found[1] if found and len(found[1]) <= MOST_DIGITS else None


@functools.cache
def nets_of(text: str) -> str | None:
    """The networks that a cell names, as `A`, `B` or `AB`, or None."""
    plain = re.sub(r"\b(afdx|networks?|nets?|channels?|sides?|planes?)\b|_", " ", text.lower())
    plain = re.sub(r"\s+|[()]", " ", plain).strip()
    if plain.replace(" ", "") in BOTH:
        return "AB"
    names = [it for it in re.split(r"[\s/,;&+]+|\band\b", plain) if it]
    return "".join(sorted(set(names))).upper() if names and set(names) <= {"a", "b"} else None


def is_mark(text: str) -> bool:
    return text.lower() in MARKS


def is_sender(text: str) -> bool:
    return text.lower() in SENDS


def word_of(column: str, text: str) -> str | None:
    """The value of a choice that a cell means, or None."""
    return WORDS[column].get(" ".join(text.lower().split()))


def letters(column: int) -> str:
    """The letters of a column of a sheet, from 0 on: A, B, .., AA."""
    found = ""
    column += 1
    while column:
        column, rest = divmod(column - 1, 26)
        found = chr(ord("A") + rest) + found
    return found
