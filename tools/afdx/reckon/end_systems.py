"""The latency of end systems, which a limit counts and the model does not have: from the application to the port (tx_latency) and
from the port to the application (rx_latency). ARINC 664 Part 7 allows each up to 150 us."""
import re
from collections.abc import Callable, Iterable
from typing import NamedTuple

# What a page says of limits that state neither.
NOT_STATED = "without the latency of end systems (up to 150 µs each way by the standard)"
SIDES = ("tx", "rx")
UNITS = ("ns", "us", "ms", "s")
# The columns of a table of limits: tx_latency_ns, rx_latency_us, ..
COLUMNS = {f"{side}_latency_{unit}": (side, unit) for side in SIDES for unit in UNITS}
# How a comment states it: for the file, or behind the head of a virtual link, of some destinations or all.
COMMENT = re.compile(r"# *(tx|rx)_latency_(ns|us|ms|s) *[ =:] *([0-9_.]+)(?: at (.+))?")
# Makes ns of a line, what a number is, its unit and its text.
Read = Callable[[int, str, str, str], int]


class Latency(NamedTuple):
    """The latency of the end systems of a virtual link at a destination, in ns; None where it is not stated."""

    tx: int | None = None
    rx: int | None = None

    def together(self) -> int:
        return (self.tx or 0) + (self.rx or 0)

    def is_stated(self) -> bool:
        return self.tx is not None or self.rx is not None

    def or_else(self, usual: "Latency") -> "Latency":
        return Latency(usual.tx if self.tx is None else self.tx, usual.rx if self.rx is None else self.rx)


def of_cells(line: int, cells: dict[str, str], read: Read) -> Latency:
    """What the columns of a row state."""
    found = {}
    for name, text in cells.items():
        if text and name in COLUMNS:
            side, unit = COLUMNS[name]
            found[side] = read(line, f"{side}_latency", unit, text)
    return Latency(**found)


def of_comments(lines: Iterable[tuple[int, str]], read: Read, where: str | None = None) -> Latency:
    """What numbered lines of comments state, of a destination or, if none is named, of all."""
    found = {}
    for i, text in lines:
        it = COMMENT.fullmatch(text.strip())
        if it and (it[4] is None or where in it[4].split()):
            found[it[1]] = read(i, f"{it[1]}_latency", it[2], it[3])
    return Latency(**found)


def head_of(lines: Iterable[str]) -> list[tuple[int, str]]:
    """The comments at the head of a file, with their numbers: before its first line of another kind."""
    found = []
    for i, text in enumerate(lines, 1):
        if text.strip() and not text.startswith("#"):
            break
        found.append((i, text))
    return found
