"""The rows of a judgement of a capture: as CSV, as JSON in long form, and as the cases of JUnit."""
import csv
import io
from collections.abc import Iterable, Iterator
from typing import Any, NamedTuple

from afdx.reckon import junit

BROKEN, UNKNOWN, ALLOWED, KEPT = "broken", "not known", "allowed", "kept"
# The order in which verdicts are shown.
ORDER = (BROKEN, UNKNOWN, ALLOWED, KEPT)
# What is judged, in the order in which it is shown; and the unit of its value.
UNITS = {
    "unknown": "bytes", "wrong way": "bytes", "wrong network": "bytes", "length": "bytes", "spacing": "ns", "lost": "frames",
    "repeated": "frames", "swapped": "frames", "reset": "frames", "sequence": "frames", "skew": "ns", "latency": "ns", "silent": "frames",
}
HEAD = ["what", "vl", "network", "tap", "where", "frames", "broken", "value", "allowed", "verdict", "packet", "why"]


class Row(NamedTuple):
    """A row: what was judged of which virtual link, on which network, by which tap and where; how many frames were judged, and how many
    break it; the worst value and what is allowed; the verdict; the number of the packet that shows it, from 1; and why."""

    what: str
    vl: int
    net: str
    tap: str
    where: str
    frames: int
    broken: int
    value: int | None
    allowed: int | None
    verdict: str
    packet: int | None
    why: str = ""

    def rank(self) -> tuple[Any, ...]:
        return ORDER.index(self.verdict), self.vl, self.net, self.tap, self.where, list(UNITS).index(self.what)

    def cells(self) -> list[str]:
        return ["" if it is None else str(it) for it in self]

    def in_words(self) -> str:
        unit = UNITS[self.what]
        found = f"{self.verdict}: {self.broken} of {self.frames} frames" if self.broken else f"{self.verdict}: {self.frames} frames"
        if unit != "frames" and self.value is not None:
            found += f", {self.value} {unit}" + ("" if self.allowed is None else f" of {self.allowed}")
        found += f", packet {self.packet}" if self.packet else ""
        return found + (f"; {self.why}" if self.why else "")


def text_of(rows: Iterable[Row]) -> str:
    out = io.StringIO()
    writer = csv.writer(out, lineterminator="\n")
    writer.writerow(HEAD)
    writer.writerows(row.cells() for row in rows)
    return out.getvalue()


def long_rows(rows: Iterable[Row]) -> Iterator[tuple[Any, ...]]:
    """The rows in long form: the value of each, with the other columns as further keys; of one without a value the frames that break it."""
    for row in rows:
        more = {"network": row.net, "tap": row.tap, "frames": row.frames, "broken": row.broken, "allowed": row.allowed}
        more |= {"verdict": row.verdict, "packet": row.packet, "why": row.why}
        unit = UNITS[row.what]
        yield "capture", row.vl, row.where, f"{row.what} {unit}".replace(" ", "_"), row.broken if row.value is None else row.value, more


def junit_text(rows: Iterable[Row], name: str, seconds: float) -> str:
    """A case for each row, and how long all of them took."""
    cases = []
    for row in rows:
        at = f"{row.what} at {row.tap}" if row.tap == row.where else f"{row.what} at {row.tap}, {row.where}"
        case = junit.Case(f"virtual link {row.vl}", f"{at}, network {row.net}", row.in_words(), row.verdict == BROKEN, row.verdict == UNKNOWN)
        cases.append(case)
    return junit.suite_of(cases, name, seconds)


def has_failed(rows: Iterable[Row]) -> bool:
    return any(row.verdict == BROKEN for row in rows)
