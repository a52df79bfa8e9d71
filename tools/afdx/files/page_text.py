"""Numbers, times and counts as the pages write them."""
import html
import math
from fractions import Fraction
from typing import Protocol

Number = int | Fraction


class Counted(Protocol):
    """A row of tables: how many frames came, and the sum of their latencies."""

    @property
    def count(self) -> int: ...

    @property
    def total(self) -> int: ...


class Between(Protocol):
    """A count of which it may be known only that it is from the one to the other."""

    @property
    def least(self) -> int: ...

    @property
    def most(self) -> int: ...


def two_places(value: Number) -> str:
    """A number that is not negative, rounded to two places."""
    hundredths = math.floor(Fraction(value) * 100 + Fraction(1, 2))
    return f"{hundredths // 100:,}.{hundredths % 100:02d}"


def hundredths(value: Number) -> int:
    return math.floor(Fraction(value) * 100 + Fraction(1, 2))


def percent_of(load: Number) -> str:
    """A load for the drawing, as short as it may be."""
    if load == 0:
        return "0 %"
    if load < 10:
        return two_places(load) + " %"
    tenths = math.floor(load * 10 + Fraction(1, 2))
    return f"{tenths // 10:,}.{tenths % 10} %"


def span(ns: int) -> str:
    """A time in microseconds, the one unit of a page, without zeros at its end."""
    return f"{ns // 1000:,}.{ns % 1000:03d}".rstrip("0").rstrip(".") + " µs"


def us_text(ns: int) -> str:
    """The same for a terminal, whatever letters it has."""
    return span(ns).replace("µs", "us")


def counted(count: int, one: str, many: str | None = None) -> str:
    return f"{count:,} {one if count == 1 else many or one + 's'}"


def frame_count(count: int) -> str:
    return counted(count, "frame")


def frames_of(found: Between) -> str:
    """A count of frames of which it may be known only where it lies."""
    return frame_count(found.least) if found.least == found.most else f"{found.least:,} to {frame_count(found.most)}"


def round_up(ns: int) -> int:
    """A time of two digits that is not less."""
    unit = 10 ** max(0, len(str(ns)) - 2)
    return -(-ns // unit) * unit


def mean_ns(row: Counted) -> int:
    return (2 * row.total + row.count) // (2 * row.count) if row.count else 0


def one_or_range(found: Between) -> int | list[int]:
    """A count for the script: a number, or the least and the greatest."""
    return found.least if found.least == found.most else [found.least, found.most]


def esc(text: object) -> str:
    return html.escape(str(text), quote=True)
