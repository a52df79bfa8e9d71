"""The margins between limits, what a run showed, and worst-case bounds: as a page has them, and as a table of verdicts."""
import csv
import io
import re
from collections.abc import Iterable, Mapping, Sequence
from typing import NamedTuple, Protocol

from afdx.files.page_text import us_text
from afdx.model import Latency, Network
from afdx.model.document_names import OF_VL, DocumentNames
from afdx.reckon.limits import Limit

HEAD = "vl,destination,limit_ns,greatest_ns,bound_ns,margin_ns,verdict,bound_by,tx_latency_ns,rx_latency_ns"
BROKEN, BELOW, KEPT, UNKNOWN = "broken", "below its bound", "kept", "not known"
# The order in which verdicts are shown: the worst first, and last those of which nothing is known, whose rows are empty.
ORDER = (BROKEN, BELOW, KEPT, UNKNOWN)
# Who a bound is by, besides those that bounds_rows.py names.
BY_CONTRACT = "contract"
# The value of a key that `afdx table` took of another column has one of these comments.
OF_ANOTHER = re.compile(r"\ssmax *= *[0-9_]+ *# (payload |message_bytes |the greatest frame|that of size|usual)")

Key = tuple[int, str]


class Bounds(Protocol):
    """What is asked of bounds: that of a destination in ns, and who it is by."""

    def bound(self, vl: int, where: str) -> int | None: ...

    def bound_by(self, vl: int, where: str) -> str: ...

    def contract_of(self, vl: int, where: str) -> int | None: ...

    def has_contract(self) -> bool: ...


class Margin(NamedTuple):
    """How far a limit is from what is known of a destination: the greatest latency of a run, or None, and the bound, or
    None where there is none, if bounds are given (`has_bound`); and who the bound is by."""

    limit: Limit
    greatest: int | None
    has_bound: bool
    bound: int | None
    bound_by: str

    def ns(self) -> int | None:
        """The limit less the worst that is known, with the latency of end systems if that is stated; None where nothing is known, or a
        bound is given as none."""
        known = [it for it in (self.greatest, self.bound) if it is not None]
        return None if not known or self.has_bound and self.bound is None else self.limit.most_ns() - max(known)

    def verdict(self) -> str:
        most = self.limit.most_ns()
        if self.greatest is not None and self.greatest > most:
            return BROKEN
        if self.has_bound:
            return BELOW if self.bound is None or self.bound > most else KEPT
        return UNKNOWN if self.greatest is None else KEPT

    def rank(self) -> tuple[int, bool, int, int, str]:
        """By verdict, the worst first, and then by margin: those without a bound before all others."""
        ns = self.ns()
        return ORDER.index(self.verdict()), ns is not None, ns or 0, self.limit.vl, self.limit.where

    def in_words(self) -> str:
        parts = [f"limit {us_text(self.limit.ns)}"]
        parts += [f"greatest latency {us_text(self.greatest)}"] if self.greatest is not None else []
        by = f" ({IN_WORDS[self.bound_by]})" if self.bound_by else ""
        parts += [f"bound {'none' if self.bound is None else us_text(self.bound)}{by}"] if self.has_bound else []
        ends = self.limit.ends
        parts += [f"end systems {us_text(ends.together())} besides"] if ends.is_stated() else []
        return f"{self.verdict()}: {', '.join(parts)}"

    def with_ends(self, ns: int | None) -> int | None:
        """A latency or a bound with the latency of end systems, if that is stated."""
        return None if ns is None or not self.limit.ends.is_stated() else ns + self.limit.ends.together()

    def line(self, names: Sequence[str] = ()) -> str:
        show = lambda number: "" if number is None else number
        bound = ("none" if self.bound is None else self.bound) if self.has_bound else ""
        numbers = self.limit.ns, show(self.greatest), bound, show(self.ns())
        out = io.StringIO()
        row = [self.limit.vl, self.limit.where, *numbers, self.verdict(), self.bound_by, *map(show, self.limit.ends), *names]
        csv.writer(out, lineterminator="\n").writerow(row)
        return out.getvalue()


# How a text names who a bound is by.
IN_WORDS = {"program": "afdxsim bounds", "tool": "afdx bounds, not proved", BY_CONTRACT: "afdxsim bounds --contract"}


def states_smax(net: Network) -> bool:
    """Whether the document states the greatest frame (Lmax) of each virtual link, and `afdx table` took none of them from another
    column."""
    return not OF_ANOTHER.search(net.text)


def by_contract(net: Network, bounds: Bounds | None) -> bool:
    """Whether limits are compared with the bounds that hold whatever others send: where there are such, and the document states
    what others may send."""
    return bounds is not None and bounds.has_contract() and states_smax(net)


def margins_of(
    limits: Mapping[Key, Limit], net: Network, latencies: Mapping[Key, Latency] | None = None, bounds: Bounds | None = None
) -> list[Margin]:
    """The margins of limits, by verdict and then the least first."""
    found, is_by_contract = [], by_contract(net, bounds)
    for key, limit in limits.items():
        row = latencies[key] if latencies else None
        greatest = row.greatest if row and row.count else None
        if bounds is None:
            found.append(Margin(limit, greatest, False, None, ""))
        elif is_by_contract:
            found.append(Margin(limit, greatest, True, bounds.contract_of(*key), BY_CONTRACT))
        else:
            found.append(Margin(limit, greatest, True, bounds.bound(*key), bounds.bound_by(*key)))
    return sorted(found, key=Margin.rank)


def text_of(margins: Iterable[Margin], names: DocumentNames | None = None) -> str:
    """The margins as CSV, with name, message and port of the virtual links if the description has some."""
    if names is None or not names.vls:
        return HEAD + "\n" + "".join(it.line() for it in margins)
    return ",".join([HEAD, *OF_VL]) + "\n" + "".join(it.line(names.cells(it.limit.vl)) for it in margins)


def has_failed(margins: Iterable[Margin], is_strict: bool) -> bool:
    """Whether a limit is broken by a latency, or, where that counts too, below its bound."""
    return any(it.verdict() == BROKEN or is_strict and it.verdict() == BELOW for it in margins)
