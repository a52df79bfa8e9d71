"""What came out for a row of a document: the worst of its destinations, and how it is coloured."""
from collections.abc import Mapping, Sequence
from typing import Any, NamedTuple

from afdx.model import Latency, Loss
from afdx.reckon import margins
from afdx.reckon.frames import End
from afdx.reckon.margins import Margin

COLUMNS = {
    "afdx greatest (us)": "the longest time from the offer of a frame until it was whole at a destination of the row",
    "afdx bound (us)": "the worst-case bound of that time; none where there is no bound",
    "afdx limit (us)": "the least limit of the destinations of the row",
    "afdx margin (us)": "the limit less the bound, or less the greatest where no bounds are given: red if a frame took longer than the limit, amber if the bound is above it",
    "afdx lost (frames)": "frames that a destination of the row received by neither network; a range where the tables leave it open; red above 0",
    "afdx copies lost": "copies of frames that were lost on one network, of the whole virtual link",
    "afdx jitter (us)": "the greatest less the least latency, of the destination where that is most",
}
COLOURS = {margins.BROKEN: "red", margins.BELOW: "amber", margins.KEPT: "green", margins.UNKNOWN: "grey"}
Key = tuple[int, str]


class Found(NamedTuple):
    """What is known of a run: latencies, losses, what became of frames or None, bounds or None, and margins."""

    latencies: Mapping[Key, Latency]
    losses: Sequence[Loss]
    ends: Mapping[Key, End] | None
    bounds: margins.Bounds | None
    margins: Mapping[Key, Margin]
    by_contract: bool

    def bound(self, key: Key) -> int | None:
        """The bound that decides."""
        assert self.bounds is not None
        return self.bounds.contract_of(*key) if self.by_contract else self.bounds.bound(*key)

    def copies_lost(self) -> dict[int, int]:
        """How many copies of each virtual link were lost."""
        found: dict[int, int] = {}
        for loss in self.losses:
            if loss.cause != "duplicate":
                found[loss.vl] = found.get(loss.vl, 0) + loss.count
        return found


def us(ns: int | None) -> float | str:
    return "none" if ns is None else ns / 1000


def cells(found: Found, copies: Mapping[int, int], vl: int, destinations: Sequence[str]) -> list[tuple[Any, str]]:
    """The cells of a row: each value with its colour."""
    keys = [(vl, where) for where in destinations]
    rows = [found.latencies[key] for key in keys]
    came = [row for row in rows if row.count]
    held = [found.margins[key] for key in keys if key in found.margins]
    worst = min(held, key=Margin.rank, default=None)
    colour = COLOURS[worst.verdict()] if worst else ""
    bounds = [found.bound(key) for key in keys] if found.bounds else []
    known = [it for it in bounds if it is not None]
    bound = max(known) if known and len(known) == len(bounds) else None
    lost = copies.get(vl, 0)
    return [
        (us(max(row.greatest for row in came)) if came else "none delivered", "" if came else "red"),
        (us(bound) if found.bounds else "", ""),
        (us(min(it.limit.ns for it in held)) if held else "", ""),
        (us(worst.ns()) if worst else "", colour),
        frames_lost(found, keys),
        (lost, "amber" if lost else ""),
        (us(max(row.greatest - row.least for row in came)) if came else "", ""),
    ]


def frames_lost(found: Found, keys: Sequence[Key]) -> tuple[Any, str]:
    """How many frames were lost end to end, or a range."""
    if found.ends is None:
        return "", ""
    least, most = (sum(getattr(found.ends[key].missing, name) for key in keys) for name in ("least", "most"))
    return (least if least == most else f"{least} to {most}"), "red" if least else "amber" if most else ""
