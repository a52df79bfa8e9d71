"""What the page has of each virtual link at each destination, column by column."""
from array import array
from collections import Counter
from collections.abc import Sequence
from typing import Any

from afdx.files.page_text import mean_ns, one_or_range, round_up
from afdx.model import Latency, Network, Stream, VirtualLink
from afdx.model.traces import Came, Trace
from afdx.page import limit_columns
from afdx.page.columns import BAD, WARN
from afdx.page.given import Given
from afdx.page.numbers import column
from afdx.reckon.frames import End, Way, ways_of
from afdx.runs.campaign_record import PERCENTS

# Fewer frames than this show little of a destination.
FEW = 10
# This many frames or more have a histogram; fewer are drawn one by one.
ENOUGH_FOR_BARS = 30
# If there are more lines of latencies than this, the page has histograms of this many of them: the worst.
MOST_HISTOGRAMS = 20_000
BARS = 28


def percentile(rising: Sequence[int], percent: int) -> int:
    """The least of the values that this percentage of them does not exceed."""
    return rising[-(-len(rising) * percent // 100) - 1]


def histogram(rising: Sequence[int]) -> Sequence[int]:
    """How many of the values are in each of the steps between the least and the greatest; or the values, if few."""
    if len(rising) < ENOUGH_FOR_BARS:
        return rising
    least, counts = rising[0], [0] * BARS
    for value in rising:
        counts[(value - least) * BARS // (rising[-1] - least + 1)] += 1
    return counts


class Messages:
    """The messages of virtual links that have bursts. What is offered at one moment is one message; it came whole where as many frames
    came as were offered then."""

    def __init__(self, net: Network) -> None:
        self.net = net
        self.known: tuple[int, Counter[int]] = (-1, Counter())

    def offered(self, vl: VirtualLink) -> Counter[int]:
        """How many frames are offered at each moment. Those of one virtual link are asked for one after another."""
        if self.known[0] != vl.id:
            self.known = vl.id, Counter(it.moment for it in self.net.offers(vl))
        return self.known[1]

    def of(self, vl: VirtualLink, came: Came | None) -> tuple[int | None, int | None]:
        """How many messages are offered, and how many of them came whole; None where there are no bursts."""
        if all(it.frames == 1 for it in vl.streams):
            return None, None
        offered, found = self.offered(vl), came.by_moment() if came else Counter()
        return len(offered), sum(found[moment] >= count for moment, count in offered.items())


class EndTable:
    """What the page shows of each virtual link at each destination, column by column."""

    def __init__(self, given: Given) -> None:
        self.given, self.rows = given, list(given.tables.latencies.values())
        self.columns: dict[str, Any] = self.of_tables()
        if given.ends:
            self.columns |= of_ends([given.ends.of[row.vl, row.where] for row in self.rows])
        if given.margins:
            self.columns |= limit_columns.of_limits(given)
        if given.bounds:
            self.columns |= limit_columns.of_bounds(given, given.bounds)
        if given.trace:
            self.columns |= self.of_trace(given.trace)
            self.columns |= self.of_messages(given.trace)
        elif given.percentiles:
            found = [given.percentiles[row.vl, row.where] for row in self.rows]
            self.columns |= {f"p{percent}": column(it[i] if it else None for it in found) for i, percent in enumerate(PERCENTS)}

    def of_tables(self) -> dict[str, Any]:
        rows, vls, losses = self.rows, self.given.net.vls, self.given.tables.losses
        copies = (losses.get((row.vl, row.where, "duplicate")) for row in rows)
        found: dict[str, Any] = {"vl": array("l", [row.vl for row in rows]), "where": [row.where for row in rows]}
        if self.given.names.vls:
            found["named"] = [self.given.names.name(row.vl) for row in rows]
        found |= {"count": column(row.count for row in rows), "copies": column(it.count if it else 0 for it in copies)}
        found |= {"least": column(row.least if row.count else None for row in rows)}
        found |= {"mean": column(mean_ns(row) if row.count else None for row in rows)}
        found |= {"greatest": column(row.greatest if row.count else None for row in rows)}
        found |= {"spread": column(row.greatest - row.least if row.count else None for row in rows)}
        of_links = [vls[row.vl] for row in rows]
        found |= {"bag": column(vl.bag_ns for vl in of_links), "jitter": column(max(it.jitter_ns for it in vl.streams) for vl in of_links)}
        found |= {"policing": column(vl.policing_ns for vl in of_links)}
        found |= {"few": array("b", [WARN if row.count < FEW else 0 for row in rows])}
        found |= {"needed": column(self.needed_ns(vl, row) for vl, row in zip(of_links, rows))}
        return found | ({"seed": column(row.seed for row in rows)} if self.given.tables.merged else {})

    def of_trace(self, trace: Trace) -> dict[str, Any]:
        """Percentiles, and histograms of the worst."""
        worst = sorted(self.rows, key=lambda row: -row.greatest)[:MOST_HISTOGRAMS]
        drawn = {(row.vl, row.where) for row in worst}
        found: dict[str, list[Any]] = {f"p{percent}": [] for percent in PERCENTS} | {"histogram": []}
        for row in self.rows:
            key = row.vl, row.where
            rising = trace.rising(key)
            for percent in PERCENTS:
                found[f"p{percent}"].append(percentile(rising, percent) if rising else None)
            found["histogram"].append(histogram(rising) if key in drawn else None)
        return found

    def of_messages(self, trace: Trace) -> dict[str, Any]:
        """How many messages are offered and how many of them came whole, where there are bursts."""
        if not any(it.frames > 1 for vl in self.given.net.vls.values() for it in vl.streams):
            return {}
        messages, vls = Messages(self.given.net), self.given.net.vls
        found = [messages.of(vls[row.vl], trace.came.get((row.vl, row.where))) for row in self.rows]
        return {"messages": column(offered for offered, _ in found), "whole": column(whole for _, whole in found)}

    def needed_ns(self, vl: VirtualLink, row: Latency) -> int | None:
        """How long a run must be for ten frames, where this one is too short for them."""
        if row.count >= FEW:
            return None
        ways = (Way(self.given.net, vl, path) for path in ways_of(vl, row.where).values())
        latency = row.greatest if row.count else min(way.arrival for way in ways)
        needed = min(self.comes_by(vl, it) for it in vl.streams) + latency
        return round_up(needed) if needed > self.given.net.until_ns else None

    @staticmethod
    def comes_by(vl: VirtualLink, stream: Stream) -> int:
        """When ten frames of a stream have left the source at the latest, if nothing else waits there."""
        bursts = -(-FEW // stream.frames) - 1
        late = stream.jitter_ns * (bursts + 1 if stream.is_sporadic else 1)
        return stream.offset_ns + late + max(bursts * stream.period_ns, (FEW - 1) * vl.bag_ns)


def of_ends(ends: list[End]) -> dict[str, Any]:
    """What became of the frames."""
    found: dict[str, Any] = {"offered": column(end.offered for end in ends), "again": column(one_or_range(end.again) for end in ends)}
    found |= {"under_way": column(one_or_range(end.under_way) for end in ends), "missing": column(one_or_range(end.missing) for end in ends)}
    found["missing_tone"] = array("b", [BAD if end.missing.least else WARN if end.missing.most else 0 for end in ends])
    found["why"] = [end.why for end in ends]
    for side in "AB":
        found["lost" + side] = column(one_or_range(end.lost[side]) if side in end.lost else None for end in ends)
    return found
