"""What became of each frame, end to end: which were offered, which a regulator refused, and which of them were delivered,
are under way at the end, or are missing. What was offered is drawn anew; tables or a trace give the rest.

    ends = frames.Ends(tables, [net.seed], trace=trace)     # Fault where they are of other runs
    ends.of[vl, where].missing                              # a Range: what is known of it
"""
from __future__ import annotations

import functools
from bisect import bisect_left
from collections import Counter, deque
from collections.abc import Callable, Iterable, Iterator, Sequence
from typing import Any, NamedTuple, NoReturn

from afdx import model
from afdx.files.page_text import counted
from afdx.model import Fault, Latency, Loss, Network, Offer, Tables, VirtualLink, drawn_offset
from afdx.model.traces import Trace
from afdx.reckon import many_seeds

# How many bytes of its time on a line are before the last bit of a frame, beyond its own.
BYTES_BEFORE_A_FRAME = 8


class Range(NamedTuple):
    """A count of which it may be known only that it is from `least` to `most`."""

    least: int
    most: int

    def __add__(self, other: Range) -> Range:  # type: ignore[override]
        return Range(self.least + other.least, self.most + other.most)

    def __sub__(self, other: Range) -> Range:
        return Range(self.least - other.most, self.most - other.least)

    def within(self, other: Range) -> Range:
        return Range(max(self.least, other.least), min(self.most, other.most))


@functools.lru_cache(4096)
def exactly(count: int) -> Range:
    """The range of one count. Most are small, and kept once."""
    return Range(count, count)


class Sent(NamedTuple):
    """Of the frames of a virtual link in one run: how many are offered; those that its regulator let go, each with the
    moments when it was offered and released; how many still wait there at the end, and how many it refused."""

    offered: int
    released: list[tuple[int, int]]
    waiting: int
    refused: int


class End(NamedTuple):
    """What became of the frames of a virtual link at one of its destinations: `again` were delivered a second time, since
    their second copy came later than SkewMax; `under_way` has those that wait in the regulator too; `copies` are the
    second copies that were dropped; `lost` has for each network the copies that were lost on it. `too_long` is how many are
    said to be under way at the end for longer than twice the time that any took. `why` says why it is open how many are missing,
    or nothing where it is not."""

    offered: int
    delivered: int
    again: Range
    under_way: Range
    missing: Range
    copies: int
    lost: dict[str, Range]
    too_long: int
    why: str


def through_regulator(vl: VirtualLink, offers: Iterable[Offer], until_ns: int) -> Sent:
    """What the regulator of a virtual link does with its offers, in the order in which they come. At one moment a release
    comes before an offer."""
    lists: list[deque[int]] = [deque() for _ in range(vl.sub)]
    released: list[tuple[int, int]] = []
    last: Any = None
    pointer, offered, refused = 0, 0, 0

    def release(moment: int) -> None:
        nonlocal pointer, last
        place = next(place % vl.sub for place in range(pointer, pointer + vl.sub) if lists[place % vl.sub])
        released.append((lists[place].popleft(), moment))
        pointer, last = (place + 1) % vl.sub, moment

    for _, moment, _, sub in offers:
        offered += 1
        while any(lists) and last + vl.bag_ns <= moment:
            release(last + vl.bag_ns)
        if sub >= vl.sub or len(lists[sub]) == vl.depth:
            refused += 1
            continue
        waits = any(lists)
        lists[sub].append(moment)
        if not waits and (last is None or moment >= last + vl.bag_ns):
            release(moment)
    while any(lists) and last + vl.bag_ns <= until_ns:
        release(last + vl.bag_ns)
    return Sent(offered, released, sum(map(len, lists)), refused)


def ways_of(vl: VirtualLink, where: str) -> dict[str, list[str]]:
    """The path of a virtual link to a destination on each network."""
    return {side: path for side in "AB" for path in vl.paths[side] if path[-1] == where}


class Way:
    """The way of a virtual link to a destination on one network: how soon after its release a copy may be lost at each
    place, in ns. That is at a port of its source, when its last bit leaves for a line, when it is whole at a switch or
    at the destination."""

    def __init__(self, net: Network, vl: VirtualLink, path: list[str]) -> None:
        self.net, after = net, 0
        self.soonest = {path[0]: 0}
        for here, there in zip(path, path[1:]):
            line = here + ">" + there
            after += (vl.sizes[0] + BYTES_BEFORE_A_FRAME) * (8000 // net.mbit[line])
            self.soonest[line] = after
            after += net.propagation_ns[line]
            self.soonest[there] = after
            after += net.nodes[there].latency_ns
        self.arrival = self.soonest[path[-1]]

    def soonest_loss(self, where: str, cause: str) -> int:
        return self.soonest[where] + (self.net.nodes[where].latency_ns if cause == "port_full" else 0)


class Route:
    """The ways of a virtual link to one of its destinations, whatever happens on them."""

    def __init__(self, net: Network, vl: VirtualLink, where: str) -> None:
        self.vl, self.where = vl, where
        self.ways = {side: Way(net, vl, path) for side, path in ways_of(vl, where).items()}

    @functools.cached_property
    def forks(self) -> set[str]:
        """Where a copy goes on by several ports, so that tables do not show at which of them it was lost. It is asked for only where
        copies are lost."""
        steps = {step for side in "AB" for path in self.vl.paths[side] for step in zip(path, path[1:])}
        forks = {here for here, count in Counter(here for here, _ in steps).items() if count > 1}
        sides = sum(bool(paths) for paths in self.vl.paths.values())
        return forks - ({self.vl.source} if len(self.ways) == sides else set())


class Journey:
    """A virtual link at one of its destinations: its ways there, and what tables show of the copies lost on them."""

    def __init__(self, route: Route, losses: Iterable[Loss]) -> None:
        self.route, self.vl, self.where, self.ways = route, route.vl, route.where, route.ways
        self.losses = [loss for loss in losses if any(loss.where in way.soonest for way in self.ways.values())]
        # A destination refuses frames of the networks alone on which copies were lost before.
        before = [side for side in self.ways for loss in self.losses if loss.where in self.on_the_way(side)]
        self.may_refuse = sorted(set(before)) or list(self.ways)

    def on_the_way(self, side: str) -> set[str]:
        return self.ways[side].soonest.keys() - {self.where}

    def sides_of(self, where: str, cause: str) -> list[str]:
        """The networks on which a copy for this destination may be lost at a place for a cause."""
        if cause == "integrity":
            return self.may_refuse if where == self.where else []
        return [side for side, way in self.ways.items() if where in way.soonest]

    def copies_lost(self) -> tuple[Range, dict[str, Range]]:
        """How many copies were lost on the way or refused at the destination, all together and on each network."""
        total, lost = exactly(0), {side: exactly(0) for side in self.ways}
        for loss in self.losses:
            sides = self.sides_of(loss.where, loss.cause)
            is_sure = not (loss.cause == "port_full" and loss.where in self.route.forks)
            total += Range(loss.count * is_sure, loss.count)
            for side in sides:
                lost[side] += Range(loss.count * (is_sure and len(sides) == 1), loss.count)
        return total, lost

    def surely_under_way_ns(self) -> int:
        """A frame that was released later than so long before the end, in ns, is under way for sure: it cannot have
        come yet, and on one network it cannot have come to any place where the virtual link loses frames."""
        soonest = {side: way.arrival for side, way in self.ways.items()}
        for loss in self.losses:
            for side in self.sides_of(loss.where, loss.cause):
                soonest[side] = min(soonest[side], self.ways[side].soonest_loss(loss.where, loss.cause))
        return min(max(soonest.values()), *(way.arrival for way in self.ways.values()))


class Ends:
    """What became of all frames, end to end: what was offered is drawn anew, as the program draws it, and held against
    the tables of the runs with these seeds. A trace also shows which frames were delivered.

    A frame is missing at a destination if it was not delivered there, and all its copies are lost or a later frame of
    the virtual link was delivered there: a copy that comes behind it is dropped. If it was not delivered and is not
    missing, it is under way at the end."""

    def __init__(
        self, tables: Tables, seeds: Sequence[int], draws_offsets: bool = False, trace: Trace | None = None, known: dict[int | tuple[int, str], Any] | None = None
    ) -> None:
        self.tables, self.net, self.trace = tables, tables.net, trace
        # What does not depend on the tables, for those who reckon with the same seeds again.
        self.known = known
        self.losses: dict[int, list[Loss]] = {}
        for loss in tables.losses.values():
            if loss.cause not in ("queue_full", "duplicate"):
                self.losses.setdefault(loss.vl, []).append(loss)
        # Of frames that came to the same end alike one End is kept.
        self.of: dict[tuple[int, str], End] = {}
        self.alike: dict[tuple[Any, ...], End] = {}
        for vl, sent in self.all_sent(seeds, draws_offsets):
            self.compare(vl, sent.refused)
            for where in vl.destinations:
                route = self.once((vl.id, where), Route, self.net, vl, where)
                journey = Journey(route, self.losses.get(vl.id, ()))
                self.of[vl.id, where] = self.end(journey, sent)

    def once(self, key: int | tuple[int, str], make: Callable[..., Any], *given: Any) -> Any:
        """What does not depend on the tables: it is made anew where nobody keeps it."""
        if self.known is None:
            return make(*given)
        if key not in self.known:
            self.known[key] = make(*given)
        return self.known[key]

    def all_sent(self, seeds: Sequence[int], draws_offsets: bool) -> Iterator[tuple[VirtualLink, many_seeds.SentOfAll]]:
        """For each virtual link what its regulator did in the runs of all seeds together."""
        numpy = many_seeds.library(seeds)
        offsets = [drawn_offsets(self.net, seed) if draws_offsets else {} for seed in seeds]
        for vl in self.net.vls.values():
            runs = [(seed, vl.with_offsets(drawn) if draws_offsets else vl) for seed, drawn in zip(seeds, offsets)]
            if numpy:
                yield vl, many_seeds.sent_of_all(numpy, runs, self.net.until_ns, self.sent)
            else:
                yield vl, self.once(vl.id, lambda: many_seeds.together([self.sent(*it) for it in runs]))

    def sent(self, seed: int, vl: VirtualLink) -> Sent:
        return through_regulator(vl, self.net.offers(vl, seed), self.net.until_ns)

    def refuse(self, line: int | None, text: str) -> NoReturn:
        raise Fault(self.tables.path, line, f"{text}; so they are tables of another run than that of {self.net.path}")

    def compare(self, vl: VirtualLink, refused: int) -> None:
        """Refuses tables of runs in which other frames were offered."""
        loss = self.tables.losses.get((vl.id, vl.source, "queue_full"))
        if refused != (loss.count if loss else 0):
            line = loss.line if loss else self.tables.latencies[vl.id, next(iter(vl.destinations))].line
            said = f"{refused} frames of virtual link {vl.id} would be lost as queue_full"
            self.refuse(line, f"{said}, and the tables have {loss.count if loss else 0}")

    def end(self, journey: Journey, sent: many_seeds.SentOfAll) -> End:
        """What became of the frames of all runs at one destination: what is known of each count is narrowed by what
        they add up to."""
        key = journey.vl.id, journey.where
        row, dropped = self.tables.latencies[key], self.tables.losses.get((*key, "duplicate"))
        copies = dropped.count if dropped else 0
        released = len(sent.releases)
        total, lost = journey.copies_lost()
        # The copies of which nothing is known are under way.
        open_copies = exactly(len(journey.ways) * released - row.count - copies) - total
        if self.trace and sent.one is not None:
            again, under_way, missing = self.by_trace(self.trace, journey, sent.one, row)
        else:
            again, under_way, missing = self.by_counts(journey, sent, row)
        under_way = under_way.within(Range(0, open_copies.most))
        if len(journey.ways) == 1:
            # Of one copy each: what was lost, or dropped at the destination, is missing.
            missing = missing.within(total + exactly(copies))
        else:
            # A frame is missing only where a copy of it was lost.
            missing = missing.within(Range(0, total.most))
        gone = exactly(released - row.count) + again
        missing = missing.within(gone - under_way)
        under_way = under_way.within(gone - missing)
        if missing.least > missing.most or under_way.least > under_way.most:
            said = f"{counted(released, 'frame')} of virtual link {key[0]} would be sent to {key[1]}"
            self.refuse(
                row.line, f"{said}, and the tables have {row.count} delivered, {copies} copies and {total.most} lost"
            )
        again = again.within(missing + under_way - exactly(released - row.count))
        too_long = 0 if self.trace else max(0, under_way.least - self.may_be_under_way(journey, sent, row))
        why = self.why_open(journey, sent) if missing.least < missing.most else ""
        under_way, missing = under_way + exactly(sent.waiting), missing + exactly(sent.refused)
        alike = (sent.offered, row.count, again, under_way, missing, copies, tuple(lost.items()), too_long, why)
        if alike not in self.alike:
            self.alike[alike] = End(sent.offered, row.count, again, under_way, missing, copies, lost, too_long, why)
        return self.alike[alike]

    def why_open(self, journey: Journey, sent: many_seeds.SentOfAll) -> str:
        """Why it is not known how many frames are missing, in words."""
        if sent.one is None:
            return "merged tables do not show of which frames the lost copies were"
        if not self.trace:
            return "tables do not show of which frames the lost copies were; --trace shows more"
        full = [where for where, cause in self.trace.lost_on_the_way(journey.vl.id) if cause == "port_full" and where in journey.route.forks]
        if full:
            return f"at {' and '.join(sorted(full))} copies go on by several ports, and no trace shows which of them was full"
        if not journey.vl.is_plain():
            return "of frames that were offered at one moment no trace shows which came, nor after the last that came which were lost"
        return "copies were lost after the last frame that came, and no trace shows of which frames"

    def may_be_under_way(self, journey: Journey, sent: many_seeds.SentOfAll, row: Latency) -> int:
        """How many frames were released so late that they may be under way at the end, if none takes longer than twice the
        greatest latency that was seen, or that a frame has alone."""
        longest = 2 * max(row.greatest, *(way.arrival for way in journey.ways.values()))
        return sent.released_after(self.net.until_ns - longest)

    def by_counts(self, journey: Journey, sent: many_seeds.SentOfAll, row: Latency) -> tuple[Range, Range, Range]:
        """What tables alone show of frames that were delivered again, are under way, and are missing."""
        latest = self.net.until_ns - journey.surely_under_way_ns()
        sure = sent.released_after(latest)
        released = len(sent.releases)
        return Range(0, row.count // 2 if self.may_be_twice(journey, row) else 0), Range(sure, released), Range(0, released)

    def by_trace(self, trace: Trace, journey: Journey, released: list[tuple[int, int]], row: Latency) -> tuple[Range, Range, Range]:
        """The same by what a trace shows: which frames came, by the moments at which they had been offered, and when copies were
        lost. Of several frames that were offered at one moment it does not show which came."""
        frames = trace.came.get((journey.vl.id, journey.where))
        soonest = min(way.arrival for way in journey.ways.values())
        found = frames.among(released, soonest, self.may_be_twice(journey, row)) if frames else (0, 0, -1, -1)
        if found is None:
            self.refuse(row.line, f"at {row.where} frames of virtual link {row.vl} came that nobody would offer")
        least, most, *lasts = found
        ranges = [self.behind_the_last(trace, journey, released, Range(least, most), last) for last in sorted(set(lasts))]
        under_way, missing = (Range(min(it.least for it in ones), max(it.most for it in ones)) for ones in zip(*ranges))
        return Range(row.count - most, row.count - least), under_way, missing

    @staticmethod
    def may_be_twice(journey: Journey, row: Latency) -> bool:
        """Whether a second copy may have been delivered again, which it is only where it comes later than SkewMax."""
        return len(journey.ways) == 2 and row.greatest > journey.vl.skew_ns

    def behind_the_last(self, trace: Trace, journey: Journey, released: list[tuple[int, int]], came: Range, last: int) -> tuple[Range, Range]:
        """How many frames are under way and how many are missing, if so many came, and this is the place of the last of them."""
        rest = [moment for _, moment in released[last + 1 :]]
        # On each network how many copies of the rest may have been lost, and when the last of these was released at the latest.
        lost = {side: (0, -1) for side in journey.ways}
        for (where, cause), moments in trace.lost_on_the_way(journey.vl.id).items() if rest else ():
            for side in journey.sides_of(where, cause):
                soonest = journey.ways[side].soonest_loss(where, cause)
                count = len(moments) - bisect_left(moments, rest[0] + soonest)
                if count:
                    lost[side] = lost[side][0] + count, max(lost[side][1], moments[-1] - soonest)
        # A number more than 127 steps behind the last one delivered is taken for a copy.
        is_few = len(rest) <= 127
        may_be_lost = min(latest for _, latest in lost.values()) if is_few else self.net.until_ns
        sure = sum(moment > may_be_lost for moment in rest)
        most = min(count for count, _ in lost.values()) if is_few else len(rest)
        return Range(sure, len(rest)), Range(max(0, last + 1 - came.most), max(0, last + 1 - came.least) + most)


def hold(tables: Tables) -> None:
    """Refuses tables that no run of their network can give, whatever is offered."""
    net, other = tables.net, f"so they are tables of another network than {tables.net.path}"
    for (number, where), row in tables.latencies.items():
        vl = net.vls[number]
        if row.count and vl.sizes[0] > vl.smax:
            text = f"frames of virtual link {number} came to {where}, and its size is above its smax"
            raise Fault(tables.path, row.line, f"{text}; {other}")
        soonest = min(Way(net, vl, path).arrival for path in ways_of(vl, where).values())
        if row.count and row.least < soonest:
            text = f"a frame of virtual link {number} came to {where} in {row.least} ns, and it takes {soonest} ns at least"
            raise Fault(tables.path, row.line, f"{text}; {other}")
    out = {outage.line for outage in net.outages}
    for (number, where, cause), loss in tables.losses.items():
        vl = net.vls[number]
        if cause == "outage" and where not in out or cause == "too_long" and vl.sizes[-1] <= vl.smax:
            why = f"{where} has no outage" if cause == "outage" else "its size is not above its smax"
            text = f"frames of virtual link {number} were lost at {where} as {cause}, and {why}"
            raise Fault(tables.path, loss.line, f"{text}; {other}")


def drawn_offsets(net: Network, seed: int) -> dict[int, int]:
    """The offsets that afdx campaign draws for the run of a seed, of each stream by its number."""
    streams = (it for vl in net.vls.values() for it in vl.streams)
    return {it.number: drawn_offset(seed, it.number, it.period_ns) for it in streams}
