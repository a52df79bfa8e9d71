"""Output ports with the virtual links that come to them: how late their frames are sent, and how many bytes wait."""
from __future__ import annotations

from collections.abc import Callable, Sequence
from typing import Any, NamedTuple

from afdx import model
from afdx.model import Network, VirtualLink
from afdx.reckon import regulator_waits
from afdx.reckon.arrival_curves import PARTS, BehindHigh, Group, Piece, curve, peak
from afdx.reckon.whole_frames import WholeBehindHigh, peak_of_frames

# How many bytes of a frame's time on the line are behind its last bit.
GAP_BYTES = 12

# Low frames behind high ones are counted whole, too, if there are no more pairs of a moment and a size than this. It lowers few
# bounds, by some percent at most, and would take hours at ports of thousands of virtual links.
MOST_WHOLE = 100_000

# How often a port is looked at before the bursts that come to it are said to grow without end.
MOST_ROUNDS = 1000


class Hop:
    """A virtual link at an output port.

    `spread` is by how much its frames may come there closer than a BAG, in ns; `delay` the longest time from the
    arrival of a frame there to its last bit on the line, in ns. None: not known to have an end."""

    # A network of 65,536 virtual links has 1.4 million hops.
    __slots__ = ("link", "port", "before", "after", "came", "spread", "delay", "frames")

    def __init__(self, link: Link, port: Port, before: Hop | None) -> None:
        self.link, self.port, self.before = link, port, before
        self.frames = link.offered if before is None else link.passing
        self.after: tuple[Hop, ...] = ()
        self.came: int | None = 0
        # A whole number or None; who reckons with it has asked before whether all of them are numbers.
        self.spread: Any = 0
        self.delay: int | None = 0
        if before is not None:
            before.after += (self,)

    @property
    def amount(self) -> int:
        """What its greatest frame takes on the line, in bytes."""
        return self.frames.amounts[-1]

    @property
    def rate(self) -> int:
        """What it sends in each ns, in parts of a byte, if all frames are the greatest."""
        return self.frames.rate

    @property
    def least(self) -> int:
        """From the start of its least frame to the last bit: the least delay."""
        return (self.frames.amounts[0] - GAP_BYTES) * self.port.byte_ns

    def take(self) -> bool:
        """Takes over what the hop before says. Answers whether it is something new."""
        before, old = self.before, self.spread
        self.came = None
        if before is not None and before.spread is not None and before.delay is not None:
            self.came = before.spread + before.delay - before.least
        self.spread = self.link.let_through(self.came)
        return self.spread != old

    def earliest(self) -> int:
        """How long after its release a frame comes here if nothing delays it, in ns."""
        return 0 if self.before is None else self.before.earliest() + self.before.least + self.before.port.far_ns

    def burst(self) -> int | None:
        """What can come at once, in parts of a byte, or None."""
        return None if self.spread is None else self.amount * PARTS + self.rate * self.spread


class Frames(NamedTuple):
    """The frames of a virtual link at a port: what they take on a line, in bytes, each amount once and rising; and what comes in
    each ns, in parts of a byte, if each is the greatest."""

    amounts: tuple[int, ...]
    rate: int


class Link:
    """What the bounds need of a virtual link: its frames where they are offered, and those that switches pass: the ones that are
    not above Smax. `hops` has those of the virtual link by line, in the order of its paths."""

    __slots__ = ("vl", "offered", "passing", "is_high", "wait", "hops", "ends")

    def __init__(self, vl: VirtualLink) -> None:
        self.hops: dict[str, Hop] = {}
        self.ends: dict[str, tuple[tuple[str, Hop | None], ...]] = {}
        self.vl = vl
        sizes = vl.sizes
        self.offered = self.frames_of(sizes)
        self.passing = self.offered if sizes[-1] <= vl.smax else self.frames_of([size for size in sizes if size <= vl.smax])
        self.is_high = vl.priority == "high"
        self.wait = longest_wait(vl)

    def frames_of(self, sizes: Sequence[int]) -> Frames:
        amounts = tuple(size + model.BYTES_BETWEEN_FRAMES for size in sizes)
        return Frames(amounts, max(amounts, default=0) * (PARTS // self.vl.bag_ns))

    def passes(self) -> bool:
        """Whether switches pass any of its frames."""
        return bool(self.passing.amounts)

    def passes_all(self) -> bool:
        return self.passing is self.offered

    def let_through(self, spread: int | None) -> int | None:
        """The spread behind an account. It lets through what is in keeping with the jitter that it allows, where each
        frame takes what one BAG gives."""
        if self.vl.policing == "bytes" and self.passing.amounts[0] - model.BYTES_BETWEEN_FRAMES < self.vl.smax:
            return spread
        return self.vl.policing_ns if spread is None else min(spread, self.vl.policing_ns)

    def is_never_refused(self, spread: int | None) -> bool:
        """Whether an account passes all its frames, which come with this spread."""
        if spread is None:
            return False
        size = self.vl.smax if self.vl.policing == "frames" else self.passing.amounts[-1] - model.BYTES_BETWEEN_FRAMES
        return size * (self.vl.bag_ns + spread) <= self.vl.smax * (self.vl.bag_ns + self.vl.policing_ns)


def longest_wait(vl: VirtualLink) -> int:
    """The longest wait in a regulator of a frame that it takes, in ns.

    n + 1 offers need n periods less the jitter, and n BAGs to leave. Where there are more offers than BAGs, or where
    several frames may wait and sub-virtual links take turns, each frame that is ahead of it in its own list may have a
    turn of all the others before it."""
    bag, period, jitter = vl.bag_ns, vl.own.period_ns, vl.own.jitter_ns
    full = vl.depth * vl.sub * bag
    if not vl.is_plain():
        return full if vl.sub > 1 else min(full, regulator_waits.longest(vl.streams, bag))
    if period < bag:
        return full
    waiting = -(-jitter // period)
    if waiting > 1 and vl.sub > 1:
        return min(full, waiting * vl.sub * bag)
    at_once = jitter // period
    return min(full, max(at_once * bag, (at_once + 1) * bag - ((at_once + 1) * period - jitter)))


class Port:
    """An output port and the line behind it. `delay` of a hop is set by `look`."""

    # How many bytes may wait there, or None: Bounds sets it.
    most: int | None

    def __init__(self, net: Network, line: str) -> None:
        self.line = line
        here, there = line.split(">")
        self.node = net.nodes[here]
        self.byte_ns = 8000 // net.mbit[line]
        self.speed = PARTS // self.byte_ns
        # From the last bit of a frame to the output ports of the node at the far end.
        self.far_ns = net.propagation_ns[line] + net.nodes[there].latency_ns
        self.has_outage = any(outage.line == line for outage in net.outages)
        self.hops: list[Hop] = []
        self.rounds = 0
        self.why: str | None = None

    def prepare(self) -> None:
        """Sorts its hops by priority and by the line by which they come. At an end system all are low."""
        groups: dict[tuple[bool, Port | None], list[Hop]] = {}
        for hop in self.hops:
            high = hop.link.is_high and self.node.kind == "switch"
            groups.setdefault((high, hop.before.port if hop.before else None), []).append(hop)
        self.groups = {high: [(up, hops) for (is_high, up), hops in groups.items() if is_high == high] for high in (True, False)}
        # The sizes of a group do not change.
        self.greatest = {(high, up): max(hop.amount for hop in hops) for (high, up), hops in groups.items()}
        self.rates = {(high, up): sum(hop.rate for hop in hops) for (high, up), hops in groups.items()}

    def come(self, high: bool) -> list[Group]:
        """What can come of a priority, as groups."""
        found = []
        for up, hops in self.groups[high]:
            bursts: list[Any] = [hop.burst() for hop in hops]
            burst = None if None in bursts else sum(bursts)
            speed = up.speed if up else None
            found.append(Group(speed, self.greatest[high, up] * PARTS, burst, self.rates[high, up]))
        return found

    def look(self) -> None:
        """Works out the delays of all hops anew from what can come. Moments are whole, so what is less than 1 ns goes."""
        self.rounds += 1
        high, low = curve(self.come(True)), curve(self.come(False))
        if self.groups[True]:
            blocking = max((most for (is_high, _), most in self.greatest.items() if not is_high), default=0)
            longest = self.longest_first(high, blocking, True)
            self.set_delays(True, lambda hop: longest)
            starts = self.longest_behind(high, low)
            # Of one size all are alike: the bytes behind the last bit are no part of the delay.
            delays: Any = starts and {amount: start + (amount - GAP_BYTES) * self.byte_ns for amount, start in starts.items()}
            self.set_delays(False, lambda hop: delays and max(delays[amount] for amount in hop.frames.amounts))
        else:
            longest = self.longest_first(low, 0, False)
            self.set_delays(False, lambda hop: longest)

    def longest_first(self, pieces: list[Piece], blocking: int, high: bool) -> int | None:
        """The longest delay of frames that go first, in ns, where one frame of `blocking` bytes may be on the line. Both
        ways to count what comes hold, so the lesser answer does."""
        excess = peak(pieces, self.speed)
        if excess is None:
            return None
        excess = peak_of_frames([hop for _, hops in self.groups[high] for hop in hops], self.speed, excess)
        return (excess + blocking * PARTS) // self.speed - GAP_BYTES * self.byte_ns

    def longest_behind(self, high: list[Piece], low: list[Piece]) -> dict[int, int] | None:
        """For each size of low frames how long they may wait for their start, in ns, where high frames go first."""
        if high[-1].slope + low[-1].slope > self.speed:
            return None
        behind = BehindHigh(high, low, self.speed)
        ahead, after = ([hop for _, hops in self.groups[high] for hop in hops] for high in (True, False))
        found = {amount: behind.longest(amount * PARTS) for amount in {amount for hop in after for amount in hop.frames.amounts}}
        if not found or any(hop.spread is None for hop in self.hops):
            return found
        whole = WholeBehindHigh(ahead, after, self.speed, MOST_WHOLE // len(found))
        if whole.has_too_many:
            return found
        return {amount: whole.longest(amount * PARTS, most) for amount, most in found.items()}

    def set_delays(self, high: bool, delay: Callable[[Hop], int | None]) -> None:
        """Sets the delays of a priority. One that is longer than any run, or does not come to rest, has no end."""
        for _, hops in self.groups[high]:
            for hop in hops:
                found = None if self.rounds > MOST_ROUNDS else delay(hop)
                hop.delay = None if found is None or found > model.LATEST_NS else found

    def is_given_too_much(self) -> bool:
        """Whether more may come, of those that have no bound and those that go before them, than it can send."""
        is_low = any(hop.delay is None for _, hops in self.groups[False] for hop in hops)
        groups = self.come(True) + (self.come(False) if is_low else [])
        rates = [group.rate if group.speed is None else min(group.rate, group.speed) for group in groups]
        return sum(rates) > self.speed

    def waiting(self) -> int | None:
        """The greatest sum of the sizes of the frames that wait, in bytes, or None. The port has then been sending since
        a frame came that found it idle, and a frame that has been started does not wait."""
        joined: dict[Port | None, list[Group]] = {}
        for high in (True, False):
            for (up, _), group in zip(self.groups[high], self.come(high)):
                joined.setdefault(up, []).append(group)
        groups = []
        for parts in joined.values():
            bursts = [group.burst for group in parts]
            burst = None if None in bursts else sum(bursts)
            greatest = max(group.greatest for group in parts)
            groups.append(Group(parts[0].speed, greatest, burst, sum(group.rate for group in parts)))
        least = min(hop.frames.amounts[0] for hop in self.hops)
        excess = peak(curve(groups), self.speed, least * self.byte_ns)
        return None if excess is None else frames_of(excess // PARTS, least, max(self.greatest.values()))


def frames_of(amount: int, least: int, greatest: int) -> int:
    """The greatest sum of the sizes of frames that take together at most `amount` bytes of a line's time, and each from
    `least` to `greatest`."""
    if amount < least:
        return 0
    whole = amount // greatest
    rest = amount - whole * greatest - model.BYTES_BETWEEN_FRAMES
    return whole * (greatest - model.BYTES_BETWEEN_FRAMES) + max(0, rest)
