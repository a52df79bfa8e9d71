"""What can come to a port where frames are counted whole, whatever lines they come by, as holistic analysis counts them."""
import heapq
import itertools
import math
from bisect import bisect_left
from collections.abc import Iterator, Sequence
from typing import Any, Protocol

from afdx.model import VirtualLink
from afdx.reckon.arrival_curves import PARTS

LONGEST_BAG_NS = 128 * 10**6


class Sender(Protocol):
    @property
    def vl(self) -> VirtualLink: ...


class Flow(Protocol):
    """A virtual link at a port: what its greatest frame takes on the line, in bytes, what it sends in each ns, in parts of a byte, and
    by how much its frames may come there closer than a BAG, in ns; None: not known to have an end."""

    @property
    def link(self) -> Sender: ...

    @property
    def amount(self) -> int: ...

    @property
    def rate(self) -> int: ...

    @property
    def spread(self) -> Any: ...


def peak_of_frames(hops: Sequence[Flow], speed: int, most: int) -> int:
    """The same excess where frames are counted whole, whatever lines they come by, as holistic analysis does it: of a
    virtual link there come in t ns at most 1 + (t + spread) / BAG frames, cut to a whole number. It is taken where it is
    less than `most`, so what is not less is not looked at further; then the answer is `most`.

    The excess is greatest where a frame comes. Once all that came is sent, what comes later begins anew; and each BAG
    divides the longest one, so that where no more comes than the port sends, no excess after that is greater."""
    if any(hop.spread is None for hop in hops):
        return most
    came = sum((1 + hop.spread // hop.link.vl.bag_ns) * hop.amount for hop in hops) * PARTS
    if came >= most or sum(hop.rate for hop in hops) > speed:
        return most
    found, due = came, [(hop.link.vl.bag_ns - hop.spread % hop.link.vl.bag_ns, i) for i, hop in enumerate(hops)]
    heapq.heapify(due)
    while due[0][0] * speed < came and due[0][0] < LONGEST_BAG_NS:
        t, i = due[0]
        heapq.heapreplace(due, (t + hops[i].link.vl.bag_ns, i))
        came += hops[i].amount * PARTS
        found = max(found, came - t * speed)
        if found >= most:
            return most
    return found


class WholeFrames:
    """The frames of hops counted whole: of a virtual link there come in t ns at most 1 + (t + spread) / BAG, cut to a whole
    number. With spread = turns * BAG + rest the quotient is turns + t / BAG, and one more where rest and the rest of t make a
    BAG. So the rests of each BAG are sorted once, and a look at a moment takes no walk over all hops."""

    def __init__(self, hops: Sequence[Flow]) -> None:
        self.hops = hops
        self.parts: list[tuple[int, int, list[int], list[int]]] = []
        by_bag: dict[int, list[tuple[int, int, int]]] = {}
        for hop in hops:
            turns, rest = divmod(hop.spread, hop.link.vl.bag_ns)
            by_bag.setdefault(hop.link.vl.bag_ns, []).append((rest, hop.amount, turns))
        for bag, found in by_bag.items():
            found.sort()
            # The amounts of those from a place on.
            behind = [*itertools.accumulate((amount for _, amount, _ in reversed(found)), initial=0)][::-1]
            at_once = sum((1 + turns) * amount for _, amount, turns in found)
            self.parts.append((bag, at_once, behind, [rest for rest, _, _ in found]))

    def come(self, t: int) -> int:
        """What can come by t, in parts of a byte."""
        came = 0
        for bag, at_once, behind, rests in self.parts:
            turns, rest = divmod(t, bag)
            came += at_once + turns * behind[0] + behind[bisect_left(rests, bag - rest)]
        return came * PARTS


class WholeBehindHigh:
    """The longest waits for their start of low frames, where high frames go first and frames are counted whole.

    A frame that comes at t starts at x at the latest, where x is the first moment by which the port could have sent the low ones
    before it and the high ones that came until x. `moments` has those at which low frames come, and how much has come by then: up to
    the first low frame before which all is sent, since what comes from there on waits no longer than what came before. `has_too_many`:
    there are more than `most`."""

    def __init__(self, high: Sequence[Flow], low: Sequence[Flow], speed: int, most: int = LONGEST_BAG_NS) -> None:
        self.high, self.speed, self.most = high, speed, most
        whole, came = WholeFrames(high), WholeFrames(low).come(0)
        self.moments = [(0, came)]
        for t, amount in self.arrivals(low):
            if t >= LONGEST_BAG_NS or came + whole.come(t - 1) <= t * speed or len(self.moments) > most:
                break
            came += amount
            self.moments.append((t, came))
        self.has_too_many = len(self.moments) > most
        # Between two arrivals of high frames ever more low ones could be sent until x: for each such time its first moment, what
        # has come of the high ones, and how much of the low ones could be sent until its last moment, or until one before.
        self.begins, self.came = [0], [whole.come(0)]
        self.room: list[float] = []
        self.due = self.arrivals(high)

    @staticmethod
    def arrivals(hops: Sequence[Flow]) -> Iterator[tuple[int, int]]:
        """When the frames of hops come behind those that come at once, and how much comes then."""
        due = [(hop.link.vl.bag_ns - hop.spread % hop.link.vl.bag_ns, i) for i, hop in enumerate(hops)]
        heapq.heapify(due)
        while due:
            t, i = due[0]
            heapq.heapreplace(due, (t + hops[i].link.vl.bag_ns, i))
            yield t, hops[i].amount * PARTS

    def start(self, ahead: int) -> int:
        """The first moment, cut to whole ns, by which the low ones ahead and the high ones until then could have been sent."""
        while not self.room or self.room[-1] < ahead:
            # What comes until the next arrival; the room never falls.
            t, amount = next(self.due, (None, 0))
            room = math.inf if t is None else t * self.speed - 1 - self.came[-1]
            self.room.append(max(room, self.room[-1]) if self.room else room)
            if t is not None:
                self.begins.append(t)
                self.came.append(self.came[-1] + amount)
        place = bisect_left(self.room, ahead)
        return max(self.begins[place], (ahead + self.came[place]) // self.speed)

    def longest(self, frame: int, most: int) -> int:
        """The longest wait of a frame of this size in parts of a byte, in whole ns; `most` if it is not less."""
        found = 0
        for t, came in self.moments:
            wait = self.start(came - frame) - t
            if wait >= most:
                return most
            found = max(found, wait)
        return found
