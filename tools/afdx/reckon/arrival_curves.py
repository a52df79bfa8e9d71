"""What can come to a port in any time, as concave curves of pieces, and how late frames are sent for it."""
from bisect import bisect_left
from collections.abc import Iterable
from typing import Any, NamedTuple

# Each BAG divides the longest one. So in units of a byte by this many parts a rate is whole, and a line's speed too.
PARTS = 128 * 10**6


class Piece(NamedTuple):
    """The frames that can come in any time of t ns, in parts of a byte: `at + slope * t` where t is at most `last`, and later
    the next piece. A list of pieces is concave: slopes fall. The last one has no end: there `last` is None."""

    last: Any
    at: int
    slope: int


class Group(NamedTuple):
    """Frames that come to a port by one line, or straight from a regulator (then `speed` is None): the greatest of them, all
    that can come at once or None where it is not known, and how much comes in each ns, in parts of a byte."""

    speed: int | None
    greatest: int
    burst: Any
    rate: int


def curve(groups: Iterable[Group]) -> list[Piece]:
    """What can come by all groups together. What comes by a line in t ns, from one last bit to another, is at most one
    frame and what the line sends in t ns."""
    at, slope, knees = 0, 0, []
    for group in groups:
        if group.speed is None:
            at, slope = at + group.burst, slope + group.rate
            continue
        at, slope = at + group.greatest, slope + group.speed
        if group.burst is not None and group.rate < group.speed:
            more, less = group.burst - group.greatest, group.speed - group.rate
            knees.append((more // less, more, less))
    pieces = []
    for last, more, less in sorted(knees):
        pieces.append(Piece(last, at, slope))
        at, slope = at + more, slope - less
    return pieces + [Piece(None, at, slope)]


def peak(pieces: list[Piece], speed: int, first: int = 0) -> int | None:
    """The greatest excess, over all whole t from `first` on, of what can come over what a port has sent that sends
    `speed` in each ns. None where it has no end."""
    if pieces[-1].slope > speed:
        return None
    found, begin = 0, first
    for last, at, slope in pieces:
        if last is not None and last < begin:
            continue
        found = max(found, at + (slope - speed) * begin)
        if slope <= speed:
            break
        found, begin = max(found, at + (slope - speed) * last), last + 1
    return found


class BehindHigh:
    """Low frames at a port where high frames go first.

    Let the port be idle until 0, and a low frame come at t. It has started at x at the latest, where x is the first
    moment at which the port could have sent all low frames before it, which came until t, and all high frames that came
    until x. The least of the pieces of `high` decides, so x is the least of what they give. x - t is concave in t: it
    rises as long as what comes, high at x and low at t, is more than the port sends."""

    def __init__(self, high: list[Piece], low: list[Piece], speed: int) -> None:
        self.low, self.speed = low, speed
        self.lasts = [piece.last for piece in low[:-1]]
        self.high = [piece for piece in high if piece.slope < speed]
        # How much the low frames ahead may be at most so that a piece of `high` decides.
        self.ends = [
            (speed - here.slope) * (there.at - here.at) // (here.slope - there.slope) - here.at
            for here, there in zip(self.high, self.high[1:])
        ]

    def waits(self, frame: int, t: int) -> int:
        """x - t in whole ns, for a frame of this size in parts of a byte."""
        piece = self.low[bisect_left(self.lasts, t)]
        ahead = piece.at + piece.slope * t - frame
        piece = self.high[bisect_left(self.ends, ahead)]
        return (ahead + piece.at) // (self.speed - piece.slope) - t

    def longest(self, frame: int) -> int:
        """The greatest x - t. It is at a moment where a piece of either ends, or next to it."""

        def falls(place: int) -> bool:
            piece = self.low[place]
            high = self.high[bisect_left(self.ends, piece.at + piece.slope * piece.last - frame)]
            return piece.slope + high.slope <= self.speed

        place = bisect_left(range(len(self.lasts)), True, key=falls)
        piece = self.low[place]
        begin = self.lasts[place - 1] if place else 0
        moments = {begin, begin + 1}
        bend = bisect_left(self.high, True, key=lambda high: piece.slope + high.slope <= self.speed)
        if bend:
            meets = (self.ends[bend - 1] + frame - piece.at) // piece.slope
            moments.update((meets, meets + 1, meets + 2))
        if piece.last is not None:
            moments = {t for t in moments if t < piece.last} | {piece.last}
        return max(self.waits(frame, t) for t in moments if t >= begin)
