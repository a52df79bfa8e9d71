"""The transmit jitter of end systems, as ARINC 664 Part 7 limits it: at the output of an end system the time from the begin
of a BAG to the first bit of the frame that is sent in it is at most

    40 us + the sum over its virtual links of (20 + Smax) * 8 bits / the speed of the line, and at most 500 us in all.

The 40 us are for the end system's own work, which this model does not have: there a frame that finds its port idle starts in
the moment of its release. So what is measured, and its bound, is the wait for frames of the other virtual links.
"""
from collections.abc import Callable
from fractions import Fraction
from typing import Any, NamedTuple

from afdx import model
from afdx.model import Network, VirtualLink

OWN_NS, MOST_NS = 40_000, 500_000
# How a cell is marked, as the page numbers it.
BAD = 2


class Allowed(NamedTuple):
    """Of the line by which an end system sends: how many virtual links it has, what the rule's sum gives in ns, and what is
    allowed, which is at most MOST_NS."""

    users: int
    sum_ns: int
    most_ns: int


# Answers the longest delay of a virtual link on a line in ns, or None.
Delay = Callable[[int, str], int | None]


def users_of(net: Network) -> dict[str, list[VirtualLink]]:
    """For each line by which an end system sends its virtual links."""
    found: dict[str, list[VirtualLink]] = {}
    for vl in net.vls.values():
        for line in vl.lines:
            if line.split(">")[0] == vl.source:
                found.setdefault(line, []).append(vl)
    return {line: found[line] for line in sorted(found, key=net.process.__getitem__)}


def jitters(net: Network, line: str, users: list[VirtualLink], delay: Delay) -> list[int | None]:
    """The jitter of each virtual link at such a line, of its longest delay from the arrival at the port to the last bit,
    which `delay` answers, or None. If it has frames of several sizes, the delay may be that of the least one."""
    delays = [(delay(vl.id, line), (vl.sizes[0] + 8) * 8000 // net.mbit[line]) for vl in users]
    return [None if longest is None else longest - own for longest, own in delays]


def allowed(net: Network, users: dict[str, list[VirtualLink]]) -> dict[str, Allowed]:
    """What is allowed at each of these lines."""
    found = {}
    for line, ones in users.items():
        bits = sum((model.BYTES_BETWEEN_FRAMES + vl.smax) * 8 for vl in ones)
        total = int(OWN_NS + Fraction(bits * 1000, net.mbit[line]))
        found[line] = Allowed(len(ones), total, min(total, MOST_NS))
    return found


class TransmitJitter:
    """The lines by which end systems send: what is allowed there, the greatest jitter that was measured, and its bound.
    `measured` and `bound` answer the longest delay of a virtual link on a line, or None; they may be None themselves."""

    def __init__(self, net: Network, measured: Delay | None = None, bound: Delay | None = None) -> None:
        self.users = users_of(net)
        self.allowed = allowed(net, self.users)
        self.is_measured, self.is_bounded = measured is not None, bound is not None
        of: Callable[[Delay | None], dict[str, list[int | None]]] = lambda ask: {line: jitters(net, line, ones, ask) for line, ones in self.users.items()} if ask else {}
        # Of what was not measured nothing is known; one without a bound is the greatest.
        self.measured = {line: max((it for it in ones if it is not None), default=None) for line, ones in of(measured).items()}
        self.bound = {line: None if None in ones else max(it for it in ones if it is not None) for line, ones in of(bound).items()}

    def is_above(self, line: str, jitter: int | None) -> bool:
        return jitter is not None and jitter > self.allowed[line].most_ns

    def is_broken(self, line: str) -> bool:
        """Whether the rule's sum is above 500 us, or the jitter above what is allowed, as far as it is known; one that has no
        bound is."""
        if self.is_bounded and self.bound[line] is None:
            return True
        known = (self.measured.get(line), self.bound.get(line))
        return self.allowed[line].sum_ns > MOST_NS or any(self.is_above(line, it) for it in known)

    def broken(self) -> list[str]:
        return [line for line in self.users if self.is_broken(line)]

    def columns(self) -> dict[str, list[Any]]:
        """The lines column by column, as the page has them, with the mark of each cell."""
        lines, mark = list(self.users), lambda is_bad: BAD if is_bad else 0
        found: dict[str, list[Any]] = {"line": lines, "users": [self.allowed[it].users for it in lines], "allowed": [self.allowed[it].most_ns for it in lines]}
        found["sum"] = [self.allowed[it].sum_ns for it in lines]
        found["sum_tone"] = [mark(self.allowed[it].sum_ns > MOST_NS) for it in lines]
        for name, is_there, of in (("jitter", self.is_measured, self.measured), ("jitter_bound", self.is_bounded, self.bound)):
            if is_there:
                found[name] = [of[it] for it in lines]
                found[name + "_tone"] = [mark(self.is_above(it, of[it])) for it in lines]
        return found
