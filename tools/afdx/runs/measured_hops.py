"""What happens on the way of frames in a run of the plain simulator: afdx second-opinion --hops writes it."""
from collections import Counter
from collections.abc import Iterator, Mapping
from typing import Any

from afdx import model
from afdx.reckon.hops import HOPS_HEAD, KINDS
from afdx.runs.plain_simulator import Frame, Simulation


class Tally:
    """Of what was measured: how often, the least, the greatest and the sum."""

    __slots__ = ("count", "least", "greatest", "total")

    def __init__(self, value: int) -> None:
        self.count, self.least, self.greatest, self.total = 1, value, value, value

    def add(self, value: int) -> None:
        self.count += 1
        self.least = min(self.least, value)
        self.greatest = max(self.greatest, value)
        self.total += value


class Measured(Simulation):
    """A run that also measures what happens on the way: `found` has a tally for each kind, virtual link (None: of all) and
    place. Times are in ns, what waits is in bytes."""

    def __init__(self, net: Mapping[str, Any]) -> None:
        self.found: dict[tuple[str, int | None, int], Tally] = {}
        # When a frame came to a port, when its first copy came to a destination, and for each virtual link at a switch
        # the last arrival with by how much it came closer than a BAG.
        self.came: dict[tuple[int, Frame], int] = {}
        self.first: dict[tuple[int, tuple[int, ...]], int] = {}
        self.arrived: dict[tuple[int, int], tuple[int, int]] = {}
        super().__init__(net)
        # How many frames of a virtual link with bursts are offered at a moment, and how many of them came to a destination.
        streams = model.streams_of(net.get("vl", []), net.get("stream", []))
        bursts = {vl for vl, ones in streams.items() if any(it.frames > 1 for it in ones)}
        self.offered = Counter((fields[0], time) for time, _, _, _, _, fields in self.heap if fields[0] in bursts)
        self.come: Counter[tuple[int, int, int]] = Counter()

    def measure(self, kind: str, vl: int | None, place: int, value: int) -> None:
        tally = self.found.get((kind, vl, place))
        if tally is None:
            self.found[kind, vl, place] = Tally(value)
        else:
            tally.add(value)

    def release(self, t: int, vl: int, q: int, frame: Frame) -> Frame:
        self.measure("wait", vl, self.source[vl], t - frame.offered)
        return super().release(t, vl, q, frame)

    def put(self, t: int, p: int, q: int, frame: Frame, high: bool) -> None:
        lost = len(self.rows)
        super().put(t, p, q, frame, high)
        line = self.out[p, q]
        self.measure("backlog", None, line, self.ports[p, q].waiting_bytes())
        if len(self.rows) == lost:
            self.came[line, frame] = t

    def handle(self, t: int, p: int, variant: str, fields: tuple[Any, ...]) -> None:
        if variant == "Carry":
            (frame,) = fields
            self.measure("delay", frame.vl, p, t - self.came.pop((p, frame)))
        elif variant == "Arrive":
            frame = fields[1]
            if self.nodes[p]["kind"] == "es":
                self.comes(t, p, frame)
            else:
                self.comes_closer(t, p, frame.vl)
        super().handle(t, p, variant, fields)

    def comes(self, t: int, p: int, frame: Frame) -> None:
        """A copy comes to a destination."""
        vl = frame.vl
        self.measure("network_a" if frame.net == "A" else "network_b", vl, p, t - frame.released)
        first = self.first.pop((p, frame[:5]), None)
        if first is not None:
            self.measure("skew", vl, p, t - first)
        elif len(self.destinations[vl, p]) > 1:
            self.first[p, frame[:5]] = t

    def comes_closer(self, t: int, p: int, vl: int) -> None:
        """A frame comes to a switch: the jitter is by how much frames came closer than a BAG, counted from any earlier one."""
        before = self.arrived.get((vl, p))
        closer = 0 if before is None else max(0, before[1] + self.vls[vl]["bag_ms"] * 10**6 - (t - before[0]))
        self.arrived[vl, p] = t, closer
        self.measure("jitter", vl, p, closer)

    def deliver(self, t: int, p: int, frame: Frame) -> None:
        super().deliver(t, p, frame)
        self.measure("network", frame.vl, p, t - frame.released)
        if (frame.vl, frame.offered) in self.offered:
            self.message(t, p, frame)

    def message(self, t: int, p: int, frame: Frame) -> None:
        """A frame of a message is delivered; the message is whole with as many frames as were offered at its moment."""
        key = p, frame.vl, frame.offered
        self.come[key] += 1
        if self.come[key] == self.offered[frame.vl, frame.offered]:
            self.measure("message", frame.vl, p, t - frame.offered)

    def hops(self) -> Iterator[str]:
        """The lines of what was measured."""
        yield HOPS_HEAD
        order = lambda key: (KINDS.index(key[0]), -1 if key[1] is None else key[1], key[2])
        for kind, vl, place in sorted(self.found, key=order):
            it = self.found[kind, vl, place]
            numbers = it.count, it.least, it.greatest, it.total
            yield "%s,%s,%s,%d,%d,%d,%d" % (kind, "" if vl is None else vl, self.names[place], *numbers)
