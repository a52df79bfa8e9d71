"""What the model allows at a tap: how close frames of a virtual link may come, how long they take from one tap to another, and
whether the description itself lets frames be lost on the way."""
from collections.abc import Callable
from typing import NamedTuple

from afdx.model import Network, VirtualLink, lines_of_path
from afdx.reckon import bounds_file, network_calculus, transmit_jitter
from afdx.reckon.port_fill import Comer, PortFill

# By how much the clock of a source or of a tap may be fast or slow, in parts of a million: Ethernet allows as much.
CLOCK_PPM = 100
# Preamble and start of a frame, which a line carries before its first byte.
BYTES_BEFORE = 8

Bounds = bounds_file.Bounds | network_calculus.Bounds


class Transit(NamedTuple):
    """From one line to a later one: the greatest time in ns, or None, and the least, for frames of no bytes, with how many ns each byte
    adds."""

    most: int | None
    least: int
    each_byte: int

    def least_of(self, size: int) -> int:
        return self.least + size * self.each_byte


class TapLimits:
    """The limits at the lines of a network, by bounds of `afdx bounds`, or of their file."""

    def __init__(self, net: Network, bounds: Bounds) -> None:
        self.net, self.bounds = net, bounds
        self.transmit = transmit_jitter.TransmitJitter(net)
        # The ways to the lines of each virtual link that was asked for, and what can wait at ports.
        self.ways: dict[int, dict[str, list[str]]] = {}
        self.fills: dict[str, PortFill | None] = {}
        self.small = set(bounds.too_small()) if isinstance(bounds, bounds_file.Bounds) else {
            line for line, port in bounds.ports.items() if port.most is None or port.most > port.node.port_bytes
        }

    # ---- numbers of bounds ----

    def known(self, ask: Callable[[], int | None]) -> int | None:
        """A number, None where the bounds have none, also since no frame comes there."""
        try:
            return ask()
        except KeyError:
            return None

    def delay(self, vl: VirtualLink, line: str) -> int | None:
        return self.known(lambda: self.bounds.of_kind("delay", vl.id, line))

    def may_refuse(self, vl: VirtualLink, switch: str) -> bool:
        if isinstance(self.bounds, bounds_file.Bounds):
            return bool(self.bounds.table.number("refuses", vl.id, switch))
        return self.bounds.may_refuse(vl.id, switch)

    # ---- the ways ----

    def way_to(self, vl: VirtualLink, line: str) -> list[str]:
        """The lines of a virtual link from its source to a line, which is the last of them."""
        if vl.id not in self.ways:
            self.ways[vl.id] = {}
            for path in (path for paths in vl.paths.values() for path in paths):
                lines = lines_of_path(path)
                for i, one in enumerate(lines, 1):
                    self.ways[vl.id].setdefault(one, lines[:i])
        return self.ways[vl.id].get(line, [])

    def byte_ns(self, line: str) -> int:
        return 8000 // self.net.mbit[line]

    def least(self, vl: VirtualLink, line: str) -> int:
        """The least time from the start of a frame on a line to its last bit."""
        return (vl.sizes[0] + BYTES_BEFORE) * self.byte_ns(line)

    def spacing(self, vl: VirtualLink, line: str) -> int | None:
        """By how much frames may come closer than a BAG at a line, in ns; None where that has no bound. The source has the transmit
        jitter that ARINC 664 Part 7 allows, where the model has less."""
        way = self.way_to(vl, line)
        delay = self.delay(vl, line)
        before = 0 if len(way) == 1 else self.known(lambda: self.bounds.of_kind("jitter", vl.id, line.split(">")[0]))
        if delay is None or before is None:
            return None
        first = self.delay(vl, way[0])
        own = 0 if first is None else first - self.least(vl, way[0])
        return before + delay - self.least(vl, line) + max(0, self.transmit.allowed[way[0]].most_ns - own)

    def transit(self, vl: VirtualLink, line: str, later: str) -> Transit:
        """From one line of a virtual link to a later one. A tap may stand at either end of a cable, and stamp frames at their first
        bit or their last one."""
        way = self.way_to(vl, later)
        lines = way[way.index(line) + 1 :]
        latency = sum(self.net.nodes[it.split(">")[0]].latency_ns for it in lines)
        between = sum(self.net.propagation_ns[it] for it in lines[:-1])
        faster = self.byte_ns(line) - self.byte_ns(later)
        each_byte = sum(map(self.byte_ns, lines)) + min(0, faster)
        least = latency + between + BYTES_BEFORE * each_byte
        delays = [self.delay(vl, it) for it in lines]
        known = [it for it in delays if it is not None]
        if len(known) < len(delays):
            return Transit(None, least, each_byte)
        ends = self.net.propagation_ns[line] + self.net.propagation_ns[later]
        most = latency + between + ends + sum(known) + max(0, faster) * (vl.sizes[-1] + BYTES_BEFORE)
        return Transit(most, least, each_byte)

    # ---- what the description itself allows ----

    def most_in_outages(self, vl: VirtualLink, lines: list[str]) -> tuple[int, int | None]:
        """How many outages lines have, and how many frames of a virtual link these lose at most, None where that has no bound."""
        found = [it for it in self.net.outages if it.line in lines]
        early = [self.spacing(vl, it.line) for it in found]
        if None in early:
            return len(found), None
        return len(found), sum((it.to_ns - it.from_ns + (ns or 0)) // (vl.bag_ns - vl.bag_ns * CLOCK_PPM // 10**6) + 1 for it, ns in zip(found, early))

    def is_dropped_as_too_long(self, vl: VirtualLink, way: list[str]) -> bool:
        """Whether NET has frames of a virtual link above Smax, and the first switch on this part of its way, which drops them."""
        return vl.sizes[-1] > vl.smax and any(len(self.way_to(vl, it)) == 2 for it in way)

    def full_ports(self, vl: VirtualLink, way: list[str]) -> list[str]:
        """The lines of a part of its way whose port may have no room for a frame of a virtual link by the bounds."""
        return [line for line in way if line in self.small and not self.has_room(vl, line)]

    def has_room(self, vl: VirtualLink, line: str) -> bool:
        """Whether the port before a line, though it may be too small, has room for each frame of a virtual link."""
        if line not in self.fills:
            self.fills[line] = self.fill(line)
        fill = self.fills[line]
        return fill is not None and fill.has_room_for(self.sizes_at(vl, line)[-1])

    def sizes_at(self, vl: VirtualLink, line: str) -> tuple[int, ...]:
        """The sizes of its frames that come to the port before a line: the first switch drops those above Smax."""
        return tuple(size for size in vl.sizes if size <= vl.smax) if len(self.way_to(vl, line)) > 1 else vl.sizes

    def fill(self, line: str) -> PortFill | None:
        """What can wait at the port before a line; None where the bounds do not limit what comes."""
        here = line.split(">")[0]
        is_switch = self.net.nodes[here].kind == "switch"
        comers = []
        for vl in self.net.vls.values():
            sizes = self.sizes_at(vl, line) if line in vl.lines else ()
            early = self.known(lambda: self.bounds.of_kind("jitter", vl.id, here)) if is_switch else 0
            if sizes and early is None:
                return None
            if sizes:
                comers.append(Comer(vl, is_switch and vl.priority == "high", sizes, early or 0))
        return PortFill(self.net, line, comers)

    def refusing(self, vl: VirtualLink, way: list[str]) -> list[tuple[str, str]]:
        """The switches on a part of its way whose account may refuse frames of a virtual link by the bounds, each with the line by which
        they come to it."""
        found = [(line.split(">")[0], self.way_to(vl, line)[-2:-1]) for line in way]
        return [(switch, before[0]) for switch, before in found if before and self.may_refuse(vl, switch)]

    def skew(self, vl: VirtualLink, where: str) -> int | None:
        """The longest time between the copies of a frame at a destination in the worst case, or None."""
        return self.known(lambda: self.bounds.of_kind("skew", vl.id, where))
