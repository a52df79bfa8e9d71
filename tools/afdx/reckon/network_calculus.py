"""Worst-case bounds of a network, by network calculus in whole numbers: of the latency of each virtual link at each destination,
and of the bytes that wait at each output port. docs/TOOLS.md, section 12, states the rules; no proof speaks of them.
"""
from __future__ import annotations

import heapq
from collections.abc import Callable, Iterable, Iterator
from typing import Any

from afdx import model
from afdx.model import Network, VirtualLink
from afdx.reckon import transmit_jitter
from afdx.reckon.on_demand import OnDemand
from afdx.reckon.output_ports import Hop, Link, Port

# What a receiver can distinguish: a number up to 126 steps behind is one that was delivered before.
MOST_STEPS = 126


class Way:
    """The way of a virtual link on one network to one destination."""

    __slots__ = ("least", "longest", "why", "is_sure")

    def __init__(self, hops: list[Hop]) -> None:
        link = hops[0].link
        far = sum(hop.port.far_ns for hop in hops)
        self.least = far + sum(hop.least for hop in hops)
        delays: list[Any] = [hop.delay for hop in hops]
        self.longest = None if None in delays else far + sum(delays)
        self.why = next((hop.port.why for hop in hops if hop.delay is None), "")
        # Whether each frame arrives.
        self.is_sure = link.passes_all() and all(
            not hop.port.has_outage
            and hop.port.most is not None
            and hop.port.most <= hop.port.node.port_bytes
            and (hop.before is None or link.is_never_refused(hop.came))
            for hop in hops
        )


class Bounds:
    """The bounds of a network: `latencies` has for each virtual link and destination the bound from the offer on in ns,
    or None and why; `ports` the ports by line."""

    def __init__(self, net: Network) -> None:
        self.net = net
        self.ports: dict[str, Port] = {}
        # The hops of the virtual link that was asked for last, by the nodes that they leave.
        self.last_left: tuple[int | None, dict[str, Hop]] = (None, {})
        self.links = {vl.id: Link(vl) for vl in net.vls.values()}
        for link in self.links.values():
            self.add(link)
        for port in self.ports.values():
            port.prepare()
        self.settle()
        for port in self.in_order():
            port.most = port.waiting()
            if port.most is None or any(hop.delay is None for hop in port.hops):
                port.why = self.why(port)
        # The hops of each virtual link by line. For each virtual link and destination the way on each network, of those that frames
        # go to the end, and the bound. All that is kept of the last two is in the hops.
        self.hops = OnDemand(self.keys_of_hops, lambda vl, line: self.links[vl].hops[line])
        self.by_network = OnDemand(self.keys_of_ways, self.ways)
        self.latencies = OnDemand(self.keys, self.latency)

    def order(self, key: tuple[int, str]) -> tuple[int, int]:
        vl, where = key
        return vl, self.net.process[where]

    def keys(self) -> Iterator[tuple[int, str]]:
        """Each virtual link and destination, in the order of tables."""
        return self.in_order_of_tables(lambda link: link.vl.destinations)

    def keys_of_ways(self) -> Iterator[tuple[int, str]]:
        return self.in_order_of_tables(lambda link: link.vl.destinations if link.passes() else ())

    def keys_of_hops(self) -> Iterator[tuple[int, str]]:
        return self.in_order_of_tables(lambda link: link.hops)

    def in_order_of_tables(self, places_of: Callable[[Link], Iterable[str]]) -> Iterator[tuple[int, str]]:
        """Each virtual link by its number with each of some places."""
        for number in sorted(self.links):
            for place in sorted(places_of(self.links[number]), key=self.net.process.__getitem__):
                yield number, place

    def add(self, link: Link) -> None:
        """Adds a virtual link to the ports of its paths. A frame that is longer than Smax comes to the first switch."""
        for side, paths in link.vl.paths.items():
            for path in paths:
                before = None
                for here, there in zip(path, path[1:]):
                    if before is not None and not link.passes():
                        break
                    line = self.net.line_of[here, there]
                    hop = link.hops.get(line)
                    if hop is None:
                        port = self.ports.get(line) or self.ports.setdefault(line, Port(self.net, line))
                        hop = link.hops[line] = Hop(link, port, before)
                        port.hops.append(hop)
                    before = hop
                link.ends[path[-1]] = link.ends.get(path[-1], ()) + ((side, before),)

    def ways(self, vl: int, where: str) -> dict[str, Way]:
        """The way of a virtual link to a destination on each network."""
        link = self.links[vl]
        if not link.passes():
            raise KeyError((vl, where))
        found = {}
        for side, hop in link.ends[where]:
            hops = []
            while hop is not None:
                hops.append(hop)
                hop = hop.before
            found[side] = Way(hops[::-1])
        return found

    def leaves(self, vl: int, switch: str) -> Hop | None:
        """A hop by which a virtual link leaves a switch; None where it does not."""
        if self.last_left[0] != vl:
            self.last_left = vl, {hop.port.node.name: hop for hop in self.links[vl].hops.values()}
        return self.last_left[1].get(switch)

    def settle(self) -> None:
        """Looks at each port until no spread changes. It begins with none, and each look makes delays and spreads longer
        or leaves them: the least that fits is found. It bounds, as what comes to a port by a moment depends only on what
        left others earlier than that. Ports are looked at in the order of the ways as far as there is one."""
        order = {port: place for place, port in enumerate(self.in_order())}
        ports = sorted(order, key=order.__getitem__)
        due = list(range(len(ports)))
        waiting = set(due)
        while due:
            place = heapq.heappop(due)
            waiting.discard(place)
            port = ports[place]
            port.look()
            for hop in port.hops:
                for later in hop.after:
                    if later.take() and order[later.port] not in waiting:
                        waiting.add(order[later.port])
                        heapq.heappush(due, order[later.port])

    def in_order(self) -> list[Port]:
        """The ports, each before those to which its frames go on, where there is no circle."""
        following = {port: {later.port for hop in port.hops for later in hop.after} for port in self.ports.values()}
        found: list[Port] = []
        seen: set[Port] = set()
        for port in self.ports.values():
            stack = [(port, iter(following[port]))] if port not in seen else []
            seen.add(port)
            while stack:
                here, rest = stack[-1]
                there = next((it for it in rest if it not in seen), None)
                if there is None:
                    found.append(here)
                    stack.pop()
                else:
                    seen.add(there)
                    stack.append((there, iter(following[there])))
        return found[::-1]

    def why(self, port: Port) -> str:
        """Why hops of a port have no bound: too much may come; or a port before it, which is asked first, has none."""
        if port.is_given_too_much():
            return f"{port.line} may be given more than it can send"
        before = [hop.before.port.why for hop in port.hops if hop.spread is None and hop.before and hop.before.port.why]
        return before[0] if before else f"bursts grow round a circle of lines by {port.line}"

    def latency(self, vl: int, where: str) -> tuple[int | None, str | None]:
        """The bound from the offer on in ns, or None, and then why."""
        link = self.links[vl]
        if where not in link.vl.destinations:
            raise KeyError((vl, where))
        if not link.passes():
            return None, "no frame arrives: size is above smax"
        ways = list(self.by_network[vl, where].values())
        whys = [way.why for way in ways if way.longest is None]
        found: list[Any] = [] if whys else [max(way.longest for way in ways)]
        if len(ways) == 2:
            for way, other in (ways, ways[::-1]):
                if way.longest is not None and way.is_sure and self.is_known_as_copy(link.vl, way, other):
                    found.append(way.longest)
        return (min(found) + link.wait, "") if found else (None, whys[0])

    def of_kind(self, kind: str, vl: int, where: str) -> int | None:
        """The bound of what afdx second-opinion --hops measures, in ns or bytes; None where there is none."""
        if kind == "wait":
            return self.links[vl].wait
        if kind == "message":
            return self.latencies[vl, where][0]
        if kind == "network":
            return self.latencies[vl, where][0] and self.latencies[vl, where][0] - self.links[vl].wait
        if kind in ("network_a", "network_b"):
            way = self.by_network.get((vl, where), {}).get(kind[-1].upper())
            return way and way.longest
        if kind == "skew":
            return self.skew(vl, where)
        if kind == "delay":
            return self.hops[vl, where].delay
        return self.jitter(vl, where) if kind == "jitter" else self.ports[where].most

    def jitter(self, vl: int, switch: str) -> int | None:
        """By how much frames may come to a switch closer than a BAG in ns, counted from any earlier one; None where it has
        no bound, or where the switch passes no frame on."""
        hop = self.leaves(vl, switch)
        return hop.came if hop else None

    def skew(self, vl: int, where: str) -> int | None:
        """The longest time from the arrival of one copy of a frame to that of the other in ns; None where it has no bound,
        or where there is one network."""
        ways = list(self.by_network.get((vl, where), {}).values())
        if len(ways) < 2 or any(way.longest is None for way in ways):
            return None
        one, other = ways
        return max(one.longest - other.least, other.longest - one.least)

    @staticmethod
    def is_known_as_copy(vl: VirtualLink, way: Way, other: Way) -> bool:
        """Whether a frame by the other way, whose copy came by this way before, is always known as a copy."""
        if other.longest is None:
            return False
        earliest = min(way.least, other.least)
        return other.longest - way.least <= vl.skew_ns and other.longest - earliest <= MOST_STEPS * vl.bag_ns

    def bound(self, vl: int, where: str) -> int | None:
        return self.latencies[vl, where][0]

    # ---- what may go wrong in the worst case ----

    def sure(self, vl: int, where: str) -> str:
        """The networks by which each frame comes to a destination."""
        return "".join(side for side, way in self.by_network.get((vl, where), {}).items() if way.is_sure)

    def may_be_twice(self, vl: int, where: str) -> bool:
        """Whether the second copy of a frame may come so late that it is taken for a new one."""
        ways = list(self.by_network.get((vl, where), {}).values())
        known = self.is_known_as_copy
        return len(ways) == 2 and not all(known(self.links[vl].vl, *pair) for pair in (ways, ways[::-1]))

    def accounts(self) -> Iterator[tuple[int, str]]:
        """Each virtual link and switch whose account frames come to, in the order of tables."""
        return self.in_order_of_tables(lambda link: {hop.port.node.name for hop in link.hops.values() if hop.before is not None})

    def may_refuse(self, vl: int, switch: str) -> bool:
        return not self.links[vl].is_never_refused(self.jitter(vl, switch))

    # ---- as rows ----

    def rows(self) -> Iterator[dict[str, Any]]:
        """The rows of bounds.csv by columns, without those of the program: destinations, then accounts, then hops, then ports."""
        for (vl, where), (bound, why) in self.latencies.items():
            row: dict[str, Any] = {"vl": vl, "where": where, "bound_ns": said(bound), "wait_ns": self.links[vl].wait, "why": why}
            row["network_ns"] = said(self.of_kind("network", vl, where))
            for side in self.by_network.get((vl, where), {}):
                kind = f"network_{side.lower()}"
                row[kind + "_ns"] = said(self.of_kind(kind, vl, where))
            row["sure"], warnings = self.sure(vl, where), []
            if not row["sure"]:
                warnings.append("not_sure")
            if len(self.by_network.get((vl, where), {})) == 2:
                row |= {"skew_ns": said(self.skew(vl, where)), "skew_max_ns": self.links[vl].vl.skew_ns}
                warnings += ["delivered_twice"] if self.may_be_twice(vl, where) else []
            yield row | {"warning": " ".join(warnings)}
        for vl, switch in self.accounts():
            row = {"vl": vl, "where": switch, "jitter_ns": said(self.jitter(vl, switch))}
            row["policing_jitter_ns"] = self.links[vl].vl.policing_ns
            yield row | {"warning": "may_refuse" if self.may_refuse(vl, switch) else ""}
        for (vl, line), hop in self.hops.items():
            yield {"vl": vl, "where": line, "delay_ns": said(hop.delay), "why": hop.port.why if hop.delay is None else ""}
        transmit = transmit_jitter.TransmitJitter(self.net, bound=lambda vl, line: self.hops[vl, line].delay)
        for line in sorted(self.ports, key=self.net.process.__getitem__):
            port = self.ports[line]
            row = {"where": line, "waiting_bytes": said(port.most), "port_bytes": port.node.port_bytes}
            is_small = port.most is None or port.most > port.node.port_bytes
            warnings = ["too_small"] if is_small else []
            if line in transmit.users:
                row |= {"transmit_jitter_ns": said(transmit.bound[line]), "transmit_rule_ns": transmit.allowed[line].sum_ns}
                warnings += ["transmit_jitter"] if transmit.is_broken(line) else []
            yield row | {"why": port.why if port.most is None else "", "warning": " ".join(warnings)}


def said(number: object) -> str:
    return "none" if number is None else str(number)
