"""What afdx second-opinion --hops has measured on the way, as a file of a run, and beside it what afdx bounds reckons."""
import functools
import itertools
from collections.abc import Callable, Collection, Iterable, Iterator, Sequence
from typing import Any, NamedTuple

from afdx import model
from afdx.files import Fault
from afdx.model import Network, Tables, VirtualLink

HOPS_HEAD = "kind,vl,where,count,least,greatest,sum"
KINDS = ["wait", "message", "network", "network_a", "network_b", "skew", "delay", "jitter", "backlog"]


class Measured(NamedTuple):
    """Of what was measured: how often, the least, the greatest and the sum; and the line of the file."""

    count: int  # type: ignore[assignment]
    least: int
    greatest: int
    total: int
    line: int


class Hops:
    """What was measured in the run whose tables are given, by kind, virtual link (None: of all) and place."""

    def __init__(self, path: str, tables: Tables) -> None:
        self.path, self.net = path, tables.net
        self.of: dict[tuple[str, int | None, str], Measured] = {}
        if tables.merged:
            raise Fault(path, None, f"is of one run, and {tables.path} has several")
        lines = model.lines_of(path, [HOPS_HEAD], "what --hops writes")
        for i, line in enumerate(lines[1:], 2):
            fields = line.split(",")
            if len(fields) != 7:
                raise Fault(path, i, f"has {len(fields)} fields in place of 7")
            self.add(i, *fields)
        self.compare(tables, len(lines))

    def add(self, i: int, kind: str, vl: str, where: str, *numbers: str) -> None:
        if kind not in KINDS:
            raise Fault(self.path, i, f"{kind!r} is nothing that is measured")
        number = model.whole_number(self.path, i, "the virtual link", vl) if vl else None
        count, least, greatest, total = (model.whole_number(self.path, i, name, text) for name, text in zip(HOPS_HEAD.split(",")[3:], numbers))
        if where not in (self.net.mbit if number is None else self.places(kind, number)):
            of = "the network" if number is None else f"virtual link {number}"
            raise Fault(self.path, i, f"{where!r} is no place of {of} in {self.net.path} where {kind} is measured")
        key = kind, number, where
        if key in self.of:
            raise Fault(self.path, i, f"says again what line {self.of[key].line} says")
        found = Measured(count, least, greatest, total, i)
        if not 0 < found.count or not found.count * found.least <= found.total <= found.count * found.greatest:
            raise Fault(self.path, i, f"{found.count} times from {found.least} to {found.greatest} cannot have the sum {found.total}")
        self.of[key] = found

    def places(self, kind: str, vl: int) -> Collection[str]:
        """Where a kind is measured of a virtual link."""
        link = self.net.vls.get(vl)
        if link is None or kind == "backlog":
            return ()
        if kind == "wait":
            return (link.source,)
        if kind == "delay":
            return link.lines
        if kind == "jitter":
            return [name for name in link.places if name in self.net.nodes and self.net.nodes[name].kind == "switch"]
        return link.destinations

    def compare(self, tables: Tables, last: int) -> None:
        """Refuses what was measured in another run than that of the tables."""
        for row in tables.latencies.values():
            network = self.of.get(("network", row.vl, row.where))
            wait: Any = self.of.get(("wait", row.vl, self.net.vls[row.vl].source))
            count = network.count if network else 0
            if count != row.count:
                text = f"{count} frames of virtual link {row.vl} came to {row.where}, and line {row.line} of {tables.path} has {row.count}"
            elif network and count and not network.greatest <= row.greatest <= network.greatest + wait.greatest:
                text = f"no latency of virtual link {row.vl} at {row.where} can be {row.greatest} ns, as line {row.line} of {tables.path} has it"
            else:
                continue
            raise Fault(self.path, network.line if network else last, f"{text}: it is of another run")

    def greatest(self, kind: str, vl: int | None, where: str) -> int | None:
        found = self.of.get((kind, vl, where))
        return found and found.greatest


# ---- measured beside bounds ----

# Answers what there is of a kind, a virtual link or None, and a place; None where nothing is.
Ask = Callable[[str, Any, str], int | None]

# The columns of a table by name.
Columns = dict[str, Iterable[Any]]
# Asks each virtual link and each of its destinations, and answers each number of a virtual link with what was said.
OfEach = Callable[[Callable[[VirtualLink, str], Any]], Iterator[tuple[int, Any]]]

# How a cell is marked, as the page numbers it.
BAD = 2


def tone(measured: int | None, bound: int | None) -> int:
    return BAD if measured is not None and bound is not None and measured > bound else 0


class Column:
    """The values of a column, worked out each time that they are asked for: of hops there may be a million."""

    def __init__(self, make: Callable[..., Iterator[Any]]) -> None:
        self.make = make

    def __iter__(self) -> Iterator[Any]:
        return self.make()


def unmeasured(kind: str, bounds: Sequence[int]) -> Columns:
    """The columns of a kind of which nothing was measured, by its bounds, of which those below 0 are none."""
    count = len(bounds)
    return {
        kind: Column(lambda: itertools.repeat(None, count)),
        kind + "_bound": Column(lambda: (None if it < 0 else it for it in bounds)),
        kind + "_tone": Column(lambda: itertools.repeat(0, count)),
    }


class OnTheWay:
    """What was measured on the way beside its bound, each of which may be absent, column by column: of destinations,
    of hops, of switches and of ports. `bound` answers that of a kind, a virtual link and a place, or None; `ends` has the virtual
    links with their destinations in order. `whole` has all bounds of a kind in the order of its places, those below 0 for none."""

    def __init__(
        self, net: Network, hops: Hops | None, bound: Ask | None, ends: Collection[tuple[int, str]],
        whole: Callable[[str], Sequence[int] | None] = lambda _: None,
    ) -> None:
        self.ends, self.whole = ends, whole
        self.net, self.is_measured, self.is_bounded = net, hops is not None, bound is not None
        self.measured: Ask = hops.greatest if hops else lambda *_: None
        self.bound: Ask = bound or (lambda *_: None)

    def columns(self, kinds: list[str], places: Callable[[], Iterator[tuple[Any, Any]]], names: Sequence[str | None]) -> Columns:
        """The columns of places, each a virtual link or None and a name, as they are yielded: those of these names, and for each kind what was
        measured, its bound and its mark."""
        found: Columns = {name: Column(lambda i=i: (place[i] for place in places())) for i, name in enumerate(names) if name}
        for kind in kinds:
            own = None if self.is_measured else self.whole(kind)
            if own is not None:
                found |= unmeasured(kind, own)
                continue
            measured, bound = (functools.partial(ask, kind) for ask in (self.measured, self.bound))
            found[kind] = Column(lambda ask=measured: (ask(*place) for place in places()))
            found[kind + "_bound"] = Column(lambda ask=bound: (ask(*place) for place in places()))
            both: Callable[..., Iterator[int]] = lambda measured=measured, bound=bound: (tone(measured(*place), bound(*place)) for place in places())
            found[kind + "_tone"] = Column(both)
        return found

    def destinations(self) -> Columns:
        of_each: OfEach = lambda ask: ((vl, ask(self.net.vls[vl], where)) for vl, where in self.ends)
        found = self.columns(["network", "network_a", "network_b", "skew"], lambda: of_each(lambda _, where: where), ["vl", "where"])
        waits = self.columns(["wait"], lambda: of_each(lambda vl, _: vl.source), [])
        return found | waits | {"skew_max": Column(lambda: (found for _, found in of_each(lambda vl, _: vl.skew_ns)))}

    def hops(self) -> Columns:
        places = lambda: ((vl.id, line) for vl in self.net.vls.values() for line in vl.lines)
        return self.columns(["delay"], places, ["vl", "line"])

    def switches(self) -> Columns:
        switches = {node.name for node in self.net.nodes.values() if node.kind == "switch"}
        in_order: Callable[[VirtualLink], list[str]] = lambda vl: sorted(switches.intersection(vl.places), key=self.net.process.__getitem__)
        places = lambda: ((vl.id, name) for vl in self.net.vls.values() for name in in_order(vl))
        allowed = Column(lambda: (self.net.vls[vl].policing_ns for vl, _ in places()))
        return self.columns(["jitter"], places, ["vl", "where"]) | {"allowed": allowed}

    def ports(self) -> Columns:
        places = [(None, line) for line in self.net.mbit if self.net.users[line]]
        holds = [self.net.nodes[line.split(">")[0]].port_bytes for _, line in places]
        return self.columns(["backlog"], lambda: iter(places), [None, "line"]) | {"holds": holds}

    def above(self) -> int:
        """How often something measured is above its bound."""
        is_compared = self.is_measured and self.is_bounded
        tables = [self.destinations(), self.hops(), self.switches(), self.ports()] if is_compared else []
        return sum(mark == BAD for table in tables for key, marks in table.items() if key.endswith("_tone") for mark in marks)
