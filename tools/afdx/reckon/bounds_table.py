"""Bounds by kind, virtual link and place, in arrays: a network of 65,536 virtual links has three million of them. The arrays are in the
order of tables, so that a page takes them as they are."""
from array import array
from collections.abc import Callable, Iterable, Iterator, Sequence
from typing import Any

from afdx.model import Network, VirtualLink

# A virtual link and a place.
Key = tuple[int, str]
# What is kept of a destination, a line and a switch of a virtual link.
OF_DESTINATIONS = ("bound", "bound_tool", "contract", "network", "network_a", "network_b", "skew", "flags")
OF_LINES, OF_SWITCHES = ("delay",), ("jitter", "refuses")
# The kinds whose numbers are small.
SMALL = ("flags", "refuses")
# What stands in an array for a number that is none, and for one that is not known.
NONE, ABSENT = -1, -2


def switches_of(net: Network, vl: VirtualLink) -> list[str]:
    """The switches of a virtual link, each once, in the order of tables."""
    names = {name for paths in vl.paths.values() for path in paths for name in path[1:-1]}
    return sorted((name for name in names if net.nodes[name].kind == "switch"), key=net.process.__getitem__)


class Places:
    """Places of virtual links, one behind the other, each with its number."""

    def __init__(self, links: Iterable[VirtualLink], names_of: Callable[[VirtualLink], Sequence[str]]) -> None:
        self.links, self.names_of = {vl.id: vl for vl in links}, names_of
        self.start: dict[int, int] = {}
        self.count = 0
        for vl in self.links.values():
            self.start[vl.id] = self.count
            self.count += len(names_of(vl))
        # The places of the virtual link that was asked for last.
        self.last: tuple[int | None, dict[str, int]] = (None, {})

    def numbers(self, vl: int) -> dict[str, int]:
        """The places of a virtual link, each with its number."""
        if self.last[0] != vl:
            begin = self.start[vl]
            self.last = vl, {name: begin + i for i, name in enumerate(self.names_of(self.links[vl]))}
        return self.last[1]

    def at(self, vl: int, where: str) -> int | None:
        return self.numbers(vl).get(where) if vl in self.start else None

    def __iter__(self) -> Iterator[Key]:
        return ((vl.id, name) for vl in self.links.values() for name in self.names_of(vl))


class BoundsTable:
    """The numbers of a network by kind, virtual link and place."""

    def __init__(self, net: Network) -> None:
        in_order = [net.vls[number] for number in sorted(net.vls)]
        by_process: Callable[[VirtualLink], list[str]] = lambda vl: sorted(vl.destinations, key=net.process.__getitem__)
        self.ends = Places(in_order, by_process)
        self.hops = Places(net.vls.values(), lambda vl: vl.lines)
        self.switches = Places(net.vls.values(), lambda vl: switches_of(net, vl))
        self.places = {kind: self.ends for kind in OF_DESTINATIONS} | {kind: self.hops for kind in OF_LINES}
        self.places |= {kind: self.switches for kind in OF_SWITCHES}
        self.columns: dict[str, array[int]] = {}

    def column(self, kind: str) -> "array[int]":
        """The numbers of a kind, in the order of its places."""
        found = self.columns.get(kind)
        if found is None:
            found = self.columns[kind] = array("b" if kind in SMALL else "q", [ABSENT]) * self.places[kind].count
        return found

    def put(self, kind: str, at: int, value: int | None) -> None:
        self.column(kind)[at] = NONE if value is None else value

    def number(self, kind: str, vl: int, where: str, absent: int | None = None) -> int | None:
        """What there is of a kind; None where it is none, and `absent` where nothing is known."""
        at = self.places[kind].at(vl, where)
        value = ABSENT if at is None or kind not in self.columns else self.columns[kind][at]
        return absent if value == ABSENT else None if value == NONE else value

    def keys_where(self, kind: str, holds: Callable[[int], Any]) -> list[Key]:
        """The places whose number of a kind is one of these."""
        return [key for key, value in zip(self.places[kind], self.columns.get(kind, ())) if value != ABSENT and holds(value)]

    def in_order_of(self, kind: str, keys: Iterable[Key]) -> "array[int]":
        """The numbers of a kind of destinations, in the order of some keys, which is hardly ever another one than its own."""
        keys, places = list(keys), self.places[kind]
        if len(keys) == places.count and all(own == other for own, other in zip(places, keys)):
            return self.column(kind)
        column = self.column(kind)
        return array(column.typecode, [ABSENT if (at := places.at(*key)) is None else column[at] for key in keys])
