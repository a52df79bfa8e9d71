"""What a network is made of: nodes, links, outages, and virtual links with their paths."""
from __future__ import annotations

import collections.abc
from collections.abc import Iterable, Iterator, Mapping, Sequence
from typing import Any, NamedTuple

from afdx.model.drawn_offers import Stream


class Node(NamedTuple):
    """An end system ("es") or a switch. An end system has no network, and the latency 0."""

    name: str
    kind: str
    net: str | None
    latency_ns: int
    port_bytes: int


class Link(NamedTuple):
    """A link joins two nodes, in both directions; each direction is a line."""

    a: str
    b: str
    mbit: int
    propagation_ns: int


class Outage(NamedTuple):
    """The line is out from one moment on until before the other."""

    line: str
    from_ns: int
    to_ns: int


class VirtualLink(NamedTuple):
    """A virtual link: `row` is its row in the description; `policing_ns` the jitter that its accounts allow; `paths` has
    the paths of each network (A, B) as lists of names; `destinations` for each destination the networks (a, b) by which it
    comes; `lines` the lines that it goes over, each once; `places` answers whether it may be at a node or line; `streams` what is
    offered to its source, its own stream first, and `sizes` the sizes of these frames, rising."""

    id: int
    row: int
    bag_ns: int
    smax: int
    priority: str
    policing_ns: int
    policing: str
    skew_ns: int
    depth: int
    sub: int
    source: str
    paths: dict[str, list[list[str]]]
    destinations: dict[str, frozenset[str]]
    lines: list[str]
    places: Places
    streams: tuple[Stream, ...]
    sizes: tuple[int, ...]

    @property
    def own(self) -> Stream:
        """The stream of its own row."""
        return self.streams[0]

    def is_plain(self) -> bool:
        """Whether one application offers one frame each period, as long as the run lasts, with jitter."""
        return len(self.streams) == 1 and self.own.is_plain()

    def with_offsets(self, offsets: Mapping[int, int]) -> VirtualLink:
        """The same with other offsets of some streams, by their numbers."""
        return self._replace(streams=tuple(it._replace(offset_ns=offsets.get(it.number, it.offset_ns)) for it in self.streams))


def lines_of_path(path: Sequence[str]) -> list[str]:
    """The names of the lines between the nodes of a path."""
    return [before + ">" + after for before, after in zip(path, path[1:])]


# The networks by which a destination is reached: there are a million destinations and three such sets.
NETWORKS = {frozenset(it): frozenset(it) for it in ("a", "b", "ab")}


class Places:
    """The nodes and lines where a virtual link may be."""

    __slots__ = ("paths", "lines")

    def __init__(self, paths: dict[str, list[list[str]]], lines: list[str]) -> None:
        self.paths, self.lines = paths, lines

    def __contains__(self, place: object) -> bool:
        return place in self.lines or any(place in path for paths in self.paths.values() for path in paths)

    def __iter__(self) -> Iterator[str]:
        return iter({name for paths in self.paths.values() for path in paths for name in path}.union(self.lines))


class Destinations(collections.abc.Set):
    """Each virtual link by its number with each of its destinations."""

    def __init__(self, vls: dict[int, VirtualLink]) -> None:
        self.vls = vls

    @classmethod
    def _from_iterable(cls, found: Iterable[Any]) -> set[Any]:
        return set(found)

    def __contains__(self, key: object) -> bool:
        return type(key) is tuple and key[0] in self.vls and key[1] in self.vls[key[0]].destinations

    def __iter__(self) -> Iterator[tuple[int, str]]:
        return ((vl.id, where) for vl in self.vls.values() for where in vl.destinations)

    def __len__(self) -> int:
        return sum(len(vl.destinations) for vl in self.vls.values())
