"""Shortest ways of virtual links over the switches of a network."""
from collections.abc import Mapping
from typing import Any

# Who is linked with whom on a network, and which of them are switches.
Reach = tuple[dict[str, list[str]], set[str]]


def ways_from(source: str | None, beside: Mapping[str, list[str]], switches: set[str], via: frozenset[str]) -> dict[str, str]:
    """For each node that is reached from the source by switches, the node before it on a shortest way. Of several the
    first by name is taken, and before all those of `via`."""
    before: dict[str, str] = {}
    reached = {source}
    ring: list[Any] = [source]
    while ring:
        found: dict[str, list[str]] = {}
        for here in ring:
            for there in beside.get(here, []):
                if there not in reached and (here == source or here in switches):
                    found.setdefault(there, []).append(here)
        for there, ones in found.items():
            before[there] = min(ones, key=lambda name: (name not in via, name))
        reached.update(found)
        ring = sorted(found)
    return before


class Ways:
    """The shortest ways on both networks, each computed once."""

    def __init__(self, networks: Mapping[str, Reach]) -> None:
        self.networks = networks
        self.of: dict[tuple[str, str | None, frozenset[str]], dict[str, str]] = {}

    def linked(self) -> set[str]:
        """The nodes that have a link on a network."""
        return {*self.networks["A"][0], *self.networks["B"][0]}

    def way(self, net: str, source: str | None, name: str, via: frozenset[str]) -> list[str] | None:
        """The nodes from a source to a destination, or None."""
        if (net, source, via) not in self.of:
            beside, switches = self.networks[net]
            self.of[net, source, via] = ways_from(source, beside, switches, via)
        before = self.of[net, source, via]
        path = [name]
        while path[-1] in before and len(path) <= len(before) + 1:
            path.append(before[path[-1]])
        return path[::-1] if len(path) > 1 and path[-1] == source else None
