"""The network that a description describes, with its paths and loads."""
from __future__ import annotations

from collections import Counter
from collections.abc import Iterator
from fractions import Fraction
from typing import Any, NoReturn

from afdx.files import toml_lines
from afdx.model import drawn_offers, offered_rates
from afdx.model.description import Description
from afdx.model.drawn_offers import Offer, Stream
from afdx.model.keys import KEYS, SPEEDS_MBIT, Key
from afdx.model.network_parts import NETWORKS, Destinations, Link, Node, Outage, Places, VirtualLink

# How many bytes of a line's time a frame takes beyond its own: preamble, start delimiter and the gap between frames.
BYTES_BETWEEN_FRAMES = 20


class Network:
    """What a description describes. It does not judge the description as the program does: `afdxsim check` does that.
    A description that has not the keys, or names what is not there, is refused."""

    def __init__(self, path: str, text: str | None = None, description: Description | None = None) -> None:
        self.path = path
        self.description = description or Description(path, text)
        self.text = self.description.text
        for key in KEYS["top"]:
            self.value(self.description.tree, "top", None, key)
        self.until_ns, self.seed = self.description.tree["until_ns"], self.description.tree["seed"]
        if self.until_ns < 1:
            self.refuse("top", None, "until_ns", "is less than 1")
        self.nodes: dict[str, Node] = {}
        for i, row in enumerate(self.rows("node"), 1):
            self.add_node(i, row)
        # For each line its speed in Mbit/s, and its propagation time in ns.
        self.links: list[Link] = []
        self.mbit: dict[str, int] = {}
        self.propagation_ns: dict[str, int] = {}
        for i, row in enumerate(self.rows("link"), 1):
            self.add_link(i, row)
        self.process = {name: i for i, name in enumerate([*self.nodes, *self.mbit])}
        self.outages = [self.outage(i, row) for i, row in enumerate(self.rows("outage"), 1)]
        # Each line by its two nodes, so that its name is kept once.
        both_ways = [ends for link in self.links for ends in ((link.a, link.b), (link.b, link.a))]
        self.line_of: dict[tuple[str, str], str] = dict(zip(both_ways, self.mbit))
        further = self.further_streams()
        self.vls: dict[int, VirtualLink] = {}
        for i, row in enumerate(self.rows("vl"), 1):
            if row["id"] in self.vls:
                self.refuse("vl", i, "id", f"{row['id']} was there before")
            self.vls[row["id"]] = self.virtual_link(i, row, further.pop(row["id"], []))
        for of, streams in further.items():
            self.refuse("stream", streams[0].row, "vl", f"is {of}, which is no virtual link")
        self.destinations = Destinations(self.vls)
        self.load, self.users = self.loads()

    def refuse(self, section: str, row: int | None, key: str | None, text: str) -> NoReturn:
        raise self.description.fault(section, row, key, text)

    def value(self, table: dict[str, Any], section: str, row: int | None, key: Key) -> Any:
        """The value of a key of a row, which has to be there where it is needed, and of its type."""
        if key.name not in table:
            if key.is_needed(table):
                self.refuse(section, row, key.name, "is missing")
            return key.usual
        if type(table[key.name]) is not key.python_type():
            self.refuse(section, row, key.name, "has another kind than it must have")
        return table[key.name]

    def rows(self, section: str) -> Iterator[dict[str, Any]]:
        """The rows of a section as dictionaries, one by one; what may be absent has its usual value."""
        rows = self.description.rows(section)
        if type(rows) is not toml_lines.Array:
            self.refuse(section, None, None, "is no list")
        for i, row in enumerate(rows, 1):
            if type(row) is not toml_lines.Table:
                self.refuse(section, i, None, "is no table")
            yield {key.name: self.value(row, section, i, key) for key in KEYS[section]}

    def add_node(self, i: int, row: dict[str, Any]) -> None:
        if row["name"] in self.nodes:
            self.refuse("node", i, "name", f"{row['name']} was there before")
        if row["kind"] not in ("es", "switch"):
            self.refuse("node", i, "kind", 'is neither "es" nor "switch"')
        net, latency = None, 0
        if row["kind"] == "switch":
            net, latency = row["net"], row["latency_ns"]
            if net not in ("A", "B"):
                self.refuse("node", i, "net", 'is neither "A" nor "B"')
        self.nodes[row["name"]] = Node(row["name"], row["kind"], net, latency, row["port_bytes"])

    def add_link(self, i: int, row: dict[str, Any]) -> None:
        for key in "ab":
            if row[key] not in self.nodes:
                self.refuse("link", i, key, f"names {row[key]}, which is no node")
        a, b = row["a"], row["b"]
        nets = {self.nodes[end].net for end in (a, b)} - {None}
        if a == b or len(nets) != 1:
            self.refuse("link", i, "b", "joins two nodes that no link can join")
        if row["mbit"] not in SPEEDS_MBIT:
            self.refuse("link", i, "mbit", "is none of 10, 100 and 1000")
        if a + ">" + b in self.mbit:
            self.refuse("link", i, "b", f"has a link of {a} and {b} once more")
        self.links.append(Link(a, b, row["mbit"], row["propagation_ns"]))
        for line in (a + ">" + b, b + ">" + a):
            self.mbit[line], self.propagation_ns[line] = row["mbit"], row["propagation_ns"]

    def outage(self, i: int, row: dict[str, Any]) -> Outage:
        line = row["from"] + ">" + row["to"]
        if line not in self.mbit:
            self.refuse("outage", i, "to", f"names {line}, which is no line")
        if row["from_ns"] >= row["to_ns"]:
            self.refuse("outage", i, "to_ns", "is not after from_ns")
        return Outage(line, row["from_ns"], row["to_ns"])

    def further_streams(self) -> dict[int, list[Stream]]:
        """The streams of the rows of `stream` by the numbers of their virtual links."""
        found: dict[int, list[Stream]] = {}
        for i, row in enumerate(self.rows("stream"), 1):
            self.check_numbers("stream", i, row)
            found.setdefault(row["vl"], []).append(drawn_offers.stream_of("stream", i, row))
        return found

    def virtual_link(self, i: int, row: dict[str, Any], further: list[Stream]) -> VirtualLink:
        destinations: dict[str, frozenset[str]] = {}
        passed: dict[str, None] = {}
        for key in "ab":
            for way in row[key]:
                if type(way) is not toml_lines.Array or len(way) < 3 or not all(type(name) is str for name in way):
                    self.refuse("vl", i, key, "has a path that is no list of three names or more")
                for here, there in zip(way, way[1:]):
                    line = self.line_of.get((here, there))
                    if line is None:
                        self.refuse("vl", i, key, f"has a path over {here}>{there}, which is no line")
                    passed[line] = None
                destinations[way[-1]] = NETWORKS[destinations.get(way[-1], frozenset()) | {key}]
        if not destinations:
            self.refuse("vl", i, "a", "has no path")
        self.check_numbers("vl", i, row)
        streams = (drawn_offers.stream_of("vl", i, row), *further)
        source, paths, lines = (row["a"] or row["b"])[0][0], {"A": row["a"], "B": row["b"]}, list(passed)
        return VirtualLink(
            row["id"], i, row["bag_ms"] * 10**6, row["smax"], row["priority"], row["policing_jitter_ns"],
            row["policing"], row["skew_max_ns"], row["depth"], row["sub"], source, paths, destinations, lines,
            Places(paths, lines), streams, tuple(sorted({size for it in streams for size in it.sizes()})),
        )

    def check_numbers(self, section: str, i: int, row: dict[str, Any]) -> None:
        """What would make a number of a page, a bound or a draw meaningless."""
        for key in KEYS[section]:
            if key.value_type == "integer" and row[key.name] is not None:
                least = min(map(int, key.choices)) if key.choices else min(key.limits()[0], 1)
                if row[key.name] < least:
                    self.refuse(section, i, key.name, f"is less than {least}")

    def loads(self) -> tuple[dict[str, Fraction], Counter[str]]:
        """For each line its load in percent, and how many virtual links go over it."""
        users: Counter[str] = Counter()
        # For each line the sum of its rates by their denominators: few fractions are then added up.
        sent: dict[str, Counter[int]] = {line: Counter() for line in self.mbit}
        for vl in self.vls.values():
            rate = offered_rates.bytes_by_ns(vl, BYTES_BETWEEN_FRAMES)
            for line in vl.lines:
                sent[line][rate.denominator] += rate.numerator
            users.update(vl.lines)
        load = {}
        for line, found in sent.items():
            bytes_by_ns = sum((Fraction(bytes_, time) for time, bytes_ in found.items()), Fraction(0))
            load[line] = bytes_by_ns * 8000 * 100 / self.mbit[line]
        return load, users

    def offers(self, vl: VirtualLink, seed: int | None = None) -> list[Offer]:
        """What is offered to the source of a virtual link until the end, in the order in which it comes there."""
        seed = self.seed if seed is None else seed
        found = [(it.moment, stream.number, it) for stream in vl.streams for it in drawn_offers.offers(seed, stream, vl.sub, self.until_ns)]
        return [it for _, _, it in sorted(found)]

    def of_kind(self, kind: str, net: str | None = None) -> list[str]:
        return [node.name for node in self.nodes.values() if node.kind == kind and node.net == net]
