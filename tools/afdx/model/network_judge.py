"""The faults of a description as a network: names, links, paths, and how many there are of each."""
from collections.abc import Callable
from typing import Any

from afdx.files.toml_lines import Table
from afdx.model.description import Description
from afdx.model.findings import is_name, meant, shown
from afdx.model.keys import KEYS, MOST_DESTINATIONS, MOST_OUTAGES, MOST_PORTS, MOST_PROCESSES, MOST_STREAMS
from afdx.model.row_judge import RowJudge

# What the paths of a virtual link on one network have to be.
RULES = {
    1: "a path begins and ends at an end system",
    2: "an inner node of a path is a switch of its network",
    3: "a path has no node twice",
    4: "all paths begin at the same node",
    5: "no two paths end at the same node",
    6: "a node has the same predecessor in all paths",
}


class Judge(RowJudge):
    """All faults of a description, in no order."""

    def __init__(self, description: Description) -> None:
        super().__init__(description)
        self.ids: dict[int, int] = {}
        self.nodes()
        self.links()
        self.outages()
        for i, row in self.tables["vl"]:
            self.virtual_link(i, row)
        self.streams()
        self.too_many()

    def nodes(self) -> None:
        """The nodes by name: the first row of each, and its kind and network where it has them."""
        self.node: dict[str, tuple[int, Any, Any]] = {}
        self.has_all_names = True
        for i, row in self.tables["node"]:
            name: Any = row.get("name")
            if not is_name(name):
                self.has_all_names = False
            elif name in self.node:
                line = self.description.line("node", self.node[name][0], "name")
                self.add(6, "node", i, "name", f"the name {name} is there already, in line {line}")
            else:
                self.node[name] = i, row.get("kind"), row.get("net")
        if len(self.tables["node"]) != self.sizes["node"]:
            self.has_all_names = False

    def is_end_system(self, name: str) -> bool:
        return name in self.node and self.node[name][1] == "es"

    def net_of(self, name: str) -> str | None:
        """The network of a switch, or None."""
        _, kind, net = self.node.get(name, (0, None, None))
        return net if kind == "switch" and net in ("A", "B") else None

    def is_known_kind(self, name: str) -> bool:
        return name in self.node and (self.is_end_system(name) or self.net_of(name) is not None)

    def is_known(self, section: str, i: int, key: str, name: str, add: Callable[[int, str, int, str, str], None]) -> bool:
        """Reports it if no node has the name, and returns whether one has it."""
        if name in self.node:
            return True
        if self.has_all_names:
            add(5, section, i, key, f"{name or shown(name)} is no node{meant(name, self.node)}")
        return False

    # ---- links and outages ----

    def links(self) -> None:
        """Links that are there twice, and links that may not be."""
        self.linked: dict[frozenset[str], int] = {}
        self.on_network: dict[tuple[str, str | None], int] = {}
        self.beside: dict[str, list[str]] = {}
        for i, row in self.tables["link"]:
            ends: list[Any] = [row.get("a"), row.get("b")]
            known = [is_name(end) and self.is_known("link", i, key, end, self.add) for key, end in zip("ab", ends)]
            if not all(known):
                continue
            a, b = ends
            if frozenset(ends) in self.linked:
                line = self.description.line("link", self.linked[frozenset(ends)])
                self.add(6, "link", i, "b", f"there is a link of {a} and {b} already, in line {line}")
            why = self.why_no_link(a, b)
            if why:
                self.add(7, "link", i, "b", why)
            self.linked.setdefault(frozenset(ends), i)
            for here, there in (ends, ends[::-1]):
                self.beside.setdefault(here, []).append(there)
                if self.is_end_system(here) and self.net_of(there):
                    self.on_network.setdefault((here, self.net_of(there)), i)

    def why_no_link(self, a: str, b: str) -> str | None:
        """Why a link may not be behind those before it, or None."""
        if a == b:
            return f"a link joins two nodes, and this one joins {a} to itself"
        if self.is_end_system(a) and self.is_end_system(b):
            return f"it joins two end systems, {a} and {b}: end systems are linked to switches alone"
        nets = self.net_of(a), self.net_of(b)
        if set(nets) == {"A", "B"}:
            return f"it joins two switches of different networks: {a} is on {nets[0]}, {b} on {nets[1]}"
        for here, there in ((a, b), (b, a)):
            before = self.on_network.get((here, self.net_of(there)))
            if before:
                line = self.description.line("link", before)
                net = self.net_of(there)
                return f"it is the second link of the end system {here} on network {net}; the first is in line {line}"
        return None

    def outages(self) -> None:
        for i, row in self.tables["outage"]:
            ends: list[Any] = [row.get("from"), row.get("to")]
            known = [
                is_name(end) and self.is_known("outage", i, key, end, self.add)
                for key, end in zip(("from", "to"), ends)
            ]
            if all(known) and frozenset(ends) not in self.linked:
                self.add(7, "outage", i, "to", self.no_link(*ends))

    def no_link(self, here: str, there: str) -> str:
        others = ", ".join(self.beside.get(here, [])[:6]) or "no node"
        return f"there is no link from {here} to {there}; {here} is linked with {others}"

    # ---- virtual links ----

    def virtual_link(self, i: int, row: Table) -> None:
        if type(row.get("id")) is int:
            self.double_id(i, row["id"])
        paths: dict[str, Any] = {key: row.get(key) for key in "ab"}
        judged = {}
        for key, net in (("a", "A"), ("b", "B")):
            if self.has_type(KEYS["vl"][-1], paths[key]):
                judged[key] = [self.path(i, key, number, path, net) for number, path in enumerate(paths[key], 1)]
                self.tree_of_paths(i, key, paths[key], judged[key])
        if paths["a"] == [] and paths["b"] == []:
            self.add(8, "vl", i, "a", "there is no path on A and none on B: it needs one for each destination")
        sources = [next((path[0] for path in paths[key] if path), None) if key in judged else None for key in "ab"]
        if None not in sources and sources[0] != sources[1] and all(name in self.node for name in sources):
            text = f"the paths on B begin at {sources[1]}, and those on A at {sources[0]}: a virtual link has one source"
            self.add(8, "vl", i, "b", text)
        ends = {path[-1] for key in judged for path in paths[key] if path}
        if len(ends) > MOST_DESTINATIONS:
            text = f"it has {len(ends)} destinations, and may have {MOST_DESTINATIONS}: make two virtual links of it"
            self.add(9, "vl", i, None, text)

    def double_id(self, i: int, number: int) -> None:
        if number in self.ids:
            line = self.description.line("vl", self.ids[number], "id")
            self.add(6, "vl", i, "id", f"the number {number} is there already, in line {line}")
        self.ids.setdefault(number, i)

    def path(self, i: int, key: str, number: int, path: list[str], net: str) -> bool:
        """Judges one path alone, and answers whether its names are known."""
        add = lambda fault, _section, i, key, text: self.at_path(fault, i, key, number, text)
        known = [self.is_known("vl", i, key, name, add) for name in dict.fromkeys(path)]
        if not path or not all(known):
            return False
        for here, there in zip(path, path[1:]):
            if frozenset((here, there)) not in self.linked:
                self.at_path(7, i, key, number, self.no_link(here, there))
        if not all(map(self.is_known_kind, path)):
            return True
        for name, end in ((path[0], "begins"), (path[-1], "ends")):
            if not self.is_end_system(name):
                self.broken(i, key, number, 1, f"it {end} at {name}, which is a switch")
        for name in dict.fromkeys(path[1:-1]):
            if self.is_end_system(name):
                self.broken(i, key, number, 2, f"{name} is in it, which is an end system")
            elif self.net_of(name) != net:
                self.broken(i, key, number, 2, f"{name} is in it, which is a switch of network {self.net_of(name)}")
        for name in dict.fromkeys(path):
            if path.count(name) > 1:
                self.broken(i, key, number, 3, f"{name} is in it {path.count(name)} times")
        return True

    def broken(self, i: int, key: str, number: int, rule: int, text: str) -> None:
        self.at_path(8, i, key, number, f"{text} (broken: rule {rule} of 6, {RULES[rule]})")

    def tree_of_paths(self, i: int, key: str, paths: list[list[str]], judged: list[bool]) -> None:
        """Judges the paths of one network together: where they are no tree, each later path that shows it."""
        first: tuple[str, int] | None = None
        ends: dict[str, int] = {}
        before: dict[str, tuple[str, int]] = {}
        for number, (path, is_judged) in enumerate(zip(paths, judged), 1):
            if not is_judged:
                continue
            first = first or (path[0], number)
            if path[0] != first[0]:
                self.broken(i, key, number, 4, f"it begins at {path[0]}, and path {first[1]} at {first[0]}")
            if path[-1] in ends:
                self.broken(i, key, number, 5, f"it ends at {path[-1]}, as path {ends[path[-1]]} does")
            ends.setdefault(path[-1], number)
            for here, there in zip(path, path[1:]):
                other, where = before.setdefault(there, (here, number))
                if other != here and where != number:
                    self.broken(i, key, number, 6, f"{there} comes behind {here}, and behind {other} in path {where}")

    # ---- streams ----

    def streams(self) -> None:
        """Streams of virtual links that there are not. If a row of `vl` has no number, it is not known which there are."""
        numbers = [row.get("id") for _, row in self.tables["vl"]]
        if len(numbers) < self.sizes["vl"] or any(type(number) is not int for number in numbers):
            return
        least, greatest = KEYS["stream"][0].limits()
        for i, row in self.tables["stream"]:
            number = row.get("vl")
            if type(number) is int and least <= number <= greatest and number not in self.ids:
                self.add(5, "stream", i, "vl", f"is {number}, and no virtual link has this number{meant(str(number), map(str, self.ids))}")

    # ---- 9: too many ----

    def too_many(self) -> None:
        nodes, links, outages, streams = (self.sizes[section] for section in ("node", "link", "outage", "stream"))
        if nodes + 2 * links > MOST_PROCESSES:
            text = f"has {nodes} nodes and {links} links, which are {nodes + 2 * links} processes, two for each link; "
            self.add(9, "top", None, None, text + f"there may be {MOST_PROCESSES}: make the network smaller")
        for name, (i, kind, _) in self.node.items():
            count = len(self.beside.get(name, [])) if kind == "switch" else 0
            if count > MOST_PORTS:
                self.add(9, "node", i, None, f"it has {count} links, and a switch may have {MOST_PORTS}: take more switches")
        if outages > MOST_OUTAGES:
            text = f"there are {outages} outages, and may be {MOST_OUTAGES}: take out the others"
            self.add(9, "outage", MOST_OUTAGES + 1, None, text)
        if streams > MOST_STREAMS:
            text = f"there are {streams} streams, and may be {MOST_STREAMS}: take out the others"
            self.add(9, "stream", MOST_STREAMS + 1, None, text)
