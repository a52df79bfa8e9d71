"""The rows of a description that tables make: nodes, links, outages and the run, with usual values. Those of virtual links are
in virtual_links.py."""
import math
from collections.abc import Mapping
from fractions import Fraction
from typing import Any

from afdx.document import cells
from afdx.document.lines import Line
from afdx.document.row_values import Row, RowValues, Value
from afdx.document.tables import Tables
from afdx.document.virtual_links import VirtualLinks
from afdx.document.ways import Reach, Ways
from afdx.files import sheets
from afdx.model.keys import SECTIONS

NS_A_METRE = 5
USUAL: dict[str, dict[str, Any]] = {
    "top": {"until_ns": 2 * 10**9, "seed": 1},
    "es": {"port_bytes": 16384},
    "switch": {"port_bytes": 65536, "latency_ns": 16000},
    "link": {"mbit": 100, "propagation_ns": 100},
}


def in_order(streams: list[tuple[Line, Row]]) -> list[tuple[Line, Row]]:
    """Further streams in the order of their rows: as the column `stream` numbers them where each has a number of its own, else as they
    stand."""
    numbers = [line.cells.get("stream", "") for line, _ in streams]
    if len(set(numbers)) < len(numbers) or not all(text.isdigit() and len(text) <= cells.MOST_DIGITS for text in numbers):
        return streams
    return sorted(streams, key=lambda it: int(it[0].cells["stream"]))


class Maker(RowValues):
    """The rows of a description, made of the lines of tables. Each row is a dictionary of values, and `made_of` has the
    line of each."""

    def __init__(self, tables: Tables) -> None:
        super().__init__(tables)
        self.tables = tables
        self.made_of: dict[str, list[Line]] = {section: [] for section in ("top", *SECTIONS)}
        self.rows: dict[str, list[Row]] = {section: [] for section in SECTIONS}
        self.top = self.top_of(tables.lines["top"])
        self.ends = self.ends_of_virtual_links()
        self.nets = self.nets_of_links()
        for line in tables.lines["node"]:
            self.put("node", line, self.node(line))
        self.unnamed()
        for line in tables.lines["link"]:
            self.put("link", line, self.link(line))
        for line in tables.lines["outage"]:
            self.put("outage", line, self.row_of(line, "outage", {}))
        links = VirtualLinks(tables, Ways({net: self.network(net) for net in "AB"}), self.named)
        further: list[tuple[Line, Row]] = []
        for joint in tables.joints:
            row, own = links.rows(joint)
            self.put("vl", joint, row)
            further += zip(joint.streams, own)
        for line, row in in_order(further):
            self.put("stream", line, row)

    def put(self, section: str, line: Line, row: Row) -> None:
        self.rows[section].append(row)
        self.made_of[section].append(line)

    def top_of(self, lines: list[Line]) -> Row:
        """The end and the seed, which stand in one line, or in several of which each has one."""
        row: Row = {}
        for line in lines:
            for key, value in self.row_of(line, "top", {}).items():
                if key in row:
                    self.findings.add(line, f"says {key} again")
                row[key] = value
            self.made_of["top"].append(line)
        for key, value in USUAL["top"].items():
            row.setdefault(key, Value(value, "usual"))
        return row

    # ---- nodes ----

    def ends_of_virtual_links(self) -> dict[str, Line]:
        """The sources and destinations, each with the first line that names it: they are end systems."""
        found: dict[str, Line] = {}
        for line in self.tables.lines["vl"]:
            for name in [line.cells.get("source"), *sheets.names_of(line.cells.get("destinations", ""))]:
                if name:
                    found.setdefault(name, line)
        return found

    def nets_of_links(self) -> dict[str, list[str]]:
        """The networks of the links of each node, as far as they are named: `` where one is not."""
        found: dict[str, list[str]] = {}
        for line in self.tables.lines["link"]:
            text = line.cells.get("net", "")
            nets = cells.nets_of(text) if text else ""
            if nets is None or len(nets) > 1:
                self.findings.add(line, f"{line.cell('net')}: net is {text!r}, and a link is of network A or B")
                nets = ""
            for end in "ab":
                found.setdefault(line.cells.get(end, ""), []).append(nets)
        return found

    def net_by_links(self, name: str) -> str | None:
        """The network of a node all of whose links are of one network, or None."""
        nets = set(self.nets.get(name, []))
        return next(iter(nets)) if len(nets) == 1 and nets != {""} else None

    def node(self, line: Line) -> Row:
        row = self.row_of(line, "node", {})
        name, net = line.cells.get("name", ""), row.get("net")
        is_kind = "kind" in row and row["kind"].value in ("es", "switch")
        if not is_kind and (name in self.ends or net and net.value == "AB"):
            why = "since it sends or receives" if name in self.ends else "since it is on both networks"
            row["kind"] = Value("es", f"{line.cells['kind']}, {why}" if "kind" in row else why if net else "usual")
        elif "kind" not in row:
            row["kind"] = Value("switch" if net else "es", "since it has a net" if net else "usual")
        if row["kind"].value == "es" and net and cells.nets_of(line.cells["net"]):
            # The networks that it is linked with; its links say so too.
            del row["net"]
        if row["kind"].value == "switch":
            self.net_of_switch(line, row, name)
        for key, value in USUAL.get(row["kind"].value, USUAL["es"]).items():
            row.setdefault(key, Value(value, "usual"))
        return row

    def net_of_switch(self, line: Line, row: Row, name: str) -> None:
        """The network of a switch, by its links if its own line has none."""
        by_links = self.net_by_links(name)
        if "net" not in row and by_links:
            row["net"] = Value(by_links, "that of its links")
        elif by_links and row["net"].value in ("A", "B") and row["net"].value != by_links:
            self.findings.add(line, f"{name} is a switch of network {row['net'].value}, and its links are of network {by_links}")

    def unnamed(self) -> None:
        """Adds the nodes that have no line: sources and destinations, and then what links name. What is no end of a virtual link
        and has several links on one network is a switch."""
        self.named = {row["name"].value for row in self.rows["node"] if "name" in row}
        ends = [(line, name) for name, line in self.ends.items()]
        ends += [(line, line.cells[end]) for line in self.tables.lines["link"] for end in "ab" if end in line.cells]
        for line, name in ends:
            if name in self.named:
                continue
            self.named.add(name)
            net = self.net_by_links(name)
            if name not in self.ends and net and len(self.nets[name]) > 1:
                row = {"name": Value(name, f"no line has it: a switch, since it has several links of network {net}"), "kind": Value("switch", "")}
                usual = USUAL["switch"] | {"net": net}
            else:
                row, usual = {"name": Value(name, "no line has it: an end system"), "kind": Value("es", "usual")}, USUAL["es"]
            self.put("node", line, row | {key: Value(value, "that of its links" if key == "net" else "usual") for key, value in usual.items()})

    # ---- links ----

    def link(self, line: Line) -> Row:
        row = self.row_of(line, "link", {})
        metres = line.cells.get("length_m")
        if metres:
            ns = self.time(line, "length_m", metres, "propagation_ns", lambda length: Fraction(math.ceil(length * NS_A_METRE)))
            if "propagation_ns" in row:
                self.findings.add(line, "has length_m and propagation_ns, of which one says the other")
            if ns is not None:
                row["propagation_ns"] = Value(max(1, ns), f"{metres} m of {NS_A_METRE} ns")
        for key, value in USUAL["link"].items():
            row.setdefault(key, Value(value, "usual"))
        return row

    def network(self, net: str) -> Reach:
        """Who is linked with whom on a network, where one of the two is a switch of it."""
        nodes: Mapping[str, Row] = {row["name"].value: row for row in self.rows["node"] if "name" in row}
        is_switch = lambda name: name in nodes and nodes[name]["kind"].value == "switch"
        net_of = lambda name: nodes[name]["net"].value if is_switch(name) and "net" in nodes[name] else None
        is_there = lambda name: name in nodes and (not is_switch(name) or net_of(name) == net)
        beside: dict[str, list[str]] = {}
        for row in self.rows["link"]:
            ends = [row[key].value if key in row else None for key in "ab"]
            if all(map(is_there, ends)) and any(map(is_switch, ends)):
                for here, there in (ends, ends[::-1]):
                    beside.setdefault(here, []).append(there)
        return beside, {name for name in beside if is_switch(name)}
