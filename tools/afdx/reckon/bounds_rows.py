"""The rows of bounds.csv: the numbers of the program where it has them, and those of `afdx bounds` beside them, in columns that end
in `_tool`."""
from collections.abc import Iterable, Iterator
from typing import Any

from afdx import model
from afdx.files import program
from afdx.reckon.network_calculus import Bounds, said
from afdx.reckon.proved_bounds import KINDS, ProvedBounds

# What both have of a destination, and of a port.
OF_BOTH = ("bound_ns", "wait_ns", "network_ns")
OF_PORTS = "waiting_bytes"
TOOL = "_tool"
COLUMNS = [
    "vl", "where", "bound_ns", "wait_ns", "waiting_bytes", "port_bytes", "why", "sure", "skew_ns", "skew_max_ns", "jitter_ns",
    "policing_jitter_ns", "warning", "network_ns", "network_a_ns", "network_b_ns", "delay_ns", "transmit_jitter_ns",
    "transmit_rule_ns", "bound_by", *(name + TOOL for name in (*OF_BOTH, OF_PORTS)),
]
# The column of the bounds that hold whatever other end systems send, where the program prints such.
CONTRACT = "contract_ns"
LAST = ["description", "program"]
# Who a number is by: the program, or this tool.
BY_PROGRAM, BY_TOOL = "program", "tool"
# How many lines of bounds.csv are written at once.
AT_ONCE = 4096


class BoundsRows:
    """The rows of the bounds of a network: those of the tool, those that the program prints if there is one, and those that it
    prints by `--contract` if it does."""

    def __init__(self, found: Bounds, proved: ProvedBounds | None = None, contract: ProvedBounds | None = None) -> None:
        self.found, self.proved, self.contract = found, proved, contract

    def bound(self, vl: int, where: str) -> int | None:
        """The bound of a destination, in ns: that of the program where it has one."""
        own = self.proved.bound(vl, where) if self.proved else None
        return self.found.bound(vl, where) if own is None else own

    def wait(self, vl: int, where: str) -> int | None:
        """How much of the bound is the wait in the regulator, in ns."""
        own = self.proved.of_kind("wait_ns", vl, where) if self.proved else None
        return self.found.links[vl].wait if own is None else own

    def bound_by(self, vl: int, where: str) -> str:
        """Who the bound of a destination is by; nobody where there is none."""
        if self.proved and self.proved.bound(vl, where) is not None:
            return BY_PROGRAM
        return "" if self.found.bound(vl, where) is None else BY_TOOL

    def has_contract(self) -> bool:
        return self.contract is not None

    def contract_of(self, vl: int, where: str) -> int | None:
        return self.contract.bound(vl, where) if self.contract else None

    def rows(self) -> Iterator[dict[str, Any]]:
        for row in self.found.rows():
            yield self.joined(row)

    def joined(self, row: dict[str, Any]) -> dict[str, Any]:
        """A row of the tool with the numbers of the program."""
        if "bound_ns" in row:
            return self.of_destination(row)
        if OF_PORTS in row:
            most = self.proved.waiting.get(row["where"]) if self.proved else None
            row[OF_PORTS + TOOL] = row[OF_PORTS]
            row |= {} if most is None else {OF_PORTS: most, "why": "", "warning": of_port(row, most)}
            row["bound_by"] = BY_PROGRAM if most is not None else "" if row[OF_PORTS] == said(None) else BY_TOOL
        return row

    def of_destination(self, row: dict[str, Any]) -> dict[str, Any]:
        vl, where = row["vl"], row["where"]
        row |= {name + TOOL: row[name] for name in OF_BOTH}
        row["bound_by"] = "" if row["bound_ns"] == said(None) else BY_TOOL
        if self.proved and self.proved.bound(vl, where) is not None:
            row |= {kind: self.proved.of_kind(kind, vl, where) for kind in KINDS} | {"bound_by": BY_PROGRAM, "why": ""}
        if self.contract:
            row[CONTRACT] = said(self.contract.bound(vl, where))
        return row

    def made_by(self) -> str:
        """Who computed the bounds, as a cell of the table: this tool, and the program before it."""
        own = program.tool("bounds").cell()
        if not self.proved:
            return own
        return f"{self.proved.maker.cell() if self.proved.maker else 'a program that is not known'} and {own}"

    def columns(self) -> list[str]:
        return [*COLUMNS, *([CONTRACT] if self.contract else []), *LAST]

    def pieces(self) -> Iterator[str]:
        """The text of bounds.csv, in pieces of which no two need be in memory."""
        columns = self.columns()
        behind = f",{model.checksum(self.found.net.text)},{self.made_by()}\n"
        lines = [",".join(columns) + "\n"]
        place, blank = {name: i for i, name in enumerate(columns)}, [""] * (len(columns) - 2)
        for row in self.rows():
            cells = blank.copy()
            for name, value in row.items():
                cells[place[name]] = str(value)
            lines.append(",".join(cells) + behind)
            if len(lines) == AT_ONCE:
                yield "".join(lines)
                lines = []
        yield "".join(lines)

    def text(self) -> str:
        return "".join(self.pieces())


def of_port(row: dict[str, Any], most: int) -> str:
    """The warnings of a port before which this many bytes wait at most."""
    others = [it for it in row["warning"].split() if it != "too_small"]
    return " ".join(["too_small"] * (most > row["port_bytes"]) + others)


def long_rows(rows: Iterable[dict[str, Any]]) -> Iterator[tuple[str, int | None, str, str, int]]:
    """The rows of bounds.csv in long form, without what is no number."""
    for row in rows:
        kind = "port" if "vl" not in row else "account" if "jitter_ns" in row else "hop" if "delay_ns" in row else "bound"
        for column in [*COLUMNS[2:], CONTRACT]:
            if str(row.get(column, "")).isdigit():
                yield kind, row.get("vl"), row["where"], column, int(row[column])
