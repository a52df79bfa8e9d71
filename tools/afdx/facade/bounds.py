"""The worst-case bounds of a network."""
from typing import Any, NamedTuple

from afdx import model
from afdx.facade.tabled import NotThere, Tabled, only_end
from afdx.files.page_text import counted
from afdx.files.program import Program
from afdx.reckon.bounds_rows import LAST, BoundsRows
from afdx.reckon.network_calculus import Bounds as ToolBounds
from afdx.reckon.network_calculus import said
from afdx.runs import program_bounds


class Bound(NamedTuple):
    """The worst case of a virtual link at a destination, in ns: the greatest latency that a frame may have there (`bound_ns`), how much
    of it is the wait in the regulator (`wait_ns`) and the network (`network_ns`). `by` is `program` (proved: docs/BOUNDS.md) or `tool`.
    Where there is no bound these are None, and `why` says why."""

    vl: int
    where: str
    bound_ns: int | None
    wait_ns: int | None
    network_ns: int | None
    by: str | None
    why: str


class Bounds(Tabled):
    """The worst-case bounds of a network. `text` is bounds.csv (docs/TOOLS.md, section 12), and `by` who computed it."""

    def __init__(self, found: BoundsRows) -> None:
        self._found = found
        self._rows = [{name: cell(row, name) for name in self.columns()} for row in found.rows()]
        self._ends = {(row["vl"], row["where"]): row for row, kept in zip(self._rows, found.rows()) if "bound_ns" in kept}
        self._ports = {row["where"]: row for row in self._rows if row["vl"] is None}

    @property
    def text(self) -> str:
        return self._found.text()

    @property
    def by(self) -> str:
        return self._found.made_by()

    def latency(self, vl: int, where: str | None = None) -> Bound:
        """The worst case of a virtual link at a destination, which is named if it has several."""
        row = self._ends[only_end(vl, where, self._ends)]
        return Bound(vl, row["where"], row["bound_ns"], row["wait_ns"], row["network_ns"], row["bound_by"], row["why"] or "")

    def waiting_bytes(self, line: str) -> int | None:
        """The most bytes that may wait at the output port before a line, as "SWA1>DU_L"; None where there is no bound."""
        if line not in self._ports:
            raise NotThere(f"no virtual link passes a line {line}")
        return self._ports[line]["waiting_bytes"]

    def warnings(self) -> list[dict[str, Any]]:
        """The rows that warn of the worst case: an account that may refuse a frame, a port that is too small, and others (`warning`)."""
        return [row for row in self._rows if row["warning"]]

    def __repr__(self) -> str:
        known = sum(row["bound_ns"] is not None for row in self._ends.values())
        return f"<bounds by {self.by}: {known:,} of {counted(len(self._ends), 'latency', 'latencies')}>"

    def columns(self) -> list[str]:
        return [name for name in self._found.columns() if name not in LAST]

    def rows(self) -> list[dict[str, Any]]:
        return [dict(row) for row in self._rows]


def cell(row: dict[str, Any], name: str) -> Any:
    """A cell of bounds.csv as a number, a text, or None where it is empty or has no bound."""
    value = row.get(name)
    if value is None or value in ("", said(None)):
        return None
    return int(value) if isinstance(value, str) and value.isdecimal() else value


def made(it: Program | None, description: model.Description) -> Bounds:
    """The bounds of an accepted description: those of the program where there is one, and those of the tool."""
    net = model.Network(description.path, description=description)
    printed = program_bounds.bounds_of(it.path, net) if it and it.path else None
    found = ToolBounds(net)
    return Bounds(BoundsRows(found, printed.proved, printed.contract) if printed else BoundsRows(found))
