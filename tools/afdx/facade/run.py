"""The tables of a run: latencies and losses."""
from typing import Any

from afdx import model
from afdx.facade import by as who
from afdx.facade.tabled import NotThere, Tabled, only_end
from afdx.files.page_text import counted
from afdx.files.program import Program
from afdx.model import TABLES_HEAD, Latency, Loss
from afdx.runs.plain_simulator import Simulation
from afdx.runs.second_opinion import small_enough


class Run(Tabled):
    """What a run of a network gave. `text` has the tables as the program prints them (CSV), and `by` who made them."""

    def __init__(self, net: model.Network, text: str, by: str) -> None:
        self.text, self.by = text, by
        self._tables = model.Tables(f"the tables of {net.path}", net, text)

    @property
    def latencies(self) -> list[Latency]:
        """The latencies of each virtual link at each destination, in ns: `vl`, `where`, `count`, `least`, `greatest`, `total` and
        `mean`, which is total / count; where nothing came all numbers are 0."""
        return list(self._tables.latencies.values())

    @property
    def losses(self) -> list[Loss]:
        """The frames that were lost, by virtual link, place and cause, with their `count`. `duplicate` is no fault: the second copy
        of a frame that came by both networks (docs/FORMATS.md, section 5)."""
        return list(self._tables.losses.values())

    def latency(self, vl: int, where: str | None = None) -> Latency:
        """The latencies of a virtual link at a destination, which is named if it has several."""
        return self._tables.latencies[only_end(vl, where, self._tables.latencies)]

    def lost(self, vl: int, where: str | None = None, cause: str | None = None) -> int:
        """How many frames and copies of a virtual link were lost, at one place and for one cause, or at all of them; duplicates
        count if they are asked for alone."""
        if vl not in self._tables.net.vls:
            raise NotThere(f"there is no virtual link {vl}")
        if cause is not None and cause not in model.CAUSES:
            raise ValueError(f"{cause!r} is no cause of loss: {', '.join(model.CAUSES)}")
        counts = lambda it: it.cause == cause if cause else it.cause != "duplicate"
        return sum(it.count for it in self.losses if it.vl == vl and where in (None, it.where) and counts(it))

    def __repr__(self) -> str:
        lost = sum(it.count for it in self.losses if it.cause != "duplicate")
        return f"<run of {self._tables.net.path}: {counted(len(self.latencies), 'latency', 'latencies')}, {counted(lost, 'frame or copy', 'frames and copies')} lost>"

    def columns(self) -> list[str]:
        return TABLES_HEAD.split(",")

    def rows(self) -> list[dict[str, Any]]:
        found = [("latency", it.vl, it.where, None, it.count, it.least, it.greatest, it.total) for it in self.latencies]
        lost = [("dropped", it.vl, it.where, it.cause, it.count, None, None, None) for it in self.losses]
        return [dict(zip(self.columns(), cells)) for cells in [*found, *lost]]


def made(it: Program, description: model.Description) -> Run:
    """The run of an accepted description, by the program or by the second opinion."""
    net = model.Network(description.path, description=description)
    if it.how == "second opinion":
        simulation = Simulation(small_enough(description))
        simulation.run()
        return Run(net, "".join(line + "\n" for line in simulation.tables()), it.says)
    who.judge_size(it, net)
    return Run(net, who.printed(it, "seq", description.path, description.text), it.says)
