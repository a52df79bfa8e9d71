"""What a campaign needs of one run. Its tables and its trace are read in a process beside the runs, which answers that."""
from collections.abc import Sequence
from typing import NamedTuple

from afdx import model
from afdx.files import Fault
from afdx.model import TABLES_HEAD
from afdx.model.traces import Trace
from afdx.reckon import latency_counts
from afdx.runs import reading_processes
from afdx.runs.reading_processes import Kept
from afdx.runs.side_by_side import Failure, Run


class RunResult(NamedTuple):
    """What a run gives. Of each virtual link at each destination, in the order of `keys_of`: how many frames came, the least and
    the greatest of their latencies and the sum of all, and how many there were in each bin of latencies (`times`, None without
    a trace). `losses` has the count of each virtual link, place and cause."""

    count: list[int]  # type: ignore[assignment]
    least: list[int]
    greatest: list[int]
    total: list[int]
    times: latency_counts.Bins | None
    losses: dict[tuple[int, str, str], int]


def keys_of(net: model.Network) -> list[tuple[int, str]]:
    """The virtual links and destinations of a network, in the order in which the program prints tables."""
    return sorted(net.destinations, key=lambda it: (it[0], net.process[it[1]]))


class Reader(reading_processes.Reckoner):
    """Reads the runs of several networks. A run's key is the number of its network."""

    def __init__(self, nets: Sequence[model.Network]) -> None:
        self.nets = nets

    def answer(self, number: int, run: Run, kept: Kept) -> RunResult:  # type: ignore[override]
        net = self.nets[number]
        keys = keys_of(net)
        try:
            tables = read_tables(net, run, kept)
            # In the order of `keys`.
            tables.latencies = {key: tables.latencies[key] for key in keys}
            times = counted(tables, run, kept.trace) if kept.trace else None
        finally:
            reading_processes.drop(kept)
        rows = list(tables.latencies.values())
        return RunResult(
            [row.count for row in rows], [row.least for row in rows], [row.greatest for row in rows], [row.total for row in rows],
            times, {key: row.count for key, row in tables.losses.items()},
        )


def counted(tables: model.Tables, run: Run, path: str) -> latency_counts.Bins:
    """How many frames of each virtual link and destination there are in each bin of latencies, by the trace of a run."""
    try:
        return latency_counts.of_trace(path, tables)
    except Fault as fault:
        raise Failure(f"{run.name}: {Fault('what it traced', fault.line, fault.text)}") from None


def read(net: model.Network, run: Run, kept: Kept) -> tuple[model.Tables, Trace | None]:
    """The tables and the trace of a run, by the paths of its files. Without a file of a trace there is none."""
    tables = read_tables(net, run, kept)
    return tables, trace_of(tables, run, kept.trace) if kept.trace else None


def read_tables(net: model.Network, run: Run, kept: Kept) -> model.Tables:
    with open(kept.tables, encoding="utf-8", newline="") as file:
        return tables_of(net, run, file.read())


def tables_of(net: model.Network, run: Run, text: str) -> model.Tables:
    """The tables that a run printed."""
    lines = text.split("\n")
    if lines.pop() or not lines or lines[0] != TABLES_HEAD:
        raise Failure(f"{run.name}: what it printed are no whole tables")
    try:
        return model.Tables("what it printed", net, text)
    except Fault as fault:
        raise Failure(f"{run.name}: {fault}") from None


def trace_of(tables: model.Tables, run: Run, path: str) -> Trace:
    """The trace that a run wrote."""
    try:
        return Trace(path, tables)
    except Fault as fault:
        raise Failure(f"{run.name}: {Fault('what it traced', fault.line, fault.text)}") from None
