"""What became of the frames of each run of a campaign over outages, as far as that is not as in the run without one. It is reckoned
in the processes of reading_processes.py."""
import collections
import copy
from bisect import bisect_left
from collections.abc import Iterable, Iterator
from io import BufferedReader
from typing import Any, NamedTuple

from afdx.model import Network, Tables, VirtualLink
from afdx.model.traces import Trace
from afdx.reckon.frames import Ends, Range, drawn_offsets
from afdx.runs import reading_processes, run_results
from afdx.runs.reading_processes import Kept
from afdx.runs.side_by_side import Failure, Run


class Came(NamedTuple):
    """Of one destination in one run: how many frames were delivered, how many are missing, and the greatest latency."""

    count: int  # type: ignore[assignment]
    missing: Range
    greatest: int


# By virtual link and destination.
CameOf = dict[tuple[int, str], Came]
# What became of the frames of a virtual link: at each destination, and what was lost by place and cause.
Observed = tuple[list[tuple[Any, ...]], dict[tuple[str, str], tuple[int, Any]]]


def observed(vl: VirtualLink, tables: Tables, trace: Trace) -> Observed:
    """All that what became of the frames of a virtual link follows from: which frames came, what was lost when and where."""
    came: list[tuple[Any, ...]] = []
    for where in vl.destinations:
        copies, found = tables.losses.get((vl.id, where, "duplicate")), trace.came.get((vl.id, where))
        came.append((tables.latencies[vl.id, where].count, copies and copies.count, found and found.frames()))
    return came, {key: (it.count, it.moments) for key, it in trace.lost[vl.id].items()}


# ---- of which virtual links two runs have other lines ----

# Lines of a trace are compared in blocks of this many bytes.
BLOCK = 2**22


def moment_of(line: bytes) -> int:
    return int(line[: line.index(b",")])


class Lines:
    """The lines of a trace, a part at a time."""

    def __init__(self, file: BufferedReader) -> None:
        self.file = file
        self.lines: list[bytes] = []

    def until(self, moment: int | None) -> list[bytes]:
        """The next lines that are before a moment, or all."""
        while moment is None or not self.lines or moment_of(self.lines[-1]) < moment:
            more = self.file.readlines(BLOCK)
            if not more:
                break
            self.lines += more
        end = len(self.lines) if moment is None else bisect_left(self.lines, moment, key=moment_of)
        found, self.lines = self.lines[:end], self.lines[end:]
        return found

    def next_moment(self) -> int | None:
        """A moment some lines ahead, or None at the end."""
        self.lines += self.file.readlines(BLOCK)
        return moment_of(self.lines[-1]) if self.file.peek(1) else None


def lines_of_one(ones: list[bytes], others: list[bytes]) -> set[bytes]:
    """The lines that one of two lists has oftener than the other."""
    one, other = set(ones), set(others)
    if len(one) == len(ones) and len(other) == len(others):
        return one ^ other
    return {line for line, _ in collections.Counter(ones).items() ^ collections.Counter(others).items()}


def vls_of(lines: Iterable[bytes], field: int) -> set[bytes]:
    return {line.split(b",", field + 1)[field] for line in lines}


def differing(one: Kept, other: Kept) -> set[bytes] | None:
    """The virtual links, as the bytes of their numbers, of which two runs have other lines: each is the paths of its tables
    and its trace. None where lines are not as they should be."""
    with open(one.tables, "rb") as before, open(other.tables, "rb") as now:
        tables = lines_of_one(before.readlines(), now.readlines())
    assert one.trace is not None and other.trace is not None
    with open(one.trace, "rb") as before, open(other.trace, "rb") as now:
        heads = before.readline(), now.readline()
        before_lines, now_lines = Lines(before), Lines(now)
        try:
            found = vls_of(tables, 1)
            moment: int | None = 0
            while moment is not None:
                moment = before_lines.next_moment()
                found |= vls_of(lines_of_one(before_lines.until(moment), now_lines.until(moment)), 2)
        except (IndexError, ValueError):
            return None
    return found if heads[0] == heads[1] else None


def lines_of_vls(path: str, vls: set[bytes], field: int) -> Iterator[bytes]:
    """The lines of a file of these virtual links alone, behind its head."""
    with open(path, "rb") as file:
        head = file.readline()
        yield head
        for line in file:
            if line.split(b",", field + 1)[field] in vls:
                yield line


# ---- what became of the frames ----


class First:
    """The run of a seed without an outage. Of another run with this seed only what has other lines is reckoned anew."""

    def __init__(self, net: Network, seed: int, draws_offsets: bool, kept: Kept) -> None:
        drawn = drawn_offsets(net, seed) if draws_offsets else {}
        self.net, self.seed, self.kept = copy.copy(net), seed, kept
        self.drawn: dict[Any, Any] = {}
        self.net.vls = {vl.id: vl.with_offsets(drawn) for vl in net.vls.values()}
        self.observed: dict[int, Observed] = {}
        self.came: CameOf | None = None

    def net_of(self, vls: Iterable[int]) -> Network:
        """The network with these virtual links alone."""
        net = copy.copy(self.net)
        net.vls = {number: self.net.vls[number] for number in vls}
        return net

    def changed(self, kept: Kept) -> tuple[list[int], Kept] | None:
        """The virtual links of which a run has other lines, and files of these; None if it has to be read whole."""
        found = differing(self.kept, kept)
        if found is None or not all(len(it) < 6 and it.isdigit() and int(it) in self.net.vls for it in found):
            return None
        assert kept.trace is not None
        tables, trace = kept.tables + ".part", kept.trace + ".part"
        for path, field, to in ((kept.tables, 1, tables), (kept.trace, 2, trace)):
            with open(to, "wb") as out:
                out.writelines(lines_of_vls(path, found, field))
        return sorted(map(int, found)), Kept(tables, trace)

    def came_of(self, tables: Tables, trace: Trace | None) -> CameOf:
        """What became of the frames of a run, by virtual link and destination, where that is not as in the first one, which is
        this run itself when it is asked for the first time."""
        assert trace is not None
        seen = {vl.id: observed(vl, tables, trace) for vl in tables.net.vls.values()}
        part = copy.copy(tables)
        part.net = self.net_of(number for number in seen if seen[number] != self.observed.get(number))
        ends = Ends(part, [self.seed], trace=trace, known=self.drawn).of
        if self.came is None:
            self.observed, self.came = seen, {}
        found: CameOf = {}
        for key, row in tables.latencies.items():
            missing = ends[key].missing if key in ends else self.came[key].missing
            came = Came(row.count, missing, row.greatest)
            if came != self.came.get(key):
                found[key] = came
        self.came = self.came or found
        return found


class OfOutages(reading_processes.Reckoner):
    """Answers what became of the frames of each run. A run's key is its seed; the first run of a seed has no outage."""

    def __init__(self, net: Network, draws_offsets: bool) -> None:
        self.net, self.draws_offsets = net, draws_offsets
        # What is kept of the first run of each seed; and in a process what it has read of it.
        self.kept: dict[int, tuple[Run, Kept]] = {}
        self.first: dict[int, First] = {}

    def asked(self, seed: int, run: Run, kept: Kept) -> tuple[Any, ...]:
        """A process that has not read the first run of the seed does so, so it gets that, too."""
        first = self.kept.setdefault(seed, (run, kept))
        return seed, first, *(() if first[1] is kept else (run, kept))

    def answer(self, seed: int, first: tuple[Run, Kept], run: Run | None = None, kept: Kept | None = None) -> CameOf:  # type: ignore[override]
        """What became of the frames of a run where that is not as in the first one of its seed, which is a run and where it is
        kept too; of the first one itself all."""
        if seed not in self.first:
            self.first[seed] = First(self.net, seed, self.draws_offsets, first[1])
            self.first[seed].came_of(*run_results.read(self.first[seed].net, *first))
        if run is None or kept is None:
            came = self.first[seed].came
            assert came is not None
            return came
        try:
            return self.first[seed].came_of(*self.read_changed(self.first[seed], run, kept))
        finally:
            reading_processes.drop(kept)

    def read_changed(self, first: First, run: Run, kept: Kept) -> tuple[Tables, Trace | None]:
        """The tables and the trace of a run, as far as they are other than those of the first one of its seed."""
        changed = first.changed(kept)
        if changed:
            vls, part = changed
            try:
                return run_results.read(first.net_of(vls), run, part)
            except Failure:
                # Its own lines show where it is wrong.
                pass
            finally:
                reading_processes.drop(part)
        return run_results.read(first.net, run, kept)
