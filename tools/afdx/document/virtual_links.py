"""The rows of virtual links and of their further streams, made of their lines: sizes and times of each other, and shortest paths on
both networks."""
from collections.abc import Collection, Sequence
from typing import Any

from afdx.document.findings import Findings
from afdx.document.lines import Joint, Line
from afdx.document.row_values import Row, Value
from afdx.document.stream_values import StreamValues
from afdx.document.ways import Ways
from afdx.files import sheets
from afdx.model import description_faults, headings
from afdx.model.headings import key_of
from afdx.model.keys import BAGS_MS

USUAL: dict[str, Any] = {"priority": "low", "policing_jitter_ns": 500_000, "depth": 4}
OF_A_STREAM: dict[str, Any] = {"offset_ns": 0, "jitter_ns": 0}


class VirtualLinks(StreamValues):
    """Makes the rows of virtual links and of streams. `named` has the nodes that there are."""

    def __init__(self, findings: Findings, ways: Ways, named: Collection[str]) -> None:
        super().__init__(findings)
        self.ways, self.named = ways, named
        # The limits in ns by column and text.
        self.limits: dict[tuple[str, str], int | None] = {}

    def rows(self, line: Joint) -> tuple[Row, list[Row]]:
        """The row of a virtual link, and those of its further streams."""
        self.limits_of(line)
        row = self.row_of(line, "vl", {})
        further = [self.row_of(stream, "stream", {}) for stream in line.streams]
        if "id" in row:
            for it in further:
                it["vl"] = row["id"]
        self.sizes([(line, row), *zip(line.streams, further)])
        for stream, it in zip([line.own or line, *line.streams], [row, *further]):
            if stream.sub_vl is not None:
                it["sub_vl"] = Value(stream.sub_vl, f"from 0: sub-virtual link {stream.sub_vl + 1}")
        self.times(line, row, [row, *further])
        for key, value in USUAL.items():
            row.setdefault(key, Value(value, "usual"))
        for net, key in (("A", "a"), ("B", "b")):
            row[key] = self.stated(line, key) if key in line.cells else self.shortest(line, net)
        self.ends(line, row)
        return row, further

    def limits_of(self, line: Joint) -> None:
        """Of several limits of one destination, as each port may have its own, the least counts: tools read one."""
        found = [(part, column) for part in line.parts for column in headings.LIMITS if column in part.cells]
        least: dict[str, int] = {}
        for part, column in found:
            ns = self.limit(part, column)
            for name in sheets.names_of(part.cells.get("destinations", "")) or [""]:
                if ns is not None:
                    least[name] = min(ns, least.get(name, ns))
        for part, column in found:
            ns, names = self.limit(part, column), sheets.names_of(part.cells.get("destinations", "")) or [""]
            if ns is not None and all(least[name] < ns for name in names):
                self.findings.note(part, f"{column} is {part.cells.pop(column)}, and another line of virtual link {line.cells.get('id')} has a lower one, which counts")

    def limit(self, part: Line, column: str) -> int | None:
        """The limit of a cell in ns, or None where it is none."""
        key, unit = (column, part.cells[column]), headings.NS[column.removeprefix("limit_")]
        if self.limits.get(key) is None:
            self.limits[key] = self.time(part, column, part.cells[column], "limit_ns", lambda number: number * unit)
        return self.limits[key]

    # ---- sizes and times ----

    def sizes(self, streams: Sequence[tuple[Line, Row]]) -> None:
        """Smax, which is the greatest of what the streams need if no column says it, and the sizes of their frames."""
        line, row = streams[0]
        needed = [frame for stream, it in streams if (frame := self.greatest_frame(stream, it))]
        if needed:
            row.setdefault("smax", max(needed, key=lambda frame: int(frame.value)))
        elif not any({"smax", "size", "payload", "message_bytes"} & set(stream.cells) for stream, _ in streams):
            self.findings.add(line, "has neither smax nor size nor payload")
        for stream, it in streams:
            self.offers(stream, it, row["smax"].value if "smax" in row else None)

    def times(self, line: Line, row: Row, streams: list[Row]) -> None:
        """BAG and periods, of each other, and the skew."""
        periods = [it["period_ns"].value for it in streams if "period_ns" in it]
        if "bag_ms" not in row and not periods:
            if not {"bag_ms", "period_ns"} & {key_of(column, "vl") for column in line.cells}:
                self.findings.add(line, "has neither bag_ms nor period_ns")
            return
        if "bag_ms" not in row:
            fitting = [bag for bag in BAGS_MS if bag * 10**6 <= min(periods)]
            row["bag_ms"] = Value(max(fitting, default=1), "the greatest that is not above the period")
        for it in streams:
            it.setdefault("period_ns", Value(row["bag_ms"].value * 10**6, "usual: the BAG"))
            for key, value in OF_A_STREAM.items():
                it.setdefault(key, Value(value, "usual"))
        row.setdefault("skew_max_ns", Value(row["bag_ms"].value * 500_000, "usual: half of the BAG"))

    # ---- paths ----

    def stated(self, line: Joint, key: str) -> Value:
        """The paths that a column states."""
        text = line.cells[key]
        if text == "-":
            return Value([], "")
        return Value([sheets.names_of(path) for path in text.split("|") if path.strip()], "")

    def shortest(self, line: Joint, net: str) -> Value:
        """Shortest paths from the source to each destination that the network reaches, as far as it is one of the virtual link's."""
        source, names = line.cells.get("source"), sheets.names_of(line.cells.get("destinations", ""))
        via = frozenset(sheets.names_of(line.cells.get("via", "")))
        paths, missed = [], []
        wanted = [name for name in dict.fromkeys(names) if net in (self.nets(line, name) or "AB")]
        for name in wanted:
            path = self.ways.way(net, source, name, via)
            if path:
                paths.append(path)
            else:
                missed.append(name)
                if source and self.nets(line, name):
                    self.add(line, "network", f"{name} is not reached from {source} on {net}, which network names{self.alone(source, name)}")
        said = "shortest" if paths else "" if wanted else f"network {self.nets(line, names[0])}" if names else ""
        if missed and self.ways.networks[net][1]:
            said += f"{'; ' if said else ''}not reached: {', '.join(missed)}"
        return Value(paths, said)

    @staticmethod
    def nets(line: Joint, name: str) -> str:
        """The networks by which a virtual link goes to a destination, or nothing where no line says."""
        return line.nets.get(name, "") or line.nets.get("", "")

    def ends(self, line: Joint, row: Row) -> None:
        """Holds the paths against source and destinations."""
        source, wanted = line.cells.get("source"), sheets.names_of(line.cells.get("destinations", ""))
        is_stated = "a" in line.cells or "b" in line.cells
        if not is_stated and not source:
            self.findings.add(line, "has no source")
        if not is_stated and not wanted:
            self.findings.add(line, "has no destinations")
        paths = [path for key in "ab" for path in row[key].value if path]
        for path in paths:
            if source and path[0] != source:
                self.findings.add(line, f"the path {' '.join(path)} begins at {path[0]}, and the source is {source}")
            if wanted and path[-1] not in wanted:
                self.findings.add(line, f"the path {' '.join(path)} ends at {path[-1]}, which destinations does not name")
        reached = {path[-1] for path in paths}
        for name in wanted:
            if name not in reached and source and not self.nets(line, name):
                self.add(line, "destinations", f"{name} is reached from {source} neither on A nor on B{self.alone(source, name)}")

    def alone(self, *names: str) -> str:
        """Which of some names is in no link, and the one that may be meant."""
        linked = self.ways.linked()
        for name in names:
            if name not in linked:
                return f": {name} has no link{description_faults.meant(name, set(self.named) - {name})}"
        return ""
