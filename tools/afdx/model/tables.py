"""The tables of a run or of a campaign, held against their network."""
from __future__ import annotations

import re
from collections.abc import Sequence
from typing import Any, NamedTuple

from afdx.files import Fault
from afdx.model.csv_lines import TABLES_HEAD, lines_of
from afdx.model.network import Network
from afdx.model.network_parts import VirtualLink
from afdx.model.numbers import whole_number

CAUSES = ["queue_full", "port_full", "outage", "unknown", "too_long", "policed", "integrity", "duplicate"]


class Latency(NamedTuple):
    """The latencies of a virtual link at a destination in ns: how many frames came, the least, the greatest and the sum. `seed`
    is that of the run with the greatest one in merged tables, `line` the line of the file."""

    vl: int
    where: str
    count: int  # type: ignore[assignment]
    least: int
    greatest: int
    total: int
    seed: int | None
    line: int

    @property
    def mean(self) -> float:
        """The mean, total / count; 0 where nothing came."""
        return self.total / self.count if self.count else 0.0


class Loss(NamedTuple):
    """The frames of a virtual link that were lost at a place for a cause: how many. `seed` is that of the run with the most in
    merged tables, `line` the line of the file."""

    vl: int
    where: str
    cause: str
    count: int  # type: ignore[assignment]
    seed: int | None
    line: int

WHOLE = "(0|[1-9][0-9]{0,39})"
LATENCY_LINE = re.compile(f"latency,(0|[1-9][0-9]{{0,4}}),([^,]*),,{WHOLE},{WHOLE},{WHOLE},{WHOLE}")
LOSS_LINE = re.compile("dropped,(0|[1-9][0-9]{0,4}),([^,]*),([a-z_]*),([1-9][0-9]{0,39}),,,")


class Tables:
    """The tables of a run or of a campaign, which must be those of the network."""

    def __init__(self, path: str, net: Network, text: str | None = None) -> None:
        self.path, self.net = path, net
        lines = lines_of(path, [TABLES_HEAD, TABLES_HEAD + ",seed"], "tables", text)
        self.merged = lines[0] != TABLES_HEAD
        self.latencies: dict[tuple[int, str], Latency] = {}
        self.losses: dict[tuple[int, str, str], Loss] = {}
        self.names = {name: name for name in net.process}
        for i, line in enumerate(lines[1:], 2):
            if not self.merged and self.takes(i, line):
                continue
            fields = line.split(",")
            if len(fields) != 8 + self.merged:
                raise Fault(path, i, f"has {len(fields)} fields in place of {8 + self.merged}")
            self.add(i, *fields[:8], fields[8] if self.merged else "")
        for vl in net.vls.values():
            for where in vl.destinations:
                if (vl.id, where) not in self.latencies:
                    text = (
                        f"the file ends without the latencies of virtual link {vl.id} at {where}, as {net.path} has it"
                    )
                    raise Fault(path, len(lines), text)

    def takes(self, i: int, line: str) -> bool:
        """Takes a line of one run as the program writes it, and answers whether it did; `add` reports what is wrong with another."""
        found = LATENCY_LINE.fullmatch(line)
        if found:
            vl, where, *numbers = found.groups()
            count, least, greatest, total = map(int, numbers)
            # A place is kept once, and so is a number of a line.
            key = int(vl), self.names.get(where, where)
            greatest = least if greatest == least else greatest
            total = least if total == least else total
            is_right = count * least <= total <= count * greatest and (count == 0) == (greatest == 0)
            if is_right and key in self.net.destinations and key not in self.latencies:
                self.latencies[key] = Latency(*key, count, least, greatest, total, None, i)
                return True
        elif found := LOSS_LINE.fullmatch(line):
            vl, where, cause, text = found.groups()
            lost = int(vl), where, cause
            if lost[0] in self.net.vls and where in self.net.vls[lost[0]].places and cause in CAUSES and lost not in self.losses:
                self.losses[lost] = Loss(*lost, int(text), None, i)
                return True
        return False

    def add(self, i: int, table: str, vl: str, where: str, cause: str, *rest: str) -> None:
        numbers = rest[:4]
        if table not in ("latency", "dropped"):
            raise Fault(self.path, i, f"begins neither with latency nor with dropped, but with {table!r}")
        link = self.virtual_link(i, vl)
        seed = self.number(i, "seed", rest[4]) if rest[4] else None
        row: Any
        rows: dict[Any, Any]
        key: tuple[Any, ...]
        if table == "latency":
            row, rows = self.latency(i, link, where, cause, numbers, seed), self.latencies
            key = link.id, where
        else:
            row, rows = self.loss(i, link, where, cause, numbers, seed), self.losses
            key = link.id, where, cause
        if key in rows:
            raise Fault(self.path, i, f"says again what line {rows[key].line} says")
        rows[key] = row

    def latency(self, i: int, vl: VirtualLink, where: str, cause: str, numbers: Sequence[str], seed: int | None) -> Latency:
        if cause:
            raise Fault(self.path, i, f"has the cause {cause!r}, and latencies have none")
        if where not in vl.destinations:
            raise Fault(self.path, i, f"{where!r} is no destination of virtual link {vl.id} in {self.net.path}")
        count, least, greatest, total = map(self.number, [i] * 4, TABLES_HEAD.split(",")[4:], numbers)
        if not count * least <= total <= count * greatest or (count == 0) != (greatest == 0):
            raise Fault(self.path, i, f"{count} latencies from {least} to {greatest} ns cannot have the sum {total} ns")
        return Latency(vl.id, where, count, least, greatest, total, seed, i)

    def loss(self, i: int, vl: VirtualLink, where: str, cause: str, numbers: Sequence[str], seed: int | None) -> Loss:
        if cause not in CAUSES:
            raise Fault(self.path, i, f"{cause!r} is no cause of loss")
        if where not in vl.places:
            raise Fault(self.path, i, f"virtual link {vl.id} does not pass {where!r} in {self.net.path}")
        count = self.number(i, "count", numbers[0])
        if count == 0 or any(numbers[1:]):
            raise Fault(self.path, i, "a loss has a count above 0 and no other number")
        return Loss(vl.id, where, cause, count, seed, i)

    def number(self, i: int, column: str, text: str) -> int:
        return whole_number(self.path, i, column, text)

    def virtual_link(self, i: int, text: str) -> VirtualLink:
        number = self.number(i, "vl", text)
        if number not in self.net.vls:
            raise Fault(self.path, i, f"virtual link {number} is not in {self.net.path}")
        return self.net.vls[number]
