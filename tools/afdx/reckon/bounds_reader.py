"""Reads the worst-case bounds that `afdx bounds` has written, line by line."""
from collections.abc import Iterable

from afdx import files, model
from afdx.files import Fault, cut
from afdx.model import Network
from afdx.reckon.bounds_file import BY_PROGRAM, COLUMNS, SURE, TWICE, Bounds, Waiting
from afdx.reckon.bounds_table import ABSENT, NONE


def read(path: str, net: Network) -> Bounds:
    """The bounds of a file, which must be those of this description."""
    return BoundsReader(path, net, files.lines_of(path)).found


class BoundsReader:
    """Reads a file of bounds: destinations, accounts, hops and ports."""

    def __init__(self, path: str, net: Network, lines: Iterable[str]) -> None:
        self.path, self.net, self.checksum = path, net, model.checksum(net.text)
        self.found = Bounds(net)
        self.table = self.found.table
        self.columns: list[str] = []
        self.place_of: dict[str, int] = {}
        last = 0
        for last, line in enumerate(lines, 1):
            if not line.endswith("\n"):
                self.judge_end(last, line)
            elif last == 1:
                self.head(line)
            else:
                self.row(last, line[:-1].rstrip("\r").split(","))
        if not last:
            columns_of(path, "")
        lacks = next((key for key, flags in zip(self.table.ends, self.table.column("flags")) if flags == ABSENT), None)
        if lacks:
            raise Fault(path, last, f"the file ends without the bound of virtual link {lacks[0]} at {lacks[1]}")

    def head(self, line: str) -> None:
        self.columns = columns_of(self.path, line)
        self.place_of = {name: i for i, name in enumerate(self.columns)}
        self.found.states_by = "bound_by" in self.place_of
        self.found.has_contract_column = "contract_ns" in self.place_of
        of = self.place_of
        self.vl, self.where, self.description, self.warning, self.why = (of[name] for name in ("vl", "where", "description", "warning", "why"))
        # The columns of a destination that have numbers, each with its kind.
        kinds = {"bound_ns_tool": "bound_tool", "contract_ns": "contract", "network_ns": "network", "network_a_ns": "network_a", "network_b_ns": "network_b"}
        self.numbers = [(of[name], name, kind) for name, kind in (kinds | {"skew_ns": "skew"}).items() if name in of]

    def judge_end(self, i: int, line: str) -> None:
        if i == 1:
            columns_of(self.path, line)
        raise Fault(self.path, i, "the line feed at the end is missing, so the file is not whole")

    def number(self, i: int, name: str, text: str) -> int:
        """A number of a line, or NONE."""
        if text.isdigit() and text.isascii() and len(text) < 18:
            return int(text)
        found = NONE if text == "none" else model.whole_number(self.path, i, name, text)
        return NONE if found >= 2**63 else found

    def row(self, i: int, fields: list[str]) -> None:
        if len(fields) != len(self.columns):
            raise Fault(self.path, i, f"has {len(fields)} fields in place of {len(self.columns)}")
        if fields[self.description] != self.checksum:
            text = f"these are bounds of another description: its checksum is {cut(fields[self.description])}, and that of "
            raise Fault(self.path, i, text + f"{self.net.path} is {self.checksum}. `afdx bounds` computes them anew")
        if i == 2 and "program" in self.place_of:
            self.found.made_by = fields[self.place_of["program"]] or None
        where = fields[self.where]
        if not fields[self.vl]:
            return self.port(i, where, fields)
        vl, table = model.whole_number(self.path, i, "the virtual link", fields[self.vl]), self.table
        for places, first, read in ((table.ends, "flags", self.destination), (table.hops, "delay", self.hop), (table.switches, "refuses", self.account)):
            at = places.at(vl, where)
            if at is not None:
                if table.column(first)[at] != ABSENT:
                    self.again(i, fields)
                return read(i, at, vl, where, fields)
        raise Fault(self.path, i, f"{cut(where)} is no destination of virtual link {vl} in {self.net.path}")

    def hop(self, i: int, at: int, vl: int, where: str, fields: list[str]) -> None:
        text = fields[self.place_of["delay_ns"]] if "delay_ns" in self.place_of else ""
        self.table.column("delay")[at] = self.number(i, "delay_ns", text) if text else NONE

    def account(self, i: int, at: int, vl: int, where: str, fields: list[str]) -> None:
        self.number(i, "policing_jitter_ns", fields[self.place_of["policing_jitter_ns"]])
        self.table.column("jitter")[at] = self.number(i, "jitter_ns", fields[self.place_of["jitter_ns"]])
        self.table.column("refuses")[at] = "may_refuse" in fields[self.warning].split(" ")

    def destination(self, i: int, at: int, vl: int, where: str, fields: list[str]) -> None:
        get, found, table = (lambda name: fields[self.place_of[name]] if name in self.place_of else ""), self.found, self.table
        wait = self.number(i, "wait_ns", text) if (text := get("wait_ns")) else NONE
        if found.waits.setdefault(vl, None if wait == NONE else wait) != (None if wait == NONE else wait):
            found.waits_at[vl, where] = None if wait == NONE else wait
        sure, by = get("sure"), get("bound_by")
        if sure not in SURE:
            raise Fault(self.path, i, f"sure is {cut(sure)}, and must be A, B, AB or nothing")
        if by not in ("", "program", "tool"):
            raise Fault(self.path, i, f"bound_by is {cut(by)}, and must be program, tool or nothing")
        found.has_program |= by == "program"
        table.column("bound")[at] = self.number(i, "bound_ns", get("bound_ns"))
        table.column("flags")[at] = SURE.index(sure) + TWICE * ("delivered_twice" in fields[self.warning].split(" ")) + BY_PROGRAM * (by == "program")
        if fields[self.why]:
            found.whys[vl, where] = fields[self.why]
        for place, name, kind in self.numbers:
            if fields[place]:
                table.column(kind)[at] = self.number(i, name, fields[place])

    def port(self, i: int, line: str, fields: list[str]) -> None:
        if line not in self.net.mbit:
            raise Fault(self.path, i, f"{cut(line)} is no line in {self.net.path}")
        if line in self.found.waiting:
            self.again(i, fields)
        most = self.number(i, "waiting_bytes", fields[self.place_of["waiting_bytes"]])
        self.found.waiting[line] = Waiting(None if most == NONE else most, fields[self.why])

    def again(self, i: int, fields: list[str]) -> None:
        """Refuses a line that says what an earlier one has said."""
        for other, line in enumerate(files.lines_of(self.path), 1):
            found = line.rstrip("\r\n").split(",")
            if (found[self.vl], found[self.where]) == (fields[self.vl], fields[self.where]):
                raise Fault(self.path, i, f"says again what line {other} says")


def columns_of(path: str, line: str) -> list[str]:
    """The names of the columns of a file of bounds."""
    columns = line.rstrip("\r\n").split(",")
    lacks = [name for name in COLUMNS if name not in columns]
    if lacks:
        raise Fault(path, 1, f"the columns are not those of bounds: {lacks[0]} is not among them")
    return columns
