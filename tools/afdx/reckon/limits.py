"""Limits of latencies, as a file of its own has them or the comments of a description."""
import csv
import itertools
import re
from fractions import Fraction
from typing import Any, NamedTuple

from afdx import model
from afdx.files import Fault, cut, sheets
from afdx.model import Network, VirtualLink, headings
from afdx.model.document_names import DocumentNames
from afdx.reckon import end_systems


class Limit(NamedTuple):
    """The greatest latency in ns that a destination of a virtual link may have, and the line that says so; and the latency of end
    systems that counts besides, if it is stated."""

    vl: int
    where: str
    ns: int
    line: int
    ends: end_systems.Latency = end_systems.Latency()

    def most_ns(self) -> int:
        """What is left of it for the network and the regulator."""
        return self.ns - self.ends.together()


# The names of the columns where none stand above.
LIMIT_COLUMNS = ["vl", "destination", "limit_ns"]
# How many lines of comments are looked at behind the head of a virtual link.
MOST_COMMENTS = 1000
# How a description that afdx table made has the limits of a table.
COMMENT = re.compile(r"# *limit_(ns|us|ms|s) *[ =:] *([0-9_.]+)(?: at (.+))?")


def limits_of(path: str, net: Network) -> dict[tuple[int, str], Limit]:
    """The limits of a file, by virtual link and destination. Of the description itself, or of another variant of it, they are those
    of its comments."""
    found = Limits(path, net)
    if model.is_same_file(path, net.path):
        found.read_comments(net)
    elif path.endswith(".toml"):
        found.read_comments(Network(path))
    else:
        found.read_table()
    if not found.of:
        raise Fault(path, None, "has no limits")
    return {key: it._replace(ends=it.ends.or_else(found.usual)) for key, it in found.of.items()}


class Limits:
    """The limits of a file while it is read."""

    def __init__(self, path: str, net: Network) -> None:
        self.path, self.net = path, net
        self.of: dict[tuple[int, str], Limit] = {}
        self.names = DocumentNames(net)
        # The latency of end systems that holds for all limits which state no other.
        self.usual = end_systems.Latency()
        # Whether numbers may have a comma in place of the point.
        self.has_commas = False

    def read_table(self) -> None:
        """Reads a table: `VL,NAME,NS`, or one that names its columns, as an interface control document does."""
        rows, columns = sheets.reader_of(self.path), None
        self.has_commas = rows.dialect.delimiter == ";"
        try:
            for line, cells in sheets.numbered(rows):
                cells = [cell.strip() for cell in cells]
                if not any(cells) or cells[0].startswith("#"):
                    text = rows.dialect.delimiter.join(cells)
                    self.usual = end_systems.of_comments([(line, text)], self.time).or_else(self.usual)
                    continue
                if columns is None:
                    columns = self.columns(line, cells)
                    if columns is not None:
                        continue
                    columns = LIMIT_COLUMNS
                self.row(line, dict(zip(columns, cells)), len(cells), len(columns))
        except csv.Error as fault:
            raise Fault(self.path, rows.line_num, f"is no line of a table: {fault}") from None

    def columns(self, line: int, cells: list[str]) -> list[str] | None:
        """The columns of a first line that names them; None where it has a limit already."""
        if not re.search("[A-Za-z]", cells[0]):
            return None
        names = {"id": "vl", "destinations": "destination", "where": "destination", "name": "destination"}
        fitting = [(headings.columns_of(name, "vl"), name) for name in map(headings.normal, cells)]
        known = [ones[0] if len(ones) == 1 else name for ones, name in fitting]
        found = [names.get(name, name) for name in known]
        lacks = [name for name in ("vl", "destination") if name not in found]
        if not lacks and sum(name in headings.LIMITS for name in found) != 1:
            lacks = ["limit_ns, limit_us or limit_ms, and one of them alone"]
        if len(found) < 3 or lacks == ["vl", "destination"]:
            return None
        if lacks:
            raise Fault(self.path, line, f"names the columns {', '.join(filter(None, found))}, and lacks {lacks[0]}")
        return found

    def row(self, line: int, cells: dict[str, str], count: int, wanted: int) -> None:
        if wanted == 3 and count != 3:
            raise Fault(self.path, line, f"has {count} fields in place of 3: VL,NAME,NS")
        named: list[Any] = [name for name in cells if name in headings.LIMITS] or [None]
        (column,) = named
        text = cells.get(column, "")
        if not text and wanted > 3:
            return
        number = model.whole_number(self.path, line, "the virtual link", cells.get("vl", ""))
        ns, ends = self.time(line, "the limit", column.removeprefix("limit_"), text), end_systems.of_cells(line, cells, self.time)
        whole = self.names.node_of(cells.get("destination", ""))
        for where in [whole] if whole else sheets.names_of(cells.get("destination", "")) or [""]:
            self.add(line, number, self.names.node_of(where) or where, ns, ends)

    def time(self, line: int, name: str, unit: str, text: str) -> int:
        """A time of a line, in ns."""
        if unit == "ns":
            return model.whole_number(self.path, line, name, text.replace("_", ""))
        if self.has_commas:
            text = text.replace(",", ".")
        if not re.fullmatch(r"[0-9_]{1,30}(\.[0-9_]{1,30})?", text) or not re.search("[0-9]", text):
            raise Fault(self.path, line, f"{name} is {cut(text)}, and no number")
        ns = Fraction(text.replace("_", "")) * headings.NS[unit]
        if ns.denominator != 1:
            raise Fault(self.path, line, f"{name} is {text}, which is no whole number of ns")
        return int(ns)

    def read_comments(self, of: Network) -> None:
        """Reads the comments of a description that stand behind the head of a virtual link."""
        rows = {vl.row: vl for vl in of.vls.values()}
        lines = of.text.split("\n")
        heads: dict[int, VirtualLink] = {}
        for row, vl in rows.items():
            heads[of.description.line("vl", row)] = vl
        self.usual = end_systems.of_comments(end_systems.head_of(lines), self.time)
        for head, vl in heads.items():
            behind = [*enumerate(itertools.takewhile(lambda text: text.startswith("#"), lines[head : head + MOST_COMMENTS]), head + 1)]
            for i, text in behind:
                found = COMMENT.fullmatch(text.rstrip())
                for where in (sheets.names_of(found[3]) if found[3] else vl.destinations) if found else ():
                    ends = end_systems.of_comments(behind, self.time, where)
                    self.add(i, vl.id, where, self.time(i, "the limit", found[1], found[2]) if found else 0, ends)

    def add(self, line: int, number: int, where: str, ns: int, ends: end_systems.Latency) -> None:
        key = number, where
        if key not in self.net.destinations:
            text = f"{cut(where)} is no destination of virtual link {number} in {self.net.path}"
            raise Fault(self.path, line, text)
        if key in self.of:
            raise Fault(self.path, line, f"says again what line {self.of[key].line} says")
        self.of[key] = Limit(*key, ns, line, ends)
