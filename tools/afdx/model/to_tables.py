"""The tables of a description, from which afdx table makes the same description again. What a table has beside the
keys, as limits, ports and remarks, stands in comments behind the head of each row; it has columns again.

A further stream is a further line of its virtual link, whose own cells it repeats: the column `stream` has the number of its row of
`stream`, from 1, and is empty in the lines of the virtual link itself. The column sub_vl counts from 1, as documents do."""
import csv
import io
import re
from collections.abc import Callable, Collection, Iterable, Iterator
from typing import Any

from afdx.model import KEYS, SECTIONS, STREAM_KEYS, Key, description_faults

# How the text of a comment ends that is of some destinations alone.
AT = re.compile("(.+) at (.+)")
# The columns of comments that name ports or messages.
PORTS = ("port", "udp_source_port", "udp_port", "udp_destination_port", "message")
# The texts of comments, by destination and column.
Comments = dict[str, dict[str, list[str]]]


def cell_of(key: Key, value: Any) -> str:
    if key.value_type == "paths":
        return " | ".join(" ".join(path) for path in value) or "-"
    return str(value + 1 if key.name == "sub_vl" else value)


def comments_behind(lines: list[str], head: int, columns: Collection[str]) -> Iterator[tuple[str, str]]:
    """The comments behind the head of a row: each with its column and its text."""
    for text in lines[head:]:
        if not text.startswith("#"):
            return
        column, _, rest = text.removeprefix("# ").rstrip().partition(" ")
        if column in columns and rest:
            yield column, rest


def of_destinations(found: Iterable[tuple[str, str]], destinations: list[str]) -> Comments:
    """For each destination what the comments of a virtual link say of it, by column: several texts where there are several
    lines of it in the table."""
    of: Comments = {name: {} for name in destinations}
    for column, text in found:
        end = AT.fullmatch(text)
        names = end[2].split(" ") if end and set(end[2].split(" ")) <= set(destinations) else None
        for name in names or destinations:
            of[name].setdefault(column, []).append(end[1] if end and names else text)
    return of


def lines_of_comments(of: Comments) -> list[tuple[list[str], dict[str, str]]]:
    """The lines of a table that a virtual link takes: each with its destinations and the cells of comments by column."""
    found: dict[tuple[tuple[str, str], ...], list[str]] = {}
    for name, columns in of.items():
        for i in range(max(map(len, columns.values()), default=1)):
            cells = {column: texts[i] for column, texts in columns.items() if i < len(texts)}
            found.setdefault(tuple(sorted(cells.items())), []).append(name)
    return [(names, dict(cells)) for cells, names in found.items()]


class Back:
    """The tables of a description. `commented` answers the columns of a section that are comments; `said` is how a comment
    states what a heading means."""

    def __init__(self, path: str, commented: Callable[[str], Collection[str]], said: re.Pattern[str]) -> None:
        self.description = description_faults.accepted(path)
        self.commented = commented
        self.lines = self.description.text.split("\n")
        said_of = [(line, *found[1].rpartition("=")[::2]) for line in self.lines if (found := said.fullmatch(line.rstrip()))]
        # What is said of one sheet alone is not said of these tables: their columns have their own names.
        self.said = [it for it in said_of if "!" not in it[1]]

    def text(self) -> str:
        blocks = [block for section in ("top", *SECTIONS) if section != "stream" and (block := self.block(section))]
        used = {name for block in blocks for name in block[0]}
        said = [line for line, name, _ in self.said if name in used]
        return "".join(line + "\n" for line in said) + "\n".join(map(table, blocks))

    def block(self, section: str) -> list[list[str]]:
        """The lines of a section, the first with the names of the columns; none where it has no row."""
        tree = self.description.tree
        rows = [tree] if section == "top" else tree.get(section, [])
        streams = self.streams() if section == "vl" else {}
        further = [row for ones in streams.values() for _, row in ones]
        keys = [key for key in KEYS[section] if any(key.name in row for row in [*rows, *further])]
        lines: list[dict[str, str]] = []
        for i, row in enumerate(rows, 1):
            lines += self.row(section, i, row, keys)
            lines += [line for it in (streams.get(row["id"], ()) if streams else ()) for line in self.stream(row, *it, keys)]
        own = [key.name for key in keys]
        more = [name for name in self.commented(section) if any(name in line for line in lines)]
        has_streams = bool(streams) or any(key.name == "sub_vl" for key in keys) or has_several_ports(lines)
        beside = ["source", "destinations"] + ["stream"] * has_streams if section == "vl" else []
        columns = own[:1] + beside + own[1:] + more
        heads = {column: name for _, name, column in self.said}
        return [[heads.get(name, name) for name in columns]] + [[line.get(name, "") for name in columns] for line in lines] if lines else []

    def row(self, section: str, i: int, row: dict[str, Any], keys: list[Key]) -> list[dict[str, str]]:
        """The lines of a row, each as cells by column."""
        cells = {key.name: cell_of(key, row[key.name]) for key in keys if key.name in row}
        head = 0 if section == "top" else self.description.line(section, i)
        found = list(comments_behind(self.lines, head, self.commented(section))) if head else []
        if section != "vl":
            return [cells | dict(found)]
        paths = [*row["a"], *row["b"]]
        of = of_destinations(found, list(dict.fromkeys(way[-1] for way in paths)))
        return [cells | {"source": paths[0][0], "destinations": " ".join(names)} | more for names, more in lines_of_comments(of)]

    def streams(self) -> dict[int, list[tuple[int, dict[str, Any]]]]:
        """The rows of `stream` by the numbers of their virtual links: each with its number, from 1."""
        found: dict[int, list[tuple[int, dict[str, Any]]]] = {}
        for i, row in enumerate(self.description.rows("stream"), 1):
            found.setdefault(row["vl"], []).append((i, row))
        return found

    def stream(self, vl: dict[str, Any], i: int, row: dict[str, Any], keys: list[Key]) -> list[dict[str, str]]:
        """The lines of a further stream of a virtual link."""
        of_streams = {key.name for key in STREAM_KEYS}
        cells = {key.name: cell_of(key, it[key.name]) for key in keys for it in (row if key.name in of_streams else vl,) if key.name in it}
        paths = [*vl["a"], *vl["b"]]
        found = list(comments_behind(self.lines, self.description.line("stream", i), self.commented("vl")))
        of = of_destinations(found, list(dict.fromkeys(way[-1] for way in paths)))
        return [cells | {"source": paths[0][0], "destinations": " ".join(names), "stream": str(i)} | more for names, more in lines_of_comments(of)]


def has_several_ports(lines: Iterable[dict[str, str]]) -> bool:
    """Whether lines of a virtual link name several ports, which are one stream all the same."""
    found: dict[tuple[str, str], str] = {}
    return any(column in line and found.setdefault((line["id"], column), line[column]) != line[column] for line in lines for column in PORTS)


def table(lines: list[list[str]]) -> str:
    """A table as CSV."""
    out = io.StringIO()
    csv.writer(out, lineterminator="\n").writerows(lines)
    return out.getvalue()
