"""The lines of the files that the program writes: tables, traces and bounds, each behind a head that names the columns."""
import itertools
from collections.abc import Iterator

from afdx import files
from afdx.files import Fault, text_of

BOUNDS_HEAD = "kind,of,where,network_ns,wait_ns,bound_ns"
TABLES_HEAD = "table,vl,where,cause,count,least_ns,greatest_ns,sum_ns"
TRACE_HEAD = "time_ns,where,vl,what,value"


def lines_of(path: str, head: list[str], name: str, text: str | None = None) -> list[str]:
    """The lines of a file of tables or of a trace, without line feeds. The first of them must be a head."""
    lines = (text_of(path) if text is None else text).split("\n")
    refuse_carriage_returns(path, lines[0], head)
    if lines[0] not in head:
        raise Fault(path, 1, f"the columns are not those of {name}: {head[0]}")
    if lines.pop():
        raise Fault(path, len(lines) + 1, "the line feed at the end is missing, so the file is not whole")
    return lines


def refuse_carriage_returns(path: str, first: str, head: list[str]) -> None:
    """Refuses a file whose lines end as those of Windows do: some editor or mail has changed it."""
    if first.endswith("\r") and first[:-1] in head:
        raise Fault(path, 1, "ends with CR LF, as all lines do that Windows writes, and the program writes LF: sed -i 's/\\r$//' mends the file")


def read_lines(path: str, head: str, name: str) -> Iterator[str]:
    """The lines of a file behind its head, without line feeds, one by one as they are asked for."""
    lines = files.lines_of(path)
    first = next(lines, "")
    refuse_carriage_returns(path, first.removesuffix("\n"), [head])
    if first.removesuffix("\n") != head:
        raise Fault(path, 1, f"the columns are not those of {name}: {head}")
    for i, line in enumerate(itertools.chain([first], lines), 1):
        if not line.endswith("\n"):
            raise Fault(path, i, "the line feed at the end is missing, so the file is not whole")
        if i > 1:
            yield line[:-1]
