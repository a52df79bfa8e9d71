"""The worst-case bounds that the program prints by `afdxsim bounds NET`: proved to be those of the formula in docs/BOUNDS.md."""
import operator
from array import array
from collections.abc import Iterable
from typing import NoReturn

from afdx import files, model
from afdx.files import Fault, cut, program
from afdx.model import Network

AGAIN = "`afdxsim bounds NET` prints it anew"
# The columns that are read, by their names, wherever they stand: each version of the program has these, and later ones have others too.
READ = ("kind", "of", "where", "network_ns", "wait_ns", "bound_ns")
# What stands in an array for a number that is none, and for one that was not read.
NONE, ABSENT = -1, -2
# Of a destination an array has these numbers one after another: from the release on, in the regulator, and their sum.
OF_EACH = 3
KINDS = ("network_ns", "wait_ns", "bound_ns")


def is_head(line: str) -> bool:
    """Whether a line, without its line feed, names the columns of what the program prints."""
    columns = line.split(",")
    return all(columns.count(name) == 1 for name in READ)


class ProvedBounds:
    """The bounds of a file, which must be those of this network: of each virtual link at its destinations the latency in ns, or None;
    and `waiting` for each line the bytes that wait before it, or None. `maker` is who printed them, if that is known, and
    `is_contract` says that they hold whatever other end systems send."""

    def __init__(self, path: str, net: Network, lines: Iterable[str] | None = None, maker: program.Maker | None = None, is_contract: bool = False) -> None:
        self.path, self.net, self.maker, self.is_contract = path, net, maker, is_contract
        self.numbers: dict[int, array[int]] = {}
        self.waiting: dict[str, int | None] = {}
        # The places of the virtual link that was asked for last.
        self.last: tuple[int, dict[str, int]] = (-1, {})
        last = 0
        for last, line in enumerate(files.lines_of(path) if lines is None else lines, 1):
            if not line.endswith("\n"):
                raise Fault(path, last, f"the line feed at the end is missing, so the file is not whole; {AGAIN}")
            if last == 1:
                self.judge_head(line[:-1])
            else:
                self.row(last, line[:-1].split(","))
        if not last:
            self.judge_head("")
        self.judge_end(last)

    # ---- reading ----

    def judge_head(self, line: str) -> None:
        if not is_head(line):
            raise Fault(self.path, 1, f"begins with {cut(line)} in place of {','.join(READ)}: give what `afdxsim bounds NET` prints")
        columns = line.split(",")
        self.count, self.read = len(columns), operator.itemgetter(*map(columns.index, READ))

    def row(self, i: int, fields: list[str]) -> None:
        kind, of, where, first, second, whole = self.read(fields) if len(fields) == self.count else [""] * len(READ)
        if kind not in ("bound", "port", "none"):
            raise Fault(self.path, i, f"is no line of bounds; {AGAIN}")
        if kind == "port" or kind == "none" and not where:
            return self.port(i, of, None if kind == "none" else model.whole_number(self.path, i, "the bytes", first))
        vl = model.whole_number(self.path, i, "the virtual link", of)
        if vl not in self.net.vls or where not in self.places(vl):
            self.refuse(i, f"virtual link {vl} at {cut(where)}")
        found = self.numbers.setdefault(vl, array("q", [ABSENT]) * (OF_EACH * len(self.places(vl))))
        at = OF_EACH * self.places(vl)[where]
        if found[at] != ABSENT:
            raise Fault(self.path, i, f"says virtual link {vl} at {cut(where)} again; {AGAIN}")
        texts = zip(("the time from the release", "the wait", "the bound"), (first, second, whole))
        numbers = [model.whole_number(self.path, i, *it) for it in texts] if kind == "bound" else [NONE] * OF_EACH
        if kind == "bound" and numbers[0] + numbers[1] != numbers[2]:
            raise Fault(self.path, i, f"{first} and {second} are not {whole}, the bound; {AGAIN}")
        # What no clock shows is as good as none.
        found[at : at + OF_EACH] = array("q", numbers if numbers[2] < 2**63 else [NONE] * OF_EACH)

    def port(self, i: int, line: str, most: int | None) -> None:
        if line not in self.net.mbit:
            self.refuse(i, line)
        if line in self.waiting:
            raise Fault(self.path, i, f"says {line} again; {AGAIN}")
        self.waiting[line] = most

    def refuse(self, i: int, shown: str) -> NoReturn:
        raise Fault(self.path, i, f"{shown} is not in {self.net.path}: give the bounds of this network; {AGAIN}")

    def judge_end(self, last: int) -> None:
        lacks = next((f"virtual link {vl} at {where}" for vl, where in self.net.destinations if self.number("bound_ns", vl, where) == ABSENT), None)
        lacks = lacks or next((f"the port before {line}" for line in self.net.mbit if line not in self.waiting), None)
        if lacks:
            raise Fault(self.path, last, f"the file ends without {lacks}; {AGAIN}")

    # ---- answers ----

    def places(self, vl: int) -> dict[str, int]:
        """The destinations of a virtual link, each with its number in the arrays."""
        if self.last[0] != vl:
            self.last = vl, {name: i for i, name in enumerate(self.net.vls[vl].destinations)}
        return self.last[1]

    def number(self, kind: str, vl: int, where: str) -> int:
        found = self.numbers.get(vl)
        return ABSENT if found is None else found[OF_EACH * self.places(vl)[where] + KINDS.index(kind)]

    def of_kind(self, kind: str, vl: int, where: str) -> int | None:
        """The number of a destination: network_ns, wait_ns or bound_ns; None where the program has none."""
        found = self.number(kind, vl, where)
        return None if found == NONE else found

    def bound(self, vl: int, where: str) -> int | None:
        return self.of_kind("bound_ns", vl, where)
