"""The worst-case bounds of a network, as `afdx bounds` has written them, and what they say. bounds_reader.py reads them."""
from array import array
from collections.abc import Iterator
from typing import NamedTuple

from afdx.model import Latency, Network
from afdx.reckon.bounds_table import ABSENT, BoundsTable, Key
from afdx.reckon.on_demand import OnDemand

# Of a destination: the greatest latency in ns or None, and why there is none; the networks by which each frame comes; the
# longest time between the copies of a frame in ns or None, and whether the second one may be delivered too.
class Bound(NamedTuple):
    ns: int | None
    why: str
    sure: str
    skew_ns: int | None
    may_be_twice: bool


# Of an account: by how much frames come closer than a BAG in ns or None, how much of it is allowed, and whether it may
# refuse a frame.
class Account(NamedTuple):
    jitter_ns: int | None
    policing_ns: int
    may_refuse: bool


# Of a port: how many bytes may wait there, or None, and why there is no bound.
class Waiting(NamedTuple):
    most: int | None
    why: str


COLUMNS = [
    "vl", "where", "bound_ns", "waiting_bytes", "why", "sure", "skew_ns", "jitter_ns", "policing_jitter_ns", "warning",
    "description",
]
# The networks by which each frame comes to a destination, and the flags of a second delivery, and of a bound by the program.
SURE = ["", "A", "B", "AB"]
TWICE, BY_PROGRAM = 4, 8


class Bounds:
    """The bounds of a network: `of` has the destinations, `accounts` the virtual links at switches, `waiting` the ports by line, and
    `of_kind` all that `afdx second-opinion --hops` measures. BoundsReader fills it."""

    def __init__(self, net: Network) -> None:
        self.net, self.table = net, BoundsTable(net)
        self.waiting: dict[str, Waiting] = {}
        # Who computed them, and who each number is by, where that is said.
        self.made_by: str | None = None
        self.states_by = self.has_program = self.has_contract_column = False
        # By virtual link; and by destination where that has another one.
        self.waits: dict[int, int | None] = {}
        self.waits_at: dict[Key, int | None] = {}
        self.whys: dict[Key, str] = {}
        self.of = OnDemand(lambda: iter(self.table.ends), self.destination, lambda: self.table.ends.count)
        self.accounts = OnDemand(self.keys_of_accounts, self.account, self.count_of_accounts)

    # ---- destinations ----

    def flags(self, vl: int, where: str) -> int:
        found = self.table.number("flags", vl, where)
        if found is None:
            raise KeyError((vl, where))
        return found

    def destination(self, vl: int, where: str) -> Bound:
        flags, number = self.flags(vl, where), self.table.number
        return Bound(number("bound", vl, where), self.whys.get((vl, where), ""), SURE[flags % TWICE], number("skew", vl, where), bool(flags & TWICE))

    def bound(self, vl: int, where: str) -> int | None:
        return self.table.number("bound", vl, where)

    def bound_by(self, vl: int, where: str) -> str:
        """Who the bound of a destination is by: the program, the tool, or nobody where there is none or nothing says it."""
        if self.flags(vl, where) & BY_PROGRAM:
            return "program"
        return "tool" if self.states_by and self.bound(vl, where) is not None else ""

    def by_tool_alone(self) -> int:
        """How many destinations have a bound of the tool alone, though the program has bounds."""
        pairs = zip(self.table.column("flags"), self.table.column("bound"))
        return sum(bound >= 0 and not flags & BY_PROGRAM for flags, bound in pairs) if self.states_by else 0

    def is_by_both(self) -> bool:
        """Whether there are numbers of the program beside those of the tool."""
        return self.has_program

    def of_tool(self, vl: int, where: str) -> int | None:
        """The bound of the tool, also where the program has one."""
        return self.table.number("bound_tool", vl, where)

    def has_contract(self) -> bool:
        """Whether there are bounds that hold whatever other end systems send."""
        return self.has_contract_column

    def contract_of(self, vl: int, where: str) -> int | None:
        return self.table.number("contract", vl, where)

    def not_sure(self) -> list[Key]:
        return self.table.keys_where("flags", lambda flags: not flags % TWICE)

    def twice(self) -> list[Key]:
        return self.table.keys_where("flags", lambda flags: flags & TWICE)

    # ---- the rest ----

    def keys_of_accounts(self) -> Iterator[Key]:
        return iter(self.table.keys_where("jitter", lambda _: True))

    def count_of_accounts(self) -> int:
        return sum(it != ABSENT for it in self.table.column("jitter"))

    def account(self, vl: int, where: str) -> Account:
        refuses = self.table.number("refuses", vl, where)
        if refuses is None:
            raise KeyError((vl, where))
        return Account(self.table.number("jitter", vl, where), self.net.vls[vl].policing_ns, bool(refuses))

    def refusing(self) -> list[Key]:
        return self.table.keys_where("refuses", lambda found: found)

    def of_kind(self, kind: str, vl: int, where: str) -> int | None:
        """The bound of what `afdx second-opinion --hops` measures, or None."""
        if kind == "backlog":
            return self.waiting[where].most if where in self.waiting else None
        return self.wait(vl, where) if kind == "wait" else self.table.number(kind, vl, where)

    def wait(self, vl: int, where: str) -> int | None:
        """The longest wait in the regulator, by a destination or, if that is the source, of all."""
        return self.waits_at.get((vl, where), self.waits.get(vl))

    def holds(self, line: str) -> int:
        """How many bytes may wait at the port before a line."""
        return self.net.nodes[line.split(">")[0]].port_bytes

    def too_small(self) -> list[str]:
        return [line for line, port in self.waiting.items() if port.most is None or port.most > self.holds(line)]

    def above(self, latencies: dict[Key, Latency]) -> list[tuple[Latency, int, str]]:
        """The latencies of a run that are above a bound, with that bound and who it is by: of the two one is wrong."""
        of = lambda kind: self.table.in_order_of(kind, latencies)
        found = []
        for row, flags, own, of_tool in zip(latencies.values(), of("flags"), of("bound"), of("bound_tool")):
            if row.count and (0 <= own < row.greatest or 0 <= of_tool < row.greatest):
                by = "program" if flags & BY_PROGRAM else "tool" if self.states_by else ""
                found.append((row, own, by) if 0 <= own < row.greatest else (row, of_tool, "tool"))
        return found

    def column(self, kind: str) -> "array[int] | None":
        """The numbers of a kind, if there are any."""
        return self.table.columns.get(kind)
