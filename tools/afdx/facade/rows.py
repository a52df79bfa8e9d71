"""The rows of a description as objects whose attributes are its keys: `net.vl[101].bag_ms`, `net.node["SWA1"].latency_ns`."""
from collections.abc import Iterator, Mapping, Sequence
from typing import Any, Generic, TypeVar

from afdx.facade.changed_text import KEYS_BY_NAME, ChangedText
from afdx.facade.tabled import NotThere, Tabled
from afdx.files.page_text import counted
from afdx.model import Place
from afdx.model.findings import A_ROW, meant

# Paths: one list of names for each destination. They are read as tuples, and lists may be given.
Paths = Sequence[Sequence[str]]


class Row:
    """A row of a description. Its keys are attributes (docs/FORMATS.md, section 2): what is read is what the key says now or, where
    it is absent, what that means, or None; what is set stands in the text from then on. `row["from"]` is the key `from`, whose name
    Python keeps for itself, and `dict(row)` has them all. Names without a key raise AttributeError, and values that the key may not
    have raise Fault."""

    __slots__ = ("_text", "_section", "_row")
    _text: ChangedText
    _section: str
    _row: int

    def __init__(self, text: ChangedText, section: str, row: int) -> None:
        for name, value in (("_text", text), ("_section", section), ("_row", row)):
            object.__setattr__(self, name, value)

    def _place(self, name: str) -> Place:
        return Place(self._section, self._row, name)

    @property
    def line(self) -> int:
        """The line at which the row begins, in the text as it is now."""
        return self._text.description().line(self._section, self._row)

    def keys(self) -> list[str]:
        """The keys that such a row may have, in the order of docs/FORMATS.md."""
        return list(KEYS_BY_NAME[self._section])

    def __getitem__(self, name: str) -> Any:
        try:
            return self._text.value(self._place(name))
        except AttributeError as fault:
            raise NotThere(str(fault)) from None

    def __setitem__(self, name: str, value: Any) -> None:
        try:
            self._text.change(self._place(name), value)
        except AttributeError as fault:
            raise NotThere(str(fault)) from None

    def __getattr__(self, name: str) -> Any:
        if name.startswith("_"):
            raise AttributeError(name)
        return self._text.value(self._place(name))

    def __setattr__(self, name: str, value: Any) -> None:
        self._text.change(self._place(name), value)

    def __dir__(self) -> list[str]:
        return [*super().__dir__(), *self.keys()]

    def __eq__(self, other: object) -> bool:
        """Whether both are the same row of the same description."""
        return isinstance(other, Row) and (self._text, self._section, self._row) == (other._text, other._section, other._row)

    def __hash__(self) -> int:
        return hash((id(self._text), self._section, self._row))

    def _names(self) -> str:
        """What the row is called, with a blank before it."""
        return ""

    def __repr__(self) -> str:
        return f"<{A_ROW[self._section].removeprefix('a ').removeprefix('an ')}{self._names()} in {self._text.path} line {self.line}>"


class Node(Row):
    """An end system or a switch; `net` and `latency_ns` are None of an end system."""

    __slots__ = ()
    name: str
    kind: str
    port_bytes: int
    net: str | None
    latency_ns: int | None

    def _names(self) -> str:
        return f" {self.name}"


class Link(Row):
    """A link of two nodes, which is a line in each direction."""

    __slots__ = ()
    a: str
    b: str
    mbit: int
    propagation_ns: int

    def _names(self) -> str:
        return f" {self.a}-{self.b}"


class Outage(Row):
    """An outage of a line. The nodes are `row["from"]` and `row["to"]`."""

    __slots__ = ()
    to: str
    from_ns: int
    to_ns: int

    def _names(self) -> str:
        return f" {self['from']}>{self.to}"


class Offered(Row):
    """The keys of traffic that is offered: of a virtual link, and of a further stream."""

    __slots__ = ()
    size: int
    frames: int
    last_size: int | None
    offset_ns: int
    period_ns: int
    jitter_ns: int
    timing: str
    end_ns: int | None
    sub_vl: int | None


class VirtualLink(Offered):
    """A virtual link, with its own stream and its paths."""

    __slots__ = ()
    id: int
    bag_ms: int
    smax: int
    priority: str
    policing_jitter_ns: int
    policing: str
    skew_max_ns: int
    depth: int
    sub: int
    a: Paths
    b: Paths

    @property
    def source(self) -> str | None:
        """The end system that sends it; None without paths."""
        return next((path[0] for path in [*self.a, *self.b] if path), None)

    @property
    def destinations(self) -> list[str]:
        """The end systems that receive it, by network A or B."""
        return list(dict.fromkeys(path[-1] for path in [*self.a, *self.b] if path))

    def _names(self) -> str:
        return f" {self.id}"


class Stream(Offered):
    """A further stream of the virtual link `vl`."""

    __slots__ = ()
    vl: int

    def _names(self) -> str:
        return f" of virtual link {self.vl}"


K = TypeVar("K", int, str)
R = TypeVar("R", bound=Row)


class Rows(Mapping[K, R], Tabled, Generic[K, R]):
    """The rows of a section: virtual links by their numbers, nodes by their names, and links, outages and streams by the numbers of
    their rows, from 1."""

    def __init__(self, text: ChangedText, section: str, row_type: type[R]) -> None:
        self._text, self._section, self._type = text, section, row_type

    def __getitem__(self, who: K) -> R:
        places = self._text.places[self._section]
        if who not in places:
            near = meant(str(who), places) if self._section == "node" else ""
            if isinstance(who, str) and self._section != "node":
                near = ": they go by numbers" + (f", as {self._section}[{who}]" if who.isdecimal() else "")
            raise NotThere(f"there is no {self._section} {who!r} in {self._text.path}{near}")
        return self._type(self._text, self._section, places[who])

    def __iter__(self) -> Iterator[K]:
        return iter(list(self._text.places[self._section]))

    def __len__(self) -> int:
        return len(self._text.places[self._section])

    def __repr__(self) -> str:
        one = A_ROW[self._section].removeprefix("a ").removeprefix("an ")
        return f"<{counted(len(self), one)} of {self._text.path}>"

    def columns(self) -> list[str]:
        return list(KEYS_BY_NAME[self._section])

    def rows(self) -> list[dict[str, Any]]:
        return [{name: row[name] for name in row.keys()} for row in self.values()]
