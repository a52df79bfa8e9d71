"""The libraries that the product is to be made with, each at its place, and how code uses a library."""
import functools
import re
from collections.abc import Iterable, Mapping
from typing import NamedTuple

from gate.functions import Function


class Place(NamedTuple):
    """A library, what it is for, the crate that does this, the type that does it there, or "", and the names of the library that do it."""

    library: str
    purpose: str
    crate: str
    owner: str
    names: tuple[str, ...]


PLACES = (
    Place("toml", "descriptions are read", "network_rows", "", ("table_from_str", "Table")),
    Place("clap", "command lines are read", "command_line", "", ("Command", "ArgMatches")),
    Place("rand_pcg", "offers are drawn", "traffic", "", ("Lcg64Xsh32",)),
    Place("csv", "tables are written", "trace_tables", "", ("Writer",)),
    Place("arrayvec", "sends are kept", "reverse", "Outbound", ("ArrayVec",)),
    Place("crossbeam_deque", "work is picked", "turns", "", ("Worker", "Stealer")),
    Place("crossbeam_channel", "trace batches are handed on", "worker_pool", "", ("bounded", "Sender", "Receiver")),
)

USE = re.compile(r"^\s*(?:pub(?:\(\w+\))? )?use (\w+)((?:::\w+)*)(?:::\{([^}]*)\})?(?: as (\w+))?;", re.MULTILINE)
TYPE = re.compile(r"^(?:pub(?:\([a-z]+\))? )?(?:struct|enum) (\w+)(.*?)^\}", re.MULTILINE | re.DOTALL)
FIELD = re.compile(r"^    (?:pub(?:\([a-z]+\))? )?(\w+): (.*),$", re.MULTILINE)
NO_CODE = re.compile(r"//[^\n]*|/\*.*?\*/|\"(?:\\.|[^\"\\])*\"|'(?:\\.|[^'\\])'", re.DOTALL)


@functools.cache
def code_in(text: str) -> str:
    """A text without comments, and without the texts in it; lines stay where they are."""
    return NO_CODE.sub(lambda found: "\n" * found[0].count("\n"), text)


def taken(code: str, library: str) -> dict[str, str]:
    """For each name that a file takes from a library what it calls it."""
    called = {}
    for one, path, several, alias in USE.findall(code):
        if one != library:
            continue
        names = several.split(",") if several else [f"{path.split('::')[-1]} as {alias}" if alias else path.split("::")[-1]]
        for name in filter(None, map(str.strip, names)):
            own, _, other = name.partition(" as ")
            called[own] = other or own
    return called


def mentions(text: str, names: Iterable[str]) -> bool:
    return any(re.search(rf"\b{re.escape(name)}\b", text) for name in names)


def body_of(code: str, function: Function) -> str:
    """The head of a function without its clauses, and its body."""
    lines = code.splitlines()[function.line - 1 :]
    indent = lines[0][: len(lines[0]) - len(lines[0].lstrip())]
    end = next((place for place, line in enumerate(lines) if line.startswith(indent + "}") or place == 0 and line.endswith("}")), len(lines) - 1)
    opens = next((place for place, line in enumerate(lines[: end + 1]) if line == indent + "{"), None)
    head = [line for line in lines[: opens or 0] if not line.lstrip().startswith(("requires", "ensures"))][:1]
    return "\n".join(head + lines[opens or 0 : end + 1])


class Library:
    """How the code of a crate uses a library: the names that each file takes, and the types that keep something of it in a field."""

    def __init__(self, place: Place, code: Mapping[str, str]) -> None:
        self.place, self.code = place, code
        self.names = {path: {own: other for own, other in taken(text, place.library).items()} for path, text in code.items()}
        # For each type that keeps something of it the fields that do.
        self.fields: dict[str, set[str]] = {}
        types = [(path, name, body) for path, text in code.items() for name, body in TYPE.findall(text)]
        count = -1
        while count != len(self.fields):
            count = len(self.fields)
            for path, name, body in types:
                kept = {field for field, of in FIELD.findall(body) if mentions(of, [*self.names[path].values(), *self.fields])}
                if kept:
                    self.fields[name] = kept

    def is_used_by(self, function: Function, name: str) -> bool:
        """Whether a function names what does the work, or asks a field of its type that keeps something of the library."""
        text = body_of(self.code[function.path], function)
        called = self.names[function.path].get(name)
        if re.search(rf"\b{self.place.library}::(?:\w+::)*{name}\b", text) or called and mentions(text, [called]):
            return True
        return any(re.search(rf"\bself\s*\.{field}\b", text) for field in self.fields.get(function.owner, ()))
