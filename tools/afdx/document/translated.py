"""The names of nodes in all lines, as the description has them."""
import functools
from collections.abc import Callable, Iterator, Mapping

from afdx.document import naming
from afdx.document.lines import Line
from afdx.document.naming import Names

# Columns with one name of a node, those with several, and those with paths.
ONE = {"node": ("name",), "link": ("a", "b"), "outage": ("from", "to"), "vl": ("source",)}
SEVERAL = ("destinations", "via")
PATHS = ("a", "b")
# Gives the names of a cell that has several.
Split = Callable[[str], list[str]]


def known_of(lines: Mapping[str, list[Line]]) -> set[str]:
    """The names that stand alone in a cell: those of cells with several names may be parted by them."""
    return {naming.one(line.cells[column]) for section, columns in ONE.items() for line in lines[section] for column in columns if column in line.cells}


def parts_of_path(text: str, split: Split) -> list[list[str]]:
    """The paths of a cell."""
    return [split(path) for path in text.split("|") if path.strip()]


def names_in(section: str, line: Line, split: Split) -> Iterator[str]:
    """The names of a line."""
    for column in ONE.get(section, ()):
        if column in line.cells:
            yield naming.one(line.cells[column])
    if section == "vl":
        for column in SEVERAL:
            yield from split(line.cells.get(column, ""))
        for column in PATHS:
            for path in parts_of_path(line.cells.get(column, ""), split):
                yield from path


def translate(lines: Mapping[str, list[Line]]) -> Names:
    """Puts the names of the description into all lines, and answers which they are. The name of a document that is another one
    stays with the line of the node."""
    known = known_of(lines)
    # Most cells have the text of another one.
    split: Split = functools.cache(lambda text: naming.split(text, known))
    names = Names(name for section, of in lines.items() for line in of for name in names_in(section, line, split))
    for section, of in lines.items():
        for line in of:
            for column in ONE.get(section, ()):
                if column in line.cells:
                    line.cells[column] = names(naming.one(line.cells[column]))
            if section == "vl":
                paths(line, split, names)
            own = names.documents.get(line.cells.get("name", ""), "") if section == "node" else ""
            if own and own != line.cells["name"]:
                line.cells.setdefault("document_name", own)
    return names


def paths(line: Line, split: Split, names: Names) -> None:
    """Of a line of virtual links the cells with several names."""
    for column in SEVERAL:
        if column in line.cells:
            line.cells[column] = " ".join(map(names, split(line.cells[column])))
    for column in PATHS:
        if line.cells.get(column, "-") != "-":
            line.cells[column] = " | ".join(" ".join(map(names, path)) for path in parts_of_path(line.cells[column], split))
