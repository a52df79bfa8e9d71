"""The description that tables make, with comments that name the line and the table of each row; and its faults as those of the tables."""
import re
from collections.abc import Iterable
from typing import Any, NamedTuple

from afdx.document.joined import lines_of
from afdx.document.lines import Line, commented
from afdx.document.places import Said, Skip
from afdx.document.receipt import Receipt
from afdx.document.row_values import Value, one_line
from afdx.document.rows import Maker
from afdx.document.tables import Tables
from afdx.document.together import together
from afdx.files import Fault, sheets
from afdx.model import description_faults, to_tables
from afdx.model.description import Description, written
from afdx.model.headings import key_of
from afdx.model.keys import COUNTED, KEYS, SECTIONS


class Made(NamedTuple):
    """The description of tables, their faults, what is passed over, and the receipt."""

    text: str
    faults: list[Fault]
    notes: list[Fault]
    receipt: Receipt


def line_of_value(key: str, value: Value) -> str:
    text = f"{key} = {written(value.value)}"
    return f"{text:<31} # {value.said}" if value.said else text


def lines_said(line: Line) -> str:
    """The lines of the tables that a line is made of."""
    found = []
    for path, numbers in lines_of(line):
        found.append(f"{one_line(path)} line{'s' if len(numbers) > 1 else ''} {', '.join(map(str, numbers))}")
    return "; ".join(found)


def comments_of(section: str, line: Line) -> list[str]:
    """What a table has of a row that no key has. If the lines that it is made of differ, each is named with its
    destinations."""
    said = []
    # An end system without a line of its own is made of another row's.
    is_own = section != "node" or "name" in line.cells and line.section == "node"
    for column in commented(section) if is_own else ():
        parts = parts_with(section, line, column)
        cells = [one_line(part.cells[column]) if column in part.cells else "" for part in parts]
        for cell in dict.fromkeys(filter(None, cells)):
            names = [name for part, own in zip(parts, cells) if own == cell for name in sheets.names_of(part.cells.get("destinations", ""))]
            # So is a text that ends as if it named some.
            is_said = set(cells) != {cell} or to_tables.AT.fullmatch(cell)
            of = f" at {' '.join(dict.fromkeys(names))}" if is_said and names else ""
            said.append(f"{column} {cell}{of}")
    return said


def parts_with(section: str, line: Line, column: str) -> list[Line]:
    """The lines whose cells of a column become comments of a row: what lines of a further port say of it stands behind the head of its
    own row."""
    if section == "stream":
        return [part for part in line.parts if not line.own or part not in line.own.parts]
    further = [part for stream in line.streams for part in stream.parts if line.own and part not in line.own.parts]
    return [part for part in line.parts or [line] if column not in commented("stream") or part not in further]


def text_of_rows(maker: Maker, paths: list[str]) -> str:
    """The description, and for each of its rows the line of the table."""
    names = maker.tables.names.documents
    lines = [
        f"# Made of {one_line(', '.join(paths))} by afdx table.",
        "#",
        "# Behind a value stands where it is from, unless the table has it itself: `usual` where the table says nothing.",
        f"# smax and size count a frame {COUNTED}: the payload of UDP and 47 bytes.",
        "# Paths are the shortest ones; where two are equally short, names decide.",
        *(f'# --column "{one_line(said.text())}"' for said in maker.tables.columns.said),
        *(f'# --skip "{one_line(skip.text)}"' for skip in maker.tables.skips),
    ]
    lines += [line_of_value(key.name, maker.top[key.name]) for key in KEYS["top"] if key.name in maker.top]
    for section in SECTIONS:
        for row, made_of in zip(maker.rows[section], maker.made_of[section]):
            lines += ["", f"[[{section}]] # {lines_said(made_of)}"]
            said = comments_of(section, made_of)
            own = names.get(row["name"].value, "") if section == "node" and "name" in row else ""
            if own and own != row["name"].value and not any(text.startswith("document_name ") for text in said):
                said.insert(0, f"document_name {one_line(own)}")
            lines += (f"# {text}" for text in said)
            lines += [line_of_value(key.name, row[key.name]) for key in KEYS[section] if key.name in row]
    return "\n".join(lines) + "\n"


def made(paths: list[str], columns: Iterable[Said] = (), skips: Iterable[Skip] = ()) -> Made:
    """The description of tables, their faults, what is passed over, and the receipt."""
    tables = Tables(paths, columns, skips)
    maker = Maker(tables)
    text = text_of_rows(maker, paths)
    if not tables.faults:
        for finding in description_faults.judged(OfTables(text, maker)):
            tables.faults.append(fault_of(finding, maker, paths))
    return Made(text, together(tables.faults), together(tables.notes), Receipt(maker))


class OfTables(Description):
    """A description whose places are those of the tables that it is made of."""

    def __init__(self, text: str, maker: Maker) -> None:
        super().__init__("", text)
        self.maker = maker

    def line(self, section: str, row: int | None = None, key: str | None = None, item: int | None = None) -> Any:
        found = origin(self.maker, section, row, key)
        return found.number if found else 0


def origin(maker: Maker, section: str, row: int | None, key: str | None) -> Line | None:
    """The line of a table that has a value of a row."""
    lines = maker.made_of[section]
    if (row or 1) > len(lines):
        return None
    line = lines[(row or 1) - 1]
    column = next((it for it in line.origin if key_of(it, section) == key), None)
    return line.by(column) if column else line


def fault_of(finding: description_faults.Finding, maker: Maker, paths: list[str]) -> Fault:
    """A fault of the description as one of a table."""
    assert finding.place is not None
    section, row, key = finding.place
    line = origin(maker, section, row, key)
    who = re.sub(r" ?\(?\w+ row \d+\)?", "", finding.who).strip(", ")
    joint = " " if finding.text.startswith(("is ", "has ")) else ": "
    return Fault(line.path if line else paths[0], finding.line, f"{who}{joint}{finding.text}" if who else finding.text)
