"""The lines of a table, cell by cell: numbers without their units, and what says that nothing is there left out."""
from fractions import Fraction

from afdx.document import cells, naming
from afdx.document.block_columns import DESTINATION, RECEIVER, BlockColumns
from afdx.document.commas import Commas
from afdx.document.findings import Findings
from afdx.document.lines import Line, commented
from afdx.document.reading import Block
from afdx.files import cut
from afdx.model import headings
from afdx.model.headings import OF_A_METRE, OF_COLUMN, key_of

# What a row cannot be without, and nothing usual stands for: a cell that says that it is not decided yet is a fault.
NEVER_USUAL = {"id", "source", "destinations", "bag_ms", "smax", "size", "payload", "message_bytes", "a", "b", "name", "net", "kind", "from", "to", "network"}


class LineMaker:
    """Makes the lines of a table."""

    def __init__(self, findings: Findings, block: Block, columns: BlockColumns, commas: Commas) -> None:
        self.findings, self.block, self.columns, self.commas = findings, block, columns, commas
        self.section = block.head.section
        self.shared: dict[tuple[tuple[str, int], ...], dict[str, int]] = {}

    def line(self, number: int, row: list[str]) -> Line:
        """The line of a row."""
        line = Line(self.block.place, number, {})
        line.section, line.block, line.headings = self.section, id(self.block), self.columns.said
        if any(row[len(self.columns.found) :]):
            last = max(i for i, cell in enumerate(row) if cell)
            self.findings.add(line, f"has {last + 1} cells, and the table has {len(self.columns.found)} columns")
        at: dict[str, int] = {}
        line.at = at
        for i, (column, text) in enumerate(zip(self.columns.found, row)):
            if column and text:
                at[column] = self.block.head.first + i
                self.cell(line, at, column, text)
        line.at = self.shared.setdefault(tuple(at.items()), at)
        return line

    def cell(self, line: Line, at: dict[str, int], column: str, text: str) -> None:
        """Takes a cell."""
        if text.startswith("=") and self.block.place.sheet is not None:
            self.findings.add(line, f"{line.cell(column)} is a formula without a value: open and save it in the program that has made it")
        elif column.startswith(RECEIVER):
            self.receiver(line, column, text)
        elif column.startswith(DESTINATION):
            at.setdefault("destinations", at[column])
            self.destination(line, text)
        elif column in ("network_a", "network_b"):
            if cells.is_mark(text):
                line.cells["network"] = line.cells.get("network", "") + column[-1].upper()
        elif cells.is_not_yet(text) and column not in commented(self.section):
            self.not_yet(line, column, text)
        elif cells.is_nothing(text) and not (column in ("a", "b") and self.section == "vl" or column == "network" and text.isalpha()):
            return
        elif column == "tx_port":
            line.cells["port"], at["port"], line.is_port_of_sender = text, at[column], True
        elif column in ("id", "id_hex"):
            line.cells["id"] = cells.number_of_vl(text, column == "id_hex") or text
        elif OF_COLUMN[self.section][column].units or column in ("depth", "sub", "frames", "seed"):
            self.number(line, at, column, text)
        else:
            line.cells[column] = text

    def not_yet(self, line: Line, column: str, text: str) -> None:
        """A cell that says that its value is not decided yet."""
        if key_of(column, self.section) in NEVER_USUAL:
            self.findings.add(line, f"{line.cell(column)}: {column} is {text!r}, and nothing usual stands for it: write its value")
        else:
            self.findings.note(line, f"{line.cell(column)}: {column} is {text!r}, and counts as empty")

    def destination(self, line: Line, text: str) -> None:
        """A cell of one of several columns with destinations."""
        if cells.is_not_yet(text):
            self.not_yet(line, "destinations", text)
        elif not cells.is_nothing(text):
            line.cells["destinations"] = "\n".join(filter(None, (line.cells.get("destinations"), text)))

    def receiver(self, line: Line, column: str, text: str) -> None:
        """A cell of a matrix: whether the node of its column receives or sends."""
        name = column.removeprefix(RECEIVER)
        if cells.is_sender(text):
            if naming.one(line.cells.get("source", name)) != name:
                self.findings.add(line, f"{line.cell(column)}: {name} sends too, beside {line.cells['source']}")
            line.cells.setdefault("source", name)
        elif cells.is_mark(text):
            line.cells["destinations"] = "\n".join(filter(None, (line.cells.get("destinations"), name)))
        elif text.lower() not in cells.NO_MARKS:
            self.findings.add(line, f"{line.cell(column)}: the column {name!r} is that of a node, and {cut(text)} is no mark as X")

    def number(self, line: Line, at: dict[str, int], column: str, text: str) -> None:
        """A number: in the unit that the cell names, else in that of its column. What is none stays as it is, and is a fault later."""
        found = cells.number_of(text)
        own = headings.in_unit(column, self.section, found.unit) if found and found.unit else column
        if found is None or own is None:
            line.cells[column] = text
            return
        if found.mark:
            why = self.commas.why_not(line, column, text, found.mark)
            if why is not None:
                if why:
                    self.findings.add(line, why)
                else:
                    line.cells[column] = text
                return
        plain = found.plain
        if self.section == "link" and own.startswith("length_"):
            plain, own = decimal(Fraction(plain) * OF_A_METRE[own.removeprefix("length_")]), "length_m"
        elif self.section == "link" and own == "mbit_gbit":
            plain, own = decimal(Fraction(plain) * 1000), "mbit"
        at.setdefault(own, at[column])
        line.cells[own] = plain


def star(line: Line, findings: Findings) -> list[Line]:
    """The links of a row that names an end system and its switch of each network."""
    if "end" not in line.cells:
        findings.add(line, "names switches, and no end system that is linked with them")
        return []
    found = []
    for end, net in (("a", "A"), ("b", "B")):
        if end in line.cells:
            link = Line(line.place, line.number, {"net": net} | {it: cell for it, cell in line.cells.items() if it not in ("a", "b", "end")})
            link.cells |= {"a": line.cells["end"], "b": line.cells[end]}
            link.section, link.block, link.headings = line.section, line.block, line.headings
            link.at = line.at | {"a": line.at["end"], "b": line.at[end]}
            found.append(link)
    return found


def decimal(number: Fraction) -> str:
    """A number with a point, of which the denominator has no other factors than 2 and 5."""
    whole, rest = divmod(number.numerator, number.denominator)
    digits = ""
    while rest and len(digits) < 12:
        digit, rest = divmod(rest * 10, number.denominator)
        digits += str(digit)
    return f"{whole}.{digits}" if digits else str(whole)
