"""The sheets of a workbook (.xlsx), cell by cell as text. They are read by Debian's package python3-openpyxl, by the
interpreter that has it."""
import importlib.util
import json
import subprocess
import sys
import warnings
from decimal import Decimal
from typing import Any, NamedTuple

from afdx import files
from afdx.files import Fault, program

# Debian's packages are for this interpreter.
DEBIAN = "/usr/bin/python3"
PACKAGE = "python3-openpyxl"
# How a workbook begins: it is an archive. Older ones (.xls) are another kind of file.
BEGIN = b"PK\x03\x04"
OLD = b"\xd0\xcf\x11\xe0"


class Sheet(NamedTuple):
    """A sheet that has cells: its name; its rows that are not empty, each with its number and its cells as texts; what of it
    looks as if it did not count, for each piece the line, or None, and what it is; which cells of a row are merged sideways:
    the row, the first and the last column, from 0; and which cells have a text that begins as a number: the row and the column.
    A formula of which no value is saved is the text `=..`."""

    name: str
    rows: list[tuple[int, list[str]]]
    hidden: list[tuple[int | None, str]]
    spans: list[tuple[int, int, int]]
    typed: list[tuple[int, int]]


class BadWorkbook(Exception):
    """Why a workbook cannot be read."""


def is_workbook(path: str) -> bool:
    """Whether a file begins as a workbook does. One that cannot be read is none; its reader reports that."""
    try:
        with open(path, "rb") as file:
            begin = file.read(len(BEGIN))
    except OSError:
        return False
    if begin == OLD:
        raise Fault(path, None, "is a workbook of Excel before 2007, or one with a password: save it as .xlsx without a password, or its sheets as CSV")
    return begin == BEGIN


def sheets_of(path: str) -> list[Sheet]:
    """The sheets that have cells."""
    files.reads(path)
    try:
        return read(path) if importlib.util.find_spec("openpyxl") else by_another("read", path)
    except BadWorkbook as fault:
        raise Fault(path, None, str(fault)) from None


def by_another(*words: str) -> list[Sheet]:
    """What Debian's interpreter reads, if it has the library. It prints the sheets as JSON, or why it cannot read them."""
    command = [DEBIAN, "-m", "afdx.files.workbook", *words]
    try:
        run = subprocess.run(command, env=program.environment(), stdin=subprocess.DEVNULL, capture_output=True, text=True)
        found = json.loads(run.stdout)
    except (OSError, ValueError):
        raise BadWorkbook(f"is a workbook, which needs a library: apt-get install -y {PACKAGE}; or save its sheets as CSV") from None
    if isinstance(found, str):
        raise BadWorkbook(found)
    texts = found["texts"]
    return [Sheet(name, [(row, [texts[i] for i in cells]) for row, cells in rows], *more) for name, rows, *more in found["sheets"]]


def as_json(sheets: list[Sheet]) -> str:
    """The sheets, with each text once."""
    texts: dict[str, int] = {}
    number = lambda text: texts.setdefault(text, len(texts))
    found = [[name, [[row, [number(cell) for cell in cells]] for row, cells in rows], *more] for name, rows, *more in sheets]
    return json.dumps({"sheets": found, "texts": list(texts)})


def text_of(value: Any) -> str:
    """A cell as text, with the 15 digits of a number that Excel keeps. Whole numbers have no point, and no number has an
    exponent."""
    if value is None:
        return ""
    if isinstance(value, float):
        found = format(Decimal(format(value, ".15g")), "f")
        return found.rstrip("0").rstrip(".") if "." in found else found
    return str(value).strip()


def merged(rows: list[tuple[int, list[str]]], spans: list[Any]) -> list[tuple[int, list[str]]]:
    """The rows with cells that are merged downwards, which share the text of the first. A row that is not there has none."""
    of, last = dict(rows), rows[-1][0] if rows else 0
    for first_row, first, last_row in spans:
        above = of.get(first_row, [])
        text = above[first] if first < len(above) else ""
        for row in range(first_row + 1, min(last_row, last) + 1) if text else ():
            cells = of.setdefault(row, [])
            cells += [""] * (first + 1 - len(cells))
            cells[first] = text
    return sorted(of.items())


def hidden_of(state: str, rows: list[tuple[int, list[str]]], hidden: set[int], columns: list[tuple[str, int, int]], struck: set[int]) -> list[tuple[int | None, str]]:
    """What of a sheet looks as if it did not count: for each piece the line, or None, and what it is."""
    found: list[tuple[int | None, str]] = [(None, "is hidden")] if state != "visible" else []
    found += [(row, "is hidden") for row, _ in rows if row in hidden]
    for name, first, last in columns:
        if any(cell for _, cells in rows for cell in cells[first - 1 : last]):
            found.append((None, f"has the column {name}, which is hidden"))
    return found + [(row, "is struck out") for row in sorted(struck)]


class Cells:
    """The cells of a sheet, row by row. Each text of `texts` is there once; `struck` are the styles that strike a cell out."""

    def __init__(self, texts: dict[str, str], struck: set[int]) -> None:
        self.texts, self.struck = texts, struck
        self.rows: list[tuple[int, list[str]]] = []
        self.typed: list[tuple[int, int]] = []
        self.struck_rows: set[int] = set()

    def row(self, number: int, cells: list[dict[str, Any]]) -> None:
        """Takes a row, if it has a text."""
        found: list[str] = []
        for cell in cells:
            value = cell["value"]
            text = text_of(value)
            if text:
                column = cell["column"] - 1
                found += [""] * (column + 1 - len(found))
                found[column] = self.texts.setdefault(text, text)
                if isinstance(value, str) and text[0].isdigit():
                    self.typed.append((number, column))
                if cell["style_id"] in self.struck:
                    self.struck_rows.add(number)
        if found:
            self.rows.append((number, found))


def parser_of(book: Any, sheet: Any, source: Any) -> Any:
    """The library's parser of a sheet, which hands over one row after another. It gives a formula without a value its text."""
    from openpyxl.worksheet._reader import FORMULA_TAG, WorkSheetParser

    class Parser(WorkSheetParser):
        def parse_cell(self, element: Any) -> dict[str, Any]:
            cell: dict[str, Any] = super().parse_cell(element)
            if cell["value"] is None and (formula := element.find(FORMULA_TAG)) is not None:
                cell["value"] = f"={formula.text or '..'}"
            return cell

    return Parser(source, sheet._shared_strings, True, book.epoch, book._date_formats, book._timedelta_formats)


def sheet_of(book: Any, sheet: Any, texts: dict[str, str]) -> Sheet | None:
    """A sheet, None where it has no text."""
    cells = Cells(texts, {i for i, style in enumerate(book._cell_styles) if book._fonts[style.fontId].strike})
    with book._archive.open(sheet._worksheet_path) as source:
        parser = parser_of(book, sheet, source)
        for number, row in parser.parse():
            cells.row(number, row)
    spans = parser.merged_cells.mergeCell if parser.merged_cells else []
    rows = merged(sorted(cells.rows), [(it.min_row, it.min_col - 1, it.max_row) for it in spans])
    if not rows:
        return None
    numbers = {row for row, _ in rows}
    sideways = [(row, it.min_col - 1, it.max_col - 1) for it in spans if it.max_col > it.min_col for row in range(it.min_row, it.max_row + 1) if row in numbers]
    is_set = lambda attributes: attributes.get("hidden") in ("1", "true")
    hidden = {int(row) for row, attributes in parser.row_dimensions.items() if is_set(attributes)}
    columns = [(name, int(it["min"]), int(it["max"])) for name, it in parser.column_dimensions.items() if is_set(it)]
    return Sheet(sheet.title, rows, hidden_of(sheet.sheet_state, rows, hidden, columns, cells.struck_rows), sideways, cells.typed)


def read(path: str) -> list[Sheet]:
    """The sheets of a workbook that have cells."""
    import openpyxl
    from openpyxl.worksheet._read_only import ReadOnlyWorksheet

    warnings.simplefilter("ignore")
    try:
        book = openpyxl.load_workbook(path, read_only=True, data_only=True)
        texts: dict[str, str] = {}
        found = [sheet_of(book, sheet, texts) for sheet in book._sheets if isinstance(sheet, ReadOnlyWorksheet)]
        return [sheet for sheet in found if sheet]
    except Exception as fault:  # The library raises what its own libraries raise.
        raise BadWorkbook(f"is no workbook that can be read: {type(fault).__name__}: {' '.join(str(fault).split())}") from None


if __name__ == "__main__":
    try:
        print(as_json(read(sys.argv[2])))
    except BadWorkbook as fault:
        print(json.dumps(str(fault)))
