"""Cells that are written into a workbook beside those that it has, and a sheet of its own. Its formulas, widths and other sheets
stay; the file itself is not touched. Done by Debian's package python3-openpyxl, by the interpreter that has it."""
import importlib.util
import io
import json
import subprocess
import sys
import warnings
import zipfile
from typing import Any, NamedTuple

from afdx.files import program
from afdx.files.faults import Fault
from afdx.files.workbook import DEBIAN, PACKAGE

# What a part of a workbook is, by the folder in which it stands, and what the library may not keep.
PARTS = {
    "xl/charts/": "charts", "xl/vbaProject": "macros", "xl/media/": "pictures", "xl/pivotTables/": "pivot tables", "xl/slicers/": "slicers",
    "xl/ctrlProps/": "form controls", "xl/threadedComments/": "threads of comments", "xl/embeddings/": "embedded objects", "xl/diagrams/": "diagrams",
}
FILLS = {"red": "FFC7CE", "amber": "FFEB9C", "green": "C6EFCE", "grey": "E7E6E6"}
WIDTH = 13
MOST_COLUMNS = 16384


class Edits(NamedTuple):
    """What is written: in cells of sheets (sheet, row, column from 1, value, colour or nothing; a head is bold), and the rows of a
    new sheet, of which the first column is the name of each."""

    cells: list[tuple[str, int, int, Any, str]]
    title: str
    rows: list[list[Any]]


def edited(path: str, edits: Edits) -> tuple[bytes, list[str]]:
    """The workbook with what is written, and what of it is not kept."""
    if importlib.util.find_spec("openpyxl"):
        found = written(path, edits)
    else:
        found = by_another(path, edits)
    return found, lost(path, found)


def by_another(path: str, edits: Edits) -> bytes:
    """The same by Debian's interpreter."""
    words = [DEBIAN, "-m", "afdx.files.book_edits", path]
    try:
        run = subprocess.run(words, env=program.environment(), input=json.dumps(edits).encode(), capture_output=True)
    except OSError:
        run = None
    if run is None or run.returncode or not run.stdout:
        raise Fault(path, None, f"is a workbook, which needs a library: apt-get install -y {PACKAGE}; or save its sheets as CSV")
    return run.stdout


def written(path: str, edits: Edits) -> bytes:
    """Writes the cells and the sheet."""
    import openpyxl
    from openpyxl.styles import Font, PatternFill
    from openpyxl.utils import get_column_letter

    warnings.simplefilter("ignore")
    book = openpyxl.load_workbook(path)
    for sheet, row, column, value, look in edits.cells:
        cell = book[sheet].cell(row, column, value)
        if look == "head":
            cell.font = Font(bold=True)
            letter = get_column_letter(column)
            if letter not in book[sheet].column_dimensions:
                book[sheet].column_dimensions[letter].width = WIDTH
        elif look:
            cell.fill = PatternFill("solid", fgColor=FILLS[look])
        if isinstance(value, float):
            cell.number_format = "0.000"
    own = book.create_sheet(edits.title)
    for cells in edits.rows:
        own.append(cells)
        own.cell(own.max_row, 1).font = Font(bold=True)
    own.column_dimensions["A"].width, own.column_dimensions["B"].width = 30, 100
    out = io.BytesIO()
    book.save(out)
    return out.getvalue()


def kinds(archive: zipfile.ZipFile) -> dict[str, int]:
    """How many parts of each kind a workbook has."""
    found: dict[str, int] = {}
    for name in archive.namelist():
        kind = next((it for begin, it in PARTS.items() if name.startswith(begin) and not name.endswith(".rels")), None)
        if kind:
            found[kind] = found.get(kind, 0) + 1
        elif name == "xl/sharedStrings.xml" and b"<r>" in archive.read(name):
            found["several fonts in one cell"] = 1
        elif name.startswith("xl/drawings/") and b"<xdr:sp" in archive.read(name):
            found["drawn shapes"] = 1
    return found


def lost(path: str, after: bytes) -> list[str]:
    """What a workbook has and the one that was written has not."""
    with zipfile.ZipFile(path) as before, zipfile.ZipFile(io.BytesIO(after)) as behind:
        kept = kinds(behind)
        return [kind for kind, count in kinds(before).items() if kept.get(kind, 0) < count]


if __name__ == "__main__":
    sys.stdout.buffer.write(written(sys.argv[1], Edits(*json.loads(sys.stdin.buffer.read()))))
