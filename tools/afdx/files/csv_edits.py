"""Cells that are written behind those of a file of CSV, whose other cells stay."""
import csv
import io
from collections.abc import Iterable, Mapping
from typing import Any

from afdx.files import sheets
from afdx.files.reading import bytes_of

BEGINS = (b"\xef\xbb\xbf", b"\xff\xfe", b"\xfe\xff")


def edited(path: str, cells: Mapping[int, Mapping[int, Any]], more: Iterable[list[str]]) -> bytes:
    """The file with the cells of rows by their line and column, from 0, and comments behind it. A number has a comma where the file
    parts cells by semicolons."""
    before = bytes_of(path)
    text, note = sheets.decoded(path)
    rows = sheets.reader_of(path)
    mark = rows.dialect.delimiter
    out = io.StringIO()
    # So Excel takes it for what it is.
    out.write("\ufeff" if note or before.startswith(BEGINS) else "")
    lines = csv.writer(out, delimiter=mark, lineterminator="\r\n" if "\r\n" in text else "\n")
    for number, row in sheets.numbered(rows):
        found = cells.get(number, {})
        row = [*row, *[""] * (max(found, default=-1) + 1 - len(row))]
        for column, value in found.items():
            row[column] = text_of(value, mark)
        lines.writerow(row)
    for words in more:
        out.write(f"# {': '.join(words)}\n")
    return out.getvalue().encode()


def text_of(value: Any, mark: str) -> str:
    """A value as a cell."""
    if isinstance(value, float):
        found = f"{value:.3f}"
        return found.replace(".", ",") if mark == ";" else found
    return str(value)
