"""Tables as CSV: their rows with lines, and names in a cell."""
import csv
import io
import re
from collections.abc import Iterator
from typing import Any

from afdx.files.faults import Fault
from afdx.files.reading import bytes_of

# What a CSV file of Excel may say in its first line: which mark parts the cells.
SAID = re.compile(r"sep=([,;\t|])\s*")
# No text has such a sign, and another kind of file has.
CONTROL = re.compile(r"[\x00-\x08\x0e-\x1f\x7f]")
HOW_TO_SAVE = "save it as `CSV UTF-8 (comma delimited)`, or as a workbook (.xlsx)"
MOST_LINES_LOOKED_AT = 200


def decoded(path: str) -> tuple[str, str | None]:
    """The text of a table, and what is to be said of its letters: UTF-8, UTF-16 with its mark, or else Windows-1252, in which
    Excel writes CSV in Western Europe and America."""
    found = bytes_of(path)
    if found[:2] in (b"\xff\xfe", b"\xfe\xff"):
        try:
            return found.decode("utf-16"), None
        except UnicodeDecodeError:
            raise Fault(path, None, f"begins as UTF-16 and is none: {HOW_TO_SAVE}") from None
    try:
        text, note = found.decode("utf-8").removeprefix("\ufeff"), None
    except UnicodeDecodeError as fault:
        line = found.count(b"\n", 0, fault.start) + 1
        try:
            text, note = found.decode("cp1252"), f"is no UTF-8, and is read as Windows-1252; if letters of names are wrong, {HOW_TO_SAVE}"
        except UnicodeDecodeError:
            raise Fault(path, line, f"is neither UTF-8 nor Windows-1252: {HOW_TO_SAVE}") from None
    bad = CONTROL.search(text)
    if bad and note:
        raise Fault(path, found.count(b"\n", 0, fault_at(text, bad)) + 1, f"is no text that can be read: {HOW_TO_SAVE}")
    if "\x00" in text:
        raise Fault(path, None, f"has bytes that no text has, as UTF-16 without its mark: {HOW_TO_SAVE}")
    return text, note


def fault_at(text: str, bad: re.Match[str]) -> int:
    return len(text[: bad.start()].encode("cp1252", "replace"))


def delimiter_of(lines: list[str]) -> str:
    """The mark that parts the cells: that of the first line which has one twice, else of the first that has one."""
    said = SAID.fullmatch(lines[0]) if lines else None
    if said:
        return said[1]
    marked = [line for line in lines[:MOST_LINES_LOOKED_AT] if re.search("[,;\t]", line) and not re.match("#.", line)]
    most = [line for line in marked if max(map(line.count, ",;\t")) > 1] or marked
    return max(",;\t", key=most[0].count) if most else ","


def noted_reader(path: str) -> tuple[Any, str | None]:
    """A reader of a file of CSV, by commas, semicolons or tabs, and what is to be said of its letters."""
    text, note = decoded(path)
    return csv.reader(io.StringIO(text, newline=""), delimiter=delimiter_of(text.split("\n"))), note


def reader_of(path: str) -> Any:
    """A reader of a file of CSV."""
    return noted_reader(path)[0]


def numbered(rows: Any) -> Iterator[tuple[int, list[str]]]:
    """The rows of a reader of CSV, with their lines."""
    for cells in rows:
        yield rows.line_num, cells


def names_of(text: str) -> list[str]:
    """Names with blanks, commas or other marks between them."""
    return [name for name in re.split(r"[\s,;>|]+", text) if name]
