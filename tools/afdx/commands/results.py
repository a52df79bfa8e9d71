#!/usr/bin/env python3
"""Writes results into the document of a network: a workbook or CSV that afdx table made NET of. Each row of a virtual link gets
the greatest latency, the bound, the limit and the margin, what was lost, and the jitter, coloured by verdict. A new sheet names
the program, with checksums of all files.

BOOK itself is never written. Its formulas, widths and other sheets stay; a line on error output names what the library cannot
keep, as charts and macros. A row that names destinations has the worst of these, another row the worst of all. If the document has
several files, each one with rows of virtual links takes a call.
"""
import argparse
import hashlib
import os
import sys
import tempfile
from collections.abc import Iterator
from typing import Any

from afdx import files
from afdx.commands.chosen_program import Mistake, chosen, ended, foresee
from afdx.document.rows_of_links import Document
from afdx.files import book_edits, csv_edits, program, workbook
from afdx.files.program import NoProgram
from afdx.model import Network
from afdx.page.given import ends_of, tables_of
from afdx.reckon import bounds_reader, limits, margins, network_calculus, proved_bounds, row_results
from afdx.reckon.bounds_rows import BoundsRows
from afdx.runs import by_rt, program_bounds
from afdx.runs.by_rt import report

EXAMPLES = """
examples:
  afdx results icd.xlsx net.toml -o icd_results.xlsx
        runs the program, bounds the latencies, and writes both beside the rows of icd.xlsx
  afdx results icd.xlsx net.toml -o icd_results.xlsx --by second-opinion
        the same by Python alone
  afdxsim seq net.toml > tables.csv && afdx bounds net.toml -o bounds.csv
  afdx results icd.xlsx net.toml -o icd_results.xlsx --tables tables.csv --bounds bounds.csv
        writes the tables and bounds that are there
  afdx results icd.csv net.toml -o icd_results.csv
        the same of CSV: a line begins with # where a workbook has a sheet

columns, in us and frames: see the sheet `afdx results`, or the last lines of a CSV file

status:
  0  OUT is written
  1  OUT is written, and a frame took longer than its limit; with --strict also if a bound is above its limit
  2  a word is wrong, a file cannot be read or written, or BOOK is not the document of NET; else that of the program
"""
SHEET = "afdx results"


def words_of(arguments: list[str] | None) -> argparse.Namespace:
    parser = argparse.ArgumentParser(
        prog="afdx results", description=__doc__, epilog=EXAMPLES, formatter_class=argparse.RawDescriptionHelpFormatter
    )
    add = parser.add_argument
    add("book", metavar="BOOK", help="the document (.xlsx or CSV) that NET was made of")
    add("net", metavar="NET", help="the description that afdx table made of it")
    add("-o", "--output", metavar="OUT", required=True, help="the file to write, of the kind of BOOK")
    add("--tables", metavar="FILE", help="tables that the program printed for NET, or the folder of a campaign (default: runs the program)")
    add("--bounds", metavar="FILE", help="what `afdx bounds NET` or `afdxsim bounds NET` printed (default: computes them)")
    add("--no-bounds", action="store_true", help="leaves bounds out")
    add("--limits", metavar="FILE", help="the limits (default: those of the comments of NET)")
    add("--strict", action="store_true", help="the status is 1 if a bound is above its limit, or if there is none")
    add("--by", metavar="WHAT", help="proved, try or second-opinion: what runs if there are no tables (default: proved, else try)")
    add("--program", metavar="PATH", help="the program to run, whatever it is")
    words = parser.parse_args(arguments)
    if words.tables and (words.by or words.program):
        parser.error("--by and --program name what runs, and --tables has what was run")
    if words.bounds and words.no_bounds:
        parser.error("--bounds has bounds, and --no-bounds leaves them out")
    return words


def run(words: argparse.Namespace, folder: str) -> tuple[str, program.Program, int]:
    """Has the program make tables; answers their file, what made them, and the status."""
    it = chosen(words.by, words.program)
    report(it.says)
    path = os.path.join(folder, "tables.csv")
    with open(path, "wb") as out:
        if it.how == "tried":
            foresee(words.net, "--by second-opinion, or ")
            ((status, printed, said),) = by_rt.cases_by_try([(files.text_of(words.net).encode(), [])])
            out.write(printed)
            sys.stderr.write(said.decode("utf-8", "replace"))
            return path, it, 2 if status is None else status
        command = [it.path, "seq"] if it.path else program.command("second-opinion")
        return path, it, ended([*command, words.net], stdout=out)


def bounds_of(words: argparse.Namespace, net: Network, path: str | None) -> tuple[margins.Bounds | None, str]:
    """The bounds, those of the program first, and who computed them. `path` is the program that ran, if it is one."""
    if words.no_bounds:
        return None, ""
    if not words.bounds:
        printed = program_bounds.bounds_of(path, net) if path else None
        own = network_calculus.Bounds(net)
        rows = BoundsRows(own, printed.proved, printed.contract) if printed else BoundsRows(own)
        return rows, rows.made_by()
    if proved_bounds.is_head(next(files.lines_of(words.bounds), "").rstrip("\n")):
        rows = BoundsRows(network_calculus.Bounds(net), proved_bounds.ProvedBounds(words.bounds, net))
        return rows, rows.made_by()
    found = bounds_reader.read(words.bounds, net)
    return found, found.made_by or ""


def found_of(words: argparse.Namespace, net: Network, tables_path: str, program_path: str | None) -> tuple[row_results.Found, str]:
    """What is known of the run, and who computed the bounds."""
    tables, record = tables_of(tables_path, net)
    asked = argparse.Namespace(seeds=None, first=None, offsets=False)
    ends = ends_of(asked, tables, record)
    bounds, by = bounds_of(words, net, program_path)
    path = words.limits or (net.path if "\n# limit_" in net.text else None)
    held = margins.margins_of(limits.limits_of(path, net), net, tables.latencies, bounds) if path else []
    of = {(it.limit.vl, it.limit.where): it for it in held}
    is_by_contract = margins.by_contract(net, bounds)
    return row_results.Found(tables.latencies, list(tables.losses.values()), ends.of if ends else None, bounds, of, is_by_contract), by


def checksum_of(path: str) -> str:
    with open(path, "rb") as file:
        return hashlib.sha256(file.read()).hexdigest()


def legend(words: argparse.Namespace, found: row_results.Found, made_by: str, bounds_by: str) -> Iterator[list[str]]:
    """The rows of the sheet that says what the results are of: each with two cells, so that afdx table takes them for titles."""
    yield ["Results", f"of {os.path.basename(words.net)}, for {os.path.basename(words.book)}"]
    yield ["Run by", made_by]
    if bounds_by:
        yield ["Bounds by", bounds_by]
    yield ["Written by", program.tool("results").in_words()]
    for name, path in (("document", words.book), ("description", words.net), ("tables", words.tables), ("bounds", words.bounds), ("limits", words.limits)):
        if path and os.path.isfile(path):
            yield [f"SHA-256 of the {name}", f"{os.path.basename(path)} {checksum_of(path)}"]
    verdicts = [it.verdict() for it in found.margins.values()]
    for verdict in row_results.COLOURS:
        if verdict in verdicts:
            yield [f"Limits {verdict}", str(verdicts.count(verdict))]
    yield ["Copies lost", str(sum(found.copies_lost().values()))]
    for name, says in row_results.COLUMNS.items():
        yield [name, says]


def cells_of(document: Document, found: row_results.Found) -> Iterator[tuple[str | None, int, int, Any, str]]:
    """The cells: sheet, row, column from 0, value and colour."""
    free: dict[str | None, int] = {head.place.sheet: head.free for head in document.heads}
    copies = found.copies_lost()
    for head in document.heads:
        for i, name in enumerate(row_results.COLUMNS):
            yield head.place.sheet, head.number, head.free + i, name, "head"
    for row in document.rows:
        for i, (value, look) in enumerate(row_results.cells(found, copies, row.vl, row.destinations)):
            yield row.place.sheet, row.number, free[row.place.sheet] + i, value, look


def written(words: argparse.Namespace, document: Document, found: row_results.Found, rows: list[list[str]]) -> bytes:
    """The document with the results."""
    cells = list(cells_of(document, found))
    if workbook.is_workbook(words.book):
        if any(column + 1 > book_edits.MOST_COLUMNS for _, _, column, _, _ in cells):
            raise files.Fault(words.book, None, "has no columns left beside its tables: take out the cell that stands far to the right")
        title = SHEET
        while any(reading.place.sheet == title for reading in document.tables.readings):
            title += " 2" if title == SHEET else "+"
        edits = book_edits.Edits([(sheet or "", row, column + 1, value, look) for sheet, row, column, value, look in cells], title, rows)
        text, lost = book_edits.edited(words.book, edits)
        if lost:
            files.report("afdx results", f"{files.printable(words.output)} has not all that {files.printable(words.book)} has: {', '.join(lost)} could not be kept")
        return text
    by_row: dict[int, dict[int, Any]] = {}
    for _, row, column, value, _ in cells:
        by_row.setdefault(row, {})[column] = value
    return csv_edits.edited(words.book, by_row, rows)


@files.tool("afdx results")
def main(arguments: list[str] | None = None) -> int:
    words = words_of(arguments)
    net = Network(words.net)
    document = Document(words.book, net)
    files.ready([words.output])
    with tempfile.TemporaryDirectory(prefix="afdx-results-") as folder:
        tables, by = words.tables, None
        if not tables:
            try:
                tables, by, status = run(words, folder)
            except (Mistake, NoProgram) as fault:
                files.report("afdx results", str(fault))
                return files.BAD
            if status:
                return status
        found, bounds_by = found_of(words, net, tables, by.path if by else None)
    made_by = by.maker.in_words() if by else f"not said; tables of {os.path.basename(words.tables)}"
    files.write_whole(words.output, written(words, document, found, list(legend(words, found, made_by, bounds_by))))
    return 1 if margins.has_failed(found.margins.values(), words.strict) else 0


if __name__ == "__main__":
    sys.exit(main())
