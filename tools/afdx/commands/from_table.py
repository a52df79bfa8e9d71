#!/usr/bin/env python3
"""Makes a description from the tables of an interface control document: one line for each virtual link or each of its
destinations, one line for each node, and one line for each link, in one or several files, CSV or workbooks (.xlsx).

Sheets are joined by the number of the virtual link. Paths are shortest ones on both networks. What the tables leave
open gets usual values. Comments of the description name each usual value, each frame size that was computed from a
payload, and the line and table of each row. The tool knows the usual headings of interface control documents (Tx LRU,
VL ID, Lmax, Rate (Hz), ..). A heading that looks misspelt, or that fits two columns, is a fault; --column states its
meaning. Unknown columns are ignored, with a note on error output. A row that belongs to no table is a fault; --skip
leaves it out.

--back makes the tables of a description, with the limits, ports and remarks of its comments.
"""
import argparse
import json
import sys

from afdx import files
from afdx.document.lines import commented
from afdx.document.places import PASSED, Said, Skip, said_of
from afdx.document.tables import COLUMN_SAID
from afdx.document.text import Made, made
from afdx.model import headings, to_tables

EXAMPLES = """
examples:
  afdx table icd.csv -o net.toml
        the description of a table that has all
  afdx table icd.xlsx -o net.toml
        the same of the sheets of a workbook
  afdx table virtual_links.csv topology.csv -o net.toml
        the same of two tables
  afdx table icd.xlsx --column 'Box=source' --column 'Repetition=period_ms' --column 'Phase=-' -o net.toml
        with three headings that the tool does not know, of which the last is ignored. net.toml keeps them in comments
  afdx table icd.xlsx --skip History --skip 'VLs!A40:A52' --receipt rows.csv -o net.toml
        leaves out a sheet and some rows, and writes what became of the rows of each sheet
  afdx table icd.xlsx -o net.toml --json > findings.json
        for a build server: each fault, each note and the receipt as an object with file, sheet, line, level and text
  afdx table --back net.toml -o tables.csv
        the tables of a description

a table begins with one or two lines that name its columns, and ends with the next such line or with the sheet. Its columns
show what it has. Columns marked * are required. Lines that begin with # are ignored:
  virtual links   id*, source*, destinations* (names with blanks between), bag_ms, smax or payload (bytes), priority,
                  sub, policing, policing_jitter_ns, skew_max_ns, depth, size, offset_ns, period_ns, jitter_ns; bag_ms
                  or period_ns is required, and one of smax, size and payload. Of two ways that are equally short the
                  one over a switch that `via` names is taken, else the name decides. `a` and `b` state the paths of a
                  network themselves, as `ADC SWA DU | ADC SWA FWC`, and - for none. Lines that differ in the
                  destination alone are one virtual link, also in several sheets; what one leaves empty another may have.
                  network (A, B, A & B), sub_vl (lines for 1 to n), direction beside equipment. Lines that name
                  several ports of the sender (port, udp_source_port) are streams, each with its own size or
                  message_bytes (of a UDP message, cut as IP cuts it), period_ns, offset_ns, jitter_ns, timing
                  (sampling, queuing, event), frames, last_size, end_ns. name, message, port, rx_port, limit_us,
                  udp_port, udp_source_port, udp_destination_port and remarks become comments
  nodes           name*, kind (es or switch; a node with a net is a switch), net, port_bytes, latency_ns
  links           a*, b*, mbit, propagation_ns or length_m, net
  outages         from*, to*, from_ns*, to_ns*
  the run         until_ns, seed
A node that has no line of its own is an end system, or a switch if it is no end of a virtual link and has several links of
one network. Each row is used, a title (one or two cells, none a value of its column), skipped, or left, which is a fault. A time may have another unit: period_ms, jitter_us, until_s; and a
period may be a rate: rate_hz. Capital letters, blanks and brackets in the name of a column do not matter: `BAG (ms)` is
bag_ms. docs/TOOLS.md, section 2, lists the other headings that are known; section 13 has more.

status:
  0  the description is written. Error output has a note for each column or title that is ignored, and for what is hidden
     or struck out in a workbook. Its last line is the receipt: what was made, and how many rows were left
  1  the tables have a fault, or a row is of no table, and no description is written. Error output has each fault once, with
     the first line that has it and the number of the others
  2  a word is wrong, or a file cannot be read or written
"""


def column_word(text: str) -> Said:
    """The type of a word of --column: a heading in normal form, and the column for which it stands."""
    said = said_of(text)
    if not said.name:
        raise argparse.ArgumentTypeError(f"{text!r} is not [SHEET!]HEADING=COLUMN, as 'Tx LRU=source'")
    if said.column != PASSED and not headings.is_known(said.column):
        raise argparse.ArgumentTypeError(f"{text!r}: there is no column {said.column!r}: see the columns above")
    return said


def skip_word(text: str) -> Skip:
    """The type of a word of --skip: a sheet, or rows of one."""
    skip = Skip(text)
    if skip.is_bad:
        raise argparse.ArgumentTypeError(f"{text!r} is not SHEET, nor SHEET!A20:A35")
    return skip


def words_of(arguments: list[str] | None) -> argparse.Namespace:
    parser = argparse.ArgumentParser(
        prog="afdx table", description=__doc__, epilog=EXAMPLES, formatter_class=argparse.RawDescriptionHelpFormatter
    )
    parser.add_argument("tables", metavar="TABLE", nargs="+", help="the tables (CSV or .xlsx); with --back the description")
    parser.add_argument("-o", "--output", metavar="FILE", type=files.output_name, help="the file to write (default: standard output)")
    parser.add_argument("--back", action="store_true", help="makes the tables of a description")
    parser.add_argument(
        "--column", type=column_word, action="append", default=[], metavar="[SHEET!]HEADING=COLUMN",
        help="says which column a heading stands for, as 'Tx LRU=source' or 'Ports!Rate=period_ms'; HEADING=- passes over it",
    )
    parser.add_argument(
        "--skip", type=skip_word, action="append", default=[], metavar="SHEET[!A20:A35]",
        help="leaves out a sheet, or rows of it; a file of CSV is a sheet of its name",
    )
    parser.add_argument("--json", action="store_true", help="prints faults, notes and the receipt as JSON on standard output, one a line (with -o)")
    parser.add_argument("--receipt", metavar="FILE", help="writes what became of the rows of each sheet (CSV)")
    words = parser.parse_args(arguments)
    if words.back and (words.column or words.skip or words.receipt or words.json):
        parser.error("--column, --skip, --receipt and --json are about tables that are read; --back makes those of the description")
    if words.json and not words.output:
        parser.error("--json prints on standard output, so the description needs a name: -o FILE")
    names = [said[:2] for said in words.column]
    twice = next((said for said in words.column if names.count(said[:2]) > 1), None)
    if twice:
        parser.error(f"--column says of {twice.name!r} what it stands for, and says it again")
    if words.back and len(words.tables) > 1:
        parser.error("--back makes the tables of one description")
    if words.receipt == "-":
        parser.error("--receipt names a file: error output has the receipt in one line")
    return words


@files.tool("afdx table")
def main(arguments: list[str] | None = None) -> int:
    words = words_of(arguments)
    if words.back:
        written(words.output, to_tables.Back(words.tables[0], commented, COLUMN_SAID).text(), {})
        return 0
    found = made(words.tables, words.column, words.skip)
    if words.json:
        files.write_out(json_text(found))
    for note in found.notes if not words.json else ():
        files.report("afdx table", f"note: {note}")
    for fault in found.faults if not words.json else ():
        files.report("afdx table", fault)
    receipt = {words.receipt: found.receipt.csv()} if words.receipt else {}
    if found.faults:
        files.write_all(receipt)
    else:
        written(words.output, found.text, receipt)
    if not words.json:
        files.report("afdx table", found.receipt.text())
    return 1 if found.faults else 0


def json_text(found: Made) -> str:
    """Faults, notes and the receipt for another program: an object a line."""
    objects: list[dict[str, object]] = []
    for level, ones in (("fault", found.faults), ("note", found.notes)):
        for it in ones:
            path, _, sheet = it.path.removesuffix(",").partition(", sheet ")
            objects.append({"file": path, "sheet": sheet or None, "line": it.line, "level": level, "text": it.text})
    objects.append({"file": None, "sheet": None, "line": None, "level": "receipt", "text": found.receipt.text()})
    return "[\n" + ",\n".join(json.dumps(it, ensure_ascii=False) for it in objects) + "\n]\n"


def written(output: str | None, text: str, more: dict[str, str]) -> None:
    """Writes a text into a file or on standard output, and other files."""
    files.write_all(({output: text} if output else {}) | more, prints=output is None)
    if output is None:
        files.write_out(text)


if __name__ == "__main__":
    sys.exit(main())
