#!/usr/bin/env python3
"""Writes tables of a run or of a campaign as JSON in one long form, so that pandas and others read whole numbers: a list of
objects with `kind`, `vl`, `where`, `measure` and `value`, one a line. Each value is a whole number; where there is none,
there is no object. `vl` is null where a number is of no virtual link.

afdx bounds, afdx second-opinion and afdx campaign write it themselves with --json.
"""
import argparse
import json
import sys
from collections.abc import Iterable, Iterator, Sequence
from typing import Any

from afdx import files, model

EXAMPLES = """
examples:
  afdxsim seq net.toml > tables.csv
  afdx long-form net.toml tables.csv -o tables.json
        the tables that the program printed; or merged ones
  python3 -c 'import pandas; print(pandas.read_json("tables.json"))'

status: 0; 2 if a word is wrong, a file cannot be read or written, or TABLES are not those of NET.
"""

KEYS = ("kind", "vl", "where", "measure", "value")


def text_of(rows: Iterable[tuple[Any, ...]]) -> str:
    """The text of rows, each a tuple of these keys, or of them and a dictionary of more."""
    lines = []
    for row in rows:
        found = dict(zip(KEYS, row))
        for more in row[len(KEYS) :]:
            found |= more
        lines.append(json.dumps(found, ensure_ascii=False))
    return "[\n" + ",\n".join(lines) + "\n]\n" if lines else "[]\n"


def rows_of_tables(latencies: Iterable[model.Latency], losses: Iterable[model.Loss]) -> Iterator[tuple[str, int, str, str, int]]:
    """The rows of tables: of each latency a count, and where it is not 0 the others too."""
    for row in latencies:
        yield "latency", row.vl, row.where, "count", row.count
        if row.count:
            for measure, value in (("least_ns", row.least), ("greatest_ns", row.greatest), ("sum_ns", row.total)):
                yield "latency", row.vl, row.where, measure, value
        if row.seed is not None:
            yield "latency", row.vl, row.where, "seed", row.seed
    for loss in losses:
        yield "dropped", loss.vl, loss.where, loss.cause, loss.count


def rows_of_csv(kind: str, text: str, measures: Iterable[str]) -> Iterator[tuple[str, int | None, str, str, int]]:
    """The rows of a text of CSV with the columns vl and where: of some other columns what is a whole number."""
    head, *lines = text.splitlines()
    columns = head.split(",")
    for line in lines:
        cells = dict(zip(columns, line.split(",")))
        for measure in measures:
            if cells[measure].isdigit():
                yield kind, int(cells["vl"]) if cells["vl"] else None, cells["where"], measure, int(cells[measure])


def words_of(arguments: Sequence[str] | None) -> argparse.Namespace:
    parser = argparse.ArgumentParser(
        prog="afdx long-form", description=__doc__, epilog=EXAMPLES, formatter_class=argparse.RawDescriptionHelpFormatter
    )
    parser.add_argument("net", metavar="NET", help="the description (TOML)")
    parser.add_argument("tables", metavar="TABLES", help="the tables that the program printed for it, or merged ones")
    parser.add_argument("-o", "--output", metavar="FILE", type=files.output_name, help="the file to write (default: standard output)")
    return parser.parse_args(arguments)


@files.tool("afdx long-form")
def main(arguments: Sequence[str] | None = None) -> None:
    words = words_of(arguments)
    tables = model.Tables(words.tables, model.Network(words.net))
    text = text_of(rows_of_tables(tables.latencies.values(), tables.losses.values()))
    if words.output:
        files.write_whole(words.output, text)
    else:
        files.write_out(text)


if __name__ == "__main__":
    sys.exit(main())
