"""Layouts of interface control documents, as rows of data: what afdx table makes of each, and what it says of each row."""
import os
import re
import unittest
from unittest import mock

from afdx.document import text
from afdx.document.places import Skip, said_of
from afdx.files import toml_lines, workbook
from afdx.model import description_faults
from tests.places import TOOLS

ROWS = os.path.join(TOOLS, "tests", "rows", "documents.txt")
# What a layout without cables has: four end systems at a switch of each network.
NODES = [["Name", "Net"], ["S", "A"], ["T", "B"]]
LINKS = [["a", "b"], *[[end, switch] for end in ("E1", "E2", "E3", "E4") for switch in "ST"]]
USUAL = {"priority": "low", "policing_jitter_ns": 500_000, "depth": 4, "offset_ns": 0, "jitter_ns": 0}
OF_STREAMS = ("frames", "last_size", "timing", "end_ns", "sub_vl")


def layouts():
    """The layouts of the file: for each its name, its lines and what is expected."""
    with open(ROWS, encoding="utf-8") as file:
        blocks = file.read().split("\n## ")[1:]
    for block in blocks:
        name, *lines = block.rstrip("\n").split("\n")
        yield name, [line for line in lines if not line.startswith("=> ")], [line[3:] for line in lines if line.startswith("=> ")]


def sheet_of(name, lines):
    """A sheet of lines: cells with | between, `<` merged with the cell at its left and `^` with that above it, `"8"` a number as a
    text, \\n a line feed. A line `hidden` or `struck` marks the one above it."""
    rows, spans, typed, hidden = [], [], [], []
    for line in lines:
        number = len(rows) + 1
        if line in ("hidden", "struck"):
            hidden.append((number - 1, "is hidden" if line == "hidden" else "is struck out"))
            continue
        cells = [cell.strip().replace("\\n", "\n") for cell in line.split("|")] if line else []
        for i, cell in enumerate(cells):
            if cell == "<":
                first = max(k for k in range(i) if cells[k] != "<") if "<" in cells[:i] or i else 0
                spans = [it for it in spans if it[:2] != (number, first)] + [(number, first, i)]
            elif cell == "^":
                cells[i] = rows[-1][1][i]
            elif cell.startswith('"') or not re.fullmatch(r"[0-9.]*", cell):
                cells[i] = cell.strip('"')
                typed.append((number, i))
        rows.append((number, ["" if cell == "<" else cell for cell in cells]))
    return workbook.Sheet(name, [row for row in rows if any(row[1])], hidden, spans, typed)


def sheets_of(lines):
    """The sheets of a layout, those for cables too if it has none."""
    found, name, own = [], None, []
    for line in [*lines, "sheet "]:
        if line.startswith("sheet "):
            if name is not None:
                while own and not own[-1]:
                    own.pop()
                found.append(sheet_of(name, own))
            name, own = line[6:], []
        else:
            own.append(line)
    if not any(sheet.name == "Cables" for sheet in found):
        found += [workbook.Sheet(name, list(enumerate(rows, 1)), [], [], []) for name, rows in (("Nodes", NODES), ("Links", LINKS))]
    return found


def summary(tree):
    """What is to be known of a description: a line for each virtual link and each further stream, for each node that is not one of the cables above, and for
    links with another speed or length."""
    for vl in tree["vl"]:
        paths = {key: ",".join(sorted(path[-1] for path in vl[key])) or "-" for key in "ab"}
        source = (vl["a"] or vl["b"])[0][0]
        to = f"{paths['a']} by A and B" if paths["a"] == paths["b"] else f"{paths['a']} by A, {paths['b']} by B"
        more = [f"{key} {value}" for key, value in vl.items() if key in (*USUAL, *OF_STREAMS, "sub", "policing") and USUAL.get(key) != value]
        more += [f"skew_max_ns {vl['skew_max_ns']}"] if vl["skew_max_ns"] != vl["bag_ms"] * 500_000 else []
        yield " ".join([f"{vl['id']}: {source} to {to}, bag {vl['bag_ms']} smax {vl['smax']} size {vl['size']} period {vl['period_ns'] // 1000}", *more])
    for row in tree.get("stream", []):
        more = [f"{key} {value}" for key, value in row.items() if key in (*USUAL, *OF_STREAMS) and USUAL.get(key) != value]
        yield " ".join([f"stream of {row['vl']}: size {row['size']} period {row['period_ns'] // 1000}", *more])
    for row in tree["node"]:
        if row["name"] not in ("S", "T", "E1", "E2", "E3", "E4") or row.get("latency_ns", 16000) != 16000:
            yield " ".join(["node", row["name"], row["kind"], *([row["net"], str(row["latency_ns"])] if "net" in row else [])])
    for row in tree["link"]:
        if (row["mbit"], row["propagation_ns"]) != (100, 100):
            yield f"link {row['a']}-{row['b']} {row['mbit']} {row['propagation_ns']}"


def answer(lines):
    """What is made of a layout: the lines of its summary, or its faults; its notes; and its receipt."""
    words = [line for line in lines if line.startswith("--")]
    columns = [said_of(word.removeprefix("--column ")) for word in words if word.startswith("--column ")]
    skips = [Skip(word.removeprefix("--skip ")) for word in words if word.startswith("--skip ")]
    found = sheets_of([line for line in lines if not line.startswith("--")])
    with mock.patch.object(workbook, "is_workbook", lambda path: True), mock.patch.object(workbook, "sheets_of", lambda path: found):
        made = text.made(["icd.xlsx"], columns, skips)
    says = lambda fault: str(fault).removeprefix("icd.xlsx").lstrip(",: ")
    if made.faults:
        said = [f"fault {says(fault)}" for fault in made.faults]
    else:
        assert description_faults.first_fault("made.toml", made.text) is None, made.text
        said = list(summary(toml_lines.read(made.text)))
    return said, [f"note {says(note)}" for note in made.notes], made.receipt, made.text


class Layouts(unittest.TestCase):
    maxDiff = None

    def test_each_layout(self):
        """Each expected line is there. A line `..` stands for more ones, `note` and `text` for what is said among others; else these are
        all."""
        for name, lines, expected in layouts():
            with self.subTest(name):
                said, notes, receipt, made = answer(lines)
                for line in expected:
                    if line.startswith("note "):
                        self.assertIn(line, notes)
                    elif line.startswith("text "):
                        self.assertIn(line[5:], made.split("\n"))
                    elif line.startswith("receipt "):
                        self.assertEqual(line[8:], receipt.text())
                own = [line for line in expected if not line.startswith(("note ", "text ", "receipt ", ".."))]
                if ".." in expected:
                    self.assertEqual([line for line in own if line not in said], [], said)
                else:
                    self.assertEqual(said, own)

    def test_the_receipt_counts_each_row(self):
        for name, lines, _ in layouts():
            with self.subTest(name):
                receipt = answer(lines)[2]
                for sheet in receipt.sheets:
                    self.assertEqual(sheet.used + sheet.titles + sheet.skipped + sheet.left, sheet.rows)
                    self.assertGreaterEqual(sheet.titles, 0)


if __name__ == "__main__":
    unittest.main()
