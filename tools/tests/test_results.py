"""Tests of afdx results: what it writes beside the rows of a document, and what stays of it."""
import contextlib
import csv
import io
import json
import os
import shutil
import subprocess
import tempfile
import unittest

from afdx.commands import bounds, from_table, results
from afdx.files import workbook
from tests.places import EXAMPLES
from tests.test_from_table import has_library

BOOK, TABLE = (os.path.join(EXAMPLES, f"flight_deck.{kind}") for kind in ("xlsx", "csv"))
TABLES = os.path.join(EXAMPLES, "flight_deck.tables.csv")
HEADS = ["afdx greatest (us)", "afdx bound (us)", "afdx limit (us)", "afdx margin (us)", "afdx lost (frames)", "afdx copies lost", "afdx jitter (us)"]


def called(main, *words):
    """The status of a tool, and what it says on error output."""
    out, said = io.StringIO(), io.StringIO()
    with contextlib.redirect_stdout(out), contextlib.redirect_stderr(said):
        try:
            return main(list(words)), said.getvalue()
        except SystemExit as ended:
            return ended.code, said.getvalue()


class Results(unittest.TestCase):
    def setUp(self):
        folder = tempfile.TemporaryDirectory()
        self.addCleanup(folder.cleanup)
        self.folder = folder.name
        self.net, self.bounds = self.path("net.toml"), self.path("bounds.csv")

    def path(self, name):
        return os.path.join(self.folder, name)

    def made(self, book, *words):
        self.assertEqual(called(from_table.main, book, "-o", self.net, *words)[0], 0)

    def made_with_bounds(self, book, *words):
        self.made(book, *words)
        called(bounds.main, self.net, "-o", self.bounds)

    def latencies(self):
        with open(TABLES, encoding="utf-8") as file:
            return {(row["vl"], row["where"]): row for row in csv.DictReader(file) if row["table"] == "latency"}

    def of_bounds(self):
        with open(self.bounds, encoding="utf-8") as file:
            return {(row["vl"], row["where"]): row["bound_ns"] for row in csv.DictReader(file) if row["bound_ns"]}

    def test_csv(self):
        """Each row has the greatest latency and the bound of its destinations, from the tables and the bounds themselves."""
        self.made_with_bounds(TABLE)
        out = self.path("out.csv")
        self.assertEqual(called(results.main, TABLE, self.net, "-o", out, "--tables", TABLES, "--bounds", self.bounds), (0, ""))
        with open(out, encoding="utf-8") as file, open(TABLE, encoding="utf-8") as before:
            rows, old = list(csv.reader(file)), list(csv.reader(before))
        self.assertEqual([row[: len(was)] for row, was in zip(rows, old)], old)
        head = next(i for i, row in enumerate(rows) if HEADS[0] in row)
        first, names = rows[head].index(HEADS[0]), rows[head]
        self.assertEqual(rows[head][first:], HEADS)
        latencies, of_bounds, count = self.latencies(), self.of_bounds(), 0
        for row in rows[head + 1 : len(old)]:
            if row and row[0].isdigit():
                keys = [(row[0], where) for where in row[names.index("Destinations")].split(", ")]
                greatest = max(int(latencies[key]["greatest_ns"]) for key in keys)
                spread = max(int(latencies[key]["greatest_ns"]) - int(latencies[key]["least_ns"]) for key in keys)
                bound = max(int(of_bounds[key]) for key in keys)
                self.assertEqual((row[first], row[first + 1], row[first + 6]), (f"{greatest / 1000:.3f}", f"{bound / 1000:.3f}", f"{spread / 1000:.3f}"))
                count += 1
        self.assertEqual(count, 12)
        self.assertTrue(rows[len(old)][0].startswith("# Results: of net.toml"), rows[len(old)])

    def test_what_is_refused(self):
        self.made(TABLE)
        with open(TABLE, encoding="utf-8") as file:
            text = file.read()
        for name, book, said in (
            ("other", text.replace("\n101,", "\n177,"), "has the virtual link 177, which is not in"),
            ("cables", "a,b\nADIRU_L,SWA1\n", "has no virtual link of"),
        ):
            with self.subTest(name):
                path, out = self.path(name + ".csv"), self.path("out.csv")
                with open(path, "w", encoding="utf-8") as file:
                    file.write(book)
                status, printed = called(results.main, path, self.net, "-o", out, "--tables", TABLES)
                self.assertEqual((status, os.path.exists(out), printed.count("\n")), (2, False, 1), printed)
                self.assertIn(said, printed)
        status, printed = called(results.main, TABLE, self.net, "-o", TABLE, "--tables", TABLES)
        self.assertEqual((status, "would be written over what was read" in printed), (2, True), printed)

    def test_a_limit_that_is_broken(self):
        self.made(TABLE)
        limits, out = self.path("limits.csv"), self.path("out.csv")
        with open(limits, "w", encoding="utf-8") as file:
            file.write("101,DU_L,1000\n")
        self.assertEqual(called(results.main, TABLE, self.net, "-o", out, "--tables", TABLES, "--no-bounds", "--limits", limits)[0], 1)
        with open(out, encoding="utf-8") as file:
            self.assertIn("# Limits broken: 1\n", file.read())

    @unittest.skipUnless(has_library(), f"there is no openpyxl: apt-get install -y {workbook.PACKAGE}")
    def test_a_workbook(self):
        """What it had stays, with formulas and widths; the rows have results, and a sheet says of what."""
        book, out = self.path("icd.xlsx"), self.path("out.xlsx")
        text = f"import openpyxl\nbook = openpyxl.load_workbook({BOOK!r})\nsheet = book['History']\nsheet['E1'] = '=1+2'\nsheet.column_dimensions['B'].width = 47\nbook.save({book!r})\n"
        subprocess.run([workbook.DEBIAN, "-c", text], check=True)
        self.made_with_bounds(book, "--skip", "History")
        self.assertEqual(called(results.main, book, self.net, "-o", out, "--tables", TABLES, "--bounds", self.bounds), (0, ""))
        text = f"""
import json, openpyxl
before, after = (openpyxl.load_workbook(it) for it in ({book!r}, {out!r}))
for sheet in before:
    for row in sheet.iter_rows():
        for cell in row:
            assert after[sheet.title][cell.coordinate].value == cell.value, (sheet.title, cell.coordinate)
assert after["History"]["E1"].value == "=1+2" and after["History"].column_dimensions["B"].width == 47
assert after.sheetnames == [*before.sheetnames, "afdx results"]
sheet = after["Virtual links"]
print(json.dumps([[[cell.value for cell in row] for row in sheet.iter_rows()], [cell.fill.fgColor.rgb for cell in sheet["R"]]]))
"""
        run = subprocess.run([workbook.DEBIAN, "-c", text], capture_output=True, text=True)
        self.assertEqual((run.returncode, run.stderr), (0, ""))
        rows, colours = json.loads(run.stdout)
        self.assertEqual(rows[2][-7:], HEADS)
        latencies, of_bounds = self.latencies(), self.of_bounds()
        for row, colour in zip(rows[3:], colours[3:]):
            key = str(row[0]), row[3]
            self.assertEqual((row[14], row[15]), (int(latencies[key]["greatest_ns"]) / 1000, int(of_bounds[key]) / 1000))
            limit = row[12]
            if limit:
                self.assertEqual((row[16], row[17], colour), (limit, round(limit - row[15], 3), "00C6EFCE"))

    @unittest.skipUnless(has_library() and shutil.which("soffice"), "there is no LibreOffice: apt-get install -y libreoffice-calc")
    def test_libreoffice_opens_it(self):
        """It reads the same values."""
        out = self.path("out.xlsx")
        self.made(BOOK, "--skip", "History")
        self.assertEqual(called(results.main, BOOK, self.net, "-o", out, "--tables", TABLES, "--no-bounds"), (0, ""))
        kind = "csv:Text - txt - csv (StarCalc):44,34,76,1,,0,false,true,false,false,false,-1"
        command = ["soffice", "--headless", f"-env:UserInstallation=file://{self.path('profile')}", "--convert-to", kind, "--outdir", self.folder, out]
        subprocess.run(command, stdout=subprocess.DEVNULL, stderr=subprocess.DEVNULL, check=True)
        with open(self.path("out-Virtual links.csv"), encoding="utf-8") as file:
            rows = list(csv.reader(file))
        self.assertEqual(rows[2][-7:], HEADS)
        latencies = self.latencies()
        for row in rows[3:]:
            self.assertEqual(float(row[14]), int(latencies[row[0], row[3]]["greatest_ns"]) / 1000)
        self.assertTrue(os.path.exists(self.path("out-afdx results.csv")))


if __name__ == "__main__":
    unittest.main()
