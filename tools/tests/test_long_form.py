"""Tests of afdx long-form, and of the ten lines in docs/TOOLS.md that read what it writes."""
import contextlib
import csv
import glob
import io
import json
import os
import re
import shutil
import subprocess
import tempfile
import unittest

from afdx.model import long_form
from afdx.runs import second_opinion
from tests.places import EXAMPLES, TOP, tool_words

COCKPIT = os.path.join(EXAMPLES, "cockpit.toml")
DEBIAN = "/usr/bin/python3"


def has_pandas():
    return os.path.exists(DEBIAN) and subprocess.run([DEBIAN, "-c", "import pandas"], capture_output=True).returncode == 0


class LongForm(unittest.TestCase):
    def setUp(self):
        folder = tempfile.TemporaryDirectory()
        self.addCleanup(folder.cleanup)
        self.folder = folder.name

    def call(self, main, *words):
        out, said = io.StringIO(), io.StringIO()
        with contextlib.redirect_stdout(out), contextlib.redirect_stderr(said):
            status = main(list(words))
        return status, out.getvalue(), said.getvalue()

    def test_tables(self):
        """Each number of the tables of each example, and no other; from both tools."""
        for path in glob.glob(os.path.join(EXAMPLES, "*.toml")):
            with self.subTest(path):
                tables = path.replace(".toml", ".tables.csv")
                status, out, said = self.call(long_form.main, path, tables)
                self.assertEqual((status, said), (0, ""))
                self.assertEqual(self.call(second_opinion.main, path, "--json"), (0, out, ""))
                found = [list(row.values()) for row in json.loads(out)]
                wanted = []
                with open(tables, encoding="utf-8") as file:
                    for row in csv.DictReader(file):
                        key = [row["table"], int(row["vl"]), row["where"]]
                        if row["table"] == "dropped":
                            wanted.append([*key, row["cause"], int(row["count"])])
                        else:
                            names = ["count", "least_ns", "greatest_ns", "sum_ns"] if row["count"] != "0" else ["count"]
                            wanted += ([*key, name, int(row[name])] for name in names)
                self.assertEqual(found, wanted)

    def test_it_is_one_object_a_line(self):
        _, out, _ = self.call(second_opinion.main, os.path.join(EXAMPLES, "n1.toml"), "--json")
        wanted = '[\n{"kind": "latency", "vl": 1, "where": "ES2", "measure": "count", "value": 1},\n'
        self.assertTrue(out.startswith(wanted), out)

    def test_tables_of_another_network(self):
        output = os.path.join(self.folder, "tables.json")
        status, out, said = self.call(long_form.main, COCKPIT, os.path.join(EXAMPLES, "n1.tables.csv"), "-o", output)
        self.assertEqual((status, out, said.count("\n"), os.path.exists(output)), (2, "", 1, False))

    @unittest.skipUnless(has_pandas(), "there is no pandas: apt-get install -y python3-pandas")
    def test_the_lines_of_the_document(self):
        """They run, and print what the tables have."""
        with open(os.path.join(TOP, "docs", "TOOLS.md"), encoding="utf-8") as file:
            lines = re.search(r"```python\n(.*?)```", file.read(), re.DOTALL)[1]
        self.assertLessEqual(len(lines.splitlines()), 10)
        shutil.copy(COCKPIT, os.path.join(self.folder, "net.toml"))
        for tool, name in (("second-opinion", "tables.json"), ("bounds", "bounds.json")):
            with open(os.path.join(self.folder, name), "w", encoding="utf-8") as out:
                subprocess.run([*tool_words(tool), "net.toml", "--json"], cwd=self.folder, stdout=out, check=True)
        run = subprocess.run([DEBIAN, "-c", lines], cwd=self.folder, capture_output=True, text=True)
        self.assertEqual((run.returncode, run.stderr), (0, ""))
        self.assertRegex(run.stdout, r"(?m)^101 +DU_R +169760 +354650 +0\.47\d*$")
        self.assertNotIn(".0 ", run.stdout)


if __name__ == "__main__":
    unittest.main()
