"""What `afdxsim bounds` prints, beside the calculation of printed_bounds.py, which knows docs/BOUNDS.md alone: each number of each line is the same,
of the examples and of drawn networks."""
import glob
import os
import subprocess
import tempfile
import unittest

from afdx import model
from afdx.commands import bounded_runs
from tests.places import EXAMPLES
from tests.printed_bounds import PrintedBounds

DRAWN = 24


class Printed(unittest.TestCase):
    def is_printed(self, text):
        with tempfile.TemporaryDirectory() as folder:
            path = os.path.join(folder, "net.toml")
            with open(path, "w", encoding="utf-8") as file:
                file.write(text)
            for words in ([], ["--contract"]):
                run = subprocess.run([model.PROGRAM, "bounds", path, *words], capture_output=True, text=True)
                self.assertEqual((run.returncode, run.stderr), (0, ""))
                self.assertEqual(run.stdout.splitlines(), PrintedBounds(text, bool(words)).text().splitlines())

    def test_of_the_examples(self):
        for path in sorted(glob.glob(os.path.join(EXAMPLES, "*.toml"))):
            with self.subTest(path), open(path, encoding="utf-8") as file:
                self.is_printed(file.read())

    def test_of_drawn_networks(self):
        for number in range(1, DRAWN + 1):
            with self.subTest(number=number):
                self.is_printed(model.text_of_tree(bounded_runs.Drawn(number, number % 2 == 0).tree()))


if __name__ == "__main__":
    unittest.main()
