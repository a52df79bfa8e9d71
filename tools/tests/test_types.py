"""Tests that `mypy` finds nothing in the tools: tools/mypy.ini says what it is asked. Each function has types."""
import os
import shutil
import subprocess
import tempfile
import unittest

from tests.places import TOOLS


class Types(unittest.TestCase):
    @unittest.skipUnless(shutil.which("mypy"), "there is no mypy: apt-get install -y mypy")
    def test_mypy_finds_nothing(self):
        with tempfile.TemporaryDirectory() as folder:
            words = ["mypy", "--config-file", os.path.join(TOOLS, "mypy.ini"), "--cache-dir", folder]
            # What sets the path of modules for other processes is not for mypy, which takes the folder.
            env = {name: value for name, value in os.environ.items() if name != "PYTHONPATH"}
            run = subprocess.run(words, cwd=TOOLS, env=env, capture_output=True, text=True)
        self.assertEqual((run.returncode, run.stderr), (0, ""), run.stdout)


if __name__ == "__main__":
    unittest.main()
