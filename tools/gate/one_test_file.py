"""Runs the tests of one file of the tools, as `python3 -m unittest` does, and then prints each that was skipped, and why.

    python3 tools/gate/one_test_file.py test_files.py
"""
import os
import sys
import unittest
from typing import Any

TOOLS = os.path.dirname(os.path.dirname(os.path.abspath(__file__)))


class Runner(unittest.TextTestRunner):
    stream: Any

    def run(self, test: unittest.TestSuite | unittest.TestCase) -> unittest.TestResult:
        result = super().run(test)
        for skipped, reason in result.skipped:
            self.stream.writeln(f"skipped: {skipped.id()}: {' '.join(reason.split())}")
        return result


if __name__ == "__main__":
    unittest.main(module=None, argv=[sys.argv[0], "discover", "-s", os.path.join(TOOLS, "tests"), "-t", TOOLS, "-p", sys.argv[1]], testRunner=Runner)
