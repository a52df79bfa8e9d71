"""Tests of living.py: each patch with a wrong body applies to the sources, and says what is wrong."""
import contextlib
import io
import re
import tempfile
import unittest
from pathlib import Path
from unittest import mock

from gate import living


class Living(unittest.TestCase):
    def test_each_patch_applies(self):
        self.assertTrue(living.bodies())
        for name, patch in living.bodies().items():
            with self.subTest(name, remedy="write the body anew over the sources as they are now, or drop it if a clause refuses it"):
                self.assertTrue(living.does_apply(patch, living.TOP, "--check"))

    def test_each_says_what_is_wrong(self):
        for name, patch in living.bodies().items():
            with self.subTest(name):
                self.assertRegex(name, r"^[a-z]+(_[a-z]+)+$")
                self.assertRegex(living.wrong_of(patch), r"^[A-Za-z`].{20,}[^.]$")
                self.assertRegex(patch.read_text(), r"\n--- a/crates/\w+/src/\w+\.rt\n")

    def test_a_patch_that_does_not_apply_is_reported(self):
        text = next(iter(living.bodies().values())).read_text()
        with tempfile.TemporaryDirectory() as folder:
            other = Path(folder) / "other.patch"
            other.write_text(re.sub(r"(?m)^-([^-].*)$", r"-\1 other", text))
            self.assertFalse(living.does_apply(other, living.TOP, "--check"))
            with mock.patch.object(living, "copied", lambda tree: None):
                self.assertEqual(living.tried(other, 0, None), ("its patch does not apply", False))

    def test_what_sees_a_body(self):
        name, patch = next(iter(living.bodies().items()))
        for failing, runs, said in (
            ({"turn_rows", "pool_rows"}, 0, "seen by turn_rows"),
            ({"pool_rows", "tools"}, 3, "seen by pool_rows"),
            ({"gate.threaded_runs", "tests.test_rows"}, 3, "seen by drawn runs"),
            ({"tests.test_rows"}, 3, "seen by rows of the program"),
            ({"tests.test_standing_still"}, 3, "seen by a run that stands still"),
            (set(), 3, f"nothing sees it: {living.wrong_of(patch)}"),
        ):
            out = io.StringIO()
            with (
                self.subTest(said),
                mock.patch.object(living, "copied", lambda tree: None),
                mock.patch.object(living, "does_apply", lambda *_: True),
                mock.patch.object(living, "built", lambda tree, build: tree),
                mock.patch.object(living, "is_failed", lambda command, folder: bool(failing & {folder.name, *command})),
                contextlib.redirect_stdout(out),
            ):
                self.assertEqual(living.main([name, "--runs", str(runs)]), 0)
            self.assertEqual(out.getvalue(), f"{name}: {said}\n")

    def test_the_list(self):
        out = io.StringIO()
        with contextlib.redirect_stdout(out):
            self.assertEqual(living.main(["--list"]), 0)
        self.assertEqual(len(out.getvalue().splitlines()), len(living.bodies()))
        with contextlib.redirect_stderr(io.StringIO()), self.assertRaises(SystemExit):
            living.main(["no_such_body"])


if __name__ == "__main__":
    unittest.main()
