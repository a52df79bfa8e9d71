"""Tests of refuse_memory.py, and what it is for: that each request for memory may be refused. They need the built programs,
at crates/NAME/out, where `rt ci` leaves them."""
import contextlib
import io
import os
import sys
import tempfile
import unittest

from gate import refuse_memory
from gate.refuse_memory import COMMANDS, Ended, TABLES, TESTS, TRACE

CHECK, SEQ, TRACED, REPLAY, _, _, RUN, _, RUN_FILES, _, SYNTAX, *_ = COMMANDS
MEMORY, WORKER = "afdxsim: out of memory\n", "afdxsim: cannot start a worker\n"


class Refused(unittest.TestCase):
    """Each request of the commands and of the tests."""

    def setUp(self):
        folder = tempfile.TemporaryDirectory()
        self.addCleanup(folder.cleanup)
        self.folder = folder.name
        self.library = refuse_memory.prepare(self.folder)

    def goes_well(self, refuse, program, what):
        if not os.path.isfile(program):
            self.fail(f"there is no program at {program}: `rt ci` at the top builds it")
        said = io.StringIO()
        with contextlib.redirect_stdout(said):
            went_well = refuse(program, what, self.folder, self.library)
        sys.stderr.write(said.getvalue())
        self.assertTrue(went_well, said.getvalue())

    def test_commands_are_done_or_want_memory(self):
        for command in COMMANDS:
            with self.subTest(command.words):
                self.goes_well(refuse_memory.refuse_command, refuse_memory.PROGRAM, command)

    def test_refused_calls_answer_as_ever_when_they_are_made_again(self):
        for test in TESTS:
            with self.subTest(test.name):
                program = refuse_memory.program_of(test.crate, test.crate + "_tests")
                self.goes_well(refuse_memory.refuse_test, program, test)


class Judged(unittest.TestCase):
    """What is right, and what is reported of what is wrong."""

    def fault(self, command, status, output="", errors="", files=None, requests=9, is_replayed=True):
        found = Ended(status, output, errors, files or {}, requests)
        return refuse_memory.fault_of_command(command, found, lambda journal: is_replayed)

    def test_what_a_command_may_come_to(self):
        for command, status, output, errors, files in (
            (CHECK, 0, CHECK.output, "", {}),
            (CHECK, 5, "", MEMORY, {}),
            (SEQ, 5, TABLES, MEMORY, {}),
            (TRACED, 0, TABLES, "", {"trace.csv": TRACE}),
            (TRACED, 5, "", MEMORY, {}),
            (TRACED, 5, "", MEMORY, {"trace.csv": TRACE[:7]}),
            (REPLAY, 0, TABLES, REPLAY.errors, {}),
            (RUN, 4, "", WORKER, {}),
            (SYNTAX, 3, "", SYNTAX.errors, {}),
            (SYNTAX, 5, "", MEMORY, {}),
            (RUN_FILES, 0, TABLES, "", {"journal.txt": "G\n", "trace.csv": TRACE}),
            (RUN_FILES, 5, "", MEMORY, {"journal.txt": "T 0 0\nA 0\nG\nT 12 ", "trace.csv": ""}),
        ):
            with self.subTest(words=command.words, status=status, files=files):
                self.assertIsNone(self.fault(command, status, output, errors, files))

    def test_what_a_command_may_not_come_to(self):
        for command, status, output, errors, files in (
            (CHECK, 0, "", "", {}),
            (CHECK, 3, "", "afdxsim: description: 1 Syntax\n", {}),
            (CHECK, 1, "", "Error: Kind(OutOfMemory)\n", {}),
            (CHECK, 5, "", "", {}),
            (CHECK, 4, "", WORKER, {}),
            (SYNTAX, 0, CHECK.output, "", {}),
            (SYNTAX, 3, "", "afdxsim: description: 2 Missing at top until_ns\n", {}),
            (CHECK, 5, CHECK.output[:3], MEMORY, {}),
            (SEQ, 0, TABLES, MEMORY, {}),
            (TRACED, 0, TABLES, "", {}),
            (TRACED, 0, TABLES, "", {"trace.csv": TRACE[:-1]}),
            (TRACED, 4, "", "afdxsim: cannot write trace.csv\n", {}),
            (TRACED, 5, "", MEMORY, {"trace.csv": TRACE[1:]}),
            (REPLAY, 5, "", REPLAY.errors + MEMORY, {}),
            (RUN, -6, "", "", {}),
            (RUN_FILES, 5, "", MEMORY, {"journal.txt": "T 0 0\nX 1\n"}),
            (RUN_FILES, 5, "", MEMORY, {"journal.txt": "T 0 0\n\n"}),
        ):
            with self.subTest(words=command.words, status=status, output=output, errors=errors, files=files):
                self.assertIsNotNone(self.fault(command, status, output, errors, files))
        whole = {"journal.txt": "G\n", "trace.csv": TRACE}
        self.assertIsNotNone(self.fault(RUN_FILES, 0, TABLES, "", whole, is_replayed=False))
        self.assertIsNotNone(self.fault(RUN, 5, "", MEMORY, requests=None))

    def test_a_test_passes_or_not(self):
        passed = Ended(0, "test result: ok\n", "commit was refused memory\n", {}, 5)
        failed = passed._replace(status=1, output="test result: FAILED\n")
        for found, is_right in ((passed, True), (failed, False)):
            with self.subTest(found=found):
                self.assertEqual(refuse_memory.fault_of_test(found) is None, is_right)
        said = passed.errors + "+10@1 was refused memory\n-5 was refused memory\n"
        self.assertEqual(refuse_memory.calls_in(said), {"commit": 1, "deliver": 2})

    def test_runs_end_once_no_request_is_refused(self):
        """Of seven requests six are refused in turn, since one run makes fewer; the third run is wrong."""

        def run(place):
            requests = 6 if place == 7 else 7
            status = 0 if place > requests else 5
            return Ended(status, "", "post was refused memory\n" if place == 3 else "", {}, requests)

        def fault_of(found):
            return "wrong" if found.errors else None

        refused, statuses, calls, faults = refuse_memory.refuse_each(run, fault_of)
        self.assertEqual((refused, statuses, calls), (6, {5: 6}, {"post": 1}))
        self.assertEqual(faults, ["request 3: wrong"])

    def test_a_program_that_is_not_there_is_reported(self):
        said = io.StringIO()
        with contextlib.redirect_stderr(said):
            program, refuse_memory.PROGRAM = refuse_memory.PROGRAM, os.path.join(self.id(), "none")
            try:
                status = refuse_memory.main(["--only", "check"])
            finally:
                refuse_memory.PROGRAM = program
        self.assertEqual(status, 2)
        self.assertIn("none", said.getvalue())


if __name__ == "__main__":
    unittest.main()
