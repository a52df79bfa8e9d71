"""Tests of the processes that read the runs of a campaign beside it: who reads, and what is printed if something ends."""
import functools
import multiprocessing
import os
import signal
import tempfile
import time
import unittest
from unittest import mock

from afdx import model
from afdx.files import Interrupted
from afdx.model import traces
from afdx.reckon import latency_counts
from afdx.runs import reading_processes
from afdx.runs.side_by_side import Failure, Printed, Run
from tests.places import PATIENCE
from tests.test_campaign import Here, N1, read


def noting(path, make):
    """The same function, which notes in a file which process calls it."""

    @functools.wraps(make)
    def noted(*given):
        with open(path, "a") as out:
            print(os.getpid(), file=out)
        return make(*given)

    return noted


class WhoReads(Here):
    def test_the_campaign_itself_reads_neither_tables_nor_traces(self):
        """Whatever kind it is. Each run's are read once."""
        self.stand_in()
        for words, reads in (
            ("--seeds 5", 5), ("--seeds 5 --histograms", 10), ("--seeds 2 --set vl.1.depth=1,2", 4), ("--seeds 2 --aim 1", 4),
            ("--each-outage", None),
        ):
            with self.subTest(words):
                path, tables, trace = self.file("readers", ""), model.Tables, traces.Trace
                with mock.patch.object(tables, "__init__", noting(path, tables.__init__)):
                    with mock.patch.object(trace, "__init__", noting(path, trace.__init__)):
                        with mock.patch.object(latency_counts, "of_trace", noting(path, latency_counts.of_trace)):
                            self.assertEqual(self.call(N1, *words.split(), "--jobs", "2")[0], 0)
                readers = read(path).split()
                self.assertNotIn(str(os.getpid()), readers)
                self.assertEqual(len(readers), len(readers) if reads is None else reads)
                self.assertTrue(readers)


class WithoutSharedMemory(Here):
    def test_the_folder_is_named(self):
        """Where /dev/shm cannot be written the system refuses semaphores, without a name. No run is made."""
        self.stand_in("open(%r, 'w')" % os.path.join(self.folder, "ran"))
        refused = PermissionError(13, "Permission denied")
        with mock.patch("multiprocessing.synchronize.SemLock.__init__", side_effect=refused):
            told = self.call(N1, "--seeds", "2")
        begin = "afdx campaign: /dev/shm: holds no semaphore for processes side by side: Permission denied. `mount "
        self.assertEqual((*told[:2], told[2].startswith(begin), told[2].count("\n")), (2, "no run was merged, and nothing is written\n", True, 1), told)
        self.assertFalse(os.path.exists(os.path.join(self.folder, "ran")))


class Plain(reading_processes.Reckoner):
    """Answers a run's key, which may also be what the process is to do."""

    def answer(self, key, run, kept):
        reading_processes.drop(kept)
        return key() if callable(key) else key


def fails():
    raise Failure("it fails")


def takes_long():
    time.sleep(2 * PATIENCE)


def interrupts():
    """Sends a signal to who waits for the answer, once that one has had time to read the answer before."""
    time.sleep(5)
    os.kill(os.getppid(), signal.SIGALRM)
    takes_long()


def answers_much():
    return bytes(30_000_000)


def is_ended():
    os.kill(os.getpid(), signal.SIGKILL)


class WhatIsAnswered(unittest.TestCase):
    def answered(self, keys, jobs, ended=None, after=None):
        """The answers of runs with these keys, and what ended them, once the answer of this number was there; of processes and files
        nothing is left."""

        def runs():
            for number, key in enumerate(keys):
                yield key, Run(f"run {number}", ""), Printed("tables", None)
            if ended:
                begin = time.monotonic()
                while after is not None and not os.path.exists(os.path.join(folder, f"{after}.answer")) and time.monotonic() < begin + PATIENCE:
                    time.sleep(0.05)
                raise ended

        found = []
        with tempfile.TemporaryDirectory() as folder:
            try:
                for _, _, printed, answer in reading_processes.results(Plain(), runs(), jobs, folder):
                    self.assertEqual(printed.tables, "tables")
                    found.append(answer)
            except (Failure, Interrupted, ValueError) as fault:
                self.assertEqual(multiprocessing.active_children(), [])
                return found, str(fault)
            self.assertEqual(os.listdir(folder), [])
        return found, None

    def test_in_order(self):
        for jobs in (1, 3):
            self.assertEqual(self.answered(range(20), jobs), (list(range(20)), None))

    def test_what_was_made_before_the_end_is_answered(self):
        """Where a run fails, or a signal comes while the next one is made."""
        for ended in (Failure("the next one"), ValueError("a fault"), Interrupted(signal.SIGTERM), Interrupted(signal.SIGINT)):
            with self.subTest(ended), mock.patch.object(reading_processes, "PATIENCE", PATIENCE):
                self.assertEqual(self.answered(range(2), 2, ended), ([0, 1], str(ended)))

    def test_a_run_that_cannot_be_read(self):
        self.assertEqual(self.answered([0, 1, fails, 3], 2), ([0, 1], "it fails"))

    def test_a_signal_while_runs_are_read(self):
        """It waits a while for them."""
        begin = time.monotonic()
        with mock.patch.object(reading_processes, "PATIENCE", 2):
            self.assertEqual(self.answered([0, takes_long, takes_long], 2, Interrupted(signal.SIGTERM), after=0), ([0], "ended by SIGTERM"))
        self.assertLess(time.monotonic() - begin, PATIENCE)

    def test_a_signal_while_the_last_run_is_read(self):
        """It does not wait for that."""

        def interrupted(number, _):
            raise Interrupted(number)

        begin, before = time.monotonic(), signal.signal(signal.SIGALRM, interrupted)
        try:
            self.assertEqual(self.answered([0, interrupts], 1), ([0], "ended by SIGALRM"))
        finally:
            signal.signal(signal.SIGALRM, before)
        self.assertLess(time.monotonic() - begin, PATIENCE)

    def test_a_signal_while_much_is_answered(self):
        """Nobody waits for the rest of an answer whose process is ended."""
        begin = time.monotonic()
        with mock.patch.object(reading_processes, "PATIENCE", 0):
            for _ in range(5):
                self.assertEqual(self.answered([answers_much] * 8, 4, Interrupted(signal.SIGINT))[1], "interrupted")
        self.assertLess(time.monotonic() - begin, PATIENCE)

    def test_a_process_that_is_ended(self):
        """As by a system that is out of memory."""
        found, said = self.answered([0, is_ended, 2], 1)
        self.assertEqual((found, said), ([0], "run 1: the process that reckons on it was ended"))


if __name__ == "__main__":
    unittest.main()
