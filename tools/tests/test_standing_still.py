"""Tests that a run by workers of which one thread stands still for 30 s ends with the tables of the one-thread run. It needs the
built program, at crates/afdxsim/out/afdxsim, where `rt ci` leaves it, and a system that allows `ptrace`.

A worker that stands still may have the lock of a group, so that GVT stands too: after 10 s of this the run gives its workers up,
and one thread brings it to its end. Where it has none, the others serve its groups. Which of these it is, is for the system; so one
run has a worker that stands still from its birth, and others have one that is stopped at its work. In each of them the other worker
ends while the one stands still, and none has given up after 1 s. A machine that is busy with other work gets the time for it. Only if the thread that stands still has the lock of the exchange does the other
worker wait for it too, which is seldom: such a run is made again.
"""
import os
import subprocess
import tempfile
import time
import unittest

from afdx.commands import large_network
from afdx.model import PROGRAM
from gate import stopped_threads
from tests.places import PATIENCE

# How long a worker stands still at least and at most, in s; it is let go once the other one has ended.
STILL, LONGEST_STILL = 30, 240
# A run whose GVT stands still so long, in s, keeps its workers. Where more than the other time has gone by, nothing is asked.
SOON, TOO_LATE = 1, 5
# How often a run is made again where the other worker waits for the one that stands still.
TRIES = 3
# Some 4 s of work for one thread, so that a worker is at its work when it is stopped, and the other one a second later.
NETWORK = ["--end-systems", "60", "--virtual-links", "1500", "--until", "1600000000"]
PACE = ["--workers", "2", "--groups", "2"]


def network():
    pieces = []
    large_network.write_network(large_network.words_of(NETWORK), pieces.append, lambda _: None)
    return "".join(pieces)


@unittest.skipUnless(stopped_threads.is_allowed(), "this system does not allow ptrace")
class StandingStill(unittest.TestCase):
    @classmethod
    def setUpClass(cls):
        if not os.path.isfile(PROGRAM):
            raise AssertionError(f"there is no program at {PROGRAM}: `rt ci` at the top builds it")
        folder = tempfile.TemporaryDirectory()
        cls.addClassCleanup(folder.cleanup)
        cls.folder = folder.name
        with open(os.path.join(cls.folder, "net.toml"), "w") as out:
            out.write(network())
        cls.tables = subprocess.run([PROGRAM, "seq", "net.toml"], cwd=cls.folder, capture_output=True, check=True).stdout

    def words(self):
        return [PROGRAM, "run", "net.toml", *PACE]

    def from_birth(self):
        """A run of which the second worker does nothing."""
        run, thread = stopped_threads.start(self.words(), self.folder, 2)
        self.addCleanup(self.end, run)
        self.assertIsNotNone(thread, "the run has ended")
        return run, thread

    def end(self, run):
        if run.returncode is None:
            run.kill()
            run.communicate()

    def at_work(self, after):
        """A run of which a worker is stopped after so many s. One that has ended by then is made again."""
        for _ in range(TRIES):
            run, thread = self.stopped(after)
            if thread is not None:
                return run, thread
        self.fail("the run has ended")

    def stopped(self, after):
        """A run of which a worker is stopped after so many s, or None in its place where the run has ended."""
        run = subprocess.Popen(self.words(), cwd=self.folder, stdout=subprocess.PIPE, stderr=subprocess.PIPE)
        self.addCleanup(self.end, run)
        while len(stopped_threads.threads_of(run)) < 2:
            if run.poll() is not None:
                return run, None
            time.sleep(0.001)
        time.sleep(after)
        threads = stopped_threads.threads_of(run)
        self.since = time.monotonic()
        return run, threads[-1] if threads and stopped_threads.stop(threads[-1]) else None

    def stands_alone(self, runs):
        """Lets the threads that stand still go on after a while. The answer is whether each was alone then: the other workers had ended."""
        begin = time.monotonic()
        are_alone = lambda: all(stopped_threads.threads_of(run) == [thread] for run, thread in runs)
        try:
            time.sleep(SOON)
            # Of the run that was stopped last.
            workers = len(stopped_threads.threads_of(runs[-1][0]))
            self.assertTrue(workers == 2 or time.monotonic() > self.since + TOO_LATE, "a worker gave up too soon")
            while time.monotonic() < begin + STILL or time.monotonic() < begin + LONGEST_STILL and not are_alone():
                time.sleep(0.1)
            for run, thread in runs:
                # The run waits for the thread, whatever the others did.
                self.assertIsNone(run.poll())
                self.assertIn(thread, stopped_threads.threads_of(run))
            return are_alone()
        finally:
            for _, thread in runs:
                stopped_threads.go_on(thread)

    def test_a_run_of_which_one_thread_stands_still_ends(self):
        is_alone = False
        for _ in range(TRIES):
            runs = [self.from_birth(), self.at_work(0.1), self.at_work(0.3)]
            is_alone = self.stands_alone(runs)
            for run, _ in runs:
                printed, said = run.communicate(timeout=PATIENCE)
                self.assertEqual((run.returncode, said.decode()), (0, ""))
                self.assertEqual(printed, self.tables)
            if is_alone:
                break
        self.assertTrue(is_alone, "the other worker waits for the one that stands still, and is not given up")


if __name__ == "__main__":
    unittest.main()
