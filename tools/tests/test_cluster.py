"""Tests of afdx campaign --dask, with a real scheduler and real workers on this machine. They need Dask, as Debian's package
python3-distributed has it."""
import hashlib
import json
import os
import re
import subprocess
import sys
import time
import unittest
from unittest import mock

from afdx import model
from afdx.runs import cluster
from tests.test_campaign import COCKPIT, Here, N1, read
from tests.places import PATIENCE, tool_words

# Writes a file for each run, which names its process, and takes a while.
SLOW = """
with open({runs!r}, "a") as out:
    print(seed, os.getppid(), file=out)
time.sleep(0.2)
"""


def interpreter():
    """The interpreter that has Dask."""
    if cluster.is_here():
        return sys.executable
    try:
        return cluster.interpreter()
    except model.Fault:
        raise AssertionError("there is no Dask: apt-get update && apt-get install -y python3-distributed") from None


class WithACluster(Here):
    def setUp(self):
        super().setUp()
        self.python = interpreter()
        self.runs = self.file("runs", "")
        self.address = None

    def start(self, name, *words, environment=None):
        """Starts a scheduler or a worker, which ends with the test."""
        command = [self.python, "-m", f"distributed.cli.dask_{name}", "--host", "127.0.0.1", "--no-dashboard", *words]
        where = {"cwd": self.folder, "stdin": subprocess.DEVNULL, "env": os.environ | (environment or {})}
        with open(os.path.join(self.folder, name + ".log"), "ab") as log:
            started = subprocess.Popen(command, stdout=log, stderr=log, **where)
        self.addCleanup(started.wait)
        self.addCleanup(started.kill)
        return started

    def start_scheduler(self):
        known = os.path.join(self.folder, "scheduler.json")
        self.start("scheduler", "--port", "0", "--scheduler-file", known)
        self.wait_until(lambda: os.path.exists(known) and read(known).endswith("}"))
        self.address = json.loads(read(known))["address"]

    def start_worker(self, **environment):
        return self.start("worker", self.address, "--nthreads", "1", "--no-nanny", environment=environment)

    def wait_until(self, holds):
        begin = time.monotonic()
        while not holds():
            self.assertLess(time.monotonic(), begin + PATIENCE, "it takes too long")
            time.sleep(0.05)

    def begun(self):
        """The runs that have begun: seed and worker."""
        return [tuple(map(int, line.split())) for line in read(self.runs).splitlines()]

    def campaign(self, *words):
        """Starts afdx campaign by the interpreter of the tests, whether it has Dask or not."""
        command = [*tool_words("campaign"), *words, "--program", self.program, "--replace"]
        pipe = subprocess.PIPE
        run = subprocess.Popen([*command, "-o", self.output], stdout=pipe, stderr=pipe, stdin=subprocess.DEVNULL, text=True)
        self.addCleanup(run.kill)
        return run

    def test_a_worker_is_lost(self):
        """Two workers. One is ended while it has runs: the other one does them again, and what is merged has the bytes of
        a campaign on one machine. Then a run fails, and a worker has another program."""
        words = [COCKPIT, "--seeds", "12", "--offsets", "--histograms", "--keep"]
        self.stand_in()
        self.assertEqual(self.call(*words, "--jobs", "2")[0], 0)
        names = sorted(os.listdir(self.output))
        self.assertEqual(len(names), 4 + 2 * 12)
        alone = {name: read(os.path.join(self.output, name)) for name in names}
        self.output = os.path.join(self.folder, "together")
        self.stand_in(SLOW.format(runs=self.runs))
        self.start_scheduler()
        lost, kept = self.start_worker(), self.start_worker()
        run = self.campaign(*words, "--dask", self.address)
        # Both have done a run, and the one has begun another.
        self.wait_until(lambda: sorted(worker for _, worker in self.begun()).count(lost.pid) > 1)
        lost.kill()
        out, said = run.communicate(timeout=PATIENCE)
        self.assertEqual((run.returncode, said), (0, ""))
        self.assertIn("12 runs merged, seeds 7 to 18, in", out)
        together = {name: read(os.path.join(self.output, name)) for name in os.listdir(self.output)}
        # The one program sleeps and the other does not, so their sums differ.
        records = [json.loads(it.pop("campaign.json")) | {"program": None} for it in (together, alone)]
        self.assertEqual(*records)
        self.assertEqual(together, alone)
        begun = self.begun()
        self.assertEqual({worker for _, worker in begun}, {lost.pid, kept.pid})
        self.assertEqual({seed for seed, _ in begun}, set(range(7, 19)))
        again = {seed for seed, worker in begun if worker == lost.pid} & {seed for seed, worker in begun if worker == kept.pid}
        self.assertTrue(again, "what the lost worker had begun was done again")
        self.a_run_fails()
        self.another_program(kept)

    def a_run_fails(self):
        self.stand_in("if seed == 44: sys.exit('afdxsim: out of memory')")
        run = self.campaign(N1, "--seeds", "9", "--dask", self.address)
        out, said = run.communicate(timeout=PATIENCE)
        self.assertEqual((run.returncode, said), (1, "afdx campaign: seed 44: afdxsim: out of memory (status 1)\n"))
        self.assertIn("2 runs merged, seeds 42 to 43, in", out)

    def another_program(self, kept):
        """A worker takes the program that its environment names, which has to be the same one: the same version is not enough."""
        kept.kill()
        other = self.file("other", read(self.program) + "# another\n")
        os.chmod(other, 0o755)
        self.start_worker(AFDXSIM=other)
        run = self.campaign(N1, "--seeds", "2", "--dask", self.address)
        out, said = run.communicate(timeout=PATIENCE)
        self.assertEqual((run.returncode, out), (1, "no run was merged, and nothing is written\n"))
        sums = [hashlib.sha256(read(path).encode()).hexdigest()[:16] for path in (other, self.program)]
        printed = f"is another program: its SHA-256 is {sums[0]}.., and here it is {sums[1]}..; AFDXSIM in the environment of a worker names its program"
        self.assertRegex(said, rf"^afdx campaign: seed 42: .*other of .* {re.escape(printed)}\n$")


class WithoutOne(Here):
    def test_no_scheduler(self):
        interpreter()
        self.stand_in()
        words = [N1, "--seeds", "2", "--program", self.program, "-o", self.output, "--dask"]
        command = [*tool_words("campaign"), *words]
        run = subprocess.run([*command, "tcp://127.0.0.1:1"], capture_output=True, text=True)
        self.assertEqual((run.returncode, run.stdout), (2, ""))
        self.assertRegex(run.stderr, r"^afdx campaign: tcp://127.0.0.1:1: is no scheduler: .*\n$")
        run = subprocess.run([*command, "127.0.0.1:1"], capture_output=True, text=True)
        self.assertEqual((run.returncode, run.stdout), (2, ""))
        self.assertIn("argument --dask: invalid address value: '127.0.0.1:1'", run.stderr)

    def test_no_package(self):
        """It says which one is needed. Without --dask all goes as before."""
        self.stand_in()
        with mock.patch.object(cluster, "is_here", lambda: False), mock.patch.object(cluster, "DEBIAN", "/nowhere/python3"):
            said = "afdx campaign: --dask: needs Dask for /nowhere/python3: apt-get install -y python3-distributed\n"
            self.assertEqual(self.call(N1, "--seeds", "2", "--dask", "tcp://127.0.0.1:1"), (2, "", said))
            self.assertEqual(self.call(N1, "--seeds", "2")[0], 0)
        self.assertTrue(os.path.exists(self.merged))


if __name__ == "__main__":
    unittest.main()
