"""The tests of the tools: each file in a process of its own, as many files at once as there are processors, the longest first.

Files that need nothing of what the proofs make begin beside them, one at a time. What a file prints is kept until it ends, and then printed whole.
"""
import glob
import os
import re
import subprocess
import tempfile
import threading
from collections.abc import Callable, Mapping

from afdx.runs.crate_times import now

# Files that ask neither for the program nor for its record nor for a quiet machine.
BESIDE_PROOFS = (
    "test_cluster.py", "test_crates.py", "test_fit.py", "test_five_links.py", "test_hops.py", "test_latency_counts.py", "test_libraries.py",
    "test_limits.py", "test_long_form.py", "test_many_seeds.py", "test_qualification.py", "test_reading_list.py", "test_traces.py",
    "test_transmit_jitter.py", "test_turn_model.py", "test_types.py",
)
# Files that take longest, for a machine that has no times of an earlier run.
LONGEST = (
    "test_debian_package.py", "test_report.py", "test_commands.py", "test_campaign.py", "test_rows.py", "test_misuse.py", "test_types.py",
    "test_refuse_memory.py", "test_processes.py", "test_from_table.py", "test_second_opinion.py", "test_bounds.py", "test_hands.py", "test_large_page.py",
    "test_cluster.py",
)


class Counts:
    """What has passed and failed so far."""

    def __init__(self) -> None:
        self.passed = self.failed = 0

    def add(self, found: tuple[int, int], status: int) -> None:
        """Adds what a command counted. What ends badly, or has passed nothing, has failed, whatever it counts."""
        more, less = found
        self.passed += more
        self.failed += less or (1 if status or not more else 0)


def counts_of_unittest(said: str) -> tuple[int, int]:
    """What the tests of the tools have passed and failed, by their last two lines."""
    ran = re.findall(r"^Ran (\d+) tests? in ", said, re.MULTILINE)
    end = re.findall(r"^(?:OK|FAILED)(?: \((.*)\))?$", said, re.MULTILINE)
    if not (ran and end):
        return 0, 0
    pieces = dict(piece.split("=") for piece in end[-1].split(", ")) if end[-1] else {}
    failed = sum(int(pieces.get(word, 0)) for word in ("failures", "errors", "unexpected successes"))
    return max(0, int(ran[-1]) - failed - int(pieces.get("skipped", 0))), failed


def said_by_file(python: str, name: str) -> tuple[str, int, float]:
    """What the tests of a file print, their status, and the processor time in s of them and of all that they start."""
    with tempfile.TemporaryFile("w+", encoding="utf-8", errors="replace") as out:
        words = [python, os.path.join("tools", "gate", "one_test_file.py"), name]
        run = subprocess.Popen(words, stdin=subprocess.DEVNULL, stdout=out, stderr=subprocess.STDOUT)
        _, status, used = os.wait4(run.pid, 0)
        run.returncode = os.waitstatus_to_exitcode(status)
        out.seek(0)
        return out.read(), run.returncode, used.ru_utime + used.ru_stime


class TestFiles:
    """The files of tests that wait, and what those that ended said. `report` prints a line, and `known` has what files took in an earlier run, in s."""

    # unittest and its kin are not to take this for tests.
    __test__ = False

    def __init__(self, python: str, report: Callable[[str], None], known: Mapping[str, float]) -> None:
        self.python, self.report = python, report
        names = [os.path.basename(path) for path in sorted(glob.glob("tools/tests/test_*.py"))]
        ranks = {name: float(len(LONGEST) - place) for place, name in enumerate(LONGEST)}
        self.waiting = sorted(names, key=lambda name: -known.get(name, ranks.get(name, 0)))
        self.number = len(self.waiting)
        self.counts = Counts()
        # Of each file that ended how long it took, in s; and the processor time of all, in s.
        self.took: dict[str, float] = {}
        self.used = 0.0
        self.skipped: list[str] = []
        self.lock = threading.Lock()
        self.are_proofs_done = False
        self.lanes: list[threading.Thread] = []

    def begin_beside_proofs(self) -> None:
        self.begin_lane()

    def run_rest(self) -> None:
        """Runs what is left in as many lanes as there are processors, and waits for all."""
        if not self.number:
            self.counts.add((0, 0), 0)
        self.are_proofs_done = True
        self.lanes = [lane for lane in self.lanes if lane.is_alive()]
        while len(self.lanes) < len(os.sched_getaffinity(0)):
            self.begin_lane()
        for lane in self.lanes:
            lane.join()

    def begin_lane(self) -> None:
        # Whoever interrupts the gate does not wait for them.
        lane = threading.Thread(target=self.go, daemon=True)
        self.lanes.append(lane)
        lane.start()

    def go(self) -> None:
        while name := self.next():
            begin = now()
            said, status, used = said_by_file(self.python, name)
            with self.lock:
                self.used += used
                self.take(name, said, status, now() - begin)

    def next(self) -> str | None:
        with self.lock:
            may = [name for name in self.waiting if self.are_proofs_done or name in BESIDE_PROOFS]
            if may:
                self.waiting.remove(may[0])
            return may[0] if may else None

    def take(self, name: str, said: str, status: int, seconds: float) -> None:
        """Takes what a file said, and prints it."""
        self.took[name] = seconds
        self.counts.add(counts_of_unittest(said), status)
        self.skipped += re.findall(r"^skipped: .*$", said, re.MULTILINE)
        self.report(f"tools: file {len(self.took)} of {self.number}, {name}, {seconds:.0f} s\n{said.rstrip()}")
