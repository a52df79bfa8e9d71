"""All proofs and all tests: `rt ci`, then the tests of the tools. The last line counts both together, as

    N passed, M failed

and the status is 0 where nothing failed, else 1. It sets itself up: as root on Debian it installs what is missing of what the
tests of the tools need; else it prints before the first proof what is missing, and ends. It prints how far it is, how long the
last run on this machine took, and at the end what each crate took and which tests were skipped, and why. The program that it
leaves has a record of what it was built of, by which `afdx` knows it.
"""
import glob
import json
import os
import re
import shutil
import subprocess
import sys
import time
from collections.abc import Iterable, Mapping
from typing import Any

from afdx.files import program
from afdx.runs import by_rt, crate_times
from afdx.runs.crate_times import minutes, now
from gate.test_files import Counts, TestFiles
from gate.unit import Unit, seconds_of_children

# What the tests of the tools need: programs, and libraries of Python, each by the package of Debian that has it.
PROGRAMS = {"chromium": "chromium", "tshark": "tshark", "git": "git"}
MODULES = {
    "distributed": "python3-distributed", "jsonschema": "python3-jsonschema", "hypothesis": "python3-hypothesis",
    "openpyxl": "python3-openpyxl",
}
# What a few of them need besides; where it is not there these are skipped.
FEW_PROGRAMS = {"mmdebstrap": "mmdebstrap", "man": "man-db", "mypy": "mypy"}
FEW_MODULES = {"numpy": "python3-numpy", "pandas": "python3-pandas"}
# Debian's packages are for this interpreter.
DEBIAN = "/usr/bin/python3"
# How often it prints what is proved, in s.
EACH = 60
# Of each crate its seconds by kind, as crate_times.py has them.
Seconds = dict[str, dict[str, float]]
INSTALL = ["apt-get", "install", "-y", "--no-install-recommends"]


def show(text: str) -> None:
    """Prints a text in one piece: several threads print."""
    sys.stdout.write(text)
    sys.stdout.flush()


def report(text: str) -> None:
    show(f"test: {text}\n")


# ---- what is needed ----


def lacks(python: str, modules: Iterable[str]) -> list[str] | None:
    """The libraries of these that an interpreter lacks, or None where it cannot be run or is too old."""
    tries = f"import importlib.util as u, sys; print(*(n for n in {list(modules)} if not u.find_spec(n))); sys.exit(sys.version_info < (3, 11))"
    try:
        run = subprocess.run([python, "-c", tries], stdin=subprocess.DEVNULL, capture_output=True, text=True)
    except OSError:
        return None
    return run.stdout.split() if run.returncode == 0 else None


def python_for_tests() -> tuple[str, list[str]]:
    """The interpreter that runs the tests of the tools, and the libraries that it lacks: one that lacks none, and of two the one
    that Debian's packages are for."""
    tried = [(python, lacks(python, MODULES)) for python in (sys.executable, DEBIAN)]
    found = [(python, modules) for python, modules in tried if modules is not None]
    return min(found, key=lambda it: (bool(it[1]), it[0] != DEBIAN))


def without(programs: Mapping[str, str]) -> list[str]:
    """The packages of those programs that are not here."""
    return [package for name, package in programs.items() if not shutil.which(name)]


def missing() -> tuple[list[str], str]:
    """The packages that are missing, and the interpreter that has the rest."""
    python, modules = python_for_tests()
    return without(PROGRAMS) + [MODULES[name] for name in modules], python


def missing_for_few() -> list[str]:
    """The packages that are missing of what a few tests need. Its libraries are looked for where Debian has them."""
    return without(FEW_PROGRAMS) + [FEW_MODULES[name] for name in lacks(DEBIAN, FEW_MODULES) or []]


def install(packages: list[str], few: list[str]) -> None:
    """Installs what is needed at one go, and the rest one by one: what cannot be had keeps nothing else away."""
    report(f"installs {' '.join(packages + few)}")
    for words in (["apt-get", "update"], *([*INSTALL, *it] for it in (packages, *([name] for name in few)) if it)):
        subprocess.run(words, stdin=subprocess.DEVNULL, env=os.environ | {"DEBIAN_FRONTEND": "noninteractive"})


def as_root(packages: list[str]) -> str:
    return f"{' '.join(packages)}. As root: apt-get update && {' '.join(INSTALL + packages)}"


def set_up() -> str | None:
    """Checks that all is there that the tests need, and returns the interpreter for those of the tools; None if something
    is missing, which it prints."""
    (packages, python), few = missing(), missing_for_few()
    if (packages or few) and os.geteuid() == 0 and shutil.which("apt-get"):
        install(packages, few)
        (packages, python), few = missing(), missing_for_few()
    if packages:
        report(f"missing: {as_root(packages + few)}")
        return None
    if few:
        report(f"tests are skipped that need {as_root(few)}")
    return python


# ---- how far it is ----


class Last:
    """What is known of the last run on this machine."""

    seconds: float | None
    date: str | None
    # What each file of the tests of the tools took, in s.
    tests: dict[str, float]

    def __init__(self) -> None:
        cache = os.environ.get("XDG_CACHE_HOME") or os.path.join(os.path.expanduser("~"), ".cache")
        self.path = os.path.join(cache, "afdxsim", "last-test.json")
        try:
            with open(self.path, encoding="utf-8") as file:
                found = json.load(file)
            self.seconds, self.date = float(found["seconds"]), str(found["date"])
            self.tests = {str(name): float(took) for name, took in dict(found.get("tests", {})).items()}
        except (OSError, ValueError, KeyError, TypeError):
            self.seconds = self.date = None
            self.tests = {}

    def keep(self, seconds: float, crates: Mapping[str, int], tests: Mapping[str, float]) -> None:
        try:
            os.makedirs(os.path.dirname(self.path), exist_ok=True)
            with open(self.path, "w", encoding="utf-8") as out:
                took = {name: round(took, 1) for name, took in tests.items()}
                json.dump({"seconds": round(seconds), "date": time.strftime("%Y-%m-%d"), "crates": crates, "tests": took}, out, indent=1)
        except OSError:
            # Then there is no estimate next time.
            pass


class Progress:
    """How far `rt ci` is, by its lines."""

    def __init__(self, last: Last) -> None:
        self.begin, self.last = now(), last
        self.done: set[str] = set()
        self.edits: set[str] = set()
        self.crates = crates_of()
        self.with_edits = {it.split(os.sep)[1] for it in glob.glob("crates/*/must-fail/*.edit")}

    def of_last(self) -> str:
        return f" of some {minutes(self.last.seconds)} by the last run" if self.last.seconds else ""

    def take(self, line: str) -> None:
        """Takes a line of `rt ci`, and prints how far it is if that changes."""
        found = re.match(r"rt: (\w+)(?: is kept:| proved$| NOT PROVED| *: trying its must-fail edits)", line)
        if not found or found[1] not in self.crates:
            return
        (self.edits if "must-fail" in found[0] else self.done).add(found[1])
        report(self.says())

    def says(self) -> str:
        edits = f", edits of {len(self.edits)} of {len(self.with_edits)} crates" if self.with_edits else ""
        return f"crate {len(self.done)} of {len(self.crates)}{edits}, {minutes(now() - self.begin)}{self.of_last()}"


def crates_of() -> set[str]:
    try:
        with open("crates.txt", encoding="utf-8") as file:
            return {line.split(":")[0].split()[0] for line in file if line.strip() and not line.startswith("#")}
    except OSError:
        return set()


# ---- what is run ----


class Proofs:
    """The runs of `rt ci`: what they prove, how far they are, and what each crate takes."""

    def __init__(self, last: Last) -> None:
        self.progress = Progress(last)
        self.times: Seconds = {}

    def run(self, folder: str, is_measured: bool = False) -> tuple[str, int]:
        """Runs `rt ci` in a folder. It returns what that says, which is shown as it comes, and the status. If it is measured, one crate
        is proved by one process, whatever the machine has, and nothing is shown."""
        env = os.environ | ({"RT_JOBS": "1"} if is_measured else {})
        how: dict[str, Any] = {"cwd": folder, "env": env, "stdout": subprocess.PIPE, "stderr": subprocess.STDOUT, "text": True}
        try:
            run = subprocess.Popen(["rt", "ci"], errors="replace", **how)
        except OSError as fault:
            show(f"rt: {fault.strerror}\n")
            return "", 127
        if is_measured:
            return run.communicate()[0], run.returncode
        with crate_times.CrateTimes(run.pid, folder) as watched:
            with by_rt.Meanwhile(lambda _: f"{self.progress.says()}; {watched.at_work()}", EACH, report):
                found = self.listen(run)
        for name, mine in watched.seconds().items():
            sums = self.times.setdefault(name, dict.fromkeys(mine, 0.0))
            for kind in mine:
                sums[kind] += mine[kind]
        return found

    def listen(self, run: subprocess.Popen[str]) -> tuple[str, int]:
        said = []
        assert run.stdout is not None
        for line in run.stdout:
            show(line)
            said.append(line)
            self.progress.take(line.rstrip("\n"))
        return "".join(said), run.wait()


def counts_of_rt(said: str) -> tuple[int, int]:
    """What `rt ci` has passed and failed, by its last line."""
    lines = re.findall(r"^(\d+) passed, (\d+) failed$", said, re.MULTILINE)
    return (int(lines[-1][0]), int(lines[-1][1])) if lines else (0, 0)


def prove(counts: Counts, proofs: Proofs) -> None:
    """Runs `rt ci`, and writes down what the program that it leaves was built of."""
    kit_line = program.kit(os.getcwd())
    before = program.sum_of_judged(kit_line, os.getcwd())
    said, status = proofs.run(os.getcwd())
    counts.add(counts_of_rt(said), status)
    if not counts.failed and os.path.isfile(program.BUILT) and program.sum_of_judged(kit_line, os.getcwd()) == before:
        sources = program.sum_of_sources(kit_line, os.getcwd())
        program.write_record(kit_line, sources, f"{counts.passed} passed, 0 failed", os.getcwd())


def tell_times(proofs: Proofs, tests: TestFiles) -> None:
    """Prints what each crate and each file of tests took, and which tests were skipped."""
    report("seconds of processors that each crate took in this run:")
    for line in crate_times.in_lines(proofs.times):
        report(f"  {line}")
    report("seconds that each file of the tests of the tools took, several at once:")
    for name, seconds in sorted(tests.took.items(), key=lambda it: -it[1]):
        report(f"  {name:<26}{seconds:>6.0f}")
    for line in tests.skipped:
        report(line)


def main() -> int:
    os.chdir(program.ROOT)
    python = set_up()
    if python is None:
        print("0 passed, 1 failed", flush=True)
        return 1
    last, counts, begin = Last(), Counts(), now()
    if last.seconds:
        report(f"the last run on this machine took {minutes(last.seconds)} ({last.date}); what has not changed is not proved again")
    proofs, tests = Proofs(last), TestFiles(python, report, last.tests)
    before = seconds_of_children()
    with Unit(os.getcwd(), proofs.run) as unit:
        unit.prove_below()
        report(unit.measure())
        tests.begin_beside_proofs()
        prove(counts, proofs)
        proved = now() - begin
        tests.run_rest()
        counts.passed, counts.failed = counts.passed + tests.counts.passed, counts.failed + tests.counts.failed
        used = seconds_of_children() - before - unit.seconds()
        report(unit.measure())
    tell_times(proofs, tests)
    report(f"proofs and edits {minutes(proved)}, tools {minutes(now() - begin - proved)}, all {minutes(now() - begin)}")
    report(f"cost without the unit itself: {unit.in_units(used)}; the tests of the tools, of these: {unit.in_units(tests.used)}")
    if not counts.failed:
        last.keep(now() - begin, {name: round(sum(mine.values())) for name, mine in proofs.times.items()}, tests.took)
    print(f"{counts.passed} passed, {counts.failed} failed", flush=True)
    return 1 if counts.failed else 0
