"""Tests of the script ./test, with a stand-in for `rt` and few tests in place of all."""
import json
import os
import re
import shutil
import stat
import subprocess
import sys
import tempfile
import textwrap
import unittest

from gate import proofs_and_tests
from tests.places import TOOLS, TOP


PASSES = "import unittest\nclass It(unittest.TestCase):\n    def test_one(self): pass\n    def test_two(self): pass\n"
FAILS = PASSES + "    def test_three(self): self.fail()\n    def test_four(self): raise OSError\n"
SKIPS = PASSES + "    @unittest.skip('there is no x:\\n get it')\n    def test_three(self): pass\n"
GOOD = "echo 7 passed, 3 failed in a crate\necho 51 passed, 0 failed\n"
# An apt-get that writes down its words, and installs a program that is asked for, where it is this one.
APT = """
    echo "$@" >> {folder}/apt.log
    for word in "$@"; do
        if [ "$word" = "{has}" ]; then
            : > {folder}/$word; /bin/chmod 755 {folder}/$word
        fi
    done
"""
# Two crates of which the first is kept and the second proved, with edits; and a program that is left.
PROVES = """
    echo "rt: low is kept: an earlier run on this machine proved the same files over the same libraries"
    echo "rt: afdxsim: its tests are proved"
    echo "rt: afdxsim proved"
    echo "rt: afdxsim: trying its must-fail edits (1)"
    echo program > crates/afdxsim/out/afdxsim
    echo "51 passed, 0 failed"
"""
# Writes down what it is asked to prove, and proves it; what takes some time of a processor is the unit alone.
UNIT = """
    echo $(ls crates) = $(sed 's/:.*//' crates.txt | sort) = $RT_JOBS = $(tail -n 1 crates/heap_message/src/lib.rt 2> /dev/null) >> {folder}/asked.log
    if [ -d crates/afdxsim ]; then echo "51 passed, 0 failed"; exit 0; fi
    if grep -q heap_message crates.txt; then
        {python} -c 'import time
    while time.process_time() < 0.5: pass'
        echo "rt: heap_message proved"
    fi
"""
# Passes where the other file of the two runs meanwhile. What it prints takes it some time.
TWIN = """
    import os, time, unittest
    class It(unittest.TestCase):
        def test_both(self):
            print("{mine} begins", flush=True)
            open("{folder}/{mine}", "w").close()
            end = time.monotonic() + 900
            while not os.path.exists("{folder}/{other}") and time.monotonic() < end:
                time.sleep(0.1)
            self.assertTrue(os.path.exists("{folder}/{other}"))
            time.sleep(0.5)
            print("{mine} ends", flush=True)
"""
# A process that is like those of the prover, and takes some time of a processor.
WORKS = """
    for kind in "" "--test"; do
        (cd crates/low; {python} -c 'import time
    begin = time.process_time()
    while time.process_time() - begin < 1.2: pass
    time.sleep(6)' build --crate-name low $kind)
    done
    echo "51 passed, 0 failed"
"""


class Gate(unittest.TestCase):
    def setUp(self):
        made = tempfile.TemporaryDirectory()
        self.addCleanup(made.cleanup)
        self.folder = made.name
        os.chmod(self.folder, 0o755)
        os.mkdir(os.path.join(self.folder, "tools"))
        shutil.copy(os.path.join(TOP, "test"), self.folder)
        for name in ("gate", "afdx/files", "afdx/runs"):
            ignored = shutil.ignore_patterns("__pycache__")
            shutil.copytree(os.path.join(TOOLS, name), os.path.join(self.folder, "tools", name), ignore=ignored)
        for name in ("afdx", "tests"):
            self.write(f"tools/{name}/__init__.py", "")
        # What the tests need is there, whatever this machine has.
        for name in (*proofs_and_tests.MODULES, *proofs_and_tests.FEW_MODULES):
            self.write(f"modules/{name}.py", "")
        for name in (*proofs_and_tests.PROGRAMS, *proofs_and_tests.FEW_PROGRAMS):
            self.write(name, "", 0o755)

    def write(self, name, text, mode=0o644):
        path = os.path.join(self.folder, name)
        os.makedirs(os.path.dirname(path), exist_ok=True)
        with open(path, "w") as out:
            out.write(text)
        os.chmod(path, mode)

    def text(self, name):
        with open(os.path.join(self.folder, name)) as file:
            return file.read()

    def script(self, name, text):
        self.write(name, "#!/bin/sh\n" + textwrap.dedent(text), 0o755)

    def ended(self, rt, tests=PASSES, **more):
        """The lines of ./test and its status, where `rt` does these lines of a shell and tools/ has these tests."""
        if rt is not None:
            asked = 'if [ "$*" = version ]; then echo rattle-kit-0 logic 0; exit 0; fi\ntest "$*" = ci || exit 9\n'
            self.script("rt", asked + textwrap.dedent(rt))
        self.write("tools/tests/test_it.py", tests)
        env = os.environ | {
            "PATH": self.folder + (":/usr/bin:/bin" if rt is not None else ""),
            "PYTHONPATH": os.path.join(self.folder, "modules"), "XDG_CACHE_HOME": os.path.join(self.folder, "cache"),
        }
        # Another user may not be let to the interpreter that runs this.
        words = [proofs_and_tests.DEBIAN if "user" in more else sys.executable, os.path.join(self.folder, "test")]
        run = subprocess.run(words, env=env | more.pop("env", {}), capture_output=True, text=True, **more)
        return run.stdout.splitlines() + run.stderr.splitlines(), run.stdout.splitlines()[-1], run.returncode

    def test_the_last_line_counts_both(self):
        for rt, tests, line, status in (
            (GOOD, PASSES, "53 passed, 0 failed", 0),
            (GOOD, FAILS, "53 passed, 2 failed", 1),
            (GOOD, SKIPS, "53 passed, 0 failed", 0),
            (GOOD, "not python", "51 passed, 1 failed", 1),
            (GOOD, "", "51 passed, 1 failed", 1),
            ("echo 49 passed, 2 failed\nexit 1\n", PASSES, "51 passed, 2 failed", 1),
            ("echo 49 passed, 2 failed\n", FAILS, "51 passed, 4 failed", 1),
            ("echo 51 passed, 0 failed\nexit 3\n", PASSES, "53 passed, 1 failed", 1),
            ("echo rt: stopped >&2\nexit 2\n", PASSES, "2 passed, 1 failed", 1),
            ("kill -9 $$\n", PASSES, "2 passed, 1 failed", 1),
            (None, PASSES, "2 passed, 1 failed", 1),
        ):
            with self.subTest(rt=rt, tests=tests[-30:]):
                if rt is None:
                    os.unlink(os.path.join(self.folder, "rt"))
                self.assertEqual(self.ended(rt, tests)[1:], (line, status))

    def test_each_skipped_test_is_listed_with_its_reason(self):
        for tests, said in (
            (SKIPS, ["tests.test_it.It.test_three: there is no x: get it"]), (PASSES, []),
            (f"import unittest\n@unittest.skip('none')\nclass Other(unittest.TestCase):\n    def test_it(self): pass\n{SKIPS}",
             ["tests.test_it.Other.test_it: none", "tests.test_it.It.test_three: there is no x: get it"]),
        ):
            lines, last, status = self.ended(GOOD, tests)
            self.assertEqual((last, status), ("53 passed, 0 failed", 0))
            found = [line.removeprefix("test: skipped: ") for line in lines if line.startswith("test: skipped: ")]
            self.assertEqual(sorted(found), sorted(said))

    @unittest.skipUnless(os.geteuid() == 0, "installs as root alone")
    def test_as_root_it_installs_what_is_missing(self):
        os.unlink(os.path.join(self.folder, "chromium"))
        self.script("apt-get", APT.format(folder=self.folder, has="chromium"))
        lines, last, status = self.ended(GOOD, env={"PATH": self.folder})
        self.assertIn("test: installs chromium", lines)
        self.assertEqual((last, status), ("53 passed, 0 failed", 0))
        self.assertEqual(self.text("apt.log"), "update\ninstall -y --no-install-recommends chromium\n")

    @unittest.skipUnless(os.geteuid() == 0, "installs as root alone")
    def test_what_a_few_tests_need_is_installed_where_it_can_be(self):
        for name in ("chromium", "mmdebstrap", "man"):
            os.unlink(os.path.join(self.folder, name))
        self.script("apt-get", APT.format(folder=self.folder, has="chromium"))
        lines, last, status = self.ended(GOOD, env={"PATH": self.folder})
        self.assertIn("test: installs chromium mmdebstrap man-db", lines)
        self.assertEqual(self.text("apt.log"), "update\n" + "".join(
            f"install -y --no-install-recommends {name}\n" for name in ("chromium", "mmdebstrap", "man-db")
        ))
        self.assertIn(
            "test: tests are skipped that need mmdebstrap man-db. "
            "As root: apt-get update && apt-get install -y --no-install-recommends mmdebstrap man-db", lines
        )
        self.assertEqual((last, status), ("53 passed, 0 failed", 0))

    @unittest.skipUnless(os.geteuid() == 0, "installs as root alone")
    def test_what_cannot_be_installed_is_reported_before_the_first_proof(self):
        os.unlink(os.path.join(self.folder, "chromium"))
        self.script("apt-get", APT.format(folder=self.folder, has=""))
        lines, last, status = self.ended("echo PROVES\n" + GOOD, env={"PATH": self.folder})
        self.assertNotIn("PROVES", lines)
        self.assertEqual((last, status), ("0 passed, 1 failed", 1))

    def test_else_it_says_in_one_line_what_is_missing(self):
        os.unlink(os.path.join(self.folder, "chromium"))
        self.script("apt-get", APT.format(folder=self.folder, has="chromium"))
        who = {"user": 65534, "cwd": self.folder} if os.geteuid() == 0 else {}
        lines, last, status = self.ended("echo PROVES\n" + GOOD, env={"PATH": self.folder}, **who)
        self.assertEqual(lines, [
            "test: missing: chromium. As root: apt-get update && apt-get install -y --no-install-recommends chromium",
            "0 passed, 1 failed",
        ])
        self.assertEqual(status, 1)
        self.assertFalse(os.path.exists(os.path.join(self.folder, "apt.log")))

    def test_a_library_that_is_missing_is_one_of_debian(self):
        for name, package in (proofs_and_tests.MODULES | proofs_and_tests.FEW_MODULES).items():
            self.assertEqual(package, f"python3-{name}")
        python, lacking = proofs_and_tests.python_for_tests()
        self.assertTrue(os.path.isfile(python))
        self.assertLessEqual(set(lacking), set(proofs_and_tests.MODULES))

    def sources(self):
        """Two crates."""
        self.write("crates.txt", "low:\nafdxsim: low\n")
        self.write("crates/low/src/lib.rt", "// low\n")
        self.write("crates/afdxsim/src/main.rt", "// the program\n")
        self.write("crates/afdxsim/must-fail/it.edit", "file: src/main.rt\n")
        self.write("crates/command_line/src/program.rt", 'const VERSION: &str = "1.2.3";\n')
        self.write("crates/afdxsim/out/none", "")

    def test_it_reports_how_far_it_is(self):
        self.sources()
        lines, last, status = self.ended(PROVES)
        self.assertEqual((last, status), ("53 passed, 0 failed", 0))
        said = [re.sub(r"\d+ s.*", "0 s", line) for line in lines if line.startswith(("test: crate", "test: tools"))]
        self.assertEqual(said, [
            "test: crate 1 of 2, edits of 0 of 1 crates, 0 s",
            "test: crate 2 of 2, edits of 0 of 1 crates, 0 s",
            "test: crate 2 of 2, edits of 1 of 1 crates, 0 s",
            "test: tools: file 1 of 1, test_it.py, 0 s",
        ])

    def test_the_next_run_has_an_estimate_of_the_last(self):
        self.sources()
        self.assertFalse([line for line in self.ended(PROVES)[0] if "last run" in line])
        with open(os.path.join(self.folder, "cache", "afdxsim", "last-test.json")) as file:
            kept = json.load(file)
        kept["seconds"] = 3600
        self.write("cache/afdxsim/last-test.json", json.dumps(kept))
        lines = self.ended(PROVES)[0]
        self.assertIn("the last run on this machine took 60 min", lines[0])
        self.assertTrue([line for line in lines if line.endswith("of some 60 min by the last run")])
        # What is no such file is passed over, and a run that failed is no measure.
        self.write("cache/afdxsim/last-test.json", "{")
        self.assertFalse([line for line in self.ended(PROVES, FAILS)[0] if "last run" in line])
        self.assertEqual(os.path.getsize(os.path.join(self.folder, "cache", "afdxsim", "last-test.json")), 1)

    def test_it_reports_what_each_crate_took(self):
        self.sources()
        lines, last, status = self.ended(WORKS.replace("{python}", sys.executable))
        self.assertEqual((last, status), ("53 passed, 0 failed", 0))
        row = next(line for line in lines if line.startswith("test:   low "))
        # Each of the two works for a second, and longer where the machine gives its time away.
        both, proof, tests, edits = map(int, row.split()[2:])
        self.assertTrue(proof >= 1 and tests >= 1 and edits == 0 and abs(proof + tests - both) <= 1, row)
        self.assertTrue(any(re.match(r"test:   test_it.py +[0-9]+$", line) for line in lines))
        self.assertRegex(lines[lines.index(last) - 2], "^test: proofs and edits .*, tools .*, all .*$")

    def test_it_reports_its_cost_in_units(self):
        """One fixed crate is proved first and last, each time of a text of its own and without the crates above it; those below it are proved before."""
        self.sources()
        self.write("crates.txt", "low:\nheap_message: low\nafdxsim: low heap_message\n")
        self.write("crates/heap_message/src/lib.rt", "// own\n")
        lines, last, status = self.ended(UNIT.format(folder=self.folder, python=sys.executable))
        self.assertEqual((last, status), ("53 passed, 0 failed", 0))
        said = [re.sub(r"[0-9.]+", "N", line) for line in lines if " unit" in line]
        one = "test: heap_message, proved from nothing and alone, took N s of a processor: the unit of cost"
        of_all = "test: cost without the unit itself: N s of processors, N units; the tests of the tools, of these: N s of processors, N units"
        self.assertEqual(said, [one, one, of_all])
        took = [float(line.split()[8]) for line in lines if "the unit of cost" in line]
        self.assertTrue(all(0.4 < it < 60 for it in took), took)
        # What is there, what is listed, how many processes may prove it, and the last line of its text.
        asked = [[word.strip() for word in line.split("=")] for line in self.text("asked.log").splitlines()]
        there = ["low", "heap_message low", "afdxsim command_line heap_message low", "heap_message low"]
        self.assertEqual([names for names, *_ in asked], there)
        self.assertEqual([names for _, names, *_ in asked], [*there[:2], "afdxsim heap_message low", there[3]])
        self.assertEqual([jobs for _, _, jobs, _ in asked], ["", "1", "", "1"])
        texts = [text for *_, text in asked]
        self.assertEqual((texts[0], texts[2], len(set(texts))), ("", "// own", 4))

    def test_without_the_unit_it_reports_seconds_alone(self):
        self.sources()
        self.assertIn("test: no unit of cost: there is no crate heap_message", self.ended(PROVES)[0])
        self.write("crates.txt", "low:\nheap_message: low\nafdxsim: low\n")
        self.write("crates/heap_message/src/lib.rt", "// own\n")
        lines, last, status = self.ended(PROVES)
        self.assertEqual((last, status), ("53 passed, 0 failed", 0))
        self.assertIn("test: no unit of cost: heap_message was not proved", lines)
        self.assertFalse([line for line in lines if " units" in line])

    @unittest.skipUnless(len(os.sched_getaffinity(0)) > 1, "there is one processor alone")
    def test_files_of_tests_run_side_by_side(self):
        """What each prints stands in one piece."""
        for mine, other in (("one", "two"), ("two", "one")):
            self.write(f"tools/tests/test_{mine}.py", textwrap.dedent(TWIN.format(folder=self.folder, mine=mine, other=other)))
        lines, last, status = self.ended(GOOD)
        self.assertEqual((last, status), ("55 passed, 0 failed", 0))
        for name in ("one", "two"):
            at = next(place for place, line in enumerate(lines) if re.match(rf"test: tools: file \d of 3, test_{name}.py, \d+ s$", line))
            piece = "\n".join(lines[at : at + 8])
            self.assertRegex(piece, rf"{name} begins\n(\.\n)?{name} ends\n[^t]*Ran 1 test in [0-9.]+s\n\nOK")

    def test_the_longest_file_of_the_last_run_comes_first(self):
        took = {"test_it.py": 1.0, "test_long.py": 9.0, "test_mean.py": 5.0}
        for name in ("long", "mean"):
            self.write(f"tools/tests/test_{name}.py", PASSES)
        self.write("cache/afdxsim/last-test.json", json.dumps({"seconds": 10, "date": "2026-01-01", "tests": took}))
        self.write("tools/gate/test_files.py", self.text("tools/gate/test_files.py").replace("len(os.sched_getaffinity(0))", "1"))
        lines, last, _ = self.ended(GOOD)
        self.assertEqual(last, "57 passed, 0 failed")
        self.assertEqual(re.findall(r"^test: tools: file \d of 3, test_(\w+).py", "\n".join(lines), re.M), ["long", "mean", "it"])

    def test_it_reports_at_times_what_is_proved(self):
        self.sources()
        self.write("tools/gate/proofs_and_tests.py", self.text("tools/gate/proofs_and_tests.py").replace("\nEACH = 60\n", "\nEACH = 2\n"))
        lines = self.ended(WORKS.replace("{python}", sys.executable))[0]
        said = [line for line in lines if re.match(r"test: crate 0 of 2, .*; low( \(tests\))? since \d+ s$", line)]
        self.assertTrue(said, lines)

    def test_the_program_gets_a_record_where_all_was_proved(self):
        self.sources()
        path = os.path.join(self.folder, "crates/afdxsim/out/afdxsim.record.json")
        for rt, found in ((PROVES.replace("0 failed", "1 failed"), False), (PROVES, True)):
            self.ended(rt)
            self.assertEqual(os.path.exists(path), found)
        with open(path) as file:
            record = json.load(file)
        self.assertEqual((record["gate"], record["version"]), ("51 passed, 0 failed", "1.2.3"))
        self.assertEqual(record["kit"], "rattle-kit-0 logic 0")

    def test_the_script_of_ci_only_calls_it(self):
        path = os.path.join(TOP, ".ci", "run")
        with open(path) as file:
            lines = [line for line in file.read().splitlines() if not line.startswith("#")]
        self.assertEqual(lines, ["set -eu", 'cd "$(dirname "$0")/.."', "exec ./test"])
        self.assertTrue(os.stat(path).st_mode & stat.S_IXUSR)


if __name__ == "__main__":
    unittest.main()
