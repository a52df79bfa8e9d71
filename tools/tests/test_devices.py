"""Tests of what the program prints and leaves if files and streams of the system fail. They need the built program, at
crates/afdxsim/out/afdxsim, where `rt ci` leaves it, and a C compiler for the few lines of C that cut each write."""
import os
import re
import shutil
import subprocess
import tempfile
import unittest

from gate import refuse_memory
from gate.refuse_memory import PROGRAM, STEPS, TABLES, TRACE
from tests.places import PATIENCE

# Each write takes one byte of those that it is given.
CUTS = r"""
extern long syscall(long, ...);

long write(int file, const void *bytes, unsigned long count) { return syscall(1, (long) file, bytes, count ? 1l : 0l); }

long __write(int file, const void *bytes, unsigned long count) { return write(file, bytes, count); }
"""

# Two file systems in memory, in which the first file has the same number: a run reads the one and writes the other. 77 is printed where
# there cannot be such.
TWO_DEVICES = """
mount -t tmpfs none one && mount -t tmpfs none other || exit 77
cp n1.toml one && : > other/trace.csv || exit 77
[ "$(stat -c %i one/n1.toml)" = "$(stat -c %i other/trace.csv)" ] || exit 77
"$0" seq one/n1.toml --trace other/trace.csv && cat other/trace.csv
"""

# The words, a row each, then the status and what error output has; where the status is 0, the tables are on standard
# output, else nothing is. `folder` is a folder, `link.toml` a link to n1.toml, and no file is `absent`. Nobody can make a
# file in /proc, and /dev/full takes nothing.
ROWS = """
seq n1.toml --trace trace.csv => 0
run n1.toml --workers 2 --trace trace.csv --journal journal.txt => 0
replay n1.toml journal.txt => 0 replay: ... finished
run n1.toml --workers 2 --trace /dev/null --journal /dev/null => 0
replay n1.toml steps.txt => 0 replay: 41 did, 0 not enabled, 0 refused, gvt 2000001, finished
check folder => 4 afdxsim: cannot read folder
seq folder => 4 afdxsim: cannot read folder
run folder => 4 afdxsim: cannot read folder
replay folder steps.txt => 4 afdxsim: cannot read folder
replay n1.toml folder => 4 afdxsim: cannot read folder
replay absent folder => 4 afdxsim: cannot read absent
replay n1.toml absent/steps.txt => 4 afdxsim: cannot read absent/steps.txt
check n1.toml/x => 4 afdxsim: cannot read n1.toml/x
seq n1.toml --trace folder => 4 afdxsim: cannot write folder
seq n1.toml --trace absent/trace.csv => 4 afdxsim: cannot write absent/trace.csv
seq n1.toml --trace /proc/trace.csv => 4 afdxsim: cannot write /proc/trace.csv
seq n1.toml --trace /dev/full => 4 afdxsim: cannot write /dev/full
run n1.toml --workers 2 --trace folder => 4 afdxsim: cannot write folder
run n1.toml --workers 2 --trace /proc/trace.csv --journal journal.txt => 4 afdxsim: cannot write /proc/trace.csv
run n1.toml --workers 2 --trace /dev/full --journal journal.txt => 4 afdxsim: cannot write /dev/full
run n1.toml --workers 2 --journal folder => 4 afdxsim: cannot write folder
run n1.toml --workers 2 --journal /dev/full => 4 afdxsim: cannot write /dev/full
run n1.toml --workers 2 --trace trace.csv --journal /proc/journal.txt => 4 afdxsim: cannot write /proc/journal.txt
seq n1.toml --trace n1.toml => 2 afdxsim: named twice: n1.toml
seq n1.toml --trace folder/../n1.toml => 2 afdxsim: named twice: folder/../n1.toml
seq n1.toml --trace link.toml => 2 afdxsim: named twice: link.toml
seq absent --trace ./absent => 2 afdxsim: named twice: ./absent
run link.toml --workers 2 --journal n1.toml => 2 afdxsim: named twice: n1.toml
run n1.toml --workers 2 --trace new.csv --journal folder/../new.csv => 2 afdxsim: named twice: folder/../new.csv
"""

# What is printed where standard output takes nothing: the status, the words, and what error output has.
NO_OUTPUT = """
check n1.toml => 4 afdxsim: cannot write
seq n1.toml => 4 afdxsim: cannot write
seq n1.toml --trace trace.csv => 4 afdxsim: cannot write
replay n1.toml steps.txt => 4 afdxsim: cannot write
run n1.toml --workers 2 => 4 afdxsim: cannot write
--help => 4 afdxsim: cannot write
"""

# The status where error output takes nothing.
NO_ERRORS = """
replay n1.toml steps.txt => 0
check absent => 4
check steps.txt => 3
seq n1.toml --trace folder => 4
no words => 2
"""


def rows_of(text):
    """The words of each row, its status and what it prints."""
    for row in text.strip().splitlines():
        words, said = row.split(" => ")
        status, _, line = said.partition(" ")
        yield row, words.split(), int(status), line + "\n" if line else ""


@unittest.skipUnless(os.path.exists("/dev/full"), "there is no /dev/full")
class Devices(unittest.TestCase):
    def setUp(self):
        if not os.path.isfile(PROGRAM):
            self.fail(f"there is no program at {PROGRAM}: `rt ci` at the top builds it")
        folder = tempfile.TemporaryDirectory()
        self.addCleanup(folder.cleanup)
        self.folder = folder.name
        refuse_memory.prepare(self.folder)
        os.mkdir(self.path("folder"))
        os.symlink("n1.toml", self.path("link.toml"))

    def path(self, name):
        return os.path.join(self.folder, name)

    def ended(self, words, env=None, **streams):
        streams = {"stdout": subprocess.PIPE, "stderr": subprocess.PIPE} | streams
        return subprocess.run([PROGRAM, *words], cwd=self.folder, env=env, text=True, timeout=PATIENCE, **streams)

    def are_reported(self, env=None):
        """Each row comes to what it says, and where it is well its files are whole."""
        for row, words, status, line in rows_of(ROWS):
            with self.subTest(row):
                for name in ("trace.csv", *(["journal.txt"] if words[0] == "run" else [])):
                    if os.path.exists(self.path(name)):
                        os.unlink(self.path(name))
                run = self.ended(words, env)
                line = re.escape(line).replace(re.escape("..."), ".*")
                self.assertEqual((run.returncode, run.stdout), (status, TABLES if status == 0 else ""), run.stderr)
                self.assertRegex(run.stderr, rf"\A{line}\Z")
                if "trace.csv" in words:
                    self.assertEqual(refuse_memory.text_of(self.path("trace.csv")), TRACE)
                if words[0] == "run":
                    # The file behind one that could not be written is not made.
                    is_made = "journal.txt" in words and status == 0
                    self.assertEqual(os.path.exists(self.path("journal.txt")), is_made)
        # A file that was named twice was not made. The journal of the run was replayed, and the folder is as it was.
        self.assertFalse(any(os.path.exists(self.path(name)) for name in ("absent", "new.csv")))
        self.assertEqual(os.listdir(self.path("folder")), [])
        self.assertEqual(refuse_memory.text_of(self.path("steps.txt")), STEPS)

    def test_files_are_written_or_their_fault_is_reported(self):
        self.are_reported()

    def test_it_is_the_same_where_each_write_takes_one_byte(self):
        library = refuse_memory.library_in(self.folder, CUTS)
        self.are_reported(os.environ | {"LD_PRELOAD": library})

    @unittest.skipUnless(shutil.which("unshare"), "there is no unshare")
    def test_files_with_one_number_on_two_devices_are_two(self):
        for name in ("one", "other"):
            os.mkdir(self.path(name))
        words = ["unshare", "--map-root-user", "--mount", "sh", "-c", TWO_DEVICES, PROGRAM]
        run = subprocess.run(words, cwd=self.folder, capture_output=True, text=True, timeout=PATIENCE)
        if run.returncode == 77 or run.stderr.startswith("unshare: "):
            self.skipTest("no file system can be made here")
        self.assertEqual((run.returncode, run.stdout, run.stderr), (0, TABLES + TRACE, ""))

    def test_standard_output_that_takes_nothing_is_reported(self):
        for row, words, status, line in rows_of(NO_OUTPUT):
            with self.subTest(row), open("/dev/full", "w") as full:
                run = self.ended(words, stdout=full)
                self.assertEqual((run.returncode, run.stderr), (status, line))
            with self.subTest(row + " (nobody reads)"):
                reading, writing = os.pipe()
                os.close(reading)
                run = self.ended(words, stdout=writing)
                os.close(writing)
                self.assertEqual((run.returncode, run.stderr), (status, line))

    def test_where_error_output_takes_nothing_no_more_is_said(self):
        for row, words, status, _ in rows_of(NO_ERRORS):
            with self.subTest(row), open("/dev/full", "w") as full:
                run = self.ended(words, stderr=full)
                self.assertEqual((run.returncode, run.stdout), (status, TABLES if status == 0 else ""))


if __name__ == "__main__":
    unittest.main()
