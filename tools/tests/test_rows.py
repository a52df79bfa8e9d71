"""Rows of whole runs of the program, in tools/tests/rows: descriptions, words, journals, tables and traces, runs by workers, and files
and streams that take a byte a write and then fail. What is expected was worked out by hand. They need the built program, at
crates/afdxsim/out/afdxsim, where `rt ci` leaves it, and a C compiler for the few lines of C that cut each write or set the clock."""
import os
import pty
import subprocess
import tempfile
import tty
import unittest
from typing import NamedTuple

from afdx.model import PROGRAM, TABLES_HEAD, TRACE_HEAD
from gate.refuse_memory import library_in
from tests.places import PATIENCE, read_terminal
from tests.row_files import blocks, changed, lines_of, network, repeated, rows

# Each write to a file or a stream takes one byte, until as many are taken as TAKEN says. The next one fails; where ONCE is set,
# that one alone.
CUTS = r"""
extern long syscall(long, ...);
extern char *getenv(const char *);
extern long strtol(const char *, char **, int);
extern int *__errno_location(void);

static long taken[64];

long write(int file, const void *bytes, unsigned long count) {
    long most = strtol(getenv("TAKEN"), 0, 10), now = file < 64 && count ? __atomic_add_fetch(&taken[file], 1, __ATOMIC_RELAXED) : 0;
    if (getenv("ONCE") ? now == most + 1 : now > most) {
        *__errno_location() = 28;
        return -1;
    }
    return syscall(1, (long) file, bytes, count ? 1l : 0l);
}

long __write(int file, const void *bytes, unsigned long count) { return write(file, bytes, count); }
"""

# The clock of a program: it goes on by MS each time it is read.
CLOCK = r"""
extern char *getenv(const char *);
extern long strtol(const char *, char **, int);

static long now;

int clock_gettime(int clock, long time[2]) {
    long ms = __atomic_add_fetch(&now, strtol(getenv("MS"), 0, 10), __ATOMIC_RELAXED);
    time[0] = ms / 1000;
    time[1] = ms % 1000 * 1000000;
    return 0;
}
"""


BOUNDS_HEAD = "kind,of,where,network_ns,wait_ns,bound_ns,least_ns,jitter_ns,skew_ns,sure,sure_ns"


class Ended(NamedTuple):
    """How words end: the status, both streams, and the files that are left, each None if there is none."""

    status: int
    output: bytes
    errors: bytes
    trace: bytes | None
    journal: bytes | None


# The words behind those that set the pace of a run, which ask for files.
FILES = ("", " --trace trace.csv", " --journal journal.txt", " --journal journal.txt --trace trace.csv")


class Ends(unittest.TestCase):
    """Runs the program in a folder of its own."""

    @classmethod
    def setUpClass(cls):
        if not os.path.isfile(PROGRAM):
            raise AssertionError(f"there is no program at {PROGRAM}: `rt ci` at the top builds it")
        folder = tempfile.TemporaryDirectory()
        cls.addClassCleanup(folder.cleanup)
        cls.folder = folder.name

    def path(self, name):
        return os.path.join(self.folder, name)

    def file(self, name):
        """The bytes of a file, or None where it is not there."""
        try:
            with open(self.path(name), "rb") as file:
                return file.read()
        except FileNotFoundError:
            return None

    def put(self, name, text):
        with open(self.path(name), "wb") as file:
            file.write(text if isinstance(text, bytes) else text.encode("utf-8"))

    def ended(self, words, net=None, steps=None, env=None, errors=subprocess.PIPE):
        """How these words end, where `net.toml` and `steps.txt` have these texts."""
        for name, text in (("net.toml", net), ("steps.txt", steps), ("trace.csv", None), ("journal.txt", None)):
            if text is not None:
                self.put(name, text)
            elif os.path.exists(self.path(name)):
                os.unlink(self.path(name))
        words = [] if words == "(none)" else ["" if word == "''" else word for word in words.split(" ")]
        run = subprocess.run(
            [PROGRAM, *words],
            cwd=self.folder,
            env=os.environ | env if env else None,
            stdin=subprocess.DEVNULL,
            stdout=subprocess.PIPE,
            stderr=errors,
            timeout=PATIENCE,
        )
        return Ended(run.returncode, run.stdout, run.stderr, self.file("trace.csv"), self.file("journal.txt"))

    def says(self, found, status, output, errors):
        """It ended so, and this and no more is on both streams."""
        self.assertEqual((found.status, found.output.decode(), found.errors.decode()), (status, output, errors))


class Rows(Ends):
    def is_answered(self, net, said):
        """`check` prints this of a description, and `seq` refuses what `check` refuses."""
        if said.startswith("ok"):
            self.says(self.ended("check net.toml", net), 0, said + "\n", "")
            return
        for command in ("check", "seq"):
            self.says(self.ended(command + " net.toml", net), 3, "", f"afdxsim: description: {said}\n")

    def test_a_description_is_accepted_or_its_first_fault_is_printed(self):
        for row in rows("descriptions") + rows("stream_descriptions"):
            with self.subTest(row):
                self.is_answered(*changed(row))

    def test_each_beginning_of_a_description_is_answered(self):
        lines = [line for line in network("n1").splitlines(keepends=True) if line != "\n"]
        said = rows("beginnings")
        self.assertEqual(len(said), len(lines) + 1)
        for count, line in enumerate(said):
            with self.subTest(count):
                self.is_answered("".join(lines[:count]), line)
        net = "".join(lines)
        for end in range(len(net) + 1):
            status = self.ended("check net.toml", net[:end]).status
            self.assertTrue(status == 3 or status == 0 and end >= len("until_ns = 2000000\nseed = 4"), end)

    def test_a_file_that_is_no_text_is_a_fault_of_syntax(self):
        for command in ("check", "seq"):
            for net in (b"\xff", b"u\xff", b"until_ns = 1\rseed = 0\n"):
                self.says(self.ended(command + " net.toml", net), 3, "", "afdxsim: description: 1 Syntax\n")

    def has_all(self, text, pieces):
        for piece in pieces.split(" | "):
            self.assertIn(lines_of(piece), text.decode())

    def test_words_are_done_or_refused(self):
        for row in rows("words"):
            with self.subTest(row):
                name, words, status, pieces = row.split(" => ")
                found = self.ended(words, network(name))
                self.assertEqual(found.status, int(status))
                said, other = (found.output, found.errors) if status == "0" else (found.errors, found.output)
                self.assertEqual(other, b"")
                self.has_all(said, pieces)

    def test_progress_is_printed_on_error_output_alone(self):
        for row in rows("watched"):
            with self.subTest(row):
                name, words, output, errors = row.split(" => ")
                found = self.ended(words, network(name))
                self.assertEqual(found.status, 0)
                self.has_all(found.output, output)
                self.has_all(found.errors, errors)
                with open("/dev/full", "wb") as full:
                    deaf = self.ended(words, network(name), errors=full)
                self.assertEqual((deaf.status, deaf.output), (0, found.output))

    def test_a_run_is_checked_by_its_tables_and_its_trace(self):
        for row in blocks("tables") + blocks("stream_tables") + blocks("gigabit_tables"):
            with self.subTest(row):
                net, said = changed(row)
                if said.startswith("ok"):
                    self.is_answered(net, said)
                    continue
                tables, is_traced, trace = said.replace(" ", "").partition("trace")
                tables = f"{TABLES_HEAD}\n{lines_of(tables)}"
                self.says(self.ended("seq net.toml", net), 0, tables, "")
                found = self.ended("seq net.toml --trace trace.csv", net)
                self.says(found, 0, tables, "")
                if is_traced:
                    self.assertEqual(found.trace.decode(), f"{TRACE_HEAD}\n{lines_of(trace)}")

    def test_bounds_are_those_worked_out_by_hand(self):
        for row in blocks("bounds"):
            with self.subTest(row):
                net, said = changed(row)
                bounds = f"{BOUNDS_HEAD}\n{lines_of(said.replace(' ', ''))}"
                self.says(self.ended("bounds net.toml", net), 0, bounds, "")

    def test_bounds_by_contract_are_those_worked_out_by_hand(self):
        for row in blocks("contract"):
            with self.subTest(row):
                net, said = changed(row)
                bounds = f"{BOUNDS_HEAD}\n{lines_of(said.replace(' ', ''))}"
                self.says(self.ended("bounds net.toml --contract", net), 0, bounds, "")

    def test_a_journal_is_done_or_its_fault_is_printed(self):
        for row in rows("journals"):
            with self.subTest(row[:200]):
                begin, said = row.rsplit(" => ", 1)
                net, written = changed(begin)
                times, found, pieces = written.partition(" times ")
                times, pieces = (int(times), pieces) if found else (1, written)
                steps = "".join(map(repeated, pieces.split(" + "))) * times
                steps = steps.encode().decode("unicode_escape").encode("utf-8")
                found = self.ended("replay net.toml steps.txt", net, steps)
                line, is_done, tables = said.partition(";")
                if not is_done:
                    self.says(found, 5 if said == "out of memory" else 3, "", f"afdxsim: {said}\n")
                    continue
                if tables == "seq":
                    tables = self.ended("seq net.toml", net).output.decode()
                else:
                    tables = f"{TABLES_HEAD}\n{lines_of(tables)}"
                self.says(found, 0, tables, f"replay: {line}\n")

    def test_a_run_by_workers_is_that_of_one_thread(self):
        for row in rows("runs"):
            net, pace = changed(row)
            wanted = self.ended("seq net.toml --trace trace.csv", net)
            for files in FILES:
                with self.subTest(row + files):
                    found = self.ended(f"run net.toml {pace}{files}", net)
                    self.says(found, 0, wanted.output.decode(), "")
                    self.assertEqual(found.trace, wanted.trace if "--trace" in files else None)
                    self.assertEqual(found.journal is not None, "--journal" in files)
                    if found.journal is not None:
                        replayed = self.ended("replay net.toml steps.txt", net, found.journal)
                        self.assertEqual((replayed.status, replayed.output), (0, wanted.output))
                        self.assertIn(b" did, 0 not enabled, 0 refused, ", replayed.errors)
                        self.assertTrue(replayed.errors.endswith(b", finished\n"), replayed.errors)


class Cut(Ends):
    """Each file and stream takes so many bytes, one a write, and then fails."""

    @classmethod
    def setUpClass(cls):
        super().setUpClass()
        cls.library = library_in(cls.folder, CUTS)

    def cut(self, words, net, steps, taken, is_once=False):
        env = {"LD_PRELOAD": self.library, "TAKEN": str(taken)} | ({"ONCE": "1"} if is_once else {})
        return self.ended(words, net, steps, env)

    def test_what_was_written_before_a_failure_stays(self):
        for row in rows("devices"):
            name, words, said = row.split(" => ")
            status, _, line = said.partition(" ")
            net, steps = network(name), "G\n" if "replay" in words else None
            whole = self.ended(words, net, steps)
            with self.subTest(row):
                self.assertEqual(whole.status, int(status))
                if line:
                    self.says(whole, int(status), "", f"afdxsim: {line}\n")
                trace = whole.trace or b""
                for taken in range(max(map(len, (whole.output, whole.errors, trace))) + 1):
                    self.is_cut(whole, trace, self.cut(words, net, steps, taken), taken)

    def is_cut(self, whole, trace, cut, taken):
        """This is left. The trace is written first, and nothing behind a failure but its line."""
        if taken < len(trace):
            wanted = (4, b"", b"afdxsim: cannot write trace.csv\n")
        elif taken < len(whole.output):
            wanted = (4, whole.output, b"afdxsim: cannot write\n")
        else:
            wanted = (whole.status, whole.output, whole.errors)
        status, output, errors = wanted
        self.assertEqual((cut.status, cut.output, cut.errors), (status, output[:taken], errors[:taken]))
        self.assertEqual(cut.trace or b"", trace[:taken])

    def test_a_run_writes_nothing_behind_a_write_that_fails(self):
        for name, journal in (("n2", ""), ("n1", " --journal journal.txt")):
            net = network(name)
            trace = self.ended("seq net.toml --trace trace.csv", net).trace
            for taken in range(len(trace)):
                words = "run net.toml --workers 2 --trace trace.csv" + journal
                found = self.cut(words, net, None, taken, is_once=True)
                self.assertEqual((found.status, found.output, found.trace, found.journal), (4, b"", trace[:taken], None))

    def test_nothing_is_printed_where_error_output_fails(self):
        with open("/dev/full", "wb") as full:
            found = self.ended("replay net.toml steps.txt", network("n1"), "G\n", errors=full)
            self.assertEqual((found.status, found.output), (0, self.ended("replay net.toml steps.txt", network("n1"), "G\n").output))
            self.assertEqual(self.ended("check net.toml", "", errors=full).status, 3)


class Paced(Ends):
    """What is printed on the way of a run, by a clock of the test."""

    @classmethod
    def setUpClass(cls):
        super().setUpClass()
        cls.library = library_in(cls.folder, CLOCK)

    def ended_at_a_terminal(self, words, net, env):
        master, slave = pty.openpty()
        try:
            tty.setraw(slave)
            found = self.ended(words, net, env=env, errors=slave)
        finally:
            os.close(slave)
        return found._replace(errors=read_terminal(master))

    def test_progress_shows_how_fast_a_run_is(self):
        for row in rows("paced"):
            with self.subTest(row):
                ms, is_terminal, row = row.split(" => ", 2)
                net, said = changed(row)
                ended = self.ended_at_a_terminal if is_terminal == "yes" else self.ended
                found = ended("seq net.toml --progress", net, env={"LD_PRELOAD": self.library, "MS": ms})
                self.assertEqual((found.status, found.errors.decode()), (0, lines_of(said).replace("^", "\x1b[1A\x1b[2K")))


if __name__ == "__main__":
    unittest.main()
