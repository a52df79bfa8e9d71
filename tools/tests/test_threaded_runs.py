"""Tests of threaded_runs.py, with a stand-in for the program that differs if the test asks for it."""
import contextlib
import io
import os
import re
import sys
import tempfile
import unittest
import zlib
from unittest import mock

from afdx import model
from afdx.commands import benchmark, large_network, make_journal
from afdx.files import toml_lines
from afdx.model import description_faults
from afdx.runs.plain_simulator import Simulation
from gate import replayed_journal, stolen_groups, stopped_threads, threaded_runs
from tests.places import PATIENCE, TOOLS

# A program whose commands all print the same tables, and do these lines of a test's own before.
STAND_IN = """#!{python}
import sys
command = sys.argv[1]
tables, trace, said = "tables\\n", "trace\\n", "replay: 3 did, 0 not enabled, 0 refused, gvt 9, finished\\n"
journal, groups = "R 0\\nR 0\\nC 0\\n", "afdxsim: 2 groups, 2 workers\\n"
{lines}
for flag, text in (("--trace", trace), ("--journal", journal)):
    if flag in sys.argv:
        with open(sys.argv[sys.argv.index(flag) + 1], "w") as out:
            out.write(text)
sys.stdout.write(tables)
if command == "replay":
    sys.stderr.write(said)
if "--progress" in sys.argv:
    sys.stderr.write(groups)
"""

# A run by two threads, neither of which needs the other.
WORKS = """
if command == "run":
    import threading
    workers = [threading.Thread(target=lambda: None) for _ in range(2)]
    for worker in workers:
        worker.start()
    for worker in workers:
        worker.join()
"""


class DrawnRuns(unittest.TestCase):
    """Drawn runs of the built program, which `rt ci` leaves at crates/afdxsim/out/afdxsim."""

    def test_runs_by_workers_come_out_as_those_of_one_thread(self):
        if not os.path.isfile(model.PROGRAM):
            self.fail(f"there is no program at {model.PROGRAM}: `rt ci` at the top builds it")
        # What no run of 60 did, as on a machine that is busy with other work, is looked for in further ones.
        for first in range(0, 5 * 60, 60):
            said = io.StringIO()
            with contextlib.redirect_stdout(said):
                status = threaded_runs.main(["--runs", "60", "--first", str(first), "--seconds", str(PATIENCE)])
            sys.stderr.write(said.getvalue())
            if status == 0 or "60 came out as seq" not in said.getvalue():
                break
        self.assertEqual(status, 0, said.getvalue())


class JudgedJournals(unittest.TestCase):
    """What a second opinion of a journal finds."""

    def setUp(self):
        self.net = toml_lines.read(threaded_runs.Drawn(13).network)

    def test_a_message_beyond_the_window_is_found(self):
        """A journal whose messages are handled up to 100 us ahead is one of a run with that window, and none of a run with 10 us."""
        steps = list(make_journal.Journal(self.net).steps(16, 100_000))
        self.assertEqual(list(replayed_journal.faults(self.net, steps, 100_000)), [])
        found = list(replayed_journal.faults(self.net, steps, 10_000))
        self.assertTrue(found)
        for fault in found:
            moment, gvt = map(int, re.search(r"^line \d+, R \d+: a message of (\d+) ns is handled at GVT (\d+) ns, so beyond the window of 10000 ns$", fault).groups())
            self.assertTrue(10_000 <= moment - gvt < 100_000, fault)

    def test_what_is_no_run_is_found(self):
        for steps, said in (
            (["G", "R 0"], "line 2, R 0: the step is not enabled"),
            (["T 0 10000"], "line 1, T 0 10000: the step is not enabled"),
            (["A 0"], "line 1, A 0: the step is not enabled"),
            (["C 0"], "line 1, C 0: the step is not enabled"),
            (["G", "P 0"], "the journal ends before all is committed"),
        ):
            self.assertEqual(list(replayed_journal.faults(self.net, steps, 1)), [said])

    def test_an_event_that_was_too_early_is_undone(self):
        """A process handles its last offer first. The one before it arrives, and undoes it; both are handled, and the journal goes on."""
        world = replayed_journal.World(self.net)
        at = next(process for process, letters in enumerate(world.mail) if len(letters) > 1)
        last = len(world.mail[at]) - 1
        for step in (["T", at, last], ["A", at], ["R", at]):
            world.take(step[0], step[1:])
        process = world.processes[at]
        (event,), sent = process.done, list(process.outbox)
        before = process.actor.state()
        for step in (["T", at, 0], ["A", at]):
            world.take(step[0], step[1:])
        self.assertEqual((list(process.done), process.next()), ([], min(process.waiting)))
        self.assertEqual(process.outbox, sent + [(-1, message) for _, message in reversed(sent)])
        self.assertNotEqual(before, event.before)
        self.assertEqual(process.actor.state(), event.before)


class ThreadedRuns(unittest.TestCase):
    # What the second opinion of a journal finds.
    of_journal: tuple[str, ...] = ()

    def ended(self, lines, *arguments):
        """The status and the lines of the tool, over a stand-in with these lines."""
        with tempfile.TemporaryDirectory() as folder:
            program = os.path.join(folder, "program")
            with open(program, "w") as out:
                out.write(STAND_IN.format(python=sys.executable, lines=lines))
            os.chmod(program, 0o755)
            out = io.StringIO()
            # The journal of the stand-in is none of the network.
            with contextlib.redirect_stdout(out), mock.patch.object(replayed_journal, "faults", lambda *_: self.of_journal):
                status = threaded_runs.main(["--program", program, *arguments])
            return status, out.getvalue().splitlines()

    def test_runs_like_those_of_seq_are_counted(self):
        for lines, several, rolled_back in (("", 4, 3), ("groups = groups.replace('2 g', '1 g')", 0, 3), ("journal = 'R 0\\nC 0\\n'", 4, 0)):
            status, found = self.ended(lines, "--runs", "4")
            self.assertEqual((status, found), (0, [
                "4 runs, 4 came out as seq, 0 did not",
                f"of these {several} over several groups of several members, {rolled_back} rolled back, "
                "0 served the groups of a worker that stood still, 0 were followed, of which 0 stole a group",
            ]))

    @unittest.skipUnless(stopped_threads.is_allowed(), "this system does not allow ptrace")
    def test_it_fails_where_no_run_did_what_is_counted(self):
        for lines, did in (
            (WORKS, (1, 1, 1)), ("", (1, 1, 0)), (WORKS + "journal = 'R 0\\nC 0\\n'", (1, 0, 1)),
            (WORKS + "groups = groups.replace('2 g', '1 g')", (0, 1, 1)),
        ):
            for enough in (1, 2):
                with self.subTest(lines=lines, enough=enough), mock.patch.object(threaded_runs, "ENOUGH_RUNS", enough):
                    status, found = self.ended(lines, "--runs", "1", "--first", "5")
                    self.assertEqual(tuple(map(int, re.findall(r"\d+", found[1]))), (*did, 0, 0))
                    self.assertEqual(status, 0 if all(did) or enough > 1 else 1)

    def test_stolen_groups_are_counted(self):
        """Of enough runs that are followed one steals at least; of a program of another form nothing is known."""
        tables = b"tables\n"
        for outcome, enough, wanted in (
            (stolen_groups.Outcome(0, tables, b"", True), 1, (0, (1, 1))),
            (stolen_groups.Outcome(0, tables, b"", False), 1, (1, (1, 0))),
            (stolen_groups.Outcome(0, tables, b"", False), 2, (0, (1, 0))),
            (stolen_groups.Outcome(0, b"others", b"", True), 2, (1, (0, 0))),
            (stolen_groups.Outcome(5, tables, b"afdxsim: out of memory", True), 2, (1, (0, 0))),
            (stolen_groups.NoPlace(), 1, (0, (0, 0))),
        ):
            followed = mock.Mock(side_effect=outcome) if isinstance(outcome, Exception) else mock.Mock(return_value=outcome)
            with self.subTest(outcome=outcome), mock.patch.object(stolen_groups, "followed", followed):
                with mock.patch.object(threaded_runs, "ENOUGH_FOLLOWED", enough):
                    status, found = self.ended("", "--runs", "1", "--first", "9")
                counts = next(line for line in found if line.startswith("of these"))
                self.assertEqual((status, tuple(map(int, re.findall(r"\d+", counts)))[-2:]), wanted, found)
                self.assertEqual(any("it is not known whether a group was stolen" in line for line in found), isinstance(outcome, Exception))

    def test_each_difference_is_reported(self):
        for lines, said in (
            ("if command == 'run': tables = 'others'", "the tables of run differ from those of seq"),
            ("if command == 'run': trace = 'others'", "the rows of run's trace differ from those of seq"),
            ("if command == 'run' and '--trace' not in sys.argv: tables = ''", "the tables of run alone differ from those of seq"),
            ("if command == 'replay': tables = ''", "the tables of replay differ from those of seq"),
            ("said = said.replace('finished', 'unfinished')", "replay printed: replay: 3 did, 0 not enabled, 0 refused, gvt 9, unfinished"),
            ("said = said.replace('0 refused', '1 refused')", "replay printed: replay: 3 did, 0 not enabled, 1 refused, gvt 9, finished"),
            ("if command == 'run': sys.exit('afdxsim: torn')", "run ended with status 1: afdxsim: torn"),
            ("groups = ''", "run did not report its groups and workers"),
        ):
            with self.subTest(lines=lines):
                status, found = self.ended(lines, "--runs", "1")
                self.assertEqual((status, len(found)), (1, 3))
                self.assertTrue(found[0].startswith("run 0 (--workers ") and found[0].endswith("): " + said), found[0])
                self.assertEqual(found[1], "1 runs, 0 came out as seq, 1 did not")

    def test_a_fault_of_the_journal_is_reported(self):
        self.of_journal = ("line 7, R 3: a message of 9 ns is handled at GVT 1 ns",)
        status, found = self.ended("", "--runs", "1")
        self.assertEqual((status, found[0].split("): ")[1]), (1, "the journal: line 7, R 3: a message of 9 ns is handled at GVT 1 ns"))

    def test_a_command_that_does_not_end_is_reported(self):
        with self.assertRaises(threaded_runs.Difference) as said:
            threaded_runs.ended("/bin/sleep", ["60"], TOOLS, 0.1)
        self.assertEqual(str(said.exception), "60 took longer than 0.1 seconds")

    def test_a_run_can_be_made_again(self):
        for number in range(20):
            with self.subTest(number=number):
                one, two = threaded_runs.Drawn(number), threaded_runs.Drawn(number)
                self.assertEqual((one.network, one.pace()), (two.network, two.pace()))

    def test_what_is_drawn_is_within_its_limits(self):
        drawn = [threaded_runs.Drawn(number) for number in range(200)]
        for name, most in (("workers", 64), ("turn", 256), ("window", 10**15)):
            found = [getattr(one, name) for one in drawn]
            self.assertTrue(all(1 <= value <= most for value in found))
            self.assertTrue(min(found) <= most**0.25 and max(found) > most / 4)

    def test_networks_are_accepted_and_have_what_is_reported(self):
        """Sub-virtual links and sorts of policing of each sort and none, moments at both ends, and frames that wait and
        are lost."""
        nets = [toml_lines.read(threaded_runs.Drawn(number).network) for number in range(100)]
        for number, net in enumerate(nets):
            fault = description_faults.first_fault("net.toml", threaded_runs.Drawn(number).network)
            self.assertIsNone(fault, number)
        vls = [vl for net in nets for vl in net["vl"]]
        self.assertEqual({vl.get("sub") for vl in vls}, {None, 1, 2, 3, 4})
        self.assertEqual({vl.get("policing") for vl in vls}, {None, "bytes", "frames"})
        self.assertEqual({net["until_ns"] > 10**14 for net in nets}, {True, False})
        self.assertTrue(any(10**15 - 10**7 < vl["offset_ns"] for vl in vls) and any(vl["offset_ns"] == 0 for vl in vls))
        causes = set()
        for net in nets[:40]:
            simulation = Simulation(net)
            simulation.run()
            causes |= {what for _, _, _, what, _ in simulation.rows}
        self.assertEqual(causes, {"delivered", *model.CAUSES} - {"unknown"})

    def test_large_networks_are_the_same_in_every_edition(self):
        """What is drawn for new keys moves nothing where they are not asked for."""
        words, _, known = benchmark.SIZES["small"]
        pieces = []
        large_network.write_network(large_network.words_of(words), pieces.append, lambda _: None)
        self.assertEqual(zlib.crc32("".join(pieces).encode()), known)

    def test_the_second_opinion_is_held_against_seq(self):
        status, lines = self.ended("", "--runs", "1", "--second-opinion")
        self.assertEqual((status, lines[1]), (1, "1 runs, 0 came out as the second opinion, 1 did not"))
        self.assertTrue(lines[0].endswith("the tables of the second opinion differ from those of seq"), lines[0])
        simulation = Simulation(toml_lines.read(threaded_runs.Drawn(0).network))
        simulation.run()
        tables, trace = ("".join(line + "\n" for line in lines) for lines in (simulation.tables(), simulation.trace()))
        for trace, said in ((trace, ()), ("other", ("the rows of the second opinion's trace differ from those of seq",))):
            status, lines = self.ended(f"tables, trace = {tables!r}, {trace!r}", "--runs", "1", "--second-opinion")
            self.assertEqual((status, tuple(line.split("): ")[1] for line in lines[:-1])), (len(said), said))


if __name__ == "__main__":
    unittest.main()
