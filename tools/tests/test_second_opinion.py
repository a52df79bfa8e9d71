"""Tests of afdx second-opinion. Those of the class WithTheProgram need the built program, at crates/afdxsim/out/afdxsim, where
`rt ci` leaves it."""
import contextlib
import glob
import io
import os
import subprocess
import tempfile
import unittest

from afdx import model
from afdx.files import toml_lines
from afdx.runs import second_opinion
from afdx.runs.measured_hops import Measured
from afdx.runs.plain_simulator import Frame, Simulation
from gate import threaded_runs
from tests.places import EXAMPLES, tool_words
from tests.row_files import blocks, lines_of
from tests.row_files import changed as changed_by



def read(path):
    with open(path, encoding="utf-8") as file:
        return file.read()


N1 = read(os.path.join(EXAMPLES, "n1.toml"))


def changed(*changes):
    """The smallest example with some changes, each of a piece for another."""
    text = N1
    for old, new in changes:
        assert old in text
        text = text.replace(old, new, 1)
    return text


def tables_of(text):
    simulation = Simulation(toml_lines.read(text))
    simulation.run()
    return list(simulation.tables())[1:]


def called(*words):
    """The status of afdx second-opinion with these words, and what it says on both streams."""
    out, said = io.StringIO(), io.StringIO()
    with contextlib.redirect_stdout(out), contextlib.redirect_stderr(said):
        try:
            status = second_opinion.main(list(words))
        except SystemExit as ended:
            status = ended.code
    return status, out.getvalue(), said.getvalue()


class Rules(unittest.TestCase):
    """What was worked out by hand of the rules in docs/TRAFFIC.md."""

    def regulator(self, sub, depth, offers):
        """The regulator of the smallest example after offers of a moment and a sub-virtual link, with what it sent and
        released since."""
        simulation = Simulation(toml_lines.read(changed(("depth = 16", f"depth = {depth}\nsub = {sub}"))))
        simulation.heap.clear()
        printed = []
        simulation.send = lambda time, _sender, _to, variant, _fields: printed.append((variant, time))
        simulation.copies = lambda time, _at, _vl, out: printed.append(("released", out.number, out.offered))
        simulation.lose = lambda time, _at, _frame, cause: printed.append((cause, time))
        for moment, q in offers:
            simulation.offer(moment, 0, 1, 64, q)
        return simulation, printed

    def test_sub_virtual_links_take_turns(self):
        simulation, printed = self.regulator(2, 2, [(0, 0), (10, 1), (20, 0), (30, 0), (40, 0)])
        self.assertEqual(printed, [("released", 0, 0), ("Release", 10**6), ("queue_full", 40)])
        printed.clear()
        for moment in (10**6, 2 * 10**6, 3 * 10**6):
            simulation.next_served(moment, 0, 1)
        # The frame of 10 is served next, then that of 20, and behind them that of 30, after which none waits.
        released = [("Release", 2 * 10**6), ("released", 1, 10), ("Release", 3 * 10**6), ("released", 2, 20)]
        self.assertEqual(printed, [*released, ("released", 3, 30)])
        self.assertEqual(simulation.regulators[1].pointer, 1)

    def test_an_offer_beyond_the_sub_virtual_links_is_lost_before_any_rule(self):
        simulation, printed = self.regulator(2, 2, [(0, 2)])
        self.assertEqual(printed, [("queue_full", 0)])
        self.assertEqual(simulation.regulators[1].last, None)

    def test_sub_virtual_links_do_not_move_what_is_released_in_the_same_order(self):
        more = [("period_ns = 1000000000000", "period_ns = 400000"), ("until_ns = 2000000", "until_ns = 1100000")]
        wanted = ["latency,1,ES2,,2,27720,627720,655440"]
        for change in ([], [("depth = 16", "depth = 16\nsub = 2")], [("depth = 16", "depth = 16\nsub = 4")]):
            self.assertEqual(tables_of(changed(*more, *change)), wanted)

    def account(self, policing, moments):
        """Which frames of 64 bytes pass the account of the switch, with Smax 100 and no jitter, and the level then."""
        text = changed(("smax = 64", "smax = 100"), ("skew_max_ns", f'policing = "{policing}"\nskew_max_ns'))
        simulation = Simulation(toml_lines.read(text))
        simulation.heap.clear()
        found = []
        for moment in moments:
            simulation.rows.clear()
            simulation.at_switch(moment, 2, "Arrive", (0, Frame(1, 0, 64, 0, 0, "A")))
            found.append((not simulation.rows, simulation.accounts[1, 2][0]))
        return found

    def test_policing_by_frames_and_by_bytes(self):
        self.assertEqual(self.account("frames", [0, 640000, 10**6]), [(True, 0), (False, 64 * 10**6), (True, 0)])
        self.assertEqual(self.account("bytes", [0, 280000]), [(True, 36 * 10**6), (True, 0)])

    def test_moments_up_to_the_latest_end(self):
        end = ("until_ns = 2000000", "until_ns = 1000000000000000")
        for offset, line in ((999999999972280, "1,27720,27720,27720"), (999999999972281, "0,0,0,0")):
            found = tables_of(changed(end, ("offset_ns = 0", f"offset_ns = {offset}")))
            self.assertEqual(found, ["latency,1,ES2,," + line])

    def test_the_tables_of_the_examples(self):
        for path in glob.glob(os.path.join(EXAMPLES, "*.toml")):
            with self.subTest(path):
                self.assertEqual(called(path), (0, read(path.replace(".toml", ".tables.csv")), ""))


class Rows(unittest.TestCase):
    """Rows of whole runs, which the program is tried on too."""

    def is_answered(self, text, said):
        """The line of `check`, or the lines of the tables and, where they are there, of the trace."""
        if said.startswith("ok"):
            net = model.Network("net.toml", text)
            offers = sum(model.count_of_offers(net.seed, it, net.until_ns) for vl in net.vls.values() for it in vl.streams)
            self.assertEqual(f"ok: {len(net.process)} processes, {len(net.vls)} virtual links, {offers} offers", said)
            return
        simulation = Simulation(toml_lines.read(text))
        simulation.run()
        tables, is_traced, trace = said.replace(" ", "").partition("trace")
        for is_there, found, wanted in ((True, simulation.tables(), tables), (is_traced, simulation.trace(), trace)):
            if is_there:
                self.assertEqual("".join(line + "\n" for line in list(found)[1:]), lines_of(wanted))

    def test_rows_of_runs(self):
        for name in ("tables", "stream_tables", "gigabit_tables"):
            for row in blocks(name):
                with self.subTest(row):
                    self.is_answered(*changed_by(row))


class OnTheWay(unittest.TestCase):
    """What --hops measures."""

    def measured(self, text):
        simulation = Measured(toml_lines.read(text))
        simulation.run()
        return list(simulation.hops())[1:]

    def test_the_smallest_example(self):
        wanted = """wait,1,ES1,1,0,0,0
network,1,ES2,1,27720,27720,27720
network_a,1,ES2,1,27720,27720,27720
delay,1,ES1>SW1,1,5760,5760,5760
delay,1,SW1>ES2,1,5760,5760,5760
jitter,1,SW1,1,0,0,0
backlog,,ES1>SW1,1,0,0,0
backlog,,SW1>ES2,1,0,0,0
"""
        self.assertEqual(self.measured(N1), wanted.splitlines())

    def test_the_wait_in_the_regulator_is_no_part_of_the_network(self):
        more = [("period_ns = 1000000000000", "period_ns = 400000"), ("until_ns = 2000000", "until_ns = 1100000")]
        found = self.measured(changed(*more))
        self.assertEqual(found[:2], ["wait,1,ES1,2,0,600000,600000", "network,1,ES2,2,27720,27720,55440"])

    def test_a_message_counts_as_whole(self):
        """Three frames at once leave a BAG apart; the last one is late by two. With room for one that waits, the third one is lost."""
        for depth, lines in ((16, ["message,1,ES2,1,2027720,2027720,2027720"]), (1, [])):
            found = self.measured(changed(("until_ns = 2000000", "until_ns = 3000000"), ("depth = 16", f"depth = {depth}\nframes = 3")))
            self.assertEqual([line for line in found if line.startswith("message")], lines)

    def test_frames_that_wait_for_each_other(self):
        """Twenty of 64 bytes are offered at once: the last one waits for nineteen."""
        found = self.measured(read(os.path.join(EXAMPLES, "n2.toml")))
        for i in range(1, 21):
            delay = 5760 + 6720 * (i - 1)
            for line in (f"delay,{i},ES1>SWA,1,{delay},{delay},{delay}", f"delay,{i},SWA>ES2,1,5760,5760,5760", f"skew,{i},ES2,1,0,0,0"):
                self.assertIn(line, found)
        self.assertIn(f"backlog,,ES1>SWA,20,0,{19 * 64},{sum(range(20)) * 64}", found)

    def test_jitter_at_a_switch(self):
        """Each frame 0.1 ms closer than a BAG of 1 ms, and then one that is late."""
        simulation = Measured(toml_lines.read(N1))
        for moment in (0, 900_000, 1_800_000, 3_800_000, 4_799_999):
            simulation.comes_closer(moment, 2, 1)
        found = simulation.found["jitter", 1, 2]
        self.assertEqual((found.count, found.least, found.greatest, found.total), (5, 0, 200_000, 300_001))

    def test_wait_and_network_are_the_latency(self):
        """Of each destination where all frames came, in sum. And by one network or the other."""
        for name in ("cockpit", "maintenance"):
            path = os.path.join(EXAMPLES, name + ".toml")
            tables, found = model.Tables(path.replace(".toml", ".tables.csv"), model.Network(path)), {}
            for line in self.measured(read(path)):
                kind, vl, where, *numbers = line.split(",")
                found[kind, vl and int(vl), where] = list(map(int, numbers))
            compared = 0
            for row in tables.latencies.values():
                wait = found["wait", row.vl, tables.net.vls[row.vl].source]
                network = found["network", row.vl, row.where]
                self.assertEqual(network[0], row.count)
                if wait[0] == row.count:
                    compared += 1
                    self.assertEqual(wait[3] + network[3], row.total)
                    self.assertLessEqual(row.greatest, wait[2] + network[2])
                least = min(found[kind, row.vl, row.where][1] for kind in ("network_a", "network_b") if (kind, row.vl, row.where) in found)
                self.assertEqual(least, network[1])
            self.assertGreater(compared, 0)


class Words(unittest.TestCase):
    def setUp(self):
        folder = tempfile.TemporaryDirectory()
        self.addCleanup(folder.cleanup)
        self.folder = folder.name

    def file(self, text):
        path = os.path.join(self.folder, "net.toml")
        with open(path, "w", encoding="utf-8") as out:
            out.write(text)
        return path

    def test_the_trace(self):
        trace = os.path.join(self.folder, "trace.csv")
        path = self.file(N1)
        self.assertEqual(called(path, "--trace", trace)[0], 0)
        self.assertEqual(read(trace), "time_ns,where,vl,what,value\n27720,ES2,1,delivered,27720\n")
        status, out, said = called(path, "--trace", path)
        self.assertEqual((status, out, read(path)), (2, "", N1))
        self.assertIn(f"{path}: would be written over what was read as {path}", said)

    def test_hops(self):
        hops = os.path.join(self.folder, "hops.csv")
        path = self.file(N1)
        status, out, said = called(path, "--hops", hops)
        self.assertEqual((status, out, said), (0, called(path)[1], ""))
        self.assertTrue(read(hops).startswith("kind,vl,where,count,least,greatest,sum\nwait,1,ES1,1,0,0,0\n"))
        self.assertEqual((called(path, "--hops", path)[0], read(path)), (2, N1))

    def test_plain_errors(self):
        none = os.path.join(self.folder, "none")
        self.assertEqual(called(none), (2, "", f"afdx second-opinion: {none}: cannot be read: No such file or directory\n"))
        for text, said in (
            (changed(("bag_ms = 1", "bag_ms = 3")), "line 32: is refused: 4 OutOfLimit at vl 1 bag_ms; is 3, and must be "),
            (changed(("size = 64\n", "")), "line 30: is refused: 2 Missing at vl 1 size; is missing: "),
            ("until_ns =\n", "line 1: is refused: 1 Syntax; there is "),
            (changed(('b = "ES2"', 'b = "ES3"')), "line 26: is refused: 5 UnknownName at link 2 b; ES3 is no node; ES2?"),
        ):
            path = self.file(text)
            status, out, printed = called(path)
            self.assertEqual((status, out), (2, ""))
            self.assertTrue(printed.startswith(f"afdx second-opinion: {path} {said}"), printed)

    def test_more_offers_than_it_takes(self):
        path = self.file(changed(("until_ns = 2000000", f"until_ns = {10**15}"), (f"period_ns = {10**12}", "period_ns = 1000")))
        printed = f"{path} line 1: {10**12 + 1:,} frames would be offered until the end, and this simulator takes 20,000,000"
        self.assertEqual(called(path), (2, "", f"afdx second-opinion: {printed}\n"))

    def test_a_trace_that_cannot_be_written(self):
        status, out, printed = called(self.file(N1), "--trace", self.folder)
        self.assertEqual((status, out), (2, ""))
        self.assertEqual(printed, f"afdx second-opinion: {self.folder}: cannot be written: Is a directory\n")

    def test_help(self):
        run = subprocess.run(
            [*tool_words("second-opinion"), "--help"], capture_output=True, text=True
        )
        self.assertEqual((run.returncode, run.stderr), (0, ""))
        for word in ("--trace", "--hops", "--events", "examples:", "status:"):
            self.assertIn(word, run.stdout)

    def test_a_standard_output_that_is_full(self):
        with open("/dev/full", "w") as full:
            command = [*tool_words("second-opinion"), self.file(N1)]
            run = subprocess.run(command, stdout=full, stderr=subprocess.PIPE, text=True)
        printed = "afdx second-opinion: standard output: cannot be written: No space left on device\n"
        self.assertEqual((run.returncode, run.stderr), (2, printed))


class WithTheProgram(unittest.TestCase):
    def test_the_program_prints_the_tables_of_the_examples(self):
        for path in glob.glob(os.path.join(EXAMPLES, "*.toml")):
            with self.subTest(path):
                run = subprocess.run([model.PROGRAM, "seq", path], capture_output=True, text=True)
                self.assertEqual((run.stdout, run.returncode), (read(path.replace(".toml", ".tables.csv")), 0))

    def test_drawn_networks(self):
        """Forty networks, by hand a thousand: threaded_runs.py --second-opinion."""
        out = io.StringIO()
        with contextlib.redirect_stdout(out):
            status = threaded_runs.main(["--second-opinion", "--runs", "40"])
        self.assertEqual((status, out.getvalue()), (0, "40 runs, 40 came out as the second opinion, 0 did not\n"))


if __name__ == "__main__":
    unittest.main()
