"""Tests of afdx campaign. Those of the class WithTheProgram need the built program, at crates/afdxsim/out/afdxsim, where
`rt ci` leaves it; the others have a stand-in of a few lines, which fails if the test asks for it."""
import contextlib
import csv
import hashlib
import io
import json
import os
import pty
import re
import signal
import subprocess
import sys
import tempfile
import time
import tomllib
import unittest
from unittest import mock

from afdx import model
from afdx.commands import campaign, report
from afdx.reckon import latency_counts
from afdx.runs.merged import Merged
from afdx.runs.plain_simulator import CAUSES, Simulation
from tests.places import EXAMPLES, PATIENCE, TOOLS, read_terminal, tool_words

COCKPIT, SATURATED, FAILING, N1 = (
    os.path.join(EXAMPLES, name + ".toml") for name in ("cockpit", "saturated_port", "link_outage", "n1")
)

# A program that prints what the plain simulator finds, after lines of a test's own.
STAND_IN = """#!{python}
import os, signal, sys, time, tomllib
from afdx.runs.plain_simulator import Simulation
if sys.argv[1] == "--version":
    sys.exit(print("afdxsim stand-in 1"))
with open(sys.argv[2], "rb") as file:
    net = tomllib.load(file)
seed = net["seed"]
if sys.argv[1] == "check":
    sys.exit(0)
{lines}
simulation = Simulation(net)
simulation.run()
if sys.argv[3:4] == ["--trace"]:
    with open(sys.argv[4], "w") as out:
        print(*simulation.trace(), sep="\\n", file=out)
print("\\n".join(simulation.tables()))
"""


def pcg32(seed, stream, count):
    """The first words of PCG XSH RR 64/32, as pcg32_srandom_r and pcg32_random_r of its author's C library make them."""
    state, increment, found = 0, stream << 1 | 1, []

    def step():
        nonlocal state
        before, state = state, (state * 6364136223846793005 + increment) % 2**64
        shifted, rotation = ((before >> 18) ^ before) >> 27 & 0xFFFFFFFF, before >> 59
        return (shifted >> rotation | shifted << (-rotation & 31)) & 0xFFFFFFFF

    step()
    state = (state + seed) % 2**64
    step()
    for _ in range(count):
        found.append(step())
    return found


def us(ns):
    return f"{ns / 1000:g} us" if ns < 10**6 else f"{ns / 1000:.3f} us"


def read(path):
    with open(path, encoding="utf-8") as file:
        return file.read()


def rows_of(path, seed=None):
    """The notes of a network's run by the plain simulator, with names of places, and the order of its places."""
    with open(path, "rb") as file:
        net = tomllib.load(file)
    simulation = Simulation(net if seed is None else net | {"seed": seed})
    simulation.run()
    names = simulation.names
    destinations = [(vl, names[place]) for vl, place in sorted(simulation.destinations)]
    return [(vl, names[place], what, value) for _, place, vl, what, value in simulation.rows], destinations, names


def merged_by_hand(runs):
    """The merged tables of runs, lists of pairs of a seed and its notes, from the notes alone."""
    (_, (_, destinations, names)), *_ = runs
    lines = ["table,vl,where,cause,count,least_ns,greatest_ns,sum_ns,seed"]
    for vl, where in destinations:
        found = [
            (value, -seed)
            for seed, (rows, _, _) in runs
            for v, w, what, value in rows
            if (v, w, what) == (vl, where, "delivered")
        ]
        values = [value for value, _ in found]
        if values:
            greatest, seed = max(found)
            lines.append(f"latency,{vl},{where},,{len(values)},{min(values)},{greatest},{sum(values)},{-seed}")
        else:
            lines.append(f"latency,{vl},{where},,0,0,0,0,")
    lost = {}
    for seed, (rows, _, _) in runs:
        for vl, where, what, _ in rows:
            if what != "delivered":
                counts = lost.setdefault((vl, names.index(where), CAUSES.index(what)), {})
                counts[seed] = counts.get(seed, 0) + 1
    for (vl, place, cause), counts in sorted(lost.items()):
        most = max(counts, key=lambda seed: (counts[seed], -seed))
        lines.append(f"dropped,{vl},{names[place]},{CAUSES[cause]},{sum(counts.values())},,,,{most}")
    return "\n".join(lines) + "\n"


class Here(unittest.TestCase):
    """A test with a folder of its own."""

    def setUp(self):
        folder = tempfile.TemporaryDirectory()
        self.addCleanup(folder.cleanup)
        self.folder = folder.name
        self.output = os.path.join(self.folder, "campaign")
        self.merged = os.path.join(self.output, "merged.csv")
        self.program = model.PROGRAM

    def file(self, name, text):
        path = os.path.join(self.folder, name)
        with open(path, "w", encoding="utf-8") as out:
            out.write(text)
        return path

    def stand_in(self, lines=""):
        self.program = self.file("afdxsim", STAND_IN.format(python=sys.executable, tools=TOOLS, lines=lines))
        os.chmod(self.program, 0o755)

    def call(self, *words):
        """The status of afdx campaign with these words, and what it says on standard output and on error output."""
        out, said = io.StringIO(), io.StringIO()
        with contextlib.redirect_stdout(out), contextlib.redirect_stderr(said):
            status = campaign.main([*words, "--program", self.program, "-o", self.output, "--replace"])
        return status, out.getvalue(), said.getvalue()


class WithTheProgram(Here):
    def setUp(self):
        super().setUp()
        if not os.path.isfile(self.program):
            self.fail(f"there is no program at {self.program}: `rt ci` at the top builds it")

    def test_one_seed_gives_the_tables_of_seq(self):
        for path in (COCKPIT, SATURATED, FAILING, N1):
            with self.subTest(path):
                self.assertEqual(self.call(path, "--seeds", "1")[0], 0)
                lines = [line.rpartition(",")[0] for line in read(self.merged).splitlines()]
                self.assertEqual(lines, read(path.replace(".toml", ".tables.csv")).splitlines())

    def test_seeds_are_merged_exactly(self):
        """The merged tables are those that are worked out from the notes of the plain simulator, whatever --jobs is."""
        expected = merged_by_hand([(seed, rows_of(COCKPIT, seed)) for seed in range(7, 12)])
        for jobs in ("1", "4"):
            self.assertEqual(self.call(COCKPIT, "--seeds", "5", "--jobs", jobs)[0], 0)
            self.assertEqual(read(self.merged), expected)
            self.assertEqual(sorted(os.listdir(self.output)), ["campaign.json", "greatest.csv", "merged.csv"])
        net = model.Network(COCKPIT)
        self.assertTrue(model.Tables(self.merged, net).merged)

    def test_offsets_are_drawn_within_each_period(self):
        words = [SATURATED, "--seeds", "4", "--first", "30", "--offsets", "--keep"]
        self.assertEqual(self.call(*words)[0], 0)
        runs, offsets = [], []
        with open(SATURATED, "rb") as file:
            given = tomllib.load(file)
        for seed in range(30, 34):
            path = os.path.join(self.output, f"seed-{seed}.toml")
            with open(path, "rb") as file:
                net = tomllib.load(file)
            offsets += [vl["offset_ns"] for vl in net["vl"]]
            for vl in net["vl"]:
                low, high = pcg32(seed, 2**32 + vl["id"], 2)
                self.assertEqual(vl["offset_ns"], (low + 2**32 * high) % vl["period_ns"])
            for vl, before in zip(net["vl"], given["vl"]):
                self.assertEqual(vl | {"offset_ns": 0}, before | {"offset_ns": 0})
            self.assertEqual(net | {"vl": 0}, given | {"vl": 0, "seed": seed})
            runs.append((seed, rows_of(path)))
        self.assertEqual(len(set(offsets)), len(offsets))
        self.assertEqual(read(self.merged), merged_by_hand(runs))
        kept = [read(os.path.join(self.output, f"seed-{seed}.tables.csv")) for seed in range(30, 34)]
        self.assertEqual(self.call(*words)[0], 0)
        self.assertEqual(kept, [read(os.path.join(self.output, f"seed-{seed}.tables.csv")) for seed in range(30, 34)])

    def test_a_refused_description_names_the_line(self):
        for change, said in (
            (("bag_ms = 1", "bag_ms = 3"), "line 32: is refused: afdxsim: description: 4 OutOfLimit at vl 1 bag_ms"),
            (("mbit = 100", "mbit = 1001"), "line 22: is refused: afdxsim: description: 4 OutOfLimit at link 1 mbit"),
            (("seed = 42", "seed = -1"), "line 2: is refused: afdxsim: description: 4 OutOfLimit at top seed"),
            (
                ('kind = "switch"', 'kind = "switch"\ncolour = 1'),
                "line 12: is refused: afdxsim: description: 5 UnknownName at node 3",
            ),
            (("seed = 42", "seed = 4 2"), "line 2: is refused: afdxsim: description: 1 Syntax"),
        ):
            with self.subTest(said):
                net = self.file("bad.toml", read(N1).replace(*change, 1))
                self.assertEqual(self.call(net, "--seeds", "2"), (2, "", f"afdx campaign: {net} {said}\n"))
                self.assertFalse(os.path.exists(self.output))


class WithAStandIn(Here):
    def test_limits(self):
        self.stand_in()
        runs = [(seed, rows_of(COCKPIT, seed)) for seed in range(7, 11)]
        greatest = {}
        for seed, (rows, _, _) in runs:
            greatest[seed] = max(
                value for vl, where, what, value in rows if (vl, where, what) == (102, "DU_L", "delivered")
            )
        worst = max(greatest, key=lambda seed: (greatest[seed], -seed))
        self.assertNotEqual(worst, 7)
        limits = self.file("limits.csv", f"# in ns\n102,DU_L,{greatest[worst]}\n\n402,FWC,49530\n")
        status, out, said = self.call(COCKPIT, "--seeds", "4", "--limits", limits)
        self.assertEqual((status, said), (0, ""))
        self.assertIn("limits: 2, broken: 0\n", out)
        limit = greatest[worst] - 1
        limits = self.file("limits.csv", f"102,DU_L,{limit}\n402,FWC,49529\n401,FMC1,99999999\n")
        status, out, said = self.call(COCKPIT, "--seeds", "4", "--limits", limits)
        self.assertEqual((status, said), (1, ""))
        by = sum(found > limit for found in greatest.values())
        self.assertEqual(
            out.splitlines()[-3:],
            [
                "limits: 3, broken: 2",
                f"limit broken: virtual link 102 at DU_L has {us(limit)}, and took {us(limit + 1)} with the seed {worst}"
                f"; broken by {by} of 4 runs",
                "limit broken: virtual link 402 at FWC has 49.529 us, and took 49.53 us with the seed 7; "
                "broken by 4 of 4 runs",
            ],
        )
        self.assertEqual(read(self.merged), merged_by_hand(runs))

    def test_a_run_that_fails(self):
        """It is named with its message, and what was merged before it is kept, whatever ended first. Later runs that go
        on are ended."""
        text = (
            read(N1)
            .replace("period_ns = 1000000000000", "period_ns = 500000")
            .replace("jitter_ns = 0", "jitter_ns = 400000")
        )
        net = self.file("net.toml", text.replace("seed = 42", "seed = 7"))
        merged = merged_by_hand([(seed, rows_of(net, seed)) for seed in (7, 8)])
        for lines, said in (
            ("if seed == 9: sys.exit('afdxsim: out of memory')", "afdxsim: out of memory (status 1)"),
            ("if seed == 9: sys.exit(5)", "status 5"),
            ("if seed == 9: os.kill(os.getpid(), signal.SIGKILL)", "ended by SIGKILL, as the system does where memory is used up"),
            ("if seed == 9: sys.exit(print('no table'))", "what it printed are no whole tables"),
            (
                "if seed == 9: del net['vl'][0]",
                f"what it printed line 1: the file ends without the latencies of virtual link 1 at ES2, as {net} has it",
            ),
            ("if seed == 9: print('x')", "what it printed are no whole tables"),
            (
                "if seed == 9: sys.exit('later')\nif seed == 8: time.sleep(1)\nif seed > 9: sys.exit('no')",
                "later (status 1)",
            ),
            (f"if seed == 9: sys.exit('here')\nif seed > 9: time.sleep({2 * PATIENCE})", "here (status 1)"),
        ):
            for jobs in ("1", "4"):
                with self.subTest(lines, jobs=jobs):
                    self.stand_in(lines)
                    begin = time.monotonic()
                    status, out, printed = self.call(net, "--seeds", "9", "--jobs", jobs)
                    self.assertLess(time.monotonic() - begin, PATIENCE)
                    self.assertEqual((status, printed), (1, f"afdx campaign: seed 9: {said}\n"))
                    self.assertIn("2 runs merged, seeds 7 to 8, in", out)
                    self.assertEqual(read(self.merged), merged)

    def test_the_first_run_fails(self):
        """Then nothing was merged, and an earlier file stays."""
        self.stand_in("sys.exit('no')")
        os.mkdir(self.output)
        self.file("campaign/merged.csv", "earlier")
        printed = self.call(N1, "--seeds", "3")
        self.assertEqual(
            printed, (1, "no run was merged, and nothing is written\n", "afdx campaign: seed 42: no (status 1)\n")
        )
        self.assertEqual(read(self.merged), "earlier")

    def test_an_interrupt(self):
        """What was merged before it is kept. Where the tests were started without interrupts, as in the background of a
        shell, the campaign of the test has them all the same."""
        for number, (outside, sent, status, said) in enumerate((
            (signal.default_int_handler, signal.SIGINT, 130, "interrupted"),
            (signal.SIG_IGN, signal.SIGINT, 130, "interrupted"),
            (signal.default_int_handler, signal.SIGTERM, 143, "ended by SIGTERM"),
        )):
            with self.subTest(outside, sent=sent):
                self.interrupt(os.path.join(self.folder, f"began-{number}"), outside, sent, status, said)

    def interrupt(self, began, outside, sent, status, said):
        """Interrupts a campaign once a run has begun that writes a file. Of its own files it leaves none."""
        kept = os.path.join(self.folder, "kept-" + os.path.basename(began))
        os.mkdir(kept)
        self.stand_in(f"if seed == 44:\n    open({began!r}, 'w').close()\n    time.sleep({2 * PATIENCE})")
        command = [*tool_words("campaign"), N1, "--seeds", "9", "--jobs", "1"]
        command += ["--program", self.program, "-o", self.output, "--replace"]
        before = signal.signal(signal.SIGINT, outside)
        try:
            run = subprocess.Popen(
                command,
                stdout=subprocess.PIPE,
                stderr=subprocess.PIPE,
                text=True,
                env=os.environ | {"TMPDIR": kept},
                preexec_fn=lambda: signal.signal(signal.SIGINT, signal.SIG_DFL),
            )
        finally:
            signal.signal(signal.SIGINT, before)
        begin = time.monotonic()
        while not os.path.exists(began) and time.monotonic() < begin + PATIENCE:
            time.sleep(0.05)
        time.sleep(0.5)
        run.send_signal(sent)
        out, printed = run.communicate(timeout=PATIENCE)
        self.assertEqual(run.returncode, status)
        self.assertEqual(printed, f"afdx campaign: {said}, before the run of the seed 44 was merged\n")
        self.assertEqual(os.listdir(kept), [])
        self.assertIn("2 runs merged, seeds 42 to 43, in", out)
        self.assertIn("latency,1,ES2,,2,27720,27720,55440,42\n", read(self.merged))

    def test_a_run_is_merged_whole_or_not_at_all(self):
        """Also where a signal comes meanwhile, and it is the last one."""
        self.stand_in()
        add, latency = Merged.add, "latency,1,ES2,,{0},27720,27720,{1},42\n"
        for last, said in (42, "before the run of the seed 43 was merged"), (43, "behind the last run"):

            def interrupted(own, seed, printed):
                if seed == last:
                    os.kill(os.getpid(), signal.SIGTERM)
                add(own, seed, printed)

            with self.subTest(last), mock.patch.object(Merged, "add", interrupted):
                status, out, printed = self.call(N1, "--seeds", "2")
                self.assertEqual((status, printed), (143, f"afdx campaign: ended by SIGTERM, {said}\n"))
                count = last - 41
                self.assertIn(f"{count} run{'s' if count > 1 else ''} merged", out)
                self.assertIn(latency.format(count, count * 27720), read(self.merged))

    def test_greatest_latencies_over_seeds_and_percentiles(self):
        """From the notes of the plain simulator: of each run's greatest latency the least, the mean and the greatest; and
        the bins of latencies of all runs, with the nearest rank of each percentage. A run that delivers nothing there is none."""
        self.stand_in()
        runs = [(seed, rows_of(COCKPIT, seed)) for seed in range(7, 12)]
        lines, counts = [], ["vl,where,from_ns,to_ns,count"]
        for vl, where in runs[0][1][1]:
            found = [(seed, [v[3] for v in rows if v[:3] == (vl, where, "delivered")]) for seed, (rows, _, _) in runs]
            greatest = {seed: max(values) for seed, values in found if values}
            values = sorted(value for _, each in found for value in each)
            total, number = sum(greatest.values()), len(greatest)
            worst = max(greatest, key=lambda seed: (greatest[seed], -seed))
            ranks = [next(v for i, v in enumerate(values, 1) if i * 100 >= percent * len(values)) for percent in (50, 95, 99)]
            numbers = [number, min(greatest.values()), (2 * total + number) // (2 * number), greatest[worst], total, worst]
            ends = [latency_counts.ends_of(latency_counts.bin_of(value)) for value in values]
            ranks = [min(values[-1], ends[values.index(rank)][1]) for rank in ranks]
            lines.append(",".join(map(str, [vl, where, *numbers, *ranks])))
            counts += [f"{vl},{where},{least},{most},{ends.count((least, most))}" for least, most in sorted(set(ends))]
        head = "vl,where,runs,least_greatest_ns,mean_greatest_ns,greatest_ns,sum_greatest_ns,seed"
        for jobs in ("1", "3"):
            self.assertEqual(self.call(COCKPIT, "--seeds", "5", "--jobs", jobs, "--histograms")[0], 0)
            printed = read(os.path.join(self.output, "greatest.csv")).splitlines()
            self.assertEqual(printed, [head + ",percent_50_ns,percent_95_ns,percent_99_ns", *lines])
            self.assertEqual(read(os.path.join(self.output, "histograms.csv")).splitlines(), counts)
        self.assertEqual(read(self.merged), merged_by_hand(runs))
        # Without --histograms no latency is counted by itself.
        self.output = os.path.join(self.folder, "plain")
        self.assertEqual(self.call(COCKPIT, "--seeds", "5")[0], 0)
        self.assertEqual(sorted(os.listdir(self.output)), ["campaign.json", "greatest.csv", "merged.csv"])
        printed = read(os.path.join(self.output, "greatest.csv")).splitlines()
        self.assertEqual(printed, [head, *(line.rsplit(",", 3)[0] for line in lines)])

    def test_the_page_of_its_folder(self):
        """The record of a campaign names its seeds. With other seeds the page of its tables alone is red: frames would be
        under way for longer than any took."""
        self.stand_in()
        page = os.path.join(self.folder, "page.html")
        for words in ([], ["--offsets", "--first", "5"]):
            self.output = os.path.join(self.folder, f"campaign{len(words)}")
            self.assertEqual(self.call(COCKPIT, "--seeds", "3", *words)[0], 0)
            printed = json.loads(read(os.path.join(self.output, "campaign.json")))
            self.assertEqual(printed["description"], model.checksum(read(COCKPIT)))
            wanted = (512_000_000, 5 if words else 7, 3, bool(words), "pcg32" if words else None, ["--seeds", "3"] + words[:1])
            self.assertEqual(tuple(printed[name] for name in ("until_ns", "first_seed", "seeds", "offsets", "offset_rule", "words")), wanted)
            self.assertEqual(report.main([COCKPIT, self.output, "-o", page]), 0)
            self.assertIn('data-name="lost end to end"', read(page))
            self.assertNotIn('data-name="under way too long"', read(page))
            self.assertRegex(read(page), r'<a class="tile good" data-name="lost end to end".*?<b>0 frames</b>')
        # Offsets of version 0.2.0 are drawn otherwise, so the offers cannot be drawn again.
        del printed["offset_rule"]
        self.file(os.path.join(self.output, "campaign.json"), json.dumps(printed))
        said = io.StringIO()
        with contextlib.redirect_stderr(said):
            self.assertEqual(report.main([COCKPIT, self.output, "-o", page]), 2)
        self.assertIn("campaign.json: its offsets are drawn by the rule 'python', and this version draws others. Run the campaign anew", said.getvalue())
        merged = self.file("alone.csv", read(os.path.join(self.folder, "campaign0", "merged.csv")))
        self.assertEqual(report.main([COCKPIT, merged, "--seeds", "6", "-o", page]), 0)
        self.assertRegex(read(page), r'<a class="tile bad" data-name="under way too long"')

    def test_a_destination_without_frames_over_seeds(self):
        self.stand_in()
        net = self.file("net.toml", read(N1).replace("offset_ns = 0", "offset_ns = 2000001"))
        self.assertEqual(self.call(net, "--seeds", "2", "--histograms")[0], 0)
        printed = read(os.path.join(self.output, "greatest.csv")).splitlines()
        self.assertEqual(printed[1:], ["1,ES2,0,0,0,0,0,,,,"])
        self.assertEqual(read(os.path.join(self.output, "histograms.csv")), "vl,where,from_ns,to_ns,count\n")

    def test_jobs_are_side_by_side(self):
        """As many as asked, and no more: each run writes a file when it begins and when it ends. It waits until as many have begun as
        are asked, however slowly the machine starts them, and then a little for one too many."""
        for jobs in (1, 3):
            self.stand_in(
                f"path, end = os.path.join({self.folder!r}, 'runs'), time.monotonic() + {PATIENCE}\n"
                "with open(path, 'a') as out: out.write('+')\n"
                f"while open(path).read().count('+') < {jobs} and time.monotonic() < end: time.sleep(0.05)\n"
                "time.sleep(0.4)\n"
                "with open(path, 'a') as out: out.write('-')\n"
            )
            runs = self.file("runs", "")
            self.assertEqual(self.call(N1, "--seeds", "7", "--jobs", str(jobs))[0], 0)
            count, most = 0, 0
            for sign in read(runs):
                count += 1 if sign == "+" else -1
                most = max(most, count)
            self.assertEqual((count, most, len(read(runs))), (0, jobs, 14))

    def test_the_progress_line(self):
        """It is there on a terminal alone, and is taken away at the end."""
        self.stand_in()
        command = [*tool_words("campaign"), N1, "--seeds", "3", "--program", self.program]
        command += ["-o", self.output, "--replace"]
        run = subprocess.run(command, capture_output=True)
        self.assertEqual((run.returncode, run.stderr), (0, b""))
        terminal, end = pty.openpty()
        run = subprocess.run(command, stdout=subprocess.PIPE, stderr=end)
        os.close(end)
        shown = read_terminal(terminal)
        self.assertEqual(run.returncode, 0)
        self.assertRegex(shown, rb"3 of 3 runs, \d+ s, 0 s to go; greatest 27,720 ns: VL 1 at ES2, seed 42")
        self.assertTrue(shown.endswith(b"\r\x1b[K"))

    def test_a_long_run_is_watched(self):
        """On a terminal the line shows how far a run is; what else it says is its fault. Elsewhere no run is asked."""
        far = "if '--progress' in sys.argv:\n    sys.stderr.write('afdxsim: 1 of 2 ms, 50 %, 1 s left\\n'); sys.stderr.flush(); time.sleep(3)\n"
        command = [*tool_words("campaign"), N1, "--seeds", "1", "-o", self.output, "--replace"]
        for fails, status in ("", 0), ("sys.exit('afdxsim: out of memory')\n", 1):
            self.stand_in(far + fails)
            terminal, end = pty.openpty()
            run = subprocess.run([*command, "--program", self.program], stdout=subprocess.PIPE, stderr=end)
            os.close(end)
            shown = read_terminal(terminal)
            self.assertEqual(run.returncode, status)
            self.assertRegex(shown, rb"0 of 1 runs, \d+ s; seed 42 at 1 of 2 ms, 50 %, 1 s left")
            self.assertEqual(b"out of memory" in shown, status == 1)
            self.assertEqual(subprocess.run([*command, "--program", self.program], capture_output=True).returncode, status)

    def test_bad_limits(self):
        self.stand_in()
        for text, said in (
            ("1,ES2\n", "line 1: has 2 fields in place of 3: VL,NAME,NS"),
            ("\n# x\n1,ES2,5,6\n", "line 3: has 4 fields in place of 3: VL,NAME,NS"),
            ("x,ES2,5\n", "line 1: the virtual link is 'x', and no whole number"),
            ("1,ES2,-5\n", "line 1: the limit is '-5', and no whole number"),
            ("2,ES2,5\n", f"line 1: 'ES2' is no destination of virtual link 2 in {N1}"),
            ("1,ES1,5\n", f"line 1: 'ES1' is no destination of virtual link 1 in {N1}"),
            ("1,ES2,5\n1,ES2,5\n", "line 2: says again what line 1 says"),
        ):
            with self.subTest(said):
                limits = self.file("limits.csv", text)
                printed = self.call(N1, "--seeds", "2", "--limits", limits)
                self.assertEqual(printed, (2, "", f"afdx campaign: {limits} {said}\n"))
                self.assertFalse(os.path.exists(self.output))

    def test_other_bad_words(self):
        self.stand_in()
        none = os.path.join(self.folder, "none")
        path = f"afdx campaign: {none}: cannot be read: No such file or directory\n"
        self.assertEqual(self.call(none, "--seeds", "1"), (2, "", path))
        self.assertEqual(self.call(N1, "--seeds", "1", "--limits", none), (2, "", path))
        last = str(2**63 - 1)
        said = f"afdx campaign: {N1} line 2: the seeds from {last} on would pass {last}\n"
        self.assertEqual(self.call(N1, "--seeds", "2", "--first", last), (2, "", said))
        self.assertEqual(self.call(N1, "--seeds", "1", "--first", last)[0], 0)
        self.output = self.file("file", "")
        self.assertEqual(
            self.call(N1, "--seeds", "1"), (2, "", f"afdx campaign: {self.output}: cannot be made: File exists\n")
        )
        self.program = none
        said = f"afdx campaign: {none}: is not there. `afdx build` builds the program; --by second-opinion does without it\n"
        self.assertEqual(self.call(N1, "--seeds", "1"), (2, "", said))
        for words in (["--seeds", "0"], ["--seeds", "x"], ["--jobs", "0", "--seeds", "1"], []):
            with self.assertRaises(SystemExit) as ended:
                self.call(N1, *words)
            self.assertEqual(ended.exception.code, 2)

    def test_help(self):
        run = subprocess.run(
            [*tool_words("campaign"), "--help"], capture_output=True, text=True
        )
        self.assertEqual((run.returncode, run.stderr), (0, ""))
        for word in ("--seeds", "--jobs", "--offsets", "--limits", "examples:", "status:", "merged.csv"):
            self.assertIn(word, run.stdout)


class Evidence(Here):
    """What a campaign writes names its program, and its folder has the files of one campaign."""

    def run_of(self, *words):
        """The same without --replace."""
        out, said = io.StringIO(), io.StringIO()
        with contextlib.redirect_stdout(out), contextlib.redirect_stderr(said):
            status = campaign.main([N1, *words, "--program", self.program, "-o", self.output])
        return status, out.getvalue(), said.getvalue()

    def record(self):
        return json.loads(read(os.path.join(self.output, "campaign.json")))

    def test_the_record_names_the_program_by_its_sum(self):
        """A program is taken for the proved one only where it has the sum of a record, whatever it prints as its version."""
        self.stand_in()
        text = read(self.program).replace("afdxsim stand-in 1", "afdxsim 0.1.0")
        self.program = self.file("afdxsim", text)
        own = hashlib.sha256(text.encode()).hexdigest()
        proved = {"version": "0.1.0", "commit": "c" * 40, "kit": "kit-1 logic 2", "program": own}
        for record, wanted in (
            (None, ("afdxsim", "0.1.0", None, own, None, None, False)),
            (proved | {"program": "0" * 64}, ("afdxsim", "0.1.0", None, own, None, None, False)),
            (proved, ("afdxsim", "0.1.0", "c" * 40, own, None, "kit-1 logic 2", True)),
        ):
            if record:
                self.file("afdxsim.record.json", json.dumps(record))
            self.assertEqual(self.call(N1, "--seeds", "1")[0], 0)
            names = ("name", "version", "commit", "sha256", "sources", "kit", "proved")
            self.assertEqual(self.record()["program"], dict(zip(names, wanted)))
            # So does the page, and the tables of the other kinds of campaigns.
            page = os.path.join(self.folder, "page.html")
            self.assertEqual(report.main([N1, self.output, "-o", page]), 0)
            said = f"afdxsim 0.1.0, not proved, SHA-256 {own}"
            if wanted[-1]:
                said = f"afdxsim 0.1.0, proved, commit cccccccccccc, SHA-256 {own}, logic 2 (kit-1)"
            self.assertIn(f"The tables are by {said}, as their campaign says. ", read(page))
            cell = f"afdxsim 0.1.0 not proved SHA-256 {own[:16]}"
            if wanted[-1]:
                cell = f"afdxsim 0.1.0 proved commit cccccccccccc SHA-256 {own[:16]} logic 2 (kit-1)"
            for words, name in ((["--set", "vl.1.depth=1,2"], "sweep"), (["--aim", "1"], "aim"), (["--each-outage"], "outages")):
                self.assertEqual(self.call(N1, *words)[0], 0)
                with open(os.path.join(self.output, name + ".csv"), newline="") as file:
                    rows = list(csv.DictReader(file))
                self.assertEqual({row["program"] for row in rows}, {cell})
                if name != "aim":
                    self.assertIn(f"They are by {said}. ", read(os.path.join(self.output, name + ".html")))

    def test_the_record_lists_each_file_with_its_sum(self):
        self.stand_in()
        for words in (
            ["--seeds", "2", "--histograms", "--keep", "--json"], ["--set", "vl.1.depth=1,2", "--keep", "--json"],
            ["--aim", "1", "--keep", "--json"], ["--each-outage", "--keep"],
        ):
            self.assertEqual(self.call(N1, *words)[0], 0)
            found = {}
            for name in os.listdir(self.output):
                with open(os.path.join(self.output, name), "rb") as file:
                    found[name] = hashlib.sha256(file.read()).hexdigest()
            del found["campaign.json"]
            self.assertGreater(len(found), 4)
            self.assertEqual(self.record()["files"], found)

    def test_an_earlier_campaign_is_refused_or_replaced(self):
        """Refused before the first run. Replaced once this one has come to its end: nothing of the earlier one is left."""
        self.stand_in()
        self.assertEqual(self.run_of("--seeds", "2", "--keep", "--histograms")[0], 0)
        self.file("campaign/own.txt", "mine")
        before = {name: read(os.path.join(self.output, name)) for name in os.listdir(self.output)}
        self.stand_in("open(%r, 'w')" % os.path.join(self.folder, "ran"))
        said = f"afdx campaign: {self.output}: has files of an earlier campaign: campaign.json, greatest.csv, histograms.csv and 5 more. Name another folder, or --replace them\n"
        self.assertEqual(self.run_of("--seeds", "1"), (2, "", said))
        self.assertFalse(os.path.exists(os.path.join(self.folder, "ran")))
        self.assertEqual({name: read(os.path.join(self.output, name)) for name in os.listdir(self.output)}, before)
        self.assertEqual(self.run_of("--seeds", "1", "--replace")[0], 0)
        self.assertEqual(sorted(os.listdir(self.output)), ["campaign.json", "greatest.csv", "merged.csv", "own.txt"])

    def test_a_program_that_is_replaced_meanwhile(self):
        """Then nothing says that the runs are its own."""
        self.stand_in("if seed == 43:\n    open(sys.argv[0], 'a').write('# another')")
        status, _, said = self.run_of("--seeds", "3")
        self.assertEqual((status, said), (2, f"afdx campaign: {self.program}: was replaced while the runs were made, so campaign.json is not written. Run the campaign anew\n"))
        self.assertFalse(os.path.exists(os.path.join(self.output, "campaign.json")))

    def test_a_file_that_was_changed_has_no_record(self):
        self.stand_in()
        self.assertEqual(self.run_of("--seeds", "2")[0], 0)
        with open(self.merged, "a") as out:
            out.write("dropped,1,SW1,policed,1,,,,42\n")
        said = io.StringIO()
        with contextlib.redirect_stderr(said):
            status = report.main([N1, self.output, "-o", os.path.join(self.folder, "page.html")])
        self.assertEqual((status, said.getvalue()), (2, f"afdx report: {self.output}: has no campaign.json that is the record of its merged.csv\n"))

    def test_the_second_opinion_makes_the_runs(self):
        """Each kind of campaign brings what the stand-in brings, which is made of it; and names it."""
        self.stand_in()
        for words, names in (
            (["--seeds", "3", "--histograms", "--offsets"], ["merged.csv", "greatest.csv", "histograms.csv"]),
            (["--set", "vl.1.depth=1,2"], ["sweep.csv"]), (["--aim", "1"], ["aim.csv"]), (["--each-outage"], ["outages.csv"]),
        ):
            found = []
            for more in ([], ["--by", "second-opinion"]):
                self.assertEqual(self.call(N1, *words, *more)[0], 0)
                texts = [read(os.path.join(self.output, name)) for name in names]
                found.append([re.sub(",[^,\n]* not proved[^,\n]*", "", text) for text in texts])
            self.assertEqual(*found)
            made_by = self.record()["program"]
            self.assertEqual((made_by["name"], made_by["proved"]), ("afdx second-opinion", False))
        net = self.file("wrong.toml", read(N1).replace("seed = 42", "seed = -1"))
        self.program, status = "none", self.call(net, "--seeds", "1", "--by", "second-opinion")
        self.assertEqual(status[:2], (2, ""))
        self.assertRegex(status[2], f"^afdx campaign: {net} line 2: is refused: 4 OutOfLimit at top seed; .*\n$")


class ThePage(Here):
    """The page of a campaign by its folder."""

    def page(self, net):
        page, said = os.path.join(self.folder, "page.html"), io.StringIO()
        with contextlib.redirect_stderr(said):
            status = report.main([net, self.output, "-o", page])
        return status, said.getvalue(), page

    def test_percentiles_of_histograms(self):
        """Those of all frames of all runs, by the nearest rank to the end of its bin, from the notes of the plain simulator."""
        self.stand_in()
        self.assertEqual(self.call(COCKPIT, "--seeds", "3", "--first", "7", "--histograms")[0], 0)
        status, said, page = self.page(COCKPIT)
        self.assertEqual((status, said), (0, ""))
        ends = json.loads(re.search('<script type="application/json" id="data">(.*?)</script>', read(page))[1])["ends"]
        values = {}
        for seed in range(7, 10):
            for vl, where, what, value in rows_of(COCKPIT, seed)[0]:
                if what == "delivered":
                    values.setdefault((vl, where), []).append(value)
        end = lambda ns: latency_counts.ends_of(latency_counts.bin_of(ns))[1]
        rank = lambda found, percent: min(max(found), end(sorted(found)[-(-len(found) * percent // 100) - 1]))
        wanted = [[rank(values[key], percent) for percent in (50, 95, 99)] for key in zip(ends["vl"], ends["where"])]
        self.assertEqual([list(it) for it in zip(ends["p50"], ends["p95"], ends["p99"])], wanted)
        self.assertIn("Distribution of the latencies", read(page))
        self.assertIn("greatest.csv", read(page))
        # One that is not of these tables is refused.
        path = os.path.join(self.output, "greatest.csv")
        good = read(path)
        row = good.splitlines()[1]
        for text, printed in (
            (good.replace(row, row.replace(f",{wanted[0][0]},", ",1,", 1)), " line 2: is of another campaign than the merged tables beside it"),
            (good.replace(row + "\n", ""), f": is of another campaign than {self.merged}"),
            ("x\n", " line 1: the columns are not those of a campaign with --histograms: " + good.splitlines()[0]),
        ):
            with open(path, "w") as out:
                out.write(text)
            self.assertEqual(self.page(COCKPIT)[:2], (2, f"afdx report: {path}{printed}\n"))

    def test_without_histograms(self):
        self.stand_in()
        self.assertEqual(self.call(N1, "--seeds", "2")[0], 0)
        status, _, page = self.page(N1)
        self.assertEqual(status, 0)
        self.assertNotIn("Distribution of the latencies", read(page))


if __name__ == "__main__":
    unittest.main()
