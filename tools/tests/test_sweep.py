"""Tests of what afdx campaign does with --set, --aim, --until, --seed and --json. They run a stand-in for the program."""
import csv
import json
import os
import re
import tomllib
import unittest

from afdx import model
from afdx.files.page_text import us_text
from afdx.commands import report
from afdx.model import long_form
from afdx.reckon import network_calculus, output_ports
from afdx.runs.plain_simulator import Simulation
from tests.test_campaign import COCKPIT, Here, N1, SATURATED, read


def tree_of(path):
    with open(path, "rb") as file:
        return tomllib.load(file)


def greatest_of(tree):
    """The greatest latency of each virtual link and destination by the plain simulator, and how many came."""
    simulation = Simulation(tree)
    simulation.run()
    found = {}
    for _, place, vl, what, value in simulation.rows:
        if what == "delivered":
            found.setdefault((vl, simulation.names[place]), []).append(value)
    return {key: (max(values), len(values)) for key, values in found.items()}


class Sweeps(Here):
    def setUp(self):
        super().setUp()
        self.stand_in()

    def rows(self, name):
        return list(csv.DictReader(read(os.path.join(self.output, name)).splitlines()))

    def test_each_combination_is_run(self):
        """The table has what the plain simulator finds of each combination and seed."""
        status, out, said = self.call(COCKPIT, "--set", "vl.201.bag_ms=32,64", "--set", "link.13.mbit=10,100", "--seeds", "2", "--keep", "--until", "200000000")
        self.assertEqual((status, said), (0, ""), out)
        rows, number = self.rows("sweep.csv"), 0
        for bag in (32, 64):
            for mbit in (10, 100):
                number += 1
                found = []
                for seed in (7, 8):
                    tree = tree_of(COCKPIT) | {"seed": seed, "until_ns": 200_000_000}
                    next(row for row in tree["vl"] if row["id"] == 201)["bag_ms"] = bag
                    tree["link"][12]["mbit"] = mbit
                    found.append(greatest_of(tree))
                    kept = os.path.join(self.output, f"set-{number}-seed-{seed}.toml")
                    self.assertEqual(tree_of(kept), tree)
                mine = [row for row in rows if (row["vl.201.bag_ms"], row["link.13.mbit"]) == (str(bag), str(mbit))]
                self.assertEqual({row["set"] for row in mine}, {str(number)})
                for row in mine:
                    each = [it[int(row["vl"]), row["where"]] for it in found if (int(row["vl"]), row["where"]) in it]
                    greatest = [ns for ns, _ in each]
                    wanted = [len(each), sum(count for _, count in each), min(greatest), (sum(greatest) + len(each) // 2) // len(each), max(greatest)]
                    names = ("runs", "delivered", "least_greatest_ns", "mean_greatest_ns", "greatest_ns")
                    self.assertEqual([int(row[name]) for name in names], wanted)
        self.assertEqual(len(rows), 4 * len(model.Network(COCKPIT).destinations))
        self.assertIn("4 combinations, 8 runs", out)

    def test_the_page_shows_effect_and_spread(self):
        """A line that is ten times slower delays those on it, and the seeds move the regulator's wait."""
        status, out, _ = self.call(COCKPIT, "--set", "link.1.mbit=100,10", "--seeds", "3")
        self.assertEqual(status, 0)
        rows = [row for row in self.rows("sweep.csv") if (row["vl"], row["where"]) == ("103", "FMC1")]
        means = [int(row["mean_greatest_ns"]) for row in rows]
        effect, spread = max(means) - min(means), max(int(row["greatest_ns"]) - int(row["least_greatest_ns"]) for row in rows)
        page = read(os.path.join(self.output, "sweep.html"))
        found = re.search(r"<tr><td>103</td><td>FMC1</td><td[^>]*>([\d,.]+) (µs|ns|ms)</td><td>([\d,.]+) (µs|ns|ms)</td>", page)
        self.assertIsNotNone(found)
        size = {"ns": 1, "µs": 1000, "ms": 10**6}
        printed = [round(float(found[i].replace(",", "")) * size[found[i + 1]]) for i in (1, 3)]
        self.assertEqual(printed, [effect, spread])
        self.assertGreater(effect, 0)
        self.assertIn(f"virtual link 103 at FMC1: effect {us_text(effect)}, seeds {us_text(spread)}", out)
        self.assertEqual(page.count("<title>link.1.mbit=10:"), len(model.Network(COCKPIT).destinations))
        self.assertNotIn("http", page)
        self.assertIn(" They are by afdxsim stand-in 1, not proved, SHA-256 ", page)

    def test_one_seed_has_no_spread(self):
        status, out, _ = self.call(N1, "--set", "vl.1.size=64,70", "--set", "vl.1.smax=100", "--seeds", "1")
        self.assertEqual(status, 0)
        self.assertIn("effect 0.96 us, one seed", out)
        self.assertIn("the seed 42 alone, so the spread of seeds is not known", read(os.path.join(self.output, "sweep.html")))

    def test_a_key_of_a_stream(self):
        """The further stream, of 64 bytes, waits a BAG behind the own one; of 100 bytes its last bit takes 5.76 us longer."""
        net = self.file("net.toml", read(N1).replace("smax = 64", "smax = 100") + "[[stream]]\nvl = 1\nsize = 64\noffset_ns = 0\nperiod_ns = 1000000000000\njitter_ns = 0\n")
        status, out, _ = self.call(net, "--set", "stream.1.size=64,100", "--seeds", "1")
        self.assertEqual(status, 0)
        self.assertEqual([row["greatest_ns"] for row in self.rows("sweep.csv")], ["1027720", "1033480"])
        status, _, said = self.call(net, "--set", "stream.2.size=64", "--seeds", "1")
        self.assertEqual((status, said), (2, f"afdx campaign: {net} line 44: --set stream.2.size: there is no such stream: there are 1\n"))

    def test_limits(self):
        limits = self.file("limits.csv", "1,ES2,28000\n")
        status, out, _ = self.call(N1, "--set", "vl.1.size=64,70", "--set", "vl.1.smax=100", "--seeds", "1", "--limits", limits)
        self.assertEqual(status, 1)
        self.assertIn("limits: 1; combinations that break one: 1\nlimit broken with vl.1.size=70 vl.1.smax=100: virtual link 1 at ES2\n", out)

    def test_what_cannot_be_set(self):
        for words, printed in (
            (["--set", "vl.2.bag_ms=4"], "line 30: --set vl.2.bag_ms: there is no such vl"),
            (["--set", "link.3.mbit=10"], "line 19: --set link.3.mbit: there is no such link: there are 2"),
            (["--set", "node.SW2.latency_ns=1"], "line 4: --set node.SW2.latency_ns: there is no such node; SW1?"),
            (["--set", "vl.1.bag_ms=1,3"], "line 32: with vl.1.bag_ms=3: virtual link 1 (vl row 1), bag_ms is 3, and must be 1, 2, 4, "),
            (["--set", "node.ES1.latency_ns=1"], "line 4: with node.ES1.latency_ns=1: end system ES1 (node row 1), latency_ns "),
            (["--set", "vl.1.depth=1", "--set", "vl.1.depth=2"], ": --set vl.1.depth is there twice"),
            (["--set", "vl.1.depth=" + ",".join(map(str, range(1, 1025))), "--set", "vl.1.smax=" + ",".join(map(str, range(64, 75)))], ": --set has 11,264 combinations, and 10,000 are the most"),
            (["--aim", "2"], "line 30: --aim 2: there is no such virtual link"),
        ):
            with self.subTest(words):
                status, out, said = self.call(N1, "--seeds", "1", *words)
                self.assertEqual((status, out), (2, ""))
                self.assertTrue(said.startswith(f"afdx campaign: {N1}{'' if printed[0] == ':' else ' '}{printed}"), said)
        for words in (
            ["--set", "vl.1.bag=4"], ["--set", "vl.1.a=4"], ["--set", "vl.x.bag_ms=4"], ["--set", "vl.1.bag_ms"],
            ["--set", "vl.1.bag_ms=4,,8"], ["--set", "vl.1.bag_ms=4,4"], ["--set", "vl.1.size=9", "--aim", "1"],
            ["--aim", "1", "--offsets"], ["--aim", "65536"], ["--aim", "every"], ["--aim", "all", "--aim", "1"], ["--until", "0"],
        ):
            with self.subTest(words), self.assertRaises(SystemExit) as ended:
                self.call(N1, "--seeds", "1", *words)
            self.assertEqual(ended.exception.code, 2)

    def test_a_run_that_fails_ends_it(self):
        self.stand_in("if net['vl'][0]['size'] == 70: sys.exit(5)")
        status, out, said = self.call(N1, "--set", "vl.1.size=64,70", "--set", "vl.1.smax=100", "--seeds", "2")
        self.assertEqual((status, said), (1, "afdx campaign: vl.1.size=70 vl.1.smax=100, seed 42: status 5\n"))
        self.assertEqual({row["vl.1.size"] for row in self.rows("sweep.csv")}, {"64"})
        self.assertIn("The runs ended early", read(os.path.join(self.output, "sweep.html")))


class Words(Here):
    def test_until_and_seed_override_the_description(self):
        self.stand_in()
        status, _, said = self.call(COCKPIT, "--seeds", "1", "--until", "100000000", "--seed", "3", "--keep")
        self.assertEqual((status, said), (0, ""))
        tree = tree_of(COCKPIT) | {"until_ns": 100_000_000, "seed": 3}
        self.assertEqual(tree_of(os.path.join(self.output, "seed-3.toml")), tree)
        rows = {(int(row["vl"]), row["where"]): row for row in csv.DictReader(read(self.merged).splitlines()) if row["table"] == "latency"}
        for key, (greatest, count) in greatest_of(tree).items():
            self.assertEqual((int(rows[key]["greatest_ns"]), int(rows[key]["count"])), (greatest, count))
        # The page of the campaign knows of its end.
        page = os.path.join(self.folder, "page.html")
        self.assertEqual(report.main([COCKPIT, self.output, "-o", page]), 0)
        self.assertIn("in runs of 100,000 µs each", read(page))


class Aims(Here):
    def setUp(self):
        super().setUp()
        self.stand_in()

    def rows(self):
        return list(csv.DictReader(read(os.path.join(self.output, "aim.csv")).splitlines()))

    def test_others_meet_the_frame(self):
        """Of a virtual link of the cockpit most of its bound is reached, though as described its frames hardly wait."""
        status, out, said = self.call(COCKPIT, "--aim", "301", "--keep")
        self.assertEqual((status, said), (0, ""))
        net = model.Network(COCKPIT)
        found = network_calculus.Bounds(net)
        rows = self.rows()
        self.assertEqual([(row["where"], row["network"]) for row in rows], [(where, side) for where in ("DU_L", "DU_C", "DU_R") for side in "AB"])
        share = {}
        for i, row in enumerate(rows, 1):
            reached, bound = int(row["aimed_ns"]), int(row["bound_ns"])
            self.assertEqual(bound, found.latencies[301, row["where"]][0])
            self.assertEqual(int(row["way_ns"]), found.by_network[301, row["where"]][row["network"]].longest)
            self.assertLessEqual(reached, bound)
            share[row["where"]] = max(share.get(row["where"], 0), reached / bound)
            self.assertGreater(int(row["frame_ns"]), int(row["way_ns"]) * 85 // 100)
            self.assertLess(int(row["plain_ns"]), bound * 35 // 100)
            tree = tree_of(os.path.join(self.output, f"aimed-{i}-seed-7.toml"))
            self.assertEqual(greatest_of(tree)[301, row["where"]][0], reached)
            # It is the same network but for offsets.
            for vl, own in zip(tree["vl"], tree_of(COCKPIT)["vl"]):
                self.assertEqual(vl | {"offset_ns": 0}, own | {"offset_ns": 0})
        self.assertGreater(min(share.values()), 0.85)
        self.assertIn("virtual link 301 at DU_L: ", out)

    def test_jitter_of_the_first_offers_is_counted_in(self):
        """101 and 102 are offered up to 0.1 ms late, as a seed draws it."""
        self.assertEqual(self.call(COCKPIT, "--aim", "101", "--seeds", "3")[0], 0)
        frames = {}
        for row in self.rows():
            self.assertGreaterEqual(int(row["aimed_ns"]), int(row["frame_ns"]) - 200)
            frames.setdefault((row["where"], row["network"]), set()).add(row["frame_ns"])
        self.assertEqual({len(it) for it in frames.values()}, {1})

    def test_each_limit_is_tried(self):
        """Aimed runs break a limit that drawn offsets keep, and the status says so."""
        short = ["--until", "100000000"]
        limits = self.file("limits.csv", "301,DU_L,200000\n301,DU_R,400000\n101,FMC1,10000000\n")
        status, out, _ = self.call(COCKPIT, "--seeds", "4", "--offsets", "--limits", limits, *short)
        self.assertEqual((status, "limits: 3, broken: 0" in out), (0, True), out)
        status, out, said = self.call(COCKPIT, "--aim", "all", "--limits", limits, "--jobs", "2", *short)
        self.assertEqual((status, said), (1, ""), out)
        rows = self.rows()
        self.assertEqual({(row["vl"], row["where"], row["network"]) for row in rows}, {(vl, where, side) for vl, where in (("301", "DU_L"), ("301", "DU_R"), ("101", "FMC1")) for side in "AB"})
        worst = max((row for row in rows if row["where"] == "DU_L"), key=lambda row: int(row["aimed_ns"]))
        wanted = f"limits: 3, tried: 3, broken: 1, below the bound: 0\nlimit broken: virtual link 301 at DU_L has 200 us, and took {us_text(int(worst['aimed_ns']))} aimed at by network {worst['network']} with the seed 7\n"
        self.assertTrue(out.endswith(wanted), out)
        # Of one virtual link its own limits are tried alone, and one process finds the same offsets.
        status, out, _ = self.call(COCKPIT, "--aim", "301", "--limits", limits, "--jobs", "1", *short)
        self.assertEqual(status, 1)
        self.assertIn("limits: 3, tried: 2, broken: 1, below the bound: 0\n", out)
        self.assertTrue(out.endswith("limit not tried: virtual link 101 at FMC1\n"))
        self.assertEqual([row for row in self.rows() if row["where"] != "DU_C"], [row for row in rows if row["vl"] == "301"])
        kept = self.file("kept.csv", "301,DU_L,900000\n")
        self.assertEqual(self.call(COCKPIT, "--aim", "all", "--limits", kept, *short)[0], 0)

    def test_all_of_a_small_network(self):
        status, out, _ = self.call(N1, "--aim", "all")
        self.assertEqual((status, [(row["vl"], row["where"]) for row in self.rows()]), (0, [("1", "ES2")]))

    def test_a_limit_that_no_frame_can_break(self):
        path = self.file("net.toml", read(N1).replace("size = 64", "size = 65"))
        printed = f"afdx campaign: {path}: no frame of the aimed virtual links arrives: size is above smax\n"
        self.assertEqual(self.call(path, "--aim", "all", "--limits", self.file("limits.csv", "1,ES2,5\n")), (2, "", printed))

    def test_a_run_that_is_too_short(self):
        status, _, said = self.call(COCKPIT, "--aim", "301", "--until", "100000")
        self.assertEqual(status, 2)
        self.assertRegex(said, rf"^afdx campaign: {re.escape(COCKPIT)} line \d+: the run ends before the aimed frame arrives: until_ns must be \d+ at the least\n$")

    def test_above_a_bound(self):
        """What cannot be: it is reported, and the status is 1."""
        honest = output_ports.longest_wait
        try:
            output_ports.longest_wait = lambda vl: -10**6
            status, out, _ = self.call(N1, "--aim", "1")
        finally:
            output_ports.longest_wait = honest
        self.assertEqual(status, 1)
        self.assertIn("above a bound, so one of the two is wrong: 1,ES2,A,42,27720,27720,27720,27720,", out)

    def test_no_frame_arrives(self):
        path = self.file("net.toml", read(N1).replace("size = 64", "size = 65"))
        printed = f"afdx campaign: {path}: no frame of the aimed virtual links arrives: size is above smax\n"
        self.assertEqual(self.call(path, "--aim", "1"), (2, "", printed))


class LongForm(Here):
    def setUp(self):
        super().setUp()
        self.stand_in()

    def json(self, name):
        return json.loads(read(os.path.join(self.output, name)))

    def test_merged_tables(self):
        self.assertEqual(self.call(SATURATED, "--seeds", "3", "--json")[0], 0)
        found = {(row["kind"], row["vl"], row["where"], row["measure"]): row["value"] for row in self.json("merged.json")}
        rows = list(csv.DictReader(read(self.merged).splitlines()))
        for row in rows:
            key = row["table"], int(row["vl"]), row["where"]
            if row["table"] == "latency":
                for name in ("count", "least_ns", "greatest_ns", "sum_ns", "seed"):
                    self.assertEqual(found.pop((*key, name)), int(row[name]))
            else:
                self.assertEqual(found.pop((*key, row["cause"])), int(row["count"]))
        greatest = csv.DictReader(read(os.path.join(self.output, "greatest.csv")).splitlines())
        for row in greatest:
            for name in ("runs", "least_greatest_ns", "mean_greatest_ns", "sum_greatest_ns"):
                self.assertEqual(found.pop(("greatest", int(row["vl"]), row["where"], name)), int(row[name]))
        self.assertEqual(found, {})

    def test_sweeps_and_aims(self):
        self.assertEqual(self.call(N1, "--set", "vl.1.depth=1,2", "--seeds", "2", "--json")[0], 0)
        rows = self.json("sweep.json")
        wanted = {"kind": "set", "vl": 1, "where": "ES2", "measure": "greatest_ns", "value": 27720, "set": 2, "vl.1.depth": 2}
        self.assertIn(wanted, rows)
        self.assertEqual(self.call(N1, "--aim", "1", "--json")[0], 0)
        self.assertIn({"kind": "aim", "vl": 1, "where": "ES2", "measure": "way_ns", "value": 27720, "network": "A", "seed": 42}, self.json("aim.json"))

    def test_each_value_is_a_whole_number(self):
        self.assertEqual(self.call(COCKPIT, "--set", "vl.101.priority=low,high", "--seeds", "1", "--json")[0], 0)
        for row in self.json("sweep.json"):
            self.assertEqual((list(row)[:5], type(row["value"])), (list(long_form.KEYS), int))

    def test_no_rows(self):
        self.assertEqual(json.loads(long_form.text_of([])), [])


if __name__ == "__main__":
    unittest.main()
