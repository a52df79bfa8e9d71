"""Tests of hops.py: the file of what was measured on the way, and measured beside bounds."""
import contextlib
import csv
import io
import os
import shutil
import tempfile
import unittest

from afdx import model
from afdx.commands import bounds
from afdx.files import Fault
from afdx.reckon import hops, network_calculus
from afdx.runs import second_opinion
from afdx.runs.measured_hops import Measured
from afdx.reckon.bounds_rows import BoundsRows
from tests.test_bounds import MS, TO_END, TO_SWITCH, busy, last_bit, network, virtual_link, way
from tests.test_report import Browser, UNFOLD, make, ns_of, number_of
from tests.places import EXAMPLES



class Files(unittest.TestCase):
    def setUp(self):
        folder = tempfile.TemporaryDirectory()
        self.addCleanup(folder.cleanup)
        self.path = os.path.join(folder.name, "hops.csv")

    def measured(self, name):
        """The tables of an example, and the text of what was measured in its run."""
        path = os.path.join(EXAMPLES, name + ".toml")
        with contextlib.redirect_stdout(io.StringIO()):
            second_opinion.main([path, "--hops", self.path])
        with open(self.path, encoding="utf-8") as file:
            text = file.read()
        return model.Tables(path.replace(".toml", ".tables.csv"), model.Network(path)), text

    def read(self, tables, text):
        with open(self.path, "w", encoding="utf-8") as out:
            out.write(text)
        return hops.Hops(self.path, tables)

    def test_each_example_is_read(self):
        for name in ("cockpit", "five_links", "link_outage", "maintenance", "n1", "n2", "n3", "saturated_port"):
            with self.subTest(name):
                tables, text = self.measured(name)
                found = self.read(tables, text)
                self.assertEqual(len(found.of), len(text.splitlines()) - 1)

    def test_what_is_of_another_run_or_none(self):
        tables, text = self.measured("n1")
        delay = "delay,1,ES1>SW1,1,5760,5760,5760\n"
        for changed, said in (
            (text.replace("kind,", "kinds,", 1), "line 1: the columns are not those of what --hops writes: kind,vl,where,count,least,greatest,sum"),
            (text[:-1], "line 9: the line feed at the end is missing, so the file is not whole"),
            (text + delay, "line 10: says again what line 5 says"),
            (text.replace(delay, delay.replace("delay", "delays")), "line 5: 'delays' is nothing that is measured"),
            (text.replace(delay, delay.replace(",1,5760", ",1,-5760")), "line 5: least is '-5760', and no whole number"),
            (text.replace(delay, delay.replace("ES1>SW1", "ES2>SW1")), f"line 5: 'ES2>SW1' is no place of virtual link 1 in {tables.net.path} where delay is measured"),
            (text.replace(delay, delay.replace("5760\n", "5761\n")), "line 5: 1 times from 5760 to 5760 cannot have the sum 5761"),
            (text.replace(delay, "delay,1,ES1\n"), "line 5: has 3 fields in place of 7"),
            (text.replace("network,1,ES2,1,27720,27720,27720\n", ""), f"line 8: 0 frames of virtual link 1 came to ES2, and line 2 of {tables.path} has 1: it is of another run"),
            (text.replace("network,1,ES2,1,27720,27720,27720", "network,1,ES2,1,27721,27721,27721"), f"line 3: no latency of virtual link 1 at ES2 can be 27720 ns, as line 2 of {tables.path} has it: it is of another run"),
        ):
            with self.subTest(said), self.assertRaises(Fault) as found:
                self.read(tables, changed)
            self.assertEqual(str(found.exception), f"{self.path} {said}")


def listed(columns):
    return {name: list(column) for name, column in columns.items()}


class Beside(unittest.TestCase):
    def test_columns(self):
        """Of the smallest example, with bounds of a test's own: one is above."""
        path = os.path.join(EXAMPLES, "n1.toml")
        net = model.Network(path)
        run = Measured(net.description.tree)
        run.run()
        greatest = {(kind, vl, run.names[place]): tally.greatest for (kind, vl, place), tally in run.found.items()}

        class Found:
            def greatest(self, *key):
                return greatest.get(key)

        bound = {("delay", 1, "ES1>SW1"): 5759, ("delay", 1, "SW1>ES2"): 5760, ("network", 1, "ES2"): 27720}
        way = hops.OnTheWay(net, Found(), lambda *key: bound.get(key), [(1, "ES2")])
        wanted = {"vl": [1, 1], "line": ["ES1>SW1", "SW1>ES2"], "delay": [5760, 5760], "delay_bound": [5759, 5760], "delay_tone": [2, 0]}
        self.assertEqual(listed(way.hops()), wanted)
        self.assertEqual(listed(way.switches()), {"vl": [1], "where": ["SW1"], "jitter": [0], "jitter_bound": [None], "jitter_tone": [0], "allowed": [0]})
        self.assertEqual(way.ports()["holds"], [4096, 65536])
        found = listed(way.destinations())
        self.assertEqual((found["network"], found["network_bound"], found["network_b"], found["wait"]), ([27720], [27720], [None], [0]))
        self.assertEqual(way.above(), 1)
        self.assertEqual(hops.OnTheWay(net, None, None, []).above(), 0)


class Bounds(unittest.TestCase):
    """Worked out by hand."""

    def test_each_network_hop_and_skew(self):
        """By A frames of 1 and 2 wait for each other at the source, by B, ten times slower, 1 is alone. 1 is offered up to
        0.2 ms late."""
        vls = [virtual_link(1, way("E1", "A", "E2"), way("E1", "B", "E2"), jitter_ns=200_000), virtual_link(2, way("E1", "A", "E2"))]
        found = network(vls, {("B", "E1"): 10, ("B", "E2"): 10})
        by_a = busy(64) + last_bit(64) + TO_SWITCH + last_bit(64) + TO_END
        by_b = 10 * last_bit(64) + TO_SWITCH + 10 * last_bit(64) + TO_END
        least_a = last_bit(64) + TO_SWITCH + last_bit(64) + TO_END
        for kind, where, ns in (
            ("wait", "E1", 200_000), ("network", "E2", by_a), ("network_a", "E2", by_a), ("network_b", "E2", by_b),
            ("skew", "E2", by_b - least_a), ("delay", "E1>A", busy(64) + last_bit(64)), ("delay", "A>E2", last_bit(64)),
            ("delay", "E1>B", 10 * last_bit(64)), ("jitter", "A", busy(64)), ("jitter", "B", 0),
        ):
            with self.subTest(kind, where=where):
                self.assertEqual(found.of_kind(kind, 1, where), ns)
        self.assertEqual(found.latencies[1, "E2"], (by_a + 200_000, ""))
        self.assertEqual([found.of_kind("backlog", None, line) for line in ("E1>A", "A>E2", "E1>B")], [64, 64, 0])
        self.assertIsNone(found.of_kind("network_b", 2, "E2"))
        text = BoundsRows(found).text().splitlines()
        rows = [dict(zip(text[0].split(","), line.split(","))) for line in text[1:]]
        row = next(row for row in rows if (row["vl"], row["where"]) == ("1", "E2"))
        said = [row[name] for name in ("bound_ns", "wait_ns", "network_ns", "network_a_ns", "network_b_ns", "skew_ns", "delay_ns")]
        self.assertEqual(said, [str(by_a + 200_000), "200000", str(by_a), str(by_a), str(by_b), str(by_b - least_a), ""])
        self.assertEqual([row["delay_ns"] for row in rows if (row["vl"], row["where"]) == ("1", "E1>A")], [str(busy(64) + last_bit(64))])

    def test_where_there_is_no_bound(self):
        """A line that may be given too much: its hop has none, nor has what goes over it; the hop before it has one."""
        vls = [virtual_link(i, way(f"E{i}", "A", "E3"), size=1000) for i in (1, 2)]
        found = network(vls, {("A", "E3"): 10})
        self.assertEqual([found.of_kind("delay", 1, line) for line in ("E1>A", "A>E3")], [last_bit(1000), None])
        self.assertIsNone(found.of_kind("network_a", 1, "E3"))
        self.assertIn("1,A>E3,,,,,A>E3 may be given more than it can send,", BoundsRows(found).text())

    def test_frames_that_are_too_long(self):
        found = network([virtual_link(1, way("E1", "A", "E2"), size=100, smax=64, period_ns=MS)])
        self.assertEqual([found.of_kind(kind, 1, "E2") for kind in ("network", "network_a", "skew")], [None] * 3)
        self.assertEqual(list(found.hops), [(1, "E1>A")])


class InTheBrowser(unittest.TestCase):
    """The page has each number of both files, and marks what is above its bound."""

    @classmethod
    def setUpClass(cls):
        cls.folder = tempfile.mkdtemp()
        cls.addClassCleanup(shutil.rmtree, cls.folder)
        cls.browser = Browser(cls.folder)
        cls.net = os.path.join(EXAMPLES, "cockpit.toml")
        cls.tables, cls.hops, cls.bounds, cls.page = (os.path.join(cls.folder, name) for name in ("t.csv", "h.csv", "b.csv", "p.html"))
        with contextlib.redirect_stdout(io.StringIO()) as out:
            second_opinion.main([cls.net, "--hops", cls.hops])
        with open(cls.tables, "w", encoding="utf-8") as file:
            file.write(out.getvalue())
        with contextlib.redirect_stdout(io.StringIO()):
            bounds.main([cls.net, "-o", cls.bounds])

    def columns(self, path, where):
        with open(path, encoding="utf-8") as file:
            return [row for row in csv.DictReader(file) if where(row)]

    def test_each_number(self):
        words = ["--hops", self.hops, "--bounds", self.bounds, "-o", self.page]
        self.assertEqual(make(self.net, self.tables, *words), (0, ""))
        page = self.browser.open(self.page, UNFOLD, "#vl-101")
        measured = {(row["kind"], row["vl"], row["where"]): int(row["greatest"]) for row in self.columns(self.hops, lambda row: True)}
        found = {}
        for table, place, names in (
            ("parts", "destination", {"network": "network's own", "network_a": "by A", "network_b": "by B", "skew": "skew"}),
            ("delays", "line", {"delay": "delay"}), ("jitters", "switch", {"jitter": "jitter"}), ("backlogs", "line", {"backlog": "waits"}),
        ):
            for row in page.columns(table):
                for kind, name in names.items():
                    read = number_of if kind == "backlog" else ns_of
                    if row[name + ", measured"] != "–":
                        found[kind, row.get("VL", ""), row[place]] = read(row[name + ", measured"])
                    bound = row[name + ", bound"]
                    own = network_calculus.Bounds(model.Network(self.net)).of_kind(kind, int(row["VL"]) if "VL" in row else None, row[place])
                    self.assertEqual(None if bound == "–" else read(bound), own)
        self.assertEqual(found, {key: greatest for key, greatest in measured.items() if key[0] != "wait"})
        waits = {row["VL"]: ns_of(row["wait in the regulator, measured"]) for row in page.columns("parts")}
        self.assertEqual(waits, {vl: greatest for (kind, vl, _), greatest in measured.items() if kind == "wait"})
        hops_of_101 = {row["line"]: (row["delay"], row["bound of it"]) for row in page.columns("vl-hops")}
        self.assertEqual(ns_of(hops_of_101["SWA1>SWA2"][0]), measured["delay", "101", "SWA1>SWA2"])
        self.assertEqual(len(hops_of_101), 14)
        self.assertNotIn("above on the way", page.tiles)

    def test_what_is_above_its_bound(self):
        """A delay of a bounds file that is too low is marked and reported, and the status is 1."""
        other = os.path.join(self.folder, "low.csv")
        with open(self.bounds, encoding="utf-8") as file:
            rows = list(csv.reader(file))
        place = rows[0].index("delay_ns")
        for row in rows[1:]:
            if row[:2] == ["101", "SWA1>SWA2"]:
                row[place] = "1"
        with open(other, "w", encoding="utf-8", newline="") as file:
            csv.writer(file, lineterminator="\n").writerows(rows)
        status, said = make(self.net, self.tables, "--hops", self.hops, "--bounds", other, "-o", self.page)
        self.assertEqual((status, said), (1, "afdx report: 1 of what was measured on the way are above their bounds: one of the two is wrong\n"))
        page = self.browser.open(self.page, UNFOLD)
        self.assertEqual(page.tiles["above on the way"][0], "1")
        marks = [mark["delay, measured"] for row, mark in zip(page.columns("delays"), page.marked("delays")) if (row["VL"], row["line"]) == ("101", "SWA1>SWA2")]
        self.assertEqual(marks, ["bad"])

    def test_one_file_of_the_two(self):
        self.assertEqual(make(self.net, self.tables, "--hops", self.hops, "-o", self.page), (0, ""))
        page = self.browser.open(self.page, UNFOLD)
        self.assertEqual(page.tables["delays"][0], ["VLnumber", "line", "delayµs"])
        self.assertEqual(make(self.net, self.tables, "--bounds", self.bounds, "-o", self.page), (0, ""))
        page = self.browser.open(self.page, UNFOLD)
        self.assertEqual(len(page.rows("delays")), 84)


if __name__ == "__main__":
    unittest.main()
