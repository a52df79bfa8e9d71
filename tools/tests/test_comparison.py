"""Tests of comparison.py and of what the page has of it: what two descriptions say differently, how bounds moved, and who made
the page when."""
import contextlib
import csv
import io
import os
import tempfile
import unittest

from afdx import model
from afdx.commands import bounds
from afdx.page import comparison
from tests.test_report import Page, make, read, simulated
from tests.places import EXAMPLES

OUTAGE = '[[outage]]\nfrom = "ES1"\nto = "SW1"\nfrom_ns = {}\nto_ns = {}\n'


class Here(unittest.TestCase):
    def setUp(self):
        folder = tempfile.TemporaryDirectory()
        self.addCleanup(folder.cleanup)
        self.folder, self.page = folder.name, os.path.join(folder.name, "page.html")

    def file(self, name, text):
        path = os.path.join(self.folder, name)
        with open(path, "w", encoding="utf-8") as out:
            out.write(text)
        return path

    def network(self, name, *changes, more=""):
        """The smallest example with changes, each of which it has."""
        text = read(os.path.join(EXAMPLES, "n1.toml"))
        for old, new in changes:
            self.assertIn(old, text)
            text = text.replace(old, new, 1)
        return self.file(name, text.replace("[[vl]]", more + "[[vl]]"))


class Differences(Here):
    def differing(self, before, now):
        return comparison.differences(*map(model.Network, (before, now)))

    def test_each_section(self):
        """Keys that differ, by the names of their rows, whatever the order of rows is; and rows of one description alone."""
        net = self.network("net.toml")
        own = model.Network(net)
        self.assertEqual(self.differing(net, net), [])
        vl = own.description.rows("vl")[0]
        other = self.network(
            "other.toml", ("seed = 42", "seed = 43"), (f"bag_ms = {vl['bag_ms']}", "bag_ms = 128"), ('latency_ns = 16000', "latency_ns = 7"),
            ("mbit = 100", "mbit = 10"), more=OUTAGE.format(0, 5) + OUTAGE.format(7, 9),
        )
        self.assertEqual(
            self.differing(net, other),
            [
                ("the run", "seed", "42", "43"), ("node SW1", "latency_ns", "16000", "7"), ("link ES1-SW1", "mbit", "100", "10"),
                ("outage ES1>SW1", "", "not there", "there"), ("outage ES1>SW1, number 2", "", "not there", "there"),
                ("virtual link 1", "bag_ms", str(vl["bag_ms"]), "128"),
            ],
        )
        back = self.differing(other, net)
        self.assertEqual([(*it[:2], it[3], it[2]) for it in self.differing(net, other)], back)

    def test_what_may_be_absent(self):
        """What a key means where it is absent is no difference; a link whose ends change places is none either."""
        net = self.network("net.toml")
        same = self.network("same.toml", ('a = "ES1"\nb = "SW1"', 'a = "SW1"\nb = "ES1"'), ("depth = ", "sub = 1\npolicing = \"bytes\"\ndepth = "))
        self.assertEqual(self.differing(net, same), [])
        frames = self.network("frames.toml", ("depth = ", "policing = \"frames\"\ndepth = "))
        self.assertEqual(self.differing(net, frames), [("virtual link 1", "policing", "bytes", "frames")])

    def test_long_paths_are_cut(self):
        net = self.network("net.toml")
        names = [f"S{i:030}" for i in range(4)]
        nodes = "".join(f'[[node]]\nname = "{name}"\nkind = "switch"\nport_bytes = 1518\nnet = "A"\nlatency_ns = 1\n' for name in names)
        ends = ["ES1", *names, "ES2"]
        links = "".join(f'[[link]]\na = "{a}"\nb = "{b}"\nmbit = 100\npropagation_ns = 1\n' for a, b in zip(ends, ends[1:]))
        other = self.network("other.toml", ('"ES1", "SW1", "ES2"', ", ".join(f'"{name}"' for name in ends)), more=nodes + links)
        found = [it for it in self.differing(net, other) if it[1] == "a"]
        self.assertEqual(len(found), 1)
        self.assertEqual((found[0][2], len(found[0][3]), found[0][3][-3:]), ('[["ES1", "SW1", "ES2"]]', 79, " .."))


class OnThePage(Here):
    def bounds_of(self, net, name):
        path = os.path.join(self.folder, name)
        with contextlib.redirect_stdout(io.StringIO()):
            self.assertEqual(bounds.main([net, "-o", path]), 0)
        return path

    def test_how_bounds_moved(self):
        """One way and back: by what both files say; and what differs in the descriptions stands beside."""
        before = os.path.join(EXAMPLES, "cockpit.toml")
        with open(before, encoding="utf-8") as file:
            text = file.read()
        now = self.file("slow.toml", text.replace("mbit = 100", "mbit = 10", 1))
        runs = {net: (simulated(net, self.folder, name)[1], self.bounds_of(net, name + "bounds.csv")) for net, name in ((before, "a"), (now, "b"))}

        def by_destination(net):
            with open(runs[net][1], encoding="utf-8") as file:
                destinations = model.Network(net).destinations
                rows = {(row["vl"], row["where"]): row["bound_ns"] for row in csv.DictReader(file) if row["vl"]}
                return {(vl, where): int(ns) for (vl, where), ns in rows.items() if (int(vl), where) in destinations and ns != "none"}

        for one, other in ((before, now), (now, before)):
            words = ["--against", runs[one][0], "--against-net", one, "--bounds", runs[other][1], "--against-bounds", runs[one][1]]
            status, said = make(other, runs[other][0], *words, "-o", self.page)
            self.assertEqual((status, said), (0, ""))
            data = Page(read(self.page)).data
            moved = data["bounds_moved"]
            was, then = by_destination(one), by_destination(other)
            wanted = {key: (was[key], then[key], then[key] - was[key]) for key in was if then[key] != was[key]}
            self.assertGreater(len(wanted), 2)
            found = {(str(vl), where): rest for vl, where, *rest in zip(*(moved[name] for name in ("vl", "where", "before", "now", "moved")))}
            self.assertEqual({key: tuple(rest) for key, rest in found.items()}, wanted)
            differ = data["differences"]
            self.assertEqual((differ["key"], {*differ["before"], *differ["now"]}), (["mbit"], {"10", "100"}))
            self.assertIn(f"Bounds that moved ({len(wanted)})", read(self.page))

    def test_bounds_of_the_other_run_need_both(self):
        """Alone they say nothing, and of another description they are refused."""
        net, tables = (os.path.join(EXAMPLES, "n1" + it) for it in (".toml", ".tables.csv"))
        path, other = self.bounds_of(net, "bounds.csv"), self.bounds_of(os.path.join(EXAMPLES, "n2.toml"), "other.csv")
        for words in (["--against-bounds", path], ["--against-bounds", path, "--against", tables], ["--against-bounds", path, "--bounds", path]):
            with self.assertRaises(SystemExit) as ended:
                make(net, tables, *words, "-o", self.page)
            self.assertEqual(ended.exception.code, 2)
        status, said = make(net, tables, "--against", tables, "--bounds", path, "--against-bounds", other, "-o", self.page)
        self.assertEqual(status, 2)
        self.assertIn(f"{other} line 2: these are bounds of another description", said)

    def test_dates(self):
        """The same words make the same page; a date stands there where it is given, as text."""
        net, tables = (os.path.join(EXAMPLES, "n1" + it) for it in (".toml", ".tables.csv"))
        pages = []
        for words in ([], [], ["--date", "2026-11-28 <now>"], ["--made-by", "afdxsim 0.1.0 & more"]):
            self.assertEqual(make(net, tables, *words, "-o", self.page), (0, ""))
            pages.append(read(self.page))
        self.assertEqual(pages[0], pages[1])
        foot = [page.split("<footer>")[1].split("</footer>")[0] for page in pages]
        self.assertTrue(foot[0].endswith(".."), foot[0])
        self.assertIn(" 2026-11-28 &lt;now&gt;. ", foot[2])
        self.assertIn("Nothing says who made the tables (--made-by).", foot[0])
        self.assertIn("The tables are by afdxsim 0.1.0 &amp; more.", foot[3])
        self.assertIn(f"SHA-256 {model.checksum(read(net))}", foot[0])


if __name__ == "__main__":
    unittest.main()
