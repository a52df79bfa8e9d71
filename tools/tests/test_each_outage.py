"""Tests of afdx campaign --each-outage: its results are compared with the notes of the plain simulator."""
import html.parser
import os
import tomllib
import unittest

from afdx.reckon.frames import Range
from afdx.runs import each_outage
from afdx.runs.plain_simulator import Simulation
from tests.test_campaign import FAILING, Here, N1, read

HEAD = (
    "out,vl,where,delivered_before,delivered,lost_before_least,lost_before_most,lost_least,lost_most,"
    "greatest_before_ns,greatest_ns"
)


def settled(tree):
    """For each virtual link and destination of a network whose frames all come to an end: how many were delivered, how
    many not, and the greatest latency. Each frame is known by the moment in which it was offered."""
    simulation = Simulation(tree)
    offered = {}
    for _, _, sender, _, _, (vl, *_) in simulation.heap:
        offered[vl] = offered.get(vl, 0) + 1
    simulation.run()
    found, copies = {}, 0
    for time, place, vl, what, value in simulation.rows:
        copies += 1
        if what == "delivered":
            found.setdefault((vl, simulation.names[place]), []).append((time - value, value))
    rows = {row["id"]: row for row in tree["vl"]}
    assert copies == sum(offered[vl] * (len(row["a"]) + len(row["b"])) for vl, row in rows.items()), "all has come to an end"
    answers = {}
    for vl, place in sorted(simulation.destinations):
        values = found.get((vl, simulation.names[place]), [])
        assert len({moment for moment, _ in values}) == len(values)
        greatest = max((value for _, value in values), default=0)
        answers[vl, simulation.names[place]] = len(values), offered[vl] - len(values), greatest
    return answers


def with_outage(tree, pairs, from_ns, seed):
    """The network with both directions of links out from a moment on."""
    rows = [{"from": a, "to": b, "from_ns": from_ns, "to_ns": tree["until_ns"] + 1} for pair in pairs for a, b in (pair, pair[::-1])]
    return tree | {"outage": tree.get("outage", []) + rows, "seed": seed}


def expected(path, elements, from_ns, seeds):
    """The lines of the table, from the notes of each run."""
    with open(path, "rb") as file:
        tree = tomllib.load(file)

    def together(pairs):
        runs = [settled(with_outage(tree, pairs, from_ns, seed)) for seed in seeds]
        return {key: (sum(r[key][0] for r in runs), sum(r[key][1] for r in runs), max(r[key][2] for r in runs)) for key in runs[0]}

    before, lines = together([]), []
    for name, pairs in elements:
        for (vl, where), (delivered, lost, greatest) in together(pairs).items():
            was, was_lost, was_greatest = before[vl, where]
            if lost > was_lost or greatest > was_greatest:
                numbers = was, delivered, was_lost, was_lost, lost, lost, was_greatest, greatest
                lines.append(f"{name},{vl},{where},{','.join(map(str, numbers))}")
    return lines


class Rows(html.parser.HTMLParser):
    """The texts of the cells of a page, row by row, and of its tiles."""

    def __init__(self, text):
        super().__init__()
        self.rows, self.open, self.all = [], [], []
        self.feed(text)

    def handle_starttag(self, tag, _):
        if tag == "tr":
            self.rows.append([])
        if tag in ("td", "th"):
            self.rows[-1].append("")

    def handle_data(self, data):
        self.all.append(data)
        if self.rows and self.rows[-1]:
            self.rows[-1][-1] += data


# The links of the example, and its switches, in the order of the description.
LINKS = [("FCC", "SWA"), ("SWA", "ACT"), ("FCC", "SWB"), ("SWB", "ACT")]
ELEMENTS = [(f"link {a} {b}", [(a, b)]) for a, b in LINKS]
ELEMENTS += [(f"switch {name}", [pair for pair in LINKS if name in pair]) for name in ("SWA", "SWB")]


class EachOutage(Here):
    def lines_of_table(self):
        """The lines of the table without the last column, which names the program."""
        return [line.rpartition(",")[0] for line in read(os.path.join(self.output, "outages.csv")).splitlines()]

    def test_what_is_lost_and_what_becomes_late(self):
        """In the whole run and from a moment on, with one seed and with two."""
        self.stand_in()
        for from_ns, seeds, words in (
            (0, (1,), ["--each-outage"]),
            (50_000_000, (1,), ["--each-outage", "50000000"]),
            (0, (5, 6), ["--each-outage", "--seeds", "2", "--first", "5"]),
        ):
            with self.subTest(words):
                words = [*words, "--first", "1"] if len(seeds) == 1 else words
                status, out, said = self.call(FAILING, *words, "--jobs", "2")
                self.assertEqual((status, said), (0, ""))
                found = self.lines_of_table()
                lines = expected(FAILING, ELEMENTS, from_ns, seeds)
                self.assertGreater(len(lines), 5)
                self.assertEqual(found, [HEAD, *lines])
                self.assertIn(f": 6 outages, {7 * len(seeds)} runs, in ", out)

    def test_drawn_offsets(self):
        """Each run of a seed has the offsets that a campaign draws for it."""
        self.stand_in()
        self.assertEqual(self.call(FAILING, "--each-outage", "--offsets", "--first", "3", "--keep")[0], 0)
        drawn = os.path.join(self.output, "outage-0-seed-3.toml")
        with open(drawn, "rb") as file, open(FAILING, "rb") as other:
            offsets, before = ([vl["offset_ns"] for vl in tomllib.load(it)["vl"]] for it in (file, other))
        self.assertFalse(set(offsets) & set(before))
        lines = expected(drawn, ELEMENTS, 0, (3,))
        self.assertGreater(len(lines), 5)
        self.assertEqual(self.lines_of_table(), [HEAD, *lines])

    def test_by_hand(self):
        """Without the first link nothing of virtual link 2 arrives, which has that network alone: 18 of its 25 frames came
        before. Virtual link 1 has the other network; its frames took 33880 ns at most before, and take as long. What comes
        back by the link is late by what the lines of the other network are longer."""
        self.stand_in()
        status, out, _ = self.call(FAILING, "--each-outage", "--keep")
        self.assertEqual(status, 0)
        lines = [line for line in self.lines_of_table() if line.startswith("link FCC SWA,")]
        self.assertEqual(
            lines, ["link FCC SWA,2,ACT,18,0,7,7,25,25,75080,0", "link FCC SWA,3,FCC,25,25,0,0,0,0,33480,33880"]
        )
        printed = "link FCC SWA: 18 frames more lost end to end at 1 destinations, 1 later, most virtual link 3 at FCC from 33.48 us"
        self.assertIn(printed + " to 33.88 us\n", out)
        self.assertEqual(len(os.listdir(self.output)), 3 + 2 * 7)
        with open(os.path.join(self.output, "outage-5-seed-1.toml"), "rb") as file:
            outages = tomllib.load(file)["outage"]
        with open(FAILING, "rb") as file:
            tree = tomllib.load(file)
        given = [(row["from"], row["to"]) for row in outages if row["to_ns"] == tree["until_ns"] + 1 and row["from_ns"] == 0]
        self.assertEqual(sorted(given), sorted([("FCC", "SWA"), ("SWA", "FCC"), ("SWA", "ACT"), ("ACT", "SWA")]))

    def test_the_page(self):
        """The worst outage first; in each the destinations, the worst first."""
        self.stand_in()
        self.assertEqual(self.call(FAILING, "--each-outage")[0], 0)
        page = Rows(read(os.path.join(self.output, "outages.html")))
        text = " ".join(page.all)
        self.assertIn("was out in turn, the whole run, with the seed", text)
        self.assertIn("is no bound on what can happen. They are by afdxsim stand-in 1, not proved, SHA-256 ", text)
        self.assertEqual(page.rows[0], ["out", "frames more lost end to end", "destinations that lose", "destinations later", "latest by"])
        # A row that holds a table of its own ends where that begins.
        names = [row[0] for row in page.rows if row and row[0].startswith(("link", "switch"))]
        worst = ["link FCC SWA", "link SWA ACT", "switch SWA", "link FCC SWB", "link SWB ACT", "switch SWB"]
        self.assertEqual([name.split("virtual")[0] for name in names], worst)
        inner = [row for row in page.rows if row[:2] == ["2", "ACT"]]
        self.assertEqual(inner[0][:7], ["2", "ACT", "18", "0", "7", "25", "75,080 ns"])
        self.assertIn("nothing came", inner[0][7])

    def test_a_link_that_nothing_passes(self):
        self.stand_in()
        text = read(N1).replace('name = "SW1"', 'name = "ES3"\nkind = "es"\nport_bytes = 4096\n[[node]]\nname = "SW1"')
        net = self.file("net.toml", text + '[[link]]\na = "ES3"\nb = "SW1"\nmbit = 100\npropagation_ns = 100\n')
        status, out, _ = self.call(net, "--each-outage")
        self.assertEqual(status, 0)
        self.assertIn(": 3 outages, 4 runs, in ", out)
        self.assertIn("1 more are passed by no virtual link", read(os.path.join(self.output, "outages.html")))
        # Its one frame is lost each time.
        lines = [f"{name},1,ES2,1,0,0,0,1,1,27720,0" for name in ("link ES1 SW1", "link SW1 ES2", "switch SW1")]
        self.assertEqual(self.lines_of_table(), [HEAD, *lines])

    def test_a_frame_under_way_at_the_end(self):
        """A frame that is offered when no copy of it can arrive any more is not lost."""
        self.stand_in()
        net = self.file("net.toml", read(N1).replace("offset_ns = 0", "offset_ns = 1990000"))
        self.assertEqual(self.call(net, "--each-outage", "1999999")[0], 0)
        self.assertEqual(self.lines_of_table(), [HEAD])

    def test_limits(self):
        """A limit that is broken in an outage, and kept without it, gives the status 1."""
        self.stand_in()
        limits = self.file("limits.csv", "3,FCC,33879\n1,ACT,33880\n")
        status, out, _ = self.call(FAILING, "--each-outage", "--limits", limits)
        self.assertEqual(status, 1)
        self.assertIn("limits: 2; outages that break one which is else kept: 3\n", out)
        limits = self.file("limits.csv", "3,FCC,33880\n1,ACT,33879\n")
        self.assertEqual(self.call(FAILING, "--each-outage", "--limits", limits)[0], 0)

    def test_a_run_fails(self):
        """What was found before it is kept."""
        self.stand_in("if sum(row['from'] == 'SWB' and row['from_ns'] == 0 for row in net['outage']): sys.exit('no')")
        for jobs in ("1", "3"):
            status, out, said = self.call(FAILING, "--each-outage", "--first", "1", "--jobs", jobs)
            self.assertEqual((status, said), (1, "afdx campaign: seed 1 without link FCC SWB: no (status 1)\n"))
            self.assertIn(": 2 outages, 3 runs, in ", out)
            lines = expected(FAILING, ELEMENTS[:2], 0, (1,))
            self.assertEqual(self.lines_of_table(), [HEAD, *lines])
        self.stand_in("sys.exit('no')")
        printed = self.call(FAILING, "--each-outage", "--first", "1")
        said = "no run without an outage was made, and nothing is written\n"
        self.assertEqual(printed, (1, said, "afdx campaign: seed 1: no (status 1)\n"))

    def test_bad_words(self):
        self.stand_in()
        for words in (["--each-outage", "-1"], ["--each-outage", "--histograms"], ["--each-outage", "x"], []):
            with self.assertRaises(SystemExit) as ended:
                self.call(N1, *words)
            self.assertEqual(ended.exception.code, 2)

    def test_what_counts_as_later(self):
        """In ns, or as a part of what it was; more than one percent if nothing is given."""
        for word, before, now, counts in (
            ("0", 1000, 1001, 1), ("0", 1000, 1000, 0), ("0", 1000, 900, 0), ("10", 1000, 1010, 0), ("10", 1000, 1011, 11),
            ("5%", 1000, 1050, 0), ("5%", 1000, 1051, 51), ("0.1%", 1000, 1001, 0), ("0.1%", 1000, 1002, 2), ("1%", 0, 5, 5),
        ):
            self.assertEqual(each_outage.growth_that_counts(before, now, each_outage.least_later(word)), counts)
        self.assertEqual(each_outage.USUAL_LATER, each_outage.least_later("1%"))
        for word in ("", "x", "-1", "5 %", "1e3", "1" * 5000):
            with self.assertRaises(ValueError):
                each_outage.least_later(word)

    def test_later_on_the_page(self):
        """Three outages make frames of virtual link 3 later by 400 ns, of 33,480."""
        self.stand_in()
        for words, late, printed in (
            ([], "3", "1 percent"), (["--later", "399"], "3", "399 ns"), (["--later", "400"], "0", "400 ns"),
            (["--later", "1.1%"], "3", "1.1 percent"), (["--later", "2%"], "0", "2 percent"),
        ):
            with self.subTest(words):
                status, out, _ = self.call(FAILING, "--each-outage", "--first", "1", *words)
                self.assertEqual(status, 0)
                page = Rows(read(os.path.join(self.output, "outages.html")))
                text = "".join(page.all)
                self.assertIn(f"{late}outages that make frames later", text)
                self.assertIn(f"grows by more than {printed};", text)
                self.assertEqual(out.count(", 1 later"), int(late))
                # The table has each that grows, whatever counts.
                self.assertEqual(read(os.path.join(self.output, "outages.csv")).count(",33480,33880"), 3)

    def test_ranges(self):
        """Where it is known only from the least to the most how many are lost, so are the frames more."""
        three, five = Range(1, 3), each_outage.Range(2, 5)
        change = each_outage.Change(1, "E", 9, 8, three, five, 10, 10, 0)
        self.assertEqual(tuple(each_outage.more_lost(change)), (0, 4))
        self.assertEqual(each_outage.said(each_outage.more_lost(change)), "0 to 4")


if __name__ == "__main__":
    unittest.main()
