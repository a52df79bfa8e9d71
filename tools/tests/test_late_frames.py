"""Tests of why frames are late: the way of the worst frame, hop by hop. The numbers of the small network are worked out by hand."""
import contextlib
import csv
import io
import os
import tempfile
import tomllib
import unittest
import xml.etree.ElementTree as xml

from afdx.commands import campaign, report
from afdx.runs import late_frames
from tests.places import EXAMPLES
from tests.test_campaign import Here, read

# Two end systems send frames of 100 bytes to a third one by a switch, at 100 Mbit/s (80 ns a byte): the second one 1,000 ns later.
SMALL = """until_ns = 20000000
seed = 1
[[node]]
name = "ES1"
kind = "es"
port_bytes = 10000
[[node]]
name = "ES2"
kind = "es"
port_bytes = 10000
[[node]]
name = "ES3"
kind = "es"
port_bytes = 10000
[[node]]
name = "SW"
kind = "switch"
net = "A"
latency_ns = 10000
port_bytes = 10000
{links}
[[vl]]
id = 1
bag_ms = 2
smax = 100
a = [["ES1", "SW", "ES3"]]
b = []
{common}
offset_ns = 0
[[vl]]
# limit_ns 30000 at ES3
id = 2
bag_ms = 2
smax = 100
a = [["ES2", "SW", "ES3"]]
b = []
{common}
offset_ns = 1000
"""
LINK = '[[link]]\na = "{}"\nb = "SW"\nmbit = 100\npropagation_ns = 50\n'
COMMON = 'priority = "low"\npolicing_jitter_ns = 0\nskew_max_ns = 0\ndepth = 4\nsub = 1\nsize = 100\nperiod_ns = 20000000\njitter_ns = 0'


def small():
    return SMALL.format(links="".join(LINK.format(name) for name in ("ES1", "ES2", "ES3")), common=COMMON)


class ByHand(unittest.TestCase):
    def test_a_frame_that_waits_behind_another(self):
        """The first frame is at the port of the switch 8640 + 50 + 10000 ns after its offer and keeps the line for 9600 ns; the second one
        comes 1,000 ns later, waits until then, and takes 8640 + 50 ns to the destination."""
        key = 2, "ES3"
        late = late_frames.worst(tomllib.loads(small()), [key])[key]
        self.assertEqual((late.offered_ns, late.released_ns, late.network, late.size), (1000, 1000, "A", 100))
        first, second = late.hops
        self.assertEqual(first, ("ES2>SW", 1000, 1000, 9640, ()))
        self.assertEqual(second[:4], ("SW>ES3", 19690, 28290, 36930))
        self.assertEqual(second.ahead, ((1, 100, 18690, 28290),))
        self.assertEqual((late.delivered_ns, late.latency_ns()), (36980, 35980))

    def test_hops_of_examples_follow_one_another(self):
        """At each port the first bit leaves when the last frame ahead leaves the line free, or at once; and the next port has the frame
        after the propagation and the latency of the switch. The latencies are those of the program's tables."""
        for name in ("saturated_port", "cockpit", "maintenance"):
            with open(os.path.join(EXAMPLES, name + ".toml"), "rb") as file:
                tree = tomllib.load(file)
            latency = {row["name"]: row.get("latency_ns") for row in tree["node"]}
            with open(os.path.join(EXAMPLES, name + ".tables.csv"), encoding="utf-8") as file:
                rows = [row for row in csv.DictReader(file) if row["table"] == "latency" and row["count"] != "0"]
            links = {frozenset((row["a"], row["b"])): row for row in tree["link"]}
            found = late_frames.worst(tree, [(int(row["vl"]), row["where"]) for row in rows])
            for row in rows:
                late = found[int(row["vl"]), row["where"]]
                self.assertEqual(late.latency_ns(), int(row["greatest_ns"]))
                came = late.released_ns
                for hop in late.hops:
                    link = links[frozenset(hop.line.split(">"))]
                    begins = hop.ahead[-1].ends_ns if hop.ahead else hop.came_ns
                    self.assertEqual((hop.came_ns, hop.begins_ns), (came, begins))
                    self.assertEqual(hop.left_ns, begins + (late.size + 8) * 8000 // link["mbit"])
                    for one, other in zip(hop.ahead, hop.ahead[1:]):
                        self.assertEqual(one.ends_ns, other.begins_ns)
                    arrives = hop.left_ns + link["propagation_ns"]
                    came = arrives + (latency[hop.line.split(">")[1]] or 0)
                self.assertEqual(arrives, late.delivered_ns)


class OfPages(Here):
    def setUp(self):
        super().setUp()
        self.stand_in()
        self.net = self.file("net.toml", small())

    def called(self, main, *words):
        out, err = io.StringIO(), io.StringIO()
        with contextlib.redirect_stdout(out), contextlib.redirect_stderr(err):
            status = main(list(words))
        return status, out.getvalue(), err.getvalue()

    def test_the_page_and_csv_of_a_run(self):
        tables = self.file("tables.csv", "table,vl,where,cause,count,least_ns,greatest_ns,sum_ns\nlatency,1,ES3,,1,27380,27380,27380\nlatency,2,ES3,,1,35980,35980,35980\n")
        page, ways = (os.path.join(self.folder, name) for name in ("page.html", "late.csv"))
        status, _, err = self.called(report.main, self.net, tables, "--limits", self.net, "--late", ways, "-o", page)
        self.assertEqual((status, err), (1, ""))
        own = "2,ES3,broken,30000,35980,A,1,as described"
        self.assertEqual(read(ways).splitlines(), [
            "vl,destination,verdict,limit_ns,latency_ns,network,seed,run,step,at,came_ns,begins_ns,left_ns,waited_ns,behind",
            f"{own},0,ES2,1000,1000,1000,0,", f"{own},1,ES2>SW,1000,1000,9640,0,", f"{own},2,SW>ES3,19690,28290,36930,8600,1:100",
        ])
        text = read(page)
        begin = text.index('<section id="late">')
        section = xml.fromstring(text[begin : text.index("</section>", begin) + len("</section>")])
        rows = [["".join(cell.itertext()) for cell in row.iter("td")] for row in section.iter("tr") if row.find("td") is not None]
        self.assertEqual([row[:5] for row in rows], [
            ["ES2, regulator", "1", "0", "1", ""], ["ES2>SW", "1", "0", "1", "9.64"], ["SW>ES3", "19.69", "8.6", "28.29", "36.93"],
        ])
        self.assertEqual(rows[2][6], "1 frame of virtual link 1 (100 bytes)")
        bars = [(rect.get("class"), float(rect.get("x")), float(rect.get("width"))) for rect in section.iter("rect")]
        # 35,980 ns are 360 wide.
        self.assertEqual(bars, [("sends", 0.0, 86.4), ("wait w0", 187.0, 86.0), ("sends", 273.1, 86.4)])

    def test_tables_of_another_run_have_no_way(self):
        tables = self.file("tables.csv", "table,vl,where,cause,count,least_ns,greatest_ns,sum_ns\nlatency,1,ES3,,1,27380,27380,27380\nlatency,2,ES3,,1,35990,35990,35990\n")
        page, ways = (os.path.join(self.folder, name) for name in ("page.html", "late.csv"))
        self.called(report.main, self.net, tables, "--limits", self.net, "--late", ways, "-o", page)
        self.assertIn("For 1 limit the way is not shown: the run that was made again has another greatest latency there.", read(page))
        self.assertEqual(len(read(ways).splitlines()), 1)

    def test_the_aimed_run_that_found_it(self):
        """As described the frames meet; the aimed run makes the second one wait for nearly all of the first."""
        status, out, err = self.called(
            campaign.main, self.net, "--aim", "all", "--limits", self.net, "--program", self.program, "-o", self.output
        )
        self.assertEqual((status, err), (1, ""))
        with open(os.path.join(self.output, "late.csv"), encoding="utf-8") as file:
            rows = list(csv.DictReader(file))
        self.assertEqual([(row["run"], row["verdict"], row["at"]) for row in rows], [("aimed by network A", "broken", at) for at in ("ES2", "ES2>SW", "SW>ES3")])
        with open(os.path.join(self.output, "aim.csv"), encoding="utf-8") as file:
            (line,) = csv.DictReader(file)
        self.assertEqual(rows[0]["latency_ns"], line["aimed_ns"])
        self.assertEqual(rows[2]["behind"], "1:100")
        self.assertIn("Why it is late", read(os.path.join(self.output, "late.html")))


if __name__ == "__main__":
    unittest.main()
