"""Tests of traces, which are read line by line, and of what is reckoned on the runs of a campaign over outages."""
import os
import random
import subprocess
import tempfile
import unittest

from afdx import model
from afdx.model import traces
from afdx.runs import outage_frames
from afdx.runs.side_by_side import Printed
from tests.places import tool_words

# Four virtual links from one end system to another over two networks, with a frame each ms and no jitter.
NODES = """until_ns = {until}
seed = 1
node = [
  {{ name = "E", kind = "es", port_bytes = 65536 }},
  {{ name = "F", kind = "es", port_bytes = 65536 }},
  {{ name = "SA", kind = "switch", port_bytes = 65536, net = "A", latency_ns = 1 }},
  {{ name = "SB", kind = "switch", port_bytes = 65536, net = "B", latency_ns = 1 }},
]
"""
LINK = '[[link]]\na = "{}"\nb = "{}"\nmbit = 100\npropagation_ns = 1\n'
VL = """[[vl]]
id = {vl}
bag_ms = 1
smax = 64
priority = "low"
policing_jitter_ns = 0
skew_max_ns = 1000000
depth = 1
size = 64
offset_ns = 0
period_ns = 1000000
jitter_ns = 0
a = [["E", "SA", "F"]]
b = [["E", "SB", "F"]]
"""
MS = 10**6


def network_text(until_ns):
    links = "".join(LINK.format(*it.split()) for it in ("E SA", "SA F", "E SB", "SB F"))
    return NODES.format(until=until_ns) + links + "".join(VL.format(vl=vl) for vl in (1, 2, 3, 4))


def write_run(folder, count):
    """Writes a network, and the tables and the trace of a run in which each frame comes twice, in so many ms."""
    paths = [os.path.join(folder, name) for name in ("net.toml", "tables.csv", "trace.csv")]
    draw, sums = random.Random(1), {vl: [10**9, 0, 0] for vl in (1, 2, 3, 4)}
    with open(paths[0], "w") as out:
        out.write(network_text(count * MS - 1))
    with open(paths[2], "w") as out:
        out.write(model.TRACE_HEAD + "\n")
        for k in range(count):
            for vl, found in sums.items():
                latency = vl * 100_000 + draw.randrange(90_000)
                found[:] = min(found[0], latency), max(found[1], latency), found[2] + latency
                moment = k * MS + latency
                out.write(f"{moment},F,{vl},delivered,{latency}\n{moment + 5000},F,{vl},duplicate,64\n")
    with open(paths[1], "w") as out:
        out.write(model.TABLES_HEAD + "\n")
        out.writelines(f"latency,{vl},F,,{count},{','.join(map(str, found))}\n" for vl, found in sums.items())
        out.writelines(f"dropped,{vl},F,duplicate,{count},,,\n" for vl in sums)
    return paths


def peak_of(*words):
    """The status of a tool, and how many bytes of memory it had at its peak."""
    run = subprocess.Popen([*tool_words(words[0]), *words[1:]], stdout=subprocess.DEVNULL)
    _, status, used = os.wait4(run.pid, 0)
    run.returncode = os.waitstatus_to_exitcode(status)
    return run.returncode, used.ru_maxrss * 1024


class ALongTrace(unittest.TestCase):
    def test_memory(self):
        """A page with a trace takes less memory than the trace has bytes (some eighth of them), beside what a page without one takes."""
        with tempfile.TemporaryDirectory() as folder:
            page = os.path.join(folder, "page.html")
            net, tables, trace = write_run(folder, 100_000)
            size = os.stat(trace).st_size
            self.assertGreater(size, 20_000_000)
            status, most = peak_of("report", net, tables, "--trace", trace, "-o", page)
            self.assertEqual(status, 0)
            _, without = peak_of("report", net, tables, "-o", page)
            self.assertLess(most, without + size)


class WhichFramesCame(unittest.TestCase):
    def came(self, period, jitter, *deliveries):
        text = network_text(9 * MS).replace("period_ns = 1000000", f"period_ns = {period}").replace("jitter_ns = 0\na", f"jitter_ns = {jitter}\na")
        found = traces.Came(model.Network("net", text).vls[1])
        for moment in deliveries:
            found.add(2, moment + 7, 7)
        return found

    def test_by_number_and_by_moment(self):
        """With offers that may change places too. What none of the frames can be is reported."""
        for period, jitter in ((MS, 0), (MS, 500), (MS, 2 * MS)):
            for moments, deliveries, said in (
                ([0, MS, 2 * MS], [0, 2 * MS], (2, 2, 2, 2)), ([0, MS, 2 * MS], [], (0, 0, -1, -1)), ([0, MS, 2 * MS], [0, 0, MS], (2, 2, 1, 1)),
                ([0, MS], [0, 0] + [MS] * 300, (2, 2, 1, 1)), ([0, MS], [MS, 1], None), ([0, MS + 3], [MS + 2], None),
                ([0, MS], [-1], None), ([0, MS], [0, 5 * MS], None), ([], [0], None), ([0, 2000 * MS * 100], [2000 * MS * 100], (1, 1, 1, 1)),
            ):
                with self.subTest(period=period, jitter=jitter, moments=moments, deliveries=deliveries):
                    self.assertEqual(self.came(period, jitter, *deliveries).among([(moment, moment) for moment in moments], 7), said)
        # Two frames that were offered in one moment. If one of them came 7 ns later, it is the first; the second is on its way no less.
        for deliveries, said in (([5, 5], (2, 2, 1, 1)), ([5], (1, 1, 0, 0))):
            self.assertEqual(self.came(MS, 2 * MS, *deliveries).among([(5, 5), (5, 6)], 7), said)
        self.assertEqual(self.came(MS, 2 * MS, 5).among([(5, 4), (5, 5)], 7), (1, 1, 0, 1))
        # If a frame may be delivered twice, both may be one.
        self.assertEqual(self.came(MS, 2 * MS, 5, 5).among([(5, 4), (5, 5)], 7, True), (1, 2, 0, 1))

    def test_latencies_of_any_length(self):
        found = self.came(MS, 0)
        for latency in (5, 2**32 - 1, 2**32, 10**15):
            found.add(2, 10**15, latency)
        self.assertEqual(list(found.latencies), [5, 2**32 - 1, 2**32, 10**15])


class WhereTwoRunsDiffer(unittest.TestCase):
    """The virtual links of which two runs differ are found by blocks of their traces."""

    def test_differing(self):
        with tempfile.TemporaryDirectory() as folder:
            def kept(name, tables, rows):
                found = Printed(*(os.path.join(folder, name + it) for it in (".tables", ".trace")))
                for path, lines in zip(found, (tables, ["time_ns,where,vl,what,value", *rows])):
                    with open(path, "w") as out:
                        out.writelines(line + "\n" for line in lines)
                return found

            draw = random.Random(5)
            for number in range(300):
                rows = sorted(draw.choices([(t, f"E,{vl},delivered,{v}") for t in range(9) for vl in range(5) for v in (7, 8)], k=40))
                other = [row for row in rows if draw.random() < 0.95]
                other = sorted(other + draw.choices(rows, k=draw.choice([0, 0, 1])))
                lines = [[f"{t},{rest}" for t, rest in found] for found in (rows, other)]
                of_vl = lambda rows, vl: [row for row in rows if f",{vl}," in row[1]]
                wanted = {str(vl).encode() for vl in range(5) if of_vl(rows, vl) != of_vl(other, vl)}
                tables = [["a,1,x", "a,2,y"], ["a,1,x", "a,2,z"]] if draw.random() < 0.3 else [["a,1,x"], ["a,1,x"]]
                wanted |= {b"2"} if tables[0] != tables[1] else set()
                before = outage_frames.BLOCK
                try:
                    outage_frames.BLOCK = draw.choice([1, 30, 200, before])
                    self.assertEqual(outage_frames.differing(kept("one", tables[0], lines[0]), kept("two", tables[1], lines[1])), wanted)
                finally:
                    outage_frames.BLOCK = before
            # What is no line of a trace makes that all is read.
            good = kept("one", ["a,1,x"], ["5,E,1,delivered,7"])
            for tables, rows in ((["a"], []), (["a,1,x"], ["5"])):
                self.assertIsNone(outage_frames.differing(good, kept("two", tables, rows)), rows)


if __name__ == "__main__":
    unittest.main()
