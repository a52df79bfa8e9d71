"""Tests of latency_counts.py: bins against their definition, counts against a plain list, and how much memory and time they take."""
import os
import random
import sys
import tempfile
import unittest

from afdx import model
from afdx.reckon import latency_counts
from afdx.reckon.latency_counts import Counts, bin_of, ends_of
from afdx.runs.plain_simulator import Simulation
from tests.places import EXAMPLES

COCKPIT = os.path.join(EXAMPLES, "cockpit.toml")


class Bins(unittest.TestCase):
    def test_bins_follow_one_another_and_are_narrow(self):
        """Each begins one ns behind the one before, and is less than 0.1 percent of its least latency."""
        behind = 0
        for number in range(30_000):
            least, most = ends_of(number)
            self.assertEqual(least, behind)
            self.assertEqual((bin_of(least), bin_of(most)), (number, number))
            self.assertTrue(most == least or (most - least) * 1000 < least)
            behind = most + 1
        self.assertGreater(behind, 10**9)
        for ns in (10**15, 2**63, 2047, 2048, 0, 1):
            least, most = ends_of(bin_of(ns))
            self.assertTrue(least <= ns <= most)


class Counting(unittest.TestCase):
    def test_counts_against_a_list(self):
        draw, found, all_of = random.Random(7), Counts(), []
        self.assertEqual(found.percentiles([50, 99], 0), [])
        for _ in range(30):
            values = [int(draw.paretovariate(1) * 20_000) for _ in range(200)]
            all_of += values
            times = {}
            for value in values:
                times[bin_of(value)] = times.get(bin_of(value), 0) + 1
            found.add(times.items())
        all_of.sort()
        numbers = list(map(bin_of, all_of))
        self.assertEqual(list(found.items()), [(number, numbers.count(number)) for number in sorted(set(numbers))])
        self.assertEqual(found.total(), len(all_of))
        for percent in (1, 50, 95, 99, 100):
            exact = all_of[-(-percent * len(all_of) // 100) - 1]
            (said,) = found.percentiles([percent], all_of[-1])
            self.assertEqual(said, min(all_of[-1], ends_of(bin_of(exact))[1]))
            self.assertTrue(0 <= said - exact <= exact / 1000)

    def test_counts_of_any_size(self):
        found = Counts()
        for count in (1, 2**8 - 2, 1, 2**16 - 256, 2**32, 2**40):
            found.add([(5, count), (9000, 1)])
        self.assertEqual(list(found.items()), [(5, 2**16 + 2**32 + 2**40), (9000, 6)])

    def test_memory(self):
        """6,400 destinations with 2,000 frames each, within three octaves, take less than 40 MB."""
        draw = random.Random(1)
        found = [Counts() for _ in range(64)]
        for counts in found:
            numbers = [bin_of(draw.randrange(40_000, 300_000)) for _ in range(2000)]
            counts.add((number, numbers.count(number)) for number in set(numbers))
        self.assertLess(sum(sys.getsizeof(part) + 100 for it in found for part in it.parts.values()) * 100, 40 * 10**6)


class OfATrace(unittest.TestCase):
    def setUp(self):
        folder = tempfile.TemporaryDirectory()
        self.addCleanup(folder.cleanup)
        self.path = os.path.join(folder.name, "trace.csv")
        self.net = model.Network(COCKPIT)
        simulation = Simulation(self.net.description.tree)
        simulation.run()
        self.trace = "".join(line + "\n" for line in simulation.trace())
        self.tables = model.Tables(COCKPIT.replace(".toml", ".tables.csv"), self.net)

    def of(self, trace):
        with open(self.path, "w", encoding="utf-8") as out:
            out.write(trace)
        return latency_counts.of_trace(self.path, self.tables)

    def test_each_delivery_is_counted(self):
        """Whatever stands at the border of two blocks."""
        wanted = {key: {} for key in self.tables.latencies}
        for line in self.trace.splitlines()[1:]:
            _, where, vl, what, value = line.split(",")
            if what == "delivered":
                times = wanted[int(vl), where]
                times[bin_of(int(value))] = times.get(bin_of(int(value)), 0) + 1
        before = latency_counts.BLOCK
        self.addCleanup(setattr, latency_counts, "BLOCK", before)
        for block in (before, 100, 37):
            latency_counts.BLOCK = block
            self.assertEqual([dict(it) for it in self.of(self.trace).each()], list(wanted.values()))

    def test_one_of_another_run_is_refused(self):
        lines = self.trace.splitlines(keepends=True)
        first = next(i for i, line in enumerate(lines) if ",delivered," in line)
        time, where, vl, what, value = lines[first].strip().split(",")
        for line, said in (
            ("", f"is of another run than the tables: .* frames of virtual link {vl} came to {where}"),
            (f"{time},{where},{vl},{what},{int(value) + 1}\n", f"is of another run than the tables: .* frames of virtual link {vl} came to {where}"),
            (f"{time},none,{vl},{what},{value}\n", f"none,{vl} is no destination in "),
        ):
            with self.assertRaisesRegex(model.Fault, said):
                self.of("".join([*lines[:first], line, *lines[first + 1 :]]))


if __name__ == "__main__":
    unittest.main()
