"""The five virtual links of examples/five_links.toml, reckoned once more by textbook network calculus, which shares nothing
with afdx bounds, and run so that they meet. docs/TOOLS.md has what comes of it.

The formulas, with bits and us: a virtual link has the token bucket s + r * t, where s is its frame on the wire and r is
s / BAG. Let A(t) be the sum of what comes to an output port that sends R, first in first out. Then its delay is at most
D = max over t of (A(t) - R * t) / R, and behind it the virtual link has the bucket (s + r * (D - s / R)) + r * t. Without
grouping A is the sum of all buckets. With grouping those that come by one line together bring at most s + R * t too, and
the lesser of the two counts. Counted whole, as by holistic analysis, a virtual link that comes up to J closer than a BAG
brings s * (1 + (t + J) / BAG), cut to whole frames, and J grows by D - s / R; the lesser D of both counts is taken. From
end to end it is the sum of the delays, and 16 us for each switch."""
import os
import re
import unittest
from fractions import Fraction

from afdx import model
from afdx.reckon import network_calculus
from afdx.runs import aim
from afdx.runs.plain_simulator import Simulation
from tests.places import EXAMPLES, TOP

EXAMPLE = os.path.join(EXAMPLES, "five_links.toml")
SPEED, FRAME, BAG, LATENCY = 100, 500 * 8, 4000, 16
WAYS = {1: "e1 S1 S3 e6", 2: "e2 S1 S3 e7", 3: "e3 S2 S3 e6", 4: "e4 S2 S3 e6", 5: "e5 S3 e7"}
# How much earlier than in the textbook a frame is at the far end of a line, in ns: the gap of 12 bytes behind it does not
# count, and the line takes 1 ns.
EARLIER = 12 * 80 - 1


def delay_of(groups):
    """The longest delay at a port, where each group has the sum of its buckets, and what its line brings or None."""
    def excess(t):
        come = [min(s + r * t, FRAME + SPEED * t) if is_line else s + r * t for s, r, is_line in groups]
        return sum(come) - SPEED * t

    # What comes is concave: the greatest excess is at 0, or where the line no longer decides.
    knees = [(s - FRAME) / (SPEED - r) for s, r, is_line in groups if is_line]
    return max(map(excess, [Fraction(0), *knees])) / SPEED


def delay_of_whole_frames(jitters):
    """The longest delay at a port to which come frames of virtual links with these jitters."""
    def excess(t):
        return sum(FRAME * (1 + (t + jitter) // BAG) for jitter in jitters) - SPEED * t

    moments = [Fraction(0)] + [n * BAG - jitter for jitter in jitters for n in range(1, 4)]
    return max(excess(t) for t in moments if t >= 0) / SPEED


def textbook(is_grouped, is_whole=False):
    """The bound of each virtual link from end to end, in us."""
    rate = Fraction(FRAME, BAG)
    jitter = dict.fromkeys(WAYS, Fraction(0))
    bucket, total = {vl: Fraction(FRAME) for vl in WAYS}, {vl: Fraction(0) for vl in WAYS}
    # For each line the virtual links, with the line by which they come. Each port stands behind those that feed it.
    for line in ("e1 S1", "e2 S1", "e3 S2", "e4 S2", "e5 S3", "S1 S3", "S2 S3", "S3 e6", "S3 e7"):
        users = {vl: way.partition(line)[0].split() for vl, way in WAYS.items() if line in way}
        groups = {}
        for vl, before in users.items():
            groups.setdefault(before[-1] if before else None, []).append(vl)
        sums = [(sum(bucket[vl] for vl in ones), rate * len(ones), is_grouped and up is not None) for up, ones in groups.items()]
        delay = delay_of(sums)
        if is_whole:
            delay = min(delay, delay_of_whole_frames([jitter[vl] for vl in users]))
        for vl in users:
            jitter[vl] += delay - Fraction(FRAME, SPEED)
            bucket[vl] += rate * (delay - Fraction(FRAME, SPEED))
            total[vl] += delay + (LATENCY if line[0] == "S" else 0)
    return total


class FiveLinks(unittest.TestCase):
    def setUp(self):
        self.net = model.Network(EXAMPLE)
        self.bounds = network_calculus.Bounds(self.net)

    def hops(self, vl):
        return len(WAYS[vl].split()) - 1

    def bound(self, vl):
        return self.bounds.latencies[vl, WAYS[vl].split()[-1]][0]

    def test_the_example_is_what_the_textbook_reckons_with(self):
        self.assertEqual({vl.id: vl.paths for vl in self.net.vls.values()}, {vl: {"A": [way.split()], "B": []} for vl, way in WAYS.items()})
        self.assertEqual({(vl.bag_ns, (vl.streams[0].size + 20) * 8, vl.smax) for vl in self.net.vls.values()}, {(BAG * 1000, FRAME, 480)})
        self.assertEqual({node.latency_ns for node in self.net.nodes.values() if node.kind == "switch"}, {LATENCY * 1000})
        self.assertEqual((set(self.net.mbit.values()), set(self.net.propagation_ns.values())), ({SPEED}, {1}))

    def test_the_bounds_are_those_of_the_textbook_with_grouping(self):
        """But for what EARLIER names, and for less than 1 ns at each hop, since moments are whole."""
        for vl, us in textbook(True, True).items():
            with self.subTest(vl):
                apart = us * 1000 - self.hops(vl) * EARLIER - self.bound(vl)
                self.assertTrue(0 <= apart < self.hops(vl), apart)
                self.assertLessEqual(us, textbook(False)[vl])

    def reached(self, vl):
        """The latency of the aimed frame with the offsets that are found."""
        where = WAYS[vl].split()[-1]
        found, ns = aim.aimed(self.net, vl, where, "A", self.bounds)
        offsets = found.offsets(self.net.seed)
        tree = dict(self.net.description.tree)
        tree["vl"] = [row | {"offset_ns": offsets.get(row["id"], 0)} for row in tree["vl"]]
        run = Simulation(tree)
        run.run()
        greatest = max(value for _, place, number, what, value in run.rows if (number, what) == (vl, "delivered"))
        self.assertEqual(greatest, ns)
        return greatest

    def test_the_example_meets_the_worst_of_the_first(self):
        """1 waits for 2, and then for one of 3 and 4, which come one behind the other: so its way takes 232 us at most in
        the textbook's count, and that is reached."""
        run = Simulation(self.net.description.tree)
        run.run()
        self.assertEqual(max(value for _, _, vl, _, value in run.rows if vl == 1), 232_000 - 3 * EARLIER)

    def test_the_document_has_these_figures(self):
        with open(os.path.join(TOP, "docs", "TOOLS.md"), encoding="utf-8") as file:
            text = file.read()
        rows = re.findall(r"^\| ([1-5]) \|(.*)\|$", text, re.MULTILINE)
        alone, grouped, whole = textbook(False), textbook(True), textbook(True, True)
        us = lambda number: f"{float(number):.3f}"
        wanted = []
        for vl in WAYS:
            own, reached = self.bound(vl), self.reached(vl)
            self.assertLessEqual(reached, own)
            counted = own + self.hops(vl) * EARLIER
            numbers = [us(alone[vl]), us(grouped[vl]), us(whole[vl]), us(Fraction(counted, 1000)), str(own), str(reached)]
            wanted.append((str(vl), f" {WAYS[vl]} | {' | '.join(numbers)} "))
        self.assertEqual(rows, wanted)


if __name__ == "__main__":
    unittest.main()
