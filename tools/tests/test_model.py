"""Tests of tools/afdx/model, of what the tests of afdx report, afdx campaign and afdx explain do not try already."""
import os
import random
import tempfile
import unittest
from fractions import Fraction

from afdx import model
from afdx.runs.plain_simulator import Simulation
from tests.places import EXAMPLES

N1 = os.path.join(EXAMPLES, "n1.toml")
COCKPIT = os.path.join(EXAMPLES, "cockpit.toml")


class Descriptions(unittest.TestCase):
    def test_lines(self):
        """In a description with a key a line, and with a row a line."""
        n1, cockpit = model.Description(N1), model.Description(COCKPIT)
        for description, place, line in (
            (n1, ("top", None, "seed"), 2),
            (n1, ("node", 3, "net"), 16),
            (n1, ("node", 3, None), 12),
            (n1, ("vl", 1, "bag_ms"), 32),
            (n1, ("vl", 1, "sub"), 30),
            (n1, ("vl", 1, "a", 1), 42),
            (n1, ("outage", 1, "to"), 1),
            (cockpit, ("node", None), 16),
            (cockpit, ("node", 12, "latency_ns"), 28),
            (cockpit, ("link", 18, "b"), 49),
        ):
            with self.subTest(place):
                self.assertEqual(description.line(*place), line)

    def test_the_line_of_a_refusal(self):
        with open(N1, encoding="utf-8") as file:
            text = file.read()
        said = "afdxsim: description: "
        self.assertEqual(model.line_of_refusal(text, said + "4 OutOfLimit at vl 1 bag_ms"), 32)
        self.assertEqual(model.line_of_refusal(text, said + "3 WrongKind at vl 0"), 30)
        self.assertEqual(model.line_of_refusal(text, said + "9 TooMany at top"), 1)
        self.assertEqual(model.line_of_refusal(text.replace("42", "4 2"), said + "1 Syntax"), 2)
        self.assertIsNone(model.line_of_refusal(text, "afdxsim: out of memory"))

    def test_a_description_written_anew(self):
        for path in (N1, COCKPIT):
            tree = model.Description(path).tree
            self.assertEqual(model.Description("", model.text_of_tree(tree)).tree, tree)


class Networks(unittest.TestCase):
    def test_what_a_network_has(self):
        net = model.Network(COCKPIT)
        self.assertEqual((len(net.nodes), len(net.links), len(net.vls), net.process["FWC"]), (12, 18, 10, 7))
        vl = net.vls[402]
        self.assertEqual((vl.source, vl.paths["A"], vl.row), ("DU_L", [["DU_L", "SWA1", "SWA2", "FWC"]], 10))
        self.assertEqual((vl.sub, vl.policing, vl.depth), (1, "bytes", 2))
        self.assertEqual(vl.lines[:3], ["DU_L>SWA1", "SWA1>SWA2", "SWA2>FWC"])
        # Of 402 alone: 84 bytes in 128 ms; 401 does not come there.
        self.assertEqual(net.load["DU_L>SWA1"], Fraction(84 * 8 * 100, 100 * 128000))
        self.assertEqual(net.propagation_ns["SWB2>SWB1"], 200)

    def test_keys_that_may_be_absent(self):
        net = model.Network(os.path.join(EXAMPLES, "maintenance.toml"))
        self.assertEqual([(vl.sub, vl.policing) for vl in net.vls.values()], [(3, "frames"), (1, "bytes")])

    def test_offers(self):
        """The words are those of the reference program pcg32-demo: seed 42, stream 54."""
        words = model.words(42, 54)
        wanted = [0xA15C02B7, 0x7B47F409, 0xBA1D3330, 0x83D2F293, 0xBFA4784B, 0xCBED606E]
        self.assertEqual([next(words) for _ in wanted], wanted)
        found = model.offers(1, self.stream(7, 100, 1000, 0), 2, 2100)
        self.assertEqual(list(found), [(0, 100, 64, 0), (1, 1100, 64, 1), (2, 2100, 64, 0)])
        drawn = [(it.number, it.moment) for it in model.offers(42, self.stream(54, 0, 10**9, 10**6), 1, 3 * 10**9)]
        self.assertEqual(drawn, [(k, k * 10**9 + wanted[k] % (10**6 + 1)) for k in range(3)])
        net = model.Network(COCKPIT)
        self.assertEqual([it.moment for it in net.offers(net.vls[103])[:2]], [500_000, 2_500_000])

    @staticmethod
    def stream(number, offset, period, jitter, **more):
        return model.stream_of("vl", 1, {"id": number, "size": 64, "offset_ns": offset, "period_ns": period, "jitter_ns": jitter} | more)

    def test_offers_of_streams(self):
        """Of a burst of two frames the last has its own size. A further stream comes behind it, by a sender of its own."""
        with open(N1, encoding="utf-8") as file:
            text = file.read().replace("size = 64", "size = 64\nframes = 2\nlast_size = 64") + "[[stream]]\nvl = 1\nsize = 65\noffset_ns = 7\n"
        text += "period_ns = 1000000000000\njitter_ns = 0\n"
        simulation = Simulation(model.Description("", text).tree)
        found = sorted((time, to, sender, number, size, sub) for time, to, sender, number, _, (_, size, sub) in simulation.heap)
        self.assertEqual(found, [(0, 0, 4097, 0, 64, 0), (0, 0, 4097, 1, 64, 0), (7, 0, 69632, 0, 65, 0)])
        net = model.Network("", text)
        self.assertEqual(net.offers(net.vls[1]), [(0, 0, 64, 0), (1, 0, 64, 0), (0, 7, 65, 0)])

    def test_counts_of_offers(self):
        """As many as are drawn, whatever a stream is."""
        draw = random.Random(3)
        for _ in range(300):
            more = {"frames": draw.choice([1, 2, 5])} | draw.choice([{}, {"timing": "sporadic"}]) | draw.choice([{}, {"end_ns": draw.randint(0, 9000)}])
            stream = self.stream(draw.randint(0, 9), draw.randint(0, 9000), draw.randint(1000, 3000), draw.randint(0, 4000), **more)
            with self.subTest(stream):
                self.assertEqual(model.count_of_offers(5, stream, 8000), len(list(model.offers(5, stream, 3, 8000))))


class Files(unittest.TestCase):
    def test_one_file_by_two_names(self):
        with tempfile.TemporaryDirectory() as folder:
            one, other = os.path.join(folder, "one"), os.path.join(folder, "other")
            open(one, "w").close()
            self.assertFalse(model.is_same_file(one, other))
            os.link(one, other)
            self.assertTrue(model.is_same_file(one, other))
            self.assertTrue(model.is_same_file(one, os.path.join(folder, ".", "one")))


if __name__ == "__main__":
    unittest.main()
