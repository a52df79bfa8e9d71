"""Tests of transmit_jitter.py: the rule of ARINC 664 Part 7 by hand, and what bounds, warnings and pages say of it."""
import contextlib
import io
import json
import os
import re
import tempfile
import unittest

from afdx import model
from afdx.commands import report
from afdx.reckon import description_warnings
from afdx.reckon.transmit_jitter import TransmitJitter
from afdx.runs import second_opinion
from afdx.runs.measured_hops import Measured
from afdx.reckon.bounds_rows import BoundsRows
from tests.test_bounds import busy, network, virtual_link, way

# How long a frame of 64 bytes takes of a line of 100 Mbit/s, in ns: 84 bytes of 80 ns.
FRAME = 6720


def many(count, **changes):
    return network([virtual_link(i, way("E1", "A", "E2"), **changes) for i in range(1, count + 1)])


class ByHand(unittest.TestCase):
    def test_the_rule(self):
        """40 us, and for each virtual link 20 + Smax bytes: not what it sends, and each at the speed of the line."""
        self.assertEqual(busy(64), FRAME)
        for found, line, users, rule in (
            (many(20), "E1>A", 20, 40_000 + 20 * FRAME),
            (many(20, smax=84), "E1>A", 20, 40_000 + 20 * 104 * 80),
            (network([virtual_link(1, way("E1", "A", "E2"))], {("A", "E1"): 10}), "E1>A", 1, 40_000 + 10 * FRAME),
        ):
            known = TransmitJitter(found.net).allowed
            self.assertEqual(list(known), [line])
            self.assertEqual((known[line].users, known[line].sum_ns, known[line].most_ns), (users, rule, rule))
        # 68 of them may take 496,960 ns, and 69 may not take 503,680.
        for count, most in ((68, 496_960), (69, 500_000)):
            found = TransmitJitter(many(count).net)
            self.assertEqual((found.allowed["E1>A"].most_ns, found.broken()), (most, ["E1>A"] if count == 69 else []))

    def test_bounds_have_it(self):
        """The last of the frames that are released together waits for all others."""
        for found, jitter, rule, warning in (
            (many(20), 19 * FRAME, 40_000 + 20 * FRAME, ""),
            (many(69), 68 * FRAME, 40_000 + 69 * FRAME, "transmit_jitter"),
            # They send more than Smax, so the rule does not count what comes.
            (many(20, size=1000, smax=64, bag_ms=2), 19 * 1020 * 80, 40_000 + 20 * FRAME, "transmit_jitter"),
            # More than the line sends.
            (many(10, size=1500), None, 40_000 + 10 * 1520 * 80, "too_small transmit_jitter"),
        ):
            (port,) = [row for row in found.rows() if row["where"] == "E1>A" and "vl" not in row]
            said = "none" if jitter is None else str(jitter)
            self.assertEqual((port["transmit_jitter_ns"], port["transmit_rule_ns"], port["warning"]), (said, rule, warning))
            others = [row for row in found.rows() if row["where"] == "A>E2" and "vl" not in row]
            self.assertNotIn("transmit_jitter_ns", (others or [{}])[0])

    def test_it_is_a_warning(self):
        for count in (68, 69):
            tree = many(count).net.description.tree
            found = description_warnings.Warnings(model.Network("net.toml", model.text_of_tree(tree))).findings
            said = [f"{it.who} {it.text}" for it in found if "transmit jitter" in it.text]
            text = "end system E1 (node row 2) has 69 virtual links on E1>A: 40 us and a frame of each take 503680 ns, and ARINC 664 Part 7 allows 500000 ns of transmit jitter"
            self.assertEqual(said, [text] if count == 69 else [])


class OnThePage(unittest.TestCase):
    def test_measured_beside_allowed(self):
        """All frames of the run are released at 0, so what is measured is the bound."""
        for count in (20, 69):
            found = many(count)
            with self.subTest(count), tempfile.TemporaryDirectory() as folder:
                path = lambda name: os.path.join(folder, name)
                run = Measured(found.net.description.tree)
                run.run()
                for name, text in (("net.toml", found.net.text), ("bounds.csv", BoundsRows(found).text()), ("tables.csv", "".join(line + "\n" for line in run.tables()))):
                    with open(path(name), "w", encoding="utf-8") as out:
                        out.write(text)
                words = [path("net.toml"), "--hops", path("hops.csv")]
                with contextlib.redirect_stdout(io.StringIO()), contextlib.redirect_stderr(io.StringIO()):
                    second_opinion.main(words)
                    status = report.main([path("net.toml"), path("tables.csv"), *words[1:], "--bounds", path("bounds.csv"), "-o", path("page.html")])
                with open(path("page.html"), encoding="utf-8") as file:
                    page = file.read()
                data = json.loads(re.search(r'<script type="application/json" id="data">(.*?)</script>', page)[1])
                jitter, rule, bad = (count - 1) * FRAME, 40_000 + count * FRAME, 2 if count == 69 else 0
                wanted = {"line": ["E1>A"], "users": [count], "allowed": [min(rule, 500_000)], "sum": [rule], "sum_tone": [bad]}
                wanted |= {"jitter": [jitter], "jitter_tone": [0], "jitter_bound": [jitter], "jitter_bound_tone": [0]}
                self.assertEqual((status, data["transmit"]), (0, wanted))
                self.assertEqual('data-name="transmit jitter too long"' in page, count == 69)
                self.assertIn('<section id="transmit">', page)
                # By the tables alone the page has it where the rule is broken.
                with contextlib.redirect_stderr(io.StringIO()):
                    self.assertEqual(report.main([path("net.toml"), path("tables.csv"), "-o", path("page.html")]), 0)
                with open(path("page.html"), encoding="utf-8") as file:
                    self.assertEqual('<section id="transmit">' in file.read(), count == 69)


if __name__ == "__main__":
    unittest.main()
