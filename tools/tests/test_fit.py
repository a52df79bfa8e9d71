"""Tests of afdx bounds --fit: values by hand, the text that stays, and bounds of what is written."""
import contextlib
import copy
import glob
import io
import os
import re
import tempfile
import unittest

from afdx import model
from afdx.commands import bounds
from afdx.files import toml_lines
from afdx.model import description_faults
from afdx.reckon import fit, network_calculus
from tests.test_bounds import busy, last_bit, network, virtual_link, way
from tests.places import EXAMPLES

KEYS = ("policing_jitter_ns", "port_bytes")


def without(tree):
    """What a description says but for the keys that are fitted."""
    found = copy.deepcopy(tree)
    for row in (*found["node"], *found["vl"]):
        for key in KEYS:
            row.pop(key, None)
    return found


class ByHand(unittest.TestCase):
    def proposed(self, found):
        return {(it.name, it.key): it.after for it in fit.proposals(found.net)}

    def test_policing_jitters(self):
        """Two virtual links of one end system wait for each other: they come to the switch busy(64), 6,720 ns, closer than a
        BAG. Counted in bytes of a longer Smax that is nothing."""
        self.assertEqual(busy(64), 6720)
        for changes, after in (
            ({}, 7000),
            ({"policing": "frames"}, 7000),
            ({"policing_jitter_ns": 0}, 7000),
            ({"smax": 128}, 0),
            ({"smax": 128, "policing": "frames"}, 7000),
            # By bytes a frame of 64 needs 64 / 65 of 1,006,720 ns, which is less than a BAG.
            ({"smax": 65}, 0),
        ):
            with self.subTest(changes):
                found = network([virtual_link(i, way("E1", "A", "E2"), **changes) for i in (1, 2)])
                self.assertEqual(self.proposed(found)[1, KEYS[0]], after)

    def test_an_account_that_is_too_tight_hides_nothing(self):
        """At the second switch frames come as late as they are if the first one refuses none: busy(64) behind E1, and so much
        more behind A, where 3 joins them: test_bounds.py works out that they take 12,526 ns there, of which 5,760 are their
        own."""
        vls = [virtual_link(i, way("E1", "A", "AA", "E3"), policing_jitter_ns=0) for i in (1, 2)]
        vls.append(virtual_link(3, way("E2", "A", "AA", "E3"), policing_jitter_ns=0))
        found = network(vls)
        proposed = self.proposed(found)
        late = 12_526 - last_bit(64)
        self.assertEqual((late, busy(64) + late), (6766, 13_486))
        self.assertEqual([proposed[vl, KEYS[0]] for vl in (1, 2, 3)], [14_000, 14_000, 7000])
        self.assertTrue(found.may_refuse(1, "AA"))

    def test_bytes_of_ports(self):
        """Of thirty frames that are released together 29 wait. The longest frame has room in any case."""
        found = network([virtual_link(i, way("E1", "A", "E2")) for i in range(30)])
        self.assertEqual({name: after for (name, key), after in self.proposed(found).items() if key == KEYS[1]}, {"E1": 29 * 64, "A": 1518})

    def test_what_cannot_be_worked_out_stays(self):
        found = network([virtual_link(i, way(f"E{i}", "A", "AA", "E3"), size=1000) for i in (1, 2)], {("A", "AA"): 10})
        printed = {(it.name, it.key): it.why for it in fit.proposals(found.net) if it.after is None}
        why = "without it there is no bound of how frames come to AA"
        port = "there is no bound of what waits at A>AA: A>AA may be given more than it can send"
        self.assertEqual(printed, {("A", KEYS[1]): port, (1, KEYS[0]): why, (2, KEYS[0]): why})


class Written(unittest.TestCase):
    def setUp(self):
        folder = tempfile.TemporaryDirectory()
        self.addCleanup(folder.cleanup)
        self.folder = folder.name

    def call(self, path):
        """The status, what is printed, what is said, and the text that is written."""
        fitted, out, said = os.path.join(self.folder, "fitted.toml"), io.StringIO(), io.StringIO()
        with contextlib.redirect_stdout(out), contextlib.redirect_stderr(said):
            status = bounds.main([path, "--fit", fitted])
        with open(fitted, encoding="utf-8", newline="") as file:
            return status, out.getvalue(), said.getvalue(), file.read()

    def test_examples(self):
        """All but the two keys is the same, and nothing of the bounds warns of them any more."""
        for path in sorted(glob.glob(os.path.join(EXAMPLES, "*.toml"))):
            with self.subTest(path):
                status, _, said, text = self.call(path)
                with open(path, encoding="utf-8") as file:
                    before = file.read()
                self.assertEqual(status, 1 if "saturated" in path else 0, said)
                self.assertEqual(without(toml_lines.read(text)), without(toml_lines.read(before)))
                blank = lambda it: re.sub(rf"({'|'.join(KEYS)})( *= *)[0-9_]+ *", r"\1\2", it)
                self.assertEqual(blank(text), blank(before))
                self.assertIsNone(description_faults.first_fault("net.toml", text))
                if status == 0:
                    found = network_calculus.Bounds(model.Network("net.toml", text))
                    warnings = {word for row in found.rows() for word in row.get("warning", "").split(" ")}
                    self.assertFalse(warnings & {"may_refuse", "too_small"})

    def test_comments_and_layout_stay(self):
        head = 'until_ns = 1_000_000\nseed = 1\nnode = [\n  { name = "E1", kind = "es", port_bytes = 16_384 }, { name = "E2", kind = "es", port_bytes = 2000 },\n'
        head += '  { name = "A", kind = "switch", port_bytes = 0x4000, net = "A", latency_ns = 1000 }, # port_bytes = 7\n]\n'
        head += 'link = [ { a = "E1", b = "A", mbit = 100, propagation_ns = 1 }, { a = "E2", b = "A", mbit = 100, propagation_ns = 1 } ]\n'
        vl = '[[vl]]  # one\nid = {}\nbag_ms = 1\nsmax = 64\npriority = "low"\npolicing_jitter_ns = 500000     # usual\r\nskew_max_ns = 0\ndepth = 4\nsize = 64\n'
        vl += 'offset_ns = 0\nperiod_ns = 1000000\njitter_ns = 0\na = [["E1", "A", "E2"]]\nb = []\n'
        path = os.path.join(self.folder, "net.toml")
        with open(path, "w", encoding="utf-8", newline="") as out:
            out.write(head + vl.format(1) + vl.format(2))
        status, out, said, text = self.call(path)
        wanted = head.replace("16_384", "1_518").replace("0x4000", "1518")
        fitted = vl.replace("500000     #", "7000       #")
        self.assertEqual((status, said, text), (0, "", wanted + fitted.format(1) + fitted.format(2)))
        printed = "node,E1,port_bytes,16384,1518,\nnode,A,port_bytes,16384,1518,\nvl,1,policing_jitter_ns,500000,7000,\nvl,2,policing_jitter_ns,500000,7000,\n"
        self.assertEqual(out, "section,name,key,before,after,why\n" + printed)

    def test_what_stays_is_reported(self):
        path = os.path.join(EXAMPLES, "saturated_port.toml")
        status, out, said, text = self.call(path)
        self.assertEqual(status, 1)
        why = "there is no bound of what waits at SW>REC: SW>REC may be given more than it can send"
        self.assertEqual(said, f"afdx bounds: {path} line 44: SW, port_bytes stays 16384: {why}\n")
        self.assertIn(f"node,SW,port_bytes,16384,,{why}\n", out)

    def test_it_is_not_mixed(self):
        for words in (["-o", "x"], ["--json"], ["--limits", "x"]):
            with self.assertRaises(SystemExit) as ended, contextlib.redirect_stderr(io.StringIO()):
                bounds.main([os.path.join(EXAMPLES, "n1.toml"), "--fit", "x", *words])
            self.assertEqual(ended.exception.code, 2)


if __name__ == "__main__":
    unittest.main()
