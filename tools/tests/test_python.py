"""Tests of `import afdx`: the examples of docs/PYTHON.md, changes of texts, values that are refused, and answers beside those of the
commands."""
import contextlib
import doctest
import glob
import io
import os
import re
import shutil
import subprocess
import sys
import tempfile
import types
import unittest
from unittest import mock

import afdx
from afdx import model
from afdx.files import program, toml_lines
from afdx.model import description_faults
from tests.places import EXAMPLES, TOOLS, TOP

OPINION = "second-opinion"
COCKPIT = os.path.join(EXAMPLES, "cockpit.toml")
# Rows between braces and under headers, with a key that is absent, a comment behind a value, and the ends of lines of Windows.
SMALL = """# First.
until_ns = 1_000_000   # the end
seed = 1
node = [
  { name = "E1", kind = "es", port_bytes = 2000 },  # one
  { name = "E2", kind = "es", port_bytes = 2000 },
  { name = "S", kind = "switch", port_bytes = 2000, net = "A", latency_ns = 1 },
]
link = [{ a = "E1", b = "S", mbit = 100, propagation_ns = 1 }, { a = "S", b = "E2", mbit = 100, propagation_ns = 1 }]
[[vl]]
  id = 7
  bag_ms = 1          # in ms
  smax = 64
  priority = "low"
  policing_jitter_ns = 0
  skew_max_ns = 0
  depth = 1
  size = 64
  offset_ns = 0
  period_ns = 1_000
  jitter_ns = 0
  a = [["E1", "S", "E2"]]  # the way
  b = []
[[outage]]
from = "E1"
to = "S"
from_ns = 5
to_ns = 6
"""
# What is set, which lines go, and which come: a comment stays in its column, and a key that is new stands at the end of its row.
CHANGES = [
    (lambda net: setattr(net, "until_ns", 2_000_000), ["until_ns = 1_000_000   # the end"], ["until_ns = 2_000_000   # the end"]),
    (lambda net: setattr(net.vl[7], "bag_ms", 128), ["  bag_ms = 1          # in ms"], ["  bag_ms = 128        # in ms"]),
    (lambda net: setattr(net.vl[7], "period_ns", 1_000_000), ["  period_ns = 1_000"], ["  period_ns = 1_000_000"]),
    (lambda net: setattr(net.vl[7], "priority", "high"), ['  priority = "low"'], ['  priority = "high"']),
    (lambda net: setattr(net.vl[7], "sub", 2), [], ["  sub = 2"]),
    (lambda net: setattr(net.vl[7], "a", (("E1", "S", "E2"),)), [], []),
    (lambda net: net.outage[1].__setitem__("from", "E2"), ['from = "E1"'], ['from = "E2"']),
    (
        lambda net: setattr(net.node["E1"], "port_bytes", 3000), ['  { name = "E1", kind = "es", port_bytes = 2000 },  # one'],
        ['  { name = "E1", kind = "es", port_bytes = 3000 },  # one'],
    ),
    (
        lambda net: setattr(net.link[2], "propagation_ns", 2),
        ['link = [{ a = "E1", b = "S", mbit = 100, propagation_ns = 1 }, { a = "S", b = "E2", mbit = 100, propagation_ns = 1 }]'],
        ['link = [{ a = "E1", b = "S", mbit = 100, propagation_ns = 1 }, { a = "S", b = "E2", mbit = 100, propagation_ns = 2 }]'],
    ),
]
# What is set, and the exception with its text.
REFUSED = [
    (lambda net: setattr(net.vl[7], "bag_ms", 3), afdx.Fault, "n.toml line 12: virtual link 7 (vl row 1), bag_ms is 3, and must be "),
    (lambda net: setattr(net.vl[7], "bag_ms", True), afdx.Fault, "n.toml line 12: virtual link 7 (vl row 1), bag_ms is true or false"),
    (lambda net: setattr(net.vl[7], "bag_ms", None), afdx.Fault, "n.toml line 12: virtual link 7 (vl row 1), bag_ms is a table"),
    (lambda net: setattr(net.vl[7], "a", ["E1", "S", "E2"]), afdx.Fault, "n.toml line 22: virtual link 7 (vl row 1), a is a list"),
    (lambda net: setattr(net.outage[1], "to_ns", 5), afdx.Fault, "n.toml line 28: outage E1>S (outage row 1), to_ns is 5, and must be later"),
    (lambda net: setattr(net.node["E2"], "net", "A"), afdx.Fault, "n.toml line 6: end system E2 (node row 2), net is a key of switches"),
    (lambda net: setattr(net, "seed", -1), afdx.Fault, "n.toml line 3: seed is -1, and must be a whole number from 0"),
    (lambda net: setattr(net.vl[7], "bagms", 8), AttributeError, "bagms is no key of a virtual link; bag_ms?"),
    (lambda net: net.vl[7].bagms, AttributeError, "bagms is no key of a virtual link; bag_ms?"),
    (lambda net: net.vl[7]["bagms"], afdx.NotThere, "bagms is no key of a virtual link; bag_ms?"),
    (lambda net: setattr(net, "until", 1), AttributeError, "'Network' object has no attribute 'until'"),
    (lambda net: net.vl[8], afdx.NotThere, "there is no vl 8 in n.toml"),
    (lambda net: net.node["E3"], afdx.NotThere, "there is no node 'E3' in n.toml"),
    (lambda net: net.seq(by=OPINION).latency(7, "E1"), afdx.NotThere, "virtual link 7 has no destination E1"),
    (lambda net: net.seq(by=OPINION).lost(7, cause="gone"), ValueError, "'gone' is no cause of loss: queue_full, "),
    (lambda net: net.seq(by=OPINION).latency("7"), afdx.NotThere, "there is no virtual link '7': they go by numbers"),
    (lambda net: net.vl["7"], afdx.NotThere, "there is no vl '7' in n.toml: they go by numbers, as vl[7]"),
    (lambda net: setattr(net.vl[7], "source", "E2"), AttributeError, "source is no key of a virtual link"),
    (lambda net: net.bounds(by=OPINION).waiting_bytes("E2>S"), afdx.NotThere, "no virtual link passes a line E2>S"),
    (lambda net: net.seq(by="other"), ValueError, "by is proved, try or second-opinion, and not 'other'"),
    (lambda net: net.seq(by=OPINION, program="p"), ValueError, "by and program name a program each: give one of them"),
    (lambda net: net.check(program="no-such-program"), afdx.NoProgram, "no-such-program is not there"),
]


def small(feed="\n"):
    return afdx.Network("n.toml", SMALL.replace("\n", feed))


def printed(*words):
    """What a command prints by the second opinion."""
    run = subprocess.run([sys.executable, os.path.join(TOP, "afdx"), *words, "--by", OPINION], capture_output=True, text=True)
    return run.stdout


class Page(unittest.TestCase):
    def test_the_examples_of_the_page(self):
        with open(os.path.join(TOP, "docs", "PYTHON.md"), encoding="utf-8") as file:
            text = re.sub("(?m)^```.*$", "", file.read())
        here = os.getcwd()
        self.addCleanup(os.chdir, here)
        said = io.StringIO()
        with tempfile.TemporaryDirectory() as folder:
            shutil.copytree(EXAMPLES, os.path.join(folder, "examples"))
            os.chdir(folder)
            page = doctest.DocTestParser().get_doctest(text, {}, "PYTHON.md", "docs/PYTHON.md", 0)
            found = doctest.DocTestRunner(verbose=False).run(page, out=said.write)
            os.chdir(here)
        self.assertEqual(found.failed, 0, said.getvalue())
        self.assertGreater(found.attempted, 25)

    def test_it_is_imported_late(self):
        """The commands do without the facade, and the names are all there."""
        code = "import sys, afdx; print('afdx.facade' in sys.modules); from afdx import *; print(read is afdx.read, 'read' in dir(afdx))"
        run = subprocess.run([sys.executable, "-c", code], env=os.environ | {"PYTHONPATH": TOOLS}, capture_output=True, text=True)
        self.assertEqual((run.stdout, run.stderr), ("False\nTrue True\n", ""))


class Changes(unittest.TestCase):
    def test_each_change_alone(self):
        for feed in ("\n", "\r\n"):
            before = SMALL.replace("\n", feed).split("\n")
            for i, (change, goes, comes) in enumerate(CHANGES):
                with self.subTest(number=i, feed=feed):
                    net = small(feed)
                    change(net)
                    after = net.text.split("\n")
                    end = feed[:-1]
                    self.assertEqual([line for line in before if line not in after], [line + end for line in goes])
                    self.assertEqual([line for line in after if line not in before], [line + end for line in comes])

    def test_all_of_them(self):
        """What is read back is what was set, and the lines are those of the new text."""
        net = small()
        for change, _, _ in CHANGES:
            change(net)
        tree = toml_lines.read(net.text)
        self.assertEqual((tree["until_ns"], tree["vl"][0]["bag_ms"], tree["vl"][0]["sub"], tree["node"][0]["port_bytes"]), (2_000_000, 128, 2, 3000))
        self.assertEqual((net.vl[7].sub, net.vl[7].frames, net.outage[1]["from"], net.vl[7].a), (2, 1, "E2", (("E1", "S", "E2"),)))
        self.assertEqual(net.outage[1].line, SMALL.split("\n").index("[[outage]]") + 2)

    def test_a_key_between_braces_and_at_the_end_of_the_file(self):
        inline = SMALL.replace("[[outage]]\n", "").split("from =")[0]
        row = 'vl = [{ id = 7, bag_ms = 1, smax = 64, priority = "low", policing_jitter_ns = 0, skew_max_ns = 0, depth = 1, size = 64, '
        row += 'offset_ns = 0, period_ns = 1_000, jitter_ns = 0, a = [["E1", "S", "E2"]], b = [] }]'
        net = afdx.Network("n.toml", inline.split("[[vl]]")[0] + row)
        net.vl[7].policing = "frames"
        self.assertTrue(net.text.endswith('b = [], policing = "frames" }]'), net.text[-60:])
        net = afdx.Network("n.toml", SMALL.split("[[outage]]")[0].rstrip("\n"))
        net.vl[7].policing = "frames"
        net.vl[7].sub = 2
        self.assertTrue(net.text.endswith('  b = []\npolicing = "frames"\nsub = 2'), net.text[-60:])
        self.assertEqual(net.explain()[0].number, 0)

    def test_what_they_are_called(self):
        net = small()
        rows = [net.vl, net.vl[7], net.node["S"], net.link[2], net.outage[1], net.stream]
        self.assertEqual([repr(it) for it in rows], [
            "<1 virtual link of n.toml>", "<virtual link 7 in n.toml line 10>", "<node S in n.toml line 7>", "<link S-E2 in n.toml line 9>",
            "<outage E1>S in n.toml line 24>", "<0 streams of n.toml>",
        ])
        self.assertEqual((net.vl[7], len({net.vl[7], net.vl[7]}), net.vl[7] == net.link[1]), (net.vl[7], 1, False))
        self.assertEqual((net.vl[7].source, net.vl[7].destinations, afdx.__version__), ("E1", ["E2"], program.version()))
        run, bounds = net.seq(by=OPINION), net.bounds(by=OPINION)
        self.assertEqual((run.latency(7), bounds.latency(7)), (run.latency(7, "E2"), bounds.latency(7, "E2")))
        self.assertRegex(repr(run), r"^<run of n.toml: 1 latency, [0-9]+ frames and copies lost>$")
        self.assertRegex(repr(bounds), r"^<bounds by afdx bounds .*: [01] of 1 latency>$")
        with self.assertRaisesRegex(afdx.NotThere, "virtual link 101 has 5 destinations, and one is to be named: FMC1, DU_L"):
            afdx.read(COCKPIT).bounds(by=OPINION).latency(101)

    def test_a_name_that_changes(self):
        net = small()
        net.vl[7].id = 8
        self.assertEqual((list(net.vl), net.vl[8].bag_ms, 7 in net.vl), ([8], 1, False))

    def test_what_is_refused(self):
        for i, (act, fault, says) in enumerate(REFUSED):
            with self.subTest(number=i):
                net = small()
                with self.assertRaises(fault) as found:
                    act(net)
                self.assertTrue(str(found.exception).startswith(says), found.exception)
                self.assertEqual(net.text, SMALL)

    def test_files(self):
        with tempfile.TemporaryDirectory() as folder:
            path = os.path.join(folder, "net.toml")
            shutil.copy(COCKPIT, path)
            net = afdx.read(path)
            net.seed = 8
            with self.assertRaisesRegex(afdx.Fault, "is what was read, and stays"):
                net.write(path)
            for name in ("new.toml", "new.toml"):
                net.write(os.path.join(folder, name))
            net.write(path, replace=True)
            self.assertEqual(afdx.read(path).seed, 8)
            with self.assertRaisesRegex(afdx.Fault, "cannot be written: No such file"):
                net.write(os.path.join(folder, "none", "new.toml"))
            with self.assertRaisesRegex(afdx.Fault, "cannot be read: No such file"):
                afdx.read(os.path.join(folder, "other.toml"))
        with self.assertRaisesRegex(afdx.Fault, "^n.toml line 2: is no TOML: "):
            afdx.Network("n.toml", "seed = 1\nseed = 2\n")

    def test_the_attributes_are_the_keys(self):
        for section, row in (("node", afdx.Node), ("link", afdx.Link), ("outage", afdx.Outage), ("vl", afdx.VirtualLink), ("stream", afdx.Stream)):
            own = {name for it in row.__mro__ for name in getattr(it, "__annotations__", {}) if not name.startswith("_")}
            # `from` is a word of Python.
            self.assertEqual(own, {key.name for key in model.KEYS[section]} - {"from"}, section)


class Answers(unittest.TestCase):
    def test_they_are_those_of_the_commands(self):
        for path in sorted(glob.glob(os.path.join(EXAMPLES, "*.toml"))):
            with self.subTest(os.path.basename(path)):
                net = afdx.read(path)
                self.assertEqual(description_faults.accepted(path, net.text).tree, toml_lines.read(net.text))
                run = net.seq(by=OPINION)
                with open(path.replace(".toml", ".tables.csv"), encoding="utf-8") as file:
                    self.assertEqual(run.text, file.read())
                cells = lambda row: ",".join("" if row[name] is None else str(row[name]) for name in run.columns())
                self.assertEqual(sorted(map(cells, run.rows())), sorted(run.text.splitlines()[1:]))

    def test_bounds(self):
        found = afdx.read(COCKPIT).bounds(by=OPINION)
        text = printed("bounds", COCKPIT)
        self.assertEqual(found.text, text)
        head, *lines = [line.split(",") for line in text.splitlines()]
        for row, line in zip(found.rows(), lines, strict=True):
            given = {name: it for name, it in zip(head, line) if it not in ("", "none") and name in found.columns()}
            self.assertEqual({name: str(it) for name, it in row.items() if it is not None}, given)

    def test_no_bound(self):
        found = afdx.read(os.path.join(EXAMPLES, "saturated_port.toml")).bounds(by=OPINION)
        bound = found.latency(11, "REC")
        self.assertEqual((bound.bound_ns, bound.by, bool(bound.why)), (None, None, True))
        self.assertIsNone(found.waiting_bytes("SW>REC"))
        self.assertIn("too_small", [row["warning"] for row in found.warnings() if row["where"] == "SW>REC"])

    def test_check(self):
        found = afdx.read(COCKPIT).check(by=OPINION)
        self.assertEqual(printed("check", COCKPIT), "ok: %d processes, %d virtual links, %d offers\n" % found[:3])

    def test_losses(self):
        run = afdx.read(os.path.join(EXAMPLES, "link_outage.toml")).seq(by=OPINION)
        # As the README has it: an outage of FCC>SWA loses 6 frames of virtual link 1.
        self.assertEqual((run.lost(1, "FCC>SWA", "outage"), run.lost(1, "FCC>SWA", "policed")), (6, 0))

    def test_by_the_program(self):
        try:
            program.proved()
        except program.NoProgram as why:
            self.skipTest(str(why))
        net = afdx.read(COCKPIT)
        self.assertEqual((net.seq(by="proved").text, net.check(by="proved")[:3]), (net.seq(by=OPINION).text, net.check(by=OPINION)[:3]))
        self.assertEqual(net.bounds(by="proved").latency(101, "DU_R").by, "program")
        net.link[1].a = "SWA2"
        with self.assertRaisesRegex(afdx.Fault, "cockpit.toml line 40: is refused"):
            net.seq(by="proved")

    def test_a_program_that_fails(self):
        with tempfile.TemporaryDirectory() as folder:
            path = os.path.join(folder, "p")
            with open(path, "w", encoding="utf-8") as out:
                out.write('#!/bin/sh\nif [ "$1" = --version ]; then echo afdxsim 0; exit; fi\necho afdxsim: description: 4 OutOfLimit at vl 1 smax >&2; exit 3\n')
            os.chmod(path, 0o755)
            with self.assertRaisesRegex(afdx.Fault, "^n.toml line 13: `afdxsim seq` ended with a fault: afdxsim: description: 4 OutOfLimit at vl 1 smax$"):
                small().seq(program=path)

    def test_frames(self):
        table = afdx.read(COCKPIT).link
        with mock.patch.dict(sys.modules, {"pandas": None}), self.assertRaisesRegex(ImportError, "apt-get install python3-pandas"):
            table.frame()
        made = mock.Mock()
        with mock.patch.dict(sys.modules, {"pandas": types.SimpleNamespace(DataFrame=made)}):
            self.assertIs(table.frame(), made.return_value.convert_dtypes.return_value)
        made.assert_called_once_with(table.rows(), columns=["a", "b", "mbit", "propagation_ns"])
        with contextlib.suppress(ImportError):
            self.assertEqual(list(table.frame()["mbit"]), [row["mbit"] for row in table.rows()])


if __name__ == "__main__":
    unittest.main()
