"""Tests of afdx table. Those of the class WithTheProgram need the built program, at crates/afdxsim/out/afdxsim, where
`rt ci` leaves it."""
import contextlib
import glob
import io
import os
import re
import resource
import shutil
import subprocess
import tempfile
import unittest
from unittest import mock

from afdx import model
from afdx.commands import from_table
from afdx.files import toml_lines, workbook
from afdx.model import description_faults
from afdx.runs.plain_simulator import Simulation
from tests.places import EXAMPLES, PATIENCE, tool_words


NODES = "name,net\nSWA,A\nSWB,B\n\n"
LINKS = "a,b\nADC,SWA\nDU,SWA\nADC,SWB\nDU,SWB\n\n"
LINE = "id,source,destinations,bag_ms,smax\n1,ADC,DU,8,100\n"


# The last line of error output.
RECEIPT = re.compile(r"^afdx table: ([0-9,]+ virtual links? of .* left)\n\Z", re.MULTILINE)


def read(path):
    with open(path, encoding="utf-8") as file:
        return file.read()


def examples():
    return sorted(glob.glob(os.path.join(EXAMPLES, "*.toml")))


def tables_by_second_opinion(text):
    simulation = Simulation(toml_lines.read(text))
    simulation.run()
    return "".join(line + "\n" for line in simulation.tables())


class Here(unittest.TestCase):
    """A test with a folder of its own."""

    def setUp(self):
        folder = tempfile.TemporaryDirectory()
        self.addCleanup(folder.cleanup)
        self.folder = folder.name
        self.output = os.path.join(self.folder, "net.toml")

    def file(self, name, text):
        path = os.path.join(self.folder, name)
        with open(path, "wb") as out:
            out.write(text if type(text) is bytes else text.encode("utf-8"))
        return path

    def call(self, *words):
        """The status of afdx table with these words, and what it says on both streams."""
        out, said = io.StringIO(), io.StringIO()
        with contextlib.redirect_stdout(out), contextlib.redirect_stderr(said):
            try:
                status = from_table.main(list(words))
            except SystemExit as ended:
                status = ended.code
        text = said.getvalue()
        end = RECEIPT.search(text)
        self.receipt = end[1] if end else None
        return status, out.getvalue(), text[: end.start()] if end else text

    def made(self, *texts):
        """The description of tables, which must be accepted."""
        paths = [self.file(f"table{i}.csv", text) for i, text in enumerate(texts)]
        self.assertEqual(self.call(*paths, "-o", self.output), (0, "", ""))
        self.assertIsNone(description_faults.first_fault(self.output, read(self.output)))
        return toml_lines.read(read(self.output))

    def faults(self, *texts):
        """The faults of tables, without the name of the tool."""
        paths = [self.file(f"table{i}.csv", text) for i, text in enumerate(texts)]
        status, out, said = self.call(*paths, "-o", self.output)
        self.assertEqual((status, out, os.path.exists(self.output)), (1, "", False), said)
        return [line.removeprefix("afdx table: ").replace(f"{self.folder}/", "", 1) for line in said.splitlines()]


class Back(Here):
    def test_a_description_comes_back_from_its_tables(self):
        """Each row of each example has the same values."""
        for path in examples():
            with self.subTest(path):
                tables = os.path.join(self.folder, "back.csv")
                self.assertEqual(self.call("--back", path, "-o", tables), (0, "", ""))
                self.assertEqual(self.call(tables, "-o", self.output), (0, "", ""))
                found, wanted = (toml_lines.read(read(it)) for it in (self.output, path))
                self.assertEqual(found, wanted)

    def test_shortest_paths_are_those_of_the_examples(self):
        """The paths of each example are the shortest ones, so the tables need not state them."""
        for path in examples():
            with self.subTest(path):
                _, text, _ = self.call("--back", path)
                blocks = text.split("\n\n")
                wanted = toml_lines.read(read(path))
                if any(not vl["a"] or not vl["b"] for vl in wanted["vl"]) and len(blocks) == 5:
                    # Virtual link 2 of link_outage leaves out network B, which no rule of paths would do.
                    continue
                blocks[-1] = "\n".join(line.rsplit(",", 2)[0] for line in blocks[-1].splitlines())
                table = self.file("without.csv", "\n\n".join(blocks) + "\n")
                self.assertEqual(self.call(table, "-o", self.output), (0, "", ""))
                self.assertEqual(toml_lines.read(read(self.output)), wanted)

    def test_a_description_that_is_not_accepted(self):
        text = read(os.path.join(EXAMPLES, "n1.toml")).replace("bag_ms = 1", "bag_ms = 3")
        path = self.file("bad.toml", text)
        status, out, said = self.call("--back", path)
        self.assertEqual((status, out), (2, ""))
        self.assertTrue(said.startswith(f"afdx table: {path} line 32: is refused: 4 OutOfLimit at vl 1 bag_ms"), said)


class OfTables(Here):
    def test_usual_values_are_named(self):
        tree = self.made(NODES + LINKS + LINE)
        (vl,) = tree["vl"]
        usual = {"priority": "low", "policing_jitter_ns": 500000, "skew_max_ns": 4000000, "depth": 4, "offset_ns": 0}
        usual |= {"period_ns": 8000000, "jitter_ns": 0}
        given = {"id": 1, "bag_ms": 8, "smax": 100, "size": 100}
        paths = {"a": [["ADC", "SWA", "DU"]], "b": [["ADC", "SWB", "DU"]]}
        self.assertEqual(vl, given | usual | paths)
        self.assertEqual((tree["until_ns"], tree["seed"]), (2 * 10**9, 1))
        self.assertEqual([row["port_bytes"] for row in tree["node"]], [65536, 65536, 16384, 16384])
        self.assertEqual([row["mbit"] for row in tree["link"]], [100] * 4)
        text = read(self.output)
        for key in usual:
            line = next(line for line in text.splitlines() if line.startswith(key + " ="))
            self.assertIn("# usual", line)
        for key in ("id", "bag_ms", "smax"):
            line = next(line for line in text.splitlines() if line.startswith(key + " ="))
            self.assertNotIn("#", line)
        self.assertIn("# that of smax", text)
        self.assertIn(f"[[vl]] # {self.folder}/table0.csv line 12\n", text)

    def test_payloads_become_frames(self):
        """Ethernet 14, IP 20, UDP 8, sequence number 1 and check sequence 4 bytes come on top; a frame has 64 at least."""
        for payload, size in ((1, 64), (17, 64), (18, 65), (100, 147), (1471, 1518)):
            tree = self.made(NODES + LINKS + f"VL,Source,Destination,BAG (ms),Payload\n1,ADC,DU,8,{payload}\n")
            self.assertEqual((tree["vl"][0]["smax"], tree["vl"][0]["size"]), (size, size))
            self.assertIn(f"# payload {payload} and 47 bytes around it", read(self.output))
        table = NODES + LINKS + "id,source,destinations,bag_ms,payload\n1,ADC,DU,8,1472\n"
        self.assertEqual(self.faults_of(table)[0], "table0.csv line 12: payload is 1472, and a frame has 1471 bytes of it at most")

    def faults_of(self, *texts):
        if os.path.exists(self.output):
            os.unlink(self.output)
        return self.faults(*texts)

    def test_bag_and_period(self):
        for period, bag in ((1, 1), (10, 8), (100, 64), (1000, 128)):
            tree = self.made(NODES + LINKS + f"id,source,destinations,period_ms,smax\n1,ADC,DU,{period},100\n")
            self.assertEqual((tree["vl"][0]["bag_ms"], tree["vl"][0]["period_ns"]), (bag, period * 10**6))

    def test_units_names_of_columns_and_separators(self):
        nodes = NODES.replace("name,net", "Name,Net,Latency [us]").replace("SWA,A", "SWA,a,16.5")
        links = LINKS.replace("a,b", "a,b,Length (m)").replace("DU,SWA", "DU,SWA,29.9")
        lines = "VL ID;src;dest;BAG (ms);Smax;Sub-links;Policing;Jitter (µs);until_ns\n"
        lines = lines.replace(";until_ns", "") + "7;ADC;DU;8;100;3;Frames;1.5\n"
        tree = self.made("\ufeff" + nodes.replace(",", ";") + links.replace(",", "\t").replace("\t", ";"), lines)
        self.assertEqual(tree["node"][0]["latency_ns"], 16500)
        self.assertEqual([row["propagation_ns"] for row in tree["link"]], [100, 150, 100, 100])
        (vl,) = tree["vl"]
        self.assertEqual((vl["id"], vl["sub"], vl["policing"], vl["jitter_ns"]), (7, 3, "frames", 1500))
        tree = self.made(NODES + LINKS + LINE + "\nuntil_s,seed\n0.25,9\n")
        self.assertEqual((tree["until_ns"], tree["seed"]), (250_000_000, 9))

    def ring(self, rest):
        """Four switches in a ring, with an end system at each of two opposite ones, so that two ways are equally short."""
        nodes = "name,net\nS1,A\nS2,A\nS3,A\nS4,A\n\n"
        links = "a,b\nS1,S2\nS2,S3\nS3,S4\nS4,S1\nADC,S1\nDU,S3\nFWC,S4\n\n"
        return self.made(nodes + links + rest)["vl"][0]

    def test_ties_are_broken_by_name_or_as_a_column_says(self):
        head = "id,source,destinations,bag_ms,smax"
        self.assertEqual(self.ring(head + "\n1,ADC,DU FWC,8,100\n")["a"], [["ADC", "S1", "S2", "S3", "DU"], ["ADC", "S1", "S4", "FWC"]])
        self.assertEqual(self.ring(head + ",via\n1,ADC,DU,8,100,S4\n")["a"], [["ADC", "S1", "S4", "S3", "DU"]])
        stated = self.ring(head + ",a\n1,ADC,DU FWC,8,100,ADC S1 S4 S3 DU | ADC>S1>S4>FWC\n")
        self.assertEqual((stated["a"], stated["b"]), ([["ADC", "S1", "S4", "S3", "DU"], ["ADC", "S1", "S4", "FWC"]], []))

    def test_a_network_that_does_not_reach_a_destination_is_reported(self):
        tree = self.made(NODES + LINKS.replace("DU,SWB\n", "") + LINE)
        self.assertEqual(tree["vl"][0]["b"], [])
        self.assertIn("b = []                          # not reached: DU\n", read(self.output))

    def test_faults_name_the_line_of_the_table(self):
        good = NODES + LINKS + LINE
        for text, said in (
            (good.replace("8,100", "10,100"), ["line 12: virtual link 1, bag_ms is 10, and must be 1, 2, 4, 8, 16, 32, 64 or 128. The next below 10 is 8"]),
            (good.replace("8,100", "8,2000"), ["line 12: virtual link 1, smax is 2000, and must be a whole number from 64 to 1518", "line 12: virtual link 1, size is 2000, and must be a whole number from 64 to 1518"]),
            (good.replace("8,100", "8,many"), ["line 12: smax is 'many', and no whole number"]),
            (good.replace("8,100", "8," + "1" * 5000), [f"line 12: smax is '{'1' * 30}'.. of 5,000 characters, and no whole number of at most 30 digits"]),
            (good.replace("8,100", "1" * 5000 + ",100"), [f"line 12: bag_ms is '{'1' * 30}'.. of 5,000 characters, and no whole number of at most 30 digits"]),
            (good.replace("8,100", "8,"), ["line 12: has neither smax nor size nor payload"]),
            (good.replace("8,100", ",100"), ["line 12: has neither bag_ms nor period_ns"]),
            (good.replace("bag_ms", "bagg_ms"), ["line 11: the column 'bagg_ms' is not known, and bag_ms may be meant: write it so, or say what it is by --column 'bagg_ms=bag_ms', or 'bagg_ms=-' where it is to be passed over", "line 12: has neither bag_ms nor period_ns"]),
            (good.replace("1,ADC,DU,", "1,ADC,DUX,"), ["line 12: DUX is reached from ADC neither on A nor on B: DUX has no link; DU?"]),
            (good.replace("1,ADC,DU,", "1,,DU,"), ["line 12: has no source"]),
            (good.replace("1,ADC,DU,", "1,ADC,,"), ["line 12: has no destinations"]),
            (good + "1,DU,ADC,8,100\n", ["line 13: virtual link 1 is in line 12 too, and source is 'DU' here and 'ADC' there"]),
            (good.replace("ADC,SWB", "ADC,SWA"), ["line 8: link ADC-SWA, b: there is a link of ADC and SWA already, in line 6", "line 8: link ADC-SWA, b: it is the second link of the end system ADC on network A; the first is in line 6"]),
            (good.replace("SWB,B", "SWB,C"), ["line 3: switch SWB, net is \"C\", and must be \"A\" or \"B\""]),
            (good.replace("8,100", "8,100,7"), ["line 12: has 6 cells, and the table has 5 columns"]),
            (good.replace("SWB,B", "SWB,B,hub").replace("name,net", "name,net,kind"), ['line 3: node SWB, kind is "hub", and must be "es" or "switch"', "line 3: node SWB, net is a key of switches, whose kind is \"switch\""]),
            (good + "\nuntil_ns\n1000\n\nuntil_ns\n2000\n", ["line 18: says until_ns again"]),
            (good + "\nuntil_us\n0.0001\n", ["line 15: until_us is 0.0001, which is no whole number of ns"]),
            (good.replace("smax\n", "smax,a\n").replace("8,100", "8,100,ADC SWA ADC"), ["line 12: the path ADC SWA ADC ends at ADC, which destinations does not name"]),
        ):
            with self.subTest(said):
                self.assertEqual(self.faults_of(text), [line if line.startswith("note: ") else "table0.csv " + line for line in said])

    def test_all_faults_are_reported_at_once(self):
        said = self.faults(NODES + LINKS, LINE + "2,ADC,DU,8,x\n3,ADC,XX,8,y\n")
        self.assertEqual(said, [
            "table1.csv line 3: smax is 'x', and no whole number; so has 1 more line: 4",
            "table1.csv line 4: XX is reached from ADC neither on A nor on B: XX has no link",
        ])

    def test_words(self):
        none = os.path.join(self.folder, "none.csv")
        printed = f"afdx table: {none}: cannot be read: No such file or directory\n"
        self.assertEqual(self.call(none), (2, "", printed))
        table = self.file("table.csv", NODES + LINKS + LINE)
        status, out, said = self.call(table, "-o", table)
        self.assertEqual((status, out, read(table)), (2, "", NODES + LINKS + LINE))
        self.assertIn(f"{table}: would be written over what was read as {table}", said)
        self.assertEqual(self.call("--back", table, table)[0], 2)
        status, out, said = self.call(table)
        self.assertEqual((status, said), (0, ""))
        self.assertIsNone(description_faults.first_fault("net.toml", out))
        status, out, said = self.call(self.file("latin.csv", b"id\xe4\n"))
        self.assertEqual((status, out), (1, ""))
        run = subprocess.run(
            [*tool_words("table"), "--help"], capture_output=True, text=True
        )
        self.assertEqual((run.returncode, run.stderr), (0, ""))
        for word in ("--back", "examples:", "status:", "payload"):
            self.assertIn(word, run.stdout)

    def test_the_table_of_the_examples(self):
        table = os.path.join(EXAMPLES, "flight_deck.csv")
        self.assertEqual(self.call(table, "-o", self.output), (0, "", ""))
        self.assertEqual(tables_by_second_opinion(read(self.output)), read(table.replace(".csv", ".tables.csv")))


class AsItIs(Here):
    """What a table of a project has beside what this tool needs."""

    def noted(self, *texts):
        """The description of tables, which must be accepted, and what is printed on the way."""
        paths = [self.file(f"table{i}.csv", text) for i, text in enumerate(texts)]
        status, out, said = self.call(*paths, "-o", self.output)
        self.assertEqual((status, out), (0, ""), said)
        said = [line.removeprefix("afdx table: note: ").replace(f"{self.folder}/", "", 1) for line in said.splitlines()]
        return toml_lines.read(read(self.output)), said

    def test_further_columns_and_titles_are_passed_over(self):
        table = "Virtual links of the aircraft,,,,,,\n" + LINE.replace("smax", "smax,Message,depht,depth").replace("100", "100,Air data,9,5")
        tree, said = self.noted(NODES.replace("net", "net,Part number").replace("A\n", "A,77-1\n") + LINKS, table)
        self.assertEqual(said, [
            "table0.csv line 1: the column part_number is passed over",
            "table1.csv line 1: is a title, 'Virtual links of the aircraft', and is passed over",
            "table1.csv line 2: the column depht is passed over; depth?",
        ])
        self.assertEqual((tree["vl"][0]["smax"], tree["vl"][0]["depth"]), (100, 5))

    def test_lines_that_differ_in_the_destination_alone_are_one(self):
        links = LINKS.replace("DU,SWB\n", "DU,SWB\nFWC,SWA\nFWC,SWB\n")
        head = "id,source,dest,bag_ms,smax,limit_us,UDP source port,Dst port,Remarks\n"
        lines = "1,ADC,DU,8,100,500,4001,5001,left\n2,DU,ADC,8,64,,,,\n1,ADC,FWC,8,100,700,4001,5001,\n1,ADC,DU,8,100,500,,,left\n"
        tree, said = self.noted(NODES + links, head + lines)
        self.assertEqual(said, ["table1.csv line 5: names DU for virtual link 1 again, as line 2 does"])
        self.assertEqual([vl["id"] for vl in tree["vl"]], [1, 2])
        self.assertEqual(tree["vl"][0]["a"], [["ADC", "SWA", "DU"], ["ADC", "SWA", "FWC"]])
        wanted = f"""[[vl]] # {self.folder}/table1.csv lines 2, 4, 5
# limit_us 500 at DU
# limit_us 700 at FWC
# udp_source_port 4001 at DU FWC
# udp_destination_port 5001 at DU FWC
# remarks left at DU
id = 1
"""
        self.assertIn(wanted, read(self.output))

    def test_lines_that_differ_in_what_is_not_known_are_one(self):
        """Each line has a reference and a message of its own, as an interface control document has them."""
        links = LINKS.replace("DU,SWB\n", "DU,SWB\nFWC,SWA\nFWC,SWB\n")
        head = "id,Reference,source,dest,bag_ms,smax,priority,Message\n"
        for alike in ("8,100,High", "8.0,100,high"):
            tree, said = self.noted(NODES + links, head + f"1,R-17,ADC,DU,8,100,High,Air data\n1,R-18,ADC,FWC,{alike},Air data 2\n")
            self.assertEqual(said, ["table1.csv line 1: the column reference is passed over"])
            self.assertIn("# message Air data at DU\n# message Air data 2 at FWC\n", read(self.output))
            self.assertEqual([vl["a"] for vl in tree["vl"]], [[["ADC", "SWA", "DU"], ["ADC", "SWA", "FWC"]]])

    def test_lines_that_differ_in_more_are_a_fault(self):
        """It names each column with both values, and the lines, also those of two files."""
        (said,) = self.faults(NODES + LINKS + LINE + "1,ADC,DU,16,99\n")
        wanted = "virtual link 1 is in line 12 too, and bag_ms is '16' here and '8' there; smax is '99' here and '100' there"
        self.assertEqual(said, f"table0.csv line 13: {wanted}")
        (said,) = self.faults(NODES + LINKS + LINE, LINE.replace("8,100", ",101"))
        wanted = f"virtual link 1 is in line 12 of {self.folder}/table0.csv too, and smax is '101' here and '100' there"
        self.assertEqual(said, f"table1.csv line 2: {wanted}")

    def test_headings_of_interface_control_documents(self):
        """Each means what the column of ours does, in the unit that it names."""
        for heads, cells, wanted in (
            ("VLID,Tx LRU,Rx LRU,BAG (ms),Lmax", "7,ADC,DU,8,100", {"id": 7, "bag_ms": 8, "smax": 100}),
            ("VL ID,Transmitter,Receiver,BAG (us),Max frame size (bytes)", "7,ADC,DU,8000,100", {"bag_ms": 8, "smax": 100}),
            ("Virtual link,Source ES,Destination ES,Rate (Hz),Lmax (octets)", "7,ADC,DU,50,100", {"bag_ms": 16, "period_ns": 20_000_000}),
            ("VL No.,Publisher,Subscribers,Refresh period (msec),UDP payload", "7,ADC,DU,12.5,100", {"period_ns": 12_500_000, "smax": 147}),
            ("VL,From,To,BAG,Smax,Prio,Queue depth", "7,ADC,DU,8,100,high,9", {"priority": "high", "depth": 9}),
            ("VL,Tx,Rx,BAG,Smax,SkewMax (us),Refresh rate (kHz)", "7,ADC,DU,1,100,500,0.06", {"skew_max_ns": 500_000, "period_ns": 16_666_666}),
        ):
            with self.subTest(heads):
                tree, said = self.noted(NODES + LINKS, f"{heads}\n{cells}\n")
                self.assertEqual((said, tree["vl"][0]["a"]), ([], [["ADC", "SWA", "DU"]]))
                self.assertEqual({key: tree["vl"][0][key] for key in wanted}, wanted)

    def test_cables_from_and_to_are_links(self):
        for heads in ("From,To", "From LRU,To LRU", "End A,End B"):
            tree, _ = self.noted(NODES + LINKS.replace("a,b", heads + ",Cable length (m)").replace("SWA\n", "SWA,30\n") + LINE)
            self.assertEqual([row["propagation_ns"] for row in tree["link"]], [150, 150, 100, 100])
        tree, _ = self.noted(NODES + LINKS + LINE + "\nFrom,To,From (ms),To (ms)\nADC,SWA,1,2\n")
        self.assertEqual(tree["outage"], [{"from": "ADC", "to": "SWA", "from_ns": 1_000_000, "to_ns": 2_000_000}])

    def test_a_column_that_may_be_two_is_a_fault(self):
        or_by = lambda names, one: f"{names}: say which one by --column {one!r}, or {one.partition('=')[0] + '=-'!r} where it is to be passed over"
        for heads, said in (
            ("bag_ms,Frame size", "the column 'Frame size' may be " + or_by("smax or size", "Frame size=smax")),
            ("bag_ms,smax,Period", "the column 'Period' may be " + or_by("period_ns, period_us, period_ms or period_s", "Period=period_ms")),
            ("bag_ms,smax,Max jitter (us)", "the column 'Max jitter (us)' may be " + or_by("policing_jitter_us or jitter_us", "Max jitter (us)=policing_jitter_us")),
            ("bag_ms,smax,Lmax", "has the column smax twice, as 'smax' and as 'Lmax': pass one over by --column 'Lmax=-'"),
            ("bag_ms,smax,prioritty", "the column 'prioritty' is not known, and priority may be meant: write it so, or say what it is by --column 'prioritty=priority', or 'prioritty=-' where it is to be passed over"),
            ("bag_ms,smax,Refresh periodd (ms)", "the column 'Refresh periodd (ms)' is not known, and period_ms may be meant: write it so, or say what it is by --column 'Refresh periodd (ms)=period_ms', or 'Refresh periodd (ms)=-' where it is to be passed over"),
        ):
            with self.subTest(heads):
                found = self.faults(NODES + LINKS + f"id,source,destinations,{heads}\n1,ADC,DU,8,100,8\n")
                self.assertEqual(found[0], f"table0.csv line 11: {said}")

    def test_columns_that_words_name(self):
        """They stand for what the words say, which the description keeps, and tables that are made of it."""
        table = self.file("table.csv", NODES + LINKS + "id,Box,Sinks,Repetition,Size of frames,Period\n1,ADC,DU,8,100,x\n")
        words = ["--column", "Box=source", "--column", "repetition=period_ms", "--column=Size of frames=smax", "--column", "Period=-"]
        self.assertEqual(self.call(table, "-o", self.output, *words), (0, "", ""))
        tree, text = toml_lines.read(read(self.output)), read(self.output)
        self.assertEqual((tree["vl"][0]["a"], tree["vl"][0]["period_ns"], tree["vl"][0]["smax"]), ([["ADC", "SWA", "DU"]], 8 * 10**6, 100))
        for said in ("box=source", "repetition=period_ms", "size_of_frames=smax", "period=-"):
            self.assertIn(f'\n# --column "{said}"\n', text)
        tables = os.path.join(self.folder, "back.csv")
        self.assertEqual(self.call("--back", self.output, "-o", tables), (0, "", ""))
        self.assertTrue(read(tables).startswith('# --column "box=source"\n# --column "size_of_frames=smax"\n'), read(tables))
        self.assertIn("\nid,box,destinations,bag_ms,size_of_frames,", read(tables))
        again = os.path.join(self.folder, "again.toml")
        self.assertEqual(self.call(tables, "-o", again), (0, "", ""))
        self.assertEqual(toml_lines.read(read(again)), tree)

    def test_columns_that_words_name_in_one_sheet(self):
        """What is made of the description again has no such sheet, and the names of the columns."""
        table = self.file("table.csv", NODES + LINKS + "id,Box,destinations,bag_ms,smax\n1,ADC,DU,8,100\n")
        self.assertEqual(self.call(table, "-o", self.output, "--column", "table.csv!Box=source"), (0, "", ""))
        tables, again = (os.path.join(self.folder, name) for name in ("back.csv", "again.toml"))
        self.assertEqual(self.call("--back", self.output, "-o", tables), (0, "", ""))
        self.assertEqual(self.call(tables, "-o", again), (0, "", ""))
        self.assertEqual(toml_lines.read(read(again)), toml_lines.read(read(self.output)))

    def test_tables_that_are_of_something_else(self):
        """A list of equipment is no table of nodes, and one remark is enough."""
        tree, said = self.noted(NODES + LINKS + LINE.replace("smax", "smax,Remarks,Description").replace("100", "100,left,right"))
        self.assertEqual((said, len(tree["node"])), (["table0.csv line 11: the column description is passed over: 'Remarks' is there as remarks"], 4))
        self.assertIn("# remarks left\n", read(self.output))
        os.unlink(self.output)
        self.assertEqual(self.faults(NODES + LINKS + LINE, "LRU,Type,Description\nADC,computer,air data\n"), [
            f"{self.folder}/table1.csv: has no table: --help has their columns".removeprefix(self.folder + "/"),
            "table1.csv line 1: is left: it names no columns of a table, but LRU, Type, Description. --column says what headings mean, and --skip 'table1.csv' leaves out the sheet; so has 1 more line: 2",
        ])
        tree, _ = self.noted("Switch,Network,Latency (us)\nSWA,A,16\nSWB,B,16\n\n" + LINKS + LINE)
        self.assertEqual([row.get("net") for row in tree["node"]], ["A", "B", None, None])

    def test_words_about_columns_that_are_wrong(self):
        table = self.file("table.csv", NODES + LINKS + LINE)
        for word, status, said in (
            ("Box=source", 1, f"afdx table: {table}: no table has a column 'box' that --column can make 'source'"),
            ("smax=mbit", 1, f"afdx table: {table}: no table has a column 'smax' that --column can make 'mbit'"),
            ("Box=sorce", 2, "'Box=sorce': there is no column 'sorce': see the columns above"),
            ("=source", 2, "'=source' is not [SHEET!]HEADING=COLUMN, as 'Tx LRU=source'"),
            ("Box", 2, "'Box' is not [SHEET!]HEADING=COLUMN, as 'Tx LRU=source'"),
        ):
            with self.subTest(word):
                found = self.call(table, "-o", self.output, "--column", word)
                self.assertEqual((found[0], os.path.exists(self.output)), (status, False))
                self.assertTrue(found[2].rstrip("\n").endswith(said), found[2])
        self.assertEqual(self.call("--back", table, "--column", "Box=source")[0], 2)

    def test_a_fault_of_many_lines_is_reported_once(self):
        lines = "".join(f"{i},ADC,DU,10,100\n" for i in range(2, 70))
        (said,) = self.faults(NODES + LINKS + LINE + lines)
        wanted = "line 13: virtual link 2, bag_ms is 10, and must be 1, 2, 4, 8, 16, 32, 64 or 128. The next below 10 is 8; so have 67 more lines: 14, 15, 16, .."
        self.assertEqual(said, "table0.csv " + wanted)

    def test_decimal_commas(self):
        """In a file that is parted by semicolons. The same mark stands in all of it."""
        text = (NODES + LINKS).replace(",", ";") + "VL;Source;Destinations;Period (ms);Smax;Jitter (us);Max latency (us)\n7;ADC;DU;12,5;100;{};0,5\n"
        tree, said = self.noted("Virtual links of the aircraft\n\n" + text.format("1,5"))
        self.assertEqual((tree["vl"][0]["period_ns"], tree["vl"][0]["jitter_ns"]), (12_500_000, 1500))
        os.unlink(self.output)
        (said,) = self.faults(text.format("1.5"))
        self.assertEqual(said, "table0.csv line 12: jitter_us is '1.5', and line 12 has a number with ',' in place of '.'")
        (said,) = self.faults(NODES + LINKS + LINE.replace("smax", "smax,jitter_us").replace("100", '100,"1,5"'))
        self.assertEqual(said, "table0.csv line 12: jitter_us is '1,5', and no number")

    def test_letters_of_excel(self):
        """The same table as Excel writes it: in the letters of Windows, as `Unicode text`, and with a line that says what parts its cells."""
        text = (NODES + LINKS + LINE).replace("DU", "\u00c9cran")
        wanted, _ = self.noted(text)
        self.assertIn("Ecran", [row["name"] for row in wanted["node"]])
        read_as = "is no UTF-8, and is read as Windows-1252; if letters of names are wrong, save it as `CSV UTF-8 (comma delimited)`, or as a workbook (.xlsx)"
        semicolons, tabs = (text.replace(",", mark).replace("\n", "\r\n") for mark in (";", "\t"))
        for name, found, notes in (
            ("cp1252", semicolons.encode("cp1252"), [read_as]),
            ("UTF-8 with its mark", b"\xef\xbb\xbf" + semicolons.encode("utf-8"), []),
            ("UTF-16 of Windows", b"\xff\xfe" + tabs.encode("utf-16-le"), []),
            ("UTF-16 of others", b"\xfe\xff" + tabs.encode("utf-16-be"), []),
            ("sep=", ("sep=;\r\n" + semicolons).encode("utf-8"), []),
            ("sep=| in cp1252", ("sep=|\r\n" + semicolons.replace(";", "|")).encode("cp1252"), [read_as]),
        ):
            with self.subTest(name):
                tree, said = self.noted(found)
                self.assertEqual((tree, [line.removeprefix("table0.csv: ") for line in said]), (wanted, notes))
        for name, found, said in (
            ("half a letter of UTF-16", b"\xff\xfe" + tabs.encode("utf-16-le")[:-1], "begins as UTF-16 and is none: save it as `CSV UTF-8"),
            ("UTF-16 without its mark", tabs.replace("\u00c9", "E").encode("utf-16-le"), "has bytes that no text has, as UTF-16 without its mark: save it as `CSV UTF-8"),
            ("neither", semicolons.encode("utf-8") + b"\x81\xff", "is neither UTF-8 nor Windows-1252: save it as `CSV UTF-8"),
        ):
            with self.subTest(name):
                path = self.file("bad.csv", found)
                status, out, printed = self.call(path)
                self.assertEqual((status, out, printed.count("\n")), (2, "", 1), printed)
                self.assertIn(said, printed)

    def test_a_further_stream_is_a_line_of_its_virtual_link(self):
        net = os.path.join(self.folder, "net.toml")
        with open(net, "w", encoding="utf-8") as out:
            out.write(read(os.path.join(EXAMPLES, "n1.toml")).replace("size = 64", "size = 64\nframes = 2"))
            out.write('[[stream]]\n# remarks its status\nvl = 1\nsize = 65\noffset_ns = 7\nperiod_ns = 2000000\njitter_ns = 0\ntiming = "sporadic"\n')
        lines = self.call("--back", net)[1].splitlines()[-3:]
        self.assertEqual(lines[0], "id,source,destinations,stream,bag_ms,smax,priority,policing_jitter_ns,skew_max_ns,depth,size,frames,"
                         "offset_ns,period_ns,jitter_ns,timing,a,b,remarks")
        self.assertEqual(lines[1], "1,ES1,ES2,,1,64,low,0,1000000,16,64,2,0,1000000000000,0,,ES1 SW1 ES2,-,")
        self.assertEqual(lines[2], "1,ES1,ES2,1,1,64,low,0,1000000,16,65,,7,2000000,0,sporadic,ES1 SW1 ES2,-,its status")

    def test_streams_come_back(self):
        """In the order of their rows, with their own sub-virtual links and comments, also if all else is alike."""
        table = "id,source,destinations,bag_ms,smax,sub_vl,port,message_bytes,period_ms,timing,limit_ms,remarks\n"
        table += "1,ADC,DU,8,500,1,P1,100,16,,2,first\n1,ADC,FWC,8,500,1,P1,100,16,,3,\n2,DU,ADC,8,500,,Q1,100,16,,,\n"
        table += "1,ADC,DU FWC,8,500,2,P2,100,16,,,\n1,ADC,DU,8,500,2,P3,2000,100,event,,last\n2,DU,ADC,8,500,,Q2,100,16,,,of Q2 at ADC\n"
        path = self.file("table.csv", NODES + LINKS + "FWC,SWA\n\n" + table)
        self.assertEqual(self.call(path, "-o", self.output)[0], 0)
        text = read(self.output)
        # The second row of `stream` goes to virtual link 2, the third to 1.
        first, second, third = text.split("\n\n[[stream]]")[1:]
        with open(self.output, "w", encoding="utf-8") as out:
            out.write(text.replace(third.rstrip("\n"), "THIRD").replace(second, third.rstrip("\n")).replace("THIRD", second))
        tables, again = (os.path.join(self.folder, name) for name in ("back.csv", "again.toml"))
        self.assertEqual(self.call("--back", self.output, "-o", tables), (0, "", ""))
        self.assertEqual(self.call(tables, "-o", again)[:2], (0, ""))
        found, wanted = (toml_lines.read(read(it)) for it in (again, self.output))
        self.assertEqual([(row["vl"], row.get("sub_vl"), row.get("frames"), row.get("timing")) for row in wanted["stream"]], [(1, 1, None, None), (2, None, None, None), (1, 1, 5, "sporadic")])
        self.assertEqual(found, wanted)
        said = [[line for line in read(it).split("\n") if line.startswith(("# limit", "# port", "# remarks"))] for it in (self.output, again)]
        self.assertEqual(said[1], said[0])

    def test_limits_ports_and_remarks_come_back(self):
        links = LINKS.replace("a,b", "a,b,remarks").replace("DU,SWB\n", 'DU,SWB,"long, and old"\nFWC,SWA\nFWC,SWB\n')
        head = "id,source,dest,bag_ms,smax,limit_us,UDP source port,Dst port,Remarks\n"
        lines = '1,ADC,DU,8,100,500,4001,5001,left\n2,DU,ADC,8,64,,,,look at ADC\n1,ADC,FWC,8,100,700,4001,5001,\n1,ADC,DU,8,100,500,,,"again, ""it"" at FWC"\n'
        self.noted(NODES + links, head + lines)
        tables, again = (os.path.join(self.folder, name) for name in ("back.csv", "again.toml"))
        self.assertEqual(self.call("--back", self.output, "-o", tables), (0, "", ""))
        self.assertEqual(self.call(tables, "-o", again)[:2], (0, ""))
        said = [[line for line in read(it).split("\n") if line.startswith(("# limit", "# udp", "# remarks"))] for it in (self.output, again)]
        self.assertEqual(said[1], said[0])
        self.assertEqual(len(said[0]), 8)
        self.assertEqual(toml_lines.read(read(again)), toml_lines.read(read(self.output)))

    def test_a_fault_of_a_line_that_was_joined(self):
        said = self.faults(NODES + LINKS + LINE.replace("smax", "smax,limit_us").replace("100", "100,1") + "1,ADC,DU,8,100,x\n")
        self.assertEqual(said[-1], "table0.csv line 13: limit_us is 'x', and no number")

    def test_comments_stay_comments(self):
        """Whatever a cell has: marks of the end of a line, or of TOML."""
        remark = '"two\nlines ""] = 1 \t#\x01"'
        tree, _ = self.noted(NODES + LINKS + LINE.replace("smax", "smax,remarks").replace("100", f"100,{remark}"))
        self.assertEqual(len(tree["vl"]), 1)
        self.assertIn('\n# remarks two lines "] = 1 #\n', read(self.output))


def has_library():
    """Whether some interpreter here can make a workbook."""
    run = subprocess.run([workbook.DEBIAN, "-c", "import openpyxl"], capture_output=True) if os.path.exists(workbook.DEBIAN) else None
    return run is not None and run.returncode == 0


@unittest.skipUnless(has_library(), f"there is no openpyxl: apt-get install -y {workbook.PACKAGE}")
class Workbooks(Here):
    def book(self, name, lines):
        """A workbook that some lines of Python make of an empty one."""
        path = os.path.join(self.folder, name)
        text = f"import openpyxl\nbook = openpyxl.Workbook()\nsheet = book.active\n{lines}\nbook.save({path!r})\n"
        subprocess.run([workbook.DEBIAN, "-c", text], check=True)
        return path

    def of_rows(self, *rows, more=""):
        return self.book("icd.xlsx", "".join(f"sheet.append({row!r})\n" for row in rows) + more)

    def test_the_example(self):
        """A line a destination, further columns, a title and a sheet of something else: the tables are those of the CSV."""
        path = os.path.join(EXAMPLES, "flight_deck.xlsx")
        status, out, said = self.call(path, "-o", self.output)
        title = f"afdx table: note: {path}, sheet Virtual links, line 1: is a title, 'Flight deck, interface control document', and is passed over"
        left = "is left: it names no columns of a table, but Issue, Author, Change. --column says what headings mean, and --skip 'History' leaves out the sheet"
        left = f"afdx table: {path}, sheet History, line 1: {left}; so have 2 more lines: 2, 3"
        self.assertEqual((status, out, said.splitlines()), (1, "", [title, left]))
        self.assertEqual(self.receipt, "12 virtual links of 30 rows, 13 nodes, 20 cables; 5 titles, 3 rows left")
        status, out, said = self.call(path, "-o", self.output, "--skip", "History")
        self.assertEqual((status, out, said.splitlines()), (0, "", [title]))
        self.assertEqual(self.receipt, "12 virtual links of 30 rows, 13 nodes, 20 cables; 5 titles, 3 rows skipped, 0 rows left")
        found = read(self.output)
        # OfTables runs what is made of the CSV.
        self.assertEqual(self.call(path.replace(".xlsx", ".csv"), "-o", self.output), (0, "", ""))
        self.assertEqual(toml_lines.read(found), toml_lines.read(read(self.output)))
        self.assertIn("# limit_us 500\n# udp_source_port 4101\n# udp_destination_port 5101\n# remarks for the standby display at DU_C\n", found)

    def test_cells(self):
        """Numbers with and without a point, cells that are merged, and an empty row between two tables."""
        links = [["a", "b", "length_m"], ["ADC", "SWA", 20.0], ["DU", "SWA", 30], ["FWC", "SWA", None]]
        lines = [["VL", "Source", "Destination", "Period (ms)", "Smax", "Jitter (us)"], [7, "ADC", "DU", 12.5, 100, 0.5], [None, None, "FWC", None, None, None]]
        merged = "".join(f"sheet.merge_cells('{column}10:{column}11')\n" for column in "ABDEF")
        path = self.of_rows(["name", "net"], ["SWA", "A"], [], *links, [], *lines, more=merged)
        self.assertEqual(self.call(path, "-o", self.output), (0, "", ""))
        tree = toml_lines.read(read(self.output))
        (vl,) = tree["vl"]
        self.assertEqual((vl["period_ns"], vl["jitter_ns"], vl["a"]), (12_500_000, 500, [["ADC", "SWA", "DU"], ["ADC", "SWA", "FWC"]]))
        self.assertEqual([row["propagation_ns"] for row in tree["link"]], [100, 150, 100])

    def test_faults_name_sheet_and_line(self):
        path = self.of_rows(["id", "source", "destinations", "bag_ms", "smax"], [1, "ADC", "DU", 10, "x"])
        status, _, said = self.call(path)
        self.assertEqual((status, said.splitlines()[0]), (1, f"afdx table: {path}, sheet Sheet, line 2: smax is 'x', and no whole number"))

    def test_a_cell_that_was_left_behind(self):
        """In the last row, or in the last column: neither time nor memory goes by the cells before it."""
        rows = [["name", "net"], ["SWA", "A"], [], ["a", "b"], ["ADC", "SWA"], ["DU", "SWA"], [], ["id", "source", "destinations", "bag_ms", "smax"], [1, "ADC", "DU", 8, 100]]
        for more, status, said in (
            ("sheet['A1048576'] = 'x'\nsheet['XFD1'] = ''", 0, "note: {}, sheet Sheet, line 1048576: is a title, 'x', and is passed over"),
            ("sheet['XFD1048576'] = 'x'", 0, "note: {}, sheet Sheet, line 1048576: is a title, 'x', and is passed over"),
            ("sheet['XFD9'] = 'x'", 1, "{}, sheet Sheet, line 9: has 16384 cells, and the table has 5 columns"),
        ):
            with self.subTest(more):
                path = self.of_rows(*rows, more=more)
                little = lambda: resource.setrlimit(resource.RLIMIT_AS, (500_000_000, 500_000_000))
                command = [*tool_words("table"), path, "-o", self.output]
                run = subprocess.run(command, capture_output=True, text=True, preexec_fn=little, timeout=PATIENCE)
                self.assertEqual((run.returncode, RECEIPT.sub("", run.stderr)), (status, f"afdx table: {said.format(path)}\n"))

    def test_what_is_hidden_is_noted(self):
        rows = [["name", "net"], ["SWA", "A"], [], ["a", "b"], ["ADC", "SWA"], ["DU", "SWA"], [], ["id", "source", "destinations", "bag_ms", "smax"], [1, "ADC", "DU", 8, 100], [2, "ADC", "DU", 8, 100]]
        more = "sheet.row_dimensions[9].hidden = sheet.row_dimensions[10].hidden = sheet.row_dimensions[11].hidden = True\n"
        more += "sheet.column_dimensions['E'].hidden = True\nother = book.create_sheet('Old')\nother.append(['until_ns'])\nother.append([1000])\nother.sheet_state = 'hidden'"
        path = self.of_rows(*rows, more=more)
        status, _, said = self.call(path, "-o", self.output)
        self.assertEqual(status, 0, said)
        self.assertEqual(said.splitlines(), [
            f"afdx table: note: {path}, sheet Sheet, line 9: is hidden, and is read all the same; so has 1 more line: 10",
            f"afdx table: note: {path}, sheet Sheet: has the column E, which is hidden, and is read all the same",
            f"afdx table: note: {path}, sheet Old: is hidden, and is read all the same",
        ])
        self.assertEqual(len(toml_lines.read(read(self.output))["vl"]), 2)

    def test_a_formula_without_a_value(self):
        path = self.of_rows(["id", "smax"], [1, "=64+36"])
        printed = f"afdx table: {path}, sheet Sheet, line 2: cell B2 is a formula without a value: open and save it in the program that has made it"
        status, out, said = self.call(path)
        self.assertEqual((status, out, said.splitlines()[0]), (1, "", printed))

    def test_a_workbook_without_a_table(self):
        path = self.of_rows(["Issue", "Author"], ["A", "B"])
        status, out, said = self.call(path)
        self.assertEqual((status, out), (1, ""))
        self.assertIn(f"afdx table: {path}: has no table: --help has their columns", said.splitlines())

    def test_what_is_no_workbook(self):
        path = self.file("icd.xlsx", b"PK\x03\x04 and nothing more")
        status, out, said = self.call(path)
        self.assertEqual((status, out, said.count("\n")), (2, "", 1))
        self.assertTrue(said.startswith(f"afdx table: {path}: is no workbook that can be read: "), said)

    def test_it_is_not_written_over(self):
        path = os.path.join(self.folder, "icd.xlsx")
        shutil.copy(os.path.join(EXAMPLES, "flight_deck.xlsx"), path)
        status, _, said = self.call(path, "--skip", "History", "-o", os.path.join(self.folder, ".", "icd.xlsx"))
        self.assertEqual((status, said.count("would be written over"), workbook.is_workbook(path)), (2, 1, True))


class WithoutTheLibrary(Here):
    def test_it_names_what_to_install(self):
        path = os.path.join(EXAMPLES, "flight_deck.xlsx")
        printed = f"afdx table: {path}: is a workbook, which needs a library: apt-get install -y python3-openpyxl; or save its sheets as CSV\n"
        with mock.patch.object(workbook, "DEBIAN", "/none/python3"), mock.patch("importlib.util.find_spec", lambda name: None):
            self.assertEqual(self.call(path), (2, "", printed))


class WithTheProgram(Here):
    def test_the_program_gives_the_same_tables(self):
        """For the tables of each example, and for the one that is written as a table."""
        for path in [*examples(), os.path.join(EXAMPLES, "flight_deck.csv")]:
            with self.subTest(path):
                tables = path
                if path.endswith(".toml"):
                    tables = os.path.join(self.folder, "back.csv")
                    self.assertEqual(self.call("--back", path, "-o", tables), (0, "", ""))
                self.assertEqual(self.call(tables, "-o", self.output), (0, "", ""))
                run = subprocess.run([model.PROGRAM, "seq", self.output], capture_output=True, text=True)
                self.assertEqual((run.stdout, run.returncode), (read(os.path.splitext(path)[0] + ".tables.csv"), 0))


if __name__ == "__main__":
    unittest.main()
