"""Tests of limits.py, by the tools that hold limits: afdx report, afdx bounds, afdx campaign and afdx explain."""
import contextlib
import io
import os
import unittest
import xml.etree.ElementTree as xml

from afdx import model
from afdx.commands import bounds, explain, from_table, report
from afdx.reckon import bounds_reader, limits, margins
from tests.test_campaign import COCKPIT, Here, read

TABLES = COCKPIT.replace(".toml", ".tables.csv")
NET = model.Network(COCKPIT)


class Files(Here):
    def of(self, text):
        """The limits of a text: virtual link and destination, ns, and line."""
        return {key: (it.ns, it.line) for key, it in limits.limits_of(self.file("limits.csv", text), NET).items()}

    def test_each_way_to_write_limits(self):
        wanted = {(101, "DU_R"): 500_000, (102, "DU_L"): 10_500}
        plain = "101,DU_R,500000\n102,DU_L,10500\n"
        units = {"ns": ("500000", "10500"), "us": ("500", "10.5"), "ms": ("0.5", "0.0105")}
        for text in (
            plain,
            "vl,destination,limit_ns\n" + plain,
            "# of the ICD\n\n" + plain,
            plain.replace("\n", "\r\n"),
            "\ufeff" + plain,
            plain.replace(",", ";"),
            plain.replace(",", "\t"),
            plain.replace("DU_R", '"DU_R"').replace("101", ' "101" '.strip()),
            plain.replace("500000", "500_000"),
            *(f"VL,Destination,Limit ({unit})\n101,DU_R,{one}\n102,DU_L,{two}\n" for unit, (one, two) in units.items()),
            "VLID;Rx LRU;Max latency (us)\n101;DU_R;500,0\n102;DU_L;10,5\n",
            "\ufeffmessage;limit_us;dest;vl\r\nAirspeed;500;DU_R;101\r\n;10.5;DU_L;102\r\nno limit;;FWC;101\r\n",
        ):
            with self.subTest(text):
                self.assertEqual({key: ns for key, (ns, _) in self.of(text).items()}, wanted)
        # One limit for several destinations, and the line of each.
        printed = self.of("id,destinations,limit_us\n101,DU_R DU_L,500\n102,DU_L,7\n")
        self.assertEqual(printed, {(101, "DU_R"): (500_000, 2), (101, "DU_L"): (500_000, 2), (102, "DU_L"): (7000, 3)})

    def test_what_is_no_limit(self):
        for text, said in (
            ("vl,destination\n1,2\n", "line 1: has 2 fields in place of 3: VL,NAME,NS"),
            ("vl,destination,limit_us,limit_ms\n", "line 1: names the columns vl, destination, limit_us, limit_ms, and lacks limit_ns, limit_us or limit_ms, and one of them alone"),
            ("vl,where,limit_us\n101,DU_R,5.0001\n", "line 2: the limit is 5.0001, which is no whole number of ns"),
            ("vl,where,limit_us\n101,DU_R,1e3\n", "line 2: the limit is '1e3', and no number"),
            ("101,DU_R,-5\n", "line 1: the limit is '-5', and no whole number"),
            ("101,NONE,5\n", f"line 1: 'NONE' is no destination of virtual link 101 in {COCKPIT}"),
            ("101,DU_R,5\n101,DU_R,6\n", "line 2: says again what line 1 says"),
            ("# none\n", "has no limits"),
        ):
            with self.subTest(said):
                with self.assertRaises(limits.Fault) as found:
                    self.of(text)
                path = os.path.join(self.folder, "limits.csv")
                self.assertEqual(str(found.exception), f"{path}{' ' if said.startswith('line') else ': '}{said}")

    def test_the_limits_of_another_variant(self):
        """The comments of a description are limits of its variants, too, whatever stands around the name."""
        for comment in ("# limit_us 500", "#limit_us 500", "# limit_us = 500", "# limit_ms: 0.5"):
            text = read(COCKPIT).replace("id = 101\n", f"{comment} at DU_R\nid = 101\n", 1)
            found = limits.limits_of(self.file("variant.toml", text + "# another one\n"), NET)
            self.assertEqual({key: it.ns for key, it in found.items()}, {(101, "DU_R"): 500_000})

    def test_the_limits_of_an_interface_control_document(self):
        """A column of the table becomes a comment of the description, which is then a file of limits."""
        table = "id,source,destinations,bag_ms,smax,limit_us\n7,E1,E2 E3,8,64,500\n\na,b\nE1,S\nE2,S\nE3,S\n\nname,net\nS,A\n"
        made, net = self.file("table.csv", table), os.path.join(self.folder, "net.toml")
        self.assertEqual(from_table.main([made, "-o", net]), 0)
        found = limits.limits_of(net, model.Network(net))
        self.assertEqual({key: it.ns for key, it in found.items()}, {(7, "E2"): 500_000, (7, "E3"): 500_000})
        lines = read(net).splitlines()
        self.assertEqual({lines[it.line - 1] for it in found.values()}, {"# limit_us 500"})


class Margins(Here):
    def call(self, tool, *words):
        said, printed = io.StringIO(), io.StringIO()
        with contextlib.redirect_stdout(said), contextlib.redirect_stderr(printed):
            status = tool.main(list(words))
        return status, said.getvalue(), printed.getvalue()

    def test_margins_and_statuses(self):
        """By the greatest latency, by the bound where there are bounds, and by the bound alone; the least first."""
        path, page, junit = (os.path.join(self.folder, name) for name in ("bounds.csv", "page.html", "limits.xml"))
        self.assertEqual(self.call(bounds, COCKPIT, "-o", path), (0, "", ""))
        row = model.Tables(TABLES, NET).latencies[101, "DU_R"]
        bound = bounds_reader.read(path, NET).bound(101, "DU_R")
        other = bounds_reader.read(path, NET).bound(102, "DU_L")
        self.assertLess(row.greatest, bound)
        for ns, by_latency, by_bound in (
            (row.greatest - 1, "broken", "broken"),
            (row.greatest, "kept", "below its bound"),
            (bound - 1, "kept", "below its bound"),
            (bound, "kept", "kept"),
        ):
            # 102 has room for a second.
            printed = self.file("limits.csv", f"102,DU_L,1000000000\n101,DU_R,{ns}\n")
            head, wide = margins.HEAD + "\n", 10**9 - 1000
            found = self.call(report, COCKPIT, TABLES, "--limits", printed, "-o", page)
            self.assertEqual((found[0], found[2]), (int(by_latency == "broken"), ""))
            self.assertTrue(found[1].startswith(head + f"101,DU_R,{ns},{row.greatest},,{ns - row.greatest},{by_latency},,,\n102,DU_L,"))
            for strict in ([], ["--strict"]):
                status = int(by_bound == "broken" or bool(strict) and by_bound != "kept")
                words = ["--limits", printed, "--bounds", path, "--junit", junit, *strict, "-o", page]
                found = self.call(report, COCKPIT, TABLES, *words)
                self.assertEqual((found[0], found[2]), (status, ""))
                self.assertIn(f"101,DU_R,{ns},{row.greatest},{bound},{ns - bound},{by_bound},tool,,\n", found[1])
                root = xml.parse(junit).getroot()
                self.assertEqual((root.tag, root.get("tests"), len(root)), ("testsuites", "2", 1))
                suite = root[0]
                self.assertRegex(suite.get("time"), r"^\d+\.\d{3}$")
                self.assertEqual((suite.get("tests"), suite.get("failures")), ("2", str(status)))
                first = suite[0]
                self.assertEqual((first.get("classname"), first.get("name")), ("virtual link 101", "DU_R"))
                self.assertEqual([it.tag for it in first], ["failure"] if status else ["system-out"])
                found = self.call(bounds, COCKPIT, "--limits", printed, *strict)
                verdict = "kept" if ns >= bound else "below its bound"
                text = head + f"101,DU_R,{ns},,{bound},{ns - bound},{verdict},tool,,\n102,DU_L,1000000000,,{other},{10**9 - other},kept,tool,,\n"
                self.assertEqual(found, (int(bool(strict) and verdict != "kept"), text, ""))

    def test_the_latency_of_end_systems(self):
        """As columns, as comments for the file, and behind the head of a virtual link: it counts beside what the run and the bound have."""
        row = model.Tables(TABLES, NET).latencies[101, "DU_R"]
        most = row.greatest + 250_000
        of_link = read(COCKPIT).replace("id = 101\n", "# limit_ns {} at DU_R\n# tx_latency_us 100\n# rx_latency_us 150 at DU_R\n# rx_latency_us 1 at FWC\nid = 101\n", 1)
        for name, text in (
            ("limits.csv", "vl,destination,limit_ns,tx_latency_us,rx_latency_ns\n101,DU_R,{},100,150000\n"),
            ("limits.csv", "# tx_latency_us 100\n# rx_latency_us 150\n101,DU_R,{}\n"), ("variant.toml", of_link),
        ):
            for ns, verdict in ((most, "kept"), (most - 1, "broken")):
                with self.subTest(name, ns=ns):
                    printed, page = self.file(name, text.replace("{}", str(ns))), os.path.join(self.folder, "page.html")
                    status, said, _ = self.call(report, COCKPIT, TABLES, "--limits", printed, "-o", page)
                    wanted = f"101,DU_R,{ns},{row.greatest},,{ns - most},{verdict},,100000,150000\n"
                    self.assertEqual((status, said), (int(verdict == "broken"), margins.HEAD + "\n" + wanted))
                    self.assertIn("Margins count the latency that the limits state of end systems", read(page))
                    self.assertIn('"greatest_ends":[', read(page))
        self.call(report, COCKPIT, TABLES, "--limits", self.file("limits.csv", "101,DU_R,5\n"), "-o", page)
        self.assertIn("without the latency of end systems (up to 150 µs each way by the standard)", read(page))

    def test_what_is_not_known_is_not_green(self):
        """Where nothing was delivered, a limit is neither kept nor broken."""
        net = self.file("net.toml", read(COCKPIT).replace("until_ns = 512_000_000", "until_ns = 1000"))
        rows = [f"latency,{vl},{where},,0,0,0,0\n" for vl, where in sorted(NET.destinations, key=lambda it: (it[0], NET.process[it[1]]))]
        tables = self.file("tables.csv", model.TABLES_HEAD + "\n" + "".join(rows))
        printed, junit = self.file("limits.csv", "101,DU_R,5\n"), os.path.join(self.folder, "limits.xml")
        words = ["--limits", printed, "--junit", junit, "-o", os.path.join(self.folder, "page.html")]
        found = self.call(report, net, tables, *words)
        self.assertEqual(found, (0, margins.HEAD + "\n101,DU_R,5,,,,not known,,,\n", ""))
        self.assertEqual([it.tag for it in xml.parse(junit).getroot()[0][0]], ["skipped"])

    def test_words(self):
        for tool, words in (
            (report, [COCKPIT, TABLES, "--junit", "x", "-o", "y"]), (report, [COCKPIT, TABLES, "--limits", "x", "--strict", "-o", "y"]),
            (bounds, [COCKPIT, "--strict"]), (bounds, [COCKPIT, "--junit", "x"]),
        ):
            with self.assertRaises(SystemExit) as ended:
                self.call(tool, *words)
            self.assertEqual(ended.exception.code, 2)


class WorstCase(Here):
    def test_warnings(self):
        """What the bounds say is a warning, at the line of the key that it is about."""
        text = read(COCKPIT)
        first, rest = text.split("id = 101\n")
        for old, new in (("policing_jitter_ns = 500_000", "policing_jitter_ns = 9_279"), ("skew_max_ns = 1_000_000", "skew_max_ns = 42_979")):
            self.assertIn(old, rest.split("[[vl]]")[0])
            rest = rest.replace(old, new, 1)
        net = self.file("net.toml", first.replace("port_bytes = 16_384", "port_bytes = 1_518") + "id = 101\n" + rest)
        path = os.path.join(self.folder, "bounds.csv")
        self.assertEqual(bounds.main([net, "-o", path]), 0)
        printed, status = explain.explain(net, path)
        self.assertEqual(status, 0)
        lines = read(net).split("\n")
        for who, key, said in (
            ("virtual link 101 (vl row 1)", "policing_jitter_ns", "is 9279, and in the worst case frames come closer than a BAG by more than that at SWA1 (9280 ns), "),
            ("virtual link 101 (vl row 1)", "skew_max_ns", "is 42979, and in the worst case the copies of a frame are further apart at FMC1 (42980 ns), "),
            ("virtual link 101 (vl row 1)", None, "neither network brings each frame to FMC1, "),
            ("node FMC1 (node row 2)", "port_bytes", "is 1518, and in the worst case 2446 bytes wait before FMC1>SWA1: frames may be lost there (port_full)"),
        ):
            begin = f"{who}{', ' + key if key else ''}"
            found = [it for it in printed.splitlines() if begin in it and said in it]
            self.assertEqual(len(found), 1, (begin, said, printed))
            self.assertIn(key or "[[vl]]", lines[int(found[0].split(":")[1]) - 1])
        self.assertIn(f"{net}: accepted, ", printed)
        self.assertNotIn("worst case", explain.explain(net)[0])


if __name__ == "__main__":
    unittest.main()
