"""Tests of afdx judge: captures of afdx pcap give no finding, also with clocks that are wrong; planted faults are found."""
import contextlib
import csv
import functools
import io
import json
import os
import random
import re
import struct
import tempfile
import unittest
import xml.etree.ElementTree as xml
import zlib
from collections import Counter

import afdx
from afdx import model
from afdx.commands import judge, pcap
from afdx.files.captures import Capture
from afdx.model.captured_frames import frame_of
from afdx.reckon import lost_frames
from afdx.reckon.busy_lines import BusyLine
from afdx.reckon.clock_offsets import ClockOffsets, Offset
from afdx.reckon.port_fill import Comer, PortFill
from afdx.reckon.sequence_numbers import SequenceNumbers
from afdx.runs import second_opinion
from tests import capture_files
from tests.places import EXAMPLES
from tests.test_report import Browser

COCKPIT = os.path.join(EXAMPLES, "cockpit.toml")


def called(main, *words):
    """The status of a tool, and what it says on both streams."""
    out, said = io.StringIO(), io.StringIO()
    with contextlib.redirect_stdout(out), contextlib.redirect_stderr(said):
        try:
            status = main([str(word) for word in words])
        except SystemExit as ended:
            status = ended.code
    return status, out.getvalue(), said.getvalue()


class Here(unittest.TestCase):
    def setUp(self):
        folder = tempfile.TemporaryDirectory()
        self.addCleanup(folder.cleanup)
        self.folder = folder.name
        self.capture = os.path.join(self.folder, "bench.pcapng")

    @staticmethod
    @functools.cache
    def packets(name, each="line"):
        """The packets of a run of an example: the name of the interface, the moment and the frame of each."""
        with tempfile.TemporaryDirectory() as folder:
            path = os.path.join(EXAMPLES, name + ".toml")
            trace, output = (os.path.join(folder, it) for it in ("trace.csv", "net.pcapng"))
            assert called(second_opinion.main, path, "--trace", trace)[0] == 0
            assert called(pcap.main, path, trace, "-o", output, "--each", each)[0] == 0
            capture = Capture(output)
            return tuple((capture.interfaces[it.interface].name, it.moment, it.kept) for it in capture.packets())

    def write(self, packets, resolution=9):
        names = list(dict.fromkeys(name for name, _, _ in packets))
        text = capture_files.section() + b"".join(capture_files.interface(name=name, resolution=resolution) for name in names)
        unit = 10 ** (9 - resolution)
        with open(self.capture, "wb") as out:
            out.write(text + b"".join(capture_files.packet(names.index(name), moment // unit, frame) for name, moment, frame in packets))

    def judged(self, packets, *words, net=COCKPIT, **changes):
        """The status, the rows of a capture, and what is said."""
        self.write(packets, **changes)
        status, out, said = called(judge.main, net, self.capture, *words)
        self.assertIn(status, (0, 1), said)
        return status, list(csv.DictReader(io.StringIO(out))), said

    def broken(self, *words, **changes):
        status, rows, _ = self.judged(*words, **changes)
        found = [(row["what"], int(row["vl"]), row["tap"]) for row in rows if row["verdict"] == "broken"]
        self.assertEqual(status, 1 if found else 0)
        return found


class OfTheWriter(Here):
    def test_a_capture_of_a_run_gives_no_finding(self):
        for name in ("n1", "n2", "cockpit", "link_outage", "saturated_port"):
            for each in ("receiver", "line"):
                with self.subTest(name, each=each):
                    packets = self.packets(name, each)
                    self.assertEqual(self.broken(packets, net=os.path.join(EXAMPLES, name + ".toml")), [])

    def test_nor_one_whose_clocks_are_wrong(self):
        """Each tap's clock is off by up to 10 ms; also in us, and from a moment of today on."""
        for each in ("receiver", "line"):
            packets = self.packets("cockpit", each)
            for seed in (1, 2):
                draw = random.Random(seed)
                off = {name: 10**18 + draw.randint(-(10**7), 10**7) for name in dict.fromkeys(name for name, _, _ in packets)}
                moved = sorted(((name, moment + off[name], frame) for name, moment, frame in packets), key=lambda it: it[1])
                with self.subTest(each, seed=seed):
                    self.assertEqual(self.broken(moved), [])
                    self.assertEqual(self.broken(moved, resolution=6), [])

    def test_one_clock(self):
        """Then skew and latency have verdicts, and all are kept."""
        packets = self.packets("cockpit")
        _, rows, said = self.judged(packets, "--one-clock")
        found = {(row["what"], row["verdict"]) for row in rows}
        self.assertLessEqual({("skew", "kept"), ("latency", "kept")}, found)
        self.assertEqual({verdict for _, verdict in found}, {"kept"})
        self.assertIn("this is the premise of the bounds", said)
        _, rows, _ = self.judged(packets)
        self.assertEqual({row["verdict"] for row in rows if row["what"] in ("skew", "latency")}, {"not known"})


class Planted(Here):
    def setUp(self):
        super().setUp()
        # Part of the run has some hundred frames of each virtual link.
        self.all = self.packets("cockpit")[:2000]
        self.net = model.Network(COCKPIT)

    def chosen(self, draw):
        """A packet that has others of its virtual link before and behind it at its tap, by its place, and the place of the next one."""
        while True:
            place = draw.randrange(len(self.all))
            key = self.key(place)
            places = [i for i in range(len(self.all)) if self.key(i) == key]
            if 1 <= places.index(place) < len(places) - 1:
                return place, places[places.index(place) + 1]

    def key(self, place):
        name, _, frame = self.all[place]
        return name, frame[4:6], frame[11]

    def planted(self, what, seed):
        """The packets with a fault, and what is to be found: kinds, virtual link and tap."""
        draw = random.Random(f"{what} {seed}")
        place, after = self.chosen(draw)
        name, moment, frame = self.all[place]
        found, vl = list(self.all), int.from_bytes(frame[4:6], "big")
        if what == "unknown":
            found[place] = name, moment, frame[:4] + b"\xff\xf0" + frame[6:]
            vl = 0xFFF0
        elif what == "length":
            found[place] = name, moment, frame[:-1] + bytes(self.net.vls[vl].smax + 1 - len(frame) - 4) + frame[-1:]
        elif what == "wrong way":
            side = frame_of(frame, len(frame)).net
            of_side = lambda line: {self.net.nodes[end].net for end in line.split(">")} - {None} == {side}
            others = sorted({it for it, _, _ in self.all if of_side(it)} - set(self.net.vls[vl].lines))
            name = draw.choice(others)
            found.insert(place, (name, moment, frame))
        elif what == "wrong network":
            found[place] = name, moment, frame[:11] + bytes([frame[11] ^ 0x60]) + frame[12:]
        elif what == "repeated":
            found.insert(place + 1, (name, moment + 1000, frame))
        elif what == "lost":
            del found[place]
        elif what == "swapped":
            other = self.all[after][2]
            found[place], found[after] = (name, moment, other), (name, self.all[after][1], frame)
        else:
            assert what == "spacing"
            # A frame more, whose number is the next one, so all behind it count on by one.
            further = moment + draw.randint(1000, self.net.vls[vl].bag_ns * 9 // 10)
            same = [i for i in range(place, len(found)) if self.key(i) == self.key(place)]
            for i in same[1:]:
                found[i] = found[i][0], found[i][1], found[i][2][:-1] + bytes([found[i][2][-1] % 255 + 1])
            found.append((name, further, frame[:-1] + bytes([frame[-1] % 255 + 1])))
            found.sort(key=lambda it: it[1])
        return found, (what, vl, name)

    def test_each_is_found(self):
        for what in ("unknown", "length", "wrong way", "wrong network", "repeated", "lost", "swapped", "spacing"):
            for seed in range(4):
                packets, wanted = self.planted(what, seed)
                with self.subTest(what, seed=seed):
                    self.assertIn(wanted, self.broken(packets))

    def test_a_frame_of_both_clocks(self):
        """A frame that is late by 5 ms at the last line, and a copy that is: with one clock, and with taps that see both directions."""
        place = next(i for i in range(len(self.all) // 2, len(self.all)) if self.all[i][0].endswith(">DU_L"))
        name, moment, frame = self.all[place]
        late = sorted([*self.all[:place], (name, moment + 5_000_000, frame), *self.all[place + 1 :]], key=lambda it: it[1])
        found = {what for what, vl, tap in self.broken(late, "--one-clock") if name in tap.split(" ")}
        self.assertLessEqual({"skew", "latency"}, found)


class Rest(Here):
    def test_vlan_tags_check_sequences_and_others(self):
        """Frames with a tag, and with check sequences that nothing states, are those without; what is no AFDX is counted."""
        packets = self.packets("n2", "line")
        net = os.path.join(EXAMPLES, "n2.toml")
        tagged = [(name, moment, frame[:12] + b"\x81\x00\x00\x07" + frame[12:]) for name, moment, frame in packets]
        checked = [(name, moment, frame + struct.pack("<I", zlib.crc32(frame))) for name, moment, frame in packets]
        others = [*packets, ("ES1>SWA", packets[-1][1], b"\xff" * 60)]
        _, wanted, _ = self.judged(packets, net=net)
        for changed in (tagged, checked):
            self.assertEqual(self.judged(changed, net=net)[1], wanted)
        self.assertIn(", 1 packets that are no AFDX", self.judged(others, net=net)[2])

    def test_taps_by_name(self):
        packets = [("eth0", moment, frame) for name, moment, frame in self.packets("n1", "line") if name == "SW1>ES2"]
        net = os.path.join(EXAMPLES, "n1.toml")
        for words in (["--tap", "eth0=SW1>ES2"], ["--tap", "SW1>ES2"], ["--tap", "eth0=ES2"]):
            status, rows, _ = self.judged(packets, *words, net=net)
            self.assertEqual((status, [(row["what"], row["verdict"]) for row in rows]), (0, [("length", "kept"), ("sequence", "kept")]))
        self.assertEqual(self.broken(packets, "--tap", "eth0=ES2>SW1", net=net), [("wrong way", 1, "eth0")])
        for words, said in (
            ([], 'no interface of it (eth0) has the name of a line or an end system'),
            (["--tap", "eth1=ES2"], "has no interface eth1, which --tap names: it has eth0"),
            (["--tap", "eth0=SW1"], "SW1 is a switch, and a tap is a link of it and a direction: ES1>SW1"),
            (["--tap", "eth0=SW1>ES3"], "'SW1>ES3' is no line and no end system of it"),
        ):
            status, out, found = called(judge.main, net, self.capture, *words)
            self.assertEqual((status, out, found.count("\n")), (2, "", 1))
            self.assertIn(said, found)

    def test_two_taps_of_one_line_and_a_clock_that_runs_back(self):
        """Each is judged, and a line names them."""
        packets = self.packets("cockpit")
        name = packets[0][0]
        both = [*packets, *[("eth9", moment, frame) for it, moment, frame in packets if it == name]]
        status, rows, said = self.judged(both, "--tap", f"eth9={name}")
        self.assertEqual((status, {row["verdict"] for row in rows if row["tap"] == "eth9"}), (0, {"kept"}))
        self.assertIn(f"{name} and eth9 tap {name}: each is judged by itself", said)
        half = [i for i, it in enumerate(packets) if it[0] == name][20]
        back = [(it, 10**9 + moment - 10**8 * (it == name and i >= half), frame) for i, (it, moment, frame) in enumerate(packets)]
        status, rows, said = self.judged(back, "--one-clock")
        between = {row["verdict"] for row in rows if row["what"] in ("skew", "latency") and name in row["tap"].split(" ")}
        self.assertEqual((status, between), (0, {"not known"}))
        self.assertRegex(said, rf"the clock of {name} runs back once, by at most [0-9]+ ns, first at packet [0-9]+")

    def test_clocks_that_run_back_are_no_verdict_of_spacing(self):
        """By less than the time between two packets of the tap, so that those of other taps alone show it; and too often."""
        packets = [(name, 10**9 + moment, frame) for name, moment, frame in self.packets("cockpit")]
        for name, step in (("ADC2>SWA2", 3_000_000), ("FWC>SWB2", 3_000_000)):
            half = [i for i, it in enumerate(packets) if it[0] == name][5]
            back = [(it, moment - step * (it == name and i >= half), frame) for i, (it, moment, frame) in enumerate(packets)]
            status, rows, said = self.judged(back)
            self.assertEqual((status, [row for row in rows if row["verdict"] == "broken"]), (0, []), name)
            self.assertRegex(said, f"the times of the capture run back by [0-9]+ ns at packet {half + 1}, .*: 1 frame too close over such a step")
        draw = random.Random(1)
        jumps = [(it, moment + draw.randint(-3_000_000, 3_000_000) * (it == "SWA2>SWA1"), frame) for it, moment, frame in packets]
        _, rows, said = self.judged(jumps)
        (why,) = {row["why"] for row in rows if row["what"] == "spacing" and row["verdict"] == "not known"}
        self.assertEqual(why, "the clock of SWA2>SWA1 runs back too often and too far")
        self.assertRegex(said, r"the clock of SWA2>SWA1 runs back [0-9]+ times, .*: a frame that is too close by up to [0-9]+ ns is not judged")
        self.assertNotIn("broken", {row["verdict"] for row in rows})

    def test_frames_that_the_capture_swapped(self):
        """By their times they are in order, so no network swapped them."""
        packets = list(self.packets("cockpit"))
        one, other = [i for i, it in enumerate(packets) if it[0] == "DU_C>SWA1"][7:9]
        packets[one], packets[other] = packets[other], packets[one]
        self.assertEqual(self.broken(packets), [])

    def test_clocks_that_drift(self):
        """By 50 ppm: no constant offset fits, and one of each second does. A frame that is late by 5 ms is found as well."""
        ends = ("FMC1", "FMC2")
        at = lambda line: next((end for end in ends if end in line.split(">")), None)
        packets = [(at(line), moment, frame) for line, moment, frame in self.packets("cockpit") if at(line)]
        drift = lambda found: sorted(((name, moment + moment // 20_000 * (name == "FMC2"), frame) for name, moment, frame in found), key=lambda it: it[1])
        _, rows, _ = self.judged(drift(packets))
        found = [row for row in rows if row["what"] == "latency"]
        self.assertEqual({row["verdict"] for row in found}, {"kept"})
        self.assertIn("ns, in windows of a second", found[0]["why"])
        late = next(i for i, it in enumerate(packets) if it[0] == "FMC2" and it[2][4:6] == int(found[0]["vl"]).to_bytes(2, "big") and i > 300)
        packets[late] = "FMC2", packets[late][1] + 5_000_000, packets[late][2]
        self.assertIn(("latency", int(found[0]["vl"]), "FMC1 FMC2"), self.broken(drift(packets)))

    def test_sections_and_interfaces_that_follow_one_another(self):
        packets = self.packets("n2", "line")
        names = list(dict.fromkeys(name for name, _, _ in packets))
        net = os.path.join(EXAMPLES, "n2.toml")
        apart = sorted(packets, key=lambda it: names.index(it[0]))
        _, rows, said = self.judged([(name, moment + 10**11 * names.index(name), frame) for name, moment, frame in apart], net=net)
        self.assertNotIn("latency", {row["what"] for row in rows})
        self.assertIn("their packets follow one another in", said)
        self.assertIn("mergecap without -a merges by time", said)
        # Twice the same packets: numbers begin anew, and the second section begins before the first one ended.
        self.write(packets)
        with open(self.capture, "rb") as file:
            text = file.read()
        with open(self.capture, "ab") as out:
            out.write(text)
        status, out, said = called(judge.main, net, self.capture)
        self.assertEqual((status, out.count(",broken,")), (0, 1), "the head alone")
        self.assertRegex(said, "the sections of .* overlap in time, first at packet [0-9]+")

    def test_a_cut_file(self):
        self.write(self.packets("n2", "receiver"))
        with open(self.capture, "rb") as file:
            text = file.read()
        with open(self.capture, "wb") as out:
            out.write(text[:-9])
        status, out, said = called(judge.main, os.path.join(EXAMPLES, "n2.toml"), self.capture)
        self.assertEqual((status, out.count("\nlength,")), (0, 39))
        self.assertIn(", within a block; the 39 packets before it are whole\n", said)

    def test_lost_frames_that_an_account_may_have_refused(self):
        """By the bounds it may. A tap before it, or what afdx pcap writes there, shows whether it did."""
        changed = afdx.read(COCKPIT)
        changed.vl[103].policing_jitter_ns = 1000
        net = os.path.join(self.folder, "net.toml")
        changed.write(net)
        whole = [(name, 10**9 + moment, frame) for name, moment, frame in self.packets("cockpit")]
        first, later = model.lines_of_path(changed.vl[103].a[0])[:2]
        switch = later.split(">")[0]
        own = lambda line: [i for i, it in enumerate(whole) if it[0] == line and it[2][4:6] == (103).to_bytes(2, "big")]
        lost = own(later)[9]
        packets = [*whole[:lost], *whole[lost + 1 :]]
        early = own(first)[20]
        close = [(name, moment - 30_000 * (i == early), frame) for i, (name, moment, frame) in enumerate(whole) if i != lost]
        for found, verdict, why in (
            (packets, "broken", ""), (sorted(close, key=lambda it: it[1]), "allowed", rf'"?frames come up to [0-9]+ ns too early to {switch}'),
            ([it for it in packets if it[0] != first], "broken", f"by the bounds the account at {switch} may refuse frames: a tap at {first} would show"),
            ([*(it for it in packets if it[0] != first), (switch, *whole[lost][1:])], "allowed", f"the capture has 1 of 1 frames at {switch}"),
        ):
            _, rows, _ = self.judged(found, net=net)
            (row,) = [row for row in rows if (row["what"], row["tap"], row["vl"]) == ("lost", later, "103")]
            self.assertEqual(row["verdict"], verdict, why)
            self.assertRegex(row["why"], f"^{why}" if why else "^$")

    def test_lost_frames_that_a_port_may_have_dropped(self):
        """The port of the recorder's line may be full. It always has room for frames of 200 bytes, and while it is full its line is busy; its
        switch shows what it lost. Which of two cameras a pause of the line is of may not be known. Without a tap before it, a frame of a
        camera may be one that the port dropped."""
        net = os.path.join(EXAMPLES, "saturated_port.toml")
        for each, tap in (("line", "SW>REC"), ("receiver", "REC")):
            whole = self.packets("saturated_port", each)
            for vl in (11, 12, 20, 30):
                own = [i for i, it in enumerate(whole) if it[0] == tap and it[2][4:6] == vl.to_bytes(2, "big")]
                for lost in (own[5], own[-5]):
                    with self.subTest(each, vl=vl, lost=lost):
                        found = self.broken([*whole[:lost], *whole[lost + 1 :]], net=net)
                        self.assertIn(("lost", vl, tap), found)
                        self.assertLessEqual({it for _, it, _ in found}, {11, 12} if vl < 20 else {vl})
        alone = [it for it in self.packets("saturated_port") if it[0] == "SW>REC"]
        del alone[len(alone) // 2]
        _, rows, _ = self.judged(alone, net=net)
        self.assertEqual({(row["verdict"], row["why"]) for row in rows if row["what"] == "lost"}, {
            ("allowed", "by the bounds the port before SW>REC may be too small")
        })

    def test_lost_frames_that_an_outage_may_have_lost(self):
        """NET has two outages, and two times frames of virtual link 2 are lost. One lost apart from them is none of theirs; nor is one that a
        later tap saw."""
        net = os.path.join(EXAMPLES, "link_outage.toml")
        for each, tap, place in (("receiver", "ACT", 12), ("line", "SWA>ACT", 12), ("line", "FCC>SWA", 3)):
            whole = self.packets("link_outage", each)
            own = [i for i, it in enumerate(whole) if it[0] == tap and it[2][4:6] == (2).to_bytes(2, "big")]
            with self.subTest(each, tap=tap):
                self.assertEqual(self.broken(whole, net=net), [])
                self.assertEqual(self.broken([*whole[: own[place]], *whole[own[place] + 1 :]], net=net), [("lost", 2, tap)])

    def test_the_wrong_network_at_an_end_system_of_both(self):
        """Nothing but the numbers shows it: one lacks on the network by which the frame came, and comes twice on the one that it names."""
        whole = list(self.packets("displays", "receiver"))
        net = os.path.join(EXAMPLES, "displays.toml")
        own = [i for i, it in enumerate(whole) if it[0] == "DU_L" and it[2][4:6] == (101).to_bytes(2, "big")]
        name, moment, frame = whole[own[20]]
        whole[own[20]] = name, moment, frame[:11] + bytes([frame[11] ^ 0x60]) + frame[12:]
        found = self.broken(whole, net=net)
        self.assertIn(("wrong network", 101, "DU_L"), found)
        self.assertLessEqual(set(found), {("wrong network", 101, "DU_L"), ("spacing", 101, "DU_L")})

    def test_json_and_junit(self):
        packets = list(self.packets("cockpit"))
        del packets[len(packets) // 2]
        self.write(packets)
        report = os.path.join(self.folder, "judged.xml")
        status, out, _ = called(judge.main, COCKPIT, self.capture, "--json", "--junit", report)
        rows, suite = json.loads(out), xml.parse(report).getroot()
        self.assertEqual((status, int(suite.get("tests")), int(suite.get("failures"))), (1, len(rows), 1))
        (row,) = [row for row in rows if row["verdict"] == "broken"]
        self.assertEqual((row["kind"], row["measure"], row["value"]), ("capture", "lost_frames", 1))
        self.assertIn("broken: 1 of", suite.find(".//failure").get("message"))


class OfThePage(Here):
    def test_marks_and_tables(self):
        """A frame that is lost is marked on its line and nowhere else; the page of its virtual link has the rows of the CSV."""
        packets = list(self.packets("cockpit"))
        lost = next(i for i in range(len(packets) // 2, len(packets)) if packets[i][0] == "SWA2>DU_R")
        vl = int.from_bytes(packets.pop(lost)[2][4:6], "big")
        self.write(packets)
        page, table = (os.path.join(self.folder, name) for name in ("judged.html", "judged.csv"))
        status, out, _ = called(judge.main, COCKPIT, self.capture, "--one-clock", "-o", page, "-o", table)
        self.assertEqual((status, out), (1, ""))
        with open(page, encoding="utf-8") as file, open(table, encoding="utf-8") as lines:
            text, rows = file.read(), list(csv.DictReader(lines))
        self.assertEqual(re.findall(r'data-verdict="broken"><title>(.*?)</title>', text), [f"SWA2&gt;DU_R: broken: virtual links {vl}"])
        self.assertEqual(text.count('data-verdict="kept"'), len({row["where"] for row in rows if row["what"] == "length"}) - 1)
        found = Browser(self.folder).open(page, "", f"#vl-{vl}")
        own = [row for row in rows if row["vl"] == str(vl)]
        shown = lambda row: [row["what"], row["vl"], row["network"], row["tap"], row["where"]]
        self.assertEqual([it[:5] for it in found.rows("vl-judged")], [shown(row) for row in own])
        self.assertEqual(([it[:5] for it in found.rows("judged")][0], found.tiles["broken"]), (shown(own[0]), ["1 verdict", "1 lost"]))
        # A page that is all that is asked for has no JSON beside it.
        status, _, said = called(judge.main, COCKPIT, self.capture, "--json", "-o", page)
        self.assertEqual((status, said.splitlines()[-1]), (2, "afdx judge: error: --json is of the rows, and -o names a page alone"))


class Parts(unittest.TestCase):
    def test_sequence_numbers(self):
        for numbers, counts in (
            ([0, 1, 2], {}), ([254, 255, 1, 2], {}), ([0, 1, 0, 1], {"reset": 1}), ([5, 6, 6, 7], {"repeated": 1}), ([5, 8, 9], {"lost": 2}),
            ([5, 7, 6, 8], {"lost": 0, "swapped": 1}), ([254, 1, 255, 2], {"lost": 0, "swapped": 1}), ([5, 6, 7, 6, 8], {"repeated": 1}),
            ([100, 101, 50, 51, 52], {"repeated": 0, "reset": 1}), ([255, 2], {"lost": 1}), ([0, 0, 1], {"repeated": 1}),
        ):
            found = SequenceNumbers()
            for packet, number in enumerate(numbers):
                found.take(number, packet, 2)
            self.assertEqual(found.counts, counts, numbers)
        # After a pause of 200 BAGs as many may be lost.
        found = SequenceNumbers()
        found.take(1, 1, 0)
        found.take(201, 2, 202)
        self.assertEqual(found.counts, {"lost": 199})

    def test_runs_of_lost_numbers(self):
        """Of 1, and of 3 to 5: those that have a number that no node shows."""
        lost = Counter([1, 3, 4, 5])
        for wanted, count in (([], 0), ([4, 5], 1), ([3, 5], 1), ([1, 5], 2), ([1], 1)):
            self.assertEqual(lost_frames.runs_of(lost, Counter(wanted)), count, wanted)

    def test_how_long_a_line_is_busy(self):
        """Of 10 Mbit/s: 80 bytes and the 20 between frames take 80 us. It is not known since when until a pause was seen."""
        busy, found = BusyLine(800, 1000), []
        for moment in (0, 80_000, 200_000, 281_000, 361_000, 450_000, 440_000):
            busy.take(moment, 80)
            found.append(busy.since)
        self.assertEqual((found, busy.longest), ([None, None, 120_000, 120_000, 120_000, 370_000, None], 321_000))

    def test_what_always_finds_room_at_a_port(self):
        """Ten frames of cameras fit, 15,180 of 16,384 bytes, and with them one of each other virtual link, so for frames of up to 804 bytes
        there is always room. What may come a second too early may fill it."""
        net = model.Network(os.path.join(EXAMPLES, "saturated_port.toml"))
        comers = [Comer(vl, vl.priority == "high", vl.sizes, 0) for vl in net.vls.values()]
        fill = PortFill(net, "SW>REC", comers)
        self.assertEqual([fill.has_room_for(size) for size in (200, 804, 805, 1518)], [True, True, False, False])
        early = [Comer(vl, vl.priority == "high", vl.sizes, 10**9) for vl in net.vls.values()]
        self.assertFalse(PortFill(net, "SW>REC", early).has_room_for(200))

    def test_offsets_of_clocks(self):
        """By the way over a third clock too; both ways they are known."""
        clocks = ClockOffsets()
        clocks.limit("a", "b", 10)
        clocks.limit("b", "c", 5)
        clocks.limit("c", "a", -12)
        clocks.settle()
        self.assertEqual((clocks.of("a", "c"), clocks.of("b", "a")), (Offset(12, 15), Offset(-10, -7)))
        self.assertTrue(clocks.of("a", "c").is_known())
        self.assertEqual((clocks.of("a", "a"), clocks.of("a", "d")), (Offset(0, 0), Offset(None, None)))
        self.assertTrue(Offset(20, 10).moves(5))
        self.assertEqual(ClockOffsets(True).of("a", "d"), Offset(0, 0))


if __name__ == "__main__":
    unittest.main()
