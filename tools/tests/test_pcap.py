"""Tests of afdx pcap and of the dissector afdx.lua. Those of the class ByTshark need Debian's `tshark`."""
import contextlib
import io
import os
import shutil
import struct
import subprocess
import tempfile
import unittest
import zlib
from collections import Counter

from afdx import model
from afdx.commands import pcap
from afdx.files import program
from afdx.runs import second_opinion
from tests.places import EXAMPLES, TOOLS, tool_words

LUA = os.path.join(TOOLS, "afdx.lua")
FIELDS = ["frame.interface_name", "frame.time_epoch", "frame.len", "afdx.vl", "afdx.net", "afdx.seq", "eth.src", "eth.dst"]
FIELDS += ["ip.src", "ip.dst", "frame.comment"]


class Here(unittest.TestCase):
    """A test with a folder of its own."""

    def setUp(self):
        folder = tempfile.TemporaryDirectory()
        self.addCleanup(folder.cleanup)
        self.folder = folder.name
        self.trace, self.output = (os.path.join(self.folder, name) for name in ("trace.csv", "net.pcapng"))

    def call(self, *words):
        """The status of afdx pcap with these words, and what it says on both streams."""
        out, said = io.StringIO(), io.StringIO()
        with contextlib.redirect_stdout(out), contextlib.redirect_stderr(said):
            try:
                status = pcap.main(list(words))
            except SystemExit as ended:
                status = ended.code
        return status, out.getvalue(), said.getvalue()

    def traced(self, name):
        """An example, whose trace is written."""
        path = os.path.join(EXAMPLES, name + ".toml")
        with contextlib.redirect_stdout(io.StringIO()):
            self.assertEqual(second_opinion.main([path, "--trace", self.trace]), 0)
        return path

    def changed(self, *changes):
        """The smallest example with some changes, each of a piece for another, and its trace."""
        path = os.path.join(self.folder, "changed.toml")
        with open(os.path.join(EXAMPLES, "n1.toml"), encoding="utf-8") as file:
            text = file.read()
        for old, new in changes:
            assert old in text
            text = text.replace(old, new)
        with open(path, "w", encoding="utf-8") as out:
            out.write(text)
        with contextlib.redirect_stdout(io.StringIO()):
            self.assertEqual(second_opinion.main([path, "--trace", self.trace]), 0)
        return path

    def capture_of(self, name, *words):
        path = self.traced(name)
        self.assertEqual(self.call(path, self.trace, "-o", self.output, *words), (0, "", ""))
        return model.Tables(path.replace(".toml", ".tables.csv"), model.Network(path))


@unittest.skipUnless(shutil.which("tshark"), "there is no tshark: apt-get install -y tshark")
class ByTshark(Here):
    def shown(self, *words, path=None):
        """The lines that tshark prints."""
        command = ["tshark", "-n", "-X", f"lua_script:{LUA}", "-r", path or self.output, *words]
        run = subprocess.run(command, capture_output=True, text=True)
        self.assertEqual(run.returncode, 0, run.stderr)
        return run.stdout.splitlines()

    def packets(self, *words, **changes):
        """The fields of each packet."""
        asked = [word for field in FIELDS for word in ("-e", field)]
        return [dict(zip(FIELDS, line.split("\t"))) for line in self.shown("-T", "fields", *asked, *words, **changes)]

    def test_counts_are_those_of_the_tables(self):
        """A packet for each line of the trace: deliveries, and losses by place and cause."""
        for name in ("cockpit", "link_outage", "maintenance", "n1", "n2", "saturated_port"):
            with self.subTest(name):
                tables, found = self.capture_of(name), Counter()
                for packet in self.packets():
                    what, _, rest = packet["frame.comment"].partition(f" at {packet['frame.interface_name']}: ")
                    cause = "" if what == "delivered" else rest
                    found[int(packet["afdx.vl"]), packet["frame.interface_name"], cause] += 1
                wanted = Counter({(row.vl, row.where, ""): row.count for row in tables.latencies.values() if row.count})
                wanted.update({key: row.count for key, row in tables.losses.items()})
                self.assertEqual(found, wanted)

    def test_a_filter_by_virtual_link(self):
        tables = self.capture_of("cockpit")
        latencies = [row for row in tables.latencies.values() if row.vl == 101]
        losses = [row for row in tables.losses.values() if row.vl == 101]
        delivered = sum(row.count for row in latencies)
        self.assertEqual(len(self.shown("-Y", "afdx.vl==101")), delivered + sum(row.count for row in losses))
        self.assertEqual(len(self.shown("-Y", 'afdx.vl==101 && frame.comment contains "delivered"')), delivered)
        self.assertEqual(len(self.shown("-Y", "afdx.vl==65000")), 0)

    def test_latencies_are_those_of_the_trace(self):
        """In the order of the trace, with its moments in ns."""
        self.capture_of("cockpit")
        found = []
        for packet in self.packets():
            seconds, _, ns = packet["frame.time_epoch"].partition(".")
            what, _, rest = packet["frame.comment"].partition(" at ")
            value = int(rest.split("latency ")[1].split(" ")[0]) if what == "delivered" else int(packet["frame.len"]) + 4
            cause = what if what == "delivered" else rest.split(": ")[1]
            moment = int(seconds) * 10**9 + int(ns)
            found.append(f"{moment},{packet['frame.interface_name']},{packet['afdx.vl']},{cause},{value}")
        self.assertEqual([model.TRACE_HEAD, *found], model.lines_of(self.trace, [model.TRACE_HEAD], "a trace"))

    def test_what_a_frame_has(self):
        """Of the smallest network with two networks: addresses, number, length and interface of each copy."""
        self.capture_of("n2")
        first, *_ = self.packets("-Y", "afdx.vl==3 && afdx.net==A")
        other, *_ = self.packets("-Y", "afdx.vl==3 && afdx.net==B")
        for packet, net, last in ((first, "A", "20"), (other, "B", "40")):
            wanted = ["ES2", "03:00:00:00:00:03", f"02:00:00:00:00:{last}", "10.0.0.1", "224.224.0.3", "60", net, "0"]
            names = ["frame.interface_name", "eth.dst", "eth.src", "ip.src", "ip.dst", "frame.len", "afdx.net", "afdx.seq"]
            self.assertEqual([packet[it] for it in names], wanted)
        self.assertEqual(first["frame.comment"], "delivered at ES2: latency 41160 ns, 0 ns of it in the regulator")
        self.assertEqual(other["frame.comment"], "dropped at ES2: duplicate")

    def test_all_headers_are_sound(self):
        self.capture_of("cockpit")
        checks = ["-o", "ip.check_checksum:TRUE", "-Y", "_ws.malformed || ip.checksum.status != 1 || udp.length != ip.len - 20"]
        self.assertEqual(self.shown(*checks), [])

    def test_numbers_follow_each_other(self):
        """From 0, with 1 after 255."""
        path = self.changed(("period_ns = 1000000000000", "period_ns = 1000000"), ("until_ns = 2000000", "until_ns = 300500000"))
        self.assertEqual(self.call(path, self.trace, "-o", self.output), (0, "", ""))
        wanted = [str(i if i < 256 else (i - 1) % 255 + 1) for i in range(301)]
        self.assertEqual([packet["afdx.seq"] for packet in self.packets()], wanted)

    def test_an_interface_for_each_line(self):
        """Each frame of the smallest example on both lines, and what is lost on a line beside what came through."""
        self.capture_of("n1", "--each", "line")
        found = [(it["frame.interface_name"], it["frame.time_epoch"], it["frame.comment"]) for it in self.packets()]
        said = "delivered at ES2: latency 27720 ns, 0 ns of it in the regulator"
        self.assertEqual(found, [("ES1>SW1", "0.000005760", ""), ("SW1>ES2", "0.000027620", said)])
        tables = self.capture_of("link_outage", "--each", "line")
        outages = Counter()
        for packet in self.packets("-Y", 'frame.comment contains "outage"'):
            outages[int(packet["afdx.vl"]), packet["frame.interface_name"]] += 1
        wanted = {key[:2]: row.count for key, row in tables.losses.items() if key[2] == "outage"}
        self.assertTrue(wanted)
        self.assertEqual(outages, wanted)

    def test_what_is_lost_at_a_switch_is_noted_on_the_line_to_it(self):
        """And what is lost in the regulator stands at the source, with no network."""
        tables = self.capture_of("saturated_port", "--each", "line")
        lost = {key: row.count for key, row in tables.losses.items() if key[2] == "port_full"}
        self.assertTrue(lost)
        found = Counter()
        for packet in self.packets("-Y", 'frame.comment contains "port_full"'):
            where = packet["frame.interface_name"].partition(">")[2]
            found[int(packet["afdx.vl"]), where, "port_full"] += packet["frame.comment"].count("port_full")
        self.assertEqual(found, lost)
        path = self.changed(("period_ns = 1000000000000", "period_ns = 100000"), ("depth = 16", "depth = 1"))
        self.assertEqual(self.call(path, self.trace, "-o", self.output, "--each", "line"), (0, "", ""))
        found = [(it["frame.interface_name"], it["afdx.net"]) for it in self.packets("-Y", 'frame.comment contains "queue_full"')]
        self.assertEqual((set(found), len(found)), ({("ES1", "-")}, 17))

    def test_captures_with_check_sequences(self):
        """The dissector finds the number before them where its preference says so."""
        path = os.path.join(self.folder, "with.pcapng")
        frame = pcap.bytes_of(101, 3, "B", 77, 64)
        frame += struct.pack("<I", zlib.crc32(frame))
        with open(path, "wb") as out:
            out.write(pcap.section_of("n") + pcap.interface_of("E", "") + pcap.packet_of(0, 5, frame, []))
        for words, number in (([], frame[-1]), (["-o", "afdx.fcs:TRUE"], 77)):
            (packet,) = self.packets(*words, path=path)
            self.assertEqual([packet[it] for it in ("afdx.vl", "afdx.net", "afdx.seq")], ["101", "B", str(number)])


class Words(Here):
    def test_a_trace_of_another_run(self):
        path = self.traced("n1")
        with open(self.trace, encoding="utf-8") as file:
            text = file.read()
        for changed, said in (
            (text.replace("27720,ES2,1,delivered,27720", "27721,ES2,1,delivered,27721"), "line 2: says 27721,ES2,1,delivered,27721, and the run has 27720,ES2,1,delivered,27720: it is the trace of another run"),
            (model.TRACE_HEAD + "\n", "line 2: ends here, and the run has 27720,ES2,1,delivered,27720: it is the trace of another run"),
            (text + "27720,ES2,1,duplicate,64\n", "line 3: says 27720,ES2,1,duplicate,64, and the run has no more: it is the trace of another run"),
            ("time\n", f"line 1: the columns are not those of a trace: {model.TRACE_HEAD}"),
            (text[:-1], "line 2: the line feed at the end is missing, so the file is not whole"),
        ):
            with self.subTest(said):
                with open(self.trace, "w", encoding="utf-8") as out:
                    out.write(changed)
                self.assertEqual(self.call(path, self.trace, "-o", self.output), (2, "", f"afdx pcap: {self.trace} {said}\n"))
                self.assertEqual(os.listdir(self.folder), ["trace.csv"])

    def test_a_name_that_is_no_utf_8(self):
        path = os.path.join(self.folder, os.fsdecode(b"net\xff.toml"))
        shutil.copy(self.traced("n1"), path)
        self.assertEqual(self.call(path, self.trace, "-o", self.output), (0, "", ""))
        with open(self.output, "rb") as file:
            self.assertIn(b"a run of net\\xff.toml", file.read())

    def test_a_capture_names_who_made_it(self):
        """In the first block, by option 4, which is shb_userappl: the tool with its version and its commit."""
        self.assertEqual(self.call(self.traced("n1"), self.trace, "-o", self.output), (0, "", ""))
        with open(self.output, "rb") as file:
            _, length = struct.unpack("<II", file.read(8))
            options, found = file.read(length - 12)[16:], {}
        while options:
            code, size = struct.unpack("<HH", options[:4])
            found[code], options = options[4 : 4 + size].decode(), options[4 + size + -size % 4 :]
        self.assertEqual(found[4], program.tool("pcap").in_words())
        self.assertTrue(found[4].startswith(f"afdx pcap {program.version()}, not proved"), found[4])

    def test_files(self):
        path = self.traced("n1")
        none = os.path.join(self.folder, "none")
        said = f"afdx pcap: {none}: cannot be read: No such file or directory\n"
        self.assertEqual(self.call(none, self.trace, "-o", self.output), (2, "", said))
        self.assertEqual(self.call(path, none, "-o", self.output), (2, "", said))
        said = f"afdx pcap: {self.folder}: cannot be written: Is a directory\n"
        self.assertEqual(self.call(path, self.trace, "-o", self.folder), (2, "", said))
        copy = os.path.join(self.folder, "net.toml")
        shutil.copy(path, copy)
        for read in (copy, self.trace):
            with open(read, "rb") as file:
                before = file.read()
            status, out, _ = self.call(copy, self.trace, "-o", os.path.join(self.folder, ".", os.path.basename(read)))
            with open(read, "rb") as file:
                self.assertEqual((status, out, file.read()), (2, "", before))

    def test_help(self):
        run = subprocess.run([*tool_words("pcap"), "--help"], capture_output=True, text=True)
        self.assertEqual((run.returncode, run.stderr), (0, ""))
        for word in ("--each", "examples:", "status:", "afdx.vl==101", "wireshark/plugins"):
            self.assertIn(word, run.stdout)


if __name__ == "__main__":
    unittest.main()
