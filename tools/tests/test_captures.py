"""Tests of the reader of captures, of files that are written here byte by byte, and of what it finds in a frame of AFDX."""
import os
import shutil
import subprocess
import tempfile
import tracemalloc
import unittest

from afdx.commands import pcap as writer
from afdx.files import Fault
from afdx.files.captures import Capture
from afdx.model.captured_frames import frame_of
from tests import capture_files as files

ONE, OTHER = bytes(range(60)), bytes(range(61))


class Here(unittest.TestCase):
    def setUp(self):
        folder = tempfile.TemporaryDirectory()
        self.addCleanup(folder.cleanup)
        self.path = os.path.join(folder.name, "capture")

    def opened(self, text):
        with open(self.path, "wb") as out:
            out.write(text)
        return Capture(self.path)

    def read(self, text):
        """The capture of these bytes, and the interface, time, bytes and length of each packet."""
        capture = self.opened(text)
        found = [(capture.interfaces[it.interface].name, it.moment, it.kept, it.length) for it in capture.packets()]
        return capture, found


class OfPcap(Here):
    def test_both_orders_and_both_units(self):
        for order in "<>":
            for magic, unit in ((0xA1B2C3D4, 1000), (0xA1B23C4D, 1)):
                with self.subTest(order=order, unit=unit):
                    capture, found = self.read(files.pcap([(7, 5, ONE), (8, 999_999, OTHER, 1500)], order, magic))
                    wanted = [("capture", 7 * 10**9 + 5 * unit, ONE, 60), ("capture", 8 * 10**9 + 999_999 * unit, OTHER, 1500)]
                    self.assertEqual((found, capture.cut), (wanted, None))
                    self.assertEqual(capture.interfaces[0].resolution_ns(), unit)

    def test_the_head(self):
        """The upper bits of the link type state the check sequence: in units of two bytes, where bit 26 is set."""
        for link, kind, check in ((1, 1, None), (0x24000001, 1, 4), (113, 113, None)):
            capture, _ = self.read(files.pcap([], link=link))
            self.assertEqual((capture.interfaces[0].link_type, capture.interfaces[0].check_bytes), (kind, check))


class OfPcapng(Here):
    def test_sections_and_interfaces(self):
        """Interfaces are counted in each section anew, and each section has its own order of bytes."""
        text = b""
        for order in "<>":
            text += files.section(order) + files.interface(order, name="eth0", resolution=9) + files.interface(order)
            text += files.packet(1, 5, ONE, order=order) + files.packet(0, 6, OTHER, order=order)
            text += files.block(0xBAD, b"what it does not know", order)
        capture, found = self.read(text)
        self.assertEqual(found, [("interface 1", 5000, ONE, 60), ("eth0", 6, OTHER, 61)] * 2)
        self.assertEqual(([it.name for it in capture.interfaces], capture.cut), (["eth0", "interface 1"] * 2, None))

    def test_interfaces_of_one_name(self):
        """Those of a section are several, as where files of two hosts were merged."""
        text = files.section() + files.interface(name="eth0") * 3 + files.section() + files.interface(name="eth0")
        self.assertEqual([it.name for it in self.read(text)[0].interfaces], ["eth0", "eth0 2", "eth0 3", "eth0"])

    def test_resolutions_and_offsets(self):
        """Powers of ten and of two, with an offset in seconds; a time is rounded down to ns."""
        for resolution, units, offset, ns, least in (
            (6, 3, 0, 3000, 1000), (9, 3, 0, 3, 1), (3, 3, 2, 2_003_000_000, 10**6), (12, 3999, 0, 3, 1), (0, 3, -1, 2 * 10**9, 10**9),
            (0x80 | 10, 1024, 0, 10**9, 976_563), (0x80 | 30, 3, 0, 2, 1), (0x80 | 20, 3, 1, 10**9 + 2861, 954),
        ):
            with self.subTest(resolution):
                text = files.section() + files.interface(resolution=resolution, offset=offset) + files.packet(0, units, ONE)
                capture, found = self.read(text)
                self.assertEqual((found[0][1], capture.interfaces[0].resolution_ns()), (ns, least))

    def test_times_of_today(self):
        """A time has 64 bits."""
        units = 1_764_576_000_123_456_789
        _, found = self.read(files.section() + files.interface(resolution=9) + files.packet(0, units, ONE))
        self.assertEqual(found[0][1], units)

    def test_simple_and_old_packets(self):
        text = files.section() + files.interface(most=40) + files.simple_packet(ONE[:40], 60) + files.old_packet(0, 9, OTHER)
        capture, found = self.read(text)
        self.assertEqual(found, [("interface 0", None, ONE[:40], 60), ("interface 0", 9000, OTHER, 61)])
        self.assertEqual(capture.interfaces[0].most_bytes, 40)

    def test_what_the_writer_makes(self):
        text = writer.section_of("n") + writer.interface_of("SWA>DU", "a line", 100) + writer.packet_of(0, 5 << 32, ONE, ["x"])
        _, found = self.read(text)
        self.assertEqual(found, [("SWA>DU", 5 << 32, ONE, 60)])

    @unittest.skipUnless(shutil.which("editcap"), "there is no editcap: apt-get install -y wireshark-common")
    def test_what_editcap_makes(self):
        """Another writer: the same packets as pcap of us and of ns, and cut to 40 bytes."""
        with open(self.path, "wb") as out:
            out.write(writer.section_of("n") + writer.interface_of("e", "") + writer.packet_of(0, 5_000_001_000, ONE, []))
        for words, wanted in (
            (["-F", "pcap"], (5_000_001_000, ONE, 60)), (["-F", "nsecpcap"], (5_000_001_000, ONE, 60)),
            (["-F", "pcapng", "-s", "40"], (5_000_001_000, ONE[:40], 60)),
        ):
            with self.subTest(words[1]):
                subprocess.run(["editcap", *words, self.path, self.path + ".new"], check=True, capture_output=True)
                self.assertEqual([it[2:] for it in Capture(self.path + ".new").packets()], [wanted])


    @unittest.skipUnless(shutil.which("tshark"), "there is no tshark: apt-get install -y tshark")
    def test_what_tshark_reads(self):
        """A second reader: the same times, lengths and bytes kept, of sections, units, and simple and old blocks; also where a file is cut."""
        both = b"".join(
            files.section(order) + files.interface(order, name="eth0", resolution=9) + files.interface(order, resolution=0x80 | 20, offset=1)
            + files.packet(1, 5, ONE, order=order) + files.packet(0, 1_764_576_000_123_456_789, OTHER, order=order) for order in "<>"
        )
        simple = files.section() + files.interface(most=40) + files.simple_packet(ONE[:40], 60) + files.old_packet(0, 9, OTHER)
        for text in (both, both[:-9], simple, files.pcap([(7, 5, ONE), (8, 999_999, OTHER, 1500)], ">", 0xA1B23C4D)):
            _, own = self.read(text)
            words = ["tshark", "-r", self.path, "-T", "fields", "-e", "frame.time_epoch", "-e", "frame.len", "-e", "frame.cap_len"]
            lines = subprocess.run(words, capture_output=True, text=True).stdout.splitlines()
            found = [line.split("\t") for line in lines]
            self.assertEqual([[it and f"{it // 10**9}.{it % 10**9:09d}" or "", str(long), str(len(kept))] for _, it, kept, long in own], found)


class OfCutFiles(Here):
    def test_each_cut_gives_what_is_whole(self):
        """Wherever the file ends, the packets before are read, and one line says so unless a packet ends there."""
        first = files.section() + files.interface()
        for head, packets in (
            (files.pcap([]), [files.pcap([(1, 2, ONE)])[24:], files.pcap([(3, 4, OTHER)])[24:]]),
            (first, [files.packet(0, 1_000_002, ONE), files.packet(0, 3_000_004, OTHER)]),
        ):
            whole = head + b"".join(packets)
            ends = {len(head): 0, len(head + packets[0]): 1, len(whole): 2}
            for size in range(len(files.pcap([])), len(whole) + 1):
                capture, found = self.read(whole[:size])
                self.assertEqual(len(found), sum(end <= size for end in (len(head + packets[0]), len(whole))))
                is_end = size in ends or head is first and size == len(files.section())
                self.assertEqual(capture.cut is None, is_end, size)
        self.assertRegex(self.read(whole[:-1])[0].cut, r"^is cut at byte [0-9]+, within a block; the 1 packets before it are whole$")

    def test_what_no_capture_has(self):
        begin = files.section() + files.interface() + files.packet(0, 1, ONE)
        last = lambda text: text[:-4] + b"\xff\xff\xff\xff"
        for text, said in (
            (begin + last(files.packet(0, 1, ONE)), f"has a block at byte {len(begin)} that states two lengths"),
            (begin + files.packet(1, 1, ONE), "has a packet of an interface that it does not describe, behind packet 1"),
            (begin + files.block(6, b"1234"), f"has a block at byte {len(begin)} that is too short for its type"),
            (begin + b"\6\0\0\0\7\0\0\0", f"has a block of 7 bytes at byte {len(begin)}, which cannot be"),
            (begin + files.block(6, bytes(12) + b"\xff\0\0\0" + bytes(4) + ONE), "has a packet that is longer than its block, behind packet 1"),
            (files.pcap([(1, 1, ONE)]) + bytes(8) + b"\xff\xff\xff\xff" + bytes(4), "has a packet of 4,294,967,295 bytes at byte 100, which cannot be"),
        ):
            with self.subTest(said):
                capture, found = self.read(text)
                self.assertEqual((capture.cut, len(found)), (said + "; the 1 packets before it are whole", 1))

    def test_files_that_are_no_captures(self):
        for text, said in (
            (b"", "is no capture: it is empty"), (b"\x1f\x8b\x08\x00", "is no capture: it is compressed by gzip; gunzip it first"),
            (b"time_ns,where", "is no capture: it begins with 74 69 6d 65, and a pcap or pcapng file does not"),
        ):
            with self.assertRaisesRegex(Fault, said):
                self.opened(text)
        with self.assertRaisesRegex(Fault, "cannot be read: No such file"):
            Capture(self.path + "x")


class Memory(Here):
    def test_it_is_flat(self):
        """Ten times as many packets take no more memory."""
        found = []
        for count in (2_000, 20_000):
            text = files.section() + files.interface() + files.packet(0, 1, bytes(1000)) * count
            capture = self.opened(text)
            del text
            tracemalloc.start()
            self.assertEqual(sum(1 for _ in capture.packets()), count)
            found.append(tracemalloc.get_traced_memory()[1])
            tracemalloc.stop()
        self.assertLess(found[1], found[0] + 100_000)


class Frames(unittest.TestCase):
    def test_what_a_frame_says(self):
        frame = writer.bytes_of(101, 3, "B", 77, 64)
        self.assertEqual(frame_of(frame, 60), (101, "B", 64, 77))
        self.assertEqual(frame_of(frame + b"1234", 64, 4), (101, "B", 64, 77))
        self.assertEqual(frame_of(frame[:59], 60), (101, "B", 64, None))
        self.assertEqual(frame_of(frame[:12] + b"\x81\x00\x00\x05" + frame[12:], 64), (101, "B", 64, 77))
        self.assertEqual(frame_of(frame[:12] + b"\x88\xa8\x00\x05\x81\x00\x00\x05" + frame[12:], 68), (101, "B", 64, 77))
        self.assertEqual(frame_of(writer.bytes_of(9, 3, None, 0, 64), 60), (9, "-", 64, 0))
        self.assertEqual(frame_of(frame[:11] + b"\x60" + frame[12:], 60), (101, "?", 64, 77))

    def test_frames_that_are_no_afdx(self):
        frame = writer.bytes_of(101, 3, "B", 77, 64)
        for kept in (b"", frame[:13], b"\xff" * 6 + frame[6:], b"\x03\x00\x00\x01" + frame[4:]):
            self.assertIsNone(frame_of(kept, 60))


if __name__ == "__main__":
    unittest.main()
