#!/usr/bin/env python3
"""Writes the frames of a run as a capture for Wireshark (pcapng), with the moments of the run in ns.

A trace has deliveries and losses. The simulator of afdx second-opinion computes by which network a frame came, its
sequence number, and when it was on which line. Its own trace must be TRACE line by line; otherwise nothing is written.

Each frame has the headers of ARINC 664 Part 7. It has as many bytes as the description states, without the check
sequence, so the sequence number is the last one; the data of the application is zeros. The comments of a frame state
what happened to it: `delivered at DU_L: latency 72570 ns, 0 ns of it in the regulator`, or `lost at SWA: policed`.
"""
import argparse
import itertools
import os
import struct
import sys
from collections.abc import Iterable, Iterator, Mapping, Sequence
from typing import Any, NamedTuple

from afdx import files, model
from afdx.files import Fault, program
from afdx.model import description_faults
from afdx.runs.plain_simulator import Frame, Simulation
from afdx.runs.second_opinion import small_enough

EXAMPLES = """
examples:
  afdxsim seq net.toml --trace trace.csv > tables.csv
  afdx pcap net.toml trace.csv -o net.pcapng
        a packet for each line of the trace, so as many as the tables count: at the interface of the receiver, or of the
        node or line that lost it
  afdx pcap net.toml trace.csv --each line -o lines.pcapng
        an interface for each line, and a packet for each frame on it, at the moment of its last bit

in Wireshark, with the fields of the dissector beside this tool:
  mkdir -p ~/.local/lib/wireshark/plugins && cp tools/afdx.lua ~/.local/lib/wireshark/plugins/
        installs it; or tshark -X lua_script:tools/afdx.lua for one call
  tshark -r net.pcapng -Y 'afdx.vl==101 && frame.comment contains "delivered"'
        what the tables count as latency of virtual link 101
  tshark -r net.pcapng -Y 'afdx.net=="B" && frame.comment contains "outage"'

what a packet has:
  Ethernet  to 03:00:00:00 and the number of the virtual link; from 02:00:00, the number of the source's process, and 20
            for network A, 40 for network B, or 00 if the frame was lost before it came to a network
  IP, UDP   from 10, the number of the source's process, and 1, to 224.224 and the number of the virtual link; both ports
            are 49152, since descriptions have none
  the last byte  its sequence number

status: 0; 2 if a word is wrong, a file cannot be read or written, the description is not accepted, or TRACE is of
another run. One line on error output then names the file and the line.
"""

# The block types and options of pcapng, and the link type of Ethernet.
SECTION, INTERFACE, PACKET = 0x0A0D0D0A, 1, 6
COMMENT, APPLICATION, NAME, DESCRIPTION, SPEED, RESOLUTION = 1, 4, 2, 3, 8, 9
ETHERNET = 1
# Ethernet 14, IP 20, UDP 8, sequence number 1 and check sequence 4.
BYTES_AROUND_A_PAYLOAD = 47
PORT = 49152
NETWORKS = {"A": 0x20, "B": 0x40, None: 0}


class Packet(NamedTuple):
    """A packet of the capture: its moment, the place where it is seen, its frame and its comments."""

    moment: int
    place: int
    frame: Frame
    comments: list[str]


# ---- frames ----


def checksum_of(header: bytes) -> int:
    """The checksum of a header of IP."""
    total = sum(struct.unpack("!10H", header))
    while total > 0xFFFF:
        total = (total & 0xFFFF) + (total >> 16)
    return 0xFFFF - total


def bytes_of(vl: int, source: int, net: str | None, number: int, size: int) -> bytes:
    """A frame as it is on the line, without its check sequence."""
    payload = size - BYTES_AROUND_A_PAYLOAD
    ethernet = struct.pack("!4sH3sHBH", b"\3\0\0\0", vl, b"\2\0\0", source, NETWORKS[net], 0x0800)
    addresses = struct.pack("!BHBBBH", 10, source, 1, 224, 224, vl)
    fields = struct.pack("!BBHHHBB", 0x45, 0, 28 + payload, 0, 0x4000, 1, 17)
    ip = fields + struct.pack("!H", checksum_of(fields + b"\0\0" + addresses)) + addresses
    udp = struct.pack("!4H", PORT, PORT, 8 + payload, 0)
    return ethernet + ip + udp + bytes(payload) + bytes([number])


# ---- pcapng ----


def padded(text: bytes) -> bytes:
    return text + bytes(-len(text) % 4)


def option(code: int, value: bytes) -> bytes:
    return struct.pack("<HH", code, len(value)) + padded(value)


def block(kind: int, body: bytes, options: Sequence[tuple[int, bytes]] = ()) -> bytes:
    body += b"".join(option(code, value) for code, value in options) + (struct.pack("<HH", 0, 0) if options else b"")
    length = struct.pack("<I", 12 + len(body))
    return struct.pack("<I", kind) + length + body + length


def section_of(net: str) -> bytes:
    head = struct.pack("<IHHq", 0x1A2B3C4D, 1, 0, -1)
    return block(SECTION, head, [(APPLICATION, program.tool("pcap").in_words().encode()), (COMMENT, f"a run of {net}".encode())])


def interface_of(name: str, says: str, mbit: int | None = None) -> bytes:
    options = [(NAME, name.encode()), (DESCRIPTION, says.encode()), (RESOLUTION, b"\x09")]
    if mbit:
        options.append((SPEED, struct.pack("<Q", mbit * 10**6)))
    return block(INTERFACE, struct.pack("<HHI", ETHERNET, 0, 0), options)


def packet_of(interface: int, moment: int, frame: bytes, comments: list[str]) -> bytes:
    head = struct.pack("<IIIII", interface, moment >> 32, moment & 0xFFFFFFFF, len(frame), len(frame))
    return block(PACKET, head + padded(frame), [(COMMENT, text.encode()) for text in comments])


# ---- what was when where ----


class Seen(Simulation):
    """A run whose frames are noted: `packets` has for each the moment, the place, the frame and its comments."""

    def __init__(self, tree: Mapping[str, Any]) -> None:
        self.packets: list[Packet] = []
        super().__init__(tree)

    def deliver(self, t: int, p: int, frame: Frame) -> None:
        super().deliver(t, p, frame)
        wait = frame.released - frame.offered
        self.happens(t, p, frame, f"delivered at {self.names[p]}: latency {t - frame.offered} ns, {wait} ns of it in the regulator")

    def lose(self, t: int, p: int, frame: Frame, cause: str) -> None:
        super().lose(t, p, frame, cause)
        what = "dropped" if cause == "duplicate" else "lost"
        self.happens(t, p, frame, f"{what} at {self.names[p]}: {cause}")

    def happens(self, t: int, p: int, frame: Frame, text: str) -> None:
        self.packets.append(Packet(t, p, frame, [text]))

    def interfaces(self, net: model.Network) -> dict[int, tuple[str, int | None]]:
        """The places that have an interface: who receives, and where a frame was lost. Each with what is said of it."""
        receivers = {place for _, place in self.destinations}
        places = sorted(receivers | {packet.place for packet in self.packets})
        return {place: (f"frames delivered or lost at {self.names[place]}", None) for place in places}


class SeenOnLines(Seen):
    """A run whose frames are noted on each line, at the moment of the last bit. What happens to a frame behind a line is a
    comment of its packet there; what is lost before its first line is noted at its source."""

    def __init__(self, tree: Mapping[str, Any]) -> None:
        # For each frame and node the packet on the line by which it came there.
        self.before: dict[tuple[Frame, int], Packet] = {}
        super().__init__(tree)

    def handle(self, t: int, p: int, variant: str, fields: tuple[Any, ...]) -> None:
        if variant == "Carry":
            (frame,) = fields
            packet = Packet(t, p, frame, [])
            self.packets.append(packet)
            self.before[frame, p] = self.before[frame, self.place[self.lines[p - len(self.nodes)].there]] = packet
        super().handle(t, p, variant, fields)

    def happens(self, t: int, p: int, frame: Frame, text: str) -> None:
        packet = self.before.get((frame, p))
        if packet:
            packet.comments.append(text)
        else:
            super().happens(t, p, frame, text)

    def interfaces(self, net: model.Network) -> dict[int, tuple[str, int | None]]:
        lines = {self.names.index(line) for vl in net.vls.values() for line in vl.lines}
        places = sorted(lines | {packet.place for packet in self.packets})
        said: dict[int, tuple[str, int | None]] = {}
        for place in places:
            name = self.names[place]
            said[place] = (f"the line {name}", net.mbit[name]) if name in net.mbit else (f"frames lost at {name}", None)
        return said


KINDS = {"receiver": Seen, "line": SeenOnLines}


def blocks_of(net: model.Network, simulation: Seen) -> Iterator[bytes]:
    """The blocks of the capture."""
    yield section_of(files.printable(os.path.basename(net.path)))
    number: dict[int, int] = {}
    for place, (says, mbit) in simulation.interfaces(net).items():
        number[place] = len(number)
        yield interface_of(simulation.names[place], says, mbit)
    for packet in simulation.packets:
        frame = packet.frame
        frame_bytes = bytes_of(frame.vl, simulation.source[frame.vl], frame.net, frame.number, frame.size)
        yield packet_of(number[packet.place], packet.moment, frame_bytes, packet.comments)


def compare(path: str, found: Iterable[str], simulation: Seen) -> None:
    """Refuses a trace, of which the lines are given, that is not that of the run."""
    for i, (mine, line) in enumerate(itertools.zip_longest(simulation.trace(), found), 1):
        if mine != line:
            text = "ends here, and the run has " + mine if line is None else f"says {line}, and the run has {mine or 'no more'}"
            raise Fault(path, i, f"{text}: it is the trace of another run")


# ---- words of the command line ----


def words_of(arguments: list[str] | None) -> argparse.Namespace:
    parser = argparse.ArgumentParser(
        prog="afdx pcap", description=__doc__, epilog=EXAMPLES, formatter_class=argparse.RawDescriptionHelpFormatter
    )
    parser.add_argument("net", metavar="NET", help="the description (TOML)")
    parser.add_argument("trace", metavar="TRACE", help="the trace of its run, as afdxsim or afdx second-opinion writes it")
    parser.add_argument("-o", "--output", metavar="FILE", required=True, help="the capture to write (pcapng)")
    parser.add_argument(
        "--each", choices=KINDS, default="receiver", help="an interface for each receiver (default), or for each line"
    )
    return parser.parse_args(arguments)


@files.tool("afdx pcap")
def main(arguments: list[str] | None = None) -> None:
    words = words_of(arguments)
    description = description_faults.accepted(words.net)
    found = model.lines_of(words.trace, [model.TRACE_HEAD], "a trace")
    files.ready([words.output])
    simulation = KINDS[words.each](small_enough(description))
    simulation.run()
    compare(words.trace, found, simulation)
    net = model.Network(words.net, description=description)
    files.write_whole(words.output, b"".join(blocks_of(net, simulation)))


if __name__ == "__main__":
    sys.exit(main())
