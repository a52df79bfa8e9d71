"""Reads captures, pcap and pcapng, packet by packet: no more than one block of the file is in memory, however long it is.

    capture = Capture("bench.pcapng")        # Fault where the file is no capture
    for packet in capture.packets():
        capture.interfaces[packet.interface].name
    capture.cut                              # where the file is cut: what is behind the last whole packet, in one line

The formats are those of draft-ietf-opsawg-pcap and draft-ietf-opsawg-pcapng.
"""
import itertools
import os
import struct
from collections.abc import Iterator
from typing import BinaryIO, NamedTuple

from afdx.files import watch
from afdx.files.faults import Fault, printable
from afdx.files.identities import KNOWN

# The first four bytes of a pcap file: the order of bytes, and how many ns the unit of its fractions of a second has.
PCAP = {
    b"\xa1\xb2\xc3\xd4": (">", 1000), b"\xd4\xc3\xb2\xa1": ("<", 1000),
    b"\xa1\xb2\x3c\x4d": (">", 1), b"\x4d\x3c\xb2\xa1": ("<", 1),
}
# The types of blocks and options of pcapng. That of a section reads alike in both orders.
SECTION, INTERFACE, OLD_PACKET, SIMPLE_PACKET, PACKET = 0x0A0D0D0A, 1, 2, 3, 6
ORDERS = {b"\x1a\x2b\x3c\x4d": ">", b"\x4d\x3c\x2b\x1a": "<"}
END, NAME, RESOLUTION, CHECK_LENGTH, OFFSET = 0, 2, 9, 13, 14
ETHERNET = 1
# A block or packet that claims more bytes than this is none: Wireshark has the same limit for packets, times 64.
MOST_BYTES = 1 << 24
# The file is read in pieces of this many bytes; after this many packets the line on a terminal shows how far it is.
AT_ONCE, EACH = 1 << 20, 65536
NS = 10**9


class Interface(NamedTuple):
    """An interface of a capture: its name (that of a pcap file is `capture`), its link type, how many packet bytes it keeps (0: all), its
    time unit as a fraction of a second, the ns to add to each time, and how many bytes of a check sequence its packets end with
    (None: not stated)."""

    name: str
    link_type: int
    most_bytes: int
    units_per_second: int
    offset_ns: int
    check_bytes: int | None

    def ns(self, units: int) -> int:
        """The time of so many units, in ns, rounded down."""
        return units * NS // self.units_per_second + self.offset_ns

    def resolution_ns(self) -> int:
        """The time unit in ns, rounded up."""
        return -(-NS // self.units_per_second)

    def is_ethernet(self) -> bool:
        return self.link_type == ETHERNET


class Packet(NamedTuple):
    """A packet: its number in the file, from 1; the index of its interface; its time in ns, None in a simple block, which has none;
    the bytes that were kept; and how long it was on the line."""

    number: int
    interface: int
    moment: int | None
    kept: bytes
    length: int


class CutShort(Exception):
    """The file ends within a block or a packet, or goes on as no capture does."""


class Capture:
    """A capture that is read once. `interfaces` grows while it is read; `cut` says why what is behind the last whole packet was not
    read, None where the file ends with a whole one."""

    def __init__(self, path: str) -> None:
        self.path = path
        self.interfaces: list[Interface] = []
        self.cut: str | None = None
        self.count = 0
        try:
            self.file: BinaryIO = open(path, "rb", buffering=AT_ONCE)
            found = os.fstat(self.file.fileno())
            KNOWN.note(KNOWN.read, path, found)
            self.size, self.place = found.st_size, 0
            self.magic = self.file.read(4)
        except OSError as fault:
            raise Fault(path, None, f"cannot be read: {fault.strerror}") from None
        if self.magic not in PCAP and self.magic != struct.pack("<I", SECTION):
            self.file.close()
            raise Fault(path, None, f"is no capture: {self.looks_like()}")
        self.place = 4

    def looks_like(self) -> str:
        """What a file is that is no capture, as far as its first bytes show."""
        if not self.magic:
            return "it is empty"
        if self.magic[:2] == b"\x1f\x8b":
            return "it is compressed by gzip; gunzip it first"
        if self.magic[:4] == b"\x28\xb5\x2f\xfd":
            return "it is compressed by zstd; unzstd it first"
        return f"it begins with {self.magic.hex(' ')}, and a pcap or pcapng file does not; Wireshark writes one by File, Save As"

    def packets(self) -> Iterator[Packet]:
        """The packets of the file in its order."""
        try:
            with self.file:
                yield from self.of_pcap() if self.magic in PCAP else self.of_pcapng()
        except CutShort as ended:
            self.cut = f"{ended}; the {self.count:,} packets before it are whole"
        except OSError as fault:
            raise Fault(self.path, None, f"cannot be read: {fault.strerror}") from None

    def read(self, size: int, what: str) -> bytes:
        """The next bytes of the file, all of them."""
        found = self.file.read(size)
        if len(found) < size:
            raise CutShort(f"is cut at byte {self.place + len(found):,}, within {what}")
        self.place += size
        return found

    def more(self, size: int, what: str) -> bytes:
        """The same, or nothing where the file ends here."""
        found = self.file.read(size)
        if found and len(found) < size:
            raise CutShort(f"is cut at byte {self.place + len(found):,}, within {what}")
        self.place += len(found)
        return found

    def packet(self, interface: int, moment: int | None, kept: bytes, length: int) -> Packet:
        self.count += 1
        if self.count % EACH == 0:
            share = f", {self.place * 100 // self.size} % of it" if self.size else ""
            watch.stage(f"reads {printable(self.path)}: {self.count:,} packets{share}")
        return Packet(self.count, interface, moment, kept, length)

    # ---- pcap ----

    def of_pcap(self) -> Iterator[Packet]:
        order, unit = PCAP[self.magic]
        _, _, _, _, most, kind = struct.unpack(order + "HHiIII", self.read(20, "the head of the file"))
        # The highest bits of the link type state the length of the check sequence in units of two bytes, where bit 26 is set.
        check = (kind >> 28) * 2 if kind & 1 << 26 else None
        self.interfaces.append(Interface("capture", kind & 0xFFFF, most, NS // unit, 0, check))
        head = struct.Struct(order + "IIII")
        while found := self.more(16, "the head of a packet"):
            seconds, fraction, kept, length = head.unpack(found)
            if kept > MOST_BYTES:
                raise CutShort(f"has a packet of {kept:,} bytes at byte {self.place - 16:,}, which cannot be")
            yield self.packet(0, seconds * NS + fraction * unit, self.read(kept, "a packet"), length)

    # ---- pcapng ----

    def of_pcapng(self) -> Iterator[Packet]:
        order, found, first = "<", self.magic + self.read(4, "the head of the file"), 0
        while found:
            begin = self.place - 8
            if found[:4] == struct.pack("<I", SECTION):
                mark = self.read(4, "the head of a section")
                if mark not in ORDERS:
                    raise CutShort(f"has a section at byte {begin:,} whose order of bytes is {mark.hex(' ')}")
                order, first, before = ORDERS[mark], len(self.interfaces), 12
            else:
                before = 8
            kind, length = struct.unpack(order + "II", found)
            if length % 4 or not 12 <= length <= MOST_BYTES or length < before + 4:
                raise CutShort(f"has a block of {length:,} bytes at byte {begin:,}, which cannot be")
            body = self.read(length - before, "a block")
            if struct.unpack(order + "I", body[-4:]) != (length,):
                raise CutShort(f"has a block at byte {begin:,} that states two lengths")
            try:
                packet = self.block(order, kind, body[:-4], first)
            except struct.error:
                raise CutShort(f"has a block at byte {begin:,} that is too short for its type") from None
            if packet:
                yield packet
            found = self.more(8, "the head of a block")

    def block(self, order: str, kind: int, body: bytes, first: int) -> Packet | None:
        """The packet of a block, None where it has none. `first` is the index of the first interface of its section."""
        if kind == INTERFACE:
            found = interface_of(order, body, len(self.interfaces) - first)
            self.interfaces.append(found._replace(name=self.unlike(found.name, first)))
        elif kind == PACKET:
            number, high, low, kept, length = struct.unpack_from(order + "IIIII", body)
            return self.timed(first + number, high << 32 | low, body[20:], kept, length)
        elif kind == OLD_PACKET:
            number, _, high, low, kept, length = struct.unpack_from(order + "HHIIII", body)
            return self.timed(first + number, high << 32 | low, body[20:], kept, length)
        elif kind == SIMPLE_PACKET:
            (length,) = struct.unpack_from(order + "I", body)
            most = self.at(first).most_bytes or length
            return self.packet(first, None, body[4 : 4 + min(most, length)], length)
        return None

    def unlike(self, name: str, first: int) -> str:
        """A name, with a number behind it where others of the section have it, as where files of two hosts were merged."""
        names = {it.name for it in self.interfaces[first:]}
        others = (f"{name} {number}" for number in itertools.count(2))
        return next(it for it in itertools.chain([name], others) if it not in names)

    def at(self, interface: int) -> Interface:
        if interface >= len(self.interfaces):
            raise CutShort(f"has a packet of an interface that it does not describe, behind packet {self.count:,}")
        return self.interfaces[interface]

    def timed(self, interface: int, units: int, rest: bytes, kept: int, length: int) -> Packet:
        if kept > len(rest):
            raise CutShort(f"has a packet that is longer than its block, behind packet {self.count:,}")
        return self.packet(interface, self.at(interface).ns(units), rest[:kept], length)


def interface_of(order: str, body: bytes, number: int) -> Interface:
    """The interface that a block describes; one without a name is named by its number in the section, from 0."""
    kind, _, most = struct.unpack_from(order + "HHI", body)
    name, units, offset, check = f"interface {number}", 10**6, 0, None
    for code, value in options_of(order, body[8:]):
        if code == NAME and value:
            name = value.rstrip(b"\0").decode("utf-8", "backslashreplace")
        elif code == RESOLUTION and len(value) == 1:
            units = 2 ** (value[0] & 0x7F) if value[0] & 0x80 else 10 ** value[0]
        elif code == OFFSET and len(value) == 8:
            offset = struct.unpack(order + "q", value)[0] * NS
        elif code == CHECK_LENGTH and len(value) == 1:
            check = value[0]
    return Interface(name, kind, most, units, offset, check)


def options_of(order: str, body: bytes) -> Iterator[tuple[int, bytes]]:
    """The options of a block, each with its code. What is behind one that is cut is ignored."""
    place = 0
    while place + 4 <= len(body):
        code, length = struct.unpack_from(order + "HH", body, place)
        if code == END or place + 4 + length > len(body):
            return
        yield code, body[place + 4 : place + 4 + length]
        place += 4 + length + -length % 4
