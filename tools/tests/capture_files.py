"""Captures for tests, written here byte by byte: pcap and pcapng, in both orders of bytes."""
import struct

SECTION, INTERFACE, OLD_PACKET, SIMPLE_PACKET, PACKET = 0x0A0D0D0A, 1, 2, 3, 6


def pcap(packets, order="<", magic=0xA1B2C3D4, most=65535, link=1):
    """A pcap file of packets: seconds, fraction, the bytes, and how long each was if more."""
    text = struct.pack(order + "IHHiIII", magic, 2, 4, 0, 0, most, link)
    for seconds, fraction, kept, *length in packets:
        text += struct.pack(order + "IIII", seconds, fraction, len(kept), *(length or [len(kept)])) + kept
    return text


def block(kind, body, order="<"):
    body += bytes(-len(body) % 4)
    length = struct.pack(order + "I", 12 + len(body))
    return struct.pack(order + "I", kind) + length + body + length


def section(order="<"):
    return block(SECTION, struct.pack(order + "IHHq", 0x1A2B3C4D, 1, 0, -1), order)


def interface(order="<", most=0, link=1, **options):
    """`name`, `resolution`, `offset` and `check` are the options 2, 9, 14 and 13."""
    body = struct.pack(order + "HHI", link, 0, most)
    forms = {
        "name": (2, lambda it: it.encode()), "resolution": (9, lambda it: bytes([it])),
        "offset": (14, lambda it: struct.pack(order + "q", it)), "check": (13, lambda it: bytes([it])),
    }
    for name, value in options.items():
        code, form = forms[name]
        value = form(value)
        body += struct.pack(order + "HH", code, len(value)) + value + bytes(-len(value) % 4)
    return block(INTERFACE, body + (struct.pack(order + "HH", 0, 0) if options else b""), order)


def packet(number, units, kept, length=None, order="<"):
    head = struct.pack(order + "IIIII", number, units >> 32, units & 0xFFFFFFFF, len(kept), length or len(kept))
    return block(PACKET, head + kept, order)


def old_packet(number, units, kept, order="<"):
    head = struct.pack(order + "HHIIII", number, 0, units >> 32, units & 0xFFFFFFFF, len(kept), len(kept))
    return block(OLD_PACKET, head + kept, order)


def simple_packet(kept, length=None, order="<"):
    return block(SIMPLE_PACKET, struct.pack(order + "I", length or len(kept)) + kept, order)
