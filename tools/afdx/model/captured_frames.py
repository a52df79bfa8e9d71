"""The frames of AFDX in the packets of a capture: what the headers of ARINC 664 Part 7 say of a frame."""
from typing import NamedTuple

# The first four bytes of the destination of a frame of AFDX; the two behind them are the number of the virtual link.
CONSTANT = b"\x03\x00\x00\x00"
# How a frame names its network, in the upper three bits of the last byte of its source.
NETWORKS = {0x20: "A", 0x40: "B"}
NO_NETWORK, OTHER_NETWORK = "-", "?"
# The types of a VLAN tag, which an analyser or a mirror port may add; each tag has four bytes.
TAGS = (b"\x81\x00", b"\x88\xa8", b"\x91\x00")
TAG_BYTES, CHECK_BYTES = 4, 4
# Both addresses and the type.
LEAST_BYTES = 14


class CapturedFrame(NamedTuple):
    """A frame of AFDX: its virtual link, its network (A, B, `-` where the source names none, `?` for what is neither), its length
    in bytes with the check sequence and without tags, and its sequence number, None where the capture does not keep that byte."""

    vl: int
    net: str
    size: int
    number: int | None


def frame_of(kept: bytes, length: int, check_bytes: int = 0) -> CapturedFrame | None:
    """The frame of a packet, of which these bytes were kept and which had so many on the line, with so many bytes of a check
    sequence; None where it is no frame of AFDX."""
    if len(kept) < LEAST_BYTES or kept[:4] != CONSTANT:
        return None
    place = 12
    while kept[place : place + 2] in TAGS:
        place += TAG_BYTES
    last = length - check_bytes - 1
    number = kept[last] if LEAST_BYTES <= last < len(kept) else None
    mark = kept[11] & 0xE0
    net = NETWORKS.get(mark, OTHER_NETWORK if mark else NO_NETWORK)
    return CapturedFrame(kept[4] << 8 | kept[5], net, length - check_bytes - (place - 12) + CHECK_BYTES, number)
