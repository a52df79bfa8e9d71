"""One tap of a capture: what its interface sees, its clock, and the frames that should not be there."""
import zlib

from afdx.files.captures import Interface, Packet
from afdx.model.captured_frames import CHECK_BYTES, CapturedFrame, frame_of
from afdx.reckon.busy_lines import BusyLine
from afdx.reckon.captured_links import CapturedLink
from afdx.reckon.clock_steps import MOST_STEPS
from afdx.reckon.tap_places import Place


class Stray:
    """Frames of a virtual link that do not belong to a tap: why, None where they are only counted; how many, the longest, and the first
    packet."""

    def __init__(self, what: str | None) -> None:
        self.what = what
        self.count = self.greatest = self.first = 0

    def take(self, packet: int, frame: CapturedFrame) -> None:
        self.count += 1
        self.greatest = max(self.greatest, frame.size)
        self.first = self.first or packet


class Tap:
    """An interface with the place that it taps, None where that is not known. `is_second` states that an earlier interface taps a line
    of it too."""

    def __init__(self, name: str, place: Place | None, is_second: bool) -> None:
        self.name, self.place, self.is_second = name, place, is_second
        self.resolution_ns = 0
        # What became of its packets: frames of AFDX, others, those of no network, and those without a time.
        self.frames = self.others = self.of_no_network = self.without_time = 0
        self.first_packet = self.last_packet = 0
        # How many bytes of a check sequence its packets end with; None as long as it is not known.
        self.check_bytes: int | None = None
        self.of: dict[tuple[int, str], CapturedLink | Stray] = {}
        # Of its lines those whose port may be too small.
        self.busy: dict[str, BusyLine] = {}
        self.latest: int | None = None
        self.steps_back = self.furthest_back = self.first_back = 0
        # How many sections of the capture have it, and at which packet one begins earlier than the one before it ended.
        self.sections = self.overlaps_at = 0
        self.is_new = False
        # Since when there is a window, and how often the clock had run back when it began (`clock_windows`).
        self.window: int | None = None
        self.steps_before = 0

    def opens(self, interface: Interface) -> None:
        """Takes over what an interface of this name states, which is that of another section."""
        self.sections += 1
        self.is_new = True
        self.resolution_ns = max(self.resolution_ns, interface.resolution_ns())
        self.check_bytes = interface.check_bytes

    def frame(self, packet: Packet) -> CapturedFrame | None:
        """The frame of a packet, or None. Whether packets end with a check sequence shows the first whole one, where nothing states it."""
        found = frame_of(packet.kept, packet.length, self.check_bytes or 0)
        if found is None:
            self.others += 1
            return None
        if self.check_bytes is None and len(packet.kept) == packet.length:
            own = int.from_bytes(packet.kept[-CHECK_BYTES:], "little")
            self.check_bytes = CHECK_BYTES if zlib.crc32(packet.kept[:-CHECK_BYTES]) == own else 0
            found = frame_of(packet.kept, packet.length, self.check_bytes)
        self.frames += 1
        return found

    def clock(self, packet: Packet) -> None:
        """Takes the number and the time of a packet."""
        self.first_packet = self.first_packet or packet.number
        self.last_packet = packet.number
        if packet.moment is None:
            self.without_time += 1
            return
        if self.latest is not None and packet.moment < self.latest:
            if self.is_new:
                self.overlaps_at = self.overlaps_at or packet.number
            else:
                self.steps_back += 1
                self.furthest_back = max(self.furthest_back, self.latest - packet.moment)
                self.first_back = self.first_back or packet.number
        self.latest, self.is_new = packet.moment, False

    def is_excused(self, excess: int) -> bool:
        """Whether its clock runs back so often and so far that a frame which seems too early by so many ns need not be so."""
        return self.steps_back > MOST_STEPS and excess <= 3 * self.furthest_back
