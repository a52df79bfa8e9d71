"""What two taps see of the same frames of a virtual link: the two copies at a destination, or a frame at one tap and at a later one."""
from typing import NamedTuple

from afdx.model.captured_frames import CapturedFrame
from afdx.reckon.captured_links import CapturedLink
from afdx.reckon.clock_offsets import Offset
from afdx.reckon.tap_limits import Transit

# Frames of one number are the same frame if they are closer than so many BAGs.
SAME_WITHIN_BAGS = 64


class Seen(NamedTuple):
    """A time from one tap to the other, by their clocks, and the packet that shows it."""

    ns: int
    packet: int


class Windows:
    """What the windows of two clocks gave: how many frames were judged, how many were not, in how many windows a frame breaks what is
    allowed, the worst value with its packet, and between which numbers the offset was."""

    __slots__ = ("judged", "others", "broken", "unsure", "worst", "offset")

    def __init__(self) -> None:
        self.judged = self.others = self.broken = self.unsure = 0
        self.worst: Seen | None = None
        self.offset: Offset | None = None

    def take(self, offset: Offset | None, frames: int, least: Seen, most: Seen, allowed: int | None) -> None:
        """Takes a window: its worst value lies between two numbers."""
        if offset is None or allowed is None or least.ns <= allowed < most.ns:
            self.others += frames
            self.unsure += offset is not None
            return
        self.judged += frames
        self.broken += least.ns > allowed
        shown = least if least.ns > allowed else most
        if self.worst is None or shown.ns > self.worst.ns:
            self.worst = shown
        before = self.offset
        self.offset = offset if before is None else Offset(lower(before.least, offset.least), higher(before.most, offset.most))


def lower(one: int | None, other: int | None) -> int | None:
    return None if one is None or other is None else min(one, other)


def higher(one: int | None, other: int | None) -> int | None:
    return None if one is None or other is None else max(one, other)


class Pair:
    """Two taps that see the same frames of a virtual link. `least` and `most` are the least and the greatest time from the one to the
    other, by their clocks, in the whole capture and in this window; a frame whose number comes twice at one of them is left out.
    `touched` gets the pair with its first frame of a window."""

    def __init__(self, one: CapturedLink, other: CapturedLink, where: str, allowed: int | None, touched: list["Pair"] | None) -> None:
        self.one, self.other, self.where, self.allowed = one, other, where, allowed
        self.within = SAME_WITHIN_BAGS * one.vl.bag_ns
        # By numbers: which of the two saw it, when, and whether it did so twice.
        self.waiting: dict[int, tuple[CapturedLink, int, bool]] = {}
        self.count = self.broken = 0
        self.least: Seen | None = None
        self.most: Seen | None = None
        # Taps of one clock have no windows.
        self.touched, self.has_one_clock = touched, touched is None
        self.windows = Windows()
        self.count_in_window = 0
        self.least_in_window = self.most_in_window = Seen(0, 0)
        one.pairs.append(self)
        other.pairs.append(self)

    def take(self, seen: CapturedLink, packet: int, frame: CapturedFrame, moment: int) -> None:
        number = frame.number
        assert number is not None
        found = self.waiting.get(number)
        is_same_frame = found is not None and abs(moment - found[1]) < self.within
        if found is None or not is_same_frame:
            self.waiting[number] = seen, moment, False
        elif found[0] is seen:
            self.waiting[number] = seen, moment, True
        else:
            del self.waiting[number]
            if not found[2]:
                ns = moment - found[1] if seen is self.other else found[1] - moment
                self.note(ns, packet, frame.size)

    def lose(self, seen: CapturedLink, numbers: list[int], moment: int) -> None:
        """Frames of these numbers were lost before one that came to a tap at this moment."""

    def note(self, ns: int, packet: int, size: int) -> None:
        self.count += 1
        if self.least is None or ns < self.least.ns:
            self.least = Seen(ns, packet)
        if self.most is None or ns > self.most.ns:
            self.most = Seen(ns, packet)
        if self.touched is None:
            self.broken += self.allowed is not None and abs(ns) > self.allowed
            return
        if not self.count_in_window:
            self.touched.append(self)
            self.least_in_window = self.most_in_window = Seen(ns, packet)
        elif ns < self.least_in_window.ns:
            self.least_in_window = Seen(ns, packet)
        elif ns > self.most_in_window.ns:
            self.most_in_window = Seen(ns, packet)
        self.count_in_window += 1

    def end_window(self, offset: Offset | None) -> None:
        """A window ends, in which the clock of the other tap was ahead of that of the one by so much."""
        least, most = self.between(self.least_in_window, self.most_in_window, offset or Offset(0, 0))
        self.windows.take(offset, self.count_in_window, least, most, self.allowed)
        self.count_in_window = 0

    def between(self, least: Seen, most: Seen, offset: Offset) -> tuple[Seen, Seen]:
        """Between which two numbers the worst value lies, by the least and the greatest time and the offset of the clocks."""
        raise NotImplementedError


class Copies(Pair):
    """The two copies of a frame at a destination: the one by network A and the other by network B."""

    def between(self, least: Seen, most: Seen, offset: Offset) -> tuple[Seen, Seen]:
        """For each offset the worst is at one of both ends, so it is least in the middle."""
        low, high = ends_of(offset)
        worst = lambda ahead: max(Seen(most.ns - ahead, most.packet), Seen(ahead - least.ns, least.packet))
        return worst(min(max((most.ns + least.ns) // 2, low), high)), max(worst(low), worst(high))


class Way(Pair):
    """A frame at one tap and at a later one. `ahead` is by how much the clock of the later one is ahead at most."""

    def __init__(self, one: CapturedLink, other: CapturedLink, transit: Transit, allowed: int | None, touched: list[Pair] | None) -> None:
        super().__init__(one, other, other.line, allowed, touched)
        self.transit = transit
        self.ahead: int | None = None
        self.ahead_in_window: int | None = None
        # Of each tap the frames that it lacks, by number: when the next one came, and whether the other tap saw them. `only_at_other` counts
        # those that it did.
        self.missing: dict[CapturedLink, dict[int, tuple[int, bool]]] = {one: {}, other: {}}
        self.only_at_other = {one: 0, other: 0}

    def take(self, seen: CapturedLink, packet: int, frame: CapturedFrame, moment: int) -> None:
        unseen = self.other if seen is self.one else self.one
        if self.missing[unseen] and frame.number in self.missing[unseen]:
            since, was_seen = self.missing[unseen][frame.number]
            if abs(moment - since) < self.within:
                self.only_at_other[unseen] += not was_seen
                self.missing[unseen][frame.number] = since, True
                return
        if self.missing[seen] and frame.number in self.missing[seen]:
            since, was_seen = self.missing[seen].pop(frame.number)
            self.only_at_other[seen] -= was_seen and abs(moment - since) < self.within
        super().take(seen, packet, frame, moment)

    def lose(self, seen: CapturedLink, numbers: list[int], moment: int) -> None:
        by = self.other if seen is self.one else self.one
        for number in numbers:
            found = self.waiting.get(number)
            was_seen = found is not None and found[0] is by and abs(moment - found[1]) < self.within
            self.only_at_other[seen] += was_seen
            self.missing[seen][number] = moment, was_seen

    def note(self, ns: int, packet: int, size: int) -> None:
        ahead = ns - self.transit.least_of(size)
        self.ahead = ahead if self.ahead is None else min(self.ahead, ahead)
        before = self.ahead_in_window if self.count_in_window else None
        self.ahead_in_window = ahead if before is None else min(before, ahead)
        super().note(ns, packet, size)

    def between(self, least: Seen, most: Seen, offset: Offset) -> tuple[Seen, Seen]:
        low, high = ends_of(offset)
        return Seen(most.ns - high, most.packet), Seen(most.ns - low, most.packet)


def ends_of(offset: Offset) -> tuple[int, int]:
    """Both ends of an offset that is known."""
    assert offset.least is not None and offset.most is not None
    return offset.least, max(offset.least, offset.most)
