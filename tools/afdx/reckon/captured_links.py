"""What one tap sees of one virtual link on one network: lengths, spacing and sequence numbers, frame by frame."""
from typing import Protocol

from afdx.model import VirtualLink
from afdx.model.captured_frames import CapturedFrame
from afdx.reckon.busy_lines import BusyLine
from afdx.reckon.clock_steps import ClockSteps
from afdx.reckon.sequence_numbers import LOST, SequenceNumbers, number_after
from afdx.reckon.tap_limits import CLOCK_PPM


class Worst:
    """The greatest of some values, its packet, and how many values there were above what is allowed."""

    __slots__ = ("value", "packet", "count", "broken")

    def __init__(self) -> None:
        self.value: int | None = None
        self.packet = self.count = self.broken = 0

    def take(self, value: int, packet: int, allowed: int | None) -> bool:
        """Takes a value, and answers whether it is above what is allowed."""
        self.count += 1
        is_above = allowed is not None and value > allowed
        self.broken += is_above
        if self.value is None or value > self.value:
            self.value, self.packet = value, packet
        return is_above


class Follower(Protocol):
    """What follows the frames of a virtual link at a tap."""

    def take(self, seen: "CapturedLink", packet: int, frame: CapturedFrame, moment: int) -> None: ...

    def lose(self, seen: "CapturedLink", numbers: list[int], moment: int) -> None: ...


class CapturedLink:
    """A virtual link at a tap. `allowed_ns` is by how much its frames may come closer than a BAG, None where that has no bound; `steps`
    are those of the capture."""

    def __init__(self, vl: VirtualLink, net: str, tap: str, line: str, allowed_ns: int | None, steps: ClockSteps) -> None:
        self.vl, self.net, self.tap, self.line, self.allowed_ns, self.steps = vl, net, tap, line, allowed_ns, steps
        # A clock that is slow by so much sees frames earlier.
        self.bag_ns = vl.bag_ns - -(-vl.bag_ns * CLOCK_PPM // 10**6)
        self.lengths, self.closeness, self.numbers = Worst(), Worst(), SequenceNumbers()
        self.due: int | None = None
        # The time and the packet of the last frame.
        self.last: int | None = None
        self.packet = 0
        self.steps_back = self.sections = self.without_number = 0
        self.pairs: list[Follower] = []
        # The last frame with a number and a time, for taps that come later.
        self.newest: tuple[int, CapturedFrame, int] | None = None
        # The line as its tap sees it, and the longest time from a frame to the next one.
        self.busy: BusyLine | None = None
        self.longest_pause = 0
        # Behind lost frames the least time that the line was busy before the next frame came, if it had a pause between the frame before them
        # and that one in which they have room; and whether frames were lost when it was known since when the line was busy.
        self.least_busy: int | None = None
        self.is_loss_seen = False
        # How often frames were lost, where those that follow one another count once.
        self.losses = 0

    def take(self, packet: int, frame: CapturedFrame, moment: int | None, steps_back: int, sections: int) -> None:
        """Takes a frame. `steps_back` is how often the clock of its tap ran back until now, and `sections` how many sections of the
        capture had the tap: spacing begins anew behind each, and numbers behind a section."""
        self.lengths.take(frame.size, packet, self.vl.smax)
        is_earlier = moment is not None and self.last is not None and moment < self.last
        if steps_back != self.steps_back:
            self.steps_back, self.due, self.last = steps_back, None, None
        if sections != self.sections:
            self.sections, self.due, self.last = sections, None, None
            self.numbers.go_on(None)
        before = None
        passed = 0 if moment is None or self.last is None else (moment - self.last) // self.bag_ns + 2
        if moment is not None:
            self.space(packet, moment)
            before, self.last = self.last, moment
            if before is not None:
                self.longest_pause = max(self.longest_pause, moment - before)
        self.packet = packet
        if frame.number is None:
            self.without_number += 1
        else:
            lost, newest = self.numbers.counts.get(LOST, 0), self.numbers.last
            self.numbers.take(frame.number, packet, passed, is_earlier)
            if moment is not None:
                more = self.numbers.counts.get(LOST, 0) - lost
                self.losses += (more > 0) - (more < 0)
                if more > 0 and newest is not None:
                    self.lose(before, [number_after(newest, step) for step in range(1, more + 1)], moment)
                self.newest = packet, frame, moment
                for pair in self.pairs:
                    pair.take(self, packet, frame, moment)

    def lose(self, before: int | None, numbers: list[int], moment: int) -> None:
        """Frames of these numbers were lost before one that came at this moment. `before` is when the last one came before them."""
        for pair in self.pairs:
            pair.lose(self, numbers, moment)
        busy = self.busy
        if busy is None or busy.since is None or busy.known_from is None or before is None:
            return
        self.is_loss_seen = self.is_loss_seen or before >= busy.known_from
        if before < busy.since and 2 * busy.pause >= self.vl.sizes[0] * busy.byte_ns:
            found = moment - busy.since
            self.least_busy = found if self.least_busy is None else min(self.least_busy, found)

    def space(self, packet: int, moment: int) -> None:
        """Each frame is due a BAG after the one before it, counted from any earlier one. As at an account, one that comes too early does
        not count for those behind it. Over a step of the clocks nothing is judged."""
        if self.due is None:
            self.due = moment + self.bag_ns
            return
        early = max(0, self.due - moment)
        if self.allowed_ns is not None and early > self.allowed_ns and self.steps.explain(self.packet, packet, early - self.allowed_ns):
            self.due = moment + self.bag_ns
        elif not self.closeness.take(early, packet, self.allowed_ns):
            self.due = max(self.due, moment) + self.bag_ns
