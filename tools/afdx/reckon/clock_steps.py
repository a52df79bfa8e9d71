"""Where the times of a capture go back from one packet to the next, whatever taps the two are of: a clock that was set back there may be
that of all taps, also of one at which too few frames pass to show it."""
from typing import NamedTuple

# How many steps are known: the greatest ones. A capture that is not in the order of time has one at every other packet.
MOST_STEPS = 3


class Step(NamedTuple):
    """By how many ns the times go back, and at which packet."""

    ns: int
    packet: int


class ClockSteps:
    """The greatest steps back of a capture."""

    def __init__(self) -> None:
        self.latest: int | None = None
        self.greatest: list[Step] = []
        self.least_kept = 0
        # How many frames were too close over a step, and the first of these steps.
        self.excused = 0
        self.first: Step | None = None

    def take(self, packet: int, moment: int) -> None:
        """Takes the time of a packet."""
        if self.latest is not None and self.latest - moment > self.least_kept:
            self.greatest = sorted([*self.greatest, Step(self.latest - moment, packet)], key=lambda it: (-it.ns, it.packet))[:MOST_STEPS]
            self.least_kept = self.greatest[-1].ns if len(self.greatest) == MOST_STEPS else 0
        self.latest = moment

    def explain(self, before: int, packet: int, excess: int) -> bool:
        """Whether one of the steps lies between two packets, and may be why the later one comes too early by so many ns."""
        found = next((step for step in self.greatest if before < step.packet <= packet and 2 * step.ns >= excess), None)
        self.excused += found is not None
        self.first = self.first or found
        return found is not None
