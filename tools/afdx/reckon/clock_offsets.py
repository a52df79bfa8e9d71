"""By how much the clocks of taps differ, as far as frames show it that pass two of them.

A frame takes at least what the model allows, so the clock of the later tap is ahead by at most what the frame seems to take less that
least. Frames in the other direction limit it from below. With both the offset lies between two numbers; with one it is not known.
It is taken to stay as it is while the capture lasts.
"""
from collections.abc import Iterable
from typing import NamedTuple

Clock = str
# Among more clocks than these limits are not carried on: the time grows with the third power of their number.
MOST_CLOCKS = 200


class Offset(NamedTuple):
    """By how many ns a clock is ahead of another: at least and at most; None where no frame shows it."""

    least: int | None
    most: int | None

    def is_known(self) -> bool:
        return self.least is not None and self.most is not None

    def moves(self, slack: int) -> bool:
        """Whether no constant offset fits what was seen."""
        return self.least is not None and self.most is not None and self.least > self.most + slack


class ClockOffsets:
    """What is known of the clocks of some taps. If all have one clock, all offsets are 0."""

    def __init__(self, has_one_clock: bool = False) -> None:
        self.has_one_clock = has_one_clock
        self.ahead: dict[tuple[Clock, Clock], int] = {}

    def limit(self, one: Clock, other: Clock, most: int) -> None:
        """The clock of the other is ahead by at most so much."""
        before = self.ahead.get((one, other))
        self.ahead[one, other] = most if before is None else min(before, most)

    def settle(self, most: int = MOST_CLOCKS) -> None:
        """Carries limits on over clocks between: Floyd and Warshall's shortest ways, among the clocks that may be limited both ways. If
        these are more than `most`, only frames that pass both clocks limit them."""
        core = self.core()
        if len(core) > most:
            return
        limits: dict[Clock, dict[Clock, int]] = {clock: {} for clock in core}
        for (one, other), ns in self.ahead.items():
            if one in limits and other in limits:
                limits[one][other] = ns
        for middle in core:
            onward = limits[middle]
            for one in core:
                own, first = limits[one], limits[one].get(middle)
                for other, second in onward.items() if first is not None else ():
                    if first is not None and other != one and first + second < own.get(other, first + second + 1):
                        own[other] = first + second
        for one, found in limits.items():
            for other, ns in found.items():
                self.limit(one, other, ns)

    def core(self) -> list[Clock]:
        """The clocks without those that frames only leave or only come to, again and again: no other one is limited both ways."""
        pairs = set(self.ahead)
        while True:
            kept = {one for one, _ in pairs} & {other for _, other in pairs}
            left = {pair for pair in pairs if kept.issuperset(pair)}
            if left == pairs:
                return sorted(kept)
            pairs = left

    def of(self, one: Clock, other: Clock) -> Offset:
        """By how much the clock of the other is ahead of that of the one."""
        if one == other or self.has_one_clock:
            return Offset(0, 0)
        back = self.ahead.get((other, one))
        return Offset(None if back is None else -back, self.ahead.get((one, other)))

    def clocks(self) -> Iterable[Clock]:
        return sorted({clock for pair in self.ahead for clock in pair})
