"""Skew and latency between taps whose clocks move against each other: windows of a second, each with offsets of its own.

Where one constant offset fits all frames of two taps, it is the better one (`clock_offsets`). Clocks of their own drift by up to
100 ppm, so in a long capture no constant offset fits. Then each window is judged by what its frames show, and kept in some numbers.
"""
from afdx.reckon.captured_pairs import Pair, Way
from afdx.reckon.clock_offsets import ClockOffsets, Offset
from afdx.reckon.tap_limits import CLOCK_PPM
from afdx.reckon.taps import Tap

WINDOW_NS = 10**9
# As in `clock_offsets`, for each window.
MOST_CLOCKS = 40
# By how much two clocks may move against each other in a window.
MOST_MOVED_NS = 2 * CLOCK_PPM * WINDOW_NS // 10**6


class ClockWindows:
    """The windows of a capture. One ends for all taps when it has lasted for a second by the clock of one of them."""

    def __init__(self, taps: dict[str, Tap]) -> None:
        self.taps = taps
        # The pairs of taps that saw a frame in this window.
        self.touched: list[Pair] = []

    def pass_on(self, tap: Tap, moment: int) -> None:
        """Takes the time of a packet, which may begin a window."""
        if tap.window is None:
            tap.window = moment
        elif moment - tap.window >= WINDOW_NS:
            self.end()
            tap.window = moment

    def end(self) -> None:
        """Judges the frames of this window, and begins another one."""
        offsets = ClockOffsets()
        for pair in self.touched:
            if isinstance(pair, Way) and pair.ahead_in_window is not None:
                offsets.limit(pair.one.tap, pair.other.tap, pair.ahead_in_window)
        offsets.settle(MOST_CLOCKS)
        for pair in self.touched:
            pair.end_window(self.offset(offsets, pair))
        self.touched.clear()
        for tap in self.taps.values():
            tap.window, tap.steps_before = None, tap.steps_back

    def offset(self, offsets: ClockOffsets, pair: Pair) -> Offset | None:
        """The offset of two clocks in this window. Where no constant one fits, the clocks moved by what it lacks, and it may have been
        further off by as much. None where a clock ran back, no frames show the offset, or the clocks moved more than clocks do."""
        if any(self.taps[it.tap].steps_back != self.taps[it.tap].steps_before for it in (pair.one, pair.other)):
            return None
        least, most = offsets.of(pair.one.tap, pair.other.tap)
        if least is None or most is None or least - most > MOST_MOVED_NS:
            return None
        moved = max(0, least - most)
        return Offset(min(least, most) - moved, max(least, most) + moved)
