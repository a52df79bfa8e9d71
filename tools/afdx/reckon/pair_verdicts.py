"""The verdicts on what two taps saw of the same frames: skew and latency, as far as their clocks can be compared."""
from typing import NamedTuple

from afdx.reckon.capture_judge import CaptureJudge
from afdx.reckon.capture_rows import ALLOWED, BROKEN, KEPT, UNKNOWN, Row
from afdx.reckon.captured_pairs import Copies, Pair, Way
from afdx.reckon.clock_offsets import Offset

NOT_COMPARABLE = "the clocks of {} and {} cannot be compared: no frames pass both taps in both directions. --one-clock, if they have one"
NO_BOUND = "afdx bounds has no bound of it"


class Found(NamedTuple):
    """Of the frames that two taps saw: how many were judged, and how many break what is allowed; the worst value, the packet that shows
    it, the verdict, and why."""

    frames: int
    broken: int
    value: int | None
    packet: int | None
    verdict: str
    why: str


def verdict_of(least: int, most: int, allowed: int) -> str:
    """Of a worst value between two numbers."""
    return BROKEN if least > allowed else KEPT if most <= allowed else UNKNOWN


def why_no_offset(judge: CaptureJudge, pair: Pair, offset: Offset) -> str:
    """Why no constant offset of two clocks is known; nothing where one is."""
    for name in (pair.one.tap, pair.other.tap):
        if judge.taps[name].steps_back:
            return f"the clock of {name} runs back"
    if offset.moves(judge.slack(pair.one, pair.other)):
        return f"the clocks of {pair.one.tap} and {pair.other.tap} move apart: no constant offset fits all frames"
    return "" if offset.is_known() else NOT_COMPARABLE.format(pair.one.tap, pair.other.tap)


def assumed(pair: Pair, offset: Offset, how_long: str) -> str:
    """What a verdict of two clocks takes for granted."""
    if offset == Offset(0, 0):
        return ""
    return f"the clock of {pair.other.tap} is ahead of that of {pair.one.tap} by {offset.least} to {offset.most} ns, {how_long}"


def found(judge: CaptureJudge, pair: Pair, offset: Offset) -> Found:
    """By the whole capture, where one offset of the clocks fits it, else by its windows."""
    assert pair.least and pair.most
    why = why_no_offset(judge, pair, offset)
    if why:
        return by_windows(pair, offset, why)
    if pair.has_one_clock and isinstance(pair, Way) and pair.least.ns < 0:
        why = f"frames come to {pair.other.tap} before they come to {pair.one.tap}, so these have not one clock"
        return Found(pair.count, 0, None, pair.least.packet, UNKNOWN, why)
    least, most = pair.between(pair.least, pair.most, offset)
    if pair.allowed is None:
        return Found(pair.count, 0, most.ns, most.packet, UNKNOWN, NO_BOUND)
    verdict = verdict_of(least.ns, most.ns, pair.allowed)
    shown = least if verdict == BROKEN else most
    return Found(pair.count, pair.broken or int(verdict == BROKEN), shown.ns, shown.packet, verdict, assumed(pair, offset, "always"))


def by_windows(pair: Pair, offset: Offset, why: str) -> Found:
    """By the windows in which the clocks can be compared, if there are any."""
    windows = pair.windows
    if windows.worst is not None and windows.offset is not None:
        says = assumed(pair, windows.offset, "in windows of a second")
        says += f"; of {windows.others:,} more frames it is not known" if windows.others else ""
        verdict = BROKEN if windows.broken else KEPT
        return Found(windows.judged, windows.broken, windows.worst.ns, windows.worst.packet, verdict, says)
    if isinstance(pair, Way) and pair.most and offset.most is not None and (offset.least is None or offset.least <= offset.most):
        says = f"assumed that the fastest frame took the least that the model allows; {why}"
        return Found(pair.count, 0, pair.most.ns - offset.most, pair.most.packet, UNKNOWN, says)
    return Found(pair.count, 0, None, None, UNKNOWN, why)


def skew(judge: CaptureJudge, pair: Copies, offset: Offset) -> Row:
    """The longest time between the copies of a frame."""
    vl, it = pair.one.vl, found(judge, pair, offset)
    verdict, why = it.verdict, it.why
    bound = judge.limits.skew(vl, pair.where)
    if verdict == BROKEN and (bound is None or bound > vl.skew_ns):
        verdict, why = ALLOWED, "by the bounds copies may be further apart than SkewMax"
    return Row("skew", vl.id, "AB", taps_of(pair), pair.where, it.frames, it.broken, it.value, pair.allowed, verdict, it.packet, why)


def latency(judge: CaptureJudge, pair: Way, offset: Offset) -> Row:
    """The longest time from one tap to a later one."""
    it, link = found(judge, pair, offset), pair.one
    where = f"{link.line} {pair.other.line}"
    return Row("latency", link.vl.id, link.net, taps_of(pair), where, it.frames, it.broken, it.value, pair.allowed, it.verdict, it.packet, it.why)


def taps_of(pair: Pair) -> str:
    """The tap of a pair, or both."""
    return " ".join(dict.fromkeys((pair.one.tap, pair.other.tap)))
