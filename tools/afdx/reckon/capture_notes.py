"""What is said of a capture besides verdicts: what was not judged and why, with what to do, and what the frames of a source mean."""
from collections.abc import Iterable, Iterator

from afdx.files import printable
from afdx.files.page_text import counted
from afdx.reckon.capture_judge import MOST_NAMES, CaptureJudge
from afdx.reckon.capture_rows import ALLOWED, BROKEN, KEPT, UNKNOWN, Row
from afdx.reckon.clock_steps import MOST_STEPS
from afdx.reckon.taps import Tap

# The parts of the premise of the bounds: of all frames of a source these hold.
PREMISE = ("length", "spacing")


def notes(judge: CaptureJudge, rows: list[Row]) -> Iterator[str]:
    """A line for each."""
    if judge.capture.cut:
        yield f"{printable(judge.capture.path)} {judge.capture.cut}"
    for tap in judge.taps.values():
        yield from of_tap(judge, tap)
    for line, names in judge.tapping.items():
        if len(names) > 1:
            yield f"{' and '.join(names)} tap {line}: each is judged by itself, and {names[0]} alone is compared with other taps. Name another place by --tap"
    yield from of_steps(judge)
    yield from of_pairs(judge)
    yield from premises(judge, rows)


def of_tap(judge: CaptureJudge, tap: Tap) -> Iterator[str]:
    if tap.place is None and tap.frames:
        node = judge.net.nodes.get(tap.name)
        what = "is a switch, and no tap" if node else "is not in NET, and --tap does not name it"
        example = next((line for line in judge.users if line.endswith(">" + tap.name)), next(iter(judge.users), "SW1>ES2"))
        yield f'{tap.name} {what}: its {tap.frames:,} frames are not judged. --tap {tap.name}="{example}" names a link and its direction'
    if tap.of_no_network:
        yield f"{tap.name} has {tap.of_no_network:,} frames that name no network: they are not judged"
    if tap.without_time:
        yield f"{tap.name} has {tap.without_time:,} packets without a time: their spacing, skew and latency are not judged"
    if tap.overlaps_at:
        text = f"the sections of {tap.name} overlap in time, first at packet {tap.overlaps_at}: its numbers and spacing are judged anew behind each"
        yield f"{text}. Judge each section by itself, or give interfaces of their own names"
    if tap.steps_back:
        times = "once" if tap.steps_back == 1 else f"{tap.steps_back:,} times"
        text = f"the clock of {tap.name} runs back {times}, by at most {tap.furthest_back} ns, first at packet {tap.first_back}"
        yield f"{text}: {what_is_judged(tap)}. reordercap sorts packets that are not in order"


def what_is_judged(tap: Tap) -> str:
    """What is judged at a tap whose clock runs back."""
    if tap.steps_back > MOST_STEPS:
        return f"a frame that is too close by up to {3 * tap.furthest_back} ns is not judged, nor skew and latency in those seconds"
    return "spacing is judged anew behind it, and skew and latency in the other seconds"


def of_steps(judge: CaptureJudge) -> Iterator[str]:
    """Of steps back that only packets of several taps show."""
    if step := judge.steps.first:
        text = f"the times of the capture run back by {step.ns} ns at packet {step.packet}, a packet of another tap than the one before it"
        yield f"{text}: {counted(judge.steps.excused, 'frame')} too close over such a step have no verdict. reordercap sorts packets that are not in order"


def of_pairs(judge: CaptureJudge) -> Iterator[str]:
    """Of taps that one virtual link passes, and which have no frame in common."""
    found: dict[tuple[str, str], list[bool]] = {}
    for pair in judge.pairs:
        if pair.one.tap != pair.other.tap and pair.one.newest and pair.other.newest:
            found.setdefault((pair.one.tap, pair.other.tap), []).append(bool(pair.count))
    apart = [names for names, seen in found.items() if not any(seen)]
    if apart:
        one, other = (judge.taps[name] for name in apart[0])
        more = f", and of {len(apart) - 1:,} more pairs of taps" if len(apart) > 1 else ""
        text = f"no frame of {one.name} is known again at {other.name}{more}, so their skew and latency are not judged"
        if one.last_packet < other.first_packet or other.last_packet < one.first_packet:
            yield f"{text}: their packets follow one another in {printable(judge.capture.path)}. mergecap without -a merges by time"
        else:
            yield f"{text}: their clocks are too far apart. editcap -t moves the times of a file"


def premises(judge: CaptureJudge, rows: Iterable[Row]) -> Iterator[str]:
    """Of each line by which a source sends, whether its frames are as the bounds presume."""
    verdicts: dict[str, set[str]] = {}
    for row in rows:
        if row.where in judge.limits.transmit.allowed and row.what in PREMISE:
            is_other = row.what == "length" and row.verdict == KEPT and row.why
            verdicts.setdefault(row.where, set()).add(UNKNOWN if is_other else row.verdict)
    stray = {row.where for row in rows if row.what in ("unknown", "wrong way", "wrong network")}
    kept = [line for line, found in verdicts.items() if found == {KEPT} and line not in stray]
    if kept:
        names = ", ".join(kept[:MOST_NAMES]) + (f" and {len(kept) - MOST_NAMES:,} more" if len(kept) > MOST_NAMES else "")
        yield f"the frames of the sources on {names} keep BAG, Smax and transmit jitter: this is the premise of the bounds"


def summary(judge: CaptureJudge, rows: list[Row]) -> str:
    """What was read, and how many rows have which verdict."""
    taps = [tap for tap in judge.taps.values() if tap.place]
    links = {it.vl.id for it in judge.links}
    frames = sum(it.lengths.count for it in judge.links)
    others = sum(tap.others for tap in judge.taps.values())
    counts = ", ".join(f"{sum(row.verdict == verdict for row in rows):,} {verdict}" for verdict in (BROKEN, UNKNOWN, ALLOWED, KEPT))
    return f"{frames:,} frames of {len(links):,} virtual links at {len(taps)} taps, {others:,} packets that are no AFDX: {counts}"
