"""The verdicts on what the taps of a capture saw."""
from collections.abc import Iterator

from afdx.reckon.capture_judge import CaptureJudge
from afdx.reckon.capture_rows import ALLOWED, BROKEN, KEPT, UNKNOWN, Row
from afdx.reckon.captured_links import CapturedLink
from afdx.reckon.captured_pairs import Copies, Way
from afdx.reckon.lost_frames import verdict_of_losses
from afdx.reckon.pair_verdicts import NO_BOUND, latency, skew
from afdx.reckon.sequence_numbers import LOST, REPEATED, TROUBLES
from afdx.reckon.taps import Stray


def rows_of(judge: CaptureJudge) -> list[Row]:
    """The rows of a capture that was read, the worst verdicts first."""
    found, told = [*strays(judge)], set[CapturedLink]()
    for row, links in of_other_network(judge):
        found.append(row)
        told |= links
    for link in judge.links:
        found += [length(link), *spacing(judge, link), *(() if link in told else sequence(judge, link))]
    offsets = judge.offsets()
    for pair in judge.pairs:
        offset = offsets.of(pair.one.tap, pair.other.tap)
        if pair.count and isinstance(pair, Copies):
            found.append(skew(judge, pair, offset))
        elif pair.count and isinstance(pair, Way):
            found.append(latency(judge, pair, offset))
    for tap, line, vl in judge.silent():
        why = "no frame came while the capture lasted"
        found.append(Row("silent", vl, judge.network_of(line) or "", tap.name, line, 0, 0, None, None, UNKNOWN, None, why))
    return sorted(found, key=Row.rank)


def strays(judge: CaptureJudge) -> Iterator[Row]:
    """Frames that should not be at a tap."""
    for tap in judge.taps.values():
        where = ",".join(tap.place.lines) if tap.place else ""
        for (vl, net), it in tap.of.items():
            if isinstance(it, Stray) and it.what:
                yield Row(it.what, vl, net, tap.name, where, it.count, it.count, it.greatest, None, BROKEN, it.first)


def of_other_network(judge: CaptureJudge) -> Iterator[tuple[Row, set[CapturedLink]]]:
    """Frames that came to an end system by one network and name the other: their numbers lack at the one and come twice at the other. Each
    with the taps of which that is all that their numbers show."""
    for tap in judge.taps.values():
        for (vl, net), one in tap.of.items():
            other = tap.of.get((vl, "B" if net == "A" else "A"))
            if isinstance(one, Stray) or other is None or isinstance(other, Stray):
                continue
            moved = one.numbers.lost & other.numbers.repeated
            if not moved:
                continue
            count, twice = moved.total(), other.numbers
            why = f"numbers that lack on network {net} come twice on {other.net}: a frame of network {net} that names {other.net} looks so"
            found = Row("wrong network", vl, other.net, tap.name, other.line, other.lengths.count, count, None, None, BROKEN, twice.first[REPEATED], why)
            is_all = +one.numbers.lost == +twice.repeated and not any(one.numbers.counts.get(it) for it in TROUBLES if it != LOST)
            is_all = is_all and not any(twice.counts.get(it) for it in TROUBLES if it != REPEATED)
            yield found, {one, other} if is_all else set()


def row(what: str, link: CapturedLink, frames: int, broken: int, value: int | None, allowed: int | None, verdict: str, packet: int | None, why: str = "") -> Row:
    return Row(what, link.vl.id, link.net, link.tap, link.line, frames, broken, value, allowed, verdict, packet, why)


def length(link: CapturedLink) -> Row:
    it, vl = link.lengths, link.vl
    verdict, why = BROKEN if it.broken else KEPT, ""
    if it.broken and it.value == vl.sizes[-1]:
        verdict, why = ALLOWED, "NET has frames of this length, which switches drop"
    elif not it.broken and it.value is not None and it.value > vl.sizes[-1]:
        why = f"NET has frames of at most {vl.sizes[-1]} bytes: its bounds are not of these"
    return row("length", link, it.count, it.broken, it.value, vl.smax, verdict, it.packet, why)


def spacing(judge: CaptureJudge, link: CapturedLink) -> Iterator[Row]:
    it, tap = link.closeness, judge.taps[link.tap]
    if not it.count:
        return
    verdict, why = BROKEN if it.broken else KEPT, ""
    if link.allowed_ns is None:
        verdict, why = UNKNOWN, NO_BOUND
    elif it.value is not None and it.broken and tap.is_excused(it.value - link.allowed_ns):
        verdict, why = UNKNOWN, f"the clock of {link.tap} runs back too often and too far"
    yield row("spacing", link, it.count, it.broken if verdict == BROKEN else 0, it.value, link.allowed_ns, verdict, it.packet, why)


def sequence(judge: CaptureJudge, link: CapturedLink) -> Iterator[Row]:
    frames, numbers = link.lengths.count, link.numbers
    found = [(what, numbers.counts[what], numbers.first[what]) for what in TROUBLES if numbers.counts.get(what)]
    for what, count, packet in found:
        verdict, why = verdict_of_losses(judge, link) if what == LOST else (BROKEN, "")
        yield row(what, link, frames, count, count, 0, verdict, packet, why)
    if not found and link.without_number:
        yield row("sequence", link, frames, 0, None, None, UNKNOWN, None, f"the capture lacks the last byte of {link.without_number:,} frames")
    elif not found:
        yield row("sequence", link, frames, 0, 0, 0, KEPT, None)
