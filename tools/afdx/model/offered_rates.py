"""How much the streams of a virtual link offer in the long run, and how much of it goes through the regulator."""
from collections.abc import Iterable
from fractions import Fraction

from afdx.model.drawn_offers import Stream
from afdx.model.network_parts import VirtualLink

# Rates of several streams are sums of whole numbers of this part, cut: a sum of fractions whose periods have nothing in common
# would have as many digits as all of them together.
PART = 10**30 * 3**4 * 7 * 11 * 13


def rate(amounts: Iterable[tuple[int, int]]) -> Fraction:
    """The sum of amounts, each in a time in ns."""
    pairs = list(amounts)
    if len(pairs) == 1:
        return Fraction(*pairs[0])
    return Fraction(sum(amount * PART // time for amount, time in pairs), PART)


def greatest(streams: Iterable[tuple[Stream, int]]) -> Fraction:
    """The greatest sum of the rates of streams that offer at the same time: each with its amount in a period. A stream that ends
    before it begins offers nothing."""
    parts = [(it, amount) for it, amount in streams if it.end_ns is None or it.end_ns >= it.offset_ns]
    if not parts:
        return Fraction(0)
    if len(parts) == 1 or all(it.end_ns is None for it, _ in parts):
        return rate((amount, it.period_ns) for it, amount in parts)
    changes: list[tuple[int, int, int]] = []
    for it, amount in parts:
        part = amount * PART // it.period_ns
        changes.append((it.offset_ns, 1, part))
        changes += [(it.end_ns, 0, -part)] if it.end_ns is not None else []
    most = now = 0
    for _, _, part in sorted(changes):
        now += part
        most = max(most, now)
    return Fraction(most, PART)


def frames_in_a_bag(vl: VirtualLink) -> Fraction:
    """How many frames are offered in a BAG at most, in the long run. Where it is above 1, the regulator falls behind."""
    return greatest((it, it.frames * vl.bag_ns) for it in vl.streams)


def bytes_by_ns(vl: VirtualLink, more: int) -> Fraction:
    """How many bytes leave the source in each ns, with so many more for each frame: what is offered, or of that one frame in
    each BAG, where more are offered."""
    offered = greatest((it, it.bytes_of_burst(more)) for it in vl.streams)
    return offered / max(Fraction(1), frames_in_a_bag(vl))
