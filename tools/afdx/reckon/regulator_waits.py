"""The longest wait in the regulator of a virtual link to which several streams offer bursts."""
from collections.abc import Sequence
from fractions import Fraction

from afdx.model import LATEST_NS, Stream

# With more streams than this a sum of rates is rounded up: exact fractions would have as many digits as all periods together.
MOST_EXACT = 16
PART = 10**30
# At more moments than this what is offered is not looked at one by one.
MOST_MOMENTS = 2000


def jitter_of(stream: Stream) -> int:
    """By how much bursts may come closer than a period. Those of a sporadic stream never do."""
    return 0 if stream.is_sporadic else stream.jitter_ns


def rate(streams: Sequence[Stream], bag_ns: int) -> Fraction:
    """How many frames are offered in a BAG at most, in the long run, or a little more than that."""
    if len(streams) <= MOST_EXACT:
        return sum((Fraction(it.frames * bag_ns, it.period_ns) for it in streams), Fraction(0))
    return Fraction(sum(-(-it.frames * bag_ns * PART // it.period_ns) for it in streams), PART)


def longest(streams: Sequence[Stream], bag_ns: int) -> int:
    """The longest wait of a frame that comes to the one queue of a regulator, in ns: the longest time in which frames that came in
    t ns leave, a BAG each, less these t ns and the BAG of the frame itself. LATEST_NS where it has no end.

    In t ns a stream offers at most floor((t + jitter) / period) + 1 bursts, which is at most 1 + (t + jitter) / period."""
    falls_behind = rate(streams, bag_ns)
    if falls_behind > 1:
        return LATEST_NS
    linear = sum(it.frames * bag_ns - (-it.frames * bag_ns * jitter_of(it) // it.period_ns) for it in streams)
    if falls_behind == 1:
        return linear - bag_ns
    moments = changes(streams, int((linear + bag_ns) / (1 - falls_behind)) + 1)
    if moments is None:
        return linear - bag_ns
    come = lambda t: sum(it.frames * ((jitter_of(it) + t) // it.period_ns + 1) for it in streams)
    return min(linear, max(come(t) * bag_ns - t for t in moments)) - bag_ns


def changes(streams: Sequence[Stream], last: int) -> set[int] | None:
    """The moments until `last` at which one more burst may have come, or None where there are too many of them."""
    count = sum((last + jitter_of(it)) // it.period_ns for it in streams)
    if count > MOST_MOMENTS or count * len(streams) > MOST_MOMENTS * MOST_EXACT:
        return None
    found = {0}
    for it in streams:
        jitter = jitter_of(it)
        found.update(k * it.period_ns - jitter for k in range(jitter // it.period_ns + 1, (last + jitter) // it.period_ns + 1))
    return found
