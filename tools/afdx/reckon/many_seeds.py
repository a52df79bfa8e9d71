"""What the regulators of a network do with the offers of many seeds, by numpy (Debian's python3-numpy) where it is there: a
thousand seeds of a thousand virtual links take seconds. Where it is not there each seed is drawn by itself, with the same answer.

Each offer waits until a BAG has gone by since the release before it. So the k-th release is the later of the k-th offer and
the release before it and a BAG, whichever sub-virtual link has its turn. This holds as long as no offer finds its queue full,
which is so where fewer wait than one queue holds; a seed in which that may be otherwise is drawn by itself.
"""
from bisect import bisect_right
from collections.abc import Callable, Sequence
from typing import Any, NamedTuple

from afdx.files import debian_modules
from afdx.model import Stream, VirtualLink


class SentOfAll(NamedTuple):
    """Of the runs of several seeds together: how many frames of a virtual link are offered, refused by its regulator, and wait
    there at the end; and the moments of all releases, rising. Of one run alone also the frames that were released, each with
    the moments when it was offered and released, in the order of their release."""

    offered: int
    refused: int
    waiting: int
    releases: Any
    one: list[tuple[int, int]] | None

    def released_after(self, moment: int) -> int:
        """How many frames are released later than a moment."""
        return len(self.releases) - bisect_right(self.releases, moment)


# With fewer seeds it does not pay.
ENOUGH = 16
# How many offers are drawn at once.
AT_ONCE = 2**21
NONE = 2**63 - 1


def library(seeds: Sequence[int]) -> Any:
    """The library, if it is installed and pays for this number of seeds; else None."""
    return debian_modules.found("numpy") if len(seeds) >= ENOUGH else None


def together(runs: list[Any]) -> SentOfAll:
    """What was sent in runs that were drawn one by one."""
    offered, refused, waiting = (sum(getattr(run, name) for run in runs) for name in ("offered", "refused", "waiting"))
    releases = sorted(moment for run in runs for _, moment in run.released)
    return SentOfAll(offered, refused, waiting, releases, runs[0].released if len(runs) == 1 else None)


# A run of a virtual link: the seed, and the virtual link with the offsets of this run.
OneRun = tuple[int, VirtualLink]


def sent_of_all(numpy: Any, runs: Sequence[OneRun], until_ns: int, sent_of_one: Callable[[int, VirtualLink], Any]) -> SentOfAll:
    """What the regulator of a virtual link does in these runs. `sent_of_one` draws a run by itself."""
    least = [min(vl.streams[i].offset_ns for _, vl in runs) for i in range(len(runs[0][1].streams))]
    count = sum(it.frames * max(0, (until_ns - first) // it.period_ns + 1) for it, first in zip(runs[0][1].streams, least))
    most = max(1, AT_ONCE // max(1, count))
    found = [sent_of_some(numpy, runs[i : i + most], until_ns, sent_of_one) for i in range(0, len(runs), most)]
    offered, refused, waiting = (sum(it) for it in list(zip(*found))[:3])
    return SentOfAll(offered, refused, waiting, numpy.sort(numpy.concatenate([it.releases for it in found])), None)


def sent_of_some(numpy: Any, runs: Sequence[OneRun], until_ns: int, sent_of_one: Callable[[int, VirtualLink], Any]) -> SentOfAll:
    """The same of the runs that are drawn at once; the releases in any order."""
    vl = runs[0][1]
    if any(it.sub_vl is not None and it.sub_vl >= vl.sub for it in vl.streams):
        sent = together([sent_of_one(*run) for run in runs])
        return sent._replace(releases=numpy.array(sent.releases, numpy.int64), one=None)
    of_each = [offers_of(numpy, [(seed, one.streams[i]) for seed, one in runs], until_ns) for i in range(len(vl.streams))]
    offers = of_each[0] if len(of_each) == 1 else numpy.concatenate(of_each, axis=1)
    offers.sort(axis=1)
    releases, is_full = offers.copy(), numpy.zeros(len(runs), bool)
    for k in range(1, offers.shape[1]):
        later = numpy.maximum(offers[:, k], releases[:, k - 1] + vl.bag_ns)
        releases[:, k] = numpy.where(offers[:, k] == NONE, NONE, later)
        if k >= vl.depth:
            is_full |= (offers[:, k] != NONE) & (releases[:, k - vl.depth] > offers[:, k])
    plain = together([sent_of_one(*run) for run, full in zip(runs, is_full) if full])
    offered, releases = int((offers[~is_full] != NONE).sum()), releases[~is_full]
    released = releases[releases <= until_ns]
    moments = numpy.concatenate([released, numpy.array(plain.releases, released.dtype)])
    return SentOfAll(offered + plain.offered, plain.refused, offered - released.size + plain.waiting, moments, None)


def offers_of(numpy: Any, runs: Sequence[tuple[int, Stream]], until_ns: int) -> Any:
    """The moments of the offers of a stream in each run, a seed and the stream with its offset, and NONE where there are less: drawn
    by PCG XSH RR 64/32, as tools/afdx/model/drawn_offers.py does."""
    stream, first = runs[0][1], numpy.array([it.offset_ns for _, it in runs], numpy.int64)
    last, period = stream.last_ns(until_ns), stream.period_ns
    count = max(0, (last - int(first.min())) // period + 1)
    found = numpy.full((len(runs), count), NONE, numpy.int64)
    word, one = numpy.uint64, numpy.uint64(1)
    by, increment, late = word(6364136223846793005), word(stream.number) << one | one, numpy.zeros(len(runs), numpy.int64)
    with numpy.errstate(over="ignore"):
        state = (numpy.array([seed for seed, _ in runs], word) + increment) * by + increment
        for k in range(count):
            shifted = ((state >> word(18) ^ state) >> word(27)) & word(0xFFFFFFFF)
            turn = state >> word(59)
            drawn = (shifted >> turn | shifted << (word(32) - turn)) & word(0xFFFFFFFF)
            due = first + k * period
            late = (drawn % word(stream.jitter_ns + 1)).astype(numpy.int64) + (late if stream.is_sporadic else 0)
            found[:, k] = numpy.where((due <= last) & (due + late <= last), due + late, NONE)
            state = state * by + increment
    return found if stream.frames == 1 else numpy.repeat(found, stream.frames, axis=1)
