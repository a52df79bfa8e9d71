"""For which limits a page and a campaign show the way of the worst frame, and that way with its limit, as rows of CSV too."""
import tomllib
from collections.abc import Iterable, Mapping, Sequence
from typing import Any, NamedTuple

from afdx.model import Network, Tables
from afdx.reckon.margins import BROKEN, Margin
from afdx.runs import late_frames
from afdx.runs.campaign_network import CampaignNetwork, ChangedNetwork
from afdx.runs.late_frames import Late

# Limits that are broken are shown up to the first number; where fewer are, the nearest ones up to the second.
MOST_BROKEN, NEAREST = 20, 5
# The runs are made again by one thread in Python: those that deliver up to this many frames together, in some seconds.
MOST_DELIVERED = 100_000
HEAD = "vl,destination,verdict,limit_ns,latency_ns,network,seed,run,step,at,came_ns,begins_ns,left_ns,waited_ns,behind"
# How the offsets of a run are called.
AS_DESCRIBED, DRAWN, AIMED = "as described", "drawn offsets", "aimed"


class Worst(NamedTuple):
    """The way of the worst frame of a destination with a limit: the verdict on it, the seed of the run, and its offsets."""

    margin: Margin
    late: Late
    seed: int
    run: str

    def rows(self) -> list[list[Any]]:
        """The regulator first, and then each port."""
        it, margin = self.late, self.margin
        own = [it.vl, it.where, margin.verdict(), margin.limit.ns, it.latency_ns(), it.network, self.seed, self.run]
        source = it.hops[0].line.split(">")[0]
        found = [[*own, 0, source, it.offered_ns, it.released_ns, it.released_ns, it.released_ns - it.offered_ns, ""]]
        for step, hop in enumerate(it.hops, 1):
            behind = " ".join(f"{one.vl}:{one.size}" for one in hop.ahead)
            found.append([*own, step, hop.line, hop.came_ns, hop.begins_ns, hop.left_ns, hop.begins_ns - hop.came_ns, behind])
        return found


def csv_text(found: Iterable[Worst]) -> str:
    return HEAD + "\n" + "".join(",".join(map(str, row)) + "\n" for it in found for row in it.rows())


def chosen(margins: Iterable[Margin]) -> list[Margin]:
    """The limits whose worst frames are shown, of those where frames came: those that are broken, the worst first, or else the nearest
    to what was measured."""
    came = [it for it in margins if it.greatest is not None]
    broken = [it for it in came if it.verdict() == BROKEN][:MOST_BROKEN]
    rest = sorted((it for it in came if it.verdict() != BROKEN), key=lambda it: it.limit.most_ns() - (it.greatest or 0))
    return broken + rest[: max(0, NEAREST - len(broken))]


def in_run(tree: Mapping[str, Any], held: Sequence[Margin], seed: int, run: str) -> list[Worst]:
    """The worst frames of some destinations in one run that is made again. Those that take another time there than the margins say are
    left out: of the two runs one is wrong."""
    found = late_frames.worst(tree, [(it.limit.vl, it.limit.where) for it in held])
    late = ((it, found.get((it.limit.vl, it.limit.where))) for it in held)
    return [Worst(it, way, seed, run) for it, way in late if way and way.latency_ns() == it.greatest]


class Ways(NamedTuple):
    """The ways of the worst frames of some limits, and of the limits that are shown: for how many there was no time, and how many frames
    took another time when the run was made again."""

    found: list[Worst]
    left_out: int
    other: int


def again(net: Network) -> CampaignNetwork:
    """The network as a campaign writes it anew, with the end of the runs that its tables have."""
    found = ChangedNetwork(net.description)
    found.write(net.description.tree | {"until_ns": net.until_ns})
    return found


def of_tables(tables: Tables, margins: Iterable[Margin], runs: int, draws_offsets: bool, has_time: bool) -> Ways:
    """The ways of the worst frames in the runs that tables are of, each by its seed. Runs that deliver many frames are made again only
    where there is time."""
    by_seed: dict[int, list[Margin]] = {}
    for it in chosen(margins):
        seed = tables.latencies[it.limit.vl, it.limit.where].seed
        by_seed.setdefault(tables.net.seed if seed is None else seed, []).append(it)
    net = None
    each = sum(row.count for row in tables.latencies.values()) // max(1, runs)
    ways, left_out, wanted, frames = [], 0, 0, 0
    for seed, held in by_seed.items():
        frames += each
        if frames > MOST_DELIVERED and not has_time:
            left_out += len(held)
            continue
        wanted += len(held)
        net = net or again(tables.net)
        tree = tomllib.loads(net.with_seed(seed, draws_offsets))
        ways += in_run(tree, held, seed, DRAWN if draws_offsets else AS_DESCRIBED)
    return Ways(ways, left_out, wanted - len(ways))
