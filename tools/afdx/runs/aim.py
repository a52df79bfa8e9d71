"""Offsets that let the frames of others meet those of a virtual link at each port of its way, just ahead of them: so it is
seen how near a run comes to a bound.

The frames of those that come by one line are set one behind the other, so that the last of them is there just before the
aimed one; those of several lines come to their ends together. Ports are taken in the order of the way, since what delays
the frame at one port says when it comes to the next. Then some offsets are moved here and there, and what makes the
frame later is kept. Other offsets may make it later still: what is found is reached, and no bound.
"""
import contextlib
import random
import tomllib
from collections.abc import Callable, Iterable, Iterator, Mapping, Sequence
from itertools import repeat
from typing import Any, NamedTuple

from afdx import files, model
from afdx.files import Fault
from afdx.files.page_text import us_text
from afdx.files.program import Maker
from afdx.reckon import margins, network_calculus, output_ports
from afdx.reckon.bounds_rows import BoundsRows
from afdx.reckon.limits import Limit
from afdx.reckon.margins import Margin
from afdx.runs import program_bounds, reading_processes, run_results, side_by_side, worst_frames
from afdx.runs.campaign_network import CampaignNetwork
from afdx.runs.plain_simulator import Frame, Simulation
from afdx.runs.side_by_side import Keep, Run, Runs, Shown

# How often an offset is moved to see whether the frame comes later, and how often all are set right again: with this number
# of frames that meet it, and with more of them less often.
MOVES, OF_FRAMES, ROUNDS = 200, 20, 6
# A virtual link and a destination, and the network besides.
Key = tuple[int, str]
Way = tuple[int, str, str]
# When a virtual link comes to a line's port, and to a node by each network.
Met = dict[tuple[int, str] | tuple[int, str, str], int]


class Meeting(Simulation):
    """A run that notes when the first frame of each virtual link comes to each line's port, and to nodes by each network."""

    def __init__(self, tree: Mapping[str, Any]) -> None:
        self.came: Met = {}
        super().__init__(tree)

    def put(self, t: int, p: int, q: int, frame: Frame, high: bool) -> None:
        self.came.setdefault((frame.vl, self.names[self.out[p, q]]), t)
        super().put(t, p, q, frame, high)

    def handle(self, t: int, p: int, variant: str, fields: tuple[Any, ...]) -> None:
        if variant == "Arrive":
            frame = fields[1]
            self.came.setdefault((frame.vl, self.names[p], frame.net), t)
        super().handle(t, p, variant, fields)


class Aim:
    """The way of a virtual link to a destination on a network, and who meets it where. Moments are those of first
    offers, which are at 0 for the aimed one until `offsets` moves all of them."""

    def __init__(self, net: model.Network, found: network_calculus.Bounds, vl: int, where: str, side: str) -> None:
        self.net, self.vl, self.where, self.side = net, net.vls[vl], where, side
        path = next(path for path in self.vl.paths[side] if path[-1] == where)
        self.lines = model.lines_of_path(path)
        ports = [found.ports[line] for line in self.lines]
        # For each of the others where it meets the way first, how long it takes to come there if nothing delays it, and by
        # which line it comes.
        self.meets: dict[int, tuple[int, int, output_ports.Port | None]] = {}
        for place, port in enumerate(ports):
            for hop in port.hops:
                other = hop.link.vl.id
                if other != vl and other not in self.meets:
                    self.meets[other] = place, hop.earliest(), hop.before.port if hop.before else None
        self.tree = self.of_these()
        # `due` has when each of the others is to be at the port where it meets the way.
        self.offers: dict[int, int] = {vl: 0}
        self.due: dict[int, int] = {}

    def of_these(self) -> dict[str, Any]:
        """What the description says, with the virtual links alone that meet, and of these the first frame of their own streams:
        what else is offered to their sources leaves a BAG later at the soonest."""
        tree = dict(self.net.description.tree)
        rows = [row for row in tree["vl"] if row["id"] == self.vl.id or row["id"] in self.meets]
        left_out = ("frames", "last_size", "timing", "end_ns")
        tree["vl"] = [
            {key: value for key, value in row.items() if key not in left_out} | {"size": self.net.vls[row["id"]].own.first_size} for row in rows
        ]
        tree["outage"], tree["stream"] = [], []
        return tree

    def met(self) -> Met:
        """When first frames come to ports and nodes, with the offers so far; none other is offered."""
        begin = -min(self.offers.values())
        rows = []
        for row in self.tree["vl"]:
            if row["id"] in self.offers:
                moment = self.offers[row["id"]] + begin
                rows.append(row | {"offset_ns": moment, "jitter_ns": 0, "period_ns": model.LATEST_NS})
        run = Meeting(self.tree | {"vl": rows, "until_ns": model.LATEST_NS})
        run.run()
        return {place: moment - begin for place, moment in run.came.items()}

    def arrival(self, met: Met | None = None) -> int:
        """How long after its offer the aimed frame is at the destination, or 0 where it is lost."""
        return (self.met() if met is None else met).get((self.vl.id, self.where, self.side), 0)

    def set_ahead(self) -> None:
        """Sets the others so that they meet the frame, port by port. Where they go behind it by their priority, they come
        before all that go ahead, so that one of them is being sent when these come."""
        for place, line in enumerate(self.lines):
            came = self.met().get((self.vl.id, line))
            if came is None:
                return
            meeting = [other for other, (where, _, _) in self.meets.items() if where == place]
            goes_behind = lambda other: place > 0 and self.vl.priority == "high" and self.net.vls[other].priority == "low"
            behind = self.set_group(came, 1, [other for other in meeting if not goes_behind(other)])
            self.set_group(came, behind + 1, [other for other in meeting if goes_behind(other)])

    def set_group(self, came: int, behind: int, others: list[int]) -> int:
        """Sets some of those that meet the frame at a port, of each line one behind the other, so that the last ones are
        there the given ns before it. Returns how many ns before it the first of them is there."""
        lines: dict[output_ports.Port | None, int] = {}
        first = behind
        # The longest frame comes last, so that most of it is still to be sent.
        for other in sorted(others, key=lambda it: (-self.net.vls[it].own.first_size, it)):
            _, earliest, up = self.meets[other]
            ahead = lines.get(up, behind)
            self.due[other] = came - ahead
            self.offers[other] = came - ahead - earliest
            first = max(first, ahead)
            if up is not None:
                lines[up] = ahead + (self.net.vls[other].own.first_size + model.BYTES_BETWEEN_FRAMES) * up.byte_ns
        return first

    def set_right(self) -> None:
        """The others delay each other on their own ways. So they are offered earlier by what they were late, or later,
        some times over; the offers by which the frame came latest are kept."""
        met = self.met()
        best, kept = self.arrival(met), dict(self.offers)
        for _ in range(ROUNDS):
            for other, due in self.due.items():
                came = met.get((other, self.lines[self.meets[other][0]]))
                if came is not None:
                    self.offers[other] += due - came
            met = self.met()
            if self.arrival(met) > best:
                best, kept = self.arrival(met), dict(self.offers)
        self.offers = kept

    def improve(self, moves: int) -> int:
        """Moves offers here and there, and keeps what makes the frame later."""
        draw, best = random.Random(f"{self.vl.id} {self.where} {self.side}"), self.arrival()
        others = sorted(self.meets)
        for _ in range(moves * OF_FRAMES // max(OF_FRAMES, len(others)) if others else 0):
            other = draw.choice(others)
            before = self.offers.get(other)
            frame = (self.net.vls[draw.choice(others)].own.first_size + model.BYTES_BETWEEN_FRAMES) * 80
            step = draw.choice([1, -1]) * draw.choice([1, 2, frame, frame, 2 * frame, 10 * frame, draw.randrange(1, 200_000)])
            self.offers[other] = (before or 0) + step
            reached = self.arrival()
            if reached >= best:
                best = reached
            elif before is None:
                del self.offers[other]
            else:
                self.offers[other] = before
        return best

    def offsets(self, seed: int) -> dict[int, int]:
        """The offset of each stream, so that the first offer of a virtual link is at its moment with the jitter that this seed
        draws. Those that do not meet, and further streams, are first offered when the aimed frame has arrived."""
        first: dict[int, int] = {}
        arrived = self.arrival()
        for vl in self.net.vls.values():
            first[vl.id] = self.offers[vl.id] - self.drawn(seed, vl) if vl.id in self.offers else arrived
            first |= {it.number: arrived for it in vl.streams[1:]}
        begin = -min(first.values())
        return {number: moment + begin for number, moment in first.items()}

    @staticmethod
    def drawn(seed: int, vl: model.VirtualLink) -> int:
        """The jitter of the first offer."""
        return next(model.words(seed, vl.id)) % (vl.own.jitter_ns + 1)

    def name(self) -> str:
        return f"virtual link {self.vl.id} at {self.where} by {self.side}"


def aimed(
    net: model.Network, vl: int, where: str, side: str, found: network_calculus.Bounds | None = None, moves: int = MOVES
) -> tuple[Aim, int]:
    """Who meets a virtual link on its way to a destination on a network, set so that it comes late, and how late it is."""
    aim = Aim(net, found or network_calculus.Bounds(net), vl, where, side)
    aim.set_ahead()
    aim.set_right()
    return aim, aim.improve(moves)


# ---- runs ----


class Line(NamedTuple):
    """What a line of the table has."""

    vl: int
    where: str
    network: str
    seed: int
    plain_ns: int
    aimed_ns: int
    frame_ns: int
    way_ns: int | None
    bound_ns: int | None
    wait_ns: int | None
    bound_by: str
    bound_ns_tool: int | None


HEAD = ",".join(Line._fields)
# Whom a run is aimed at, and how late the frame is.
Course = tuple[Aim, int]


class Search(reading_processes.Reckoner):
    """Looks for the offsets of aimed runs, several of them side by side in processes of their own."""

    def __init__(self, net: model.Network, found: network_calculus.Bounds, moves: int) -> None:
        self.net, self.bounds, self.moves = net, found, moves

    def answer(self, *way: Any) -> tuple[dict[int, int], int]:
        """The offers by which a frame on a way comes late, and how late it is."""
        vl, where, side = way
        aim, frame = aimed(self.net, vl, where, side, self.bounds, self.moves)
        return aim.offers, frame

    def courses(self, ways: Sequence[Way], jobs: int, report: Callable[[int], object]) -> list[Course]:
        """For each way whom the runs are aimed at and how late the frame is; `report` hears how many were found."""
        found: list[Course] = []
        with contextlib.closing(reading_processes.answers(self, ways, jobs)) as answers:
            for way, (offers, frame) in zip(ways, answers):
                aim = Aim(self.net, self.bounds, *way)
                aim.offers = offers
                found.append((aim, frame))
                report(len(found))
        return found


class AimedRuns:
    """The runs of a campaign that aims at destinations of virtual links, and what came of them: one for each of them, each
    network and each seed, beside that of the description with this seed. Limits are held against them."""

    def __init__(
        self, net: CampaignNetwork, wanted: Iterable[Key], seeds: Sequence[int], limits: Mapping[Key, Limit] | tuple[()] = (), moves: int = MOVES,
        printed: program_bounds.OfProgram | None = None,
    ) -> None:
        self.net, self.seeds = net, seeds
        self.limits: dict[Key, Limit] = dict(limits)
        self.bounds = network_calculus.Bounds(net)
        # The bounds with which runs are compared: those of the program where it prints them.
        self.deciding = BoundsRows(self.bounds, printed.proved, printed.contract) if printed else BoundsRows(self.bounds)
        self.ways = [
            (vl, where, side)
            for vl, where in sorted(wanted, key=self.bounds.order)
            for side in sorted(net.vls[vl].paths)
            if side in self.bounds.by_network.get((vl, where), {})
        ]
        self.search = Search(net, self.bounds, moves)
        self.courses: list[Course] = []
        self.lines: list[Line] = []
        self.done, self.status = 0, 0
        self.failure: str | None = None

    def count(self) -> int:
        return len(self.seeds) * (1 + len(self.ways))

    def aim(self, jobs: int, report: Callable[[int], object] = lambda done: None) -> None:
        """Looks for the offsets of all runs."""
        self.courses = self.search.courses(self.ways, jobs, report)

    def plan(self) -> Iterator[tuple[int, Course | None]]:
        """For each run its seed, and whom it is aimed at, or None."""
        for seed in self.seeds:
            yield seed, None
            for course in self.courses:
                yield seed, course

    def runs(self) -> Iterator[Run]:
        for seed, course in self.plan():
            if course is None:
                yield side_by_side.Run(f"seed {seed}", self.net.with_seed(seed, False))
            else:
                aim, frame = course
                offsets = aim.offsets(seed)
                arrives = offsets[aim.vl.id] + aim.drawn(seed, aim.vl) + frame
                if arrives > self.net.until_ns:
                    text = f"the run ends before the aimed frame arrives: until_ns must be {arrives} at the least"
                    raise Fault(self.net.path, self.net.description.line("top", None, "until_ns"), text)
                if offsets[aim.vl.id] > aim.vl.own.last_ns(self.net.until_ns):
                    text = f"the aimed frame would be due at {offsets[aim.vl.id]}: end_ns must be that at the least"
                    raise self.net.description.fault("vl", aim.vl.row, "end_ns", text)
                yield side_by_side.Run(f"aimed at {aim.name()}, seed {seed}", self.net.with_offsets(seed, offsets))

    def run(self, maker: Runs, keep: Keep, progress: Shown, jobs: int) -> None:
        """Has all runs made, and takes what they say. The first one that fails ends it."""
        progress.listen(maker)
        plain: dict[Key, int] = {}
        keys = run_results.keys_of(self.net)
        reader, jobs = run_results.Reader([self.net]), min(jobs, self.count())
        with reading_processes.beside(reader, maker, self.runs(), repeat(0), jobs) as results:
            try:
                for (seed, course), (_, run, printed, result) in zip(self.plan(), results):
                    greatest = dict(zip(keys, result.greatest))
                    if course is None:
                        plain, name = greatest, f"seed-{seed}"
                    else:
                        name = f"aimed-{1 + self.courses.index(course)}-seed-{seed}"
                        self.lines.append(self.line(seed, *course, plain, greatest))
                    keep(name, run.text, printed.tables)
                    self.done += 1
                    progress.update(self.done, None)
            except side_by_side.Failure as failure:
                self.status, self.failure = 1, str(failure)
            except Fault as fault:
                self.status, self.failure = files.BAD, str(fault)
            except files.ENDS as ended:
                self.status, said = files.why(ended)
                self.failure = f"{said}, after {self.done} of {self.count()} runs"
            finally:
                progress.end()

    def line(self, seed: int, aim: Aim, frame: int, plain: dict[Key, int], aimed: dict[Key, int]) -> Line:
        """What a line of the table has, by the greatest latencies of two runs."""
        key = aim.vl.id, aim.where
        way, of = self.bounds.by_network[key][aim.side].longest, self.deciding
        found = *key, aim.side, seed, plain[key], aimed[key], frame, way
        return Line(*found, of.bound(*key), of.wait(*key), of.bound_by(*key), self.bounds.bound(*key))

    def tried(self) -> dict[Key, Limit]:
        """The limits at whose destinations a run was aimed, by virtual link and destination."""
        return {it[:2]: self.limits[it[:2]] for it in self.lines if it[:2] in self.limits}

    def broken(self) -> list[tuple[Limit, int, Line]]:
        """The limits that a run breaks: each with the line whose latency is the greatest there, in their order."""
        worst: dict[Key, tuple[int, Line]] = {}
        for it in self.lines:
            key, latency = it[:2], max(it.plain_ns, it.aimed_ns)
            if key in self.limits and latency > self.limits[key].most_ns() and latency > worst.get(key, (0, None))[0]:
                worst[key] = latency, it
        return [(self.limits[key], *worst[key]) for key in sorted(worst, key=lambda it: self.limits[it].line)]

    def above(self) -> list[Line]:
        """The lines whose latency is above a bound: one of the two is wrong."""
        is_above = lambda found, *bounds: any(bound is not None and found > bound for bound in bounds)
        latency = lambda it: max(it.plain_ns, it.aimed_ns)
        return [it for it in self.lines if is_above(latency(it), it.bound_ns, it.bound_ns_tool) or is_above(it.frame_ns, it.way_ns)]

    def margins(self) -> list[margins.Margin]:
        """The margins of the limits that were tried, by the worst run and by the bounds."""
        worst: dict[Key, int] = {}
        for it in self.lines:
            worst[it[:2]] = max(it.plain_ns, it.aimed_ns, worst.get(it[:2], 0))
        latencies = {key: model.Latency(*key, 1, ns, ns, ns, None, 0) for key, ns in worst.items()}
        return margins.margins_of(self.tried(), self.net, latencies, self.deciding)

    def ways_of_worst(self) -> worst_frames.Ways:
        """The ways of the worst frames of limits that are broken or nearest, each in the run that found it."""
        worst: dict[Key, Line] = {}
        for it in self.lines:
            if it[:2] not in worst or max(it.plain_ns, it.aimed_ns) > max(worst[it[:2]].plain_ns, worst[it[:2]].aimed_ns):
                worst[it[:2]] = it
        held = worst_frames.chosen(self.margins())
        found = [way for it in held for way in self.way_of_worst(it, worst[it.limit.vl, it.limit.where])]
        return worst_frames.Ways(found, 0, len(held) - len(found))

    def way_of_worst(self, margin: Margin, line: Line) -> list[worst_frames.Worst]:
        """The way of the worst frame of a limit, in the run of a line of the table."""
        if line.aimed_ns < line.plain_ns:
            text, run = self.net.with_seed(line.seed, False), worst_frames.AS_DESCRIBED
        else:
            aim = next(aim for aim, _ in self.courses if (aim.vl.id, aim.where, aim.side) == line[:3])
            text, run = self.net.with_offsets(line.seed, aim.offsets(line.seed)), f"{worst_frames.AIMED} by network {line.network}"
        return worst_frames.in_run(tomllib.loads(text), [margin], line.seed, run)

    def table(self, maker: Maker) -> str:
        """The table; its last column names the program."""
        return "\n".join([HEAD + ",program", *(",".join([*map(network_calculus.said, it), maker.cell()]) for it in self.lines)]) + "\n"

    def long_rows(self) -> Iterator[tuple[Any, ...]]:
        for it in self.lines:
            for measure in HEAD.split(",")[4:]:
                if type(getattr(it, measure)) is int:
                    yield "aim", it.vl, it.where, measure, getattr(it, measure), {"network": it.network, "seed": it.seed}

    def in_words(self) -> Iterator[str]:
        """For each destination the greatest latency with offsets and without, beside its bound."""
        found: dict[Key, list[Line]] = {}
        for it in self.lines:
            found.setdefault((it.vl, it.where), []).append(it)
        for (vl, where), ones in found.items():
            best = max(ones, key=lambda it: it.frame_ns)
            latency = max(it.aimed_ns for it in ones)
            by = f"{us_text(best.bound_ns or 0)} by {margins.IN_WORDS.get(best.bound_by)}"
            of = f"{latency * 100 / best.bound_ns:.1f} percent of its bound, {by}" if best.bound_ns else "it has no bound"
            way = f"{us_text(best.frame_ns)} of {us_text(best.way_ns)}" if best.way_ns else us_text(best.frame_ns)
            plain = max(it.plain_ns for it in ones)
            yield f"virtual link {vl} at {where}: {us_text(latency)}, {of}; from the release on {way}; as described {us_text(plain)}"
