#!/usr/bin/env python3
"""Draws small networks, runs each with several seeds and offsets, and compares the runs with the bounds of afdx bounds: no
latency may be above its bound, and at no output port may more bytes wait than its bound. The same holds on the way: for
the wait in a regulator, the delay of a hop, the jitter at a switch, the time on each network, and the skew.

The drawn networks come near to the bounds: short BAGs, lines of both speeds that have little time left or none,
both priorities, sub-virtual links, rings of switches, accounts that refuse, regulators that overflow, small ports,
outages. Of the runs of a network the first offers all at once; some are aimed at an output port, so that all frames come
there at one moment if nothing delays them; others have offsets on few moments, and the rest has them anywhere in the
periods.

With --program the bounds of latencies and ports that the program prints (`afdxsim bounds`) are compared with the same runs.

The numbers of the network and of the run alone determine what is drawn, so a run can be made again. afdx second-opinion
makes the runs, since it also measures what waits.
"""
import argparse
import os
import random
import sys
from collections.abc import Callable, Sequence
from typing import Any

from afdx import files, model
from afdx.reckon import network_calculus, proved_bounds
from afdx.runs import program_bounds
from afdx.runs.measured_hops import Measured

EXAMPLES = """
examples:
  afdx bounded-runs
        500 networks, ten runs of each
  afdx bounded-runs --networks 1 --first 417 --keep runs
        the runs of network 417 once more; the folder runs has the description of each, for afdx bounds, afdx
        second-opinion and afdxsim

It prints a line for each latency, port, hop, .. that is above its bound. At the end it prints how many there were of each,
and how near the greatest latencies came to their bounds.

status:
  0  nothing was above its bound
  1  something was
  2  a word is wrong, or a file cannot be written
"""

MS = 10**6

# A row of a description, or all of one.
Row = dict[str, Any]


class Drawn:
    """The network of a number, as the rows of its description."""

    def __init__(self, number: int, has_streams: bool = False) -> None:
        self.number = number
        self.draw = draw = random.Random(number)
        self.until = draw.randint(3, 12) * MS
        self.switches = draw.randint(1, 5)
        is_ring = draw.random() < 0.5
        # In some rings all goes round one way, so that what a line delays comes back to it.
        self.goes_round = is_ring and draw.random() < 0.5
        self.beside: dict[int, list[int]] = {i: [] for i in range(self.switches)}
        for i in range(1, self.switches):
            self.join(i - 1 if is_ring else draw.randrange(i), i)
        if is_ring and self.switches > 2:
            self.join(self.switches - 1, 0)
        self.homes = [draw.randrange(self.switches) for _ in range(draw.randint(2, 7))]
        self.nodes, self.links = self.nodes_drawn(), self.links_drawn()
        self.vls = [self.virtual_link(i + 1) for i in range(draw.choice([3, 8, 16, 30]))]
        if draw.random() < 0.6:
            self.vls = self.fitting(self.vls)
        self.outages = [self.outage() for _ in range(draw.choice([0, 0, 0, 0, 1, 2]))]
        self.streams: list[Row] = []
        if has_streams:
            self.add_streams(random.Random(f"{number} streams"))

    def join(self, one: int, other: int) -> None:
        self.beside[one].append(other)
        self.beside[other].append(one)

    def nodes_drawn(self) -> list[Row]:
        draw, rows = self.draw, []
        port_bytes = draw.choice([1518, 4096, 16384, 65536, 2**20])
        for i in range(len(self.homes)):
            rows.append({"name": f"E{i}", "kind": "es", "port_bytes": port_bytes})
        latency = draw.choice([1, 1000, 16000, 100000])
        for net in "AB":
            for i in range(self.switches):
                rows.append({"name": f"{net}{i}", "kind": "switch", "port_bytes": draw.choice([port_bytes, 2**20])})
                rows[-1] |= {"net": net, "latency_ns": draw.choice([latency, draw.randint(1, 2 * latency)])}
        return rows

    def links_drawn(self) -> list[Row]:
        draw, rows = self.draw, []
        slow = draw.choice([0, 0, 0.2, 0.6, 1])
        for net in "AB":
            pairs = [(f"E{i}", f"{net}{home}") for i, home in enumerate(self.homes)]
            pairs += [(f"{net}{i}", f"{net}{j}") for i in self.beside for j in self.beside[i] if i < j]
            for a, b in pairs:
                mbit = 10 if draw.random() < slow else 100
                rows.append({"a": a, "b": b, "mbit": mbit, "propagation_ns": draw.choice([1, 100, draw.randint(1, 5000)])})
        return rows

    def virtual_link(self, number: int) -> Row:
        draw = self.draw
        bag = draw.choice([1, 1, 1, 2, 2, 4, 8])
        size = draw.choice([64, draw.randint(64, 300), draw.randint(64, 1518), 1518])
        smax = draw.choice([size] * 7 + [draw.randint(size, 1518)] * 2 + [draw.randint(64, size)])
        period = draw.choice([bag * MS] * 3 + [draw.randint(bag * MS, 3 * bag * MS), draw.randint(bag * MS // 4, bag * MS)])
        jitter = draw.choice([0, 0, bag * MS // 20, draw.randint(0, period), draw.randint(0, 4 * period)])
        source, *targets = draw.sample(range(len(self.homes)), draw.randint(2, min(4, len(self.homes))))
        nets = draw.choice(["AB", "AB", "AB", "A", "B"])
        paths = self.paths(source, targets)
        return {
            "id": number, "bag_ms": bag, "smax": smax, "priority": draw.choice(["high", "low", "low"]),
            "policing_jitter_ns": draw.choice([0, 10**5, 5 * 10**5, 5 * MS, 10**9]),
            "policing": draw.choice(["bytes", "frames"]), "skew_max_ns": draw.choice([0, 10**4, 10**6, 10**9]),
            "depth": draw.choice([1, 1, 2, 3, 16]), "sub": draw.choice([1, 1, 1, 2, 3, 4]), "size": size,
            "offset_ns": 0, "period_ns": period, "jitter_ns": jitter,
            "a": paths("A") if "A" in nets else [], "b": paths("B") if "B" in nets else [],
        }

    def add_streams(self, draw: random.Random) -> None:
        """Gives virtual links bursts, sporadic offers and ends, and further streams."""
        for row in self.vls:
            of_each = draw.choice([1, 1, 2, 3])
            row["period_ns"] *= draw.choice([1, of_each, of_each])
            row |= self.traffic(draw, row)
            for _ in range(of_each - 1):
                size = draw.choice([row["size"], draw.randint(64, max(64, min(row["smax"], row["size"]))), draw.randint(64, row["size"])])
                stream = {"vl": row["id"], "size": size, "offset_ns": 0, "period_ns": row["period_ns"] + draw.choice([0, 0, 1, 10**5])}
                self.streams.append(self.traffic(draw, stream | {"jitter_ns": draw.choice([0, row["jitter_ns"]]), "sub": row["sub"]}))

    def traffic(self, draw: random.Random, row: Row) -> Row:
        """The keys of a stream, with bursts and other timing here and there."""
        found = {key: value for key, value in row.items() if key != "sub" or "id" in row}
        frames = draw.choice([1, 1, 2, 3, 7])
        if frames > 1:
            found |= {"frames": frames, "last_size": draw.randint(64, row["size"])}
            found["period_ns"] *= draw.choice([1, frames, frames])
        found |= {"timing": "sporadic"} if draw.random() < 0.3 else {}
        found |= {"end_ns": draw.randrange(self.until)} if draw.random() < 0.1 else {}
        return found | ({"sub_vl": draw.randrange(row["sub"])} if draw.random() < 0.2 else {})

    def fitting(self, rows: list[Row]) -> list[Row]:
        """The virtual links, without those that would give a line more than it can send."""
        mbit = {(link[a], link[b]): link["mbit"] for link in self.links for a, b in (("a", "b"), ("b", "a"))}
        load: dict[tuple[str, str], int] = {}
        found: list[Row] = []
        for row in rows:
            lines = {line for path in row["a"] + row["b"] for line in zip(path, path[1:])}
            # In bits that a line has to send in 8 ms, which each BAG divides.
            bits = (row["size"] + model.BYTES_BETWEEN_FRAMES) * 8 * (8 // row["bag_ms"])
            if all(load.get(line, 0) + bits <= mbit[line] * 8000 for line in lines):
                load |= {line: load.get(line, 0) + bits for line in lines}
                found.append(row)
        return found

    def paths(self, source: int, targets: list[int]) -> Callable[[str], list[list[str]]]:
        """The paths of one tree of shortest ways, for each network."""
        ways = {self.homes[source]: [self.homes[source]]}
        due = list(ways)
        while due:
            here = due.pop(0)
            near = [(here + 1) % self.switches] if self.goes_round else self.beside[here]
            for there in self.draw.sample(near, len(near)):
                if there not in ways:
                    ways[there] = ways[here] + [there]
                    due.append(there)

        def of_net(net: str) -> list[list[str]]:
            inner = lambda target: [f"{net}{switch}" for switch in ways[self.homes[target]]]
            return [[f"E{source}", *inner(target), f"E{target}"] for target in targets]

        return of_net

    def outage(self) -> Row:
        link = self.draw.choice(self.links)
        ends = self.draw.sample([link["a"], link["b"]], 2)
        begin = self.draw.randrange(self.until)
        return {"from": ends[0], "to": ends[1], "from_ns": begin, "to_ns": begin + self.draw.randint(1, self.until)}

    def tree(self, seed: int = 0, offsets: Sequence[int] = ()) -> Row:
        """What the description says, with the offsets of a run: those of virtual links, and behind them those of further streams."""
        rows = [*self.vls, *self.streams]
        rows = [row | {"offset_ns": offset} for row, offset in zip(rows, offsets or [0] * len(rows))]
        top = {"until_ns": self.until, "seed": seed}
        found = top | {"node": self.nodes, "link": self.links, "outage": self.outages, "vl": rows[: len(self.vls)]}
        return found | ({"stream": rows[len(self.vls) :]} if self.streams else {})

    def offsets(self, run: int, found: network_calculus.Bounds) -> list[int]:
        """The offsets of a run."""
        further = random.Random(f"{self.number} {run} streams")
        own = self.own_offsets(run, found)
        return own + [further.choice([0, int(further.random() * row["period_ns"])]) if run else 0 for row in self.streams]

    def own_offsets(self, run: int, found: network_calculus.Bounds) -> list[int]:
        draw = random.Random(f"{self.number} {run}")
        if run == 0:
            return [0] * len(self.vls)
        if run < 4 and found.ports:
            port = draw.choice(list(found.ports.values()))
            ahead = {hop.link.vl.id: hop.earliest() for hop in port.hops}
            last = max(ahead.values())
            return [last - ahead[row["id"]] if row["id"] in ahead else 0 for row in self.vls]
        if run < 6:
            return [draw.randrange(8) * 50_000 for _ in self.vls]
        return [int(draw.random() * row["period_ns"]) for row in self.vls]


class Count:
    """What was held against bounds so far."""

    def __init__(self) -> None:
        self.latencies = self.ports = self.others = self.unbounded = self.above = self.runs = 0
        self.shares: list[float] = []
        # The same of the bounds that the program prints.
        self.by_program = [0, 0, 0, 0]
        self.program_shares: list[float] = []

    def hold(self, found: network_calculus.Bounds, run: Measured, report: Callable[[str], None]) -> None:
        """Holds a run against the bounds of its network."""
        self.runs += 1
        for key, greatest in greatest_latencies(run).items():
            bound, _ = found.latencies[key]
            if bound is None:
                self.unbounded += 1
                continue
            self.latencies += 1
            self.shares.append(greatest / bound)
            if greatest > bound:
                self.above += 1
                report(f"virtual link {key[0]} at {key[1]} took {greatest} ns, and its bound is {bound} ns")
        # None where what was measured is no virtual link's.
        vl: Any
        for (kind, vl, place), tally in run.found.items():
            where, greatest = run.names[place], tally.greatest
            bound = found.of_kind(kind, vl, where)
            if bound is None:
                continue
            if kind == "backlog":
                self.ports += 1
                text = f"before {where} {greatest} bytes waited, and the bound is {bound} bytes"
            else:
                self.others += 1
                text = f"{kind} of virtual link {vl} at {where} was {greatest} ns, and its bound is {bound} ns"
            if greatest > bound:
                self.above += 1
                report(text)

    def hold_program(self, proved: proved_bounds.ProvedBounds, run: Measured, report: Callable[[str], None]) -> None:
        """Holds a run against the bounds that the program prints of its network."""
        held = [(proved.bound(*key), greatest, f"virtual link {key[0]} at {key[1]} took") for key, greatest in greatest_latencies(run).items()]
        ports = [(run.names[place], tally.greatest) for (kind, _, place), tally in run.found.items() if kind == "backlog"]
        for what, rows in enumerate((held, [(proved.waiting[where], most, f"before {where} waited") for where, most in ports])):
            for bound, greatest, text in rows:
                self.by_program[2 if bound is None else what] += 1
                if bound is not None and what == 0:
                    self.program_shares.append(greatest / bound)
                if bound is not None and greatest > bound:
                    self.by_program[3] += 1
                    report(f"{text} {greatest}, and the bound by the program is {bound}")

    def program_text(self) -> str:
        shares = sorted(self.program_shares) or [0]
        latencies, ports, none, above = self.by_program
        return (
            f"bounds by the program: {latencies} latencies and {ports} ports, {above} above; {none} without a bound; "
            f"greatest latency by bound: median {shares[len(shares) // 2]:.3f}, most {shares[-1]:.3f}"
        )

    def text(self, networks: int) -> str:
        shares = sorted(self.shares) or [0]
        return (
            f"{networks} networks, {self.runs} runs: {self.latencies} latencies, {self.ports} ports and "
            f"{self.others} others held against bounds, {self.above} above; {self.unbounded} latencies without a bound; greatest latency by bound: "
            f"median {shares[len(shares) // 2]:.3f}, most {shares[-1]:.3f}"
        )


def greatest_latencies(run: Measured) -> dict[tuple[int, str], int]:
    """The greatest latency of each virtual link and destination where one was delivered."""
    found: dict[tuple[int, str], int] = {}
    for _, place, vl, what, value in run.rows:
        if what == "delivered":
            found[vl, run.names[place]] = max(value, found.get((vl, run.names[place]), 0))
    return found


def bounds_by(program: str, net: model.Network) -> proved_bounds.ProvedBounds:
    """The bounds that a program prints of a network."""
    found = program_bounds.bounds_of(program, net)
    if found is None:
        raise model.Fault(program, None, "has no command `bounds`")
    return found.proved


def hold_network(
    number: int, runs: int, keep: str | None, count: Count, report: Callable[[str], None], program: str | None = None, has_streams: bool = False
) -> None:
    """Makes the runs of a network and holds them against its bounds."""
    drawn = Drawn(number, has_streams)
    text = model.text_of_tree(drawn.tree())
    net = model.Network(f"network {number}", text)
    found, proved = network_calculus.Bounds(net), bounds_by(program, net) if program else None
    for run in range(runs):
        tree = drawn.tree(run, drawn.offsets(run, found))
        simulation = Measured(tree)
        simulation.run()
        again = f"afdx bounded-runs{' --streams' * has_streams} --networks 1 --first {number} --runs {run + 1} --keep DIR"
        says = lambda text: report(f"network {number}, run {run}: {text}; again: {again}")
        count.hold(found, simulation, says)
        if proved:
            count.hold_program(proved, simulation, says)
        if keep:
            files.write_whole(os.path.join(keep, f"network-{number}-run-{run}.toml"), model.text_of_tree(tree))


def words_of(arguments: list[str] | None = None) -> argparse.Namespace:
    parser = argparse.ArgumentParser(
        prog="afdx bounded-runs", description=__doc__, epilog=EXAMPLES, formatter_class=argparse.RawDescriptionHelpFormatter
    )
    add, whole = parser.add_argument, model.whole
    add("--networks", type=whole(1, 10**6), default=500, metavar="N", help="how many networks (default 500)")
    add("--first", type=whole(0, 10**9), default=0, metavar="N", help="number of the first (default 0)")
    add("--runs", type=whole(1, 10**4), default=10, metavar="N", help="how many runs of each (default 10)")
    says = "draws bursts, further streams of virtual links, sporadic ones and ends, too"
    add("--streams", action="store_true", help=says)
    add("--keep", metavar="DIR", help="writes the description of each run to this folder; it is made if need be")
    add("--program", metavar="FILE", help="a program `afdxsim`, whose bounds are compared too")
    return parser.parse_args(arguments)


@files.tool("afdx bounded-runs")
def main(arguments: list[str] | None = None) -> int:
    words = words_of(arguments)
    count = Count()
    if words.keep:
        os.makedirs(words.keep, exist_ok=True)
    for number in range(words.first, words.first + words.networks):
        hold_network(number, words.runs, words.keep, count, files.say, words.program, words.streams)
    files.say(count.text(words.networks))
    if words.program:
        files.say(count.program_text())
    return 1 if count.above or count.by_program[3] else 0


if __name__ == "__main__":
    sys.exit(main())
