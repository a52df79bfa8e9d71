#!/usr/bin/env python3
"""Writes the description of a large network to standard output.

It has the networks A and B, which are alike. The switches of each stand in a grid (two columns by default, so a
ladder), each linked with its neighbours. The end systems are spread evenly over the switches, and each has one link to
its switch on A and one to the switch at the same place on B. All links have 100 Mbit/s.

Each virtual link has a drawn source, some drawn destinations, and the same paths on A and on B. The paths from one
switch are always those of one tree of shortest ways, so the paths of a virtual link are a tree too.

The drawn shares are near those published for large aircraft: most frames are shorter than 300 bytes,
most BAGs are 16 ms and more, and a virtual link has 6 destinations, most of them one or two switches away. The same
words on the command line give the same text, on every machine.
"""
import argparse
import random
import sys
from collections.abc import Callable, Sequence
from fractions import Fraction
from typing import TypeVar

from afdx import files
from afdx.model import (
    BYTES_BETWEEN_FRAMES, GREATEST_SEED, LATEST_NS, LEAST_FRAME, MOST_DESTINATIONS, MOST_NODES_OF_A_PATH, MOST_PORTS, MOST_PROCESSES,
    MOST_STREAMS, whole,
)

# Percent of the virtual links with this BAG in ms.
BAG_SHARES = {1: 1, 2: 2, 4: 4, 8: 8, 16: 14, 32: 23, 64: 22, 128: 26}

# Percent of the virtual links with a frame size in bytes from the first number to the second.
SIZE_SHARES = {
    (64, 150): 56,
    (151, 300): 20,
    (301, 600): 12,
    (601, 900): 6,
    (901, 1200): 2,
    (1201, 1500): 3,
    (1501, 1518): 1,
}

PERCENT_HIGH = 30
POLICINGS = ["bytes", "frames"]
MOST_VIRTUAL_LINKS = 65536
MOST_SWITCHES_OF_A_PATH = MOST_NODES_OF_A_PATH - 2
NS_A_BYTE = 80

EXAMPLES = """
examples:
  afdx large-network > large.toml
        two networks of 8 switches, 120 end systems, 1,000 virtual links, one second
  afdx large-network --end-systems 16 --switches 2 --virtual-links 60 > small.toml
        a small one
  afdx large-network --load 80 --virtual-links 4000 > busy.toml
        four times as many virtual links; periods are stretched until the busiest line has a load of 80 percent
  afdx large-network --end-systems 760 --switches 38 --virtual-links 65536 --load 90 --until 10000000 > limit.toml
        the limits: 4,096 processes and 65,536 virtual links (10 ms; some 38 MB of text)
  afdx large-network --streams 40 > messages.toml
        40 percent of the virtual links have messages longer than a frame, further streams, or sporadic offers
  afdx large-network --end-systems 60 --switches 30 --columns 1 --reach 95 --virtual-links 200 > row.toml
        a row of 30 switches, with paths of up to 32 nodes

Error output has a summary of the network: processes, paths, the longest path, and the load of the busiest line. The load
is the share of time in which the line carries frames if no frame is lost. Above 100 percent, frames will be lost or late
there.
"""


T = TypeVar("T")


class Draw:
    """Draws from a seed. It stands on random() alone, which is the same in every version of Python."""

    def __init__(self, seed: int) -> None:
        self.random = random.Random(seed).random

    def below(self, limit: int) -> int:
        """A whole number from 0, below the limit."""
        return int(self.random() * limit)

    def one_of(self, items: Sequence[T]) -> T:
        return items[self.below(len(items))]

    def happens(self, percent: int) -> bool:
        return self.below(100) < percent

    def share(self, shares: dict[T, int]) -> T:
        """One of the keys, as often as its percent says."""
        drawn = self.below(100)
        for key, percent in shares.items():
            if drawn < percent:
                return key
            drawn -= percent
        raise AssertionError("the shares are less than 100 percent")


class Wiring:
    """The switches of one network, as numbers: who is beside whom, and the trees of shortest ways."""

    def __init__(self, words: argparse.Namespace) -> None:
        self.count = words.switches
        self.longest = -(-words.switches // words.columns) + min(words.columns, words.switches) - 1
        self.beside: list[list[int]] = [[] for _ in range(self.count)]
        self.links: list[tuple[int, int]] = []
        for here in range(self.count):
            right, below = here + 1, here + words.columns
            if right % words.columns and right < self.count:
                self.link(here, right)
            if below < self.count:
                self.link(here, below)
        self.home = [e * self.count // words.end_systems for e in range(words.end_systems)]
        self.attached: list[list[int]] = [[] for _ in range(self.count)]
        for end_system, switch in enumerate(self.home):
            self.attached[switch].append(end_system)

    def link(self, a: int, b: int) -> None:
        self.links.append((a, b))
        self.beside[a].append(b)
        self.beside[b].append(a)

    def tree(self, root: int, draw: Draw) -> dict[int, list[int]]:
        """For each switch the way to it from the root; a way is a list of switches with both ends."""
        ways = {root: [root]}
        ring = [root]
        while ring:
            following = []
            for here in ring:
                start = draw.below(len(self.beside[here]) or 1)
                for there in self.beside[here][start:] + self.beside[here][:start]:
                    if there not in ways:
                        ways[there] = ways[here] + [there]
                        following.append(there)
            ring = following
        return ways

    def processes(self) -> int:
        """Two networks: the nodes, and two processes for each link."""
        end_systems = len(self.home)
        return end_systems + 2 * self.count + 2 * 2 * (end_systems + len(self.links))

    def refusal(self) -> str | None:
        """Why the program would refuse the network, or None."""
        ports = max(len(a) + len(b) for a, b in zip(self.attached, self.beside))
        if ports > MOST_PORTS:
            return (
                f"a switch would have {ports} links, and may have {MOST_PORTS}: "
                "take more switches or fewer end systems"
            )
        if self.processes() > MOST_PROCESSES:
            return (
                f"there would be {self.processes()} processes, and may be {MOST_PROCESSES}: "
                "take fewer end systems or switches"
            )
        if self.longest > MOST_SWITCHES_OF_A_PATH:
            return (
                f"a path could have {self.longest} switches, and may have {MOST_SWITCHES_OF_A_PATH}: "
                "take more columns or fewer switches"
            )
        return None


class Traffic:
    """What a virtual link has beyond one frame each period: bursts, further streams, or sporadic offers. The period of each is so much
    longer that no more than a frame is offered in each BAG."""

    def __init__(self, greatest: int, draw: Draw) -> None:
        self.frames = 2 + draw.below(5) if draw.happens(50) else 1
        self.last_size = LEAST_FRAME + draw.below(greatest - LEAST_FRAME + 1) if self.frames > 1 else greatest
        self.is_sporadic = draw.happens(30)
        self.further = [LEAST_FRAME + draw.below(greatest - LEAST_FRAME + 1) for _ in range(draw.below(4))]

    def stretch(self) -> int:
        """How many times as long as that of a virtual link with one frame each period is the period of each stream."""
        return self.frames + len(self.further)

    def keys(self) -> str:
        """The keys of its own stream."""
        burst = f"frames = {self.frames}\nlast_size = {self.last_size}\n" if self.frames > 1 else ""
        return burst + ('timing = "sporadic"\n' if self.is_sporadic else "")

    def write_further(self, number: int, phase: float, period: int, out: Callable[[str], object]) -> None:
        """Writes the further streams, spread over the period."""
        for i, size in enumerate(self.further, 1):
            offset = int(period * (phase + i / (1 + len(self.further)))) % period
            out(f"[[stream]]\nvl = {number}\nsize = {size}\noffset_ns = {offset}\nperiod_ns = {period}\njitter_ns = 0\n")


class VirtualLink:
    """One virtual link: what is drawn for it, and its ways through the switches."""

    def __init__(self, words: argparse.Namespace, wiring: Wiring, trees: list[dict[int, list[int]]], draw: Draw) -> None:
        end_systems = words.end_systems
        self.source = draw.below(end_systems)
        self.ways: dict[int, list[int]] = {}
        wanted = 1
        most = min(MOST_DESTINATIONS, end_systems - 1)
        while wanted < most and draw.random() * words.destinations >= 1:
            wanted += 1
        tree = trees[wiring.home[self.source]]
        near = self.by_distance(wiring, tree)
        for _ in range(wanted):
            target = self.destination(near, words.reach, draw)
            self.ways[target] = tree[wiring.home[target]]
        self.bag_ms = draw.share(BAG_SHARES)
        least, greatest = draw.share(SIZE_SHARES)
        self.size = least + draw.below(greatest - least + 1)
        self.high = draw.happens(PERCENT_HIGH)
        self.phase = draw.random()
        # Nothing is drawn for what was not asked for: the same words give the same text in every edition.
        self.sub = 1 + draw.below(words.sub) if words.sub > 1 else None
        self.policing = draw.one_of(POLICINGS) if words.policing == "both" else words.policing
        self.traffic = Traffic(self.size, draw) if words.streams and draw.happens(words.streams) else None

    def by_distance(self, wiring: Wiring, tree: dict[int, list[int]]) -> list[list[int]]:
        """The end systems but the source, as lists by the number of switches on the way. No list is empty."""
        lists: dict[int, list[int]] = {}
        for switch, way in tree.items():
            found = [e for e in wiring.attached[switch] if e != self.source]
            if found:
                lists.setdefault(len(way), []).extend(found)
        return [lists[distance] for distance in sorted(lists)]

    @staticmethod
    def destination(near: list[list[int]], reach: int, draw: Draw) -> int:
        """A destination that was not drawn before; each step further has the chance of reach percent."""
        distance = 0
        while distance + 1 < len(near) and draw.happens(reach):
            distance += 1
        place = draw.below(len(near[distance]))
        target = near[distance].pop(place)
        if not near[distance]:
            near.pop(distance)
        return target

    def lines(self) -> set[tuple[int | str, int]]:
        """The lines of one network that a frame of this virtual link goes over, each once."""
        used: set[tuple[int | str, int]] = set()
        for target, way in self.ways.items():
            used.add(("from", self.source))
            used.update(zip(way, way[1:]))
            used.add(("to", target))
        return used


def greatest_load(virtual_links: list[VirtualLink]) -> Fraction:
    """The load of the busiest line, where 1 is all its time, if each virtual link sends a frame in each BAG."""
    longest_bag_ms = max(BAG_SHARES)
    busy_ns: dict[tuple[int | str, int], int] = {}
    for vl in virtual_links:
        frames = longest_bag_ms // vl.bag_ms
        busy = frames * (vl.size + BYTES_BETWEEN_FRAMES) * NS_A_BYTE
        for line in vl.lines():
            busy_ns[line] = busy_ns.get(line, 0) + busy
    return Fraction(max(busy_ns.values(), default=0), longest_bag_ms * 10**6)


def write_nodes(words: argparse.Namespace, out: Callable[[str], object]) -> None:
    for e in range(words.end_systems):
        out(f'[[node]]\nname = "E{e + 1}"\nkind = "es"\nport_bytes = {words.port_bytes}\n')
    for net in "AB":
        for s in range(words.switches):
            out(f'[[node]]\nname = "{net}{s + 1}"\nkind = "switch"\nport_bytes = {words.port_bytes}\n')
            out(f'net = "{net}"\nlatency_ns = 16000\n')


def write_links(wiring: Wiring, draw: Draw, out: Callable[[str], object]) -> None:
    for net in "AB":
        pairs = [(f"E{e + 1}", f"{net}{s + 1}") for e, s in enumerate(wiring.home)]
        pairs += [(f"{net}{a + 1}", f"{net}{b + 1}") for a, b in wiring.links]
        for a, b in pairs:
            out(f'[[link]]\na = "{a}"\nb = "{b}"\nmbit = 100\npropagation_ns = {20 + draw.below(280)}\n')


def period_of(vl: VirtualLink, stretch: Fraction) -> int:
    return min(LATEST_NS, int(vl.bag_ms * 10**6 * stretch) * (vl.traffic.stretch() if vl.traffic else 1))


def write_virtual_link(number: int, vl: VirtualLink, stretch: Fraction, out: Callable[[str], object]) -> None:
    bag_ns = vl.bag_ms * 10**6
    period = period_of(vl, stretch)
    out(f"[[vl]]\nid = {number}\nbag_ms = {vl.bag_ms}\nsmax = {vl.size}\n")
    policing = f'policing = "{vl.policing}"\n' if vl.policing else ""
    sub = f"sub = {vl.sub}\n" if vl.sub else ""
    out(f'priority = "{"high" if vl.high else "low"}"\npolicing_jitter_ns = 500000\n{policing}skew_max_ns = 5000000\n')
    out(f"depth = 16\n{sub}size = {vl.size}\noffset_ns = {int(period * vl.phase)}\nperiod_ns = {period}\n")
    out(f"jitter_ns = {bag_ns // 20}\n{vl.traffic.keys() if vl.traffic else ''}")
    for net in "AB":
        paths = []
        for target, way in vl.ways.items():
            names = [f"E{vl.source + 1}"] + [f"{net}{s + 1}" for s in way] + [f"E{target + 1}"]
            paths.append("[" + ", ".join(f'"{name}"' for name in names) + "]")
        out(f"{net.lower()} = [" + ", ".join(paths) + "]\n")


def write_network(words: argparse.Namespace, out: Callable[[str], object], report: Callable[[str], object]) -> str | None:
    """Writes the description by out, and a summary by report. Answers why it is refused, or None."""
    draw = Draw(words.seed)
    wiring = Wiring(words)
    refusal = wiring.refusal()
    if refusal:
        return refusal
    trees = [wiring.tree(root, draw) for root in range(words.switches)]
    virtual_links = [VirtualLink(words, wiring, trees, draw) for _ in range(words.virtual_links)]
    streams = sum(len(vl.traffic.further) for vl in virtual_links if vl.traffic)
    if streams > MOST_STREAMS:
        return f"there would be {streams} further streams, and may be {MOST_STREAMS}: take a smaller part by --streams"
    natural = greatest_load(virtual_links)
    stretch = max(Fraction(1), natural * 100 / words.load) if words.load else Fraction(1)
    out(f"until_ns = {words.until}\nseed = {words.seed}\n\n")
    write_nodes(words, out)
    write_links(wiring, draw, out)
    for number, vl in enumerate(virtual_links):
        write_virtual_link(number, vl, stretch, out)
    for number, vl in enumerate(virtual_links):
        if vl.traffic:
            vl.traffic.write_further(number, vl.phase, period_of(vl, stretch), out)
    paths = sum(len(vl.ways) for vl in virtual_links)
    longest = max((len(way) + 2 for vl in virtual_links for way in vl.ways.values()), default=0)
    report(
        f"{wiring.processes()} processes, {len(virtual_links)} virtual links, {paths} paths on each network, "
        f"longest path {longest} nodes, load of the busiest line {float(natural / stretch * 100):.1f} percent\n"
    )
    return None


def words_of(arguments: list[str] | None = None) -> argparse.Namespace:
    parser = argparse.ArgumentParser(
        prog="afdx large-network", description=__doc__, epilog=EXAMPLES, formatter_class=argparse.RawDescriptionHelpFormatter
    )

    def number(name: str, least: int, greatest: int, usual: int, unit: str, meaning: str) -> None:
        text = f"{meaning}; {least} to {greatest} (default {usual})"
        parser.add_argument("--" + name, type=whole(least, greatest), default=usual, metavar=unit, help=text)

    number("end-systems", 2, 800, 120, "N", "end systems")
    number("switches", 1, 600, 8, "N", "switches of each of the two networks")
    number("columns", 1, 600, 2, "N", "columns of the grid of switches, 1 for a row")
    number("virtual-links", 0, MOST_VIRTUAL_LINKS, 1000, "N", "virtual links")
    number("destinations", 1, MOST_DESTINATIONS, 6, "N", "destinations of a virtual link, as a mean")
    number(
        "reach", 0, 100, 50, "PERCENT",
        "chance that a destination is one switch further away, and again for each further one",
    )
    number(
        "load", 0, 1000, 0, "PERCENT",
        "greatest load of the busiest line: if it would be higher, all periods are stretched alike. "
        "0: every period is its BAG",
    )
    number(
        "sub", 1, 4, 1, "N",
        "the most sub-virtual links of a virtual link; each has 1 to this number. 1: no key sub is written",
    )
    parser.add_argument(
        "--policing", choices=[*POLICINGS, "both"],
        help="how switches police; both: drawn for each virtual link (default: no key policing is written, so bytes)",
    )
    number(
        "streams", 0, 100, 0, "PERCENT",
        "how many of the virtual links have bursts, further streams or sporadic offers. 0: no key of these is written",
    )
    number("port-bytes", 1518, 1048576, 65536, "BYTES", "waiting bytes of each port")
    number("until", 1, LATEST_NS, 10**9, "NS", "end time in ns")
    number("seed", 0, GREATEST_SEED, 1, "N", "seed of all that is drawn, here and in the run")
    return parser.parse_args(arguments)


@files.tool("afdx large-network")
def main(arguments: list[str] | None = None) -> int:
    pieces: list[str] = []
    refusal = write_network(words_of(arguments), pieces.append, sys.stderr.write)
    if refusal:
        files.report("afdx large-network", refusal)
        return 1
    files.write_out("".join(pieces))
    return 0


if __name__ == "__main__":
    sys.exit(main())
