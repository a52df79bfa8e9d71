"""How often there was each latency, in bins of less than 0.1 percent, so that it takes little memory however many frames there are.

Up to 2047 ns a bin is one ns. Above, each octave has 1,024 bins of one length: a bin goes from ns with 11 binary digits, and zeros
behind them, to the next such number. So whole numbers give the bin, and all runs have the same bins.
"""
from __future__ import annotations

import re
from array import array
from collections.abc import Iterable, Iterator
from itertools import islice
from typing import NamedTuple

from afdx.files import Fault
from afdx.model import Tables

DIGITS = 11
HALF = 2 ** (DIGITS - 1)
# How many bins are kept together, those of an octave, with how many bytes for each until more are needed; and of a trace how
# many bytes are read at once.
TOGETHER = HALF
SIZES = ["B", "H", "I", "Q"]
BLOCK = 2**22
DELIVERED = re.compile(rb"\n[0-9]+,([^,\n]+,[0-9]+),delivered,([0-9]{1,19})(?=\n)")


def bin_of(ns: int) -> int:
    """The number of the bin of a latency; numbers rise with latencies."""
    shift = ns.bit_length() - DIGITS
    return ns if shift <= 0 else shift * HALF + (ns >> shift)


def ends_of(number: int) -> tuple[int, int]:
    """The least and the greatest latency of a bin."""
    shift = max(0, number // HALF - 1)
    return number - shift * HALF << shift, (number - shift * HALF + 1 << shift) - 1


class Counts:
    """How many frames there were in each bin."""

    __slots__ = ("parts",)

    def __init__(self) -> None:
        # The counts of some bins together, by the number of the first of them divided by how many they are.
        self.parts: dict[int, array[int]] = {}

    def add(self, found: Iterable[tuple[int, int]]) -> None:
        """Adds how many there were in bins, given as numbers of bins with counts."""
        parts = self.parts
        for number, count in found:
            place = number % TOGETHER
            try:
                parts[number // TOGETHER][place] += count
            except KeyError:
                self.widen(number // TOGETHER, array(SIZES[0], bytes(TOGETHER)), place, count)
            except OverflowError:
                self.widen(number // TOGETHER, parts[number // TOGETHER], place, count)

    def widen(self, which: int, part: array[int], place: int, count: int) -> None:
        """Puts a part into its place, with room for such a count."""
        more = part[place] + count
        size = max(SIZES.index(part.typecode), sum(more >= 2**bits for bits in (8, 16, 32)))
        self.parts[which] = array(SIZES[size], part)
        self.parts[which][place] = more

    def total(self) -> int:
        return sum(sum(part) for part in self.parts.values())

    def items(self) -> Iterator[tuple[int, int]]:
        """The bins in which there were frames, in order, with how many."""
        for first in sorted(self.parts):
            for place, count in enumerate(self.parts[first]):
                if count:
                    yield first * TOGETHER + place, count

    def percentiles(self, percents: list[int], greatest: int) -> list[int]:
        """For each percentage the end of the bin of the frame that this percentage does not exceed (the nearest rank), or
        the greatest latency of all, where that is less. None where no frame came."""
        total = self.total()
        ranks, passed = [-(-total * percent // 100) for percent in percents], 0
        found: list[int] = []
        for number, count in self.items():
            passed += count
            while len(found) < len(ranks) and ranks[len(found)] <= passed:
                found.append(min(greatest, ends_of(number)[1]))
        return found


class Bins(NamedTuple):
    """The bins of several destinations, one after another: in how many bins frames of each came; the numbers of these bins; and how
    many frames came in each. As three arrays another process is soon given them."""

    lengths: array[int]
    numbers: array[int]
    counts: array[int]

    def add(self, latencies: Iterable[int]) -> None:
        """Adds a destination, by its latencies."""
        found: dict[int, int] = {}
        for ns in latencies:
            # As bin_of does, without a call for each.
            shift = ns.bit_length() - DIGITS
            number = ns if shift <= 0 else shift * HALF + (ns >> shift)
            found[number] = found.get(number, 0) + 1
        self.lengths.append(len(found))
        self.numbers.extend(found)
        self.counts.extend(found.values())

    def each(self) -> Iterator[list[tuple[int, int]]]:
        """Of each destination the numbers of its bins, with how many frames came in each."""
        pairs = zip(self.numbers, self.counts)
        for length in self.lengths:
            yield list(islice(pairs, length))


def of_trace(path: str, tables: Tables) -> Bins:
    """How many frames of each virtual link at each destination came in each bin, in the order of the tables. A trace that has not
    what the tables have is refused."""
    found = {f"{where},{vl}".encode(): array("Q") for vl, where in tables.latencies}
    with open(path, "rb") as file:
        # Of a block the last line feed begins the next one.
        rest = b"\n"
        while block := file.read(BLOCK):
            block = rest + block
            end = block.rfind(b"\n") + 1
            rest = block[end - 1 :]
            try:
                for key, latency in DELIVERED.findall(block, 0, end):
                    found[key].append(int(latency))
            except KeyError as fault:
                raise Fault(path, None, f"{fault.args[0].decode('utf-8', 'replace')} is no destination in {tables.net.path}") from None
    bins = Bins(array("I"), array("H"), array("I"))
    for latencies, row in zip(found.values(), tables.latencies.values()):
        if (len(latencies), min(latencies, default=0), max(latencies, default=0), sum(latencies)) != row[2:6]:
            text = f"is of another run than the tables: {len(latencies)} frames of virtual link {row.vl} came to {row.where}"
            raise Fault(path, None, text)
        bins.add(latencies)
    return bins
