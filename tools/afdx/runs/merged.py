"""The tables of the runs of a campaign together, and what of them is over the seeds. Counts and sums are added and leasts and
greatests taken, exactly."""
from collections.abc import Iterable, Iterator
from fractions import Fraction
from math import floor
from typing import Any

from afdx import model
from afdx.model import CAUSES, TABLES_HEAD, long_form
from afdx.reckon import latency_counts
from afdx.runs import run_results
from afdx.runs.campaign_record import COUNTED_HEAD, GREATEST_HEAD, MOST_LOST_HEAD, PERCENTS
from afdx.runs.side_by_side import Worst

HISTOGRAMS_HEAD = "vl,where,from_ns,to_ns,count"


class OverSeeds:
    """What a virtual link at a destination had in the runs together: of those in which a frame was delivered, how many
    they were, and the least and the sum of their greatest latencies; and how many frames there were in each bin of latencies."""

    __slots__ = ("runs", "least", "total", "counts")

    def __init__(self) -> None:
        self.runs, self.least, self.total, self.counts = 0, 0, 0, latency_counts.Counts()

    def add(self, greatest: int) -> None:
        self.add_part(1, greatest, greatest)

    def add_part(self, runs: int, least: int, total: int) -> None:
        """Adds several runs: the least and the sum of their greatest latencies."""
        self.least = least if self.runs == 0 else min(self.least, least)
        self.runs, self.total = self.runs + runs, self.total + total

    def mean(self) -> int:
        """The mean of the greatest latencies, to the nearest ns."""
        return floor(Fraction(self.total, self.runs) + Fraction(1, 2))


class MergedLatency:
    """The latencies of a virtual link at a destination in all runs, in ns, and the seed of the run with the greatest one."""

    __slots__ = ("count", "least", "greatest", "total", "seed")

    def __init__(self) -> None:
        self.count, self.least, self.greatest, self.total = 0, 0, 0, 0
        self.seed: int | None = None

    def add(self, seed: int, count: int, least: int, greatest: int, total: int) -> None:
        """Adds those of a run in which a frame was delivered."""
        if self.count == 0 or greatest > self.greatest:
            self.greatest, self.seed = greatest, seed
        self.least = least if self.count == 0 else min(self.least, least)
        self.count += count
        self.total += total


class MergedLoss:
    """The frames of a virtual link that were lost at a place for a cause in all runs: how many, the most in one run, and its seed."""

    __slots__ = ("count", "most", "seed")

    def __init__(self) -> None:
        self.count, self.most = 0, 0
        self.seed: int | None = None

    def add(self, seed: int, count: int) -> None:
        self.add_part(seed, count, count)

    def add_part(self, seed: int, count: int, most: int) -> None:
        """Adds several later runs: how many frames were lost, the most in one of them, and the first seed with as many."""
        self.count += count
        if most > self.most:
            self.most, self.seed = most, seed


class Merged:
    """The tables of several runs together."""

    def __init__(self, net: model.Network) -> None:
        self.net = net
        # For each virtual link and destination, in the order of the tables.
        self.latencies: dict[tuple[int, str], MergedLatency] = {}
        self.over_seeds: dict[tuple[int, str], OverSeeds] = {}
        # For each virtual link, place and cause.
        self.losses: dict[tuple[int, str, str], MergedLoss] = {}

    def begin(self) -> None:
        """Makes room for each destination."""
        for key in run_results.keys_of(self.net):
            self.latencies[key], self.over_seeds[key] = MergedLatency(), OverSeeds()

    def add(self, seed: int, result: run_results.RunResult) -> None:
        """Adds what the run of a later seed says."""
        if not self.latencies:
            self.begin()
        rows = zip(self.latencies.values(), self.over_seeds.values(), result.count, result.least, result.greatest, result.total)
        for mine, over, count, least, greatest, total in rows:
            if count:
                over.add(greatest)
                mine.add(seed, count, least, greatest, total)
        for over, times in zip(self.over_seeds.values(), result.times.each() if result.times else ()):
            over.counts.add(times)
        for of, count in result.losses.items():
            if of not in self.losses:
                self.losses[of] = MergedLoss()
            self.losses[of].add(seed, count)

    def rows_of(self, keys: Iterable[tuple[int, str]]) -> dict[tuple[int, str], model.Latency]:
        """The merged latencies of some destinations, as tables have them."""
        rows = ((key, self.latencies[key]) for key in keys)
        return {key: model.Latency(*key, row.count, row.least or 0, row.greatest, row.total, row.seed, 0) for key, row in rows}

    def greatest_text(self, has_counts: bool) -> str:
        """Of the greatest latencies of the runs the least, the mean and the greatest; and the percentiles of all frames,
        where each is counted."""
        lines = [COUNTED_HEAD if has_counts else GREATEST_HEAD]
        for vl, where in self.latencies:
            over, row = self.over_seeds[vl, where], self.latencies[vl, where]
            numbers: list[int | str] = [over.runs, over.least, over.mean(), row.greatest, over.total] if over.runs else [0] * 5
            numbers += [] if row.seed is None else [row.seed]
            numbers += [""] * (len(GREATEST_HEAD.split(",")) - 2 - len(numbers))
            if has_counts:
                blank: list[int | str] = [""] * len(PERCENTS)
                numbers += over.counts.percentiles(PERCENTS, row.greatest) or blank
            lines.append(f"{vl},{where},{','.join(map(str, numbers))}")
        return "\n".join(lines) + "\n"

    def histograms(self) -> Iterator[str]:
        """How many frames there were in each bin, from one latency to another; as texts, of which no two need be in memory."""
        yield HISTOGRAMS_HEAD + "\n"
        for vl, where in self.latencies:
            lines = []
            for number, count in self.over_seeds[vl, where].counts.items():
                least, most = latency_counts.ends_of(number)
                lines.append(f"{vl},{where},{least},{most},{count}\n")
            yield "".join(lines)

    def text(self) -> str:
        """The tables in the order in which the program prints tables, with the seed as the last column."""
        lines = [TABLES_HEAD + ",seed"]
        for vl, where in self.latencies:
            row = self.latencies[vl, where]
            seed = "" if row.seed is None else row.seed
            lines.append(f"latency,{vl},{where},,{row.count},{row.least},{row.greatest},{row.total},{seed}")
        for vl, where, cause in self.losses_in_order():
            loss = self.losses[vl, where, cause]
            lines.append(f"dropped,{vl},{where},{cause},{loss.count},,,,{loss.seed}")
        return "\n".join(lines) + "\n"

    def losses_in_order(self) -> list[tuple[int, str, str]]:
        """The keys of the losses in the order in which the program prints them."""
        process = self.net.process
        return sorted(self.losses, key=lambda it: (it[0], process[it[1]], CAUSES.index(it[2])))

    def most_lost(self) -> str:
        """The most of each loss in one run, with the first seed that lost as many: what the merge of parts needs besides the tables."""
        lines = [MOST_LOST_HEAD]
        for key in self.losses_in_order():
            lines.append(f"{key[0]},{key[1]},{key[2]},{self.losses[key].most},{self.losses[key].seed}")
        return "\n".join(lines) + "\n"

    def long_rows(self) -> Iterator[tuple[Any, ...]]:
        """The merged tables and the greatest latencies of the runs in the long form."""
        tables = model.Tables("merged tables", self.net, self.text())
        yield from long_form.rows_of_tables(tables.latencies.values(), tables.losses.values())
        measures = ["runs", "least_greatest_ns", "mean_greatest_ns", "sum_greatest_ns"]
        yield from long_form.rows_of_csv("greatest", self.greatest_text(False), measures)

    def copies_lost(self, vl: int | None = None) -> int:
        """How many frames or copies were lost, those of a virtual link or all; second copies that were dropped do not count."""
        return sum(loss.count for (of, _, cause), loss in self.losses.items() if vl in (None, of) and cause != "duplicate")

    def worst(self) -> Worst | None:
        """The greatest latency of all, or None if nothing was delivered."""
        found = [(key, row, row.seed) for key, row in self.latencies.items() if row.seed is not None]
        if not found:
            return None
        (vl, where), row, seed = max(found, key=lambda it: it[1].greatest)
        return Worst(row.greatest, vl, where, seed)
