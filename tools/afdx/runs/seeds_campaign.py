"""The runs of a campaign over seeds, and what came of them: merged tables, and the limits that are broken."""
from collections.abc import Iterator
from itertools import repeat

from afdx import files
from afdx.files.page_text import us_text
from afdx.reckon.limits import Limit
from afdx.runs import reading_processes, run_results
from afdx.runs.campaign_network import CampaignNetwork
from afdx.runs.campaign_progress import Progress
from afdx.runs.merged import Merged
from afdx.runs.side_by_side import Failure, Keep, Run, Runs

# By virtual link and destination.
Limits = dict[tuple[int, str], Limit]


class Campaign:
    """What came of the runs so far, in the order of their seeds."""

    def __init__(self, net: CampaignNetwork, limits: Limits, seeds: range, draws_offsets: bool = False) -> None:
        self.net, self.limits, self.seeds, self.draws_offsets = net, limits, seeds, draws_offsets
        self.merged, self.done, self.status = Merged(net), 0, 0
        self.failure: str | None = None
        # For each limit that is broken: in how many runs, or 0 where that is not known.
        self.broken: dict[tuple[int, str], int] = {}

    def runs(self) -> Iterator[Run]:
        """The runs that are to be made."""
        return (Run(f"seed {seed}", self.net.with_seed(seed, self.draws_offsets)) for seed in self.seeds)

    def take(self, result: run_results.RunResult) -> int:
        """Takes what a run says, whole whatever signal comes, and answers its seed."""
        with files.signals_held():
            seed = self.seeds[self.done]
            self.merged.add(seed, result)
            for key, greatest in zip(self.merged.latencies, result.greatest) if self.limits else ():
                if key in self.limits and greatest > self.limits[key].most_ns():
                    self.broken[key] = self.broken.get(key, 0) + 1
            self.done += 1
            return seed

    def run(self, maker: Runs, keep: Keep, jobs: int) -> None:
        """Has the runs made and takes what they say, seed by seed. The first one in this order that fails ends it. `keep` gets
        the beginning of the name of each one's files, and its texts."""
        progress = Progress(len(self.seeds))
        progress.listen(maker)
        reader, jobs = run_results.Reader([self.net]), min(jobs, len(self.seeds))
        with reading_processes.beside(reader, maker, self.runs(), repeat(0), jobs) as results:
            try:
                for _, run, printed, result in results:
                    seed = self.take(result)
                    keep(f"seed-{seed}", run.text, printed.tables)
                    progress.update(self.done, self.merged.worst() if progress.shown else None)
            except Failure as failure:
                self.status, self.failure = 1, str(failure)
            except files.ENDS as ended:
                self.status, said = files.why(ended)
                rest = self.seeds[self.done :]
                self.failure = f"{said}, before the run of the seed {rest[0]} was merged" if rest else f"{said}, behind the last run"
            finally:
                progress.end()

    def report(self, path: str | None, took: float) -> None:
        """Prints the result: faults on error output, the rest on standard output."""
        if self.failure:
            files.report("afdx campaign", self.failure)
        if not self.done:
            files.say("no run was merged, and nothing is written")
            return
        runs = f"{self.done:,} run" + ("" if self.done == 1 else "s")
        files.say(f"{path}: {runs} merged, seeds {self.seeds[0]} to {self.seeds[self.done - 1]}, in {took:.1f} s")
        worst = self.merged.worst()
        if worst:
            files.say(f"greatest latency: {us_text(worst.ns)}, virtual link {worst.vl} at {worst.where}, seed {worst.seed}")
        files.say(f"lost: {self.merged.copies_lost():,} frames or copies, duplicates not counted")
        if self.limits:
            files.say(f"limits: {len(self.limits):,}, broken: {len(self.broken):,}")
        for key in sorted(self.broken, key=lambda it: self.limits[it].line):
            limit, row = self.limits[key], self.merged.latencies[key]
            many = f"; broken by {self.broken[key]} of {runs}" if self.broken[key] else ""
            files.say(
                f"limit broken: virtual link {limit.vl} at {limit.where} has {us_text(limit.ns)}, and took {us_text(row.greatest)} with "
                f"the seed {row.seed}{many}"
            )
