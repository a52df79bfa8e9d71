"""What afdx campaign --set does: runs a description with each combination of values of some of its keys, and shows what they
do beside what the seed does.

    vl.157.bag_ms=4,8,16      of the virtual link with this number
    link.3.mbit=10,100        of the third link of the description; outages and streams have numbers too
    node.SWA.latency_ns=8000  of the node with this name
"""
import argparse
import copy
import itertools
import re
from collections.abc import Iterable, Iterator, Sequence
from fractions import Fraction
from math import floor
from typing import Any, NamedTuple

from afdx import files, model
from afdx.files import Fault, program
from afdx.files.page_text import esc, span
from afdx.model import description_faults
from afdx.runs import reading_processes, run_results
from afdx.runs.each_outage import STYLE, plain, row, tile
from afdx.runs.seeds_campaign import Campaign
from afdx.runs.side_by_side import Failure, Keep, Run, Runs, Shown

# More combinations are hardly meant.
MOST_COMBINATIONS = 10_000
# How many destinations the page shows at most; the table has all.
MOST_ON_THE_PAGE = 200
HEAD = "vl,where,runs,delivered,least_greatest_ns,mean_greatest_ns,greatest_ns,seed,copies_lost"


class Setting(NamedTuple):
    """A key of a row that is set, with the values: `who` is the number or the name of the row, `text` the word that said it."""

    name: str
    section: str
    who: str
    key: model.Key
    values: list[int | str]
    text: str


def setting(text: str) -> Setting:
    """The type of a word of the command line."""
    found = re.fullmatch(r"(vl|link|node|outage|stream)\.([\w-]+)\.(\w+)=(.+)", text)
    if not found:
        raise argparse.ArgumentTypeError(f"{text!r} is none as vl.157.bag_ms=4,8,16 or link.3.mbit=10,100 or node.SWA.latency_ns=8000")
    section, who, name, texts = found.groups()
    key = next((key for key in model.KEYS[section] if key.name == name and key.value_type != "paths"), None)
    if key is None:
        known = [key.name for key in model.KEYS[section] if key.value_type != "paths"]
        raise argparse.ArgumentTypeError(f"{name} is no key of {description_faults.A_ROW[section]} that can be set{description_faults.meant(name, known)}")
    if section != "node" and not (model.NUMBER.fullmatch(who) and len(who) < 20):
        raise argparse.ArgumentTypeError(f"{who!r} is no number of {description_faults.A_ROW[section]}")
    values: list[int | str] = [*texts.split(",")]
    if key.value_type == "integer":
        for value in texts.split(","):
            if not model.NUMBER.fullmatch(value.replace("_", "")):
                raise argparse.ArgumentTypeError(f"{name} is {value!r}, and no whole number")
        values = [int(value.replace("_", "")) for value in texts.split(",")]
    if len(set(values)) < len(values):
        raise argparse.ArgumentTypeError(f"{text!r} has a value twice")
    return Setting(f"{section}.{who}.{name}", section, who, key, values, text)


def place_of(description: model.Description, it: Setting) -> int:
    """The row of a setting, from 1, or a fault."""
    rows = description.rows(it.section)
    if it.section in ("vl", "node"):
        own = "id" if it.section == "vl" else "name"
        who = int(it.who) if it.section == "vl" else it.who
        found = [i for i, found in enumerate(rows, 1) if found.get(own) == who]
    else:
        found = [int(it.who)] if 1 <= int(it.who) <= len(rows) else []
    if not found:
        known = f": there are {len(rows)}" if it.section in ("link", "outage", "stream") else ""
        if it.section == "node":
            known = description_faults.meant(it.who, [found["name"] for found in rows])
        raise Fault(description.path, description.line(it.section), f"--set {it.name}: there is no such {it.section}{known}")
    return found[0]


class Combination(NamedTuple):
    """A combination of values: its number from 1, a value of each setting, these in words, and the description with them."""

    number: int
    values: tuple[int | str, ...]
    name: str
    description: model.Description


def combinations_of(description: model.Description, settings: Sequence[Setting]) -> list[Combination]:
    """Each combination of values, with its description, which `afdxsim` must accept."""
    names = [it.name for it in settings]
    for name in names:
        if names.count(name) > 1:
            raise Fault(description.path, None, f"--set {name} is there twice")
    places = [place_of(description, it) for it in settings]
    count = 1
    for it in settings:
        count *= len(it.values)
    if count > MOST_COMBINATIONS:
        raise Fault(description.path, None, f"--set has {count:,} combinations, and {MOST_COMBINATIONS:,} are the most")
    found: list[Combination] = []
    for number, values in enumerate(itertools.product(*(it.values for it in settings)), 1):
        tree = copy.deepcopy(description.tree)
        for it, place, value in zip(settings, places, values):
            row = tree[it.section][place - 1]
            if it.key.name in row:
                row[it.key.name] = value
            else:
                row.put(it.key.name, value, description.line(it.section, place))
        text = " ".join(f"{name}={value}" for name, value in zip(names, values))
        changed = model.Description(description.path, description.text, tree)
        fault = min(description_faults.Judge(changed).findings, key=description_faults.rank, default=None)
        if fault and fault.number:
            raise Fault(description.path, fault.line, f"with {text}: {fault.who} {fault.text}")
        found.append(Combination(number, values, text, changed))
    return found


class Outcome(NamedTuple):
    """What the runs of a combination gave of a virtual link at a destination: how many runs delivered a frame, how many frames
    came, the least, the mean and the greatest of the greatest latencies, the seed of that, and how many copies were lost."""

    combination: Combination
    vl: int
    where: str
    runs: int
    delivered: int
    least: int
    mean: int
    greatest: int
    seed: int | None
    copies_lost: int

    def numbers(self) -> list[int | str]:
        """The cells of a line of the table behind virtual link and destination."""
        *numbers, seed, lost = self[3:]
        return [*numbers, "" if seed is None else seed, lost]


# A combination and its runs.
Course = tuple[Combination, Campaign]


class Sweep:
    """What came of the runs so far: `courses` has for each combination its campaign."""

    def __init__(self, settings: Sequence[Setting], courses: Sequence[Course]) -> None:
        self.settings, self.courses = settings, courses
        self.done, self.status = 0, 0
        self.failure: str | None = None

    def count(self) -> int:
        return sum(len(campaign.seeds) for _, campaign in self.courses)

    def runs(self) -> Iterator[Run]:
        for combination, campaign in self.courses:
            for run in campaign.runs():
                yield Run(f"{combination.name}, {run.name}", run.text)

    def run(self, maker: Runs, keep: Keep, progress: Shown, jobs: int) -> None:
        """Has all runs made, and takes what they say. The first one that fails ends it."""
        progress.listen(maker)
        reader, jobs = run_results.Reader([campaign.net for _, campaign in self.courses]), min(jobs, self.count())
        numbers = (number for number, (_, campaign) in enumerate(self.courses) for _ in campaign.seeds)
        with reading_processes.beside(reader, maker, self.runs(), numbers, jobs) as results:
            try:
                for number, run, printed, result in results:
                    combination, campaign = self.courses[number]
                    seed = campaign.take(result)
                    keep(f"set-{combination.number}-seed-{seed}", run.text, printed.tables)
                    self.done += 1
                    progress.update(self.done, None)
            except Failure as failure:
                self.status, self.failure = 1, str(failure)
            except files.ENDS as ended:
                self.status, said = files.why(ended)
                self.failure = f"{said}, after {self.done} of {self.count()} runs"
            finally:
                progress.end()

    def whole(self) -> list[Course]:
        """The courses of which all runs were made."""
        return [(combination, campaign) for combination, campaign in self.courses if campaign.done == len(campaign.seeds)]

    def outcomes(self) -> Iterator[Outcome]:
        """For each whole course, virtual link and destination what came of its runs."""
        for combination, campaign in self.whole():
            merged = campaign.merged
            for (vl, where), of_all in merged.latencies.items():
                over = merged.over_seeds[vl, where]
                least, mean = (over.least, over.mean()) if over.runs else (0, 0)
                yield Outcome(
                    combination, vl, where, over.runs, of_all.count, least, mean, of_all.greatest, of_all.seed, merged.copies_lost(vl)
                )

    def table(self, maker: program.Maker) -> str:
        """The table; its last column names the program."""
        lines = [",".join(["set", *(it.name for it in self.settings), HEAD, "program"])]
        for it in self.outcomes():
            cells = [it.combination.number, *it.combination.values, it.vl, it.where, *it.numbers(), maker.cell()]
            lines.append(",".join(map(str, cells)))
        return "\n".join(lines) + "\n"

    def long_rows(self) -> Iterator[tuple[Any, ...]]:
        """The rows of the table in the long form, with the combination and its values as further keys."""
        measures = HEAD.split(",")[2:]
        for outcome in self.outcomes():
            combination = outcome.combination
            more = {"set": combination.number} | {it.name: value for it, value in zip(self.settings, combination.values)}
            for measure, number in zip(measures, outcome.numbers()):
                if number != "":
                    yield "set", outcome.vl, outcome.where, measure, number, more

    def effects(self) -> list["Effect"]:
        """For each virtual link and destination what the values do, the greatest effect first."""
        found: dict[tuple[int, str], list[Bar]] = {}
        for it in self.outcomes():
            if it.runs:
                found.setdefault((it.vl, it.where), []).append(Bar(it.combination, it.least, it.mean, it.greatest))
        effects = [Effect(self.settings, *key, bars) for key, bars in found.items()]
        return sorted(effects, key=lambda it: (-it.effect, it.vl, it.where))


class Bar(NamedTuple):
    """Of the greatest latencies of the runs of a combination the least, the mean and the greatest."""

    combination: Combination
    least: int
    mean: int
    greatest: int


class Effect:
    """What the values do to the greatest latency of a virtual link at a destination. `effect` is how far the means of the
    combinations are apart, `spread` how far the seeds are apart in one combination at the most, and `of` has for each
    setting how far the means of its values are apart."""

    def __init__(self, settings: Sequence[Setting], vl: int, where: str, bars: list[Bar]) -> None:
        self.vl, self.where, self.bars = vl, where, bars
        self.effect = self.apart(bar.mean for bar in bars)
        self.spread = max(bar.greatest - bar.least for bar in bars)
        self.of: list[int] = []
        for place, it in enumerate(settings):
            of_value = {value: [bar.mean for bar in bars if bar.combination.values[place] == value] for value in it.values}
            self.of.append(self.apart(Fraction(sum(means), len(means)) for means in of_value.values() if means))

    @staticmethod
    def apart(numbers: Iterable[int | Fraction]) -> int:
        numbers = list(numbers)
        return floor(max(numbers) - min(numbers))


# ---- the page ----

OWN_STYLE = """
svg { display: block; } svg rect { fill: #93c5fd; } svg line { stroke: #1d4ed8; stroke-width: 2; } .clear { font-weight: 600; }
td.bars { text-align: left; }
"""
WIDTH, HEIGHT = 260, 9


def strip(bars: list[Bar]) -> str:
    """A bar for each combination, from the least to the greatest of its runs, with a mark at the mean. The whole goes from 0
    to the greatest of all."""
    last = max(1, max(bar.greatest for bar in bars))
    at = lambda ns: f"{ns * WIDTH / last:.1f}"
    pieces = []
    for i, bar in enumerate(bars):
        top = i * HEIGHT
        says = f"{bar.combination.name}: {bar.least:,} to {bar.greatest:,} ns, mean {bar.mean:,} ns"
        wide = max(1.0, (bar.greatest - bar.least) * WIDTH / last)
        pieces.append(
            f'<g><title>{esc(says)}</title><rect x="{at(bar.least)}" y="{top + 1}" width="{wide:.1f}" height="{HEIGHT - 2}"/>'
            f'<line x1="{at(bar.mean)}" x2="{at(bar.mean)}" y1="{top}" y2="{top + HEIGHT}"/></g>'
        )
    return f'<svg width="{WIDTH + 2}" height="{HEIGHT * len(bars)}" role="img">{"".join(pieces)}</svg>'


def effects_table(settings: Sequence[Setting], effects: list[Effect], has_spread: bool) -> str:
    several = [i for i, it in enumerate(settings) if len(it.values) > 1] if len(settings) > 1 else []
    heads = plain("virtual link", "destination", "effect", "spread of seeds", *(f"effect of {settings[i].name}" for i in several))
    heads.append(("", "each combination, from 0 to the greatest"))
    rows = []
    for it in effects[:MOST_ON_THE_PAGE]:
        cells = plain(it.vl, it.where, span(it.effect), span(it.spread) if has_spread else "one seed", *(span(it.of[i]) for i in several))
        if has_spread and it.effect > it.spread:
            cells[2] = ' class="clear"', cells[2][1]
        rows.append(row([*cells, (' class="bars"', strip(it.bars))]))
    rest = len(effects) - len(rows)
    more = f"<p>{rest:,} more are in sweep.csv.</p>" if rest > 0 else ""
    return f'<table id="effects"><thead>{row(heads, "th")}</thead><tbody>{"".join(rows)}</tbody></table>{more}'


def combinations_table(sweep: Sweep, has_limits: bool) -> str:
    heads = plain("set", *(it.name for it in sweep.settings), "runs", "greatest latency", "of", "frames or copies lost")
    heads += plain("limits broken") if has_limits else []
    rows = []
    for combination, campaign in sweep.whole():
        worst = campaign.merged.worst()
        lost = campaign.merged.copies_lost()
        late = [span(worst.ns), f"VL {worst.vl} at {worst.where}, seed {worst.seed}"] if worst else ["nothing came", ""]
        cells = plain(combination.number, *combination.values, campaign.done, *late, f"{lost:,}")
        if lost:
            cells[-1] = ' class="lost"', cells[-1][1]
        rows.append(row(cells + (plain(len(campaign.broken)) if has_limits else [])))
    return f'<table id="combinations"><thead>{row(heads, "th")}</thead><tbody>{"".join(rows)}</tbody></table>'


def page(sweep: Sweep, path: str, made_by: str, has_limits: bool) -> str:
    """The page of all combinations."""
    effects, whole = sweep.effects(), sweep.whole()
    seeds = sweep.courses[0][1].seeds
    has_spread = len(seeds) > 1
    clear = sum(it.effect > it.spread for it in effects)
    tiles = [tile("combinations", len(whole)), tile("runs", sweep.done)]
    if has_spread:
        tiles.append(tile(f"of {len(effects)} destinations: effect above the spread of seeds", clear))
    if has_limits:
        broken = sum(bool(campaign.broken) for _, campaign in whole)
        tiles.append(tile("combinations that break a limit", broken, "bad" if broken else "good"))
    of = f"{len(seeds)} seeds from {seeds[0]} on" if has_spread else f"the seed {seeds[0]} alone, so the spread of seeds is not known"
    words = f"{path} was run with each combination of {', '.join(it.name for it in sweep.settings)}, with {of}."
    words += f" The runs ended early: {sweep.failure}." if sweep.failure else ""
    return (
        f'<!DOCTYPE html><html lang="en"><head><meta charset="utf-8"><title>Sweep of {esc(path)}</title>'
        f"<style>{STYLE}{OWN_STYLE}</style></head><body><main><h1>What values do beside what seeds do</h1><p>{esc(words)}</p>"
        f'<div class="tiles">{"".join(tiles)}</div><h2>Combinations</h2>{combinations_table(sweep, has_limits)}'
        f"<h2>Greatest latencies</h2>{effects_table(sweep.settings, effects, has_spread)}"
        "<footer>The effect is how far the combinations are apart in the mean, over seeds, of the greatest latency of a run. "
        "The spread of seeds is how far the greatest latencies of the runs of one combination are apart, in the one where "
        "that is most. The effect of one key is how far its values are apart, each taken over all values of the others. It "
        f"shows what happened in these runs, and is no bound on what can happen. They are by {esc(made_by)}. This page is by {esc(program.tool('campaign').in_words())}.</footer></main></body></html>\n"
    )
