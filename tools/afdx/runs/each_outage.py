"""What if a link or a switch is out: afdx campaign --each-outage. Each is out in turn, and what is lost end to end and
what becomes late is shown beside the same runs without it, as a table and as a page."""
import html
import itertools
import re
from collections.abc import Iterable, Iterator, Mapping, Sequence
from fractions import Fraction
from typing import NamedTuple

from afdx import files, model
from afdx.files import program
from afdx.files.page_text import us_text
from afdx.reckon.frames import Range, exactly
from afdx.reckon.limits import Limit
from afdx.runs import reading_processes, side_by_side
from afdx.runs.campaign_network import CampaignNetwork
from afdx.runs.outage_frames import CameOf, OfOutages
from afdx.runs.side_by_side import Failure, Keep, Run, Runs, Shown

TABLE_HEAD = (
    "out,vl,where,delivered_before,delivered,lost_before_least,lost_before_most,lost_least,lost_most,"
    "greatest_before_ns,greatest_ns"
)
# How many destinations of an outage are on the page at most; all are in the table.
MOST_ON_THE_PAGE = 30
# A virtual link and a destination.
Key = tuple[int, str]
# Attributes and text of a cell of a table.
Cell = tuple[str, str]


class Element(NamedTuple):
    """What is out: a link or a switch, with its names and the lines that go with it."""

    what: str
    names: tuple[str, ...]
    lines: tuple[str, ...]


def name_of(element: Element) -> str:
    return " ".join((element.what, *element.names))


def elements_of(net: model.Network) -> list[Element]:
    """Each link, and then each switch with all its lines, in the order of the description."""
    found = []
    for link in net.links:
        found.append(Element("link", (link.a, link.b), (f"{link.a}>{link.b}", f"{link.b}>{link.a}")))
    for node in net.nodes.values():
        if node.kind == "switch":
            lines = tuple(line for line in net.mbit if node.name in line.split(">"))
            found.append(Element("switch", (node.name,), lines))
    return found


def outages_text(element: Element, from_ns: int, until_ns: int) -> str:
    """The rows of the outages of an element, from a moment to the end of the run."""
    lines = []
    for line in element.lines:
        here, there = line.split(">")
        lines += ["[[outage]]", f'from = "{here}"', f'to = "{there}"', f"from_ns = {from_ns}"]
        lines.append(f"to_ns = {min(until_ns + 1, model.LATEST_NS)}")
    return "".join(line + "\n" for line in lines)


class Course:
    """What came of the runs with one element out, or with none: for each run what became of the frames of each virtual link at
    each destination, where that is not as in the run without an outage."""

    def __init__(self, element: Element | None, number: int) -> None:
        self.element, self.number = element, number
        self.came: list[CameOf] = []
        # What the outage does, and which limits it breaks, once all its runs are made.
        self.changes: list[Change] = []
        self.broken: list[Limit] = []

    def together(self, key: Key, first: "Course") -> tuple[int, Range, int]:
        """What came of a virtual link at a destination in all runs; `first` is the course without an outage."""
        came = [it.get(key) or before[key] for it, before in zip(self.came, first.came)]
        missing = sum((it.missing for it in came), exactly(0))
        return sum(it.count for it in came), missing, max(it.greatest for it in came)


class Change(NamedTuple):
    """What an outage does to a virtual link at a destination: the counts and latencies without it and with it."""

    vl: int
    where: str
    delivered_before: int
    delivered: int
    lost_before: Range
    lost: Range
    greatest_before: int
    greatest: int
    later: int


def more_lost(change: Change) -> Range:
    """How many frames more are lost, at the least and at the most."""
    return Range(
        max(0, change.lost.least - change.lost_before.most), max(0, change.lost.most - change.lost_before.least)
    )


def later(change: Change) -> int:
    """By how much the greatest latency grows, in ns, where it is more than what counts; else 0."""
    return change.later


def growth_that_counts(before: int, now: int, least: int | Fraction) -> int:
    """By how much a latency grows, in ns; 0 if it is no more than the least that counts: a number of ns, or a part of
    what it was."""
    grown = max(0, now - before)
    counts_from: int | Fraction = least if isinstance(least, int) else before * least
    return grown if grown > counts_from else 0


def least_later(text: str) -> int | Fraction:
    """The type of a word of the command line: from how much on a latency is later, in ns, or in percent of what it was."""
    if re.fullmatch(r"[0-9]{1,15}", text):
        return int(text)
    if re.fullmatch(r"[0-9]{1,6}(\.[0-9]{1,6})?%", text):
        return Fraction(text[:-1]) / 100
    raise ValueError


def later_in_words(least: int | Fraction) -> str:
    return f"{least:,} ns" if isinstance(least, int) else f"{float(least * 100):g} percent"


# What counts as later where nothing else is said.
USUAL_LATER = Fraction(1, 100)


class EachOutage:
    """The runs with each element out, for each of the seeds, and first those without an outage of their own.

    An element that no virtual link passes changes nothing, and is not run."""

    def __init__(
        self, net: CampaignNetwork, limits: Mapping[Key, Limit], seeds: Sequence[int], draws_offsets: bool, from_ns: int,
        least_later: int | Fraction = USUAL_LATER,
    ) -> None:
        self.net, self.limits, self.seeds, self.draws_offsets, self.from_ns = net, limits, seeds, draws_offsets, from_ns
        self.least_later = least_later
        self.elements = elements_of(net)
        used = [element for element in self.elements if any(net.users[line] for line in element.lines)]
        self.courses = [Course(element, number) for number, element in enumerate([None, *used])]
        self.done, self.status = 0, 0
        self.failure: str | None = None

    def count(self) -> int:
        return len(self.courses) * len(self.seeds)

    def runs(self) -> Iterator[Run]:
        for course in self.courses:
            for seed in self.seeds:
                text, name = self.net.with_seed(seed, self.draws_offsets), f"seed {seed}"
                if course.element:
                    name = f"{name} without {name_of(course.element)}"
                    text += outages_text(course.element, self.from_ns, self.net.until_ns)
                yield side_by_side.Run(name, text)

    def run(self, maker: Runs, keep: Keep, progress: Shown, jobs: int) -> None:
        """Has the runs made, and reckons what became of their frames, of several side by side. `keep` gets the
        beginning of the name of each one's files, and its texts."""
        progress.listen(maker)
        reckoner, jobs = OfOutages(self.net, self.draws_offsets), min(jobs, self.count())
        with reading_processes.beside(reckoner, maker, self.runs(), itertools.cycle(self.seeds), jobs) as results:
            try:
                for seed, run, printed, came in results:
                    course = self.courses[self.done // len(self.seeds)]
                    course.came.append(came)
                    if course.element and len(course.came) == len(self.seeds):
                        self.compare(course)
                    keep(f"outage-{course.number}-seed-{seed}", run.text, printed.tables)
                    self.done += 1
                    progress.update(self.done, None)
            except Failure as failure:
                self.status, self.failure = 1, str(failure)
            except files.ENDS as ended:
                self.status, said = files.why(ended)
                self.failure = f"{said}, after {self.done} of {self.count()} runs"
            finally:
                progress.end()
        # What was not run for all seeds cannot be compared.
        del self.courses[self.done // len(self.seeds) :]

    def compare(self, course: Course) -> None:
        """Notes what an outage makes lost or late, in the order of the tables, and the limits that are broken in it and not
        without it. The runs themselves are not needed any more."""
        first, changed = self.courses[0], set().union(*course.came)
        for key in sorted(changed, key=lambda it: (it[0], self.net.process[it[1]])):
            before, now = first.together(key, first), course.together(key, first)
            grown = growth_that_counts(before[2], now[2], self.least_later)
            change = Change(key[0], key[1], before[0], now[0], before[1], now[1], before[2], now[2], grown)
            if more_lost(change).most or now[2] > before[2]:
                course.changes.append(change)
        for key, limit in self.limits.items():
            if course.together(key, first)[2] > limit.most_ns() >= first.together(key, first)[2]:
                course.broken.append(limit)
        course.came = []

    def summaries(self) -> list["Summary"]:
        """Each outage with what it does, the worst first."""
        # Only the first course has no element.
        found = [Summary(course.number, course.element, course.changes, course.broken) for course in self.courses if course.element]
        return sorted(found, key=lambda it: (-it.lost().least, -it.lost().most, -it.latest(), it.number))

    def table(self, maker: program.Maker) -> str:
        """The table; its last column names the program."""
        lines = [TABLE_HEAD + ",program"]
        for course in self.courses[1:]:
            # Only the first has no element.
            assert course.element is not None
            for it in course.changes:
                numbers = it.delivered_before, it.delivered, *it.lost_before, *it.lost, it.greatest_before, it.greatest
                lines.append(f"{name_of(course.element)},{it.vl},{it.where},{','.join(map(str, numbers))},{maker.cell()}")
        return "\n".join(lines) + "\n"


class Summary(NamedTuple):
    """What an outage does: its number, what is out, what it changes, and the limits that it breaks."""

    number: int
    element: Element
    changes: list[Change]
    broken: list[Limit]

    def name(self) -> str:
        return name_of(self.element)

    def lost(self) -> Range:
        """How many frames more are lost end to end at all destinations together."""
        return sum(map(more_lost, self.changes), exactly(0))

    def losing(self) -> Range:
        """At how many destinations more frames are lost, surely and at the most."""
        ranges = [more_lost(change) for change in self.changes]
        return Range(sum(it.least > 0 for it in ranges), sum(it.most > 0 for it in ranges))

    def late(self) -> list[Change]:
        return [change for change in self.changes if later(change)]

    def latest(self) -> int:
        return max(map(later, self.changes), default=0)

    def in_words(self) -> str:
        text = f"{said(self.lost())} frames more lost end to end at {said(self.losing())} destinations, {len(self.late())} later"
        if self.late():
            worst = max(self.late(), key=later)
            text += f", most virtual link {worst.vl} at {worst.where} from {us_text(worst.greatest_before)} to {us_text(worst.greatest)}"
        return text


def said(count: Range) -> str:
    """A count that may be known only from the least to the most."""
    return f"{count.least:,}" if count.least == count.most else f"{count.least:,} to {count.most:,}"


# ---- the page ----

STYLE = """
body { font: 15px/1.45 system-ui, sans-serif; margin: 2rem auto; max-width: 72rem; padding: 0 1rem; color: #1f2937; }
h1 { font-size: 1.5rem; margin: 0 0 .3rem; }
.tiles { display: flex; flex-wrap: wrap; gap: .8rem; margin: 1rem 0; }
.tile { border: 1px solid #d1d5db; border-radius: .5rem; padding: .6rem 1rem; min-width: 9rem; }
.tile b { display: block; font-size: 1.4rem; }
.bad b { color: #b42318; } .good b { color: #17703c; }
table { border-collapse: collapse; width: 100%; }
th, td { text-align: right; padding: .3rem .6rem; border-bottom: 1px solid #e5e7eb; vertical-align: top; }
th:first-child, td:first-child, td.left { text-align: left; }
thead th { border-bottom: 2px solid #9ca3af; }
.lost { color: #b42318; font-weight: 600; } .late { color: #9a5b00; }
details table { margin: .5rem 0 1rem; font-size: .93em; } summary { cursor: pointer; }
footer { margin-top: 2rem; color: #6b7280; font-size: .9em; }
@media screen and (prefers-color-scheme: dark) {
:root { color-scheme: dark; } body { color: #dde4ea; background: #10161c; } .tile { border-color: #3c4c5c; }
th, td { border-color: #2d3844; } thead th { border-color: #46535f; } footer { color: #9aa8b5; }
.bad b, .lost { color: #ff8087; } .good b { color: #63cfa0; } .late { color: #f0b955; }
}
"""


def row(cells: Iterable[Cell], tag: str = "td") -> str:
    return "<tr>" + "".join(f"<{tag}{look}>{text}</{tag}>" for look, text in cells) + "</tr>"


def plain(*texts: object) -> list[Cell]:
    return [("", html.escape(str(text))) for text in texts]


def tile(name: str, value: object, look: str = "") -> str:
    return f'<div class="tile {look}"><b>{html.escape(str(value))}</b>{html.escape(name)}</div>'


def changes_table(changes: list[Change]) -> str:
    """The destinations of an outage, the worst first."""
    shown = [it for it in changes if more_lost(it).most or later(it)]
    worst = sorted(shown, key=lambda it: (-more_lost(it).least, -more_lost(it).most, -later(it), it.vl))
    heads = plain("virtual link", "destination", "delivered before", "delivered", "lost before", "lost", "greatest before", "greatest")
    rows = []
    for it in worst[:MOST_ON_THE_PAGE]:
        cells = plain(it.vl, it.where, f"{it.delivered_before:,}", f"{it.delivered:,}", said(it.lost_before), said(it.lost))
        cells += plain(f"{it.greatest_before:,} ns", f"{it.greatest:,} ns" if it.greatest else "nothing came")
        if more_lost(it).most:
            cells[5] = ' class="lost"', cells[5][1]
        if later(it):
            cells[7] = ' class="late"', cells[7][1]
        rows.append(row(cells))
    rest = len(changes) - len(rows)
    more = f"<p>{rest:,} more are in outages.csv.</p>" if rest else ""
    return f"<table><thead>{row(heads, 'th')}</thead><tbody>{''.join(rows)}</tbody></table>{more}"


def summary_row(it: Summary, has_limits: bool) -> str:
    name = html.escape(it.name())
    is_shown = any(more_lost(change).most or later(change) for change in it.changes)
    first = f"<details><summary>{name}</summary>{changes_table(it.changes)}</details>" if is_shown else name
    latest = max(it.late(), key=later, default=None)
    cells = [("", first), *plain(said(it.lost()), said(it.losing()), f"{len(it.late()):,}", f"{it.latest():,} ns" if latest else "")]
    if it.lost().most:
        cells[1] = ' class="lost"', cells[1][1]
    if latest:
        cells[3] = ' class="late"', cells[3][1]
    return row(cells + (plain(f"{len(it.broken):,}") if has_limits else []))


def page(found: EachOutage, path: str, made_by: str) -> str:
    """The page of all outages."""
    summaries = found.summaries()
    losing = sum(it.lost().most > 0 for it in summaries)
    late = sum(bool(it.late()) for it in summaries)
    links, switches = (sum(it.element.what == what for it in summaries) for what in ("link", "switch"))
    unused = len(found.elements) - (len(found.courses) - 1) if not found.failure else None
    tiles = [tile("links and switches out in turn", f"{links} and {switches}")]
    tiles.append(tile("outages that cost frames end to end", losing, "bad" if losing else "good"))
    tiles.append(tile("outages that make frames later", late))
    heads = plain("out", "frames more lost end to end", "destinations that lose", "destinations later", "latest by")
    if found.limits:
        tiles.append(tile("outages that break a limit", sum(bool(it.broken) for it in summaries)))
        heads += plain("limits broken")
    when = "the whole run" if found.from_ns == 0 else f"from {found.from_ns:,} ns to the end of the run"
    seeds = f"{len(found.seeds)} seeds from {found.seeds[0]} on" if len(found.seeds) > 1 else f"the seed {found.seeds[0]}"
    words = f"Each link and each switch of {path} was out in turn, {when}, with {seeds}, and is compared with the same runs without it."
    words += f" {unused} more are passed by no virtual link, so they change nothing." if unused else ""
    words += f" The runs ended early: {found.failure}." if found.failure else ""
    body = "".join(summary_row(it, bool(found.limits)) for it in summaries)
    return (
        f'<!DOCTYPE html><html lang="en"><head><meta charset="utf-8"><title>Outages of {html.escape(path)}</title>'
        f"<style>{STYLE}</style></head><body><main><h1>What if a link or a switch is out</h1><p>{html.escape(words)}</p>"
        f'<div class="tiles">{"".join(tiles)}</div><table id="outages"><thead>{row(heads, "th")}</thead><tbody>{body}</tbody>'
        "</table><footer>A frame is lost end to end where it is delivered by neither network. Where it is open how many are, it is "
        "given from the least to the most: a trace shows neither which port of a switch was full where copies go on by several, "
        "nor of which frames copies were lost after the last frame that came. Later means that the greatest latency "
        f"grows by more than {later_in_words(found.least_later)}; outages.csv has each. It shows what happened in these runs, and is no bound on what can happen. "
        f"They are by {html.escape(made_by)}. This page is by {html.escape(program.tool('campaign').in_words())}.</footer></main></body></html>\n"
    )
