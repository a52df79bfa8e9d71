"""The parts of every page: the network, what became of the frames, latencies and their distribution."""
from typing import Any, Protocol

from afdx.files.page_text import counted
from afdx.model import Loss, Network, Tables
from afdx.page.columns import (
    COPIES_COLUMN, DELIVERED_COLUMN, DESTINATION_COLUMN, VL_COLUMN, AnyRows, Column, Rows, count_column, seed_column, time_column,
)
from afdx.page.drawing import Drawing, legend_of_loads
from afdx.page.end_table import BARS, ENOUGH_FOR_BARS, FEW
from afdx.page.given import Given
from afdx.page.json_text import Blocks
from afdx.reckon.frames import Ends
from afdx.runs.campaign_record import PERCENTS


class OfPage(Protocol):
    """What the parts of a page need of it."""

    given: Given
    net: Network
    tables: Tables
    ends: Rows
    rows: dict[str, AnyRows | Blocks]
    lost: dict[int, list[Loss]]
    ends_of: dict[str, tuple[str, str]]

    def grid(
        self, name: str, columns: list[Column], sort: str, rows: str | Rows = "ends", only: list[int] | None = None,
        what: str = "lines", up: bool = False, always: int = 0,
    ) -> str: ...


def panel(name: str, title: str, words: str, *pieces: str) -> str:
    """A part of the page with its title and what there is to know of it."""
    said = f"<p>{words}</p>" if words else ""
    return f'<section id="{name}"><h2>{title}</h2>{said}' + "".join(pieces) + "</section>"


def legend(*items: tuple[str, str]) -> str:
    keys = "".join(f'<span><b class="k {look}"></b> {words}</span>' for look, words in items)
    return f'<div class="legend">{keys}</div>'


FIND = (
    '<div class="find"><label for="find">Find a virtual link</label><input id="find" type="search" autocomplete="off" '
    'placeholder="its number, or the name of an end system, a switch or a line"><ul id="found" hidden></ul></div>'
    '<div id="chosen" hidden></div>'
)


def network(page: OfPage) -> str:
    net = page.net
    picture = f'<div class="wide">{Drawing(net).svg()}</div>' if net.nodes else "<p>The network has no nodes.</p>"
    pieces = [FIND, picture, legend_of_loads(bool(net.outages)), '<div id="one" hidden></div>']
    if net.outages:
        pieces += ["<h3>Outages</h3>", outages(page)]
    columns = [
        Column("name", "line", "line"),
        Column("load", "load", "load", "%"),
        Column("carries", "percent", "carries", "Mbit/s", "what its virtual links can put on it"),
        count_column("mbit", "speed", unit="Mbit/s"),
        count_column("users", "virtual links", unit="number"),
    ]
    if page.given.bounds:
        hint = "bound on the bytes that wait before the line; amber where its port does not hold them"
        columns.append(count_column("waiting", "may wait", hint, "waiting_tone", "bytes"))
        columns.append(count_column("holds", "port holds", unit="bytes"))
    more = f"<details><summary>Load of each of the {counted(len(net.mbit), 'line')}</summary>"
    pieces += [more, page.grid("loads", columns, "load", "lines"), "</details>"]
    return panel("network", "The network", "", *pieces)


def outages(page: OfPage) -> str:
    found = sorted(page.net.outages, key=lambda it: it.from_ns - it.to_ns)
    columns = [Column("line", "line", "line"), time_column("from", "out from"), time_column("to", "to"), time_column("for", "for")]
    rows: dict[str, list[Any]] = {"line": [it.line for it in found], "from": [it.from_ns for it in found]}
    rows |= {"to": [it.to_ns for it in found], "for": [it.to_ns - it.from_ns for it in found]}
    return page.grid("outages", columns, "for", rows)


def of_virtual_link(page: OfPage) -> list[Column]:
    """The columns that say which line it is, with the name that the document has for the virtual link if it has any."""
    named = [Column("named", "words", "name", hint="as the document calls it")] if page.given.names.vls else []
    return [VL_COLUMN, *named, DESTINATION_COLUMN]


def end_to_end(page: OfPage) -> str:
    if not page.given.ends:
        words = (
            "How many frames were offered is not known of merged tables alone: give the folder of the campaign, or "
            "<code>--seeds</code>, and <code>--first</code> and <code>--offsets</code> where the campaign had them."
        )
        return panel("ends", "End to end", words)
    wide = "range_of_counts"
    columns = [
        *of_virtual_link(page),
        count_column("offered", "offered", "offered by the application until the end, drawn anew"),
        DELIVERED_COLUMN,
        count_column("under_way", "under way", "not delivered yet at the end, and may still come", look=wide),
        count_column("missing", "missing", "lost end to end", "missing_tone", look=wide),
    ]
    if any(found != 0 for found in page.ends["again"]):
        columns.append(count_column("again", "twice", "delivered a second time: SkewMax is too small", look=wide))
    for side in "AB":
        hint = f"on the way by network {side}, or refused at the destination"
        columns.append(count_column("lost" + side, "lost on " + side, hint, unit="copies", look=wide))
    columns.append(COPIES_COLUMN)
    if any(page.ends.get("messages", ())):
        columns.append(count_column("messages", "messages", "moments at which frames were offered, of a virtual link with bursts", unit="offered"))
        columns.append(count_column("whole", "whole", "messages of which as many frames came as were offered at that moment", unit="messages"))
    if any(page.ends["needed"]):
        hint = "how long a run must be to bring ten frames"
        columns.append(time_column("needed", "ten frames take", hint))
    if any(page.ends["why"]):
        columns.append(Column("why", "words", "why it is open", hint="if missing is a range"))
    words = (
        "What the application offered, and what became of it at each destination. A frame is missing where no copy "
        "of it came and none can come any more; copies that were lost while the other one came are counted apart."
    )
    return panel("ends", "End to end", words, page.grid("end-to-end", columns, "missing", only=by_trouble(page.given.ends, page.tables)))


def by_trouble(ends: Ends, tables: Tables) -> list[int]:
    """The destinations by their places in the tables. Those come first that lack most: frames, copies, or enough frames to show anything;
    and those last to which nothing was sent."""
    found = []
    for i, end in enumerate(ends.of[key] for key in tables.latencies):
        lost = sum(count.least for count in end.lost.values())
        found.append((-end.missing.least, -lost, not end.offered, min(FEW, end.delivered), i))
    return [i for *_, i in sorted(found)]


def distribution(page: OfPage) -> str:
    drawn = [Column("histogram", "histogram", "histogram")] if page.given.trace else []
    percents = [time_column(f"p{it}", f"{it}th", f"{it} % of the frames took no longer") for it in PERCENTS]
    columns = [*of_virtual_link(page), *drawn, *percents, time_column("greatest", "greatest"), DELIVERED_COLUMN]
    title, grid = "Distribution of the latencies", page.grid("percentiles", columns, "greatest")
    if not drawn:
        words = "Of the frames of all runs together, as the campaign has counted them: histograms.csv has each latency."
        return panel("distribution", title, words, grid)
    words = (
        f"From the trace. Each histogram goes from the least latency of its line to the greatest, in {BARS} steps "
        "of the same length; the height of a bar is the share of the frames. Fewer than "
        f"{ENOUGH_FOR_BARS} frames are drawn one by one."
    )
    marks = legend(*((f"p{percent}", f"{percent}th percentile") for percent in PERCENTS))
    return panel("distribution", title, words, marks, grid)
