"""The parts of a page on lost and second copies."""
from collections import Counter
from fractions import Fraction
from typing import Any

from afdx.files.page_text import span
from afdx.model import CAUSES, Loss
from afdx.model.traces import MOMENTS, Trace
from afdx.page.columns import DESTINATION_COLUMN, VL_COLUMN, Column, count_column, seed_column
from afdx.page.drawing import chart_over_time
from afdx.page.panels import OfPage, panel
from afdx.reckon.frames import Journey, Route


LOSSES = CAUSES[:-1]
COLOURS = dict(zip(LOSSES, ["#e69f00", "#c9392b", "#6c757d", "#111827", "#8e5ea2", "#2f6fb0", "#2a9d78"]))


def losses(page: OfPage) -> str:
    lost = [row for rows in page.lost.values() for row in rows]
    if not lost:
        return panel("losses", "Copies lost", "", "<p><b>No copy was lost.</b></p>")
    words = "Frames, or copies of frames, by the place where they were lost and the cause. The darker, the more."
    each = ["<h3>By virtual link</h3>", losses_of_each(page, sorted(lost, key=lambda row: row.line))]
    return panel("losses", "Copies lost", words, losses_by_place(page, lost), *each)


def losses_by_place(page: OfPage, lost: list[Loss]) -> str:
    places: dict[str, Counter[str]] = {}
    for row in lost:
        places.setdefault(row.where, Counter())[row.cause] += row.count
    causes = [cause for cause in LOSSES if any(found[cause] for found in places.values())]
    order = sorted(places, key=page.net.process.__getitem__)
    rows: dict[str, list[Any]] = {cause: [places[where][cause] for where in order] for cause in causes}
    rows |= {"where": order, "together": [places[where].total() for where in order]}
    columns = [Column("where", "text", "place")]
    columns += [count_column(cause, cause, look="heat") for cause in causes]
    columns.append(count_column("together", "together"))
    return page.grid("heat", columns, "together", rows, what="places")


def losses_of_each(page: OfPage, lost: list[Loss]) -> str:
    columns = [VL_COLUMN, Column("where", "text", "place"), Column("net", "text", "network")]
    columns += [Column("cause", "text", "cause"), count_column("count", "lost")]
    rows = {name: [getattr(row, name) for row in lost] for name in ("vl", "where", "cause", "count")}
    rows["net"] = [side_of(page, row) for row in lost]
    if page.tables.merged:
        columns.append(seed_column("the seed whose run lost the most of them"))
        rows["seed"] = [row.seed for row in lost]
    return page.grid("lost", columns, "count", rows)


def side_of(page: OfPage, loss: Loss) -> str:
    """The network on which copies were lost; of an end system tables may leave it open."""
    vl = page.net.vls[loss.vl]
    found = {net for name in page.ends_of.get(loss.where, (loss.where,)) if (net := page.net.nodes[name].net)}
    if found:
        return found.pop()
    if loss.cause == "integrity":
        return " or ".join(Journey(Route(page.net, vl, loss.where), page.lost[loss.vl]).may_refuse)
    return " or ".join(side for side in "AB" if vl.paths[side])


def over_time(page: OfPage, trace: Trace) -> str:
    lost = trace.over_time
    parts = [(cause, lost[cause], COLOURS[cause]) for cause in LOSSES if any(lost[cause])]
    step = span(Fraction(page.net.until_ns, MOMENTS).__ceil__())
    words = f"From the trace: frames and copies in each hundredth of the run, {step}, by cause."
    if page.net.outages:
        words += " Outages are shaded."
    if parts:
        key = '<span><b class="k" style="background:{}"></b> {}</span>'
        keys = "".join(key.format(colour, cause) for cause, _, colour in parts)
        pieces = [f'<div class="legend">{keys}</div>', chart_over_time(page.net, parts, 170, "lost-over-time")]
    else:
        pieces = ["<p><b>No copy was lost.</b></p>"]
    copies = lost["duplicate"]
    if any(copies):
        pieces += ["<h3>Second copies (ordinary)</h3>"]
        pieces += [chart_over_time(page.net, [("second copies", copies, "#a9b4bf")], 70, "copies-over-time")]
    return panel("time", "Losses over time", words, *pieces)


def second_copies(page: OfPage) -> str:
    """The second copies, which are ordinary, by destination."""
    found: dict[str, list[int]] = {}
    for row in page.tables.latencies.values():
        both = len(page.net.vls[row.vl].destinations[row.where]) == 2
        copies = page.tables.losses.get((row.vl, row.where, "duplicate"))
        sums = found.setdefault(row.where, [0, 0, 0])
        sums[0] += row.count if both else 0
        sums[1] += copies.count if copies else 0
        sums[2] += row.count - (copies.count if copies else 0) if both else 0
    found = {where: found[where] for where in sorted(found, key=page.net.process.__getitem__) if any(found[where][:2])}
    if not found:
        return ""
    columns = [
        DESTINATION_COLUMN,
        count_column("count", "delivered", "of virtual links that come by both networks"),
        count_column("copies", "second copies"),
        count_column("without", "without one", "delivered, and no second copy came until the end"),
    ]
    names = ("count", "copies", "without")
    rows = {name: [sums[i] for sums in found.values()] for i, name in enumerate(names)} | {"where": list(found)}
    words = (
        "Where both networks work, each frame comes twice, and its second copy is dropped as "
        "<code>duplicate</code>. This is ordinary and no loss. A frame without a second copy lost it on one "
        "network, or the run ended first."
    )
    grid = page.grid("copies-of", columns, "without", rows, what="destinations")
    return panel("copies", "Second copies", words, grid)
