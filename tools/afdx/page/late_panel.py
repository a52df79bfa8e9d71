"""The part of a page on why frames are late: of the worst frame of broken or nearest limits each hop, as a picture and in numbers."""
import os
from collections import Counter

from afdx.files import program
from afdx.files.page_text import counted, esc, span
from afdx.model.document_names import DocumentNames
from afdx.page.page_files import part_of_page
from afdx.page.panels import legend, panel
from afdx.reckon import margins
from afdx.runs.late_frames import Ahead, Hop
from afdx.runs.worst_frames import AS_DESCRIBED, MOST_DELIVERED, Ways, Worst

# How wide and how high a picture is, and how many virtual links are named of those that went ahead.
WIDE, HIGH, MOST_NAMED = 360, 15, 8
TITLE = "Why it is late"
WORDS = (
    "The frame with the greatest latency of each limit that is broken, or else of the nearest ones: when it came to each port, behind "
    "which frames it waited there, and when its last bit left. afdx second-opinion makes the run again for this, so it is no part of the proofs."
)
MARKS = (
    ("reg", "waits in the regulator"), ("wait", "waits at a port, by the frame that is sent"), ("sends", "is sent"),
)


def late(ways: Ways, names: DocumentNames) -> str:
    """The panel of a page."""
    pieces = [legend(*MARKS)] if ways.found else []
    pieces += [way(i, it, names) for i, it in enumerate(ways.found, 1)]
    if ways.left_out:
        text = (
            f"For {counted(ways.left_out, 'limit')} the way is not shown: its runs deliver more than {MOST_DELIVERED:,} frames together. "
            "With <code>--late FILE</code> it is shown, however long that takes."
        )
        pieces.append(f"<p>{text}</p>")
    if ways.other:
        text = f"For {counted(ways.other, 'limit')} the way is not shown: the run that was made again has another greatest latency there."
        pieces.append(f'<p><span class="warn">{text}</span></p>')
    return panel("late", TITLE, WORDS, *pieces)


def alone(ways: Ways, path: str, names: DocumentNames, made_by: str) -> str:
    """A page of the ways alone, as a campaign of aimed runs writes it."""
    name = esc(os.path.basename(path))
    return (
        f'<!DOCTYPE html>\n<html lang="en"><head><meta charset="utf-8"><title>{TITLE}: {name}</title>\n'
        f'<meta name="viewport" content="width=device-width,initial-scale=1"><style>\n{part_of_page("report.css")}</style></head>\n'
        f"<body><main><header><h1>{name}</h1></header>{late(ways, names)}"
        f"<footer>The runs are by {esc(made_by)}. This page is by {esc(program.tool('campaign').in_words())}.</footer></main></body></html>\n"
    )


def way(i: int, it: Worst, names: DocumentNames) -> str:
    """The way of a frame, the one of this number: a title, and a table with a line for the regulator and for each port."""
    late, limit = it.late, it.margin.limit
    named = f" {esc(names.name(late.vl))}" if names.name(late.vl) else ""
    seed = "" if it.run == AS_DESCRIBED else f", {it.run}"
    tone = ' class="bad"' if it.margin.verdict() == margins.BROKEN else ""
    ends = f" with {span(limit.ends.together())} of end systems" if limit.ends.is_stated() else ""
    said = f"<span{tone}>{span(late.latency_ns())}</span>, limit {span(limit.ns)}{ends}: {it.margin.verdict()}"
    how = f"{late.size:,} bytes, by network {late.network}, offered at {span(late.offered_ns)}, seed {it.seed}{seed}"
    head = "<tr><th>at</th>" + "".join(f'<th class="n">{name}<small>µs</small></th>' for name in ("came", "waited", "first bit", "last bit left"))
    rows = [regulator(it)] + [port(it, hop) for hop in late.hops]
    return (
        f"<h3>Virtual link {late.vl}{named} at {esc(late.where)}: {said}</h3><p>{how}</p>"
        f'<div class="wide"><table class="way" id="late-{i}"><thead>{head}<th>from the offer to the destination</th><th>behind</th></tr></thead>'
        f"<tbody>{''.join(rows)}</tbody></table></div>"
    )


def regulator(it: Worst) -> str:
    late = it.late
    wait = late.released_ns - late.offered_ns
    bars = bar(it, "reg", late.offered_ns, late.released_ns, "waits in the regulator")
    source = late.hops[0].line.split(">")[0]
    behind = "earlier frames of its virtual link, a BAG each" if wait else ""
    return row(f"{esc(source)}, regulator", late.offered_ns, wait, late.released_ns, None, bars, behind)


def port(it: Worst, hop: Hop) -> str:
    bars = "".join(
        bar(it, f"wait w{i % 2}", max(hop.came_ns, ahead.begins_ns), min(hop.begins_ns, ahead.ends_ns), f"virtual link {ahead.vl}, {ahead.size} bytes")
        for i, ahead in enumerate(hop.ahead)
    )
    bars += bar(it, "sends", hop.begins_ns, hop.left_ns, f"is sent on {hop.line}")
    return row(esc(hop.line), hop.came_ns, hop.begins_ns - hop.came_ns, hop.begins_ns, hop.left_ns, bars, behind(hop.ahead))


def row(name: str, came: int, waited: int, begins: int, left: int | None, bars: str, behind: str) -> str:
    number = lambda ns: "" if ns is None else span(ns).removesuffix(" µs")
    cells = "".join(f'<td class="n">{number(ns)}</td>' for ns in (came, waited, begins, left))
    picture = f'<svg viewBox="0 0 {WIDE} {HIGH}" width="{WIDE}" height="{HIGH}" preserveAspectRatio="none">{bars}</svg>'
    return f'<tr><td>{name}</td>{cells}<td class="steps">{picture}</td><td class="wrap">{behind}</td></tr>'


def bar(it: Worst, look: str, begin: int, end: int, title: str) -> str:
    """A bar of the picture, of which one edge is the offer and the other the arrival at the destination."""
    if end <= begin:
        return ""
    scale = WIDE / max(1, it.late.latency_ns())
    left, wide = (begin - it.late.offered_ns) * scale, max(1.0, (end - begin) * scale)
    return f'<rect class="{look}" x="{left:.1f}" width="{wide:.1f}" height="{HIGH}"><title>{esc(title)}: {span(end - begin)}</title></rect>'


def behind(ahead: tuple[Ahead, ...]) -> str:
    """The frames that went ahead, counted by virtual link and size, in the order in which each came first."""
    if not ahead:
        return ""
    found = Counter((one.vl, one.size) for one in ahead)
    said = [f"{vl}{f' × {count}' if count > 1 else ''} ({size:,} bytes)" for (vl, size), count in list(found.items())[:MOST_NAMED]]
    more = f" and {len(found) - MOST_NAMED} more" if len(found) > MOST_NAMED else ""
    return f"{counted(len(ahead), 'frame')} of virtual link {', '.join(said)}{more}"
