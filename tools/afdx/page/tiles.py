"""The tiles of a page: what went wrong first, then what the run was."""
from collections import Counter
from collections.abc import Collection, Iterator
from typing import Any
from urllib.parse import quote

from afdx.files.page_text import counted, esc, frame_count, frames_of, span, two_places
from afdx.model import Tables
from afdx.page.columns import Rows
from afdx.page.end_table import FEW
from afdx.page.given import Given
from afdx.reckon import margins
from afdx.reckon.bounds_file import Bounds
from afdx.reckon.frames import Range


def tile(name: str, value: str, more: str = "", look: str = "", where: str = "") -> str:
    """A tile, which leads to its lines: to a part of the page, or to a virtual link or a line of the network."""
    said = f"<span>{esc(name)}</span><b>{esc(value)}</b><small>{esc(more)}</small>"
    if not where:
        return f'<div class="tile {look}" data-name="{esc(name)}">{said}</div>'
    return f'<a class="tile {look}" data-name="{esc(name)}" href="#{esc(where)}">{said}</a>'


def tile_of_way(given: Given) -> str:
    """What was measured on the way and is above its bound."""
    above = given.way.above() if given.way else 0
    more = "hops, jitters, skews or what waits: one of the two is wrong"
    return tile("above on the way", f"{above:,}", more, "bad", "way") if above else ""


def tile_of_transmit_jitter(given: Given) -> str:
    """The end systems that may send later than the standard allows."""
    broken = given.transmit.broken()
    more = "40 µs and the frames of its virtual links, or what is known of its jitter, are more than ARINC 664 allows"
    return tile("transmit jitter too long", counted(len(broken), "end-system line"), more, "bad", "transmit") if broken else ""


def tiles(given: Given, ends: Rows) -> str:
    found = [*tiles_of_limits(given, ends), tile_of_above(given), tile_of_way(given), tile_of_transmit_jitter(given), tile_of_lost(given, ends)]
    found += [tile_of_too_long(given), tile_of_copies_lost(given.tables), *tiles_of_bounds(given.bounds), tile_of_few(given, ends), *tiles_of_run(given)]
    return '<div class="tiles">' + "".join(filter(None, found)) + "</div>"


def tile_of_above(given: Given) -> str:
    """The latencies above their bounds."""
    above = given.bounds.above(given.tables.latencies) if given.bounds else []
    if not above:
        return ""
    worst = max(above, key=lambda it: it[0].greatest - it[1])[0]
    more = f"most virtual link {worst.vl} at {worst.where}: one of the two is wrong"
    return tile("above their bound", counted(len(above), "latency", "latencies"), more, "bad", "latency")


def tile_of_too_long(given: Given) -> str:
    """Frames that may be of another run."""
    count = sum(end.too_long for end in given.ends.of.values()) if given.ends else 0
    if not count:
        return ""
    more = "would be longer on their way than twice any latency. Are these tables of another run, or other seeds?"
    return tile("under way too long", frame_count(count), more, "bad", "ends")


def tiles_of_bounds(bounds: Bounds | None) -> Iterator[str]:
    """What may go wrong in the worst case."""
    if not bounds:
        return
    refusing, twice, unsure, small = bounds.refusing(), bounds.twice(), bounds.not_sure(), bounds.too_small()
    links = counted(len({vl for vl, _ in refusing}), "virtual link")
    kinds: list[tuple[str, Collection[Any], Collection[Any], str]] = [
        ("accounts may refuse", refusing, bounds.accounts, f"frames of {links} come closer than policing_jitter_ns allows"),
        ("may be lost on both", unsure, bounds.of, "destinations to which no network brings each frame"),
        ("may be delivered twice", twice, bounds.of, "destinations where the copies may be further apart than SkewMax"),
        ("ports too small", small, bounds.waiting, "more bytes may wait there than port_bytes"),
    ]
    for name, found, all_of, more in kinds:
        where = "loads" if found is small else "worst"
        said = f"in the worst case: {more}" if found else "in the worst case"
        yield tile(name, f"{len(found):,} of {len(all_of):,}", said, "warn" if found else "good", where)


def tile_of_lost(given: Given, ends: Rows) -> str:
    if not given.ends:
        more = "of merged tables it is known with the folder of their campaign, or with --seeds"
        return tile("lost end to end", "not known", more, "warn", "ends")
    missing = under_way = Range(0, 0)
    for end in given.ends.of.values():
        missing, under_way = missing + end.missing, under_way + end.under_way
    offered = sum(ends["offered"])
    more = f"of {offered:,} offered, counted at each destination; {frames_of(under_way)} under way at the end"
    more += f"; open at {counted(open_at, 'destination')}, where it says why" if (open_at := sum(map(bool, ends["why"]))) else ""
    look = "bad" if missing.least else "warn" if missing.most or 0 in ends["count"] else "good"
    return tile("lost end to end", frames_of(missing), more, look, "ends")


def tile_of_copies_lost(tables: Tables) -> str:
    lost: Counter[str] = Counter()
    for row in tables.losses.values():
        lost[row.cause] += row.count
    del lost["duplicate"]
    causes = ", ".join(f"{cause} {frame_count(count)}" for cause, count in lost.most_common())
    return tile("copies lost", frame_count(lost.total()), causes or "no copy was lost", "" if lost else "good", "losses")


def tiles_of_limits(given: Given, ends: Rows) -> Iterator[str]:
    """What became of the limits; nothing is green of which nothing is known."""
    if not given.margins:
        return
    counts = Counter(it.verdict() for it in given.margins.values())
    broken, below, unknown = (counts[it] for it in (margins.BROKEN, margins.BELOW, margins.UNKNOWN))
    silent = sum(ends["count"][i] == 0 for i, limit in enumerate(ends["limit"]) if limit is not None) - unknown
    parts = [(broken, "broken"), (below, "below the bound"), (unknown, "not known: nothing was delivered there")]
    said = [f"{count:,} {words}" for count, words in parts if count]
    value = said.pop(0).partition(":")[0] if said else "all kept"
    said.append(f"{counts[margins.KEPT]:,} of {len(given.margins):,} kept")
    said += [f"by the bound alone at {silent:,}, where nothing was delivered"] if silent > 0 else []
    said += [] if given.bounds else ["by this run alone, without bounds"]
    yield tile("limits", value, ", ".join(said), "bad" if broken else "warn" if below or unknown else "good", "latency")


def tile_of_few(given: Given, ends: Rows) -> str:
    few = [i for i, count in enumerate(ends["count"]) if count < FEW]
    if not few:
        return ""
    said = []
    none = sum(ends["count"][i] == 0 for i in few)
    if none:
        said.append(f"nothing came at {none:,}")
    needed = [ends["needed"][i] for i in few if ends["needed"][i]]
    if needed:
        said.append(f"run {span(max(needed))} (until_ns = {max(needed):_}) for ten frames each")
    if len(needed) < len(few):
        said.append(f"at {len(few) - len(needed):,} too many are lost for that")
    return tile("fewer than ten frames", f"at {len(few):,} of {len(ends['count']):,}", "; ".join(said), "warn", "ends")


def tiles_of_run(given: Given) -> Iterator[str]:
    net, tables = given.net, given.tables
    delivered = sum(row.count for row in tables.latencies.values())
    copies = sum(row.count for row in tables.losses.values() if row.cause == "duplicate")
    of_runs = f"runs of {span(net.until_ns)} each" if tables.merged else span(net.until_ns)
    ordinary = f"; {counted(copies, 'second copy', 'second copies')} dropped, which is ordinary" if copies else ""
    yield tile("delivered", frame_count(delivered), f"in {of_runs}{ordinary}", "", "copies" if copies else "ends")
    worst = max(tables.latencies.values(), key=lambda row: row.greatest, default=None)
    if worst and worst.count:
        seed = f", seed {worst.seed}" if worst.seed is not None else ""
        said = f"virtual link {worst.vl} at {worst.where}{seed}"
        yield tile("greatest latency", span(worst.greatest), said, "", f"vl-{worst.vl}")
    if net.load:
        line = max(net.load, key=net.load.__getitem__)
        load = two_places(net.load[line]) + " %"
        look = "bad" if net.load[line] > 100 else ""
        yield tile("busiest line", load, f"{line}, of {net.mbit[line]} Mbit/s", look, "line-" + quote(line, safe=""))
    if net.outages:
        count = len(net.outages)
        said = f"on {len({outage.line for outage in net.outages})} of {len(net.mbit)} lines"
        after = sum(outage.from_ns > net.until_ns for outage in net.outages)
        said += f"; {after} begin{'s' if after == 1 else ''} after the end of the run" if after else ""
        yield tile("outages", str(count), said, "warn" if after else "", "grid-outages")
