"""The part of a page that compares a run with another one."""
import os
from collections.abc import Iterator

from afdx.files.page_text import counted, esc
from afdx.model import Network
from afdx.page import comparison
from afdx.page.columns import DESTINATION_COLUMN, VL_COLUMN, Column, count_column, time_column
from afdx.page.given import Other
from afdx.page.panels import OfPage, panel
from afdx.reckon.bounds_file import Bounds

# What changed between two runs: the name of a table, its title, and the column by which it is sorted.
CHANGES = [
    ("slower", "Slower: the greatest latency grew", "change", time_column("change", "slower by")),
    ("faster", "Faster: the greatest latency fell", "fall", time_column("fall", "faster by")),
    ("more-lost", "Lost: more frames are missing", "lost", count_column("lost", "more missing")),
    ("fewer-lost", "Not lost any more: fewer frames are missing", "kept", count_column("kept", "fewer missing")),
]
BEFORE_AND_NOW = [
    time_column("before", "greatest before"),
    time_column("greatest", "greatest now"),
    Column("percent", "percent", "of before", "%"),
    time_column("mean_before", "mean before"),
    time_column("mean", "mean now"),
]


def against(page: OfPage, before: Other) -> str:
    other = before.tables
    rows = page.rows["against"] = comparison.of_both(page.given, before)
    pieces = []
    for name, title, key, change in CHANGES:
        only = [i for i, value in enumerate(rows[key]) if (value or 0) > 0]
        pieces.append(f"<h3>{title} ({len(only):,})</h3>")
        if only:
            times = BEFORE_AND_NOW if change.look == "us" else []
            columns = [VL_COLUMN, DESTINATION_COLUMN, change, *times, *counts_of_both(page, before)]
            pieces.append(page.grid(name, columns, key, "against", only))
    pieces += bounds_moved(page, before.bounds) + differences(page, other.net)
    words = f"This run against that of <code>{esc(os.path.basename(other.path))}</code>, worst first."
    alone = sorted(set(other.latencies) ^ set(page.tables.latencies))
    if alone:
        named = ", ".join(f"virtual link {vl} at {where}" for vl, where in alone[:5])
        more = " and others" if len(alone) > 5 else ""
        words += f" {counted(len(alone), 'destination')} of one run alone: {esc(named)}{more}."
    return panel("against", "Against another run", words, *pieces)


def bounds_moved(page: OfPage, before: Bounds | None) -> list[str]:
    """The bounds of both descriptions, those that moved most first."""
    now = page.given.bounds
    if not before or not now:
        return []
    rows = page.rows["bounds_moved"] = comparison.bounds_moved(before, now)
    title = f"<h3>Bounds that moved ({len(rows['vl']):,})</h3>"
    if not rows["vl"]:
        return [title]
    columns = [VL_COLUMN, DESTINATION_COLUMN, time_column("moved", "moved by", "– where one of the two has no bound")]
    columns += [time_column("before", "bound before"), time_column("now", "bound now")]
    return [title, page.grid("bounds-moved", columns, "moved", "bounds_moved")]


def differences(page: OfPage, before: Network) -> list[str]:
    """What the two descriptions say differently."""
    found = comparison.differences(before, page.net)
    title = f"<h3>What differs in the descriptions ({len(found):,})</h3>"
    if not found:
        return [title]
    names = ("what", "key", "before", "now")
    rows = page.rows["differences"] = {name: [it[i] for it in found] for i, name in enumerate(names)}
    columns = [Column(name, "text", name) for name in names]
    return [title, page.grid("differences", columns, "", "differences")]


def counts_of_both(page: OfPage, before: Other) -> Iterator[Column]:
    yield from (count_column("count_before", "delivered before"), count_column("count", "delivered now"))
    if page.given.ends and before.ends:
        yield count_column("missing_before", "missing before", look="range_of_counts")
        yield count_column("missing", "missing now", look="range_of_counts")
