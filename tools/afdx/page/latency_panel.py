"""The part of a page on latencies: what each took, its bound and by which program that is, its limit and the verdict."""
from afdx.files.page_text import counted, esc
from afdx.page.columns import (
    BAD, COPIES_COLUMN, DELIVERED_COLUMN, Column, count_column, seed_column, time_column,
)
from afdx.page.panels import OfPage, legend, of_virtual_link, panel
from afdx.reckon import end_systems
from afdx.reckon.bounds_file import Bounds

# What stands behind a bound of the tool in a column of the program's.
MARK = "†"
# How the small text of a column's name states whose numbers they are.
OF_PROGRAM, OF_TOOL, OF_CONTRACT = "µs, afdxsim bounds", "µs, afdx bounds", "µs, afdxsim bounds --contract"


def latency(page: OfPage) -> str:
    given, columns = page.given, columns_of(page)
    words = (
        "From the offer of the application until the frame is whole at the destination, with the wait in the "
        "regulator. Each step of the axis is ten times the one before."
    )
    if given.margins:
        words += f" {of_end_systems(page)}"
    pieces = [by_whom(given.bounds)] if given.bounds else []
    pieces.append(marks_of_ranges(bool(given.margins), given.bounds is not None))
    # Where there are limits, the worst verdict comes first.
    if given.margins:
        broken = sum(tone == BAD for tone in page.ends["limit_tone"])
        pieces.append(page.grid("latencies", columns, "verdict", up=True, always=broken))
    else:
        pieces.append(page.grid("latencies", columns, "greatest"))
    return panel("latency", "Limits and latencies" if given.margins else "Latencies", words, *pieces)


def columns_of(page: OfPage) -> list[Column]:
    """The columns of the table: first those that a narrow screen shows."""
    has_limits, bounds = bool(page.given.margins), page.given.bounds
    columns = [*of_virtual_link(page), time_column("greatest", "greatest", "the greatest latency that was measured")]
    columns += bound_columns(page, bounds) if bounds else []
    if has_limits:
        hint = "the limit less " + ("the bound" if bounds else "the greatest")
        columns.append(time_column("margin", "margin", hint, "limit_tone")._replace(order="margin_order"))
        columns.append(time_column("limit", "limit", "", "limit_tone"))
        columns += with_ends(page)
        hint = "broken by a latency; below its bound, or without one; kept; or not known, as nothing was delivered"
        columns.append(Column("verdict", "text", "verdict", "", hint, "limit_tone", "verdict_order"))
    columns += [Column("greatest", "range", "range"), time_column("least", "least"), time_column("mean", "mean")]
    columns.append(time_column("spread", "spread", "greatest less least"))
    columns += more_bounds(page, bounds) if bounds else []
    closer = "policing_jitter_ns: how much closer than a BAG frames may come to a switch"
    columns += [time_column("bag", "BAG"), time_column("jitter", "jitter", "jitter_ns: how late the application may offer a frame")]
    columns += [time_column("policing", "policing jitter", closer), DELIVERED_COLUMN, COPIES_COLUMN]
    return columns + ([seed_column("the seed whose run gave the greatest latency")] if page.tables.merged else [])


def of_end_systems(page: OfPage) -> str:
    """Whether limits count the latency of end systems."""
    stated = sum(it.limit.ends.is_stated() for it in page.given.margins.values())
    if not stated:
        return f"Limits are compared {end_systems.NOT_STATED}."
    of = "" if stated == len(page.given.margins) else f" of {stated:,} of {len(page.given.margins):,} limits"
    return f"Margins count the latency{of} that the limits state of end systems (tx_latency and rx_latency)."


def with_ends(page: OfPage) -> list[Column]:
    """What is measured and its bound, with the latency of end systems."""
    if "greatest_ends" not in page.ends:
        return []
    hint = "with the latency of the sending and the receiving end system, as the limits state it"
    found = [time_column("greatest_ends", "greatest and end systems", hint, "limit_tone")]
    return found + ([time_column("bound_ends", "bound and end systems", hint)] if page.given.bounds else [])


def bound_columns(page: OfPage, bounds: Bounds) -> list[Column]:
    """The bound that decides."""
    if page.given.by_contract:
        hint = "holds whatever other end systems send, as long as no frame is longer than the smax of its virtual link"
        return [Column("bound", "us", "bound", OF_CONTRACT, hint, "bound_tone")]
    if not bounds.is_by_both():
        return [time_column("bound", "bound", HINT_OF_TOOL, "bound_tone")._replace(unit=OF_TOOL if bounds.states_by else "µs")]
    hint = f"the bound that the program prints, with the sizes that are sent; {MARK} by afdx bounds where the program has none"
    return [Column("bound", "us", "bound", OF_PROGRAM, hint, "bound_tone", mark="bound_mark")]


HINT_OF_TOOL = "a bound of this model, computed outside the proofs"


def more_bounds(page: OfPage, bounds: Bounds) -> list[Column]:
    """The bounds beside the one that decides."""
    found = []
    if page.given.by_contract:
        found.append(Column("sent", "us", "bound of the sizes sent", OF_PROGRAM, "with the sizes that NET states", mark="bound_mark"))
    elif bounds.has_contract():
        found.append(Column("contract", "us", "bound whatever others send", OF_CONTRACT, "with frames up to the smax of each virtual link"))
    if bounds.is_by_both():
        hint = HINT_OF_TOOL + "; of two networks often that of the earlier copy"
        found.append(Column("bound_tool", "us", "bound of the tool", OF_TOOL, hint, "bound_tool_tone"))
    return found


def by_whom(bounds: Bounds) -> str:
    """By which program each bound is."""
    if not bounds.is_by_both():
        made = f" ({esc(bounds.made_by)})" if bounds.made_by else ""
        return f'<p class="by">Bounds are by <b>afdx bounds</b>{made}, outside the proofs: no program printed any here.</p>'
    by_program, _, by_tool = (bounds.made_by or "").rpartition(" and ")
    lacks = bounds.by_tool_alone()
    mark = f" It has none for {counted(lacks, 'destination')}, where that of afdx bounds stands with the mark {MARK}." if lacks else ""
    return (
        f'<p class="by"><b>bound</b> is printed by <b>afdxsim bounds</b> ({esc(by_program)}): margins and verdicts go by it.{mark} '
        f"<b>bound of the tool</b>, what may be lost or delivered twice, jitter, skew and hops are by <b>afdx bounds</b> ({esc(by_tool)}).</p>"
    )


def marks_of_ranges(has_limits: bool, has_bounds: bool) -> str:
    marks = [("range", "least to greatest"), ("range late", "the same, where the greatest is above the BAG")]
    marks += [("dot", "mean"), ("bag", "BAG"), ("jit", "jitter of the offers"), ("pol", "policing jitter")]
    if has_limits:
        marks.append(("limit", "limit; red below the greatest" + (", amber below the bound" if has_bounds else "")))
    if has_bounds:
        marks.append(("bound", "worst-case bound"))
    return legend(*marks)
