"""The parts of a page that bounds and measures on the way give it."""
from collections.abc import Callable

from afdx.page.columns import DESTINATION_COLUMN, VL_COLUMN, Column, count_column, time_column
from afdx.page.panels import OfPage, panel
from afdx.reckon.bounds_file import TWICE, Bounds
from afdx.reckon.hops import OnTheWay


def worst_case(page: OfPage, bounds: Bounds) -> str:
    """What the bounds show of the worst case beside latencies."""
    # Accounts are rows of the jitters at switches, in the same order.
    refusing = only = [i for i, found in enumerate(bounds.table.column("refuses")) if found > 0]
    columns = [VL_COLUMN, Column("where", "text", "switch")]
    columns.append(time_column("jitter_bound", "jitter there", "by how much frames may come closer than a BAG; – where it has no bound"))
    columns.append(time_column("allowed", "policing jitter", "policing_jitter_ns: how much of it the account allows"))
    pieces = [f"<h3>Accounts that may refuse a frame ({len(refusing):,} of {len(bounds.accounts):,})</h3>"]
    if refusing:
        pieces.append(page.grid("accounts", columns, "jitter_bound", "jitters", only, what="accounts"))
    flags = bounds.table.in_order_of("flags", page.tables.latencies)
    only = [i for i, found in enumerate(flags) if not found % TWICE or found & TWICE]
    pieces.append(f"<h3>Destinations where a frame may be lost, or delivered twice ({len(only):,} of {len(bounds.of):,})</h3>")
    if only:
        sure = "the networks by which each frame comes, also in the worst case"
        columns = [VL_COLUMN, DESTINATION_COLUMN, Column("sure", "text", "sure by", "network", sure, "sure_tone")]
        hint = "the longest time between the two copies of a frame; – where there is one network, or no bound"
        columns += [time_column("skew", "skew of A and B", hint, "skew_tone"), time_column("skew_max", "SkewMax")]
        pieces.append(page.grid("unsure", columns, "skew", only=only, what="destinations"))
    words = (
        "What the bounds say beside latencies: no run has to show it, and some run may. An account refuses frames that "
        "come closer to each other than BAG and policing jitter allow (<code>policed</code>); a copy that comes later "
        "than SkewMax is delivered again. Ports that may be too small are in the table of loads above."
    )
    return panel("worst", "In the worst case", words, *pieces)


def on_the_way(page: OfPage, way: OnTheWay) -> str:
    """What was measured on the way, and its bounds."""
    sides = [("", "measured")] * way.is_measured + [("_bound", "bound")] * way.is_bounded

    def pair(kind: str, name: str, hint: str, make: Callable[[str, str, str, str], Column] = time_column) -> list[Column]:
        return [make(kind + side, f"{name}, {said}" if len(sides) > 1 else name, hint, kind + "_tone") for side, said in sides]

    page.rows |= {"parts": way.destinations(), "delays": way.hops(), "jitters": way.switches(), "backlogs": way.ports()}
    first = sides[0][0]
    parts = [VL_COLUMN, DESTINATION_COLUMN, *pair("wait", "wait in the regulator", "from the offer of a frame to its release")]
    parts += pair("network", "network's own", "from the release to the delivery: the latency less the wait")
    parts += pair("network_a", "by A", "from the release to the arrival of a copy by network A")
    parts += pair("network_b", "by B", "from the release to the arrival of a copy by network B")
    parts += [*pair("skew", "skew", "from the arrival of the first copy to that of the second"), time_column("skew_max", "SkewMax")]
    delays = [VL_COLUMN, Column("line", "line", "line")]
    delays += pair("delay", "delay", "from the arrival at the output port before the line to the last bit on the line")
    jitters = [VL_COLUMN, Column("where", "text", "switch")]
    jitters += pair("jitter", "jitter", "by how much frames come closer than a BAG")
    jitters.append(time_column("allowed", "allowed", "policing_jitter_ns"))
    in_bytes = lambda key, name, hint, tone: count_column(key, name, hint, tone, "bytes")
    backlogs = [Column("line", "line", "line"), *pair("backlog", "waits", "bytes of frames at the output port", in_bytes)]
    backlogs.append(count_column("holds", "port holds", unit="bytes"))
    words = {
        (True, True): "The greatest that was measured in this run, and its bound; red where it is above.",
        (True, False): "The greatest that was measured in this run. <code>--bounds</code> shows bounds beside it.",
        (False, True): "Bounds. <code>--hops</code> shows what was measured beside them.",
    }[way.is_measured, way.is_bounded]
    return panel(
        "way", "On the way", words,
        "<h3>Regulator, networks and skew</h3>", page.grid("parts", parts, "network" + first, "parts", what="destinations"),
        "<h3>Each hop</h3>", page.grid("delays", delays, "delay" + first, "delays", what="hops"),
        "<h3>Jitter at switches</h3>", page.grid("jitters", jitters, "jitter" + first, "jitters", what="accounts"),
        "<h3>What waits</h3>", page.grid("backlogs", backlogs, "backlog" + first, "backlogs", what="ports"),
    )


def transmit_jitter(page: OfPage) -> str:
    """The lines by which end systems send, and what the standard allows there: where something is known of their jitter,
    or where the description alone breaks the rule."""
    of = page.given.transmit
    if not of.users or not (of.is_measured or of.is_bounded or of.broken()):
        return ""
    page.rows["transmit"] = of.columns()
    columns = [Column("line", "line", "line"), count_column("users", "virtual links", unit="number")]
    if of.is_measured:
        columns.append(time_column("jitter", "measured", "from the release of a frame to its first bit, the greatest of this run", "jitter_tone"))
    if of.is_bounded:
        columns.append(time_column("jitter_bound", "bound", "the longest in this model; – where it has no bound", "jitter_bound_tone"))
    rule = "40 µs + the sum over the virtual links of (20 + Smax) * 8 bits by the speed of the line"
    columns += [time_column("sum", "by the rule", rule, "sum_tone"), time_column("allowed", "allowed", "by the rule, and 500 µs at most")]
    words = (
        "How late after its release an end system may begin to send a frame (ARINC 664 Part 7). Red is a sum by the rule "
        "above 500 µs, or a jitter above what is allowed. Of the 40 µs, which are for the end system's own work, this model uses none."
    )
    return panel("transmit", "Transmit jitter of end systems", words, page.grid("transmit-jitter", columns, "sum", "transmit"))
