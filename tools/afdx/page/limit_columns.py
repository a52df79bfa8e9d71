"""What the page has of limits, bounds and verdicts at each destination, column by column."""
from array import array
from typing import Any

from afdx.page import numbers
from afdx.page.columns import BAD, WARN
from afdx.page.given import Given
from afdx.page.numbers import column
from afdx.reckon import margins
from afdx.reckon.bounds_file import BY_PROGRAM, SURE, TWICE, Bounds
from afdx.reckon.margins import Margin

# Stands for the margin of a limit without a bound where margins are sorted.
NO_BOUND = -(2**53)
TONES = {margins.BROKEN: BAD, margins.BELOW: WARN, margins.UNKNOWN: WARN}


def of_limits(given: Given) -> dict[str, Any]:
    """Limits, the margins to them and the verdicts, in the order of the tables; and the place of each line by verdict."""
    held = [given.margins.get(key) for key in given.tables.latencies]
    order = order_of(given, held)
    found = {}
    if any(it.limit.ends.is_stated() for it in given.margins.values()):
        found["greatest_ends"] = column(it.with_ends(it.greatest) if it else None for it in held)
        found["bound_ends"] = column(it.with_ends(it.bound) if it else None for it in held)
    return found | {
        "limit": column(it.limit.ns if it else None for it in held),
        "margin": column(it.ns() if it else None for it in held),
        # A limit without a bound stands before all margins.
        "margin_order": column((NO_BOUND if it.has_bound and it.bound is None else it.ns()) if it else None for it in held),
        "limit_tone": array("b", [TONES.get(it.verdict(), 0) if it else 0 for it in held]),
        "verdict": [it.verdict() if it else "" for it in held],
        "verdict_order": order,
    }


def of_bounds(given: Given, bounds: Bounds) -> dict[str, Any]:
    """The bounds of each destination, in red those that the run shows to be wrong."""
    latencies, vls = given.tables.latencies, given.net.vls
    of = lambda kind: bounds.table.in_order_of(kind, latencies)
    greatest = [row.greatest if row.count else -1 for row in latencies.values()]
    above = lambda ones: array("b", [BAD if 0 <= ns < most else 0 for ns, most in zip(ones, greatest)])
    own, flags = of("contract" if given.by_contract else "bound"), of("flags")
    found: dict[str, Any] = {"bound": numbers.of_bounds(own), "bound_tone": above(own), "skew": numbers.of_bounds(of("skew"))}
    if given.by_contract:
        found["sent"] = numbers.of_bounds(of("bound"))
    elif bounds.has_contract():
        found["contract"] = numbers.of_bounds(of("contract"))
    if bounds.is_by_both():
        found |= {"bound_tool": numbers.of_bounds(of("bound_tool")), "bound_tool_tone": above(of("bound_tool"))}
        found["bound_mark"] = array("b", [int(ns >= 0 and not flag & BY_PROGRAM) for ns, flag in zip(of("bound"), flags)])
    found["sure"] = [SURE_BY[flag % TWICE] for flag in flags]
    found["sure_tone"] = array("b", [0 if flag % TWICE else WARN for flag in flags])
    found["skew_max"] = column(vls[row.vl].skew_ns for row in latencies.values())
    found["skew_tone"] = array("b", [WARN if flag & TWICE else 0 for flag in flags])
    return found


# The networks by which each frame comes, by the lower two flags.
SURE_BY = [" and ".join(sure) or "neither" for sure in SURE]


def order_of(given: Given, held: list[Margin | None]) -> "array[int]":
    """For each line of latencies its place by verdict and then by margin. Those without a limit come behind, the slowest first, and
    those where nothing came last."""
    rows = list(given.tables.latencies.values())

    def rank(i: int) -> tuple[Any, ...]:
        margin, row = held[i], rows[i]
        return (0, *margin.rank()) if margin else (1, -row.greatest if row.count else 1)

    places = array("q", bytes(8 * len(rows)))
    for place, i in enumerate(sorted(range(len(rows)), key=rank)):
        places[i] = place
    return places
