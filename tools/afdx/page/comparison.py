"""What changed from one run to another: latencies and losses, bounds, and what the two descriptions say."""
from collections import Counter
from fractions import Fraction
from typing import Any

from afdx import model
from afdx.files.page_text import hundredths, mean_ns, one_or_range
from afdx.page.given import Given, Other
from afdx.reckon.bounds_file import Bounds


def of_both(given: Given, other: Other) -> dict[str, list[Any]]:
    """For each virtual link and destination of both runs: before and now, and what changed, column by column."""
    found: dict[str, list[Any]] = {}
    for key, row in given.tables.latencies.items():
        before = other.tables.latencies.get(key)
        if before is None:
            continue
        change = row.greatest - before.greatest if row.count and before.count else None
        lost = before.count - row.count
        shown = {"vl": row.vl, "where": row.where, "change": change, "fall": None if change is None else -change}
        shown |= {"before": before.greatest if before.count else None, "greatest": row.greatest if row.count else None}
        shown["percent"] = hundredths(Fraction(row.greatest * 100, before.greatest)) if change is not None else None
        shown |= {"mean_before": mean_ns(before) if before.count else None, "mean": mean_ns(row) if row.count else None}
        shown |= {"count_before": before.count, "count": row.count}
        if given.ends and other.ends:
            now, then = given.ends.of[key].missing, other.ends.of[key].missing
            shown |= {"missing_before": one_or_range(then), "missing": one_or_range(now)}
            # Of what is left open, the change that is sure.
            sure, fewer = now.least - then.most, then.least - now.most
            lost = max(0, sure) - max(0, fewer)
        shown |= {"lost": lost, "kept": -lost}
        for name, value in shown.items():
            found.setdefault(name, []).append(value)
    return found or {"vl": [], "change": [], "fall": [], "lost": [], "kept": []}


def bounds_moved(before: Bounds, now: Bounds) -> dict[str, list[Any]]:
    """The bounds of destinations of both descriptions that are not the same, column by column."""
    found: dict[str, list[Any]] = {"vl": [], "where": [], "before": [], "now": [], "moved": []}
    for key, bound in now.of.items():
        if key in before.of and before.of[key].ns != bound.ns:
            was = before.of[key].ns
            moved = None if was is None or bound.ns is None else bound.ns - was
            for name, value in zip(found, (*key, was, bound.ns, moved)):
                found[name].append(value)
    return found


def differences(before: model.Network, now: model.Network) -> list[tuple[str, ...]]:
    """What two descriptions say differently: of which row, which key, before and now."""
    found: list[tuple[str, ...]] = []
    for section in ("top", *model.SECTIONS):
        one, other = named_rows(before, section), named_rows(now, section)
        for name in [*one, *(name for name in other if name not in one)]:
            if name not in other or name not in one:
                found.append((name, "", *(("there", "not there") if name in one else ("not there", "there"))))
                continue
            for key in model.KEYS[section]:
                values = [shown(row, key) for row in (one[name], other[name])]
                if values[0] != values[1]:
                    found.append((name, key.name, *values))
    return found


def named_rows(net: model.Network, section: str) -> dict[str, dict[str, Any]]:
    """The rows of a section by what they are called. Outages of one line, and streams of one virtual link, have numbers."""
    if section == "top":
        return {"the run": net.description.tree}
    found: dict[str, dict[str, Any]] = {}
    seen: Counter[str] = Counter()
    for row in net.description.rows(section):
        name = {
            "node": lambda: f"node {row['name']}", "vl": lambda: f"virtual link {row['id']}",
            "link": lambda: f"link {'-'.join(sorted((row['a'], row['b'])))}", "outage": lambda: f"outage {row['from']}>{row['to']}",
            "stream": lambda: f"stream of virtual link {row['vl']}",
        }[section]()
        seen[name] += 1
        found[name if seen[name] == 1 else f"{name}, number {seen[name]}"] = row
    return found


def shown(row: dict[str, Any], key: model.Key) -> str:
    """A value as a reader compares it, cut where it is long."""
    value = row.get(key.name, key.usual)
    if key.value_type == "name" and key.name in ("a", "b"):
        return ""
    text = "" if value is None else model.written(value) if key.value_type == "paths" else str(value)
    return text if len(text) <= 80 else text[:76] + " .."
