"""What a campaign says of itself: DIR/campaign.json. afdx campaign writes it, and afdx report reads it, so that the
seeds of merged tables need not be given again."""
import hashlib
import json
import os
import re
from typing import Any, NamedTuple

from afdx.files import Fault, cut, program, text_of
from afdx.model import Latency, Tables, lines_of, whole_number

NAME = "campaign.json"
MERGED = "merged.csv"
GREATEST = "greatest.csv"
HISTOGRAMS = "histograms.csv"
# Of a part of a campaign: the most of each loss in one run.
MOST_LOST = "most_lost.csv"
MOST_LOST_HEAD = "vl,where,cause,most,seed"
GREATEST_HEAD = "vl,where,runs,least_greatest_ns,mean_greatest_ns,greatest_ns,sum_greatest_ns,seed"
# The percentiles of the frames of all runs, where each latency was counted.
PERCENTS = [50, 95, 99]
# How offsets are drawn: as docs/TOOLS.md states, section 9. Records of versions up to 0.2.0 name no rule.
OFFSET_RULE = "pcg32"
EARLIER_RULE = "python"
COUNTED_HEAD = GREATEST_HEAD + "".join(f",percent_{percent}_ns" for percent in PERCENTS)


class Record(NamedTuple):
    """Of a campaign: the checksum of its description; who made its runs, as tools/afdx/files/program.py knows it; the end of its runs, the
    first of its seeds and how many of them were run, whether offsets were drawn, and by which rule; its words as far as what comes
    of it depends on them; and the SHA-256 of each other file that it has written into its folder."""

    description: str
    program: program.Maker
    until_ns: int
    first_seed: int
    seeds: int
    offsets: bool
    offset_rule: str | None
    words: list[str]
    files: dict[str, str]

    def text(self) -> str:
        return json.dumps(self._asdict() | {"program": self.program._asdict()}, indent=2) + "\n"

    def all_seeds(self) -> range:
        return range(self.first_seed, self.first_seed + self.seeds)

    def draws_offsets(self, path: str) -> bool:
        """Whether the offsets of its runs were drawn, and so can be drawn again; `path` is that of the record."""
        if self.offset_rule not in (None, OFFSET_RULE):
            raise Fault(path, None, f"its offsets are drawn by the rule {cut(str(self.offset_rule))}, and this version draws others. Run the campaign anew")
        return self.offsets


TYPES: dict[str, type] = {
    "description": str, "program": dict, "until_ns": int, "first_seed": int, "seeds": int, "offsets": bool, "words": list, "files": dict,
}


def read(path: str) -> Record:
    """The record of a file."""
    try:
        found = json.loads(text_of(path))
    except (ValueError, RecursionError) as fault:
        line = getattr(fault, "lineno", None)
        raise Fault(path, line, f"is no JSON: {getattr(fault, 'msg', None) or 'a number is too long, or it is nested too deep'}") from None
    lacks = [name for name in TYPES if name not in found] if type(found) is dict else list(TYPES)
    if lacks:
        # Records of version 0.1.0 had no checksums.
        more = ". Run the campaign anew: an earlier version wrote this" if lacks == ["files"] else ""
        raise Fault(path, None, f"is no record of a campaign: it has no {lacks[0]}{more}")
    for name, wanted in TYPES.items():
        if not isinstance(found[name], wanted) or wanted is int and (type(found[name]) is bool or found[name] < 0):
            raise Fault(path, None, f"is no record of a campaign: {name} is {cut(repr(found[name]))}")
    maker = maker_of(found["program"])
    if maker is None:
        raise Fault(path, None, f"is no record of a campaign: program is {cut(repr(found['program']))}")
    rule = found.get("offset_rule", EARLIER_RULE) if found["offsets"] else None
    if not isinstance(rule, (str, type(None))) or found["offsets"] and not rule:
        raise Fault(path, None, f"is no record of a campaign: offset_rule is {cut(repr(rule))}")
    return Record(
        found["description"], maker, found["until_ns"], found["first_seed"], found["seeds"], found["offsets"], rule, found["words"],
        found["files"],
    )


def rule_of(draws_offsets: bool) -> str | None:
    """The rule by which a campaign of this version draws offsets, if it draws them."""
    return OFFSET_RULE if draws_offsets else None


def maker_of(found: dict[str, Any]) -> program.Maker | None:
    """The program that a record names, or None."""
    is_text = all(isinstance(found.get(name), (str, type(None))) for name in program.Maker._fields[:-1])
    if not is_text or not found.get("name") or type(found.get("proved")) is not bool:
        return None
    # What was proved has a checksum, by which it is known again.
    if found["proved"] and not re.fullmatch("[0-9a-f]{64}", found.get("sha256") or ""):
        return None
    fields: dict[str, Any] = {name: found.get(name) for name in program.Maker._fields}
    return program.Maker(**fields)


def beside(tables: str, text: str) -> Record | None:
    """The record of merged tables, by their path and text: that in their folder, if it is theirs; else None."""
    path = os.path.join(os.path.dirname(tables), NAME)
    if not os.path.exists(path):
        return None
    found = read(path)
    return found if found.files.get(MERGED) == sha256(text) else None


def sha256(text: str) -> str:
    return hashlib.sha256(text.encode("utf-8")).hexdigest()


def percentiles(found: Record | None, tables: Tables) -> dict[tuple[int, str], list[int] | None] | None:
    """For each virtual link and destination the percentiles of all frames, or None where nothing came: of merged tables whose
    campaign has counted each latency. None where it has not."""
    if found is None or "--histograms" not in found.words:
        return None
    path = os.path.join(os.path.dirname(tables.path), GREATEST)
    of: dict[tuple[int, str], list[int] | None] = {}
    for i, line in enumerate(lines_of(path, [COUNTED_HEAD], "a campaign with --histograms")[1:], 2):
        fields = dict(zip(COUNTED_HEAD.split(","), line.split(",")))
        key = whole_number(path, i, "the virtual link", fields["vl"]), fields.get("where", "")
        of[key] = percentiles_of(path, i, fields, tables.latencies.get(key))
    if of.keys() != tables.latencies.keys():
        raise Fault(path, None, f"is of another campaign than {tables.path}")
    return of


def percentiles_of(path: str, i: int, fields: dict[str, str], row: Latency | None) -> list[int] | None:
    """Those of a line, which must be that of a row of the merged tables."""
    names = ["greatest_ns", *(f"percent_{percent}_ns" for percent in PERCENTS)]
    found = [whole_number(path, i, name, fields[name]) for name in names if fields.get(name)]
    if row and not row.count and not any(found):
        return None
    if row is None or len(found) < len(names) or found[0] != row.greatest or not row.least <= found[1] <= found[2] <= found[3] <= row.greatest:
        raise Fault(path, i, "is of another campaign than the merged tables beside it")
    return found[1:]
