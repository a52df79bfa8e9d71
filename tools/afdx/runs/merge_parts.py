"""Puts the parts of a campaign over seeds together. The result has the bytes of a campaign that was made at once: parts of another
network, program or rule of offsets, and a seed that is there twice or missing, are refused."""
import os
from collections.abc import Iterator
from typing import NamedTuple

from afdx import model
from afdx.files import Fault, cut, text_of
from afdx.model import Latency, Network, Tables, lines_of, whole_number
from afdx.reckon import latency_counts
from afdx.runs import campaign_parts, campaign_record
from afdx.runs.campaign_parts import Part
from afdx.runs.campaign_record import COUNTED_HEAD, GREATEST, GREATEST_HEAD, HISTOGRAMS, MERGED, MOST_LOST, MOST_LOST_HEAD, Record
from afdx.runs.merged import HISTOGRAMS_HEAD, Merged, MergedLoss


class Folder(NamedTuple):
    """The folder of a part, with what its record says: which part it is, and the seeds of the whole campaign."""

    path: str
    record: Record
    part: Part
    all_seeds: range

    def name(self) -> str:
        return os.path.join(self.path, campaign_record.NAME)

    def seeds(self) -> range:
        return self.part.seeds(self.all_seeds)

    def words(self) -> list[str]:
        return campaign_parts.without_part(self.record.words)

    def has_counts(self) -> bool:
        return "--histograms" in self.record.words


def folders_of(paths: list[str], net: str) -> list[Folder]:
    """The folders of all parts of one campaign of a description, in the order of their seeds."""
    found = [folder_of(path) for path in paths]
    first, checksum = found[0], model.checksum(model.text_of(net))
    for it in found:
        if it.record.description != checksum:
            text = f"is of another description: its checksum is {cut(it.record.description)}, and that of {net} is {checksum}"
            raise Fault(it.name(), None, text)
        judge(it, first)
    found.sort(key=lambda it: it.part.number)
    for one, other in zip(found, found[1:]):
        if one.part == other.part:
            raise Fault(other.name(), None, f"is part {one.part.text()}, and so is {one.name()}: its seeds would count twice")
    numbers = {it.part.number for it in found}
    lacks = next((Part(i, first.part.of) for i in range(1, first.part.of + 1) if i not in numbers), None)
    if lacks:
        seeds = lacks.seeds(first.all_seeds)
        raise Fault("--merge", None, f"part {lacks.text()} is missing, with the seeds {seeds[0]} to {seeds[-1]}")
    return found


def folder_of(path: str) -> Folder:
    """A folder by its record."""
    name = os.path.join(path, campaign_record.NAME)
    if os.path.isdir(path) and not os.path.exists(name):
        raise Fault(path, None, f"has no {campaign_record.NAME}: it is no folder of a campaign, or its runs are not done")
    record = campaign_record.read(name)
    known = campaign_parts.of_words(record.words)
    if known is None:
        raise Fault(name, None, "is no part of a campaign: `afdx campaign NET --seeds N --part 3/16` makes one")
    part, seeds = known
    begin = record.first_seed - seeds * (part.number - 1) // part.of
    found = Folder(path, record, part, range(begin, begin + seeds))
    if begin < 0 or record.seeds != len(found.seeds()):
        own, wanted = record.all_seeds(), found.seeds()
        text = f"has {record.seeds:,} seeds from {own.start} on, and part {part.text()} has {len(wanted):,} from {wanted.start} on: run it anew"
        raise Fault(name, None, text)
    return found


def judge(it: Folder, first: Folder) -> None:
    """Refuses a part that is not of the same campaign as the first one."""
    own, other = it.record, first.record
    if own.program != other.program:
        who = [f"{one.program.in_words()} (SHA-256 {one.program.sha256 or 'not known'})" for one in (own, other)]
        raise Fault(it.name(), None, f"its runs are by {who[0]}, and those of {first.name()} by {who[1]}")
    if own.offsets != other.offsets:
        drawn = ["are drawn" if one.offsets else "are those of the description" for one in (own, other)]
        raise Fault(it.name(), None, f"its offsets {drawn[0]}, and those of {first.name()} {drawn[1]}")
    if own.offset_rule != other.offset_rule:
        rules = [cut(str(one.offset_rule)) for one in (own, other)]
        raise Fault(it.name(), None, f"its offsets are drawn by the rule {rules[0]}, and those of {first.name()} by {rules[1]}")
    if own.until_ns != other.until_ns:
        raise Fault(it.name(), None, f"its runs end at {own.until_ns} ns, and those of {first.name()} at {other.until_ns} ns")
    if (it.part.of, it.all_seeds) != (first.part.of, first.all_seeds):
        what = [f"part {one.part.text()} of the seeds {one.all_seeds.start} to {one.all_seeds[-1]}" for one in (it, first)]
        raise Fault(it.name(), None, f"is {what[0]}, and {first.name()} is {what[1]}")
    if it.words() != first.words():
        raise Fault(it.name(), None, f"its words are {' '.join(it.words())}, and those of {first.name()} are {' '.join(first.words())}")


def merged(net: Network, folders: list[Folder]) -> Merged:
    """The tables of all parts together, as if one campaign had made the runs in the order of their seeds."""
    found = Merged(net)
    found.begin()
    for folder in folders:
        tables = Tables(path_of(folder, MERGED), net)
        if not tables.merged:
            raise Fault(tables.path, 1, "are the tables of one run, and no merged ones")
        over = greatest_of(folder, tables)
        for key, row in tables.latencies.items():
            if row.count:
                runs, least, total = over[key]
                found.over_seeds[key].add_part(runs, least, total)
                found.latencies[key].add(row.seed or 0, row.count, row.least, row.greatest, row.total)
        add_losses(found, folder, tables)
        if folder.has_counts():
            for key, bin_, count in histograms_of(folder, tables):
                found.over_seeds[key].counts.add([(bin_, count)])
    return found


def path_of(folder: Folder, name: str) -> str:
    """The path of a file of a part, whose bytes are still those that the part's record names."""
    path = os.path.join(folder.path, name)
    if campaign_record.sha256(text_of(path)) != folder.record.files.get(name):
        raise Fault(path, None, f"is not the file that {folder.name()} names: its SHA-256 is another one")
    return path


def greatest_of(folder: Folder, tables: Tables) -> dict[tuple[int, str], tuple[int, int, int]]:
    """For each destination in how many runs frames came, and the least and the sum of the greatest latencies of these runs."""
    path, head = path_of(folder, GREATEST), COUNTED_HEAD if folder.has_counts() else GREATEST_HEAD
    found = {}
    for i, line in enumerate(lines_of(path, [head], "a campaign's greatest latencies")[1:], 2):
        fields = dict(zip(head.split(","), line.split(",")))
        key, row = row_of(path, i, fields, tables)
        names = ("runs", "least_greatest_ns", "sum_greatest_ns")
        runs, least, total = (whole_number(path, i, name, fields.get(name, "")) for name in names)
        if row.count and not (1 <= runs <= folder.record.seeds and runs * least <= total <= runs * row.greatest):
            raise Fault(path, i, "is of another campaign than the merged tables beside it")
        found[key] = runs, least, total
    if found.keys() != tables.latencies.keys():
        raise Fault(path, None, f"is of another campaign than {tables.path}")
    return found


def row_of(path: str, i: int, fields: dict[str, str], tables: Tables) -> tuple[tuple[int, str], Latency]:
    """The destination that a line names, and its row of the merged tables."""
    key = whole_number(path, i, "the virtual link", fields["vl"]), fields.get("where", "")
    if key not in tables.latencies:
        raise Fault(path, i, f"{cut(key[1])} is no destination of virtual link {key[0]} in {tables.net.path}")
    return key, tables.latencies[key]


def add_losses(found: Merged, folder: Folder, tables: Tables) -> None:
    """Adds the losses of a part: how many, and the most in one run."""
    path, lost = path_of(folder, MOST_LOST), {}
    for i, line in enumerate(lines_of(path, [MOST_LOST_HEAD], "the most lost in one run")[1:], 2):
        vl, where, cause, most = (line.split(",") + [""] * 4)[:4]
        lost[whole_number(path, i, "the virtual link", vl), where, cause] = whole_number(path, i, "most", most)
    if lost.keys() != tables.losses.keys() or any(not 1 <= lost[key] <= row.count for key, row in tables.losses.items()):
        raise Fault(path, None, f"is of another campaign than {tables.path}")
    for key, row in tables.losses.items():
        found.losses.setdefault(key, MergedLoss()).add_part(row.seed or 0, row.count, lost[key])


def histograms_of(folder: Folder, tables: Tables) -> Iterator[tuple[tuple[int, str], int, int]]:
    """The bins of each destination, with how many frames came in each."""
    path = path_of(folder, HISTOGRAMS)
    for i, line in enumerate(lines_of(path, [HISTOGRAMS_HEAD], "a campaign's histograms")[1:], 2):
        fields = dict(zip(HISTOGRAMS_HEAD.split(","), line.split(",")))
        key, _ = row_of(path, i, fields, tables)
        begin, count = (whole_number(path, i, name, fields.get(name, "")) for name in ("from_ns", "count"))
        number = latency_counts.bin_of(begin)
        if latency_counts.ends_of(number)[0] != begin or begin >= 2**63:
            raise Fault(path, i, f"{begin} ns begins no bin of latencies")
        yield key, number, count
