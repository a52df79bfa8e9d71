"""What a page is made of: the files that the words name, held against each other."""
import argparse
import os
import time
from collections.abc import Sequence
from typing import Any, NamedTuple

from afdx import files, model
from afdx.files import cut
from afdx.files.page_text import counted
from afdx.model import Network, Tables
from afdx.model.document_names import DocumentNames
from afdx.model.traces import Trace
from afdx.reckon import bounds_file, bounds_reader, bounds_table, frames, hops, limits, margins, transmit_jitter
from afdx.reckon.frames import Ends
from afdx.runs import campaign_record, worst_frames


# How long is waited between two looks for bounds that are computed at the same time, in seconds.
BETWEEN_LOOKS = 0.02


class Other(NamedTuple):
    """The run with which a page compares: its tables, what became of its frames, and its bounds, each None if not known."""

    tables: Tables
    ends: Ends | None
    bounds: bounds_file.Bounds | None


class Given(NamedTuple):
    """What a page is made of. `ends` is what became of all frames, if it can be known. `margins` has those of the destinations
    with a limit, by verdict and then the least first, and `files` all files that the page is made of. `way` has what was measured on the way and its
    bounds, and is None if there is neither. `percentiles` has those of all frames of merged tables if their campaign has counted
    each latency. `transmit` has what is known of the transmit jitter of end systems, and `names` what the document
    calls virtual links and nodes."""

    net: Network
    tables: Tables
    trace: Trace | None
    percentiles: dict[tuple[int, str], list[int] | None] | None
    ends: Ends | None
    margins: dict[tuple[int, str], margins.Margin]
    bounds: bounds_file.Bounds | None
    other: Other | None
    way: hops.OnTheWay | None
    transmit: transmit_jitter.TransmitJitter
    files: list[str]
    made_by: str | None
    date: str | None
    # Whether limits are compared with the bounds that hold whatever other end systems send.
    by_contract: bool
    names: DocumentNames
    # The ways of the worst frames of limits, if there are limits and the runs are known.
    ways: worst_frames.Ways | None


class Runs(NamedTuple):
    """The seeds of the runs that tables are of, and whether their offsets were drawn."""

    seeds: Sequence[int]
    draws_offsets: bool


def tables_of(path: str, net: Network) -> tuple[Tables, campaign_record.Record | None]:
    """The tables of a file or of the folder of a campaign, and the record of their campaign, or None."""
    is_folder = os.path.isdir(path)
    path = os.path.join(path, campaign_record.MERGED) if is_folder else path
    text = files.text_of(path)
    found = campaign_record.beside(path, text)
    if is_folder and found is None:
        raise files.Fault(os.path.dirname(path), None, f"has no {campaign_record.NAME} that is the record of its {campaign_record.MERGED}")
    if found and found.description != model.checksum(net.text):
        why = f"its checksum is {cut(found.description)}, and that of {net.path} is {model.checksum(net.text)}"
        raise files.Fault(path, None, f"these are tables of a campaign with another description: {why}")
    if found:
        # The runs of a campaign may have an end of their own.
        net.until_ns = found.until_ns
    tables = Tables(path, net, text)
    frames.hold(tables)
    return tables, found


def runs_of(words: argparse.Namespace, tables: Tables, found: campaign_record.Record | None) -> Runs | None:
    """Which runs the tables are of: as their campaign says, else as the words say; None where nobody does."""
    first, net = words.first, tables.net
    if not tables.merged:
        if words.seeds:
            raise files.Fault(tables.path, None, "these are the tables of one run, and --seeds means a campaign")
        return Runs([net.seed], False)
    if found:
        runs = Runs(found.all_seeds(), found.draws_offsets(os.path.join(os.path.dirname(tables.path), campaign_record.NAME)))
        said = words.seeds in (None, found.seeds) and first in (None, found.first_seed)
        if not said or words.seeds and words.offsets != found.offsets:
            had = f"{found.seeds} seeds from {found.first_seed} on, {'with' if found.offsets else 'without'} drawn offsets"
            raise files.Fault(tables.path, None, f"the campaign had {had}, and the words say something else: leave them out")
        return runs
    if not words.seeds:
        return None
    first = net.seed if first is None else first
    if first + words.seeds - 1 > model.GREATEST_SEED:
        raise files.Fault(net.path, None, f"the seeds from {first} on would pass {model.GREATEST_SEED}")
    seeds = range(first, first + words.seeds)
    row: Any
    for row in (*tables.latencies.values(), *tables.losses.values()):
        if row.seed is not None and row.seed not in seeds:
            why = f"the seed {row.seed} is none of the {counted(words.seeds, 'seed')} from {first} on"
            raise files.Fault(tables.path, row.line, f"{why}, so the campaign had others")
    return Runs(seeds, words.offsets)


def ends_of(words: argparse.Namespace, tables: Tables, found: campaign_record.Record | None, trace: Trace | None = None) -> Ends | None:
    """What became of all frames; None if the seeds of merged tables are not known."""
    runs = runs_of(words, tables, found)
    return Ends(tables, runs.seeds, runs.draws_offsets, trace) if runs else None


def way_of(net: Network, tables: Tables, measured: hops.Hops | None, bounds: bounds_file.Bounds | None) -> hops.OnTheWay | None:
    """What was measured on the way, and its bounds, if there are any of both."""
    if bounds is None:
        return hops.OnTheWay(net, measured, None, tables.latencies) if measured else None
    found = bounds

    def whole(kind: str) -> Sequence[int] | None:
        if kind in bounds_table.OF_DESTINATIONS:
            return found.table.in_order_of(kind, tables.latencies)
        return found.table.column(kind) if kind in found.table.places else None

    return hops.OnTheWay(net, measured, bounds.of_kind, tables.latencies, whole)


def given_by(words: argparse.Namespace) -> Given:
    net = Network(words.net)
    tables, found = tables_of(words.tables, net)
    if tables.merged and words.trace:
        raise files.Fault(words.trace, None, f"is the trace of one run, and {tables.path} has the tables of several")
    trace = Trace(words.trace, tables) if words.trace else None
    ends = ends_of(words, tables, found, trace)
    while words.bounds_come and not os.path.exists(words.bounds):
        time.sleep(BETWEEN_LOOKS)
    bounds = bounds_reader.read(words.bounds, net) if words.bounds else None
    held = margins.margins_of(limits.limits_of(words.limits, net), net, tables.latencies, bounds) if words.limits else []
    measured = hops.Hops(words.hops, tables) if words.hops else None
    way = way_of(net, tables, measured, bounds)
    other = None
    if words.against:
        before, record_before = tables_of(words.against, Network(words.against_net) if words.against_net else net)
        ends_before = ends_of(words, before, record_before) if before.merged == tables.merged else None
        other = Other(before, ends_before, bounds_reader.read(words.against_bounds, before.net) if words.against_bounds else None)
    made_of = [net.path, tables.path, words.trace, words.limits, words.bounds, words.hops]
    made_of += [words.against, words.against_net, words.against_bounds]
    made_by = words.made_by or (f"{found.program.in_words()}, as their campaign says" if found else None)
    by_place = {(it.limit.vl, it.limit.where): it for it in held}
    percentiles = campaign_record.percentiles(found, tables) if tables.merged else None
    made_of += [os.path.join(os.path.dirname(tables.path), campaign_record.GREATEST)] if percentiles else []
    made_of = list(filter(None, made_of))
    of_delay = lambda found: found and (lambda vl, line: found("delay", vl, line))
    transmit = transmit_jitter.TransmitJitter(net, of_delay(measured and measured.greatest), of_delay(bounds and bounds.of_kind))
    is_by_contract, ways = margins.by_contract(net, bounds), ways_of(words, tables, found, held)
    return Given(
        net, tables, trace, percentiles, ends, by_place, bounds, other, way, transmit, made_of, made_by, words.date, is_by_contract,
        DocumentNames(net), ways,
    )


def ways_of(
    words: argparse.Namespace, tables: Tables, found: campaign_record.Record | None, held: list[margins.Margin]
) -> worst_frames.Ways | None:
    """The ways of the worst frames, if there are limits and the runs are known. Where the words want a file of them, they take as long
    as they take."""
    runs = runs_of(words, tables, found) if held else None
    return worst_frames.of_tables(tables, held, len(runs.seeds), runs.draws_offsets, bool(words.late)) if runs else None
