#!/usr/bin/env python3
"""`afdx campaign`: makes the runs that its words ask for, and writes what comes of them. Its help is in campaign_words.py."""
import argparse
import os
import sys
import time
from collections.abc import Callable, Iterable
from typing import Any, NoReturn

from afdx import files, model
from afdx.commands import campaign_merge
from afdx.commands.campaign_words import words_of
from afdx.files import Fault, program
from afdx.files.page_text import us_text
from afdx.model import GREATEST_SEED, description_faults, long_form
from afdx.model.document_names import DocumentNames
from afdx.page import late_panel
from afdx.reckon import junit, margins, network_calculus, output_sizes
from afdx.reckon.limits import limits_of
from afdx.reckon.margins import margins_of
from afdx.runs import aim, campaign_record, cluster, each_outage, program_bounds, side_by_side, sweep, unproved_runs, worst_frames
from afdx.runs.campaign_folder import Folder
from afdx.runs.campaign_network import CampaignNetwork, ChangedNetwork
from afdx.runs.campaign_progress import Progress
from afdx.runs.seeds_campaign import Campaign, Limits
from afdx.runs.side_by_side import Failure, Keep

# What an outage does is printed for this many outages at most.
MOST_PRINTED = 10

# Who makes runs.
Maker = side_by_side.Here | unproved_runs.Tried | cluster.Cluster


def prepare(words: argparse.Namespace) -> tuple[CampaignNetwork, Limits, range]:
    """The network, the limits and the seeds, or a fault."""
    if not words.by and not os.path.isfile(words.program):
        raise Fault(words.program, None, "is not there. `afdx build` builds the program; --by second-opinion does without it")
    words.maker = who_made(words)
    net = CampaignNetwork(words.net, None if words.by else words.program, words.until)
    judge_outages(words, net)
    if words.by == "try":
        foresee(net, words.histograms or words.each_outage is not None)
    limits = limits_of(words.limits, net) if words.limits else {}
    first = net.seed if words.first is None else words.first
    if first + words.seeds - 1 > GREATEST_SEED:
        line = net.description.line("top", None, "seed")
        raise Fault(words.net, line, f"the seeds from {first} on would pass {GREATEST_SEED}")
    files.ready([words.junit] if words.junit else [])
    words.folder = Folder(words.output, words.replace)
    seeds = range(first, first + words.seeds)
    return net, limits, words.part.seeds(seeds) if words.part else seeds


def foresee(net: CampaignNetwork, is_traced: bool) -> None:
    """Refuses runs of which `rt try` could not pass on all that they print, before the two minutes in which it builds."""
    for what, size in [("the tables of a run", output_sizes.of_tables(net))] + [("the trace of a run", output_sizes.of_trace(net))] * is_traced:
        if size > output_sizes.MOST:
            remedy = "give --by second-opinion or a shorter --until, or build the proved program by `afdx build`"
            raise Fault(net.path, None, str(output_sizes.refused(what, size, remedy)))


def judge_outages(words: argparse.Namespace, net: CampaignNetwork) -> None:
    """Refuses outages in turn that begin after the end of the run, and warns of those of the description that do."""
    end = f"the run ends before that, at {net.until_ns} ns"
    if words.each_outage is not None and words.each_outage > net.until_ns:
        raise Fault(words.net, net.description.line("top", None, "until_ns"), f"--each-outage {words.each_outage}: {end}")
    for i, it in enumerate(net.outages, 1):
        if it.from_ns > net.until_ns:
            warning = Fault(words.net, net.description.line("outage", i, "from_ns"), f"warning: {it.line} is out from {it.from_ns} ns on: {end}")
            files.report("afdx campaign", warning)


def maker_of(words: argparse.Namespace, is_traced: bool) -> Maker:
    """Who makes the runs: this machine, by the program or by its sources, or a cluster."""
    if words.by == "try":
        return unproved_runs.Tried(is_traced)
    if words.by == "second-opinion":
        return side_by_side.Here(program.command("second-opinion"), words.jobs, is_traced, knows_progress=False)
    if words.dask:
        return cluster.Cluster(words.dask, words.program, words.maker.sha256, is_traced)
    return side_by_side.Here([words.program, "seq"], words.jobs, is_traced)


def write_results(words: argparse.Namespace, campaign: Campaign) -> str:
    """Writes what came of the runs, and answers the path of the merged tables."""
    merged, has_counts = campaign.merged, words.histograms
    path = words.folder.write(campaign_record.MERGED, merged.text())
    words.folder.write(campaign_record.GREATEST, merged.greatest_text(has_counts))
    if has_counts:
        words.folder.write(campaign_record.HISTOGRAMS, merged.histograms())
    if words.part:
        words.folder.write(campaign_record.MOST_LOST, merged.most_lost())
    return path


def who_made(words: argparse.Namespace) -> program.Maker:
    """Who makes the runs, as the campaign and its files name it."""
    try:
        if words.by:
            return (program.tried if words.by == "try" else program.second_opinion)().maker
        return program.maker_of(words.program)
    except program.NoProgram as why:
        raise Fault(f"--by {words.by}", None, str(why)) from None
    except OSError as fault:
        raise Fault(words.program, None, f"cannot be read: {fault.strerror}") from None


def write_record(words: argparse.Namespace, net: CampaignNetwork, seeds: range) -> None:
    """Writes what the campaign says of itself, last of all, with the checksum of each other file of its folder."""
    if not words.by and who_made(words).sha256 != words.maker.sha256:
        raise Fault(words.program, None, f"was replaced while the runs were made, so {campaign_record.NAME} is not written. Run the campaign anew")
    own = ["--seeds", str(words.seeds)]
    own += ["--part", words.part.text()] if words.part else []
    own += ["--each-outage", str(words.each_outage)] if words.each_outage is not None else []
    own += ["--until", str(words.until)] if words.until is not None else []
    own += [word for it in words.set or () for word in ("--set", it.text)] + [word for vl in words.aim or () for word in ("--aim", str(vl))]
    own += [name for name, is_given in (("--offsets", words.offsets), ("--histograms", words.histograms)) if is_given]
    found = campaign_record.Record(
        model.checksum(net.text), words.maker, net.until_ns, seeds[0] if seeds else net.seed, len(seeds), words.offsets,
        campaign_record.rule_of(words.offsets), own, dict(sorted(words.folder.sums.items())),
    )
    words.folder.write(campaign_record.NAME, found.text())
    words.folder.close()


def over_seeds(words: argparse.Namespace, net: CampaignNetwork, limits: Limits, seeds: range) -> int:
    """Runs all seeds, and answers the status."""
    begin, path = time.monotonic(), None
    campaign = Campaign(net, limits, seeds, words.offsets)
    campaign.run(maker_of(words, words.histograms), keeper(words), words.jobs)
    if campaign.done:
        path = write_results(words, campaign)
        write_json(words, "merged.json", campaign.merged.long_rows)
        write_record(words, net, seeds[: campaign.done])
        write_junit(words, net, margins_of(limits, net, campaign.merged.rows_of(limits)), begin)
    campaign.report(path, time.monotonic() - begin)
    return campaign.status or (1 if campaign.broken else 0)


def over_parts(words: argparse.Namespace) -> int:
    """Merges the parts of a campaign, and answers the status."""
    begin = time.monotonic()
    campaign, record = campaign_merge.merged_of(words)
    path = write_results(words, campaign)
    write_json(words, "merged.json", campaign.merged.long_rows)
    campaign_merge.write_record(words.folder, record)
    write_junit(words, campaign.net, margins_of(campaign.limits, campaign.net, campaign.merged.rows_of(campaign.limits)), begin)
    campaign.report(path, time.monotonic() - begin)
    return 1 if campaign.broken else 0


def over_settings(words: argparse.Namespace, net: CampaignNetwork, limits: Limits, seeds: range) -> int:
    """Runs all seeds with each combination of the values that are set, and answers the status."""
    begin = time.monotonic()
    courses = [
        (it, Campaign(ChangedNetwork(it.description), limits, seeds, words.offsets))
        for it in sweep.combinations_of(net.description, words.set)
    ]
    found = sweep.Sweep(words.set, courses)
    found.run(maker_of(words, False), keeper(words), Progress(found.count()), words.jobs)
    if found.failure:
        files.report("afdx campaign", found.failure)
    whole = found.whole()
    if not whole:
        files.say("no combination was run to its end, and nothing is written")
        return found.status
    table = words.folder.write("sweep.csv", found.table(words.maker))
    page = words.folder.write("sweep.html", sweep.page(found, words.net, words.maker.in_words(), bool(limits)))
    write_json(words, "sweep.json", found.long_rows)
    write_record(words, net, seeds)
    files.say(f"{table} and {page}: {len(whole)} combinations, {found.done} runs, in {time.monotonic() - begin:.1f} s")
    for it in found.effects()[:MOST_PRINTED]:
        spread = f"seeds {us_text(it.spread)}" if len(seeds) > 1 else "one seed"
        files.say(f"virtual link {it.vl} at {it.where}: effect {us_text(it.effect)}, {spread}")
    broken = [(it.name, campaign.broken) for it, campaign in whole if campaign.broken]
    if limits:
        files.say(f"limits: {len(limits)}; combinations that break one: {len(broken)}")
    for name, of in broken:
        files.say(f"limit broken with {name}: {', '.join(f'virtual link {vl} at {where}' for vl, where in sorted(of))}")
    return found.status or (1 if broken else 0)


def aims_of(words: argparse.Namespace, net: CampaignNetwork, limits: Limits) -> list[tuple[int, str]]:
    """The destinations at which runs are aimed: virtual links and names."""
    if "all" in words.aim:
        return list(limits or sorted(net.destinations))
    for vl in words.aim:
        if vl not in net.vls:
            known = description_faults.meant(str(vl), map(str, net.vls))
            raise Fault(words.net, net.description.line("vl"), f"--aim {vl}: there is no such virtual link{known}")
    return [(vl, where) for vl in dict.fromkeys(words.aim) for where in net.vls[vl].destinations]


def over_aims(words: argparse.Namespace, net: CampaignNetwork, limits: Limits, seeds: range) -> int:
    """Runs all seeds with offsets that aim at virtual links, and answers the status."""
    begin = time.monotonic()
    printed = None if words.by else program_bounds.bounds_of(words.program, net)
    found = aim.AimedRuns(net, aims_of(words, net, limits), seeds, limits, printed=printed)
    if not found.ways:
        raise Fault(words.net, None, "no frame of the aimed virtual links arrives: size is above smax")
    progress = Progress(len(found.ways), "ways aimed at")
    try:
        found.aim(words.jobs, lambda done: progress.update(done, None))
    except Failure as failure:
        raise Fault(words.net, None, str(failure)) from None
    finally:
        progress.end()
    found.run(maker_of(words, False), keeper(words), Progress(found.count()), words.jobs)
    if found.failure:
        files.report("afdx campaign", found.failure)
    if not found.lines:
        files.say("no aimed run was made, and nothing is written")
        return found.status
    table = words.folder.write("aim.csv", found.table(words.maker))
    write_json(words, "aim.json", found.long_rows)
    if found.tried():
        ways = found.ways_of_worst()
        words.folder.write("late.csv", worst_frames.csv_text(ways.found))
        words.folder.write("late.html", late_panel.alone(ways, words.net, DocumentNames(net), words.maker.in_words()))
    write_record(words, net, seeds)
    write_junit(words, net, found.margins(), begin)
    files.say(f"{table}: {found.done} runs, in {time.monotonic() - begin:.1f} s")
    for text in found.in_words():
        files.say(text)
    it: Any
    for it in found.above():
        files.say(f"above a bound, so one of the two is wrong: {','.join(map(network_calculus.said, it))}")
    report_limits(found)
    return found.status or (1 if found.above() or found.broken() else 0)


def report_limits(found: aim.AimedRuns) -> None:
    """Says which limits the aimed runs tried, which they break, and which are below their bounds."""
    if not found.limits:
        return
    tried, broken = found.tried(), found.broken()
    below = [it for it in found.margins() if it.verdict() == margins.BELOW]
    files.say(f"limits: {len(found.limits)}, tried: {len(tried)}, broken: {len(broken)}, below the bound: {len(below)}")
    for limit, latency, line in broken:
        how = f"aimed at by network {line.network}" if latency == line.aimed_ns else "as described"
        said = f"has {us_text(limit.ns)}, and took {us_text(latency)} {how} with the seed {line.seed}"
        files.say(f"limit broken: virtual link {limit.vl} at {limit.where} {said}")
    for it in below[:MOST_PRINTED]:
        files.say(f"limit below its bound: virtual link {it.limit.vl} at {it.limit.where}: {it.in_words().partition(': ')[2]}")
    for key in [key for key in found.limits if key not in tried][:MOST_PRINTED]:
        files.say(f"limit not tried: virtual link {key[0]} at {key[1]}")


def write_json(words: argparse.Namespace, name: str, rows: Callable[[], Iterable[Any]]) -> None:
    """Writes a table in long form too, where that is asked for."""
    if words.json:
        words.folder.write(name, long_form.text_of(rows()))


def write_junit(words: argparse.Namespace, net: CampaignNetwork, held: list[margins.Margin], begin: float) -> None:
    """Writes the verdicts for a build server, where that is asked for."""
    if words.junit:
        text = junit.text_of(held, False, os.path.basename(words.net), DocumentNames(net), time.monotonic() - begin)
        files.write_whole(words.junit, text)


def over_outages(words: argparse.Namespace, net: CampaignNetwork, limits: Limits, seeds: range) -> int:
    """Runs all seeds with each link and each switch out in turn, and answers the status."""
    begin = time.monotonic()
    found = each_outage.EachOutage(net, limits, seeds, words.offsets, words.each_outage, words.later)
    found.run(maker_of(words, True), keeper(words), Progress(found.count()), words.jobs)
    if found.failure:
        files.report("afdx campaign", found.failure)
    if not found.courses:
        files.say("no run without an outage was made, and nothing is written")
        return found.status
    table = words.folder.write("outages.csv", found.table(words.maker))
    page = words.folder.write("outages.html", each_outage.page(found, words.net, words.maker.in_words()))
    write_record(words, net, seeds)
    summaries = found.summaries()
    files.say(f"{table} and {page}: {len(summaries)} outages, {found.done} runs, in {time.monotonic() - begin:.1f} s")
    for it in summaries[:MOST_PRINTED]:
        files.say(f"{it.name()}: {it.in_words()}")
    broken = sum(bool(it.broken) for it in summaries)
    if limits:
        files.say(f"limits: {len(limits)}; outages that break one which is else kept: {broken}")
    return found.status or (1 if broken else 0)


def keeper(words: argparse.Namespace) -> Keep:
    """What keeps the description and the tables of a run, if they are to be kept."""

    def keep(name: str, text: str, tables: str) -> None:
        if words.keep:
            words.folder.write(f"{name}.toml", text)
            words.folder.write(f"{name}.tables.csv", tables)

    return keep


@files.tool("afdx campaign")
def main(arguments: list[str] | None = None) -> int:
    words = words_of(arguments)
    if words.merge:
        return over_parts(words)
    if words.dask and not cluster.is_here():
        return by_another(sys.argv[1:] if arguments is None else arguments)
    over = over_settings if words.set else over_aims if words.aim else over_seeds if words.each_outage is None else over_outages
    return over(words, *prepare(words))


def by_another(arguments: list[str]) -> NoReturn:
    """Goes on as the interpreter that has Dask."""
    command = [cluster.interpreter(), "-m", "afdx.commands.campaign", *arguments]
    os.execve(command[0], command, program.environment())


if __name__ == "__main__":
    sys.exit(main())
