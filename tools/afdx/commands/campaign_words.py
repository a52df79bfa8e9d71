"""The words of `afdx campaign`, and its help."""
import argparse
import os

from afdx import model
from afdx.model import GREATEST_SEED, PROGRAM, whole
from afdx.runs import campaign_parts, cluster, each_outage, sweep

SAYS = """Runs a network with many seeds, several runs side by side, and merges the tables of all runs into one.

A seed decides the jitter of the offers, so one run shows one behaviour of many. The first run has the seed of the
description NET itself, and the next ones have the numbers that follow it. With --offsets each run also draws the first
offer of each virtual link, evenly within its period: so frames that never meet in the description may meet.

DIR/merged.csv has the tables of all runs together, in the form in which the program prints tables, with one column
more: the seed that gave the greatest latency of a line, or the most losses. afdx report makes a page of it. The
merge is exact: it adds counts and sums, and takes leasts and greatests; so the merged tables do not depend on --jobs.
DIR/campaign.json names their description, seeds and program, and lists the files of DIR with their checksums.
DIR/greatest.csv has the least, the mean and the greatest of the greatest latencies of the runs. --histograms counts
latencies in bins of less than 0.1 percent (DIR/histograms.csv), and adds percentiles of the frames of all runs to
DIR/greatest.csv.

With --set a key of the description has several values in turn, or several keys have each combination of theirs.
DIR/sweep.csv and the page DIR/sweep.html show the effect of the values beside that of the seeds.

With --aim the frames of others meet those of a virtual link at each port of its path, just ahead of them.
DIR/aim.csv has how much of its bounds a run then reaches. --aim all --limits FILE aims at each destination that has a
limit: drawn offsets hardly ever come near the worst case, and aimed ones often do.

With --each-outage each link and each switch is out in turn, for the whole run or from a moment on. DIR/outages.csv and the
page DIR/outages.html show what is then lost end to end, and what becomes late, beside the same runs without it.

With --dask the workers of a Dask cluster make the runs, on several machines. The results have the same bytes.

With --part 3/16 this call makes the third of sixteen parts of the runs, so that any scheduler makes them, on any machines.
--merge DIR.. puts the folders of all parts together. The results have the bytes of one campaign over all seeds. Parts of
another description, program, end or rule of offsets are refused, and so is a part that is there twice or missing.

With a file of limits, each run is compared with them, and the status is 1 if a run breaks one.
"""

EXAMPLES = """
examples:
  afdx campaign net.toml --seeds 100 -o campaign
        a hundred runs, as many side by side as there are processors; campaign/merged.csv
  afdx report net.toml campaign -o report.html
        the page of them
  afdx campaign net.toml --seeds 1000 --jobs 4 --offsets --limits limits.csv -o campaign
        a thousand runs, four at a time, with drawn offsets, each compared with limits.csv; --junit FILE for a build server
  afdx campaign net.toml --seeds 1 --first 42 --offsets --keep -o worst
        the run of the seed 42 once more, and its description worst/seed-42.toml, for afdxsim and afdx report, which show
        what happened in it
  afdx campaign net.toml --set vl.157.bag_ms=4,8,16 --set link.3.mbit=10,100 --seeds 20 -o sweep
        six combinations, each with twenty seeds: of the virtual link 157, and of the third link of the description.
        Nodes have names, as node.SWA.latency_ns=8000,16000. sweep/sweep.html shows effects beside the spread of seeds
  afdx campaign net.toml --aim 157 --until 100000000 -o aim
        how near 157 comes to its bound at each destination, in runs of 100 ms: aim/aim.csv
  afdx campaign net.toml --aim all --limits limits.csv -o aim
        each limit tried by aimed runs, those of a destination on network A and on network B
  afdx campaign net.toml --each-outage -o outages
        what is lost and what becomes late without each link and each switch: outages/outages.html
  afdx campaign net.toml --each-outage 50000000 --seeds 5 --keep -o outages
        the same with five seeds, and out from 50 ms on. The description and the tables of each run are kept. By --against
        afdx report compares one with those of outage-0, the run without an outage
  dask scheduler --host 10.0.0.1; dask worker tcp://10.0.0.1:8786 --nworkers 4 --nthreads 1
  afdx campaign net.toml --seeds 1000 --dask tcp://10.0.0.1:8786 -o campaign
        on several machines: the scheduler on one of them, a worker on each, with four runs side by side. Each machine
        needs python3-distributed, and afdxsim on its PATH, at the path in AFDXSIM, or where this machine has it
  afdx campaign net.toml --seeds 1000 --part 3/16 -o part-3; afdx campaign net.toml --merge part-* -o campaign
        the third of sixteen parts, as a job of a scheduler; and all of them together, once they are there

limits.csv, a line for each destination that has a limit: number of the virtual link, name of the destination, and the
greatest latency in ns that it may have. Lines that are empty or begin with # are ignored.
  101,DU_R,500000
  101,FWC,500000

status:
  0  each run was made and merged, and no limit is broken
  1  a limit is broken, or with --aim a bound; or a run failed. The first one that fails is named with its message and ends
     the campaign. The runs of all seeds before it are in DIR/merged.csv
  2  a word is wrong, a file cannot be read or written, or it is not what it has to be: one line on error output names
     the file and the line. What was merged before a disk was full or memory refused is kept
  130, 143  interrupted, or ended by SIGTERM: what was made before is merged and kept
"""


def aimed_at(text: str) -> str | int:
    """The type of a word of --aim: the number of a virtual link, or `all`."""
    return text if text == "all" else whole(0, 65535)(text)


aimed_at.__name__ = "number of a virtual link"


OF_OUTAGES = """Runs a network without an outage, and then with each link and each switch out in turn, for the whole run or from a moment on.

DIR/outages.csv and the page DIR/outages.html show for each outage what is then lost end to end, and what becomes late,
beside the same runs without it; the worst outage stands first. With a file of limits the status is 1 if an outage breaks a
limit that is else kept. It is `afdx campaign --each-outage`, and has the words of a campaign.
"""

EXAMPLES_OF_OUTAGES = """
examples:
  afdx outages net.toml -o outages
        what is lost and what becomes late without each link and each switch: outages/outages.html
  afdx outages net.toml --each-outage 50000000 --seeds 5 --keep -o outages
        with five seeds, and out from 50 ms on; the description and the tables of each run are kept
  afdx outages net.toml --limits limits.csv --later 5% -o outages
        compares each run with limits, and calls late what takes 5 percent longer

status: 0; 1 if an outage alone breaks a limit, or a run failed; 2 if a word is wrong, or a file cannot be read or written;
130 and 143 if it was interrupted: what was made before is kept
"""
# The words of a campaign that outages have not.
NOT_OF_OUTAGES = ("--set", "--aim", "--histograms", "--json", "--junit", "--part", "--merge")
# The words of a campaign that say which runs are made and how: parts that are merged have theirs already.
NOT_OF_MERGES = ("seeds", "first", "until", "offsets", "histograms", "keep", "by", "dask", "jobs", "program", "part")


def help_of_outages() -> str:
    """The help of `afdx outages`: the words of a campaign that it has."""
    parser = argparse.ArgumentParser(
        prog="afdx outages", description=OF_OUTAGES, epilog=EXAMPLES_OF_OUTAGES, formatter_class=argparse.RawDescriptionHelpFormatter
    )
    add_words(parser)
    for action in parser._actions:
        if set(action.option_strings) & set(NOT_OF_OUTAGES):
            action.help = argparse.SUPPRESS
    return parser.format_help()


def words_of(arguments: list[str] | None = None) -> argparse.Namespace:
    parser = argparse.ArgumentParser(
        prog="afdx campaign", description=SAYS, epilog=EXAMPLES, formatter_class=argparse.RawDescriptionHelpFormatter
    )
    add_words(parser)
    words = parser.parse_args(arguments)
    judge_words(parser, words)
    words.seeds, words.jobs, words.program = words.seeds or 1, words.jobs or processors(), words.program or PROGRAM
    return words


def processors() -> int:
    return len(os.sched_getaffinity(0)) if hasattr(os, "sched_getaffinity") else os.cpu_count() or 1


def add_kinds(parser: argparse.ArgumentParser) -> None:
    """What is run: how many seeds, and which kind of campaign."""
    add = parser.add_argument
    add("net", metavar="NET", help="the description (TOML)")
    add("--seeds", type=whole(1, 10**9), metavar="N", help="how many seeds, so how many runs (with --each-outage: 1)")
    add(
        "--each-outage", type=whole(0, model.LATEST_NS), nargs="?", const=0, metavar="NS",
        help="runs each seed with each link and each switch out in turn, from this moment in ns on (default: 0)",
    )
    add(
        "--later", type=each_outage.least_later, default=each_outage.USUAL_LATER, metavar="NS",
        help="of --each-outage: by how much a latency must grow to be later, in ns, or in percent as 5%% (default: 1%%)",
    )
    add(
        "--set", type=sweep.setting, action="append", metavar="KEY=VALUES",
        help="runs each seed with each value of a key, as vl.157.bag_ms=4,8,16; of several, with each combination",
    )
    add(
        "--aim", type=aimed_at, action="append", metavar="VL",
        help="runs each seed (default: 1 seed) with offsets that let other frames meet those of this virtual link at each port; "
        "`all`: of each destination that has a limit, or without --limits of all virtual links",
    )
    add("--part", type=campaign_parts.part, metavar="I/N", help="makes the runs of one part of the seeds: 3/16 is the third of sixteen")
    add("--merge", metavar="DIR", nargs="+", help="makes no runs, and puts the folders of all parts together")


def add_words(parser: argparse.ArgumentParser) -> None:
    add_kinds(parser)
    add = parser.add_argument
    add("--until", type=whole(1, model.LATEST_NS), metavar="NS", help="the end of the runs (default: that of NET)")
    add(
        "--first", "--seed", type=whole(0, GREATEST_SEED), metavar="SEED",
        help="the first seed, in place of that of NET",
    )
    add("--json", action="store_true", help="writes the tables of DIR in long form too: DIR/merged.json, sweep.json, ..")
    jobs = processors()
    add("--jobs", type=whole(1, 1024), metavar="N", help=f"runs side by side, and as many processes that read them (default here: {jobs})")
    add("--offsets", action="store_true", help="draw the offset of each virtual link within its period, for each run")
    add("--limits", metavar="FILE", help="limits of latencies, lines VL,NAME,NS")
    add("--junit", metavar="FILE", help="writes what became of each limit as JUnit's XML")
    add("--histograms", action="store_true", help="count latencies in bins of less than 0.1 percent: DIR/histograms.csv, percentiles in DIR/greatest.csv")
    address, says = cluster.address, "the workers of the Dask cluster with this scheduler make the runs: tcp://HOST:PORT"
    add("--dask", type=address, metavar="ADDRESS", help=says)
    add("--keep", action="store_true", help="keep the description and the tables of each run in DIR too")
    add("--program", metavar="PATH", help="the program (default: crates/afdxsim/out/afdxsim)")
    says = "who makes the runs in place of the program: try, these sources without a proof, built once by the kit's `rt try`; or "
    add("--by", choices=("try", "second-opinion"), metavar="WHAT", help=says + "second-opinion, afdx second-opinion, without the kit")
    add("-o", "--output", metavar="DIR", required=True, help="the folder for what comes of it; it is made if need be")
    add("--replace", action="store_true", help="replace the files of an earlier campaign in DIR, which is else refused")


def judge_words(parser: argparse.ArgumentParser, words: argparse.Namespace) -> None:
    """Refuses words that do not go together."""
    kinds = {"--each-outage": words.each_outage is not None, "--set": bool(words.set), "--aim": bool(words.aim)}
    named = [name for name, is_named in kinds.items() if is_named]
    judge_parts(parser, words, named)
    if words.seeds is None and not named and not words.merge:
        parser.error("how many seeds? --seeds N")
    if len(named) > 1:
        parser.error(f"{' and '.join(named)} are two kinds of campaigns")
    if words.histograms and named:
        parser.error(f"--histograms counts the latencies of runs over seeds, and not with {named[0]}")
    if words.junit and not words.limits:
        parser.error("--junit reports on limits, and none are given: --limits FILE")
    if words.junit and (words.set or words.each_outage is not None):
        parser.error("--junit is for campaigns over seeds and for --aim, whose runs are of one description")
    if words.dask and words.by:
        parser.error("--dask has the program run on other machines, and not what --by names")
    if words.aim and words.offsets:
        parser.error("--aim has offsets of its own, and no --offsets")
    if "all" in (words.aim or ()) and len(words.aim) > 1:
        parser.error("--aim all has each virtual link already")


def judge_parts(parser: argparse.ArgumentParser, words: argparse.Namespace, kinds: list[str]) -> None:
    """Refuses words that do not go with parts: `kinds` are the kinds of campaigns that are named."""
    if words.part and kinds:
        parser.error(f"--part is of runs over seeds, and not with {kinds[0]}")
    if words.part and words.seeds is not None and words.part.of > words.seeds:
        parser.error(f"--part {words.part.text()}: {words.seeds} seeds have no {words.part.of} parts")
    if words.merge:
        given = [f"--{name}" for name in NOT_OF_MERGES if getattr(words, name) not in (None, False)]
        for name in kinds + given:
            parser.error(f"--merge makes no runs, and takes no {name}: the parts have theirs")
