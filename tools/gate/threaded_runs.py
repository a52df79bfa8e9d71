#!/usr/bin/env python3
"""Runs drawn small networks by workers, and compares each run with the one-thread run; or compares the one-thread run
with the second opinion.

Each run has a network of its own, drawn by afdx large-network: 2 to 6 end systems, 1 to 3 switches on each of the two
networks, 1 to 12 virtual links with 1 to 4 sub-virtual links and both sorts of policing, 1 to 20 ms of simulated time.
Half of the networks are extreme, so that frames wait and are lost: short BAGs and periods from a tenth of them on, long
frames, depths of 1 to 3, jitters up to the BAG, frames above Smax, little jitter for policing, lines of 10 Mbit/s,
outages; and half of these lie at the latest end of a run, 10^15 ns.

The number of workers is drawn from 1 to 64, the turn from 1 to 256 and the window from 1 to 10^15 ns, each evenly over
its powers of two, so that small ones are as frequent as large ones; of groups half of these runs have as many as the program
gives them, and half 1 to 64. `afdxsim run` must then end with status 0, and its tables and its trace must have the bytes of
`afdxsim seq`. One run of ten also writes its journal, and `afdxsim replay` of it must print the same tables, and report that
the run is finished, that nothing was refused and that nothing was not enabled. A second opinion of the journal
(gate/replayed_journal.py) must find the same, and that each message was handled within the window.

Each run with an odd number is over several groups of several members: its network is larger (4 to 12 end systems, 2 to 4
switches on each network, 8 to 40 virtual links, so 28 processes and more). It has at least two workers, and from two groups
to half as many as there are end systems and switches. Each group has at least one of these, and the lines that lead to it.
One that handles more events than it commits has rolled back, as its journal shows. In one of five of them the last worker
stands still from its start (by `ptrace`) until all others have ended: then these have given its groups their turns. Another
one of five has two groups a worker, no journal and a longer time, and is followed (by `ptrace`): it is stopped once where a
worker has stolen a group from the deque of another, if one does (gate/stolen_groups.py).

With --second-opinion no worker runs: the tables and the trace of `afdxsim seq` must have the bytes of those that
afdx second-opinion makes.

--first and the number of the run alone determine what is drawn, so a run that differs can be made again. The system
decides how the threads take turns, so the run may not differ again.
"""
import argparse
import collections
import os
import random
import re
import shutil
import subprocess
import sys
import tempfile
from collections.abc import Callable

from afdx import files
from afdx.commands import large_network
from afdx.files import toml_lines
from afdx.model import GREATEST_FRAME, GREATEST_SEED, LATEST_NS, PROGRAM, text_of_tree, whole
from afdx.runs.plain_simulator import Simulation
from gate import replayed_journal, stolen_groups, stopped_threads

WELL_REPLAYED = re.compile(r"replay: \d+ did, 0 not enabled, 0 refused, gvt \d+, finished\n")
GROUPS_AND_WORKERS = re.compile(r"^afdxsim: (\d+) groups, (\d+) workers$", re.MULTILINE)

# What runs did, beside coming out as they must, in the words of the report. Of so many runs each must be done by one at least.
SEVERAL, ROLLED_BACK, SERVED = "over several groups of several members", "rolled back", "served the groups of a worker that stood still"
FOLLOWED, STOLEN, NO_PLACE = "were followed", "stole a group", "no place"
NOT_ALLOWED = "not allowed"
ENOUGH_RUNS = 50
# A worker steals in about half of the runs that are followed.
ENOUGH_FOLLOWED = 20
# How much longer a run is that is followed, so that workers come to steal.
LONGER = 40
# How long the other workers of one that stands still may take to end, in s: after 10 s a run at the same GVT gives its workers up.
SECONDS_TO_SERVE = 8

EXAMPLES = """
examples, in tools/:
  python3 -m gate.threaded_runs
        a thousand runs
  python3 -m gate.threaded_runs --runs 1 --first 417 --keep
        the run 417 once more; its description, tables, trace and journal stay in the folder that is named
  python3 -m gate.threaded_runs --second-opinion
        the one-thread run of a thousand networks, against the second opinion

It prints how many runs there were, how many of them had the right results, and what the others did, a line each; then how
many were over several groups of several members, how many rolled back, and in how many other workers served the groups of
one that stood still.

status:
  0  each run had the right results
  1  a run had not: it differs, ended with another status, or took longer than --seconds; or of 50 runs or more none did one
     of the things that are counted (of 20 that were followed none stole), although the system lets a program be stopped
  2  a word is wrong, or the program is missing
"""


def power(draw: random.Random, most: int) -> int:
    """A number from 1 to the most, as likely to have few binary digits as many."""
    low = 2 ** draw.randrange(most.bit_length())
    return min(most, draw.randrange(low, 2 * low))


def network_of(draw: random.Random, is_large: bool, times: int = 1) -> toml_lines.Table:
    """The tree of a drawn network, whose run is so many times as long."""
    end_systems, switches, vls = ((4, 12), (2, 4), (8, 40)) if is_large else ((2, 6), (1, 3), (1, 12))
    words = large_network.words_of(
        ["--end-systems", str(draw.randint(*end_systems)), "--switches", str(draw.randint(*switches)), "--columns", "1"]
        + ["--virtual-links", str(draw.randint(*vls)), "--destinations", str(draw.randint(1, 3))]
        + ["--port-bytes", str(draw.choice([1518, 4096, 65536])), "--until", str(draw.randint(1, 20) * 10**6 * times)]
        + ["--seed", str(draw.randint(0, GREATEST_SEED)), "--sub", "4", "--policing", "both"]
    )
    pieces: list[str] = []
    refusal = large_network.write_network(words, pieces.append, lambda _: None)
    if refusal:
        raise ValueError(refusal)
    tree = toml_lines.read("".join(pieces))
    if draw.random() < 0.5:
        bend(tree, draw)
        if draw.random() < 0.5:
            move_to_the_latest_end(tree)
    return tree


def bend(tree: toml_lines.Table, draw: random.Random) -> None:
    """Changes a description, so that frames wait, are late and are lost."""
    for link in tree["link"]:
        link["mbit"] = draw.choice([10, 100, 100, 1000])
    for node in tree["node"]:
        node["port_bytes"] = draw.choice([GREATEST_FRAME, 4096, 65536])
    for vl in tree["vl"]:
        vl["bag_ms"] = draw.choice([1, 1, 1, 2, 4, vl["bag_ms"]])
        bag_ns = vl["bag_ms"] * 10**6
        if draw.random() < 0.3:
            vl["size"] = vl["smax"] = GREATEST_FRAME
        vl["period_ns"] = max(1000, int(bag_ns * draw.choice([0.1, 0.3, 0.7, 0.999, 1, 1.001, 3])))
        vl["jitter_ns"] = int(bag_ns * draw.choice([0, 0, 0.01, 0.5, 1]))
        vl["offset_ns"] = draw.choice([0, 0, 1, draw.randrange(tree["until_ns"] + 2)])
        vl["depth"] = draw.randint(1, 3)
        vl["policing_jitter_ns"] = draw.choice([0, 1000, 100_000, 500_000, 10**9])
        vl["skew_max_ns"] = draw.choice([0, 1000, 10**6, 10**9])
        if draw.random() < 0.2:
            vl["smax"] = max(64, vl["size"] - draw.choice([1, 10]))
        elif draw.random() < 0.3:
            vl["smax"] = min(GREATEST_FRAME, vl["size"] + draw.choice([1, 10, 300]))
        for key in ("sub", "policing"):
            if draw.random() < 0.1:
                del vl[key]
    if draw.random() < 0.5:
        add_streams(tree, draw)
    tree["outage"] = []
    for _ in range(draw.choice([0, 0, 1, 3]) if tree["link"] else 0):
        link, begin = draw.choice(tree["link"]), draw.randrange(tree["until_ns"])
        ends = draw.sample([link["a"], link["b"]], 2)
        times = {"from_ns": begin, "to_ns": begin + draw.randint(1, tree["until_ns"])}
        tree["outage"].append({"from": ends[0], "to": ends[1]} | times)


def add_streams(tree: toml_lines.Table, draw: random.Random) -> None:
    """Gives virtual links bursts, sporadic offers, ends, sub-virtual links of ports, and further streams."""
    tree["stream"] = []
    for vl in tree["vl"]:
        for _ in range(draw.choice([0, 0, 1, 2])):
            stream = {"vl": vl["id"], "size": draw.randint(64, GREATEST_FRAME), "jitter_ns": draw.choice([0, vl["jitter_ns"]])}
            stream |= {"offset_ns": draw.choice([0, vl["offset_ns"]]), "period_ns": vl["period_ns"] * draw.choice([1, 2, 5])}
            tree["stream"].append(stream)
    for row in [*tree["vl"], *tree["stream"]]:
        row |= draw.choice([{}, {"frames": draw.choice([1, 2, 3, 9])}, {"frames": 3, "last_size": draw.choice([64, 300, GREATEST_FRAME])}])
        row |= draw.choice([{}, {}, {"timing": "sporadic"}, {"timing": "periodic", "end_ns": draw.randrange(tree["until_ns"] + 2)}])
        row |= draw.choice([{}, {}, {}, {"sub_vl": draw.randrange(4)}])


def move_to_the_latest_end(tree: toml_lines.Table) -> None:
    """The same network, with all of its moments as late as can be."""
    late = LATEST_NS - tree["until_ns"]
    tree["until_ns"] = LATEST_NS
    for row in [*tree["vl"], *tree.get("stream", [])]:
        row["offset_ns"] = min(LATEST_NS, row["offset_ns"] + late)
        if "end_ns" in row:
            row["end_ns"] = min(LATEST_NS, row["end_ns"] + late)
    for outage in tree["outage"]:
        outage["from_ns"] = outage["from_ns"] + late
        outage["to_ns"] = min(LATEST_NS, outage["to_ns"] + late)


class Drawn:
    """What run number `number` has: its network, and the words that set its pace."""

    def __init__(self, number: int) -> None:
        draw = random.Random(number)
        self.number = number
        self.is_large = number % 2 == 1
        self.is_followed = number % 10 == 9
        tree = network_of(draw, self.is_large, LONGER if self.is_followed else 1)
        self.network = text_of_tree(tree)
        self.nodes = len(tree["node"])
        self.processes = self.nodes + 2 * len(tree["link"])
        self.workers = power(draw, 64)
        self.turn = power(draw, 256)
        self.window = power(draw, LATEST_NS)
        self.groups = power(draw, 64) if draw.random() < 0.5 else None
        if self.is_large:
            self.workers = max(2, self.workers)
            self.groups = draw.choice([2, draw.randint(2, self.nodes // 2)])
        if self.is_followed:
            # Two groups a worker, as the program gives them, so that there is something to steal.
            self.workers, self.groups = draw.randint(2, 4), None
        self.has_journal = (self.is_large or number % 10 == 0) and not self.is_followed
        self.has_stopped = number % 10 == 5

    def pace(self) -> list[str]:
        groups = [] if self.groups is None else ["--groups", str(self.groups)]
        return ["--workers", str(self.workers), *groups, "--turn", str(self.turn), "--window", str(self.window)]

    def has_several_members(self, groups: int) -> bool:
        """Whether this number of groups are several with several members each. Lines go with the node to which they lead; where groups are
        more than nodes, processes go to them in turn."""
        return groups > 1 and (groups <= self.nodes or self.processes > groups + 1)


class Difference(Exception):
    """What a run did that it must not do."""


def read(path: str) -> bytes:
    with open(path, "rb") as file:
        return file.read()


def ended(program: str, words: list[str], folder: str, seconds: int) -> tuple[bytes, bytes]:
    """The bytes that a command prints on both streams. Its status must be 0."""
    try:
        run = subprocess.run([program, *words], cwd=folder, capture_output=True, timeout=seconds)
    except subprocess.TimeoutExpired:
        raise Difference(f"{words[0]} took longer than {seconds} seconds") from None
    if run.returncode:
        raise Difference(f"{words[0]} ended with status {run.returncode}: {run.stderr.decode(errors='replace').strip()}")
    return run.stdout, run.stderr


def same(found: bytes, wanted: bytes, what: str) -> None:
    if found != wanted:
        raise Difference(f"{what} differ from those of seq")


def hold(program: str, drawn: Drawn, folder: str, seconds: int) -> set[str]:
    """Makes a run and holds it against the one-thread run. The answer is what it did, and whether it could be looked for."""
    with open(os.path.join(folder, "net.toml"), "w", encoding="utf-8") as out:
        out.write(drawn.network)
    tables, _ = ended(program, ["seq", "net.toml", "--trace", "seq.csv"], folder, seconds)
    journal = ["--journal", "steps.txt"] if drawn.has_journal else []
    words = ["run", "net.toml", *drawn.pace(), "--progress", "--trace", "run.csv", *journal]
    printed, errors = ended(program, words, folder, seconds)
    same(printed, tables, "the tables of run")
    same(read(os.path.join(folder, "run.csv")), read(os.path.join(folder, "seq.csv")), "the rows of run's trace")
    found = GROUPS_AND_WORKERS.search(errors.decode(errors="replace"))
    if not found:
        raise Difference("run did not report its groups and workers")
    groups, workers = map(int, found.groups())
    did = {SEVERAL} if drawn.has_several_members(groups) else set()
    # Without a trace and a journal the program makes neither, and counts the tables in another way.
    words = ["run", "net.toml", *drawn.pace()]
    if drawn.has_stopped and workers > 1:
        did |= hold_with_stopped(program, words, folder, seconds, workers, tables)
    elif drawn.is_followed and workers > 1:
        did |= hold_followed(program, words, folder, seconds, tables)
    else:
        same(ended(program, words, folder, seconds)[0], tables, "the tables of run alone")
    if drawn.has_journal:
        printed, errors = ended(program, ["replay", "net.toml", "steps.txt"], folder, seconds)
        same(printed, tables, "the tables of replay")
        if not WELL_REPLAYED.fullmatch(errors.decode(errors="replace")):
            raise Difference(f"replay printed: {errors.decode(errors='replace').strip()}")
        steps = read(os.path.join(folder, "steps.txt"))
        for fault in replayed_journal.faults(toml_lines.read(drawn.network), steps.decode().splitlines(), drawn.window):
            raise Difference(f"the journal: {fault}")
        if has_rolled_back(steps):
            did.add(ROLLED_BACK)
    return did


def hold_with_stopped(program: str, words: list[str], folder: str, seconds: int, workers: int, tables: bytes) -> set[str]:
    """Makes a run whose last worker stands still until all others have ended, if they do soon. The answer is what they did."""
    try:
        run, thread = stopped_threads.start([program, *words], folder, workers)
    except stopped_threads.NotAllowed:
        return {NOT_ALLOWED}
    try:
        # They end only where GVT is behind the end, and so are the groups of the worker that stands still.
        is_served = thread is not None and stopped_threads.is_alone(run, thread, SECONDS_TO_SERVE)
    finally:
        if thread is not None:
            stopped_threads.go_on(thread)
    try:
        printed, errors = run.communicate(timeout=seconds)
    except subprocess.TimeoutExpired:
        run.kill()
        run.communicate()
        raise Difference(f"run with a worker that stood still took longer than {seconds} seconds") from None
    if run.returncode:
        raise Difference(f"run with a worker that stood still ended with status {run.returncode}: {errors.decode(errors='replace').strip()}")
    same(printed, tables, "the tables of run with a worker that stood still")
    return {SERVED} if is_served else set()


def hold_followed(program: str, words: list[str], folder: str, seconds: int, tables: bytes) -> set[str]:
    """Makes a run that is followed. The answer is whether a worker stole a group, or why this is not known."""
    try:
        outcome = stolen_groups.followed([program, *words], folder, seconds)
    except stopped_threads.NotAllowed:
        return {NOT_ALLOWED}
    except stolen_groups.NoPlace:
        same(ended(program, words, folder, seconds)[0], tables, "the tables of run alone")
        return {NO_PLACE}
    if outcome.status:
        raise Difference(f"run that was followed ended with status {outcome.status}: {outcome.errors.decode(errors='replace').strip()}")
    same(outcome.printed, tables, "the tables of run that was followed")
    return {FOLLOWED, STOLEN} if outcome.has_stolen else {FOLLOWED}


def has_rolled_back(journal: bytes) -> bool:
    """Whether a run with this journal, which has committed all events, handled more than that."""
    lines = b"\n" + journal
    return lines.count(b"\nR ") > lines.count(b"\nC ")


def hold_by_second_opinion(program: str, drawn: Drawn, folder: str, seconds: int) -> set[str]:
    """Makes a run of one thread and holds it against the second opinion."""
    with open(os.path.join(folder, "net.toml"), "w", encoding="utf-8") as out:
        out.write(drawn.network)
    tables, _ = ended(program, ["seq", "net.toml", "--trace", "seq.csv"], folder, seconds)
    simulation = Simulation(toml_lines.read(drawn.network))
    simulation.run()
    for lines, found, what in (
        (simulation.tables(), tables, "the tables of the second opinion"),
        (simulation.trace(), read(os.path.join(folder, "seq.csv")), "the rows of the second opinion's trace"),
    ):
        same("".join(line + "\n" for line in lines).encode(), found, what)
    return set()


def one_run(words: argparse.Namespace, number: int, report: Callable[[str], object]) -> set[str]:
    """Makes one run, prints what it did and must not do, and returns what came out, each in a few words."""
    drawn = Drawn(number)
    folder = tempfile.mkdtemp(prefix=f"threaded-run-{number}-")
    try:
        found = (hold_by_second_opinion if words.second_opinion else hold)(words.program, drawn, folder, words.seconds) | {"well"}
    except Difference as fault:
        found = {"another way"}
        report(f"run {number} ({' '.join(drawn.pace())}): {fault}")
    finally:
        if not words.keep:
            shutil.rmtree(folder)
    if words.keep:
        report(f"run {number}: {folder}")
    return found


def words_of(arguments: list[str] | None = None) -> argparse.Namespace:
    parser = argparse.ArgumentParser(
        prog="threaded_runs", description=__doc__, epilog=EXAMPLES, formatter_class=argparse.RawDescriptionHelpFormatter
    )
    add = parser.add_argument
    add("--runs", type=whole(1, 10**6), default=1000, metavar="N", help="how many runs (default 1000)")
    add("--first", type=whole(0, 10**9), default=0, metavar="N", help="number of the first (default 0)")
    add("--seconds", type=whole(1, 3600), default=60, metavar="N", help="most of a command (default 60)")
    add("--second-opinion", action="store_true", help="holds seq against the second opinion; no worker runs")
    add("--keep", action="store_true", help="keeps the files of each run, and names the folder")
    add("--program", default=PROGRAM, metavar="FILE", help="the built program (default crates/afdxsim/out/afdxsim)")
    words = parser.parse_args(arguments)
    if not os.access(words.program, os.X_OK):
        parser.error(f"no program at {words.program}: build it by `rt run` in crates/afdxsim")
    words.program = os.path.abspath(words.program)
    return words


@files.tool("threaded_runs")
def main(arguments: list[str] | None = None) -> int:
    words = words_of(arguments)
    outcomes: collections.Counter[str] = collections.Counter()
    for number in range(words.first, words.first + words.runs):
        outcomes.update(one_run(words, number, files.say))
    other = "the second opinion" if words.second_opinion else "seq"
    files.say(f"{words.runs} runs, {outcomes['well']} came out as {other}, {outcomes['another way']} did not")
    if words.second_opinion:
        return 1 if outcomes["another way"] else 0
    files.say("of these " + ", ".join(f"{outcomes[what]} {what}" for what in (SEVERAL, ROLLED_BACK, SERVED, FOLLOWED)) + f", of which {outcomes[STOLEN]} {STOLEN}")
    if outcomes[NOT_ALLOWED]:
        files.say(f"in {outcomes[NOT_ALLOWED]} no worker could be stopped: this system does not allow ptrace")
    if outcomes[NO_PLACE]:
        files.say(f"in {outcomes[NO_PLACE]} it is not known whether a group was stolen: the program has another form, or objdump is not there")
    wanted = (SEVERAL, ROLLED_BACK) if outcomes[NOT_ALLOWED] else (SEVERAL, ROLLED_BACK, SERVED)
    is_lacking = words.runs >= ENOUGH_RUNS and not all(outcomes[what] for what in wanted)
    is_lacking |= outcomes[FOLLOWED] >= ENOUGH_FOLLOWED and not outcomes[STOLEN]
    return 1 if outcomes["another way"] or is_lacking else 0


if __name__ == "__main__":
    sys.exit(main())
