#!/usr/bin/env python3
"""Measures the speed of a build of the program: `check`, `seq` and `run` on three networks that afdx large-network writes.

    afdx benchmark PROGRAM [--sizes small,aircraft,limit] [--reps 5] [--workers 1,2,4]

PROGRAM is the built program: crates/afdxsim/out/afdxsim, as ./test and `./afdx build` leave it. A table goes to standard
output, one line for each network and command:

  network    small     16 end systems, 2 x 2 switches, 60 virtual links, 1 simulated second
             aircraft  120 end systems, 2 x 8 switches, 1,000 virtual links, 1 simulated second
             limit     760 end systems, 2 x 38 switches (4,096 processes), 65,536 virtual links, 0.1 simulated seconds
  command    check, seq, or run with a number of workers, if --workers names some: run has that many, or as many as groups
             of processes if these are fewer; the whole run of the program counts, with its start and the reading of the
             description
  events     messages handled by seq, counted once by afdx second-opinion --events. Empty if afdx large-network was changed,
             so that its text is no longer the one that was counted
  rows       frames delivered and frames dropped, with duplicates, by the tables of seq. It is the number of lines that a
             trace would have after its first
  seconds    wall time, the median of the repetitions; the commands take turns, so that what else the machine does falls on all
  least      wall time, the least of them
  events/s   events by the median
  MiB        peak memory of the program, the greatest of the repetitions. The system counts from the start of a process,
             so less than this script itself takes cannot be seen; the line below the table has that number

The figures depend on the machine and on what else it does. Compare only figures of one machine, and let it be quiet.
"""
import argparse
import os
import statistics
import subprocess
import sys
import tempfile
import time
import zlib
from collections.abc import Iterator

from afdx import files
from afdx.files import program

# For each network the words for afdx large-network, the number of messages that seq handles in it, and the CRC-32 of
# the description, by which a changed description is noticed.
SIZES: dict[str, tuple[list[str], int, int]] = {
    "small": (["--end-systems", "16", "--switches", "2", "--virtual-links", "60"], 216_571, 0x9B01492E),
    "aircraft": ([], 4_149_705, 0x90AD70D9),
    "limit": (
        ["--end-systems", "760", "--switches", "38", "--virtual-links", "65536"]
        + ["--load", "90", "--until", "100000000"],
        5_383_111,
        0x7CAF7F5F,
    ),
}

COMMANDS = ["check", "seq"]
COLUMNS = ["network", "command", "events", "rows", "seconds", "least", "events/s", "MiB"]


class Run:
    """One run of a command: its wall time in seconds and its peak memory in MiB. Its output goes to a file."""

    def __init__(self, command: list[str], output: str) -> None:
        with open(output, "wb") as out:
            begin = time.monotonic()
            to_file = [(os.POSIX_SPAWN_DUP2, out.fileno(), 1)]
            process = os.posix_spawn(command[0], command, os.environ, file_actions=to_file)
            _, status, usage = os.wait4(process, 0)
            self.seconds = time.monotonic() - begin
        self.mebibytes = usage.ru_maxrss / 1024
        code = os.waitstatus_to_exitcode(status)
        if code != 0:
            sys.exit(f"afdx benchmark: {' '.join(command)} ended with status {code}")


def write_description(size: str, path: str) -> None:
    words, _, _ = SIZES[size]
    command = program.command("large-network", *words)
    with open(path, "wb") as out:
        subprocess.run(command, stdout=out, stderr=subprocess.DEVNULL, check=True)


def events_of(size: str, path: str) -> int | None:
    """How many messages seq handles in this network, or None where the description is not the one that was counted."""
    _, events, counted = SIZES[size]
    seen = 0
    with open(path, "rb") as text:
        while piece := text.read(65536):
            seen = zlib.crc32(piece, seen)
    return events if seen == counted else None


def rows_of(tables: str) -> int:
    """The sum of the counts of a text of tables."""
    with open(tables, encoding="ascii") as lines:
        next(lines)
        return sum(int(line.split(",")[4]) for line in lines)


def measure(path: str, size: str, folder: str, reps: int, workers: list[str]) -> Iterator[list[str]]:
    """The lines of the table for one network."""
    net = os.path.join(folder, size + ".toml")
    write_description(size, net)
    counted = events_of(size, net)
    commands = [[name, net] for name in COMMANDS] + [["run", net, "--workers", str(number)] for number in workers]
    outputs = [os.path.join(folder, f"output-{at}") for at in range(len(commands))]
    rounds = [[Run([path, *words], output) for words, output in zip(commands, outputs)] for _ in range(reps)]
    for command, output, runs in zip(commands, outputs, zip(*rounds)):
        median = statistics.median(run.seconds for run in runs)
        name = " ".join([command[0], *command[3:]])
        has_tables = command[0] != "check"
        events = counted if has_tables else None
        yield [
            size,
            name,
            f"{events:,}" if events else "",
            f"{rows_of(output):,}" if has_tables else "",
            f"{median:.3f}",
            f"{min(run.seconds for run in runs):.3f}",
            f"{events / median:,.0f}" if events else "",
            f"{max(run.mebibytes for run in runs):.1f}",
        ]


def print_line(cells: list[str]) -> None:
    widths = [10, 16, 11, 9, 9, 9, 12, 8]
    left = [cell.ljust(width) for cell, width in zip(cells[:2], widths)]
    right = [cell.rjust(width) for cell, width in zip(cells[2:], widths[2:])]
    files.say(" ".join(left + right))


def judge(name: str, path: str) -> None:
    """Refuses what is no program that can be measured."""
    try:
        program.given(path)
    except program.NoProgram:
        raise files.Fault(name, None, "cannot be run, or is no afdxsim: name the built program") from None


@files.tool("afdx benchmark")
def main(arguments: list[str] | None = None) -> None:
    parser = argparse.ArgumentParser(prog="afdx benchmark", description=__doc__, formatter_class=argparse.RawDescriptionHelpFormatter)
    add = parser.add_argument
    add("program", metavar="PROGRAM", help="the program to measure")
    add("--sizes", default=",".join(SIZES), metavar="NAMES", help="networks, with commas between (default: all three)")
    add("--reps", type=int, default=5, metavar="N", help="repetitions of each command, at least 1 (default 5)")
    add("--workers", default="", metavar="NUMBERS", help="numbers of workers to measure run with, 1 to 64 (default: none)")
    words = parser.parse_args(arguments)
    sizes = words.sizes.split(",")
    if not set(sizes) <= set(SIZES):
        parser.error("the networks are " + ", ".join(SIZES))
    workers = words.workers.split(",") if words.workers else []
    if not all(it.isdecimal() and 1 <= int(it) <= 64 for it in workers):
        parser.error("workers are 1 to 64, with commas between")
    if words.reps < 1:
        parser.error("at least one repetition is needed")
    path = os.path.abspath(words.program)
    judge(words.program, path)
    print_line(COLUMNS)
    with tempfile.TemporaryDirectory() as folder:
        for size in sizes:
            for line in measure(path, size, folder, words.reps, workers):
                print_line(line)
        least = Run(["/bin/true"], os.path.join(folder, "output")).mebibytes
    files.say(f"The least MiB that can be seen here: {least:.1f}")


if __name__ == "__main__":
    sys.exit(main())
