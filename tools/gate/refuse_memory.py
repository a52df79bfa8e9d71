#!/usr/bin/env python3
"""Refuses each request of a program for memory in turn, and checks what the program then does.

    python3 -m gate.refuse_memory

It runs the commands `check`, `seq`, `replay` and `run` of the proved program on examples/n1.toml, also with a further stream, and
`check` and `seq` on texts with a fault, once for each request for memory. That request is refused, until a run makes fewer requests. Each run must
end as if none were refused, with the same status and the same texts, or with status 5 and the line `afdxsim: out of memory`;
`run` also with status 4 and `afdxsim: cannot start a worker`. Standard output is then empty or whole, and a file is missing or
has a beginning of its text. With two workers the same request comes at another place each time, and the journal differs each
time: the tool checks its form and, if the run succeeded, `replay` checks it.

A run has two minutes. So runs of two workers also show that the fault of one ends the other, which would else look for work
for ever. If a trace is written, some 80 more requests are refused: for the segments at the desk, their rows, the batches and
their text, and the channel to the writer's thread.

Tests that are made for it run in the same way, and must pass: the scripts of processes (crate `sample_actor`) and those of the
calls of an exchange (crate `element_rows`). There a refused call is made again, and must then succeed, as must all later ones.
`work` goes on with what its first try left. The tests print which calls were refused; each of those that are named below must
be among them.

It prints for each command and each test how many requests were refused. The status is 0 if each run was right, 1 if not, and
2 if nothing could be run. It needs the programs that `rt ci` leaves in out/, and a C compiler, `cc` or that of the kit, for
the few lines of C that refuse.
"""
import argparse
import os
import re
import shutil
import subprocess
import sys
import tempfile
from collections import Counter
from collections.abc import Callable, Iterable
from typing import NamedTuple

from afdx import files

TOP = os.path.join(os.path.dirname(os.path.abspath(__file__)), "..", "..")

# Where a program of this name is, once it is built.
def program_of(crate: str, name: str) -> str:
    return os.path.normpath(os.path.join(TOP, "crates", crate, "out", name))


PROGRAM = program_of("afdxsim", "afdxsim")

# The programs ask for memory by `malloc` and `realloc` alone. The counter is shared by threads.
REFUSES = r"""
extern void *__libc_malloc(unsigned long);
extern void *__libc_realloc(void *, unsigned long);
extern char *getenv(const char *);
extern long strtol(const char *, char **, int);
extern int dprintf(int, const char *, ...);
extern long syscall(long, ...);

static long place = -1, requests;

static int is_refused(void) {
    if (place < 0) {
        char *given = getenv("REFUSED");
        place = given ? strtol(given, 0, 10) : 0;
    }
    return __atomic_add_fetch(&requests, 1, __ATOMIC_RELAXED) == place;
}

void *malloc(unsigned long size) { return is_refused() ? 0 : __libc_malloc(size); }

void *realloc(void *block, unsigned long size) { return is_refused() ? 0 : __libc_realloc(block, size); }

__attribute__((destructor)) static void report(void) { dprintf(2, "requests: %ld\n", requests); }

/* By this a program of Rattle ends, where no destructor is called. The number is that of `exit_group`. */
void _exit(int status) {
    report();
    for (;;) syscall(231, (long) status);
}
"""

TABLES = "table,vl,where,cause,count,least_ns,greatest_ns,sum_ns\nlatency,1,ES2,,1,27720,27720,27720\n"
BOUNDS = """\
kind,of,where,network_ns,wait_ns,bound_ns,least_ns,jitter_ns,skew_ns,sure,sure_ns
bound,1,ES2,27720,0,27720,27720,0,,,
port,ES1>SW1,,84,yes,,,,,,
port,SW1>ES1,,0,yes,,,,,,
port,SW1>ES2,,84,yes,,,,,,
port,ES2>SW1,,0,yes,,,,,,
"""
TRACE = "time_ns,where,vl,what,value\n27720,ES2,1,delivered,27720\n"
FINISHED = re.compile(r"replay: \d+ did, 0 not enabled, 0 refused, gvt 2000001, finished\n")

# The steps of a whole run: each message of the network is taken, arrives, is handled, and what it sends is posted.
STEPS = "".join(f"T {p} 0\nA {p}\nR {p}\nP {p}\n" for p in (0, 3, 0, 2, 2, 5, 1, 2))
STEPS += "G\n" + "".join(f"C {p}\n" for p in (0, 0, 3, 2, 2, 2, 5, 1))

# The lines of a journal, the last of which may be cut.
JOURNAL = re.compile(r"(?:(?:T \d+ \d+|[ARPC] \d+|G)\n)*(?:T(?: \d*(?: \d*)?)?|[ARPC](?: \d*)?|G|)")

NO_MEMORY = (5, "afdxsim: out of memory\n")
NO_WORKER = (4, "afdxsim: cannot start a worker\n")


class Command(NamedTuple):
    """A command: its words, what it prints on both streams, the texts of its files (None for a journal), how it may be refused
    (status and error output), and the status that it ends with if it is not."""

    words: str
    output: str
    errors: str
    files: dict[str, str | None]
    refusals: tuple[tuple[int, str], ...]
    status: int = 0


# Descriptions with a fault, by the names of their files.
FAULTY = {"syntax.toml": "until_ns =", "missing.toml": "until_ns = 1", "unknown.toml": "until_ns = 1\nseed = 0\nx = 0"}

# The stream of a row of its own, behind those of n1.toml: of its virtual link, and of one that is not there.
STREAM = "\n[[stream]]\nvl = {}\nsize = 64\noffset_ns = 400000\nperiod_ns = 1000000000000\njitter_ns = 0\n"
STREAMS = {"streams.toml": STREAM.format(1), "no_vl.toml": STREAM.format(2)}
TABLES_OF_STREAMS = TABLES.replace(",1,27720,27720,27720", ",2,27720,627720,655440")

COMMANDS = (
    Command("check n1.toml", "ok: 7 processes, 1 virtual links, 1 offers\n", "", {}, (NO_MEMORY,)),
    Command("seq n1.toml", TABLES, "", {}, (NO_MEMORY,)),
    Command("seq n1.toml --trace trace.csv", TABLES, "", {"trace.csv": TRACE}, (NO_MEMORY,)),
    Command(
        "replay n1.toml steps.txt",
        TABLES,
        "replay: 41 did, 0 not enabled, 0 refused, gvt 2000001, finished\n",
        {},
        (NO_MEMORY,),
    ),
    Command("bounds n1.toml", BOUNDS, "", {}, (NO_MEMORY,)),
    Command("bounds n1.toml --contract", BOUNDS, "", {}, (NO_MEMORY,)),
    Command("run n1.toml --workers 2", TABLES, "", {}, (NO_MEMORY, NO_WORKER)),
    # One group has one worker.
    Command("run n1.toml --groups 1", TABLES, "", {}, (NO_MEMORY, NO_WORKER)),
    Command(
        "run n1.toml --workers 2 --journal journal.txt --trace trace.csv",
        TABLES,
        "",
        {"journal.txt": None, "trace.csv": TRACE},
        (NO_MEMORY, NO_WORKER),
    ),
    # Each of the two groups has several of the 7 processes: nodes, and the lines that lead to them.
    Command(
        "run n1.toml --workers 2 --groups 2 --journal journal.txt --trace trace.csv",
        TABLES,
        "",
        {"journal.txt": None, "trace.csv": TRACE},
        (NO_MEMORY, NO_WORKER),
    ),
    Command("check syntax.toml", "", "afdxsim: description: 1 Syntax\n", {}, (NO_MEMORY,), 3),
    Command("seq missing.toml", "", "afdxsim: description: 2 Missing at top seed\n", {}, (NO_MEMORY,), 3),
    Command("seq unknown.toml", "", "afdxsim: description: 5 UnknownName at top\n", {}, (NO_MEMORY,), 3),
    Command("check streams.toml", "ok: 7 processes, 1 virtual links, 2 offers\n", "", {}, (NO_MEMORY,)),
    Command("seq streams.toml", TABLES_OF_STREAMS, "", {}, (NO_MEMORY,)),
    Command("run streams.toml --workers 2", TABLES_OF_STREAMS, "", {}, (NO_MEMORY, NO_WORKER)),
    # Two streams: a whole list waits, 16 frames for a BAG of 1 ms each.
    Command("bounds streams.toml", BOUNDS.replace(",27720,0,27720,27720,0,", ",27720,16000000,16027720,27720,16000000,"), "", {}, (NO_MEMORY,)),
    Command("check no_vl.toml", "", "afdxsim: description: 5 UnknownName at stream 1 vl\n", {}, (NO_MEMORY,), 3),
)


class Test(NamedTuple):
    """A test: its program, its name, and how often each of these calls has to be refused in it, at least."""

    crate: str
    name: str
    calls: dict[str, int]


TESTS = (
    # Each of the six lines with an arrival `arrive?`, whose refusal is printed, is refused at least once.
    Test(
        "sample_actor",
        "tests::scripts_tell_what_their_lines_say",
        {"deliver": 1, "arrive": 1, "arrive?": 6, "run": 1, "commit": 1, "post": 1},
    ),
    Test(
        "element_rows",
        "tests::an_exchange_does_what_scripts_say",
        {"collect": 1, "work": 1, "post": 1, "publish": 1},
    ),
)


class Ended(NamedTuple):
    """How a run ended: its status, both streams, the files that are there, and how many requests it made (None if it was killed)."""

    status: int
    output: str
    errors: str
    files: dict[str, str]
    requests: int | None


# How many requests were refused, how the runs ended by their statuses, what calls they printed, and the faults.
Refused = tuple[int, Counter[int], Counter[str], list[str]]

# After this many runs in a row that made fewer requests, all were refused. With two workers not all make as many.
MISSES = 3

# After this many faults no more is tried.
MOST_FAULTS = 100


def compiler() -> str:
    """A C compiler: that of the machine, or that of the kit."""
    if shutil.which("cc"):
        return "cc"
    page = subprocess.run(["rt", "doc"], capture_output=True, text=True, check=True).stdout.strip()
    return os.path.join(os.path.dirname(page), "toolchain", "bin", "clang")


def library_in(folder: str, source: str = REFUSES) -> str:
    """The library of these lines of C, made in this folder."""
    path, library = os.path.join(folder, "preloaded.c"), os.path.join(folder, "preloaded.so")
    with open(path, "w") as out:
        out.write(source)
    subprocess.run([compiler(), "-shared", "-fPIC", "-fno-builtin", "-O1", "-o", library, path], check=True)
    return library


def ended(program: str, words: Iterable[str], folder: str, library: str, place: int, files: Iterable[str] = ()) -> Ended:
    """How these words end in this folder, where the request with this number, from 1, is refused; 0 refuses none. The files
    are gone before and after."""
    for name in files:
        if os.path.exists(os.path.join(folder, name)):
            os.unlink(os.path.join(folder, name))
    env = os.environ | {"LD_PRELOAD": library, "REFUSED": str(place)}
    run = subprocess.run([program, *words], cwd=folder, env=env, capture_output=True, timeout=120)
    errors = run.stderr.decode("utf-8", "replace")
    counted = re.search(r"requests: (\d+)\n\Z", errors)
    found = {name: text for name in files if (text := text_of(os.path.join(folder, name))) is not None}
    return Ended(
        run.returncode,
        run.stdout.decode("utf-8", "replace"),
        errors[: counted.start()] if counted else errors,
        found,
        int(counted[1]) if counted else None,
    )


def text_of(path: str) -> str | None:
    """The text of a file, or None where there is none."""
    try:
        with open(path, encoding="utf-8", errors="replace", newline="") as file:
            return file.read()
    except FileNotFoundError:
        return None


def fault_of_command(command: Command, found: Ended, is_replayed: Callable[[str], object]) -> str | None:
    """What is wrong with how a command ended, or None. A whole journal is one that `is_replayed`."""
    if found.requests is None:
        return f"it was killed with status {found.status}"
    if found.status == command.status:
        if (found.output, found.errors) != (command.output, command.errors):
            return f"status {found.status}, and it printed {found.output!r} and {found.errors!r}"
        for name, text in command.files.items():
            if not (found.files.get(name) == text if text is not None else is_replayed(found.files.get(name, ""))):
                return f"status {found.status}, and {name} has {found.files.get(name)!r}"
        return None
    if (found.status, found.errors) not in command.refusals:
        return f"status {found.status} and {found.errors!r}"
    if found.output not in ("", command.output):
        return f"it was refused and printed {found.output!r}"
    for name, text in found.files.items():
        whole = command.files[name]
        if not (whole.startswith(text) if whole is not None else JOURNAL.fullmatch(text)):
            return f"it was refused and {name} has {text!r}"
    return None


def fault_of_test(found: Ended) -> str | None:
    """What is wrong with how a test ended, or None."""
    if found.status == 0 and found.output.rstrip().endswith("test result: ok"):
        return None
    return f"status {found.status} and {found.errors.strip()!r}"


def calls_in(errors: str) -> Counter[str]:
    """How often each call was refused, as a test prints it. Letters to be delivered stand for the call."""
    words = re.findall(r"^(\S+) was refused memory$", errors, re.MULTILINE)
    return Counter("deliver" if word[0] in "+-" else word for word in words)


def refuse_each(run: Callable[[int], Ended], fault_of: Callable[[Ended], str | None], status: int = 0) -> Refused:
    """Runs with each request refused in turn, until runs make fewer, which end with this status. How many requests were
    refused, how the runs ended by their statuses, what calls they printed, and the faults, a line each."""
    refused, misses = 0, 0
    statuses: Counter[int] = Counter()
    calls: Counter[str] = Counter()
    faults: list[str] = []
    place = 0
    while True:
        place += 1
        found = run(place)
        fault = fault_of(found)
        if fault:
            faults.append(f"request {place}: {fault}")
            if len(faults) == MOST_FAULTS:
                return refused, statuses, calls, faults
        if found.requests is not None and found.requests < place:
            misses += 1
            if found.status != status and not fault:
                faults.append(f"none was refused: status {found.status} and {found.errors!r}")
            if misses == MISSES:
                return refused, statuses, calls, faults
            continue
        refused, misses = refused + 1, 0
        statuses[found.status] += 1
        calls += calls_in(found.errors)


def refuse_command(program: str, command: Command, folder: str, library: str) -> bool:
    """Refuses each request of a command, and says how that went. Whether it went well."""

    def is_replayed(journal: str) -> bool | re.Match[str] | None:
        with open(os.path.join(folder, "steps_of_run.txt"), "w", newline="") as out:
            out.write(journal)
        replay = subprocess.run(
            [program, "replay", "n1.toml", "steps_of_run.txt"], cwd=folder, capture_output=True, text=True, timeout=60
        )
        return replay.returncode == 0 and replay.stdout == TABLES and FINISHED.fullmatch(replay.stderr)

    refused, statuses, _, faults = refuse_each(
        lambda place: ended(program, command.words.split(), folder, library, place, tuple(command.files)),
        lambda found: fault_of_command(command, found, is_replayed),
        command.status,
    )
    ways = ", ".join(f"{count} with status {status}" for status, count in sorted(statuses.items()))
    return reported(command.words, refused, f" (ended {ways})" if ways else "", faults)


def refuse_test(program: str, test: Test, folder: str, library: str) -> bool:
    """Refuses each request of a test, and says how that went. Whether it went well."""
    refused, _, calls, faults = refuse_each(
        lambda place: ended(program, [test.name], folder, library, place), fault_of_test
    )
    faults += [f"{call} was refused {calls[call]} times" for call, least in test.calls.items() if calls[call] < least]
    ways = ", ".join(f"{call} {calls[call]}" for call in sorted(calls))
    return reported(f"{test.crate} {test.name}", refused, f" ({ways})" if ways else "", faults)


def reported(name: str, refused: int, ways: str, faults: list[str]) -> bool:
    """Says how refusing went. Whether it went well."""
    for fault in faults[:20]:
        files.say(f"{name}: {fault}")
    files.say(f"{name}: {refused} requests refused in turn{ways}; {len(faults)} faults")
    return refused > 0 and not faults


def prepare(folder: str) -> str:
    """Puts the network and the steps into a folder, and the library; its path."""
    shutil.copy(os.path.join(TOP, "examples", "n1.toml"), folder)
    with open(os.path.join(folder, "n1.toml"), encoding="utf-8") as file:
        n1 = file.read()
    for name, text in {"steps.txt": STEPS, **FAULTY, **{name: n1 + more for name, more in STREAMS.items()}}.items():
        with open(os.path.join(folder, name), "w", newline="") as out:
            out.write(text)
    return library_in(folder)


@files.tool("refuse_memory")
def main(arguments: list[str] | None = None) -> int:
    words = argparse.ArgumentParser(prog="refuse_memory", description=__doc__, formatter_class=argparse.RawDescriptionHelpFormatter)
    words.add_argument("--only", metavar="WORD", default="", help="only the commands and tests in whose names this stands")
    given = words.parse_args(arguments)
    try:
        with tempfile.TemporaryDirectory() as folder:
            library = prepare(folder)
            went = [refuse_command(PROGRAM, c, folder, library) for c in COMMANDS if given.only in c.words]
            went += [
                refuse_test(program_of(t.crate, t.crate + "_tests"), t, folder, library)
                for t in TESTS
                if given.only in t.name
            ]
        return 0 if went and all(went) else 1
    except (OSError, subprocess.SubprocessError) as fault:
        files.report("refuse_memory", fault)
        return 2


if __name__ == "__main__":
    sys.exit(main())
