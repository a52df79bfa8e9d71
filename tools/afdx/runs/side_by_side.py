"""Runs of the program, several side by side on this machine. tools/afdx/runs/cluster.py makes them on several machines."""
import concurrent.futures
import contextlib
import os
import re
import subprocess
import tempfile
import threading
from collections import deque
from collections.abc import Callable, Generator, Iterable, Sequence
from typing import NamedTuple, Protocol

from afdx import files


class Run(NamedTuple):
    """A run that is to be made: its name, and its description."""

    name: str
    text: str


# A line of the program that prints how far a run is.
FAR = re.compile(rb"afdxsim: (\d+ of \d+ ms.*)\n")


class Printed(NamedTuple):
    """What a run printed: the text of its tables and, if one was asked for, the path of its trace. This file exists until the
    next run is asked for: who needs it longer puts it elsewhere."""

    tables: str
    trace: str | None


# Who keeps the texts of a run: gets the beginning of the name of its files, its description and its tables.
Keep = Callable[[str, str, str], object]
# Each run and what it printed, in the order of the runs.
Results = Generator[tuple[Run, Printed], None, None]


class Runs(Protocol):
    """What makes runs."""

    hear: Callable[[str, str], object] | None

    def results(self, runs: Iterable[Run]) -> Results: ...


class Worst(NamedTuple):
    """The greatest latency of runs in ns, with its virtual link, destination and seed."""

    ns: int
    vl: int
    where: str
    seed: int


class Shown(Protocol):
    """What shows how far runs are."""

    def listen(self, maker: Runs) -> None: ...

    def update(self, done: int, worst: Worst | None) -> None: ...

    def end(self) -> None: ...


class Failure(Exception):
    """Why a run failed, with its name."""


def failure_of(status: int, said: bytes) -> str:
    """What the program said at last, and how it ended."""
    last = said.decode("utf-8", "replace").strip().split("\n")[-1]
    ended = f"status {status}" if status > 0 else files.ended_by(-status)
    return f"{last} ({ended})" if last else ended


class Here:
    """Makes runs on this machine, at most `jobs` side by side, by a command before the path of a description. `knows_progress`: whether
    it has the option --progress."""

    def __init__(self, command: Sequence[str], jobs: int, is_traced: bool = False, knows_progress: bool = True) -> None:
        self.command, self.jobs, self.is_traced, self.knows_progress = command, jobs, is_traced, knows_progress
        self.lock = threading.Lock()
        self.going: dict[int, subprocess.Popen[bytes]] = {}
        self.last: int | None = None
        # Who hears how far each run is, if anybody does: it is called with the run's name and a text.
        self.hear: Callable[[str, str], object] | None = None

    def results(self, runs: Iterable[Run]) -> Results:
        """Yields each run and what it printed, in the order of the runs. The first one in this order that fails ends it,
        and those behind it. So does the end of the generator."""
        rest, self.last = enumerate(runs), None
        waiting: deque[tuple[Run, concurrent.futures.Future[Printed | None]]] = deque()
        with tempfile.TemporaryDirectory() as folder, concurrent.futures.ThreadPoolExecutor(self.jobs) as pool:
            try:
                while True:
                    while len(waiting) < 2 * self.jobs and (new := next(rest, None)):
                        waiting.append((new[1], pool.submit(self.watched, folder, *new)))
                    if not waiting:
                        return
                    run, future = waiting.popleft()
                    printed = future.result()
                    # None is of runs that are behind one that failed.
                    assert printed is not None
                    yield run, printed
                    if printed.trace:
                        drop(printed.trace)
            except (Failure, OSError, RuntimeError) as failure:
                raise Failure(f"{run.name}: {failure}") from None
            finally:
                self.stop_after(-1)
                for _, future in waiting:
                    future.cancel()

    def watched(self, folder: str, number: int, run: Run) -> Printed | None:
        """A run; if it fails, those behind it need not go on."""
        try:
            return self.one(folder, number, run)
        except BaseException:
            self.stop_after(number)
            raise

    def one(self, folder: str, number: int, run: Run) -> Printed | None:
        """What a run printed, or None where all has ended before it."""
        path = os.path.join(folder, f"{number}.toml")
        words = [*self.command, path]
        traced = os.path.join(folder, f"{number}.csv")
        if self.is_traced:
            words += ["--trace", traced]
        if self.hear and self.knows_progress:
            words.append("--progress")
        with open(path, "w", encoding="utf-8", newline="\n") as out:
            out.write(run.text)
        with self.lock:
            if self.is_over(number):
                return None
            self.going[number] = started = self.started(words)
        printed, said = self.heard(run, started) if self.hear else started.communicate()
        with self.lock:
            del self.going[number]
            if self.is_over(number):
                return None
        os.unlink(path)
        if started.returncode != 0:
            raise Failure(failure_of(started.returncode, said))
        return Printed(printed.decode("utf-8", "replace"), traced if self.is_traced else None)

    def heard(self, run: Run, started: subprocess.Popen[bytes]) -> tuple[bytes, bytes]:
        """What a run printed and said; whoever hears gets the lines of its progress."""
        said: list[bytes] = []

        def listen() -> None:
            assert started.stderr is not None and self.hear is not None
            for line in started.stderr:
                if far := FAR.fullmatch(line):
                    self.hear(run.name, far[1].decode("ascii", "replace"))
                else:
                    said.append(line)

        with started:
            listener = threading.Thread(target=listen)
            listener.start()
            assert started.stdout is not None
            printed = started.stdout.read()
            listener.join()
        return printed, b"".join(said)

    @staticmethod
    def started(words: Sequence[str]) -> subprocess.Popen[bytes]:
        pipe = subprocess.PIPE
        try:
            return subprocess.Popen(words, stdin=subprocess.DEVNULL, stdout=pipe, stderr=pipe)
        except OSError as fault:
            raise Failure(f"{words[0]} cannot be run: {fault.strerror}") from None

    def is_over(self, number: int) -> bool:
        return self.last is not None and number > self.last

    def stop_after(self, number: int) -> None:
        """Ends the runs behind a number, and lets those before it go on."""
        with self.lock:
            self.last = number if self.last is None else min(number, self.last)
            for later, started in self.going.items():
                if later > number:
                    started.kill()


def drop(path: str) -> None:
    """Removes a file, if nobody has put it elsewhere."""
    with contextlib.suppress(FileNotFoundError):
        os.unlink(path)


def printed_by(tables: bytes, trace: str | None, folder: str) -> Printed:
    """What a run printed whose tables and trace are given as bytes and a text: the trace is put into a file of the folder."""
    path = None
    if trace is not None:
        path = os.path.join(folder, "trace.csv")
        with open(path, "w", encoding="utf-8", newline="") as out:
            out.write(trace)
    return Printed(tables.decode("utf-8", "replace"), path)
