"""Processes beside the runs of a campaign: each reads what a run printed, from files, and answers what the campaign needs of it. So
the campaign itself reads neither tables nor traces, and puts answers together in the order of the runs."""
import collections
import concurrent.futures
import contextlib
import gc
import multiprocessing
import os
import pickle
import shutil
import signal
import tempfile
from collections.abc import Generator, Iterable, Iterator, Sequence
from multiprocessing.context import ForkContext
from typing import Any, NamedTuple

from afdx import files
from afdx.runs.side_by_side import Failure, Printed, Run, Runs

# Where processes share what they wait by.
SHARED = "/dev/shm"
# An interrupt waits at most this many s for what is being reckoned on the runs that were made before it.
PATIENCE = 10


class Kept(NamedTuple):
    """The files that are kept of a run: the path of its tables, and that of its trace if it has one."""

    tables: str
    trace: str | None


class Reckoner:
    """What a process that reckons has. It is made before the processes begin, each of which has a copy of it."""

    def asked(self, key: Any, run: Run, kept: Kept) -> tuple[Any, ...]:
        """What a process is given of a run and of the files that are kept of it."""
        return key, run, kept

    def answer(self, *asked: Any) -> Any:
        """What a process answers to that."""
        raise NotImplementedError


# ---- in a process ----

# Its own reckoner.
OWN: Reckoner | None = None


def begin(reckoner: Reckoner) -> None:
    """Begins a process that reckons. It ends with the one that began it, and not by a signal of the terminal."""
    global OWN
    OWN = reckoner
    # What is there already need not be looked through each time that memory is looked for.
    gc.freeze()
    for number in (signal.SIGINT, signal.SIGHUP):
        signal.signal(number, signal.SIG_IGN)
    signal.signal(signal.SIGTERM, signal.SIG_DFL)
    signal.pthread_sigmask(signal.SIG_UNBLOCK, files.SIGNALS)


def answer(path: str, *asked: Any) -> None:
    """Leaves in a file what is answered. Little goes through the pipe of the pool: where a process is ended amid a long message, who
    reads it would wait for the rest for ever."""
    assert OWN is not None
    with open(path, "wb") as out:
        pickle.dump(OWN.answer(*asked), out, pickle.HIGHEST_PROTOCOL)


# ---- in the campaign ----


class Asked(NamedTuple):
    """A run that a process is asked about: what is returned with the answer, the file of that, and what shows that it is there."""

    key: Any
    run: Run
    printed: Printed
    path: str
    future: concurrent.futures.Future[Any]


# Of each run its key, the run, what it printed and what was answered.
Results = Generator[tuple[Any, Run, Printed, Any], None, None]


@contextlib.contextmanager
def beside(reckoner: Reckoner, maker: Runs, runs: Iterable[Run], keys: Iterable[Any], jobs: int) -> Iterator[Results]:
    """The results of runs that a maker makes, each with its key. At the end all processes and files are gone, whatever ended it."""
    with tempfile.TemporaryDirectory() as folder, contextlib.closing(maker.results(runs)) as made:
        keyed = ((key, *it) for key, it in zip(keys, made))
        with contextlib.closing(results(reckoner, keyed, jobs, folder)) as found:
            yield found


def results(reckoner: Reckoner, runs: Iterable[tuple[Any, Run, Printed]], jobs: int, folder: str) -> Results:
    """Yields of each run, given as (key, run, printed) in order, that again with the answer to it; a number of processes reckon
    side by side, by files of a folder. What ends the runs is raised once those before it are yielded."""
    forks, numbered = multiprocessing.get_context("fork"), enumerate(runs)
    waiting: collections.deque[Asked] = collections.deque()
    ended: BaseException | None = None
    with pool_of(jobs, forks, reckoner) as pool:
        try:
            # With the first call all processes begin, before the threads that make the runs.
            with files.signals_held():
                future_of(pool, int)
            while ended is None:
                try:
                    number, made = next(numbered)
                    waiting.append(ask(pool, reckoner, os.path.join(folder, str(number)), *made))
                except BaseException as fault:
                    ended = fault
                while waiting and (len(waiting) > 2 * jobs or waiting[0].future.done()):
                    yield answered(waiting)
            if isinstance(ended, KeyboardInterrupt):
                concurrent.futures.wait([it.future for it in waiting], PATIENCE)
            while waiting and (isinstance(ended, Exception) or waiting[0].future.done()):
                yield answered(waiting)
            if not isinstance(ended, StopIteration):
                raise ended
        finally:
            if waiting:
                end_processes()


def pool_of(jobs: int, forks: ForkContext, reckoner: Reckoner) -> concurrent.futures.ProcessPoolExecutor:
    """The processes. They need semaphores, which Linux keeps in /dev/shm."""
    try:
        return concurrent.futures.ProcessPoolExecutor(jobs, forks, begin, (reckoner,))
    except OSError as fault:
        text = f"holds no semaphore for processes side by side: {fault.strerror}. `mount -t tmpfs -o mode=1777 tmpfs {SHARED}` mounts it"
        raise files.Fault(SHARED, None, text) from None


def answers(reckoner: Reckoner, asked: Sequence[Sequence[Any]], jobs: int) -> Generator[Any, None, None]:
    """Yields what is answered to each of some calls of a reckoner, in their order: by a number of processes side by side, if
    there are several calls."""
    if min(jobs, len(asked)) < 2:
        yield from (reckoner.answer(*words) for words in asked)
        return
    forks, waiting = multiprocessing.get_context("fork"), []
    with pool_of(min(jobs, len(asked)), forks, reckoner) as pool:
        try:
            with files.signals_held():
                future_of(pool, int)
            waiting = [future_of(pool, own_answer, *words) for words in asked]
            while waiting:
                yield waiting[0].result()
                waiting.pop(0)
        except concurrent.futures.BrokenExecutor:
            waiting = []
            raise Failure("a process was ended before it answered") from None
        finally:
            if waiting:
                end_processes()


def own_answer(*asked: Any) -> Any:
    """What the reckoner of this process answers."""
    assert OWN is not None
    return OWN.answer(*asked)


def ask(pool: concurrent.futures.Executor, reckoner: Reckoner, path: str, key: Any, run: Run, printed: Printed) -> Asked:
    """Asks a process about a run, whose files get this name and more behind it."""
    # Its description is long, and not needed there.
    asked = reckoner.asked(key, run._replace(text=""), keep(path, printed))
    return Asked(key, run, printed, path + ".answer", future_of(pool, answer, path + ".answer", *asked))


def keep(path: str, printed: Printed) -> Kept:
    """Keeps what a run printed for the process that reckons on it: whoever made the run keeps its trace no longer."""
    tables, trace = path + ".tables.csv", path + ".trace.csv" if printed.trace else None
    with open(tables, "w", encoding="utf-8", newline="") as out:
        out.write(printed.tables)
    if printed.trace and trace:
        shutil.move(printed.trace, trace)
    return Kept(tables, trace)


def drop(kept: Kept) -> None:
    """Removes what was kept of a run."""
    for path in kept:
        if path:
            os.unlink(path)


def future_of(pool: concurrent.futures.Executor, *call: Any) -> concurrent.futures.Future[Any]:
    """What a process of the pool will answer to a call."""
    try:
        return pool.submit(*call)
    except RuntimeError as fault:
        raise Failure(f"no process can reckon: {fault}") from None


def answered(waiting: collections.deque[Asked]) -> tuple[Any, Run, Printed, Any]:
    """The first of those that wait, with its answer. Until that is there it is among those that the end of all ends."""
    key, run, printed, path, future = waiting[0]
    try:
        future.result()
    except concurrent.futures.BrokenExecutor:
        raise Failure(f"{run.name}: the process that reckons on it was ended") from None
    with open(path, "rb") as file:
        found = pickle.load(file)
    os.unlink(path)
    waiting.popleft()
    return key, run, printed, found


def end_processes() -> None:
    """Ends what is still reckoned on: nobody hears it any more. No future is cancelled: the pool fails at one that is where it finds
    its processes ended, and leaves some of them."""
    for process in multiprocessing.active_children():
        process.terminate()
