"""Runs of the program on the workers of a Dask cluster, which may be on several machines.

A run goes to a worker as its description. The worker writes it to a file of its own and runs its own `afdxsim`: the one
that its environment names as AFDXSIM, else the one on its PATH, else the one at the path that it has here. It has to be the
same program, byte for byte: its SHA-256 is compared. Where a worker is lost, the scheduler gives what it had to another one.

Dask is Debian's package python3-distributed, of Debian's own interpreter.
"""
import importlib.util
import logging
import os
import re
import subprocess
import sys
import tempfile
from collections import deque
from collections.abc import Callable, Iterable
from typing import Any

from afdx.model import Fault
from afdx.runs.side_by_side import Failure, Printed, Results, Run, failure_of, printed_by

# Debian's packages are for this interpreter.
DEBIAN = "/usr/bin/python3"
PACKAGE = "python3-distributed"
# How long to wait for the scheduler, and for a first worker, in s.
PATIENCE, PATIENCE_FOR_WORKERS = 30, 120


def address(text: str) -> str:
    """The type of a word of the command line: where a scheduler is."""
    if not re.fullmatch(r"(tcp|tls)://\S+:[0-9]+", text):
        raise ValueError
    return text


def is_here() -> bool:
    """Whether this interpreter has Dask."""
    return importlib.util.find_spec("distributed") is not None


def interpreter() -> str:
    """An interpreter that has Dask, where there is another one."""
    if os.path.exists(DEBIAN) and not os.path.samefile(DEBIAN, sys.executable):
        words = [DEBIAN, "-c", "import distributed"]
        if subprocess.run(words, stdin=subprocess.DEVNULL, capture_output=True).returncode == 0:
            return DEBIAN
    raise Fault("--dask", None, f"needs Dask for {DEBIAN}: apt-get install -y {PACKAGE}")


def made_for_workers() -> Callable[[str, str, str, bool], tuple[int | None, Any]]:
    """The function that a worker calls. It is made in a function, so that it is sent as it stands: the worker has none of
    these files. It answers the status and what the program printed, said and traced, or None and why it could not be run."""

    def run_there(text: str, program: str, wanted: str, is_traced: bool) -> tuple[int | None, Any]:
        import hashlib
        import os
        import shutil
        import subprocess
        import tempfile

        program = os.environ.get("AFDXSIM") or shutil.which("afdxsim") or program
        with tempfile.TemporaryDirectory() as folder:
            path, traced = os.path.join(folder, "net.toml"), os.path.join(folder, "trace.csv")
            with open(path, "w", encoding="utf-8", newline="\n") as out:
                out.write(text)
            words = [program, "seq", path] + (["--trace", traced] if is_traced else [])
            try:
                with open(program, "rb") as file:
                    found = hashlib.file_digest(file, "sha256").hexdigest()
                if found != wanted:
                    said = f"{program} of {os.uname().nodename} is another program: its SHA-256 is {found[:16]}.."
                    return None, f"{said}, and here it is {wanted[:16]}..; AFDXSIM in the environment of a worker names its program"
                run = subprocess.run(words, stdin=subprocess.DEVNULL, capture_output=True)
            except OSError as fault:
                return None, f"{program} cannot be run on {os.uname().nodename}: {fault.strerror}"
            trace = None
            if is_traced and run.returncode == 0:
                with open(traced, encoding="utf-8", errors="replace", newline="") as file:
                    trace = file.read()
            return run.returncode, (run.stdout, run.stderr, trace)

    return run_there


class Cluster:
    """Makes runs on the workers of a cluster whose scheduler is at an address."""

    # Who would hear how far runs are; none says it.
    hear: Callable[[str, str], object] | None

    def __init__(self, address: str, program: str, sha256: str, is_traced: bool = False) -> None:
        from distributed import Client

        # What they print of connections that end is not wanted here.
        for name in ("distributed", "tornado", "asyncio"):
            logging.getLogger(name).setLevel(logging.CRITICAL + 1)
        self.program, self.sha256, self.is_traced = program, sha256, is_traced
        try:
            self.client = Client(address, timeout=PATIENCE, set_as_default=False)
        except OSError as fault:
            raise Fault(address, None, f"is no scheduler: {fault}") from None
        try:
            self.client.wait_for_workers(1, timeout=PATIENCE_FOR_WORKERS)
        except TimeoutError:
            self.client.close()
            raise Fault(address, None, f"has no worker, and none came in {PATIENCE_FOR_WORKERS} s") from None

    def results(self, runs: Iterable[Run]) -> Results:
        """Yields each run and what it printed, in the order of the runs. The first one in this order that fails ends it.
        So does the end of the generator."""
        rest, run_there = iter(runs), made_for_workers()
        waiting: deque[tuple[Run, Any]] = deque()
        try:
            while True:
                # Workers may come and go.
                while len(waiting) < 2 * max(1, sum(self.client.nthreads().values())) and (run := next(rest, None)):
                    words = run.text, self.program, self.sha256, self.is_traced
                    waiting.append((run, self.client.submit(run_there, *words, pure=False)))
                if not waiting:
                    return
                run, future = waiting.popleft()
                with tempfile.TemporaryDirectory() as folder:
                    yield run, self.printed(run, future, folder)
        finally:
            self.client.cancel([future for _, future in waiting])
            self.client.close()

    @staticmethod
    def printed(run: Run, future: Any, folder: str) -> Printed:
        from distributed import CancelledError, KilledWorker

        try:
            status, found = future.result()
        except (KilledWorker, CancelledError, OSError) as fault:
            raise Failure(f"{run.name}: {type(fault).__name__}: {fault}") from None
        if status is None:
            raise Failure(f"{run.name}: {found}")
        printed, said, trace = found
        if status != 0:
            raise Failure(f"{run.name}: {failure_of(status, said)}")
        return printed_by(printed, trace, folder)
