"""Runs of a campaign by the program of these sources without a proof: `rt try` builds it once, and runs it for each."""
import tempfile
from collections.abc import Callable, Iterable

from afdx.files.program import NoProgram
from afdx.runs import by_rt
from afdx.runs.side_by_side import Failure, Results, Run, failure_of, printed_by


class Tried:
    """Makes runs as tools/afdx/runs/side_by_side.py does, one after another. What a run prints or traces may have at most 1 MiB."""

    def __init__(self, is_traced: bool = False) -> None:
        self.is_traced = is_traced
        # Nobody hears how far a run is: what it says comes at its end.
        self.hear: Callable[[str, str], object] | None = None

    def results(self, runs: Iterable[Run]) -> Results:
        """Yields each run and what it printed, in the order of the runs. The first one that fails ends it."""
        runs = list(runs)
        words = ["--trace", "/dev/stderr"] if self.is_traced else []
        try:
            found = by_rt.cases_by_try([(run.text.encode(), words) for run in runs])
        except NoProgram as fault:
            raise Failure(str(fault)) from None
        for run, (status, printed, said) in zip(runs, found):
            if status is None:
                raise Failure(f"{run.name}: `rt try` gave no answer: it passes on at most 1 MiB; `afdx build` builds the proved program")
            if status != 0:
                raise Failure(f"{run.name}: {failure_of(status, said)}")
            with tempfile.TemporaryDirectory() as folder:
                yield run, printed_by(printed, said.decode("utf-8", "replace") if self.is_traced else None, folder)
