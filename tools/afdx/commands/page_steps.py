"""The steps of `afdx page` side by side: each is a process whose output is kept until it is its turn to be printed."""
import os
import subprocess
import sys
import time
from typing import Any

from afdx import files
from afdx.commands.chosen_program import write
from afdx.files import watch
from afdx.runs.by_rt import report

# How long is waited between two looks at processes that run side by side, in seconds.
BETWEEN_LOOKS = 0.02


class Step:
    """A process of a page. What it prints and says goes into files of a folder, until `show` prints it."""

    def __init__(self, folder: str, name: str, command: list[str], output: str | None = None, **more: Any) -> None:
        self.name = os.path.basename(command[0])
        self.printed = None if output else open(os.path.join(folder, name + ".out"), "w+b")
        self.said = open(os.path.join(folder, name + ".err"), "w+b")
        out = self.printed or open(output or os.devnull, "wb")
        self.run = subprocess.Popen(command, stdin=subprocess.DEVNULL, stdout=out, stderr=self.said, **more)
        if output:
            out.close()

    def has_failed(self) -> bool:
        """Whether it has ended with another status than 0."""
        return self.run.poll() not in (None, 0)

    def status(self) -> int:
        """Its status, once it has ended."""
        return self.run.wait()

    def texts(self) -> tuple[bytes, bytes]:
        """What it printed on standard output, if that is kept, and on error output."""
        found = []
        for file in (self.printed, self.said):
            if file:
                file.seek(0)
            found.append(file.read() if file else b"")
        return found[0], found[1]

    def show(self) -> int:
        """Waits until it ends, prints what it said, and returns its status."""
        status = self.status()
        printed, said = self.texts()
        with watch.quiet():
            write(sys.stderr, said)
            write(sys.stdout, printed)
        if status < 0:
            report(f"{self.name} was {files.ended_by(-status)}")
        return status

    def stop(self) -> None:
        """Ends it, if it has not ended, and forgets what it said."""
        if self.run.poll() is None:
            self.run.kill()
            self.run.wait()
        for file in (self.printed, self.said):
            if file:
                file.close()


def ended_together(one: Step, needed: Step | None) -> None:
    """Waits for a step that reads what another one writes. If that fails, the first one would wait for ever, and is ended."""
    while one.run.poll() is None:
        if needed and needed.has_failed():
            return
        time.sleep(BETWEEN_LOOKS)
