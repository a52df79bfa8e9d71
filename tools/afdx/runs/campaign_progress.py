"""The line on a terminal that shows how far a campaign is."""
import os
import sys
import threading
import time
from typing import Any

from afdx.files import watch
from afdx.runs.side_by_side import Worst


class Progress:
    """The line on a terminal that says how far the campaign is."""

    def __init__(self, count: int, of: str = "runs") -> None:
        self.count, self.of, self.begin = count, of, time.monotonic()
        self.shown, self.last = sys.stderr.isatty(), 0.0
        watch.stop()
        self.lock, self.done = threading.Lock(), 0
        self.worst: Worst | None = None
        self.far: str | None = None

    def listen(self, maker: Any) -> None:
        """Has the maker report the progress of single runs, if that is shown."""
        maker.hear = self.hear if self.shown else None

    def hear(self, name: str, far: str) -> None:
        with self.lock:
            self.far = f"{name} at {far}"
            self.show()

    def update(self, done: int, worst: Worst | None) -> None:
        with self.lock:
            self.done, self.worst, self.far = done, worst, None
            self.show()

    def show(self) -> None:
        now = time.monotonic()
        if not self.shown or now - self.last < 0.1 and self.done < self.count:
            return
        self.last = now
        took = now - self.begin
        text = f"{self.done:,} of {self.count:,} {self.of}, {took:.0f} s"
        if self.done:
            text += f", {took / self.done * (self.count - self.done):.0f} s to go"
        if self.far:
            text += f"; {self.far}"
        elif self.worst:
            text += f"; greatest {self.worst.ns:,} ns: VL {self.worst.vl} at {self.worst.where}, seed {self.worst.seed}"
        width = os.get_terminal_size(sys.stderr.fileno()).columns or 80
        sys.stderr.write("\r\x1b[K" + text[: max(1, width - 1)])
        sys.stderr.flush()

    def end(self) -> None:
        if self.shown:
            sys.stderr.write("\r\x1b[K")
            sys.stderr.flush()
