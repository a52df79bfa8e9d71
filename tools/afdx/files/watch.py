"""A line on a terminal that says what a tool does, where it has said nothing for two seconds. It is taken away before anything else
is said. Where error output is no terminal there is none."""
import contextlib
import os
import sys
import threading
import time
from collections.abc import Iterator
from types import TracebackType

# After how many s of silence it is there, and how often it is written anew.
PATIENCE, EACH = 2, 1
CLEARED = b"\r\x1b[K"


class Watch:
    """Prints what a tool does, as long as its block lasts."""

    def __init__(self, name: str) -> None:
        self.name, self.text, self.begin = name, "works", time.monotonic()
        self.ended, self.lock, self.is_there = threading.Event(), threading.Lock(), False
        self.thread: threading.Thread | None = None

    def __enter__(self) -> "Watch":
        global CURRENT
        self.before, CURRENT = CURRENT, self
        with contextlib.suppress(OSError, ValueError):
            if sys.stderr is not None and sys.stderr.isatty():
                self.thread = threading.Thread(target=self.go, daemon=True)
                self.thread.start()
        return self

    def __exit__(self, *_: type[BaseException] | BaseException | TracebackType | None) -> None:
        global CURRENT
        self.stop()
        CURRENT = self.before

    def go(self) -> None:
        wait = PATIENCE
        while not self.ended.wait(wait):
            wait = EACH
            with self.lock:
                self.is_there = True
                line = f"{self.name}: {self.text}, {time.monotonic() - self.begin:.0f} s"
                write(CLEARED + line[: max(1, width() - 1)].encode("utf-8", "replace"))

    def stop(self) -> None:
        self.ended.set()
        if self.thread is not None:
            self.thread.join()
            self.thread = None
        self.clear()

    def clear(self) -> None:
        with self.lock:
            if self.is_there:
                write(CLEARED)
            self.is_there = False


# The one that is at work, if any.
CURRENT: Watch | None = None


def write(line: bytes) -> None:
    """Writes to the terminal itself: a process that is begun meanwhile finds no lock of a stream held."""
    with contextlib.suppress(OSError):
        os.write(2, line)


def width() -> int:
    with contextlib.suppress(OSError):
        return os.get_terminal_size(2).columns or 80
    return 80


@contextlib.contextmanager
def quiet() -> Iterator[None]:
    """Takes the line away, and keeps it away while something is said."""
    if CURRENT is None or CURRENT.thread is None:
        yield
        return
    with CURRENT.lock:
        if CURRENT.is_there:
            write(CLEARED)
        CURRENT.is_there = False
        yield


def stage(text: str) -> None:
    """Says what is done from now on."""
    if CURRENT is not None:
        CURRENT.text = text


def clear() -> None:
    """Takes the line away, before something is said."""
    if CURRENT is not None and CURRENT.thread is not None:
        CURRENT.clear()


def stop() -> None:
    """Ends it: from now on another line says what is done, or processes begin."""
    if CURRENT is not None:
        CURRENT.stop()
