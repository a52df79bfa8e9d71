"""Standard output and error output of a tool."""
import contextlib
import os
import sys
from collections.abc import Iterator

from afdx.files import watch
from afdx.files.faults import Fault
from afdx.files.identities import STANDARD_OUTPUT, judge


def settle_streams() -> None:
    """What is written is UTF-8 whatever the terminal is, and no file that is opened takes the place of a stream that is
    closed."""
    opened = os.open(os.devnull, os.O_RDWR)
    while opened <= 2:
        opened = os.open(os.devnull, os.O_RDWR)
    os.close(opened)
    if sys.stderr is None:
        # What is said is lost, and nothing else.
        sys.stderr = open(os.devnull, "w", encoding="utf-8")
    if sys.stdout is sys.__stdout__ and hasattr(sys.stdout, "reconfigure"):
        sys.stdout.reconfigure(encoding="utf-8", errors="backslashreplace")


def write_out(text: str) -> None:
    """Writes to standard output."""
    if sys.stdout is None:
        raise Fault(STANDARD_OUTPUT, None, "cannot be written: it is closed")
    judge([], prints=True)
    with watch.quiet(), output():
        sys.stdout.write(text)
        sys.stdout.flush()


def say(line: str) -> None:
    """Writes a line to standard output."""
    write_out(line + "\n")


@contextlib.contextmanager
def output() -> Iterator[None]:
    """Makes what fails at standard output a fault."""
    try:
        yield
    except OSError as fault:
        # What is left in the buffer goes nowhere.
        os.dup2(os.open(os.devnull, os.O_WRONLY), 1)
        raise Fault(STANDARD_OUTPUT, None, f"cannot be written: {fault.strerror}") from None


def report(name: str, said: object) -> None:
    """Prints a line of a tool on error output, if there is one."""
    if sys.stderr is not None:
        with contextlib.suppress(OSError), watch.quiet():
            print(f"{name}: {said}", file=sys.stderr, flush=True)
