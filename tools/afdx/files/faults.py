"""What is said of a file or of a program that ended: a fault in one line, names and texts that fit into one, and signals."""
import os
import re
import signal
from typing import Any

# A word of a message that is longer is cut.
LONG = re.compile(r"\S{399,}[^\s,;]")


class Fault(Exception):
    """What is wrong with a file, in one line that names the file and, where there is one, the line."""

    def __init__(self, path: str, line: int | None, text: str) -> None:
        path, text = printable(path), LONG.sub(lambda it: f"{it[0][:60]}.. of {len(it[0]):,} characters", text)
        super().__init__(f"{path} line {line}: {text}" if line else f"{path}: {text}")
        self.path, self.line, self.text = path, line, text

    def __reduce__(self) -> tuple[Any, ...]:
        """So it goes from one process to another."""
        return Fault, (self.path, self.line, self.text)


class Interrupted(KeyboardInterrupt):
    """A signal that ends the tool: `number` is its number."""

    def __init__(self, number: int) -> None:
        super().__init__(f"ended by {signal.Signals(number).name}" if number != signal.SIGINT else "interrupted")
        self.number = number


def printable(name: str) -> str:
    """A name in one line, also where it is no UTF-8 or has a line feed."""
    shown = os.fsencode(name).decode("utf-8", "backslashreplace")
    return "".join(sign if sign.isprintable() else repr(sign)[1:-1] for sign in shown)


def cut(text: str, most: int = 40) -> str:
    """A text for a message, cut where it is long."""
    return repr(text) if len(text) <= most else repr(text[: most - 10]) + f".. of {len(text):,} characters"


def ended_by(number: int) -> str:
    """What is said of a program that a signal ended."""
    try:
        name = signal.Signals(number).name
    except ValueError:
        name = f"signal {number}"
    more = ", as the system does where memory is used up" if number == signal.SIGKILL else ""
    return f"ended by {name}{more}"
