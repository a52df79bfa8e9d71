"""How a tool ends: with one line on error output and a status, whatever ended it."""
import functools
import signal
import sys
from collections.abc import Callable, Sequence
from typing import Any

from afdx.files import watch
from afdx.files.faults import Fault, Interrupted, printable
from afdx.files.identities import KNOWN
from afdx.files.signals import signals_taken
from afdx.files.streams import output, report, settle_streams

# The statuses of a tool beside 0, and beside 1, of which each tool says what it means.
BAD = 2
BEHIND_A_SIGNAL = 128
# What ends a tool otherwise than by its own words.
ENDS = (Fault, KeyboardInterrupt, MemoryError, RecursionError, OSError)


def tool(name: str) -> Callable[[Callable[[Any], int | None]], Callable[..., int]]:
    """Makes the `main` of a tool of this name end with one line and a status, whatever ends it: a fault 2, a signal 128 and
    its number, as a shell reports it. What the tool has read is known as long as it runs."""

    def with_end(main: Callable[[Any], int | None]) -> Callable[..., int]:
        @functools.wraps(main)
        def ended(arguments: Any = None) -> int:
            with KNOWN.anew():
                try:
                    with signals_taken(), watch.Watch(name):
                        status, said = status_of(main, arguments)
                except Interrupted as late:
                    status, said = why(late)
            if said is not None:
                report(name, said)
            return status

        return ended

    return with_end


def why(ended: BaseException) -> tuple[int, str]:
    """The status of a tool that one of these ended, and what there is to say of it."""
    if isinstance(ended, Fault):
        return BAD, str(ended)
    if isinstance(ended, KeyboardInterrupt):
        return BEHIND_A_SIGNAL + getattr(ended, "number", signal.SIGINT), str(ended) or "interrupted"
    if isinstance(ended, MemoryError):
        return BAD, "out of memory"
    if isinstance(ended, RecursionError):
        return BAD, "what it was given is nested too deep"
    said, name = getattr(ended, "strerror", None) or str(ended), getattr(ended, "filename", None)
    return BAD, f"{printable(name)}: {said}" if name else said


def refuse_empty(words: Sequence[str]) -> None:
    """Refuses an empty word. A file that an empty name names would be passed over: limits, say."""
    if "" in words:
        raise Fault("''", None, "is no name and no value: a word is empty, as where a variable of the shell is not set")


def status_of(main: Callable[[Any], int | None], arguments: Any) -> tuple[int, str | None]:
    """The status of a tool, and why it ended if that is to be printed."""
    try:
        settle_streams()
        refuse_empty(sys.argv[1:] if arguments is None else arguments)
        status = main(arguments)
        if sys.stdout is not None:
            with output():
                sys.stdout.flush()
        return status or 0, None
    except ENDS as ended:
        return why(ended)
