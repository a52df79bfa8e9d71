"""Signals that end a tool: held while a file takes its place, and else taken so that the tool ends in order."""
import contextlib
import signal
import threading
from collections.abc import Iterator

from afdx.files.faults import Interrupted

SIGNALS = [signal.SIGINT, signal.SIGTERM, signal.SIGHUP]


@contextlib.contextmanager
def signals_held() -> Iterator[None]:
    """Signals that come meanwhile are taken afterwards, the first of them. Blocked here they come by other threads, if there are
    any, so they are noted besides."""
    if threading.current_thread() is not threading.main_thread():
        yield
        return
    came, before = [], {number: signal.getsignal(number) for number in SIGNALS}
    held = [number for number, handler in before.items() if handler not in (signal.SIG_IGN, None)]
    mask = signal.pthread_sigmask(signal.SIG_BLOCK, SIGNALS)
    for number in held:
        signal.signal(number, lambda number, _: came.append(number))
    try:
        yield
    finally:
        signal.pthread_sigmask(signal.SIG_SETMASK, mask)
        for number in held:
            signal.signal(number, before[number])
        if came:
            signal.raise_signal(came[0])


@contextlib.contextmanager
def signals_taken() -> Iterator[None]:
    """Signals that end a program raise Interrupted, so that what is done is kept and nothing else is left. Those that come
    behind the first are passed over. Signals that were passed over before, as of a program that goes on without its
    terminal, stay so."""
    if threading.current_thread() is not threading.main_thread():
        yield
        return
    before = {number: signal.getsignal(number) for number in SIGNALS}
    taken = [number for number, handler in before.items() if handler not in (signal.SIG_IGN, None)]

    def end(number: int, _: object) -> None:
        for each in taken:
            signal.signal(each, signal.SIG_IGN)
        raise Interrupted(number)

    try:
        for number in taken:
            signal.signal(number, end)
        yield
    finally:
        for number in taken:
            signal.signal(number, before[number])
