"""Threads of another program that stand still: `ptrace` stops them, one at a time, and lets them go on.

    run, thread = start(words, folder, 2)       # its second thread beside the first stands still from its birth
    go_on(thread)

    stop(tid)                                   # a thread that runs
    go_on(tid)

Linux lets only the thread of this program that stopped one let it go on. Where it forbids this, as in some containers, `NotAllowed`
says so.
"""
import contextlib
import ctypes
import os
import signal
import subprocess
import time
from collections.abc import Sequence
from typing import Any

TRACEME, CONT, DETACH, SETOPTIONS, GETEVENTMSG, SEIZE, INTERRUPT = 0, 7, 17, 0x4200, 0x4201, 0x4206, 0x4207
CLONES_TOO, EVENT_OF_CLONE = 8, 3
# A thread, and not a process alone.
WALL = 0x40000000

libc = ctypes.CDLL(None, use_errno=True)
libc.ptrace.argtypes = (ctypes.c_long, ctypes.c_long, ctypes.c_void_p, ctypes.c_void_p)
libc.ptrace.restype = ctypes.c_long


class NotAllowed(Exception):
    """This machine does not let one process stop another."""


def ptrace(request: int, tid: int, data: Any = None) -> None:
    if libc.ptrace(request, tid, None, data) == -1:
        number = ctypes.get_errno()
        raise OSError(number, os.strerror(number))


def is_stopped(tid: int) -> bool:
    """Waits for a thread, and answers whether it stands still; else it has ended."""
    return os.WIFSTOPPED(os.waitpid(tid, WALL)[1])


def is_allowed() -> bool:
    """Whether this system lets one process stop another."""
    try:
        run, _ = start(["true"], "/", 1)
        run.communicate()
        return True
    except NotAllowed:
        return False


def stop(tid: int) -> bool:
    """Stops a thread, if it is there. Whether it was."""
    try:
        ptrace(SEIZE, tid)
        ptrace(INTERRUPT, tid)
    except ProcessLookupError:
        return False
    except PermissionError as fault:
        raise NotAllowed(f"ptrace: {fault.strerror}") from None
    return is_stopped(tid)


def go_on(tid: int) -> None:
    """A thread that stands still goes on."""
    # A thread that was killed meanwhile is not there.
    with contextlib.suppress(ProcessLookupError):
        ptrace(DETACH, tid)


def threads_of(run: subprocess.Popen[bytes]) -> list[int]:
    """The threads of a program that runs, but for the first."""
    try:
        return sorted(int(name) for name in os.listdir(f"/proc/{run.pid}/task") if int(name) != run.pid)
    except FileNotFoundError:
        return []


def start(words: Sequence[str], folder: str, number: int) -> tuple[subprocess.Popen[bytes], int | None]:
    """Starts a program, in which the thread of this number, from 1 behind the first, stands still from its birth, before it does
    anything. The answer is the program and this thread; None where the program ended before it had as many."""
    try:
        run = subprocess.Popen(
            words, cwd=folder, stdin=subprocess.DEVNULL, stdout=subprocess.PIPE, stderr=subprocess.PIPE,
            preexec_fn=lambda: ptrace(TRACEME, 0),
        )
    except subprocess.SubprocessError:
        raise NotAllowed("ptrace: a program may not be traced from its beginning") from None
    threads: list[int] = []
    signals = 0
    status = os.waitpid(run.pid, WALL)[1]
    if os.WIFSTOPPED(status):
        ptrace(SETOPTIONS, run.pid, CLONES_TOO)
    while os.WIFSTOPPED(status) and len(threads) < number:
        if status >> 8 == signal.SIGTRAP | EVENT_OF_CLONE << 8:
            threads.append(born(run.pid))
            if len(threads) == number:
                break
            go_on(threads[-1])
        ptrace(CONT, run.pid, signals)
        status = os.waitpid(run.pid, WALL)[1]
        # A signal of its own is passed on.
        signals = os.WSTOPSIG(status) if os.WIFSTOPPED(status) and os.WSTOPSIG(status) != signal.SIGTRAP else 0
    if not os.WIFSTOPPED(status):
        run.returncode = os.waitstatus_to_exitcode(status)
        return run, None
    go_on(run.pid)
    return run, threads[-1]


def born(pid: int) -> int:
    """The thread that a program has just started, which stands still."""
    tid = ctypes.c_ulong()
    ptrace(GETEVENTMSG, pid, ctypes.byref(tid))
    is_stopped(tid.value)
    return tid.value


def is_alone(run: subprocess.Popen[bytes], tid: int, seconds: float) -> bool:
    """Whether all threads of a program but the first and this one, which stands still, end in this time."""
    end = time.monotonic() + seconds
    while time.monotonic() < end:
        if set(threads_of(run)) <= {tid}:
            return True
        time.sleep(0.002)
    return False
