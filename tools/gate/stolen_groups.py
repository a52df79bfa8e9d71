"""Whether a worker of a run stole a group of another one.

    followed(words, folder, seconds).has_stolen         # words[0] is the built program

The program prints nothing of it. But a worker gives turns by three calls of one function: to a group of its own, to a group that it has
stolen from the deque of another worker, and to any other group that is due (`turns::worker`). The first thread that comes to the second
call is stopped there once, noted, and goes on.
"""
import contextlib
import ctypes
import functools
import os
import shutil
import signal
import subprocess
import tempfile
import time
from collections.abc import Sequence
from typing import NamedTuple

from gate.stopped_threads import CLONES_TOO, CONT, EVENT_OF_CLONE, SETOPTIONS, TRACEME, WALL, NotAllowed, ptrace

GET_REGISTERS, SET_REGISTERS, ENDS_WITH_THIS = 12, 13, 0x100000
# The registers of x86-64 as `ptrace` hands them over; this is the place of the next instruction among them.
REGISTERS, NEXT = 27, 16
BREAKPOINT = b"\xcc"
# The function, and how a call of it is told whether the group is the worker's own.
FUNCTION = "turns::worker::Worker::turn_of"
OWN, OF_ANOTHER = "mov    $0x1,%ecx", "xor    %ecx,%ecx"
LINES_BEFORE = 6


class Outcome(NamedTuple):
    status: int
    printed: bytes
    errors: bytes
    has_stolen: bool


class NoPlace(Exception):
    """Why the place in the program is not known, in one line."""


def tool(name: str) -> list[str]:
    """A tool of binutils, or the kit's own of this name."""
    found = shutil.which(name)
    rt = shutil.which("rt")
    kit = os.path.join(os.path.dirname(os.path.dirname(os.path.realpath(rt))), "toolchain", "bin") if rt else ""
    if not found and not os.path.isfile(os.path.join(kit, "llvm-" + name)):
        raise NoPlace(f"neither {name} nor the kit's is there")
    return [found or os.path.join(kit, "llvm-" + name)]


@functools.cache
def place(path: str) -> int:
    """The address, in the file, of the call by which a worker gives a turn to a group that it has stolen."""
    run = subprocess.run([*tool("objdump"), "-d", "--no-show-raw-insn", path], capture_output=True, text=True)
    lines = run.stdout.splitlines()
    calls = [at for at, line in enumerate(lines) if "call" in line and f"<{FUNCTION}::" in line]
    before = ["\n".join(lines[at - LINES_BEFORE : at]) for at in calls]
    if [(OWN in it, OF_ANOTHER in it) for it in before] != [(True, False), (False, True), (False, True)]:
        raise NoPlace(f"{path} does not call {FUNCTION} at three places, for an own group, a stolen one and any other")
    return int(lines[calls[1]].split(":")[0], 16)


def followed(words: Sequence[str], folder: str, seconds: float) -> Outcome:
    """Makes a run, and looks whether a worker stole a group. All of its threads go on by themselves but for one stop of each at that place."""
    at = place(words[0])
    with tempfile.TemporaryFile() as printed, tempfile.TemporaryFile() as errors:
        try:
            run = subprocess.Popen(words, cwd=folder, stdin=subprocess.DEVNULL, stdout=printed, stderr=errors, preexec_fn=lambda: ptrace(TRACEME, 0))
        except subprocess.SubprocessError:
            raise NotAllowed("ptrace: a program may not be traced from its beginning") from None
        threads = Followed(run.pid, at, words[0])
        run.returncode = threads.until_the_end(time.monotonic() + seconds)
        printed.seek(0)
        errors.seek(0)
        return Outcome(run.returncode, printed.read(), errors.read(), threads.has_stolen)


class Followed:
    """A program that stands still at its beginning, followed with all of its threads."""

    def __init__(self, pid: int, at: int, path: str) -> None:
        self.pid = pid
        self.has_stolen = False
        os.waitpid(pid, WALL)
        ptrace(SETOPTIONS, pid, CLONES_TOO | ENDS_WITH_THIS)
        self.at = at + loaded_at(pid, path)
        self.memory = os.open(f"/proc/{pid}/mem", os.O_RDWR)
        self.byte = os.pread(self.memory, 1, self.at)
        os.pwrite(self.memory, BREAKPOINT, self.at)

    def until_the_end(self, end: float) -> int:
        """Lets the program run. Returns its status; at the end of its time it is killed."""
        tid, signals = self.pid, 0
        try:
            while True:
                with contextlib.suppress(OSError):
                    ptrace(CONT, tid, signals)
                tid, status = self.next_stop(end)
                if tid == self.pid and not os.WIFSTOPPED(status):
                    return os.waitstatus_to_exitcode(status)
                signals = self.signal_of(tid, status) if os.WIFSTOPPED(status) else 0
        finally:
            os.close(self.memory)

    def next_stop(self, end: float) -> tuple[int, int]:
        while True:
            tid, status = os.waitpid(-1, WALL | os.WNOHANG)
            if tid:
                return tid, status
            if time.monotonic() > end:
                os.kill(self.pid, signal.SIGKILL)
            time.sleep(0.0005)

    def signal_of(self, tid: int, status: int) -> int:
        """What a thread that stopped is to get as it goes on."""
        if status >> 8 == signal.SIGTRAP | EVENT_OF_CLONE << 8 or os.WSTOPSIG(status) == signal.SIGSTOP:
            return 0
        if os.WSTOPSIG(status) != signal.SIGTRAP:
            return os.WSTOPSIG(status)
        registers = (ctypes.c_ulonglong * REGISTERS)()
        ptrace(GET_REGISTERS, tid, registers)
        if registers[NEXT] == self.at + len(BREAKPOINT):
            self.has_stolen = True
            os.pwrite(self.memory, self.byte, self.at)
            registers[NEXT] = self.at
            ptrace(SET_REGISTERS, tid, registers)
        return 0


def loaded_at(pid: int, path: str) -> int:
    """Where the program begins in memory: 0 for one that is loaded at the addresses of its file."""
    with open(path, "rb") as file:
        is_at_home = file.read(17)[16] == 2
    with open(f"/proc/{pid}/maps", encoding="utf-8") as lines:
        begin = next(int(line.split("-")[0], 16) for line in lines if line.rstrip().endswith(os.path.realpath(path)))
    return 0 if is_at_home else begin
