"""What each crate takes of the processors while `rt ci` runs, which prints no times: seconds of the processes that prove it, by what they do."""
import os
import threading
import time
from collections.abc import Mapping
from types import TracebackType

# How often the processes are looked at, in s. What a process takes after the last look is lost.
EACH = 1
KINDS = ("proof", "tests", "edits")
SECONDS_A_TICK = 1 / os.sysconf("SC_CLK_TCK")
# Of each process by its number: the one that started it, its processor time in s, and when it began.
Processes = dict[int, tuple[int, float, bytes]]
# A crate, and which of the kinds.
Work = tuple[str, str]


def read(path: str) -> bytes:
    try:
        with open(path, "rb") as file:
            return file.read()
    except OSError:
        return b""


def processes() -> Processes:
    """Of each process the one that started it, and its processor time in s; by its number and when it began."""
    found: Processes = {}
    for name in os.listdir("/proc"):
        if name.isdigit() and (stat := read(f"/proc/{name}/stat")):
            # The name of the program stands in brackets, and may have blanks.
            words = stat[stat.rindex(b")") + 2 :].split()
            found[int(name)] = int(words[1]), (int(words[11]) + int(words[12])) * SECONDS_A_TICK, words[19]
    return found


def below(found: Processes, first: int) -> list[int]:
    """The processes that one has started, and those that they have."""
    children: dict[int, list[int]] = {}
    for number, (parent, _, _) in found.items():
        children.setdefault(parent, []).append(number)
    waiting = [first]
    reached: list[int] = []
    while waiting:
        reached += (more := children.get(waiting.pop(), []))
        waiting += more
    return reached


def work_of(number: int, root: str) -> Work | None:
    """The crate that a process proves, and which of the kinds it does; None where it is none that does."""
    words = read(f"/proc/{number}/cmdline").split(b"\0")
    if b"--crate-name" not in words[:-1]:
        return None
    name = words[words.index(b"--crate-name") + 1].decode("utf-8", "replace")
    if b"--test" in words:
        return name, "tests"
    try:
        where = os.readlink(f"/proc/{number}/cwd")
    except OSError:
        where = ""
    return name, "proof" if where == os.path.join(root, "crates", name) else "edits"


class CrateTimes:
    """Looks at the processes that one has started, until its caller says that they ended."""

    def __init__(self, first: int, root: str) -> None:
        self.first, self.root = first, os.path.realpath(root)
        # For each process what it does, and its time; both by its number and its beginning, as numbers come again.
        self.works: dict[tuple[int, bytes], Work | None] = {}
        self.times: dict[tuple[int, bytes], float] = {}
        self.ended = threading.Event()
        # What is done now, and since when.
        self.at: dict[Work, float] = {}

    def __enter__(self) -> "CrateTimes":
        self.thread = threading.Thread(target=self.go, daemon=True)
        self.thread.start()
        return self

    def __exit__(self, *_: type[BaseException] | BaseException | TracebackType | None) -> None:
        self.ended.set()
        self.thread.join()

    def go(self) -> None:
        while not self.ended.wait(EACH):
            self.look()

    def look(self) -> None:
        found = processes()
        at: dict[Work, float] = {}
        for number in below(found, self.first):
            _, seconds, began = found[number]
            key = number, began
            # What a process does is looked at anew until it is known: it has the words of the one that started it at first.
            if self.works.get(key) is None:
                self.works[key] = work_of(number, self.root)
            self.times[key] = max(seconds, self.times.get(key, 0))
            if work := self.works[key]:
                at[work] = self.at.get(work, now())
        self.at = at

    def at_work(self) -> str:
        """What is done now and since when, in words."""
        found = sorted(self.at.items(), key=lambda it: it[1])
        return ", ".join(f"{name}{'' if kind == 'proof' else f' ({kind})'} since {minutes(now() - since)}" for (name, kind), since in found)

    def seconds(self) -> dict[str, dict[str, float]]:
        """For each crate its seconds by kind."""
        found: dict[str, dict[str, float]] = {}
        for key, work in self.works.items():
            if work:
                mine = found.setdefault(work[0], dict.fromkeys(KINDS, 0.0))
                mine[work[1]] += self.times[key]
        return found


def in_lines(seconds: Mapping[str, Mapping[str, float]]) -> list[str]:
    """The seconds of each crate as a table, the dearest first, and their sums."""
    rows = sorted(seconds.items(), key=lambda it: (-sum(it[1].values()), it[0]))
    rows.append(("all", {kind: sum(mine[kind] for mine in seconds.values()) for kind in KINDS}))
    lines = [f"{'crate':<18}{'sum':>8}" + "".join(f"{kind:>8}" for kind in KINDS)]
    for name, mine in rows:
        lines.append(f"{name:<18}{sum(mine.values()):>8.0f}" + "".join(f"{mine[kind]:>8.0f}" for kind in KINDS))
    return lines


def minutes(seconds: float) -> str:
    return f"{seconds:.0f} s" if seconds < 120 else f"{seconds / 60:.0f} min"


def now() -> float:
    return time.monotonic()
