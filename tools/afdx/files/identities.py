"""What a file is, whatever its name is, and what the tool that runs has read and written, so that no tool writes over what it has
read and no two files that it writes are one."""
import collections
import contextlib
import os
import stat
import sys
from collections.abc import Callable, Iterable, Iterator, MutableMapping
from typing import Any

from afdx.files.faults import Fault, printable

STANDARD_OUTPUT = "standard output"
# What a file is: device and number, and of one that is not there yet the folder's with the name.
Identity = tuple[int, int] | tuple[int, int, str]


def what_is(path: str) -> Identity | str:
    """What a name is the name of: a file, or one that is not there yet in its folder. What keeps nothing, as a device, is
    no other thing by another name."""
    try:
        found = os.stat(path)
        return (found.st_dev, found.st_ino) if keeps_bytes(found.st_mode) else path
    except FileNotFoundError:
        folder, name = os.path.split(os.path.realpath(path))
        found = os.stat(folder)
        return found.st_dev, found.st_ino, name


def keeps_bytes(mode: int) -> bool:
    """Whether a file of this mode keeps what is written to it, so that it can be lost."""
    return stat.S_ISREG(mode) or stat.S_ISBLK(mode)


def is_same_file(one: str, other: str) -> bool:
    """Whether two names are those of one file, as far as the host can see."""
    return os.path.exists(one) and os.path.exists(other) and os.path.samefile(one, other)


class Known:
    """The files that the tool at work has read and written: by what each file is, the name that was used."""

    def __init__(self) -> None:
        self.read: dict[Identity, str] = {}
        self.written: dict[Identity, str] = {}

    def note(self, where: dict[Identity, str], path: str, found: os.stat_result) -> None:
        """Notes a file of which the system reports this, if it keeps what is written to it."""
        if keeps_bytes(found.st_mode):
            where.setdefault((found.st_dev, found.st_ino), path)

    @contextlib.contextmanager
    def anew(self) -> Iterator[None]:
        """A tool begins inside it, so no file is known; what was known before is known again at its end."""
        before = self.read, self.written
        self.read, self.written = {}, {}
        try:
            yield
        finally:
            self.read, self.written = before


KNOWN = Known()


def reads(path: str) -> None:
    """Notes a file that another program reads, so that it is not written over either."""
    with contextlib.suppress(OSError):
        KNOWN.note(KNOWN.read, path, os.stat(path))


def judge(paths: Iterable[str], prints: bool = False) -> None:
    """Refuses names to write if one is a file that was read, or if two are one file, however they are spelled. `prints`:
    standard output is written too, which may be a file."""
    others: MutableMapping[Any, str] = collections.ChainMap({}, KNOWN.written)
    own: dict[Identity | str, str] = {}
    if prints:
        for identity in standard_output():
            judge_one(STANDARD_OUTPUT, identity, others)
    for path in paths:
        if path == "-":
            raise Fault(path, None, "is no file: without -o most tools write to standard output, and ./- is a file of this name")
        with contextlib.suppress(OSError):
            found = what_is(path)
            if own.get(found) == path and found != path:
                raise Fault(path, None, f"would be written over {printable(path)}, which is written too; nothing is written")
            judge_one(path, found, others)
            own[found] = path


def judge_one(path: str, found: Identity | str, others: MutableMapping[Any, str]) -> None:
    """Refuses a file that was read, or that is one of the others, to which it is added."""
    for which, known in (("what was read as {}", KNOWN.read), ("{}, which is written too", others)):
        other = known.get(found)
        if other is not None and (known is KNOWN.read or other != path) and is_still(other, found):
            raise Fault(path, None, f"would be written over {which.format(printable(other))}; nothing is written")
    others[found] = path


def is_still(path: str, found: Identity | str) -> bool:
    """Whether a name is still that of the file: what is gone may leave its number to another one."""
    if path == STANDARD_OUTPUT:
        return True
    with contextlib.suppress(OSError):
        return what_is(path) == found
    return False


def judge_folder(folder: str, is_written: Callable[[str], bool]) -> None:
    """Refuses a folder to write into, as `judge` does, by all names in it for which `is_written` answers true."""
    found = []
    with contextlib.suppress(OSError), os.scandir(folder) as entries:
        found = sorted(entry.path for entry in entries if is_written(entry.name))
    judge(found, prints=True)


def standard_output() -> Iterator[Identity]:
    """Standard output by what it is, where it is a file that keeps what is written."""
    if sys.stdout is not None and sys.stdout is sys.__stdout__:
        with contextlib.suppress(OSError):
            found = os.fstat(sys.stdout.fileno())
            if keeps_bytes(found.st_mode):
                yield found.st_dev, found.st_ino
