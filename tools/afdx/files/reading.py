"""Reads files of text: whole, or line by line."""
import contextlib
import os
import stat
import sys
from collections.abc import Iterator
from typing import IO

from afdx.files import watch
from afdx.files.faults import Fault, printable
from afdx.files.identities import KNOWN


# The standard input that was read.
READ: list[object] = []


def refuse_endless(path: str, file: IO[bytes]) -> None:
    """Refuses a device that is read for ever, as /dev/zero. A terminal has an end, and so has /dev/null."""
    found = os.fstat(file.fileno())
    if stat.S_ISCHR(found.st_mode) and not file.isatty() and found.st_rdev != os.stat(os.devnull).st_rdev:
        raise Fault(path, None, "cannot be read: it is a device and no file")


@contextlib.contextmanager
def opened(path: str) -> Iterator[IO[bytes]]:
    """A file to read, or standard input by the name -."""
    if path != "-":
        with open(path, "rb") as file:
            refuse_endless(path, file)
            yield file
    elif sys.stdin is None:
        raise Fault(path, None, "is standard input, which is closed")
    elif READ and READ[-1] is sys.stdin:
        raise Fault(path, None, "is standard input, which can be read once, and was read before: name a file")
    else:
        READ.append(sys.stdin)
        yield sys.stdin.buffer


def bytes_of(path: str) -> bytes:
    """The bytes of a file."""
    watch.stage(f"reads {printable(path)}")
    try:
        with opened(path) as file:
            KNOWN.note(KNOWN.read, path, os.fstat(file.fileno()))
            return file.read()
    except OSError as fault:
        raise Fault(path, None, f"cannot be read: {fault.strerror}") from None


def text_of(path: str) -> str:
    """The text of a file."""
    found = bytes_of(path)
    try:
        return found.decode("utf-8")
    except UnicodeDecodeError as fault:
        raise Fault(path, found.count(b"\n", 0, fault.start) + 1, "is no UTF-8") from None


def lines_of(path: str) -> Iterator[str]:
    """The lines of a file with their line feeds, one by one: no more of it is in memory."""
    number = 0
    try:
        with opened(path) as file:
            KNOWN.note(KNOWN.read, path, os.fstat(file.fileno()))
            for line in file:
                number += 1
                yield line.decode("utf-8")
    except OSError as fault:
        raise Fault(path, None, f"cannot be read: {fault.strerror}") from None
    except UnicodeDecodeError:
        raise Fault(path, number, "is no UTF-8") from None
