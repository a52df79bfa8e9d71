"""Writes files, each whole or not at all. A name that is written stays what it is: a link, a mode, a device. A plain file is
replaced by a new one beside it, which takes its place at the end."""
import contextlib
import errno
import os
import stat
import sys
import tempfile
from collections.abc import Iterable, Mapping
from typing import IO, Any

from afdx.files import watch
from afdx.files.faults import Fault, printable
from afdx.files.identities import KNOWN, is_same_file, judge, standard_output
from afdx.files.signals import signals_held
from afdx.files.streams import output


def output_name(text: str) -> str | None:
    """The type of a word of the command line that names a file to write, or standard output by `-`: then None."""
    return None if text == "-" else text


def ready(paths: Iterable[str], prints: bool = False) -> None:
    """Refuses names that are written after long work, as `judge` does, and those that cannot be written, as far as that can be
    seen before: so no work is done in vain."""
    judge(paths, prints)
    for path in paths:
        try:
            try_to_write(path)
        except OSError as fault:
            raise Fault(path, None, f"cannot be written: {fault.strerror}") from None


def try_to_write(path: str) -> None:
    """Fails where a name cannot be written. What stands there stays as it is."""
    try:
        found = os.stat(path)
    except FileNotFoundError:
        return try_folder(os.path.dirname(os.path.realpath(path)))
    if stat.S_ISDIR(found.st_mode):
        raise IsADirectoryError(errno.EISDIR, os.strerror(errno.EISDIR))
    if stat.S_ISREG(found.st_mode):
        if found.st_nlink == 1 and os.access(path, os.W_OK):
            try_folder(os.path.dirname(os.path.realpath(path)))
        os.close(os.open(path, os.O_WRONLY))
    elif not os.access(path, os.W_OK):
        raise PermissionError(errno.EACCES, os.strerror(errno.EACCES))


def try_folder(folder: str) -> None:
    """Fails where no file can be made in a folder. None is left there."""
    out, beside = new_file(folder)
    out.close()
    if beside is not None:
        os.unlink(beside)


def write_whole(path: str, text: str | bytes) -> None:
    """Writes a file of a text or of bytes: whole, or nothing of it."""
    write_all({path: text})


def write_all(texts: Mapping[str, str | bytes], prints: bool = False) -> None:
    """Writes several files, by their names. Nothing is written where one of them may not be."""
    judge(texts, prints)
    for path, text in texts.items():
        try:
            write_bytes(path, text if isinstance(text, bytes) else text.encode("utf-8", "backslashreplace"))
            KNOWN.note(KNOWN.written, path, os.stat(path))
        except OSError as fault:
            raise Fault(path, None, f"cannot be written: {fault.strerror}") from None


def write_pieces(path: str, pieces: Iterable[bytes]) -> None:
    """Writes a file of pieces, bytes one after another, of which no two need be in memory at once: whole, or nothing of it."""
    judge([path])
    try:
        write_bytes(path, pieces)
        KNOWN.note(KNOWN.written, path, os.stat(path))
    except OSError as fault:
        raise Fault(path, None, f"cannot be written: {fault.strerror}") from None


def write_bytes(path: str, content: bytes | Iterable[bytes]) -> None:
    """Writes a file of bytes, or of pieces of them."""
    watch.stage(f"writes {printable(path)}")
    try:
        found = os.stat(path)
    except FileNotFoundError:
        return replace(os.path.realpath(path), content, None)
    if stat.S_ISREG(found.st_mode) and (found.st_dev, found.st_ino) in standard_output():
        with output():
            sys.stdout.flush()
            sys.stdout.buffer.writelines([content] if isinstance(content, bytes) else content)
            return sys.stdout.buffer.flush()
    real = os.path.realpath(path)
    has_one_name = stat.S_ISREG(found.st_mode) and found.st_nlink == 1 and is_same_file(path, real)
    if has_one_name and os.access(real, os.W_OK):
        return replace(real, content, found)
    if not isinstance(content, bytes):
        content = b"".join(content)
    with open(path, "r+b" if stat.S_ISREG(found.st_mode) else "wb", buffering=0) as out:
        return write_into(out, content, found)


def replace(real: str, content: bytes | Iterable[bytes], before: os.stat_result | None) -> None:
    """Puts a new file into the place of what has the name, with the mode and the owner of it."""
    folder = os.path.dirname(real)
    out, beside = new_file(folder)
    try:
        with out:
            out.writelines([content] if isinstance(content, bytes) else content)
            out.flush()
            if before:
                with contextlib.suppress(PermissionError):
                    os.fchown(out.fileno(), before.st_uid, before.st_gid)
                os.fchmod(out.fileno(), stat.S_IMODE(before.st_mode))
            with signals_held():
                if beside is None:
                    beside = os.path.join(folder, f".{os.urandom(8).hex()}.part")
                    number = out.fileno()
                    # With a descriptor it follows the link.
                    os.link(f"/proc/self/fd/{number}", beside, src_dir_fd=number)
                os.replace(beside, real)
                beside = None
    finally:
        if beside is not None:
            with contextlib.suppress(FileNotFoundError):
                os.unlink(beside)


def new_file(folder: str) -> tuple[IO[bytes], str | None]:
    """A new file in a folder, and its name. Where the system has files without names it is one: nothing is left of it
    whatever ends the tool."""
    if os.path.isdir("/proc/self/fd") and getattr(os, "O_TMPFILE", None):
        with contextlib.suppress(OSError):
            return open(os.open(folder, os.O_TMPFILE | os.O_WRONLY, 0o666), "wb"), None
    with signals_held():
        number, beside = tempfile.mkstemp(".part", ".", folder)
        out = open(number, "wb")
    mask = os.umask(0)
    os.umask(mask)
    os.fchmod(number, 0o666 & ~mask)
    return out, beside


def write_into(out: Any, content: bytes, before: os.stat_result) -> None:
    """Writes into what is there: a device, a pipe, or a file with several names. Of a file the room is taken first, so a
    full disk changes nothing."""
    if not stat.S_ISREG(before.st_mode):
        rest = memoryview(content)
        while rest:
            rest = rest[out.write(rest) :]
        return
    with signals_held():
        try:
            os.posix_fallocate(out.fileno(), 0, max(1, len(content)))
        except OSError:
            os.ftruncate(out.fileno(), before.st_size)
            raise
        out.write(content)
        os.ftruncate(out.fileno(), len(content))
