"""Which program a command runs, by the words --by and --program, and how it is run."""
import contextlib
import os
import subprocess
import sys
from typing import Any, TextIO

from afdx import files, model
from afdx.files import program
from afdx.files.identities import STANDARD_OUTPUT
from afdx.files.program import NoProgram
from afdx.files.streams import output
from afdx.reckon import output_sizes
from afdx.runs.by_rt import report


class Mistake(Exception):
    """What is wrong with the words, in one line."""


def taken_out(words: list[str], name: str) -> tuple[list[str], str | None]:
    """The words without the option of this name and its value, which may stand anywhere before --, and the value."""
    end = words.index("--") if "--" in words else len(words)
    for place, word in enumerate(words[:end]):
        if word.startswith(name + "="):
            return words[:place] + words[place + 1 :], word.partition("=")[2]
        if word == name:
            if place + 1 >= end:
                raise Mistake(f"{name} needs a value")
            return words[:place] + words[place + 2 :], words[place + 1]
    return words, None


# The variable of the environment that has what --by says where no word does.
VARIABLE = "AFDX_BY"


def asked(by: str | None, path: str | None) -> str | None:
    """What --by says, or the environment in its place where --program does not say it either."""
    name = "--by"
    if by is None and path is None and os.environ.get(VARIABLE):
        name, by = VARIABLE, os.environ[VARIABLE]
    if by not in (None, "proved", "try", "second-opinion"):
        raise Mistake(f"{name} is proved, try or second-opinion, and not {by!r}")
    if path is not None and by is not None:
        raise Mistake("--by and --program name a program each: give one of them")
    return by


def for_bounds(by: str | None, path: str | None) -> program.Program | None:
    """The program whose bounds are printed, or None where there is none, or where the user wants none."""
    by = asked(by, path)
    if path is not None:
        return program.given(path)
    if by in ("try", "second-opinion"):
        return None
    if by is None and not os.path.isfile(program.PROGRAM) and not program.installed():
        return None
    try:
        return program.proved()
    except NoProgram:
        if by == "proved":
            raise
        return None


def chosen(by: str | None, path: str | None) -> program.Program:
    """The program that is to run, by what the user asks for."""
    by = asked(by, path)
    if path is not None:
        return program.given(path)
    if by == "second-opinion":
        return program.second_opinion()
    if by == "try":
        return program.tried()
    try:
        return program.proved()
    except NoProgram as why:
        if by == "proved" or not program.is_clone():
            raise
        return why_tried(why)


def why_tried(why: NoProgram) -> program.Program:
    """The program by `rt try`, since there is no proved one."""
    try:
        found = program.tried()
    except NoProgram as other:
        raise NoProgram(
            f"{why}, and {other}: `afdx build` needs the kit; all but run and replay have --by second-opinion"
        ) from None
    report(f"{why}; `afdx build` builds it, in 25 to 60 minutes")
    return found


def asks_for_help(words: list[str]) -> bool:
    return any(word in ("--help", "-h") for word in words[: words.index("--") if "--" in words else len(words)])


def ended(words: list[str], **more: Any) -> int:
    """Runs a command, and answers its status. One that a signal ended says nothing itself."""
    status = subprocess.run(words, **more).returncode
    if status < 0:
        report(f"{os.path.basename(words[0])} was {files.ended_by(-status)}")
    return status


def foresee(path: str, other: str) -> None:
    """Refuses a run of which `rt try` could not pass on the tables. What is no description the program itself refuses."""
    try:
        size = output_sizes.of_tables(model.Network(path))
    except files.Fault:
        return
    if size > output_sizes.MOST:
        raise output_sizes.refused(f"the tables of {path}", size, f"{other}`afdx build` builds the proved program")


def write(stream: TextIO | None, found: bytes) -> None:
    """Writes to standard output, which may be closed, or to error output."""
    if not found:
        return
    if stream is None:
        raise files.Fault(STANDARD_OUTPUT, None, "cannot be written: it is closed")
    with output() if stream is sys.stdout else contextlib.suppress(OSError):
        stream.flush()
        stream.buffer.write(found)
        stream.buffer.flush()
