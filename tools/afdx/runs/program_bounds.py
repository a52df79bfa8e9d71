"""The bounds that a program prints of a network, by `afdxsim bounds NET`, and by its word --contract where it has that."""
import os
import re
import subprocess
import tempfile
from typing import NamedTuple

from afdx import files, model
from afdx.files import Fault, program
from afdx.reckon.proved_bounds import ProvedBounds

# What the command is called, and its word for bounds that hold whatever other end systems send.
COMMAND, CONTRACT = "bounds", "--contract"
# The status of a program that does not know a word.
WRONG_WORDS = 2


class OfProgram(NamedTuple):
    """The bounds of the sizes that are sent, and those of the contract if the program prints such."""

    proved: ProvedBounds
    contract: ProvedBounds | None


def words_of(path: str) -> set[str] | None:
    """The words that a program's `bounds` knows, by its help; None where the program has no such command."""
    try:
        run = subprocess.run([path, COMMAND, "--help"], stdin=subprocess.DEVNULL, capture_output=True, text=True, errors="replace")
    except OSError as fault:
        raise Fault(path, None, f"cannot be run: {fault.strerror}") from None
    return set(re.findall("--[a-z-]+", run.stdout)) if run.returncode == 0 and f"afdxsim {COMMAND} " in run.stdout else None


def bounds_of(path: str, net: model.Network) -> OfProgram | None:
    """The bounds that a program prints of a network; None where it has no `bounds`, as those before version 0.2.0."""
    words = words_of(path)
    if words is None:
        if not (program.first_line([path, "--version"], None) or "").startswith("afdxsim "):
            raise Fault(path, None, "is no afdxsim")
        return None
    maker = program.maker_of(path)
    with tempfile.TemporaryDirectory(prefix="afdx-bounds-") as folder:
        given = os.path.join(folder, "net.toml")
        files.write_whole(given, net.text)
        printed = lambda *more: printed_of(path, net, [given, *more], os.path.join(folder, "bounds.csv"), maker)
        found = printed()
        if found is None:
            raise Fault(path, None, f"refuses the words `{COMMAND} NET`")
        return OfProgram(found, printed(CONTRACT) if CONTRACT in words else None)


def printed_of(path: str, net: model.Network, words: list[str], kept: str, maker: program.Maker) -> ProvedBounds | None:
    """What a program prints with these words of `bounds`, which is kept meanwhile in a file; None where it does not know one of them."""
    with open(kept, "wb") as out:
        run = subprocess.run([path, COMMAND, *words], stdin=subprocess.DEVNULL, stdout=out, stderr=subprocess.PIPE)
    command = f"what {files.printable(path)} {' '.join([COMMAND, 'NET', *words[1:]])} printed"
    if run.returncode == WRONG_WORDS:
        return None
    if run.returncode:
        said = run.stderr.decode("utf-8", "replace").strip().split("\n")[0]
        why = files.ended_by(-run.returncode) if run.returncode < 0 else said or f"status {run.returncode}"
        raise Fault(net.path, model.line_of_refusal(net.text, said), f"{files.printable(path)} has no bounds of it: {why}")
    return ProvedBounds(command, net, files.lines_of(kept), maker, CONTRACT in words)
