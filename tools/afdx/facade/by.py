"""Who answers: the program or the second opinion, as the words --by and --program of the commands choose it."""
import os
import subprocess
import tempfile

from afdx import model
from afdx.commands import chosen_program
from afdx.files import Fault, ended_by
from afdx.files.program import Program
from afdx.reckon import output_sizes
from afdx.runs import by_rt

# A name of a file.
Path = str | os.PathLike[str]


def chosen(by: str | None, program: Path | None) -> Program:
    """The program that answers, by the words of `by` and `program`."""
    try:
        return chosen_program.chosen(by, None if program is None else os.fspath(program))
    except chosen_program.Mistake as why:
        raise as_value(why) from None


def for_bounds(by: str | None, program: Path | None) -> Program | None:
    """The program whose bounds are given, or None where those of the tool stand alone."""
    try:
        return chosen_program.for_bounds(by, None if program is None else os.fspath(program))
    except chosen_program.Mistake as why:
        raise as_value(why) from None


def as_value(why: chosen_program.Mistake) -> ValueError:
    """A mistake in the words of a command, as one in the arguments of a call."""
    return ValueError(str(why).replace("--", ""))


def judge_size(it: Program, net: model.Network) -> None:
    """Refuses a run of which `rt try` could not pass on the tables, before it builds."""
    if it.how == "tried" and (size := output_sizes.of_tables(net)) > output_sizes.MOST:
        remedy = 'give by="second-opinion", or build the proved program by `afdx build`'
        raise output_sizes.refused(f"the tables of {net.path}", size, remedy)


def printed(it: Program, name: str, path: str, text: str) -> str:
    """What a command of the program prints of a description, whose text is given. A Fault with the line says why it refuses it."""
    with tempfile.TemporaryDirectory(prefix="afdx-python-") as folder:
        given = os.path.join(folder, "net.toml")
        with open(given, "wb") as out:
            out.write(text.encode())
        if it.path is None:
            status, found, said = by_rt.by_try([name, given], [1])
        else:
            try:
                run = subprocess.run([it.path, name, given], stdin=subprocess.DEVNULL, capture_output=True)
            except OSError as fault:
                raise Fault(it.path, None, f"cannot be run: {fault.strerror}") from None
            status, found, said = run.returncode, run.stdout, run.stderr
    if status:
        last = said.decode("utf-8", "replace").strip().split("\n")[-1]
        why = ended_by(-status) if status < 0 else last or f"status {status}"
        raise Fault(path, model.line_of_refusal(text, last), f"`afdxsim {name}` ended with a fault: {why}")
    return found.decode("utf-8", "replace")
