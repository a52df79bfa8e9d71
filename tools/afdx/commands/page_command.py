"""`afdx page`: explains a description, simulates it, bounds its latencies, and draws all of it on one page."""
import argparse
import os
import subprocess
import sys
import tempfile
import time
from typing import Any, BinaryIO

from afdx import files, model
from afdx.commands.chosen_program import chosen, ended, for_bounds, foresee, taken_out, write
from afdx.commands.page_steps import BETWEEN_LOOKS, Step, ended_together
from afdx.files import program, watch
from afdx.files.program import NoProgram
from afdx.reckon import output_sizes
from afdx.reckon.limits import limits_of
from afdx.runs import by_rt
from afdx.runs.by_rt import report

TOO_LONG = "the trace is too long for `rt try`: the page has no histograms, and has the losses of tables alone"


def page_words(arguments: list[str]) -> tuple[argparse.Namespace, list[str]]:
    parser = argparse.ArgumentParser(
        prog="afdx page", usage="afdx page NET [TABLES] -o FILE [--by WHAT] [--program PATH] [--no-bounds] ..",
        description="Explains a description, simulates it, bounds its latencies and draws all of it on one page. With TABLES,\n"
        "such as those of a campaign, it simulates nothing.",
        epilog="All other options are those of afdx report (afdx page NET -o FILE --limits FILE, say): afdx report --help.\n"
        "status: 0; 1 if the description has a fault; else that of the step that fails, which prints why",
        formatter_class=argparse.RawDescriptionHelpFormatter,
    )
    add = parser.add_argument
    add("net", metavar="NET", help="the description (TOML)")
    add("-o", "--output", metavar="FILE", required=True, help="the page to write (HTML)")
    add("--by", metavar="WHAT", help="proved, try or second-opinion (default: proved, else try)")
    add("--program", metavar="PATH", help="the program to run, whatever it is")
    add("--no-bounds", action="store_true", help="leave the worst-case bounds out")
    names, options = names_and_options(arguments)
    if len(names) > 2:
        parser.error(f"which tables? {' '.join(names[1:])}")
    words, more = parser.parse_known_args(["NET", *options] if names else options)
    words.net, words.tables = [*map(no_option, names), None, None][:2] if names else (words.net, None)
    words.no_bounds = words.no_bounds or any(word.split("=")[0] == "--bounds" for word in more)
    if not words.tables:
        for name in OF_TABLES:
            if any(len(option := word.split("=")[0]) > 3 and name.startswith(option) for word in more):
                parser.error(f"{name} is of tables that are there already, and the page makes its own: name TABLES behind NET")
    return words, more


# What belongs to tables of an earlier run.
OF_TABLES = ("--trace", "--made-by")


def names_and_options(arguments: list[str]) -> tuple[list[str], list[str]]:
    """The names of files that stand before all options, or behind --, and the options: a word behind another option may be its
    value."""
    end = arguments.index("--") if "--" in arguments else len(arguments)
    begin = next((i for i, word in enumerate(arguments[:end]) if word.startswith("-")), end)
    return arguments[:begin] + arguments[end + 1 :], arguments[begin:end]


def no_option(path: str) -> str:
    """A name of a file that no tool takes for an option."""
    return os.path.join(".", path) if path.startswith("-") else path


def explained(net: str) -> int:
    """Prints on error output the faults of a description and what is probably a mistake, and returns the status."""
    with watch.Watch("afdx"):
        watch.stage(f"explains {files.printable(net)}")
        found = subprocess.run(program.command("explain", net), stdin=subprocess.DEVNULL, capture_output=True, text=True)
    sys.stderr.write(found.stderr)
    for line in found.stdout.splitlines():
        if not line.endswith(": accepted"):
            print(line, file=sys.stderr)
    return found.returncode


def page(arguments: list[str]) -> int:
    """Makes the page of a description, and answers the status."""
    words, more = page_words(arguments)
    # Before the run, which may take long.
    path: str
    for path in filter(None, (words.net, words.tables)):
        files.reads(path)
    outputs: list[str | None] = [words.output, *(taken_out(more, name)[1] for name in WRITTEN)]
    files.ready(list(filter(None, outputs)))
    # A program that judges the description itself. Else the description is explained before one is looked for.
    it = None if words.tables else for_bounds(words.by, words.program)
    with tempfile.TemporaryDirectory(prefix="afdx-page-") as folder:
        steps = PageSteps(words, more, folder, it)
        try:
            return steps.side_by_side() if it or words.tables else steps.one_by_one()
        finally:
            steps.stop()


class PageSteps:
    """The steps of a page: it explains, bounds and simulates the description, and draws the page of all that."""

    def __init__(self, words: argparse.Namespace, more: list[str], folder: str, it: program.Program | None) -> None:
        self.words, self.more, self.folder, self.it = words, more, folder, it
        self.tables, self.trace, self.bounds = (os.path.join(folder, name) for name in ("tables.csv", "trace.csv", "bounds.csv"))
        self.steps: list[Step] = []

    def step(self, name: str, command: list[str], **more: Any) -> Step:
        found = Step(self.folder, name, command, **more)
        self.steps.append(found)
        return found

    def stop(self) -> None:
        for step in self.steps:
            step.stop()

    def judge_limits(self) -> None:
        """Refuses limits before the run, which may take long."""
        if limits := taken_out(self.more, "--limits")[1]:
            limits_of(limits, model.Network(self.words.net))

    def one_by_one(self) -> int:
        """The same for makers of runs that do not judge the description as the program does, or that take minutes."""
        if status := explained(self.words.net):
            return status
        self.judge_limits()
        self.it = chosen(self.words.by, self.words.program)
        report(self.it.says)
        bounding = self.bounding()
        status = simulate(self.it, self.words.net, self.tables, self.trace)
        bounded = bounding.show() if bounding else 0
        return status or bounded or subprocess.run(self.drawing(os.path.exists(self.trace)), cwd=self.folder).returncode

    def side_by_side(self) -> int:
        """Explains, bounds and simulates at once. The page is begun once the tables are there, and waits for the bounds. If the
        description has a fault, nothing else is said."""
        net, it = self.words.net, self.it
        explaining = self.step("explain", program.command("explain", net))
        bounding = self.bounding()
        path = it.path if it else None
        simulating = self.step("simulate", [path, "seq", net, "--trace", self.trace], output=self.tables) if path else None
        try:
            self.judge_limits()
        except files.Fault:
            if status := self.show_explained(explaining):
                return status
            raise
        with watch.Watch("afdx"):
            return self.followed(explaining, bounding, simulating)

    def followed(self, explaining: Step, bounding: Step | None, simulating: Step | None) -> int:
        """Begins the page once the tables are there, prints what each step says in its turn, and returns the status."""
        drawing, is_explained = None, False
        while not (drawing and is_explained):
            if not drawing and (not simulating or simulating.run.poll() == 0):
                more = ["--bounds-come"] if bounding else []
                drawing = self.step("draw", self.drawing(bool(simulating)) + more, cwd=self.folder)
            if not is_explained and explaining.run.poll() is not None:
                is_explained = True
                if status := self.show_explained(explaining):
                    return status
                if self.it:
                    report(self.it.says)
            if is_explained and simulating and simulating.has_failed():
                return simulating.show()
            watch.stage(f"{'simulates' if is_explained else 'explains'} {files.printable(self.words.net)}")
            time.sleep(BETWEEN_LOOKS)
        if simulating:
            simulating.show()
        watch.stage(f"draws the page of {files.printable(self.words.net)}")
        ended_together(drawing, bounding)
        bounded = bounding.show() if bounding and (bounding.has_failed() or drawing.status() == 0) else 0
        return bounded or drawing.show()

    def show_explained(self, explaining: Step) -> int:
        """Prints on error output what explain found, and returns the status."""
        status = explaining.status()
        printed, said = explaining.texts()
        lines = [line for line in printed.decode("utf-8", "backslashreplace").splitlines() if not line.endswith(": accepted")]
        with watch.quiet():
            write(sys.stderr, said + "".join(line + "\n" for line in lines).encode("utf-8", "backslashreplace"))
        return status

    def bounding(self) -> Step | None:
        """The process that computes the bounds, with the numbers of the program if there is one."""
        if self.words.no_bounds:
            return None
        it = for_bounds(self.words.by, self.words.program)
        named = ["--program", it.path] if it and it.path else []
        command = [sys.executable, "-m", "afdx.commands.bounds", self.words.net, "-o", self.bounds, *named]
        return self.step("bounds", command, env=program.environment())

    def drawing(self, has_trace: bool) -> list[str]:
        """The command that draws. The page names what it was made of, so it is made where these names are short and always the same."""
        words = self.words
        more = [absolute(word, before) for before, word in zip(["", *self.more], self.more)]
        more += ["--trace", "trace.csv"] if has_trace else []
        more += [] if words.no_bounds else ["--bounds", "bounds.csv"]
        more += ["--made-by", self.it.maker.in_words()] if self.it else []
        tables = linked_tables(words.tables, self.folder) if words.tables else "tables.csv"
        return program.command("report", linked(words.net, self.folder), tables, "-o", os.path.abspath(words.output), *more)


def linked_tables(path: str, folder: str) -> str:
    """The same of tables: by their folder, since merged ones have the record of their campaign beside them."""
    if os.path.isdir(path):
        return linked(path, folder)
    return os.path.join(linked(os.path.dirname(os.path.abspath(path)), folder), os.path.basename(path))


def linked(path: str, folder: str) -> str:
    """A name of a file in this folder, by a link; or its own from the root on, where the name is taken."""
    name = os.path.basename(os.path.normpath(path))
    if os.path.lexists(os.path.join(folder, name)) or name.startswith("-"):
        return os.path.abspath(path)
    os.symlink(os.path.abspath(path), os.path.join(folder, name))
    return name


# The options of a page whose values name files that it writes, so that these need not be there.
WRITTEN = ("--junit", "--late")


def absolute(word: str, before: str = "") -> str:
    """A word with the file that it names, if it does, named from the root on: `before` is the word before it."""
    option, has_value, value = word.partition("=") if word.startswith("--") else ("", "", word)
    if word.startswith("--") and not has_value:
        return word
    of = option or before
    is_written = len(of) > 3 and any(name.startswith(of) for name in WRITTEN)
    return option + has_value + (os.path.abspath(value) if is_written or os.path.exists(value) else value)


def simulate(it: program.Program, net: str, tables: str, trace: str) -> int:
    """Has the tables made, and the trace where files can be kept, and answers the status."""
    with open(tables, "wb") as out:
        if it.how == "tried":
            return simulate_by_try(net, out, trace)
        command = [it.path, "seq"] if it.path else program.command("second-opinion")
        return ended([*command, net, "--trace", trace], stdin=subprocess.DEVNULL, stdout=out)


def simulate_by_try(net: str, out: BinaryIO, trace: str) -> int:
    """The same by `rt try`, with the trace where it is not too long to be passed on."""
    with open(net, "rb") as file:
        text = file.read()
    foresee(net, "--by second-opinion, or ")
    found = model.Network(net)
    is_short = output_sizes.of_trace(found) <= output_sizes.MOST
    if not is_short:
        report(TOO_LONG)
    cases = [(text, ["--trace", "/dev/stderr"])] * is_short + [(text, [])]
    *with_trace, alone = by_rt.cases_by_try(cases)
    traced = with_trace[0] if with_trace else (None, b"", b"")
    if traced[0] == 0:
        with open(trace, "wb") as file:
            file.write(traced[2])
    elif alone[0] == 0:
        if is_short:
            report(TOO_LONG)
    else:
        write(sys.stderr, alone[2])
        if alone[0] is None:
            raise NoProgram("`rt try` gave no answer: it passes on at most 1 MiB, and `afdx build` builds the proved program")
    out.write(traced[1] if traced[0] == 0 else alone[1])
    return alone[0] or 0
