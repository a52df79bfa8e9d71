"""`afdx check` of several descriptions, of standard input, or with JSON for a build server: the program judges each by itself."""
import contextlib
import json
import os
import re
import subprocess
import tempfile
from collections.abc import Callable, Iterator
from typing import NamedTuple

from afdx import files, model
from afdx.commands.chosen_program import Mistake
from afdx.files import program
from afdx.files.reading import bytes_of
from afdx.model import description_faults
from afdx.runs import by_rt

USAGE = "usage: afdx check NET.. [--json]"
# What the program prints of a description that it accepts.
ACCEPTED = re.compile(r"ok: ([0-9]+) processes, ([0-9]+) virtual links, ([0-9]+) offers")
INPUT = "-"


class Answer(NamedTuple):
    """What the program answers of a description: its status, what it prints, and what it says on error output."""

    status: int
    printed: str
    said: str

    def text(self) -> str:
        return (self.printed or self.said).strip().split("\n")[0]


# Who judges the description at a path.
Judge = Callable[[str], Answer]


def names_of(words: list[str]) -> tuple[list[str], bool]:
    """The descriptions that the words name, and whether JSON is asked for."""
    end = words.index("--") if "--" in words else len(words)
    options = [word for word in words[:end] if word.startswith("-") and word != INPUT]
    if wrong := [word for word in options if word != "--json"]:
        raise Mistake(f"check has no option {wrong[0]}: {USAGE}")
    names = [word for word in words[:end] if word not in options] + words[end + 1 :]
    if not names:
        raise Mistake(f"check of which description? {USAGE}")
    if names.count(INPUT) > 1:
        raise Mistake("standard input can be read once, and is named twice")
    return names, bool(options)


def check_all(words: list[str], judge: Judge) -> int:
    """Prints what the program answers of each description, and returns the greatest status."""
    names, has_json = names_of(words)
    found = []
    for name in names:
        with spooled(name) as path:
            found.append((name, judge(path)))
    if has_json:
        objects = (json.dumps(object_of(name, answer), ensure_ascii=False) for name, answer in found)
        files.write_out("[\n" + ",\n".join(objects) + "\n]\n")
    else:
        for name, answer in found:
            if answer.status == 0:
                files.say(f"{files.printable(name)}: {answer.text()}")
            else:
                files.report(files.printable(name), answer.text())
    return max(answer.status for _, answer in found)


def object_of(name: str, answer: Answer) -> dict[str, object]:
    """An answer for another program."""
    found: dict[str, object] = {"file": name, "accepted": answer.status == 0, "status": answer.status, "text": answer.text()}
    counts = ACCEPTED.match(answer.text())
    return found | (dict(zip(("processes", "virtual_links", "offers"), map(int, counts.groups()))) if counts else {})


@contextlib.contextmanager
def spooled(name: str) -> Iterator[str]:
    """The path of a description; standard input becomes a file, which the program can read."""
    if name != INPUT:
        yield name
        return
    with tempfile.TemporaryDirectory(prefix="afdx-check-") as folder:
        path = os.path.join(folder, "standard_input.toml")
        with open(path, "wb") as out:
            out.write(bytes_of(INPUT))
        yield path


def by_path(path: str) -> Judge:
    """The program at a path."""

    def judge(net: str) -> Answer:
        run = subprocess.run([path, "check", "--", net], stdin=subprocess.DEVNULL, capture_output=True)
        return Answer(run.returncode, run.stdout.decode("utf-8", "replace"), run.stderr.decode("utf-8", "replace"))

    return judge


def by_try(net: str) -> Answer:
    """These sources without a proof."""
    if not os.access(net, os.R_OK) or os.path.isdir(net):
        return Answer(4, "", f"afdxsim: cannot read {net}")
    status, printed, said = by_rt.by_try(["check", net], [1])
    return Answer(status, printed.decode("utf-8", "replace"), said.decode("utf-8", "replace"))


def by_opinion(net: str) -> Answer:
    """afdx explain, which judges a description as the program does."""
    try:
        text = files.text_of(net)
    except files.Fault as fault:
        return Answer(3, "", "afdxsim: description: 1 Syntax") if fault.line else Answer(4, "", f"afdxsim: cannot read {files.printable(net)}")
    found, description = description_faults.findings_of(net, text)
    if found:
        return Answer(3, "", f"afdxsim: description: {description_faults.answer(found[0])}")
    return Answer(0, said_if_accepted(model.Network(net, text, description)), "")


def said_if_accepted(net: model.Network) -> str:
    """What the program prints of a description that it accepts."""
    offers = sum(model.count_of_offers(net.seed, it, net.until_ns) for vl in net.vls.values() for it in vl.streams)
    return f"ok: {len(net.process)} processes, {len(net.vls)} virtual links, {offers} offers"


def judge_of(it: program.Program) -> Judge:
    """Who judges descriptions, by the program that is chosen."""
    if it.path:
        return by_path(it.path)
    return by_opinion if it.how == "second opinion" else by_try
