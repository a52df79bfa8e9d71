"""The one command for all that a user does: what each word of it is handed to."""
import argparse
import importlib
import os
import sys

from afdx import files, model
from afdx.commands import debian_package, help_texts
from afdx.commands.chosen_program import Mistake, asks_for_help, chosen, for_bounds, taken_out
from afdx.commands.page_command import explained, page
from afdx.commands.program_commands import by_program
from afdx.files import program
from afdx.files.ending import refuse_empty
from afdx.files.program import NoProgram
from afdx.runs import by_rt
from afdx.runs.by_rt import report


# What is said where bounds are those of the tool alone.
NO_BOUNDS = "no program prints bounds here: all numbers are those of afdx bounds, which no proof covers"


def version_text() -> str:
    """The version, with the commit and the kit, and the program that is here."""
    lines = [f"afdxsim {program.version()}"]
    if program.is_clone():
        lines += [f"commit: {program.commit() or 'unknown'}", f"kit: {program.kit() or 'not here'}"]
    try:
        found = program.proved()
        assert found.path is not None
        lines.append(f"program: {os.path.normpath(found.path)}: {found.says}")
    except NoProgram as fault:
        lines.append(f"program: {fault}")
    return "\n".join(lines) + "\n"


def by_tool(name: str, words: list[str]) -> int:
    """Runs a tool in this very process."""
    tool = help_texts.OF_TOOLS[name]
    if asks_for_help(words) and name in help_texts.RUN_IT:
        files.say(f"{help_texts.OF_CHOICE}\n")
    if asks_for_help(words) and name == "outages":
        # Each command would wait for what campaigns import.
        files.write_out(importlib.import_module("afdx.commands.campaign_words").help_of_outages())
        return 0
    asks = asks_for_help(words) or not words
    # At the end of the options, since it may have a value.
    end = words.index("--") if "--" in words else len(words)
    has_option = any(word.startswith(tool.option or "-") for word in words[:end])
    words = words if has_option or not tool.option else [*words[:end], tool.option, *words[end:]]
    # Parts that are merged have been run already.
    merges = name == "campaign" and any(word.split("=")[0] == "--merge" for word in words[:end])
    if name in help_texts.RUN_IT and not asks and not merges:
        words, status = with_program(words)
        if status:
            return status
    elif name == "bounds" and not asks:
        words = with_bounds(words)
    sys.argv = [f"afdx {name}", *words]
    return importlib.import_module(tool.module).main()


def with_bounds(words: list[str]) -> list[str]:
    """The words of `afdx bounds`, with the program whose numbers it prints if there is one."""
    words, by = taken_out(words, "--by")
    words, path = taken_out(words, "--program")
    if any(word.split("=")[0] in ("--proved", "--fit") for word in words):
        return words if path is None else ["--program", path, *words]
    it = for_bounds(by, path)
    report(it.says if it else NO_BOUNDS)
    return ["--program", it.path, *words] if it and it.path else words


def with_program(words: list[str]) -> tuple[list[str], int]:
    """The words of a tool that has the program run, with those that name the program; and the status if it is useless to
    go on."""
    words, by = taken_out(words, "--by")
    words, path = taken_out(words, "--program")
    it = chosen(by, path)
    report(it.says)
    if it.path:
        return ["--program", it.path, *words], 0
    if it.how == "second opinion":
        return ["--by", "second-opinion", *words], 0
    # Before the two minutes in which the program is built.
    status = explained(words[0]) if words and not words[0].startswith("-") else 0
    return ["--by", "try", *words], status


def build(arguments: list[str]) -> int:
    parser = argparse.ArgumentParser(
        prog="afdx build", description="Proves the program and all that it is made of, and builds it: crates/afdxsim/out/afdxsim.",
        epilog="The machine keeps what is proved, for ./test too. crates/afdxsim/out/build.log has all that `rt` printed.",
    )
    parser.add_argument("--jobs", type=model.whole(1, 1024), metavar="N", help="on at most N processors (default: all)")
    record = by_rt.build(parser.parse_args(arguments).jobs)
    files.say(f"{program.BUILT}: {record.in_words()}")
    return 0


def completion(arguments: list[str]) -> int:
    if asks_for_help(arguments):
        files.say("usage: afdx completion bash\n\nPrints what completes words in bash: source <(afdx completion bash)")
        return 0
    if arguments != ["bash"]:
        raise Mistake("completion is for bash: afdx completion bash")
    files.write_out(help_texts.completion_text())
    return 0


def asks_for_version(words: list[str]) -> bool:
    """Whether --version is among the words, alone or behind a command."""
    before = words[: words.index("--")] if "--" in words else words
    return "--version" in before and (words[0] == "--version" or words[0] in help_texts.commands())


def answer(words: list[str]) -> int:
    """Does what the words say, and answers the status."""
    if words[:1] in (["--help"], ["-h"], ["help"]):
        files.write_out(help_texts.help_text())
        return 0
    if asks_for_version(words):
        files.write_out(version_text())
        return 0
    # What is said of the program may also stand before the command.
    asked: list[str] = []
    while words and words[0].split("=")[0] in ("--by", "--program"):
        taken = 1 if "=" in words[0] else 2
        asked, words = asked + words[:taken], words[taken:]
    if not words:
        raise Mistake("which command? afdx --help lists all")
    name, words = words[0], words[1:] + asked if "--" not in words else asked + words[1:]
    if name in help_texts.OF_PROGRAM:
        return by_program(name, words)
    if name in help_texts.OF_TOOLS:
        return by_tool(name, words)
    own = {"page": page, "build": build, "package": debian_package.main, "completion": completion}
    if name not in own or name not in help_texts.commands():
        raise Mistake(f"there is no command {name!r}: afdx --help lists all")
    return own[name](words)


def main(words: list[str] | None = None) -> int:
    try:
        with files.signals_taken():
            files.settle_streams()
            words = sys.argv[1:] if words is None else words
            refuse_empty(words)
            status = answer(list(words))
        # A shell reports so what a signal ended.
        return status if status >= 0 else files.BEHIND_A_SIGNAL - status
    except (Mistake, NoProgram) as fault:
        report(str(fault))
        return files.BAD
    except files.ENDS as ended:
        status, said = files.why(ended)
        report(said)
        return status
