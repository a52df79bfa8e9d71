"""The commands of the program, `check`, `seq`, `run` and `replay`: the words go to the program that is chosen."""
import os
import subprocess
import sys

from afdx import files
from afdx.commands import check_command, help_texts
from afdx.commands.chosen_program import Mistake, asks_for_help, chosen, ended, foresee, taken_out, write
from afdx.files import program
from afdx.files.program import NoProgram
from afdx.runs import by_rt
from afdx.runs.by_rt import report


def files_of(name: str, words: list[str]) -> tuple[list[int], list[str]]:
    """The places of the words that name files which the command reads, and the names of files that it writes."""
    read, written, rest = [], [], iter(range(len(words)))
    only_paths = False
    for place in rest:
        word = words[place]
        if not only_paths and word == "--":
            only_paths = True
        elif not only_paths and word.startswith("-") and word != "-":
            option, has_value, value = word.partition("=")
            if option in help_texts.VALUED and not has_value:
                behind = next(rest, None)
                value = words[behind] if behind is not None else ""
            if option in help_texts.WRITES:
                written.append(option)
        else:
            read.append(place)
    return read[: help_texts.OF_PROGRAM[name].files], written


def by_program(name: str, words: list[str]) -> int:
    """Hands the words to the program, and answers its status."""
    words, by = taken_out(words, "--by")
    words, path = taken_out(words, "--program")
    if asks_for_help(words):
        return help_of_program(name, words, path)
    it = chosen(by, path)
    if name == "check" and is_for_several(words):
        check_command.names_of(words)
        report(it.says)
        return check_command.check_all(words, check_command.judge_of(it))
    if it.how in ("proved", "given"):
        assert it.path is not None
        report(it.says)
        return ended([it.path, name, *words])
    read, written = files_of(name, words)
    if it.how == "second opinion":
        lacks = name if name in ("run", "replay") else f"{name} --progress" if "--progress" in words else None
        if lacks:
            raise Mistake(f"{lacks} needs the program: the second opinion has no such thing")
        report(it.says)
        return check_by_opinion(words, read) if name == "check" else ended(program.command("second-opinion", *words))
    if len(read) < help_texts.OF_PROGRAM[name].files:
        raise Mistake(f"usage: afdx {name} {help_texts.OF_PROGRAM[name].usage}")
    if written:
        raise NoProgram(
            f"{written[0]} writes a file, which `rt try` cannot keep: `afdx build` builds the proved program"
            + (", or --by second-opinion" if name == "seq" else "")
        )
    for place in read:
        if not os.access(words[place], os.R_OK) or os.path.isdir(words[place]):
            # As the program does; it would take two minutes to say so.
            print(f"afdxsim: cannot read {words[place]}", file=sys.stderr)
            return 4
    if name in ("seq", "run"):
        foresee(words[read[0]], "--by second-opinion, or " if name == "seq" else "")
    report(it.says)
    status, printed, said = by_rt.by_try([name, *words], [1 + place for place in read])
    write(sys.stderr, said)
    write(sys.stdout, printed)
    return status


def check_by_opinion(words: list[str], read: list[int]) -> int:
    """Judges a description as `afdxsim check` does, by afdx explain, and answers the status."""
    if len(read) < 1:
        raise Mistake(f"check of which description? {check_command.USAGE}")
    if rest := [word for i, word in enumerate(words) if i not in read and word != "--"]:
        raise Mistake(f"check has no option {rest[0]}: {check_command.USAGE}")
    answer = check_command.by_opinion(words[read[0]])
    if answer.status:
        print(answer.text(), file=sys.stderr)
    else:
        files.say(answer.text())
    return answer.status


def is_for_several(words: list[str]) -> bool:
    """Whether the words of `check` name several descriptions, standard input, or JSON, which the program does not know."""
    end = words.index("--") if "--" in words else len(words)
    names = [word for word in words[:end] if word == check_command.INPUT or not word.startswith("-")] + words[end + 1 :]
    return "--json" in words[:end] or len(names) > 1 or check_command.INPUT in names


def help_of_program(name: str, words: list[str], path: str | None) -> int:
    """Prints the usage of a command of the program, by the program if there is one here, and returns the status."""
    it, status = help_texts.OF_PROGRAM[name], 0
    try:
        found = program.given(path) if path else program.proved()
        assert found.path is not None
        status = subprocess.run([found.path, name, *words]).returncode
    except NoProgram:
        usage = f"usage: afdx {name} {it.usage} [--by WHAT] [--program PATH]"
        files.say(f"{usage}\n\n{it.says}\n\ndocs/FORMATS.md, section 9, has all of it.")
    if name == "run":
        files.say("\n" + help_texts.OF_RUN)
    return status
