"""What `afdx` can do: its commands, which tool does each, and the texts of help and of the completion of words."""
import re
import subprocess
from typing import NamedTuple

from afdx.files import program


class Command(NamedTuple):
    """A command: its usage, and what it does."""

    usage: str
    says: str


class OfProgram(NamedTuple):
    """A command of the program: how many of its first words are files that it reads, its usage, and what it does."""

    files: int
    usage: str
    says: str


OF_PROGRAM = {
    "check": OfProgram(1, "NET.. [--json]", "check descriptions, and count their contents"),
    "seq": OfProgram(1, "NET [--trace FILE] [--progress]", "simulate the network on one thread; prints tables as CSV"),
    "run": OfProgram(
        1, "NET [--workers N] [--groups N] [--turn N] [--window NS] [--journal FILE] [--trace FILE] [--progress]",
        "print the tables of seq, by Time Warp on several threads",
    ),
    "replay": OfProgram(2, "NET STEPS", "simulate the network by the steps of a journal"),
}


class OfTool(NamedTuple):
    """A tool: its module, the option that it gets in any case or None, its usage, and what it does."""

    module: str
    option: str | None
    usage: str
    says: str


OF_TOOLS = {
    "explain": OfTool("afdx.commands.explain", None, "NET..", "print all faults of descriptions with their lines, or their warnings"),
    "bounds": OfTool("afdx.commands.bounds", None, "NET [-o FILE]", "print worst-case bounds: those of the program, and those of a tool"),
    "table": OfTool("afdx.commands.from_table", None, "TABLE.. -o NET", "make a description from the tables of an interface document"),
    "results": OfTool("afdx.commands.results", None, "BOOK NET -o OUT", "write the results of a network into its interface document"),
    "campaign": OfTool("afdx.commands.campaign", None, "NET --seeds N -o DIR", "run many seeds, and merge their tables"),
    "outages": OfTool(
        "afdx.commands.campaign", "--each-outage", "NET [--each-outage NS] -o DIR", "run with one link or switch out, each in turn"
    ),
    "pcap": OfTool("afdx.commands.pcap", None, "NET TRACE -o FILE", "make a capture for Wireshark from a trace"),
    "judge": OfTool("afdx.commands.judge", None, "NET CAPTURE [--tap NAME=PLACE]", "judge a capture of a bench against a description"),
    "report": OfTool("afdx.commands.report", None, "NET TABLES -o FILE", "make a page of existing tables, also of a campaign"),
    "second-opinion": OfTool(
        "afdx.runs.second_opinion", None, "NET [--trace FILE] [--hops FILE]", "simulate the network by a plain simulator, and measure each hop"
    ),
    "long-form": OfTool("afdx.model.long_form", None, "FILE", "write tables as JSON, a list of rows of one form"),
    "large-network": OfTool("afdx.commands.large_network", None, "[--virtual-links N] ..", "write the description of a large network"),
    "make-journal": OfTool("afdx.commands.make_journal", None, "NET -o FILE", "write a journal for replay"),
    "bounded-runs": OfTool("afdx.commands.bounded_runs", None, "[--networks N] ..", "compare drawn runs of drawn networks with their bounds"),
    "benchmark": OfTool("afdx.commands.benchmark", None, "PROGRAM ..", "measure the speed of a program"),
}
# What developers of the simulator need: the help lists it behind all else.
OF_DEVELOPERS = ("large-network", "make-journal", "bounded-runs", "benchmark", "build")
# The tools that have the program run.
RUN_IT = ("campaign", "outages")
OWN = {
    "page": Command("NET [TABLES] -o FILE", "check, simulate, bound and draw: makes one page"),
    "build": Command("[--jobs N]", "prove and build the program"),
    "package": Command("[-o DIR]", "make a Debian package of the proved program and the tools"),
    "completion": Command("bash", "print the completion of words for a shell"),
}
# The options of the program that have a value, and those that name a file which it writes.
VALUED = ("--trace", "--journal", "--workers", "--groups", "--turn", "--window")
WRITES = ("--trace", "--journal")

# What is said of `run` alone.
OF_RUN = (
    "run uses threads that run ahead and roll back (Time Warp): 4 threads unless --workers orders another number, whatever the\n"
    "network. Whether it is faster than seq depends on the network and on the machine: if you want tables alone, and\n"
    "you have not measured it, use seq."
)
# What is said of the tools that have the program run.
OF_CHOICE = "--by WHAT (proved, try or second-opinion; default: proved, else try) or --program PATH names who makes the runs."

IN_A_CLONE = """\
  the proved one, if it was built from these very sources: `afdx build` and ./test build it, and a package contains it;
  else these sources by `rt try`, without a proof and with checks, if the kit is installed: it takes some two minutes,
  writes no file, and passes on 1 MiB of each run;"""
IN_A_PACKAGE = "  the proved one of the package;"

HELP = """usage: afdx [--help] [--version] COMMAND ..

One command for all work on a network: each line is a command, and `afdx COMMAND --help` explains its words.

{commands}

error output names once which program runs. It is
{which}
  with --by second-opinion the plain simulator in Python, for all but run and replay{only};
  with --program PATH the program that you name.
The variable AFDX_BY has what --by says, if no word does

{of_run}

examples:
  afdx page net.toml -o net.html
        checks the description, simulates it, bounds it, and makes a page of all three
  afdx seq net.toml --trace trace.csv > tables.csv
        tables and trace of a run
  afdx page net.toml -o net.html --by second-opinion
        without the program, by Python alone
  source <(afdx completion bash)
        the tabulator completes words

status: that of the program or the tool; 2 if a word is wrong, or if there is no program

for developers of the simulator:
{of_developers}
"""


def commands(is_clone: bool = program.is_clone()) -> dict[str, Command]:
    """Each command with its words and what it says, in the order of the help. A package has no sources to build."""
    found = {"page": OWN["page"]}
    found |= {name: Command(it.usage, it.says) for name, it in OF_PROGRAM.items()}
    found |= {name: Command(it.usage, it.says) for name, it in OF_TOOLS.items()}
    return found | {name: it for name, it in OWN.items() if name != "page" and (is_clone or name == "completion")}


def help_text(is_clone: bool = program.is_clone()) -> str:
    lines = {name: f"  {name:<16}{it.says}" for name, it in commands(is_clone).items()}
    of_developers = "\n".join(line for name, line in lines.items() if name in OF_DEVELOPERS)
    of_users = "\n".join(line for name, line in lines.items() if name not in OF_DEVELOPERS)
    which, only = (IN_A_CLONE, "; with --by proved and --by try just that one") if is_clone else (IN_A_PACKAGE, "")
    return HELP.format(commands=of_users, which=which, only=only, of_run=OF_RUN, of_developers=of_developers)


def options_of(name: str) -> list[str]:
    """The options that a command's help names."""
    if name in OF_PROGRAM:
        return sorted({*re.findall(r"--[a-z-]+", OF_PROGRAM[name].usage), "--by", "--program", "--help"})
    if name in OF_TOOLS:
        words = program.command(name, "--help")
        said = subprocess.run(words, capture_output=True, text=True, stdin=subprocess.DEVNULL).stdout
        found = set(re.findall(r"(?<![\w-])--[a-z][a-z-]*[a-z]", said))
        return sorted(found | {"--by"} if name in (*RUN_IT, "bounds") else found)
    more = {"page": ["--by", "--limits", "--no-bounds", "--output", "--program"], "build": ["--jobs"], "package": ["--output"]}
    return [*more.get(name, []), "--help"]


COMPLETION = """# bash completion of afdx; made by `afdx completion bash`
_afdx() {{
    local word=${{COMP_WORDS[COMP_CWORD]}} before=${{COMP_WORDS[COMP_CWORD - 1]}} options
    if [ "$COMP_CWORD" -eq 1 ]; then
        COMPREPLY=($(compgen -W "{names} --help --version" -- "$word"))
        return
    fi
    case $before in
    --by) COMPREPLY=($(compgen -W "proved try second-opinion" -- "$word")); return ;;
    esac
    case ${{COMP_WORDS[1]}} in
{cases}
    esac
    case $word in
    -*) COMPREPLY=($(compgen -W "$options" -- "$word")) ;;
    *) COMPREPLY=($(compgen -f -- "$word")) ;;
    esac
}}
complete -o filenames -F _afdx afdx ./afdx
"""


def completion_text(is_clone: bool = program.is_clone()) -> str:
    """What bash is to read, so that it completes words. It is made of the texts of help: `shtab` and `argcomplete` want one parser of all words."""
    names = commands(is_clone)
    cases = "\n".join(f"    {name}) options=\"{' '.join(options_of(name))}\" ;;" for name in names)
    return COMPLETION.format(names=" ".join(names), cases=cases)
