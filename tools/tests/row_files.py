"""Rows of tests that are texts, in tools/tests/rows, and the texts that they write. A line with `# ` in front is a heading.

A row has pieces with ` => ` between them. The first names a network: `n1`, `n2`, `n3` of examples/, `top` for the first two
lines of n1, `endless` for n2 with more offers than any memory holds, `sixty` for one of 60 end systems with 1,500 virtual links
and 4 ms, or `empty` for no text. Then come its changes: `OLD -> NEW` puts NEW in the place of the first OLD, and `+ TEXT` puts
TEXT at the end. `+ 3 x TEXT` puts it there three times, with 0, 1 and 2 for each `#` in it and 1, 2 and 3 for each `@`. A `;`
is the end of a line. The last piece is what the row expects."""
import functools
import os

from afdx.commands import large_network
from tests.places import EXAMPLES, TOOLS


def read(path):
    with open(path, encoding="utf-8") as file:
        return file.read()


def rows(name):
    """The rows of this file, a line each."""
    lines = read(os.path.join(TOOLS, "tests", "rows", name + ".txt")).split("\n")
    return [line for line in lines if line and not line.startswith("# ")]


def blocks(name):
    """The rows of a file that has an empty line between two rows, and four blanks before a line that goes on with one."""
    text = read(os.path.join(TOOLS, "tests", "rows", name + ".txt"))
    lines = [line for line in text.split("\n") if not line.startswith("# ")]
    return [" ".join(block.split()) for block in "\n".join(lines).split("\n\n") if block.strip()]


def lines_of(text):
    """A text with line feeds in the place of semicolons."""
    return text.replace(";", "\n")


def repeated(text):
    """A text as often as it says, each time with its number."""
    count, found, one = text.partition(" x ")
    if not found:
        count, one = "1", text
    one = lines_of(one)
    return "".join(one.replace("#", str(number)).replace("@", str(number + 1)) for number in range(int(count)))


@functools.cache
def network(name):
    """The text of the network with this name."""
    if name == "empty":
        return ""
    if name == "top":
        return "".join(network("n1").splitlines(keepends=True)[:2])
    if name == "sixty":
        words, pieces = large_network.words_of(["--end-systems", "60", "--virtual-links", "1500", "--until", "4000000"]), []
        large_network.write_network(words, pieces.append, lambda _: None)
        return "".join(pieces)
    if name == "endless":
        text = network("n2").replace("until_ns = 2000000", "until_ns = 1000000000000000")
        return text.replace("period_ns = 1000000000000", "period_ns = 1000")
    return read(os.path.join(EXAMPLES, name + ".toml"))


def changed(row):
    """The text that a row begins with, and what the row states."""
    name, *changes, said = row.split(" => ")
    text = network(name)
    for change in changes:
        if change.startswith("+ "):
            text += repeated(change[2:])
        else:
            old, new = map(lines_of, change.split(" -> ", 1))
            if old not in text:
                raise ValueError(f"no such piece in {row}")
            text = text.replace(old, new, 1)
    return text, said
