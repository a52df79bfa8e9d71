"""A Debian package of the proved program and the tools, the same bytes from the same commit.

    /usr/bin/afdxsim, /usr/bin/afdx       the program, and the one command
    /usr/lib/afdxsim                      the tools, and the record of what the program was built and proved of
    /usr/lib/python3/dist-packages/afdx   a link to the tools, for `import afdx` and `python3 -m afdx`
    /usr/share/doc/afdxsim                README, CHANGELOG, docs, examples, and that record once more: proof.json
    /usr/share/man, bash-completion       made of the texts of help

It needs `dpkg-deb`, a clone without changes, and the program that ./test has left.
"""
import argparse
import gzip
import hashlib
import os
import re
import shutil
import subprocess
import sys
import tempfile
import time

from afdx import files
from afdx.commands import help_texts
from afdx.files import program
from afdx.files.program import NoProgram, ROOT

# What else is in tools/ is for who changes the program: it needs its sources.
OF_A_TOOL = re.compile(r"tools/afdx/.*|tools/afdx\.lua")
PYTHON = "/usr/bin/python3"
CONTROL = """Package: afdxsim
Version: {version}
Architecture: amd64
Maintainer: {maintainer}
Installed-Size: {size}
Depends: python3 (>= 3.11), libc6 (>= {libc})
Recommends: python3-openpyxl
Suggests: python3-distributed, python3-numpy, python3-pandas, bash-completion
Section: science
Priority: optional
Description: proved simulator of AFDX networks
 Simulates AFDX networks, the switched Ethernet of aircraft (ARINC 664 Part 7):
 latencies and losses of each virtual link, worst-case bounds, campaigns, and
 pages to look at. The program was proved to keep to its rules; what that says
 is in /usr/share/doc/afdxsim/docs/PROMISES.md, and what it was proved of in
 /usr/share/doc/afdxsim/proof.json.
"""

# As packages of Python do: what it is compiled to is made once for all users, and goes with the package.
SCRIPTS = {
    "postinst": """#!/bin/sh
set -e
if [ "$1" = configure ]; then py3compile -p afdxsim /usr/lib/afdxsim; fi
""",
    "prerm": """#!/bin/sh
set -e
py3clean -p afdxsim
""",
}


def git(*words: str, root: str = ROOT) -> str:
    run = subprocess.run(["git", *words], cwd=root, stdin=subprocess.DEVNULL, capture_output=True, text=True)
    if run.returncode != 0:
        raise NoProgram(f"a package is made of a commit, and this is no clone of git: {run.stderr.strip()}")
    return run.stdout


def what_is_packed(root: str = ROOT) -> tuple[str, program.Record, int]:
    """The proved program, its record for the package, and the moment of the commit."""
    if not shutil.which("dpkg-deb"):
        raise NoProgram("`dpkg-deb` makes the package, and it is not here")
    commit = git("rev-parse", "HEAD", root=root).strip()
    if changed := git("status", "--porcelain", root=root).strip():
        raise NoProgram(f"a package is made of a commit, and files here differ from it: {changed.splitlines()[0].split()[-1]}")
    it = program.proved(root)
    assert it.path is not None
    record = program.record_of(it.path)
    if not record.gate:
        raise NoProgram("the record of the program has no line of `rt ci`: ./test proves all, and writes it down")
    if record.judged != program.sum_of_judged(record.kit, root):
        raise NoProgram("the line of `rt ci` in the record is of other edits or data of tests than this commit has: ./test tries them")
    return it.path, record._replace(commit=commit), int(git("show", "-s", "--format=%ct", "HEAD", root=root))


# ---- texts ----


def roff(text: str) -> str:
    """A text as it stands, for a manual page."""
    lines = text.replace("\\", "\\e").replace("-", "\\-").split("\n")
    return "\n".join("\\&" + line if line.startswith((".", "'")) else line for line in lines)


def manual(name: str, says: str, begin: int, version: str, sections: list[tuple[str, str]]) -> str:
    """A manual page of texts of help, each under its title."""
    day = time.strftime("%Y-%m-%d", time.gmtime(begin))
    lines = [f'.TH {name.upper()} 1 "{day}" "afdxsim {version}" "User Commands"', ".SH NAME", f"{name} \\- {says}"]
    for title, text in sections:
        lines += [f'.SH "{roff(title.upper())}"', ".nf", roff(text.rstrip("\n")), ".fi"]
    return "\n".join(lines) + "\n"


def help_of(*words: str) -> str:
    """What a command says of its words, the same on every machine."""
    env = os.environ | {"COLUMNS": "80", "LC_ALL": "C.UTF-8"}
    run = subprocess.run(words, stdin=subprocess.DEVNULL, capture_output=True, text=True, env=env)
    return re.sub(r"\(default\s+here:\s+\d+\)", "(default: as many as processors)", run.stdout)


def manuals(path: str, begin: int, version: str, root: str = ROOT) -> dict[str, str]:
    """The manual pages of the one command and of the program."""
    python = PYTHON if os.path.exists(PYTHON) else sys.executable
    afdx = [python, os.path.join(root, "afdx")]
    of_tools = [
        (f"afdx {name}", help_of(*afdx, name, "--help"))
        for name in ["page", *help_texts.OF_TOOLS]
    ]
    of_program = [(f"afdxsim {name}", help_of(path, name, "--help")) for name in help_texts.OF_PROGRAM]
    general = help_texts.help_text(is_clone=False)
    see = [("see also", "/usr/share/doc/afdxsim/README.md, and docs/FORMATS.md there: every key, fault, table and status")]
    return {
        "afdx": manual("afdx", "one command for all that is done with an AFDX network", begin, version, [("synopsis", general), *of_tools, *see]),
        "afdxsim": manual("afdxsim", "simulates AFDX networks", begin, version, [("synopsis", help_of(path, "--help")), *of_program, *see]),
    }


def libc_of(path: str) -> str:
    """The version of the C library that the program needs."""
    with open(path, "rb") as file:
        found = re.findall(rb"GLIBC_(\d+)\.(\d+)", file.read())
    return ".".join(map(str, max([(2, 17), *((int(a), int(b)) for a, b in found)])))


# ---- files ----


class Tree:
    """The files of the package."""

    def __init__(self, folder: str) -> None:
        self.folder = folder

    def place(self, name: str) -> str:
        path = os.path.join(self.folder, name)
        os.makedirs(os.path.dirname(path), exist_ok=True)
        return path

    def write(self, name: str, content: str | bytes, mode: int = 0o644) -> None:
        path = self.place(name)
        with open(path, "wb") as out:
            out.write(content if isinstance(content, bytes) else content.encode())
        os.chmod(path, mode)

    def copy(self, source: str, name: str, mode: int = 0o644) -> None:
        with open(source, "rb") as file:
            self.write(name, file.read(), mode)

    def link(self, name: str, to: str) -> None:
        os.symlink(to, self.place(name))

    def names(self) -> list[str]:
        """The plain files, in order."""
        found = (os.path.join(folder, name) for folder, _, names in os.walk(self.folder) for name in names)
        return sorted(os.path.relpath(path, self.folder) for path in found if not os.path.islink(path))

    def settle(self, begin: int) -> None:
        """Gives all that is there its modes and one moment."""
        for folder, folders, names in os.walk(self.folder, topdown=False):
            for name in names + folders:
                path = os.path.join(folder, name)
                if os.path.isdir(path) and not os.path.islink(path):
                    os.chmod(path, 0o755)
                os.utime(path, (begin, begin), follow_symlinks=False)
        os.chmod(self.folder, 0o755)
        os.utime(self.folder, (begin, begin))


def zipped(text: str) -> bytes:
    return gzip.compress(text.encode(), 9, mtime=0)


LIBRARY, DOCUMENTS = "/usr/lib/afdxsim", "/usr/share/doc/afdxsim"


# What the README of a package has in place of how a clone gets the program.
OF_PACKAGE = (
    "## The proved program\n\nThis package contains it. `afdx` and `afdxsim` are commands with manual pages: `man afdx`. "
    "`/usr/share/doc/afdxsim/proof.json` names what it was proved of.\n\n"
)


def for_package(text: str) -> str:
    """A document with the commands of the package, where it has those of a clone: in lines of commands, and in back quotes."""
    def renamed(found: re.Match[str]) -> str:
        code = found[0].replace("./afdx", "afdx")
        code = re.sub(r"(?<![\w./])tools/", f"{LIBRARY}/tools/", code)
        return re.sub(r"(?<![\w./])examples/", f"{DOCUMENTS}/examples/", code)

    # How a clone comes to its program is nothing for a package, which has one.
    text = re.sub(r"(?s)## Get the proved program\n.*?(?=Error output and each page name)", OF_PACKAGE, text)
    text = text.replace("`./test`, `./afdx build` or a package provides", "this package provides")
    text = text.replace("`./test`, or `rt check` in a crate", "`rt check` in a crate of the sources")
    return re.sub(r"^    .*$|`[^`\n]+`", renamed, text, flags=re.MULTILINE)


def fill(tree: Tree, path: str, record: program.Record, begin: int, root: str = ROOT) -> None:
    """Puts into the tree what the package has."""
    tree.copy(path, "usr/bin/afdxsim", 0o755)
    with open(os.path.join(root, "afdx"), encoding="utf-8") as file:
        tree.write("usr/lib/afdxsim/afdx", file.read().replace("#!/usr/bin/env python3", "#!" + PYTHON, 1), 0o755)
    tree.link("usr/bin/afdx", "../lib/afdxsim/afdx")
    tree.link("usr/lib/python3/dist-packages/afdx", "../../afdxsim/tools/afdx")
    tree.link(f"usr/lib/afdxsim/{program.BUILT}", "../../../../../bin/afdxsim")
    tree.write(f"usr/lib/afdxsim/{program.BUILT}{program.RECORD}", record.text())
    tree.write("usr/share/doc/afdxsim/proof.json", record.text())
    # What is in the commit, and not what happens to lie beside it.
    for name in sorted(git("ls-files", "-z", "tools", "docs", "examples", "README.md", "CHANGELOG.md", root=root).split("\0")):
        source = os.path.join(root, name)
        is_tool = name.startswith("tools/")
        if not name or is_tool and not OF_A_TOOL.fullmatch(name):
            continue
        place = f"{LIBRARY if is_tool else DOCUMENTS}/{name}".lstrip("/")
        if name == "README.md":
            with open(source, encoding="utf-8") as file:
                tree.write(place, for_package(file.read()))
        else:
            tree.copy(source, place)
    for name, text in manuals(path, begin, record.version or "unknown", root).items():
        tree.write(f"usr/share/man/man1/{name}.1.gz", zipped(text))
    tree.write("usr/share/bash-completion/completions/afdx", help_texts.completion_text(is_clone=False))


def close(tree: Tree, path: str, record: program.Record, root: str = ROOT) -> None:
    """Puts the files that describe the package into the tree."""
    names = tree.names()
    size = sum(os.path.getsize(os.path.join(tree.folder, name)) for name in names)
    sums = []
    for name in names:
        with open(os.path.join(tree.folder, name), "rb") as file:
            sums.append(f"{hashlib.file_digest(file, 'md5').hexdigest()}  {name}\n")
    tree.write("DEBIAN/md5sums", "".join(sums))
    for name, text in SCRIPTS.items():
        tree.write(f"DEBIAN/{name}", text, 0o755)
    maintainer = git("log", "-1", "--format=%an <%ae>", root=root).strip()
    tree.write("DEBIAN/control", CONTROL.format(
        version=record.version, maintainer=maintainer, size=-(-size // 1024), libc=libc_of(path)
    ))


def make(folder: str, root: str = ROOT) -> str:
    """Makes the package, and answers its path."""
    path, record, begin = what_is_packed(root)
    os.makedirs(folder, exist_ok=True)
    package = os.path.join(folder, f"afdxsim_{record.version}_amd64.deb")
    with tempfile.TemporaryDirectory(prefix="afdx-package-") as room:
        tree, made = Tree(os.path.join(room, "tree")), os.path.join(room, "made.deb")
        fill(tree, path, record, begin, root)
        close(tree, path, record, root)
        tree.settle(begin)
        words = ["dpkg-deb", "--root-owner-group", "-Zxz", "-z9", "--threads-max=1", "--build", tree.folder, made]
        run = subprocess.run(
            words, env=os.environ | {"SOURCE_DATE_EPOCH": str(begin)}, stdin=subprocess.DEVNULL, capture_output=True, text=True
        )
        if run.returncode != 0:
            raise NoProgram(f"dpkg-deb: {run.stderr.strip()}")
        with open(made, "rb") as file:
            files.replace(os.path.realpath(package), file.read(), None)
    return package


def main(arguments: list[str]) -> int:
    parser = argparse.ArgumentParser(
        prog="afdx package",
        description="Makes a Debian package of the proved program and the tools: DIR/afdxsim_VERSION_amd64.deb.",
        epilog="It needs dpkg-deb, a clone without changes, and the program that ./test has left. The same commit gives the same bytes.\n"
        "To install it: apt-get install ./dist/afdxsim_VERSION_amd64.deb",
        formatter_class=argparse.RawDescriptionHelpFormatter,
    )
    parser.add_argument("-o", "--output", metavar="DIR", default="dist", help="the folder for it (default: dist)")
    package = make(parser.parse_args(arguments).output)
    files.say(f"{package}: sha256 {program.sum_of_file(package)}")
    return 0
