"""Which program runs, and what is known of it.

A program is *proved of these sources* where a record beside it says so: what was built and proved at once, by `afdx build`
or by `./test`, or what a package has. The record has the checksum of the sources and of the program itself, so that a program
is not taken for one of other sources. What is only found, without a record, is not called proved.
"""
import functools
import hashlib
import json
import os
import re
import shutil
import subprocess
import sys
from typing import NamedTuple

# The folder of the packages, and that above it: the top of a clone, or /usr/lib/afdxsim.
TOOLS = os.path.dirname(os.path.dirname(os.path.dirname(os.path.realpath(__file__))))
ROOT = os.path.dirname(TOOLS)
# In a package this is a link to /usr/bin/afdxsim.
BUILT = os.path.join("crates", "afdxsim", "out", "afdxsim")
PROGRAM = os.path.join(ROOT, BUILT)
# What a record is called, beside the program.
RECORD = ".record.json"
# Where the number of the version stands, once for all.
VERSION_STANDS = os.path.join("crates", "command_line", "src", "program.rt")
SECONDS_FOR_GIT = 60

# ---- other processes ----


def command(name: str, *words: str) -> list[str]:
    """What runs a command of `afdx` in a process of its own."""
    return [sys.executable, os.path.join(ROOT, "afdx"), name, *words]


def environment() -> dict[str, str]:
    """The environment in which another interpreter finds these packages: `PYTHON -m afdx.files.workbook`, say."""
    return os.environ | {"PYTHONPATH": TOOLS}


class NoProgram(Exception):
    """Why no program can be run, in one line."""


# ---- who made a file ----


class Maker(NamedTuple):
    """Who made a file: a program, or a tool. `sha256` is the checksum of the program, `sources` that of what it is made of
    where no program is kept (`rt try`), and `kit` the line of the kit that it was proved or translated with. What is not known
    is None. `proved`: a record on this machine says that this very program was built and proved of its sources."""

    name: str
    version: str | None
    commit: str | None
    sha256: str | None
    sources: str | None
    kit: str | None
    proved: bool

    def in_words(self) -> str:
        """All that is known, for a page."""
        return ", ".join(self.parts(12, 64))

    def cell(self) -> str:
        """The same for a cell of a table: no commas, and 16 digits of each checksum, as `description` has them."""
        return " ".join(self.parts(12, 16)).replace(",", ";").replace('"', "'")

    def parts(self, of_commit: int, of_sum: int) -> list[str]:
        found = [" ".join(filter(None, (self.name, self.version))), "proved" if self.proved else "not proved"]
        if self.commit:
            found.append(f"commit {self.commit[:of_commit]}{'+' if self.commit.endswith('+') else ''}")
        found += [f"SHA-256 {self.sha256[:of_sum]}"] if self.sha256 else []
        found += [f"of sources with the SHA-256 {self.sources[:of_sum]}"] if self.sources else []
        return found + ([kit_in_words(self.kit)] if self.kit else [])


def maker_of(path: str) -> Maker:
    """Who the program at a path is. A record is that of this program only where it has the program's checksum, whatever the
    program prints as its version: that beside it, that of this clone or package, or that of the installed package."""
    own = sum_of_file(path)
    for place in filter(None, (path, os.path.join(ROOT, BUILT), installed())):
        record = record_of(place)
        if record.program == own:
            return record.maker()
    says = first_line([path, "--version"], None) or os.path.basename(path)
    name, _, number = says.partition(" ")
    return Maker(name, number or None, None, own, None, None, False)


@functools.cache
def tool(name: str) -> Maker:
    """Who made what a tool works out by itself: the tool, of the commit that it stands in."""
    return Maker(f"afdx {name}", version(), commit() if is_clone() else record_of(os.path.join(ROOT, BUILT)).commit, None, None, None, False)


def is_clone(root: str = ROOT) -> bool:
    """Whether the sources are here, and not a package alone."""
    return os.path.isfile(os.path.join(root, "crates.txt"))


def version(root: str = ROOT) -> str:
    """The number of the version."""
    if not is_clone(root):
        return record_of(os.path.join(root, BUILT)).version or "unknown"
    with open(os.path.join(root, VERSION_STANDS), encoding="utf-8") as file:
        found = re.search(r'^const VERSION: &str = "([0-9.]+)";$', file.read(), re.MULTILINE)
    return found[1] if found else "unknown"


def first_line(words: list[str], folder: str | None) -> str | None:
    """What a command says in its first line, or None where it is not there or ends badly."""
    try:
        run = subprocess.run(
            words, cwd=folder, stdin=subprocess.DEVNULL, capture_output=True, text=True, errors="replace",
            timeout=SECONDS_FOR_GIT,
        )
    except (OSError, subprocess.TimeoutExpired):
        return None
    return run.stdout.strip().split("\n")[0] if run.returncode == 0 else None


def kit(root: str = ROOT) -> str | None:
    """The line of the kit that is here, or None."""
    return first_line(["rt", "version"], root) if shutil.which("rt") else None


def logic(kit_line: str | None) -> str:
    """What judges proofs, by the line of a kit: two kits of one logic judge alike, whatever their names are."""
    return (kit_line or "").rpartition(" logic ")[2]


def kit_in_words(kit_line: str | None) -> str:
    """A kit by its logic, and then by its name."""
    name, has_logic, found = (kit_line or "").rpartition(" logic ")
    return f"logic {found} ({name})" if has_logic else kit_line or "kit unknown"


def commit(root: str = ROOT) -> str | None:
    """The commit of this clone, with a + where files differ from it; None where this is no clone of git."""
    if not os.path.exists(os.path.join(root, ".git")):
        return None
    found = first_line(["git", "rev-parse", "HEAD"], root)
    changed = first_line(["git", "status", "--porcelain"], root)
    return found and found + ("+" if changed else "")


def source_files(root: str = ROOT) -> list[str]:
    """What the program is made of and proved from: paths from the top, in order."""
    found = ["crates.txt", "HANDLES"]
    for folder, folders, names in os.walk(os.path.join(root, "crates")):
        here = os.path.relpath(folder, root)
        depth = here.count(os.sep)
        # crates/NAME/src, specs and proofs, whole.
        folders[:] = sorted(name for name in folders if depth != 1 or name in ("src", "specs", "proofs"))
        found += (os.path.join(here, name) for name in sorted(names) if depth > 1 and name.endswith((".rt", ".antt")))
    return [name for name in found if os.path.isfile(os.path.join(root, name))]


def sum_of_file(path: str) -> str:
    with open(path, "rb") as file:
        return hashlib.file_digest(file, "sha256").hexdigest()


def judged_files(root: str = ROOT) -> list[str]:
    """What `rt ci` judges: the sources, and the edits and data of tests beside them; paths from the top, in order."""
    found = ["crates.txt", "HANDLES"]
    for folder, folders, names in os.walk(os.path.join(root, "crates")):
        folders[:] = sorted(name for name in folders if name != "out")
        found += (os.path.relpath(os.path.join(folder, name), root) for name in sorted(names) if name != "BUILD.bazel")
    return [name for name in found if os.path.isfile(os.path.join(root, name))]


def sum_of(names: list[str], first: str | None, root: str) -> str:
    """The checksum of a line and of files with their names."""
    found = hashlib.sha256((first or "").encode() + b"\n")
    for name in names:
        found.update(f"{name}\0{sum_of_file(os.path.join(root, name))}\n".encode())
    return found.hexdigest()


def sum_of_sources(kit_line: str | None, root: str = ROOT) -> str:
    """The checksum of the sources, and of the logic that they are proved with."""
    return sum_of(source_files(root), logic(kit_line), root)


def sum_of_judged(kit_line: str | None, root: str = ROOT) -> str:
    """The same of all that `rt ci` judges."""
    return sum_of(judged_files(root), logic(kit_line), root)


# ---- records ----


class Record(NamedTuple):
    """What a program was built of and proved with: the number of its version, the commit, the line of the kit and its logic, and
    the checksums of the sources and of the program. `gate` is the line by which all proofs and tests passed, and `judged` the
    checksum of what that line is of. What is not known is None."""

    version: str | None
    commit: str | None
    kit: str | None
    logic: str | None
    sources: str | None
    program: str | None
    gate: str | None
    judged: str | None

    def text(self) -> str:
        """The record as JSON."""
        return json.dumps(self._asdict(), indent=1) + "\n"

    def maker(self) -> Maker:
        """Who made what the program prints."""
        return Maker("afdxsim", self.version, self.commit, self.program, None, self.kit, True)

    def in_words(self) -> str:
        """What the record says, in a few words."""
        at = f"commit {self.commit[:8]}{'+' if self.commit.endswith('+') else ''}, " if self.commit else ""
        return f"afdxsim {self.version or 'unknown'}, proved, {at}{kit_in_words(self.kit)}"


NO_RECORD = Record(*[None] * len(Record._fields))


def record_of(path: str) -> Record:
    """The record beside a program; NO_RECORD if none can be read."""
    try:
        with open(path + RECORD, encoding="utf-8") as file:
            found = json.load(file)
    except (OSError, ValueError):
        return NO_RECORD
    if not isinstance(found, dict):
        return NO_RECORD
    return Record(*(it if isinstance(it := found.get(name), str) else None for name in Record._fields))


def write_record(kit_line: str | None, sources: str, gate: str | None = None, root: str = ROOT) -> Record:
    """Writes down beside the program of this clone what it was built of. `gate` is the line by which all proofs and tests
    passed, where they did; then `judged` is the checksum of what that line is of."""
    path = os.path.join(root, BUILT)
    judged = sum_of_judged(kit_line, root) if gate else None
    found = Record(version(root), commit(root), kit_line, logic(kit_line), sources, sum_of_file(path), gate, judged)
    with open(path + RECORD, "w", encoding="utf-8") as out:
        out.write(found.text())
    return found


def recorded(path: str) -> Record | None:
    """The record of a program if it is of this very program; else None."""
    record = record_of(path)
    return record if os.path.isfile(path) and record.program == sum_of_file(path) else None


def installed() -> str | None:
    """The program of a package on this machine, by the name that its record goes by."""
    found = shutil.which("afdxsim")
    if not found:
        return None
    return os.path.join(os.path.dirname(os.path.realpath(found)), "..", "lib", "afdxsim", BUILT)


class Program(NamedTuple):
    """How a program came to be: `proved` (of these sources), `given` (named by the user), `tried` (these sources, by `rt try`,
    without a proof) or `second opinion` (afdx second-opinion). `path` is None of the last two. `maker` is how files that it
    makes name it."""

    how: str
    path: str | None
    says: str
    maker: Maker


def proved(root: str = ROOT) -> Program:
    """The proved program of these sources, or why there is none."""
    here = os.path.join(root, BUILT)
    if not is_clone(root):
        record = recorded(here)
        if record:
            return Program("proved", here, record.in_words(), record.maker())
        raise NoProgram(f"{os.path.normpath(here)} is not the program that its record is of: install the package anew")
    kit_line = kit(root)
    sources = None
    for path in filter(None, (here, installed())):
        record = recorded(path)
        if not record:
            continue
        # Without a kit here the record's own is taken: the sources are what counts.
        sources = sum_of_sources(kit_line or record.kit, root)
        if record.sources == sources:
            return Program("proved", path, record.in_words(), record.maker())
    if sources:
        raise NoProgram("the proved program that is here is of other sources, or of another logic of the kit")
    if os.path.isfile(here):
        raise NoProgram(f"{BUILT} is there, and no record says which sources it was built of")
    raise NoProgram("no proved program is here")


def given(path: str) -> Program:
    """A program that the user names."""
    if not os.path.isfile(path):
        raise NoProgram(f"{path} is not there")
    says = first_line([path, "--version"], None)
    if says is None or not says.startswith("afdxsim "):
        raise NoProgram(f"{path} cannot be run, or is no afdxsim")
    maker = maker_of(path)
    record = recorded(path)
    said = record.in_words() if record else f"{says}, at {path}, of which no record is there"
    return Program("given", path, said, maker)


def tried(root: str = ROOT) -> Program:
    """These sources by `rt try`, without a proof."""
    kit_line = kit(root)
    if not is_clone(root) or not kit_line:
        raise NoProgram("`rt`, the kit's command, is not on the PATH")
    number = version(root)
    maker = Maker("afdxsim by `rt try`", number, commit(root), None, sum_of_sources(kit_line, root), kit_line, False)
    return Program("tried", None, f"afdxsim {number}, not proved: these sources by `rt try`, {kit_in_words(kit_line)}", maker)


def second_opinion(root: str = ROOT) -> Program:
    """The plain simulator in Python."""
    says = f"second opinion {version(root)}, not proved: afdx second-opinion"
    return Program("second opinion", None, says, tool("second-opinion"))
