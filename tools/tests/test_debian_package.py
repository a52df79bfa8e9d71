"""Tests of the package: of a commit of what is here, with the built program, or a stand-in for it where there is none. Those of
the class Installed need root and mmdebstrap, which fetches a Debian 12 from a mirror; it takes half a minute."""
import contextlib
import glob
import json
import os
import re
import shutil
import subprocess
import tempfile
import time
import unittest

from afdx.commands import debian_package, help_texts
from afdx.files import program
from tests import test_commands
from tests.places import TOP

KIT = test_commands.KIT
# The least of a Debian 12, with what the package depends on: some 50 MB of packages are fetched. No mirror is waited for long.
BOOTSTRAP = [
    "timeout", "--kill-after=20", "600", "mmdebstrap", "--variant=minbase", "--include=python3",
    '--aptopt=Acquire::http::Timeout "20"', '--aptopt=Acquire::Retries "1"', "bookworm",
]
with open(os.path.join(TOP, "examples", "cockpit.tables.csv")) as opened:
    TABLES = opened.read()
# What a user does one after another, with NET an example: the words of `afdx`, what they print, and a file that they leave.
DONE = (
    ("completion bash", "complete -o filenames -F _afdx afdx", None),
    ("explain NET", "accepted", None),
    ("bounds NET -o bounds.csv", "", "bounds.csv"),
    ("table EXAMPLES/flight_deck.csv", "until_ns", None),
    ("table EXAMPLES/flight_deck.csv -o deck.toml", "", "deck.toml"),
    ("results EXAMPLES/flight_deck.csv deck.toml --tables EXAMPLES/flight_deck.tables.csv -o results.csv", "", "results.csv"),
    ("table --back NET -o net.csv", "", "net.csv"),
    ("seq NET --trace trace.csv", TABLES, "trace.csv"),
    ("seq NET --trace second.csv --by second-opinion", TABLES, "second.csv"),
    ("pcap NET trace.csv -o net.pcapng", "", "net.pcapng"),
    ("judge NET net.pcapng -o judged.csv", "", "judged.csv"),
    ("page NET -o page.html", "", "page.html"),
    ("page NET EXAMPLES/cockpit.tables.csv -o drawn.html --bounds bounds.csv", "", "drawn.html"),
    ("campaign NET --seeds 2 -o campaign", "2 runs merged", "campaign/merged.csv"),
    ("campaign NET --seeds 1 --set vl.101.depth=1,2 -o sweep", "2 runs", "sweep/sweep.html"),
    ("campaign NET --aim 101 -o aim", "", "aim/aim.csv"),
    ("page NET campaign -o merged.html", "", "merged.html"),
    ("outages NET -o outages", "", "outages/outages.html"),
    ("report NET EXAMPLES/cockpit.tables.csv --trace second.csv -o report.html", "", "report.html"),
    ("second-opinion NET --hops hops.csv", TABLES, "hops.csv"),
    ("long-form NET EXAMPLES/cockpit.tables.csv -o tables.json", "", "tables.json"),
    ("large-network --virtual-links 4", "until_ns", None),
    ("make-journal NET", " ", None),
    ("bounded-runs --networks 1", "1 networks", None),
)
# The same of what only the program itself does.
DONE_BY_THE_PROGRAM = (
    ("check NET", "ok: 48 processes, 10 virtual links, ", None),
    ("seq NET --trace trace.csv --progress", TABLES, "trace.csv"),
    ("run NET --workers 2 --turn 4 --journal steps.txt --trace run.csv", TABLES, "steps.txt"),
    ("replay NET steps.txt", TABLES, None),
)


def run(*words, **more):
    return subprocess.run(words, stdin=subprocess.DEVNULL, capture_output=True, text=True, **more)


def is_elf(path):
    if not os.path.isfile(path):
        return False
    with open(path, "rb") as file:
        return file.read(4) == b"\x7fELF"


class Documents(unittest.TestCase):
    def test_the_readme_of_a_package_has_its_commands(self):
        for of_clone, of_package in (
            ("    ./afdx page examples/cockpit.toml -o c.html\n", "    afdx page /usr/share/doc/afdxsim/examples/cockpit.toml -o c.html\n"),
            ("Run `./afdx check FILE`, or `tools/afdx.lua`.", "Run `afdx check FILE`, or `/usr/lib/afdxsim/tools/afdx.lua`."),
            ("See [examples](examples) and [TOOLS](docs/TOOLS.md).", "See [examples](examples) and [TOOLS](docs/TOOLS.md)."),
        ):
            with self.subTest(of_clone=of_clone):
                self.assertEqual(debian_package.for_package(of_clone), of_package)
        with open(os.path.join(TOP, "README.md"), encoding="utf-8") as file:
            self.assertNotIn("./afdx", debian_package.for_package(file.read()))


class Package(unittest.TestCase):
    """A clone with few crates and all that a package has, the package of its commit, and the files of that: made once for all classes."""

    folder = once = files = None

    @classmethod
    def setUpClass(cls):
        if not shutil.which("dpkg-deb"):
            raise unittest.SkipTest("a package is made by dpkg-deb, which is not here")
        if Package.folder is None:
            Package.make_clone()

    @classmethod
    def make_clone(cls):
        stack = contextlib.ExitStack()
        unittest.addModuleCleanup(stack.close)
        cls.folder = stack.enter_context(tempfile.TemporaryDirectory())
        os.chmod(cls.folder, 0o755)
        cls.clone = os.path.join(cls.folder, "clone")
        for name in ("tools", "docs", "examples"):
            shutil.copytree(os.path.join(TOP, name), os.path.join(cls.clone, name), ignore=shutil.ignore_patterns("__pycache__"))
        for name in ("afdx", "README.md", "CHANGELOG.md", "crates.txt", "HANDLES"):
            shutil.copy(os.path.join(TOP, name), cls.clone)
        cls.write("clone/crates/command_line/src/program.rt", f'const VERSION: &str = "{program.version(TOP)}";\n')
        cls.write("clone/.gitignore", "out/\ndist/\n__pycache__/\n")
        cls.git("init", "-q")
        cls.commit()
        # Each command of the clone would compile its tools again.
        cls.compiled(os.path.join(cls.clone, "tools"))
        # The program: the built one, where there is one.
        cls.is_real = is_elf(os.path.join(TOP, program.BUILT))
        cls.built = os.path.join(cls.clone, program.BUILT)
        os.makedirs(os.path.dirname(cls.built))
        if cls.is_real:
            shutil.copy(os.path.join(TOP, program.BUILT), cls.built)
        else:
            cls.write(
                "clone/" + program.BUILT,
                "#!/usr/bin/python3\nimport subprocess, sys\nwords = sys.argv[1:]\nif words == ['--version']:\n"
                f"    print('afdxsim {program.version(TOP)}')\nelif words[0] == 'seq' and '--help' not in words:\n"
                "    sys.exit(subprocess.run(['/usr/bin/python3', '/usr/lib/afdxsim/afdx', 'second-opinion', *words[1:]]).returncode)\n"
                "else:\n    print('usage of', *words)\n",
                0o755,
            )
        cls.write("bin/rt", f"#!/bin/sh\necho {KIT}\n", 0o755)
        cls.record("7 passed, 0 failed")

    @staticmethod
    def compiled(folder):
        subprocess.run([debian_package.PYTHON, "-m", "compileall", "-q", folder], check=True)

    @classmethod
    def write(cls, name, text, mode=0o644):
        path = os.path.join(cls.folder, name)
        os.makedirs(os.path.dirname(path), exist_ok=True)
        with open(path, "w") as out:
            out.write(text)
        os.chmod(path, mode)

    @classmethod
    def git(cls, *words):
        return subprocess.run(
            ["git", "-c", "user.name=A Name", "-c", "user.email=a@b.c", *words], cwd=cls.clone, check=True,
            capture_output=True, text=True,
        ).stdout

    @classmethod
    def commit(cls):
        cls.git("add", "-A")
        cls.git("commit", "-qm", "x", "--date", "2026-01-02T03:04:05Z")

    @classmethod
    def record(cls, gate):
        program.write_record(KIT, program.sum_of_sources(KIT, cls.clone), gate, cls.clone)

    def env(self, **more):
        return os.environ | {"PATH": f"{self.folder}/bin:/usr/sbin:/usr/bin:/sbin:/bin"} | more

    def packed(self, name, **more):
        """The package, made anew."""
        ended = run(debian_package.PYTHON, "afdx", "package", "-o", os.path.join(self.folder, name), cwd=self.clone, env=self.env(**more))
        self.assertEqual(ended.returncode, 0, ended.stdout + ended.stderr)
        path = ended.stdout.split(":")[0]
        self.assertEqual(ended.stdout, f"{path}: sha256 {program.sum_of_file(path)}\n")
        return path

    def made(self):
        """The package, made once."""
        if self.once is None:
            Package.once = self.packed("once")
        return self.once

    def unpacked(self):
        """A folder with the files of the package alone, compiled as installing does it."""
        if self.files is None:
            files = os.path.join(self.folder, "files")
            self.assertEqual(run("dpkg-deb", "-x", self.made(), files).returncode, 0)
            self.compiled(os.path.join(files, "usr/lib/afdxsim"))
            Package.files = files
        return self.files


class Packages(Package):
    """What it has, and of what it is made."""

    def test_what_it_has(self):
        path = self.made()
        self.assertEqual(os.path.basename(path), f"afdxsim_{program.version(TOP)}_amd64.deb")
        lines = run("dpkg-deb", "--contents", path).stdout.splitlines()
        names = {line.split()[5].removeprefix("./"): line for line in lines}
        for name, mode in (
            ("usr/bin/afdxsim", "-rwxr-xr-x"), ("usr/bin/afdx", "lrwxrwxrwx"), ("usr/lib/afdxsim/afdx", "-rwxr-xr-x"),
            ("usr/lib/afdxsim/tools/afdx/commands/one_command.py", "-rw-r--r--"), ("usr/lib/afdxsim/tools/afdx/page/report.js", "-rw-r--r--"),
            ("usr/share/man/man1/afdx.1.gz", "-rw-r--r--"), ("usr/share/man/man1/afdxsim.1.gz", "-rw-r--r--"),
            ("usr/share/bash-completion/completions/afdx", "-rw-r--r--"), ("usr/share/doc/afdxsim/README.md", "-rw-r--r--"),
            ("usr/share/doc/afdxsim/CHANGELOG.md", "-rw-r--r--"), ("usr/share/doc/afdxsim/docs/FORMATS.md", "-rw-r--r--"),
            ("usr/share/doc/afdxsim/examples/cockpit.toml", "-rw-r--r--"), ("usr/share/doc/afdxsim/proof.json", "-rw-r--r--"),
        ):
            self.assertIn(name, names)
            self.assertTrue(names[name].startswith(mode + " root/root"), names[name])
        self.assertFalse([name for name in names if "test_" in name or "/gate/" in name or "__pycache__" in name])
        fields = run("dpkg-deb", "--field", path).stdout
        for line in (f"Version: {program.version(TOP)}", "Architecture: amd64", "Maintainer: A Name <a@b.c>"):
            self.assertIn(line + "\n", fields)
        self.assertRegex(fields, r"Depends: python3 \(>= 3.11\), libc6 \(>= 2\.\d+\)\n")

    def test_its_record_is_that_of_the_proof(self):
        folder = self.unpacked()
        with open(os.path.join(folder, "usr/share/doc/afdxsim/proof.json")) as file:
            record = json.load(file)
        self.assertEqual(record, {
            "version": program.version(TOP), "commit": self.git("rev-parse", "HEAD").strip(), "kit": KIT,
            "logic": KIT.split(" ")[-1], "gate": "7 passed, 0 failed", "sources": program.sum_of_sources(KIT, self.clone),
            "program": program.sum_of_file(self.built), "judged": program.sum_of_judged(KIT, self.clone),
        })

    def test_the_same_bytes_from_the_same_commit(self):
        one = self.made()
        for name in ("tools/afdx/commands/one_command.py", program.BUILT, "afdx"):
            os.utime(os.path.join(self.clone, name), (time.time(), time.time()))
        before = os.umask(0o077)
        try:
            other = self.packed("deep/er/other", COLUMNS="200", LC_ALL="C", TZ="Asia/Tokyo", PYTHONHASHSEED="7")
        finally:
            os.umask(before)
        self.assertEqual(program.sum_of_file(one), program.sum_of_file(other))

    def test_it_is_made_of_a_commit_and_of_a_proof(self):
        def refused(message):
            ended = run(debian_package.PYTHON, "afdx", "package", cwd=self.clone, env=self.env())
            self.assertEqual((ended.returncode, ended.stdout, ended.stderr), (2, "", f"afdx: {message}\n"))

        self.write("clone/docs/new.md", "")
        refused("a package is made of a commit, and files here differ from it: docs/new.md")
        os.unlink(os.path.join(self.clone, "docs/new.md"))
        self.record(None)
        refused("the record of the program has no line of `rt ci`: ./test proves all, and writes it down")
        self.record("7 passed, 0 failed")
        # An edit is no source of the program, but the line is of it too.
        self.write("clone/crates/low/must-fail/it.edit", "")
        self.commit()
        refused("the line of `rt ci` in the record is of other edits or data of tests than this commit has: ./test tries them")
        self.git("reset", "-q", "--hard", "HEAD~1")
        self.write("clone/" + program.BUILT + program.RECORD, "{}")
        refused(f"{program.BUILT} is there, and no record says which sources it was built of")
        self.record("7 passed, 0 failed")

    def test_its_manual_pages_have_no_fault(self):
        if not shutil.which("man"):
            self.skipTest("there is no man: apt-get install -y man-db")
        folder = self.unpacked()
        for name in ("afdx", "afdxsim"):
            shown = run("man", "-l", "--warnings", os.path.join(folder, f"usr/share/man/man1/{name}.1.gz"), env=self.env(MANWIDTH="120"))
            self.assertIn("NAME", shown.stdout)
            self.assertEqual((shown.returncode, shown.stderr), (0, ""))


class Used:
    """All that a user does with the package goes well. `run_there` runs a command where its files are, which are in the folder
    `root` as it is seen from here, and has `work` there as the folder for what is written."""

    def run_there(self, *words):
        raise NotImplementedError

    def does(self, rows):
        """Calls `afdx` with the words of each row, and sees that it goes well."""
        for words, prints, leaves in rows:
            given = [word.replace("EXAMPLES", self.examples).replace("NET", f"{self.examples}/cockpit.toml") for word in words.split()]
            with self.subTest(words):
                found = self.run_there("afdx", *given)
                self.assertEqual(found.returncode, 0, found.stderr)
                (self.assertEqual if prints == TABLES else self.assertIn)(prints, found.stdout)
                self.assertTrue(leaves is None or os.path.getsize(self.path(leaves)) > 0)

    def path(self, name):
        return os.path.join(self.work, name)

    def same(self, name, other):
        with open(self.path(name)) as one, open(self.path(other)) as two:
            self.assertEqual(one.read(), two.read())

    def test_it_names_what_it_was_proved_of(self):
        found = self.run_there("afdx", "--version")
        self.assertEqual(found.returncode, 0, found.stderr)
        version = found.stdout.splitlines()
        self.assertEqual(version[0], f"afdxsim {program.version(TOP)}")
        self.assertRegex(version[1], "^program: .*, proved, commit [0-9a-f]{8}, " + re.escape(test_commands.KIT_IN_WORDS))
        found = self.run_there("afdx", "seq", f"{self.examples}/cockpit.toml")
        self.assertEqual(found.stdout, TABLES)
        self.assertRegex(found.stderr, r"^afdx: afdxsim [0-9.]+, proved, commit [0-9a-f]{8}, " + re.escape(test_commands.KIT_IN_WORDS) + "\n$")

    def test_all_that_a_user_does_goes_well(self):
        self.does(DONE)
        self.same("trace.csv", "second.csv")
        # A benchmark takes minutes.
        done = {words.split()[0] for words, _, _ in DONE + DONE_BY_THE_PROGRAM}
        self.assertEqual(done | {"benchmark"}, set(help_texts.commands(is_clone=False)))

    def test_so_does_what_only_the_program_does(self):
        if not self.is_real:
            self.skipTest(f"there is no built program at {program.BUILT}: ./afdx build, or ./test")
        self.does(DONE_BY_THE_PROGRAM)
        self.same("trace.csv", "run.csv")
        found = self.run_there("afdx", "replay", f"{self.examples}/cockpit.toml", "steps.txt")
        self.assertRegex(found.stderr, r"\nreplay: \d+ did, \d+ not enabled, 0 refused, gvt \d+, finished\n$")

    def test_each_command_and_each_tool_lists_its_words(self):
        calls = [("afdx", "--help"), ("afdxsim", "--help")]
        # Of an unpacked package nothing is at its place.
        calls += [("/usr/bin/python3", "-m", "afdx", "--help")] if type(self) is Installed else []
        calls += (("afdx", name, "--help") for name in help_texts.commands(is_clone=False))
        for call in calls:
            found = self.run_there(*call)
            self.assertEqual((found.returncode, found.stderr), (0, ""), call)
            self.assertIn("usage", found.stdout.lower(), call)

    def test_what_needs_a_clone_or_the_kit_says_so(self):
        for words, message in (
            (["build"], "afdx: there is no command 'build': afdx --help lists all\n"),
            (["package"], "afdx: there is no command 'package': afdx --help lists all\n"),
            (["seq", f"{self.examples}/n1.toml", "--by", "try"], "afdx: `rt`, the kit's command, is not on the PATH\n"),
        ):
            found = self.run_there("afdx", *words)
            self.assertEqual((found.returncode, found.stderr), (2, message))
        said = self.run_there("afdx", "--help").stdout
        self.assertFalse([word for word in ("rt try", "afdx build", "./test") if word in said])


class Unpacked(Used, Package):
    """Its files alone are enough, wherever they lie."""

    def setUp(self):
        if not self.is_real:
            # It knows its tools by the path at which they will be.
            self.skipTest(f"there is no built program at {program.BUILT}, and the stand-in for it wants a whole root folder")
        self.root, self.work = self.unpacked(), self.enterContext(tempfile.TemporaryDirectory())
        self.examples, self.lib = (os.path.join(self.root, "usr", name) for name in ("share/doc/afdxsim/examples", "lib/afdxsim"))

    def run_there(self, name, *words):
        env = {"PATH": f"{self.root}/usr/bin:/usr/bin:/bin", "HOME": "/nonexistent"}
        return run(os.path.join(self.root, "usr/bin", name), *words, env=env, cwd=self.work)


class Installed(Used, Package):
    """It installs on a Debian 12 that has nothing else, neither the kit nor git, and can be removed."""

    examples, lib = "/usr/share/doc/afdxsim/examples", "/usr/lib/afdxsim"
    root = why = None

    def setUp(self):
        if os.geteuid() != 0 or not shutil.which("mmdebstrap"):
            self.skipTest("a fresh Debian is made by mmdebstrap, as root: apt-get install -y mmdebstrap")
        if self.root is None:
            type(self).root, type(self).why = self.debian()
        if self.why:
            self.skipTest(self.why)
        folder = tempfile.mkdtemp(dir=os.path.join(self.root, "tmp"))
        self.addCleanup(shutil.rmtree, folder)
        self.work, self.inside = folder, os.path.join("/", os.path.relpath(folder, self.root))
        if not os.path.exists(os.path.join(self.root, "usr/bin/afdx")):
            shutil.copy(self.made(), os.path.join(self.root, "afdxsim.deb"))
            found = self.run_there("dpkg", "--install", "/afdxsim.deb")
            self.assertEqual(found.returncode, 0, found.stdout[-1000:] + found.stderr[-1000:])

    def debian(self):
        """A root folder with a Debian, and why there is none."""
        root = os.path.join(self.folder, "root")
        made = run(*BOOTSTRAP, root, env=self.env())
        if made.returncode != 0:
            return root, f"mmdebstrap cannot make a Debian here (does it reach a mirror?): {made.stderr.strip()[-200:]}"
        for name, number in (("dev/null", (1, 3)), ("dev/urandom", (1, 9))):
            if not os.path.exists(os.path.join(root, name)):
                try:
                    os.mknod(os.path.join(root, name), 0o20666, os.makedev(*number))
                except OSError as fault:
                    return root, f"a root folder gets no devices here: {fault.strerror}"
        tried = run("chroot", root, "/usr/bin/python3", "-c", "")
        return root, None if tried.returncode == 0 else f"nothing runs in a root folder here: {tried.stderr.strip()[-200:]}"

    def run_there(self, *words):
        env = {"PATH": "/usr/sbin:/usr/bin:/sbin:/bin", "HOME": "/root", "DEBIAN_FRONTEND": "noninteractive"}
        return run("chroot", self.root, "env", "-C", self.inside, *words, env=env)

    def test_it_is_there_as_it_was_packed_and_can_be_removed(self):
        self.assertEqual(self.run_there("dpkg", "--verify", "afdxsim").stdout, "")
        self.assertTrue(glob.glob(os.path.join(self.root, "usr/lib/afdxsim/tools/afdx/commands/__pycache__/one_command.*")))
        self.does([row for row in DONE if row[2] == "page.html"])
        code = f"import afdx; print(afdx.read('{self.examples}/cockpit.toml').check(by='second-opinion')[:3])"
        found = self.run_there("/usr/bin/python3", "-c", code)
        self.assertEqual((found.stdout, found.stderr), ("(48, 10, 769)\n", ""))
        found = self.run_there("dpkg", "--remove", "afdxsim")
        self.assertEqual((found.returncode, found.stderr), (0, ""))
        for name in ("bin/afdx", "bin/afdxsim", "lib/afdxsim", "share/doc/afdxsim", "share/man/man1/afdx.1.gz"):
            self.assertFalse(os.path.lexists(os.path.join(self.root, "usr", name)), name)


if __name__ == "__main__":
    unittest.main()
