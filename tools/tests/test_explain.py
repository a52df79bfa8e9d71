"""Tests of afdx explain and of toml_lines.py. Those of the class WithTheProgram need the built program, at
crates/afdxsim/out/afdxsim, where `rt ci` leaves it. Called by itself with a number,

    python3 -m tests.test_explain 2000

it compares afdx explain with the program on that many mutated texts, and prints how many there were of each answer."""
import atexit
import collections
import contextlib
import glob
import io
import json
import os
import random
import re
import shutil
import subprocess
import sys
import tempfile
import tomllib
import unittest

from afdx import model
from afdx.commands import explain
from afdx.files import toml_lines
from afdx.model import description_faults
from tests import drawn
from tests.row_files import changed, rows
from tests.places import EXAMPLES, TOOLS, tool_words



def read(path):
    with open(path, encoding="utf-8") as file:
        return file.read()


def examples():
    return {os.path.basename(path)[:-5]: read(path) for path in sorted(glob.glob(os.path.join(EXAMPLES, "*.toml")))}


def answered_by_explain(text):
    finding = description_faults.first_fault("net.toml", text)
    return "ok" if finding is None else description_faults.answer(finding)


class Program:
    """The built program, which judges texts."""

    def __init__(self):
        if not os.path.isfile(model.PROGRAM):
            raise AssertionError(f"there is no program at {model.PROGRAM}: `rt ci` at the top builds it")
        folder = tempfile.mkdtemp()
        atexit.register(shutil.rmtree, folder)
        self.path = os.path.join(folder, "net.toml")

    def answers(self, text):
        with open(self.path, "wb") as out:
            out.write(text if type(text) is bytes else text.encode("utf-8"))
        run = subprocess.run([model.PROGRAM, "check", self.path], capture_output=True, text=True)
        if run.returncode == 0:
            return "ok"
        return run.stderr.strip().removeprefix("afdxsim: description: ")


# ---- texts of all sorts ----

OTHER_TYPES = ['"x"', "1", "1.0", "true", "1979-05-27", "[]", "{}", '[["a"]]', "-1"]


def lines_of_keys(text):
    """The lines of a description that have a key alone, each with the key; of lines that are alike the first three."""
    seen = collections.Counter()
    for i, line in enumerate(text.split("\n")):
        found = re.match(r"(\w+) = ", line)
        seen[line] += 1
        if found and line.count("[") == line.count("]") and seen[line] < 4:
            yield i, found[1]


def limits_of(key):
    """Values at the limits of a key, just below and just above."""
    if key.choices:
        numbers = [value + d for value in key.choices for d in (-1, 0, 1)] if type(key.choices[0]) is int else []
        return list(map(str, numbers)) or ['""', f'"{key.choices[0].upper()}"', f'"{key.choices[1]}"']
    if key.value_type == "integer":
        return [str(value + d) for value in (key.least, key.greatest) for d in (-1, 0, 1)]
    if key.value_type == "paths":
        return ["[[" + ", ".join(['"ES1"'] * count) + "]]" for count in (0, 1, 2, 3, 32, 33)]
    return ['""', '"' + "a" * 32 + '"', '"' + "a" * 33 + '"', '"a b"', '"ä"']


def changes_of_each_key(text):
    """A text with each key that has a line of its own removed, doubled, of another type, and around its limits."""
    keys = {key.name: key for section in ("top", *model.SECTIONS) for key in model.KEYS[section]}
    lines = text.split("\n")
    put = lambda i, *new: "\n".join(lines[:i] + list(new) + lines[i + 1 :])
    for i, name in lines_of_keys(text):
        yield put(i)
        yield put(i, lines[i], lines[i])
        if name not in keys:
            continue
        for value in OTHER_TYPES + limits_of(keys[name]):
            yield put(i, f"{name} = {value}")


PIECES = ['"', "'", "=", "[", "]", "[[", "]]", "{", "}", ",", ".", "#", "\n", "\r", "\t", " ", "\\", "_", "-", "+", "0", "1e5", "é", "\x7f", '"""', "0x1F", "true", "07:32", "1979-05-27", "inf", "nan", "\\u00e9", "ES1", "SW1", "a", "b"]


def mutated(text, draw):
    """A text with one to three mistakes: of a character, a piece, a line, a word, a number, a name or a row."""
    for _ in range(draw.choice([1, 1, 1, 2, 3])):
        place, lines = draw.randrange(len(text) + 1), text.split("\n")
        here, there = draw.randrange(len(lines)), draw.randrange(len(lines))
        case = draw.choice([0, 1, 2, 3, 4, 5, 6, 6, 7, 7, 7, 8, 9, 9, 9, 9, 10, 10])
        if case == 0:
            text = text[:place] + text[place + 1 :]
        elif case == 1:
            text = text[:place] + draw.choice(PIECES) + text[place:]
        elif case == 2:
            text = text[:place] + draw.choice(PIECES) + text[place + 1 :]
        elif case == 3:
            text = "\n".join(lines[:here] + lines[here + 1 :])
        elif case == 4:
            text = "\n".join(lines[:here] + [lines[there]] + lines[here:])
        elif case == 5:
            lines[here], lines[there] = lines[there], lines[here]
            text = "\n".join(lines)
        elif case == 6:
            words = list(re.finditer(r'[\w-]+|"[^"\n]*"', text))
            if len(words) > 1:
                old, new = draw.choice(words), draw.choice(words)
                text = text[: old.start()] + new[0] + text[old.end() :]
        elif case == 7:
            numbers = list(re.finditer(r"\d[\d_]*", text))
            if numbers:
                old = draw.choice(numbers)
                new = draw.choice(["0", "-1", "1", "10", str(10**15), str(10**15 + 1), str(2**63), "64", "1518", "1519"])
                text = text[: old.start()] + new + text[old.end() :]
        elif case == 8:
            text = text[:place]
        elif case == 9:
            names = list(re.finditer(r'"[\w-]+"', text))
            if names:
                old, new = draw.choice(names), draw.choice(names)
                text = text[: old.start()] + new[0] + text[old.end() :]
        else:
            blocks = re.split(r"(?m)^(?=\[\[)", text)
            blocks.insert(draw.randrange(1, len(blocks) + 1), draw.choice(blocks[1:] or [""]))
            text = "".join(blocks)
    return text


def hold_mutated(count, seed):
    """Holds afdx explain against the program on mutated examples, and answers how often each number was printed, and what
    was answered in two ways."""
    program, draw, printed, differ = Program(), random.Random(seed), collections.Counter(), []
    texts = list(examples().values())
    for _ in range(count):
        text = mutated(draw.choice(texts), draw)
        by_program, by_explain = program.answers(text), answered_by_explain(text)
        printed[by_program.split(" at ")[0]] += 1
        if by_program != by_explain:
            differ.append((by_program, by_explain, text))
    return printed, differ


class WithTheProgram(unittest.TestCase):
    def test_each_key_removed_doubled_of_another_type_and_around_its_limits(self):
        """On the smallest example all of them, on the others a drawn part; by hand all of them (`each`)."""
        program, draw = Program(), random.Random(1)
        for name, text in examples().items():
            texts = list(changes_of_each_key(text))
            for one in texts if name == "n1" else draw.sample(texts, 15):
                self.assertEqual(answered_by_explain(one), program.answers(one), one)

    @drawn.given(150)
    def test_mutated_texts(self, draw):
        text = mutated(draw.choice(list(examples().values())), draw)
        self.assertEqual(answered_by_explain(text), Program().answers(text), text)


class Rows(unittest.TestCase):
    def test_each_row_of_the_programs_tests(self):
        """The first fault is that of the row, by number and place."""
        for row in rows("descriptions") + rows("stream_descriptions"):
            text, printed = changed(row)
            with self.subTest(row):
                self.assertEqual(answered_by_explain(text), "ok" if printed.startswith("ok") else printed)
        self.assertGreater(len(rows("descriptions")), 200)


class Reader(unittest.TestCase):
    """toml_lines.py. Which texts it refuses is held against the program; what they say, against Python's reader, which
    reads TOML 1.0."""

    @drawn.given(400)
    def test_what_texts_say(self, draw):
        text = mutated(draw.choice(list(examples().values())), draw)
        try:
            wanted = tomllib.loads(text)
        except (tomllib.TOMLDecodeError, ValueError):
            return
        try:
            self.assertEqual(repr_of(toml_lines.read(text)), repr_of(wanted), text)
        except toml_lines.BadToml as fault:
            self.assertRegex(str(fault), "64 signed bits|greater than any number", text)

    def test_toml_1_1(self):
        """What TOML 1.1 has and TOML 1.0 has not."""
        text = 'a = { b = 1,\n  # a comment\n  c = "\\e\\x41",\n}\nd = 07:32\n'
        self.assertEqual(toml_lines.read(text), {"a": {"b": 1, "c": "\x1bA"}, "d": "07:32"})
        with self.assertRaises(tomllib.TOMLDecodeError):
            tomllib.loads(text)

    def test_lines(self):
        text = """# a
until_ns = 5
node = [
  { name = "A",
    kind = "es" }, { name = "B" },
  # and
  { name = "C" },
]

[[vl]]
a = [["X",
      "Y"],

     ["Z"]]
t = \"\"\"
two
lines\"\"\"
b = 1
[ [ vl ] ]
""".replace("[ [ vl ] ]", "[[ vl ]]")
        tree = toml_lines.read(text)
        self.assertEqual(tree.lines, {"until_ns": 2, "node": 3, "vl": 10})
        self.assertEqual(tree["node"].lines, [4, 5, 7])
        self.assertEqual(tree["node"][0].lines, {"name": 4, "kind": 5})
        self.assertEqual(tree["vl"].lines, [10, 19])
        self.assertEqual(tree["vl"][0].lines, {"a": 11, "t": 15, "b": 18})
        self.assertEqual(tree["vl"][0]["a"].lines, [11, 14])

    def test_what_is_no_toml_is_reported_with_its_line(self):
        for text, line, said in (
            ("a = 1\nb =\n", 2, "there is the end of the line where a value is wanted"),
            ("a = 1\nb = ES1\n", 2, 'ES1 is a text without quotes; it is written "ES1"'),
            ('a = "x\nb = 1\n', 1, "the text that begins here has no \" at its end: '\"x'"),
            ("a = 2 000\n", 1, "2 000 is no number: digits are set apart by _, as in 2_000"),
            ("a = 007\n", 1, "007 is no number: it has a zero in front"),
            ("a = 1__0\n", 1, "1__0 has a _ that does not stand between two digits"),
            ("a = 9223372036854775808\n", 1, "9223372036854775808 does not fit 64 signed bits: it must be from -2^63 to 2^63 - 1"),
            ("\na = [1,\n 2\n", 2, "the list that begins here has no end"),
            ("a = [1\n 2]\n", 2, "there is '2]' where a comma or ] is wanted, in the list that begins in line 1"),
            ("a = 1\na = 2\n", 2, "the key 'a' is there already, in line 1"),
            ("[a]\n[a]\n", 2, "[a] is there already, in line 1"),
            ("[[a]\n", 1, "the header does not end with ]], but there is ']'"),
            ("a = 1 b = 2\n", 1, "there is 'b = 2' after a value, in the same line"),
            ("a 1\n", 1, "there is '1' after the key 'a', and not ="),
            ('a = "\\d"\n', 1, "\\d is no escape in a text; a backslash is written \\\\"),
            ("a = 1979-13-01\n", 1, "1979-13-01 is no number and no date or time"),
            ("a = 1\r", 1, "there is '\\r' where a key is wanted"),
        ):
            with self.subTest(text):
                with self.assertRaises(toml_lines.BadToml) as printed:
                    toml_lines.read(text)
                self.assertEqual((printed.exception.line, str(printed.exception)), (line, said))


def repr_of(value):
    """A value as a text that shows its type, with dates and times as one type."""
    if isinstance(value, dict):
        return {key: repr_of(one) for key, one in value.items()}
    if isinstance(value, list):
        return [repr_of(one) for one in value]
    if type(value) in (bool, int, float):
        return repr(value)
    return "text " + value if type(value) is str else "moment"


BAD = """until_ns = 10_000_000
seed = 1
node = [
  { name = "ADC", kind = "es",     port_bytes = 16_384 },
  { name = "DU",  kind = "es",     port_bytes = 16_384 },
  { name = "SWA", kind = "switch", port_bytes = 65_536, net = "A", latency_ns = 16_000 },
]
link = [
  { a = "ADC", b = "SWA", mbit = 100, propagation_ns = 100 },
  { a = "SWA", b = "DU",  mbit = 100, propagation_ns = 100 },
]
[[vl]]
id = 120
bag_ms = 8
smax = 128
priority = "high"
policing_jitter_ns = 500_000
skew_max_ns = 1_000_000
depth = 4
size = 128
offset_ns = 0
period_ns = 8_000_000
jitter_ns = 0
a = [["ADC", "SWA", "DU"]]
b = []
"""


class Explained(unittest.TestCase):
    def printed(self, *changes, text=BAD):
        """What is printed of a text with changes, each of a piece for another: the lines without the name of the file."""
        for old, new in changes:
            self.assertIn(old, text)
            text = text.replace(old, new, 1)
        with tempfile.TemporaryDirectory() as folder:
            path = os.path.join(folder, "net.toml")
            with open(path, "wb") as out:
                out.write(text if type(text) is bytes else text.encode("utf-8"))
            out = io.StringIO()
            with contextlib.redirect_stdout(out):
                status = explain.main([path])
            lines = out.getvalue().splitlines()
        self.assertTrue(all(line.startswith(path + ":") for line in lines), lines)
        return status, [line.removeprefix(path + ":").strip() for line in lines]

    def test_each_mistake_with_its_line_and_what_is_allowed(self):
        vl = "virtual link 120 (vl row 1)"
        for old, new, number, wanted in (
            ('name = "ADC"', 'name = "ADC', 1, """4: no TOML: there is 'es",     port_bytes = 16..' where a comma or } is wanted, in the table that begins in line 4"""),
            ("bag_ms = 8\n", "", 2, f"12: {vl}, bag_ms is missing: 1, 2, 4, 8, 16, 32, 64 or 128"),
            ("seed = 1\n", "", 2, "1: seed is missing: a whole number from 0 to 2^63 - 1"),
            ("bag_ms = 8", "bag = 8", 2, f"12: {vl}, bag_ms is missing: 1, 2, 4, 8, 16, 32, 64 or 128. Is bag meant, in line 14?"),
            ("smax = 128", 'smax = "128"', 3, f'15: {vl}, smax is a text, "128", and must be a whole number from 64 to 1518, without quotes'),
            ("smax = 128", "smax = 128.0", 3, f"15: {vl}, smax is a number with a point, 128.0, and must be a whole number from 64 to 1518, without a point"),
            ('"high"', "1", 3, f'16: {vl}, priority is a whole number, 1, and must be "high" or "low", in quotes'),
            ('[["ADC", "SWA", "DU"]]', '["ADC", "SWA", "DU"]', 3, f'24: {vl}, a is a list, ["ADC", "SWA", "DU"], and must be a list of paths, each a list of 3 to 32 names, as [["ES1", "SW1", "ES2"]]; or []: a pair of brackets more'),
            ("[[vl]]", "[vl]", 3, "12: vl: this section is a table, and must be a list of tables: it is written [[vl]], with two brackets"),
            ("bag_ms = 8", "bag_ms = 10", 4, f"14: {vl}, bag_ms is 10, and must be 1, 2, 4, 8, 16, 32, 64 or 128. The next below 10 is 8"),
            ("mbit = 100", "mbit = 10_000", 4, "9: link ADC-SWA (link row 1), mbit is 10000, and must be 10, 100 or 1000"),
            ('"high"', '"High"', 4, f'16: {vl}, priority is "High", and must be "high" or "low"; high?'),
            ('name = "DU"', 'name = "D U"', 4, """5: end system D U (node row 2), name is "D U", and must be a text of 1 to 32 letters, digits, _ and -: it has ' '"""),
            ("depth = 4", "depth = 4\nsub = 5", 4, f"20: {vl}, sub is 5, and must be a whole number from 1 to 4"),
            ("10_000_000", "1_000_000_000_000_001", 4, "1: until_ns is 1000000000000001, and must be a whole number from 1 to 10^15"),
            ('[["ADC", "SWA", "DU"]]', '[["ADC", "SWA", "DU"],\n["ADC", "DU"]]', 4, f"25: {vl}, a, path 2: it has 2 names, and must have 3 to 32: the source, each switch on the way, and the destination"),
            ("depth = 4", "depth = 4\ndeep = 1", 5, f"20: {vl}, deep is no key of a virtual link"),
            ('kind = "es",', 'kind = "es", net = "A",', 5, "4: end system ADC (node row 1), net is a key of switches: an end system has none"),
            ("seed = 1", "seed = 1\nuntil = 5", 5, "3: the description: until is no key of a description; until_ns?"),
            ('["ADC", "SWA", "DU"]', '["ADC", "SW_A", "DU"]', 5, f"24: {vl}, a, path 1: SW_A is no node; SWA?"),
            ('[[vl]]', '[[node]]\nname = "ADC"\nkind = "es"\nport_bytes = 1518\n[[vl]]', 1, "12: no TOML: [[node]] adds to what line 3 makes no list of tables"),
            ("]\nlink", '  { name = "ADC", kind = "es", port_bytes = 1518 },\n]\nlink', 6, "7: end system ADC (node row 4), name: the name ADC is there already, in line 4"),
            ('b = "DU"', 'b = "ADC"', 6, "10: link SWA-ADC (link row 2), b: there is a link of SWA and ADC already, in line 9"),
            ('a = "SWA", b = "DU"', 'a = "ADC", b = "DU"', 7, "10: link ADC-DU (link row 2), b: it joins two end systems, ADC and DU: end systems are linked to switches alone"),
            ('["ADC", "SWA", "DU"]', '["ADC", "SWA", "SWA", "DU"]', 7, f"24: {vl}, a, path 1: there is no link from SWA to SWA; SWA is linked with ADC, DU"),
        ):
            with self.subTest(wanted):
                status, lines = self.printed((old, new))
                self.assertEqual(status, 1)
                first, _, answer = lines[0].partition(" [afdxsim: description: ")
                self.assertEqual((first, int(answer.split()[0])), (wanted, number))

    def test_what_rows_say_of_each_other(self):
        vl = "virtual link 120 (vl row 1)"
        switch = '  { name = "SWB", kind = "switch", port_bytes = 1518, net = "B", latency_ns = 1 },\n]\nlink'
        more = lambda *rows: ("]\n[[vl]]", "".join(f"  {{ {row}, mbit = 100, propagation_ns = 1 }},\n" for row in rows) + "]\n[[vl]]")
        outage = lambda ends, times="from_ns = 1, to_ns = 2": ("[[vl]]", f"outage = [{{ {ends}, {times} }}]\n[[vl]]")
        for changes, number, place, wanted in (
            ([("]\nlink", "  7,\n]\nlink")], 3, "node 4", "7: node row 4: the row is a whole number, 7, and must be a table"),
            ([("[[vl]]", "outage = 7\n[[vl]]")], 3, "outage 0", "12: outage: this section is a whole number, and must be a list of tables: each row is written [[outage]]"),
            ([outage('from = "ADC", to = "SWA"', "from_ns = 5, to_ns = 5")], 4, "outage 1 to_ns", "12: outage ADC>SWA (outage row 1), to_ns is 5, and must be later than from_ns, which is 5"),
            ([('["ADC", "SWA", "DU"]', "[" + '"ADC", ' * 32 + '"DU"]')], 4, "vl 1 a", f"24: {vl}, a, path 1: it has 33 names, and must have 3 to 32: the source, each switch on the way, and the destination"),
            ([('a = "ADC"', 'a = "ADD"')], 5, "link 1 a", "9: link ADD-SWA (link row 1), a: ADD is no node; ADC?"),
            ([outage('from = "ADC", to = "SWB"')], 5, "outage 1 to", "12: outage ADC>SWB (outage row 1), to: SWB is no node; SWA?"),
            ([("b = []", "b = []\n[[vl]]\n" + BAD.partition("[[vl]]")[2].strip())], 6, "vl 2 id", "27: virtual link 120 (vl row 2), id: the number 120 is there already, in line 13"),
            ([more('a = "SWA", b = "SWA"')], 7, "link 3 b", "11: link SWA-SWA (link row 3), b: a link joins two nodes, and this one joins SWA to itself"),
            ([("]\nlink", switch), more('a = "SWA", b = "SWB"')], 7, "link 3 b", "12: link SWA-SWB (link row 3), b: it joins two switches of different networks: SWA is on A, SWB on B"),
            ([("]\nlink", switch.replace('"B"', '"A"')), more('a = "SWB", b = "ADC"')], 7, "link 3 b", "12: link SWB-ADC (link row 3), b: it is the second link of the end system ADC on network A; the first is in line 10"),
            ([outage('from = "ADC", to = "DU"')], 7, "outage 1 to", "12: outage ADC>DU (outage row 1), to: there is no link from ADC to DU; ADC is linked with SWA"),
            ([('[["ADC", "SWA", "DU"]]', "[]")], 8, "vl 1 a", f"24: {vl}, a: there is no path on A and none on B: it needs one for each destination"),
            ([("]\nlink", switch), more('a = "ADC", b = "SWB"', 'a = "DU", b = "SWB"'), ("b = []", 'b = [["DU", "SWB", "ADC"]]')], 8, "vl 1 b", f"28: {vl}, b: the paths on B begin at DU, and those on A at ADC: a virtual link has one source"),
        ):
            with self.subTest(wanted):
                status, lines = self.printed(*changes)
                self.assertEqual((status, lines[0]), (1, f"{wanted} [afdxsim: description: {number} {description_faults.NAMES[number]} at {place}]"))

    def test_too_many(self):
        n1, node = examples()["n1"], '[[node]]\nname = "{}"\nkind = "es"\nport_bytes = 1518\n'
        link = '[[link]]\na = "SW1"\nb = "{}"\nmbit = 100\npropagation_ns = 1\n'
        outage = '[[outage]]\nfrom = "ES1"\nto = "SW1"\nfrom_ns = 0\nto_ns = 1\n'
        names = [f"E{i}" for i in range(4200)]
        for text, place, wanted in (
            ("".join(map(node.format, names[:4090])), "top", "1: the description has 4093 nodes and 2 links, which are 4097 processes, two for each link; there may be 4096: make the network smaller"),
            ("".join(node.format(it) + link.format(it) for it in names[:23]), "node 3", "12: switch SW1 (node row 3): it has 25 links, and a switch may have 24: take more switches"),
            (outage * 1025, "outage 1025", "5164: outage ES1>SW1 (outage row 1025): there are 1025 outages, and may be 1024: take out the others"),
        ):
            with self.subTest(place):
                status, lines = self.printed(text=n1 + text)
                self.assertEqual((status, lines[0]), (1, f"{wanted} [afdxsim: description: 9 TooMany at {place}]"))

    def test_each_rule_of_a_path_is_named(self):
        two = (
            ('name = "DU"', 'name = "ADR",  kind = "es", port_bytes = 16_384 },\n  { name = "DU"'),
            ('  { name = "SWA"', '  { name = "SWB", kind = "switch", port_bytes = 65_536, net = "B", latency_ns = 1 },\n  { name = "SWX", kind = "switch", port_bytes = 65_536, net = "A", latency_ns = 1 },\n  { name = "SWA"'),
            ('  { a = "ADC"', '  { a = "ADR", b = "SWA", mbit = 100, propagation_ns = 1 },\n  { a = "SWX", b = "SWA", mbit = 100, propagation_ns = 1 },\n  { a = "SWX", b = "DU", mbit = 100, propagation_ns = 1 },\n  { a = "ADC", b = "SWB", mbit = 100, propagation_ns = 1 },\n  { a = "DU", b = "SWB", mbit = 100, propagation_ns = 1 },\n  { a = "ADC"'),
            ('{ a = "SWX", b = "DU", mbit = 100, propagation_ns = 1 },\n', ""),
        )
        for paths, rule, said in (
            ('[["ADC", "SWA", "SWX"]]', 1, "path 1: it ends at SWX, which is a switch"),
            ('[["ADC", "SWB", "DU"]]', 2, "path 1: SWB is in it, which is a switch of network B"),
            ('[["ADC", "SWA", "SWX", "SWA", "DU"]]', 3, "path 1: SWA is in it 2 times"),
            ('[["ADC", "SWA", "DU"], ["ADR", "SWA", "ADC"]]', 4, "path 2: it begins at ADR, and path 1 at ADC"),
            ('[["ADC", "SWA", "DU"], ["ADC", "SWA", "DU"]]', 5, "path 2: it ends at DU, as path 1 does"),
            ('[["ADC", "SWA", "DU"], ["ADC", "SWB", "DU"]]', 6, "path 2: DU comes behind SWB, and behind SWA in path 1"),
        ):
            with self.subTest(rule):
                status, lines = self.printed(*two, ('[["ADC", "SWA", "DU"]]', paths))
                wanted = f", a, {said} (broken: rule {rule} of 6, {description_faults.RULES[rule]})"
                self.assertEqual(status, 1)
                self.assertTrue(any(wanted in line for line in lines), lines)
                self.assertIn("[afdxsim: description: 8 NotATree at vl 1 a]", lines[0])

    def test_all_faults_at_once(self):
        """Also those in lines that can be read, where others are no TOML."""
        status, lines = self.printed(("id = 120", "id = one"), ("bag_ms = 8", "bag_ms = 10"), ("depth = 4", 'depth = "4'), ('"SWA", "DU"]', '"SW", "DU"]'))
        self.assertEqual(status, 1)
        self.assertEqual(
            lines,
            [
                '13: no TOML: one is a text without quotes; it is written "one" [afdxsim: description: 1 Syntax]',
                "19: no TOML: the text that begins here has no \" at its end: '\"4'",
                "14: vl row 1, bag_ms is 10, and must be 1, 2, 4, 8, 16, 32, 64 or 128. The next below 10 is 8",
                "24: vl row 1, a, path 1: SW is no node; SWA?",
                "4 faults, the first is what afdxsim answers",
            ],
        )
        status, lines = self.printed(("[[vl]]", "[[vl"), ("10_000_000", "0"))
        self.assertEqual(lines[-1], "1 fault, the first is what afdxsim answers; what is behind line 12 was not judged")

    def test_a_file_that_is_not_utf_8(self):
        status, lines = self.printed(text=BAD.encode() + b"# \xff\n")
        self.assertEqual((status, lines[0]), (1, "26: no TOML: the file is not UTF-8 [afdxsim: description: 1 Syntax]"))

    def test_streams_that_take_turns_are_no_warning(self):
        """One ends before the other begins; and two that offer a frame in every second BAG."""
        further = "\n[[stream]]\nvl = 120\nsize = 64\njitter_ns = 0\noffset_ns = {}\nperiod_ns = {}\n"
        for changes in (
            [("offset_ns = 0", "offset_ns = 0\nend_ns = 4_000_000"), ("b = []", "b = []" + further.format(4_000_000, 8_000_000))],
            [("8_000_000", "16_000_000"), ("b = []", "b = []" + further.format(8_000_000, 16_000_000))],
        ):
            self.assertEqual(self.printed(*changes), (0, ["accepted"]))

    def test_many_warnings_of_one_kind(self):
        """Of more than ten the first three are printed, and how many more there are; of others each, and of all each with --all."""
        head, link = BAD.split("[[vl]]")
        rows = [link.replace("id = 120\n", f"id = {i}\n").replace("period_ns = 8_000_000", "period_ns = 7_999_999") for i in range(1, 31)]
        for count, printed in ((10, 10), (11, 3), (30, 3)):
            text = "[[vl]]".join([head, *rows[:count]]).replace("size = 128", "size = 129", 2)
            path = os.path.join(self.enterContext(tempfile.TemporaryDirectory()), "net.toml")
            with open(path, "w", encoding="utf-8") as out:
                out.write(text)
            lines = explain.explain(path)[0].splitlines()
            of_kind = [line for line in lines if "below the BAG of" in line]
            self.assertEqual(len(of_kind), printed)
            each = explain.explain(path, prints_all=True)[0].splitlines()
            self.assertEqual([line for line in each if "below the BAG of" in line][:printed], of_kind)
            self.assertEqual(len([line for line in each if ": warning: " in line]), int(each[-1].split(", ")[1].split(" ")[0]))
            rest = [line for line in lines if line.endswith(" more (--all)")]
            kind = f"{path}: warning: the period is below the BAG: {count - 3} more (--all)"
            self.assertEqual(kind in rest, count > 10)
            self.assertIn(" kinds" if count > 10 else " warnings", lines[-1])

    def test_warnings(self):
        vl = "virtual link 120 (vl row 1)"
        further = "\n[[stream]]\nvl = 120\nsize = 64\njitter_ns = 0\noffset_ns = {offset}\nperiod_ns = {period}\n"
        self.assertEqual(self.printed(), (0, ["accepted"]))
        other = '{ name = "SWB", kind = "switch", port_bytes = 1518, net = "B", latency_ns = 1 },\n  { name = "SWA"'
        links = '{ a = "ADC", b = "SWB", mbit = 100, propagation_ns = 1 },\n  { a = "FWC", b = "SWB", mbit = 100, propagation_ns = 1 },\n  { a = "FWC", b = "SWA", mbit = 100, propagation_ns = 1 },\n  { a = "ADC"'
        both = [('{ name = "SWA"', '{ name = "FWC", kind = "es", port_bytes = 1518 },\n  ' + other), ('{ a = "ADC"', links)]
        outage = '[[outage]]\nfrom = "ADC"\nto = "SWA"\nfrom_ns = 10_000_001\nto_ns = 10_000_002\n[[vl]]'
        for changes, wanted in (
            ([("size = 128", "size = 129")], f"20: warning: {vl}, size is 129, above smax, which is 128: every frame is dropped at the first switch (too_long)"),
            ([("period_ns = 8_000_000", "period_ns = 7_999_999")], f"22: warning: {vl}, period_ns is 7999999, below the BAG of 8000000 ns: frames wait in the regulator, and are dropped once as many wait as depth says (queue_full)"),
            ([("jitter_ns = 0", "jitter_ns = 40_000_000")], f"23: warning: {vl}, jitter_ns is 40000000: 5 frames may wait in the regulator, and it holds 4 (queue_full)"),
            ([("jitter_ns = 0", "jitter_ns = 24_000_000")], f"23: warning: {vl}, jitter_ns is 24000000: up to 24000000 ns of a latency, which begins at the offer, are the regulator's"),
            ([("bag_ms = 8", "bag_ms = 16")], f"22: warning: {vl}, period_ns is 8000000, below the BAG of 16000000 ns: "),
            ([("bag_ms = 8", "bag_ms = 16"), ("8_000_000", "16_000_000")], f"14: warning: {vl}, bag_ms is longer than the run, which ends at 10000000 ns: one frame leaves at most"),
            ([("offset_ns = 0", "offset_ns = 10_000_001")], f"21: warning: {vl}, offset_ns is 10000001: nothing is offered before the end, which is at 10000000 ns"),
            ([("[[vl]]", outage)], "15: warning: outage ADC>SWA (outage row 1), from_ns is 10000001, and the run ends at 10000000: the line is never out"),
            (both, f"30: warning: {vl}, b is empty: no destination has a second copy, by network B"),
            ([*both, ('["ADC", "SWA", "DU"]]', '["ADC", "SWA", "DU"], ["ADC", "SWA", "FWC"]]'), ("b = []", 'b = [["ADC", "SWB", "FWC"]]')], f"30: warning: {vl}, b has no path to DU: reached by network A alone, without a second copy"),
            ([("bag_ms = 8", "bag_ms = 1"), ("8_000_000", "15_000"), ("mbit = 100", "mbit = 10")], "22: warning: "),
            ([("period_ns = 8_000_000", "period_ns = 8_000_000\nframes = 2")], f"22: warning: {vl}, period_ns: bursts have 2.00 frames in a BAG of 8000000 ns: frames wait in the regulator, and are dropped once as many wait as depth says (queue_full)"),
            ([("8_000_000", "80_000_000\nframes = 7")], f"23: warning: {vl}, frames is 7, and depth is 4: the regulator drops at least 2 frames of each burst (queue_full)"),
            ([("size = 128", "size = 128\nsub_vl = 1")], f"21: warning: {vl}, sub_vl is 1, and sub is 1, so the last is 0: every frame is dropped (queue_full)"),
            ([("size = 128", "size = 128\nlast_size = 129")], f"21: warning: {vl}, last_size is 129, above smax, which is 128: every frame is dropped at the first switch (too_long)"),
            ([("8_000_000", "80_000_000\nframes = 2\nlast_size = 129")], f"24: warning: {vl}, last_size is 129, above smax, which is 128: the last frame of each burst is dropped at the first switch (too_long)"),
            ([("8_000_000", "80_000_000\nframes = 2\nlast_size = 64"), ("size = 128", "size = 129")], f"20: warning: {vl}, size is 129, above smax, which is 128: all frames but the last are dropped at the first switch (too_long)"),
            ([("offset_ns = 0", "offset_ns = 7\nend_ns = 6")], f"22: warning: {vl}, end_ns is 6, before offset_ns, which is 7: nothing is offered"),
            ([("b = []", "b = []" + further.format(offset=10_000_001, period=10**9))], "30: warning: stream of virtual link 120 (stream row 1), offset_ns is 10000001: nothing is offered before the end, which is at 10000000 ns"),
            ([("b = []", "b = []" + further.format(offset=0, period=8_000_000))], f"14: warning: {vl}, bag_ms: 2 streams offer 2.00 frames in a BAG of 8000000 ns: frames wait in the regulator, and are dropped once as many wait as depth says (queue_full)"),
        ):
            with self.subTest(wanted):
                status, lines = self.printed(*changes)
                self.assertEqual(status, 0, lines)
                self.assertTrue(any(line.startswith(wanted) for line in lines), lines)
                self.assertRegex(lines[-1], r"^accepted, \d warnings?$")

    def test_loads(self):
        """One virtual link of 1518 bytes a ms is 12.3 percent of 100 Mbit/s, and 123 of 10; seven of them are 86."""
        full = [("bag_ms = 8", "bag_ms = 1"), ("8_000_000", "1_000_000"), ("smax = 128", "smax = 1518"), ("size = 128", "size = 1518")]
        status, lines = self.printed(*full, ("mbit = 100", "mbit = 10"))
        wanted = "9: warning: link ADC-SWA (link row 1): gets 123.0 percent of the 10 Mbit/s of ADC>SWA: frames are lost or late there, whatever the moments"
        # Of 10 Mbit/s one such frame takes 1,230,400 ns, and by the standard an end system may be 500,000 ns late.
        rule = "4: warning: end system ADC (node row 1) has 1 virtual link on ADC>SWA: 40 us and a frame of each take 1270400 ns, and ARINC 664 Part 7 allows 500000 ns of transmit jitter"
        self.assertEqual((status, lines), (0, [rule, wanted, "accepted, 2 warnings"]))
        text = BAD
        for old, new in full:
            text = text.replace(old, new, 1)
        head, _, vl = text.partition("[[vl]]")
        seven = head + "".join("[[vl]]" + vl.replace("id = 120", f"id = {i}") for i in range(7))
        status, lines = self.printed(text=seven)
        wanted = "gets 86.1 percent of the 100 Mbit/s of {}: frames wait long there"
        self.assertEqual(status, 0)
        self.assertEqual([line.split(": ", 3)[-1] for line in lines[1:3]], [wanted.format(line) for line in ("ADC>SWA", "SWA>DU")])

    def test_words(self):
        said = io.StringIO()
        with contextlib.redirect_stderr(said):
            self.assertEqual(explain.main([os.path.join(TOOLS, "none")]), 2)
        self.assertEqual(said.getvalue(), f"afdx explain: {os.path.join(TOOLS, 'none')}: cannot be read: No such file or directory\n")
        run = subprocess.run([*tool_words("explain"), "--help"], capture_output=True, text=True)
        self.assertEqual((run.returncode, run.stderr), (0, ""))
        for word in ("warnings", "examples:", "status:"):
            self.assertIn(word, run.stdout)


class ForOtherPrograms(unittest.TestCase):
    """Several files a call, standard input, and JSON."""

    def call(self, *words, given=""):
        run = subprocess.run([*tool_words("explain"), *words], input=given, capture_output=True, text=True)
        return run.returncode, run.stdout, run.stderr

    def test_several_files_and_standard_input(self):
        one, two = (os.path.join(EXAMPLES, name) for name in ("n1.toml", "n3.toml"))
        with open(one, encoding="utf-8") as file:
            text = file.read()
        status, said, errors = self.call(one, "-", two, given=text.replace("bag_ms = 1", "bag_ms = 3"))
        self.assertEqual((status, errors), (1, ""))
        self.assertEqual(said.splitlines()[0], f"{one}: accepted")
        self.assertRegex(said.splitlines()[1], r"^-:32: virtual link 1 \(vl row 1\), bag_ms is 3, and must be .* \[afdxsim: description: ")
        self.assertIn(f"{two}: accepted", said)
        self.assertEqual(self.call("-", given=text), (0, "-: accepted\n", ""))

    def test_json(self):
        """Each fault and each warning is an object; nothing wrong is an empty list."""
        one = os.path.join(EXAMPLES, "n1.toml")
        with open(one, encoding="utf-8") as file:
            text = file.read()
        self.assertEqual(self.call("--json", one), (0, "[]\n", ""))
        status, said, errors = self.call("--json", one, "-", given=text.replace("bag_ms = 1", "bag_ms = 3"))
        (found,) = json.loads(said)
        self.assertEqual((status, errors, found["file"], found["line"], found["level"]), (1, "", "-", 32, "fault"))
        self.assertIn("must be 1, 2, 4", found["text"])
        _, said, _ = self.call("--json", "-", given=text.replace("until_ns = 2000000", "until_ns = 1"))
        self.assertEqual({(it["level"], it["file"]) for it in json.loads(said)}, {("warning", "-")})
        self.assertTrue(all(it["kind"] for it in json.loads(said)))


if __name__ == "__main__":
    if len(sys.argv) == 2 and sys.argv[1].isdigit():
        found, differing = hold_mutated(int(sys.argv[1]), 2026)
        print(f"{found.total()} mutated texts, {len(differing)} answered in two ways: {dict(sorted(found.items()))}")
        for by_program, by_explain, text in differing[:10]:
            print("----", by_program, "----", by_explain, "----")
            print(text)
    elif sys.argv[1:] == ["each"]:
        it, differing, count = Program(), [], 0
        for text in examples().values():
            for one in changes_of_each_key(text):
                count += 1
                if answered_by_explain(one) != it.answers(one):
                    differing.append((it.answers(one), answered_by_explain(one)))
        print(f"{count} texts with one key changed, {len(differing)} answered in two ways: {differing[:10]}")
    else:
        unittest.main()
