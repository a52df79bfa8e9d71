"""Tests of the two tables of keys that stand beside that of the program: docs/afdxsim.schema.json, for editors, and that of
tools/afdx/model. Both must be the table of crates/network_rows/src/table.rt: the same keys, types, limits and order, and the
same ones that may be absent."""
import glob
import json
import os
import re
import unittest

from afdx import model
from afdx.files import debian_modules, toml_lines
from tests.places import TOP

jsonschema = debian_modules.needed("jsonschema", "python3-jsonschema")


CRATES = os.path.join(TOP, "crates")


def read(*parts):
    with open(os.path.join(*parts), encoding="utf-8") as file:
        return file.read()


class ProgramTable:
    """The table of the program: for each section its keys, each with its presence and its type as they are written."""

    def __init__(self):
        self.text = re.sub(r"//.*", "", read(CRATES, "network_rows", "src", "table.rt"))
        keys = read(CRATES, "network_rows", "src", "key.rt")
        self.words = dict(re.findall(r'Word::(\w+) => "(\w+)"', keys))
        self.names = dict(re.findall(r'Key::(\w+) => "(\w+)"', keys))
        self.numbers = {"i64::MAX": 2**63 - 1}
        for crate, file in (("vlink", "time"), ("network_rows", "table")):
            text = read(CRATES, crate, "src", file + ".rt")
            for name, number in re.findall(r"const (\w+): u64 = ([0-9_]+);", text):
                self.numbers[name] = int(number.replace("_", ""))
        frame = dict(re.findall(r"pub const (\w+): u16 = (\d+);", read(CRATES, "vlink", "src", "frame.rt")))
        self.numbers |= {f"{which}_FRAME": int(frame[which]) for which in ("LEAST", "GREATEST")}
        (bags,) = re.findall(r"const BAGS_MS: \[u64; 8\] = \[(.*?)\];", self.text)
        self.bags = tuple(map(int, bags.split(",")))
        rules = {name: self.rule(rule) for name, rule in re.findall(r"const (\w+): Rule = (.*?);\n", self.text, re.S)}
        lists = re.findall(r"const (\w+)_KEYS: \[Rule; \d+\] = \[(.*?)\];", self.text, re.S)
        self.keys = {section.lower(): [rules[name] for name in re.findall(r"\w+", names)] for section, names in lists}

    def rule(self, text):
        """The key of a rule, its presence, and its type with what stands in brackets behind."""
        text = re.sub(r"\s+", " ", text).replace("Key::", "").replace("Presence::", "").replace("ValueType::", "")
        found = re.search(r"key: (\w+), presence: (\w+(?:\(\w+\))?), value_type: (\w+)(?:\((.*?)\))?,? }", text)
        found = found or re.fullmatch(r"rule!\( ?(\w+), (\w+(?:\(\w+\))?), (\w+)(?:\((.*?)\))?,? ?\)", text)
        key, presence, value_type, limits = found.groups()
        return self.names[key], presence, value_type, [it.strip() for it in (limits or "").split(",") if it.strip()]

    def number(self, text):
        plain = text.removesuffix(" as u64").replace("_", "")
        return int(plain) if plain.isdigit() else self.numbers[text.removesuffix(" as u64")]

    def limits(self, value_type, words):
        """The type of the values, the least and the greatest, and the choices."""
        if value_type == "OneOf":
            return "integer", None, None, self.bags
        if value_type == "OneOfThree":
            return "integer", None, None, tuple(map(self.number, words))
        if value_type == "EitherWord":
            return "text", None, None, tuple(self.words[word.split("::")[-1]] for word in words)
        if value_type == "Reference":
            return "name", None, None, None
        least, greatest = map(self.number, words[-2:])
        return {"NodeName": "text", "Paths": "paths"}.get(value_type, "integer"), least, greatest, None

    def usual(self, presence):
        """Which rows need the key, and what it is where it is absent."""
        if presence in ("Required", "ForSwitches", "MayBeAbsent"):
            return {"Required": "all", "ForSwitches": "switches", "MayBeAbsent": "none"}[presence], None
        sort, value = re.fullmatch(r"(\w+)\((\w+)\)", presence).groups()
        return "none", self.number(value) if sort == "Optional" else self.words[value]


class Schema:
    """The same of the schema, section by section."""

    def __init__(self):
        self.tree = json.loads(read(TOP, "docs", "afdxsim.schema.json"))
        rows = {section: self.tree["properties"][section]["items"] for section in model.SECTIONS}
        self.tables = {"top": self.tree} | rows

    def key(self, section, name):
        found = self.tables[section]["properties"][name]
        value_type = {"integer": "integer", "array": "paths", "string": "text"}[found["type"]]
        if value_type == "text" and not {"enum", "pattern"} & set(found):
            value_type = "name"
        least, greatest = found.get("minimum"), found.get("maximum")
        if value_type == "paths":
            least, greatest = found["items"]["minItems"], found["items"]["maxItems"]
            assert found["items"]["items"] == {"type": "string"}
        if "pattern" in found:
            signs, least, greatest = re.fullmatch(r"\^\[(.*)\]\{(\d+),(\d+)\}\$", found["pattern"]).groups()
            assert signs == "A-Za-z0-9_-"
            least, greatest = int(least), int(greatest)
        choices = tuple(found["enum"]) if "enum" in found else None
        return value_type, least, greatest, choices, self.needed(section, name), found.get("default")

    def needed(self, section, name):
        table = self.tables[section]
        if name in table["required"]:
            return "all"
        return "switches" if name in table.get("then", {}).get("required", []) else "none"


class Keys(unittest.TestCase):
    def setUp(self):
        self.program, self.schema = ProgramTable(), Schema()
        self.assertEqual(list(self.program.keys), ["top", *model.SECTIONS])

    def each(self):
        for section, keys in self.program.keys.items():
            for name, presence, value_type, words in keys:
                yield section, name, (*self.program.limits(value_type, words), *self.program.usual(presence))

    def test_the_table_of_the_tools_is_that_of_the_program(self):
        for section, keys in self.program.keys.items():
            self.assertEqual([key.name for key in model.KEYS[section]], [name for name, *_ in keys])
        for section, name, wanted in self.each():
            (key,) = [key for key in model.KEYS[section] if key.name == name]
            found = (key.value_type, key.least, key.greatest, key.choices, key.needed, key.usual)
            self.assertEqual(found, wanted, f"{section} {name}")

    def test_the_schema_is_that_of_the_program(self):
        for section, keys in self.program.keys.items():
            table = self.schema.tables[section]
            names = [name for name, *_ in keys] + (model.SECTIONS if section == "top" else [])
            self.assertEqual(list(table["properties"]), names)
            self.assertIs(table["additionalProperties"], False)
        for section, name, wanted in self.each():
            self.assertEqual(self.schema.key(section, name), wanted, f"{section} {name}")

    def test_net_and_latency_are_of_switches_alone(self):
        node = self.schema.tables["node"]
        self.assertEqual(node["if"], {"properties": {"kind": {"const": "switch"}}})
        self.assertEqual(node["then"], {"required": ["net", "latency_ns"]})
        self.assertEqual(node["else"], {"properties": {"net": False, "latency_ns": False}})

    def test_each_key_has_a_sentence(self):
        for section, name, _ in self.each():
            said = self.schema.tables[section]["properties"][name]["description"]
            self.assertRegex(said, r"^[A-Z].*\.$")
            (key,) = [key for key in model.KEYS[section] if key.name == name]
            self.assertEqual(said, key.says)

    def test_the_schema_is_one(self):
        jsonschema.Draft7Validator.check_schema(self.schema.tree)

    def test_the_examples_meet_the_schema(self):
        for path in glob.glob(os.path.join(TOP, "examples", "*.toml")):
            self.assertEqual(faults_by(self.schema.tree, toml_lines.read(read(path))), [])

    def test_what_is_wrong_does_not(self):
        n1 = read(TOP, "examples", "n1.toml")
        for old, new in (
            ("seed = 42", ""),
            ("seed = 42", "seed = 42\ncolour = 1"),
            ("bag_ms = 1", "bag_ms = 3"),
            ("bag_ms = 1", 'bag_ms = "1"'),
            ("smax = 64", "smax = 63"),
            ('name = "ES1"', 'name = "E 1"'),
            ('kind = "es"', 'kind = "es"\nnet = "A"'),
            ("latency_ns = 16000", ""),
            ('["ES1", "SW1", "ES2"]', '["ES1", "ES2"]'),
            ("depth = 16", "depth = 16\nsub = 5"),
        ):
            with self.subTest(new or old):
                self.assertTrue(faults_by(self.schema.tree, toml_lines.read(n1.replace(old, new, 1))))


def faults_by(schema, value):
    """What is wrong with a value by a schema."""
    return [fault.message for fault in jsonschema.Draft7Validator(schema).iter_errors(value)]


if __name__ == "__main__":
    unittest.main()
