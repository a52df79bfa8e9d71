"""Tests of qualification.py, and of docs/QUALIFICATION.md against the sources."""
import os
import tempfile
import unittest

from gate import qualification

RULE = qualification.Rule(
    "1.1", ("low/specs/Growth.antt: grown, Height",), ("low/src/plant.rt: Plant::grow (taller, alive)", "low/src/plant.rt: Plant"),
    ("crates/low/must-fail/it_shrinks.edit", "low/src/rows.rt: grow 1 => 2"), "Exact.",
)
FILES = {
    "crates/low/specs/Growth.antt": "abbrev pub grown : ℕ → ℕ\npub record Height : Type 0 where\n",
    "crates/low/src/plant.rt": "impl Plant {\n    pub fn grow(&mut self)\n        ensures taller { x }\n        ensures alive { y }\n    {\n    }\n}\n"
    "impl Reversible for Plant {\n}\n",
    "crates/low/src/rows.rt": "plant, grow 1 => 2",
    "crates/low/must-fail/it_shrinks.edit": "old: a\nnew: b\n",
    "crates.txt": "# Low\nlow: arrayvec\n",
}


class Sources(unittest.TestCase):
    def folder(self, changed):
        found = tempfile.TemporaryDirectory()
        self.addCleanup(found.cleanup)
        for name, text in (FILES | changed).items():
            path = os.path.join(found.name, name)
            os.makedirs(os.path.dirname(path), exist_ok=True)
            with open(path, "w", encoding="utf-8") as file:
                file.write(text)
        return found.name

    def test_a_name_that_the_sources_lack_is_a_fault(self):
        plant = FILES["crates/low/src/plant.rt"]
        for changed, faults in (
            ({}, []),
            ({"crates/low/specs/Growth.antt": "abbrev pub grown_up : ℕ\n"},
             ["crates/low/specs/Growth.antt does not define grown", "crates/low/specs/Growth.antt does not define Height"]),
            ({"crates/low/src/plant.rt": plant.replace("alive", "well")}, ["crates/low/src/plant.rt: grow has no clause alive"]),
            ({"crates/low/src/plant.rt": plant.replace("pub fn grow", "fn grow")}, ["crates/low/src/plant.rt: no public function grow"]),
            ({"crates/low/src/plant.rt": plant.replace("Reversible for Plant", "Drop for Plant")},
             ["crates/low/src/plant.rt: Plant is not Reversible"]),
            ({"crates/low/src/rows.rt": "grow 1 => 3"}, ["crates/low/src/rows.rt has no row with 'grow 1 => 2'"]),
        ):
            with self.subTest(changed=changed):
                self.assertEqual(qualification.faults_of_rule(RULE, self.folder(changed)), [f"rule 1.1: {fault}" for fault in faults])
        gone = qualification.faults_of_rule(RULE._replace(shown=("crates/low/must-fail/none.edit",)), self.folder({}))
        self.assertEqual(gone, ["rule 1.1: crates/low/must-fail/none.edit does not exist"])

    def test_a_call_with_wrong_answers_is_found_in_code_alone(self):
        self.assertEqual(qualification.calls(self.folder({})), [])
        top = self.folder({"crates/low/src/sending.rt": "// no try_send here\nlet sent = to.try_send(rt, batch);\n"})
        self.assertEqual(qualification.calls(top), ["crates/low/src/sending.rt names try_send"])

    def test_a_library_of_the_kit_is_in_the_table(self):
        faults = qualification.faults_of_libraries(self.folder({"crates.txt": "low: toml rayon\n"}))
        self.assertIn("library rayon stands in one place alone", faults)
        self.assertNotIn("library toml stands in one place alone", faults)


class Document(unittest.TestCase):
    def test_each_rule_has_a_line_and_each_name_exists(self):
        self.assertEqual(qualification.check(), [])

    def test_the_document_has_the_tables(self):
        text = qualification.read(qualification.DOCUMENT)
        self.assertEqual(text, qualification.with_parts(text), "tools/gate/qualification.py --write puts them right")

    def test_marks_belong_to_rules(self):
        rules = qualification.rules_of("**1.1** [profile] A.\n\n**1.2** [664] B.\n\nNo **1.3** [664] here.\n")
        self.assertEqual(rules, {"1.1": "profile", "1.2": "664"})
        self.assertEqual(qualification.known_problems("## 1\n\n### Known problems\n\n- One\n- Two\n\n## 0\n"), "- One\n- Two")


if __name__ == "__main__":
    unittest.main()
