"""Tests of the lists of crates in the documents, which crates.txt decides, and of the count of lemmas that other crates cite."""
import os
import re
import tempfile
import unittest

from afdx.files import Fault
from gate import cited_lemmas, crates_page, words

FOR_TESTS = "For tests alone"
DOCUMENTS = ["README.md", *(f"docs/{name}.md" for name in ("ARCHITECTURE", "DECISIONS", "PROMISES", "PROOFS", "TIME-WARP", "TRAFFIC"))]
ITEM = re.compile(r"^- (`.*)$", re.MULTILINE)


def document(name):
    with open(os.path.join(cited_lemmas.TOP, name), encoding="utf-8") as file:
        return file.read()


def between(text, begin, end):
    """What stands in a text between two lines, each of which is there once."""
    _, found, rest = text.partition(f"\n{begin}\n")
    inside, there, _ = rest.partition(f"\n{end}\n")
    assert found and there, (begin, end)
    return inside


def named(item):
    """The names at the head of an item of a list: those before the colon, but for what stands in brackets."""
    return re.findall(r"`(\w+)`", re.sub(r"\(.*?\)", "", item).partition(":")[0])


class Lists(unittest.TestCase):
    @classmethod
    def setUpClass(cls):
        cls.headings = cited_lemmas.crates_by_heading()
        cls.all = [name for names in cls.headings.values() for name in names]

    def test_each_crate_has_one_line_and_one_folder(self):
        folders = sorted(os.listdir(os.path.join(cited_lemmas.TOP, "crates")))
        self.assertEqual(sorted(self.all), folders)

    def test_the_page_of_crates_and_the_table_of_the_read_me_are_not_stale(self):
        says = "python3 -m gate.crates_page --write, in tools/, puts it right"
        self.assertEqual(document("docs/CRATES.md"), crates_page.page(), says)
        text = document("README.md")
        self.assertEqual([text.count(mark) for mark in crates_page.MARKS], [1, 1])
        self.assertEqual(crates_page.between_marks(text), crates_page.table(), says)

    def test_the_table_has_each_crate_once_in_few_words(self):
        rows = [re.findall(r"[^|]+", line) for line in crates_page.table().splitlines()[2:]]
        found = {names[0]: row[1].split() for row in rows if (names := re.findall(r"`(\w+)`", row[0]))}
        self.assertEqual(list(found), self.all)
        self.assertEqual({name: words for name, words in found.items() if not 0 < len(words) <= crates_page.MOST_WORDS}, {})

    def test_entries_are_of_crates_and_of_files_that_are_there(self):
        known = crates_page.entries()
        self.assertEqual(sorted(set(known) - set(self.all)), [])
        for name, entry in known.items():
            for path in entry.open:
                with self.subTest(crate=name, path=path):
                    self.assertTrue(os.path.isfile(os.path.join(cited_lemmas.TOP, "crates", name, path)))

    def test_a_crate_without_an_entry(self):
        """Its head is cut where it has more than 15 words, and its laws are its contract; a name that is not there is refused."""
        sources = {
            "crates.txt": "# Low\nlow: core\n",
            "tools/gate/crates_page.toml": "",
            "crates/low/src/lib.rt": "//! What is low, by its name: of all the numbers that there are it has the least one at each moment. More.\n",
            "crates/low/src/laws.rt": "pub fn low_law()\n    ensures least { a }\n    ensures {\n        b }\n    ensures last { c }\n{}\n",
            "crates/low/must-fail/wrong.edit": "",
        }
        with tempfile.TemporaryDirectory() as top:
            for name, text in sources.items():
                os.makedirs(os.path.dirname(os.path.join(top, name)), exist_ok=True)
                with open(os.path.join(top, name), "w", encoding="utf-8") as out:
                    out.write(text)
            page, table = crates_page.page(top), crates_page.table(top)
            with self.assertRaisesRegex(Fault, "low has no public function or type high"):
                crates_page.contract_of("low", "high", top)
        self.assertTrue(page.endswith("""## Low

### `low`

What is low, by its name: of all the numbers that there are it has the least one at each moment.

- proves: What is low, by its name: `low_law` (`src/laws.rt`: `least`, `last`)
- uses: `core`
- must-fail: `wrong`
"""), page)
        self.assertEqual(table.splitlines()[-1], "| `low` | What is low, by its name | `low_law` |")

    def test_what_is_proved_stands_for_each_crate_of_the_product(self):
        items = ITEM.findall(between(document("docs/PROOFS.md"), "## 2. What each crate proves", "## 3. The files that say what is promised"))
        product = set(self.all) - set(self.headings[FOR_TESTS])
        self.assertEqual(sorted(name for item in items for name in named(item)), sorted(product))

    def test_what_documents_name_by_its_crate_is_of_a_crate(self):
        for name in DOCUMENTS:
            heads = re.findall(r"`([a-z]\w*)::", document(name)) + re.findall(r"\bcrates/([a-z]\w*)", document(name))
            self.assertEqual(sorted(set(heads) - set(self.all) - {"crate", "usize"}), [], name)


class Words(unittest.TestCase):
    def test_what_tools_write_is_not_counted(self):
        begin, end = crates_page.MARKS
        self.assertEqual(words.words_of(f"one two {begin}three | four{end} five\n"), 3)
        names = list(words.documents())
        self.assertEqual([it for it in words.LIMITS if it not in names], [])
        self.assertNotIn("docs/CRATES.md", names)


class Lemmas(unittest.TestCase):
    def test_lines_that_cite_lemmas_of_another_crate_are_counted(self):
        sources = {
            "crates.txt": "# Below\nlow:\n# Above\nhigh: low\n",
            "crates/low/proofs/Growth.antt": "use Rattle.low.proofs.Deep.{deep}\nuse Rattle.std.proofs.Common.{refl}\n",
            "crates/high/proofs/held/hold/Answers.antt":
                "use Rattle.low.proofs.Growth.{grown}\nuse Rattle.low.proofs.growth.grow.Loop.{on}\nuse Rattle.low.specs.Words.{Kept}\n",
            "crates/high/proofs/Crossing.antt": "use Rattle.low.proofs.store.Store.TheSendSync as store\n",
            "crates/high/src/lib.rt": "ghost use Rattle.low.proofs.Growth.{grown};\n",
        }
        with tempfile.TemporaryDirectory() as top:
            for name, text in sources.items():
                os.makedirs(os.path.dirname(os.path.join(top, name)), exist_ok=True)
                with open(os.path.join(top, name), "w", encoding="utf-8") as out:
                    out.write(text)
            self.assertEqual(cited_lemmas.crates_by_heading(top), {"Below": ["low"], "Above": ["high"]})
            found = cited_lemmas.cited(top)
        self.assertEqual(found, {"low": ({"Growth", "growth/grow/Loop"}, {"high": 3})})
        self.assertEqual(cited_lemmas.counted(found), "3 lines cite lemmas of another crate, in 1 pairs of crates.")
        self.assertIn("| `low` | `Growth`, `growth/grow/Loop` | `high` 3 |", cited_lemmas.listed(found))

    def test_the_map_has_the_count(self):
        text = document("docs/ARCHITECTURE.md")
        begin, end = cited_lemmas.MARKS
        self.assertEqual((text.count(begin), text.count(end)), (1, 1))
        there = text.partition(begin)[2].partition(end)[0]
        self.assertEqual(there, cited_lemmas.counted(cited_lemmas.cited()), "tools/gate/cited_lemmas.py --write puts it right")


if __name__ == "__main__":
    unittest.main()
