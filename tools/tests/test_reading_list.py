"""Tests of the lists of files in docs/PROOFS.md, and of tools/gate/reading_list.py, which makes them of what files import."""
import os
import re
import tempfile
import unittest

from gate import book, reading_list

# A repository of two crates: the contract of `promise` needs `IsKept`, which needs `grown` of the other crate and the type
# `Pair`, and it takes a `Store`, which clauses see as a `Shelf`.
FILES = {
    "crates.txt": "# All of them\nlow:\nhigh: low\n",
    "low/specs/Lib.antt": "pub mod Growth\npub mod Shelves\npub mod Proofs\n",
    "low/specs/Growth.antt": """-- Definition: how a number grows. And more.
use Rattle.std.specs.Prelude.{ℕ}
use Rattle.low.specs.Proofs.{only_for_laws}
use Rattle.low.specs.Deep.{deep}
module _ {N : Type 0} (f : N) where
  -- what is grown
  abbrev pub grown : ℕ → ℕ
  grown n = deep n
  grown-law : ℕ → ℕ
  grown-law n = only_for_laws n
""",
    "low/specs/Deep.antt": "-- The deepest.\npub record Depth : Type 0 where\n  pub of : ℕ\nabbrev pub deep : ℕ → ℕ\ndeep n = n\n",
    "low/specs/Proofs.antt": "-- For proofs alone.\nonly_for_laws : ℕ → ℕ\nonly_for_laws n = n\n",
    "low/specs/Shelves.antt": "-- Shelves.\npub record Shelf : Type 0 where\n  pub books : ℕ\n",
    "low/src/lib.rt": "mod pair;\nmod inner;\nmod store;\npub use pair::Pair;\npub use store::Store;\n",
    "low/src/pair.rt": "//! Pairs.\nuse crate::inner::Inner;\npub struct Pair {\n    pub left: Inner,\n}\n",
    "low/src/inner.rt": "//! What is inside.\npub struct Inner(u8);\n",
    "low/src/hidden.rt": "//! What no clause sees.\npub struct Hidden(u8);\n",
    "low/src/store.rt": """//! Stores.
use crate::hidden::Hidden;
pub struct Store {
    hidden: Hidden,
}

impl Model for Store {
    ghost use Rattle.low.specs.Shelves.{Shelf};

    ghost Value = { Shelf };
}
""",
    "high/specs/Lib.antt": "pub use Rattle.low.specs.Growth\npub mod Keeping\n",
    "high/specs/Keeping.antt": """-- What is kept.
use Rattle.high.specs.Growth.{grown}
use Rattle.low.specs.declared.pair.Pair.{Pair}
use Rattle.low.specs.Proofs.{only_for_laws as law}
abbrev pub IsKept : Pair → Type 0
IsKept pair = grown pair.left ≡ pair.law
kept-law : ℕ → ℕ
kept-law n = law n
""",
    "high/src/lib.rt": "mod promising;\npub use promising::promise;\n",
    "high/src/promising.rt": """//! The promise.
ghost use Rattle.high.specs.Keeping.{IsKept};
ghost use Rattle.low.specs.Proofs.{only_for_laws};
use low::Store;

pub fn other() -> u8
    ensures { only_for_laws 1 }
{
    1
}

pub fn promise(store: &Store) -> u8
    ensures kept { IsKept result }
{
    1
}
""",
}

RESTS_ON = {
    ("low", "specs/Growth.antt"), ("low", "specs/Deep.antt"), ("low", "specs/Shelves.antt"), ("low", "src/pair.rt"),
    ("low", "src/inner.rt"), ("low", "src/store.rt"), ("high", "specs/Keeping.antt"),
}


class Lists(unittest.TestCase):
    def tree(self, files):
        folder = tempfile.TemporaryDirectory()
        self.addCleanup(folder.cleanup)
        for name, text in files.items():
            path = os.path.join(folder.name, name if name == "crates.txt" else "crates/" + name)
            os.makedirs(os.path.dirname(path), exist_ok=True)
            with open(path, "w", encoding="utf-8") as out:
                out.write(text)
        return reading_list.Tree(folder.name)

    def test_a_file_is_listed_just_where_a_name_of_it_is_needed(self):
        keeping, promising = FILES["high/specs/Keeping.antt"], FILES["high/src/promising.rt"]
        for change, files in (
            ({}, RESTS_ON),
            # the law of another crate is needed once the definition names it
            ({"high/specs/Keeping.antt": keeping.replace("pair.law", "law 1")}, RESTS_ON | {("low", "specs/Proofs.antt")}),
            # what is no more named is left out, with all that it alone needs
            (
                {"high/specs/Keeping.antt": keeping.replace("grown pair.left", "pair.left")},
                RESTS_ON - {("low", "specs/Growth.antt"), ("low", "specs/Deep.antt")},
            ),
            # a type that clauses see by no model is followed by its fields
            (
                {"low/src/store.rt": FILES["low/src/store.rt"].partition("impl")[0]},
                RESTS_ON - {("low", "specs/Shelves.antt")} | {("low", "src/hidden.rt")},
            ),
            # the clauses of the function alone count
            ({"high/src/promising.rt": promising.replace("IsKept result", "only_for_laws 1")},
             {("low", "specs/Proofs.antt"), ("low", "specs/Shelves.antt"), ("low", "src/store.rt")}),
        ):
            with self.subTest(change=list(change)):
                found, libraries = self.tree(FILES | change).rests_on([("high", "promising", "promise")])
                self.assertEqual(found, files)
                self.assertEqual(libraries, {"std"} if ("low", "specs/Growth.antt") in files else set())

    def test_a_file_is_listed_with_its_first_sentence(self):
        self.assertEqual(self.tree(FILES).head_of("low", "specs/Growth.antt"), "how a number grows")

    def test_the_document_has_the_lists(self):
        with open(reading_list.DOCUMENT, encoding="utf-8") as file:
            text = file.read()
        begin, end = reading_list.MARKS
        self.assertEqual((text.count(begin), text.count(end)), (1, 1))
        there = text.partition(begin)[2].partition(end)[0]
        self.assertEqual(there, reading_list.Tree().lists(), "tools/gate/reading_list.py --write puts them right")

    def test_what_serves_proofs_alone_is_in_none(self):
        for name, contracts in reading_list.BEGINNINGS.items():
            files, _ = reading_list.Tree().rests_on(contracts)
            with self.subTest(name=name):
                self.assertIn(("virtual_time", "specs/Safe.antt"), files)
                self.assertIn(("nodes", "specs/rules/Simulation.antt"), files)
                self.assertEqual([path for _, path in files if path.startswith(("specs/laws/", "specs/Code/"))], [])

    def test_the_book_has_each_definition_once_behind_what_it_uses(self):
        tree = reading_list.Tree()
        for chapters in (list(book.CHAPTERS), ["bounds"]):
            whole = book.Book(tree, chapters)
            text, order = whole.text(), whole.in_order()
            heads = re.findall(r"^== (\S+) \((.*)\)$", text, re.MULTILINE)
            wanted = {it: tree.rests_on(book.CHAPTERS[it])[0] for it in chapters}
            self.assertEqual(sorted(heads), sorted(
                ("/".join(file), ", ".join(it for it in chapters if file in wanted[it])) for file in set().union(*wanted.values())
            ))
            places = {file: place for place, file in enumerate(order)}
            for crate, path in order:
                for source in tree.imports_of(tree.text(crate, path)).values():
                    before = tree.file_of(source) if source.crate in tree.order else None
                    if before in places and before[1].startswith("specs/") and path.startswith("specs/"):
                        self.assertLessEqual(places[before], places[crate, path], (before, path))
            self.assertEqual(re.findall(r"^ *(?:pub |unfoldable |ghost )*use .*$", text, re.MULTILINE), [])
            for chapter in chapters:
                for crate, module, _ in book.CHAPTERS[chapter]:
                    self.assertEqual(text.count(f"== {crate}/src/{module}.rt: the contract of `{chapter}`"), 1)


if __name__ == "__main__":
    unittest.main()
