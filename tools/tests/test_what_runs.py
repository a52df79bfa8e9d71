"""Tests that what is named is what runs: of gate/what_runs.py on the built program, and on copies that are wrong in one thing."""
import os
import unittest

from gate import functions, what_runs
from gate.functions import Function, Program
from gate.what_runs import Tree
from tests.places import TOOLS, TOP

OUTBOUND = "crates/reverse/src/outbound.rt"
PLANT = """//! A plant.
pub struct Plant<T> {
    height: u64,
}

impl<T: Copy> Plant<T> {
    /// Grows.
    pub fn grow(&mut self)
        ensures taller { self.old.height < self.new.height }
    {
        self.height += 1;
    }
}

impl<T> Alive<u8> for Plant<T>
where
    T: Copy,
{
    fn breathe(&self) {}
}

pub trait Alive<A> {
    fn breathe(&self);
}

/// Plants it.
pub fn plant() {
    fn inner() {}
}
"""


def symbol(function: Function) -> str:
    """The name of a function in a program, where it is made for some type."""
    owner = [function.owner + function.trait] if function.owner != function.trait else [function.owner]
    return "::".join([function.crate, *function.modules, *(owner if function.owner else []), function.name, "<#0123>"])


def tree_with(of_libraries: tuple[str, ...] = tuple(place.library for place in what_runs.PLACES)) -> Tree:
    """The tree as if the program had all functions but those that are kept, the laws and those of tests."""
    of_tests = Tree(Program([])).of_tests
    made = [
        it for it in functions.all_functions(TOP)
        if not what_runs.is_kept(it) and not what_runs.is_law(it) and it.crate not in of_tests
    ]
    return Tree(Program([*map(symbol, made), *(f"{name}::it" for name in of_libraries)]))


class Names(unittest.TestCase):
    def test_functions_of_a_file(self):
        found = list(functions.functions_in("low", "garden/plant.rt", PLANT))
        said = [(it.owner, it.trait, it.name, it.is_public, it.line) for it in found]
        self.assertEqual(said, [
            ("Plant", "", "grow", True, 8), ("Plant", "Alive", "breathe", True, 19), ("Alive", "Alive", "breathe", True, 23), ("", "", "plant", True, 27),
        ])
        self.assertEqual([it.called() for it in found], ["low::Plant::grow", "low::Plant::breathe", "low::Alive::breathe", "low::plant"])

    def test_a_symbol_is_of_a_function_for_some_type(self):
        grow, breathe, of_trait, plant = functions.functions_in("low", "garden/plant.rt", PLANT)
        for names, has in (
            (["low::garden::plant::Plant::grow::<#12>"], (True, False, False, False)),
            # A type may stand in another file than a method of it.
            (["low::shed::Plant::grow"], (True, False, False, False)),
            (["low::garden::plant::PlantAliveU8::breathe"], (False, True, True, False)),
            (["high::tree::TreeAlive::breathe"], (False, False, True, False)),
            (["low::garden::plant::plant"], (False, False, False, True)),
            (["low::garden::plant", "low::plant", "high::garden::plant::plant", "low::garden::plant::plant::inner"], (False,) * 4),
        ):
            with self.subTest(names=names):
                self.assertEqual(tuple(map(Program(names).has, (grow, breathe, of_trait, plant))), has)

    def test_a_program_that_is_not_there_is_named(self):
        with self.assertRaises(what_runs.NoNames) as found:
            what_runs.names_of(os.path.join(TOP, "crates", "afdxsim", "out", "none"))
        self.assertIn("crates/afdxsim/out/none is not there", str(found.exception))


class Mutants(unittest.TestCase):
    """What is wrong in one thing is reported, whatever program is here."""

    @classmethod
    def setUpClass(cls):
        cls.tree = tree_with()

    def test_sends_in_arrays_made_by_hand(self):
        """The room for sends as it was, with arrays and counts; only what hands them on made an ArrayVec of them."""
        self.assertEqual(list(what_runs.faults_of_places(self.tree)), [])
        with open(os.path.join(TOOLS, "tests", "mutants", "outbound_of_arrays.txt"), encoding="utf-8") as file:
            texts = {OUTBOUND: file.read()}
        self.assertIn("use arrayvec::ArrayVec;", texts[OUTBOUND])
        self.assertEqual(list(what_runs.faults_of_places(self.tree, texts=texts)), [
            "arrayvec: no function of reverse::Outbound that the program has uses ArrayVec, by which sends are kept",
        ])

    def test_a_library_of_which_the_program_has_nothing(self):
        for place in what_runs.PLACES:
            less = tree_with(tuple(it.library for it in what_runs.PLACES if it != place))
            self.assertEqual(list(what_runs.faults_of_places(less)), [f"{place.library}: the program has no function of it"])

    def test_a_library_that_only_functions_use_which_do_not_run(self):
        for place in what_runs.PLACES:
            less = Tree(Program([symbol(it) for it in self.tree.functions if it.crate != place.crate]))
            said = [line for line in what_runs.faults_of_places(less, [place]) if "has uses" in line]
            self.assertEqual(len(said), len(place.names))

    def test_a_document_that_quotes_what_no_command_calls(self):
        for item, said in (
            ("- `worker_pool`: a parallel run has the tables of the one-thread run (`run`)", ["worker_pool::run"]),
            ("A run has these tables: `worker_pool::run`: `rows`, `tables`", ["worker_pool::run"]),
            ("| TOR-4 | A run by workers | `worker_pool::run`: `rows`; `worker_pool::run_summary`: `tables` |", ["worker_pool::run"]),
            ("- `fossil` (`is_early`, `commit`)", ["fossil::commit"]),
            ("- `process_exchange`: it never disagrees (`Held`)", ["process_exchange::Held::"]),
            ("A run has these tables. Of `worker_pool::run`, which no command calls: `rows`", []),
            ("- `worker_pool`: a parallel run has the tables of the one-thread run (`run_summary`: `run`)", []),
            ("- `bag_regulator`: frames leave a BAG apart (`releases`)", ["bag_regulator::releases"]),
            ("- `bag_regulator` (`BagRegulator`): frames leave a BAG apart (`releases`)", []),
            ("- `timers`: a timer comes at its moment (`timer_law`)", []),
            ("- `sample_actor`: an actor for tests (`Summing`)", []),
            ("Functions of `none::none`, and of `run` alone", []),
            ("    worker_pool::run is not in backticks here", []),
        ):
            with self.subTest(item=item):
                found = list(what_runs.faults_of_document(self.tree, "README.md", f"# Title\n\n{item}\n\nMore.\n"))
                self.assertEqual(len(found), len(said), found)
                for line, name in zip(found, said):
                    self.assertTrue(line.startswith(f"README.md:3: {name}"), line)

    def test_what_is_kept_is_listed(self):
        name, *_ = what_runs.KEPT
        reason = what_runs.KEPT.pop(name)
        try:
            found = list(what_runs.faults_of_document(self.tree, "README.md", f"No, no command calls `{name}`\n"))
        finally:
            what_runs.KEPT[name] = reason
        # It is in the program now, as far as this tree knows, so only a tree without it can tell.
        self.assertEqual(found, [f"README.md:1: {name} is not in the program, and not in KEPT of tools/gate/what_runs.py"])

    def test_a_kept_function_that_runs_is_reported(self):
        everything = Tree(Program(map(symbol, self.tree.functions)))
        self.assertEqual(len(list(what_runs.faults_of_kept(everything))), len(what_runs.KEPT))
        self.assertEqual(list(what_runs.faults_of_kept(self.tree)), [])

    def test_an_edit_of_what_no_command_calls(self):
        edit = "file: src/{}\nold: {}\nnew: none\n"
        for crate, path, old, said in (
            ("fossil", "collection.rt", "let count = process.committable(gvt, n as usize);", "it changes fossil::commit, which is not in the program"),
            ("fossil", "collection.rt", "none of these words", "what it changes is in no function"),
            ("reverse", "outbound.rt", "self.counter += 1;", None),
        ):
            with self.subTest(old=old):
                name = f"crates/{crate}/must-fail/it.edit"
                found = list(what_runs.faults_of_edits(self.tree, {name: edit.format(path, old)}))
                self.assertEqual(found, [f"{name}: {said}"] if said else [])


class OfTheProgram(unittest.TestCase):
    """The program that the gate has built."""

    @classmethod
    def setUpClass(cls):
        try:
            cls.tree = Tree(Program(what_runs.names_of()))
        except what_runs.NoNames as fault:
            raise unittest.SkipTest(str(fault))

    def test_libraries_are_called_at_their_places(self):
        self.assertEqual(list(what_runs.faults_of_places(self.tree)), [])

    def test_edits_change_what_runs(self):
        self.assertEqual(list(what_runs.faults_of_edits(self.tree)), [])

    def test_what_is_kept_does_not_run(self):
        self.assertEqual(list(what_runs.faults_of_kept(self.tree)), [])

    def test_documents_name_what_runs(self):
        for name in what_runs.HELD:
            self.assertEqual(list(what_runs.faults_of_document(self.tree, name, self.tree.text(name))), [])


if __name__ == "__main__":
    unittest.main()
