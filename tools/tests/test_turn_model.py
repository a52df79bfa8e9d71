"""Tests of turn_model.py: the end of a run can be reached from each of its states, and the model finds what is left out of it."""
import contextlib
import io
import unittest

from gate import modelled, turn_model
from gate.turn_groups import Groups, Network, Undone, drawn
from gate.turn_search import tried
from gate.turn_states import State, Worker
from gate.turn_steps import WRONG, Model

# One event, in group 0; and one that sends another to group 1.
ONE = Network(2, [(0, 2, None, 0, None)])
ONE_LETTER = Network(2, [(0, 1, None, 0, None), (1, 3, 0, 0, None)])
# Networks with few states, and the window.
SMALL = ((ONE, 1), (ONE, 4), (ONE_LETTER, 1))
MOST = 30_000


class TurnModel(unittest.TestCase):
    def found(self, network, window, **how):
        found = tried(Model(network, 2, window, **how), MOST)
        self.assertTrue(found.is_whole)
        return found

    def test_the_end_can_be_reached_from_each_state(self):
        for network, window in SMALL:
            with self.subTest(at=network.at, moment=network.moment, window=window):
                found = self.found(network, window)
                self.assertEqual(found.lost, 0)
                self.assertGreater(found.states, 5000)

    def test_without_the_wake_up_a_worker_may_sleep_for_ever(self):
        for network, window in SMALL[:2]:
            with self.subTest(at=network.at, moment=network.moment, window=window):
                found = self.found(network, window, has_wake_up=False)
                self.assertGreater(found.lost, 0)
                # The one worker helps with the group of the other, which finds its seat taken and goes to rest.
                self.assertLessEqual({"turn_of_others", "is_any_due"}, {step for _, step in found.trail})
        # A rest that ends after a while hides it.
        self.assertEqual(self.found(*SMALL[0], has_wake_up=False, has_timeouts=True).lost, 0)

    def test_a_run_that_stands_still_is_given_up(self):
        self.assertEqual(self.found(ONE, 1, has_wake_up=False, gives_up=True).lost, 0)

    def test_a_run_whose_start_failed_comes_to_its_end(self):
        for started in (0, 1):
            with self.subTest(started=started):
                self.assertEqual(self.found(ONE_LETTER, 1, started=started).lost, 0)

    def test_what_is_left_out_is_found(self):
        for wrong in WRONG:
            with self.subTest(wrong):
                started = 1 if wrong == "unwoken" else None
                self.assertGreater(self.found(ONE_LETTER, 1, wrong=(wrong,), started=started).lost, 0)

    def test_a_rollback_takes_back_what_was_sent(self):
        """Group 1 handles its event at 5, which sends one to group 0 where none at 3 was handled before; then that comes."""
        network = Network(2, [(1, 5, None, 0, 2), (0, 6, 0, 2, None), (1, 3, None, 0, None)])
        s, groups = Model(network, 2, 9).beginning(), Groups(network)
        s.trays[0] = (1, 0)
        self.assertEqual(groups.work(s, 1, 2, 9), 1)
        self.assertEqual((s.done, s.abroad[1]), ([True, False, False], (1, 0)))
        s.trays[2] = (1, 0)
        self.assertEqual(groups.work(s, 1, 9, 9), 2)
        self.assertEqual((s.done, s.abroad[1]), ([True, False, True], (1, 1)))
        s.committed[0], s.trays[2] = True, (0, 1)
        with self.assertRaises(Undone):
            groups.work(s, 1, 9, 9)

    def test_states_are_kept_apart(self):
        model = Model(drawn(2, 2, 3), 2, 1)
        s = model.beginning()
        other = s.copy(0)
        self.assertEqual(s.key(), other.key())
        for name in (*State.LISTS, *State.NUMBERS):
            other = s.copy(0)
            value = getattr(other, name)
            setattr(other, name, value + 1 if isinstance(value, int) else ["other", *value[1:]])
            self.assertNotEqual(s.key(), other.key(), name)
        for name in Worker.OWN:
            other = s.copy(1)
            setattr(other.workers[1], name, "other")
            self.assertNotEqual(s.key(), other.key(), name)

    def test_no_function_that_it_models_has_changed(self):
        """Where one has: compare it with its step, mend the model, and then run `python3 -m gate.modelled --write` in tools/."""
        kept, now = modelled.read(modelled.KEPT.read_text()), modelled.modelled()
        self.assertEqual(list(kept), list(now))
        for place, text in now.items():
            with self.subTest(place):
                self.assertTrue(text, "no such function")
                self.assertEqual(text, kept[place], self.test_no_function_that_it_models_has_changed.__doc__)

    def test_comments_and_clauses_are_no_part_of_it(self):
        source = "impl A {\n    /// Says.\n    fn one(&self)\n        requires { a }\n        ensures some { b }\n    {\n        // Why.\n        two();\n    }\n}\nfn oner() {}\n"
        self.assertEqual(modelled.functions_of(source, "one"), ["fn one(&self)\n{\n    two();\n}"])
        self.assertEqual(modelled.changed({"a: b": "fn b() {}"}, {"a: b": "fn b() {}", "a: c": ""}), ["a: c"])

    def test_it_reports_each_network(self):
        for words, status, lines in (
            (["--events", "1"], 0, r"network 3: \d{4,5} states, 0 cannot come to the end"),
            (["--events", "1", "--without-wake-up", "--trail"], 1, r"network 3: \d{4,5} states, [1-9]\d* cannot come to the end(\n  worker [01]: \w+)+"),
            (["--most", "100"], 1, "network 3: 101 states, not all were listed"),
        ):
            out = io.StringIO()
            with contextlib.redirect_stdout(out):
                self.assertEqual(turn_model.main([*words, "--first", "3", "--networks", "1"]), status)
            self.assertRegex(out.getvalue(), f"^{lines}\n$")


if __name__ == "__main__":
    unittest.main()
