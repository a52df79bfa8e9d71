"""Tests of groups of processes (crate `group_hand`). Single processes that do, one by one, the steps in the block of a group must come to
the same, in written scripts and in drawn ones. The tests compare of both which message is next, the floor, the letters for others, the
rows of committed events and the states. They need the built tests of crate `sample_actor`, where `rt ci` leaves them: one of these plays the
scripts of standard input. src/tests/hands.rt there says what their words are."""
import os
import random
import subprocess
import unittest
from collections import deque

from gate.refuse_memory import program_of
from tests.places import PATIENCE

PLAYER = program_of("sample_actor", "sample_actor_tests")
END = 10**15
RECEIVERS = 5
STEPS = {"R": 2, "H": 2, "T": 1, "A": 2, "C": 1}


class Process:
    """A process that adds up the moments of its messages and passes each on twice. A message is its moment, receiver, sender and number."""

    def __init__(self, number):
        self.number, self.sum, self.counter = number, 0, 0
        self.counts, self.tray, self.outbox = {}, deque(), []
        # A done event: its message, the state before it, and what it sent.
        self.done, self.committed = [], []

    def next(self):
        """The first present message that is not done."""
        done = {event[0] for event in self.done}
        return min((message for message, count in self.counts.items() if count > 0 and message not in done), default=None)

    def arrive(self):
        message, sign = self.tray.popleft()
        count = self.counts.get(message, 0)
        self.counts[message] = count + sign
        undone = 0
        if (count > 0) != (count + sign > 0):
            while self.done and self.done[-1][0] >= message:
                _, (self.sum, self.counter), sent = self.done.pop()
                self.outbox += [(letter, -1) for letter in reversed(sent)]
                undone += 1
        return undone

    def run(self):
        message = self.next()
        before, sent = (self.sum, self.counter), []
        for moment in (message[0] + 5, message[0] + 7):
            if moment <= END:
                sent.append((moment, moment % RECEIVERS, self.number, self.counter))
                self.counter += 1
        self.sum = (self.sum + message[0]) % 2**64
        self.outbox += [(letter, 1) for letter in sent]
        self.done.append((message, before, sent))
        return message

    def commit(self):
        """The oldest done event is committed; its message has to count once."""
        message = self.done.pop(0)[0]
        assert self.counts[message] == 1, "a message that counts other than once was committed"
        del self.counts[message]
        self.committed.append(message)
        return message


class Group:
    """Processes that do the steps that a group prints, and what was printed of it."""

    def __init__(self, members):
        self.processes = {number: Process(number) for number in range(members)}
        self.mail = {number: deque() for number in range(RECEIVERS)}
        self.committed, self.steps = [], 0

    def post(self, process):
        for letter in process.outbox:
            self.mail[letter[0][1]].append(letter)
        process.outbox = []

    def step(self, said):
        process = self.processes[int(said[1:])]
        if said[0] == "R":
            process.run()
            self.post(process)
        elif said[0] == "H":
            assert not process.tray, "a letter waits before one that arrives at once"
            process.tray.append(self.mail[process.number].popleft())
            assert process.arrive() == 0, "a letter that arrived at once undid something"
        elif said[0] == "T":
            process.tray.append(self.mail[process.number].popleft())
        elif said[0] == "A":
            process.arrive()
            self.post(process)
        else:
            self.committed.append(process.commit())

    def is_done(self, message):
        return any(event[0] == message for event in self.processes[message[1]].done)

    def counts_again(self, moment):
        """Whether a message that is done at this moment came more than once."""
        return any(message[0] == moment and process.counts[message] > 1 for process in self.processes.values() for message, _, _ in process.done)

    def next(self):
        """The first message of all."""
        return min((message for process in self.processes.values() if (message := process.next())), default=None)

    def floor(self):
        message = self.next()
        waiting = [letter[0][0] for process in self.processes.values() for letter in process.tray]
        return min([END + 1, *waiting, *([message[0]] if message else [])])

    def look(self, call, numbers, answer):
        """What the group answered, against the processes."""
        if call == "next":
            seen = None if answer == ["none"] else read_message(answer[0])
            assert seen == self.next() or (seen and self.is_done(seen)), "the next message"
        elif call == "floor":
            floor = int(answer[0])
            assert floor == self.floor() or (floor < self.floor() and self.counts_again(floor)), "the floor"
        elif call == "exact":
            assert int(answer[0]) == self.floor(), "the floor, exact"
        elif call == "before":
            moments = [event[0][0] for process in self.processes.values() for event in process.done]
            early = any(moment < numbers[0] for moment in moments)
            assert answer == ["yes" if early else "no", str(min(moments)) if moments else "none"], "what is done before"
        elif call == "steps":
            assert int(answer[0]) == self.steps, "the number of steps"
        elif call == "gone":
            while self.committed and self.committed[0][0] < numbers[0]:
                self.committed.pop(0)
        elif call == "abroad":
            abroad = [(read_message(letter[1:]), 1 if letter[0] == "+" else -1) for letter in answer]
            for number, box in self.mail.items():
                assert [letter for letter in abroad if letter[0][1] == number] == list(box), "the letters for others"
                box.clear()
        elif call == "rows":
            assert [read_message(row) for row in answer] == self.committed, "the rows"
        elif call == "states":
            assert answer == [f"{process.sum}.{process.counter}" for process in self.processes.values()], "the states"
        elif call == "arrive":
            assert not any(process.tray for process in self.processes.values()), "a letter waits"
        elif call == "run" and answer == ["idle"]:
            message = self.next()
            assert message is None or message[0] >= numbers[0], "a message is earlier than the limit"

    def after(self, word, said):
        """What came of one word of a script."""
        if word[0] in "+-":
            message, sign = read_message(word[1:]), 1 if word[0] == "+" else -1
            if message[1] in self.processes:
                self.processes[message[1]].tray.append((message, sign))
        steps = [token for token in said if token[0] in STEPS]
        self.steps += sum(STEPS[token[0]] for token in steps)
        for step in steps:
            self.step(step)
        for number in self.processes:
            assert not self.mail[number], "a letter home was not taken"
        call, *numbers = word.split(":")
        self.look(call, [int(number) for number in numbers], [token for token in said if token[0] not in STEPS])


def follow(script, said):
    """Plays on single processes what was printed of the script."""
    words, tokens = script.split(), iter(said.split())
    group = Group(int(words[0].split(":")[1]))
    for word in words[1:]:
        group.after(word, list(iter(lambda: next(tokens), ".")))
    assert next(tokens, None) is None, "more was printed than asked"
    return group


def read_message(written):
    """A moment and a receiver, and a sender and a number where they are named."""
    moment, receiver, *more = (int(number) for number in written.split(":"))
    sender, number = [*more, 9, 0][:2] if more else (9, 0)
    return moment, receiver, sender, number


def drawn(source, kind):
    """A script. In the first kind letters come in any order, as many as they like, also such as only members send; in the second each message
    comes once, is taken back at most once, and nothing is earlier than what was committed."""
    members, gvt, came, words = source.randrange(1, 5), 0, [], []
    for _ in range(40):
        what = source.randrange(10)
        if what < 4:
            words.append(any_letter(source, members) if kind == 0 else lawful_letter(source, members, gvt, came))
        elif what < 6:
            words.append("arrive")
        elif what < 9:
            words.append(f"run:{source.choice((20, 40, 60, 90))}")
        else:
            gvt += source.randrange(6) if kind else 0
            words += ["arrive", f"commit:{gvt if kind else source.randrange(60)}"]
        words.append(source.choice(("next", "floor", "exact", "abroad", "rows", "states", "steps", f"before:{source.randrange(60)}")))
        if source.randrange(20) == 0:
            words.append(f"gone:{gvt if kind else source.randrange(60)}")
    return " ".join([f"hand:{members}", *words, "arrive", "floor", "abroad", "rows", "states"])


def any_letter(source, members):
    sign = source.choice("+++-")
    if source.random() < 0.4:
        moment = 5 + source.randrange(30)
        return f"{sign}{moment}:{moment % RECEIVERS}:{source.randrange(members)}:{source.randrange(4)}"
    return f"{sign}{1 + source.randrange(30)}:{source.randrange(members)}:9:{source.randrange(2)}"


def lawful_letter(source, members, gvt, came):
    if came and source.random() < 0.25:
        letter = came.pop(source.randrange(len(came)))
        if letter[0] >= gvt:
            return "-{}:{}:9:{}".format(*letter)
    letter = (gvt + source.randrange(30), source.randrange(members), source.randrange(10**6))
    came.append(letter)
    return "+{}:{}:9:{}".format(*letter)


def play(player, scripts):
    run = subprocess.run(
        [*player, "tests::scripts_of_standard_input_are_played"],
        input="".join(script + "\n" for script in scripts),
        capture_output=True,
        text=True,
        timeout=PATIENCE,
    )
    return run


class Hands(unittest.TestCase):
    def test_ten_thousand_drawn_scripts_are_steps_of_single_processes(self):
        if not os.path.isfile(PLAYER):
            self.fail(f"there is no program at {PLAYER}: `rt ci` at the top builds it")
        source = random.Random(1)
        scripts = [drawn(source, place % 2) for place in range(10_000)]
        run = play([PLAYER], scripts)
        self.assertEqual(run.returncode, 0, run.stderr)
        lines = run.stdout.splitlines()
        for script, said in zip(scripts, lines, strict=False):
            with self.subTest(script, said=said):
                follow(script, said)
        self.assertGreaterEqual(len(lines), len(scripts))


if __name__ == "__main__":
    unittest.main()
