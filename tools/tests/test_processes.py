"""Tests of a process of `process_queues`, its mail, floors and commits: a second process must give the same answers to scripts, written
ones and drawn ones. It keeps its letters as processes did before their counts stood in a map: in a list, in the order of their
messages, without opposite pairs. They need the built tests of crate `sample_actor`, where `rt ci` leaves them: one of these plays
the scripts of standard input. src/tests.rt there has the written ones, and src/tests/player.rt says what their words are."""
import bisect
import os
import random
import subprocess
import unittest
from collections import deque

from gate.refuse_memory import program_of
from tests.places import PATIENCE

PLAYER = program_of("sample_actor", "sample_actor_tests")
END = 10**15
PROCESSES = 3


class Exhausted(Exception):
    """The actor has too few numbers for what an event may send."""


class Process:
    """A process of the actor that adds up the moments of its messages and sends one message, five ns later, to process 1.
    A message is its moment and its sender, and what is sent has a moment and a number."""

    def __init__(self, counter=0):
        self.sum, self.counter = 0, counter
        # A message whose count is 3 has three plus letters here, one whose count is -2 two minus letters.
        self.letters, self.tray, self.outbox = [], deque(), []
        # A done event: its message, the state before it, and what it sent.
        self.done, self.committed = [], 0

    def count(self, message):
        return sum(sign for letter, sign in self.letters if letter == message)

    def tally(self, message, sign):
        if (message, -sign) in self.letters:
            self.letters.remove((message, -sign))
        else:
            bisect.insort(self.letters, (message, sign))

    def next(self):
        """The first present message that is not done."""
        done = [event[0] for event in self.done]
        return next((message for message, sign in self.letters if sign > 0 and message not in done), None)

    def arrive(self):
        if not self.tray:
            return None
        message, sign = self.tray.popleft()
        was_present = self.count(message) > 0
        self.tally(message, sign)
        undone = 0
        if was_present != (self.count(message) > 0):
            while self.done and self.done[-1][0] >= message:
                _, (self.sum, self.counter), sent = self.done.pop()
                self.outbox += [(letter, -1) for letter in reversed(sent)]
                undone += 1
        return undone

    def run(self):
        message = self.next()
        if message is None:
            return None
        if self.counter + 24 > 2**62:
            raise Exhausted
        before, sent = (self.sum, self.counter), []
        if message[0] + 5 <= END:
            sent.append((message[0] + 5, self.counter))
            self.counter += 1
        self.sum = (self.sum + message[0]) % 2**64
        self.outbox += [(letter, 1) for letter in sent]
        self.done.append((message, before, sent))
        return message[0]

    def committable(self, gvt, most):
        """How many done events, the oldest first, are earlier than GVT and have a count of 1."""
        count = 0
        while count < min(most, len(self.done)):
            message = self.done[count][0]
            if message[0] >= gvt or self.count(message) != 1:
                break
            count += 1
        return count

    def commit(self, gvt, most):
        count = self.committable(gvt, most)
        for message, _, _ in self.done[:count]:
            self.letters.remove((message, 1))
        del self.done[:count]
        self.committed += count
        return count

    def floor(self):
        message = self.next()
        return min([END + 1, *(letter[0][0] for letter in self.tray), *([message[0]] if message else [])])

    def undo_all(self):
        if self.done:
            self.sum, self.counter = self.done[0][1]
        return f"sum {self.sum} counter {self.counter}"


def letter_text(letter):
    """A letter of the outbox or the mail."""
    (moment, number), sign = letter
    return f"{'+' if sign > 0 else '-'}{moment}.{number}"


class Stage:
    """A process, the mail and the floors of three, and what each word of a script prints of them."""

    def __init__(self):
        self.process, self.mail, self.floors = Process(), [[] for _ in range(PROCESSES)], [END + 1] * PROCESSES

    def play(self, script):
        said = [word for call in script.split() for word in self.said_by(call)]
        return " ".join([*said, self.process.undo_all()])

    def said_by(self, word):
        process = self.process
        if word[0] in "+-":
            process.tray.append(read_letter(word))
            return []
        call, *rest = word.split(":")
        if call == "count":
            return [str(process.count(read_letter("+" + rest[0])[0]))]
        if call == "send":
            (moment, _), sign = read_letter(rest[1])
            self.mail[int(rest[0])].append(((moment, 0), sign))
            return []
        return self.said_by_call(call, [int(number) for number in rest])

    def said_by_call(self, call, numbers):
        process = self.process
        if call == "outbox":
            return [letter_text(letter) for letter in process.outbox]
        if call == "next":
            message = process.next()
            return [f"{message[0]}@{message[1]}" if message else "none"]
        if call == "post":
            self.mail[1] += process.outbox
            process.outbox = []
            return []
        if call == "take":
            process, place = numbers
            box = self.mail[process] if process < PROCESSES else []
            return [letter_text(box.pop(place)) if place < len(box) else "none"]
        if call == "set":
            self.floors[numbers[0]] = numbers[1]
            return []
        if call == "lower":
            self.floors[numbers[0]] = min(self.floors[numbers[0]], numbers[1])
            return []
        if call == "counter":
            self.process = Process(*numbers)
            return []
        if call.startswith("reserve"):
            return []
        try:
            answer = self.number(call, numbers)
        except Exhausted:
            return ["exhausted"]
        return ["none" if answer is None else str(answer)]

    def number(self, call, numbers):
        process = self.process
        if call == "horizon":
            return min([*self.floors, *(letter[0][0] for box in self.mail for letter in box)])
        if call == "oldest":
            return process.done[0][0][0] if process.done else None
        if call == "tray":
            return len(process.tray)
        if call == "committed":
            return process.committed
        if call == "rows":
            return 0
        if call == "seal":
            return process.commit(END + 2, 1)
        return getattr(process, call)(*numbers)


def read_letter(word):
    """A letter for process 0: its moment and sender, and its sign."""
    moment, _, sender = word[1:].partition("@")
    return (int(moment), int(sender or 2)), 1 if word[0] == "+" else -1


def drawn(random):
    """A script: letters for one of four moments from one of two senders, three times of four plus letters; calls; and looks.
    One process of the player plays all of them, where hypothesis would begin one for each example; so they are drawn here."""

    def moment():
        return random.choice((10, 20, 30, 40))

    def message():
        return f"{moment()}@{random.randrange(2)}"

    looks = ("tray", "outbox", "oldest", "next", "floor", "committed", "horizon")
    words = [f"counter:{2**62 - 25}"] if random.random() < 0.05 else []
    for _ in range(32):
        words.append(
            random.choices(
                (
                    random.choice("+++-") + message(),
                    "arrive",
                    "run",
                    "seal",
                    f"commit:{moment()}:2",
                    "post",
                    f"take:{random.randrange(PROCESSES)}:{random.randrange(2)}",
                    f"send:{random.randrange(PROCESSES)}:{random.choice('+-')}{moment()}",
                    f"set:{random.randrange(PROCESSES)}:{moment()}",
                    f"lower:{random.randrange(PROCESSES)}:{moment()}",
                ),
                (12, 8, 8, 2, 2, 1, 1, 1, 1, 1),
            )[0]
        )
        words.append(random.choice((*looks, f"count:{message()}", f"committable:{moment()}:9")))
    return " ".join(words)


def written():
    """The scripts of src/tests.rt, but those with words for the player alone and those of groups (`test_hands.py`), and what they print where no
    memory is refused."""
    with open(os.path.join(os.path.dirname(PLAYER), "..", "src", "tests.rt"), encoding="utf-8") as file:
        text = file.read().split('const SCRIPTS: &str = "')[1].split('";')[0]
    for script, _, said in (line.partition(" => ") for line in text.splitlines()):
        if said and not script.startswith(("alone", "back", "hand")):
            yield script.replace("arrive?", "arrive"), said.split(" | ")[0]


class Processes(unittest.TestCase):
    def test_the_second_process_prints_what_is_written(self):
        scripts = list(written())
        self.assertGreater(len(scripts), 40)
        for script, said in scripts:
            with self.subTest(script):
                self.assertEqual(Stage().play(script), said)

    def test_ten_thousand_drawn_scripts_print_the_same(self):
        if not os.path.isfile(PLAYER):
            self.fail(f"there is no program at {PLAYER}: `rt ci` at the top builds it")
        source = random.Random(1)
        scripts = [drawn(source) for _ in range(10_000)]
        run = subprocess.run(
            [PLAYER, "tests::scripts_of_standard_input_are_played"],
            input="".join(script + "\n" for script in scripts),
            capture_output=True,
            text=True,
            timeout=PATIENCE,
        )
        self.assertEqual(run.returncode, 0, run.stderr)
        lines = run.stdout.splitlines()
        for script, said in zip(scripts, lines, strict=False):
            self.assertEqual(said, Stage().play(script), script)
        self.assertGreaterEqual(len(lines), len(scripts))


if __name__ == "__main__":
    unittest.main()
