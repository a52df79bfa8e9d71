"""The sequence numbers of a virtual link as a tap sees them: which frames were lost, repeated or swapped, and resets.

A source numbers its frames 0 after a reset, then 1 to 255, and 1 again (ARINC 664 Part 7).
"""
from collections import Counter

LOST, REPEATED, SWAPPED, RESET = "lost", "repeated", "swapped", "reset"
TROUBLES = (LOST, REPEATED, SWAPPED, RESET)
# Numbers that are more steps ahead than the first are behind, unless so many frames can have passed meanwhile. A frame that is later
# than the second number of steps is not known as the one that was missing.
MOST_AHEAD, MOST_LATE = 127, 64


def steps_from(last: int, number: int) -> int:
    """How many frames after one number the other comes next: 1 is the frame behind it, 0 the same number."""
    return number if last == 0 else (number - last) % 255


def number_after(last: int, steps: int) -> int:
    return (last + steps - 1) % 255 + 1


class SequenceNumbers:
    """Takes the numbers in their order. `counts` has how many frames there are of each trouble, `first` the packet of the first, `lost` and
    `repeated` how often each number was lost, or came again."""

    __slots__ = ("last", "behind", "missing", "counts", "first", "lost", "repeated")

    def __init__(self) -> None:
        self.last: int | None = None
        # The last number that came and was behind.
        self.behind: int | None = None
        self.missing: set[int] = set()
        self.counts: dict[str, int] = {}
        self.first: dict[str, int] = {}
        self.lost: Counter[int] = Counter()
        self.repeated: Counter[int] = Counter()

    def note(self, what: str, packet: int, count: int = 1) -> None:
        self.counts[what] = self.counts.get(what, 0) + count
        self.first.setdefault(what, packet)

    def take(self, number: int, packet: int, most: int, is_earlier: bool = False) -> None:
        """Takes a number, with that of its packet, and how many frames at most can have passed since the one before. `is_earlier`: by
        its time the frame was before that one, so the capture swapped the two, and not the network."""
        last = self.last
        if last is None:
            self.last = number
        elif number == 0:
            if last == 0:
                return self.note(REPEATED, packet)
            self.note(RESET, packet)
            self.go_on(0)
        else:
            self.step(steps_from(last, number), last, number, packet, most, is_earlier)

    def step(self, steps: int, last: int, number: int, packet: int, most: int, is_earlier: bool) -> None:
        if steps == 1:
            if self.missing:
                self.missing.discard(number)
            self.last, self.behind = number, None
        elif steps == 0:
            self.repeats(number, packet)
        elif number in self.missing:
            self.missing.discard(number)
            self.counts[LOST] -= 1
            self.lost[number] -= 1
            if not is_earlier:
                self.note(SWAPPED, packet)
        elif steps <= MOST_AHEAD or steps <= most:
            self.note(LOST, packet, steps - 1)
            ahead = [number_after(last, step) for step in range(1, steps)]
            self.lost.update(ahead)
            self.missing = {it for it in self.missing.union(ahead) if steps_from(it, number) <= MOST_LATE}
            self.last, self.behind = number, None
        elif self.behind is not None and steps_from(self.behind, number) == 1:
            # Two frames one behind the other: the source counts on from there.
            self.counts[REPEATED] -= 1
            self.repeated[self.behind] -= 1
            self.note(RESET, packet)
            self.go_on(number)
        else:
            self.repeats(number, packet)
            self.behind = number

    def repeats(self, number: int, packet: int) -> None:
        self.note(REPEATED, packet)
        self.repeated[number] += 1

    def go_on(self, number: int | None) -> None:
        """Goes on from a number, or from the next one that comes."""
        self.last, self.behind = number, None
        self.missing.clear()
