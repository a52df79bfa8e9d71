"""A small network of events in groups, and what is done with a group: what `meet` and `handle` of a run do, as the exchange
(`crates/group_exchange`) and the hand (`crates/group_hand`) do it. tools/gate/turn_steps.py has the workers."""
import random
from collections.abc import Sequence
from typing import Any, Protocol

NEVER = 255
# How many plus and how many minus letters.
Letters = tuple[int, int]
# The group, the moment, the sender, the sort of sending and `before`.
Row = tuple[int, int, int | None, int, int | None]


class Seen(Protocol):
    """What is seen here of a state of a run."""

    counts: list[int]
    done: list[bool]
    otherwise: list[int]
    committed: list[bool]
    boxes: list[Letters]
    trays: list[Letters]
    abroad: list[Letters]
    blocks: list[bool]
    floors: list[int]
    seen: list[int]
    gvt: int


class Network:
    """A few events in groups. `children[0]` has those that each event sends where its own `before` was handled, or it has none,
    and `children[1]` those that it sends else."""

    def __init__(self, groups: int, rows: Sequence[Row]) -> None:
        """A row has the group, the moment, the event that sends it or None, the sort of sending (0 always, 1 where the sender's
        `before` was handled, 2 where not), and `before` or None."""
        self.groups = groups
        self.at = [row[0] for row in rows]
        self.moment = [row[1] for row in rows]
        # Who asks for the sender of letters knows that there is one.
        self.sender: list[Any] = [row[2] for row in rows]
        self.before = [row[4] for row in rows]
        self.until = max(self.moment)
        numbers = range(len(rows))
        self.children = [
            [[e for e in numbers if rows[e][2] == sender and rows[e][3] != other] for sender in numbers] for other in (2, 1)
        ]
        self.order = sorted(numbers, key=lambda e: (self.moment[e], e))
        self.rank = [self.order.index(e) for e in numbers]
        self.of_group = [[e for e in self.order if self.at[e] == group] for group in range(groups)]


def drawn(groups: int, events: int, seed: int) -> Network:
    """A network of a number of events."""
    draw = random.Random(seed)
    rows: list[Row] = []
    for event in range(events):
        sender = None if not event or draw.random() < 0.33 else draw.randrange(event)
        moment = draw.randint(1, 8) if sender is None else rows[sender][1] + draw.randint(1, 4)
        group = draw.randrange(groups)
        earlier = [e for e in range(event) if rows[e][0] == group and rows[e][1] < moment]
        before = draw.choice(earlier) if earlier and draw.random() < 0.5 else None
        rows.append((group, moment, sender, draw.randrange(3), before))
    return Network(groups, rows)


def more(letters: Letters, others: Letters) -> Letters:
    return letters[0] + others[0], letters[1] + others[1]


class Undone(Exception):
    """What must never be: a committed event is undone, or GVT falls."""


class Groups:
    """What is done with a group, as the exchange and the hand do it."""

    def __init__(self, network: Network) -> None:
        self.network = network

    def first(self, s: Seen, group: int) -> int | None:
        """The first of its messages that wait, or None."""
        return next((e for e in self.network.of_group[group] if s.counts[e] >= 1 and not s.done[e]), None)

    def next_moment(self, s: Seen, group: int) -> int:
        event = self.first(s, group)
        return NEVER if event is None else self.network.moment[event]

    def letters_moment(self, s: Seen, group: int) -> int:
        """The least moment of its letters for others."""
        network = self.network
        sent = (e for e, letters in enumerate(s.abroad) if letters != (0, 0) and network.at[network.sender[e]] == group)
        return min((network.moment[e] for e in sent), default=NEVER)

    def post(self, s: Seen, group: int, listed: list[int]) -> None:
        """What it did goes to the journal, its letters into the boxes; `listed` gets the least moment for each group."""
        if not s.blocks[group]:
            return
        network = self.network
        for e, letters in enumerate(s.abroad):
            if letters != (0, 0) and network.at[network.sender[e]] == group:
                listed[network.at[e]] = min(listed[network.at[e]], network.moment[e])
                s.boxes[e] = more(s.boxes[e], letters)
                s.abroad[e] = (0, 0)
        moments = [network.moment[e] for e in network.of_group[group] if s.trays[e] != (0, 0)]
        s.floors[group] = min([self.next_moment(s, group), network.until + 1, *moments])
        s.blocks[group] = False

    def publish(self, s: Seen) -> None:
        """GVT is set, in the exchange."""
        moments = [self.network.moment[e] for e, letters in enumerate(s.boxes) if letters != (0, 0)]
        gvt = min(s.floors + moments)
        if gvt < s.gvt:
            raise Undone("GVT falls")
        s.gvt = gvt

    def collect(self, s: Seen, group: int) -> None:
        """The letters of its box come to its tray."""
        for e in self.network.of_group[group]:
            if s.boxes[e] != (0, 0):
                s.trays[e] = more(s.trays[e], s.boxes[e])
                s.boxes[e] = (0, 0)
                s.floors[group] = min(s.floors[group], self.network.moment[e])
        s.seen[group] = s.gvt

    def send(self, s: Seen, event: int, sign: int) -> None:
        """What an event sends is sent, or taken back."""
        network = self.network
        for child in network.children[s.otherwise[event]][event]:
            if network.at[child] == network.at[event]:
                s.counts[child] += sign
            else:
                s.abroad[child] = more(s.abroad[child], (1, 0) if sign > 0 else (0, 1))

    def roll_back(self, s: Seen, group: int, event: int) -> None:
        """Undoes what it did from this event on, the newest first."""
        network = self.network
        for e in reversed(network.of_group[group]):
            if network.rank[e] < network.rank[event]:
                return
            if s.done[e]:
                if s.committed[e] or network.moment[e] < s.seen[group]:
                    raise Undone("a committed event is undone")
                s.done[e] = False
                self.send(s, e, -1)
                s.otherwise[e] = 0

    def arrive(self, s: Seen, group: int) -> None:
        """All letters of the tray arrive."""
        for e in self.network.of_group[group]:
            if s.trays[e] != (0, 0):
                before = s.counts[e]
                s.counts[e] += s.trays[e][0] - s.trays[e][1]
                s.trays[e] = (0, 0)
                s.blocks[group] = True
                if (before < 1) != (s.counts[e] < 1):
                    self.roll_back(s, group, e)

    def work(self, s: Seen, group: int, most: int, limit: int) -> int:
        """`group_exchange::work`: letters arrive, messages before the limit are handled, up to a number, events are committed.
        The answer is how many were handled."""
        network = self.network
        self.arrive(s, group)
        handled = 0
        while handled < most and self.next_moment(s, group) < min(limit, network.until + 1):
            event = self.first(s, group)
            assert event is not None
            before = network.before[event]
            s.otherwise[event] = int(before is not None and not s.done[before])
            s.done[event] = s.blocks[group] = True
            self.send(s, event, 1)
            handled += 1
        for e in network.of_group[group]:
            if s.done[e] and not s.committed[e] and network.moment[e] < s.seen[group]:
                s.committed[e] = s.blocks[group] = True
        return handled
