"""A second opinion of a run's journal: the world of docs/TIME-WARP.md, step by step.

The processes handle their messages as the plain simulator does (afdx second-opinion), which shares no code with the program. A process keeps
its state before each event, and goes back to it at a rollback, where the program undoes the event.
"""
import copy
import heapq
import pickle
from collections import deque
from collections.abc import Iterable, Iterator, Mapping
from typing import Any, NamedTuple

from afdx.runs.plain_simulator import BODIES, Port, Simulation

# A message: its moment in ns, receiver, sender, number, the number of its variant, and its fields. They compare as messages do.
Message = tuple[int, int, int, int, int, tuple[Any, ...]]
# A message with a sign.
Letter = tuple[int, Message]
# What a process changes as it handles a message.
STATE = ("regulators", "ports", "accounts", "checks", "delivered", "counters")


class Event(NamedTuple):
    """An event that is done: its message, the state before it, and what it sent."""

    message: Message
    before: bytes
    sent: list[Message]


class Actor(Simulation):
    """What handles the messages of one process."""

    sent: list[Message]

    @classmethod
    def of(cls, network: Simulation, process: int) -> "Actor":
        actor = cls.__new__(cls)
        actor.__dict__ = {**network.__dict__, **{name: {} for name in STATE}, "sent": [], "rows": []}
        actor.regulators = {vl: copy.deepcopy(it) for vl, it in network.regulators.items() if network.source.get(vl) == process}
        actor.ports = {place: Port() for place in network.out if place[0] == process}
        return actor

    def push(self, time: int, receiver: int, sender: int, number: int, variant: str, fields: tuple[Any, ...]) -> None:
        self.sent.append((time, receiver, sender, number, BODIES.index(variant), fields))

    def state(self) -> bytes:
        return pickle.dumps([getattr(self, name) for name in STATE])

    def go_back(self, state: bytes) -> None:
        for name, value in zip(STATE, pickle.loads(state)):
            setattr(self, name, value)


class Process:
    """One process: what it has done and not committed, the signed counts of its letters that arrived, and those in tray and outbox."""

    def __init__(self, actor: Actor, end: int) -> None:
        self.actor = actor
        self.end = end
        self.done: deque[Event] = deque()
        self.counts: dict[Message, int] = {}
        self.tray: deque[Letter] = deque()
        self.outbox: list[Letter] = []
        self.floor = end
        # Each unhandled message is here, and some that are none.
        self.waiting: list[Message] = []
        self.are_done: set[Message] = set()

    def next(self) -> Message | None:
        """The least unhandled message."""
        while self.waiting and (self.waiting[0] in self.are_done or self.counts.get(self.waiting[0], 0) <= 0):
            heapq.heappop(self.waiting)
        return self.waiting[0] if self.waiting else None

    def count(self, sign: int, message: Message) -> bool:
        """Counts a letter. The answer is whether its message became present, or stopped being present."""
        before = self.counts.pop(message, 0)
        if before + sign:
            self.counts[message] = before + sign
        return (before > 0) != (before + sign > 0)

    def arrive(self) -> None:
        sign, message = self.tray.popleft()
        if not self.count(sign, message):
            return
        self.roll_back(message)
        if sign > 0:
            heapq.heappush(self.waiting, message)

    def roll_back(self, message: Message) -> None:
        """Undoes each event that does not come before the message, the newest first."""
        while self.done and self.done[-1].message >= message:
            event = self.done.pop()
            self.are_done.discard(event.message)
            heapq.heappush(self.waiting, event.message)
            self.outbox += [(-1, it) for it in reversed(event.sent)]
            self.actor.go_back(event.before)

    def handle(self, message: Message) -> None:
        before, self.actor.sent = self.actor.state(), []
        self.actor.handle(message[0], message[1], BODIES[message[4]], message[5])
        self.done.append(Event(message, before, self.actor.sent))
        self.are_done.add(message)
        self.outbox += [(1, it) for it in self.actor.sent]

    def can_commit(self, gvt: int) -> bool:
        return bool(self.done) and self.done[0].message[0] < gvt and self.counts.get(self.done[0].message) == 1

    def commit(self) -> None:
        event = self.done.popleft()
        self.are_done.discard(event.message)
        self.count(-1, event.message)

    def least(self) -> int:
        """The least moment of what it has in hand: its tray and its unhandled messages."""
        first = self.next()
        return min([self.end, *(message[0] for _, message in self.tray), *([] if first is None else [first[0]])])


class World:
    """All processes, with their mail and GVT in ns."""

    def __init__(self, net: Mapping[str, Any]) -> None:
        network = Simulation(net)
        self.end = network.until + 1
        self.processes = [Process(Actor.of(network, process), self.end) for process in range(len(network.names))]
        self.mail: list[list[Letter]] = [[] for _ in self.processes]
        self.gvt = 0
        for message in sorted(network.heap):
            self.mail[message[1]].append((1, message))

    def is_enabled(self, step: str, at: list[int]) -> bool:
        if step == "G":
            return True
        process = self.processes[at[0]]
        if step == "T":
            return at[1] < len(self.mail[at[0]])
        if step == "A":
            return bool(process.tray)
        if step == "R":
            return process.next() is not None
        return step == "P" or process.can_commit(self.gvt)

    def take(self, step: str, at: list[int]) -> None:
        """Takes a step that is enabled."""
        if step == "G":
            moments = [self.end, *(process.floor for process in self.processes)]
            self.gvt = min(moments + [message[0] for letters in self.mail for _, message in letters])
            return
        process = self.processes[at[0]]
        if step == "T":
            letter = self.mail[at[0]].pop(at[1])
            process.tray.append(letter)
            process.floor = min(process.floor, letter[1][0])
        elif step == "A":
            process.arrive()
        elif step == "R":
            message = process.next()
            assert message is not None
            process.handle(message)
        elif step == "P":
            for letter in process.outbox:
                self.mail[letter[1][1]].append(letter)
            process.outbox = []
            process.floor = process.least()
        else:
            process.commit()

    def is_finished(self) -> bool:
        return self.gvt == self.end and not any(process.done for process in self.processes)


def faults(net: Mapping[str, Any], journal: Iterable[str], window_ns: int) -> Iterator[str]:
    """What a run with this window must not do, by its journal: a step that is not enabled, a message handled that is not earlier than GVT
    plus the window, and an end where not all is committed.

    A group handles messages by the GVT that it saw, and its block joins the journal later, so that GVT there is not lower."""
    world = World(net)
    for number, line in enumerate(journal, 1):
        step, *words = line.split()
        at = [int(word) for word in words]
        if not world.is_enabled(step, at):
            yield f"line {number}, {line.strip()}: the step is not enabled"
            return
        if step == "R":
            message = world.processes[at[0]].next()
            if message is not None and message[0] >= world.gvt + window_ns:
                yield f"line {number}, {line.strip()}: a message of {message[0]} ns is handled at GVT {world.gvt} ns, so beyond the window of {window_ns} ns"
        world.take(step, at)
    if not world.is_finished():
        yield "the journal ends before all is committed"
