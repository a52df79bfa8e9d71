#!/usr/bin/env python3
"""Writes a journal of a network: the steps of a parallel run, one a line, as `afdxsim replay NET STEPS` reads them.

    afdx make-journal NET.toml [--turn N] [--window NS] > steps.txt

The processes take turns. In a turn a process commits its done events that are earlier than GVT, takes all letters of its mail, lets them
arrive, handles messages, the first of them first, and posts what it sends. It handles at most N messages, and only those that are
earlier than GVT plus the window. Once no process has such a message left, GVT is set again. At the end GVT is beyond the end, and every event
is committed, so that the run is finished. The two words mean what they mean for `afdxsim run`, whose default window is greater.

No letter comes late: a process handles a message only once all earlier ones were handled there. So no event is undone. afdx
second-opinion, which shares no code with the product, finds the events.
"""
import argparse
import collections
import heapq
import sys
from collections.abc import Iterator, Mapping
from typing import Any

from afdx import files
from afdx.model import description_faults
from afdx.runs.plain_simulator import BODIES, Simulation

# Its process, the event that sent its message, and who receives what it sends.
Event = tuple[int, int | None, list[int]]


class Journal(Simulation):
    """A simulation that lists its steps."""

    def __init__(self, net: Mapping[str, Any]) -> None:
        # For each process how many letters its mail has.
        self.mail: collections.Counter[int] = collections.Counter()
        # For each message that waits, which event of this window sent it.
        self.cause: dict[tuple[int, int], int] = {}
        self.sent: list[tuple[int, int, int]] = []
        # For each process how many of its done events are earlier than GVT and not committed.
        self.done: collections.Counter[int] = collections.Counter()
        super().__init__(net)
        self.mail.update(receiver for _, receiver, *_ in self.heap)

    def push(self, time: int, receiver: int, sender: int, number: int, *rest: Any) -> None:
        self.sent.append((receiver, sender, number))
        super().push(time, receiver, sender, number, *rest)

    def events_before(self, limit: int) -> list[Event]:
        """The events before a moment: of each its process, the event that sent its message, if it is one of these, and who receives what it
        sends."""
        events: list[Event] = []
        self.cause.clear()
        while self.heap and self.heap[0][0] < limit:
            time, process, sender, number, variant, fields = heapq.heappop(self.heap)
            self.sent = []
            self.handle(time, process, BODIES[variant], fields)
            for _, by, counted in self.sent:
                self.cause[by, counted] = len(events)
            events.append((process, self.cause.get((sender, number)), [receiver for receiver, _, _ in self.sent]))
        return events

    def turns(self, events: list[Event], most: int) -> Iterator[str]:
        """Has the processes take turns until all these events are done."""
        own: dict[int, collections.deque[int]] = collections.defaultdict(collections.deque)
        for place, (process, _, _) in enumerate(events):
            own[process].append(place)
        is_posted = [cause is None for _, cause, _ in events]
        children: dict[int, list[int]] = collections.defaultdict(list)
        for place, (_, cause, _) in enumerate(events):
            if cause is not None:
                children[cause].append(place)
        next_ones = collections.deque(process for process, places in own.items() if is_posted[places[0]])
        are_next = set(next_ones)
        while next_ones:
            process = next_ones.popleft()
            are_next.remove(process)
            yield from ["C %d" % process] * self.done.pop(process, 0)
            letters = self.mail.pop(process, 0)
            yield from ["T %d 0" % process] * letters
            yield from ["A %d" % process] * letters
            places = own[process]
            handled: list[int] = []
            while places and len(handled) < most and is_posted[places[0]]:
                handled.append(places.popleft())
            yield from ["R %d" % process] * len(handled)
            yield "P %d" % process
            reached = {process}
            for place in handled:
                self.mail.update(events[place][2])
                for child in children[place]:
                    is_posted[child] = True
                    reached.add(events[child][0])
            for it in sorted(reached):
                if it not in are_next and own[it] and is_posted[own[it][0]]:
                    next_ones.append(it)
                    are_next.add(it)

    def steps(self, most: int, window: int) -> Iterator[str]:
        yield "G"
        while self.heap:
            events = self.events_before(self.heap[0][0] + window)
            yield from self.turns(events, most)
            yield "G"
            self.done.update(process for process, _, _ in events)
        for process, count in sorted(self.done.items()):
            yield from ["C %d" % process] * count


@files.tool("afdx make-journal")
def main(arguments: list[str] | None = None) -> None:
    words = argparse.ArgumentParser(prog="afdx make-journal", description=__doc__, formatter_class=argparse.RawDescriptionHelpFormatter)
    words.add_argument("net", help="the network description (TOML)")
    words.add_argument("--turn", type=int, default=16, metavar="N", help="most messages that a process handles in one turn (default: 16)")
    words.add_argument("--window", type=int, default=100000, metavar="NS", help="only messages earlier than GVT plus this, in ns, are handled (default: 100000)")
    given = words.parse_args(arguments)
    if given.turn < 1 or given.window < 1:
        words.error("a turn has at least one message, and a window at least 1 ns")
    journal = Journal(description_faults.accepted(given.net).tree)
    files.write_out("".join(step + "\n" for step in journal.steps(given.turn, given.window)))


if __name__ == "__main__":
    sys.exit(main())
