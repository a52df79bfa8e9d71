"""Lists all states of a small run, and finds those from which its end cannot be reached."""
from typing import NamedTuple

from gate.turn_states import State
from gate.turn_steps import Model

# A worker and its step; and the state before one, None at the beginning.
Step = tuple[int, str]
Parent = tuple[int, int, str] | None


class Found(NamedTuple):
    """What a search found: how many states there are, how many of them cannot come to the end, whether all were listed, and the
    way to the first of those that cannot: the worker and its step, each time."""

    states: int
    lost: int
    is_whole: bool
    trail: list[Step]


def tried(model: Model, most: int) -> Found:
    """Lists all states, breadth first, up to a number, and finds out from which of them the end can be reached."""
    beginning = model.beginning()
    numbers = {beginning.key(): 0}
    states: list[State | None] = [beginning]
    before: list[list[int]] = [[]]
    parents: list[Parent] = [None]
    ends: list[int] = []
    for at, state in enumerate(states):
        assert state is not None
        if len(states) > most:
            return Found(len(states), 0, False, [])
        states[at] = None
        if model.is_end(state):
            ends.append(at)
        for number in range(model.count + 1):
            step = "give_up" if number == model.count else state.workers[number].at
            after = model.after(state, number)
            if after is None:
                continue
            key = after.key()
            found = numbers.get(key)
            if found is None:
                found = numbers[key] = len(states)
                states.append(after)
                before.append([])
                parents.append((at, number, step))
            before[found].append(at)
    return Found(len(states), *lost_of(before, ends, parents))


def lost_of(before: list[list[int]], ends: list[int], parents: list[Parent]) -> tuple[int, bool, list[Step]]:
    """How many states cannot come to the end; True; and the way to the first one."""
    reaches = [False] * len(before)
    for end in ends:
        reaches[end] = True
    for at in ends:
        for one in before[at]:
            if not reaches[one]:
                reaches[one] = True
                ends.append(one)
    first = next((at for at, it in enumerate(reaches) if not it), None)
    trail: list[Step] = []
    place = first
    while place and (parent := parents[place]):
        place, number, step = parent
        trail.insert(0, (number, step))
    return reaches.count(False), True, trail
