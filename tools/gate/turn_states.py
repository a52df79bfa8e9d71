"""A state of a small run: what all workers see, what each group has, and the workers."""
import operator

from gate.turn_groups import Letters, NEVER

# In the place of the numbers of `turns`, small ones: how far ahead events are due, how many a turn and a piece of it have, when a
# group posts, when it sees GVT, and how many looks in vain lead to what.
LEAD, TURN, PIECE, MOST_UNPOSTED, MOST_WITH_LETTERS, BEHIND = 2, 2, 1, 2, 1, 3
SECTIONS_PER_GVT, LOOKS_PER_GVT, LOOKS_BEFORE_POST, LOOKS_BEFORE_HELP, LOOKS_BEFORE_REST = 2, 1, 1, 1, 2


class State:
    """What all see, what each group has, and the workers. Letters are two numbers: how many plus and how many minus ones."""

    LISTS = (
        "next_ns", "letter_ns", "rests", "seats", "floors", "boxes", "trays", "abroad", "counts", "done", "otherwise", "committed",
        "blocks", "seen", "unposted", "seat_next", "deques",
    )
    NUMBERS = ("resting", "gvt_ns", "gvt", "sections", "stop")
    __slots__ = (*LISTS, *NUMBERS, "workers")
    next_ns: list[int]
    letter_ns: list[int]
    rests: list[bool]
    seats: list[int | None]
    floors: list[int]
    boxes: list[Letters]
    trays: list[Letters]
    abroad: list[Letters]
    counts: list[int]
    done: list[bool]
    otherwise: list[int]
    committed: list[bool]
    blocks: list[bool]
    seen: list[int]
    unposted: list[int]
    seat_next: list[int]
    deques: list[tuple[int, ...]]
    resting: int
    gvt_ns: int
    gvt: int
    sections: int
    stop: bool
    workers: list["Worker"]

    def copy(self, number: int | None) -> "State":
        """The same, in which this worker, if one is given, is a copy too."""
        other = State.__new__(State)
        for name, values in zip(State.LISTS, LISTS_OF(self)):
            setattr(other, name, values[:])
        other.resting, other.gvt_ns, other.gvt, other.sections, other.stop = NUMBERS_OF(self)
        other.workers = self.workers[:]
        if number is not None:
            other.workers[number] = self.workers[number].copy()
        return other

    def key(self) -> tuple[object, ...]:
        return *map(tuple, LISTS_OF(self)), *NUMBERS_OF(self), *[(*OWN_OF(it), *it.letters) for it in self.workers]


class Worker:
    """Where a worker is, and what it knows."""

    OWN = (
        "at", "group", "place", "is_own", "worked", "has_worked", "handled", "limit", "other_limit", "looks", "patience", "then",
        "is_parked", "behind_wakes", "round_limit", "listed", "order", "begun", "stole",
    )
    __slots__ = (*OWN, "letters")
    at: str
    group: int
    place: int
    is_own: bool
    worked: bool
    has_worked: bool
    handled: int
    limit: int
    other_limit: int
    looks: int
    patience: int
    then: str | None
    is_parked: bool
    behind_wakes: str | None
    round_limit: int
    listed: int
    order: tuple[int, ...]
    begun: bool
    stole: bool
    letters: list[int]

    def __init__(self, groups: int) -> None:
        self.at, self.looks, self.patience, self.is_parked = "turns_until_over", 0, LOOKS_BEFORE_HELP, False
        self.letters = [NEVER] * groups
        self.forget()

    def forget(self) -> None:
        """What is not needed any more is the same in all states."""
        self.group = self.place = self.handled = self.limit = self.other_limit = 0
        self.is_own = self.worked = self.has_worked = False
        self.then = self.behind_wakes = None
        self.round_limit = self.listed = 0
        self.order = ()
        self.begun = self.stole = False

    def copy(self) -> "Worker":
        other = Worker.__new__(Worker)
        for name, value in zip(Worker.OWN, OWN_OF(self)):
            setattr(other, name, value)
        other.letters = self.letters[:]
        return other


LISTS_OF, NUMBERS_OF, OWN_OF = (operator.attrgetter(*it) for it in (State.LISTS, State.NUMBERS, Worker.OWN))
