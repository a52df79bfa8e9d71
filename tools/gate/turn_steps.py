"""The steps of the workers of a small run; the head of tools/gate/turn_model.py names the code that each one models."""
from collections.abc import Collection

from gate.turn_groups import Groups, NEVER, Network
from gate.turn_states import (
    BEHIND, LEAD, LOOKS_BEFORE_HELP, LOOKS_BEFORE_POST, LOOKS_BEFORE_REST, LOOKS_PER_GVT, MOST_UNPOSTED, MOST_WITH_LETTERS, PIECE, SECTIONS_PER_GVT,
    TURN, State, Worker,
)

# What a worker does for itself alone, at once behind the step before.
SILENT = ("own_turns", "behind_turn")

# What can be left out of the code, to see that the model finds it.
WRONG = {
    "mute": "call_all reports the letters to no group",
    "blind": "is_to_meet does not look at letters",
    "unposted": "a turn never ends with a meeting, and what is not due is never posted",
    "unwoken": "where a start fails or a run stands still, the workers are to stop, and nobody wakes those that rest",
}


class Model:
    """The steps of the workers, each a method, which changes a state of its own."""

    def __init__(
        self, network: Network, workers: int, window: int, has_wake_up: bool = True, has_timeouts: bool = False, gives_up: bool = False,
        wrong: Collection[str] = (), started: int | None = None,
    ) -> None:
        """Of the workers only the first `started` start, if it is given: then the calling thread gives them up."""
        self.network, self.count, self.window = network, workers, window
        self.started = workers if started is None else started
        self.groups = Groups(network)
        self.has_wake_up, self.has_timeouts, self.wrong = has_wake_up, has_timeouts, wrong
        self.gives_up = gives_up or self.started < workers

    def beginning(self) -> State:
        network, s = self.network, State.__new__(State)
        groups, events = network.groups, len(network.at)
        s.next_ns, s.letter_ns, s.seats = [NEVER] * groups, [0] * groups, [None] * groups
        s.floors, s.blocks, s.seen = [network.until + 1] * groups, [False] * groups, [0] * groups
        s.unposted, s.seat_next = [0] * groups, [NEVER] * groups
        s.boxes = [(1, 0) if sender is None else (0, 0) for sender in network.sender]
        s.trays, s.abroad = [(0, 0)] * events, [(0, 0)] * events
        s.counts, s.done, s.otherwise, s.committed = [0] * events, [False] * events, [0] * events, [False] * events
        s.rests = [False] * self.count
        s.deques = [()] * self.count
        s.resting = s.gvt_ns = s.gvt = s.sections = 0
        s.stop = False
        s.workers = [Worker(groups) for _ in range(self.count)]
        for worker in s.workers[self.started:]:
            worker.at = "ended"
        return s

    def is_end(self, s: State) -> bool:
        return all(worker.at == "ended" for worker in s.workers)

    def after(self, state: State, number: int) -> State | None:
        """The state after the next step of a worker, or None where it cannot step."""
        if number == self.count:
            return self.after_giving_up(state)
        me = state.workers[number]
        if me.at == "ended" or me.at == "asleep" and me.is_parked and not self.has_timeouts:
            return None
        s = state.copy(number)
        me = s.workers[number]
        getattr(self, me.at)(s, me, number)
        while me.at in SILENT:
            getattr(self, me.at)(s, me, number)
        return s

    def after_giving_up(self, state: State) -> State | None:
        """The state after the calling thread gives the workers up, at any moment: they are to stop, and are woken. It does so where a
        run stands still, and where a worker could not be started."""
        if not self.gives_up or state.stop:
            return None
        s = state.copy(None)
        s.stop = True
        for number in range(self.count if "unwoken" not in self.wrong else 0):
            self.wake_worker(s, number)
        return s

    # ---- report.rt, moments.rt ----

    def owner(self, group: int) -> int:
        return group % self.count

    def limit(self, s: State) -> int:
        return NEVER if self.network.groups == 1 else min(NEVER, min(s.next_ns + s.letter_ns) + LEAD)

    def is_over(self, s: State) -> bool:
        return s.stop or s.gvt_ns > self.network.until

    def waits_for_gvt(self, s: State, group: int) -> bool:
        return s.seat_next[group] >= s.seen[group] + self.window

    def is_due(self, s: State, group: int, limit: int) -> bool:
        return s.seat_next[group] < limit and not self.waits_for_gvt(s, group)

    def first(self, s: State, group: int) -> int:
        return min(s.next_ns[group], s.letter_ns[group])

    def is_told_due(self, s: State, group: int, limit: int) -> bool:
        return self.first(s, group) < limit

    def is_to_meet(self, s: State, group: int, limit: int, looks: int) -> bool:
        if s.unposted[group] >= MOST_UNPOSTED:
            return True
        if "blind" not in self.wrong and s.letter_ns[group] <= s.seat_next[group] and s.letter_ns[group] < limit:
            return True
        if self.is_due(s, group, limit):
            return False
        if s.seat_next[group] < limit:
            return s.blocks[group] or s.gvt_ns > s.seen[group]
        is_late = "unposted" not in self.wrong and (looks >= LOOKS_BEFORE_POST or self.window < LEAD)
        return s.gvt_ns >= s.seen[group] + BEHIND or is_late and s.blocks[group]

    # ---- worker.rt ----

    def turns_until_over(self, s: State, me: Worker, number: int) -> None:
        me.forget()
        me.at = "end" if self.is_over(s) else "own_turns"

    def own_turns(self, s: State, me: Worker, number: int) -> None:
        """The next group of its own, or what follows behind them."""
        if not me.begun:
            me.at = "begin_round"
        elif me.place < len(me.order):
            me.at = "next_own"
        elif me.has_worked:
            me.looks, me.patience = 0, min(LOOKS_BEFORE_HELP, me.patience + 1)
            me.at = "turns_until_over"
        else:
            me.forget()
            me.at = "turn_of_others" if me.looks >= me.patience else "found_nothing"

    def begin_round(self, s: State, me: Worker, number: int) -> None:
        me.begun, me.round_limit = True, self.limit(s)
        own = [group for group in range(self.network.groups) if self.owner(group) == number]
        me.order = tuple(sorted(own, key=lambda group: self.first(s, group)))
        due = tuple(group for group in me.order if self.first(s, group) < me.round_limit)
        s.deques[number] = s.deques[number] + due
        me.listed, me.at = len(due), "own_turns"

    def next_own(self, s: State, me: Worker, number: int) -> None:
        if me.place < me.listed:
            me.place += 1
            if not s.deques[number]:
                me.at = "own_turns"
                return
            me.group, s.deques[number] = s.deques[number][0], s.deques[number][1:]
        else:
            me.group, me.place = me.order[me.place], me.place + 1
        me.is_own, me.at = True, "turn_of"

    def turn_of(self, s: State, me: Worker, number: int) -> None:
        group, me.at = me.group, "behind_turn"
        if s.seats[group] is None:
            s.seats[group] = number
            limit = me.round_limit if me.is_own else me.other_limit
            if self.is_to_meet(s, group, limit, me.looks):
                me.at, me.then = "meet", "handle_due"
            else:
                me.at = "handle_due" if self.is_due(s, group, limit) else "give_back"
            me.limit = self.limit(s)

    def behind_turn(self, s: State, me: Worker, number: int) -> None:
        worked, me.worked, me.limit, me.at = me.worked, False, 0, "own_turns"
        if me.is_own:
            me.has_worked |= worked
        elif worked:
            me.patience //= 2
            me.looks, me.at = me.patience, "turns_until_over"
        else:
            if me.stole:
                me.stole, me.place = False, 0
            me.at = "look_at_others"

    def turn_of_others(self, s: State, me: Worker, number: int) -> None:
        me.other_limit = self.limit(s)
        others = [group for group in range(self.network.groups) if self.owner(group) != number and self.first(s, group) < me.other_limit]
        if not others:
            me.forget()
            me.at = "found_nothing"
            return
        me.group, me.at = min(others, key=lambda group: self.first(s, group)), "steal"

    def steal(self, s: State, me: Worker, number: int) -> None:
        victim = self.owner(me.group)
        me.at = "look_at_others"
        if s.deques[victim]:
            me.group, s.deques[victim] = s.deques[victim][0], s.deques[victim][1:]
            me.stole, me.at = True, "look_at_stolen"

    def look_at_stolen(self, s: State, me: Worker, number: int) -> None:
        if self.is_told_due(s, me.group, me.other_limit):
            me.at = "turn_of"
        else:
            me.stole, me.at = False, "look_at_others"

    def look_at_others(self, s: State, me: Worker, number: int) -> None:
        """Whether the next group is another worker's and due."""
        if me.place == self.network.groups:
            me.at = "found_nothing"
            return
        me.group, me.place = me.place, me.place + 1
        if self.owner(me.group) != number and self.is_told_due(s, me.group, me.other_limit):
            me.at = "turn_of"

    def meet(self, s: State, me: Worker, number: int) -> None:
        group, waits = me.group, self.waits_for_gvt(s, me.group)
        self.groups.post(s, group, me.letters)
        s.sections = (s.sections + 1) % SECTIONS_PER_GVT
        if waits or not s.sections:
            self.groups.publish(s)
            s.gvt_ns = s.gvt
        self.groups.collect(s, group)
        letter_ns, s.letter_ns[group] = s.letter_ns[group], NEVER
        s.next_ns[group] = min(s.next_ns[group], letter_ns)
        s.seat_next[group] = min(s.seat_next[group], letter_ns)
        s.unposted[group] = 0
        self.call_on(s, me)

    def call_on(self, s: State, me: Worker) -> None:
        """What follows where letters are left to be called, or none."""
        if "mute" in self.wrong:
            me.letters = [NEVER] * self.network.groups
        me.at = "call_all" if any(letter != NEVER for letter in me.letters) else "tell_next"

    def call_all(self, s: State, me: Worker, number: int) -> None:
        group = next(group for group, letter in enumerate(me.letters) if letter != NEVER)
        s.letter_ns[group] = min(s.letter_ns[group], me.letters[group])
        me.letters[group] = NEVER
        self.call_on(s, me)

    def tell_next(self, s: State, me: Worker, number: int) -> None:
        s.next_ns[me.group] = s.seat_next[me.group]
        assert me.then is not None
        me.at, me.then = me.then, None
        me.limit = self.limit(s)

    def handle_due(self, s: State, me: Worker, number: int) -> None:
        group = me.group
        most = min(PIECE, TURN - me.handled)
        count = self.groups.work(s, group, most, min(me.limit, s.letter_ns[group], s.seen[group] + self.window))
        me.handled += count
        s.seat_next[group], letters = self.groups.next_moment(s, group), self.groups.letters_moment(s, group)
        s.next_ns[group] = min(s.seat_next[group], letters)
        ends = me.handled >= MOST_WITH_LETTERS and letters != NEVER or s.letter_ns[group] <= s.seat_next[group]
        if count == most and me.handled < TURN and not ends:
            me.limit = self.limit(s)
            return
        s.unposted[group] = min(MOST_UNPOSTED, s.unposted[group] + me.handled)
        me.worked, me.handled, me.limit = me.handled > 0, 0, 0
        me.behind_wakes = "give_back"
        is_to_post = letters != NEVER or s.blocks[group] and not me.is_own
        me.at, me.then = ("meet", "wake_due") if is_to_post and "unposted" not in self.wrong else ("wake_due", None)

    def give_back(self, s: State, me: Worker, number: int) -> None:
        s.seats[me.group] = None
        me.at = "behind_turn"
        if not me.is_own and self.has_wake_up:
            me.at, me.behind_wakes = "wake_due", "behind_turn"

    def found_nothing(self, s: State, me: Worker, number: int) -> None:
        me.forget()
        me.looks += 1
        if me.looks > LOOKS_BEFORE_REST + LOOKS_PER_GVT - 1:
            me.looks -= LOOKS_PER_GVT
        is_long = me.looks >= LOOKS_BEFORE_REST
        if me.looks % LOOKS_PER_GVT == 0:
            limit = self.limit(s)
            own = [group for group in range(self.network.groups) if self.owner(group) == number]
            if is_long or limit > self.network.until or any(self.is_told_due(s, group, limit) for group in own):
                me.at = "publish"
                return
        me.at = "rest" if is_long else "turns_until_over"

    def publish(self, s: State, me: Worker, number: int) -> None:
        self.groups.publish(s)
        follows = "rest" if me.looks >= LOOKS_BEFORE_REST else "turns_until_over"
        if s.gvt_ns != s.gvt:
            s.gvt_ns = s.gvt
            me.at, me.behind_wakes = "wake_due", follows
        else:
            me.at = follows

    # ---- signals.rt ----

    def wake_due(self, s: State, me: Worker, number: int) -> None:
        if not s.resting:
            return self.end_wakes(me)
        me.limit, me.handled, me.at = self.limit(s), 0, "wake_of"

    def wake_of(self, s: State, me: Worker, number: int) -> None:
        """`handled` is the place in the list of groups: nothing is handled meanwhile."""
        group = me.handled
        if group == self.network.groups:
            return self.end_wakes(me)
        if self.is_told_due(s, group, me.limit) and s.rests[self.owner(group)]:
            me.at = "wake"
        else:
            me.handled += 1

    def wake(self, s: State, me: Worker, number: int) -> None:
        self.wake_worker(s, self.owner(me.handled))
        me.handled, me.at = me.handled + 1, "wake_of"

    def wake_worker(self, s: State, other: int) -> None:
        s.rests[other] = False
        if s.workers[other].is_parked:
            s.workers[other] = s.workers[other].copy()
            s.workers[other].is_parked = False

    def end_wakes(self, me: Worker) -> None:
        assert me.behind_wakes is not None
        me.at, me.behind_wakes, me.limit, me.handled = me.behind_wakes, None, 0, 0

    def rest(self, s: State, me: Worker, number: int) -> None:
        s.resting += 1
        s.rests[number] = True
        me.at = "look_before_rest"

    def look_before_rest(self, s: State, me: Worker, number: int) -> None:
        if self.is_over(s):
            me.at = "end_rest"
        else:
            me.limit, me.at = self.limit(s), "is_any_due"

    def is_any_due(self, s: State, me: Worker, number: int) -> None:
        own = [group for group in range(self.network.groups) if self.owner(group) == number and s.seats[group] is None]
        is_any = any(self.is_due(s, group, me.limit) or self.is_to_meet(s, group, me.limit, NEVER) for group in own)
        me.limit, me.at = 0, "end_rest" if is_any else "park"

    def park(self, s: State, me: Worker, number: int) -> None:
        me.is_parked = s.rests[number]
        me.at = "asleep" if s.rests[number] else "end_rest"

    def asleep(self, s: State, me: Worker, number: int) -> None:
        me.is_parked, me.at = False, "end_rest"

    def end_rest(self, s: State, me: Worker, number: int) -> None:
        s.rests[number] = False
        s.resting -= 1
        me.at = "turns_until_over"

    def end(self, s: State, me: Worker, number: int) -> None:
        """`place` is that in the list of workers."""
        if me.place == self.count:
            me.forget()
            me.looks = me.patience = 0
            me.at = "ended"
        else:
            self.wake_worker(s, me.place)
            me.place += 1
