#!/usr/bin/env python3
"""Tries every order in which the workers of a small run can take their steps, and checks whether each run can reach its end.

It is a model of the crate `turns`, whose turns are no part of a proof. Each step of a worker models a piece of code in
which others see or change at most one thing, and has the name of the function that it models. A network is drawn: a few
events, each at a moment in a group. An event is sent when another one is handled, or only if a third one was handled before,
so that a rollback sends other messages. All states that can be reached are listed, breadth first.

What a step models, in `crates/turns/src` and, of a group, in `section.rt` of `crates/group_turns/src` and `tasks.rt` of `crates/worker_pool/src`:

  turns_until_over    worker.rt: `is_over`, and the beginning of `own_turns`
  begin_round         worker.rt: the limit of the round; agenda.rt, `begin_round`: the order of its groups, and those that are due on the deque
  next_own            agenda.rt, `next`: the front of the deque, or the next group behind those that were listed
  turn_of             worker.rt: `try_take` of a seat; `turn`: `is_to_meet`, `is_due` (report.rt) by the limit of the round or of the helper
  meet                section.rt: `meet_at`, the section of the exchange: Post, Gvt, Take, and `Moments::collect` (moments.rt)
  call_all            moments.rt: one `fetch_min` of the moment of a letter
  tell_next           worker.rt: `tell` at the end of `meet`
  handle_due          handling.rt: `handle_piece` with `handle` and `tell`; `ends_turn` and `is_to_post` (report.rt)
  wake_due            signals.rt: is anyone resting? Then `wake_of`, is this group due, and `wake`, its worker: a step each
  give_back           worker.rt, `turn_of`: the seat is given back; behind it a helper calls `wake_due`
  turn_of_others      worker.rt: the limit, and `furthest_behind` (moments.rt); `steal`: the front of that worker's deque, and `look_at_stolen`;
                      then `look_at_others`, for each group of others `is_due`, and `turn_of`
  found_nothing       worker.rt: the look in vain, and `waits_for_gvt`
  publish             tasks.rt: Gvt where the exchange is free
  rest                worker.rt, signals.rt: `begin_rest`; `look_before_rest`: `is_over`; `is_any_due`; `park`: the look of
                      `park_timeout` at the word; `end_rest`
  end                 worker.rt, `give_turns`: `Signals::end` wakes each worker
  give_up             workers.rt: `stop` and `Signals::end`, in `show_gvt` where a run stands still, in `watch_all` where a start failed

Only a wake-up ends a rest, since its time limit would hide a lost one; --timeouts lets it end at any moment. A step here
reads the moments of all groups, or tries all seats of a worker, or lists all groups of a round, at one go; the code does so one
after another. A deque that takes no more, a thief that comes too late, and faults are left out. If the end can be reached from a
state, a scheduler that is unfair for ever may still keep the run from it.

The model ends where the workers have ended, by themselves or since they were given up. What follows is no part of it: they are joined,
and one thread finishes the run by a loop that does finitely many rounds, which is proved (`end` of the crate `group_end`).

The text of each function named here stands in tools/gate/modelled.txt, as it was when the model was last compared with it. A test
fails if a function has changed since: compare it with its step, mend the model, and then run `python3 -m gate.modelled --write`.

With --without-wake-up the worker that helped does not call `wake_due` after it gave back the seat. Then a worker that went
to rest while another held the seat of its group may sleep for ever; with --gives-up as well, the run reaches its end.
"""
import argparse
import sys

from afdx import files
from afdx.model import whole
from gate.turn_groups import drawn
from gate.turn_search import tried
from gate.turn_steps import WRONG, Model

EXAMPLES = """
examples, in tools/:
  python3 -m gate.turn_model
        eight networks of two events, two groups and two workers: some 300,000 states, 60 s
  python3 -m gate.turn_model --started 1
        of two workers the second cannot be started
  python3 -m gate.turn_model --without-wake-up --events 1 --networks 1 --trail
        the lost wake-up, and the steps to it

It prints a line for each network: how many states there are, and from how many of them the end cannot be reached.

status:
  0  the end can be reached from each state
  1  from some it cannot, or there are more states than --most
  2  a word is wrong
"""


def words_of(arguments: list[str] | None) -> argparse.Namespace:
    parser = argparse.ArgumentParser(
        prog="turn_model", description=__doc__, epilog=EXAMPLES, formatter_class=argparse.RawDescriptionHelpFormatter
    )
    add = parser.add_argument
    add("--networks", type=whole(1, 10**6), default=8, metavar="N", help="how many networks (default 8)")
    add("--first", type=whole(0, 10**9), default=1, metavar="N", help="number of the first (default 1)")
    add("--events", type=whole(1, 8), default=2, metavar="N", help="events of a network (default 2)")
    add("--groups", type=whole(1, 4), default=2, metavar="N", help="groups (default 2)")
    add("--workers", type=whole(1, 3), default=2, metavar="N", help="workers (default 2)")
    add("--window", type=whole(1, 100), default=1, metavar="N", help="how far a group runs ahead of GVT (default 1)")
    add("--most", type=whole(1, 10**8), default=10**6, metavar="N", help="most states of a network (default 1000000)")
    add("--without-wake-up", action="store_true", help="who helped wakes nobody behind the seat that it gave back")
    add("--started", type=whole(0, 3), metavar="N", help="so many of the workers start, and then a start fails (default all)")
    add("--gives-up", action="store_true", help="the calling thread may give the workers up, once, at any moment")
    add("--timeouts", action="store_true", help="a rest may end at any moment")
    add("--wrong", choices=sorted(WRONG), action="append", default=[], help="leaves out: " + "; ".join(f"{it}: {WRONG[it]}" for it in WRONG))
    add("--trail", action="store_true", help="prints the steps to the first state that cannot come to the end")
    return parser.parse_args(arguments)


@files.tool("turn_model")
def main(arguments: list[str] | None = None) -> int:
    words = words_of(arguments)
    is_well = True
    for seed in range(words.first, words.first + words.networks):
        network = drawn(words.groups, words.events, seed)
        model = Model(
            network, words.workers, words.window, not words.without_wake_up, words.timeouts, words.gives_up, words.wrong, words.started
        )
        found = tried(model, words.most)
        said = f"{found.lost} cannot come to the end" if found.is_whole else "not all were listed"
        files.say(f"network {seed}: {found.states} states, {said}")
        is_well = is_well and found.is_whole and not found.lost
        if words.trail:
            for number, step in found.trail:
                files.say(f"  worker {number}: {step}")
    return 0 if is_well else 1


if __name__ == "__main__":
    sys.exit(main())
