#!/usr/bin/env python3
"""Prints which functions of the sources have changed since the model of the turns was last compared with them.

tools/gate/modelled.txt holds the text of each function that tools/gate/turn_model.py models, without comments and clauses.
"""
import argparse
import re
import sys
from pathlib import Path

from afdx import files

TOP = Path(__file__).resolve().parents[2]
KEPT = Path(__file__).with_name("modelled.txt")

# The functions that are modelled, by their files.
MODELLED = {
    "crates/turns/src/agenda.rt": "begin_round put_in_order order list next steal",
    "crates/turns/src/handling.rt": "handle_due handle_pieces handle_piece ends_turn",
    "crates/turns/src/looks.rt": "work help look_in_vain are_to_help may_publish are_to_rest",
    "crates/turns/src/moments.rt": (
        "first_ns lower_next publish stop is_over furthest_behind limit_ns is_due waits_for_gvt letter_ns tell collect call call_all is_beyond limit_behind"
    ),
    "crates/turns/src/pieces.rt": "messages_of_piece",
    "crates/turns/src/report.rt": "first_ns has_letters is_to_post is_due waits_for_gvt is_to_meet is_called can_raise is_behind ends_turn",
    "crates/turns/src/signals.rt": "wake_due wake begin_rest rest end_rest end",
    "crates/turns/src/worker.rt": (
        "give_turns turns_until_over own_turns turn_of_others stolen help turn_of turn meet found_nothing rest "
        "is_any_due is_to_go_on is_to_meet publish"
    ),
    "crates/turns/src/workers.rt": "watch_all show_gvt",
    "crates/group_turns/src/section.rt": "meet_at",
    "crates/worker_pool/src/tasks.rt": "handle meet publish announced",
}

EXAMPLES = """
examples, in tools/:
  python3 -m gate.modelled            the functions that changed, each with its file
  python3 -m gate.modelled --write    keeps their text, once the model was compared with it

status:
  0  none has changed, or the text was written
  1  some have
  2  a word is wrong
"""


def functions_of(source: str, name: str) -> list[str]:
    """The functions of this name, each from `fn` to its closing brace, without comments and clauses."""
    found = []
    lines = source.splitlines()
    for first, line in enumerate(lines):
        start = re.match(rf"( *)(?:pub(?:\(crate\))? )?fn {name}\b", line)
        if start:
            last = next(at for at in range(first, len(lines)) if re.match(rf"{start[1]}}}", lines[at]))
            kept = [it for it in lines[first:last + 1] if not re.match(r" *(//|requires |ensures |×)", it)]
            found.append("\n".join(it[len(start[1]):] for it in kept))
    return found


def modelled(top: Path = TOP) -> dict[str, str]:
    """The text of each function that is modelled, by its file and name. A name that is there no more has no text."""
    texts = {}
    for file, names in MODELLED.items():
        source = (top / file).read_text()
        for name in names.split():
            texts[f"{file}: {name}"] = "\n\n".join(functions_of(source, name))
    return texts


def written(texts: dict[str, str]) -> str:
    return "".join(f"== {place}\n{text}\n\n" for place, text in texts.items())


def read(text: str) -> dict[str, str]:
    texts = {}
    for part in re.split(r"^== ", text, flags=re.M)[1:]:
        place, _, body = part.partition("\n")
        texts[place] = body.strip("\n")
    return texts


def changed(kept: dict[str, str], now: dict[str, str]) -> list[str]:
    """The places of the functions that have changed, or of which one of both has none."""
    return [place for place in {**now, **kept} if not now.get(place) or kept.get(place) != now[place]]


@files.tool("modelled")
def main(arguments: list[str] | None = None) -> int:
    parser = argparse.ArgumentParser(prog="modelled", description=__doc__, epilog=EXAMPLES, formatter_class=argparse.RawDescriptionHelpFormatter)
    parser.add_argument("--write", action="store_true", help="keeps the text of the functions as it is now")
    words = parser.parse_args(arguments)
    now = modelled()
    if words.write:
        KEPT.write_text(written(now))
        return 0
    places = changed(read(KEPT.read_text()), now)
    for place in places:
        files.say(place)
    return 1 if places else 0


if __name__ == "__main__":
    sys.exit(main())
