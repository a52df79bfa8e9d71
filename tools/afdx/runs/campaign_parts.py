"""A part of a campaign over seeds, as `--part 3/16`: any scheduler makes the parts, on several machines, and `--merge` puts them together."""
import argparse
import re
from collections.abc import Sequence
from typing import NamedTuple

# The most parts of a campaign.
MOST = 100_000


class Part(NamedTuple):
    """Which part it is, from 1 on, and of how many."""

    number: int
    of: int

    def text(self) -> str:
        return f"{self.number}/{self.of}"

    def seeds(self, all_seeds: range) -> range:
        """Its seeds: as many as any other part has, or one more."""
        return all_seeds[len(all_seeds) * (self.number - 1) // self.of : len(all_seeds) * self.number // self.of]


def part(text: str) -> Part:
    """The type of a word of --part."""
    found = re.fullmatch("([0-9]{1,6})/([0-9]{1,6})", text)
    if not found or not 1 <= int(found[1]) <= int(found[2]) <= MOST:
        raise argparse.ArgumentTypeError(f"{text!r} is no part, as 3/16: a number from 1 on, and how many parts there are, at most {MOST:,}")
    return Part(int(found[1]), int(found[2]))


def of_words(words: Sequence[str]) -> tuple[Part, int] | None:
    """The part that a record's words name, and how many seeds the whole campaign has; None where they name none."""
    named = dict(zip(words, words[1:]))
    try:
        found, seeds = part(str(named["--part"])), int(named["--seeds"])
    except (KeyError, ValueError, TypeError, argparse.ArgumentTypeError):
        return None
    return (found, seeds) if found.of <= seeds <= 10**9 else None


def without_part(words: Sequence[str]) -> list[str]:
    """The words of the whole campaign."""
    at = words.index("--part")
    return [*words[:at], *words[at + 2 :]]
