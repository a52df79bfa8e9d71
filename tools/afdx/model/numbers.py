"""Whole numbers, in files and on the command line."""
import argparse
import re
from collections.abc import Callable

from afdx.files import Fault, cut

NUMBER = re.compile(r"0|[1-9][0-9]*")
# A number of the command line, which may have _ between its digits, as in a description.
OF_A_WORD = re.compile(r"-?[0-9]+(_[0-9]+)*")
# More digits has no number of a file: counts and sums of any campaign have some thirty.
MOST_DIGITS = 100


def whole_number(path: str, line: int, name: str, text: str) -> int:
    """The number that a field of a file is."""
    if not NUMBER.fullmatch(text):
        raise Fault(path, line, f"{name} is {cut(text)}, and no whole number")
    if len(text) > MOST_DIGITS:
        raise Fault(path, line, f"{name} has {len(text):,} digits, and may have {MOST_DIGITS}")
    return int(text)


def whole(least: int, greatest: int) -> Callable[[str], int]:
    """The type of a word of the command line: a whole number within these limits."""

    def read(text: str) -> int:
        if not OF_A_WORD.fullmatch(text):
            raise argparse.ArgumentTypeError(f"invalid whole number value: {cut(text)}")
        if len(text) > MOST_DIGITS:
            raise argparse.ArgumentTypeError(f"a number of {len(text):,} digits is not from {least} to {greatest}")
        number = int(text)
        if not least <= number <= greatest:
            raise argparse.ArgumentTypeError(f"{number} is not from {least} to {greatest}")
        return number

    read.__name__ = "whole number"
    return read
