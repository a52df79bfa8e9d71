"""The files of the page: its style and its scripts."""
import os

from afdx import files


def part_of_page(name: str) -> str:
    """The text of a file of the page: its style or its script."""
    return files.text_of(os.path.join(os.path.dirname(os.path.abspath(__file__)), name))
