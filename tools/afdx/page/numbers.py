"""Columns of whole numbers that may be absent, in eight bytes each: a page may have half a million lines."""
from array import array
from collections.abc import Iterable, Iterator, Sequence
from typing import Any

NONE = -(2**63)


class Numbers(Sequence):
    """Whole numbers, or None, in eight bytes each."""

    def __init__(self, found: Iterable[int | None] = ()) -> None:
        self.kept = array("q", (NONE if it is None else it for it in found))

    def __getitem__(self, place: Any) -> Any:
        found = self.kept[place]
        return None if found == NONE else found

    def __iter__(self) -> Iterator[Any]:
        return (None if it == NONE else it for it in self.kept)

    def __len__(self) -> int:
        return len(self.kept)


def column(found: Iterable[Any]) -> Sequence[Any]:
    """A column of a table: numbers in few bytes where all are such, else a list."""
    values = list(found)
    try:
        if all(value is None or type(value) is int and NONE < value < -NONE for value in values):
            return Numbers(values)
    except OverflowError:
        pass
    return values


def of_bounds(found: "array[int]") -> Numbers:
    """Bounds of which the negative ones are none."""
    numbers = Numbers()
    numbers.kept = array("q", (NONE if it < 0 else it for it in found))
    return numbers
