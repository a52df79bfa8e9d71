"""JSON in pieces, so that what is large is nowhere whole, and packed as a page has it."""
import base64
import itertools
import json
import zlib
from collections.abc import Iterable, Iterator
from typing import Any

# How many items of a list are written at once.
AT_ONCE = 4096
# How many rows stand together in a packed table: columns that are alike are then near enough to each other.
ROWS_OF_A_BLOCK = 256


class Blocks:
    """A table by blocks of rows, of its columns. Of a column that is hardly another than one before it, as `near` says, what it is
    more than that stands there: a number where both are numbers, and [number] where the other one is none."""

    def __init__(self, columns: dict[str, Iterable[Any]], near: dict[str, str]) -> None:
        self.columns, self.near = columns, {name: of for name, of in near.items() if name in columns}

    def less(self, name: str) -> Iterator[Any]:
        for own, other in zip(self.columns[name], self.columns[self.near[name]]):
            yield None if own is None else [own] if other is None else own - other

    def pieces(self) -> Iterator[str]:
        names = [[name, self.near[name]] if name in self.near else name for name in self.columns]
        yield f'{{"columns":{dumps(names)},"blocks":['
        rows, before = [self.less(name) if name in self.near else iter(it) for name, it in self.columns.items()], ""
        while (block := [list(itertools.islice(it, ROWS_OF_A_BLOCK)) for it in rows]) and block[0]:
            yield before + dumps(block)
            before = ","
        yield "]}"


def dumps(value: Any) -> str:
    return json.dumps(value, separators=(",", ":"), ensure_ascii=False)


def pieces(value: Any) -> Iterator[str]:
    """The JSON of a value. What is iterated, as a generator, becomes a list."""
    if isinstance(value, Blocks):
        yield from value.pieces()
    elif isinstance(value, dict):
        yield "{"
        for i, (key, inner) in enumerate(value.items()):
            yield f"{',' if i else ''}{dumps(key)}:"
            yield from pieces(inner)
        yield "}"
    elif isinstance(value, Iterable) and not isinstance(value, str):
        items, before = iter(value), ""
        yield "["
        while chunk := list(itertools.islice(items, AT_ONCE)):
            yield before + dumps(chunk)[1:-1]
            before = ","
        yield "]"
    else:
        yield dumps(value)


def after_the_one_before(lists: list[list[int]]) -> Iterator[list[int]]:
    """Of each list how many items it begins with as the one before it, and the rest."""
    before: list[int] = []
    for found in lists:
        alike = next((i for i, (own, other) in enumerate(zip(found, before)) if own != other), min(len(found), len(before)))
        yield [alike, *found[alike:]]
        before = found


def packed(texts: Iterable[str]) -> Iterator[str]:
    """A text packed by zlib, in base64."""
    pack, rest = zlib.compressobj(6), b""
    for text in texts:
        rest += pack.compress(text.encode())
        whole = len(rest) - len(rest) % 3
        yield base64.b64encode(rest[:whole]).decode()
        rest = rest[whole:]
    yield base64.b64encode(rest + pack.flush()).decode()
