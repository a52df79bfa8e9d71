"""A mapping whose values are not kept."""
import collections.abc
from collections.abc import Callable, Iterator
from typing import Any


class OnDemand(collections.abc.Mapping):
    """A mapping whose values are worked out when they are asked for; the last one is kept. `keys` gives the keys in order, `make`
    makes the value of one, or raises KeyError, and `count` says how many there are."""

    def __init__(self, keys: Callable[[], Iterator[Any]], make: Callable[..., Any], count: Callable[[], int] | None = None) -> None:
        self.keys_in_order, self.make, self.count = keys, make, count
        self.last: tuple[Any, Any] = (None, None)

    def __getitem__(self, key: Any) -> Any:
        if self.last[0] != key:
            self.last = key, self.make(*key)
        return self.last[1]

    def __iter__(self) -> Iterator[Any]:
        return self.keys_in_order()

    def __len__(self) -> int:
        return self.count() if self.count else sum(1 for _ in self.keys_in_order())
