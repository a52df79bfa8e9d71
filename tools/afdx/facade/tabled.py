"""What is a table: its rows as dictionaries, and as a frame of pandas where pandas is there."""
import importlib
from collections.abc import Mapping
from typing import Any

# How many destinations a message names at most.
MOST_NAMES = 8


class NotThere(KeyError):
    """What was asked for is not there: a virtual link, a destination, a line, a key."""

    def __str__(self) -> str:
        return str(self.args[0]) if self.args else ""


def only_end(vl: int, where: str | None, ends: Mapping[tuple[int, str], Any]) -> tuple[int, str]:
    """A virtual link with a destination, by the name of that, or its only one."""
    if where is not None and (vl, where) in ends:
        return vl, where
    known = [end for end in ends if end[0] == vl]
    if where is None and len(known) == 1:
        return known[0]
    if not known:
        raise NotThere(f"there is no virtual link {vl!r}" + (": they go by numbers" if isinstance(vl, str) else ""))
    names = ", ".join(name for _, name in known[:MOST_NAMES]) + (", .." if len(known) > MOST_NAMES else "")
    if where is None:
        raise NotThere(f"virtual link {vl} has {len(known)} destinations, and one is to be named: {names}")
    raise NotThere(f"virtual link {vl} has no destination {where}: it has {names}")


class Tabled:
    """A table. Times are in ns, sizes in bytes; an empty cell is None."""

    def columns(self) -> list[str]:
        """The names of the columns, in order."""
        raise NotImplementedError

    def rows(self) -> list[dict[str, Any]]:
        """The rows, each as a dictionary by column."""
        raise NotImplementedError

    def frame(self) -> Any:
        """The table as a DataFrame of pandas. ImportError says what to install where pandas is not there; nothing else needs it."""
        try:
            pandas: Any = importlib.import_module("pandas")
        except ImportError:
            raise ImportError("frame() needs pandas, which is not here: apt-get install python3-pandas; rows() does without it") from None
        # Whole numbers stay whole numbers beside empty cells.
        return pandas.DataFrame(self.rows(), columns=self.columns()).convert_dtypes()
