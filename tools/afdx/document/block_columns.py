"""The columns of a table: what each of its headings means, with the faults of those that may mean several things or that look
misspelt, and notes on those that are passed over."""
import re
from collections.abc import Callable, Collection, Sequence

from afdx.document import cells, naming
from afdx.document.places import PASSED, Columns
from afdx.document.reading import NEEDED, Block
from afdx.model import headings
from afdx.model.headings import key_of, normal

RECEIVER = "receiver:"
# How the columns begin of which several have destinations: `Destination 1`, `Destination 2`.
DESTINATION = "destinations:"
NUMBERED = re.compile("(.*[a-z])_?([0-9]{1,2})")
# A heading that names the switch of one network.
OF_A_SWITCH = re.compile("(.*_)?(switch|sw)(_.*)?")
# How the columns begin that afdx results has written.
OF_RESULTS = "afdx "
# Who hears of a heading: the number of its row, and what is said.
Hearer = Callable[[int, str], None]


def first_columns(block: Block, columns: Columns) -> list[str]:
    """What the headings mean that can mean one thing alone, and nothing for the others."""
    found = []
    for text in block.head.texts:
        fitting = columns.meanings(text, block.head.section, block.place) if text else []
        found.append(fitting[0] if len(fitting) == 1 and fitting != [PASSED] else "")
    return found


class BlockColumns:
    """The columns of a table, nothing for what is passed over, and `receiver:NAME` for a column of a matrix."""

    def __init__(self, block: Block, columns: Columns, known: Collection[str], fault: Hearer, note: Hearer) -> None:
        self.block, self.columns, self.known = block, columns, known
        self.section = block.head.section
        self.add, self.note = lambda text: fault(block.number, text), lambda text: note(block.number, text)
        first = first_columns(block, columns)
        self.present = {key_of(it, self.section) for it in first if it}
        self.found: list[str] = []
        self.said: dict[str, str] = {}
        for i, text in enumerate(block.head.texts):
            columns.use(text, self.section, block.place)
            self.found.append(self.column(i, " ".join(text.split())) if text else "")
        if {"port", "tx_port"} <= set(self.found):
            self.found[self.found.index("port")] = ""
            self.note(f"the column {normal(self.said['port'])} is passed over: {self.said['tx_port']!r} names the port of the sender")
        if "end" in self.found:
            self.star(self.found.index("end"))
        for key in NEEDED[self.section]:
            if key not in self.present:
                self.add(f"has no column {key}")

    def star(self, i: int) -> None:
        """A column beside those of a link: the end system that is linked with both, where they are a switch of each network."""
        if not all(OF_A_SWITCH.fullmatch(normal(self.said.get(end, ""))) for end in "ab"):
            self.note(f"the column {normal(self.said['end'])} is passed over")
            self.found[i] = ""

    def below(self, i: int) -> list[str]:
        """The cells below a heading."""
        return [row[i] for _, row in self.block.rows if i < len(row) and row[i]]

    def column(self, i: int, text: str) -> str:
        """The column that a heading is."""
        fitting = self.columns.meanings(text, self.section, self.block.place)
        if fitting == [PASSED] or text.startswith(OF_RESULTS):
            return ""
        if len(fitting) == 1:
            return self.once(i, text, fitting[0])
        if not self.below(i):
            return ""
        if not fitting:
            return self.unknown(i, text)
        keys = {key_of(it, self.section) for it in fitting}
        if len({headings.OF_COLUMN[self.section][it].name for it in fitting}) == 1 and self.have_units(i):
            return self.once(i, text, fitting[0])
        if self.present.issuperset(keys):
            self.note(f"the column {normal(text)} is passed over")
        else:
            which = " or ".join(filter(None, (", ".join(fitting[:-1]), fitting[-1])))
            self.add(f"the column {text!r} may be {which}: say which one by {self.words(text, self.likely(fitting, i))}")
        return ""

    def likely(self, fitting: Sequence[str], i: int) -> str:
        """Of several columns the one to propose for this sheet: one that it has not, in the unit of most documents."""
        free = [it for it in fitting if key_of(it, self.section) not in self.present] or list(fitting)
        units = {unit for it in free for unit in [it.rpartition("_")[2]]}
        if {"ns", "us", "ms", "s"} <= units and self.below(i):
            numbers = [float(number.plain) for cell in self.below(i) if (number := cells.number_of(cell))]
            return next(it for it in free if it.endswith("_ns" if min(numbers, default=0) >= 10**5 else "_us" if min(numbers, default=0) >= 1000 else "_ms"))
        return free[0]

    def words(self, text: str, column: str) -> str:
        """How to say what a heading stands for, or that it is passed over."""
        word = self.block.place.column_word
        return f"--column {word(text, column)}, or {word(text, PASSED)} where it is to be passed over"

    def have_units(self, i: int) -> bool:
        """Whether each cell of a column names a unit of its own."""
        found = self.below(i)
        numbers = [cells.number_of(cell) for cell in found if not cells.is_nothing(cell) and not cells.is_not_yet(cell)]
        return bool(numbers) and all(number and number.unit for number in numbers)

    def once(self, i: int, text: str, column: str) -> str:
        """The column, unless it is there already."""
        key = key_of(column, self.section)
        if self.section == "vl" and column in ("a", "b") and self.are_marks(i):
            column = key = f"network_{column}"
        if key in self.said and column in headings.ASIDE:
            self.note(f"the column {normal(text)} is passed over: {self.said[key]!r} is there as {column}")
            return ""
        if key in self.said:
            also = f", as {self.said[key]!r} and as {text!r}" if self.said[key] != text else ""
            self.add(f"has the column {column} twice{also}: pass one over by --column {self.block.place.column_word(text, PASSED)}")
        self.said.setdefault(key, text)
        return column

    def are_marks(self, i: int) -> bool:
        """Whether a column has marks alone, as one for each receiver or each network does, and not only numbers."""
        found = self.below(i)
        return any(cells.is_mark(cell) or cells.is_sender(cell) for cell in found) and all(
            cells.is_mark(cell) or cells.is_sender(cell) or cell.lower() in cells.NO_MARKS for cell in found
        )

    # ---- headings that are not known ----

    def unknown(self, i: int, text: str) -> str:
        """A heading that is not known: one of several of destinations, a node of a matrix, a unit that is not known, a misspelt one, or one
        that is passed over."""
        several = NUMBERED.fullmatch(normal(text))
        if self.section == "vl" and several and headings.columns_of(several[1].rstrip("_"), "vl") == ["destinations"]:
            self.present.add("destinations")
            return DESTINATION + several[2]
        if self.section == "vl" and self.is_receiver(i, text):
            return RECEIVER + naming.one(text)
        unit = headings.unknown_unit(text, self.section)
        if unit:
            self.add(f"the column {text!r} has {unit[0]!r} behind it, which is no unit of {unit[1][0]}: say what it is by {self.words(text, unit[1][0])}")
            return ""
        near = headings.nearest(normal(text), self.section) if normal(text) else None
        if near and key_of(near, self.section) not in self.present and near not in headings.ASIDE:
            self.add(f"the column {text!r} is not known, and {near} may be meant: write it so, or say what it is by {self.words(text, near)}")
        else:
            hint = f"; {near}?" if near else ""
            self.note(f"the column {normal(text) or text} is passed over{hint}")
        return ""

    def is_receiver(self, i: int, text: str) -> bool:
        """Whether a column is that of a node in a matrix, with a mark in each line of what it receives."""
        group = self.block.head.groups[i]
        if naming.one(text) in self.known or group and headings.meanings(group, "vl") == ["destinations"]:
            return True
        return not {"destinations", "source"} <= self.present and self.are_marks(i) and any(it.lower() in ("x", "tx", "rx", "✓", "✔") for it in self.below(i))
