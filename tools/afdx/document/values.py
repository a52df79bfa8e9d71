"""Whether a cell may be a value of its column. A row without such a cell is a title, or is left."""
import re
from collections.abc import Collection, Mapping, Sequence

from afdx.document import cells, naming
from afdx.document.block_columns import DESTINATION
from afdx.document.lines import commented
from afdx.document.places import PASSED
from afdx.document.reading import LEFT, NEEDED, TITLE, USED
from afdx.model.headings import key_of

# Columns whose cells are names of nodes.
NAMES = {"vl": ("source", "destinations", "equipment"), "node": ("name",), "link": ("a", "b", "end"), "outage": ("from", "to"), "top": ()}
FREE = ("via", "a", "b")
ONLY_MARKS = re.compile(r"[\W_]+")


def looks_like_name(text: str) -> bool:
    """Whether a text alone may be the name of a node: a word with a digit or in capital letters."""
    return re.fullmatch(r"[^\W_][\w.\-/]*", text) is not None and (any(sign.isdigit() for sign in text) or text.isupper())


class Values:
    """Judges the rows of a table. `known` has the names of nodes that tables have for certain."""

    def __init__(self, section: str, columns: Sequence[str], known: Collection[str]) -> None:
        self.section, self.columns, self.known = section, columns, known

    def is_value(self, column: str, text: str) -> bool:
        """Whether a cell is a value of its column."""
        if not column or column == PASSED or ONLY_MARKS.fullmatch(text) and text not in ("?", "??"):
            return False
        if cells.is_not_yet(text) or cells.is_nothing(text):
            return True
        if column in NAMES[self.section] or column.startswith(DESTINATION):
            return any(name in self.known for name in (naming.one(text), *naming.split(text, self.known)))
        if column.startswith(("id", "receiver:")) and self.section == "vl":
            return cells.number_of_vl(text, column == "id_hex") is not None or column.startswith("receiver:") and cells.is_mark(text)
        if column in cells.WORDS:
            return cells.word_of(column, text) is not None
        if column in ("network", "net"):
            return cells.nets_of(text) is not None
        return column not in (*FREE, *commented(self.section)) and cells.number_of(text) is not None

    def verdict(self, row: Sequence[str]) -> tuple[str, str]:
        """What a row is, and why it is left."""
        if any(self.is_value(column, text) for column, text in zip(self.columns, row) if text):
            return USED, ""
        filled = [(column, text) for column, text in zip(self.columns, row) if text]
        count = sum(1 for text in row if text)
        if self.is_continued(filled) or self.is_whole(filled):
            return USED, ""
        if all(ONLY_MARKS.fullmatch(text) for text in row if text):
            return TITLE, ""
        if self.section == "node" and count == 1 and filled and filled[0][0] == "name" and looks_like_name(filled[0][1]):
            return LEFT, f"has {filled[0][1]!r} alone, of which no link and no virtual link speaks: is it a node? Then write what kind it is"
        if count <= 2:
            return TITLE, ""
        return LEFT, "is no line of the table above it: none of its cells is a value of its column"

    def is_whole(self, filled: Sequence[tuple[str, str]]) -> bool:
        """Whether names stand in all columns that a table of nodes or links cannot be without, or a name alone in one of several; or what
        may be a further destination of the virtual link above."""
        if self.section == "vl":
            return all(column.startswith("destinations") and looks_like_name(text) for column, text in filled) and bool(filled)
        needed = NEEDED[self.section]
        names = [text for column, text in filled if key_of(column, self.section) in needed]
        if self.section == "node":
            return len(filled) > 1 and bool(names) and looks_like_name(names[0])
        return self.section in ("link", "outage") and bool(names) and all(map(looks_like_name, names))

    def is_continued(self, filled: Sequence[tuple[str, str]]) -> bool:
        """Whether a row of virtual links without a number says more of the one above it: a port, a remark."""
        free = [column for column, _ in filled if column in commented(self.section)]
        return self.section == "vl" and bool(free) and not any(column.startswith("id") for column, _ in filled)


def sure_names(section: str, columns: Sequence[str], row: Sequence[str]) -> list[str]:
    """The names of nodes of a row that is a line for certain: another cell of it is a value that is no name."""
    judge = Values(section, columns, ())
    if not any(text and column not in NAMES[section] and judge.is_value(column, text) for column, text in zip(columns, row)):
        return []
    return [naming.one(text) for column, text in zip(columns, row) if text and column != "destinations" and column in NAMES[section]]


def known_names(tables: Sequence[tuple[str, Sequence[str], Sequence[Sequence[str]]]]) -> set[str]:
    """The names of nodes that tables have for certain. A link to such a node names another one."""
    known: set[str] = set()
    links: list[tuple[str, str]] = []
    for section, columns, rows in tables:
        for row in rows:
            known.update(sure_names(section, columns, row))
            found: Mapping[str, str] = dict(zip(columns, row)) if section == "link" else {}
            if found.get("a") and found.get("b"):
                links.append((naming.one(found["a"]), naming.one(found["b"])))
    size = -1
    while size != len(known):
        size = len(known)
        known.update(name for pair in links if known & set(pair) for name in pair)
    return {name for name in known if not cells.is_nothing(name) and not cells.is_not_yet(name)}
