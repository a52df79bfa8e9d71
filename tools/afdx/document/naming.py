"""Names of nodes: those of a document, of whatever letters, and those of a description that are made of them."""
import re
import unicodedata
from collections.abc import Collection, Iterable

from afdx.document import cells

# A name of a description: letters, digits, _ and -, and so many of them at most.
VALID = re.compile("[A-Za-z0-9_-]{1,32}")
MOST_SIGNS = 32
STRONG = re.compile(r"\s*(?:[,;|>\n→]|->)\s*")
WEAK = re.compile(r"\s*[/&+]\s*|\s+and\s+")


def one(text: str) -> str:
    """A name as it is compared: with one blank where several stand."""
    return " ".join(text.split())


def split(text: str, known: Collection[str]) -> list[str]:
    """The names of a cell, with blanks, commas or other marks between them. A name that is known has such marks itself."""
    if cells.is_nothing(text.strip()):
        return []
    found: list[str] = []
    for piece in filter(None, (text.strip(),) if one(text) in known else STRONG.split(text.strip())):
        if one(piece) in known:
            found.append(one(piece))
            continue
        parts = [one(part) for part in WEAK.split(piece) if part.strip()]
        for part in parts:
            found += [part] if part in known else words(part.split(), known)
    return found


def words(parts: list[str], known: Collection[str]) -> list[str]:
    """The names of words with blanks between, of which the longest known ones are names."""
    found: list[str] = []
    i = 0
    while i < len(parts):
        longest = next((k for k in range(len(parts), i + 1, -1) if " ".join(parts[i:k]) in known), i + 1)
        found.append(" ".join(parts[i:longest]))
        i = longest
    return found


class Names:
    """The name in a description of each name of a document: itself where it may be one."""

    def __init__(self, names: Iterable[str]) -> None:
        self.of: dict[str, str] = {}
        unlike = []
        for name in dict.fromkeys(names):
            if VALID.fullmatch(name):
                self.of[name] = name
            else:
                unlike.append(name)
        taken = set(self.of.values())
        for name in unlike:
            self.of[name] = made = unused(made_of(name), taken)
            taken.add(made)
        self.documents = {made: name for name, made in self.of.items()}

    def __call__(self, name: str) -> str:
        return self.of.get(name, name)


def made_of(name: str) -> str:
    """A name of a description that is like one of a document: letters without accents, and _ for other signs."""
    plain = "".join(sign for sign in unicodedata.normalize("NFKD", name) if not unicodedata.combining(sign))
    return re.sub("[^A-Za-z0-9-]+", "_", plain.replace("ß", "ss")).strip("_")[:MOST_SIGNS].strip("_-") or "node"


def unused(name: str, taken: Collection[str]) -> str:
    """A name that no other one is: with a number behind it where it is taken."""
    number, found = 1, name
    while found in taken:
        number += 1
        end = f"_{number}"
        found = name[: MOST_SIGNS - len(end)] + end
    return found
