"""The faults and notes of the tables of a document."""
from afdx.document.lines import Line
from afdx.document.places import Place
from afdx.files import Fault


class Findings:
    """What is wrong with tables, and what is passed over."""

    def __init__(self) -> None:
        self.faults: list[Fault] = []
        self.notes: list[Fault] = []

    def at(self, place: Place, number: int | None, text: str, is_note: bool = False) -> None:
        """A fault of a place, or a note."""
        path = place.said() if number else place.said().rstrip(",")
        (self.notes if is_note else self.faults).append(Fault(path, number, text))

    def add(self, line: Line, text: str) -> None:
        self.at(line.place, line.number, text)

    def note(self, line: Line, text: str) -> None:
        self.at(line.place, line.number, text, True)
