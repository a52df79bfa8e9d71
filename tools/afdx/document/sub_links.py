"""The sub-virtual links of a virtual link. Tables count them from 1, or from 0 where one of them is 0; a description from 0."""
import re
from collections.abc import Iterable

from afdx.document.findings import Findings
from afdx.document.lines import Joint, Line
from afdx.files import cut

SAID = re.compile(r"(?:svl|sub[ _-]?vl|sub)?[ _#-]*([0-9]{1,3})(?:\s*(?:/|of)\s*([0-9]{1,3}))?", re.IGNORECASE)


def number_of(text: str) -> tuple[int, int] | None:
    """The number that a cell has, and how many it says there are, or 0."""
    said = SAID.fullmatch(text)
    return (int(said[1]), int(said[2] or 0)) if said else None


class SubLinks:
    """Gives virtual links the number of their sub-virtual links, and streams the one that they go by. `lines` are those of all
    virtual links."""

    def __init__(self, findings: Findings, lines: Iterable[Line]) -> None:
        self.findings = findings
        self.from_zero = {line.block for line in lines if (said := number_of(line.cells.get("sub_vl", ""))) and said[0] == 0}

    def settle(self, joint: Joint, streams: list[Joint]) -> None:
        """Lines for the sub-virtual links 1 to n are those of a virtual link with n of them. Of several ports each has one, or none."""
        numbers: dict[int, Line] = {}
        of_stream: list[set[int]] = [set() for _ in streams]
        counts = set()
        for part in joint.parts:
            text = part.cells.get("sub_vl")
            if text is None:
                continue
            said = number_of(text)
            if said is None:
                self.findings.add(part, f"{part.cell('sub_vl')}: sub_vl is {cut(text)}, and must be the number of a sub-virtual link")
                return
            number = said[0] + (part.block in self.from_zero)
            numbers.setdefault(number, part)
            counts.update({said[1]} - {0})
            for own, stream in zip(of_stream, streams):
                if part in stream.parts:
                    own.add(number)
        if numbers and self.count(joint, numbers, counts, len(streams) > 1):
            self.give(joint, streams, of_stream, set(numbers))

    def count(self, joint: Joint, numbers: dict[int, Line], counts: set[int], has_ports: bool) -> bool:
        """How many there are, by their numbers or as a cell says: whether that is known."""
        stated = joint.cells.get("sub")
        greatest = max(numbers)
        most = max([greatest, *counts])
        is_whole = set(numbers) == set(range(1, most + 1)) or bool(counts)
        if stated is not None and stated.isdigit():
            # One line alone may be that of a port that goes by one of them.
            if not has_ports and len(numbers) > 1 and int(stated) != most or int(stated) < most:
                self.findings.add(joint.by("sub"), f"sub is {stated}, and the lines have the sub-virtual links {min(numbers)} to {greatest}")
                return False
            return True
        if not is_whole:
            part = next(iter(numbers.values()))
            word = part.place.column_word(part.headings.get("sub_vl", "Sub-VL"), "sub")
            some = ", ".join(map(str, sorted(numbers)))
            text = f"has the sub-virtual links {some}, and they are 1 to n: write a line for each, or, if the column counts them, say so by --column {word}"
            self.findings.add(part, text)
            return False
        if most > 1:
            joint.cells["sub"] = str(most)
            joint.origin["sub"] = numbers[greatest]
        return True

    def give(self, joint: Joint, streams: list[Joint], of_stream: list[set[int]], numbers: set[int]) -> None:
        """Gives each stream its own one, where that says more than how many there are."""
        is_said = any("stream" in part.headings for part in joint.parts)
        count = joint.cells.get("sub", "1")
        for stream, own in zip(streams, of_stream):
            if len(own) > 1 and (len(streams) > 1 or is_said):
                some = ", ".join(map(str, sorted(own)))
                self.findings.add(stream.parts[0], f"is of a port that goes by the sub-virtual links {some}: a description has one for each port, or takes all of them in turn")
            elif len(own) == 1 and (is_said or count != "1" and (len(streams) > 1 or len(numbers) == 1)):
                stream.sub_vl = own.pop() - 1
