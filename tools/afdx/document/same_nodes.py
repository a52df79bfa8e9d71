"""Lines of one node, in several sheets, are one: a list of all equipment, and a list of what switches have."""
from collections.abc import Sequence

from afdx.document.findings import Findings
from afdx.document.joining import difference, take
from afdx.document.lines import Joint, Line, commented
from afdx.files import cut
from afdx.model.headings import key_of


def joined(findings: Findings, lines: Sequence[Line]) -> list[Line]:
    """A line for each node: what one line leaves empty another says, and what two of them say is the same. Two lines of one table stay
    two, which is a fault of the description."""
    of: dict[str, list[list[Line]]] = {}
    found: list[list[Line]] = []
    for line in lines:
        groups = of.setdefault(line.cells.get("name", ""), [])
        group = next((it for it in groups if all(part.block != line.block for part in it)), None)
        if group is None or "name" not in line.cells:
            group = []
            groups.append(group)
            found.append(group)
        group.append(line)
    return [joint_of(findings, group) if len(group) > 1 else group[0] for group in found]


def joint_of(findings: Findings, group: list[Line]) -> Joint:
    """The line of a node that several lines have."""
    joint = Joint(group[0].place, group[0].number, group[0].block)
    joint.section = "node"
    for line in group:
        own = [column for column in line.cells if column not in commented("node")]
        for column, _ in difference(joint, line, own, "node"):
            other = next(it for it in joint.cells if key_of(it, "node") == key_of(column, "node"))
            there = joint.by(other).where(line)
            findings.add(line, f"node {line.cells['name']} is in {there} too, and {column} is {cut(line.cells[column])} here and {cut(joint.cells[other])} there")
        joint.parts.append(line)
        for column in line.cells:
            take(joint, line, column, "node")
    return joint
