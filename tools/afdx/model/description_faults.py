"""What is wrong with a description: all faults, in the order in which `afdxsim` tries them, each with its line, the value, and
what is allowed. The fault that `afdxsim` answers is the first one.

    found, description = description_faults.findings_of(path, text)
    description = description_faults.accepted(path)      # Fault where it is not accepted
"""
import re
from typing import Any

from afdx import model
from afdx.files import toml_lines
from afdx.files.toml_lines import Table
from afdx.model import KEYS, SECTIONS, Fault
from afdx.model.findings import A_ROW, NAMES, UNREAD, Finding, answer, meant, nearest  # noqa: F401
from afdx.model.network_judge import RULES, Judge  # noqa: F401

ORDER = ["top", *SECTIONS]


def rank(finding: Finding) -> tuple[int, int, int, int]:
    """Where a fault stands in the order of the program."""
    section, row, key = finding.place or ("top", None, None)
    keys = [it.name for it in KEYS[section]]
    return finding.number, ORDER.index(section), row or 0, keys.index(key) if key else -1


# A row on a line of its own, in a list.
ROW = re.compile(r"\s*\{.*\}\s*,?\s*(#.*)?")


def marked(line: str, fault: toml_lines.BadToml, mark: str) -> str | None:
    """What takes the place of a line that is no TOML, so that what is behind it can be read; None where nothing can."""
    if mark in line:
        return None
    key = re.match(r"\s*([A-Za-z0-9_-]+)[ \t]*=", line)
    if key and not line.rstrip().endswith("["):
        return "" if "is there already" in str(fault) else f'{key[1]} = "{mark}"'
    return f'"{mark}",' if ROW.fullmatch(line) else None


def syntax_faults(text: str) -> tuple[list[Finding], Table | None]:
    """The faults of a text that is no TOML, line by line, and the table that it is, with UNREAD for what could not be
    read; None for the table where what is behind the last fault cannot be read."""
    found: list[Finding] = []
    lines = text.split("\n")
    mark = "unread"
    while mark in text:
        mark += "_"
    while len(found) < 100:
        try:
            tree = toml_lines.read("\n".join(lines))
        except toml_lines.BadToml as fault:
            found.append(Finding(1, None, fault.line, "", str(fault)))
            instead = marked(lines[fault.line - 1], fault, mark)
            if instead is None:
                break
            lines[fault.line - 1] = instead
        else:
            if found:
                forget(tree, mark)
            return found, tree
    return found, None


def forget(value: Any, mark: str) -> None:
    """Puts UNREAD in the place of each text that is the mark."""
    places = value.items() if isinstance(value, dict) else enumerate(value) if isinstance(value, list) else ()
    for place, one in list(places):
        if one == mark:
            value[place] = UNREAD
        else:
            forget(one, mark)


def findings_of(path: str, text: str) -> tuple[list[Finding], model.Description | None]:
    """The faults of a description in the order in which the program tries them, and the description; None for it where
    not all of it could be judged."""
    found, tree = syntax_faults(text)
    if tree is None:
        return found, None
    description = model.Description(path, text, tree)
    return found + judged(description), description


def judged(description: model.Description) -> list[Finding]:
    """The faults from 2 on of a description that is TOML, in the order in which the program tries them."""
    return sorted(Judge(description).findings, key=rank)


def first_fault(path: str, text: str) -> Finding | None:
    """The first fault, or None where the description is accepted."""
    return next(iter(findings_of(path, text)[0]), None)


def accepted(path: str, text: str | None = None) -> model.Description:
    """The description of a file, whose text may be given, or a fault that names the first of those that it has."""
    text = model.text_of(path) if text is None else text
    found, description = findings_of(path, text)
    if found or description is None:
        raise Fault(path, found[0].line, f"is refused: {answer(found[0])}; {found[0].text}")
    return description


def said_of(finding: Finding) -> str:
    """Which row it is, and what is wrong with it."""
    joint = "" if not finding.who else " " if finding.text.startswith(("is ", "has ")) else ": "
    return f"{finding.who}{joint}{finding.text}"


def line_of(path: str, finding: Finding) -> str:
    """A finding in one line, without what the program answers."""
    begin = "warning: " if finding.number == 0 else "no TOML: " if finding.number == 1 else ""
    return f"{path}:{finding.line}: {begin}{said_of(finding)}"
