"""The faults and notes of tables, each once: those of several lines that differ in values alone are printed with the number of
lines that have them, and the first few of these."""
import re
from collections.abc import Iterable
from typing import Any

from afdx.files import Fault

# A fault names this many of its lines at most.
FEW_LINES = 3
# What of a fault is not the same in other lines that have it: what is quoted, numbers, and where a virtual link is from and to.
VALUES = re.compile(
    r"'[^']*'(\.\. of [0-9,]+ characters)?|\"[^\"]*\"|\b[A-Z]{1,3}[0-9]+\b(?=[:,])|\b[0-9][0-9.,_]*|\S.* is reached from .* neither on A nor on B"
    r"|\S.* is not reached from .* on [AB]|names no columns of a table, but .*"
)


def together(faults: Iterable[Fault]) -> list[Fault]:
    found: dict[Any, tuple[Fault, dict[int, None]]] = {}
    said: list[tuple[Fault, dict[int, None]]] = []
    for fault in faults:
        kind = fault.path, VALUES.sub("#", fault.text)
        first = found.get(kind)
        if first is None or fault.line is None or first[0].line == fault.line and fault.text != first[0].text and not is_of_path(fault):
            one: tuple[Fault, dict[int, None]] = (fault, {})
            found[kind if first is None else len(said)] = one
            said.append(one)
        elif fault.line != first[0].line:
            first[1].setdefault(fault.line)
    return [with_lines(fault, list(lines)) for fault, lines in said]


def is_of_path(fault: Fault) -> bool:
    return "reached from" in fault.text


def with_lines(fault: Fault, lines: list[int]) -> Fault:
    """A fault, and the other lines that have it."""
    if not lines:
        return fault
    more = f"{len(lines)} more line{'' if len(lines) == 1 else 's'}"
    few = ", ".join(map(str, lines[:FEW_LINES])) + (", .." if len(lines) > FEW_LINES else "")
    return Fault(fault.path, fault.line, f"{fault.text}; so have {more}: {few}" if len(lines) > 1 else f"{fault.text}; so has {more}: {few}")
