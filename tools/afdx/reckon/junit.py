"""Verdicts as JUnit's XML, which build servers read: a case for each limit, or for what else was judged."""
import xml.etree.ElementTree as xml
from collections.abc import Collection
from typing import NamedTuple

from afdx.model.document_names import DocumentNames
from afdx.reckon.margins import UNKNOWN, Margin, has_failed


class Case(NamedTuple):
    """A case: its class, its name, what is said of it, and whether it failed or was skipped."""

    of: str
    name: str
    says: str
    has_failed: bool
    is_skipped: bool


def text_of(
    margins: Collection[Margin], is_strict: bool, name: str, names: DocumentNames | None = None, seconds: float = 0
) -> str:
    """The margins as JUnit's XML: a case for each limit. It has the names of the document. `seconds` is how long all of them took."""
    called = lambda vl: f" {names.name(vl)}" if names and names.name(vl) else ""
    at = lambda where: f"{where} ({names.nodes[where]})" if names and where in names.nodes else where
    cases = []
    for it in margins:
        is_failure = has_failed([it], is_strict)
        is_skipped = not is_failure and it.verdict() == UNKNOWN
        says = "nothing was delivered, and there is no bound" if is_skipped else it.in_words()
        cases.append(Case(f"virtual link {it.limit.vl}{called(it.limit.vl)}", at(it.limit.where), says, is_failure, is_skipped))
    return suite_of(cases, name, seconds)


def suite_of(cases: Collection[Case], name: str, seconds: float = 0) -> str:
    """The text of a suite of cases, which took so many seconds together; none takes time by itself."""
    root = xml.Element("testsuites")
    suite = xml.SubElement(root, "testsuite", name=name)
    for it in cases:
        case = xml.SubElement(suite, "testcase", classname=it.of, name=it.name, time="0")
        if it.has_failed:
            xml.SubElement(case, "failure", message=it.says)
        elif it.is_skipped:
            xml.SubElement(case, "skipped", message=it.says)
        else:
            xml.SubElement(case, "system-out").text = it.says
    counts = {"tests": len(cases), "failures": sum(it.has_failed for it in cases), "errors": 0}
    for key, number in (counts | {"skipped": sum(it.is_skipped for it in cases)}).items():
        suite.set(key, str(number))
        root.set(key, str(number))
    for element in (root, suite):
        element.set("time", f"{seconds:.3f}")
    xml.indent(root)
    return '<?xml version="1.0" encoding="UTF-8"?>\n' + xml.tostring(root, encoding="unicode") + "\n"
