#!/usr/bin/env python3
"""Prints all faults of a description at once, each with its line, the value, and what is allowed.

    net.toml:298: virtual link 117 (vl row 17), a, path 1: SW_A_2 is no node; SW_A2?

The first fault is the one that `afdxsim` reports; the line of `afdxsim` follows it in brackets. If the description is
accepted, warnings name what is allowed and probably a mistake.
"""
import argparse
import json
import sys
from collections import Counter
from collections.abc import Iterator, Sized
from typing import NamedTuple

from afdx import files, model
from afdx.model import Fault, description_faults
from afdx.reckon import bounds_reader, description_warnings

EXAMPLES = """
examples:
  afdx explain net.toml
        the faults of net.toml, or its warnings
  afdx bounds net.toml -o bounds.csv && afdx explain net.toml --bounds bounds.csv
        further warnings, of what may go wrong in the worst case
  afdx explain --json *.toml > findings.json
        for a build server: each fault and each warning as an object with file, line, level (fault or warning), who and
        text, a warning with its kind, and a fault with the answer of `afdxsim`

what it prints, in this order:
  faults    by the number that `afdxsim` gives them, then by section, row and key; docs/FORMATS.md, section 4, has them.
            If the text is no TOML, the lines that can be read are judged all the same
  warnings  size or last_size above smax: these frames are dropped at the first switch
            a destination that one network alone reaches, although there are two
            a period below the BAG, or streams that offer more than a frame in each BAG: frames wait in the regulator, and
            are dropped once its depth is full
            a burst of more frames than depth + 1, a sub_vl that is not below sub, an end_ns before offset_ns
            a jitter of offers by which more frames may wait in the regulator than it holds, or longer than a BAG; then
            most of a latency is the regulator's and not the network's (afdx second-opinion --hops measures both)
            a line whose load is above 75 percent, or above 100
            an end system whose transmit jitter by the rule of ARINC 664 Part 7 is above 500 us
            an outage that begins after the end; a virtual link or a stream that offers nothing before the end
            a BAG longer than the run
            with --bounds, of the worst case: accounts that may refuse frames, destinations to which neither network
            brings each frame, copies that may be further apart than SkewMax, ports that are too small

Of more than ten warnings of one kind it prints the first three, and how many more there are; --all prints each.

status: 0 if each description is accepted, with or without warnings; 1 if one has a fault; 2 if a word is wrong or the
file cannot be read.
"""

# Of more warnings of one kind than the first number, the second number are printed, and how many more there are.
MOST_OF_A_KIND, PRINTED_OF_A_KIND = 10, 3


def printed_of(path: str, warnings: list[description_faults.Finding], prints_all: bool) -> tuple[list[str], str]:
    """The lines of warnings, and lines that count them. Of many of one kind the first ones are printed."""
    kinds = Counter(it.kind for it in warnings)
    many = {} if prints_all else {kind: count for kind, count in kinds.items() if count > MOST_OF_A_KIND}
    lines: list[str] = []
    seen: Counter[str] = Counter()
    for it in warnings:
        seen[it.kind] += 1
        if it.kind not in many or seen[it.kind] <= PRINTED_OF_A_KIND:
            lines.append(description_faults.line_of(path, it))
    lines += (f"{path}: warning: {kind}: {count - PRINTED_OF_A_KIND:,} more (--all)" for kind, count in many.items())
    more = f" of {counted(kinds, 'kind')}" if many else ""
    return lines, f", {counted(warnings, 'warning')}{more}" if warnings else ""


class Explained(NamedTuple):
    """What a description has: its faults, whether all of it was judged, and if it has no fault the warnings."""

    path: str
    faults: list[description_faults.Finding]
    is_whole: bool
    warnings: list[description_faults.Finding]

    def lines(self, prints_all: bool) -> list[str]:
        lines = [description_faults.line_of(self.path, finding) for finding in self.faults]
        if self.faults:
            lines[0] += f" [afdxsim: description: {description_faults.answer(self.faults[0])}]"
            behind = "" if self.is_whole else f"; what is behind line {self.faults[-1].line} was not judged"
            return [*lines, f"{self.path}: {counted(self.faults, 'fault')}, the first is what afdxsim answers{behind}"]
        lines, count = printed_of(self.path, self.warnings, prints_all)
        return [*lines, f"{self.path}: accepted{count}"]

    def objects(self) -> Iterator[dict[str, object]]:
        """Each fault and each warning for another program."""
        for level, ones in (("fault", self.faults), ("warning", self.warnings)):
            for it in ones:
                found = {"file": self.path, "line": it.line, "level": level, "who": it.who, "text": it.text}
                yield found | ({"kind": it.kind} if it.kind else {"answer": description_faults.answer(it)})


def explained(path: str, bounds: str | None = None) -> Explained:
    """What a file has. `bounds` names a file of bounds."""
    try:
        text = model.text_of(path)
    except Fault as fault:
        if fault.line is None:
            raise
        return Explained(path, [description_faults.Finding(1, None, fault.line, "", "the file is not UTF-8")], False, [])
    found, description = description_faults.findings_of(path, text)
    if found:
        return Explained(path, found, description is not None, [])
    net = model.Network(path, text, description)
    warnings = description_warnings.Warnings(net).findings
    if bounds:
        warnings += description_warnings.WorstCase(net, bounds_reader.read(bounds, net)).findings
    return Explained(path, [], True, warnings)


def explain(path: str, bounds: str | None = None, prints_all: bool = False) -> tuple[str, int]:
    """The faults or warnings of a file, as text, and the status. `bounds` names a file of bounds; `prints_all`: each warning."""
    found = explained(path, bounds)
    return "".join(line + "\n" for line in found.lines(prints_all)), 1 if found.faults else 0


def counted(found: Sized, word: str) -> str:
    return f"{len(found)} {word}{'' if len(found) == 1 else 's'}"


@files.tool("afdx explain")
def main(arguments: list[str] | None = None) -> int:
    parser = argparse.ArgumentParser(
        prog="afdx explain", description=__doc__, epilog=EXAMPLES, formatter_class=argparse.RawDescriptionHelpFormatter
    )
    parser.add_argument("nets", metavar="NET", nargs="+", help="the descriptions (TOML); - for standard input")
    parser.add_argument("--bounds", metavar="FILE", help="warns of the worst case too: the bounds that afdx bounds printed for NET")
    says = f"prints each warning; else of more than {MOST_OF_A_KIND} of one kind the first {PRINTED_OF_A_KIND}, and how many more there are"
    parser.add_argument("--all", action="store_true", help=says)
    parser.add_argument("--json", action="store_true", help="prints JSON: a list of all faults and warnings, one a line")
    words = parser.parse_args(arguments)
    if words.bounds and len(words.nets) > 1:
        parser.error("--bounds are of one description, and several are given")
    found = [explained(path, words.bounds) for path in words.nets]
    if words.json:
        objects = [json.dumps(it, ensure_ascii=False) for one in found for it in one.objects()]
        files.write_out("[\n" + ",\n".join(objects) + "\n]\n" if objects else "[]\n")
    else:
        files.write_out("".join(line + "\n" for one in found for line in one.lines(words.all)))
    return 1 if any(one.faults for one in found) else 0


if __name__ == "__main__":
    sys.exit(main())
