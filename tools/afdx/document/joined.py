"""Lines of one virtual link, in one sheet or in several, are one: what one of them leaves empty another says, and what two of them
say is the same. Destinations, ports and what becomes a comment may differ."""
from collections.abc import Iterator, Sequence

from afdx.document import cells
from afdx.document.findings import Findings
from afdx.document.joining import alike, difference, other_of, take
from afdx.document.lines import Joint, Line, commented
from afdx.document.streams import OF_A_STREAM, PORTS, Streams
from afdx.document.sub_links import SubLinks
from afdx.files import cut, sheets
from afdx.model.headings import key_of

# What lines of one virtual link may have each for itself.
OF_A_LINE = {"destinations", "network", "sub_vl", "stream"}
# What a receiver may say too, of its own port.
OF_A_READER = {"period_ns", "depth", "timing"}
NAMED = (*PORTS, "message", "stream")


FREE = {*OF_A_LINE, *commented("vl")}


def of_link(line: Line) -> list[str]:
    """The columns that a line has of its virtual link."""
    return [column for column in line.cells if column not in FREE and key_of(column, "vl") not in OF_A_STREAM]


class Joined:
    """The lines of virtual links, each made of those of one number."""

    def __init__(self, findings: Findings, lines: Sequence[Line]) -> None:
        self.findings = findings
        self.continue_lines(lines)
        of: dict[str | int, list[Line]] = {}
        for i, line in enumerate(lines):
            of.setdefault(line.cells.get("id", i), []).append(line)
        self.readers = {name for line in lines if line.is_of_receiver for name in names_in(line)}
        sub_links = SubLinks(findings, lines)
        self.lines = [self.joint(own) for own in of.values()]
        for joint in self.lines:
            sub_links.settle(joint, [joint.own or joint, *joint.streams])
            self.networks(joint)
            self.destinations(joint)

    def continue_lines(self, lines: Sequence[Line]) -> None:
        """Gives a line without a number that of the line above it, where it says nothing else than that one, or names a port of its own."""
        above: Line | None = None
        for line in lines:
            if "id" not in line.cells and above is not None and above.block == line.block and "id" not in line.at:
                has_port = any(it in line.cells and line.cells[it] != above.cells.get(it) for it in NAMED)
                own = of_link(line) if has_port else [*of_link(line), *(it for it in line.cells if key_of(it, "vl") in OF_A_STREAM)]
                if line.cells and all(alike(column, line.cells[column]) == alike(column, above.cells.get(column)) for column in own):
                    line.cells["id"] = above.cells["id"]
                    self.findings.note(line, f"has no number, and is of virtual link {above.cells['id']} as line {above.number} is")
            if "id" in line.cells:
                above = line

    def joint(self, lines: list[Line]) -> Joint:
        """The line of a virtual link: what all of its lines say, and its streams. What a sender says counts before what a receiver
        says of its own port."""
        number = lines[0].cells.get("id", "")
        joint = Joint(lines[0].place, lines[0].number, lines[0].block)
        for line in sorted(lines, key=lambda line: line.is_of_receiver):
            if self.agrees(joint, line, number):
                joint.parts.append(line)
                for column in of_link(line):
                    take(joint, line, column)
        self.streams(joint, number)
        place = {id(line): i for i, line in enumerate(lines)}
        joint.parts.sort(key=lambda part: place[id(part)])
        return joint

    def agrees(self, joint: Joint, line: Line, number: str) -> bool:
        """Whether a line says of its virtual link what those before it say; else it is reported."""
        different = []
        for column, _ in difference(joint, line, of_link(line)):
            if line.is_of_receiver and key_of(column, "vl") in OF_A_READER:
                self.findings.note(line, f"{column} is that of the receiver, and is passed over")
                del line.cells[column]
            else:
                different.append((column, joint))
        if different:
            self.report(line, number, different, "")
        return not different

    def report(self, line: Line, number: str, different: Sequence[tuple[str, Joint]], more: str) -> None:
        """Reports in what a line differs."""
        texts: list[str] = []
        there = line
        for column, joint in reversed(different):
            other = other_of(joint, column) or column
            there = joint.by(other)
            texts.insert(0, f"{column} is {cut(line.cells[column])} here and {cut(joint.cells[other])} there")
        self.findings.add(line, f"virtual link {number} is in {there.where(line)} too, and {'; '.join(dict.fromkeys(texts))}{': ' if more else ''}{more}")

    def streams(self, joint: Joint, number: str) -> None:
        """The streams of a virtual link, of which the first is its own."""
        senders = [line for line in joint.parts if not line.is_of_receiver]
        readers = [line for line in joint.parts if line.is_of_receiver]
        hear = lambda line, different, more: self.report(line, number, different, more)
        found = Streams(self.findings, number, senders or readers, hear)
        for line in readers if senders else ():
            found.hear(line, OF_A_READER)
        first, *further = found.of or [joint]
        joint.own, joint.streams = first, further
        for stream in further:
            stream.own = first
        for column in first.cells if first is not joint else ():
            if key_of(column, "vl") in OF_A_STREAM:
                joint.take(first.origin[column], column)

    # ---- what lines have each for itself ----

    def networks(self, joint: Joint) -> None:
        """The networks of each destination, as far as lines name them: `` has those of all."""
        for part in joint.parts:
            text = part.cells.get("network")
            if text is None:
                continue
            nets = cells.nets_of(text)
            if nets is None:
                self.findings.add(part, f"{part.cell('network')}: network is {cut(text)}, and must be A, B or A & B")
                continue
            for name in names_in(part) or [""]:
                joint.nets[name] = "".join(sorted({*joint.nets.get(name, ""), *nets}))
        self.rest_of_networks(joint)
        whole = joint.nets.get("")
        for name, nets in joint.nets.items():
            if whole and not set(whole) & set(nets):
                self.findings.add(joint, f"goes by network {whole} in one line, and to {name} by {nets} in another")

    def rest_of_networks(self, joint: Joint) -> None:
        """The networks of destinations whose own lines name none: those of the virtual link, if its lines agree."""
        if not joint.nets:
            marked = next((part for part in joint.parts if {"network_a", "network_b"} & set(part.headings)), None)
            if marked is not None:
                self.findings.add(marked, "is marked for neither network")
            return
        open_ones = [(part, name) for part in joint.parts for name in names_in(part) if name not in joint.nets]
        if open_ones and "" not in joint.nets:
            if len(set(joint.nets.values())) == 1:
                joint.nets[""] = next(iter(joint.nets.values()))
            else:
                part, name = open_ones[0]
                self.findings.add(part, f"names no network for {name}, and other lines of virtual link {joint.cells.get('id')} name several")

    def destinations(self, joint: Joint) -> None:
        """The destinations of all lines."""
        number = joint.cells.get("id")
        names: dict[str, list[Line]] = {}
        for part in joint.parts:
            again = []
            for name in dict.fromkeys(names_in(part)):
                before = next((it for it in names.get(name, []) if it.block == part.block and self.is_of_one_port(joint, it, part)), None)
                names.setdefault(name, []).append(part)
                if before is not None:
                    again.append((name, before))
            if again:
                text = f"names {', '.join(sorted(name for name, _ in again))} for virtual link {number} again, as line"
                self.findings.note(part, f"{text} {again[0][1].number} does")
        if names:
            joint.cells["destinations"] = " ".join(names)
        self.both_ends(joint, names)

    @staticmethod
    def is_of_one_port(joint: Joint, one: Line, other: Line) -> bool:
        """Whether two lines speak of the same streams, and of the same port of a receiver."""
        if one.cells.get("rx_port") != other.cells.get("rx_port"):
            return False
        return all((one in stream.parts) == (other in stream.parts) for stream in [*([joint.own] if joint.own else []), *joint.streams])

    def both_ends(self, joint: Joint, names: dict[str, list[Line]]) -> None:
        """Notes where lines of the sender and lines of the receivers do not name the same destinations."""
        number = joint.cells.get("id")
        sender = next((part for part in joint.parts if not part.is_of_receiver and names_in(part)), None)
        if sender is None:
            return
        for name, parts in names.items():
            if all(part.is_of_receiver for part in parts):
                self.findings.note(parts[0], f"has {name} as a receiver of virtual link {number}, and {sender.where(parts[0])} does not name it: it counts")
            elif name in self.readers and not any(part.is_of_receiver for part in parts):
                self.findings.note(parts[0], f"names {name} for virtual link {number}, and the lines of what {name} receives do not have it: it counts")


def names_in(line: Line) -> list[str]:
    return sheets.names_of(line.cells.get("destinations", ""))


def lines_of(line: Line) -> Iterator[tuple[str, list[int]]]:
    """The sheets of the lines that a line is made of, each with the numbers of its rows."""
    of: dict[str, list[int]] = {}
    for part in line.parts or [line]:
        of.setdefault(part.path, []).append(part.number or 0)
    yield from of.items()
