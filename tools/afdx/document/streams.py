"""The ports of a virtual link: which of the lines of its sender speak of which stream of frames. The first stream is the virtual
link's own, each further one a row of `stream`.

Lines are of one port if they name the same one, in columns that both have. A line that names none speaks of all ports. Messages and
sub-virtual links tell ports apart only where the traffic of the lines differs too: often they are a list of what one port has."""
from collections.abc import Callable, Sequence

from afdx.document.findings import Findings
from afdx.document.joining import difference, is_alike, take
from afdx.document.lines import Joint, Line
from afdx.files import cut, sheets
from afdx.model.headings import key_of

# The keys of what an application offers: several ports of one virtual link have each their own.
OF_A_STREAM = {"size", "payload", "message_bytes", "period_ns", "offset_ns", "jitter_ns", "timing", "frames", "last_size", "end_ns"}
# What names a port of the sender, and what may.
PORTS = ("port", "udp_source_port", "udp_port")
BESIDE = ("message", "udp_destination_port", "sub_vl")
ASK = "lines of several ports of one virtual link name them in a column `port`"


def traffic(line: Line) -> list[str]:
    """The columns that a line has of what an application offers."""
    return [column for column in line.cells if key_of(column, "vl") in OF_A_STREAM]


def names_of(line: Line) -> set[str]:
    return set(sheets.names_of(line.cells.get("destinations", "")))


class Streams:
    """The streams of a virtual link, made of the lines of its sender. `number` is that of the virtual link, and `report` hears of
    lines that contradict each other: the line, in what it differs, and from which line."""

    def __init__(self, findings: Findings, number: str, lines: Sequence[Line], report: Callable[[Line, list[tuple[str, Joint]], str], None]) -> None:
        self.findings, self.number, self.report = findings, number, report
        self.has_rows = any("stream" in line.headings for line in lines)
        self.has_ports = any(port in line.cells for line in lines for port in PORTS)
        self.of: list[Joint] = []
        named = [line for line in lines if self.names(line)]
        leading = next((port for port in PORTS if any(port in line.cells for line in named)), "")
        for line in sorted(named, key=lambda line: not self.has_rows and leading not in line.cells):
            self.put(line)
        common = [line for line in lines if not self.names(line)]
        if not self.of and common:
            self.add(common[0])
        for line in common:
            if self.of[0].parts[0] is not line:
                self.spread(line)

    def names(self, line: Line) -> dict[str, str]:
        """What a line has that names its port."""
        if self.has_rows:
            return {"stream": line.cells.get("stream", "")} if "stream" in line.headings else {}
        return {column: line.cells[column] for column in (PORTS if self.has_ports else BESIDE) if column in line.cells}

    def add(self, line: Line) -> None:
        """A stream that begins with a line."""
        stream = Joint(line.place, line.number, line.block)
        self.of.append(stream)
        self.join(stream, line)

    def join(self, stream: Joint, line: Line) -> None:
        """Takes a line into a stream."""
        if not stream.parts or stream.parts[-1] is not line:
            stream.parts.append(line)
        for column in [*traffic(line), *(it for it in ("stream", *PORTS, *BESIDE) if it in line.cells)]:
            take(stream, line, column)

    # ---- lines that name a port ----

    def put(self, line: Line) -> None:
        """Takes a line that names a port into its stream, or begins a further one."""
        found = [(stream, self.relation(stream, line)) for stream in self.of]
        same = next((stream for stream, how in found if how == "same"), None)
        against = next((stream for stream, how in found if how == "against"), None)
        open_ones = [stream for stream, how in found if how == "open"]
        asked = next((stream for stream, how in found if how == "asked"), None)
        if same is not None:
            self.join(same, line)
        elif against is not None:
            self.report(line, difference(against, line, traffic(line)), "" if self.has_rows or self.has_ports else ASK)
        elif open_ones and len(self.of) == 1 and not difference(self.of[0], line, traffic(line)):
            self.join(self.of[0], line)
        elif open_ones and traffic(line):
            self.findings.add(line, f"does not name the port of virtual link {self.number} as line {self.of[0].number} does: {ASK}")
        elif asked is not None:
            self.ask(line, asked)
        elif not open_ones:
            self.add(line)

    def relation(self, stream: Joint, line: Line) -> str:
        """What a line is to a stream: of the `same` port, of an `other`, `against` what it says itself, `open` where both name their
        ports otherwise, or to be `asked` for."""
        mine, theirs = self.names(line), self.names(stream) if not self.has_rows else {"stream": stream.cells.get("stream", "")}
        shared = [column for column in mine if column in theirs]
        others = [column for column in shared if mine[column] != theirs[column]]
        differs = bool(difference(stream, line, traffic(line)))
        if not self.has_rows and not self.has_ports:
            return self.by_message(stream, line, others, differs)
        if others:
            return "other" if differs or self.is_sure(stream, line, others) or self.is_again(stream, line) else "asked"
        if not shared:
            return "open"
        others = [it for it in BESIDE if line.cells.get(it) != stream.cells.get(it) and it in line.cells and it in stream.cells]
        if differs:
            return "other" if others else "against"
        return "other" if "udp_destination_port" in others and self.comes_on_top(stream, line) else "same"

    def by_message(self, stream: Joint, line: Line, others: list[str], differs: bool) -> str:
        """The same of lines that name no port: a message with the same destinations comes on top, if each says its own traffic."""
        if differs:
            return "other" if others else "against"
        return "other" if {"message", "udp_destination_port"} & set(others) and self.comes_on_top(stream, line) else "same"

    def comes_on_top(self, stream: Joint, line: Line) -> bool:
        """Whether a line with the same destinations says its own traffic."""
        return bool(traffic(line)) and self.is_again(stream, line)

    @staticmethod
    def is_sure(stream: Joint, line: Line, others: Sequence[str]) -> bool:
        """Whether it is the port of the sender for certain that differs."""
        is_said = "stream" in others or "udp_source_port" in others or "port" in others and line.is_port_of_sender
        return is_said or "sub_vl" in line.cells and line.cells["sub_vl"] != stream.cells.get("sub_vl", line.cells["sub_vl"])

    @staticmethod
    def is_again(stream: Joint, line: Line) -> bool:
        """Whether another line of the same table has one of the same destinations, or neither has any."""
        mine = names_of(line)
        return any(part.block == line.block and (mine & names_of(part) or mine == names_of(part)) for part in stream.parts)

    def ask(self, line: Line, stream: Joint) -> None:
        """Reports a port of which nothing says whose it is."""
        column = next(it for it in PORTS if it in line.cells and line.cells[it] != stream.cells.get(it))
        word = lambda key: line.place.column_word(line.headings.get(column, column), key)
        sender, receiver = ("tx_port", "rx_port") if column == "port" else ("udp_source_port", "udp_destination_port")
        text = f"virtual link {self.number} is in {stream.where(line)} too, with another port and other destinations"
        self.findings.add(line, f"{text}: is it the port of the sender, of which each sends on its own, or that of the receiver? Say so by --column {word(sender)}, or {word(receiver)}")

    # ---- lines that name none ----

    def spread(self, line: Line) -> None:
        """What a line without a port says is that of each port which does not say it itself."""
        different = [it for stream in self.of for it in difference(stream, line, traffic(line))]
        if different:
            self.report(line, different, "" if len(self.of) > 1 else ASK)
            return
        for stream in self.of:
            self.join(stream, line)

    def hear(self, line: Line, of_a_reader: set[str]) -> None:
        """What a receiver says of its own port: it counts where the sender says nothing."""
        for column in traffic(line):
            key = key_of(column, "vl")
            silent = [stream for stream in self.of if not any(key_of(it, "vl") == key for it in stream.cells)]
            if any(is_alike(stream, line, column) for stream in self.of if stream not in silent):
                continue
            if silent == self.of and len(self.of) == 1:
                take(self.of[0], line, column)
            elif silent:
                self.findings.add(line, f"{column} is {cut(line.cells[column])}, and virtual link {self.number} has several ports: the line of each port of its sender has to have it")
            elif key in of_a_reader:
                self.findings.note(line, f"{column} is that of the receiver, and is passed over")
            else:
                self.report(line, difference(self.of[0], line, [column]), "")
