"""What a sheet says of all its virtual links: it is that of an equipment which sends or receives them, or that of a network."""
import re
from collections.abc import Collection, Sequence

from afdx.document import cells, naming
from afdx.document.block_columns import RECEIVER
from afdx.document.directions import RECEIVING, SENDING, direction_of, words_of
from afdx.document.findings import Findings
from afdx.document.lines import Line
from afdx.document.reading import Block, Reading

# What else the name of such a sheet may have.
ASIDE = SENDING | RECEIVING | {"vl", "vls", "virtual", "links", "ports", "port", "messages", "data", "icd", "sheet", "lru", "equipment", "end", "system", "es"}
# So many titles of a sheet are looked at for a name of an equipment.
MOST_TITLES = 50
OF_NETWORK = re.compile(r"(?:afdx )?(?:network|net|channel|side|plane)[ _-]*([ab])", re.IGNORECASE)
OF_EQUIPMENT = re.compile(r"(?:lru|equipment|end system|es|node|unit|box)\s*(?:name)?\s*[:=]?\s+(.+)", re.IGNORECASE)


def equipment_of(text: str, known: Collection[str]) -> str | None:
    """The node that the name of a sheet or a title names, beside words on what is sent or received."""
    said = OF_EQUIPMENT.fullmatch(text.strip())
    for name in (naming.one(text), *([naming.one(said[1])] if said else [])):
        if name in known:
            return name
    fitting = [name for name in known if (rest := without(text, name)) is not None and set(words_of(rest)) <= ASIDE]
    return max(fitting, key=len) if fitting else None


def without(text: str, name: str) -> str | None:
    """A text without a name that stands in it as a word, or None."""
    found = re.search(rf"(?<![^\W_]){re.escape(name)}(?![^\W_])", text)
    return None if found is None else f"{text[: found.start()]} {text[found.end() :]}"


class Contexts:
    """Gives lines of virtual links the source or the destination that their sheet names, and the network."""

    def __init__(self, findings: Findings, lines: Sequence[Line], readings: Sequence[Reading], known: Collection[str]) -> None:
        self.findings, self.known = findings, known
        self.of_block: dict[int, list[Line]] = {}
        for line in lines:
            self.of_block.setdefault(line.block, []).append(line)
        for reading in readings:
            for block in reading.blocks:
                if block.head.section == "vl":
                    self.block(reading, block)

    def block(self, reading: Reading, block: Block) -> None:
        """The lines of a table."""
        lines = self.of_block.get(id(block), [])
        name = reading.place.sheet or ""
        titles = [*reversed(block.titles), name]
        net = OF_NETWORK.fullmatch(name.strip())
        columns = {column for line in lines for column in line.at}
        ends = {"source" if "source" in columns else "", "destinations" if columns & {"destinations"} or any(it.startswith(RECEIVER) for it in columns) else ""}
        owner = next((it for text in (*titles, *reversed(reading.texts()[-MOST_TITLES:])) if (it := equipment_of(text, self.known))), None)
        way = next((it for text in titles if (it := direction_of(text))), None)
        for line in lines:
            if net and "network" not in line.cells and "network" not in columns:
                line.cells["network"] = net[1].upper()
            self.line(line, ends, owner, way)

    def line(self, line: Line, ends: set[str], owner: str | None, way: str | None) -> None:
        """A line: which end the equipment is of which it or its sheet speaks."""
        own = line.cells.pop("equipment", None)
        said = line.cells.pop("direction", None)
        if said is not None:
            way = cells.word_of("direction", said)
            if way is None:
                self.findings.add(line, f"{line.cell('direction')}: direction is {said!r}, and must be Tx or Rx")
        name = own or owner
        lacks = {"source", "destinations"} - ends
        if len(lacks) == 1 and name and own is None and said is None and way is None:
            # A sheet of an equipment that names the other end.
            way = "tx" if lacks == {"source"} else "rx"
        if name and lacks and way:
            end = "source" if way == "tx" else "destinations"
            if end in lacks:
                line.cells.setdefault(end, name)
                line.at = {end: line.at.get("equipment", 0)} | line.at
        elif own and lacks:
            self.findings.add(line, f"{line.cell('equipment')}: does {own} send or receive? Say what the column is by --column, source or destinations, or write Tx or Rx")
        # In a table with senders a line without one goes on with the line above.
        line.is_of_receiver = "source" not in {*line.cells, *ends} and "destinations" in line.cells and way != "tx" or way == "rx"
        if line.is_of_receiver and "port" in line.cells and not line.is_port_of_sender:
            line.cells.setdefault("rx_port", line.cells.pop("port"))
