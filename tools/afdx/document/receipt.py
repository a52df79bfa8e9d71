"""The receipt of tables: what became of each row of each sheet, and what was made of them."""
import csv
import io
from typing import NamedTuple

from afdx.document.reading import LEFT, SKIPPED, TITLE, USED, Reading
from afdx.document.rows import Maker
from afdx.files.page_text import counted

HEAD = ["file", "sheet", "rows", "used", "titles", "skipped", "left", "virtual_links", "nodes", "links", "outages", "streams"]
SECTIONS = ("vl", "node", "link", "outage", "stream")


class Sheet(NamedTuple):
    """What became of the rows of a sheet, and of how many rows of the description it has a line."""

    path: str
    name: str
    rows: int
    used: int
    titles: int
    skipped: int
    left: int
    made: tuple[int, ...]


def sheet_of(reading: Reading, maker: Maker) -> Sheet:
    """What became of a sheet. Empty rows are titles."""
    found = list(reading.verdicts.values())
    used, skipped, left = (found.count(it) for it in (USED, SKIPPED, LEFT))
    made = []
    for section in SECTIONS:
        parts = [line.parts or [line] for line in maker.made_of[section]]
        own = [any(part.place == reading.place and part.section in (section, "vl" if section == "stream" else "") for part in it) for it in parts]
        made.append(sum(own))
    return Sheet(reading.place.path, reading.place.sheet or "", reading.size, used, reading.size - used - skipped - left, skipped, left, tuple(made))


class Receipt:
    """What became of all sheets."""

    def __init__(self, maker: Maker) -> None:
        self.sheets = [sheet_of(reading, maker) for reading in maker.tables.readings]
        self.counts = {section: len(maker.rows[section]) for section in SECTIONS}
        self.lines_of_links = maker.tables.lines_of_links

    def text(self) -> str:
        """In one line."""
        total = lambda name: sum(getattr(sheet, name) for sheet in self.sheets)
        made = [f"{counted(self.counts['vl'], 'virtual link')} of {counted(self.lines_of_links, 'row')}"]
        made += [counted(self.counts["stream"], "further stream")] if self.counts["stream"] else []
        made += [counted(self.counts["node"], "node"), counted(self.counts["link"], "cable")]
        made += [counted(self.counts["outage"], "outage")] if self.counts["outage"] else []
        skipped = f", {counted(total('skipped'), 'row')} skipped" if total("skipped") else ""
        return f"{', '.join(made)}; {counted(total('titles'), 'title')}{skipped}, {counted(total('left'), 'row')} left"

    def csv(self) -> str:
        """By sheet: used + titles + skipped + left = rows."""
        out = io.StringIO()
        lines = csv.writer(out, lineterminator="\n")
        lines.writerow(HEAD)
        for it in self.sheets:
            lines.writerow([it.path, it.name, it.rows, it.used, it.titles, it.skipped, it.left, *it.made])
        return out.getvalue()
