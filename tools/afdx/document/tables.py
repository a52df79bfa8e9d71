"""The lines of the tables of an interface control document, by section, with their faults, what is passed over, and what became of each row."""
import csv
import re
from collections.abc import Iterable

from afdx.document import same_nodes
from afdx.document.block_columns import BlockColumns, first_columns
from afdx.document.commas import Commas
from afdx.document.equipment import Contexts
from afdx.document.findings import Findings
from afdx.document.joined import Joined
from afdx.document.line_maker import LineMaker, star
from afdx.document.lines import Line
from afdx.document.places import Columns, Place, Said, Skip, said_of
from afdx.document.reading import LEFT, TITLE, USED, Block, Reading, SheetReader
from afdx.document.translated import translate
from afdx.document.values import Values, known_names
from afdx.files import Fault, sheets, workbook
from afdx.model.keys import SECTIONS

# What a row is in the end, if it is several things for tables that stand side by side.
RANK = [USED, LEFT, TITLE]
# How a description and a table say what a heading stands for, and what is left out.
COLUMN_SAID = re.compile(r'# --column "(.*=.*)"')


class Tables(Findings):
    """The lines of tables by section, their faults, and what is passed over. `columns` says of headings what they stand for, and
    `skips` names what is left out."""

    def __init__(self, paths: list[str], columns: Iterable[Said] = (), skips: Iterable[Skip] = ()) -> None:
        super().__init__()
        self.paths = paths
        self.lines: dict[str, list[Line]] = {section: [] for section in ("top", *SECTIONS)}
        self.columns, self.skips = Columns(list(columns)), list(skips)
        self.readings: list[Reading] = []
        self.commas: dict[str, Commas] = {}
        for path in paths:
            if workbook.is_workbook(path):
                self.read_workbook(path)
            else:
                self.read_csv(path)
            if not self.has_table(path):
                self.faults.append(Fault(path, None, "has no table: --help has their columns"))
        self.settle()
        self.words_of_no_use()

    # ---- files ----

    def has_table(self, path: str) -> bool:
        """Whether a file names columns; a workbook has rows below them too, as any two words of it may read as names of columns."""
        blocks = [block for reading in self.readings if reading.place.path == path for block in reading.blocks]
        return any(block.rows or not workbook.is_workbook(path) for block in blocks)

    def read_csv(self, path: str) -> None:
        rows, note = sheets.noted_reader(path)
        place = Place(path, None)
        if note:
            self.at(place, None, note, True)
        found = []
        try:
            for number, row in sheets.numbered(rows):
                found.append((number, [cell.strip() for cell in row]))
        except csv.Error as fault:
            self.at(place, rows.line_num, f"is no line of a table: {fault}")
        if found and found[0][1][:1] == ["sep="]:
            found[0] = (found[0][0], [])
        for _, row in found:
            self.comment(rows.dialect.delimiter.join(row))
        self.commas[path] = Commas(may_be=rows.dialect.delimiter == ";", is_sure=True)
        self.readings.append(SheetReader(place, found, self.columns, self.skips).read())

    def read_workbook(self, path: str) -> None:
        """Reads the sheets."""
        self.commas[path] = Commas(may_be=True, is_sure=False)
        found = workbook.sheets_of(path)
        self.commas[path].typed = {(sheet.name, row, column) for sheet in found for row, column in sheet.typed}
        for sheet in found:
            place = Place(path, sheet.name)
            for number, text in sheet.hidden:
                self.at(place, number, text + ", and is read all the same", True)
            spans = [(row, first, last) for row, first, last in sheet.spans]
            self.readings.append(SheetReader(place, sheet.rows, self.columns, self.skips, spans).read())

    def comment(self, text: str) -> None:
        """Takes what --back has written of the names of columns, where no word says something else."""
        found = COLUMN_SAID.fullmatch(text)
        if found and not any(it[:2] == said_of(found[1])[:2] for it in self.columns.said):
            self.columns.said.append(said_of(found[1]))

    # ---- rows ----

    def settle(self) -> None:
        """Decides what each row is, and makes the lines of those that are lines of tables."""
        blocks = [block for reading in self.readings for block in reading.blocks]
        first = [first_columns(block, self.columns) for block in blocks]
        known = known_names([(block.head.section, own, [row for _, row in block.rows]) for block, own in zip(blocks, first)])
        for reading in self.readings:
            self.titles(reading, known)
            for block in reading.blocks:
                self.settle_block(reading, block, known)
            self.left(reading)
        for commas in self.commas.values():
            for line, text in commas.unsure():
                self.add(line, text)
        Contexts(self, self.lines["vl"], self.readings, known)
        self.names = translate(self.lines)
        self.lines["node"] = same_nodes.joined(self, self.lines["node"])
        self.lines_of_links = len(self.lines["vl"])
        self.joints = Joined(self, self.lines["vl"]).lines
        self.lines["vl"] = [*self.joints]

    def titles(self, reading: Reading, known: set[str]) -> None:
        """The titles outside of tables. Two nodes are none."""
        for number, filled in reading.titles:
            if len(filled) == 2 and {" ".join(text.split()) for text in filled} <= known:
                reading.verdicts[number], reading.reasons[number] = LEFT, f"names two nodes, {filled[0]} and {filled[1]}, below no names of columns"
            else:
                self.at(reading.place, number, f"is a title, {' '.join(filled)!r}, and is passed over", True)

    def settle_block(self, reading: Reading, block: Block, known: set[str]) -> None:
        """The lines of a table: of its rows those that have a value of one of its columns."""
        hear = lambda number, text: self.at(block.place, number, text)
        note = lambda number, text: self.at(block.place, number, text, True)
        columns = BlockColumns(block, self.columns, known, hear, note)
        values = Values(block.head.section, columns.found, known)
        maker = LineMaker(self, block, columns, self.commas[block.place.path])
        for number, row in block.rows:
            verdict, reason = values.verdict(row)
            if verdict == USED:
                line = maker.line(number, row)
                self.lines[block.head.section] += star(line, self) if "end" in columns.found else [line]
            elif verdict == TITLE and len(block.beside) == 1:
                note(number, f"is a title, {' '.join(filter(None, row))!r}, and is passed over")
            # Of tables side by side one may have a line where another has none.
            before = reading.verdicts.get(number)
            if before is None or RANK.index(verdict) < RANK.index(before):
                reading.verdicts[number], reading.reasons[number] = verdict, reason

    def left(self, reading: Reading) -> None:
        """Reports the rows that are left."""
        for first, last in runs(sorted(number for number, verdict in reading.verdicts.items() if verdict == LEFT)):
            if reading.blocks:
                word, what = reading.place.skip_word(first, last), "it" if first == last else "these lines"
            else:
                word, what = reading.place.skip_word(), "the sheet"
            for number in range(first, last + 1):
                self.at(reading.place, number, f"is left: it {reading.reasons[number]}. --column says what headings mean, and --skip {word} leaves out {what}")

    def words_of_no_use(self) -> None:
        """Reports words that name a heading, a sheet or rows that are not there."""
        place = Place(self.paths[0], None)
        for said in self.columns.said:
            if said not in self.columns.used:
                sheet = f"the sheet {said.sheet!r} has no" if said.sheet is not None else "no table has a"
                self.at(place, None, f"{sheet} column {said.name!r} that --column can make {said.column!r}")
        for skip in self.skips:
            if not skip.used:
                names = ", ".join(dict.fromkeys(reading.place.called() for reading in self.readings))
                self.at(place, None, f"no row is named by --skip {skip.text!r}; there are {names}")


def runs(numbers: list[int]) -> list[tuple[int, int]]:
    """The first and the last of each run of numbers that follow each other."""
    found: list[tuple[int, int]] = []
    for number in numbers:
        if found and found[-1][1] == number - 1:
            found[-1] = found[-1][0], number
        else:
            found.append((number, number))
    return found
