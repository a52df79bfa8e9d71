"""The page of a capture that was judged: its verdicts, the network with marks where frames break a rule, and its taps."""
import os
from collections.abc import Iterator
from typing import Any

from afdx import files, model
from afdx.files import program
from afdx.files.page_text import counted, esc, hundredths, span
from afdx.page import json_text
from afdx.page.columns import BAD, VL_COLUMN, WARN, Column, count_column
from afdx.page.drawing import Drawing, heat, legend_of_loads
from afdx.page.html_page import FACTS, OF_STREAM, part_of_page
from afdx.page.panels import FIND, panel
from afdx.page.tiles import tile
from afdx.reckon import capture_notes
from afdx.reckon.capture_judge import CaptureJudge
from afdx.reckon.capture_rows import ALLOWED, BROKEN, KEPT, ORDER, UNITS, UNKNOWN, Row

# The looks of marks, tiles and cells by verdicts.
LOOKS = {BROKEN: "bad", UNKNOWN: "warn", ALLOWED: "", KEPT: "good"}
TONES = {BROKEN: BAD, UNKNOWN: WARN, ALLOWED: 0, KEPT: 0}
OF_CLOCKS = ("skew", "latency")
# As many lines of what is broken are shown from the start.
MOST_SHOWN = 200


def in_unit(row: Row, value: int | None) -> str | None:
    """A value of a row with its unit."""
    unit = UNITS[row.what]
    return None if value is None else span(value) if unit == "ns" else counted(value, unit.removesuffix("s"))


class JudgedDrawing(Drawing):
    """The network, with a mark on each line that is tapped: what the worst verdict there is, and of how many virtual links."""

    def __init__(self, net: model.Network, verdicts: dict[str, dict[str, set[int]]]) -> None:
        super().__init__(net)
        self.verdicts = verdicts

    def line(self, line: str, path: str, tip: tuple[float, float, int, int], label: tuple[float, float, str], mark: tuple[float, float]) -> None:
        super().line(line, path, tip, label, mark)
        found = self.verdicts.get(line)
        if found is None:
            return
        worst = next((it for it in ORDER if found.get(it)), KEPT)
        # Beside the line, on the side of its load, so that the line in the other direction does not cover it.
        x, y = mark[0] - (16 * tip[2] if line in self.outages else 0), mark[1] + (-5 if label[1] < mark[1] else 5)
        said = "; ".join(f"{it}: virtual links {', '.join(map(str, sorted(found[it])))}" for it in (BROKEN, UNKNOWN, ALLOWED) if found.get(it))
        number = len(found[worst]) if worst in (BROKEN, UNKNOWN) else ""
        self.out.insert(-1, (
            f'<g class="judged {LOOKS[worst] or "warn"}" data-verdict="{worst}"><title>{esc(f"{line}: {said or KEPT}")}</title>'
            f'<circle cx="{x:.1f}" cy="{y:.1f}" r="{7 if number else 4.5}"/>'
            f'<text x="{x:.1f}" y="{y + 3.2:.1f}" text-anchor="middle">{number}</text></g>'
        ))


class CapturePage:
    """The page of a judged capture. Its tables are data, which the script of all pages draws."""

    def __init__(self, judge: CaptureJudge, rows: list[Row], made_by: str | None = None) -> None:
        self.judge, self.net, self.rows, self.made_by = judge, judge.net, rows, made_by
        self.line_number = {line: i for i, line in enumerate(self.net.mbit)}
        self.at = [self.lines_of(row) for row in rows]
        self.grids: list[dict[str, Any]] = []

    # ---- where a verdict is ----

    def lines_of(self, row: Row) -> list[str]:
        """The lines on which a row is marked: its own, the later one of two, those of its network where a tap has several, and those
        by which both copies come to a destination."""
        vl = self.net.vls.get(row.vl)
        if row.what == "skew" and vl:
            return [line for line in vl.lines if line.endswith(">" + row.where)]
        lines = row.where.split(" ")[-1].split(",")
        return [line for line in lines if self.judge.network_of(line) == row.net] or lines if len(lines) > 1 else [it for it in lines if it]

    def verdicts(self) -> dict[str, dict[str, set[int]]]:
        """Of each line that is tapped: which virtual links have which verdict there. Clocks that cannot be compared are no mark."""
        found: dict[str, dict[str, set[int]]] = {line: {} for line in self.judge.tapping}
        for row, lines in zip(self.rows, self.at):
            for line in lines if row.verdict != UNKNOWN or row.what not in OF_CLOCKS else ():
                found.setdefault(line, {}).setdefault(row.verdict, set()).add(row.vl)
        return found

    # ---- data ----

    def judged(self) -> dict[str, list[Any]]:
        rows = self.rows
        named = {"what": "what", "vl": "vl", "net": "net", "tap": "tap", "where": "where", "frames": "frames", "broken": "broken", "value": "value"}
        found: dict[str, list[Any]] = {key: [getattr(row, name) for row in rows] for key, name in named.items()}
        found["shown"] = [in_unit(row, row.value) for row in rows]
        found["allowed"] = [row.allowed for row in rows]
        found["most"] = [in_unit(row, row.allowed) for row in rows]
        found |= {"verdict": [row.verdict for row in rows], "packet": [row.packet for row in rows], "why": [row.why for row in rows]}
        found["rank"] = [len(ORDER) - ORDER.index(row.verdict) for row in rows]
        found["tone"] = [TONES[row.verdict] for row in rows]
        found["lines"] = [[self.line_number[line] for line in lines] for lines in self.at]
        return found

    def lines(self) -> dict[str, list[Any]]:
        net = self.net
        found: dict[str, list[Any]] = {"name": list(net.mbit), "mbit": list(net.mbit.values())}
        found["load"] = [hundredths(net.load[line]) for line in net.mbit]
        found["colour"] = [heat(net.load[line]) for line in net.mbit]
        found["outages"] = [[[it.from_ns, it.to_ns] for it in net.outages if it.line == line] for line in net.mbit]
        return found

    def virtual_links(self) -> Iterator[dict[str, Any]]:
        for vl in self.net.vls.values():
            paths = {side: [[self.line_number[line] for line in model.lines_of_path(path)] for path in vl.paths[side]] for side in "AB"}
            row = {key: getattr(vl, key) for key in FACTS} | {key: getattr(vl.own, key) for key in OF_STREAM}
            if not vl.is_plain():
                row["streams"] = [it[3:] for it in vl.streams]
            yield row | {"paths": paths, "lost": []}

    def data(self) -> dict[str, Any]:
        ends = [(vl.id, where) for vl in self.net.vls.values() for where in vl.destinations]
        nodes = [line.split(">") for line in self.net.mbit]
        return {
            "ends": {"vl": [vl for vl, _ in ends], "where": [where for _, where in ends]}, "lines": self.lines(), "nodes": nodes,
            "vls": self.virtual_links(), "grids": self.grids, "low": 0, "high": 1, "percents": [], "bars": 0, "enough": 0,
            "packed": False, "named": {}, "judged": self.judged(), "taps": self.taps(),
        }

    def taps(self) -> dict[str, list[Any]]:
        taps = list(self.judge.taps.values())
        return {
            "tap": [tap.name for tap in taps], "place": [", ".join(tap.place.lines) if tap.place else None for tap in taps],
            "frames": [tap.frames for tap in taps], "others": [tap.others for tap in taps], "back": [tap.steps_back for tap in taps],
            "tone": [WARN if tap.place is None or tap.steps_back else 0 for tap in taps],
        }

    # ---- parts ----

    def grid(self, name: str, columns: list[Column], sort: str, rows: str, always: int = 0) -> str:
        spec = {"name": name, "columns": [it.data() for it in columns], "sort": sort, "rows": rows, "what": "lines"}
        self.grids.append(spec | ({"always": always} if always else {}))
        return f'<div class="grid" id="grid-{name}"></div>'

    def tiles(self) -> str:
        found = []
        for verdict in ORDER:
            rows = [row for row in self.rows if row.verdict == verdict]
            kinds = ", ".join(f"{sum(row.what == what for row in rows):,} {what}" for what in UNITS if any(row.what == what for row in rows))
            look = "good" if verdict == BROKEN and not rows else LOOKS[verdict] if rows else ""
            found.append(tile(verdict, counted(len(rows), "verdict"), kinds or "none", look, "verdicts"))
        frames = sum(it.lengths.count for it in self.judge.links)
        links = len({it.vl.id for it in self.judge.links})
        more = f"of {links:,} of {counted(len(self.net.vls), 'virtual link')}"
        found.append(tile("judged", counted(frames, "frame"), more, "", "taps"))
        return '<div class="tiles">' + "".join(found) + "</div>"

    def parts(self) -> Iterator[str]:
        columns = [
            Column("what", "text", "what"), VL_COLUMN, Column("net", "text", "network"), Column("tap", "text", "tap"),
            Column("where", "text", "where", hint="the line, the destination, or both lines"),
            count_column("frames", "judged"), count_column("broken", "break it", tone="tone"),
            Column("shown", "text", "worst", order="value"), Column("most", "text", "allowed", order="allowed"),
            Column("verdict", "text", "verdict", tone="tone", order="rank"),
            Column("packet", "text_number", "packet", "number", "the number of the packet that shows it, as Wireshark has it"),
            Column("why", "words", "why"),
        ]
        broken = sum(row.verdict == BROKEN for row in self.rows)
        words = "What was judged of each virtual link at each tap, the worst verdicts first."
        yield panel("verdicts", "Verdicts", words, self.grid("judged", columns, "verdict", "judged", min(broken, MOST_SHOWN)))
        notes = "".join(f"<li>{esc(it)}</li>" for it in capture_notes.notes(self.judge, self.rows))
        if notes:
            yield panel("notes", "What was not judged, and what it means", "", f'<ul id="remarks">{notes}</ul>')
        words = (
            "A mark on a line is a tap: red where frames break a rule, amber where that is not known, with the number of these virtual links, "
            "else green. Skew and latency that are not known have no mark. A click on a line or on the number of a virtual link shows its verdicts."
        )
        picture = f'<div class="wide">{JudgedDrawing(self.net, self.verdicts()).svg()}</div>'
        yield panel("network", "The network", words, FIND, picture, legend_of_loads(bool(self.net.outages)), '<div id="one" hidden></div>')
        columns = [
            Column("tap", "text", "tap"), Column("place", "words", "tapped lines", tone="tone"), count_column("frames", "AFDX"),
            count_column("others", "others", "packets that are no frames of AFDX", unit="packets"),
            count_column("back", "runs back", "how often its clock runs back", "tone", "times"),
        ]
        yield panel("taps", "Taps", "", self.grid("of-taps", columns, "frames", "taps"))

    def text(self) -> str:
        name = f"{os.path.basename(self.judge.capture.path)} on {os.path.basename(self.net.path)}"
        parts = list(self.parts())
        words = capture_notes.summary(self.judge, self.rows)
        foot = f"Made of {esc(files.printable(self.net.path))} and {esc(files.printable(self.judge.capture.path))}. "
        foot += f"This page is by {esc(program.tool('judge').in_words())}. Description: SHA-256 {model.checksum(self.net.text)}.."
        data = "".join(piece.replace("<", "\\u003c") for piece in json_text.pieces(self.data()))
        return (
            f'<!DOCTYPE html>\n<html lang="en"><head><meta charset="utf-8"><title>{esc(name)} – afdxsim</title>\n'
            f'<meta name="viewport" content="width=device-width,initial-scale=1"><style>\n{part_of_page("report.css")}</style></head>\n'
            f'<body><main><header><h1>{esc(name)}</h1><p>{esc(words)}.</p>\n<p class="made">{self.made_of()} <span id="printed"></span></p></header>\n'
            "<noscript><p>The tables of this page are drawn by its script, which may not run here.</p></noscript>\n"
            f'{self.tiles()}\n{"".join(parts)}\n<footer>{foot}</footer></main>\n<script type="application/json" id="data">{data}</script>\n'
            f'<script>\n{part_of_page("report.js")}</script></body></html>\n'
        )

    def made_of(self) -> str:
        return f"The limits are by {esc(self.made_by)}." if self.made_by else "The limits are bounds of this model, computed by afdx bounds."
