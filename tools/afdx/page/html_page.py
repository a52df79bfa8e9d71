"""The page as HTML: its parts, and the data that its script draws as tables."""
import math
import os
import re
from collections.abc import Iterator, Mapping, Sequence
from typing import Any

from afdx import files, model
from afdx.files import program
from afdx.files.page_text import counted, esc, hundredths, span
from afdx.model import offered_rates
from afdx.page import comparison_panels, json_text, late_panel, latency_panel, loss_panels, panels, worst_case_panels
from afdx.page.columns import WARN, AnyRows, Column, Rows
from afdx.page.drawing import heat
from afdx.page.end_table import BARS, ENOUGH_FOR_BARS, EndTable
from afdx.page.given import Given
from afdx.page.page_files import part_of_page
from afdx.page.tiles import tiles
from afdx.reckon import bounds_file
from afdx.runs.campaign_record import PERCENTS

# Of more lines of latencies the data of a page is packed. Browsers have what unpacks it since 2023.
MOST_PLAIN = 20_000

# What the page shows of a virtual link itself, and of its own stream.
FACTS = ["id", "source", "bag_ns", "smax", "priority", "policing", "policing_ns", "skew_ns", "depth", "sub"]
OF_STREAM = ["size", "period_ns", "offset_ns", "jitter_ns"]


def without(columns: Mapping[str, Sequence[Any]], *names: str) -> dict[str, Sequence[Any]]:
    return {name: column for name, column in columns.items() if name not in names}


class Page:
    """The page. Its tables are data, which its script draws."""

    def __init__(self, given: Given) -> None:
        self.given = given
        self.net: model.Network = given.net
        self.tables: model.Tables = given.tables
        self.ends: Rows = EndTable(given).columns
        self.grids: list[dict[str, Any]] = []
        self.rows: dict[str, AnyRows | json_text.Blocks] = {}
        self.lost: dict[int, list[model.Loss]] = {}
        for row in self.tables.losses.values():
            if row.cause != "duplicate":
                self.lost.setdefault(row.vl, []).append(row)
        self.line_number = {line: i for i, line in enumerate(self.net.mbit)}
        # For each line the node from which it leads, and the one to which.
        links = [(link.a, link.b) for link in self.net.links]
        self.ends_of = {here + ">" + there: (here, there) for a, b in links for here, there in ((a, b), (b, a))}

    def grid(
        self, name: str, columns: list[Column], sort: str, rows: str | Rows = "ends", only: list[int] | None = None,
        what: str = "lines", up: bool = False, always: int = 0,
    ) -> str:
        """A table: its columns, the one by which it is sorted, the greatest first or (`up`) the least, and where its values
        stand. It has all rows, or those of these numbers alone, and of many shows the first ten, or as many as are `always` shown."""
        spec: dict[str, Any] = {"name": name, "columns": [it.data() for it in columns], "sort": sort, "rows": rows, "what": what}
        spec |= {"up": True} if up else {}
        spec |= {"always": always} if always else {}
        self.grids.append(spec if only is None else spec | {"only": only})
        return f'<div class="grid" id="grid-{name}"></div>'

    def lines(self) -> dict[str, list[Any]]:
        """Each line of the network, column by column."""
        net, bounds = self.net, self.given.bounds
        found: dict[str, list[Any]] = {"name": list(net.mbit), "mbit": list(net.mbit.values())}
        found["load"] = [hundredths(net.load[line]) for line in net.mbit]
        found["carries"] = [hundredths(net.load[line] * net.mbit[line] / 100) for line in net.mbit]
        found["users"] = [net.users[line] for line in net.mbit]
        found["colour"] = [heat(net.load[line]) for line in net.mbit]
        out: dict[str, list[list[int]]] = {line: [] for line in net.mbit}
        for outage in net.outages:
            out[outage.line].append([outage.from_ns, outage.to_ns])
        found["outages"] = list(out.values())
        if bounds:
            ports = {line: bounds.waiting.get(line, bounds_file.Waiting(0, "")) for line in net.mbit}
            found["waiting"] = [port.most for port in ports.values()]
            found["holds"] = [bounds.holds(line) for line in net.mbit]
            tones = zip(found["waiting"], found["holds"])
            found["waiting_tone"] = [WARN if most is None or most > holds else 0 for most, holds in tones]
        return found

    def virtual_links(self) -> Iterator[dict[str, Any]]:
        """What the script needs of each virtual link, one by one."""
        for vl in self.net.vls.values():
            paths = {
                side: [[self.line_number[line] for line in model.lines_of_path(path)] for path in vl.paths[side]]
                for side in "AB"
            }
            if self.is_packed():
                paths = {side: list(json_text.after_the_one_before(found)) for side, found in paths.items()}
            row = {key: getattr(vl, key) for key in FACTS} | {key: getattr(vl.own, key) for key in OF_STREAM}
            if not vl.is_plain():
                row |= {"sends": float(offered_rates.bytes_by_ns(vl, model.BYTES_BETWEEN_FRAMES) * 800_000), "streams": [it[3:] for it in vl.streams]}
            lost = [[it.where, loss_panels.side_of(self, it), it.cause, it.count] for it in self.lost.get(vl.id, ())]
            named = self.given.names.vls.get(vl.id)
            yield row | {"paths": paths, "lost": lost} | ({"named": named} if named else {})

    def axis(self) -> tuple[int, int]:
        """From which to which power of ten the axis of all latencies goes, in ns."""
        values = [ns for vl in self.net.vls.values() for ns in (vl.bag_ns, *(it.jitter_ns for it in vl.streams), vl.policing_ns)]
        for name in ("least", "greatest", "limit", "bound"):
            values += [ns for ns in self.ends.get(name, ()) if ns]
        values = [max(1000, ns) for ns in values if ns] or [1000]
        low = math.floor(math.log10(min(values)))
        return low, max(low + 1, math.ceil(math.log10(max(values))))

    def data(self) -> dict[str, Any]:
        low, high = self.axis()
        if self.is_packed():
            self.pack()
        return {
            "ends": self.ends, "lines": self.lines(), "nodes": list(self.ends_of.values()), "vls": self.virtual_links(),
            "grids": self.grids, "low": low, "high": high, "percents": PERCENTS, "bars": BARS,
            "enough": ENOUGH_FOR_BARS, "packed": self.is_packed(), "named": self.given.names.nodes, **self.rows,
        }

    def pack(self) -> None:
        """Leaves out of the tables of a large page what the script knows without it, and puts the rest into blocks."""
        large: dict[str, Any] = {"ends": self.ends} | {name: self.rows[name] for name in ("parts", "delays", "jitters") if name in self.rows}
        if "delays" in large:
            large["delays"] = without(large["delays"], "vl", "line")
        if self.given.bounds:
            large["parts"] = parts = without(large["parts"], "vl", "where", "skew_max", "skew_bound")
            sums = zip(self.ends["bound"], parts["network_bound"], parts["wait_bound"])
            if all(bound == (None if network is None or wait is None else network + wait) for bound, network, wait in sums):
                large["ends"] = without(self.ends, "bound")
        near = {"network_b_bound": "network_a_bound", "network_bound": "network_a_bound", "greatest": "least", "mean": "least"}
        for name, columns in large.items():
            first = [it for it in near.values() if it in columns]
            ordered = {it: columns[it] for it in [*first, *columns]}
            self.rows[name] = json_text.Blocks(ordered, near)

    def is_packed(self) -> bool:
        return len(self.tables.latencies) > MOST_PLAIN

    def parts(self) -> list[str]:
        given = self.given
        found = [panels.network(self), panels.end_to_end(self)]
        # Verdicts come first.
        found.insert(0 if given.margins else 2, latency_panel.latency(self))
        found.insert(1, late_panel.late(given.ways, given.names) if given.ways else "")
        found += [worst_case_panels.worst_case(self, given.bounds)] if given.bounds else []
        found += [worst_case_panels.on_the_way(self, given.way)] if given.way else []
        found += [worst_case_panels.transmit_jitter(self)]
        found += [comparison_panels.against(self, given.other)] if given.other else []
        found += [panels.distribution(self)] if given.trace or given.percentiles else []
        found += [loss_panels.losses(self)] + ([loss_panels.over_time(self, given.trace)] if given.trace else []) + [loss_panels.second_copies(self)]
        return [it for it in found if it]

    def pieces(self) -> Iterator[str]:
        """The page in pieces, so that a large one is nowhere whole."""
        name, parts = os.path.basename(self.net.path), self.parts()
        titles = [re.match(r'<section id="(.*?)"><h2>(.*?)</h2>', it).groups() for it in parts]  # type: ignore[union-attr]
        links = "".join(f'<a href="#{where}">{title}</a>' for where, title in titles)
        yield (
            f'<!DOCTYPE html>\n<html lang="en"><head><meta charset="utf-8"><title>{esc(name)} – afdxsim</title>\n'
            f'<meta name="viewport" content="width=device-width,initial-scale=1"><style>\n{part_of_page("report.css")}</style></head>\n'
            f"<body><main><header><h1>{esc(name)}</h1><p>{self.words()}</p>\n"
            f'<p class="made">{self.who()} <span id="printed"></span></p><nav>{links}</nav></header>\n'
            "<noscript><p>The tables of this page are drawn by its script, which may not run here.</p></noscript>\n"
            f"{tiles(self.given, self.ends)}\n" + "\n".join(parts) + f"\n<footer>{self.foot()}</footer></main>\n"
        )
        script, data = part_of_page("report.js"), json_text.pieces(self.data())
        if not self.is_packed():
            yield '<script type="application/json" id="data">'
            yield from (piece.replace("<", "\\u003c") for piece in data)
            yield f"</script>\n<script>\n{script}</script></body></html>\n"
        else:
            yield '<p id="unpacking">The data of this page is unpacked, which takes some seconds.</p>\n<script type="text/plain" id="packed">'
            yield from json_text.packed(data)
            yield f'</script>\n<script type="text/plain" id="script">\n{script}</script>\n'
            yield f"<script>\n{part_of_page('unpack.js')}</script></body></html>\n"

    def words(self) -> str:
        net = self.net
        switches = [counted(len(net.of_kind("switch", side)), "switch", "switches") for side in "AB"]
        words = f"{counted(len(net.of_kind('es')), 'end system')}, {switches[0]} on network A and {switches[1]} on "
        words += f"network B, {counted(len(net.links), 'link')}, {counted(len(net.vls), 'virtual link')}. "
        if self.tables.merged:
            return words + "Several runs, merged: counts are those of all runs together."
        return words + f"One run of {span(net.until_ns)} with the seed {net.seed}."

    def who(self) -> str:
        """Who made what the page is made of, and a date where it is given: the same words make the same page."""
        given = self.given
        by = f"The tables are by {esc(given.made_by)}." if given.made_by else "Nothing says who made the tables (--made-by)."
        by += f" The bounds are by {esc(given.bounds.made_by)}." if given.bounds and given.bounds.made_by else ""
        return by + (f" {esc(given.date)}." if given.date else "")

    def foot(self) -> str:
        """What the page is made of, and who made that."""
        by = f"{self.who()} This page is by {esc(program.tool('report').in_words())}."
        return f"{self.made_of()} {by} Description: SHA-256 {model.checksum(self.net.text)}.."

    def made_of(self) -> str:
        given = self.given
        runs = "these runs" if self.tables.merged else "this run"
        said = f"Made of {esc(', '.join(map(files.printable, given.files)))}. It shows what happened in {runs}"
        if given.bounds and given.bounds.is_by_both():
            return said + ". Bounds hold for this model; which of them the program prints stands with the latencies."
        if given.bounds:
            return said + ". Bounds are bounds of this model, computed outside the proofs."
        return said + ", and is no bound on what can happen."
