"""Tests of afdx report. Those that read a page back need headless Chromium, as Debian's package `chromium` has it."""
import contextlib
import io
import json
import os
import random
import re
import resource
import shutil
import subprocess
import tempfile
import tomllib
import unittest
import zlib
from collections import Counter
from fractions import Fraction
from html.parser import HTMLParser

from afdx import model
from afdx.commands import report
from afdx.files import toml_lines
from afdx.files.page_text import span, two_places
from afdx.model import traces
from afdx.page import end_table
from afdx.page.drawing import Drawing
from afdx.reckon.frames import Ends, drawn_offsets
from afdx.reckon.bounds_file import COLUMNS as BOUNDS_COLUMNS
from afdx.runs.campaign_network import CampaignNetwork
from afdx.runs.plain_simulator import Simulation
from tests import drawn
from tests.places import EXAMPLES, tool_words

LARGE = ["--end-systems", "123", "--virtual-links", "984", "--until", "20000000"]


def example(name):
    """The description and the tables of an example."""
    return os.path.join(EXAMPLES, name + ".toml"), os.path.join(EXAMPLES, name + ".tables.csv")


def read(path):
    with open(path, encoding="utf-8") as file:
        return file.read()


class Followed(Simulation):
    """The plain simulator, which follows each frame: when it was released, where it was delivered, and which of its
    copies were lost where. A frame is known by its virtual link, and when it was offered and released."""

    def __init__(self, net):
        self.released, self.came, self.died, self.line = {}, Counter(), [], None
        super().__init__(net)

    def release(self, t, vl, q, frame):
        out = super().release(t, vl, q, frame)
        self.released.setdefault(vl, []).append((out.offered, out.released))
        return out

    def put(self, t, p, q, frame, high):
        self.line = self.names[self.out[p, q]]
        super().put(t, p, q, frame, high)
        self.line = None

    def lose(self, time, place, frame, cause):
        self.died.append((frame.vl, (frame.offered, frame.released), frame.net, self.line or self.names[place], cause))
        super().lose(time, place, frame, cause)

    def deliver(self, t, p, frame):
        self.came[frame.vl, self.names[p], (frame.offered, frame.released)] += 1
        super().deliver(t, p, frame)

    def ends(self, net):
        """For each virtual link and destination what was offered, is under way, is missing, by the frames alone; and
        how many copies were lost on each network."""
        found = {}
        for vl in net.vls.values():
            refused = sum(frame[0] == vl.id and frame[4] == "queue_full" for frame in self.died)
            released, offered = self.released.get(vl.id, []), len(net.offers(vl))
            for where in vl.destinations:
                paths = {side: path for side in "AB" for path in vl.paths[side] if path[-1] == where}
                dead = {side: set() for side in paths}
                for number, frame, side, place, cause in self.died:
                    lost = paths.get(side) if number == vl.id and cause not in ("queue_full", "duplicate") else None
                    if lost and (place in lost or place in model.lines_of_path(lost)):
                        dead[side].add(frame)
                came = [self.came[vl.id, where, frame] > 0 for frame in released]
                last = max((i for i, did in enumerate(came) if did), default=-1)
                missing = sum(
                    not did and (i < last or all(frame in found for found in dead.values()))
                    for i, (did, frame) in enumerate(zip(came, released))
                )
                under_way = released and len(released) - sum(came) - missing or 0
                waiting = offered - refused - len(released)
                lost = {side: len(frames) for side, frames in dead.items()}
                found[vl.id, where] = (offered, under_way + waiting, missing + refused, lost)
        return found


def simulated(net, folder, name=""):
    """A network's run by the plain simulator: its notes as (time, where, vl, what, value), and the paths of its tables
    and its trace, which are written to the folder. The network is a path, or what it has as a dictionary."""
    if type(net) is not dict:
        with open(net, "rb") as file:
            net = tomllib.load(file)
    simulation = Followed(net)
    simulation.run()
    rows = [(time, simulation.names[place], *rest) for time, place, *rest in simulation.rows]
    tables, trace = os.path.join(folder, name + "tables.csv"), os.path.join(folder, name + "trace.csv")
    for path, lines in ((tables, simulation.tables()), (trace, simulation.trace())):
        with open(path, "w", encoding="ascii") as out:
            out.writelines(line + "\n" for line in lines)
    return rows, tables, trace, simulation


def large_network(path, *words, outages=""):
    """Writes a description by afdx large-network, with further rows."""
    command = [*tool_words("large-network"), *words]
    made = subprocess.run(command, stdout=subprocess.PIPE, stderr=subprocess.DEVNULL, text=True, check=True).stdout
    with open(path, "w", encoding="utf-8") as out:
        out.write(made.replace("[[vl]]", outages + "[[vl]]", 1))
    return path


OUTAGE = '[[outage]]\nfrom = "{}"\nto = "{}"\nfrom_ns = {}\nto_ns = {}\n'


def trial(path):
    """A network of 30 virtual links on both networks, with one outage on A, of a line that many of them use."""
    words = ["--end-systems", "16", "--switches", "2", "--virtual-links", "30", "--until", "300000000", "--seed", "3"]
    return large_network(path, *words, outages=OUTAGE.format("A1", "A2", 50_000_000, 150_000_000))


def drawn_network(draw):
    """The text of a small network in which much goes wrong: outages, small ports, slow lines, too many offers, short
    skews, sub-virtual links."""
    nodes = [f'{{ name = "E{i}", kind = "es", port_bytes = {draw.choice([1518, 4000])} }}' for i in range(5)]
    links = []
    for side in draw.choice(["A", "AB", "AB"]):
        for i in "12":
            net = f'net = "{side}", latency_ns = {draw.choice([1000, 16000])}'
            nodes.append(f'{{ name = "{side}{i}", kind = "switch", port_bytes = {draw.choice([1518, 9000])}, {net} }}')
        links += [(f"{side}1", f"{side}2")] + [(f"E{i}", f"{side}{i % 2 + 1}") for i in range(5)]
    sides = sorted({name[0] for pair in links for name in pair} - {"E"})
    text = [f"until_ns = {draw.choice([2, 5, 9]) * 10**6}", f"seed = {draw.randrange(1000)}", "node = [", ",\n".join(nodes), "]"]
    for a, b in links:
        mbit, propagation = draw.choice([10, 100, 100]), draw.choice([50, 100, 20_000])
        text.append(f'[[link]]\na = "{a}"\nb = "{b}"\nmbit = {mbit}\npropagation_ns = {propagation}')
    for a, b in draw.sample(links, draw.choice([0, 1, 3])):
        begin = draw.randrange(10**7)
        text.append(OUTAGE.format(*draw.sample([a, b], 2), begin, begin + draw.randrange(1, 10**6)))
    for number in range(draw.choice([2, 6])):
        source, *destinations = draw.sample(range(5), draw.choice([2, 2, 4]))
        paths = {side: [way(side, source, destination) for destination in destinations if draw.random() < 0.9] for side in sides}
        paths = paths if any(paths.values()) else {side: [way(side, source, destination) for destination in destinations] for side in sides}
        bag = draw.choice([1, 1, 2])
        text.append(
            f"[[vl]]\nid = {number}\nbag_ms = {bag}\nsmax = 700\npriority = \"{draw.choice(['high', 'low'])}\"\n"
            f"policing_jitter_ns = {draw.choice([0, 500_000])}\nskew_max_ns = {draw.choice([0, 40_000, 900_000])}\n"
            f"depth = {draw.choice([1, 3])}\nsub = {draw.choice([1, 1, 3])}\nsize = {draw.choice([64, 600, 700])}\n"
            f"offset_ns = {draw.choice([0, 40_000])}\nperiod_ns = {draw.choice([100_000, bag * 10**6])}\n"
            f"jitter_ns = {draw.choice([0, 1, 300_000])}\n" + "".join(
                f"{side.lower()} = {json.dumps(paths.get(side, []))}\n" for side in "AB")
        )
    return "\n".join(text) + "\n"


def with_streams(text, draw):
    """The same network with bursts, sporadic offers, ends, and further streams of virtual links."""
    tree = toml_lines.read(text)
    tree["stream"] = [
        {"vl": row["id"], "size": draw.choice([64, 650]), "offset_ns": draw.choice([0, 40_000]), "period_ns": draw.choice([700_000, 3 * 10**6])}
        | {"jitter_ns": draw.choice([0, 300_000])} for row in tree["vl"] for _ in range(draw.choice([0, 1]))
    ]
    for row in [*tree["vl"], *tree["stream"]]:
        row["period_ns"] *= draw.choice([1, 1, 10])
        row |= {"frames": draw.choice([1, 2, 5]), "last_size": draw.choice([64, 700, 710]), "timing": draw.choice(["periodic", "periodic", "sporadic"])}
        row |= draw.choice([{}, {"end_ns": 10**6}, {"sub_vl": 0}, {"sub_vl": 1}])
    return model.text_of_tree(tree)


def way(side, source, destination):
    switches = [f"{side}{source % 2 + 1}", f"{side}{destination % 2 + 1}"]
    return [f"E{source}", *dict.fromkeys(switches), f"E{destination}"]


def bounds_text(path, *rows):
    """A file of bounds of a description: rows by columns."""
    own = {"description": model.checksum(read(path))}
    lines = [",".join(str((own | row).get(name, "")) for name in BOUNDS_COLUMNS) for row in rows]
    return "".join(line + "\n" for line in [",".join(BOUNDS_COLUMNS), *lines])


def make(*words):
    """The status of afdx report with these words, and what it says on error output."""
    said = io.StringIO()
    with contextlib.redirect_stderr(said), contextlib.redirect_stdout(io.StringIO()):
        status = report.main(list(words))
    return status, said.getvalue()


class Page(HTMLParser):
    """What a page has in the browser: the rows of each table as texts and as marks of their cells, the tiles and their
    marks, the lines of the drawing and those that are lit, and all elements."""

    def __init__(self, text):
        super().__init__()
        self.tables, self.heads, self.marks = {}, {}, {}
        self.tiles, self.tile_marks, self.loads, self.labels, self.lit = {}, {}, {}, {}, set()
        self.words, self.elements, self.texts, self.data = {}, [], [], None
        self.table, self.cell, self.tile, self.line, self.open, self.hidden = None, None, None, None, [], None
        self.feed(text)

    def handle_starttag(self, tag, found):
        found = dict(found)
        self.elements.append((tag, found))
        if tag not in ("meta", "link", "input", "br"):
            self.open.append(tag)
        if self.hidden is None and found.get("aria-hidden") == "true":
            self.hidden = len(self.open)
        if self.hidden is not None:
            return
        classes = (found.get("class") or "").split()
        if tag == "html":
            self.words = found
        elif tag == "table":
            self.table = found["id"]
            self.tables[self.table], self.heads[self.table], self.marks[self.table] = [], [], []
        elif tag == "tr" and self.table:
            self.tables[self.table].append([])
            self.marks[self.table].append([])
        elif tag in ("td", "th"):
            self.tables[self.table][-1].append("")
            self.marks[self.table][-1].append(next((it for it in classes if it in ("good", "warn", "bad")), ""))
            self.cell = tag
            if tag == "th":
                self.heads[self.table].append(["n" in classes, ""])
        elif tag == "span" and self.cell and set(classes) & {"warn", "bad"}:
            self.marks[self.table][-1][-1] = classes[0]
        elif "data-name" in found:
            self.tile = found["data-name"]
            self.tiles[self.tile], self.tile_marks[self.tile] = [], " ".join(classes[1:])
        elif "data-line" in found:
            self.line = found["data-line"]
            self.loads[self.line], self.labels[self.line] = found["data-load"], []
            self.lit |= {self.line} if "on" in classes else set()

    def handle_endtag(self, tag):
        while self.open and self.open.pop() != tag:
            pass
        if self.hidden is not None and len(self.open) < self.hidden:
            self.hidden = None
        if tag in ("td", "th", "tr", "table"):
            self.cell = None
        if tag == "table":
            self.table = None
        elif tag == "section":
            self.tile = self.line = None

    def handle_data(self, text):
        inside = self.open[-1] if self.open else ""
        if inside == "script" and text.startswith("{"):
            self.data = json.loads(text)
        if inside in ("script", "style") or self.hidden is not None:
            return
        self.texts.append(text)
        if self.cell:
            self.tables[self.table][-1][-1] += text
            if inside == "small":
                self.heads[self.table][-1][1] = text
        elif inside == "text" and self.line:
            self.labels[self.line].append(text)
            self.line = None
        elif self.tile and inside in ("b", "small"):
            self.tiles[self.tile].append(text)

    def rows(self, table):
        """The rows of a table, without its head."""
        return [[cell.strip() for cell in row] for row in self.tables[table][1:]]

    def columns(self, table):
        """The rows of a table by the names of its columns; where two have one name, the last of them."""
        names = [name.removesuffix(unit) for name, (_, unit) in zip(self.tables[table][0], self.heads[table])]
        return [dict(zip(names, row)) for row in self.rows(table)]

    def marked(self, table):
        """The same for the marks of the cells."""
        names = [name.removesuffix(unit) for name, (_, unit) in zip(self.tables[table][0], self.heads[table])]
        return [dict(zip(names, row)) for row in self.marks[table][1:]]


# All rows are asked for, and drawn as for a printer.
UNFOLD = 'document.querySelectorAll("button.all").forEach(it => it.click()); dispatchEvent(new Event("beforeprint"));'


class Browser:
    """Headless Chromium."""

    def __init__(self, folder):
        self.program = shutil.which("chromium") or shutil.which("chromium-browser")
        if not self.program:
            raise AssertionError("there is no Chromium: apt-get update && apt-get install -y chromium")
        self.folder = folder
        self.command = [self.program, "--headless", "--no-sandbox", "--disable-gpu", "--disable-dev-shm-usage"]
        self.command += ["--user-data-dir=" + os.path.join(self.folder, "profile")]

    def run(self, *words):
        """Runs the browser. On a machine that has no time for it it may hang as it begins, so it is tried thrice."""
        for seconds in (100, 300, 900):
            try:
                return subprocess.run([*self.command, *words], capture_output=True, timeout=seconds, check=True)
            except subprocess.TimeoutExpired as fault:
                late = fault
        raise late

    def open(self, path, script, address="", wide=800, more=()):
        """The page as the browser has it once it is loaded, at an address of it, in a window that is so wide, and a script has
        run, with the processor seconds it took."""
        tried = os.path.join(self.folder, "tried.html")
        with open(tried, "w", encoding="utf-8") as out:
            out.write(read(path) + f'<script>addEventListener("load", () => {{{script}}})</script>')
        before = resource.getrusage(resource.RUSAGE_CHILDREN)
        run = self.run(f"--window-size={wide},600", *more, "--dump-dom", "file://" + tried + address)
        after = resource.getrusage(resource.RUSAGE_CHILDREN)
        page = Page(run.stdout.decode("utf-8"))
        page.seconds = after.ru_utime - before.ru_utime + after.ru_stime - before.ru_stime
        return page

    def printed(self, path, script):
        """What is drawn on each sheet, if the page is printed once a script has run."""
        tried, sheets = os.path.join(self.folder, "tried.html"), os.path.join(self.folder, "sheets.pdf")
        with open(tried, "w", encoding="utf-8") as out:
            out.write(read(path) + f'<script>addEventListener("load", () => {{{script}}})</script>')
        self.run("--print-to-pdf=" + sheets, "file://" + tried)
        with open(sheets, "rb") as file:
            objects = dict(re.findall(rb"\n(\d+) 0 obj\s(.*?)\sendobj", file.read(), re.DOTALL))
        found = [it for it in objects.values() if re.search(rb"/Type /Page\b(?!s)", it)]
        found = [objects[re.search(rb"/Contents (\d+) 0 R", it)[1]] for it in found]
        return [zlib.decompress(it.partition(b"stream")[2].lstrip(b"\r\n")) for it in found]


def ns_of(text):
    """µs of a page as whole ns."""
    whole, _, part = text.replace(",", "").partition(".")
    assert len(part) == 3, text
    return int(whole + part)


def number_of(text):
    return int(text.replace(",", ""))


def bytes_of_burst(stream):
    """What a burst takes on a line, with the 20 bytes between frames."""
    frames = stream.get("frames", 1)
    return (frames - 1) * (stream["size"] + 20) + stream.get("last_size", stream["size"]) + 20


def most_together(streams, part):
    """The greatest sum of the parts of streams that are active at one moment: when some stream begins."""
    active = lambda it, t: it["offset_ns"] <= t and t < it.get("end_ns", t + 1)
    return max(sum(part(it) for it in streams if active(it, begin["offset_ns"])) for begin in streams)


def loads_of(net):
    """The load of each line in percent, from the description alone."""
    loads = {}
    for link in net["link"]:
        for line in ((link["a"], link["b"]), (link["b"], link["a"])):
            loads[line] = Fraction(0)
    speed = {line: link["mbit"] for link in net["link"] for line in ((link["a"], link["b"]), (link["b"], link["a"]))}
    for vl in net["vl"]:
        lines = {line for way in vl["a"] + vl["b"] for line in zip(way, way[1:])}
        # What the streams of a mode offer in the long run, or of that one frame in each BAG.
        streams = [vl, *(it for it in net.get("stream", []) if it["vl"] == vl["id"])]
        offered = most_together(streams, lambda it: Fraction(bytes_of_burst(it) * 8, it["period_ns"]))
        in_a_bag = most_together(streams, lambda it: Fraction(it.get("frames", 1) * vl["bag_ms"] * 10**6, it["period_ns"]))
        for line in lines:
            loads[line] += offered / max(1, in_a_bag) / Fraction(speed[line], 1000) * 100
    return {">".join(line): load for line, load in loads.items()}


class InTheBrowser(unittest.TestCase):
    """The numbers of a page, read back out of the browser, are those of the tables and of the trace."""

    @classmethod
    def setUpClass(cls):
        cls.folder = tempfile.mkdtemp()
        cls.addClassCleanup(shutil.rmtree, cls.folder)
        cls.browser = Browser(cls.folder)
        cls.page = os.path.join(cls.folder, "report.html")

    def made(self, net, tables, *words, status=0):
        self.assertEqual(make(net, tables, *words, "-o", self.page), (status, ""))

    def compare(self, page, net, tables, rows, ends):
        """Compares a page, all of whose tables are unfolded, with the description, the tables, a run's notes, and what
        became of its frames."""
        latencies, losses = {}, {}
        for line in read(tables).splitlines()[1:]:
            table, vl, where, cause, count, *numbers = line.split(",")
            if table == "latency":
                latencies[int(vl), where] = [int(count), *map(int, numbers)]
            else:
                losses[int(vl), where, cause] = int(count)
        self.compare_latencies(page, net, latencies, losses)
        lost = {key: count for key, count in losses.items() if key[2] != "duplicate"}
        found = {(int(row[0]), row[1], row[3]): number_of(row[4]) for row in page.rows("lost")} if lost else {}
        self.assertEqual(found, lost)
        if lost:
            causes = [name.removesuffix("frames") for name in page.tables["heat"][0][1:-1]]
            found = {
                (row[0], c): number_of(n) for row in page.rows("heat") for c, n in zip(causes, row[1:]) if n != "0"
            }
            by_place = {}
            for (_, where, cause), count in lost.items():
                by_place[where, cause] = by_place.get((where, cause), 0) + count
            self.assertEqual(found, by_place)
        self.assertEqual(page.tiles["copies lost"][0].split()[0], f"{sum(lost.values()):,}")
        self.assertEqual(page.tiles["delivered"][0].split()[0], f"{sum(row[0] for row in latencies.values()):,}")
        value, unit = page.tiles["greatest latency"][0].split()
        worst = Fraction(value.replace(",", "")) * {"µs": 10**3}[unit]
        self.assertEqual(worst, max(row[2] for row in latencies.values()))
        self.compare_loads(page, net)
        self.compare_ends(page, ends, latencies)
        self.compare_trace(page, rows)

    def compare_ends(self, page, ends, latencies):
        """What became of the frames, where the page leaves nothing open."""
        for row, marks in zip(page.columns("end-to-end"), page.marked("end-to-end")):
            offered, under_way, missing, lost = ends[int(row["VL"]), row["destination"]]
            printed = [number_of(row[name]) for name in ("offered", "under way", "missing")]
            self.assertEqual(printed, [offered, under_way, missing])
            self.assertEqual({side: number_of(row["lost on " + side]) for side in lost}, lost)
            self.assertEqual([row["lost on " + side] for side in "AB" if side not in lost], ["–"] * (2 - len(lost)))
            self.assertEqual(marks["missing"], "bad" if missing else "")
            self.assertEqual(marks["delivered"], "warn" if number_of(row["delivered"]) < 10 else "")
        self.assertEqual(len(page.rows("end-to-end")), len(ends))
        missing = sum(missing for _, _, missing, _ in ends.values())
        self.assertEqual(page.tiles["lost end to end"][0].split()[0], f"{missing:,}")
        few = sum(row[0] < 10 for row in latencies.values())
        self.assertEqual("fewer than ten frames" in page.tiles, few > 0)
        if few:
            self.assertEqual(page.tiles["fewer than ten frames"][0], f"at {few:,} of {len(latencies):,}")
            none = sum(row[0] == 0 for row in latencies.values())
            self.assertEqual(f"nothing came at {none:,}" in page.tiles["fewer than ten frames"][1], none > 0)

    def compare_latencies(self, page, net, latencies, losses):
        vls = {vl["id"]: dict(vl) for vl in net["vl"]}
        for stream in net.get("stream", []):
            # A page shows the greatest jitter of all streams of a virtual link.
            of_vl = vls[stream["vl"]]
            of_vl["jitter_ns"] = max(of_vl["jitter_ns"], stream["jitter_ns"])
        found = {(int(row[0]), row[1]): row for row in page.rows("latencies")}
        self.assertEqual(set(found), set(latencies))
        for key, (count, least, greatest, total) in latencies.items():
            row, vl = found[key], vls[key[0]]
            self.assertEqual(number_of(row[10]), count)
            self.assertEqual(number_of(row[11]), losses.get((*key, "duplicate"), 0))
            if count:
                mean = (Fraction(total, count) + Fraction(1, 2)).__floor__()
                self.assertEqual([ns_of(row[at]) for at in (4, 5, 2, 6)], [least, mean, greatest, greatest - least])
            self.assertEqual([ns_of(row[7]) // 10**6, ns_of(row[8]), ns_of(row[9])], [vl[key] for key in MARKS])
        order = [latencies[int(row[0]), row[1]][2] for row in page.rows("latencies")]
        self.assertEqual(order, sorted(order, reverse=True))

    def compare_loads(self, page, net):
        loads = {line: f"{(load * 100 + Fraction(1, 2)).__floor__() / 100:.2f}" for line, load in loads_of(net).items()}
        self.assertEqual(page.loads, loads)
        self.assertEqual({row[0]: row[1] for row in page.rows("loads")}, loads)
        for line, load in loads_of(net).items():
            (label,) = page.labels[line]
            self.assertLess(abs(Fraction(label.removesuffix(" %")) - load), Fraction(6, 100))

    def compare_trace(self, page, rows):
        found = {}
        for _, where, vl, what, value in rows:
            if what == "delivered":
                found.setdefault((vl, where), []).append(value)
        for row in page.rows("percentiles"):
            values = sorted(found.pop((int(row[0]), row[1]), []))
            self.assertEqual(number_of(row[7]), len(values))
            for text, percent in zip(row[3:7], (50, 95, 99, 100)) if values else ():
                value = ns_of(text)
                self.assertIn(value, values)
                self.assertGreaterEqual(100 * sum(it <= value for it in values), percent * len(values))
                self.assertLess(100 * sum(it < value for it in values), percent * len(values))
        self.assertEqual(found, {})
        lost = sum(what not in ("delivered", "duplicate") for _, _, _, what, _ in rows)
        copies = sum(what == "duplicate" for _, _, _, what, _ in rows)
        drawn = {"lost": 0, "copies": 0}
        for tag, words in page.elements:
            if tag == "rect" and "data-count" in words:
                drawn["copies" if words["fill"] == "#a9b4bf" else "lost"] += int(words["data-count"])
        self.assertEqual(drawn, {"lost": lost, "copies": copies})

    def test_each_example(self):
        for name in sorted(name.removesuffix(".toml") for name in os.listdir(EXAMPLES) if name.endswith(".toml")):
            with self.subTest(name):
                path, tables = example(name)
                rows, made, trace, run = simulated(path, self.folder)
                self.assertEqual(read(made), read(tables))
                self.made(path, tables, "--trace", trace)
                with open(path, "rb") as file:
                    net = tomllib.load(file)
                page = self.browser.open(self.page, UNFOLD)
                self.compare(page, net, tables, rows, run.ends(model.Network(path)))
                self.each_number_has_its_unit(page)

    def each_number_has_its_unit(self, page):
        """Each column of numbers names its unit, and so does each text of a drawing that has a number."""
        for table, heads in page.heads.items():
            for is_number, unit in heads:
                self.assertTrue(unit or not is_number, table)
        for texts in page.labels.values():
            self.assertTrue(all(text.endswith(" %") for text in texts))
        units = r"-?[\d,.]+ (%|µs|frames?)"
        for value in (page.tiles[name][0] for name in page.tiles if name not in ("outages", "fewer than ten frames")):
            self.assertRegex(value, f"^{units}$")

    def test_a_network_of_123_end_systems(self):
        """It opens within seconds, shows ten rows, and all of them within a second; so long takes a sort."""
        path = large_network(os.path.join(self.folder, "large.toml"), *LARGE)
        rows, tables, trace, run = simulated(path, self.folder)
        net = model.Network(path)
        limits, bounds = self.limits_and_bounds(net, tables)
        self.made(path, tables, "--trace", trace, "--limits", limits, "--bounds", bounds)
        printed = """
            const said = document.documentElement.dataset, place = document.getElementById("grid-latencies");
            const body = () => place.querySelectorAll("tbody")[1], box = place.querySelector(".box");
            const shown = () => Array.from(body().rows).filter(row => row.offsetHeight > 0).length;
            said.shown = shown();
            const acts = [place.querySelector(".all"), ...place.querySelectorAll("th button")];
            acts.forEach(it => { it.click(); document.body.offsetHeight; });
            said.acts = acts.length;
            said.drawn = shown();
            // Far below, other rows are drawn; and no column has moved.
            const wide = () => Array.from(place.querySelectorAll("th"), it => it.getBoundingClientRect().width).join();
            const before = wide(), first = body().rows[0].textContent;
            box.scrollTop = 100000;
            box.dispatchEvent(new Event("scroll"));
            said.moved = first !== body().rows[0].textContent;
            said.still = before === wide();
            said.below = shown();
            said.high = box.scrollHeight / body().rows[1].offsetHeight;
        """
        worked = self.browser.open(self.page, printed)
        count, words = len(net.destinations), worked.words
        self.assertEqual(words["data-shown"], "10")
        self.assertLess(max(int(words["data-drawn"]), int(words["data-below"])), 150)
        self.assertEqual([words["data-moved"], words["data-still"]], ["true", "true"])
        self.assertAlmostEqual(float(words["data-high"]), count, delta=count / 20)
        # A busy machine makes clocks useless, so what counts is processor time: that of all processes of the browser,
        # less what they need for a page with nothing on it, or for the same page alone.
        with open(os.path.join(self.folder, "empty.html"), "w", encoding="utf-8") as out:
            out.write("<!DOCTYPE html><title>empty</title>")
        page, empty = self.browser.open(self.page, ""), self.browser.open(out.name, "")
        # What draws all rows takes minutes; so the limits are many times what is usual, some 1 and 0.1 s, for a slow machine.
        self.assertLess(page.seconds - empty.seconds, 60)
        self.assertLess((worked.seconds - page.seconds) / int(words["data-acts"]), 10)
        with open(path, "rb") as file:
            found = tomllib.load(file)
        page = self.browser.open(self.page, UNFOLD)
        self.assertEqual(len(page.rows("latencies")), count)
        self.compare_large(page, found, tables, rows, run.ends(net))
        self.each_row_is_printed([where for _, where in net.destinations])

    def each_row_is_printed(self, destinations):
        """All latencies that are asked for are printed, of which a browser in a window draws those in sight: here of the
        destinations with a name, since a browser prints some hundred rows a second."""
        name = "E10"
        count = sum(name in where for where in destinations)
        self.assertGreater(count, 300)
        script = 'const only = document.querySelector("#grid-latencies .only"); only.value = "%s"; only.dispatchEvent(new Event("input"));'
        few, all_rows = (self.browser.printed(self.page, script % name + more) for more in (
            "", 'document.querySelector("#grid-latencies .all").click();'
        ))
        self.assertGreater(len(all_rows) - len(few), count / 45)

    def compare_large(self, page, net, tables, rows, ends):
        """A run of 20 ms brings nothing to many destinations, and that is not marked as good."""
        few = page.tiles["fewer than ten frames"]
        none = sum(line.split(",")[4] == "0" for line in read(tables).splitlines() if line.startswith("latency"))
        self.assertGreater(none, 100)
        self.assertIn(f"nothing came at {none:,}", few[1])
        # One frame is policed on both networks.
        self.assertEqual(page.tiles["lost end to end"][0], "1 frame")
        self.assertEqual(sum(missing for _, _, missing, _ in ends.values()), 1)
        # Each virtual link offers ten frames in ten times its period; so it says how long the run must be.
        longest = max(max(vl["bag_ms"] * 10**6, vl["period_ns"]) * 9 + vl["offset_ns"] for vl in net["vl"])
        needed = int(re.search(r"until_ns = ([\d_]+)", few[1])[1].replace("_", ""))
        self.assertLess(longest, needed)
        self.assertLess(needed, longest * 1.2)
        self.compare_loads(page, net)
        self.compare_trace(page, rows)
        for row in page.columns("end-to-end"):
            printed = [number_of(row[name]) for name in ("offered", "under way", "missing")]
            self.assertEqual(printed, list(ends[int(row["VL"]), row["destination"]][:3]))

    def limits_and_bounds(self, net, tables):
        """A limit and a bound for each destination that has got something: some limits are below the bound."""
        limits, bounds = os.path.join(self.folder, "limits.csv"), os.path.join(self.folder, "bounds.csv")
        found = model.Tables(tables, net).latencies
        with open(limits, "w", encoding="ascii") as out:
            out.write("vl,destination,limit_ns\n")
            out.writelines(f"{vl},{where},{5 * row.greatest}\n" for (vl, where), row in found.items() if row.count)
        with open(bounds, "w", encoding="ascii") as out:
            bound = lambda vl: (vl % 9 + 1) * 10**6
            out.write(bounds_text(net.path, *({"vl": vl, "where": where, "bound_ns": bound(vl), "sure": "A"} for vl, where in found)))
        return limits, bounds

    def test_a_click_sorts(self):
        """Also a table that is folded: then the first ten of the whole are shown."""
        path, tables = example("cockpit")
        self.made(path, tables)
        # The range has no button.
        clicks = [([3], 4, ns_of, True), ([3, 3], 4, ns_of, False), ([1], 1, str, False), ([9], 10, number_of, True)]
        script = """
            const grid = grids.find(it => it.name === "latencies"), said = [];
            const texts = at => Array.from(grid.body.rows, row => row.cells[at].textContent);
            for (const [buttons, at] of %s) {
              for (const it of buttons) grid.table.querySelectorAll("th button")[it].click();
              const few = texts(at);
              grid.button.click();
              said.push([few, texts(at)]);
              grid.button.click();
              grid.sortBy(0, false);
            }
            document.documentElement.dataset.said = JSON.stringify(said);
        """
        page = self.browser.open(self.page, script % json.dumps([it[:2] for it in clicks]))
        for (buttons, at, parse, down), texts in zip(clicks, json.loads(page.words["data-said"])):
            with self.subTest(column=at, down=down):
                few, whole = ([parse(text) for text in found] for found in texts)
                self.assertEqual(whole, sorted(whole, reverse=down))
                self.assertEqual((len(whole), few), (24, whole[:10]))

    def test_keys_reach_the_lines_of_the_drawing(self):
        path, tables = example("cockpit")
        self.made(path, tables)
        script = """
            const found = [...drawing.querySelectorAll("[data-line]")], said = found.map(it => [it.tabIndex, it.getAttribute("role")]);
            const choices = ["Enter", " ", "x"].map((key, i) => {
              location.hash = "";
              found[i].focus();
              document.activeElement.dispatchEvent(new KeyboardEvent("keydown", {key, bubbles: true}));
              return decodeURIComponent(location.hash) === "#line-" + found[i].dataset.line;
            });
            document.documentElement.dataset.said = JSON.stringify([said, choices]);
        """
        printed, choices = json.loads(self.browser.open(self.page, script).words["data-said"])
        net = model.Network(path)
        self.assertEqual(printed, [[0, "button"]] * len(net.mbit))
        self.assertEqual(choices, [True, True, False])

    def test_dark_where_the_system_is(self):
        """By the colours of the page, of a part of it and of its text: light on dark, or dark on light."""
        path, tables = example("cockpit")
        self.made(path, tables)
        script = """
            const of = (where, key) => getComputedStyle(document.querySelector(where))[key];
            document.documentElement.dataset.said = JSON.stringify([of("body", "backgroundColor"), of("section", "backgroundColor"),
              of("#drawing .es rect", "fill"), of("th", "backgroundColor"), of("body", "color"), of("#drawing text.name", "fill")]);
        """
        other = Browser(self.folder)
        other.command.append("--blink-settings=preferredColorScheme=0")
        for browser, is_dark in ((self.browser, False), (other, True)):
            printed = json.loads(browser.open(self.page, script).words["data-said"])
            light = [sum(map(int, re.findall(r"\d+", it)[:3])) > 380 for it in printed]
            self.assertEqual(light[:4], [not is_dark] * 4)
            self.assertEqual(light[4], is_dark)

    def test_latencies_fit_a_window_of_1400_pixels(self):
        """With limits, bounds and seeds, and latencies of some ms."""
        path = os.path.join(self.folder, "cockpit.toml")
        shutil.copy(example("cockpit")[0], path)
        limits, bounds, merged = (os.path.join(self.folder, name) for name in ("limits.csv", "bounds.csv", "merged.csv"))
        subprocess.run([*tool_words("bounds"), path, "-o", bounds], check=True)
        lines = read(example("cockpit")[1]).splitlines()
        with open(merged, "w") as out:
            out.writelines(line + (",seed" if i == 0 else ",1007") + "\n" for i, line in enumerate(lines))
        with open(limits, "w") as out:
            out.writelines(f"{vl},{where},99000000\n" for vl, where in model.Network(path).destinations)
        self.made(path, merged, "--limits", limits, "--bounds", bounds)
        script = """
            for (const key of ["least", "mean", "greatest", "spread", "limit", "bound", "margin", "jitter", "policing"])
              ends[key] = ends[key].map(ns => 1234567 + ns % 1000000);
            new Grid(data.grids.find(it => it.name === "latencies"), element("grid-latencies"));
            const table = element("latencies");
            document.documentElement.dataset.said = JSON.stringify([table.scrollWidth, table.parentElement.clientWidth]);
        """
        wide, room = json.loads(self.browser.open(self.page, script, wide=1400).words["data-said"])
        self.assertLessEqual(wide, room)
        self.assertGreater(room, 1200)

    def test_the_network_of_a_trial(self):
        """Thirty virtual links on both networks, and an outage on A: copies are lost, and no frame is."""
        path = trial(os.path.join(self.folder, "trial.toml"))
        rows, tables, trace, run = simulated(path, self.folder)
        net = model.Network(path)
        ends = run.ends(net)
        self.assertEqual(sum(missing for _, _, missing, _ in ends.values()), 0)
        lost = sum(what not in ("delivered", "duplicate") for _, _, _, what, _ in rows)
        self.assertGreater(lost, 100)
        for words in ([], ["--trace", trace]):
            self.made(path, tables, *words)
            page = Page(read(self.page))
            self.assertEqual(page.tiles["lost end to end"][0], "0 frames")
            self.assertEqual(page.tiles["copies lost"][0], f"{lost} frames")
            names = ("vl", "where", "offered", "under_way", "missing", "lostA", "lostB")
            printed = zip(*(page.data["ends"][name] for name in names))
            self.assertEqual({row[:2]: row[2:] for row in printed}, {
                key: (*counts, dead.get("A"), dead.get("B")) for key, (*counts, dead) in ends.items()
            })
        page = self.browser.open(self.page, UNFOLD)
        for row in page.columns("end-to-end"):
            offered, under_way, missing, dead = ends[int(row["VL"]), row["destination"]]
            printed = [number_of(row[name]) for name in ("offered", "under way", "missing")]
            self.assertEqual(printed, [offered, under_way, missing])
            self.assertEqual([number_of(row["lost on " + side]) for side in dead], list(dead.values()))

    def test_limits_bounds_and_margins(self):
        path, tables = example("cockpit")
        greatest = {key: row.greatest for key, row in model.Tables(tables, model.Network(path)).latencies.items()}
        limits, bounds = os.path.join(self.folder, "limits.csv"), os.path.join(self.folder, "bounds.csv")
        given = {(101, "FMC1"): 140170, (101, "DU_R"): 169759, (102, "DU_L"): 300000, (201, "DU_R"): 10**9}
        with open(limits, "w", encoding="ascii") as out:
            out.writelines(f"{vl},{where},{ns}\n" for (vl, where), ns in given.items())
        found = dict.fromkeys(greatest, 10**8) | {(101, "FMC1"): 140170, (102, "DU_L"): 300001, (201, "DU_R"): None}
        with open(bounds, "w", encoding="ascii") as out:
            rows = [
                {"vl": vl, "where": where, "bound_ns": "none" if ns is None else ns, "sure": "AB", "skew_ns": 5000}
                for (vl, where), ns in found.items()
            ]
            rows[0] |= {"sure": "", "warning": "not_sure"}
            rows[1] |= {"warning": "delivered_twice"}
            account = {"vl": 101, "jitter_ns": 600_000, "policing_jitter_ns": 500_000}
            rows += [account | {"where": "SWA1", "warning": "may_refuse"}, account | {"where": "SWA2", "jitter_ns": 0}]
            rows += [{"where": "FMC1>SWA1", "waiting_bytes": 16385}, {"where": "SWA1>FMC1", "waiting_bytes": 5000}]
            out.write(bounds_text(path, *rows))
        printed = {
            (101, "FMC1"): ("140.170", "140.170", "0.000", ""),
            (101, "DU_R"): ("169.759", "100,000.000", "-99,830.241", "bad"),
            (102, "DU_L"): ("300.000", "300.001", "-0.001", "warn"),
            (201, "DU_R"): ("1,000,000.000", "–", "–", "warn"),
        }
        self.made(path, tables, "--limits", limits, "--bounds", bounds, status=1)
        page = self.browser.open(self.page, UNFOLD + 'location.hash = "vl-101"; choose();')
        # The worst verdict comes first, then the least margin, and tiles lead to their lines: that of limits is the first.
        margins = [row["margin"] for row in page.columns("latencies")]
        self.assertEqual(margins, ["-99,830.241", "–", "-0.001", "0.000"] + ["–"] * (len(found) - 4))
        verdicts = [row["verdict"] for row in page.columns("latencies")]
        self.assertEqual(verdicts, ["broken", "below its bound", "below its bound", "kept"] + [""] * (len(found) - 4))
        self.assertEqual(next(iter(page.tiles)), "limits")
        for name, value, mark, where in (
            ("accounts may refuse", "1 of 2", "warn", "#worst"), ("may be lost on both", f"1 of {len(found)}", "warn", "#worst"),
            ("may be delivered twice", f"1 of {len(found)}", "warn", "#worst"), ("ports too small", "1 of 2", "warn", "#loads"),
            ("limits", "1 broken", "bad", "#latency"), ("busiest line", page.tiles["busiest line"][0], "", "#line-"),
        ):
            self.assertEqual((page.tiles[name][0], page.tile_marks[name]), (value, mark))
            (tile,) = (it for tag, it in page.elements if it.get("data-name") == name)
            self.assertTrue(tile["href"].startswith(where))
        self.assertEqual(page.rows("accounts"), [["101", "SWA1", "600.000", "500.000"]])
        unsure = {(int(row["VL"]), row["destination"]): row for row in page.columns("unsure")}
        keys = list(found)
        self.assertEqual([unsure[key]["sure by"] for key in keys[:2]], ["neither", "A and B"])
        self.assertEqual(len(unsure), 2)
        for row, marks in zip(page.columns("latencies"), page.marked("latencies")):
            key = int(row["VL"]), row["destination"]
            limit, bound, margin, mark = printed.get(key, ("–", "100,000.000", "–", ""))
            self.assertEqual((row["limit"], row["bound"], row["margin"]), (limit, bound, margin))
            self.assertEqual((marks["limit"], marks["margin"]), (mark, mark))
        drawn = Counter(found.get("class") for tag, found in page.elements if tag == "rect")
        self.assertEqual((drawn["limit"], drawn["bound"]), (len(given), len(greatest) - 1))
        self.assertEqual(page.tiles["limits"], ["1 broken", "2 below the bound, 1 of 4 kept"])
        self.assertEqual(page.tile_marks["limits"], "bad")
        own = {row["destination"]: (row["limit"], row["margin"]) for row in page.columns("vl-ends")}
        self.assertEqual((own["FMC1"], own["DU_R"]), (("140.170", "0.000"), ("169.759", "-99,830.241")))
        waiting = {row["line"]: (row["may wait"], row["port holds"]) for row in page.columns("loads")}
        self.assertEqual(waiting["FMC1>SWA1"], ("16,385", "16,384"))
        marks = {row[0]: mark["may wait"] for row, mark in zip(page.rows("loads"), page.marked("loads"))}
        self.assertEqual((marks["FMC1>SWA1"], marks["SWA1>FMC1"]), ("warn", ""))
        self.assertIn("computed outside the proofs", "".join(page.texts))

    def test_limits_alone(self):
        """Without bounds the margin is to the greatest latency; where nothing came no limit is kept."""
        path, tables = example("n3")
        net = model.Network(path)
        key, row = next(iter(model.Tables(tables, net).latencies.items()))
        limits = os.path.join(self.folder, "limits.csv")
        with open(limits, "w", encoding="ascii") as out:
            out.write(f"# one\n\n{key[0]},{key[1]},{row.greatest + 5}\n")
        self.made(path, tables, "--limits", limits)
        page = self.browser.open(self.page, UNFOLD)
        margins = {(int(it["VL"]), it["destination"]): it["margin"] for it in page.columns("latencies")}
        self.assertEqual(margins, {other: "–" for other in margins} | {key: "0.005"})
        self.assertEqual(page.tiles["limits"], ["all kept", "1 of 1 kept, by this run alone, without bounds"])

    def test_a_latency_above_its_bound(self):
        """One of the two is wrong: the page marks it red, and the status is 1."""
        path, tables = example("n1")
        bounds = os.path.join(self.folder, "bounds.csv")
        for bound, status in ((27720, 0), (27719, 1)):
            with open(bounds, "w", encoding="ascii") as out:
                out.write(bounds_text(path, {"vl": 1, "where": "ES2", "bound_ns": bound, "sure": "A"}))
            printed = f"afdx report: virtual link 1 at ES2 took 27720 ns, and its bound is {bound} ns: one of the two is wrong\n"
            self.assertEqual(make(path, tables, "--bounds", bounds, "-o", self.page), (status, printed * status))
            page = self.browser.open(self.page, UNFOLD)
            self.assertEqual("above their bound" in page.tiles, bool(status))
            self.assertEqual(page.marked("latencies")[0]["bound"], "bad" * status)
        self.assertEqual(page.tile_marks["above their bound"], "bad")

    def test_one_virtual_link(self):
        """Its way is lit, hop by hop with loads; which virtual links use a line; and the search."""
        path, tables = example("cockpit")
        rows, _, trace, _ = simulated(path, self.folder)
        self.made(path, tables, "--trace", trace)
        with open(path, "rb") as file:
            net = tomllib.load(file)
        vl = next(vl for vl in net["vl"] if vl["id"] == 101)
        lines = {">".join(line) for way in vl["a"] + vl["b"] for line in zip(way, way[1:])}
        page = self.browser.open(self.page, "", "#vl-101")
        self.assertEqual(page.lit, lines)
        printed = [self.fact(page, name) for name in ("policing", "depth", "sub-virtual links")]
        self.assertEqual(printed, ["by bytes, jitter 500 µs", f"{vl['depth']} frames", None])
        hops = page.columns("vl-hops")
        self.assertEqual(sorted(row["line"] for row in hops), sorted(lines))
        loads = loads_of(net)
        for row in hops:
            line = row["line"]
            users = [vl for vl in net["vl"] if any(line in ">".join(way) for way in vl["a"] + vl["b"])]
            paths = [way for way in vl["a"] + vl["b"] if line in ">".join(way)]
            hop = paths[0].index(line.split(">")[0]) + 1
            self.assertEqual((row["network"], row["hop"]), ("A" if paths[0] in vl["a"] else "B", str(hop)))
            self.assertEqual(row["load"], f"{(loads[line] * 100 + Fraction(1, 2)).__floor__() / 100:.2f}")
            self.assertEqual(int(row["virtual links"]), len(users))
            own = Fraction((vl["size"] + 20) * 8 * 100, max(vl["bag_ms"] * 10**6, vl["period_ns"])) * 10
            self.assertLess(abs(Fraction(row["of this"]) - own), Fraction(6, 1000))
        self.assertEqual(
            [(row["destination"], row["99th"]) for row in page.columns("vl-ends")],
            [(row["destination"], row["99th"]) for row in self.in_order(page, 101)],
        )
        line = "SWA1>DU_C"
        script = "const said = document.documentElement.dataset;"
        for name, text in (("fwc", "FWC"), ("twenty", "20")):
            script += f'find.value = "{text}"; search();'
            script += f'said.{name} = Array.from(list.querySelectorAll("b"), it => it.textContent);'
        script += 'find.value = "nobody"; search(); said.nobody = list.textContent.trim();'
        # By keys alone: down to the first that is found, and back; and Enter goes there.
        script += 'const press = (it, key) => it.dispatchEvent(new KeyboardEvent("keydown", {key, bubbles: true}));'
        script += 'find.value = "FWC"; search(); press(find, "ArrowDown"); said.focus = document.activeElement.hash;'
        script += 'press(document.activeElement, "ArrowUp"); said.back = document.activeElement.id;'
        script += 'const was = location.hash; press(find, "Enter"); said.hash = location.hash; location.hash = was;'
        page = self.browser.open(self.page, script, "#line-SWA1%3EDU_C")
        self.assertEqual(page.lit, {line})
        users = [vl["id"] for vl in net["vl"] if any(line in ">".join(way) for way in vl["a"] + vl["b"])]
        self.assertEqual(sorted(int(row["VL"]) for row in page.columns("line-vls")), users)
        shares = [Fraction(row["takes"]) for row in page.columns("line-vls")]
        self.assertEqual(shares, sorted(shares, reverse=True))
        begin = [vl["id"] for vl in net["vl"] if (vl["a"] + vl["b"])[0][0] == "FWC"]
        end = [vl["id"] for vl in net["vl"] if any(way[-1] == "FWC" for way in vl["a"] + vl["b"])]
        self.assertEqual(page.words["data-fwc"], ",".join(map(str, begin + end)))
        twenty = [str(vl["id"]) for vl in net["vl"] if str(vl["id"]).startswith("20")]
        self.assertEqual(page.words["data-twenty"], ",".join(twenty))
        self.assertEqual(page.words["data-nobody"], "0 virtual links")
        first = f"#vl-{begin[0]}"
        printed = [page.words["data-" + name] for name in ("focus", "back", "hash")]
        self.assertEqual(printed, [first, "find", first])

    def test_what_a_virtual_link_is(self):
        """The page shows sub-virtual links and policing of a virtual link that has them."""
        path, tables = example("n1")
        net = os.path.join(self.folder, "keys.toml")
        with open(net, "w", encoding="utf-8") as out:
            out.write(read(path) + 'sub = 3\npolicing = "frames"\n')
        self.made(net, tables)
        page = self.browser.open(self.page, "", "#vl-1")
        self.assertEqual(self.fact(page, "policing"), "by frames, jitter 0 µs")
        self.assertEqual(self.fact(page, "sub-virtual links"), "3")

    @staticmethod
    def fact(page, name):
        """What stands behind a name."""
        texts = [text for text in page.texts if text.strip()]
        return dict(zip(texts, texts[1:])).get(name)

    @staticmethod
    def in_order(page, vl):
        """What the data of a page has of the percentiles of a virtual link."""
        ends = page.data["ends"]
        for i, number in enumerate(ends["vl"]):
            if number == vl:
                greatest = ends["p99"][i]
                yield {"destination": ends["where"][i], "99th": f"{greatest // 1000:,}.{greatest % 1000:03d}"}

    def test_few_frames_are_drawn_one_by_one(self):
        path, tables = example("link_outage")
        rows, _, trace, _ = simulated(path, self.folder)
        self.made(path, tables, "--trace", trace)
        page = self.browser.open(self.page, UNFOLD)
        drawn = sum(tag == "circle" and found.get("class") == "frame" for tag, found in page.elements)
        self.assertEqual(drawn, sum(what == "delivered" for _, _, _, what, _ in rows))
        self.assertNotIn("bars", {found.get("class") for tag, found in page.elements if tag == "path"})

    def test_against_another_run(self):
        """With an outage and without: what became slower, faster, lost, and by how much."""
        path, tables = example("link_outage")
        with open(path, "rb") as file:
            net = tomllib.load(file)
        sound = simulated(net | {"outage": []}, self.folder, "sound-")[1]
        before, after = (model.Tables(it, model.Network(path)).latencies for it in (sound, tables))
        change = {key: after[key].greatest - before[key].greatest for key in after}
        fewer = {key: before[key].count - after[key].count for key in after}
        for words, change, fewer in (
            ((tables, sound), change, fewer),
            ((sound, tables), {key: -it for key, it in change.items()}, {key: -it for key, it in fewer.items()}),
        ):
            self.made(path, words[0], "--against", words[1])
            page = self.browser.open(self.page, UNFOLD)
            for name, column, found, parse in (
                ("slower", "slower by", change, ns_of),
                ("faster", "faster by", {key: -it for key, it in change.items()}, ns_of),
                ("more-lost", "more missing", fewer, number_of),
                ("fewer-lost", "fewer missing", {key: -it for key, it in fewer.items()}, number_of),
            ):
                found = {key: it for key, it in found.items() if it > 0}
                rows = page.columns(name) if found else []
                self.assertEqual(name in page.tables, bool(found))
                self.assertEqual({(int(row["VL"]), row["destination"]): parse(row[column]) for row in rows}, found)
                values = [parse(row[column]) for row in rows]
                self.assertEqual(values, sorted(values, reverse=True))

    def test_against_a_run_of_another_network(self):
        """What the networks share is compared, and what one of them has alone is named."""
        path, tables = example("link_outage")
        with open(path, "rb") as file:
            net = tomllib.load(file)
        other = os.path.join(self.folder, "other.toml")
        with open(other, "w", encoding="utf-8") as out:
            out.write(re.sub(r"(?s)\[\[vl\]\]\nid = 3\n.*", "", read(path)))
        before = simulated(net | {"vl": [vl for vl in net["vl"] if vl["id"] != 3]}, self.folder, "other-")[1]
        status, said = make(path, tables, "--against", before, "-o", self.page)
        self.assertEqual(status, 2)
        self.assertIn("the file ends without the latencies of virtual link 3 at FCC", said)
        self.made(path, tables, "--against", before, "--against-net", other)
        page = self.browser.open(self.page, UNFOLD)
        printed = "".join(page.texts)
        self.assertIn("1 destination of one run alone: virtual link 3 at FCC.", printed)
        self.assertEqual({"slower", "faster", "more-lost", "fewer-lost"} & set(page.tables), set())
        self.assertIn("Slower: the greatest latency grew (0)", printed)

    def test_a_printed_page(self):
        """The drawing is on page 1, and the rows that are asked for come behind it."""
        path, tables = example("cockpit")
        self.made(path, tables)
        short, whole = self.browser.printed(self.page, ""), self.browser.printed(self.page, UNFOLD)
        strokes = [len(re.findall(rb"(?<![\w/])S(?!\w)", content)) for content in short]
        self.assertGreaterEqual(strokes[0], len(model.Network(path).mbit))
        self.assertLess(max(strokes[1:]), strokes[0])
        self.assertGreater(len(whole), len(short))

    def test_marks_of_an_axis_do_not_touch_each_other(self):
        """From 1 us to 10^15 ns, in windows and in print; at each step of which one is written there is one."""
        path, tables = example("cockpit")
        limits = os.path.join(self.folder, "limits.csv")
        script = """
            if (%s)
              for (const sheet of document.styleSheets) for (const rule of [...sheet.cssRules].filter(it => it.media))
                rule.media.mediaText = /print/.test(rule.media.mediaText) ? "all" : "not all";
            const shown = [...document.querySelectorAll("#latencies .axis i")].filter(it => it.getClientRects().length);
            const boxes = shown.map(it => it.getBoundingClientRect());
            const said = document.documentElement.dataset;
            said.marks = shown.map(it => it.textContent).join();
            said.touch = boxes.slice(1).filter((box, i) => box.left < boxes[i].right + 2).length;
            said.out = boxes.filter(it => it.right > shown[0].parentElement.getBoundingClientRect().right + 1).length;
        """
        for ns in (10**6, 10**9, 10**12, 10**15):
            with open(limits, "w", encoding="ascii") as out:
                out.write(f"101,DU_R,{ns}\n")
            self.made(path, tables, "--limits", limits)
            for wide, prints in ((1600, False), (1000, False), (500, False), (1047, True)):
                with self.subTest(ns=ns, wide=wide, prints=prints):
                    words = self.browser.open(self.page, script % str(prints).lower(), wide=wide).words
                    self.assertGreaterEqual(len(words["data-marks"].split(",")), 2)
                    self.assertEqual((words["data-touch"], words["data-out"]), ("0", "0"), words["data-marks"])

    def test_names_are_escaped(self):
        name = "<img src=x onerror=document.title=1>&'\""
        net = os.path.join(self.folder, "<b>net&.toml")
        tables = os.path.join(self.folder, "escaped.csv")
        path, made = example("n1")
        for source, target in ((path, net), (made, tables)):
            with open(target, "w", encoding="utf-8") as out:
                quoted = name.replace('"', '\\"') if source == path else name
                out.write(read(source).replace("ES2", quoted))
        self.made(net, tables)
        page = self.browser.open(self.page, UNFOLD + 'location.hash = "vl-1"; choose(); find.value = "img"; search();')
        self.assertEqual([row[1] for row in page.rows("latencies")], [name])
        self.assertEqual([row[0] for row in page.rows("vl-ends")], [name])
        self.assertNotIn("img", {tag for tag, _ in page.elements})
        self.assertIn("SW1>" + name, page.loads)
        self.assertIn("<b>net&.toml", page.texts)


MARKS = ["bag_ms", "jitter_ns", "policing_jitter_ns"]


class WithoutABrowser(unittest.TestCase):
    def setUp(self):
        folder = tempfile.TemporaryDirectory()
        self.addCleanup(folder.cleanup)
        self.folder = folder.name
        self.page = os.path.join(self.folder, "report.html")

    def file(self, name, text):
        path = os.path.join(self.folder, name)
        with open(path, "wb") as out:
            out.write(text if type(text) is bytes else text.encode("utf-8"))
        return path

    def test_loads(self):
        """The loads that the examples' own words state, worked out by hand."""
        net = model.Network(example("saturated_port")[0])
        self.assertEqual(two_places(net.load["CAM1>SW"]), "6.15")
        self.assertEqual(two_places(net.load["SW>REC"]), "128.54")
        self.assertEqual(net.load["REC>SW"], 0)
        net = model.Network(example("n1")[0])
        self.assertEqual(net.load["SW1>ES2"], Fraction(84 * 8 * 1000 * 100, 100 * 10**12))

    def test_percentiles(self):
        values = list(range(1, 101))
        self.assertEqual([end_table.percentile(values, it) for it in (50, 95, 99)], [50, 95, 99])
        self.assertEqual([end_table.percentile([1, 2, 3], it) for it in (50, 95, 99)], [2, 3, 3])
        self.assertEqual(end_table.percentile([7], 50), 7)

    def test_numbers_as_text(self):
        self.assertEqual(
            [span(ns) for ns in (0, 999, 1000, 123456789, 10**9, 10**12 - 1)],
            ["0 µs", "0.999 µs", "1 µs", "123,456.789 µs", "1,000,000 µs", "999,999,999.999 µs"],
        )
        self.assertEqual(
            [two_places(Fraction(it)) for it in ("0.005", "0.0049", "128.54")], ["0.01", "0.00", "128.54"]
        )

    def hold_ends(self, text, cases):
        """Holds what is said of each destination of a network against the frames that a run followed."""
        net = model.Network(self.file("net.toml", text))
        _, tables, trace, run = simulated(tomllib.loads(text), self.folder)
        tables, followed = model.Tables(tables, net), run.ends(net)
        for trace in (None, traces.Trace(trace, tables)):
            found = Ends(tables, [net.seed], trace=trace).of
            for key, (offered, under_way, missing, lost) in followed.items():
                end = found[key]
                self.assertEqual(end.offered, offered)
                again = sum(max(0, run.came[(*key, frame)] - 1) for frame in run.released.get(key[0], []))
                printed = [(end.missing, missing), (end.under_way, under_way), (end.again, again)]
                printed += [(end.lost[side], count) for side, count in lost.items()]
                for (least, most), count in printed:
                    self.assertLessEqual(least, count)
                    self.assertLessEqual(count, most)
                self.assertEqual(bool(end.why), end.missing.least < end.missing.most)
                cases["open with a trace" if trace else "open"] += bool(end.why)
                cases["all"] += 1
                cases.update(name for name, count in (("missing", missing), ("under way", under_way), ("again", again)) if count)

    @drawn.given(60)
    def test_ends_of_drawn_networks(self, draw):
        """Whatever goes wrong in a network."""
        self.hold_ends(drawn_network(draw), Counter())

    @drawn.given(60)
    def test_ends_of_drawn_networks_with_streams(self, draw):
        self.hold_ends(with_streams(drawn_network(draw), draw), Counter())

    def test_little_is_open_with_a_trace(self):
        cases = Counter()
        for seed in range(60):
            self.hold_ends(drawn_network(random.Random(seed)), cases)
        self.assertLess(cases["open with a trace"], cases["open"])
        self.assertLess(cases["open with a trace"], cases["all"] / 10)
        self.assertGreater(min(cases.values()), 10)

    def test_ends_of_merged_tables(self):
        """Those of several seeds, with drawn offsets too, once the words name the seeds."""
        path, _ = example("cockpit")
        with open(path, "rb") as file:
            net = tomllib.load(file)
        for words, draws in (([], False), (["--offsets"], True)):
            merged, offered, missing = {}, Counter(), Counter()
            for seed in range(11, 14):
                vls = [vl | {"offset_ns": model.drawn_offset(seed, vl["id"], vl["period_ns"])} if draws else vl for vl in net["vl"]]
                _, tables, _, run = simulated(net | {"seed": seed, "vl": vls}, self.folder)
                for line in read(tables).splitlines()[1:]:
                    *key, count, least, greatest, total = line.split(",")
                    row = merged.setdefault(tuple(key), [0, 10**18, 0, 0])
                    row[0] += int(count)
                    if least and int(count):
                        row[1:] = [min(row[1], int(least)), max(row[2], int(greatest)), row[3] + int(total)]
                for vl in run.vls:
                    number = len(run.released.get(vl, [])) + sum(map(len, run.regulators[vl].waiting))
                    offered[vl] += number + sum(it[0] == vl and it[4] == "queue_full" for it in run.died)
            lines = [model.TABLES_HEAD + ",seed"]
            for key, (count, *times) in merged.items():
                times = ["", "", ""] if key[0] == "dropped" else times if count else [0, 0, 0]
                lines.append(",".join(map(str, (*key, count, *times, 11 if count else ""))))
            tables = self.file("merged.csv", "\n".join(lines) + "\n")
            self.assertEqual(make(path, tables, "-o", self.page), (0, ""))
            self.assertEqual(Page(read(self.page)).tiles["lost end to end"][0], "not known")
            words = ["--seeds", "3", "--first", "11", *words]
            self.assertEqual(make(path, tables, *words, "-o", self.page), (0, ""))
            page = Page(read(self.page))
            ends = page.data["ends"]
            self.assertEqual(ends["offered"], [offered[vl] for vl in ends["vl"]])
            self.assertEqual(page.tiles["lost end to end"][0], "0 frames")

    def test_drawn_offsets_are_those_of_a_campaign(self):
        path, _ = example("cockpit")
        drawn = tomllib.loads(CampaignNetwork(path, "true").with_seed(7, True))["vl"]
        self.assertEqual({vl["id"]: vl["offset_ns"] for vl in drawn}, drawn_offsets(model.Network(path), 7))

    def test_a_run_that_is_too_short_is_not_good(self):
        """Nothing is lost, and nothing came: that is not marked as good."""
        path, _ = example("cockpit")
        net = self.file("short.toml", re.sub("until_ns = [0-9_]+", "until_ns = 30_000", read(path)))
        _, tables, _, _ = simulated(net, self.folder)
        self.assertEqual(make(net, tables, "-o", self.page), (0, ""))
        page = Page(read(self.page))
        self.assertEqual((page.tiles["lost end to end"][0], page.tile_marks["lost end to end"]), ("0 frames", "warn"))
        self.assertIn("nothing came at 2", page.tiles["fewer than ten frames"][1])
        self.assertEqual(page.tiles["fewer than ten frames"][0], "at 24 of 24")

    def test_tables_of_another_run(self):
        """Tables that cannot be of the offers that a description gives are refused."""
        path, tables = example("n2")
        text = read(tables)
        more = text.replace("latency,1,ES2,,1,27720,27720,27720", "latency,1,ES2,,3,27720,27720,83160")
        self.assertNotEqual(text, more)
        bad = self.file("bad.csv", more)
        status, said = make(path, bad, "-o", self.page)
        self.assertEqual(status, 2)
        self.assertIn(f"afdx report: {bad} line 2: 1 frame of virtual link 1 would be sent to ES2, and the tables", said)
        bad = self.file("bad.csv", text + "dropped,1,ES1,queue_full,2,,,\n")
        printed = "0 frames of virtual link 1 would be lost as queue_full, and the tables have 2"
        other = f"; so they are tables of another run than that of {path}"
        line = len(text.splitlines()) + 1
        self.assertEqual(make(path, bad, "-o", self.page), (2, f"afdx report: {bad} line {line}: {printed}{other}\n"))

    def test_bad_limits_and_bounds(self):
        path, tables = example("n1")
        row = {"vl": 1, "where": "ES2", "bound_ns": 50000, "sure": "A"}
        of = lambda *rows: bounds_text(path, *({**row, **it} for it in rows))
        own = model.checksum(read(path))
        lacks = "line 1: the columns are not those of bounds: where is not among them"
        for word, text, said in (
            ("--limits", "1,ES2\n", "line 1: has 2 fields in place of 3: VL,NAME,NS"),
            ("--limits", "1,ES2,x\n", "line 1: the limit is 'x', and no whole number"),
            ("--limits", "1,ES1,5\n", f"line 1: 'ES1' is no destination of virtual link 1 in {path}"),
            ("--limits", "vl,destination,limit_ns\n1,ES2,5\n1,ES2,6\n", "line 3: says again what line 2 says"),
            ("--bounds", "vl\n", lacks),
            ("--bounds", of(), f"line 1: the file ends without the bound of virtual link 1 at ES2"),
            ("--bounds", of() + "1,ES2,5\n", "line 2: has 3 fields in place of 11"),
            ("--bounds", of({"bound_ns": "many"}), "line 2: bound_ns is 'many', and no whole number"),
            ("--bounds", of({"where": "ES3"}), f"line 2: 'ES3' is no destination of virtual link 1 in {path}"),
            ("--bounds", of({"vl": "", "where": "ES2>ES1"}), f"line 2: 'ES2>ES1' is no line in {path}"),
            ("--bounds", of({}, {}), "line 3: says again what line 2 says"),
            ("--bounds", of({})[:-1], "line 2: the line feed at the end is missing, so the file is not whole"),
            (
                "--bounds", of({"description": "0123456789abcdef"}),
                "line 2: these are bounds of another description: its checksum is '0123456789abcdef', and that of "
                f"{path} is {own}. `afdx bounds` computes them anew",
            ),
        ):
            with self.subTest(said):
                bad = self.file("bad.csv", text)
                self.assertEqual(make(path, tables, word, bad, "-o", self.page), (2, f"afdx report: {bad} {said}\n"))

    def test_the_page_stands_alone(self):
        path, tables = example("link_outage")
        self.assertEqual(make(path, tables, "-o", self.page), (0, ""))
        text = read(self.page)
        self.assertEqual(re.findall(r"(?i)https?:|\bsrc=|@import|<link|url\((?!#)", text), [])
        self.assertEqual(os.listdir(self.folder), ["report.html"])

    def test_outages_are_drawn_and_listed(self):
        path, tables = example("link_outage")
        make(path, tables, "-o", self.page)
        (outages,) = (grid["rows"] for grid in Page(read(self.page)).data["grids"] if grid["name"] == "outages")
        moments = {"from": [20, 60], "to": [40, 61], "for": [20, 1]}
        printed = {name: [ms * 10**6 for ms in found] for name, found in moments.items()}
        self.assertEqual(outages, printed | {"line": ["FCC>SWA"] * 2})
        drawing = re.search(r'<svg id="drawing".*?</svg>', read(self.page))[0]
        marked = [
            re.search('data-line="(.*?)"', part)[1]
            for part in drawing.split('<g class="line"')
            if 'class="out"' in part
        ]
        self.assertEqual(marked, ["FCC&gt;SWA"])

    def test_merged_tables_show_the_seed(self):
        path, tables = example("link_outage")
        lines = read(tables).splitlines()
        merged = "\n".join([lines[0] + ",seed"] + [f"{line},{40 + i}" for i, line in enumerate(lines[1:])]) + "\n"
        self.assertEqual(make(path, self.file("merged.csv", merged), "-o", self.page), (0, ""))
        data = Page(read(self.page)).data
        printed = list(zip(*(data["ends"][name] for name in ("vl", "where", "seed"))))
        self.assertEqual(printed, [(1, "ACT", 40), (2, "ACT", 41), (3, "FCC", 42)])
        (lost,) = (grid["rows"] for grid in data["grids"] if grid["name"] == "lost")
        self.assertEqual(lost["seed"], [43, 45, 46, 47])

    def test_switches_that_share_no_end_systems_are_drawn_too(self):
        """Each line of a network is drawn once, whatever its wiring."""
        text = read(example("n2")[0]).replace('a = "ES1"\nb = "SWB"', 'a = "ES1"\nb = "SWC"', 1)
        text = text.replace(
            "[[link]]",
            '[[node]]\nname = "SWC"\nkind = "switch"\nport_bytes = 1518\nnet = "B"\nlatency_ns = 1\n[[link]]',
            1,
        )
        text = text.replace("[[vl]]", '[[link]]\na = "SWC"\nb = "SWB"\nmbit = 10\npropagation_ns = 1\n[[vl]]', 1)
        net = model.Network(self.file("net.toml", text.replace('b = [["ES1", "SWB"', 'b = [["ES1", "SWC", "SWB"')))
        drawn = re.findall('data-line="(.*?)"', Drawing(net).svg())
        self.assertEqual(sorted(drawn), sorted(line.replace(">", "&gt;") for line in net.mbit))

    def test_a_network_without_anything(self):
        net = self.file("net.toml", "until_ns = 5\nseed = 1\n")
        tables = self.file("tables.csv", model.TABLES_HEAD + "\n")
        trace = self.file("trace.csv", model.TRACE_HEAD + "\n")
        self.assertEqual(make(net, tables, "--trace", trace, "-o", self.page), (0, ""))

    def test_bad_tables(self):
        path, tables = example("link_outage")
        good = read(tables)
        head, last = good.splitlines()[0], "dropped,3,FCC,duplicate,25,,,\n"
        for text, said in (
            ("", "line 1: the columns are not those of tables: " + head),
            ("hello\n", "line 1: the columns are not those of tables: " + head),
            (good[:-1], "line 10: the line feed at the end is missing, so the file is not whole"),
            (good.replace("latency,1,", "latency,9,"), f"line 2: virtual link 9 is not in {path}"),
            (
                good.replace("latency,1,ACT", "latency,1,FCC"),
                f"line 2: 'FCC' is no destination of virtual link 1 in {path}",
            ),
            (
                good.replace("latency,1,ACT,,", "latency,1,ACT,outage,"),
                "line 2: has the cause 'outage', and latencies have none",
            ),
            (
                good.replace("latency,1", "delay,1"),
                "line 2: begins neither with latency nor with dropped, but with 'delay'",
            ),
            (good.replace(",837000", ",0837000"), "line 4: sum_ns is '0837000', and no whole number"),
            (good.replace(",837000", ",-1"), "line 4: sum_ns is '-1', and no whole number"),
            (
                good.replace(",837000", ",837001"),
                "line 4: 25 latencies from 33480 to 33480 ns cannot have the sum 837001 ns",
            ),
            (good.replace(",837000", ""), "line 4: has 7 fields in place of 8"),
            (
                good.replace("2,FCC>SWA,outage", "2,FCC>SWB,outage"),
                f"line 9: virtual link 2 does not pass 'FCC>SWB' in {path}",
            ),
            (good.replace("outage,6", "rain,6", 1), "line 7: 'rain' is no cause of loss"),
            (good.replace("outage,6", "outage,0", 1), "line 7: a loss has a count above 0 and no other number"),
            (good.replace("25,,,\n", "25,,,5\n"), "line 10: a loss has a count above 0 and no other number"),
            (good + last, "line 11: says again what line 10 says"),
            (
                good.replace("latency,3,FCC,,25,33480,33480,837000\n", ""),
                f"line 9: the file ends without the latencies of virtual link 3 at FCC, as {path} has it",
            ),
            (good.encode().replace(b"integrity", b"\xff"), "line 5: is no UTF-8"),
        ):
            with self.subTest(said):
                bad = self.file("bad.csv", text)
                self.assertEqual(make(path, bad, "-o", self.page), (2, f"afdx report: {bad} {said}\n"))
                self.assertEqual(os.listdir(self.folder), ["bad.csv"])

    def test_bad_traces(self):
        path, tables = example("link_outage")
        _, _, trace, _ = simulated(path, self.folder)
        good = read(trace)
        lines = good.splitlines(True)
        count, other = len(lines), f"so it is the trace of another run than {tables}"
        for text, said in (
            (lines[1], "line 1: the columns are not those of a trace: time_ns,where,vl,what,value"),
            (good[:-1], f"line {count}: the line feed at the end is missing, so the file is not whole"),
            (good.replace(lines[2], "\n"), "line 3: has no whole number of 64 bits at its begin and at its end"),
            (good.replace(lines[2], lines[2].replace(",1,", ",1,1,")), "line 3: has 6 fields in place of 5"),
            (good.replace(lines[1], lines[1].replace(",1,", ",8,")), f"line 2: virtual link 8 is not in {path}"),
            (
                good.replace(lines[1], lines[1].replace("ACT", "SWA")),
                f"line 2: 'SWA' is no destination of virtual link 1 in {path}",
            ),
            (good.replace("duplicate", "twice", 1), "line 3: 'twice' is neither delivered nor a cause of loss"),
            (
                good.replace("ACT,1,duplicate", "SWC,1,duplicate", 1),
                f"line 3: virtual link 1 does not pass 'SWC' in {path}",
            ),
            (
                "".join(lines[:2] + [lines[3], lines[2]] + lines[4:]),
                f"line 4: its moment, 33880 ns, is before that of the line above, or after the end of {path}",
            ),
            (
                "".join(lines[:1] + lines[2:]),
                f"line {count - 1}: 24 frames of virtual link 1 came to ACT with a sum of 806320 ns, "
                f"and line 2 of the tables has 25 and 839800, {other}",
            ),
            (
                "".join(lines[:2] + lines[3:]),
                f"line {count - 1}: 17 frames of virtual link 1 were lost at ACT as duplicate, "
                f"and the tables have 18, {other}",
            ),
        ):
            with self.subTest(said):
                bad = self.file("bad.csv", text)
                self.assertEqual(make(path, tables, "--trace", bad, "-o", self.page), (2, f"afdx report: {bad} {said}\n"))
                self.assertFalse(os.path.exists(self.page))

    def test_bad_descriptions(self):
        path, tables = example("n1")
        good = read(path)
        inline = 'until_ns = 1\nseed = 1\nnode = [\n  # {\n  { name = "A{", kind = "es", port_bytes = 1518 },\n  { name = "B" },\n]\n'
        for text, said in (
            (good.replace("seed = 42", "seed = = 42"), "line 2: is no TOML: there is '= 42' where a value is wanted"),
            ("until_ns = 1\nseed = [\n", "line 2: is no TOML: the list that begins here has no end"),
            (good.replace("until_ns", "until"), "line 1: top until_ns is missing"),
            (good.replace("seed = 42", 'seed = "x"'), "line 2: top seed has another kind than it must have"),
            (good.replace("bag_ms = 1\n", ""), "line 30: vl 1 bag_ms is missing"),
            (
                good.replace("bag_ms = 1\n", "bag_ms = true\n"),
                "line 32: vl 1 bag_ms has another kind than it must have",
            ),
            (
                good.replace('"ES1", "SW1", "ES2"', '"ES1", "ES2"'),
                "line 42: vl 1 a has a path that is no list of three names or more",
            ),
            (
                good.replace('"ES1", "SW1", "ES2"', '"ES1", "SW1", "ES3"'),
                "line 42: vl 1 a has a path over SW1>ES3, which is no line",
            ),
            (good.replace('b = "ES2"', 'b = "ES3"'), "line 26: link 2 b names ES3, which is no node"),
            (good.replace('b = "ES2"', 'b = "SW1"'), "line 26: link 2 b joins two nodes that no link can join"),
            (good.replace("[[vl]]", "[vl]"), "line 30: vl is no list"),
            (inline, "line 6: node 2 kind is missing"),
        ):
            with self.subTest(said):
                bad = self.file("bad.toml", text)
                self.assertEqual(make(bad, tables, "-o", self.page), (2, f"afdx report: {bad} {said}\n"))
                self.assertFalse(os.path.exists(self.page))

    def test_files_that_cannot_be_read_or_written(self):
        path, tables = example("n1")
        none = os.path.join(self.folder, "none")
        self.assertEqual(
            make(none, tables, "-o", self.page), (2, f"afdx report: {none}: cannot be read: No such file or directory\n")
        )
        self.assertEqual(
            make(path, self.folder, "-o", self.page), (2, f"afdx report: {self.folder}/merged.csv: cannot be read: No such file or directory\n")
        )
        page = os.path.join(none, "report.html")
        self.assertEqual(
            make(path, tables, "-o", page), (2, f"afdx report: {page}: cannot be written: No such file or directory\n")
        )
        self.assertEqual(
            make(path, tables, "-o", self.folder), (2, f"afdx report: {self.folder}: cannot be written: Is a directory\n")
        )
        self.assertEqual(os.listdir(self.folder), [])

    def test_an_earlier_page_stays_where_the_input_is_bad(self):
        path, tables = example("n1")
        self.file("report.html", "earlier")
        self.assertEqual(make(path, self.file("bad.csv", "x\n"), "-o", self.page)[0], 2)
        self.assertEqual(read(self.page), "earlier")

    def test_help(self):
        run = subprocess.run(
            [*tool_words("report"), "--help"], capture_output=True, text=True
        )
        self.assertEqual((run.returncode, run.stderr), (0, ""))
        words = ("--trace", "--limits", "--bounds", "--against", "--seeds", "-o", "examples:", "status:", "percentile")
        words += ("vl,destination,limit_ns", "a bound of this model, computed outside the proofs")
        for word in words:
            self.assertIn(word, run.stdout)
        run = subprocess.run([*tool_words("report"), "one"], capture_output=True)
        self.assertEqual(run.returncode, 2)


if __name__ == "__main__":
    unittest.main()
