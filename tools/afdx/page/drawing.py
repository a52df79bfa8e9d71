"""The drawings of the page: the network with the load of each line, and what was lost over time."""
from collections import Counter
from fractions import Fraction

from afdx.files.page_text import counted, esc, frame_count, percent_of, span, two_places
from afdx.model import Network, Outage
from afdx.model.traces import MOMENTS

# ---- the network ----

RAMP = [
    (0, 0xA3, 0xB8, 0xC2),
    (10, 0x4F, 0xA0, 0x84),
    (40, 0xD2, 0xA8, 0x2A),
    (70, 0xE0, 0x73, 0x2B),
    (100, 0xC2, 0x25, 0x2D),
]


def heat(load: float | Fraction) -> str:
    """The colour of a load."""
    load = float(load)
    if load > 100:
        return "#7d0a1e"
    for (low, *cold), (high, *warm) in zip(RAMP, RAMP[1:]):
        if load <= high:
            part = (load - low) / (high - low)
            return "#" + "".join(f"{round(c + (w - c) * part):02x}" for c, w in zip(cold, warm))
    raise AssertionError("a load is a number")


class Place:
    """A column of the drawing: a switch of A above, a switch of B below, and the end systems between them."""

    def __init__(self, a: str | None, b: str | None) -> None:
        self.a, self.b = a, b
        self.end_systems: list[str] = []
        self.left: float = 0


class Drawing:
    """The network: switches of A above, switches of B below, and the end systems between the two to which they are
    linked. A switch reaches down, or up, along its end systems. Each link has two lines, one for each direction."""

    ROW, BOX, COMB, LANE, HEAD, WIDTH = 42, 22, 11, 40, 36, 1330

    def __init__(self, net: Network) -> None:
        self.net = net
        self.out: list[str] = []
        self.home: dict[tuple[str, str], str] = {}
        for link in net.links:
            for here, there in ((link.a, link.b), (link.b, link.a)):
                side = net.nodes[there].net
                if net.nodes[here].kind == "es" and side:
                    self.home[here, side] = there
        self.outages: dict[str, list[Outage]] = {}
        for outage in net.outages:
            self.outages.setdefault(outage.line, []).append(outage)
        self.places = self.columns()
        self.sizes()

    def columns(self) -> list[Place]:
        """The columns: each switch of A with the switch of B that has most of its end systems."""
        net = self.net
        above, below = net.of_kind("switch", "A"), net.of_kind("switch", "B")
        end_systems = net.of_kind("es")
        shared = Counter((self.home.get((es, "A")), self.home.get((es, "B"))) for es in end_systems)
        partner: dict[str, str] = {}
        for (a, b), _ in shared.most_common():
            if a and b and a not in partner and b not in partner.values():
                partner[a] = b
        free = [b for b in below if b not in partner.values()]
        places = [Place(a, partner.get(a) or (free.pop(0) if free else None)) for a in above]
        places += [Place(None, b) for b in free]
        at: dict[str | None, Place] = {switch: place for place in places for switch in (place.a, place.b) if switch}
        alone = Place(None, None)
        for es in end_systems:
            at.get(self.home.get((es, "A")) or self.home.get((es, "B")), alone).end_systems.append(es)
        return places + ([alone] if alone.end_systems else [])

    def sizes(self) -> None:
        """How wide and high all parts are, so that the whole is about as wide as the page."""
        count = max(1, len(self.places))
        longest = max([len(es) for es in self.net.of_kind("es")] or [1])
        self.box = min(230, max(44, longest * 8 + 14))
        self.both = bool(self.net.of_kind("switch", "B"))
        sides = 2 if self.both else 1
        self.gap = 16 if count > 4 else 60
        room = (self.WIDTH - (count - 1) * self.gap) / count - self.box - sides * self.COMB
        self.reach = max(40, min(170, room / sides))
        self.column = self.box + sides * (self.reach + self.COMB)
        self.rows = max([len(place.end_systems) for place in self.places] or [0])
        for i, place in enumerate(self.places):
            place.left = i * (self.column + self.gap)
        self.lanes = {net: self.lanes_of(net) for net in "AB"}
        self.high = {net: max([lane + 1 for _, _, lane in self.lanes[net]] or [0]) * self.LANE for net in "AB"}
        self.top = self.high["A"] + 14
        self.bottom = self.top + self.HEAD + self.rows * self.ROW + 24
        self.width = count * self.column + (count - 1) * self.gap
        self.height = self.bottom + (self.HEAD if self.both else 0) + self.high["B"] + 14

    def lanes_of(self, net: str) -> list[tuple[str, str, int]]:
        """The links between switches of one network, each with the lane in which it is drawn: no two overlap."""
        at = {place.a if net == "A" else place.b: i for i, place in enumerate(self.places)}
        spans = []
        for link in self.net.links:
            if self.net.nodes[link.a].net == self.net.nodes[link.b].net == net:
                spans.append(tuple(sorted((link.a, link.b), key=at.get)))  # type: ignore[arg-type]
        taken: list[list[tuple[int, int]]] = []
        lanes: list[tuple[str, str, int]] = []
        for left, right in sorted(spans, key=lambda it: (at[it[1]] - at[it[0]], at[it[0]])):
            overlaps = lambda others: any(at[left] < end and begin < at[right] for begin, end in others)
            lane = next((i for i, others in enumerate(taken) if not overlaps(others)), len(taken))
            taken += [[]] if lane == len(taken) else []
            taken[lane].append((at[left], at[right]))
            lanes.append((left, right, lane))
        return lanes

    def text(self, x: float, y: float, words: str, anchor: str = "middle", look: str = "load") -> None:
        self.out.append(f'<text class="{look}" x="{x:.1f}" y="{y:.1f}" text-anchor="{anchor}">{esc(words)}</text>')

    def line(self, line: str, path: str, tip: tuple[float, float, int, int], label: tuple[float, float, str], mark: tuple[float, float]) -> None:
        """One direction of a link: its stroke along a path, the arrow at its end, its load, and its outages. The tip is
        where the arrow points and to which side: x, y, dx, dy."""
        load, out = self.net.load[line], self.outages.get(line, [])
        colour, wide = heat(load), 2.2 + 3 * min(1, float(load) / 100)
        users = counted(self.net.users[line], "virtual link")
        said = f"{line}: {two_places(load)} % of {self.net.mbit[line]} Mbit/s, {users}"
        said += "".join(f", out from {span(o.from_ns)} to {span(o.to_ns)}" for o in out)
        x, y, dx, dy = tip
        arrow = f"M{x:.1f} {y:.1f}l{-7 * dx - 3.5 * dy:.1f} {-7 * dy - 3.5 * dx:.1f}l{7 * dy:.1f} {7 * dx:.1f}z"
        dash = ' stroke-dasharray="5 3"' if out else ""
        self.out.append(
            f'<g class="line" data-line="{esc(line)}" data-load="{two_places(load)}"><title>{esc(said)}</title>'
            f'<path class="case" d="{path}"/><path d="{path}" stroke="{colour}" stroke-width="{wide:.1f}"{dash}/>'
            f'<path class="tip" d="{arrow}" style="fill:{colour}"/>'
        )
        self.text(*label[:2], percent_of(load), label[2], "load" if load else "load none")
        if out:
            mx, my = mark
            self.out.append(
                f'<g class="out"><circle cx="{mx:.1f}" cy="{my:.1f}" r="6.5"/>'
                f'<path d="M{mx - 2.8:.1f} {my - 2.8:.1f}l5.6 5.6m0 -5.6l-5.6 5.6"/></g>'
            )
        self.out.append("</g>")

    def head(self, name: str, place: Place, y: float, above: bool) -> None:
        """A switch: its box, and the bar along its end systems."""
        node, x = self.net.nodes[name], place.left
        # A switch has a network.
        assert node.net is not None
        look = node.net.lower()
        reach = self.rows * self.ROW + 10
        bar_x, bar_y = (x, y + self.HEAD - 6) if above else (x + self.column - self.COMB, y - reach)
        said = f"switch {name} of network {node.net}, latency {span(node.latency_ns)}"
        self.out.append(f'<g class="switch {look}" data-node="{esc(name)}"><title>{esc(said)}</title>')
        if place.end_systems:
            self.out.append(
                f'<rect x="{bar_x:.1f}" y="{bar_y:.1f}" width="{self.COMB}" height="{reach + 6:.1f}" rx="3"/>'
            )
        self.out.append(f'<rect x="{x:.1f}" y="{y:.1f}" width="{self.column:.1f}" height="{self.HEAD}" rx="6"/>')
        self.text(x + self.column / 2, y + 15, name, look="name")
        self.text(x + self.column / 2, y + 29, f"network {node.net} · {span(node.latency_ns)}", look="sub")
        self.out.append("</g>")

    def access(self, es: str, switch: str, x_es: float, x_switch: float, y: float) -> None:
        """The two lines between an end system and its switch: to the switch above, from it below."""
        side = 1 if x_switch > x_es else -1
        middle, near = (x_es + x_switch) / 2, x_es + side * 1.5
        there, here = x_switch - side * 1.5, near
        for line, dy, begin, end, toward, drop in (
            (es + ">" + switch, -3.5, here, there, side, -8),
            (switch + ">" + es, 3.5, there, here, -side, 15),
        ):
            path = f"M{begin:.1f} {y + dy:.1f}H{end - toward * 5:.1f}"
            mark = (end - toward * 16, y + dy)
            self.line(line, path, (end, y + dy, toward, 0), (middle, y + drop, "middle"), mark)

    def end_system(self, place: Place, row: int, es: str) -> None:
        left = place.left + self.COMB + self.reach
        y = self.top + self.HEAD + 12 + row * self.ROW + self.ROW / 2
        for net, own, x_es, x_switch in (
            ("A", place.a, left, place.left + self.COMB),
            ("B", place.b, left + self.box, place.left + self.column - self.COMB),
        ):
            switch = self.home.get((es, net))
            if switch and switch != own:
                wide = min(self.reach - 20, len(switch) * 5.6 + 8)
                x_switch -= wide if net == "B" else -wide
                x = x_switch if net == "B" else x_switch - wide
                self.out.append(
                    f'<g class="tag {net.lower()}">'
                    f'<rect x="{x:.1f}" y="{y - 8:.1f}" width="{wide:.1f}" height="16" rx="3"/>'
                )
                self.text(x + wide / 2, y + 3.5, switch, look="sub")
                self.out.append("</g>")
            if switch:
                self.access(es, switch, x_es, x_switch, y)
        self.out.append(
            f'<g class="es" data-node="{esc(es)}"><title>end system {esc(es)}</title>'
            f'<rect x="{left:.1f}" y="{y - self.BOX / 2:.1f}" '
            f'width="{self.box:.1f}" height="{self.BOX}" rx="5"/>'
        )
        self.text(left + self.box / 2, y + 4, es, look="name")
        self.out.append("</g>")

    def stubs(self, net: str) -> dict[tuple[str, str], float]:
        """Where each link between switches leaves its switches: for each link the two places in x."""
        at = {place.a if net == "A" else place.b: place for place in self.places}
        ends: dict[tuple[str, int], list[tuple[int, str]]] = {}
        for left, right, lane in self.lanes[net]:
            ends.setdefault((left, 1), []).append((lane, right))
            ends.setdefault((right, -1), []).append((lane, left))
        found = {}
        for (switch, side), others in ends.items():
            step = min(20, (self.column / 2 - 14) / len(others))
            for i, (_, other) in enumerate(sorted(others, reverse=True)):
                found[switch, other] = at[switch].left + self.column / 2 + side * step * (i + 0.6)
        return found

    def backbone(self, net: str) -> None:
        """The links between switches of one network, in lanes above those of A and below those of B."""
        up = -1 if net == "A" else 1
        edge = self.top if net == "A" else self.bottom + self.HEAD
        stubs = self.stubs(net)
        for left, right, lane in sorted(self.lanes[net], key=lambda it: -it[2]):
            x1, x2, y = stubs[left, right], stubs[right, left], edge + up * (lane * self.LANE + 21)
            # The line to the right goes outside, the line to the left inside of it.
            for line, out, begin, end, toward in (
                (left + ">" + right, 3.5, x1 - 3.5, x2 + 3.5, 1),
                (right + ">" + left, -3.5, x2 - 3.5, x1 + 3.5, -1),
            ):
                level = y + up * out
                path = (
                    f"M{begin:.1f} {edge:.1f}V{level - up * 6:.1f}q0 {up * 6} {toward * 6} {up * 6}"
                    f"H{end - toward * 6:.1f}q{toward * 6} 0 {toward * 6} {-up * 6}V{edge + up * 6:.1f}"
                )
                drop = -6 if (toward > 0) == (net == "A") else 13
                label = (begin + toward * 10, level + drop, "start" if toward > 0 else "end")
                self.line(line, path, (end, edge + up, 0, -up), label, ((begin + end) / 2, level))

    def svg(self) -> str:
        self.backbone("A")
        self.backbone("B")
        for place in self.places:
            if place.a:
                self.head(place.a, place, self.top, True)
            if place.b:
                self.head(place.b, place, self.bottom, False)
            for row, es in enumerate(place.end_systems):
                self.end_system(place, row, es)
        wide, high = self.width + 8, self.height
        shown = wide * min(1.25, max(1, self.WIDTH / wide))
        return (
            f'<svg id="drawing" class="net" viewBox="-4 0 {wide:.0f} {high:.0f}" role="group" '
            f'style="width:{shown:.0f}px;min-width:{min(shown, max(760, wide * 0.7)):.0f}px" '
            'aria-label="the network with the load of each line">' + "".join(self.out) + "</svg>"
        )


def legend_of_loads(has_outages: bool) -> str:
    outages = (
        '<span><svg width="46" height="16" viewBox="0 0 46 16" class="net"><path d="M2 8H44" stroke="#4fa084" '
        'stroke-width="2.5" stroke-dasharray="5 3"/><g class="out"><circle cx="23" cy="8" r="6.5"/>'
        '<path d="M20.2 5.2l5.6 5.6m0 -5.6l-5.6 5.6"/></g></svg> out for a while</span>'
    )
    stops = "".join(f'<stop offset="{load}%" stop-color="{heat(load)}"/>' for load, *_ in RAMP)
    ticks = "".join(
        f'<text x="{4 + 2 * load}" y="30" text-anchor="middle">{load} %</text>' for load in (0, 25, 50, 75, 100)
    )
    return (
        '<div class="legend">'
        '<svg width="232" height="34" viewBox="-8 0 232 34" role="img" aria-label="colours of loads">'
        f'<defs><linearGradient id="ramp">{stops}</linearGradient></defs>'
        f'<rect x="4" y="4" width="200" height="10" rx="3" fill="url(#ramp)"/>{ticks}</svg>'
        "<span>Load of a line. A link has two lines, one for each direction, as its arrows show; the number beside a "
        "line is its load. A click on a line shows which virtual links use it, a click on a node which begin, "
        "end or pass there.</span>" + (outages if has_outages else "") + "</div>"
    )


# ---- charts over time ----


def steps_to(top: int, most: int = 5) -> range:
    """Round numbers from 0 to a number, not many."""
    step = 1
    while top / step > most:
        step = step * 2 if str(step)[0] in "15" else step * 5 // 2
    return range(0, top + 1, step)


def chart_over_time(net: Network, parts: list[tuple[str, list[int], str]], high: int, name: str) -> str:
    """Bars over the time of the run, of several causes upon each other; outages are shaded."""
    wide, left, foot = 1160, 84, 36
    heights = [sum(counts[i] for _, counts, _ in parts) for i in range(MOMENTS)]
    top = max(1, max(heights))
    out = []
    for outage in net.outages:
        x1, x2 = (min(1, ns / net.until_ns) * wide + left for ns in (outage.from_ns, outage.to_ns))
        said = f"{outage.line} out from {span(outage.from_ns)} to {span(outage.to_ns)}"
        out.append(
            f'<rect class="shade" x="{x1:.1f}" y="4" width="{max(1, x2 - x1):.1f}" height="{high}">'
            f"<title>{esc(said)}</title></rect>"
        )
    for count in steps_to(top, high // 30):
        y = 4 + high - high * count / top
        words = frame_count(count)
        out.append(
            f'<path class="grid" d="M{left} {y:.1f}h{wide}"/>'
            f'<text x="{left - 6}" y="{y + 3.5:.1f}" text-anchor="end">{words}</text>'
        )
    for moment in steps_to(net.until_ns, 10):
        x = left + wide * moment / net.until_ns
        anchor = "end" if x > wide + left - 20 else "middle"
        out.append(
            f'<path class="grid" d="M{x:.1f} {4 + high}v5"/>'
            f'<text x="{x:.1f}" y="{high + 21}" text-anchor="{anchor}">{span(moment)}</text>'
        )
    step = wide / MOMENTS
    for i in range(MOMENTS):
        y = 4.0 + high
        begin, end = (net.until_ns * j // MOMENTS for j in (i, i + 1))
        for cause, counts, colour in parts:
            if counts[i]:
                tall = high * counts[i] / top
                y -= tall
                said = f"{frame_count(counts[i])} {cause}, {span(begin)} to {span(end)}"
                out.append(
                    f'<rect x="{left + i * step + 0.5:.1f}" y="{y:.1f}" width="{step - 1:.1f}" height="{tall:.1f}" '
                    f'fill="{colour}" data-count="{counts[i]}"><title>{esc(said)}</title></rect>'
                )
    return (
        f'<svg class="time" id="{name}" viewBox="0 0 {wide + left + 8} {high + foot - 8}" role="img" '
        f'aria-label="frames lost over time">{"".join(out)}</svg>'
    )
