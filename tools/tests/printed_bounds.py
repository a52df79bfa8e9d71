"""The numbers of `afdxsim bounds`, worked out from docs/BOUNDS.md alone: nothing is shared with the program or with the tools. Times are in ns;
bursts and rates are in units, of which a ns has 128,000,000."""
import functools
import tomllib
from typing import NamedTuple

UNITS, WHOLE = 128_000_000, 1_000_000
LINE_UNITS = UNITS * WHOLE
BYTE_NS = {10: 800, 100: 80, 1000: 8}


class NoBound(Exception):
    """Why there is no bound."""


class Sizes(NamedTuple):
    least: int
    greatest: int


class Passing(NamedTuple):
    """A virtual link at a port: the sizes that count there, the port by which it comes in, whether it goes out high, and what one frame costs at
    most. If its account counts bytes of short frames, `metered` is what Smax bytes of them cost."""

    vl: dict
    sizes: Sizes
    comes_by: int
    is_high: bool
    cost: int
    metered: int | None


class Share(NamedTuple):
    """What comes by one port with one priority: as its line bounds it, and as its virtual links do."""

    is_bounding: bool
    line: tuple[int, int]
    flows: tuple[int, int]


def sizes_of(streams):
    sizes = [size for it in streams for size in ((it["size"], it.get("last_size", it["size"])) if it.get("frames", 1) > 1 else (it.get("last_size", it["size"]),))]
    return Sizes(min(sizes), max(sizes))


def gap_of(passing, is_end):
    return passing.vl["bag_ms"] * 10**6 - (0 if is_end else passing.vl["policing_jitter_ns"])


def curve(passing, is_end, by_gap):
    """The burst and the rate of a virtual link, by the one row of the table or by the other."""
    bag, gap = passing.vl["bag_ms"] * 10**6, gap_of(passing, is_end)
    if by_gap and gap > 0 and passing.metered is None:
        return UNITS * passing.cost, UNITS * passing.cost // gap + 1
    rate = UNITS * (passing.cost if passing.metered is None else passing.metered) // bag
    return rate * (2 * bag - gap), rate


def mixed(parts, share):
    return tuple(parts * line + (WHOLE - parts) * flows for line, flows in zip(share.line, share.flows))


def total(weights, shares):
    sums = [mixed(parts if share.is_bounding else 0, share) for parts, share in zip(weights, shares)]
    return sum(it[0] for it in sums), sum(it[1] for it in sums)


# ---- the choice of weights


def of_least_burst(shares):
    return [WHOLE if it.line[0] < it.flows[0] else 0 for it in shares]


def cheapest(weights, shares):
    """The port whose line gives way first, with what its virtual links have more in bursts and less in rates."""
    found = None
    for port, (parts, share) in enumerate(zip(weights, shares)):
        more, less = share.flows[0] - share.line[0], share.line[1] - share.flows[1]
        if parts == WHOLE and less > 0 and (found is None or more * found[2] < found[1] * less):
            found = port, more, less
    return found


def give_way(weights, found, over):
    weights[found[0]] = WHOLE - min(over // found[2] + 1, WHOLE)


def filled(sides, room):
    """The weights of these sides, of which lines give way until what comes is no faster than the room."""
    weights = [of_least_burst(it) for it in sides]
    for _ in range(sum(map(len, sides))):
        over = sum(total(*it)[1] for it in zip(weights, sides)) - room
        found = [(k, it) for k, it in enumerate(map(cheapest, weights, sides)) if it]
        if over <= 0 or not found:
            break
        best = found[0]
        for other in found[1:]:
            best = other if other[1][1] * best[1][2] < best[1][1] * other[1][2] else best
        give_way(weights[best[0]], best[1], over)
    return weights


def lowered(shares, count):
    weights = of_least_burst(shares)
    for _ in range(count):
        found = cheapest(weights, shares)
        if found:
            weights[found[0]] = 0
    return weights


def known(work):
    """Works a number out once, or why there is none."""
    known = {}

    @functools.wraps(work)
    def found(self, *words):
        key = id(self), *words
        if key not in known:
            try:
                known[key] = self, work(self, *words), None
            except NoBound as why:
                known[key] = self, None, str(why)
        _, number, why = known[key]
        if why:
            raise NoBound(why)
        return number

    return found


class Port:
    """The bounds of the port before a line."""

    def __init__(self, is_end, byte_ns, passings, before):
        self.is_end, self.byte_ns, self.passings, self.before = is_end, byte_ns, passings, before
        # Ports by which nothing comes change nothing.
        inputs = sorted({it.comes_by for it in passings})
        self.greatest_low = max((it.cost for it in self.all_of(False)), default=0)
        self.sides = {(high, by_gap): [self.share(j, high, by_gap) for j in inputs] for high in (True, False) for by_gap in (False, True)}

    def all_of(self, high):
        return [it for it in self.passings if it.is_high == high]

    def share(self, j, high, by_gap):
        there = [it for it in self.all_of(high) if it.comes_by == j]
        curves = [curve(it, self.is_end, by_gap) for it in there]
        flows = sum(it[0] for it in curves), sum(it[1] for it in curves)
        is_bounding = not self.is_end and self.byte_ns <= self.before.get(j, 0)
        line = (UNITS * max((it.cost for it in there), default=0), UNITS) if is_bounding else flows
        return Share(is_bounding, line, flows)

    def least_rate(self, high):
        shares = self.sides[high, False]
        return total([WHOLE if it.line[1] < it.flows[1] else 0 for it in shares], shares)

    @known
    def first(self):
        """How long a high frame takes to its last bit."""
        chosen = None
        for by_gap in (False, True):
            shares = self.sides[True, by_gap]
            sums = total(*filled([shares], LINE_UNITS), shares)
            if chosen is None or sums[1] <= LINE_UNITS and (chosen[1] > LINE_UNITS or sums[0] < chosen[0]):
                chosen = sums
        if chosen[1] > LINE_UNITS:
            chosen = self.least_rate(True)
        if chosen[1] > LINE_UNITS:
            raise NoBound("rate")
        return chosen[0] // LINE_UNITS + self.greatest_low - 12 * self.byte_ns

    def pairs(self):
        """The counts of high and of low frames, and of each the pair of the least burst of both."""
        for low_gap in (False, True):
            for high_gap in (False, True):
                sides = self.sides[True, high_gap], self.sides[False, low_gap]
                yield sides, tuple(total(*it) for it in zip(filled(sides, LINE_UNITS), sides))

    @known
    def later(self):
        """Both bursts for the delay of low frames, and what high frames leave of the line."""
        own, least, chosen = LINE_UNITS * self.greatest_low, None, None
        for (high, low), pair in self.pairs():
            pairs = [pair]
            for count in range(len(high) + 1):
                first = total(lowered(high, count), high)
                pairs.append((first, total(*filled([low], max(0, LINE_UNITS - first[1])), low)))
            for first, second in pairs:
                left = LINE_UNITS - first[1]
                if left > 0 and second[1] <= left:
                    number = max(0, first[0] + second[0] - own) // left
                    if least is None or number < least:
                        least, chosen = number, (first, second)
        first, second = chosen or (self.least_rate(True), self.least_rate(False))
        if first[1] >= LINE_UNITS or first[1] + second[1] > LINE_UNITS:
            raise NoBound("rate")
        return first[0] + second[0], LINE_UNITS - first[1]

    @known
    def waiting(self):
        """How many bytes wait."""
        fit = [first[0] + second[0] for _, (first, second) in self.pairs() if first[1] + second[1] <= LINE_UNITS]
        if not fit:
            first, second = self.least_rate(True), self.least_rate(False)
            if first[1] + second[1] > LINE_UNITS:
                raise NoBound("rate")
            fit = [first[0] + second[0]]
        return min(fit) // LINE_UNITS // self.byte_ns

    def delay(self, is_high, least):
        """How long a frame takes to its last bit, if the least of its virtual link has so many bytes."""
        if is_high:
            return self.first()
        burst, left = self.later()
        return max(0, burst - LINE_UNITS * (least + 20) * self.byte_ns) // left + (least + 8) * self.byte_ns


class PrintedBounds:
    """The lines that `bounds` prints of a description, as it states its frames or by contract."""

    def __init__(self, text, by_contract=False):
        self.net, self.by_contract = tomllib.loads(text), by_contract
        self.nodes = {it["name"]: it for it in self.net["node"]}
        self.lines, self.number, ports = {}, {}, {name: 0 for name in self.nodes}
        for link in self.net.get("link", []):
            for a, b in ((link["a"], link["b"]), (link["b"], link["a"])):
                self.lines[a, b] = link
            for a, b in ((link["a"], link["b"]), (link["b"], link["a"])):
                self.number[b, a], ports[b] = ports[b], ports[b] + 1
        self.sizes, self.behind, self.over = {}, {}, {line: [] for line in self.lines}
        for vl in sorted(self.net.get("vl", []), key=lambda it: it["id"]):
            self.sizes[vl["id"]] = sizes_of([vl] + [it for it in self.net.get("stream", []) if it["vl"] == vl["id"]])
            for path in (*vl["a"], *vl["b"]):
                for line, before in zip(zip(path, path[1:]), (None, *zip(path, path[1:]))):
                    if (vl["id"], line) not in self.behind:
                        self.behind[vl["id"], line] = before
                        self.over[line].append(vl)
        self.ports, self.delays = {}, {}

    def is_end(self, name):
        return self.nodes[name]["kind"] == "es"

    def byte_ns(self, line):
        return BYTE_NS[self.lines[line]["mbit"]]

    def passing(self, vl, line):
        before, is_end = self.behind[vl["id"], line], self.is_end(line[0])
        comes_by = 0 if is_end else self.number[before[1], before[0]]
        sizes, byte_ns, metered = self.sizes[vl["id"]], self.byte_ns(line), None
        if self.by_contract:
            sizes = Sizes(sizes.least, max(sizes.greatest, vl["smax"])) if is_end else Sizes(64, vl["smax"])
        if not is_end and vl.get("policing", "bytes") == "bytes" and sizes.least < vl["smax"]:
            metered = -(-vl["smax"] * (sizes.least + 20) * byte_ns // sizes.least)
        return Passing(vl, sizes, comes_by, not is_end and vl["priority"] == "high", (sizes.greatest + 20) * byte_ns, metered)

    def port(self, line):
        if line not in self.ports:
            into = {self.number[b, a]: self.byte_ns((a, b)) for a, b in self.lines if b == line[0]}
            self.ports[line] = Port(self.is_end(line[0]), self.byte_ns(line), [self.passing(vl, line) for vl in self.over[line]], into)
        return self.ports[line]

    def ages(self, vl, line):
        """How long a frame takes from its release to the end of a line, at most and at least."""
        before, most, least = self.behind[vl["id"], line], 0, 0
        if before:
            latency = self.nodes[line[0]]["latency_ns"]
            most, least = (it + latency for it in self.ages(vl, before))
        size, propagation = self.sizes[vl["id"]].least, self.lines[line]["propagation_ns"]
        delay = self.port(line).delay(self.passing(vl, line).is_high, size)
        return most + delay + propagation, least + (size + 8) * self.byte_ns(line) + propagation

    def wait(self, vl):
        bag, frames, sub = vl["bag_ms"] * 10**6, vl.get("frames", 1), vl.get("sub", 1)
        late = 0 if vl.get("timing", "periodic") == "sporadic" else vl["jitter_ns"]
        period, full = vl["period_ns"], vl["depth"] * sub * bag
        alone = not any(it["vl"] == vl["id"] for it in self.net.get("stream", []))
        if alone and (sub == 1 or frames == 1 and late < period) and frames * bag <= period and late <= period:
            return min(full, (frames - 1) * bag + max(0, late + frames * bag - period))
        return full

    def bound(self, vl, where):
        """The columns of a virtual link at a destination."""
        if self.sizes[vl["id"]].least > vl["smax"]:
            raise NoBound("size")
        ends = [self.ages(vl, tuple(path[-2:])) for path in (*vl["a"], *vl["b"]) if path[-1] == where]
        most, least, wait = max(it[0] for it in ends), min(it[1] for it in ends), self.wait(vl)
        return most, wait, most + wait, least, most + wait - least

    def rows(self):
        order = {name: k for k, name in enumerate(self.nodes)}
        for vl in sorted(self.net.get("vl", []), key=lambda it: it["id"]):
            for where in sorted({path[-1] for path in (*vl["a"], *vl["b"])}, key=lambda name: order[name]):
                try:
                    yield ["bound", vl["id"], where, *self.bound(vl, where), "", "", ""]
                except NoBound as why:
                    yield ["none", vl["id"], where, why, *[""] * 7]
        for line in self.lines:
            try:
                waiting = self.port(line).waiting()
                holds = "yes" if waiting <= self.nodes[line[0]]["port_bytes"] else "no"
                yield ["port", ">".join(line), "", waiting, holds, *[""] * 6]
            except NoBound as why:
                yield ["none", ">".join(line), "", why, *[""] * 7]

    def text(self):
        head = "kind,of,where,network_ns,wait_ns,bound_ns,least_ns,jitter_ns,skew_ns,sure,sure_ns"
        return "".join(f"{line}\n" for line in (head, *(",".join(map(str, it)) for it in self.rows())))
