"""A plain simulator of one thread, by the rules of docs/TRAFFIC.md, message by message. It shares no code with the program. The
description is the dictionary that a reader of TOML gives."""
import heapq
from collections.abc import Iterator, Mapping
from typing import Any, NamedTuple

from afdx import model
from afdx.model import CAUSES

# The sender of the offers of a stream is this number and that of the stream.
FIRST_SENDER = 4096
BODIES = ["Offer", "Release", "PortFree", "Arrive", "Enqueue", "Carry"]


class Frame(NamedTuple):
    """A frame: its virtual link, its sequence number, its size in bytes, the moments when it was offered and released, and, once
    there are copies, the network of this copy."""

    vl: int
    number: int
    size: int
    offered: int
    released: int
    net: str | None = None


class Regulator:
    """The regulator of a virtual link: the frames that wait for each sub-virtual link, the one to serve next, the moment of the
    last release or None, and the next sequence number."""

    __slots__ = ("waiting", "pointer", "last", "number")

    def __init__(self, sub: int) -> None:
        self.waiting: list[list[Frame]] = [[] for _ in range(sub)]
        self.pointer, self.number = 0, 0
        self.last: int | None = None


class Port:
    """An output port: whether it sends, and the frames that wait, by priority."""

    __slots__ = ("is_busy", "high", "low")

    def __init__(self) -> None:
        self.is_busy = False
        self.high: list[Frame] = []
        self.low: list[Frame] = []

    def waiting_bytes(self) -> int:
        return sum(frame.size for frame in self.high) + sum(frame.size for frame in self.low)


class Line(NamedTuple):
    """One direction of a link: its two nodes, the number of its port at the second one, the ns that a byte takes, and those of
    the propagation."""

    here: str
    there: str
    into: int
    byte_ns: int
    propagation_ns: int


class Simulation:
    """The run of a network. `rows` has its notes, in their order."""

    def __init__(self, net: Mapping[str, Any]) -> None:
        self.net = net
        self.until = net["until_ns"]
        nodes = net.get("node", [])
        self.place = {row["name"]: i for i, row in enumerate(nodes)}
        self.nodes = nodes
        self.names = [row["name"] for row in nodes]
        self.lines: list[Line] = []
        self.port_of: dict[tuple[str, str], int] = {}
        self.out: dict[tuple[int, int], int] = {}
        seen: dict[str, int] = {}
        for row in net.get("link", []):
            ends = (row["a"], row["b"])
            ports = []
            for here, there in (ends, ends[::-1]):
                if nodes[self.place[here]]["kind"] == "es":
                    ports.append("AB".index(nodes[self.place[there]]["net"]))
                else:
                    ports.append(seen.get(here, 0))
                seen[here] = seen.get(here, 0) + 1
            for (here, there), (out, into) in zip((ends, ends[::-1]), (ports, ports[::-1])):
                process = len(nodes) + len(self.lines)
                self.lines.append(Line(here, there, into, 8000 // row["mbit"], row["propagation_ns"]))
                self.port_of[here, there] = out
                self.names.append(here + ">" + there)
                self.out[self.place[here], out] = process
        self.vls = {row["id"]: row for row in net.get("vl", [])}
        self.inputs: dict[tuple[int, int], int] = {}
        self.outputs: dict[tuple[int, int], set[int]] = {}
        self.destinations: dict[tuple[int, int], set[str]] = {}
        self.source: dict[int, int] = {}
        for vl, row in self.vls.items():
            for side, key in (("A", "a"), ("B", "b")):
                for path in row[key]:
                    self.source[vl] = self.place[path[0]]
                    self.destinations.setdefault((vl, self.place[path[-1]]), set()).add(side)
                    for before, here, after in zip(path, path[1:], path[2:]):
                        self.inputs[vl, self.place[here]] = self.port_of[here, before]
                        self.outputs.setdefault((vl, self.place[here]), set()).add(self.port_of[here, after])
        self.regulators = {vl: Regulator(row.get("sub", 1)) for vl, row in self.vls.items()}
        self.ports: dict[tuple[int, int], Port] = {}
        self.accounts: dict[tuple[int, int], tuple[int, int]] = {}
        self.checks: dict[tuple[int, int, str | None], int] = {}
        self.delivered: dict[tuple[int, int], tuple[int, int]] = {}
        self.counters: dict[int, int] = {}
        self.heap: list[tuple[int, int, int, int, int, tuple[Any, ...]]] = []
        self.rows: list[tuple[int, int, int, str, int]] = []
        self.handled = 0
        for vl, streams in model.streams_of(net.get("vl", []), net.get("stream", [])).items():
            for stream in streams:
                for it in model.offers(net["seed"], stream, self.vls[vl].get("sub", 1), self.until):
                    self.push(it.moment, self.source[vl], FIRST_SENDER + stream.number, it.number, "Offer", (vl, it.size, it.sub))

    def push(self, time: int, receiver: int, sender: int, number: int, variant: str, fields: tuple[Any, ...]) -> None:
        heapq.heappush(self.heap, (time, receiver, sender, number, BODIES.index(variant), fields))

    def send(self, time: int, sender: int, receiver: int, variant: str, fields: tuple[Any, ...]) -> None:
        if time <= self.until:
            number = self.counters.get(sender, 0)
            self.counters[sender] = number + 1
            self.push(time, receiver, sender, number, variant, fields)

    def note(self, time: int, place: int, vl: int, what: str, value: int) -> None:
        self.rows.append((time, place, vl, what, value))

    def lose(self, time: int, place: int, frame: Frame, cause: str) -> None:
        self.note(time, place, frame.vl, cause, frame.size)

    def deliver(self, t: int, p: int, frame: Frame) -> None:
        self.note(t, p, frame.vl, "delivered", max(0, t - frame.offered))

    def start(self, t: int, p: int, q: int, frame: Frame) -> None:
        line = self.out[p, q]
        byte_ns = self.lines[line - len(self.nodes)].byte_ns
        self.send(t + (frame.size + 8) * byte_ns, p, line, "Carry", (frame,))
        self.send(t + (frame.size + 20) * byte_ns, p, p, "PortFree", (q,))

    def put(self, t: int, p: int, q: int, frame: Frame, high: bool) -> None:
        port = self.ports.get((p, q))
        if port is None:
            port = self.ports[p, q] = Port()
        if not port.is_busy:
            port.is_busy = True
            self.start(t, p, q, frame)
        elif port.waiting_bytes() + frame.size <= self.nodes[p]["port_bytes"]:
            (port.high if high else port.low).append(frame)
        else:
            self.lose(t, p, frame, "port_full")

    def release(self, t: int, vl: int, q: int, frame: Frame) -> Frame:
        """The regulator lets a frame of the sub-virtual link q go; the one after q is served next."""
        regulator = self.regulators[vl]
        out = Frame(vl, regulator.number, frame.size, frame.offered, t)
        regulator.last, regulator.number = t, 1 if regulator.number == 255 else regulator.number + 1
        regulator.pointer = (q + 1) % len(regulator.waiting)
        return out

    def copies(self, t: int, p: int, vl: int, frame: Frame) -> None:
        for net, key in (("A", "a"), ("B", "b")):
            if self.vls[vl][key]:
                self.put(t, p, "AB".index(net), Frame(*frame[:5], net), False)

    def handle(self, t: int, p: int, variant: str, fields: tuple[Any, ...]) -> None:
        if p >= len(self.nodes):
            line = self.lines[p - len(self.nodes)]
            (frame,) = fields
            outages = self.net.get("outage", [])
            if any(o["from"] == line.here and o["to"] == line.there and o["from_ns"] <= t < o["to_ns"] for o in outages):
                self.lose(t, p, frame, "outage")
            else:
                self.send(t + line.propagation_ns, p, self.place[line.there], "Arrive", (line.into, frame))
        elif variant == "PortFree":
            (q,) = fields
            port = self.ports[p, q]
            waiting = port.high or port.low
            if waiting:
                self.start(t, p, q, waiting.pop(0))
            else:
                port.is_busy = False
        elif self.nodes[p]["kind"] == "es":
            self.at_end_system(t, p, variant, fields)
        else:
            self.at_switch(t, p, variant, fields)

    def at_end_system(self, t: int, p: int, variant: str, fields: tuple[Any, ...]) -> None:
        if variant == "Offer":
            return self.offer(t, p, *fields)
        if variant == "Release":
            return self.next_served(t, p, *fields)
        _, frame = fields
        vl, number, net = frame.vl, frame.number, frame.net
        before = self.checks.get((vl, p, net))
        self.checks[vl, p, net] = number
        after = lambda n: 1 if n == 255 else n + 1
        if not (before is None or number == 0 or number in (after(before), after(after(before)))):
            return self.lose(t, p, frame, "integrity")
        last = self.delivered.get((vl, p))
        steps = 0 if last is None else number if last[0] == 0 else (number - last[0]) % 255
        if last is None or max(0, t - last[1]) > self.vls[vl]["skew_max_ns"] or (number != 0 and 1 <= steps <= 127):
            self.delivered[vl, p] = (number, t)
            self.deliver(t, p, frame)
        else:
            self.lose(t, p, frame, "duplicate")

    def is_due(self, t: int, vl: int) -> bool:
        last = self.regulators[vl].last
        return last is None or t >= last + self.vls[vl]["bag_ms"] * 10**6

    def offer(self, t: int, p: int, vl: int, size: int, q: int) -> None:
        """The application offers a frame to the sub-virtual link q."""
        regulator, frame = self.regulators[vl], Frame(vl, 0, size, t, 0)
        waits = any(regulator.waiting)
        if q >= len(regulator.waiting):
            self.lose(t, p, frame, "queue_full")
        elif not waits and self.is_due(t, vl):
            self.copies(t, p, vl, self.release(t, vl, q, frame))
        elif len(regulator.waiting[q]) < self.vls[vl]["depth"]:
            regulator.waiting[q].append(frame)
            if not waits and regulator.last is not None:
                self.send(regulator.last + self.vls[vl]["bag_ms"] * 10**6, p, p, "Release", (vl,))
        else:
            self.lose(t, p, frame, "queue_full")

    def next_served(self, t: int, p: int, vl: int) -> None:
        """The round robin of the regulator: the first sub-virtual link from the pointer on, going round, that has a frame."""
        regulator = self.regulators[vl]
        waiting, first = regulator.waiting, regulator.pointer
        if not (any(waiting) and self.is_due(t, vl)):
            return
        q = next(q % len(waiting) for q in range(first, first + len(waiting)) if waiting[q % len(waiting)])
        out = self.release(t, vl, q, waiting[q].pop(0))
        if any(waiting):
            self.send(t + self.vls[vl]["bag_ms"] * 10**6, p, p, "Release", (vl,))
        self.copies(t, p, vl, out)

    def at_switch(self, t: int, p: int, variant: str, fields: tuple[Any, ...]) -> None:
        q, frame = fields
        vl = frame.vl
        row = self.vls[vl]
        if variant == "Enqueue":
            return self.put(t, p, q, frame, row["priority"] == "high")
        if frame.size > row["smax"]:
            return self.lose(t, p, frame, "too_long")
        bag = row["bag_ms"] * 10**6
        cap = row["smax"] * (bag + row["policing_jitter_ns"])
        level, last = self.accounts.get((vl, p), (cap, 0))
        level = min(cap, level + row["smax"] * max(0, t - last))
        amount = (row["smax"] if row.get("policing") == "frames" else frame.size) * bag
        passes = level >= amount
        self.accounts[vl, p] = (level - amount if passes else level, t)
        if not passes:
            return self.lose(t, p, frame, "policed")
        for out in sorted(self.outputs[vl, p]):
            self.send(t + self.nodes[p]["latency_ns"], p, p, "Enqueue", (out, frame))

    def run(self) -> None:
        while self.heap:
            time, receiver, _, _, variant, fields = heapq.heappop(self.heap)
            self.handle(time, receiver, BODIES[variant], fields)
            self.handled += 1

    def trace(self) -> Iterator[str]:
        """The lines of the trace: each delivery and each loss, in the order of the messages."""
        yield model.TRACE_HEAD
        for time, place, vl, what, value in self.rows:
            yield "%d,%s,%d,%s,%d" % (time, self.names[place], vl, what, value)

    def tables(self) -> Iterator[str]:
        """The lines of the tables."""
        yield model.TABLES_HEAD
        latencies: dict[tuple[int, int], list[int]] = {}
        for _, place, vl, what, value in self.rows:
            if what == "delivered":
                latencies.setdefault((vl, place), []).append(value)
        for vl, place in sorted(self.destinations):
            found = latencies.get((vl, place), [])
            numbers = (len(found), min(found, default=0), max(found, default=0), sum(found))
            yield "latency,%d,%s,,%d,%d,%d,%d" % (vl, self.names[place], *numbers)
        drops: dict[tuple[int, int, int], int] = {}
        for _, place, vl, what, _ in self.rows:
            if what != "delivered":
                key = (vl, place, CAUSES.index(what))
                drops[key] = drops.get(key, 0) + 1
        for (vl, place, cause), count in sorted(drops.items()):
            yield "dropped,%d,%s,%s,%d,,," % (vl, self.names[place], CAUSES[cause], count)
