"""Why frames are late: the way of the worst frame of some virtual links, hop by hop, in a run that the plain simulator makes again."""
from collections.abc import Iterable, Mapping
from typing import Any, NamedTuple

from afdx.model import BYTES_BETWEEN_FRAMES
from afdx.runs.plain_simulator import Frame, Simulation

# What a line sends before a frame: preamble and start of frame.
BYTES_BEFORE = 8
# A virtual link and a destination.
Key = tuple[int, str]


class Ahead(NamedTuple):
    """A frame that a line sent, or began to send, while another one waited at its port: when its first bit left, and when the line
    was free again."""

    vl: int
    size: int
    begins_ns: int
    ends_ns: int


class Hop(NamedTuple):
    """The stay of a frame at a port: its line, when it came, when its first bit and its last one left, and which frames went ahead."""

    line: str
    came_ns: int
    begins_ns: int
    left_ns: int
    ahead: tuple[Ahead, ...]


class Late(NamedTuple):
    """The worst frame of a virtual link at a destination: its size, when it was offered, when the regulator released it, by which
    network it came and when; and its hops."""

    vl: int
    where: str
    size: int
    offered_ns: int
    released_ns: int
    network: str
    delivered_ns: int
    hops: tuple[Hop, ...]

    def latency_ns(self) -> int:
        return self.delivered_ns - self.offered_ns


class Watched(Simulation):
    """A run that notes the stays of the frames of some virtual links at each port, and keeps those of the worst frame at each of
    some destinations. Of several as late it keeps the first one."""

    def __init__(self, tree: Mapping[str, Any], wanted: Iterable[Key]) -> None:
        self.found: dict[Key, Late | None] = dict.fromkeys(wanted)
        self.watched = {vl for vl, _ in self.found}
        # Of each port what its line has sent since it was free; of frames that wait how much of that was sent before they came;
        # and the hops of copies that are done.
        self.sent: dict[int, list[Ahead]] = {}
        self.waits: dict[tuple[int, Frame], tuple[int, int]] = {}
        self.hops: dict[tuple[int, Frame], Hop] = {}
        super().__init__(tree)
        self.byte_ns = [line.byte_ns for line in self.lines]

    def put(self, t: int, p: int, q: int, frame: Frame, high: bool) -> None:
        if frame.vl in self.watched:
            port, line = self.ports.get((p, q)), self.out[p, q]
            # The frame that is being sent is the last of those before it.
            before = max(0, len(self.sent[line]) - 1) if port and port.is_busy else 0
            self.waits[line, frame] = t, before
        lost = len(self.rows)
        super().put(t, p, q, frame, high)
        if len(self.rows) > lost:
            self.waits.pop((self.out[p, q], frame), None)

    def start(self, t: int, p: int, q: int, frame: Frame) -> None:
        line = self.out[p, q]
        byte_ns = self.byte_ns[line - len(self.nodes)]
        sent = self.sent.get(line)
        if sent is None or sent[-1].ends_ns < t:
            sent = self.sent[line] = []
        came = self.waits.pop((line, frame), None)
        if came:
            ahead = tuple(it for it in sent[came[1] :] if it.ends_ns > came[0])
            self.hops[line, frame] = Hop(self.names[line], came[0], t, t + (frame.size + BYTES_BEFORE) * byte_ns, ahead)
        sent.append(Ahead(frame.vl, frame.size, t, t + (frame.size + BYTES_BETWEEN_FRAMES) * byte_ns))
        super().start(t, p, q, frame)

    def deliver(self, t: int, p: int, frame: Frame) -> None:
        super().deliver(t, p, frame)
        key = frame.vl, self.names[p]
        if key in self.found:
            before = self.found[key]
            if before is None or t - frame.offered > before.latency_ns():
                self.found[key] = self.late(t, key, frame)

    def late(self, t: int, key: Key, frame: Frame) -> Late:
        """What is noted of a frame at its destination."""
        paths = self.vls[frame.vl]["a" if frame.net == "A" else "b"]
        path = next(path for path in paths if path[-1] == key[1])
        lines = [self.out[self.place[here], self.port_of[here, there]] for here, there in zip(path, path[1:])]
        hops = tuple(self.hops[line, frame] for line in lines)
        return Late(*key, frame.size, frame.offered, frame.released, frame.net or "", t, hops)


def worst(tree: Mapping[str, Any], wanted: Iterable[Key]) -> dict[Key, Late]:
    """The worst frame of virtual links at destinations, in the run of a description. Where nothing comes there is none."""
    run = Watched(tree, wanted)
    run.run()
    return {key: late for key, late in run.found.items() if late is not None}
