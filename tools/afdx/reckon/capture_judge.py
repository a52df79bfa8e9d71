"""A capture of a bench, held against the model: which taps there are, and which frames belong to them."""
from collections import Counter
from collections.abc import Iterator

from afdx.files import Fault
from afdx.files.captures import Capture, Interface, Packet
from afdx.model import BYTES_BETWEEN_FRAMES, Network, VirtualLink, lines_of_path
from afdx.model.captured_frames import NO_NETWORK, CapturedFrame
from afdx.reckon.busy_lines import BusyLine
from afdx.reckon.captured_links import CapturedLink
from afdx.reckon.captured_pairs import Copies, Pair, Way
from afdx.reckon.clock_offsets import ClockOffsets
from afdx.reckon.clock_steps import ClockSteps
from afdx.reckon.clock_windows import ClockWindows
from afdx.reckon.tap_limits import TapLimits
from afdx.reckon.tap_places import Place, place_of
from afdx.reckon.taps import Stray, Tap

UNKNOWN, WRONG_WAY, WRONG_NETWORK = "unknown", "wrong way", "wrong network"
# How many names a message has at most.
MOST_NAMES = 8


class CaptureJudge:
    """Reads a capture, and keeps what each tap saw. `given` has the places of interfaces, that of all others by the name "". If
    `has_one_clock`, all interfaces have one."""

    def __init__(self, net: Network, limits: TapLimits, capture: Capture, given: dict[str, Place], has_one_clock: bool = False) -> None:
        self.net, self.limits, self.capture, self.given = net, limits, capture, given
        self.has_one_clock = has_one_clock
        self.taps: dict[str, Tap] = {}
        self.by_interface: list[Tap] = []
        # The interfaces that tap a line, the first of them first.
        self.tapping: dict[str, list[str]] = {}
        self.links: list[CapturedLink] = []
        self.by_vl: dict[int, list[CapturedLink]] = {}
        self.pairs: list[Pair] = []
        # Of interfaces that have the name of a node and are no tap: the numbers of the frames of each virtual link and network.
        self.named_by_nodes: dict[str, dict[tuple[int, str], Counter[int]]] = {}
        self.steps, self.windows = ClockSteps(), ClockWindows(self.taps)
        # The lines of each virtual link by network, and the virtual links of each line.
        self.lines: dict[tuple[int, str], set[str]] = {}
        self.users: dict[str, list[int]] = {}
        for vl in net.vls.values():
            for side, paths in vl.paths.items():
                self.lines[vl.id, side] = {line for path in paths for line in lines_of_path(path)}
                for line in self.lines[vl.id, side]:
                    self.users.setdefault(line, []).append(vl.id)

    # ---- taps ----

    def tap_of(self, interface: Interface) -> Tap:
        found = self.taps.get(interface.name)
        if found is None:
            place = self.given.get(interface.name) or place_of(self.net, interface.name) or self.given.get("")
            lines = place.lines if place else ()
            is_second = any(line in self.tapping for line in lines)
            for line in lines:
                self.tapping.setdefault(line, []).append(interface.name)
            found = self.taps[interface.name] = Tap(interface.name, place, is_second)
            found.busy = {line: self.busy_line(line, interface) for line in lines if line in self.limits.small}
        found.opens(interface)
        return found

    def busy_line(self, line: str, interface: Interface) -> BusyLine:
        """A line whose port may be too small. Less than half of what its shortest frame takes is no pause."""
        shortest = min((self.net.vls[it].sizes[0] for it in self.users.get(line, ())), default=0)
        byte_ns = self.limits.byte_ns(line)
        return BusyLine(byte_ns, (shortest + BYTES_BETWEEN_FRAMES) * byte_ns // 2 + 2 * interface.resolution_ns())

    def network_of(self, line: str) -> str | None:
        """The network of a line: that of its switch."""
        here, there = line.split(">")
        return self.net.nodes[here].net or self.net.nodes[there].net

    # ---- packets ----

    def read(self) -> None:
        """Reads the whole capture."""
        for packet in self.capture.packets():
            while len(self.by_interface) <= packet.interface:
                self.by_interface.append(self.tap_of(self.capture.interfaces[len(self.by_interface)]))
            self.take(self.by_interface[packet.interface], packet)
        for interface in self.capture.interfaces[len(self.by_interface) :]:
            self.tap_of(interface)
        self.windows.end()
        self.judge_names()

    def take(self, tap: Tap, packet: Packet) -> None:
        if not self.capture.interfaces[packet.interface].is_ethernet():
            tap.others += 1
            return
        tap.clock(packet)
        if packet.moment is not None:
            self.steps.take(packet.number, packet.moment)
            self.windows.pass_on(tap, packet.moment)
        frame = tap.frame(packet)
        if frame is None or tap.place is None:
            if frame is not None and frame.number is not None and tap.name in self.net.nodes:
                self.named_by_nodes.setdefault(tap.name, {}).setdefault((frame.vl, frame.net), Counter())[frame.number] += 1
            return
        found = tap.of.get((frame.vl, frame.net))
        if found is None:
            found = tap.of[frame.vl, frame.net] = self.belongs(tap, tap.place, frame)
        if tap.busy and packet.moment is not None:
            for line, busy in tap.busy.items():
                if isinstance(found, Stray) or found.line == line:
                    busy.take(packet.moment, frame.size)
        if isinstance(found, Stray):
            tap.of_no_network += found.what is None
            found.take(packet.number, frame)
        else:
            found.take(packet.number, frame, packet.moment, tap.steps_back, tap.sections)

    def belongs(self, tap: Tap, place: Place, frame: CapturedFrame) -> CapturedLink | Stray:
        """What frames of a virtual link and a network are at a tap."""
        vl = self.net.vls.get(frame.vl)
        if vl is None:
            return Stray(UNKNOWN)
        if place.is_end_system and frame.net == NO_NETWORK:
            return Stray(None)
        lines = [line for line in place.lines if line in self.lines.get((vl.id, frame.net), ())]
        if len(lines) > 1:
            text = f"sees virtual link {vl.id} on {lines[0]} and on {lines[1]}, and no frame says on which: capture each by an interface of its own"
            raise Fault(self.capture.path, None, f"{tap.name} {text}")
        if lines:
            return self.link(tap, vl, frame.net, lines[0])
        own = {line for side in "AB" for line in self.lines.get((vl.id, side), ())}
        is_here = any(self.network_of(line) == frame.net for line in place.lines)
        return Stray(WRONG_WAY if is_here and not own.intersection(place.lines) else WRONG_NETWORK)

    def link(self, tap: Tap, vl: VirtualLink, net: str, line: str) -> CapturedLink:
        spacing = self.limits.spacing(vl, line)
        link = CapturedLink(vl, net, tap.name, line, None if spacing is None else spacing + tap.resolution_ns, self.steps)
        link.steps_back, link.sections, link.busy = tap.steps_back, tap.sections, tap.busy.get(line)
        if not tap.is_second:
            for other in self.by_vl.setdefault(vl.id, []):
                self.pair(link, other)
            self.by_vl[vl.id].append(link)
        self.links.append(link)
        return link

    # ---- pairs of taps ----

    def slack(self, one: CapturedLink, other: CapturedLink) -> int:
        """By how much the difference of two times may be wrong, since both are rounded."""
        return self.taps[one.tap].resolution_ns + self.taps[other.tap].resolution_ns

    def pair(self, new: CapturedLink, other: CapturedLink) -> None:
        """Compares two taps of a virtual link, where one is behind the other, or where both copies come to a destination."""
        pair: Pair
        touched = None if self.has_one_clock or new.tap == other.tap else self.windows.touched
        if new.net != other.net:
            where = new.line.split(">")[1]
            if where not in new.vl.destinations or where != other.line.split(">")[1]:
                return
            one, two = (new, other) if new.net == "A" else (other, new)
            pair = Copies(one, two, where, self.most_skew(one, two), touched)
        else:
            for one, two in ((new, other), (other, new)):
                if one.line in self.limits.way_to(new.vl, two.line)[:-1]:
                    transit = self.limits.transit(new.vl, one.line, two.line)
                    most = None if transit.most is None else transit.most + self.slack(one, two)
                    pair = Way(one, two, transit, most, touched)
                    break
            else:
                return
        if other.newest:
            pair.take(other, *other.newest)
        self.pairs.append(pair)

    def most_skew(self, one: CapturedLink, other: CapturedLink) -> int:
        """The longest time between two copies that SkewMax allows, as two taps see it: they may stand at either end of a cable."""
        cables = max(self.net.propagation_ns[it.line] for it in (one, other))
        return one.vl.skew_ns + cables + self.slack(one, other)

    def offsets(self) -> ClockOffsets:
        """What the frames that pass two taps show of their clocks."""
        found = ClockOffsets(self.has_one_clock)
        for pair in self.pairs:
            if isinstance(pair, Way) and pair.ahead is not None and pair.one.tap != pair.other.tap:
                found.limit(pair.one.tap, pair.other.tap, pair.ahead)
        found.settle()
        return found

    # ---- what is wrong with the words ----

    def judge_names(self) -> None:
        """Refuses words of --tap that name no interface, and a capture of which no interface is a tap of the network."""
        names = ", ".join(list(self.taps)[:MOST_NAMES]) + (", .." if len(self.taps) > MOST_NAMES else "")
        for name in self.given:
            if name and name not in self.taps:
                raise Fault(self.capture.path, None, f"has no interface {name}, which --tap names: it has {names or 'none'}")
        if not any(tap.place for tap in self.taps.values()) and not self.capture.cut:
            text = f"no interface of it ({names or 'none'}) has the name of a line or an end system of {self.net.path}"
            raise Fault(self.capture.path, None, f'{text}: name the link and the direction of each, as --tap eth0="SW1>ES2"')

    def silent(self) -> Iterator[tuple[Tap, str, int]]:
        """Of each tapped line on which frames came, the virtual links of which none came."""
        for tap in self.taps.values():
            seen: dict[str, set[int]] = {}
            for found in tap.of.values():
                if isinstance(found, CapturedLink):
                    seen.setdefault(found.line, set()).add(found.vl.id)
            for line, numbers in seen.items():
                yield from ((tap, line, vl) for vl in self.users[line] if vl not in numbers)
