"""What an accepted description has that is hardly meant: warnings, each with its line. Beside bounds, what may go wrong in the
worst case."""
from collections.abc import Callable, Iterable

from afdx import model
from afdx.files.page_text import counted, two_places
from afdx.model import Link, Network, Stream, VirtualLink, offered_rates
from afdx.model.findings import Finding
from afdx.reckon import output_ports, transmit_jitter
from afdx.reckon.bounds_file import Bounds

# Warns of a key: the key, the text, and what all warnings of one kind say.
Add = Callable[[str, str, str], None]


class Warnings:
    """What an accepted description has that is hardly meant."""

    def __init__(self, net: Network) -> None:
        self.net = net
        self.findings: list[Finding] = []
        for i, outage in enumerate(net.outages, 1):
            if outage.from_ns > net.until_ns:
                text = f"is {outage.from_ns}, and the run ends at {net.until_ns}: the line is never out"
                self.add("outage", i, "from_ns", f"outage {outage.line}", text, "an outage begins after the end of the run")
        for vl in net.vls.values():
            self.virtual_link(vl)
        for i, link in enumerate(net.links, 1):
            for line in (link.a + ">" + link.b, link.b + ">" + link.a):
                self.load(i, link, line)
        self.transmit_jitter()
        self.findings.sort(key=lambda it: it.line)

    def transmit_jitter(self) -> None:
        """End systems that may send later than the standard allows."""
        rows = {name: i for i, name in enumerate(self.net.nodes, 1)}
        for line, known in transmit_jitter.allowed(self.net, transmit_jitter.users_of(self.net)).items():
            if known.sum_ns > transmit_jitter.MOST_NS:
                name = line.split(">")[0]
                of = f"{known.users} virtual link{'' if known.users == 1 else 's'}"
                text = f"has {of} on {line}: 40 us and a frame of each take {known.sum_ns} ns, and ARINC 664 Part 7 "
                text += f"allows {transmit_jitter.MOST_NS} ns of transmit jitter"
                self.add("node", rows[name], None, f"end system {name}", text, "the transmit jitter of an end system may be more than ARINC 664 Part 7 allows")

    def add(self, section: str, row: int, key: str | None, name: str, text: str, kind: str) -> None:
        line = self.net.description.line(section, row, key)
        who = f"{name} ({section} row {row})" + (f", {key}" if key else "")
        self.findings.append(Finding(0, model.Place(section, row, key), line, who, text, kind))

    def load(self, i: int, link: Link, line: str) -> None:
        load = self.net.load[line]
        if load > 75:
            tenths = round(load * 10)
            text = f"gets {tenths // 10}.{tenths % 10} percent of the {link.mbit} Mbit/s of {line}: "
            late = "frames are lost or late there, whatever the moments" if load > 100 else "frames wait long there"
            kind = f"a line gets more than {100 if load > 100 else 75} percent of what it carries"
            self.add("link", i, None, f"link {link.a}-{link.b}", text + late, kind)

    def virtual_link(self, vl: VirtualLink) -> None:
        add = self.adder(vl)
        if vl.is_plain():
            if vl.own.period_ns < vl.bag_ns:
                text = f"is {vl.own.period_ns}, below the BAG of {vl.bag_ns} ns: frames wait in the regulator, and are dropped "
                add("period_ns", text + "once as many wait as depth says (queue_full)", "the period is below the BAG")
            else:
                self.wait(vl, add)
        else:
            self.regulator(vl)
        for it in vl.streams:
            self.stream(vl, it)
        if vl.bag_ns > self.net.until_ns:
            add("bag_ms", f"is longer than the run, which ends at {self.net.until_ns} ns: one frame leaves at most", "the BAG is longer than the run")
        self.networks(vl, add)

    def adder(self, vl: VirtualLink, it: Stream | None = None) -> Add:
        """What warns of a key of a virtual link, or of one of its streams."""
        section, row = (it.section, it.row) if it else ("vl", vl.row)
        name = f"virtual link {vl.id}" if section == "vl" else f"stream of virtual link {vl.id}"
        return lambda key, text, kind: self.add(section, row, key, name, text, kind)

    def stream(self, vl: VirtualLink, it: Stream) -> None:
        """What is hardly meant of a stream by itself."""
        add, until = self.adder(vl, it), self.net.until_ns
        if it.size > vl.smax and it.size in it.sizes():
            which = "every frame is" if it.frames == 1 or it.last_size > vl.smax else "all frames but the last are"
            add("size", f"is {it.size}, above smax, which is {vl.smax}: {which} dropped at the first switch (too_long)", "size is above smax")
        elif it.last_size > vl.smax:
            which = "every frame is" if it.frames == 1 else "the last frame of each burst is"
            add("last_size", f"is {it.last_size}, above smax, which is {vl.smax}: {which} dropped at the first switch (too_long)", "last_size is above smax")
        if it.frames > vl.depth + 1:
            lost = counted(it.frames - vl.depth - 1, "frame")
            text = f"is {it.frames}, and depth is {vl.depth}: the regulator drops at least {lost} of each burst (queue_full)"
            add("frames", text, "a burst is longer than its queue")
        if it.sub_vl is not None and it.sub_vl >= vl.sub:
            text = f"is {it.sub_vl}, and sub is {vl.sub}, so the last is {vl.sub - 1}: every frame is dropped (queue_full)"
            add("sub_vl", text, "sub_vl names a sub-virtual link that there is not")
        if it.end_ns is not None and it.end_ns < it.offset_ns:
            add("end_ns", f"is {it.end_ns}, before offset_ns, which is {it.offset_ns}: nothing is offered", "end_ns is before offset_ns")
        elif next(model.offers(self.net.seed, it, 1, until), None) is None:
            text = f"is {it.offset_ns}: nothing is offered before the end, which is at {until} ns"
            add("offset_ns", text, "nothing is offered before the end")

    def regulator(self, vl: VirtualLink) -> None:
        """Streams that give the regulator more than a frame in each BAG."""
        often = offered_rates.frames_in_a_bag(vl)
        if often > 1:
            of = f"{len(vl.streams)} streams offer" if len(vl.streams) > 1 else "bursts have"
            text = f"{of} {two_places(often)} frames in a BAG of {vl.bag_ns} ns: frames wait in the regulator, and are dropped "
            text += "once as many wait as depth says (queue_full)"
            self.adder(vl)("period_ns" if len(vl.streams) == 1 else "bag_ms", text, "more than a frame is offered in a BAG")

    @staticmethod
    def wait(vl: VirtualLink, add: Add) -> None:
        """What the jitter of offers alone may keep in the regulator."""
        jitter = vl.own.jitter_ns
        most, depth = -(-jitter // vl.own.period_ns), vl.depth * vl.sub
        if most > depth:
            text = f"is {jitter}: {most} frames may wait in the regulator, and it holds {depth} (queue_full)"
            add("jitter_ns", text, "more frames may wait in the regulator than it holds")
        elif (wait := output_ports.longest_wait(vl)) > vl.bag_ns:
            text = f"is {jitter}: up to {wait} ns of a latency, which begins at the offer, are the regulator's"
            add("jitter_ns", text, "much of a latency may be the regulator's")

    def networks(self, vl: VirtualLink, add: Add) -> None:
        """Destinations without a second copy, where the description has two networks."""
        if not (self.net.of_kind("switch", "A") and self.net.of_kind("switch", "B")):
            return
        for key, other in (("a", "b"), ("b", "a")):
            if not vl.paths[key.upper()]:
                add(key, f"is empty: no destination has a second copy, by network {key.upper()}", f"there is no path on network {key.upper()}")
                continue
            alone = [where for where, nets in vl.destinations.items() if nets == {key}]
            if alone and vl.paths[other.upper()]:
                names = ", ".join(alone[:4]) + (" .." if len(alone) > 4 else "")
                text = f"has no path to {names}: reached by network {key.upper()} alone, without a second copy"
                add(other, text, f"destinations are reached by network {key.upper()} alone")


class WorstCase(Warnings):
    """What may go wrong in the worst case, by the bounds that afdx bounds worked out."""

    def __init__(self, net: Network, bounds: Bounds) -> None:
        self.net, self.bounds = net, bounds
        self.findings = []
        self.rows = {name: i for i, name in enumerate(net.nodes, 1)}
        self.of_each(bounds.refusing(), self.refusing)
        self.of_each(bounds.not_sure(), self.not_sure)
        self.of_each(bounds.twice(), self.twice)
        for line in bounds.too_small():
            self.too_small(line)
        self.findings.sort(key=lambda it: it.line)

    def of_each(self, keys: Iterable[tuple[int, str]], warn: Callable[[VirtualLink, list[str]], None]) -> None:
        """Warns of each virtual link, with the places where it is so."""
        places: dict[int, list[str]] = {}
        for vl, where in keys:
            places.setdefault(vl, []).append(where)
        for vl, found in places.items():
            warn(self.net.vls[vl], sorted(found, key=self.net.process.__getitem__))

    def warn(self, vl: VirtualLink, key: str | None, text: str, kind: str) -> None:
        self.add("vl", vl.row, key, f"virtual link {vl.id}", text, f"in the worst case {kind}")

    def refusing(self, vl: VirtualLink, places: list[str]) -> None:
        shown = [f"{where} ({ns_or_none(self.bounds.accounts[vl.id, where].jitter_ns)})" for where in places]
        text = f"is {vl.policing_ns}, and in the worst case frames come closer than a BAG by more than that at {few(shown)}: "
        self.warn(vl, "policing_jitter_ns", text + "the accounts there may refuse them (policed)", "accounts may refuse frames")

    def not_sure(self, vl: VirtualLink, places: list[str]) -> None:
        networks = "neither network brings" if all(vl.paths.values()) else "its network does not bring"
        self.warn(vl, None, f"{networks} each frame to {few(places)} in the worst case", "no network brings each frame")

    def twice(self, vl: VirtualLink, places: list[str]) -> None:
        shown = [f"{where} ({ns_or_none(self.bounds.of[vl.id, where].skew_ns)})" for where in places]
        text = f"is {vl.skew_ns}, and in the worst case the copies of a frame are further apart at {few(shown)}: "
        self.warn(vl, "skew_max_ns", text + "the second one would be delivered too", "copies are further apart than SkewMax")

    def too_small(self, line: str) -> None:
        most, name = self.bounds.waiting[line].most, line.split(">")[0]
        waits = "there is no bound on the bytes that may wait" if most is None else f"in the worst case {most} bytes wait"
        text = f"is {self.bounds.holds(line)}, and {waits} before {line}: frames may be lost there (port_full)"
        self.add("node", self.rows[name], "port_bytes", f"node {name}", text, "in the worst case a port is too small")


def ns_or_none(number: int | None) -> str:
    return "no bound" if number is None else f"{number} ns"


def few(texts: list[str], most: int = 4) -> str:
    return ", ".join(texts[:most]) + (f" and {len(texts) - most} more" if len(texts) > most else "")
