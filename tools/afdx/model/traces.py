"""Traces, read line by line: what a trace says is counted as it goes by, so that one of 1 GB takes some 100 MB of memory. Of a
delivery its latency is kept, in four bytes, and of the frame a byte that says that it came."""
from __future__ import annotations

import re
from array import array
from collections import Counter
from collections.abc import Callable, Iterable, Sequence

from afdx import model
from afdx.files import Fault, cut
from afdx.model import CAUSES, TRACE_HEAD, Tables, VirtualLink

# Time, what happened to whom and where, and value; and the number of a virtual link.
LINE = re.compile(r"(0|[1-9][0-9]{0,18}),(.*),(0|[1-9][0-9]{0,18})")
NUMBER = re.compile(r"0|[1-9][0-9]{0,4}")
# Losses over time are counted in this many equal parts of the run.
MOMENTS = 100
# A frame whose number is so far above those before it is noted by its moment, so that no trace of a few lines takes much memory.
FAR = 2**16


class Came:
    """The frames of a virtual link that came to a destination: how long they took, and how often each came, by the moment of its
    offer. If one is offered each period, whatever the jitter, a moment gives the number of the frame. Else several may have one moment,
    and `latest` has when the last of them came, by their moments."""

    __slots__ = ("latencies", "offset", "period", "has_numbers", "marks", "squares", "others", "latest")

    def __init__(self, vl: VirtualLink) -> None:
        self.latencies = array("I")
        self.offset, self.period = vl.own.offset_ns, vl.own.period_ns
        self.has_numbers = vl.is_plain() and vl.own.jitter_ns < vl.own.period_ns
        # A byte for each number; and a checksum of the moments themselves, which are compared with it at the end.
        self.marks, self.squares = bytearray(), 0
        # How often others came, by their moments.
        self.others: Counter[int] | None = None
        self.latest: dict[int, int] = {}

    def add(self, _: int, moment: int, latency: int) -> None:
        try:
            self.latencies.append(latency)
        except OverflowError:
            self.latencies = array("Q", self.latencies)
            self.latencies.append(latency)
        came, moment = moment, moment - latency
        number, marks = (moment - self.offset) // self.period, self.marks
        count = len(marks)
        if not self.has_numbers or not 0 <= number < count + FAR or number < count and marks[number] == 255:
            self.others = Counter() if self.others is None else self.others
            self.others[moment] += 1
            self.latest[moment] = came
            return
        self.squares += moment * moment
        if number < count:
            marks[number] += 1
            return
        if number > count:
            marks.extend(bytes(number - count))
        marks.append(1)

    def frames(self) -> tuple[bytearray, int, Counter[int] | None, dict[int, int]]:
        """Which frames came and how often, as a key: the same for the same frames."""
        return self.marks, self.squares, self.others, self.latest

    def among(self, released: Sequence[tuple[int, int]], soonest: int, may_be_twice: bool = False) -> tuple[int, int, int, int] | None:
        """Of frames with these moments of offer and release, in the order of their release: how many came, at the least and at the
        most, and the place of the last of them, or -1, at the least and at the most. Of several that were offered at one moment it is
        not known which came; nor, if a frame may be delivered twice, how many. A frame takes `soonest` ns at the least. None where
        others came too."""
        least, most, first, last, squares, marked = 0, 0, -1, -1, 0, 0
        marks, count, offset, period, others = self.marks, len(self.marks), self.offset, self.period, Counter(self.others or ())
        of_moment = Counter(moment for moment, _ in released) if may_be_twice and others else Counter()
        sure = {moment: -(-times // 2) if of_moment[moment] > 1 else times for moment, times in others.items()}
        for i, (moment, release) in enumerate(released):
            number = (moment - offset) // period
            times = marks[number] if 0 <= number < count else 0
            if times:
                marked, squares = marked + times, squares + times * moment * moment
                least, most, first, last = least + 1, most + 1, i, i
            elif others and others[moment]:
                others[moment] -= 1
                most, last = most + 1, i
                if sure[moment]:
                    sure[moment] -= 1
                    least, first = least + 1, i
            elif moment in self.latest and release + soonest <= self.latest[moment]:
                last = i
        is_other = self.others and not self.others.keys() <= {moment for moment, _ in released}
        return None if squares != self.squares or marked != sum(marks) or is_other else (least, most, first, last)

    def by_moment(self) -> Counter[int]:
        """How many frames came by the moment at which they were offered, of a virtual link that has bursts."""
        return self.others or Counter()


class Lost:
    """The frames of a virtual link that were lost at a place for a cause: how many, when, and how many in each step of the run."""

    __slots__ = ("trace", "vl", "count", "moments", "over_time", "end", "sizes")

    def __init__(self, trace: Trace, vl: VirtualLink, cause: str) -> None:
        self.trace, self.vl, self.count, self.end = trace, vl, 0, trace.net.until_ns + 1
        # When is needed only of what was lost on the way.
        self.moments = None if cause in ("queue_full", "duplicate") else array("Q")
        self.over_time = trace.over_time[cause]
        self.sizes = vl.sizes

    def add(self, i: int, moment: int, size: int) -> None:
        if size not in self.sizes:
            sizes = " or ".join(map(str, self.sizes[-4:]))
            text = f"a frame of virtual link {self.vl.id} has {size} bytes, and in {self.trace.net.path} it has {sizes}"
            raise Fault(self.trace.path, i, text)
        self.count += 1
        self.over_time[moment * MOMENTS // self.end] += 1
        if self.moments is not None:
            self.moments.append(moment)


class Trace:
    """What a trace says of the run whose tables are given: `came` which frames came, by virtual link and destination; `lost` what
    each virtual link lost, by place and cause; and `over_time` how many were lost in each of MOMENTS steps of the run, by cause."""

    def __init__(self, path: str, tables: Tables) -> None:
        self.path, self.tables, self.net = path, tables, tables.net
        self.came: dict[tuple[int, str], Came] = {}
        self.lost: dict[int, dict[tuple[str, str], Lost]] = {vl: {} for vl in self.net.vls}
        self.over_time = {cause: [0] * MOMENTS for cause in CAUSES}
        self.compare(self.read(model.read_lines(path, TRACE_HEAD, "a trace")))

    def rising(self, key: tuple[int, str]) -> list[int]:
        """The latencies of a virtual link at a destination, rising."""
        return sorted(self.came[key].latencies) if key in self.came else []

    def read(self, lines: Iterable[str]) -> int:
        """Takes all lines, and answers how many they are, with the head."""
        known: dict[str, Callable[[int, int, int], None]] = {}
        until, before, i, fields_of = self.net.until_ns, 0, 1, LINE.fullmatch
        for i, line in enumerate(lines, 2):
            fields = fields_of(line)
            if not fields:
                raise Fault(self.path, i, "has no whole number of 64 bits at its begin and at its end")
            time, what, value = fields.groups()
            moment = int(time)
            if not before <= moment <= until:
                text = f"its moment, {moment} ns, is before that of the line above, or after the end of {self.net.path}"
                raise Fault(self.path, i, text)
            before = moment
            try:
                add = known[what]
            except KeyError:
                add = known[what] = self.of(i, what).add
            add(i, moment, int(value))
        return i

    def of(self, i: int, text: str) -> Came | Lost:
        """What takes the lines of this place and virtual link, and of deliveries or a cause."""
        fields = text.split(",")
        if len(fields) != 3:
            raise Fault(self.path, i, f"has {len(fields) + 2} fields in place of 5")
        where, vl, what = fields
        if not NUMBER.fullmatch(vl) or int(vl) not in self.net.vls:
            raise Fault(self.path, i, f"virtual link {vl if len(vl) < 20 else cut(vl)} is not in {self.net.path}")
        key = int(vl), where
        found: Came | Lost
        if what == "delivered":
            if key not in self.tables.latencies:
                raise Fault(self.path, i, f"{where!r} is no destination of virtual link {vl} in {self.net.path}")
            found = self.came[key] = Came(self.net.vls[key[0]])
            return found
        if what not in CAUSES:
            raise Fault(self.path, i, f"{what!r} is neither delivered nor a cause of loss")
        if where not in self.net.vls[key[0]].places:
            raise Fault(self.path, i, f"virtual link {vl} does not pass {where!r} in {self.net.path}")
        found = self.lost[key[0]][where, what] = Lost(self, self.net.vls[key[0]], what)
        return found

    def lost_on_the_way(self, vl: int) -> dict[tuple[str, str], array[int]]:
        """For each place and cause where copies of a virtual link were lost on the way the moments, in their order."""
        return {key: it.moments for key, it in self.lost[vl].items() if it.moments is not None}

    def compare(self, last: int) -> None:
        """Refuses a trace that is of another run than the tables."""
        other = f"so it is the trace of another run than {self.tables.path}"
        for key, row in self.tables.latencies.items():
            found: Sequence[int] = self.came[key].latencies if key in self.came else ()
            seen = (len(found), min(found, default=0), max(found, default=0), sum(found))
            if seen != row[2:6]:
                text = f"{seen[0]} frames of virtual link {row.vl} came to {row.where} with a sum of {seen[3]} ns, "
                text += f"and line {row.line} of the tables has {row.count} and {row.total}, "
                raise Fault(self.path, last, text + other)
        losses = {(vl, *key): it.count for vl, found in self.lost.items() for key, it in found.items()}
        for of in [*self.tables.losses, *losses]:
            loss, count = self.tables.losses.get(of), losses.get(of, 0)
            if count != (loss.count if loss else 0):
                text = f"{count} frames of virtual link {of[0]} were lost at {of[1]} as {of[2]}, "
                raise Fault(self.path, last, text + f"and the tables have {loss.count if loss else 0}, " + other)
