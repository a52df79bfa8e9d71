"""Streams, and the offers of each, drawn as the program draws them: PCG XSH RR 64/32, with words of its own for each stream.

A stream is what one application offers to the source of a virtual link: bursts of frames. A burst is a message that is longer than
a frame, or several messages that are written at one moment. Each row of `vl` has one stream, its own, whose number is that of the
virtual link; each row of `stream` is a further one, and the number of the first of these rows is 65,536."""
from collections.abc import Iterable, Iterator, Mapping
from typing import Any, NamedTuple

# The number of the stream of the first row of `stream`.
FIRST_NUMBER = 65_536


class Stream(NamedTuple):
    """A stream: its number, the section and the row, from 1, that describe it, and what they say. `end_ns` is None where it has no
    end, `sub_vl` where its bursts go to all sub-virtual links in turn."""

    number: int
    section: str
    row: int
    size: int
    frames: int
    last_size: int
    offset_ns: int
    period_ns: int
    jitter_ns: int
    is_sporadic: bool
    end_ns: int | None
    sub_vl: int | None

    @property
    def first_size(self) -> int:
        """The size of the first frame of a burst."""
        return self.last_size if self.frames == 1 else self.size

    def sizes(self) -> set[int]:
        """The sizes of its frames."""
        return {self.last_size} if self.frames == 1 else {self.size, self.last_size}

    def bytes_of_burst(self, more: int = 0) -> int:
        """The bytes of a burst, with so many more for each frame."""
        return (self.frames - 1) * (self.size + more) + self.last_size + more

    def last_ns(self, until_ns: int) -> int:
        """The latest moment at which it may offer a frame."""
        return until_ns if self.end_ns is None else min(until_ns, self.end_ns)

    def is_plain(self) -> bool:
        """Whether it offers one frame each period, as long as the run lasts, with jitter."""
        return self.frames == 1 and not self.is_sporadic and self.end_ns is None and self.sub_vl is None

    def count_due(self, until_ns: int) -> int:
        """How many bursts are due."""
        return max(0, (self.last_ns(until_ns) - self.offset_ns) // self.period_ns + 1)


class Offer(NamedTuple):
    """A frame that is offered: its number in its stream, the moment, its size, and the number of its sub-virtual link."""

    number: int
    moment: int
    size: int
    sub: int


def stream_of(section: str, i: int, row: Mapping[str, Any]) -> Stream:
    """The stream that a row of `vl` or `stream`, from 1, describes. A key that is absent, or None, has its usual value."""
    last, number = row.get("last_size"), row["id"] if section == "vl" else FIRST_NUMBER + i - 1
    return Stream(
        number, section, i, row["size"], row.get("frames") or 1, row["size"] if last is None else last, row["offset_ns"],
        row["period_ns"], row["jitter_ns"], row.get("timing") == "sporadic", row.get("end_ns"), row.get("sub_vl"),
    )


def streams_of(vls: Iterable[Mapping[str, Any]], streams: Iterable[Mapping[str, Any]]) -> dict[int, list[Stream]]:
    """The streams of each virtual link by its number, in the order of their numbers, of the rows of both sections."""
    found = {row["id"]: [stream_of("vl", i, row)] for i, row in enumerate(vls, 1)}
    for i, row in enumerate(streams, 1):
        found[row["vl"]].append(stream_of("stream", i, row))
    return found


def words(seed: int, stream: int, first: int = 0) -> Iterator[int]:
    """The words of PCG XSH RR 64/32, from one of them on."""
    mask, by = 2**64 - 1, 6364136223846793005
    increment = (stream << 1 | 1) & mask
    state = ((seed + increment) * by + increment) & mask
    # 1, 2, 4, .. steps at once: each is a product and a sum, as one step is.
    product, more = by, increment
    while first:
        if first & 1:
            state = (state * product + more) & mask
        product, more, first = product * product & mask, (product + 1) * more & mask, first >> 1
    while True:
        shifted = ((state >> 18 ^ state) >> 27) & 0xFFFFFFFF
        rotation = state >> 59
        yield (shifted >> rotation | shifted << (32 - rotation)) & 0xFFFFFFFF
        state = (state * 6364136223846793005 + increment) & mask


# The generators of offers have numbers below this one.
FIRST_OFFSET = 2**32


def drawn_offset(seed: int, number: int, period_ns: int) -> int:
    """The offset that a seed draws for the stream with this number: the first two words of the generator of its own, as one number
    of 64 bits, modulo the period."""
    drawn = words(seed, FIRST_OFFSET + number)
    low, high = next(drawn), next(drawn)
    return (low + (high << 32)) % period_ns


def bursts(seed: int, stream: Stream, until_ns: int) -> Iterator[tuple[int, int]]:
    """The bursts of a stream: each with its number and its moment. One that is later than the end is left out. Of a periodic stream
    what is drawn makes one burst late, of a sporadic one all that follow too."""
    drawn, k, late = words(seed, stream.number), 0, 0
    due, last, most = stream.offset_ns, stream.last_ns(until_ns), stream.jitter_ns + 1
    while due <= last:
        late = next(drawn) % most + (late if stream.is_sporadic else 0)
        if due + late <= last:
            yield k, due + late
        elif stream.is_sporadic:
            return
        k, due = k + 1, due + stream.period_ns


def offers(seed: int, stream: Stream, sub: int, until_ns: int) -> Iterator[Offer]:
    """The offers of a stream of a virtual link with so many sub-virtual links."""
    frames, last = stream.frames, stream.frames - 1
    for k, moment in bursts(seed, stream, until_ns):
        place = k % sub if stream.sub_vl is None else stream.sub_vl
        for j in range(frames):
            yield Offer(k * frames + j, moment, stream.last_size if j == last else stream.size, place)


def count_of_offers(seed: int, stream: Stream, until_ns: int) -> int:
    """How many offers a stream has; bursts that are there whatever their jitter is are not drawn."""
    due = stream.count_due(until_ns)
    if stream.is_sporadic and stream.jitter_ns:
        return sum(1 for _ in bursts(seed, stream, until_ns)) * stream.frames
    last = stream.last_ns(until_ns)
    surely = max(0, (last - stream.jitter_ns - stream.offset_ns) // stream.period_ns + 1)
    drawn, count = words(seed, stream.number, surely), surely
    for k in range(surely, due):
        count += stream.offset_ns + k * stream.period_ns + next(drawn) % (stream.jitter_ns + 1) <= last
    return count * stream.frames
