"""What can wait at an output port that may be too small: which virtual links always find room there."""
from afdx.model import BYTES_BETWEEN_FRAMES, Network, VirtualLink

# Ports at which more frames than this can wait at once are not looked at, nor those whose waits do not settle in so many rounds.
MOST_FRAMES, MOST_ROUNDS = 4096, 100


class Comer:
    """A virtual link that comes to a port: the sizes of its frames there, and by how many ns they may come closer than a BAG."""

    def __init__(self, vl: VirtualLink, is_high: bool, sizes: tuple[int, ...], early_ns: int) -> None:
        self.vl, self.is_high, self.sizes, self.early_ns = vl, is_high, sizes, early_ns

    def most_in(self, ns: int) -> int:
        """How many of its frames can come in so many ns."""
        return (ns + self.early_ns) // self.vl.bag_ns + 1


class PortFill:
    """The sums of sizes that can wait at a port at one moment, as the bits of a number. A frame that waits has at most what the port
    holds before it, so it waits for a limited time, in which each virtual link sends a limited number of frames."""

    def __init__(self, net: Network, line: str, comers: list[Comer]) -> None:
        self.holds = net.nodes[line.split(">")[0]].port_bytes
        self.byte_ns = 8000 // net.mbit[line]
        self.comers = comers
        self.sums = self.reached()

    def wait_behind(self, ahead: int) -> int | None:
        """How long so many bytes take to be sent, in ns, and all high frames that come meanwhile; None where that has no end."""
        found = ahead * self.byte_ns
        for _ in range(MOST_ROUNDS):
            high = sum(it.most_in(found) * (it.sizes[-1] + BYTES_BETWEEN_FRAMES) for it in self.comers if it.is_high)
            longer = (ahead + high) * self.byte_ns
            if longer == found:
                return found
            found = longer
        return None

    def most_at_once(self) -> list[int] | None:
        """How many frames of each can wait at once, or None. A wait limits how many, and these how long a wait is."""
        on_the_line = max(it.sizes[-1] for it in self.comers) + BYTES_BETWEEN_FRAMES
        waits: tuple[int | None, int | None] = self.wait_behind(on_the_line), None
        counts = [self.holds // it.sizes[0] for it in self.comers]
        for _ in range(MOST_ROUNDS):
            before = waits
            waits = before[0], self.wait_behind(on_the_line + self.holds + BYTES_BETWEEN_FRAMES * self.most_frames(counts))
            found = [(it, waits[0 if it.is_high else 1]) for it in self.comers]
            if waits == before or any(wait is None for _, wait in found):
                break
            counts = [min(count, it.most_in(wait or 0)) for count, (it, wait) in zip(counts, found)]
        return counts if sum(counts) <= MOST_FRAMES else None

    def most_frames(self, counts: list[int]) -> int:
        """How many frames fit there at once, the shortest first."""
        room, found = self.holds, 0
        for size, count in sorted((it.sizes[0], count) for it, count in zip(self.comers, counts)):
            more = min(count, room // size)
            room, found = room - more * size, found + more
        return found

    def reached(self) -> int | None:
        """The sums, or None where they are not known."""
        counts = self.most_at_once()
        if counts is None:
            return None
        sums, up_to = 1, (1 << self.holds + 1) - 1
        for it, count in zip(self.comers, counts):
            for _ in range(count):
                more = sums
                for size in it.sizes:
                    more |= sums << size
                if more & up_to == sums:
                    break
                sums = more & up_to
        return sums

    def has_room_for(self, size: int) -> bool:
        """Whether a frame of a size fits, whatever waits."""
        return self.sums is not None and self.sums >> max(0, self.holds - size + 1) == 0
