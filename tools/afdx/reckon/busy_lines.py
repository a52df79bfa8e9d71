"""How long a line sends frames without a pause, as a tap sees it: a port that is full keeps its line busy until all that waits is sent."""
from afdx import model


class BusyLine:
    """A line of a tap. A pause shorter than `least_pause` ns is none: times may be wrong by as much. `longest` is the longest time that the
    line was busy, `since` the moment since when it is, None as long as no pause was seen, and `pause` how long the pause before that was."""

    def __init__(self, byte_ns: int, least_pause: int) -> None:
        self.byte_ns, self.least_pause = byte_ns, least_pause
        self.last: int | None = None
        self.since: int | None = None
        # When the first pause ended.
        self.known_from: int | None = None
        self.takes_ns = self.longest = self.pause = 0

    def take(self, moment: int, size: int) -> None:
        """Takes a frame of so many bytes. Its moment is that of its first bit or of its last one."""
        takes_ns = (size + model.BYTES_BETWEEN_FRAMES) * self.byte_ns
        if self.last is not None:
            if moment < self.last:
                self.since = self.known_from = None
            elif moment - self.last > max(takes_ns, self.takes_ns) + self.least_pause:
                self.since, self.pause = moment - takes_ns, moment - self.last - takes_ns
                self.known_from = self.since if self.known_from is None else self.known_from
        self.last, self.takes_ns = moment, takes_ns
        if self.since is not None:
            self.longest = max(self.longest, moment + takes_ns - self.since)
