"""The keys of a description, section by section, each with its type and its limits; and how large a network may be."""
from collections.abc import Mapping
from typing import Any, NamedTuple

from afdx.files import toml_lines

GREATEST_SEED = 2**63 - 1
# The latest end of a run and the longest period, and the longest jitter and propagation, in ns.
LATEST_NS = 10**15
SECOND_NS = 10**9
LEAST_FRAME, GREATEST_FRAME = 64, 1518
SPEEDS_MBIT = (10, 100, 1000)
BAGS_MS = (1, 2, 4, 8, 16, 32, 64, 128)
MOST_PROCESSES, MOST_PORTS, MOST_OUTAGES, MOST_DESTINATIONS = 4096, 24, 1024, 64
MOST_NODES_OF_A_PATH = 32
# How many rows of `stream` there may be, and how many frames a burst has at most.
MOST_STREAMS, MOST_FRAMES = 65_536, 64


class Key(NamedTuple):
    """A key of a section: its type (integer, text, name or paths), its limits or the values that it may have, which
    rows must have it (all, switches, or none), what it means where it is absent, and what it says."""

    name: str
    value_type: str
    least: int | None
    greatest: int | None
    choices: tuple[int, ...] | tuple[str, ...] | None
    needed: str
    usual: int | str | None
    says: str

    def python_type(self) -> type:
        return {"integer": int, "paths": toml_lines.Array}.get(self.value_type, str)

    def limits(self) -> tuple[int, int]:
        """The least and the greatest, of a key that has such limits."""
        assert self.least is not None and self.greatest is not None
        return self.least, self.greatest

    def is_needed(self, row: Mapping[str, Any]) -> bool:
        return self.needed == "all" or self.needed == "switches" and row.get("kind") == "switch"


def number_key(name: str, least: int, greatest: int, says: str, needed: str = "all", usual: int | None = None) -> Key:
    return Key(name, "integer", least, greatest, None, needed, usual, says)


def choice_key(name: str, choices: tuple[int, ...] | tuple[str, ...], says: str, needed: str = "all", usual: int | str | None = None) -> Key:
    value_type = "integer" if type(choices[0]) is int else "text"
    return Key(name, value_type, None, None, choices, needed, usual, says)


def name_key(name: str, says: str) -> Key:
    return Key(name, "name", None, None, None, "all", None, says)


def paths_key(name: str, says: str) -> Key:
    return Key(name, "paths", 3, MOST_NODES_OF_A_PATH, None, "all", None, says)


COUNTED = "from the destination address to the check sequence"
# The keys of a stream: each row of `vl` has one, and each row of `stream` is a further one.
STREAM_KEYS = [
    number_key("size", LEAST_FRAME, GREATEST_FRAME, f"Size of the frames that the application offers, in bytes, {COUNTED}."),
    number_key("frames", 1, MOST_FRAMES, "How many frames are offered at one moment: a message that is longer than a frame, or several.", "none", 1),
    number_key("last_size", LEAST_FRAME, GREATEST_FRAME, "Size of the last of these frames, in bytes; absent: as size.", "none"),
    number_key("offset_ns", 0, LATEST_NS, "Moment of the first offer, before jitter, in ns."),
    number_key("period_ns", 1000, LATEST_NS, "From one offer to the next, before jitter, in ns."),
    number_key("jitter_ns", 0, SECOND_NS, "How late an offer may be at most, in ns; it is drawn for each offer."),
    choice_key(
        "timing", ("periodic", "sporadic"),
        'Whether what is drawn makes one offer late ("periodic") or all later ones too ("sporadic": period_ns is the least distance).',
        "none", "periodic",
    ),
    number_key("end_ns", 0, LATEST_NS, "No frame is offered later than this moment, in ns; absent: until the end of the run.", "none"),
    number_key("sub_vl", 0, 3, "The sub-virtual link of all its frames, from 0; absent: offers go to all of them in turn.", "none"),
]
# The keys of each section, in the order of checks. Moments and times are whole ns.
KEYS = {
    "top": [
        number_key("until_ns", 1, LATEST_NS, "End of the run, in ns."),
        number_key("seed", 0, GREATEST_SEED, "Seed of the jitter of the offers."),
    ],
    "node": [
        Key("name", "text", 1, 32, None, "all", None, "Name of the node: letters, digits, _ and -. Each name once."),
        choice_key("kind", ("es", "switch"), 'End system ("es") or "switch".'),
        number_key("port_bytes", GREATEST_FRAME, 2**20, "How many bytes of frames may wait at each of its ports."),
        choice_key("net", ("A", "B"), "The network of a switch. An end system has no such key.", "switches"),
        number_key(
            "latency_ns", 1, SECOND_NS,
            "From the arrival of a frame at a switch to its output port, in ns. An end system has no such key.",
            "switches",
        ),
    ],
    "link": [
        name_key("a", "One of the two nodes that the link joins, in both directions."),
        name_key("b", "The other node."),
        choice_key("mbit", SPEEDS_MBIT, "Speed in Mbit/s."),
        number_key("propagation_ns", 1, SECOND_NS, "Propagation time in ns: 5 for each metre of cable."),
    ],
    "outage": [
        name_key("from", "The node from which the line that is out leads. The other direction of the link is not out."),
        name_key("to", "The node to which it leads."),
        number_key("from_ns", 0, LATEST_NS, "The line is out from this moment on, in ns."),
        number_key("to_ns", 0, LATEST_NS, "The line is out no more at this moment, in ns; it is after from_ns."),
    ],
    "vl": [
        number_key("id", 0, 65535, "Number of the virtual link. Each number once."),
        choice_key("bag_ms", BAGS_MS, "Bandwidth allocation gap in ms: at most one frame in it leaves the source."),
        number_key("smax", LEAST_FRAME, GREATEST_FRAME, f"Greatest frame that switches pass, in bytes, {COUNTED}."),
        choice_key("priority", ("high", "low"), "Priority at the output ports of switches."),
        number_key(
            "policing_jitter_ns", 0, SECOND_NS, "How much closer than one BAG frames may come to a switch, in ns."
        ),
        choice_key(
            "policing", ("bytes", "frames"),
            "Whether the account of a switch counts the bytes of frames, or each frame as one of smax bytes.",
            "none", "bytes",
        ),
        number_key(
            "skew_max_ns", 0, SECOND_NS, "How much later the second copy of a frame is still known as a copy, in ns."
        ),
        number_key("depth", 1, 1024, "How many frames may wait at the source, for each sub-virtual link."),
        number_key(
            "sub", 1, 4, "How many sub-virtual links take turns at the source; the offers go to them in turn.", "none", 1
        ),
        *STREAM_KEYS,
        paths_key(
            "a",
            "Paths on network A: one list of names for each destination, from the source by switches to the destination. "
            "May be empty where b is not.",
        ),
        paths_key("b", "Paths on network B."),
    ],
    "stream": [number_key("vl", 0, 65535, "Number of the virtual link to whose source it is offered."), *STREAM_KEYS],
}
SECTIONS = ["node", "link", "outage", "vl", "stream"]
