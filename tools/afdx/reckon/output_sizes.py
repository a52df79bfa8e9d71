"""How much a run prints and traces, by the count of its offers: so what `rt try` cannot pass on is known before it begins.

Each destination has a line of tables. Of each frame that leaves its source a trace has a line for each destination and network:
delivered, a second copy, or lost. It is reckoned as if none were lost, with six digits for a latency in ns.
"""
from fractions import Fraction

from afdx import model
from afdx.files.page_text import two_places
from afdx.files.program import NoProgram
from afdx.model import Network, VirtualLink

# What `rt try` passes on of each run, of standard output and of error output.
MOST = 2**20
DIGITS = 6


def frames_of(net: Network, vl: VirtualLink) -> tuple[int, int]:
    """How many frames of a virtual link are offered, and how many of them its regulator lets go."""
    # Those of a sporadic stream are counted as if none was late: what is drawn of one moves all behind it.
    count = lambda it: it.frames * it.count_due(net.until_ns) if it.is_sporadic else model.count_of_offers(net.seed, it, net.until_ns)
    offered = sum(map(count, vl.streams))
    first = min(it.offset_ns for it in vl.streams)
    return offered, min(offered, max(0, net.until_ns - first) // vl.bag_ns + 1)


def of_tables(net: Network) -> int:
    """The bytes of the tables."""
    found = len(model.TABLES_HEAD) + 1
    for vl in net.vls.values():
        _, sent = frames_of(net, vl)
        numbers = len(str(sent)) + 2 * DIGITS + len(str(sent * 10 ** (DIGITS - 1))) + 3
        found += sum(len(f"latency,{vl.id},{where},,") + numbers + 1 for where in vl.destinations)
    return found


def of_trace(net: Network) -> int:
    """The bytes of the trace."""
    found, moment = len(model.TRACE_HEAD) + 1, len(str(net.until_ns))
    for vl in net.vls.values():
        offered, sent = frames_of(net, vl)
        for where, networks in vl.destinations.items():
            found += sent * len(networks) * (moment + len(f",{where},{vl.id},delivered,") + DIGITS + 1)
        found += (offered - sent) * (moment + len(f",{vl.source},{vl.id},queue_full,") + 4)
    return found


def refused(what: str, size: int, remedy: str) -> NoProgram:
    """Why `rt try` is not begun."""
    return NoProgram(f"{what} would have some {two_places(Fraction(size, 2**20))} MiB, and `rt try` passes on 1 MiB: {remedy}")
