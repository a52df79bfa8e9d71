"""Policing jitters and bytes of ports that are just enough for the worst case, by afdx bounds, written into the text of a
description: all else in it stays, comments and layout too.

A policing jitter is the least by which no account of the virtual link refuses a frame, in whole us. The bytes of a node are
the most that may wait at one of its ports, and room for the longest frame at the least. Both are worked out as if no account
refused anything: what is cut by a tight account would hide how late frames come.
"""
import copy
from collections.abc import Callable, Iterable, Iterator
from typing import Any, NamedTuple

from afdx import model
from afdx.files import toml_edits, toml_lines
from afdx.model import Network, VirtualLink
from afdx.reckon import network_calculus


class Proposal(NamedTuple):
    """A value that is proposed: the section, the row from 1, its name or number, the key, what it is and what it is to be. If
    there is none, `after` is None, and `why` says why."""

    section: str
    row: int
    name: str | int
    key: str
    before: int
    after: int | None
    why: str


POLICING, PORT = "policing_jitter_ns", "port_bytes"
MOST = {key.name: key.limits()[1] for section in ("vl", "node") for key in model.KEYS[section] if key.name in (POLICING, PORT)}
STEP_NS = 1000


def relaxed(net: Network) -> tuple[network_calculus.Bounds, dict[int, str]]:
    """The bounds where no account refuses a frame, and the virtual links that keep their policing jitter, since without it
    there is no bound of how they come to a switch: each with that switch."""
    kept: dict[int, str] = {}
    while True:
        free = copy.copy(net)
        free.vls = {number: vl if number in kept else vl._replace(policing_ns=MOST[POLICING]) for number, vl in net.vls.items()}
        found = network_calculus.Bounds(free)
        more = {vl: switch for vl, switch in found.accounts() if vl not in kept and found.jitter(vl, switch) is None}
        if not more:
            return found, kept
        kept |= more


def least_policing(vl: VirtualLink, spread: int) -> int:
    """The least policing jitter in whole us by which an account never refuses frames that come closer than a BAG by this much."""
    size = vl.smax if vl.policing == "frames" else max(size for size in vl.sizes if size <= vl.smax)
    needed = max(0, -(-size * (vl.bag_ns + spread) // vl.smax) - vl.bag_ns)
    return -(-needed // STEP_NS) * STEP_NS


def of_policing(net: Network, found: network_calculus.Bounds, kept: dict[int, str]) -> Iterator[Proposal]:
    """What is proposed for each virtual link that comes to an account."""
    spreads: dict[int, list[Any]] = {}
    for number, switch in found.accounts():
        spreads.setdefault(number, []).append(found.jitter(number, switch))
    for vl in net.vls.values():
        propose: Callable[[int | None, str], Proposal] = lambda after, why: Proposal("vl", vl.row, vl.id, POLICING, vl.policing_ns, after, why)
        if vl.id in kept:
            yield propose(None, f"without it there is no bound of how frames come to {kept[vl.id]}")
        elif vl.id in spreads:
            after = max(least_policing(vl, spread) for spread in spreads[vl.id])
            yield propose(after, "") if after <= MOST[POLICING] else propose(None, f"it would be {after}, and {MOST[POLICING]} is the most")


def of_ports(net: Network, found: network_calculus.Bounds) -> Iterator[Proposal]:
    """What is proposed for each node from which frames are sent."""
    most: dict[str, list[tuple[Any, str]]] = {}
    for line, port in found.ports.items():
        most.setdefault(port.node.name, []).append((port.most, line))
    for row, node in enumerate(net.nodes.values(), 1):
        propose: Callable[[int | None, str], Proposal] = lambda after, why: Proposal("node", row, node.name, PORT, node.port_bytes, after, why)
        endless = [line for bytes_, line in most.get(node.name, ()) if bytes_ is None]
        if endless:
            yield propose(None, f"there is no bound of what waits at {endless[0]}: {found.ports[endless[0]].why}")
        elif node.name in most:
            after = max(model.GREATEST_FRAME, *(bytes_ for bytes_, _ in most[node.name]))
            yield propose(after, "") if after <= MOST[PORT] else propose(None, f"it would be {after}, and {MOST[PORT]} is the most")


def proposals(net: Network) -> list[Proposal]:
    """What is proposed, in the order of the description."""
    found, kept = relaxed(net)
    return [*of_ports(net, found), *of_policing(net, found, kept)]


def replaced(text: str, proposed: Iterable[Proposal]) -> str:
    """The text of a description with the values that are proposed in place of those that differ."""
    reader = toml_lines.Reader(text, (POLICING, PORT))
    tree = reader.document()
    edits: list[toml_edits.Edit] = []
    for it in proposed:
        if it.after is not None and it.after != it.before:
            place = reader.places[id(tree[it.section][it.row - 1]), it.key]
            edits.append(toml_edits.value(text, place, toml_edits.number(text, place, it.after)))
    return toml_edits.edited(text, edits)


HEAD = "section,name,key,before,after,why"


def table(proposed: Iterable[Proposal]) -> str:
    """What is proposed as CSV: what stays since it cannot be worked out has `after` empty."""
    lines = [",".join(map(str, (it.section, it.name, it.key, it.before, "" if it.after is None else it.after, it.why.replace(",", ";")))) for it in proposed]
    return "\n".join([HEAD, *lines]) + "\n"
