"""Which links a capture was taken at: each interface with the lines of the network that it taps."""
from typing import NamedTuple

from afdx.files import Fault, cut
from afdx.model import Network
from afdx.model.findings import meant


class Place(NamedTuple):
    """What an interface taps: its lines, and whether that are all lines of an end system."""

    lines: tuple[str, ...]
    is_end_system: bool


def place_of(net: Network, text: str) -> Place | None:
    """The place that a text names: a line, as SW1>ES2, lines with commas between, or an end system; None where NET has it not."""
    if text in net.nodes:
        if net.nodes[text].kind != "es":
            return None
        return Place(tuple(line for line in net.mbit if text in line.split(">")), True)
    lines = tuple(it.strip() for it in text.split(","))
    return Place(lines, False) if all(line in net.mbit for line in lines) else None


def given(net: Network, words: list[str]) -> dict[str, Place]:
    """The places of the words of --tap, NAME=PLACE, by the names of interfaces; a place without a name is that of all others."""
    found: dict[str, Place] = {}
    for word in words:
        name, _, text = word.rpartition("=")
        place = place_of(net, text)
        if place is None:
            raise Fault(net.path, None, why_not(net, text))
        before = found.get(name)
        found[name] = place if before is None else Place((*before.lines, *place.lines), before.is_end_system and place.is_end_system)
    return found


def why_not(net: Network, text: str) -> str:
    """Why a text of --tap names no place, with what to write."""
    if text in net.nodes:
        lines = [line for line in net.mbit if line.split(">")[1] == text][:3]
        return f"{text} is a switch, and a tap is a link of it and a direction: {', '.join(lines)}, .."
    for line in (it.strip() for it in text.split(",")):
        if line not in net.mbit:
            known = [*net.mbit, *(it.name for it in net.nodes.values() if it.kind == "es")]
            return f"{cut(line)} is no line and no end system of it{meant(line, known)}. A tap is a link and its direction, as --tap eth0=\"SW1>ES2\""
    return f"{cut(text)} names no place"
