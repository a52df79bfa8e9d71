"""What the interface control document of a description calls its virtual links and nodes, as comments behind the heads of rows say
that afdx table has written: `# name Air data`, `# message ADIRU status`, `# port P12`, `# document_name DU Left`."""
from collections.abc import Iterable

from afdx.model.network import Network
from afdx.model.to_tables import AT, comments_behind

# The comments of a virtual link that say what it is called.
OF_VL = ("name", "message", "port")


class DocumentNames:
    """The names of a document: `vls` has those of each virtual link that has some, by kind, and `nodes` the name of each node
    that the document calls otherwise."""

    def __init__(self, net: Network) -> None:
        self.vls: dict[int, dict[str, str]] = {}
        self.nodes: dict[str, str] = {}
        if not any(f"\n# {kind} " in net.text for kind in (*OF_VL, "document_name")):
            return
        lines = net.text.split("\n")
        for vl in net.vls.values():
            own: dict[str, list[str]] = {}
            heads = [net.description.line(stream.section, stream.row) for stream in vl.streams]
            for kind, text in (it for head in heads for it in comments_behind(lines, head, OF_VL)):
                own.setdefault(kind, []).append(without_destinations(text, vl.destinations))
            if own:
                self.vls[vl.id] = {kind: "; ".join(dict.fromkeys(own[kind])) for kind in OF_VL if kind in own}
        for i, name in enumerate(net.nodes, 1):
            for _, text in comments_behind(lines, net.description.line("node", i), ("document_name",)):
                self.nodes[name] = text

    def name(self, vl: int) -> str:
        """The name of a virtual link, or else its message or its port, or nothing."""
        found = self.vls.get(vl, {})
        return next((found[kind] for kind in OF_VL if kind in found), "")

    def cells(self, vl: int) -> list[str]:
        """Name, message and port of a virtual link, each empty where there is none."""
        return [self.vls.get(vl, {}).get(kind, "") for kind in OF_VL]

    def node_of(self, text: str) -> str | None:
        """The node that a document calls so, or None."""
        plain = " ".join(text.split())
        return next((node for node, name in self.nodes.items() if name == plain), None)


def without_destinations(text: str, destinations: Iterable[str]) -> str:
    """The text of a comment without the destinations that it is of."""
    end = AT.fullmatch(text)
    return end[1] if end and set(end[2].split(" ")) <= set(destinations) else text
