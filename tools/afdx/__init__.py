"""`import afdx`: networks of AFDX that are read, changed, checked, run and written. docs/PYTHON.md shows it by examples.

    net = afdx.read("net.toml")
    net.vl[101].bag_ms = 8
    net.write("new.toml")
    net.seq().latency(101, "DU_R").greatest

What it gives is `afdx.facade`, read when it is first asked for, since the commands do without it. The tools are in layers; each
imports those above it in this list alone:

    files      files as they are read and written, TOML with lines, tables as CSV and workbooks, who made a file
    model      descriptions and the networks that they describe, offers, tables, traces, what is wrong with a description
    document   descriptions made of documents, row by row
    reckon     worst-case bounds, limits and margins, what became of each frame
    runs       runs of the program, of the second opinion and of a campaign
    page       the page of a run and its drawings
    commands   the commands of `afdx`
    facade     what `import afdx` gives
"""
import importlib
from typing import TYPE_CHECKING, Any

if TYPE_CHECKING:
    from afdx.facade import (
        Bound, Bounds, Checked, Fault, Latency, Link, Loss, Network, Node, NoProgram, NotThere, Outage, Remark, Row, Rows, Run, Stream,
        VirtualLink, read,
    )

__version__: str

__all__ = [
    "Bound", "Bounds", "Checked", "Fault", "Latency", "Link", "Loss", "Network", "Node", "NoProgram", "NotThere", "Outage", "Remark", "Row",
    "Rows", "Run", "Stream", "VirtualLink", "read",
]

if not TYPE_CHECKING:

    def __getattr__(name: str) -> Any:
        """A name of the facade, which is imported when the first one is asked for; and the number of the version."""
        if name == "__version__":
            return importlib.import_module("afdx.files.program").version()
        if name in __all__:
            return getattr(importlib.import_module("afdx.facade"), name)
        raise AttributeError(f"module 'afdx' has no attribute {name!r}")

    def __dir__() -> list[str]:
        return sorted({*globals(), *__all__})
