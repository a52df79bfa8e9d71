"""What `import afdx` gives: networks that are read, changed, checked, run and written. docs/PYTHON.md shows it by examples.

    net = afdx.read("net.toml")              # Network; Fault where it is no TOML
    net.vl[101].bag_ms = 8
    net.write("new.toml")                    # all else stays as it was written, comments too
    net.seq().latency(101, "DU_R").greatest  # Run, Latency
    net.bounds().latency(101, "DU_R")        # Bounds, Bound

It stands on the commands, whose files do the work; `afdx/__init__.py` hands on the names.
"""
from afdx.facade.bounds import Bound, Bounds  # noqa: F401
from afdx.facade.network import Checked, Network, Remark, read  # noqa: F401
from afdx.facade.rows import Link, Node, Outage, Row, Rows, Stream, VirtualLink  # noqa: F401
from afdx.facade.run import Run  # noqa: F401
from afdx.facade.tabled import NotThere  # noqa: F401
from afdx.files import Fault  # noqa: F401
from afdx.files.program import NoProgram  # noqa: F401
from afdx.model import Latency, Loss  # noqa: F401
