"""What the tools share: descriptions with the line of each key, the networks that they describe with paths and loads,
how offers are drawn, and tables. Traces are in tools/afdx/model/traces.py.

    net = model.Network("net.toml")            # Fault where it is none, in one line with the file and the line
    tables = model.Tables("tables.csv", net)  # those that the program prints, or merged ones

None of this judges a description as the program does: `afdxsim check` does, and afdx explain prints all its faults.

This file has the names that other packages use; each stands in a file of its idea.
"""
from afdx.files import Fault, is_same_file, text_of  # noqa: F401
from afdx.files.program import PROGRAM  # noqa: F401
from afdx.model.csv_lines import BOUNDS_HEAD, TABLES_HEAD, TRACE_HEAD, lines_of, read_lines  # noqa: F401
from afdx.model.description import Description, Place, checksum, line_of_refusal, place_text, text_of_tree, written  # noqa: F401
from afdx.model.drawn_offers import Offer, Stream, count_of_offers, drawn_offset, offers, stream_of, streams_of, words  # noqa: F401
from afdx.model.keys import (  # noqa: F401
    BAGS_MS, COUNTED, GREATEST_FRAME, GREATEST_SEED, KEYS, LATEST_NS, LEAST_FRAME, MOST_DESTINATIONS, MOST_NODES_OF_A_PATH, MOST_OUTAGES,
    MOST_PORTS, MOST_PROCESSES, MOST_STREAMS, SECTIONS, STREAM_KEYS, Key,
)
from afdx.model.network import BYTES_BETWEEN_FRAMES, Network  # noqa: F401
from afdx.model.network_parts import Link, Node, Outage, VirtualLink, lines_of_path  # noqa: F401
from afdx.model.numbers import NUMBER, whole, whole_number  # noqa: F401
from afdx.model.tables import CAUSES, Latency, Loss, Tables  # noqa: F401
