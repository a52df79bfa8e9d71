#!/usr/bin/env python3
"""A second opinion on the tables of a network: a plain simulator of one thread, which shares no code with the program.

It follows the rules of docs/TRAFFIC.md message by message, and prints the tables as `afdxsim seq` does; with --trace it
also writes the trace, and with --hops what it measured on the way. It needs Python alone, so use it if you want a table
within a second and the program is not built yet. It handles some 60,000 messages a second.
"""
import argparse
import sys
from collections.abc import Mapping
from typing import Any

from afdx import files, model
from afdx.model import Fault, description_faults, long_form
from afdx.runs.measured_hops import Measured
from afdx.runs.plain_simulator import Simulation

EXAMPLES = """
examples:
  afdx second-opinion net.toml
        the tables
  afdx second-opinion net.toml --trace trace.csv > tables.csv
        the tables and the trace, for afdx report
  afdx second-opinion net.toml --hops hops.csv > tables.csv
        the tables, and what was measured on the way: afdx report --hops shows it beside bounds
  afdx second-opinion net.toml | diff - tables.csv
        compares its tables with tables.csv of the program

what --hops measures, each with its count, least, greatest and sum (times in ns):
  wait       of a virtual link at its source: from the offer of a frame to its release by the regulator
  message    of a virtual link with bursts at a destination: from the offer of a message to its last frame. Frames that are
             offered at one moment are one message; it counts if all of them came
  network    at a destination: from the release to the delivery, which is the latency less the wait
  network_a, network_b  from the release to the arrival of a copy by this network, delivered or not
  skew       at a destination: from the arrival of the first copy to that of the second
  delay      on a line: from the arrival of a frame at the output port before it to its last bit on the line
  jitter     at a switch: by how much frames of a virtual link come closer than a BAG, counted from any earlier one
  backlog    before a line: how many bytes of frames wait at the output port, whenever a frame comes there

status: 0; 2 if a word is wrong, a file cannot be read or written, or the description is not accepted. One line on
error output then names the file and the line; afdx explain prints all faults of a description.
"""

# More offers would not fit into memory, and take some hours.
MOST_OFFERS = 20_000_000


def small_enough(description: model.Description) -> Mapping[str, Any]:
    """The table that a description is, or a fault where it has more offers than this simulator can take."""
    until, streams = description.tree["until_ns"], model.streams_of(description.rows("vl"), description.rows("stream"))
    count = sum(it.count_due(until) * it.frames for ones in streams.values() for it in ones)
    if count > MOST_OFFERS:
        line, text = description.line("top", None, "until_ns"), f"{count:,} frames would be offered until the end, and"
        raise Fault(description.path, line, f"{text} this simulator takes {MOST_OFFERS:,}")
    return description.tree


@files.tool("afdx second-opinion")
def main(arguments: list[str] | None = None) -> None:
    parser = argparse.ArgumentParser(
        prog="afdx second-opinion", description=__doc__, epilog=EXAMPLES, formatter_class=argparse.RawDescriptionHelpFormatter
    )
    parser.add_argument("net", metavar="NET", help="the description (TOML)")
    parser.add_argument("--trace", metavar="FILE", help="writes the trace to this file")
    parser.add_argument("--hops", metavar="FILE", help="writes what was measured on the way to this file")
    parser.add_argument("--json", action="store_true", help="prints the tables as JSON in long form (docs/TOOLS.md, section 7)")
    parser.add_argument("--events", action="store_true", help="prints on error output how many messages were handled")
    words = parser.parse_args(arguments)
    description = description_faults.accepted(words.net)
    net = small_enough(description)
    written = [path for path in (words.trace, words.hops) if path]
    files.ready(written, prints=True)
    measured = Measured(net) if words.hops else None
    simulation = measured or Simulation(net)
    simulation.run()
    text_of = lambda lines: "".join(line + "\n" for line in lines)
    texts = {words.trace: text_of(simulation.trace())} if words.trace else {}
    files.write_all(texts | ({words.hops: text_of(measured.hops())} if measured else {}))
    tables = text_of(simulation.tables())
    if words.json:
        found = model.Tables("tables", model.Network(words.net, description=description), tables)
        tables = long_form.text_of(long_form.rows_of_tables(found.latencies.values(), found.losses.values()))
    files.write_out(tables)
    if words.events:
        print(simulation.handled, "events", file=sys.stderr)


if __name__ == "__main__":
    sys.exit(main())
