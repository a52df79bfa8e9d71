#!/usr/bin/env python3
"""Judges a capture of a bench (pcap or pcapng) against a description: the reverse of afdx pcap.

Each interface of CAPTURE is a tap: a link of NET and its direction, or an end system, whose links it taps in both directions. An interface
that has the name of one is that tap; --tap names others. For each virtual link at each tap it judges lengths, spacing and sequence
numbers, and finds frames that should not be there. Between taps it judges skew and latency.
"""
import argparse
import os
import sys
import time

from afdx import files, model
from afdx.files.captures import Capture
from afdx.model import description_faults, long_form
from afdx.page.capture_page import CapturePage
from afdx.reckon import bounds_file, bounds_reader, capture_notes, capture_rows, capture_verdicts, network_calculus, tap_places
from afdx.reckon.capture_judge import CaptureJudge
from afdx.reckon.tap_limits import Bounds, TapLimits

# How the name of a page ends.
PAGE = ".html"

EXAMPLES = """
examples:
  afdx judge net.toml bench.pcapng --tap eth0="ADC>SW_A" --tap eth1="SW_A>DU_L" --tap eth2="SW_B>DU_L"
        the link and the direction of each interface
  afdx judge net.toml bench.pcap --tap "SW_A>DU_L"
        of a file of one interface; a place without a name is that of all interfaces that have no other
  afdx judge net.toml bench.pcapng --tap eth0=DU_L --one-clock --junit judged.xml > judged.csv
        eth0 sees all links of the end system DU_L, in both directions
  afdx bounds net.toml -o bounds.csv && afdx judge net.toml bench.pcapng --bounds bounds.csv
        by bounds that are there already, or of the program; else it computes those of afdx bounds
  afdx judge net.toml bench.pcapng -o judged.csv -o judged.html
        the page, too: the verdicts, and the network with a mark on each tapped line; open it in any browser

what it judges (`what`), of each virtual link and network (A, B) at each tap:
  unknown        NET has no such virtual link
  wrong way      NET has it, and not on this link
  wrong network  the source address names another network than that of the link. At an end system on both networks, whose numbers
                 lack on one and come twice on the other
  length         the greatest length in bytes, with the check sequence and without VLAN tags; allowed is smax
  spacing        by how many ns a frame came closer than a BAG, counted from any earlier one. Allowed is the bound of the jitter
                 there, with the transmit jitter that ARINC 664 Part 7 allows the source where that is more. A frame that is
                 too early does not count for those behind it. Clocks may be wrong by 100 ppm
  lost, repeated, swapped, reset
                 by sequence numbers; `sequence` is kept where there is none of these
  skew           at a destination, between both copies of a frame; allowed is skew_max_ns
  latency        from one tap to a later one; allowed is the sum of the bounds between
  silent         no frame came, though others did on this line

verdicts: broken; not known; allowed, where the description itself lets it happen, as a frame lost in an outage or at a port that
was full; kept.
packet is the number of the packet that shows it, as Wireshark has it.

clocks: each interface has its own, unless --one-clock says that all have one. A frame takes at least what the model allows,
so frames that pass two taps limit how far one clock is ahead of the other. Skew and latency between two clocks have a verdict
only if frames pass both in both directions, and `why` states the offset. Where no constant one fits, each second has its own.
A clock that runs back is no verdict of spacing: one line names the tap and the packet, and judging begins anew behind it.

status: 0; 1 if something is broken; 2 if a word is wrong, a file cannot be read or written, the description is not accepted,
CAPTURE is no capture, or no interface of it is a tap of NET. One line on error output then states what to do. Of a capture that
is cut it judges what is whole, and prints one line.
"""


def words_of(arguments: list[str] | None) -> argparse.Namespace:
    parser = argparse.ArgumentParser(
        prog="afdx judge", description=__doc__, epilog=EXAMPLES, formatter_class=argparse.RawDescriptionHelpFormatter
    )
    add = parser.add_argument
    add("net", metavar="NET", help="the description (TOML)")
    add("capture", metavar="CAPTURE", help="the capture (pcap or pcapng)")
    add("--tap", action="append", default=[], metavar="NAME=PLACE", help="what an interface taps: a line, as SW1>ES2, or an end system")
    add("--one-clock", action="store_true", help="all interfaces have one clock")
    add("--bounds", metavar="FILE", help="the worst-case bounds that afdx bounds printed for NET")
    add("--json", action="store_true", help="prints JSON in long form in place of CSV (docs/TOOLS.md, section 7)")
    add("--junit", metavar="FILE", help="writes the verdicts as JUnit's XML")
    says = "the file to write (default: standard output); a page for a browser if its name ends in .html. May be given for both"
    add("-o", "--output", action="append", metavar="FILE", type=files.output_name, help=says)
    words = parser.parse_args(arguments)
    words.output = words.output or [None]
    words.pages = [path for path in words.output if path and path.endswith(PAGE)]
    words.tables = [path for path in words.output if path not in words.pages]
    if words.json and not words.tables:
        parser.error("--json is of the rows, and -o names a page alone")
    return words


def bounds_made_by(bounds: Bounds) -> str | None:
    """Who made bounds, where their file states it."""
    return bounds.made_by if isinstance(bounds, bounds_file.Bounds) else None


@files.tool("afdx judge")
def main(arguments: list[str] | None = None) -> int:
    begin, words = time.monotonic(), words_of(arguments)
    net = model.Network(words.net, description=description_faults.accepted(words.net))
    given = tap_places.given(net, words.tap)
    capture = Capture(words.capture)
    prints = None in words.tables
    files.ready([path for path in [*words.output, words.junit] if path], prints)
    bounds: Bounds = bounds_reader.read(words.bounds, net) if words.bounds else network_calculus.Bounds(net)
    judge = CaptureJudge(net, TapLimits(net, bounds), capture, given, words.one_clock)
    judge.read()
    rows = capture_verdicts.rows_of(judge)
    text = long_form.text_of(capture_rows.long_rows(rows)) if words.json else capture_rows.text_of(rows)
    texts = {path: text for path in words.tables if path}
    texts |= {path: CapturePage(judge, rows, bounds_made_by(bounds)).text() for path in words.pages}
    if words.junit:
        texts[words.junit] = capture_rows.junit_text(rows, os.path.basename(words.net), time.monotonic() - begin)
    files.write_all(texts, prints)
    if prints:
        files.write_out(text)
    for note in capture_notes.notes(judge, rows):
        files.report("afdx judge", note)
    files.report("afdx judge", capture_notes.summary(judge, rows))
    return 1 if capture_rows.has_failed(rows) else 0


if __name__ == "__main__":
    sys.exit(main())
