"""Makes a page of one run, for a browser or a printer: which frames were lost end to end, the network with the load of
each line, the latency of each virtual link at each destination, and which copies were lost where and why.

NET is the description and TABLES what `afdxsim seq NET` printed for it. TABLES may also be the merged tables of
afdx campaign; then the page names the seed of each greatest latency. With the trace of the same run
(`afdxsim seq NET --trace FILE`) the page also has a histogram and percentiles for each virtual link and destination,
and the losses over time; and it separates what was under way at the end from what was lost.

The page is one file. It needs no connection and no other file. Search for a virtual link by its number or by a name:
the drawing highlights its path, and an address of its own, as report.html#vl-101, leads there. A click on a line shows
which virtual links use it (report.html#line-SWA>DU). A table of more than 15 lines first shows the ten worst. A click
on the name of a column sorts. Printed, the page has the lines that it shows. Of more than 20,000 lines of latencies it
has the histograms of the worst 20,000.
"""
import argparse
import os
import sys
import time

from afdx import files, model
from afdx.page.given import Given, given_by
from afdx.page.html_page import Page
from afdx.reckon import junit, margins
from afdx.runs import worst_frames

EXAMPLES = """
examples:
  afdxsim seq net.toml > tables.csv
  afdx report net.toml tables.csv -o report.html
        the page of one run; open report.html in any browser
  afdxsim seq net.toml --trace trace.csv > tables.csv
  afdx report net.toml tables.csv --trace trace.csv -o report.html
        the same with histograms, percentiles and the losses over time
  afdx bounds net.toml > bounds.csv
  afdx report net.toml tables.csv --limits limits.csv --bounds bounds.csv -o report.html
        the same with the limit, the worst-case bound and the margin of each destination
  afdx report net.toml after.csv --against before.csv -o report.html
        what became slower, faster, or was lost, sorted by how much
  afdx second-opinion net.toml --hops hops.csv > tables.csv
  afdx report net.toml tables.csv --hops hops.csv --bounds bounds.csv -o report.html
        the same with what was measured on the way, beside its bounds: each hop, jitter, skew, what waits
  afdx campaign net.toml --seeds 100 --offsets -o campaign
  afdx report net.toml campaign/merged.csv --seeds 100 --offsets -o report.html
        the page of a hundred runs together

limits.csv, a line for each destination that has a limit; a first line with the names of the columns may stand above:
  vl,destination,limit_ns
  101,DU_R,500000

what the numbers are:
  offered     the frames that the application offers until the end. They are drawn anew, as the program draws them
  missing     offered, and neither delivered nor under way at the end: lost end to end. A frame that came by one network
              alone is not missing. A frame is missing once for each destination that it did not reach
  under way   offered, not delivered, and it can still come: at the end it waits or is on a line. `3 to 4` means that
              tables alone leave it open; a trace shows more
  copies      those of a frame that go by network A and by network B. The second one to arrive is dropped as
              `duplicate`, which is ordinary
  load        what the virtual links of a line can put on it, from the description alone: each sends (size + 20) * 8
              bits in each max(BAG, period). 100 % is all that the link carries; above it frames are lost or late
  mean        the sum of the latencies / their number, to the nearest ns
  percentile  the least latency that this percentage of the frames does not exceed (the nearest rank)
  bound       the greatest latency that can be: by the program (afdxsim bounds) where the file of bounds has its number.
              Else by afdx bounds: a bound of this model, computed outside the proofs. The page says which
  margin      the limit less the bound; if no bounds are given, less the greatest latency. Red is a limit below the
              greatest latency, amber one below the bound, or one without a bound. The worst verdict comes first
  ten frames  fewer show little. For such a destination the page states how long the run must be for ten

status: 0; 1 if a latency is above its bound, or a limit is broken (with --strict also if one is below its bound, or
has none); 2 if a word is wrong, a file cannot be read or written, or a file is not what it has to be. One line on error
output then names the file and the line. The page is written to a file beside it, which takes its name once it is
whole; so an earlier page stays until then.
"""


# This many latencies above their bounds have a line each at most.
MOST_PRINTED = 10


def words_of(arguments: list[str] | None = None) -> argparse.Namespace:
    parser = argparse.ArgumentParser(
        prog="afdx report", description=__doc__, epilog=EXAMPLES, formatter_class=argparse.RawDescriptionHelpFormatter
    )
    add = parser.add_argument
    add("net", metavar="NET", help="the description (TOML)")
    add("tables", metavar="TABLES", help="the tables that the program printed for it, merged ones, or the folder of a campaign")
    add("--trace", metavar="FILE", help="the trace of the same run")
    add("--limits", metavar="FILE", help="the greatest latency that each destination may have; NET itself for its comments")
    add("--bounds", metavar="FILE", help="the worst-case bounds that afdx bounds printed for NET")
    # Of afdx page, which computes them at the same time.
    add("--bounds-come", action="store_true", help=argparse.SUPPRESS)
    add("--strict", action="store_true", help="the status is 1 also where a limit is below its bound, or has none")
    add("--junit", metavar="FILE", help="writes what became of each limit as JUnit's XML")
    add("--late", metavar="FILE", help="writes as CSV why the worst frames of broken and nearest limits are late, hop by hop")
    add("--hops", metavar="FILE", help="what afdx second-opinion --hops has measured in the same run")
    add("--against", metavar="FILE", help="the tables of another run, to compare this one with: before and after")
    add("--against-net", metavar="NET", help="the description of the other run (default: NET)")
    says = "of merged tables without the record of their campaign: how many seeds they have"
    add("--seeds", type=model.whole(1, 10**9), metavar="N", help=says)
    seed = model.whole(0, model.GREATEST_SEED)
    add("--first", type=seed, metavar="SEED", help="the first of them (default: that of NET)")
    add("--offsets", action="store_true", help="of merged tables: the campaign drew offsets")
    add("--against-bounds", metavar="FILE", help="the bounds of the other run's description: how bounds moved (with --bounds)")
    add("--date", metavar="TEXT", help="a date for the foot of the page, which else has none")
    add("--made-by", metavar="TEXT", help="who made the tables, for the foot of the page: the program, and whether it was proved")
    add("-o", "--output", metavar="FILE", required=True, help="the page to write (HTML)")
    words = parser.parse_args(arguments)
    if words.against_net and not words.against:
        parser.error("--against-net says of which network the tables of --against are, and there are none")
    if words.against_bounds and not (words.against and words.bounds):
        parser.error("--against-bounds are the bounds of the other run: it needs --against FILE and --bounds FILE")
    if (words.first is not None or words.offsets) and not words.seeds:
        parser.error("--first and --offsets describe the runs of a campaign, and --seeds their number")
    if words.junit and not words.limits:
        parser.error("--junit reports on limits, and none are given: --limits FILE")
    if words.late and not words.limits:
        parser.error("--late is of the worst frames of limits, and none are given: --limits FILE")
    if words.strict and not (words.limits and words.bounds):
        parser.error("--strict holds limits against bounds: it needs --limits FILE and --bounds FILE")
    return words


def report_above(given: Given) -> bool:
    """Prints the latencies above their bounds, and returns whether there are any."""
    bounds = given.bounds
    above = bounds.above(given.tables.latencies) if bounds else []
    for row, bound, by in above[:MOST_PRINTED]:
        of = f" by {margins.IN_WORDS[by]}," if by else ""
        text = f"virtual link {row.vl} at {row.where} took {row.greatest} ns, and its bound{of} is {bound} ns"
        files.report("afdx report", f"{text}: one of the two is wrong")
    if len(above) > MOST_PRINTED:
        files.report("afdx report", f"so are {len(above) - MOST_PRINTED:,} more latencies above their bounds")
    on_the_way = given.way.above() if given.way else 0
    if on_the_way:
        files.report("afdx report", f"{on_the_way:,} of what was measured on the way are above their bounds: one of the two is wrong")
    return bool(above or on_the_way)


@files.tool("afdx report")
def main(arguments: list[str] | None = None) -> int:
    begin, words = time.monotonic(), words_of(arguments)
    outputs: list[str] = list(filter(None, [words.output, words.junit, words.late]))
    files.ready(outputs, prints=bool(words.limits))
    given = given_by(words)
    held = list(given.margins.values())
    files.judge(outputs, prints=bool(words.limits))
    files.write_pieces(words.output, (piece.encode("utf-8", "backslashreplace") for piece in Page(given).pieces()))
    if words.junit:
        seconds = time.monotonic() - begin
        files.write_whole(words.junit, junit.text_of(held, words.strict, os.path.basename(words.net), given.names, seconds))
    if words.late:
        files.write_whole(words.late, worst_frames.csv_text(given.ways.found if given.ways else []))
    if words.limits:
        files.write_out(margins.text_of(held, given.names))
    is_above = report_above(given)
    return 1 if is_above or margins.has_failed(held, words.strict) else 0


if __name__ == "__main__":
    sys.exit(main())
