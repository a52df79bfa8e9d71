#!/usr/bin/env python3
"""Prints worst-case bounds of a network as CSV: of the latency of each virtual link at each destination, and of the
bytes that wait at each output port.

The numbers are those of the program (`afdxsim bounds`) where the program is there and has one: it is proved that no frame
of a run is later (docs/BOUNDS.md). This tool computes its own beside them, in columns that end in `_tool`, and they stand
alone where the program has none. bound_by states whose number each bound is.

The tool computes by network calculus from the description, in whole numbers, with the rules of docs/TRAFFIC.md, outside
the proofs. It claims nothing of real equipment. Tests compare it with runs: no latency of a run may be above its bound.
Such a case is a defect of one of the two.

A bound holds for all offsets, seeds and lengths of a run; those of the tool with the outages that NET has. It covers the
time from the offer of a frame to its whole arrival at the destination, for each frame that is delivered, by whichever
network. That is the wait in the regulator (wait_ns), and the longest way from the release on. Of the offers it uses the
size alone, and for wait_ns also the period and the jitter: from its release on, a virtual link may send a frame in each
BAG.
"""
import argparse
import os
import sys
import time

from afdx import files, model
from afdx.model import description_faults, long_form
from afdx.model.document_names import DocumentNames
from afdx.reckon import fit, junit, limits, margins, network_calculus
from afdx.reckon.bounds_rows import BoundsRows, long_rows
from afdx.reckon.proved_bounds import ProvedBounds
from afdx.runs import program_bounds

EXAMPLES = """
examples:
  afdx bounds net.toml > bounds.csv
        all bounds of a network; afdx report --bounds bounds.csv shows them beside the latencies of a run
  afdx bounds net.toml -o bounds.csv --limits limits.csv --strict --junit limits.xml
        for a build server: the margins, the least first, and the status 1 if a limit is below its bound

  afdx bounds net.toml --by second-opinion > tool.csv
        the bounds of the tool alone
  afdxsim bounds net.toml > proved.csv; afdx bounds net.toml --proved proved.csv --limits limits.csv --strict
        compares the limits with the bounds that the program printed elsewhere

  afdx bounds net.toml --fit fitted.toml
        net.toml with policing jitters and port bytes that are just enough for the worst case; the rest of it, comments
        too, stays. Standard output has each of these values before and after

columns (later versions may add others, so read them by their names):
  vl,where     a virtual link and a destination; or a virtual link and a switch, for its account there; or a virtual
               link and a line, for its hop there; or no virtual link, and the line that an output port feeds
  bound_ns     the greatest latency that a frame may have at the destination, in ns, or none
  bound_by     who bound_ns, wait_ns and network_ns, or waiting_bytes are by: `program` (afdxsim bounds) or `tool`
  bound_ns_tool, wait_ns_tool, network_ns_tool, waiting_bytes_tool  the same by this tool. Of a virtual link on two
               networks the program bounds the later of the two copies, and the tool often the earlier one
  contract_ns  the bound that holds whatever other end systems send (afdxsim bounds --contract), or none. The column is
               there if the program prints such. --limits goes by it if NET states smax of each virtual link
  wait_ns      how much of it is the wait in the regulator, in ns
  waiting_bytes  the greatest sum of the sizes of the frames that wait at the output port, in bytes, or none
  port_bytes   how many may wait there, in bytes. If this is less, frames may be lost
  why          why there is no bound
  sure         the networks by which each frame reaches the destination in the worst case: A, B, AB, or none of them
  skew_ns      the longest time between the two copies of a frame at the destination, in ns, or none
  skew_max_ns  how much later the second copy is still known as a copy, in ns
  jitter_ns    by how much frames may come to the switch closer than a BAG, in ns, or none
  policing_jitter_ns  how much of it the account there allows, in ns
  warning      what may go wrong in the worst case, with blanks between: the account may_refuse a frame; at the
               destination neither network is sure (not_sure); the second copy of a frame may come so late that it is
               delivered_twice; the port is too_small; the transmit_jitter is longer than allowed, or the sum of the rule
               above 500 us
  network_ns   how much of bound_ns the network takes: bound_ns less wait_ns, or none
  network_a_ns, network_b_ns  the longest time from the release of a frame to its arrival at the destination by this
               network alone, in ns, or none
  delay_ns     the longest time from the arrival of a frame at the output port before the line to its last bit on the
               line, in ns, or none
  transmit_jitter_ns  of a line by which an end system sends: the longest time from the release of a frame to its first bit,
               in ns, or none
  transmit_rule_ns  what ARINC 664 Part 7 sets beside it: 40 us + the sum over the virtual links of the line of
               (20 + Smax) * 8 bits by its speed, in ns. A jitter is allowed up to this, and up to 500 us
  description  checksum of the description: the first 16 digits of its SHA-256
  program      who computed the bounds: the program with its version, commit and SHA-256, and this tool, with + behind
               a commit if files differed from it

There is no bound (none) of the tool; docs/BOUNDS.md has when the program has none
  if a line of the way may receive more than it can send, by the BAGs of the virtual links. If only its frames of low
    priority are too many, it has bounds for those of high priority;
  if bursts grow round a circle of lines, each of which delays what the next one receives;
  if no frame of a virtual link arrives: its frames are longer than its smax.

By the tool a virtual link on both networks has the lesser of the two bounds only if no copy can be lost on that network and no copy
of the other can come so late that it counts as a new frame (skew_max_ns); else it has the greater.

status:
  0  the bounds are written, also if there are none, and whatever they warn of
  1  with --strict a limit is below its bound, or has none; with --fit a value stays, since it cannot be worked out: error
     output has its line and why, and FILE is written
  2  a word is wrong, a file cannot be read or written, or `afdxsim` would refuse NET: one line on error output says why
"""


def accepted(path: str) -> model.Network:
    """The network of a description that `afdxsim` accepts."""
    net = model.Network(path)
    fault = min(description_faults.Judge(net.description).findings, key=description_faults.rank, default=None)
    if fault:
        raise model.Fault(path, fault.line, f"{fault.who} {fault.text}")
    return net


def words_of(arguments: list[str] | None = None) -> argparse.Namespace:
    parser = argparse.ArgumentParser(
        prog="afdx bounds", description=__doc__, epilog=EXAMPLES, formatter_class=argparse.RawDescriptionHelpFormatter
    )
    parser.add_argument("net", metavar="NET", help="the description (TOML)")
    parser.add_argument("-o", "--output", metavar="FILE", type=files.output_name, help="the file for the bounds (default: standard output)")
    parser.add_argument("--json", action="store_true", help="writes JSON in long form (docs/TOOLS.md, section 7) in place of CSV")
    says = "holds limits against the bounds: standard output has the margins, in place of the bounds"
    parser.add_argument("--limits", metavar="FILE", help=says + "; NET itself for its comments")
    parser.add_argument("--program", metavar="PATH", help="the program whose bounds are printed (afdx finds the proved one by itself)")
    parser.add_argument("--proved", metavar="FILE", help="what `afdxsim bounds NET` printed, in place of a program")
    parser.add_argument("--strict", action="store_true", help="the status is 1 if a limit is below its bound, or has none")
    parser.add_argument("--junit", metavar="FILE", help="writes what became of each limit as JUnit's XML")
    says = "writes NET there with policing_jitter_ns and port_bytes by the bounds, all else as it is, in place of bounds"
    parser.add_argument("--fit", metavar="FILE", type=files.output_name, help=says)
    words = parser.parse_args(arguments)
    if words.fit and (words.output or words.json or words.limits or words.proved):
        parser.error("--fit writes a description, and no bounds: call afdx bounds of it")
    if words.program and words.proved:
        parser.error("--proved has what a program printed, and --program runs one: give one of them")
    if (words.strict or words.junit) and not words.limits:
        parser.error("--strict and --junit are about limits, and there are none: --limits FILE")
    return words


def write_fitted(net: model.Network, path: str) -> int:
    """Writes the description with the values that fit, and answers the status."""
    proposed = fit.proposals(net)
    files.write_all({path: fit.replaced(net.text, proposed)}, prints=True)
    files.write_out(fit.table(proposed))
    stays = [it for it in proposed if it.after is None]
    for it in stays:
        line = net.description.line(it.section, it.row, it.key)
        who = f"virtual link {it.name}" if it.section == "vl" else it.name
        files.report("afdx bounds", model.Fault(net.path, line, f"{who}, {it.key} stays {it.before}: {it.why}"))
    return 1 if stays else 0


@files.tool("afdx bounds")
def main(arguments: list[str] | None = None) -> int:
    begin, words = time.monotonic(), words_of(arguments)
    net = accepted(words.net)
    files.ready(list(filter(None, [words.output, words.junit, words.fit])), prints=not words.output or bool(words.limits))
    if words.fit:
        return write_fitted(net, words.fit)
    found = with_program(words, net)
    held = margins.margins_of(limits.limits_of(words.limits, net), net, bounds=found) if words.limits else []
    files.judge(list(filter(None, [words.output, words.junit])), prints=not words.output or bool(words.limits))
    pieces = [long_form.text_of(long_rows(found.rows()))] if words.json else found.pieces()
    if words.output:
        files.write_pieces(words.output, (piece.encode("utf-8", "backslashreplace") for piece in pieces))
    elif not words.limits:
        for piece in pieces:
            files.write_out(piece)
    if not words.limits:
        return 0
    names = DocumentNames(net)
    if words.junit:
        seconds = time.monotonic() - begin
        files.write_whole(words.junit, junit.text_of(held, words.strict, os.path.basename(words.net), names, seconds))
    files.write_out(margins.text_of(held, names))
    return 1 if margins.has_failed(held, words.strict) else 0


def with_program(words: argparse.Namespace, net: model.Network) -> BoundsRows:
    """The bounds of the tool, and those of the program if one is named."""
    if words.proved:
        return BoundsRows(network_calculus.Bounds(net), ProvedBounds(words.proved, net))
    printed = program_bounds.bounds_of(words.program, net) if words.program else None
    if words.program and printed is None:
        files.report("afdx bounds", f"{words.program} has no command `bounds`: all numbers are those of the tool")
    found = network_calculus.Bounds(net)
    return BoundsRows(found, printed.proved, printed.contract) if printed else BoundsRows(found)


if __name__ == "__main__":
    sys.exit(main())
