"""Makes the tables of docs/QUALIFICATION.md: for each rule of docs/TRAFFIC.md its definition, its contract and its test.

    python3 -m gate.qualification            in tools/: prints what is wrong with the tables, or that all names exist
    python3 -m gate.qualification --write    puts the tables into docs/QUALIFICATION.md, between the marks there

RULES has the data. `check` compares them with the sources: each rule of TRAFFIC has a line, and each file, definition,
function, clause, edit and row that a line names exists. tools/tests/test_qualification.py checks both, and the document.
"""
import argparse
import os
import re
import sys
from typing import NamedTuple

from afdx import files

TOP = os.path.normpath(os.path.join(os.path.dirname(os.path.abspath(__file__)), "..", ".."))
DOCUMENT = os.path.join(TOP, "docs", "QUALIFICATION.md")
TRAFFIC = os.path.join(TOP, "docs", "TRAFFIC.md")
CHANGES = os.path.join(TOP, "CHANGELOG.md")
MARK = "<!-- by tools/gate/qualification.py --write: {} -->\n\n", "\n\n<!-- to here -->"

ELEMENTS = "element_rows/src/tests/elements.rt"
NODES = "element_rows/src/tests/node_rows.rt"
STREAMS = "tools/tests/rows/stream_tables.txt"


class Rule(NamedTuple):
    """A rule of TRAFFIC. `defined` has files of specs/ with names; `carried` files of src/ with a public function and its
    clauses, or with a type that implements `reverse::Reversible`, or `reverse::Actor` too; `shown` edits by their paths, and rows by their files with
    a piece of their text. `against` states, for a rule marked [profile], how it stands to ARINC 664 Part 7."""
    number: str
    defined: tuple[str, ...]
    carried: tuple[str, ...]
    shown: tuple[str, ...]
    against: str = ""


class Requirement(NamedTuple):
    """An operational requirement of the tool: what it does, and the public functions with the clauses that carry it. What no
    contract carries has the file that does it, and its test."""
    number: str
    does: str
    carried: tuple[str, ...]


# Where the clauses of `apply` and of `handle` stand, for each type that implements the trait. The program calls `handle` of an
# actor, and `apply` of its elements.
REVERSIBLE = "reverse/src/reversible.rt", ("state", "answer", "saved")
ACTOR = "reverse/src/actor.rt", ("state", "messages", "notes", "saved")
ACTORS = ("Node",)

RULES = (
    Rule("1.1", ("vlink/specs/Moment.antt: greatest_moment",), ("vlink/src/time.rt: Time::ns (value, within)", "vlink/src/time.rt: moment_limits_law (greatest)"),
         ("tools/tests/rows/runs.txt: until_ns = 1000000000000000",),
         "Exact. A byte takes a whole number of ns, so nothing is rounded."),
    Rule("2.1", ("vlink/specs/Wire.antt: last_bit_after, busy_for",), ("vlink/src/frame.rt: FrameSize::new (within)", "vlink/src/wire.rt: busy_ns"),
         (f"{ELEMENTS}: Started 1 for 123040",)),
    Rule("2.2", ("network/specs/Plan.antt: byte_ns_of",), ("netdesc/src/reading.rt: read (network)",),
         ("tools/tests/rows/tables.txt: mbit = 10",)),
    Rule("2.3", ("vlink/specs/Wire.antt: last_bit_after, busy_for", "nodes/specs/rules/Ports.antt: start"),
         ("vlink/src/wire.rt: last_bit_ns (value, within)", "vlink/src/wire.rt: busy_ns", "nodes/src/node.rt: Node"),
         (f"{NODES}: 3.0.0/carry@5760:1.64.0.0.0.0 0.0.1/free@6720:0",)),
    Rule("2.4", ("nodes/specs/rules/Line.antt: carried",), ("nodes/src/node.rt: Node",), (f"{NODES}: 2.3.0/arrive@5860",),
         "Equal for equipment that stores and forwards. Set `propagation_ns` to the greatest."),
    Rule("3.1", ("network_rows/specs/Table.antt: id, bag_ms, smax, size, sub, mbit",), ("netdesc/src/reading.rt: read (sound, fault)",),
         ("tools/tests/rows/descriptions.txt: 4 OutOfLimit at vl 1 bag_ms", "crates/netdesc/must-fail/read_refuses_every_text_as_syntax.edit")),
    Rule("3.2", ("nodes/specs/rules/EndSystem.antt: copied, released_out",), ("nodes/src/node.rt: Node",),
         (f"{NODES}: 8.0.2/carry@5760:1.64.0.1.0.0",)),
    Rule("3.3", ("network/specs/Trees.antt: is_no_tree",), ("netdesc/src/reading.rt: read (sound, fault)", "network_paths/src/trees.rt: check_trees"),
         ("crates/network_kinds/must-fail/a_path_through_a_switch_of_the_other_network_passes.edit", "tools/tests/rows/descriptions.txt: 8 NotATree"),
         "Stricter. A network whose paths rejoin is refused."),
    Rule("4.1", ("vlink/specs/Numbering.antt: next_number",), ("vlink/src/numbering.rt: next_sn",), (f"{ELEMENTS}: integrity, 255 1 =>",)),
    Rule("4.2", ("vlink/specs/Numbering.antt: steps_between",), ("vlink/src/numbering.rt: steps",), (f"{ELEMENTS}: redundancy 1000, 250@100 122@300",),
         "Exact. It only names the distance of two numbers of rule 4.1."),
    Rule("5.1", ("bag_regulator/specs/Spacing.antt: IsSpaced",),
         ("bag_regulator/src/regulator.rt: BagRegulator", "bag_regulator/src/spacing.rt: releases (apart)", "element_bounds/src/releases.rt: spacing_law"),
         (f"{ELEMENTS}: release@999999 release@1000000",)),
    Rule("5.2", ("bag_regulator/specs/RoundRobin.antt: round_robin", "bag_regulator/specs/Regulator.antt: next_served"),
         ("bag_regulator/src/regulator.rt: BagRegulator", "bag_regulator/src/spacing.rt: releases (by_round_robin)"),
         ("crates/bag_regulator/must-fail/undo_leaves_the_pointer.edit", f"{ELEMENTS}: regulator 1000000 2 2")),
    Rule("5.3", ("bag_regulator/specs/Regulator.antt: Regulator, opening, is_due",), ("bag_regulator/src/regulator.rt: BagRegulator::new",),
         (f"{ELEMENTS}: regulator 1000000 16385 1",),
         "Depends on the equipment. Set `depth` to its number of places; with a greater number losses by `queue_full` are missed."),
    Rule("5.4", ("bag_regulator/specs/Regulator.antt: offered",), ("bag_regulator/src/regulator.rt: BagRegulator",),
         (f"{ELEMENTS}: offer@0 offer@10 offer@20 offer@30", f"{ELEMENTS}: regulator 1000000 2 1, offer@0:1 => Dropped"),
         "Not conservative for latencies. Equipment may release a frame later than its BAG allows."),
    Rule("5.5", ("bag_regulator/specs/Regulator.antt: due",), ("bag_regulator/src/regulator.rt: BagRegulator",),
         (f"{ELEMENTS}: Nothing Released 1:10:1000000",), "As rule 5.4."),
    Rule("5.6", ("bag_regulator/specs/Regulator.antt: let_go, released",), ("bag_regulator/src/regulator.rt: BagRegulator",),
         ("crates/bag_regulator/must-fail/undo_leaves_the_pointer.edit",),
         "Equal if the pointer moves only at a release. Other equipment serves sub-virtual links in another order."),
    Rule("5.7", ("bag_regulator/specs/Spacing.antt: spaced",), ("bag_regulator/src/regulator.rt: BagRegulator", "bag_regulator/src/spacing.rt: releases (moments, all, apart)"),
         (f"{ELEMENTS}: Released 2:20:2000000",), "Follows from rules 5.3 to 5.6."),
    Rule("5.8", ("bag_regulator/specs/Serving.antt: served_at, IsRoundRobin",), ("bag_regulator/src/regulator.rt: BagRegulator", "bag_regulator/src/spacing.rt: releases (by_round_robin, in_order)"),
         (f"{ELEMENTS}: regulator 1000000 2 2",), "Follows from rules 5.3 to 5.6 and 11.11."),
    Rule("6.1", ("policer/specs/Account.antt: charged", "nodes/specs/rules/Switch.antt: entered"), ("nodes/src/node.rt: Node",),
         (f"{NODES}: node by_frames 2",)),
    Rule("6.2", ("policer/specs/Account.antt: amount",), ("policer/src/account.rt: Account",), (f"{ELEMENTS}: account 100 1000000 0 frames",),
         "Exact. The account of Part 7 in whole units, without rounding."),
    Rule("6.3", ("policer/specs/Account.antt: cap, full",), ("policer/src/account.rt: Account::new (within, full)", "policer/src/account.rt: Account::cap (value, never_above)"),
         (f"{ELEMENTS}: account 1518 128000000 1000000000, 1518@0 1518@1000000000000001",), "Exact. In bytes the cap is Smax * (1 + J / BAG)."),
    Rule("6.4", ("policer/specs/Account.antt: grown, passes, account",), ("policer/src/account.rt: Account",),
         ("crates/policer/must-fail/undo_subtracts_the_growth_without_the_cap.edit", f"{ELEMENTS}: 100@0 100@999999 100@1000000 => Passed Refused Passed"),
         "Exact. Equipment that requires more than the frame's amount refuses frames that pass here at equality."),
    Rule("6.5", ("policer/specs/Bound.antt: IsPassageBounded, AreFramesBounded",), ("policer/src/account.rt: Account", "policer/src/limit.rt: bound (amounts, frames)"),
         (f"{ELEMENTS}: 64@0 64@640000 64@1000000 => Passed Refused Passed",), "Follows from rules 6.2 to 6.4."),
    Rule("7.1", ("output_port/specs/StrictPriority.antt: StartsNothing, started_frame",),
         ("output_port/src/port.rt: Port::free (state, answer, kept)", "output_port/src/strict_priority.rt: order (uninterrupted, high_first, in_order)"),
         (f"{ELEMENTS}: port 1518, low:1:1518 low:2:64 high:3:64",)),
    Rule("7.2", ("output_port/specs/Port.antt: PortState, opening",), ("output_port/src/port.rt: Port::new",), (f"{ELEMENTS}: port 0, low:1:64 low:2:64",),
         "Exact."),
    Rule("7.3", ("output_port/specs/Port.antt: put, may_wait",),
         ("output_port/src/port.rt: Port::put (state, answer, kept, within)", "output_port/src/strict_priority.rt: order (within)"),
         (f"{ELEMENTS}: high:0:64 low:1:1518 high:2:64", f"{NODES}: lost 1 PortFull 64"),
         "Depends on the equipment. Set `port_bytes` to the least memory of a port; separate limits by priority cannot be described."),
    Rule("7.4", ("output_port/specs/Port.antt: next, free",), ("output_port/src/port.rt: Port::free (state, answer, kept)",),
         ("crates/output_port/must-fail/undo_of_a_start_puts_the_frame_at_the_back.edit", f"{ELEMENTS}: free free free => Started 1 for 6720"),
         "Exact form of rule 7.1, also for an idle port."),
    Rule("8.1", ("integrity/specs/Integrity.antt: passes",), ("integrity/src/checking.rt: Integrity",), (f"{ELEMENTS}: integrity, 254 2 => Passed Refused",)),
    Rule("8.2", ("integrity/specs/Integrity.antt: integrity",), ("integrity/src/checking.rt: Integrity",),
         ("crates/integrity/must-fail/integrity_remembers_only_numbers_that_passed.edit",),
         "Depends on the equipment. One frame is refused after a loss of three or more; a check that remembers only passed numbers refuses more."),
    Rule("9.1", ("redundancy/specs/Redundancy.antt: redundancy", "nodes/specs/rules/EndSystem.antt: received"), ("redundancy/src/delivery.rt: Redundancy",),
         (f"{NODES}: delivered 1 27720 ; lost 1 Duplicate 64",)),
    Rule("9.2", ("redundancy/specs/Redundancy.antt: is_new, is_delivered",), ("redundancy/src/delivery.rt: Redundancy", "redundancy/src/delivery.rt: Redundancy::new (within, skew, none_delivered)"),
         ("crates/redundancy/must-fail/redundancy_delivers_at_exactly_skew_max.edit", f"{ELEMENTS}: redundancy 1000, 5@100 5@1101"),
         "Depends on the equipment. With another window of numbers it delivers a late copy twice, or drops a new frame, in other cases."),
    Rule("10.1", ("nodes/specs/rules/Line.antt: is_within, carried",), ("nodes/src/node.rt: Node",), (f"{NODES}: node outage 3",),
         "No rule of Part 7: a model of faults. Only outages that are described occur."),
    Rule("10.2", ("traffic/specs/Offers.antt: moment_of, come_until",), ("traffic/src/offering.rt: offers", "traffic/src/law.rt: offers_law (laws, due)"),
         (f"{NODES}: 0.4150.0/offer@326:54.64.0",), "No rule of Part 7: a model of applications. A run shows one behaviour, not the worst."),
    Rule("10.3", ("traffic/specs/Offers.antt: generator_at, word_of",), ("traffic/src/offering.rt: offers",), (f"{NODES}: 0.4150.1/offer@1000851:54.64.0",),
         "No rule of Part 7: drawn delays that can be repeated."),
    Rule("10.4", ("traffic/specs/Offers.antt: offer_by, offers_of",), ("traffic/src/offering.rt: offers",), (f"{NODES}: offers shared",),
         "No rule of Part 7: the applications of a virtual link take turns."),
    Rule("10.5", ("traffic/specs/Offers.antt: stream_of, own_of, row_streams, streams_of, sender_of",),
         ("traffic/src/offering.rt: offers", "traffic/src/law.rt: own_law (same)", "netdesc/src/reading.rt: read (network, fault)"), (f"{STREAMS}: n1 => offset_ns = 0 -> offset_ns = 3000000 => + [[stream]]",),
         "No rule of Part 7: several ports share a virtual link. Their order at one moment is that of the description."),
    Rule("10.6", ("traffic/specs/Offers.antt: size_of, offer_by, offer_of",), ("traffic/src/offering.rt: offers",),
         ("crates/traffic/must-fail/last_frame_of_a_burst_has_the_size.edit", f"{STREAMS}: frames = 6;last_size = 879", f"{STREAMS}: sub = 2;frames = 3"),
         "No rule of Part 7: IP cuts a message into frames, which equipment may hand to the regulator over some time, not at one moment. Then latencies are shorter."),
    Rule("10.7", ("traffic/specs/Offers.antt: due_of, drawn_before, late_by, moment_of",), ("traffic/src/offering.rt: offers",),
         ("crates/traffic/must-fail/sporadic_delays_do_not_add_up.edit", f"{STREAMS}: timing = \"sporadic\"",),
         "No rule of Part 7: a model of applications that send by events. A run shows one behaviour, not the worst."),
    Rule("10.8", ("traffic/specs/Offers.antt: last_of, due_count, offers_from",), ("traffic/src/offering.rt: offers", "traffic/src/law.rt: offers_law (due)"),
         ("crates/traffic/must-fail/end_of_a_stream_cuts_due_moments_only.edit", f"{STREAMS}: end_ns = 1000850", f"{STREAMS}: end_ns = 799999"), "No rule of Part 7: a model of a change of mode."),
    Rule("10.9", ("traffic/specs/Offers.antt: sub_of",), ("traffic/src/offering.rt: offers",), (f"{STREAMS}: sub = 2;frames = 3;sub_vl = 0", f"{STREAMS}: sub_vl = 1"),
         "No rule of Part 7: a port has a sub-virtual link of its own, or bursts take turns."),
    Rule("10.10", ("bag_regulator/specs/Regulator.antt: let_go", "nodes/specs/rules/EndSystem.antt: offered, received_reply"),
         ("bag_regulator/src/spacing.rt: releases (in_order)", "nodes/src/node.rt: Node"), (f"{STREAMS}: n1 => until_ns = 2000000 -> until_ns = 3000000 => depth = 16 -> depth = 16;frames = 3",),
         "Follows from rules 5.8, 10.6 and 11.3. The time in which equipment puts the frames of a message together is 0 here. Add it."),
    Rule("11.1", ("nodes/specs/rules/EndSystem.antt: offered, regulated",), ("nodes/src/node.rt: Node",),
         (f"{NODES}: node two 0, offer@0:1.64", "crates/sender/must-fail/the_counter_is_not_undone.edit"),
         "Not conservative. Equipment takes time to send (technological latency) and may send the two copies apart; both are 0 here. Add them to latencies, and the skew to SkewMax."),
    Rule("11.2", ("nodes/specs/rules/EndSystem.antt: released",), ("nodes/src/node.rt: Node",), (f"{NODES}: node shallow 0",), "As rule 11.1."),
    Rule("11.3", ("nodes/specs/rules/EndSystem.antt: arrived, received_reply",), ("nodes/src/node.rt: Node",),
         (f"{NODES}: node two 1, arrive@27720:0:1.64", f"{NODES}: node one 0, arrive@27720:0:1.64 => lost 1 Unknown 64"),
         "Not conservative. The technological latency of the receiver is 0 here. Add it."),
    Rule("11.4", ("nodes/specs/rules/Switch.antt: arrived, entered_reply",), ("nodes/src/node.rt: Node",),
         (f"{NODES}: lost 1 Unknown 64 ; lost 9 Unknown 64 ; lost 1 TooLong 65",)),
    Rule("11.5", ("nodes/specs/rules/Switch.antt: forwarded, judged",), ("nodes/src/node.rt: Node",), (f"{NODES}: 2.2.0/enqueue@21860:1:1.64.0.0.0.0",),
         "Conservative for latencies if `latency_ns` is the greatest. A latency that varies can change the order of frames."),
    Rule("11.6", ("nodes/specs/rules/Switch.antt: enqueued, put",), ("nodes/src/node.rt: Node",), (f"{NODES}: node mixed 2",), "Exact."),
    Rule("11.7", ("nodes/specs/rules/Switch.antt: at_port", "nodes/specs/rules/EndSystem.antt: freed"), ("nodes/src/node.rt: Node", "port_turns/src/lib.rt: port_timer_law"),
         (f"{NODES}: node one 2, free@100:1",), "Exact form of rule 7.1."),
    Rule("11.8", ("nodes/specs/rules/Line.antt: carried",), ("nodes/src/node.rt: Node",), (f"{NODES}: node one 3, carry@5760:1.64",), "As rules 2.4 and 10.1."),
    Rule("11.9", ("nodes/specs/rules/Ports.antt: start, answered",), ("nodes/src/node.rt: Node",), (f"{NODES}: node one 0, offer@0:1.64",), "Exact form of rule 2.3."),
    Rule("11.10", ("nodes/specs/rules/Switch.antt: switch, unmoved", "nodes/specs/rules/EndSystem.antt: end_system"), ("nodes/src/node.rt: Node",),
         (f"{NODES}: node one 0, free@100:1 arrive@100:1:1.64",), "No rule of Part 7: it makes the rules total, for a process ahead of GVT."),
    Rule("11.11", ("vlink/specs/Order.antt: message_cmp", "nodes/specs/rules/Node.antt: sends"),
         ("vlink/src/order.rt: message_order_law (written, total, exact, by_time)", "nodes/src/node.rt: Node"),
         ("crates/heap_message/must-fail/messages_are_ordered_by_time_alone.edit", f"{NODES}: 0.0.2/release@1000000:1"),
         "Depends on the equipment, which may handle events of one moment in another order."),
    Rule("11.12", ("network_tables/specs/PortLaws.antt: IsInput, IsOutput, ExactlyOne", "nodes/specs/rules/Meeting.antt: meetings"),
         ("netdesc/src/reading.rt: read (network)", "network_tables/src/laws.rt: port_law (inputs, outputs, one_input)"), (f"{NODES}: arrive@5860:1:1.64 arrive@5860:0:9.64",),
         "Equal for switches that are configured by these paths. Other configurations cannot be described."),
)

REQUIREMENTS = (
    Requirement("TOR-1", "It accepts a description exactly if that has no fault, and otherwise prints the first fault "
                "([FORMATS.md](FORMATS.md), sections 2 to 4)", ("netdesc/src/reading.rt: read (sound, network, fault)",)),
    Requirement("TOR-2", "It simulates the accepted network by the rules of [TRAFFIC.md](TRAFFIC.md) (section 2 here)",
                ("seqsim/src/simulating.rt: run (whole)",)),
    Requirement("TOR-3", "Its tables count and sum just what happens in that simulation",
                ("seq_tables/src/running.rt: run_tables (whole, each)", "seqsim/src/simulating.rt: run (tables)",
                 "trace_tables/src/tables.rt: Tables::of")),
    Requirement("TOR-4", "A run by workers that ends without a fault has the tables and the trace of the one-thread run",
                ("worker_pool/src/summary.rt: run_summary (tables, each, journal, pace)",
                 "worker_pool/src/tracing.rt: run_traced (each, whole, beginning, pace)")),
    Requirement("TOR-5", "`replay` has the tables of the one-thread run if the journal finishes the run, and states whether it does",
                ("timewarp/src/journal.rt: replay (safe, whole)",)),
    Requirement("TOR-6", "A fault has its line and status, and what was written is whole or a beginning ([FORMATS.md](FORMATS.md), section 9)",
                ("afdxsim/src/perform.rt: perform (status, words, beside, ordered)",)),
    Requirement("TOR-7", "`bounds` prints the bounds of the formula in [BOUNDS.md](BOUNDS.md), for some choice of weights; no frame of the simulation "
                "is delivered later after its offer than they say, and no port drops one as full if its node's bounds hold",
                ("network_bounds/src/write.rt: write_bounds (text, device, kept)", "commands/src/bounding.rt: bounds (latencies, rooms)",
                 "plan_bounds/src/lib.rt: bounds_law (latencies, rooms)")),
    Requirement("TOR-8", "Evidence names its program: version, commit, SHA-256, logic of the prover, and whether it is proved",
                ("tools/afdx/files/program.py",)),
)

# The libraries of the kit that the product is made of, and the crates of Rust that they are ported from.
LIBRARIES = {
    "arrayvec": "0.7.8", "clap": "clap_builder 4.6.7", "crossbeam_channel": "0.5.17", "crossbeam_deque": "0.8.8", "csv": "1.4.0",
    "itoa": "1.0.18", "rand_core": "0.10.1", "rand_pcg": "0.10.2", "thiserror": "2.0.21", "toml": "1.2.0",
}

# What the kit's own list of wrong answers names, and what no code of the product may call.
NOT_CALLED = ("try_send", "try_recv", "select!", "tokio", "hyper")


def read(path: str) -> str:
    with open(path, encoding="utf-8") as file:
        return file.read()


def of_crates(path: str) -> str:
    """The path of a file, from the top of the sources: that of a crate without `crates/` before it."""
    return path if path.startswith(("crates/", "tools/", "docs/")) else f"crates/{path}"


def rules_of(text: str) -> dict[str, str]:
    """The rules of TRAFFIC by their numbers, each with its mark."""
    return dict(re.findall(r"^\*\*(\d+\.\d+)\*\* \[(664|profile)\] ", text, re.MULTILINE))


def split(reference: str) -> tuple[str, str]:
    path, _, rest = reference.partition(": ")
    return of_crates(path), rest


def defines(text: str, name: str) -> bool:
    return bool(re.search(rf"^\s*(?:(?:abbrev|unfoldable|pub|record|data) )+{re.escape(name)}\b", text, re.MULTILINE))


def header_of(text: str, name: str) -> str | None:
    """The head of a function with its contract: up to the line that opens its body, or ends it."""
    found = re.search(rf"^( *)(?:pub(?:\(crate\))? )?fn {re.escape(name)}\b.*?(?:^\1\{{|;$|\{{$)", text, re.MULTILINE | re.DOTALL)
    return found[0] if found else None


def parts_of(call: str) -> tuple[str, str, list[str]]:
    """The type of a call, its function and its clauses. A type alone is one that implements `reverse::Reversible`, or
    `reverse::Actor` too."""
    name, _, clauses = call.partition(" (")
    of_type, _, function = name.rpartition("::")
    if function[0].isupper():
        of_type, function = function, ""
    return of_type, function, clauses.rstrip(")").split(", ") if clauses else []


def faults_of_contract(text: str, call: str) -> list[str]:
    of_type, name, clauses = parts_of(call)
    if not name:
        traits = ["Reversible", "Actor"] if of_type in ACTORS else ["Reversible"]
        return [f"{of_type} is not {trait}" for trait in traits if not re.search(rf"^impl {trait} for {of_type}\b", text, re.MULTILINE)]
    if of_type and not re.search(rf"^impl(?:<.*>)? {of_type}\b", text, re.MULTILINE):
        return [f"{of_type} has no function of its own"]
    head = header_of(text, name)
    if head is None or f"pub fn {name}" not in head:
        return [f"no public function {name}"]
    if not clauses and "ensures" not in head:
        return [f"{name} has no clause"]
    return [f"{name} has no clause {clause}" for clause in clauses if not re.search(rf"ensures {clause}\b", head)]


def faults_of_rule(rule: Rule, top: str = TOP) -> list[str]:
    """What a line of RULES names that the sources do not have."""
    found = []
    for kind, references in (("defined", rule.defined), ("carried", rule.carried), ("shown", rule.shown)):
        for reference in references:
            path, rest = split(reference)
            if not os.path.exists(os.path.join(top, path)):
                found.append(f"{path} does not exist")
                continue
            text = read(os.path.join(top, path))
            if kind == "defined":
                found += [f"{path} does not define {name}" for name in rest.split(", ") if not defines(text, name)]
            elif kind == "carried":
                found += [f"{path}: {fault}" for fault in faults_of_contract(text, rest)]
            elif not path.endswith(".edit") and rest not in text:
                found.append(f"{path} has no row with {rest!r}")
    return [f"rule {rule.number}: {fault}" for fault in found]


def faults_of_requirements(top: str = TOP) -> list[str]:
    """What a line of REQUIREMENTS names that the sources do not have."""
    found = []
    for it in REQUIREMENTS:
        for path, call in map(split, it.carried):
            is_there = os.path.exists(os.path.join(top, path))
            if not is_there or call:
                faults = faults_of_contract(read(os.path.join(top, path)), call) if is_there else ["does not exist"]
                found += [f"{it.number}: {path}: {fault}" for fault in faults]
    return found


def faults_of_marks(rules: dict[str, str]) -> list[str]:
    """Where RULES and the rules of TRAFFIC differ."""
    named = [rule.number for rule in RULES]
    if named != list(rules):
        return [f"rule {number} stands in one place alone" for number in sorted(set(named) ^ set(rules))] or ["the rules are in another order"]
    return [f"rule {it.number}: what it is against Part 7 belongs to [profile]" for it in RULES if bool(it.against) != (rules[it.number] == "profile")]


def faults_of_libraries(top: str = TOP) -> list[str]:
    """Libraries of the kit in crates.txt that LIBRARIES lacks, or the other way round."""
    lines = [line.partition(":") for line in read(os.path.join(top, "crates.txt")).splitlines() if ":" in line and not line.startswith("#")]
    used = {name for _, _, names in lines for name in names.split()} - {crate.strip() for crate, _, _ in lines}
    return [f"library {name} stands in one place alone" for name in sorted(used ^ set(LIBRARIES))]


def calls(top: str = TOP) -> list[str]:
    """Where code of the product names what NOT_CALLED has."""
    found = []
    for folder, _, names in os.walk(os.path.join(top, "crates")):
        for name in sorted(names):
            if name.endswith(".rt"):
                path = os.path.join(folder, name)
                code = re.sub(r"//.*", "", read(path))
                found += [f"{os.path.relpath(path, top)} names {call}" for call in NOT_CALLED if call in code]
    return found


def check(top: str = TOP) -> list[str]:
    faults = []
    for (path, clauses), name in ((REVERSIBLE, "apply"), (ACTOR, "handle")):
        head = header_of(read(os.path.join(top, of_crates(path))), name) or ""
        faults += [f"`{name}` has no clause {clause}" for clause in clauses if f"ensures {clause} " not in head]
    faults += faults_of_marks(rules_of(read(TRAFFIC)))
    for rule in RULES:
        faults += faults_of_rule(rule, top)
    return faults + faults_of_requirements(top) + faults_of_libraries(top) + calls(top)


def code(text: str) -> str:
    return f"`{text}`"


def contract_in_words(reference: str) -> str:
    """The function by its crate, and its clauses."""
    path, call = split(reference)
    if not call:
        return code(path) + ", tested"
    of_type, name, clauses = parts_of(call)
    called = "::".join(filter(None, (path.split("/")[1], of_type, name or ("handle" if of_type in ACTORS else "apply"))))
    return code(called) + (": " + ", ".join(map(code, clauses)) if clauses else "")


def shown_in_words(reference: str) -> str:
    path, rest = split(reference)
    if path.endswith(".edit"):
        return "edit " + code(os.path.basename(path).removesuffix(".edit"))
    return f"{code(os.path.basename(path))}: {code(rest)}"


def table_of_rules() -> str:
    rows = ["| Rule | Definition | Contract | Edit or row |", "|---|---|---|---|"]
    for rule in RULES:
        defined = "; ".join(f"`{split(it)[0].removeprefix('crates/').removesuffix('.antt').replace('/specs/', '/')}`: "
                            + ", ".join(map(code, split(it)[1].split(", "))) for it in rule.defined)
        rows.append(f"| {rule.number} | {defined} | {'; '.join(map(contract_in_words, rule.carried))} | {'; '.join(map(shown_in_words, rule.shown))} |")
    return "\n".join(rows)


def table_of_requirements() -> str:
    rows = ["| Requirement | What the tool does | Carried by |", "|---|---|---|"]
    return "\n".join(rows + [f"| {it.number} | {it.does} | {'; '.join(map(contract_in_words, it.carried))} |" for it in REQUIREMENTS])


def table_of_profile() -> str:
    return "\n".join(["| Rule | Against ARINC 664 Part 7 |", "|---|---|"] + [f"| {it.number} | {it.against} |" for it in RULES if it.against])


def table_of_libraries() -> str:
    return "\n".join(["| Library of the kit | Port of the crate of Rust, version |", "|---|---|"]
                     + [f"| `{name}` | {version} |" for name, version in sorted(LIBRARIES.items())])


def known_problems(text: str) -> str:
    """The lines under the newest heading of known problems."""
    found = re.search(r"^### Known problems\n\n((?:- .*\n)+)", text, re.MULTILINE)
    return found[1].rstrip("\n") if found else "None is known."


def parts() -> dict[str, str]:
    return {
        "requirements": table_of_requirements(), "rules": table_of_rules(), "profile": table_of_profile(), "libraries": table_of_libraries(),
        "known problems": known_problems(read(CHANGES)),
    }


def with_parts(text: str) -> str:
    """The document with its parts put anew."""
    for name, part in parts().items():
        begin, end = MARK[0].format(name), MARK[1]
        before, mark, rest = text.partition(begin)
        if not mark:
            raise ValueError(f"the document has no mark of {name}")
        text = before + begin + part + end + rest.partition(end)[2]
    return text


@files.tool("qualification")
def main(arguments: list[str] | None = None) -> int:
    parser = argparse.ArgumentParser(prog="qualification", description=__doc__, formatter_class=argparse.RawDescriptionHelpFormatter)
    parser.add_argument("--write", action="store_true", help="puts the tables into docs/QUALIFICATION.md")
    write = parser.parse_args(arguments).write
    faults = check()
    for fault in faults:
        files.say(fault)
    if write:
        files.write_whole(DOCUMENT, with_parts(read(DOCUMENT)))
    elif not faults:
        files.say(f"{len(RULES)} rules: each file, definition, function, clause, edit and row exists")
    return 1 if faults else 0


if __name__ == "__main__":
    sys.exit(main())
