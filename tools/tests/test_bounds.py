"""Tests of afdx bounds: small networks whose bounds are worked out here by hand, step by step, the examples, and drawn
networks whose runs are held against the bounds (afdx bounded-runs; more of them by hand)."""
import contextlib
import glob
import hashlib
import io
import os
import pstats
import random
import subprocess
import sys
import tempfile
import unittest
from fractions import Fraction
from math import floor
from unittest import mock

from afdx import model
from afdx.commands import bounded_runs, large_network
from afdx.files import program
from afdx.reckon import network_calculus, output_ports, regulator_waits, whole_frames
from afdx.reckon.arrival_curves import PARTS
from afdx.reckon.bounds_rows import BoundsRows
from afdx.runs import program_bounds
from tests.places import EXAMPLES, tool_words

MS = 10**6
# The links of most networks here: 100 Mbit/s, so 80 ns a byte. From the last bit on such a link to the output ports of
# the switch behind it, and to the end system behind it.
BYTE, TO_SWITCH, TO_END = 80, 100 + 16000, 100


def busy(size):
    """How long a port is busy with a frame."""
    return (size + 20) * BYTE


def last_bit(size):
    """From the start of a frame to its last bit."""
    return (size + 8) * BYTE


def virtual_link(number, a, b=(), **changes):
    """A virtual link of 64 bytes, BAG 1 ms, offered once a BAG."""
    row = {"id": number, "bag_ms": 1, "smax": 64, "priority": "low", "policing_jitter_ns": 500_000, "skew_max_ns": MS}
    row |= {"depth": 16, "size": 64, "offset_ns": 0, "period_ns": MS, "jitter_ns": 0, "a": a, "b": list(b)}
    if "size" in changes:
        row["smax"] = changes["size"]
    return row | changes


def network(vls, mbit=(), outages=(), port_bytes=65536):
    """A network of the nodes that the paths of virtual links name: end systems E.., switches A.. and B.."""
    pairs = {tuple(sorted(pair)): None for vl in vls for path in (*vl["a"], *vl["b"]) for pair in zip(path, path[1:])}
    nodes = []
    for name in sorted({name for pair in pairs for name in pair}):
        row = {"name": name, "kind": "es" if name[0] == "E" else "switch", "port_bytes": port_bytes}
        nodes.append(row if name[0] == "E" else row | {"net": name[0], "latency_ns": 16000})
    speed = dict(mbit)
    links = [{"a": a, "b": b, "mbit": speed.get((a, b), 100), "propagation_ns": 100} for a, b in pairs]
    tree = {"until_ns": 10 * MS, "seed": 1, "node": nodes, "link": links, "outage": list(outages), "vl": vls}
    return network_calculus.Bounds(model.Network("net.toml", model.text_of_tree(tree)))


def way(*names):
    return [list(names)]


class ByHand(unittest.TestCase):
    def test_a_frame_alone(self):
        found = network([virtual_link(1, way("E1", "A", "E2"))])
        self.assertEqual(found.latencies, {(1, "E2"): (5760 + 100 + 16000 + 5760 + 100, "")})
        self.assertEqual({line: port.most for line, port in found.ports.items()}, {"E1>A": 0, "A>E2": 0})

    def test_frames_that_are_released_together(self):
        """Twenty at one end system: the last one waits for nineteen. At the switch they come one after another: each when
        the port is just free again, so one may wait there for no time."""
        found = network([virtual_link(i, way("E1", "A", "E2")) for i in range(1, 21)])
        for i in range(1, 21):
            bound = 19 * busy(64) + last_bit(64) + TO_SWITCH + last_bit(64) + TO_END
            self.assertEqual(found.latencies[i, "E2"], (bound, ""))
        self.assertEqual({line: port.most for line, port in found.ports.items()}, {"E1>A": 19 * 64, "A>E2": 64})

    def test_frames_that_meet_at_a_switch(self):
        """Of 64 and of 100 bytes, by two lines. Each may wait for the other."""
        found = network([virtual_link(1, way("E1", "A", "E3")), virtual_link(2, way("E2", "A", "E3"), size=100)])
        first = last_bit(64) + TO_SWITCH + busy(100) + last_bit(64) + TO_END
        second = last_bit(100) + TO_SWITCH + busy(64) + last_bit(100) + TO_END
        self.assertEqual((first, second), (37320, 40200))
        self.assertEqual(found.latencies, {(1, "E3"): (first, ""), (2, "E3"): (second, "")})
        self.assertEqual(found.ports["A>E3"].most, 100)

    def test_priorities(self):
        """High ones of 64 and of 100 bytes, a low one of 1518. A high frame may find the low one on the line, and waits
        for the other high one. The low one waits for both: no whole one more of them comes in the meantime. A rate would
        count a part of one."""
        high = {"priority": "high"}
        found = network(
            [virtual_link(1, way("E1", "A", "E4"), **high), virtual_link(2, way("E2", "A", "E4"), size=100, **high)]
            + [virtual_link(3, way("E3", "A", "E4"), size=1518)]
        )
        first = last_bit(64) + TO_SWITCH + busy(1518) + busy(100) + last_bit(64) + TO_END
        second = last_bit(100) + TO_SWITCH + busy(1518) + busy(64) + last_bit(100) + TO_END
        # In x ns there come busy(64) + busy(100) of high frames at once, and so much in each ms.
        both = busy(64) + busy(100)
        x = Fraction(both) / (1 - Fraction(both, MS))
        third = last_bit(1518) + TO_SWITCH + both + last_bit(1518) + TO_END
        self.assertEqual((first, second, third, floor(x) - both), (160360, 163240, 276680, 270))
        self.assertEqual(found.latencies, {(1, "E4"): (first, ""), (2, "E4"): (second, ""), (3, "E4"): (third, "")})

    def test_an_end_system_has_one_priority(self):
        found = network(
            [virtual_link(1, way("E1", "A", "E2"), priority="high"), virtual_link(2, way("E1", "A", "E3"), size=1518)]
        )
        bound = busy(1518) + last_bit(64) + TO_SWITCH + last_bit(64) + TO_END
        self.assertEqual(found.latencies[1, "E2"], (bound, ""))

    def test_frames_of_one_line_come_one_after_another(self):
        """1 and 2 come by one line, 3 by another, all of 64 bytes."""
        found = network([virtual_link(i, way("E2" if i == 3 else "E1", "A", "E3")) for i in (1, 2, 3)])
        # At E1 one waits for the other, so they come to the switch up to busy(64) later than they may.
        spread = busy(64)
        # In t ns the line brings at most one frame and what it sends in t ns, and at most what two virtual links have:
        # two frames at once, and two in each ms. From the moment t on the second is less.
        rate = Fraction(2 * busy(64), MS)
        t = (busy(64) + rate * spread) / (1 - rate)
        self.assertEqual(floor(t), 6903)
        # At t the port has had busy(64) + t from the one line and the third from the other, and has sent t.
        longest = busy(64) + t + busy(64) * (1 + t / MS) - t
        delay = floor(longest) - 12 * BYTE
        self.assertEqual(delay, 12526)
        first = busy(64) + last_bit(64) + TO_SWITCH + delay + TO_END
        third = last_bit(64) + TO_SWITCH + delay + TO_END
        self.assertEqual([found.latencies[i, "E3"] for i in (1, 2, 3)], [(first, ""), (first, ""), (third, "")])

    def test_frames_are_counted_whole_where_that_is_less(self):
        """1 and 3 meet, all of 64 bytes. Each has waited for another one, 2 and 4, which goes elsewhere, so it has a spread
        of busy(64), for which a rate counts the part of a second frame, 45 ns, on both lines. Whole, there comes one of each."""

        def of(**changes):
            ends = {1: ("E1", "E3"), 2: ("E1", "E4"), 3: ("E2", "E3"), 4: ("E2", "E5")}
            return [virtual_link(i, way(source, "A", end), **changes) for i, (source, end) in ends.items()]

        delay = 2 * busy(64) - 12 * BYTE
        found = network(of())
        for vl in (1, 3):
            self.assertEqual(found.latencies[vl, "E3"], (busy(64) + last_bit(64) + TO_SWITCH + delay + TO_END, ""))
        # High ones too, where one low frame may be on the line.
        found = network([*of(priority="high"), virtual_link(5, way("E6", "A", "E3"), size=1518)])
        for vl in (1, 3):
            self.assertEqual(found.latencies[vl, "E3"], (busy(64) + last_bit(64) + TO_SWITCH + delay + busy(1518) + TO_END, ""))
        with mock.patch.object(output_ports, "peak_of_frames", lambda hops, speed, most: most):
            self.assertEqual(network(of()).hops[1, "A>E3"].delay, delay + 45)

    def test_whole_frames_by_hand(self):
        """Of 1000 bytes, 81,600 ns, and in each ms: with a spread of 2.5 ms three come at once, and the fourth after half a
        ms, when all are sent. With 0.9 ms one comes, and 100 us later the next one; so twelve have 979,200 ns at once and
        twice that less 100,000 ns then."""
        for count, spread, excess in ((1, 2_500_000, 3 * 81_600), (12, 900_000, 24 * 81_600 - 100_000), (12, 999_999, 24 * 81_600 - 1)):
            hops = network([virtual_link(i, way("E1", "A", "E2"), size=1000) for i in range(count)]).ports["E1>A"].hops
            for hop in hops:
                hop.spread = spread
            speed = PARTS // BYTE
            self.assertEqual(whole_frames.peak_of_frames(hops, speed, 10**18), excess * speed)
            self.assertEqual(whole_frames.peak_of_frames(hops, speed, excess * speed - 1), excess * speed - 1)
            hops[0].spread = None
            self.assertEqual(whole_frames.peak_of_frames(hops, speed, 5), 5)

    def test_whole_low_frames_behind_high_ones_by_hand(self):
        """Low frames of 1000 bytes, 81,600 ns, behind high ones of 500, 41,600 ns, each in 1 ms. Twelve high ones with a
        spread of 0.6 ms take 499,200 ns at once, and so they do again from 0.4 ms on: so a low frame waits for both, and for
        the low one before it. With no spread it waits for one of each alone. Two low ones with a spread of 0.95 ms bring two
        more frames 50 us later: the last of the four waits for a high one and the three before it, less 50 us."""
        high_frame, low_frame = 520 * BYTE, 1020 * BYTE
        for highs, high_spread, low_spread, longest in (
            (12, 600_000, 0, 24 * high_frame + low_frame),
            (12, 0, 0, 12 * high_frame + low_frame),
            (1, 0, 0, high_frame + low_frame),
            (1, 0, 950_000, high_frame + 3 * low_frame - 50_000),
        ):
            with self.subTest(highs=highs, high=high_spread, low=low_spread):
                of = lambda count, first, size: [virtual_link(i, way("E1", "A", "E2"), size=size) for i in range(first, first + count)]
                hops = network([*of(highs, 0, 500), *of(2, 100, 1000)]).ports["E1>A"].hops
                high, low = hops[:highs], hops[highs:]
                for hop in hops:
                    hop.spread = high_spread if hop in high else low_spread
                whole = whole_frames.WholeBehindHigh(high, low, PARTS // BYTE)
                wait = lambda most: whole.longest(low_frame // BYTE * PARTS, most)
                self.assertEqual((wait(10**9), wait(longest + 1), wait(longest)), (longest, longest, longest))
                self.assertEqual(wait(longest - 1), longest - 1)

    def test_whole_frames_by_their_definition(self):
        """Of each hop there come 1 + (t + spread) / BAG frames, cut to a whole number: at drawn moments, and where a frame comes."""
        draw = random.Random(3)
        vls = [virtual_link(i, way("E1", "A", "E2"), size=draw.randint(64, 1518), bag_ms=draw.choice([1, 2, 8, 128])) for i in range(40)]
        hops = network(vls).ports["E1>A"].hops
        for hop in hops:
            hop.spread = draw.choice([0, 1, draw.randint(0, 3 * MS), 2 * hop.link.vl.bag_ns])
        moments = [draw.randint(0, 200 * MS) for _ in range(200)]
        moments += [turn * hop.link.vl.bag_ns - hop.spread + more for hop in hops for turn in (3, 4) for more in (-1, 0)]
        whole = whole_frames.WholeFrames(hops)
        for t in (it for it in moments if it >= 0):
            count = lambda hop: 1 + (t + hop.spread) // hop.link.vl.bag_ns
            self.assertEqual(whole.come(t), sum(count(hop) * hop.amount for hop in hops) * PARTS)

    def test_a_slow_line_brings_less(self):
        """As above, but the first line has 10 Mbit/s: a byte takes ten times the time, so it brings one frame in 67,200
        ns, and the others do not have to wait for a second one. t is later, and the excess at 0 counts."""
        found = network([virtual_link(i, way("E2" if i == 3 else "E1", "A", "E3")) for i in (1, 2, 3)], {("A", "E1"): 10})
        delay = 2 * busy(64) - 12 * BYTE
        self.assertEqual(found.latencies[3, "E3"], (last_bit(64) + TO_SWITCH + delay + TO_END, ""))
        first = 10 * (busy(64) + last_bit(64)) + TO_SWITCH + delay + TO_END
        self.assertEqual(found.latencies[1, "E3"], (first, ""))

    def test_a_low_frame_waits_longest_later(self):
        """Low ones of 1000 bytes, 1 and 2 by one line and 3 by another, and a high one of 64."""
        big = {"size": 1000}
        found = network(
            [virtual_link(i, way("E2" if i == 3 else "E1", "A", "E4"), **big) for i in (1, 2, 3)]
            + [virtual_link(4, way("E3", "A", "E4"), priority="high")]
        )
        spread, frame, high = busy(1000), busy(1000), busy(64)
        rate = Fraction(2 * frame, MS)
        # The moment until which the line decides what 1 and 2 bring; moments are whole.
        t = floor((frame + rate * spread) / (1 - rate))
        self.assertEqual(t, 113428)

        def wait(t, both):
            """For a low frame that comes at t: until x there are all low ones before it, and the high ones until x."""
            ahead = both + frame * (1 + Fraction(t, MS)) - frame
            return floor((ahead + high) / (1 - Fraction(high, MS))) - t

        waits = [wait(0, frame), wait(t, frame + t), wait(t + 10, 2 * frame + rate * (spread + t + 10))]
        self.assertEqual(waits, [88917, 99003, 98996])
        delay = 99003 + last_bit(1000)
        third = last_bit(1000) + TO_SWITCH + delay + TO_END
        self.assertEqual(found.latencies[3, "E4"], (third, ""))
        self.assertEqual(found.latencies[1, "E4"], (busy(1000) + third, ""))

    def test_an_account_cuts_what_is_late(self):
        """1 and 2 of 1000 bytes wait for each other, and at the second switch for 3. The jitter that the account allows
        them is less than the time by which they may be late."""
        def of(jitter, **changes):
            rows = [virtual_link(i, way("E1", "A", "E3"), size=1000, policing_jitter_ns=jitter, **changes) for i in (1, 2)]
            return network([*rows, virtual_link(3, way("E2", "A", "E3"), size=1000)])

        frame, rate = busy(1000), Fraction(2 * busy(1000), MS)
        for jitter, changes, spread in (
            (10**5, {}, frame),
            (frame, {}, frame),
            (5000, {}, 5000),
            (0, {"policing": "frames"}, 0),
            (0, {"policing": "frames", "smax": 1500}, 0),
            # What passes is counted in bytes of greater frames: the account does not show how many come.
            (0, {"smax": 1500}, frame),
        ):
            with self.subTest(jitter=jitter, **changes):
                t = (frame + rate * spread) / (1 - rate)
                delay = floor(frame + frame * (1 + Fraction(floor(t), MS))) - 12 * BYTE
                bound = last_bit(1000) + TO_SWITCH + delay + TO_END
                self.assertEqual(of(jitter, **changes).latencies[3, "E3"], (bound, ""))

    def test_waits_in_the_regulator(self):
        for bag, period, jitter, depth, sub, wait in (
            (1, MS, 0, 16, 1, 0),
            # An offer that is late by 200 us, and the next one that is not.
            (1, MS, 200_000, 16, 1, 200_000),
            # The period has room for the jitter.
            (1, 3 * MS, 2 * MS, 16, 1, 0),
            (1, 3 * MS, 2 * MS + 1, 16, 1, 1),
            # Two at once; three at once, and the fourth half a ms later.
            (1, MS, MS, 16, 1, MS),
            (1, MS, 2_500_000, 16, 1, 2_500_000),
            (2, 4 * MS, 9 * MS, 16, 1, 4 * MS),
            # No more than the depth may wait.
            (1, MS, 2_500_000, 2, 1, 2 * MS),
            # More is offered than a BAG has room for: the list is full in the end.
            (1, MS // 2, 0, 3, 1, 3 * MS),
            (1, MS // 2, 0, 1, 1, MS),
            # Sub-virtual links change nothing where one frame waits at most.
            (1, MS, 200_000, 16, 2, 200_000),
            (1, MS, MS, 16, 4, MS),
            # Two wait, each for a turn of both; or the lists are full.
            (1, MS, 2 * MS, 16, 2, 4 * MS),
            (1, MS, 2 * MS, 1, 2, 2 * MS),
            (1, MS // 4, 0, 2, 4, 8 * MS),
        ):
            with self.subTest(bag=bag, period=period, jitter=jitter, depth=depth, sub=sub):
                changes = {"bag_ms": bag, "period_ns": period, "jitter_ns": jitter, "depth": depth, "sub": sub}
                found = network([virtual_link(1, way("E1", "A", "E2"), **changes)])
                self.assertEqual(found.latencies[1, "E2"], (27720 + wait, ""))
                self.assertIn(f"1,E2,{27720 + wait},{wait},,,,A,,,,,,", BoundsRows(found).text())

    def test_both_networks(self):
        """The lesser bound of two where each frame arrives by the faster network and the copy is known; else the greater.
        By A the frame waits for another one at its source, by B each line is ten times slower."""
        lesser = busy(64) + last_bit(64) + TO_SWITCH + last_bit(64) + TO_END
        greater = 10 * last_bit(64) + TO_SWITCH + 10 * last_bit(64) + TO_END
        self.assertEqual((lesser, greater), (34440, 131400))
        # The earliest by A: nothing waits. The latest by B is so much later.
        apart = greater - 27720
        outage = {"from": "E1", "to": "A", "from_ns": 0, "to_ns": 1}
        elsewhere = {"from": "A", "to": "E1", "from_ns": 0, "to_ns": 1}
        for bound, changes, outages in (
            (lesser, {}, ()),
            (lesser, {}, [elsewhere]),
            (greater, {}, [outage]),
            (lesser, {"skew_max_ns": apart}, ()),
            (greater, {"skew_max_ns": apart - 1}, ()),
            # The first switch may get a frame late by busy(64), and the next one not.
            (lesser, {"policing_jitter_ns": busy(64)}, ()),
            (greater, {"policing_jitter_ns": busy(64) - 1}, ()),
            (lesser, {"policing_jitter_ns": 0, "smax": 128}, ()),
            (greater, {"policing_jitter_ns": 0, "smax": 128, "policing": "frames"}, ()),
        ):
            with self.subTest(changes=changes, outages=outages):
                vls = [virtual_link(1, way("E1", "A", "E2"), way("E1", "B", "E2"), **changes)]
                found = network([*vls, virtual_link(2, way("E1", "A", "E2"))], {("B", "E1"): 10, ("B", "E2"): 10}, outages)
                self.assertEqual(found.latencies[1, "E2"], (bound, ""))

    def test_what_may_go_wrong(self):
        """By the numbers of the test before: which networks are sure, how far apart the copies are, what an account gets."""
        lesser, greater, alone = 34440, 131400, 27720
        outage = {"from": "E1", "to": "A", "from_ns": 0, "to_ns": 1}
        for changes, outages, sure, warning, refuses in (
            ({}, (), "AB", "", ""),
            ({}, [outage], "B", "", ""),
            ({"policing_jitter_ns": busy(64) - 1}, (), "B", "", "may_refuse"),
            ({"policing_jitter_ns": busy(64)}, (), "AB", "", ""),
            ({"skew_max_ns": greater - alone}, (), "AB", "", ""),
            ({"skew_max_ns": greater - alone - 1}, (), "AB", "delivered_twice", ""),
            ({"policing_jitter_ns": 0, "smax": 64, "size": 65}, (), "", "not_sure", None),
        ):
            with self.subTest(changes=changes, outages=outages):
                row = virtual_link(1, way("E1", "A", "E2"), way("E1", "B", "E2")) | changes
                found = network([row, virtual_link(2, way("E1", "A", "E2"))], {("B", "E1"): 10, ("B", "E2"): 10}, outages)
                printed = {(it.get("vl"), it["where"]): it for it in found.rows()}
                self.assertEqual((printed[1, "E2"]["sure"], printed[1, "E2"]["warning"]), (sure, warning))
                if refuses is None:
                    self.assertNotIn((1, "A"), printed)
                    continue
                self.assertEqual((printed[1, "E2"]["skew_ns"], printed[1, "E2"]["skew_max_ns"]), (str(greater - alone), row["skew_max_ns"]))
                account = {"vl": 1, "where": "A", "jitter_ns": str(busy(64)), "policing_jitter_ns": row["policing_jitter_ns"]}
                self.assertEqual(printed[1, "A"], account | {"warning": refuses})
                self.assertEqual(printed[1, "B"]["jitter_ns"], "0")
        self.assertEqual(lesser, alone + busy(64))
        # Twenty frames are released together: nineteen of them may wait.
        vls = [virtual_link(i, way("E1", "A", "E2")) for i in range(20)]
        for port_bytes, warning in ((19 * 64, ""), (19 * 64 - 1, "too_small")):
            (port,) = (it for it in network(vls, port_bytes=port_bytes).rows() if it["where"] == "E1>A" and "vl" not in it)
            self.assertEqual((port["waiting_bytes"], port["warning"]), (str(19 * 64), warning))

    def test_a_port_that_may_be_full(self):
        """At a port of 1518 bytes 23 frames of 64 bytes may wait, and not 24. By B, ten times slower, each frame waits for
        one of 1518, at the source and then at the switch, where it is whole when the long one has just begun to leave."""
        for others, by in ((23, "A"), (24, "B")):
            vls = [virtual_link(1, way("E1", "A", "E2"), way("E1", "B", "E2"), skew_max_ns=10**9)]
            vls += [virtual_link(i + 3, way("E1", "A", "E2")) for i in range(others)]
            vls.append(virtual_link(2, (), way("E1", "B", "E2"), size=1518, bag_ms=2))
            found = network(vls, {("B", "E1"): 10, ("B", "E2"): 10}, port_bytes=1518)
            self.assertEqual(found.ports["E1>A"].most, others * 64)
            bound = others * busy(64) + 2 * last_bit(64) + TO_SWITCH + TO_END
            if by == "B":
                source, switch = busy(1518) + last_bit(64), busy(1518) - busy(64) + last_bit(64)
                bound = 10 * (source + switch) + TO_SWITCH + TO_END
            self.assertEqual(found.latencies[1, "E2"], (bound, ""))

    def test_there_is_no_bound(self):
        """A line of 10 Mbit/s that is given two frames of 1000 bytes in each ms, of 1.6 ms together."""
        slow, size = {("A", "E3"): 10}, {"size": 1000}
        too_much = "A>E3 may be given more than it can send"
        vls = [virtual_link(i, way(f"E{i}", "A", "E3"), **size) for i in (1, 2)]
        found = network(vls, slow)
        self.assertEqual(found.latencies, {(1, "E3"): (None, too_much), (2, "E3"): (None, too_much)})
        self.assertIn(f"1,E3,none,0,,,{too_much},,,,,,not_sure,", BoundsRows(found).text())
        self.assertIn(f",A>E3,,,none,65536,{too_much},,,,,,too_small,", BoundsRows(found).text())
        # A high one goes first, and waits for one low frame at most.
        found = network([*vls, virtual_link(3, way("E4", "A", "E3"), priority="high")], slow)
        self.assertEqual(found.latencies[1, "E3"], (None, too_much))
        high = last_bit(64) + TO_SWITCH + 10 * (busy(1000) + last_bit(64)) + TO_END
        self.assertEqual(found.latencies[3, "E3"], (high, ""))
        # Exactly as much as the line can send: 1230 bytes with the gap take a whole BAG.
        found = network([virtual_link(1, way("E1", "A", "E3"), size=1230)], slow)
        self.assertEqual(found.latencies[1, "E3"], (last_bit(1230) + TO_SWITCH + 10 * last_bit(1230) + TO_END, ""))
        self.assertIsNone(network([virtual_link(1, way("E1", "A", "E3"), size=1231)], slow).latencies[1, "E3"][0])
        # Frames above smax come to the first switch and no further. Others wait for them at the source.
        vls = [virtual_link(1, way("E1", "A", "E2"), size=1000, smax=999), virtual_link(2, way("E1", "A", "E2"))]
        found = network(vls)
        self.assertEqual(found.latencies[1, "E2"], (None, "no frame arrives: size is above smax"))
        bound = busy(1000) + last_bit(64) + TO_SWITCH + last_bit(64) + TO_END
        self.assertEqual(found.latencies[2, "E2"], (bound, ""))

    def test_behind_a_line_without_a_bound(self):
        """The line to the second switch is given too much. A third end system's frames meet there what comes of it: the
        line brings one frame after another, and at most what the accounts let through."""
        vls = [virtual_link(i, way(f"E{i}", "A", "AA", "E3"), size=1230) for i in (1, 2)]
        vls.append(virtual_link(3, way("E4", "AA", "E3")))
        found = network(vls, {("A", "AA"): 10})
        self.assertEqual(found.latencies[1, "E3"], (None, "A>AA may be given more than it can send"))
        # One frame of 1230 bytes at once, and no second one before the next 64 bytes are gone.
        bound = last_bit(64) + TO_SWITCH + busy(1230) + last_bit(64) + TO_END
        self.assertEqual(found.latencies[3, "E3"], (bound, ""))

    def test_bursts_that_grow_round_a_circle(self):
        """Eight switches in a circle, each with an end system that sends seven switches on: 86 percent of each line.
        What is late makes others late, without end. With six lines on the way and less load there are bounds."""
        for far, size, is_bound in ((7, 1500, False), (6, 1000, True)):
            vls = []
            for i in range(8):
                names = [f"A{(i + k) % 8}" for k in range(far + 1)]
                vls.append(virtual_link(i, way(f"E{i}", *names, f"E{(i + far) % 8}"), size=size, smax=size + 1))
            found = network(vls)
            for bound, why in found.latencies.values():
                self.assertEqual(bound is not None, is_bound)
                self.assertRegex(why, r"^$" if is_bound else r"^bursts grow round a circle of lines by A[0-7]>A[0-7]$")


class OfExamples(unittest.TestCase):
    def test_no_latency_of_an_example_is_above_its_bound(self):
        paths = sorted(glob.glob(os.path.join(EXAMPLES, "*.toml")))
        self.assertGreater(len(paths), 5)
        for path in paths:
            net = model.Network(path)
            found = network_calculus.Bounds(net)
            for row in model.Tables(path.replace(".toml", ".tables.csv"), net).latencies.values():
                with self.subTest(path, vl=row.vl, where=row.where):
                    bound, why = found.latencies[row.vl, row.where]
                    self.assertEqual(bound is None, why != "")
                    if bound is not None:
                        self.assertLessEqual(row.greatest, bound)

    def test_the_smallest_are_reached(self):
        """Where frames meet in the worst way, the bound is what happens."""
        for name in ("n1", "n2", "n3"):
            net = model.Network(os.path.join(EXAMPLES, name + ".toml"))
            last = max(model.Tables(net.path.replace(".toml", ".tables.csv"), net).latencies.values(), key=lambda row: row.greatest)
            self.assertEqual(network_calculus.Bounds(net).latencies[last.vl, last.where], (last.greatest, ""))


class Waits(unittest.TestCase):
    """The longest wait in a regulator to which several streams offer bursts, in BAGs of 1 ms."""

    @staticmethod
    def stream(frames, period, jitter=0, **more):
        row = {"id": 1, "size": 64, "offset_ns": 0, "frames": frames, "period_ns": period * MS, "jitter_ns": int(jitter * MS)}
        return model.stream_of("vl", 1, row | more)

    def test_by_hand(self):
        for streams, wanted in (
            # The last of three frames waits for two.
            ([self.stream(3, 3)], 2 * MS),
            # Late by 1 ms at the most, the next burst may come 2 ms behind this one: of six frames the last waits for five, less 2 ms.
            ([self.stream(3, 3, 1)], 3 * MS),
            ([self.stream(3, 3, 1, timing="sporadic")], 2 * MS),
            ([self.stream(3, 10, 1)], 2 * MS),
            # Five come at once; at 10 ms there are as many once more.
            ([self.stream(2, 10), self.stream(3, 10)], 4 * MS),
            # Each second BAG one, and a burst of two each 5 ms: at 0 three, and the next one comes when one is left.
            ([self.stream(1, 2), self.stream(2, 5)], 2 * MS),
            # More than a frame in each BAG.
            ([self.stream(2, 1)], model.LATEST_NS),
        ):
            with self.subTest(streams):
                self.assertEqual(regulator_waits.longest(streams, MS), wanted)

    def test_many_streams_are_rounded_up(self):
        streams = [self.stream(1, 1 + i) for i in range(40, 100)]
        self.assertGreaterEqual(regulator_waits.rate(streams, MS), sum(Fraction(1, 1 + i) for i in range(40, 100)))
        self.assertEqual(regulator_waits.longest(streams, MS), 59 * MS)


class OfRuns(unittest.TestCase):
    def call(self, *words):
        said = io.StringIO()
        with contextlib.redirect_stdout(said):
            status = bounded_runs.main(list(words))
        return status, said.getvalue()

    def test_drawn_networks(self):
        status, said = self.call("--networks", "60")
        self.assertEqual(status, 0, said)
        self.assertRegex(said, r"^60 networks, 600 runs: \d{5} latencies, \d{5} ports and \d{6} others held against bounds, 0 above; ")

    def test_drawn_networks_with_streams(self):
        status, said = self.call("--networks", "40", "--runs", "6", "--streams")
        self.assertEqual(status, 0, said)
        self.assertRegex(said, r"^40 networks, 240 runs: \d{4} latencies, \d{4} ports and \d{5} others held against bounds, 0 above; ")

    def test_what_is_above_its_bound_is_reported_and_can_be_run_again(self):
        """With all bounds a hundredth lower, some latency is above its bound. The words that are printed run it again."""
        honest = network_calculus.Bounds.latency

        def lower(self, vl, where):
            bound, why = honest(self, vl, where)
            return bound and bound * 99 // 100, why

        with tempfile.TemporaryDirectory() as folder, mock.patch.object(network_calculus.Bounds, "latency", lower):
            status, said = self.call("--networks", "10")
            self.assertEqual(status, 1)
            first, *again = said.splitlines()[0].split("; again: afdx bounded-runs ")
            self.assertRegex(first, r"^network \d+, run \d+: virtual link \d+ at E\d took \d+ ns, and its bound is \d+ ns$")
            words = again[0].replace("DIR", folder).split()
            status, said = self.call(*words)
            self.assertEqual(status, 1)
            self.assertIn(first, said)
            number, run = words[words.index("--first") + 1], int(words[words.index("--runs") + 1]) - 1
            self.assertIn(f"network-{number}-run-{run}.toml", os.listdir(folder))


@unittest.skipUnless(os.path.isfile(model.PROGRAM), f"there is no built program at {model.PROGRAM}: ./afdx build, or ./test")
class OfProgram(unittest.TestCase):
    """The bounds that the program prints."""

    def shares(self, text):
        """What each of these bounds is by that of the tool, which takes the network where a frame takes longer, too. Of a virtual link with
        several streams the program counts a whole list, and the tool less."""
        net = model.Network("net.toml", text)
        found, proved, shares = network_calculus.Bounds(net), bounded_runs.bounds_by(model.PROGRAM, net), []
        for key in net.destinations:
            if len(net.vls[key[0]].streams) > 1:
                continue
            ways = [way.longest for way in found.by_network.get(key, {}).values()]
            if ways and None not in ways and proved.bound(*key) is not None:
                shares.append(proved.bound(*key) / (max(ways) + found.links[key[0]].wait))
        return sorted(shares)

    def test_they_are_near_those_of_the_tool(self):
        """The tool counts whole frames, or what a line sends, and takes the lesser sum; the program mixes both line by line. So either may
        be lower."""
        for path in sorted(glob.glob(os.path.join(EXAMPLES, "*.toml"))):
            with self.subTest(os.path.basename(path)), open(path, encoding="utf-8") as file:
                shares = self.shares(file.read())
                self.assertGreaterEqual(shares[0], 0.95)
                self.assertLessEqual(shares[-1], 1.05)

    def test_on_a_large_network_too(self):
        pieces = []
        large_network.write_network(large_network.words_of([]), pieces.append, lambda _: None)
        shares = self.shares("".join(pieces))
        self.assertGreater(len(shares), 5000)
        self.assertLessEqual(shares[len(shares) // 2], 1.01)
        self.assertLessEqual(shares[-1], 1.05)

    def test_no_drawn_run_is_above_them(self):
        for words in [], ["--streams"]:
            said = io.StringIO()
            with contextlib.redirect_stdout(said):
                status = bounded_runs.main(["--networks", "30", "--runs", "8", "--program", model.PROGRAM, *words])
            self.assertEqual(status, 0, said.getvalue())
            self.assertRegex(said.getvalue(), r"bounds by the program: \d{3,} latencies and \d{4} ports, 0 above; ")


class Proved(unittest.TestCase):
    """What the program prints, beside the bounds of the tool."""

    # What a user has stored with an earlier version, and the columns that later ones print behind these.
    HEAD, LATER = "kind,of,where,network_ns,wait_ns,bound_ns", ",least_ns,jitter_ns,skew_ns,sure,sure_ns"
    LINES = (HEAD, "bound,1,ES2,27720,0,27720", "port,ES1>SW1,,84,yes,", "port,SW1>ES1,,0,yes,", "port,SW1>ES2,,84,yes,", "port,ES2>SW1,,0,yes,")

    def setUp(self):
        folder = tempfile.TemporaryDirectory()
        self.addCleanup(folder.cleanup)
        self.folder, self.net = folder.name, os.path.join(EXAMPLES, "n1.toml")

    def call(self, lines, *words):
        path = os.path.join(self.folder, "proved.csv")
        with open(path, "w", encoding="utf-8") as file:
            file.write("".join(line + "\n" for line in lines))
        run = subprocess.run([*tool_words("bounds"), self.net, "--proved", path, *words], capture_output=True, text=True)
        return run.returncode, run.stdout, run.stderr.replace(path, "proved.csv")

    def rows(self, lines):
        """The rows of bounds.csv by columns."""
        status, text, errors = self.call(lines)
        self.assertEqual((status, errors), (0, ""))
        head, *rows = (line.split(",") for line in text.splitlines())
        return [dict(zip(head, row)) for row in rows]

    def test_they_stand_before_those_of_the_tool(self):
        """Where the program has a number; else that of the tool stands, and bound_by says so."""
        line = "bound,1,ES2,27721,2,27723"
        for lines, number, wait, network, by in (
            (self.LINES, "27720", "0", "27720", "program"),
            ((self.LINES[0], line, *self.LINES[2:]), "27723", "2", "27721", "program"),
            ((self.LINES[0], "none,1,ES2,rate,,", *self.LINES[2:]), "27720", "0", "27720", "tool"),
            # Later versions print more columns, and may print them in another order.
            ((self.HEAD + self.LATER, line + ",27720,3,,,", *(it + "," * 5 for it in self.LINES[2:])), "27723", "2", "27721", "program"),
            ((self.HEAD + self.LATER, "none,1,ES2,size" + "," * 7, *(it + "," * 5 for it in self.LINES[2:])), "27720", "0", "27720", "tool"),
            (("least_ns," + self.HEAD, "27720," + line, *("," + it for it in self.LINES[2:])), "27723", "2", "27721", "program"),
        ):
            with self.subTest(lines[1]):
                first, *rest = self.rows(lines)
                names = ("bound_ns", "wait_ns", "network_ns", "bound_by", "bound_ns_tool", "wait_ns_tool", "network_ns_tool")
                self.assertEqual([first[name] for name in names], [number, wait, network, by, "27720", "0", "27720"])
                ports = {row["where"]: [row[name] for name in ("waiting_bytes", "waiting_bytes_tool", "bound_by")] for row in rest if row["port_bytes"]}
                self.assertEqual(ports, {"ES1>SW1": ["84", "0", "program"], "SW1>ES2": ["84", "0", "program"]})

    def test_a_port_is_judged_by_them(self):
        rows = self.rows((*self.LINES[:4], "port,SW1>ES2,,65537,no,", self.LINES[5]))
        self.assertEqual([row["warning"] for row in rows if row["port_bytes"]], ["", "too_small"])

    def test_a_page_shows_both(self):
        both, page = os.path.join(self.folder, "bounds.csv"), os.path.join(self.folder, "page.html")
        self.assertEqual(self.call(self.LINES, "-o", both)[0], 0)
        tables = self.net.replace(".toml", ".tables.csv")
        run = subprocess.run([*tool_words("report"), self.net, tables, "--bounds", both, "-o", page], capture_output=True, text=True)
        self.assertEqual((run.returncode, run.stderr), (0, ""))
        with open(page, encoding="utf-8") as file:
            found = file.read()
        for said in ("µs, afdxsim bounds", "µs, afdx bounds", "is printed by <b>afdxsim bounds</b>", "bound of the tool"):
            self.assertIn(said, found)

    def test_limits_go_by_them(self):
        limits = os.path.join(self.folder, "limits.csv")
        with open(limits, "w", encoding="utf-8") as file:
            file.write("1,ES2,27719\n")
        for bound, verdict, wanted in (("27720", "below its bound", 1), ("27000", "kept", 0)):
            lines = [self.LINES[0], f"bound,1,ES2,{bound},0,{bound}", *self.LINES[2:]]
            status, text, _ = self.call(lines, "--limits", limits, "--strict")
            self.assertEqual((status, text.splitlines()[1].split(",")[-4:-2]), (wanted, [verdict, "program"]))

    def test_a_page_marks_what_the_program_has_not(self):
        both, page = os.path.join(self.folder, "bounds.csv"), os.path.join(self.folder, "page.html")
        with open(os.path.join(EXAMPLES, "five_links.toml"), encoding="utf-8") as file:
            net = model.Network(os.path.join(EXAMPLES, "five_links.toml"), file.read())
        lines = [self.HEAD] + [f"none,{vl},{where},rate,," if vl == 5 else f"bound,{vl},{where},999999,1,1000000" for vl, where in net.destinations]
        self.net = net.path
        self.assertEqual(self.call([*lines, *(f"port,{line},,9,yes," for line in net.mbit)], "-o", both)[0], 0)
        tables = self.net.replace(".toml", ".tables.csv")
        run = subprocess.run([*tool_words("report"), self.net, tables, "--bounds", both, "-o", page], capture_output=True, text=True)
        self.assertEqual((run.returncode, run.stderr), (0, ""))
        with open(page, encoding="utf-8") as file:
            found = file.read()
        self.assertIn("It has none for 1 destination, where that of afdx bounds stands with the mark †.", found)
        self.assertIn('"bound":[1000000,1000000,1000000,1000000,134082]', found)
        self.assertIn('"bound_mark":[0,0,0,0,1]', found)

    def test_the_bounds_of_a_contract_are_taken_where_the_program_prints_them(self):
        """A stand-in prints them by its word --contract, does not know the word, or has it in its help alone."""
        stand_in, net = os.path.join(self.folder, "stand-in"), model.Network(self.net)
        lines = "\n".join((self.HEAD + self.LATER, self.LINES[1] + ",27720,0,,,", *(it + "," * 5 for it in self.LINES[2:])))
        for usage, with_the_word, wanted in (
            ("bounds NET [--contract]", lines.replace("27720,0,27720", "30000,0,30000"), (27720, 30000)),
            ("bounds NET", "", (27720, None)),
            ("bounds NET [--contract]", "", (27720, None)),
        ):
            with open(stand_in, "w", encoding="utf-8") as file:
                file.write(f"#!/bin/sh\ncase \"$*\" in --version) echo afdxsim 9;; *--help) echo 'afdxsim {usage}';; *--contract)\n")
                file.write(f"test -n '{with_the_word[:1]}' || exit 2; cat <<'E'\n{with_the_word}\nE\n;; *) cat <<'E'\n{lines}\nE\nesac\n")
            os.chmod(stand_in, 0o755)
            with self.subTest(usage):
                found = program_bounds.bounds_of(stand_in, net)
                self.assertEqual((found.proved.bound(1, "ES2"), found.contract and found.contract.bound(1, "ES2")), wanted)

    def test_another_file_is_refused(self):
        for lines, printed in (
            ((), "begins with '' in place of kind,of,where,"),
            (("vl,where", *self.LINES[1:]), "line 1: begins with 'vl,where'"),
            ((self.LINES[0], "bound,2,ES2,1,0,1"), "line 2: virtual link 2 at 'ES2' is not in "),
            ((self.LINES[0], "port,ES9>SW1,,84,yes,"), "line 2: ES9>SW1 is not in "),
            ((*self.LINES, self.LINES[1]), "line 7: says virtual link 1 at 'ES2' again"),
            ((self.LINES[0], *self.LINES[2:]), "the file ends without virtual link 1 at ES2"),
            (self.LINES[:-1], "the file ends without the port before ES2>SW1"),
            ((self.LINES[0], "bounds,1,ES2"), "line 2: is no line of bounds"),
            ((self.LINES[0], "bound,1,ES2,5,6,12"), "line 2: 5 and 6 are not 12, the bound"),
            ((self.HEAD + self.LATER, self.LINES[1]), "line 2: is no line of bounds"),
            ((self.HEAD + ",wait_ns", self.LINES[1] + ",0"), "line 1: begins with 'kind,of,where,"),
        ):
            with self.subTest(printed):
                status, text, errors = self.call(lines)
                self.assertEqual((status, text), (2, ""))
                self.assertIn(printed, errors)
                self.assertEqual(errors.count("\n"), 1)


class Command(unittest.TestCase):
    def call(self, *words):
        command = [*tool_words("bounds"), *words]
        run = subprocess.run(command, capture_output=True, text=True)
        return run.returncode, run.stdout, run.stderr

    def test_it_writes_csv(self):
        path = os.path.join(EXAMPLES, "n1.toml")
        with open(path, "rb") as file:
            own = hashlib.sha256(file.read()).hexdigest()[:16]
        own += "," + program.tool("bounds").cell()
        text = "vl,where,bound_ns,wait_ns,waiting_bytes,port_bytes,why,sure,skew_ns,skew_max_ns,jitter_ns,"
        text += "policing_jitter_ns,warning,network_ns,network_a_ns,network_b_ns,delay_ns,transmit_jitter_ns,transmit_rule_ns,"
        text += "bound_by,bound_ns_tool,wait_ns_tool,network_ns_tool,waiting_bytes_tool,description,program\n"
        text += f"1,ES2,27720,0,,,,A,,,,,,27720,27720,,,,,tool,27720,0,27720,,{own}\n1,SW1,,,,,,,,,0,0,,,,,,,,,,,,,{own}\n"
        text += f"1,ES1>SW1,,,,,,,,,,,,,,,5760,,,,,,,,{own}\n1,SW1>ES2,,,,,,,,,,,,,,,5760,,,,,,,,{own}\n"
        text += f",ES1>SW1,,,0,4096,,,,,,,,,,,,0,46720,tool,,,,0,{own}\n,SW1>ES2,,,0,65536,,,,,,,,,,,,,,tool,,,,0,{own}\n"
        self.assertEqual(self.call(path), (0, text, ""))
        with tempfile.TemporaryDirectory() as folder:
            out = os.path.join(folder, "bounds.csv")
            self.assertEqual(self.call(path, "-o", out), (0, "", ""))
            with open(out, encoding="utf-8") as file:
                self.assertEqual(file.read(), text)

    def test_what_is_no_description(self):
        with open(os.path.join(EXAMPLES, "n1.toml"), encoding="utf-8") as file:
            text = file.read()
        with tempfile.TemporaryDirectory() as folder:
            path = os.path.join(folder, "net.toml")
            for old, new, said in (
                ("bag_ms = 1", "bag_ms = 3", "line 32: virtual link 1 (vl row 1), bag_ms is 3, and must be 1, 2, 4,"),
                ('["ES1", "SW1", "ES2"]', '["ES1", "SW1", "ES1"]', "line 42: virtual link 1 (vl row 1), a, "),
                ("bag_ms = 1", "bag_ms = ", "line 32: is no TOML"),
                ("size = 64", "", "line 30: vl 1 size is missing"),
            ):
                with open(path, "w", encoding="utf-8") as out:
                    out.write(text.replace(old, new))
                status, out, printed = self.call(path)
                self.assertEqual((status, out), (2, ""))
                self.assertTrue(printed.startswith(f"afdx bounds: {path} {said}"), printed)
            status, _, printed = self.call(os.path.join(folder, "none"))
            self.assertEqual((status, printed.count("\n")), (2, 1))

    def test_984_virtual_links(self):
        """Four times as many virtual links take some 4 times the calls of functions, and may take eight times. Calls are counted, since
        no time is sure on a busy machine."""
        with tempfile.TemporaryDirectory() as folder:
            path, counted, calls = os.path.join(folder, "net.toml"), os.path.join(folder, "calls"), []
            for number in ("246", "984"):
                words = [*tool_words("large-network"), "--virtual-links", number]
                with open(path, "w", encoding="utf-8") as out:
                    subprocess.run(words, stdout=out, stderr=subprocess.DEVNULL, check=True)
                run = subprocess.run([sys.executable, "-m", "cProfile", "-o", counted, *tool_words("bounds")[1:], path], capture_output=True, text=True)
                said, found = run.stdout, pstats.Stats(counted)
                calls.append(found.total_calls)
                self.assertEqual((run.returncode, run.stderr), (0, ""))
            self.assertLess(calls[1], 8 * calls[0])
            latencies = [line for line in said.splitlines()[1:] if line[0] != "," and line.split(",")[2]]
            self.assertGreater(len(latencies), 5000)
            self.assertNotIn("none", [line.split(",")[2] for line in latencies])

    def test_memory(self):
        """2,000 virtual links with 6 destinations each take some 60 MB, that of the interpreter included, and fail at twice
        as much; so 65,536 take less than 4 GB."""
        with tempfile.TemporaryDirectory() as folder:
            path = os.path.join(folder, "net.toml")
            words = [*tool_words("large-network"), "--virtual-links", "2000"]
            with open(path, "w", encoding="utf-8") as out:
                subprocess.run(words, stdout=out, stderr=subprocess.DEVNULL, check=True)
            words = [*tool_words("bounds"), path, "-o", os.path.join(folder, "bounds.csv")]
            run = subprocess.Popen(words, stdout=subprocess.DEVNULL)
            _, status, used = os.wait4(run.pid, 0)
            run.returncode = os.waitstatus_to_exitcode(status)
            self.assertEqual(run.returncode, 0)
            self.assertLess(used.ru_maxrss * 1024, 140_000_000)

    def test_help_says_what_it_is(self):
        status, said, _ = self.call("--help")
        self.assertEqual(status, 0)
        self.assertIn("it is proved that no frame\nof a run is later", said)
        for word in ("columns (", "may_refuse", "There is no bound", "wait_ns", "status:"):
            self.assertIn(word, said)


if __name__ == "__main__":
    unittest.main()
