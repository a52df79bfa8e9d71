"""Tests of many_seeds.py: with numpy and without it the answer is the same."""
import unittest
from unittest import mock

from afdx import model
from afdx.files import debian_modules
from afdx.reckon import frames, many_seeds
from tests import drawn
from tests.test_traces import MS, network_text

NUMPY = debian_modules.found("numpy")


def stream(draw, number, sub):
    """A stream; one of three is plain, as that of each virtual link was before there were others."""
    row = {"id": number, "size": 64, "offset_ns": 0, "period_ns": draw.choice([1000, 300_000, MS, 2 * MS, draw.randrange(1000, 9 * MS)])}
    row["jitter_ns"] = draw.choice([0, 1, 400_000, 3 * MS, draw.randrange(10**9)])
    if draw.random() < 0.6:
        row |= {"frames": draw.choice([1, 2, 5]), "timing": draw.choice(["periodic", "sporadic"])}
        row |= draw.choice([{}, {"end_ns": draw.randrange(4 * MS)}]) | draw.choice([{}, {}, {"sub_vl": draw.randrange(sub + draw.choice([0, 0, 1]))}])
    return model.stream_of("vl", 1, row)


def virtual_link(draw):
    """What of a virtual link decides what its regulator does."""
    sub, number = draw.randrange(1, 5), draw.randrange(65536)
    streams = [stream(draw, number, sub), *(stream(draw, 65536 + i, sub) for i in range(draw.choice([0, 0, 1, 2])))]
    return model.Network("net", network_text(MS)).vls[1]._replace(
        id=number, bag_ns=draw.choice([1, 2, 8]) * MS, depth=draw.choice([1, 1, 2, 3, 1024]), sub=sub, streams=tuple(streams)
    )


@unittest.skipUnless(NUMPY, "there is no numpy: apt-get install -y python3-numpy")
class WithNumpy(unittest.TestCase):
    def compare(self, runs, until):
        net = model.Network("net", network_text(until))
        alone = lambda seed, vl: frames.through_regulator(vl, net.offers(vl, seed), until)
        plain = many_seeds.together([alone(*it) for it in runs])
        found = many_seeds.sent_of_all(NUMPY, runs, until, alone)
        self.assertEqual((*found[:3], list(found.releases)), (*plain[:3], plain.releases))

    @drawn.given(150)
    def test_each_regulator(self, draw):
        vl, until = virtual_link(draw), draw.choice([1, MS, 3 * MS])
        seeds = [draw.choice([draw.randrange(100), draw.randrange(2**63)]) for _ in range(draw.randrange(1, 6))]
        offsets = [{it.number: draw.choice([0, draw.randrange(4 * MS), 10**15]) for it in vl.streams} for _ in seeds]
        with mock.patch.object(many_seeds, "AT_ONCE", draw.choice([1, many_seeds.AT_ONCE])):
            self.compare([(seed, vl.with_offsets(it)) for seed, it in zip(seeds, offsets)], until)

    def test_moments_of_the_latest_end(self):
        """Nothing passes 64 bits."""
        until = model.LATEST_NS
        vl = model.Network("net", network_text(until).replace("offset_ns = 0", f"offset_ns = {until - 5 * MS}")).vls[1]
        for timing in (False, True):
            own = vl.own._replace(jitter_ns=10**9, is_sporadic=timing)
            self.compare([(seed, vl._replace(streams=(own,), depth=1024)) for seed in range(40)], until)


class Which(unittest.TestCase):
    def test_few_seeds_need_no_library(self):
        self.assertIsNone(many_seeds.library(range(many_seeds.ENOUGH - 1)))
        self.assertIs(many_seeds.library(range(many_seeds.ENOUGH)), NUMPY)


if __name__ == "__main__":
    unittest.main()
