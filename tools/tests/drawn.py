"""Tests over drawn input, by hypothesis (Debian's python3-hypothesis), which makes what it finds as small as it can.

    @drawn.given(60)
    def test_it(self, draw):        # `draw` is used as one of Python's random.Random

Where it is not there the test is skipped, and says so.
"""
import unittest

from afdx.files import debian_modules

hypothesis = debian_modules.found("hypothesis")
PACKAGE = "python3-hypothesis"


def given(count):
    """Makes a method a test over so many draws, the same at each run."""
    if hypothesis is None:
        return unittest.skip(f"there is no hypothesis: apt-get install -y {PACKAGE}")
    from hypothesis import HealthCheck, settings, strategies

    how = settings(
        max_examples=count, derandomize=True, database=None, deadline=None, suppress_health_check=list(HealthCheck),
        print_blob=False,
    )
    return lambda test: how(hypothesis.given(draw=strategies.randoms(use_true_random=False))(test))
