"""The sum in the commit lines of journals."""
from __future__ import annotations

import random
import unittest

from maptools.sip_hash import sip_hash
from tests import journal_tests


class Sums(unittest.TestCase):
    """SipHash-1-3 under the key 0."""

    def test_the_sum_of_nothing(self) -> None:
        self.assertEqual(f"{sip_hash(b''):016x}", "d1fba762150c532c")

    def test_sums_of_a_second_program(self) -> None:
        dice = random.Random(1)
        for length in (*range(1, 70), 254, 255, 256, 257, 4_096):
            text = bytes(dice.choices(range(256), k=length))
            self.assertEqual(sip_hash(text), journal_tests.sip_hash(text), length)
