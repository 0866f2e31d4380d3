#!/usr/bin/env python3
"""Tests of solve.py's `friction`, by hand. They call the program and esolver.

    python3 tools/tests/test_frictions.py
"""
import unittest
from dataclasses import replace
from fractions import Fraction
from math import ceil, floor

from helpers import Asked, example, needs_esolver as setUpModule, post

from masonry import program
from masonry.model import Load, Material, Model
from masonry.questions import frictions


class Frictions(Asked):
    def shares(self, model: Model, *words: str) -> list[Fraction]:
        """The shares with which it stands and falls, which are close together, and whose certificates are accepted."""
        lines = self.solved(model, "friction", self.cert, *words)
        self.assertEqual([line.split()[-2:] for line in lines], [["stands,", "accepted"], ["falls,", "accepted"]])
        stands, falls = (Fraction(line.split()[2]) for line in lines)
        self.assertTrue(falls < stands <= falls * Fraction(503, 500), lines)
        for word, form in ("stands", "stands"), ("falls", "collapses"):
            stem = f"{self.folder}/answer-{word}"
            done = program.run("check", f"{stem}.toml", f"{stem}.cert")
            self.assertEqual((done.output, open(f"{stem}.cert").read().split()[0]), ("accepted\n", form))
        return [stands, falls]

    def test_a_block_on_a_slope(self) -> None:
        # The slope rises by 3 in 4. With friction 3/4 the block just stands: it needs all of that, and 15/14 of 7/10.
        self.assertEqual(self.shares(example("slopes/block-on-slope"))[0], 1)
        self.assertEqual(self.shares(example("slopes/block-on-slick-slope"))[0], Fraction(15, 14))

    def test_a_post_that_is_pushed_low(self) -> None:
        # It weighs 8, and a push of 1 needs an eighth of its friction 1; three times as much needs three eighths.
        low = post([Load("post", "live", [0, 0], [1, 0])])
        self.assertEqual(self.shares(low, "1", "1")[0], Fraction(1, 8))
        self.assertEqual(self.shares(low, "3", "1")[0], Fraction(3, 8))

    def test_a_joint_of_its_own_counts(self) -> None:
        low = post([Load("post", "live", [0, 0], [1, 0])])
        self.assertEqual(self.shares(replace(low, materials=[Material("stone", 1, [1, 2])]), "1", "1")[0],
                         Fraction(1, 4))

    def test_none_is_needed_or_none_is_enough(self) -> None:
        lines = self.solved(post([]), "friction", self.cert)
        self.assertEqual(lines, ["friction times 0/1 = 0 stands, accepted", "no friction is needed"])
        # Pushed at its head with more than 8*1/4 it tips, whatever its friction.
        lines = self.solved(post([Load("post", "live", [0, 4], [1, 0])]), "friction", self.cert, "3", "1", status=70)
        self.assertEqual(lines, ["friction times 512/1 = 512 falls, accepted"])

    def test_coefficients_are_rounded_to_the_safe_side(self) -> None:
        for friction, share in ([997, 1000], Fraction(2, 3)), ([1, 1], Fraction(12345, 54321)), ([3, 7], Fraction(1)):
            exact = share * Fraction(*friction)
            low, high = (frictions.coefficient(friction, share, rounded) for rounded in (floor, ceil))
            assert low is not None and high is not None
            self.assertTrue(low <= exact <= high and high - low < Fraction(1, 900), (low, exact, high))
            self.assertTrue(max(low.numerator, low.denominator, high.numerator, high.denominator) <= 1000)
        self.assertEqual(frictions.coefficient([1000, 1], Fraction(2), floor), 1000)
        self.assertIsNone(frictions.coefficient([1000, 1], Fraction(2), ceil))


if __name__ == "__main__":
    unittest.main()
