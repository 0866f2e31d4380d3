#!/usr/bin/env python3
"""Tests of read.py and masonry/motion.py, on values by hand.

    python3 tools/tests/test_read.py
"""
import unittest
from fractions import Fraction
from unittest import mock

import helpers  # puts tools/ where modules are found

import read
from masonry import numbers
from masonry.console import Words
from masonry.model import Bearing, Block
from masonry.motion import Move
from masonry.units import Scale, Units


def bearing(first: str, second: str, x: int, y: int) -> Bearing:
    """A bearing of a horizontal joint, with the friction a half."""
    return Bearing(first, second, (x, y), (1, 0), 1, 2)


class Readings(unittest.TestCase):
    # Three blocks on one another, 2 wide and 1 high.
    BLOCKS = [Block(name=name, material="stone", corners=[[0, y], [2, y], [2, y + 1], [0, y + 1]])
              for y, name in enumerate("abc")]
    BEARINGS = [bearing("a", "b", 0, 1), bearing("a", "b", 2, 1), bearing("b", "c", 0, 2), bearing("b", "c", 2, 2)]

    def lines(self, moves: dict[str, Move], part: float = 0, units: Units = Units()) -> list[str]:
        table = read.Table(self.BEARINGS, None, {}, moves)
        return list(read.lines_of(table, self.BLOCKS, read.Asked(part, units)))

    def test_blocks_that_turn_as_one_share_a_line(self) -> None:
        # b and c turn clockwise about (2, 1): the first corner of b has the velocity (0, 2), that of c (1, 2).
        self.assertEqual(self.lines({"a": (0, 0, 0), "b": (0, 2, -1), "c": (1, 2, -1)}), [
            "joint a b opening 2 0 slide 0 0 hinge 2 1", "closed b/c", "together b c turn about 2 1 at -1", "still a"])

    def test_a_block_that_turns_otherwise_has_its_own_line(self) -> None:
        self.assertEqual(self.lines({"a": (0, 0, 0), "b": (0, 2, -1), "c": (1, 4, -2)}), [
            "joint a b opening 2 0 slide 0 0 hinge 2 1", "joint b c opening 2 0 slide 0 0 hinge 2 2",
            "block b turns about 2 1 at -1", "block c turns about 2 1.5 at -2", "still a"])

    def test_a_slide_opens_by_the_friction(self) -> None:
        # 2 to the right and 1 up slides at the friction 1/2; 2 up besides opens.
        self.assertEqual(self.lines({"a": (0, 0, 0), "b": (2, 1, 0), "c": (4, 4, 0)}), [
            "joint a b opening 1 1 slide 2 2 slides", "joint b c opening 3 3 slide 2 2 opens",
            "block b moves 2 1", "block c moves 4 4", "still a"])

    def test_small_movements_count_as_none(self) -> None:
        moves: dict[str, Move] = {"a": (0, 1, 0), "b": (1, 2 * 10**7, -10**7), "c": (10**7, 2 * 10**7 + 3, -10**7)}
        self.assertEqual(self.lines(moves, 1e-6), [
            "joint a b opening 2 0 slide 0 0 hinge 2 1", "closed b/c", "together b c turn about 2 1 at -1", "still a"])
        self.assertEqual(len(self.lines(moves)), 5)

    def test_decimals_stand_beside_fractions(self) -> None:
        self.assertEqual(numbers.with_decimal(Fraction(976209255, 48392)), "976209255/48392 = 20172.9")
        self.assertEqual([numbers.with_decimal(end) for end in ("-11/1", "unlimited")], ["-11/1 = -11", "unlimited"])

    def test_a_thrust_is_the_mean_of_its_bearings(self) -> None:
        # 3 at x = 0 and 1 at x = 2 press as 4 at x = 1/2.
        forces, nothing = [(Fraction(1), Fraction(3)), (Fraction(0), Fraction(1))], [(Fraction(0), Fraction(0))] * 2
        self.assertEqual(read.thrust(self.BEARINGS[:2], forces, Units()), "N 4 T 1 force 1 4 at 0.5 1 way 0.25")
        self.assertEqual(read.thrust(self.BEARINGS[:2], nothing, Units()), "bears nothing")

    def test_units(self) -> None:
        """A force of 1 is 0.25 kN and a length of 1 is 0.5 m; in a model in which forces are doubled, an eighth."""
        units = Units(Fraction(1, 4), Fraction(1, 2))
        forces = [(Fraction(1), Fraction(3)), (Fraction(0), Fraction(1))]
        self.assertEqual(read.thrust(self.BEARINGS[:2], forces, units), "N 1 T 0.25 force 0.25 1 at 0.25 0.5 way 0.25")
        self.assertEqual(self.lines({"a": (0, 0, 0), "b": (0, 2, -1), "c": (1, 4, -2)}, units=units), [
            "joint a b opening 1 0 slide 0 0 hinge 1 0.5", "joint b c opening 1 0 slide 0 0 hinge 1 1",
            "block b turns about 1 0.5 at -1", "block c turns about 1 0.75 at -2", "still a"])
        self.assertEqual(self.lines({"a": (0, 0, 0), "b": (2, 1, 0), "c": (4, 4, 0)}, units=units)[2],
                         "block b moves 1 0.5")
        scale = Scale(Fraction(2), 10)
        self.assertEqual(read.units_of(["kN", "0.25"], scale),
                         (Units(Fraction(1, 8), Fraction(1)), ["forces in kN", "multiplied lengths 10"]))
        self.assertEqual(read.units_of(["m", "0.5", "kN", "1"], scale),
                         (Units(Fraction(1, 2), Fraction(1, 20)), ["forces in kN", "lengths in m"]))
        self.assertEqual(read.units_of([], Scale()), (Units(), []))

    def test_wrong_words_are_told(self) -> None:
        tried: list[list[str]] = [
            [], ["nan"], ["2"], ["1"], ["-0.5"], ["x"], ["kN"], ["kN", "0"], ["kN", "1", "kN", "1"], ["0.5", "0.5"],
            ["kN", "1", "m"], ["kN", "inf"], ["0.5", "ft", "1"]]
        for words in tried:
            with mock.patch.object(read, "text_of", lambda name: ""), self.assertRaises(Words):
                read.main((["m", "c"] if words else ["m"]) + words)


if __name__ == "__main__":
    unittest.main()
