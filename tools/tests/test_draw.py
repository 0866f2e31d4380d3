#!/usr/bin/env python3
"""Tests of draw.py and masonry/shapes.py, on values by hand.

    python3 tools/tests/test_draw.py
"""
import unittest
from contextlib import redirect_stdout
from fractions import Fraction
from io import StringIO
from math import atan2, gcd, pi

import helpers  # puts tools/ where modules are found

import draw
from masonry import shapes
from masonry.console import Refused, Words
from masonry.model import model_of, twice_area


class Drawings(unittest.TestCase):
    def test_a_facade_has_twenty_four_stones(self) -> None:
        for seed in (None, 1, 2):
            _, bodies, (name, _, _) = shapes.facade(seed)
            names = [body for body, fixed, _ in bodies if not fixed]
            self.assertEqual((len(set(names)), names.count(name)), (24, 1))
        self.assertEqual(shapes.facade(7), shapes.facade(7))
        self.assertNotEqual(shapes.facade(7), shapes.facade(8))

    def test_a_facade_without_a_seed_is_symmetric(self) -> None:
        _, bodies, _ = shapes.facade()
        width = max(x for _, fixed, corners in bodies if not fixed for x, _ in corners)
        places = {frozenset((x, y) for x, y in corners) for _, _, corners in bodies}
        self.assertEqual({frozenset((width - x, y) for x, y in corners) for corners in places}, places)

    def test_short_joints_have_few_primes(self) -> None:
        for count in (5, 12, 20, 40):
            directions = shapes.short_directions(count)
            self.assertEqual(len(set(directions)), count + 1)
            for joint, (x, y) in enumerate(directions):
                self.assertEqual(gcd(x, y), 1)
                self.assertTrue(shapes.of_primes(x * x + y * y, (2, 5, 13)))
                self.assertLess(abs(atan2(y, x) - pi * joint / count), 0.6 * pi / count)
            for (start, end), (x, y) in zip(shapes.short_joints(count, 1800, 600), directions):
                times = gcd(end[0] - start[0], end[1] - start[1])
                self.assertEqual((times * x, times * y), (end[0] - start[0], end[1] - start[1]))
                self.assertTrue(shapes.of_primes(times, (2, 5)))

    def test_rubble_has_as_many_stones_as_courses_if_no_number_is_given(self) -> None:
        self.assertEqual(shapes.rubble(4, 1), shapes.rubble(4, 4, 1))
        self.assertEqual(len(shapes.rubble(2, 3, 1)[1]), 7)

    def test_stones_off_plumb_share_their_corners(self) -> None:
        _, bodies, _ = shapes.coursed(4, 5, 3, 5)
        for (_, _, one), (_, _, other) in zip(bodies[1:], bodies[2:]):
            if one[0][1] == other[0][1]:
                self.assertEqual((one[1], one[2]), (other[0], other[3]))
                self.assertLessEqual(abs(one[1][0] - one[2][0]), 5)


    def test_bonded_stone_lies_in_bond_on_sloping_beds(self) -> None:
        """Along the bed and up, in units of sqrt(37) on the grid, are found by the products with (6, 1) and (-1, 6)."""
        courses: dict[int, list[list[tuple[Fraction, Fraction]]]] = {}
        _, bodies, load = shapes.bonded(5, 4, 2, 6)
        for body in bodies[1:]:
            course = int(body.name[1:].split("-")[0])
            corners = [(Fraction(6 * x + y, 37), Fraction(6 * y - x, 37)) for x, y in body.corners]
            self.assertTrue(all(part.denominator == 1 for corner in corners for part in corner))
            self.assertEqual((corners[0][1], corners[2][1]), (corners[1][1], corners[3][1]))
            self.assertTrue(8 <= corners[2][1] - corners[1][1] <= 14)
            courses.setdefault(course, []).append(corners)
        self.assertEqual([len(stones) for stones in courses.values()], [4] * 5)
        for number in range(4):
            heads = {stone[2][0] for stone in courses[number][:-1]}
            feet = {stone[1][0] for stone in courses[number + 1][:-1]}
            self.assertGreaterEqual(min(abs(head - foot) for head in heads for foot in feet), 4)
            self.assertEqual(courses[number][0][2][1], courses[number + 1][0][0][1])
        self.assertEqual(load.block, "s4-0")

    def test_a_whole_ring(self) -> None:
        """Its eleven free voussoirs are eleven twelfths of a ring of twelve corners, of the area 12/2*sin(30 degrees)
        times the difference of the squares of its radii. Two neighbours share a joint, all round."""
        bodies = shapes.ring(12, 20000, 4000, 360).bodies
        area = sum(abs(twice_area(body.corners)) for body in bodies if not body.fixed) / 2
        self.assertAlmostEqual(area / (11 / 4 * (22000 ** 2 - 18000 ** 2)), 1, 3)
        self.assertEqual([body.name for body in bodies if body.fixed], ["invert"])
        joined = bodies[1:] + bodies[:1]
        self.assertTrue(all(len(set(one.corners) & set(other.corners)) == 2 for one, other in zip(bodies, joined)))
        with self.assertRaises(Refused):
            shapes.ring(2, 200, 40, 360)

    def test_a_ring_is_its_own_mirror_image(self) -> None:
        for count, radius, thickness, degrees in ((6, 260, 34, 120), (5, 300, 70, 100), (7, 202.5, 30, 106.26)):
            with self.subTest(count):
                corners = [set(body.corners) for body in shapes.ring(count, radius, thickness, degrees)[1]]
                self.assertCountEqual(corners, [{(-x, y) for x, y in stone} for stone in corners])

    def test_wrong_words_are_told(self) -> None:
        for words in ("ring 0 10 2", "arch 0 100", "wall 0 0", "wall 2", "tower 2", "sway 1", "sway 1 0",
                      "joint 1 0 wall 2 2", "ring 3 nan 2", "wall 2 2 0.5", "arch 8 400 long", "facade x"):
            with self.subTest(words), self.assertRaises(Words):
                draw.main(words.split())
        for words in ("wall 40 40", "arch 3 2", "ring 5 10 30", "arch 128 400 short", "half 9 1 1",
                      "ring 9 999999 500000"):
            with self.subTest(words), self.assertRaises(Refused):
                draw.main(words.split())

    def test_what_is_drawn_is_a_model(self) -> None:
        for words in ("arch 9 480", "arch 8 400 short", "ring 9 225 50", "half 5 100.5 20", "wall 3 4 7",
                      "coursed 3 4 1 5", "rubble 3 2", "bonded 3 3 1 5", "facade 3", "sway 3 -1 joint 1 2 wall 3 3"):
            with self.subTest(words), redirect_stdout(StringIO()) as out:
                self.assertEqual(draw.main(words.split()), 0)
                model_of(out.getvalue())


if __name__ == "__main__":
    unittest.main()
