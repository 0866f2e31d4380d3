#!/usr/bin/env python3
"""Tests of masonry/directions.py, with which survey.py and variant.py turn joints into short directions.

    python3 tools/tests/test_directions.py

They call the program and esolver.
"""
import random
import unittest
from collections.abc import Iterable
from fractions import Fraction
from math import gcd

from helpers import Asked, needs_esolver as setUpModule

import draw
import solve
import survey
import variant
from masonry import model as models, program
from masonry.console import Words
from masonry.directions import SHORT, in_short_directions, primitive
from masonry.model import Block, Load, Material, Model

Pair = tuple[int, int]


def directions(model: str) -> dict[tuple[str, str], Pair]:
    """The direction of each joint, by its bodies."""
    return {(one.first, one.second): primitive(one.tangent)
            for one in models.bearings_of(program.answer("contacts", model))}


def longest(ways: Iterable[Pair]) -> int:
    """The greatest number of these directions."""
    return max(abs(part) for way in ways for part in way)


class Directions(Asked):
    def drawn(self, *words: str) -> Model:
        models.put(self.name, "\n".join(self.said(draw.main, *words)) + "\n")
        return models.read(self.name)

    def shortened(self, reach: str) -> Model:
        models.put(self.name, "\n".join(self.said(variant.main, "short", self.name, reach)) + "\n")
        return models.read(self.name)

    def test_one_joint_is_turned_by_the_least_move(self) -> None:
        """Two stones with one joint, against all places of its ends within reach."""
        draws, turned = random.Random(5), 0
        for _ in range(40):
            x, y, reach = draws.randint(-60, 60), draws.randint(40, 200), draws.choice((2, 3, 4))
            stones = {"left": [(-300, 0), (0, 0), (x, y), (-300, y)], "right": [(0, 0), (300, 0), (300, y), (x, y)]}
            disk = [(u, v) for u in range(-reach, reach + 1) for v in range(-reach, reach + 1)
                    if u * u + v * v <= reach * reach]
            wanted = min((max(u * u + v * v, p * p + q * q) for u, v in disk for p, q in disk
                          if max(abs(x + p - u), abs(y + q - v)) <= SHORT * gcd(x + p - u, y + q - v)), default=None)
            if longest([primitive((x, y))]) <= SHORT:
                wanted = 0
            found = in_short_directions(stones, Fraction(reach))
            (a, b), (c, d) = found.outlines["left"][1:3]
            self.assertEqual(found.outlines["right"], [(a, b), (300, 0), (300, y), (c, d)])
            moved = max(a * a + b * b, (c - x) ** 2 + (d - y) ** 2)
            self.assertEqual((moved, found.left), (0, 1) if wanted is None else (wanted, 0))
            turned += found.turned
        self.assertGreater(turned, 20)

    def test_fine_rings_are_settled(self) -> None:
        """48 voussoirs on a grid of 5 mm: as drawn neither the program nor solve.py has a certificate; with corners
        that move by less than 2 cm it is there. All joints stay."""
        for words in ("ring", "48", "450", "100"), ("ring", "30", "2250", "500"):
            before = self.drawn(*words)
            joints = directions(self.name)
            self.said(solve.main, self.name, "stand", self.cert, status=70)
            after = self.shortened("4")
            self.assertEqual(self.said(solve.main, self.name, "stand", self.cert), ["stands accepted"])
            self.assertEqual(directions(self.name).keys(), joints.keys())
            self.assertLessEqual(longest(directions(self.name).values()), SHORT)
            for one, other in zip(before.blocks, after.blocks):
                for (a, b), (c, d) in zip(one.corners, other.corners):
                    self.assertLessEqual((a - c) ** 2 + (b - d) ** 2, 16)

    def test_the_least_thickness_of_a_ring(self) -> None:
        """Half a ring stands from 0.1075 of its mean radius on (Milankovitch 1907), here with short joints."""
        for thickness, answer in ("260", "stands accepted"), ("225", "collapses accepted"):
            self.drawn("ring", "30", "2250", thickness)
            self.shortened("4")
            self.assertEqual(self.said(solve.main, self.name, "stand", self.cert), [answer])

    def test_a_bed_with_perpends(self) -> None:
        """The bed from (0, 0) to (120, 4) has two stones below it and two above, with perpends at other places. It is
        in no short direction; (12, 1) is, with the ends 3 up and 3 down. All corners stay on it, and no joint goes."""
        ways = {"a": [(0, -60), (60, -60), (60, 2), (0, 0)], "b": [(60, -60), (120, -60), (120, 4), (60, 2)],
                "c": [(0, 0), (90, 3), (91, 60), (0, 60)], "d": [(90, 3), (120, 4), (120, 60), (91, 60)]}
        loads = [Load("c", "live", [0, 60], [1, 0]), Load("d", "live", [100, 60], [1, 0])]
        model = Model(None, None, [Material("stone", 1, [1, 2])], [], [
            Block(name=name, material="stone", fixed=name in "ab", corners=corners) for name, corners in ways.items()],
            loads)
        models.write(self.name, model)
        joints = directions(self.name)
        after = self.shortened("4")
        self.assertEqual(directions(self.name).keys(), joints.keys())
        bed = {directions(self.name)[pair] for pair in (("a", "c"), ("b", "c"), ("b", "d"))}
        self.assertEqual(len(bed), 1)
        self.assertLessEqual(longest(bed), SHORT)
        self.assertEqual([load.at for load in after.loads][1], [100, 60])
        self.assertEqual(after.loads[0].at, after.blocks[2].corners[3])
        for one, other in zip(model.blocks, after.blocks):
            self.assertTrue(all((a - c) ** 2 + (b - d) ** 2 <= 16
                                for (a, b), (c, d) in zip(one.corners, other.corners)))

    def test_walls_keep_their_joints(self) -> None:
        for words in ("rubble", "5", "1"), ("bonded", "4", "4", "1", "17"), ("coursed", "4", "4", "2", "5"):
            self.drawn(*words)
            joints = directions(self.name)
            self.shortened("3")
            self.assertEqual(directions(self.name).keys(), joints.keys(), words)

    def test_a_survey_in_short_directions(self) -> None:
        """On a grid of 1 mm the joint from (0, 0) to (0.163, 0.497) comes to 163 by 497; (1, 3) is 1 mm off at each end
        at most."""
        corners = "".join(f"{name},s,{x},{y}\n" for name, of in (
            ("a", ((-1, 0), (0, 0), (0.163, 0.497), (-1, 0.497))), ("b", ((0, 0), (1, 0), (1, 0.497), (0.163, 0.497))))
            for x, y in of)
        models.put(self.name, corners)
        words = "0.001", "0.003", "short", "material", "s", "22", "2", "3", "fixed", "b"
        lines = self.said(survey.main, self.name, *words)
        found = models.model_of("\n".join(lines))
        (a, b), (c, d) = found.blocks[0].corners[1:3]
        self.assertLessEqual(longest([primitive((c - a, d - b))]), SHORT)
        self.assertEqual(survey.asked_of(["short"]).short, True)
        with self.assertRaises(Words):
            survey.asked_of(["short", "short"])


if __name__ == "__main__":
    unittest.main()
