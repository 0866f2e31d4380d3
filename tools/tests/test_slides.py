#!/usr/bin/env python3
"""Tests of solve.py's `slides`, by hand and against reference_lp.py. They call the program and esolver.

    python3 tools/tests/test_slides.py
"""
import random
import unittest
from dataclasses import replace
from fractions import Fraction
from unittest import mock

from helpers import Asked, at_random, example, needs_esolver as setUpModule, post

import solve
from masonry import model as models
from masonry.model import Block, Load, Model
from masonry.questions import slides
from masonry.units import Scale
from reference_lp import Lacks


class Slides(Asked):
    def joints(self, model: Model, *words: str) -> list[str]:
        return [" ".join(line.split()[1:3]) for line in self.solved(model, "slides", *words, "all")
                if line.startswith("joint") and " can " in line]

    def rough(self, model: Model, friction: models.Point) -> Model:
        return replace(model, materials=[replace(one, friction=friction) for one in model.materials])

    def test_the_footbridge(self) -> None:
        arch = example("arches/footbridge")
        self.assertEqual(self.solved(arch, "slides")[-1],
                         "no joint can slide from 0 to 144233013/1496000 = 96.4124")
        nearer = replace(arch, loads=[replace(arch.loads[0], block="v6", at=[-84, 88])])
        self.assertEqual(self.solved(nearer, "slides")[-1],
                         "no joint can slide from 0 to 144233013/2589125 = 55.7072")

    def test_the_footbridge_with_less_friction(self) -> None:
        # By hand: the thrust line of three hinges at (174, 18), (-84, 88) and (-150, 0), with T = 0.58*N in the second.
        lines = self.solved(self.rough(example("arches/footbridge"), [29, 50]), "slides")
        self.assertTrue(lines[1].startswith("joint v5 v6 can slide from 64415721/1086470 = 59.289 to "), lines)
        self.assertIn("joint v5 v6 N 604730 T -350743 way 0", lines)
        self.assertEqual(self.joints(self.rough(example("arches/footbridge"), [29, 50]), "59", "1"), [])
        self.assertEqual(self.joints(self.rough(example("arches/footbridge"), [29, 50]), "60", "1"), ["v5 v6"])

    def test_forces_in_kn(self) -> None:
        """The load of 10000 is 1 kN, and N and T are in kN too, also in a model whose forces are doubled."""
        arch = self.rough(example("arches/footbridge"), [29, 50])
        models.write(self.name, replace(arch, loads=[replace(arch.loads[0], force=[0, -20000])],
                                        materials=[replace(one, weight=2 * one.weight) for one in arch.materials]))
        models.put(self.name, Scale(Fraction(2)).line() + models.text_of(self.name))
        lines = self.said(solve.main, self.name, "slides", "kN", "0.0001")
        self.assertEqual(lines[0], "forces in kN")
        self.assertTrue(lines[2].startswith("joint v5 v6 can slide from 64415721/1086470 = 59.289 to "), lines)
        self.assertTrue(lines[2].endswith(" = 93.6608, with N 60.473 T -35.0743"), lines)
        # With a sway, factors stay shares of the weight: the post of 8 tips at half of it.
        said = self.solved(post([], [1, 0]), "slides", "kN", "10")
        self.assertEqual((said[1][:7], said[-1]), ("factors", "no joint can slide from 0 to 1/2 = 0.5"))
        # No length is printed.
        self.said(solve.main, self.name, "slides", "kN", "10", "m", "1", status=2)

    def test_a_block_that_jambs_hold(self) -> None:
        held = example("posts/post-on-a-gripped-stone")
        for friction in [7, 10], [1000, 1]:
            self.assertEqual(set(self.joints(self.rough(held, friction))), {"left-jamb stone", "right-jamb stone"})

    def test_no_further_than_the_collapse_load_factor(self) -> None:
        # The pushed post tips at 2, beyond which nothing presses it any more; it would slide at 8 times its friction.
        pushed = self.rough(post([Load("post", "live", [0, 4], [1, 0])]), [1, 2])
        for words, until in (["100", "1"], "2/1 = 2"), (["1", "1"], "1/1 = 1"):
            self.assertEqual(self.solved(pushed, "slides", *words)[-1], f"no joint can slide from 0 to {until}")

    def test_the_first_joint_is_enough(self) -> None:
        """Of the two joints that can slide one is named, which is the first in the other order as well; and where none
        can, each is asked about."""
        held = example("posts/post-on-a-gripped-stone")
        first, every = self.solved(held, "slides"), self.solved(held, "slides", "all")
        named = [line for line in first if " can " in line]
        self.assertEqual((len({tuple(line.split()[1:3]) for line in named}), len(named)), (1, 1))
        self.assertIn(named[0], every)
        self.assertTrue(first[-1].startswith("one joint is enough"), first)
        asked = list[int]()
        real = slides.Pressing.slide

        def counted(pressing: slides.Pressing, j: int, sign: int) -> slides.Slide | None:
            asked.append(j)
            return real(pressing, j, sign)

        with mock.patch.object(slides.Pressing, "slide", counted):
            self.solved(held, "slides")
            self.assertLessEqual(len(asked), 2)
            asked.clear()
            self.solved(example("arches/footbridge"), "slides")
        self.assertEqual(sorted(asked), [j for j in range(8) for _ in "ab"])

    def test_a_joint_at_its_limit_can_slide(self) -> None:
        # The post of 8 slides at 8 times its friction, and tips at twice the push: with 1/4 it can slide at 2.
        pushed = post([Load("post", "live", [0, 4], [1, 0])])
        self.assertEqual(self.joints(self.rough(pushed, [1, 4])), ["ground post"])
        self.assertEqual(self.joints(self.rough(pushed, [251, 1000])), [])
        self.assertEqual(self.joints(self.rough(pushed, [1, 4]), "1999", "1000"), [])

    def test_a_joint_that_carries_nothing_can_slide(self) -> None:
        # The post is lifted with its weight; beside it stands a wall, with which it need not press.
        lifted = post([Load("post", "live", [1, 4], [0, 1])])
        self.assertEqual(self.solved(lifted, "slides")[1],
                         "joint ground post can carry nothing, and so slide, from 8/1 = 8 to 8/1 = 8")
        wall = Block(name="wall", material="stone", fixed=True, corners=[[2, 0], [5, 0], [5, 9], [2, 9]])
        beside = replace(lifted, loads=[], blocks=[*lifted.blocks, wall])
        self.assertIn("post wall", self.joints(beside))

    def test_loads_without_limit_and_a_collapse(self) -> None:
        pressed = post([Load("post", "live", [1, 4], [0, -1])])
        self.assertEqual(self.solved(pressed, "slides")[-1], "no joint can slide at any factor from 0 on")
        self.assertEqual(self.solved(post([Load("post", "dead", [9, 4], [0, -9])]), "slides"), ["collapses accepted"])

    def test_at_random_against_another_program(self) -> None:
        draws, seen = random.Random(7), set()
        for _ in range(30):
            structure, other = self.structure(at_random(draws))
            if len(structure.bearings) > 6:
                continue  # which takes the other program long
            high = other.factor(1)
            low = other.factor(-1)
            if isinstance(high, Lacks) or high < 0 or not isinstance(low, Lacks) and low < 0:
                continue  # no limit, or the dead loads aren't carried
            for j, (_, numbers) in enumerate(structure.joints().items()):
                for sign in 1, -1:
                    found = slides.Pressing(structure, high).slide(j, sign)
                    most = other.excess(numbers, sign, high)
                    slipping = most is Lacks.LIMIT or isinstance(most, Fraction) and most >= 0
                    self.assertEqual(found is not None, slipping)
                    seen.add(slipping)
                    if found:
                        self.assertEqual(-found.least, other.excess(numbers, sign, high, least=True))
        self.assertEqual(seen, {True, False})


if __name__ == "__main__":
    unittest.main()
