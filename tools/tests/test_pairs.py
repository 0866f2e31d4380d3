#!/usr/bin/env python3
"""Tests of masonry/questions/pairs.py against reference_lp.py. They call the program and esolver.

    python3 tools/tests/test_pairs.py
"""
import random
import unittest
from dataclasses import replace
from fractions import Fraction
from pathlib import Path
from unittest import mock

from helpers import Asked, at_random, needs_esolver as setUpModule, refusing

from masonry import model as models, program
from masonry.console import quiet
from masonry.model import Load, Model
from masonry.questions import pairs
from reference_lp import Lacks


class Pairs(Asked):
    def test_groups_at_random_against_another_program(self) -> None:
        draws, seen = random.Random(5), set()
        for number in range(12):
            model = at_random(draws, live=False)
            names = [block.name for block in model.free_blocks()]
            loads = [Load(draws.choice(names), "live", [draws.randint(-9, 9), draws.randint(0, 9)],
                          [draws.randint(-9, 9), draws.randint(-9, 9)]) for _ in range(3)]
            model, at = replace(model, loads=[*model.loads, *loads]), len(model.loads)
            i, j = f"{at + 1},{at + 3}", f"{at + 2},sway" if any(model.sway or ()) else str(at + 2)
            direction = draws.randint(-5, 5) or 1, draws.randint(-5, 5)
            wanted = self.wanted(model, at, direction)
            if program.run("stand", self.name).status:
                continue  # the dead loads collapse
            Path(f"{self.folder}/dirs").write_text("dir %d %d\n" % direction)
            with mock.patch.object(program, "run", refusing if number % 2 else program.run):
                region = pairs.region_of(self.name, i, j, f"{self.folder}/dirs", quiet)
            if wanted is Lacks.LIMIT:
                self.assertEqual(region.unlimited, [direction])
            else:
                assert isinstance(wanted, Fraction)
                self.assertEqual(region.points, {direction: (wanted * direction[0], wanted * direction[1])})
                half, = region.halves
                self.assertEqual(wanted * (half[0] * direction[0] + half[1] * direction[1]), half[2])
            seen.add(wanted is Lacks.LIMIT)
        self.assertIn(False, seen)

    def wanted(self, model: Model, at: int, direction: tuple[int, int]) -> Fraction | Lacks:
        """How far both groups can be raised together, by the other program: their live loads as they then are."""
        m, n = direction
        times = dict(zip(range(at, at + 3), (m, n, m)))
        loads = [load.times(times.get(number, 1)) for number, load in enumerate(model.loads)]
        sway = model.sway and [n * part for part in model.sway]
        found = self.structure(replace(model, loads=loads, sway=sway))[1].factor(1)
        models.write(self.name, model)
        return found


if __name__ == "__main__":
    unittest.main()
