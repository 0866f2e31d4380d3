#!/usr/bin/env python3
"""Tests of solve.py's `between`, by hand and against reference_lp.py. They call the program and esolver.

    python3 tools/tests/test_between.py
"""
import contextlib
import io
import random
import re
import unittest
from fractions import Fraction
from pathlib import Path

from helpers import Asked, at_random, example, needs_esolver as setUpModule, post

import draw
import read
import solve
import variant
from masonry import model as models, numbers, program
from masonry.lp import linear
from masonry.model import Load, Model
from masonry.units import Dead, dead_of
from reference_lp import Lacks


class Ends(Asked):
    """`between`."""

    def test_the_corbel_on_its_prop(self) -> None:
        # Its weight of 16 lies 1 beyond the edge; the prop is 4 beyond it: 16*1/4. About the tail, 3 within, the weight
        # is 4 away and the prop 7: 16*4/7.
        corbel = example("walls/corbel-without-a-tail")
        self.assertEqual(self.solved(corbel, "between", self.cert, "prop", "corbel", "4", "0", "0", "5"), [
            "greatest 64/7 = 9.14285714 accepted", "least 4/1 = 4 accepted", "between 4/1 = 4 and 64/7 = 9.14285714"])
        # A prop that leans by 3 to 4 lifts by 4/5 of its force: 5 at least. It pushes by 3/5, and with 8 it slides: 4.8
        # is half of 16 - 6.4.
        self.assertEqual(self.solved(corbel, "between", self.cert, "prop", "corbel", "4", "0", "3", "4")[-1],
                         "between 5/1 = 5 and 8/1 = 8")

    def test_the_flyer_and_its_wall(self) -> None:
        # Its weight of 16 acts 2 to the left of its foot's left edge and 4 to the left of the right one; the push is 8
        # above: 16*2/8 and 16*4/8.
        self.assertEqual(self.solved(example("arches/flyer"), "between", self.cert)[-1], "between 4/1 = 4 and 8/1 = 8")

    def test_a_tie_under_a_sway(self) -> None:
        # A post 2 wide and 5 high, of the weight 10, with 7/10 of it to the right, 5/2 up: 7*5/2 - 10*1 about the right
        # foot. The tie draws (0, 5) to (-5, 0) with t to the left and down, 5t + 2t: 15/14. About the left foot it tips
        # at 5t = 10*1 + 7*5/2. Its force is t times the square root of 2.
        tie = "tie", "post", "0", "5", "ground", "-5", "0"
        swaying = post([], [1, 0], 5)
        self.assertEqual(self.solved(swaying, "between", self.cert, *tie, "7", "10")[-1],
                         "between 15/14*sqrt(2) = 1.51522882 and 11/2*sqrt(2) = 7.77817459")
        weight = models.read(f"{self.folder}/answer.toml").materials[0].weight
        self.assertGreater(weight, 1)
        for end in "", "-reversed":
            first = Path(f"{self.folder}/answer{end}.toml").read_text().splitlines()[0]
            self.assertEqual(first, f"# All forces are multiplied by {weight}, all lengths by 1.")
        # Without the sway it draws 10*1/5 at most, and pushes with 10*1/7.
        self.assertEqual(self.solved(swaying, "between", self.cert, *tie)[-1],
                         "between -10/7*sqrt(2) = -2.02030509 and 2/1*sqrt(2) = 2.82842712")

    def test_forces_in_kn(self) -> None:
        """The corbel's prop is 16*1/4 at least, 16*4/7 at most: of 0.25 kN each. In a share of the model, of which all
        forces are multiplied, these are the same kN, and so is a tie's length times the square root of 2."""
        corbel = example("walls/corbel-without-a-tail")
        prop = "prop", "corbel", "4", "0", "0", "1", "kN", "0.25"
        wanted = ["forces in kN", "greatest 64/7 = 2.28571429 accepted", "least 4/1 = 1 accepted",
                  "between 4/1 = 1 and 64/7 = 2.28571429"]
        self.assertEqual(self.solved(corbel, "between", self.cert, *prop), wanted)
        swaying, tie = post([], [1, 0], 5), ("tie", "post", "0", "5", "ground", "-5", "0")
        self.assertEqual(self.solved(swaying, "between", self.cert, *tie, "7", "10", "kN", "2")[-1],
                         f"between 15/14*sqrt(2) = {2 * 15 / 14 * 2**0.5:.9g} and 11/2*sqrt(2) = {11 * 2**0.5:.9g}")
        share = variant.in_form("share", [self.name, "7", "10"])
        models.put(self.name, share)
        times = models.model_of(share).materials[0].weight
        last = self.said(solve.main, self.name, "between", self.cert, *tie, "kN", "2")[-1]
        self.assertEqual(last.split(" = ")[1].split()[0], f"{2 * 15 / 14 * 2**0.5:.9g}")
        self.assertEqual(last.split()[1], f"{numbers.ratio(Fraction(15 * times, 14))}*sqrt(2)")
        # A push of 3 to the left at the head of the post of 8 is held by f times 3 to the right and 4 up, at (0, 4):
        # 12f + 8 = 12 about its left foot, and 12f + 8f = 12 + 8 about the right one. The live load comes to 5 of 0.5.
        held = post([Load("post", "dead", [2, 4], [-3, 0]), Load("post", "live", [0, 4], [3, 4])])
        self.assertEqual(self.solved(held, "between", self.cert, "kN", "0.5")[-1],
                         "between 1/3 = 0.83333333 and 1/1 = 2.5")

    def test_a_prop_that_is_no_help(self) -> None:
        # Under a sway of its whole weight the facade falls, and no prop at the side of its roof or under a pier changes
        # that: the motion of a collapse on which the prop does no work says so.
        with contextlib.redirect_stdout(io.StringIO()) as out:
            draw.main(["sway", "1", "0", "facade", "2"])
        facade = models.model_of(out.getvalue())
        for prop in (["gtl", "0", "238", "0", "1"], ["gr2", "287", "61", "1", "0"]):
            self.assertEqual(self.solved(facade, "between", self.cert, "prop", *prop, "1", "1"), [
                "collapses accepted",
                "between no factors: on the motion of this collapse the live loads do no work"])

    def test_a_prop_under_a_sway(self) -> None:
        # The post above, pushed to the left at its head with p: about the right foot 5p = 17.5 - 10, about the left one
        # 5p = 17.5 + 10. At three times the share, 21/10, it is 52.5 in place of 17.5.
        swaying, prop = post([], [1, 0], 5), ("prop", "post", "2", "5", "-1", "0")
        self.assertEqual(self.solved(swaying, "between", self.cert, *prop, "7", "10")[-1],
                         "between 3/2 = 1.5 and 11/2 = 5.5")
        # At 21/10 the foot slides unless 21 - p is at most 10, so from 11 on.
        self.assertEqual(self.solved(swaying, "between", self.cert, *prop, "21", "10")[-1],
                         "between 11/1 = 11 and 25/2 = 12.5")

    def test_factors_where_0_is_not_carried_under_a_sway(self) -> None:
        # The post of 8 is pushed with 5 to the left at its head, dead: 20 about its left foot, where 8 steadies it. The
        # sway of 8 holds it from 16f = 12 on. At 8f = 5 + 8 it slides, before it tips at 16f = 28.
        lines = self.solved(post([Load("post", "dead", [2, 4], [-5, 0])], [1, 0]), "between", self.cert)
        self.assertEqual(lines[-1], "between 3/4 = 0.75 and 13/8 = 1.625")
        shifted = models.read(f"{self.folder}/answer.toml")
        # 3/4 and 13/8 are less by the factor that is dead, of which the file tells: so is what `load` says.
        *_, note = [line for line in Path(f"{self.folder}/answer.toml").read_text().splitlines() if line[:1] == "#"]
        dead = Fraction(re.fullmatch(r"# The factor (\S+) is dead here: .*", note)[1])  # type: ignore[index]
        _, scale, factor = program.answer("load", f"{self.folder}/answer.toml").splitlines()[1].split()
        self.assertEqual(dead + Fraction(int(factor), int(scale)), Fraction(13, 8))
        self.assertEqual((shifted.sway, program.run("check", f"{self.folder}/answer.toml", self.cert).output),
                         ([1, 0], "accepted\n"))

    def test_a_model_that_has_the_name_of_its_answer(self) -> None:
        """The flyer takes a push of 4 to 8. Its model is answer.toml, which stays as it is; the answer is beside it.
        What is read there is told as a factor of the flyer too, and in the reversed model."""
        name = f"{self.folder}/answer.toml"
        models.write(name, example("arches/flyer"))
        before = Path(name).read_bytes()
        self.assertEqual(self.said(solve.main, name, "between", self.cert)[-1], "between 4/1 = 4 and 8/1 = 8")
        self.assertEqual((Path(name).read_bytes(), Path(self.cert).exists()), (before, False))
        stem = f"{self.folder}/answer-between"
        for end, factor in ("", 8), ("-reversed", 4):
            lines = self.said(read.main, f"{stem}{end}.toml", f"{stem}{end}.cert")
            self.assertEqual(lines[1], f"with the dead factor {factor}/1 = {factor}")
        self.assertEqual(self.said(solve.main, f"{stem}.toml", "between", self.cert)[-1],
                         "between -1/1 = -1 and 3/1 = 3")
        self.assertEqual(dead_of(variant.in_form("reversed", [f"{stem}.toml"])), Dead(Fraction(5), -1))
        self.assertEqual(dead_of(variant.in_form("share", [f"{stem}.toml", "1", "2"])), Dead(Fraction(11, 2), 0))
        # The files of the reversed model aren't taken for MODEL's.
        models.write(f"{self.folder}/answer-reversed.toml", example("arches/flyer"))
        self.said(solve.main, f"{self.folder}/answer-reversed.toml", "between", self.cert, status=2)

    def test_no_factor_at_all(self) -> None:
        # No push along the ground holds the corbel.
        corbel = example("walls/corbel-without-a-tail")
        lines = self.solved(corbel, "between", self.cert, "prop", "corbel", "4", "0", "1", "0")
        self.assertEqual([line.split()[0] for line in lines], ["collapses", "between"])

    def test_at_random_against_another_program(self) -> None:
        draws, seen = random.Random(61), set()
        for _ in range(24):
            model = at_random(draws)
            structure, other = self.structure(model)
            found = linear.ends(structure)
            wanted = [other.factor(sign) for sign in (-1, 1)]
            if found is None:
                self.assertEqual(wanted, [Lacks.VALUES] * 2)
                continue
            low, high = found
            self.assertEqual([Lacks.LIMIT if low is None else -low, Lacks.LIMIT if high is None else high], wanted)
            carried = (low is None or low <= 0) and (high is None or high >= 0)
            seen.add("carried" if carried else "held")
            self.certified(model, low, high)
        self.assertTrue({"carried", "held"} <= seen)

    def certified(self, model: Model, low: Fraction | None, high: Fraction | None) -> None:
        lines = self.solved(model, "between", self.cert)
        ends = [line.split()[1] for line in lines[:2]]
        self.assertEqual(ends, ["unlimited" if one is None else f"{one.numerator}/{one.denominator}"
                                for one in (high, low)])
        for end in "", "-reversed":
            done = program.run("check", f"{self.folder}/answer{end}.toml", f"{self.folder}/answer{end}.cert")
            self.assertEqual(done.output, "accepted\n")


if __name__ == "__main__":
    unittest.main()
