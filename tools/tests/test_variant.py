#!/usr/bin/env python3
"""Tests of variant.py, inset.py and units.py, on values by hand.

    python3 tools/tests/test_variant.py

The program is called where it is built, or PUNGIROE names one.
"""
import random
import unittest
from contextlib import redirect_stderr
from fractions import Fraction
from io import StringIO
from pathlib import Path
from tempfile import TemporaryDirectory
from unittest import mock

from helpers import TOP

import variant
from masonry import program
from masonry.console import Refused, Words
from masonry.inset import inset, steps_off
from masonry.model import (Bearing, Block, Load, Material, Model, bearings_of, model_of, printed, share, twice_area,
                           write)
from masonry.numbers import decimal
from masonry.open_faces import cross, is_convex, minus
from masonry.program import NOT_BUILT, built
from masonry.units import Scale, scale_of


def post(*loads: Load, sway: list[int] | None = None) -> Model:
    """A post, 2 wide and 4 high, of the weight 8, with a stone beside it."""
    blocks = [Block(name="ground", material="stone", fixed=True, corners=[[-10, -1], [10, -1], [10, 0], [-10, 0]]),
              Block(name="post", material="stone", corners=[[0, 0], [2, 0], [2, 4], [0, 4]]),
              Block(name="stone", material="stone", corners=[[5, 0], [6, 0], [6, 1], [5, 1]])]
    return Model(2 if sway else None, sway, [Material("stone", 1, [1, 1])], [], blocks, list(loads))


PUSH = Load("post", "live", [0, 4], [1, 0])
BEARINGS = [Bearing("ground", "post", (0, 0), (1, 0), 1, 1), Bearing("ground", "post", (2, 0), (1, 0), 1, 1),
            Bearing("ground", "stone", (5, 0), (1, 0), 1, 1), Bearing("ground", "stone", (6, 0), (1, 0), 1, 1)]


class Forms(unittest.TestCase):
    def test_without_leaves_out_blocks_and_their_loads(self) -> None:
        made = variant.without(post(PUSH, Load("stone", "dead", [5, 1], [0, -1])), ["post"])
        self.assertEqual([block.name for block in made.blocks], ["ground", "stone"])
        self.assertEqual([load.block for load in made.loads], ["stone"])
        self.assertEqual(len(variant.without(post(), ["ground", "stone"]).blocks), 1)
        with self.assertRaises(Refused):
            variant.without(post(), ["roof"])

    def test_mirrored_exchanges_left_and_right(self) -> None:
        model = post(Load("post", "live", [0, 4], [3, -1]), sway=[2, 1])
        made = variant.mirrored(model)
        self.assertEqual(made.blocks[1].corners, [[0, 4], [-2, 4], [-2, 0], [0, 0]])
        self.assertEqual((made.loads, made.sway), ([Load("post", "live", [0, 4], [-3, -1])], [-2, 1]))
        self.assertTrue(all(twice_area([(x, y) for x, y in block.corners]) > 0 for block in made.blocks))
        self.assertEqual(variant.mirrored(made), model)

    def with_load(self, model: Model, words: list[str], first: str = "") -> Model:
        with TemporaryDirectory() as folder:
            Path(folder, "model.toml").write_text(first + printed(model))
            return variant.with_load(f"{folder}/model.toml", words)

    def test_with_adds_a_load(self) -> None:
        made = self.with_load(post(PUSH), ["dead", "stone", "5", "1", "0", "-7"])
        self.assertEqual(made.loads, [PUSH, Load("stone", "dead", [5, 1], [0, -7])])
        for words in (["red", "post", "0", "0", "0", "0"], ["dead", "post", "x", "0", "0", "0"],
                      ["dead", "post", "0", "0", "0", str(10**10)]):
            with self.assertRaises(Words):
                self.with_load(post(), words)
        for name in "ground", "roof":
            with self.assertRaises(Refused):
                self.with_load(post(), ["dead", name, "0", "0", "0", "1"])
        with self.assertRaises(Refused):
            self.with_load(post(*[PUSH] * 256), ["dead", "post", "0", "0", "0", "1"])

    def test_with_adds_nothing_where_all_forces_are_multiplied(self) -> None:
        """A force of 7 beside weights that are ten times those of the structure would be a tenth of what was meant."""
        words = ["live", "stone", "5", "1", "0", "-7"]
        for scale in Scale(Fraction(10)), Scale(lengths=30):
            with self.assertRaisesRegex(Refused, "add the load before"):
                self.with_load(post(PUSH), words, scale.line())

    def test_no_model_without_a_free_block_is_printed(self) -> None:
        with TemporaryDirectory() as folder:
            name, order = f"{folder}/model.toml", Path(folder, "order")
            write(name, post(PUSH))
            order.write_text("post\n")
            for form, words in ("without", ["post", "stone"]), ("stage", [str(order), "0"]):
                with self.assertRaisesRegex(Refused, "no free block is left"):
                    variant.in_form(form, [name, *words])

    def test_the_first_line_of_a_share_says_by_what_forces_are_multiplied(self) -> None:
        triangle = [[0, 0], [1, 0], [0, 1]]
        model = post(sway=[1, 0])
        model.blocks[2].corners = triangle
        for of, wanted in (post(PUSH), 5), (post(sway=[1, 0]), 5 * 2), (model, 5 * 6):
            with TemporaryDirectory() as folder:
                name = f"{folder}/model.toml"
                write(name, of)
                text = variant.in_form("share", [name, "1", "5"])
            self.assertEqual(scale_of(text), Scale(Fraction(wanted)))
            self.assertEqual(model_of(text), share(of, 1, 5))
        with TemporaryDirectory() as folder:
            name = f"{folder}/model.toml"
            Path(name).write_text(text, "ascii")
            self.assertEqual(scale_of(variant.in_form("without", [name, "stone"])), Scale(Fraction(30)))
            self.assertEqual(scale_of(variant.in_form("share", [name, "1", "2"])), Scale(Fraction(60)))

    def test_wrong_words_are_told(self) -> None:
        for words in (["turned", "m"], ["share", "m", "1"], ["share", "m", "1", "0"], ["share", "m", "1", "0.5"],
                      ["reversed", "m", "n"], ["without", "m"], ["inset", "m"], ["inset", "m", "0"],
                      ["inset", "m", "nan"], ["inset", "m", "1", "2", "3"]):
            with self.assertRaises(Words):
                variant.main(words)


class Insets(unittest.TestCase):
    def test_a_shorter_foot(self) -> None:
        """Half a unit off each end: the grid becomes twice as fine, and the foot is 1 wide."""
        found = inset(post(PUSH), BEARINGS, Fraction(1, 4))
        self.assertEqual(found.scale, Scale(Fraction(16), 4))
        corners = [(x, y) for x, y in found.model.blocks[1].corners]
        self.assertEqual(sorted(x for x, y in corners if y == 0), [1, 7])
        self.assertEqual(found.model.loads[0].at, [0, 16])
        self.assertEqual(found.model.loads[0].force, [16, 0])
        # What is cut off is a corner 1 by 1 of the new grid, at both ends of the foot, or less.
        self.assertLessEqual(128 - abs(twice_area(corners)) / 2, 1)

    def test_ends_of_slanting_joints_are_points_of_the_grid(self) -> None:
        """A step along (19, 24) is 30.61 long: on a grid 30 times finer it is 1.0203 of the old one."""
        self.assertEqual([steps_off((19, 24), Fraction(1), grid) for grid in (1, 30, 31, 62)], [1, 1, 2, 3])
        self.assertEqual(steps_off((3, 4), Fraction(5), 1), 1)
        self.assertEqual(steps_off((3, 4), Fraction(501, 100), 1), 2)

    def test_weights_and_loads_keep_their_proportion(self) -> None:
        model = post(Load("post", "live", [1, 1], [10, -4]))
        model.materials[0].weight = 6
        found = inset(model, BEARINGS, Fraction(1, 4))
        self.assertEqual(found.model.materials[0].weight, 3)
        self.assertEqual((found.model.loads[0].force, found.scale.forces), ([80, -32], 8))

    def test_what_leaves_nothing_is_refused(self) -> None:
        with self.assertRaisesRegex(Refused, "nothing is left of the joint of ground and stone"):
            inset(post(), BEARINGS, Fraction(1, 2))
        with self.assertRaisesRegex(Refused, "one point"):
            inset(post(), BEARINGS[:3], Fraction(1, 10))
        with self.assertRaises(Refused):
            inset(post(), [], Fraction(1, 10))

    def test_convex(self) -> None:
        self.assertTrue(is_convex([[0, 0], [2, 0], [2, 2]]))
        self.assertTrue(is_convex([[0, 0], [2, 2], [2, 0]]))
        self.assertFalse(is_convex([[0, 0], [1, 0], [2, 0], [2, 2]]))
        self.assertFalse(is_convex([[0, 0], [2, 0], [1, 1], [2, 2], [0, 2]]))

    @unittest.skipUnless(built(), NOT_BUILT)
    def test_bearings_move_along_their_joints(self) -> None:
        """On models of examples/, by the program's own contacts: as many bearings, each between D and 21/20 of it
        further in, on the joint's line, with the same friction."""
        tried = {"arches/footbridge": Fraction(1), "walls/facade": Fraction(1), "walls/buttressed-wall": Fraction(1, 3),
                 "walls/dry-stone-retaining-wall": Fraction(2)}
        for name, size in tried.items():
            with self.subTest(name), TemporaryDirectory() as folder, redirect_stderr(StringIO()):
                at = TOP / f"examples/{name}.toml"
                made = Path(folder, "made.toml")
                text = variant.in_form("inset", [str(at), str(size)])
                made.write_text(text, encoding="ascii")
                grid, pairs = scale_of(text).lengths, []
                for model in at, made:
                    table = bearings_of(program.run("contacts", model).output)
                    pairs.append(sorted(table, key=lambda one: (one.first, one.second, one.at)))
                self.assertEqual(len(pairs[0]), len(pairs[1]))
                for old, new in zip(*pairs):
                    self.assertEqual((old.tangent, old.p, old.q), (new.tangent, new.p, new.q))
                    off = minus(new.at, (grid * old.at[0], grid * old.at[1]))
                    self.assertEqual(cross(off, old.tangent), 0)
                    way = Fraction(off[0] ** 2 + off[1] ** 2) / (size * grid) ** 2
                    self.assertTrue(1 <= way <= Fraction(21, 20) ** 2)

    @unittest.skipUnless(built(), NOT_BUILT)
    def test_the_footbridge_with_a_centimetre_off(self) -> None:
        """A float linear program with each bearing 1 further in has 70.34. The joints of two hinges are a little
        shorter still, by 0.0028, which costs 0.07 at most."""
        with TemporaryDirectory() as folder, redirect_stderr(StringIO()):
            made = Path(folder, "made.toml")
            made.write_text(variant.in_form("inset", [str(TOP / "examples/arches/footbridge.toml"), "1"]), "ascii")
            _, scale, factor = program.run("load", made).output.split("\n")[1].split()
        self.assertTrue(70.25 < int(factor) / int(scale) < 70.34)


class Numbers(unittest.TestCase):
    def test_decimals_and_fractions(self) -> None:
        self.assertEqual([decimal(word, "X") for word in ("0.35", "-2", "2/3", "1.5/3", ".5", "7.")],
                         [Fraction(7, 20), -2, Fraction(2, 3), Fraction(1, 2), Fraction(1, 2), 7])
        for word in ("", ".", "-", "nan", "1e5", "inf", "1/0", "1/", "/2", "1/-2", "+1", "1_0", "\u0663", "0x1",
                     "1" * 40):
            with self.assertRaises(Words):
                decimal(word, "X")
        draws = random.Random(5)
        for _ in range(2000):
            word = "".join(draws.choice("0123456789./- e") for _ in range(draws.randint(0, 8)))
            try:
                self.assertEqual(decimal(word, "X"), Fraction(word) if "." not in word or "/" not in word else
                                 Fraction(word.split("/")[0]) / int(word.split("/")[1]))
            except Words:
                pass

    def test_a_first_line_is_read_as_it_is_printed(self) -> None:
        for scale in Scale(), Scale(Fraction(75, 2), 30), Scale(Fraction(200), 1):
            self.assertEqual(scale_of(scale.line() + printed(post())), scale)
        self.assertEqual(scale_of("# All forces are multiplied by 1/0, all lengths by 1.\n"), Scale())
        self.assertEqual(scale_of(""), Scale())

    def test_multiples_of_multiples(self) -> None:
        self.assertEqual(Scale(Fraction(3, 2), 5).times(Scale(Fraction(4), 7)), Scale(Fraction(6), 35))


if __name__ == "__main__":
    unittest.main()
