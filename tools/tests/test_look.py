#!/usr/bin/env python3
"""Tests of look.py and survey.py, on drawings by hand.

    python3 tools/tests/test_look.py

The program is called where it is built, or PUNGIROE names one.
"""
import contextlib
import io
import random
import time
import unittest
from dataclasses import replace
from fractions import Fraction
from pathlib import Path
from tempfile import TemporaryDirectory

from helpers import TOP

import draw
import look
import survey
from masonry import program
from masonry.console import Refused, Words
from masonry.model import Block, Load, Material, Model, bearings_of, model_of, printed, put, read, share, write
from masonry.program import NOT_BUILT, built
from masonry.units import Scale
from survey import Corner, Stone


def box(name: str, left: int, bottom: int, right: int, top: int, fixed: bool = False) -> Block:
    return Block(name=name, material="stone", fixed=fixed,
                 corners=[[left, bottom], [right, bottom], [right, top], [left, top]])


def looked(model: Model, table: str, near: int = 1, unit: Fraction = Fraction(1)) -> list[str]:
    return list(look.looked(model, table, Fraction(near), unit))


class Looks(unittest.TestCase):
    """A post on the ground, a lintel whose left end lies 1 above it, and a stone in the air."""
    MODEL = Model(2, [1, 0], [Material("stone", 3, [1, 2])], [], [
        box("ground", -9, -1, 30, 0, True), box("rock", -9, -3, -5, -1, True), box("post", 0, 0, 2, 5),
        box("lintel", 0, 6, 12, 8), box("pier", 10, 0, 12, 6), box("bird", 20, 20, 22, 22)],
        [Load("post", "dead", [0, 5], [1, -2]), Load("bird", "live", [20, 20], [7, 0]),
         Load("post", "live", [0, 0], [-10, 1])])
    TABLE = """bearings 5
bearing 1 ground post 0 0 1 0 1 2
bearing 2 ground post 2 0 1 0 1 2
bearing 3 ground pier 10 0 1 0 1 2
bearing 4 ground pier 12 0 1 0 1 2
bearing 5 pier lintel 10 6 1 0 1 2
touches 1
touch 1 post pier 4 4
"""

    def test_what_is_wrong_is_found(self) -> None:
        found = looked(self.MODEL, self.TABLE)
        self.assertEqual(found[:7], [
            "near post lintel 2 5 1", "near post lintel 0 5 1", "near lintel post 0 6 1", "touch post pier 4 4",
            "single pier lintel 10 6", "nothing below bird", "apart bird"])
        self.assertEqual(looked(self.MODEL, self.TABLE, 0)[0], "touch post pier 4 4")

    def test_sums_in_units(self) -> None:
        """10 of the post, 24 of the lintel, 12 of the pier and 4 of the bird: 50, which weighs 150."""
        self.assertEqual(looked(self.MODEL, self.TABLE)[7:], [
            "material stone 4 50 150", "load dead 1 1 -2", "load live 2 -3 1", "load sway 1 150 0",
            "fixed ground rock"])
        self.assertEqual(looked(self.MODEL, self.TABLE, 1, Fraction(1, 10))[7:9],
                         ["material stone 4 50 15", "load dead 1 0.1 -0.2"])

    def test_an_upright_joint_carries_by_friction_alone(self) -> None:
        table = "bearing 1 ground post 0 0 0 1 1 2\n"
        self.assertEqual(look.carried(bearings_of(table)), {"ground", "post"})
        self.assertEqual(look.carried(bearings_of(table.replace("1 2\n", "0 1\n"))), set())

    def test_distances(self) -> None:
        self.assertEqual([look.square(at, (0, 0), (4, 2)) for at in ((2, 1), (-1, 0), (5, 2), (0, 5))],
                         [0, 1, 1, Fraction(20 ** 2, 20)])

    @unittest.skipUnless(built(), NOT_BUILT)
    def test_the_gap_of_three_piers(self) -> None:
        name = TOP / "examples/posts/three-piers-with-a-slip.toml"
        self.assertIn("near left-pier lintel 2 9 1", looked(read(name), program.run("contacts", name).output))
        sound = TOP / "examples/posts/three-piers.toml"
        if sound.exists():
            self.assertFalse([line for line in looked(read(sound), program.run("contacts", sound).output)
                              if line.startswith(("near", "touch", "single", "nothing", "apart"))])

    def test_a_great_drawing_takes_less_than_a_second(self) -> None:
        blocks = [box(f"b{number}", 20 * (number % 13), 10 * (number // 13), 20 * (number % 13) + 20,
                      10 * (number // 13) + 10) for number in range(130)]
        blocks.append(box("ground", -9, -9, 300, 0, True))
        start = time.process_time()
        looked(Model(None, None, [Material("stone", 1, [1, 2])], [], blocks, []), "bearings 0\ntouches 0\n")
        self.assertLess(time.process_time() - start, 1)

    def test_a_load_beside_its_block(self) -> None:
        """At (4, 400) for (4, 40), on a stone 0..320 by 0..80: 320 above it. Its corners, its edges and what is within
        the rounding of a place aren't told, nor is a load twice."""
        stone = box("c5", 0, 0, 320, 80)
        loads = [Load("c5", "live", at, [1, 0]) for at in ([4, 400], [4, 40], [320, 80], [0, 7], [321, 80], [4, 400])]
        loads += [Load("c5", "dead", [323, 84], [0, -1])]  # 3 and 4 off the corner
        blocks = [stone, box("ground", -9, -9, 400, 0, True)]
        model = Model(None, None, [Material("stone", 1, [1, 2])], [], blocks, loads)
        self.assertEqual(list(look.off_blocks(model, 2)), ["off c5 4 400 320", "off c5 323 84 5"])
        self.assertEqual(list(look.off_blocks(model, 6)), ["off c5 4 400 320"])
        clockwise = replace(model, blocks=[replace(stone, corners=[*stone.corners][::-1])])
        self.assertEqual(list(look.off_blocks(clockwise, 2)), ["off c5 4 400 320", "off c5 323 84 5"])

    @unittest.skipUnless(built(), NOT_BUILT)
    def test_a_share_is_told_in_the_units_of_the_structure(self) -> None:
        """The wall of docs/worked/wall.md weighs 59.4 kN and takes 27 kN of earth. At the share 1/2 all forces are
        doubled, and half of the surcharge's 3 kN is dead as well."""
        wall = read(TOP / "examples/walls/dry-stone-retaining-wall.toml")
        with TemporaryDirectory() as folder:
            name = f"{folder}/half.toml"
            put(name, Scale(Fraction(2)).line() + printed(share(wall, 1, 2)))
            said = []
            for words in [name, "1", "0.0001"], [name]:
                with contextlib.redirect_stdout(io.StringIO()) as out:
                    self.assertEqual(look.main(words), 0)
                said.append(out.getvalue().splitlines())
        self.assertEqual(said[0][:2], ["material stone 6 27000 59.4", "load dead 12 28.5 0"])
        self.assertEqual(said[1][:3], ["multiplied forces 2", "material stone 6 27000 1.188e+06",
                                       "load dead 12 570000 0"])

    def test_wrong_words_are_told(self) -> None:
        for words in (["m", "x"], ["m", "-1"], ["m", "1", "0"], ["m", "1", "nan"], ["m", "1", "1", "1"]):
            with self.assertRaises(Words):
                look.main(words)


def stones(*lines: str) -> list[Stone]:
    return survey.stones_of("\n".join(lines))


class Surveys(unittest.TestCase):
    GRID, TOLERANCE = Fraction(1, 100), Fraction(2, 100)

    def made(self, *lines: str) -> dict[str, list[tuple[int, int]]]:
        found = survey.drawn(stones(*lines), self.GRID, self.TOLERANCE)
        return {stone.name: [(corner.x, corner.y) for corner in found.corners[stone.name]] for stone in found.stones}

    def test_lines(self) -> None:
        """A heading, a blank line and blanks round a word are no matter. A block's lines needn't follow one another."""
        found = stones("block,material,x,y", "a,stone,0,0", " a , stone ,1.5,0", "b,brick,0,1", "a,stone,0,2", "")
        self.assertEqual([(stone.name, stone.material, len(stone.corners)) for stone in found],
                         [("a", "stone", 3), ("b", "brick", 1)])
        self.assertEqual(found[0].corners[1], Corner("a", Fraction(3, 2), Fraction(0)))
        for wrong in ("a,stone,0", "a,stone,x,0", "a b,stone,0,0", "a,stone,1e3,0", ",stone,0,0"):
            with self.assertRaises(Refused):
                stones("a,stone,0,0", wrong)
        with self.assertRaisesRegex(Refused, "line 2: a is of stone"):
            stones("a,stone,0,0", "a,brick,1,0")

    def test_corners_that_nearly_meet_are_brought_together(self) -> None:
        """Two bricks on one another, measured with faults of up to 13 mm: to the mean, on whole centimetres."""
        made = self.made("a,s,0,0", "a,s,2,0", "a,s,2.004,1", "a,s,0.006,0.994",
                         "b,s,-0.007,1.005", "b,s,1.991,1.009", "b,s,2,2", "b,s,0,2")
        self.assertEqual(made["a"], [(0, 0), (200, 0), (200, 100), (0, 100)])
        self.assertEqual(made["b"], [(0, 100), (200, 100), (200, 200), (0, 200)])

    def test_a_drawing_that_is_measured_again(self) -> None:
        """Corners of examples/ on a grid of 1 cm, each measured with a fault of up to 3 mm, come back as they were."""
        draws = random.Random(4)
        for name in "arches/footbridge", "walls/facade", "walls/dry-stone-retaining-wall":
            model = read(TOP / f"examples/{name}.toml")
            lines = [",".join([block.name, "stone", *(str((10 * part + draws.randint(-3, 3)) / 1000) for part in at)])
                     for block in model.blocks for at in block.corners]
            wanted = {block.name: [(x, y) for x, y in block.corners] for block in model.blocks}
            self.assertEqual(self.made(*lines), wanted)

    def test_a_corner_comes_down_to_an_edge(self) -> None:
        """A brick across two: its foot, 12 mm too high, comes down to their heads."""
        made = self.made("a,s,0,0", "a,s,2,0", "a,s,2,1", "a,s,0,1", "c,s,1,1.012", "c,s,1.6,1.008", "c,s,1.6,2",
                         "c,s,1,2")
        self.assertEqual(made["c"], [(100, 100), (160, 100), (160, 200), (100, 200)])

    @unittest.skipUnless(built(), NOT_BUILT)
    def test_a_wall_measured_with_faults_keeps_its_joints(self) -> None:
        """Bricks of 40 cm by 20 cm in bond, each corner measured with a fault of up to 4 mm, on a grid of 5 mm: beds
        come out level and perpends upright, so that the wall has the bearings of one that was measured without."""
        with contextlib.redirect_stdout(io.StringIO()) as out:
            draw.main(["wall", "6", "4"])
        wall, draws = model_of(out.getvalue()), random.Random(9)
        tables = []
        for fault in 0, 4:
            lines = [",".join([block.name, "s", *(str((20 * part + draws.randint(-fault, fault)) / 1000)
                                                  for part in at)]) for block in wall.blocks for at in block.corners]
            found = survey.drawn(stones(*lines), Fraction(5, 1000), Fraction(15, 1000))
            for outline in found.corners.values():
                for a, b in zip(outline, outline[1:] + outline[:1]):
                    self.assertIn(0, (a.x - b.x, a.y - b.y))
            made = survey.model_of(found, survey.asked_of(["material", "s", "22", "2", "3", "fixed", "ground"]))
            with TemporaryDirectory() as folder:
                write(Path(folder, "model.toml"), made)
                table = program.answer("contacts", Path(folder, "model.toml"))
            tables.append([(one.first, one.second) for one in bearings_of(table)])
        self.assertEqual(*tables)

    def test_a_slope_stays(self) -> None:
        """A bed that falls by 3 cm over 1 m isn't level; nor is a battered face of six courses, though each stone of it
        leans by 1 cm alone: at their mean the first would move by 3 cm."""
        made = self.made("a,s,0,0", "a,s,1,-0.03", "a,s,1,1", "a,s,0,1")
        self.assertEqual(made["a"][:2], [(0, 0), (100, -3)])
        made = self.made(*(f"s{k},s,{x},{y}" for k in range(6) for x, y in (
            (k / 100, 0.3 * k), (1, 0.3 * k), (1, 0.3 * k + 0.3), (k / 100 + 0.01, 0.3 * k + 0.3))))
        self.assertEqual([made[f"s{k}"][3][0] - made[f"s{k}"][0][0] for k in range(6)], [1] * 6)

    def test_semicolons_and_decimal_commas(self) -> None:
        found = stones("block;material;x;y", "a;stone;0;0", "a;stone;1,25;-0,5", "a;stone;1.5;2")
        self.assertEqual(found[0].corners[1:], [Corner("a", Fraction(5, 4), Fraction(-1, 2)),
                                                Corner("a", Fraction(3, 2), Fraction(2))])
        with self.assertRaises(Refused):
            stones("a,stone,0,0", "a,stone,1,25,0")

    def test_what_is_told_of_a_survey(self) -> None:
        """The free blocks reach over 1.6 m by 2 m; on a grid of 1 cm a stone of 22 kN/m3 and 1 m2 weighs 220000, which
        is 22 kN; a block has three corners."""
        found = survey.drawn(stones("g,s,-9,-1", "g,s,9,-1", "g,s,9,0", "g,s,-9,0", "a,s,0,0", "a,s,1.6,0", "a,s,0,2"),
                             self.GRID, self.TOLERANCE)
        lines = list(survey.lines_of(found, survey.asked_of(["fixed", "g"]), self.GRID))
        self.assertEqual(lines[2:], [
            "the free blocks reach over 1.6 m by 2 m",
            "a force of 1 is 0.0001 kN, if weights are in kN/m3 and the slice is 1 m deep",
            "three corners alone, maybe one is left out: a"])

    def test_the_farthest_move_is_told(self) -> None:
        found = survey.drawn(stones("a,s,0,0", "a,s,2,0", "a,s,2.004,1.003", "a,s,0,1"), self.GRID, self.TOLERANCE)
        self.assertEqual((found.farthest.block, found.farthest.x), ("a", Fraction(2004, 1000)))
        self.assertAlmostEqual(found.moved, 0.005)

    def test_what_can_not_be_drawn_is_refused_by_name(self) -> None:
        for said, lines in {
                "dent isn't convex": ("dent,s,0,0", "dent,s,2,0", "dent,s,1,0.5", "dent,s,1,2"),
                "line isn't convex": ("line,s,0,0", "line,s,1,0", "line,s,2,0.004", "line,s,1,2"),
                "two has two corners": ("two,s,0,0", "two,s,2,0"),
                "small: two of its corners": ("small,s,0,0", "small,s,0.004,0.004", "small,s,0,1"),
                "a and b overlap": ("a,s,0,0", "a,s,2,0", "a,s,2,2", "a,s,0,2", "b,s,1,1", "b,s,3,1", "b,s,3,3"),
                "far lies beyond": ("far,s,0,0", "far,s,99999,0", "far,s,0,1")}.items():
            with self.subTest(said), self.assertRaisesRegex(Refused, said):
                self.made(*lines)

    def test_fixed_bodies_that_overlap_are_refused_too(self) -> None:
        with TemporaryDirectory() as folder, self.assertRaisesRegex(Refused, "a and b overlap"):
            put(f"{folder}/csv", "a,s,0,0\na,s,2,0\na,s,2,2\na,s,0,2\nb,s,1,1\nb,s,3,1\nb,s,3,3\n")
            survey.main([f"{folder}/csv", "0.01", "0.02", "material", "s", "22", "2", "3", "fixed", "a", "fixed", "b"])

    def test_materials_must_be_given(self) -> None:
        found = survey.drawn(stones("a,s,0,0", "a,s,2,0", "a,s,0,1"), self.GRID, self.TOLERANCE)
        asked = survey.asked_of(["material", "s", "22", "2", "3", "fixed", "a"])
        model = survey.model_of(found, asked)
        self.assertEqual((model.materials, model.blocks[0].fixed), ([Material("s", 22, [2, 3])], True))
        with self.assertRaisesRegex(Refused, "material s"):
            survey.model_of(found, survey.asked_of([]))
        with self.assertRaisesRegex(Refused, "no block is named"):
            survey.model_of(found, survey.asked_of(["material", "s", "22", "2", "3", "fixed", "b"]))
        for words in (["material", "s"], ["material", "s", "x", "2", "3"], ["material", "s", "1", "1", "0"], ["stone"]):
            with self.assertRaises(Words):
                survey.asked_of(words)


if __name__ == "__main__":
    unittest.main()
