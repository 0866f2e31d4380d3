#!/usr/bin/env python3
"""Tests of region.py and pairs.py, on values by hand.

    python3 tools/tests/test_region.py

They call the program, and `esolver` where the program is made to refuse.
"""
import contextlib
import io
import unittest
from collections.abc import Callable, Iterable, Mapping, Sequence
from fractions import Fraction
from pathlib import Path
from tempfile import TemporaryDirectory
from unittest import mock

from helpers import needs_esolver as setUpModule, post as post_of

import region
from masonry import model as models, program
from masonry.console import Answer, Refused, Words, quiet
from masonry.model import Block, Load, Material, Model
from masonry.questions import case, pairs
from masonry.questions.pairs import Direction, Half, Region
from region import Word

Points = Mapping[Direction, tuple[int, int]] | Iterable[tuple[int, int]]


def polygon(points: Points, unlimited: Sequence[Direction] = (), halves: Sequence[Half] = ()) -> list[str]:
    """What is said of a polygon and of what to ask. The points are a list, or a dictionary by direction."""
    listed = points if isinstance(points, Mapping) else {at: at for at in points}
    exact = {direction: (Fraction(x), Fraction(y)) for direction, (x, y) in listed.items()}
    found = Region(exact, list(unlimited), {}, list(halves))
    return [" ".join(map(str, (*line.first, *line.last))) for line in region.lines_of(found)
            if line.first[0] not in ("point", "unlimited", "half", "endless")]


class Regions(unittest.TestCase):
    SIDES = [(1, 0, 2), (0, 1, 2), (-1, 0, 2), (0, -1, 2)]

    def test_the_corners_of_a_square(self) -> None:
        self.assertEqual(region.corners_of(self.SIDES), [(-2, -2), (2, -2), (2, 2), (-2, 2)])
        self.assertEqual(region.corners_of(self.SIDES[:1]), [])

    def test_open_corners_are_the_next_directions(self) -> None:
        axes = [(2, 0), (0, 2), (-2, 0), (0, -2)]
        self.assertEqual(polygon(axes, halves=self.SIDES),
                         ["corner open"] * 4 + ["dir -1 -1", "dir 1 -1", "dir 1 1", "dir -1 1"])
        self.assertEqual(polygon([*axes, (2, 2), (-2, 2)], halves=self.SIDES),
                         ["corner open"] * 2 + ["corner carried"] * 2 + ["dir -1 -1", "dir 1 -1"])
        self.assertEqual(polygon([(2, 2), (-2, 2), (-2, -2), (2, -2)], halves=self.SIDES),
                         ["corner carried"] * 4 + ["settled"])

    def test_unlimited_directions_settle_what_nothing_bounds(self) -> None:
        self.assertEqual(polygon([], [], []), ["dir 1 0", "dir 0 1", "dir -1 0", "dir 0 -1"])
        self.assertIs(region.Carried(Region()).of_side((1, 0), [(0, 0)]), Word.OPEN)
        self.assertEqual(polygon([], [(1, 0), (-1, 1), (-1, -1)], []), ["settled"])
        # A half-plane, a strip and a wedge.
        self.assertEqual(polygon([(2, 0)], [], self.SIDES[:1]), ["dir 0 1", "dir 0 -1", "dir -1 0"])
        self.assertEqual(polygon([(2, 0), (-2, 0)], [(0, 1)], self.SIDES[::2]), ["dir 0 -1"])
        self.assertEqual(polygon([(2, 0), (-2, 0)], [(0, 1), (0, -1)], self.SIDES[::2]), ["settled"])
        wedge = [(1, -1, 0), (-1, -1, 0)]
        self.assertEqual(polygon([], [(0, 1)], wedge), ["corner carried", "dir 1 1", "dir -1 1"])
        self.assertEqual(polygon([], [(1, 1), (-1, 1)], wedge), ["corner carried", "settled"])

    def test_a_direction_has_at_most_a_thousand(self) -> None:
        self.assertEqual(region.askable((2001, 2000)), (1, 1))
        self.assertEqual(region.askable((-3, 8)), (-3, 8))
        self.assertEqual(region.askable((-100_001, -300_000)), (-1, -3))
        self.assertEqual(region.askable((0, -5000)), (0, -1))

    def test_where_a_thousand_comes_no_nearer_a_longer_direction_is_asked(self) -> None:
        halves = [(1, 0, 2001), (0, 1, 2000), (-1, 0, 1), (0, -1, 1)]
        points = {(1, 1): (1500, 1500), (1, 0): (2001, -1), (0, 1): (-1, 2000), (-1, -1): (-1, -1)}
        self.assertEqual(polygon(points, halves=halves),
                         ["corner carried", "corner carried", "corner open", "corner carried", "dir 2001 2000"])
        self.assertEqual(polygon({**points, (2001, 2000): (2001, 2000)}, halves=halves),
                         ["corner carried"] * 4 + ["settled"])
        self.assertEqual(polygon({**points, (1, 1): (2000, 2000)}, halves=halves),
                         ["corner carried", "corner carried", "corner near", "corner carried",
                          "settled to a thousandth"])
        # It stays unsettled if its direction has numbers above a thousand millions.
        far = [(1, 0, 10**10 + 1), (0, 1, 10**10), (-1, 0, 0), (0, -1, 0)]
        here: Points = {(1, 1): (1, 1), (1, 0): (10**10 + 1, 0), (0, 1): (0, 10**10)}
        self.assertEqual(polygon(here, halves=far)[-1], "unsettled")

    def test_decimals_in_units_of_force(self) -> None:
        found = Region({(1, 2): (Fraction(3), Fraction(6))}, [], {}, [(2, 1, 12)])
        lines = [line.laid_out() for line in region.lines_of(found, region.Sizes(0.5, 4.0))]
        # a is in halves and b in fours, so 2a + b is 4 times the first and a quarter of the second.
        self.assertEqual(lines[:2], ["point 1 2 at 3/1 6/1 = 1.5 24", "half 2 1 12 = 1 0.0625 3"])


def post() -> Model:
    """The post of README, 2 wide and 4 high, with a dead load, three live ones and a sway to the right.

    Its weight is 8, and it tips about its right foot at 8*1. The first push is 1 to the right, 4 above the foot; the
    second 1 to the right, 2 above it; the third presses it with 1, 1 to the left of the foot. The sway is 8, 2 above
    it. So 4a, 2a and 16a tip it, and b steadies it.
    """
    blocks = [Block(name="ground", material="stone", fixed=True, corners=[[-10, -1], [10, -1], [10, 0], [-10, 0]]),
              Block(name="post", material="stone", corners=[[0, 0], [2, 0], [2, 4], [0, 4]])]
    loads = [Load("post", "live", [0, 4], [1, 0]), Load("post", "dead", [1, 4], [0, 0]),
             Load("post", "live", [0, 2], [1, 0]), Load("post", "live", [1, 4], [0, -1])]
    return Model(2, [1, 0], [Material("stone", 1, [1, 1])], [], blocks, loads)


class Groups(unittest.TestCase):
    def setUp(self) -> None:
        folder = TemporaryDirectory()
        self.addCleanup(folder.cleanup)
        self.name, self.dirs = f"{folder.name}/model.toml", f"{folder.name}/dirs"
        models.write(self.name, post())

    def found(self, i: str, j: str, *directions: Direction) -> Region:
        Path(self.dirs).write_text("".join(f"dir {m} {n}\n" for m, n in directions))
        return pairs.region_of(self.name, i, j, self.dirs, quiet)

    def test_a_group_and_a_load(self) -> None:
        # 4a + 2a tips the post, and 8 + b steadies it: 6a - b is at most 8.
        found = self.found("1,3", "4", (1, 0), (1, 1), (0, 1))
        self.assertEqual(found.points, {(1, 0): (Fraction(4, 3), 0), (1, 1): (Fraction(8, 5), Fraction(8, 5))})
        self.assertEqual((found.halves, found.unlimited), ([(6, -1, 8)], [(0, 1)]))

    def test_the_sway_and_a_load(self) -> None:
        # 16a - b is at most 8. A sway to the left tips it about the other foot, alike.
        found = self.found("sway", "4", (1, 0), (1, 2), (-1, 0))
        self.assertEqual(found.points, {(1, 0): (Fraction(1, 2), 0), (1, 2): (Fraction(4, 7), Fraction(8, 7)),
                                        (-1, 0): (Fraction(-1, 2), 0)})
        self.assertEqual(found.halves, [(16, -1, 8), (-16, -1, 8)])

    def test_two_loads_in_a_direction_above_a_thousand(self) -> None:
        found = self.found("1", "4", (2001, 4), (1, 1))
        # 4*2001*t - 4*t is 8 at t = 1/1000; 3*t is 8 at 8/3.
        self.assertEqual(found.points, {(2001, 4): (Fraction(2001, 1000), Fraction(4, 1000)),
                                        (1, 1): (Fraction(8, 3), Fraction(8, 3))})
        self.assertEqual(found.halves, [(4, -1, 8)])

    def test_a_direction_that_the_program_refuses_is_settled_by_the_script(self) -> None:
        real = program.run

        def refusing(*words: object) -> Answer:
            if words[0] == "load":
                return Answer(7, "", "wide run 1 2 3 4 divide")
            if words[0] == "yield" and "dir 1 1\n" in Path(str(words[4])).read_text():
                return Answer(7, "", "wide dir 2 run 1 2 3 4 divide")
            return real(*words)

        with mock.patch.object(program, "run", refusing):
            found = self.found("1", "4", (1, 0), (1, 1))
            self.assertEqual(found.points, {(1, 0): (2, 0), (1, 1): (Fraction(8, 3), Fraction(8, 3))})
            self.assertEqual(found.halves, [(4, -1, 8)])
            with mock.patch.object(case.Case, "settled_load", side_effect=Refused("no certificate")):
                found = self.found("1", "4", (1, 0), (1, 1))
            self.assertEqual(found.refused, {(1, 1): "wide run 1 2 3 4 divide"})

    def test_kilonewtons(self) -> None:
        self.found("1,3", "4", (1, 0))
        with contextlib.redirect_stdout(io.StringIO()) as out:
            self.assertEqual(region.main([self.name, "1,3", "4", self.dirs, "kN", "0.5"]), 0)
        # Together the two pushes are 2, so a force of 4/3 of them is 4/3 kN.
        self.assertEqual(out.getvalue().splitlines()[0], "point 1 0 at 4/3 0/1 = 1.33333 0")

    def test_all_asks_each_direction_once_and_ends_as_the_loop_does(self) -> None:
        for i, j in ("1,3", "4"), ("1", "4"):
            self.found(i, j, (1, 0))
            asked, real = list[Direction](), pairs.extend

            def counted(found: Region, words: tuple[str, str, str], directions: Sequence[Direction],
                        progress: Callable[[str], None]) -> None:
                asked.extend(directions)
                real(found, words, directions, progress)

            with mock.patch.object(pairs, "extend", counted):
                at_once = self.printed(i, j, "all")
            self.assertEqual(len(set(asked)), len(asked))
            lines = self.printed(i, j)
            while more := [line for line in lines if line.startswith("dir ")]:
                with open(self.dirs, "a", encoding="ascii") as file:
                    file.write("".join(f"{line}\n" for line in more))
                lines = self.printed(i, j)
            self.assertEqual((sorted(at_once), at_once[-1]), (sorted(lines), "settled"))
            self.assertGreater(len(asked), 1)

    def printed(self, i: str, j: str, *options: str) -> list[str]:
        with contextlib.redirect_stdout(io.StringIO()) as out:
            self.assertEqual(region.main([self.name, i, j, self.dirs, *options]), 0)
        return out.getvalue().splitlines()

    def test_a_region_without_no_load_at_all(self) -> None:
        """A push of 5 to the left at its head tips the post of 8, which is 2 wide and 4 high. With a to the right there
        and b from above, 20 - 4a is at most 8 + b about its left foot, 4a - 20 about the right one."""
        models.write(self.name, post_of([Load("post", "dead", [2, 4], [-5, 0]), Load("post", "live", [0, 4], [1, 0]),
                                         Load("post", "live", [1, 4], [0, -1])]))
        Path(self.dirs).write_text("dir 1 0\n")
        with contextlib.redirect_stderr(io.StringIO()) as err, contextlib.redirect_stdout(io.StringIO()) as out:
            self.assertEqual(region.main([self.name, "2", "3", self.dirs, "all"]), 1)
        self.assertEqual((out.getvalue().split()[0], "`from A B`" in err.getvalue()), ("collapses", True))
        wanted = {"half 4 -1 28 = 1 -0.25 7", "half -4 -1 -12 = -1 -0.25 -3"}
        for start in ("5", "0"), ("9/2", "1.5"):
            lines = self.printed("2", "3", "from", *start, "all")
            self.assertEqual({line for line in lines if line.startswith("half")}, wanted)
            self.assertEqual([line for line in lines if line.startswith("corner")],
                             ["corner 5/1 -8/1 = 5 -8 carried"])
            self.assertEqual(lines[-1], "settled")
        # Where both are from 0 up there are three corners: 3 and 7 on the one axis, 12 on the other.
        lines = self.printed("2", "3", "from", "9/2", "1.5", "sector", "kN", "2", "all")
        self.assertEqual({line for line in lines if line.startswith("corner")}, {
            "corner 3/1 0/1 = 6 0 carried", "corner 7/1 0/1 = 14 0 carried", "corner 0/1 12/1 = 0 24 carried"})
        self.assertEqual(lines[-1], "settled")

    def test_a_start_under_a_sway(self) -> None:
        """The sway of 8 tips the post with 16 for each unit; 8 and the load b steady it. A part of the sway is dead."""
        models.write(self.name, post_of([Load("post", "live", [1, 4], [0, -1])], [1, 0]))
        Path(self.dirs).write_text("dir 1 0\ndir -1 0\n")
        lines = self.printed("sway", "1", "from", "1/8", "1/3")
        self.assertEqual(lines[:2], ["point 1 0 at 25/48 1/3 = 0.520833 0.333333",
                                     "point -1 0 at -25/48 1/3 = -0.520833 0.333333"])

    def test_a_region_has_no_lengths(self) -> None:
        with contextlib.redirect_stderr(io.StringIO()) as err:
            self.assertEqual(region.main([self.name, "1", "4", self.dirs, "kN", "1", "m", "1"]), 2)
        self.assertIn("no lengths", err.getvalue())

    def test_groups_that_make_no_sense(self) -> None:
        for i, j in ("1,1", "4"), ("2", "4"), ("1", "1,3"), ("sway", "1,sway"), ("5", "1"), ("sway,sway", "1"):
            with self.assertRaises(Refused, msg=(i, j)):
                pairs.pair_of(self.name, i, j)
        for i, j in ("1;3", "4"), ("", "1"), ("1,", "3"), ("swa", "1"):
            with self.assertRaises(Words, msg=(i, j)):
                pairs.pair_of(self.name, i, j)


if __name__ == "__main__":
    unittest.main()
