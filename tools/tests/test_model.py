#!/usr/bin/env python3
"""Tests of masonry/model.py, on values by hand or from the definitions of docs/use/formats.md.

    python3 tools/tests/test_model.py
"""
import os
import random
import unittest
from collections.abc import Sequence
from dataclasses import replace
from fractions import Fraction
from pathlib import Path
from tempfile import NamedTemporaryFile, TemporaryDirectory

import helpers  # puts tools/ where modules are found

from masonry.console import Refused
from masonry.model import (Block, Load, Material, Model, Point, beside, discard, model_of, printed, put,
                           read as read_model, share, wrenches)

SQUARE = [[0, 0], [2, 0], [2, 4], [0, 4]]


def post(weight: int = 1, loads: Sequence[Load] = (), sway: Point | None = None,
         corners: Sequence[Point] = SQUARE) -> Model:
    """The standing post of examples/posts, on its ground."""
    blocks = [Block(name="ground", material="stone", fixed=True, corners=[[-10, -1], [10, -1], [10, 0], [-10, 0]]),
              Block(name="post", material="stone", corners=corners)]
    return Model(2 if sway else None, sway, [Material("stone", weight, [1, 1])], [], blocks, list(loads))


def around(corners: Sequence[Point]) -> tuple[Fraction, list[Fraction]]:
    """Twice the area of a polygon, positive, and its centroid, by sums about the origin."""
    pairs = list(zip(corners, [*corners[1:], corners[0]]))
    crosses = [Fraction(ax * by - ay * bx) for (ax, ay), (bx, by) in pairs]
    twice, none = sum(crosses, Fraction(0)), Fraction(0)
    centroid = [sum((c * (a[axis] + b[axis]) for c, (a, b) in zip(crosses, pairs)), none) / (3 * twice)
                for axis in (0, 1)]
    return abs(twice), centroid


def defined(model: Model, n: int, d: int) -> dict[str, list[Fraction]]:
    """What the definition of a share says each free block carries: force and moment, d dead ones and n live ones."""
    units = {material.name: material.weight for material in model.materials}
    found = {}
    for block in model.free_blocks():
        twice, centroid = around(block.corners)
        weight = units[block.material] * twice / 2
        sway = [n * weight * part for part in model.sway or (0, 0)]
        forces: list[tuple[Sequence[Fraction | int], Sequence[Fraction | int]]]
        forces = [(centroid, (sway[0], sway[1] - d * weight))]
        for load in model.loads:
            if load.block == block.name:
                times = n if load.kind == "live" else d
                forces.append((load.at, [times * part for part in load.force]))
        (ox, oy), total = block.corners[0], [Fraction(0)] * 3
        for (x, y), (fx, fy) in forces:
            total = [total[0] + fx, total[1] + fy, total[2] + (x - ox) * fy - (y - oy) * fx]
        found[block.name] = total
    return found


def drawn_at_random(draws: random.Random) -> Model:
    """A model of triangles and quadrilaterals at random places. Its blocks may overlap: no test asks for more."""
    blocks, loads = [Block(name="ground", material="a", fixed=True, corners=SQUARE)], list[Load]()
    for number in range(draws.randint(1, 4)):
        x, y, a, b, c, d = (draws.randint(1, 50) for _ in range(6))
        corners = [[x, y], [x + a, y - b], [x + a + c, y + d]] + [[x + a, y + b + 2 * d]] * (number % 2)
        blocks.append(Block(name=f"b{number}", material=draws.choice("ab"), corners=corners[::draws.choice((1, -1))]))
        for kind in draws.choice(("", "dead", "live", "live dead")).split():
            loads.append(Load(f"b{number}", kind, [draws.randint(-9, 9), draws.randint(-9, 9)],
                              [draws.randint(-9, 9), draws.randint(1, 9)]))
    sway = draws.choice((None, [1, 0], [0, -1], [-2, 1], [3, -7], [0, 0]))
    materials = [Material("a", draws.randint(0, 9), [1, 2]), Material("b", draws.randint(1, 30), [1, 3])]
    return Model(2 if sway else None, sway, materials, [], blocks, loads)


class Models(unittest.TestCase):
    def test_a_printed_model_is_read_as_it_was(self) -> None:
        draws = random.Random(1)
        for _ in range(20):
            model = drawn_at_random(draws)
            self.assertEqual(model_of(printed(model)), model)

    def test_a_byte_order_mark_is_no_part_of_a_model(self) -> None:
        with NamedTemporaryFile() as file:
            file.write(b"\xef\xbb\xbf" + printed(post()).encode())
            file.flush()
            self.assertEqual(read_model(file.name), post())

    def test_what_is_no_model_is_refused(self) -> None:
        for text in ("block = [", "[[block]]\nname = 'a'", "colour = 1\n[[material]]\ncolour = 2", "block = 3",
                     printed(post(loads=[Load("roof", "dead", [0, 0], [1, 0])])),
                     printed(post(loads=[Load("ground", "dead", [0, 0], [1, 0])]))):
            with self.assertRaises(Refused):
                model_of(text)

    def test_a_model_in_which_nothing_could_fall_is_refused(self) -> None:
        """The empty file that is left where a script refuses, and one whose blocks are all fixed."""
        for text in "", printed(replace(post(), blocks=post().blocks[:1])):
            with self.assertRaisesRegex(Refused, "no free block"):
                model_of(text)

    def test_a_file_is_written_whole_or_not_at_all(self) -> None:
        with TemporaryDirectory() as folder:
            name, link, pipe = (Path(folder, called) for called in ("file", "link", "pipe"))
            put(name, "old\n")
            name.chmod(0o640)
            link.symlink_to("file")
            put(link, "new\n")
            self.assertEqual((name.read_text(), name.stat().st_mode & 0o777, link.is_symlink()), ("new\n", 0o640, True))
            with self.assertRaises(ZeroDivisionError), beside(name) as new:
                new.write_text("half")
                raise ZeroDivisionError
            os.mkfifo(pipe)
            for wrong in str(pipe), folder, f"{folder}/none/file", "a\0b":
                with self.assertRaises(Refused):
                    put(wrong, "text")
            discard(pipe)
            self.assertEqual(sorted(it.name for it in Path(folder).iterdir()), ["file", "link", "pipe"])
            self.assertEqual(name.read_text(), "new\n")
            discard(name)
            self.assertFalse(name.exists())

    def test_loads_are_counted_in_sixths_about_the_first_corner(self) -> None:
        # The weight is 8 at (1, 2); the push is 1 to the right at (0, 4).
        loads = wrenches(post(loads=[Load("post", "live", [0, 4], [1, 0])]))
        self.assertEqual(loads, {"post": ([0, -48, -48], [6, 0, -24])})
        self.assertEqual(wrenches(post(sway=[1, 0])), {"post": ([0, -48, -48], [48, 0, -96])})

    def test_the_reversed_model_turns_live_loads_and_sway(self) -> None:
        loads = [Load("post", "live", [0, 4], [1, -3]), Load("post", "dead", [0, 4], [1, 0])]
        turned = post(loads=loads, sway=[1, -2]).turned()
        self.assertEqual([turned.sway, turned.loads[0].force, turned.loads[1].force], [[-1, 2], [-1, 3], [1, 0]])


class Shares(unittest.TestCase):
    def test_each_block_carries_what_the_definition_says(self) -> None:
        draws = random.Random(2)
        for _ in range(200):
            model, n, d = drawn_at_random(draws), draws.randint(-20, 20), draws.randint(1, 20)
            made, wanted = share(model, n, d), defined(model, n, d)
            self.assertFalse(made.has_live())
            found = {name: [Fraction(part, 6) for part in dead] for name, (dead, _) in wrenches(made).items()}
            for load in made.loads:
                self.assertTrue(any(load.force))
            more = 1
            if any(model.sway or ()):
                more = next(k for k in (1, 2, 3, 6) if all(found[name] == [k * part for part in wanted[name]]
                                                           for name in wanted))
            self.assertEqual(found, {name: [more * part for part in wanted[name]] for name in wanted})

    def test_a_push_becomes_dead(self) -> None:
        model = post(weight=3, loads=[Load("post", "live", [0, 4], [5, -1]), Load("post", "dead", [1, 4], [0, -2])])
        made = share(model, 7, 4)
        self.assertEqual(made.materials[0].weight, 12)
        self.assertEqual([(load.kind, load.at, load.force) for load in made.loads],
                         [("dead", [0, 4], [35, -7]), ("dead", [1, 4], [0, -8])])

    def test_a_sway_becomes_forces_at_whole_points(self) -> None:
        # The weight is 8 at (1, 2), so half of it acts there, beside twice the weight.
        made = share(post(sway=[1, 0]), 1, 2)
        self.assertEqual((made.materials[0].weight, made.sway), (2, None))
        self.assertEqual([(load.at, load.force) for load in made.loads], [([1, 2], [8, 0])])
        # A post of the weight 6, 3 high: its centroid lies between two points above one another.
        made = share(post(sway=[1, 0], corners=[[0, 0], [2, 0], [2, 3], [0, 3]]), 1, 1)
        self.assertEqual([(load.at, load.force) for load in made.loads], [([1, 1], [3, 0]), ([1, 2], [3, 0])])
        # A triangle of the weight 1/2 with its centroid at (1/3, 1/3): all loads six times as great.
        made = share(post(sway=[1, 0], corners=[[0, 0], [1, 0], [0, 1]]), 1, 1)
        self.assertEqual(made.materials[0].weight, 6)
        self.assertEqual([(load.at, load.force) for load in made.loads], [([0, 0], [2, 0]), ([0, 1], [1, 0])])

    def test_a_share_of_nothing_leaves_the_dead_loads(self) -> None:
        made = share(post(loads=[Load("post", "live", [0, 4], [1, 0])], sway=[1, 0]), 0, 5)
        self.assertEqual((made.materials[0].weight, made.loads, made.sway), (5, [], None))

    def test_great_forces_are_listed_in_parts(self) -> None:
        made = share(post(loads=[Load("post", "live", [0, 4], [10**9, -7])]), 3, 1)
        self.assertEqual(len(made.loads), 3)
        self.assertTrue(all(abs(part) <= 10**9 for load in made.loads for part in load.force))
        self.assertEqual([sum(load.force[axis] for load in made.loads) for axis in (0, 1)], [3 * 10**9, -21])

    def test_what_passes_a_limit_is_refused(self) -> None:
        loads = [Load("post", "live", [0, 4], [10**9, 0])]
        for model, n, d in ((post(weight=10), 1, 100_001), (post(loads=loads), 257, 1), (post(), 1, 0),
                            (post(loads=loads * 129), 2, 1)):
            with self.assertRaises(Refused):
                share(model, n, d)
        self.assertEqual(share(post(weight=10), 1, 100_000).materials[0].weight, 10**6)
        self.assertEqual(len(share(post(loads=loads), 256, 1).loads), 256)


if __name__ == "__main__":
    unittest.main()
