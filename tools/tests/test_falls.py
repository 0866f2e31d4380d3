#!/usr/bin/env python3
"""Tests of solve.py's `falls`, by hand and against reference_lp.py. They call the program and esolver.

    python3 tools/tests/test_falls.py
"""
import random
import unittest
from collections.abc import Sequence
from dataclasses import replace
from itertools import combinations
from pathlib import Path

from helpers import Asked, at_random, example, ground, needs_esolver as setUpModule, post

from masonry import model as models, program
from masonry.lp import linear
from masonry.model import Block, Load, Material, Model
from masonry.questions import falls
from masonry.questions.case import motion_of
from reference_lp import Lacks


def stones(*outlines: tuple[str, int, int, int, int]) -> Model:
    """Rectangles, each by its name, left, bottom, right and top, on the ground, of the friction 1."""
    blocks = [Block(name=name, material="stone", corners=[[a, b], [c, b], [c, d], [a, d]])
              for name, a, b, c, d in outlines]
    return Model(None, None, [Material("stone", 1, [1, 1])], [], [ground(-40, 40), *blocks], [])


class Falls(Asked):
    def groups(self, model: Model, *words: str) -> list[list[str]]:
        """The groups that fall and then what stays: each certificate is accepted, and moves what its line names."""
        lines = self.solved(model, "falls", self.cert, *words)
        found: list[list[str]] = []
        for number, line in enumerate(lines, 1):
            if line == "nothing stays":
                return [*found, []]
            *names, last = line.removeprefix("then ").split()[1:]
            stem = f"{self.folder}/answer-{number}"
            done = program.run("check", f"{stem}.toml", f"{stem}.cert")
            self.assertEqual((last, done.output), ("accepted", "accepted\n"))
            written, motion = models.read(f"{stem}.toml"), motion_of(Path(f"{stem}.cert").read_text().splitlines())
            moved = [block.name for k, block in enumerate(written.free_blocks()) if any(motion[3 * k:3 * k + 3])]
            self.assertEqual(line.removeprefix("then ").split()[0], "falls" if moved else "stays")
            self.assertEqual(names, moved or [block.name for block in written.free_blocks()])
            found.append(names)
        return found

    def test_a_stack_that_overhangs(self) -> None:
        # The wall ends at 12. The middle of the plate is at 11.5 and that of the cap at 14.5, where the plate still
        # bears it. Both together have theirs at 13: they topple as one, and neither alone.
        wall = stones(("left", 0, 0, 6, 4), ("right", 6, 0, 12, 4), ("plate", 8, 4, 15, 6), ("cap", 11, 6, 18, 8),
                      ("heap", 0, 4, 6, 8))
        self.assertEqual(self.groups(wall), [["plate", "cap"], ["left", "right", "heap"]])
        # Up to 17 the plate has its middle at 12.5 and topples alone. It clears a cap that begins at 14, since it sinks
        # there as fast as it slides, 2 above its edge. The cap falls once it has gone.
        wide = stones(("left", 0, 0, 6, 4), ("right", 6, 0, 12, 4), ("plate", 8, 4, 17, 6), ("cap", 14, 6, 18, 8),
                      ("heap", 0, 4, 6, 8))
        self.assertEqual(self.groups(wide), [["plate"], ["cap"], ["left", "right", "heap"]])

    def test_two_towers(self) -> None:
        # Each head is 4 wide, on a foot that ends at 1 or at 3 under it: it topples on the first.
        towers = stones(("foot", 0, 0, 4, 6), ("head", 3, 6, 7, 9), ("other-foot", 20, 0, 24, 6),
                        ("other-head", 21, 6, 25, 9))
        self.assertEqual(self.groups(towers), [["head"], ["foot", "other-foot", "other-head"]])
        both = stones(("foot", 0, 0, 4, 6), ("head", 3, 6, 7, 9), ("other-foot", 20, 0, 24, 6),
                      ("other-head", 23, 6, 27, 9))
        first, second, stay = self.groups(both)
        self.assertEqual((sorted([first, second]), stay), ([["head"], ["other-head"]], ["foot", "other-foot"]))

    def test_a_lintel_between_piers(self) -> None:
        """It lies between their smooth faces on nothing. The stone on it falls once it has gone, and one that reaches
        from pier to pier stays."""
        piers = ("left-pier", 0, 0, 4, 10), ("right-pier", 10, 0, 14, 10), ("lintel", 4, 7, 10, 10)
        smooth = [Material("stone", 1, [0, 1])]
        door = replace(stones(*piers, ("parapet", 5, 10, 9, 12)), materials=smooth)
        self.assertEqual(self.groups(door), [["lintel"], ["parapet"], ["left-pier", "right-pier"]])
        band = replace(stones(*piers, ("band", 0, 10, 14, 12)), materials=smooth)
        self.assertEqual(self.groups(band), [["lintel"], ["left-pier", "right-pier", "band"]])
        # With the friction 1 a thrust of 9 at its foot holds its weight of 18. A pier bears that: about its outer edge
        # 9*7 turn it, and 40*2 + 9*4 hold it.
        self.assertEqual(self.groups(stones(*piers)), [["left-pier", "right-pier", "lintel"]])

    def test_an_arch_falls_as_one_or_not_at_all(self) -> None:
        arch = example("arches/footbridge")
        names = [block.name for block in arch.free_blocks()]
        self.assertEqual(self.groups(arch), [names])
        # It carries 96.41 times its load.
        self.assertEqual(self.groups(arch, "96", "1"), [names])
        first = self.groups(arch, "97", "1")[0]
        self.assertIn("v5", first)
        self.assertGreaterEqual(len(first), 3)  # a mechanism of four hinges

    def test_the_facade(self) -> None:
        # By hand (docs/worked/facade.md) its left pier and all else turn as one from 0.49939 on, and all else without
        # that pier only from 0.4996 on.
        facade = example("walls/facade")
        names, pier = [block.name for block in facade.free_blocks()], ["gl1", "gl2", "gel"]
        self.assertEqual(self.groups(facade, "4995", "10000")[0], names)
        rest = [name for name in names if name not in pier]
        self.assertEqual(self.groups(facade, "4997", "10000"), [rest, pier, []])

    def test_a_share_of_the_live_loads(self) -> None:
        # A post 2 wide and of the weight 8, pushed at its height of 4, carries twice the push.
        pushed = post([Load("post", "live", [0, 4], [1, 0])])
        self.assertEqual(self.groups(pushed, "2", "1"), [["post"]])
        self.assertTrue(Path(f"{self.folder}/answer-1.cert").read_text().startswith("stands"))
        self.assertEqual(self.groups(pushed, "201", "100"), [["post"], []])
        written = models.text_of(f"{self.folder}/answer-1.toml")
        self.assertIn("# The share 201/100 of the live loads is dead here.", written)

    def falls(self, model: Model, free: Sequence[str]) -> bool:
        """Whether anything falls, if only these blocks are free, by the tests' own linear program: raised from below, a
        load of no force reaches no factor."""
        _, statics = self.structure(falls.freed(model, free))
        return statics.factor(1) is Lacks.VALUES

    def test_no_part_of_a_group_falls_alone(self) -> None:
        draws, count = random.Random(5), 0
        while count < 12:
            model = at_random(draws, live=False)
            model = replace(model, sway=None)
            structure, _ = self.structure(model)
            if linear.stands(structure):
                continue
            count += 1
            group = self.groups(model)[0]
            self.assertTrue(self.falls(model, group))
            for held in group:
                self.assertFalse(self.falls(model, [name for name in group if name != held]), (model, group, held))

    def test_words(self) -> None:
        self.assertEqual(self.solved(post([]), "falls", self.cert), ["stays post accepted"])
        for words in "1", "1 0", "1 2 3":
            self.solved(post([]), "falls", self.cert, *words.split(), status=2)


if __name__ == "__main__":
    unittest.main()
