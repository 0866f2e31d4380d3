#!/usr/bin/env python3
"""Tests of earth.py's `water`, by hand. They call the program.

    python3 tools/tests/test_water.py
"""
import contextlib
import io
import unittest
from dataclasses import replace

from helpers import Asked, example, ground, needs_program as setUpModule, post

import earth
import variant
from masonry import console, model as models, program
from masonry.model import Block, Material, Model


def box(name: str, left: int, bottom: int, right: int, top: int) -> Block:
    return Block(name=name, material="stone", corners=[[left, bottom], [right, bottom], [right, top], [left, top]])


def wall(*blocks: Block) -> Model:
    return Model(None, None, [Material("stone", 1, [1, 1])], [], [ground(-30, 30), *blocks], [])


class Water(Asked):
    def wetted(self, model: Model, *words: str, status: int = 0) -> tuple[Model, list[str]]:
        """The model with water of the unit weight 1, and what is said."""
        models.write(self.name, model)
        out, err = io.StringIO(), io.StringIO()
        with contextlib.redirect_stdout(out), contextlib.redirect_stderr(err):
            self.assertEqual(console.ran(earth.main, "earth", earth.__doc__, ["water", self.name, "1", *words]), status)
        return models.model_of(out.getvalue()) if not status else model, err.getvalue().splitlines()

    def stands(self, model: Model) -> bool:
        models.write(self.name, model)
        return program.run("stand", self.name).status == 0

    def held(self, model: Model, *words: str) -> bool:
        return self.stands(self.wetted(model, *words)[0])

    def test_a_dam_tips(self) -> None:
        # The post of 8 is 2 wide: it tips where h^2/2 * h/3 = 8*1, at 3.634.
        self.assertEqual((self.held(post([]), "3.63"), self.held(post([]), "3.64")), (True, False))

    def test_uplift_under_the_foot(self) -> None:
        # It falls from h at the heel to 0 at the toe: h at 4/3 from the toe. h^3/6 + 4/3*h = 8 at 2.914.
        self.assertEqual((self.held(post([]), "2.91", "foot"), self.held(post([]), "2.92", "foot")), (True, False))

    def test_a_foot_that_slants_or_has_steps(self) -> None:
        # The foot rises by 6 on 30. Under water of 30 and 16 the pressure is 30 at its left end and 10 at its right
        # one: it lifts with 40/2*30, and pushes to the left with 40/2*6. The faces take 30^2/2 and 10^2/2.
        rising = Block(name="b", material="stone", corners=[[0, 0], [30, 6], [30, 40], [0, 40]])
        slope = Block(name="ground", material="stone", fixed=True, corners=[[0, 0], [30, 6], [30, -9], [0, -9]])
        slanting = replace(wall(rising), blocks=[slope, rising])
        wet, said = self.wetted(slanting, "30", "right", "16", "foot")
        self.assertEqual(said[1], "sum dead 280 600")
        ends = {tuple(load.at): load.force[1] / wet.materials[0].weight for load in wet.loads if load.force[1]}
        self.assertEqual(ends, {(0, 0): 70 * 5, (30, 6): 50 * 5})
        # The same from the other side.
        self.assertEqual(self.wetted(slanting, "16", "right", "30", "foot")[1][1], "sum dead -280 600")
        # Two steps, of 10 and 20, the second 2 higher: under water of 20 the head is 14 between them, and 2 at the end.
        # It lifts with 34/2*10 and with 12/2*20.
        stepped = [Block(name="a", material="stone", corners=[[0, 0], [10, 0], [10, 30], [0, 30]]),
                   Block(name="b", material="stone", corners=[[10, 2], [30, 2], [30, 30], [10, 30]]), ground(-10, 40),
                   replace(box("step", 10, 0, 30, 2), fixed=True)]
        self.assertEqual(self.wetted(replace(wall(), blocks=stepped), "20", "foot")[1][1], "sum dead 200 290")

    def test_water_on_both_sides(self) -> None:
        # On a smooth foot each unbalanced push slides it. With 3 on both sides none is left, and 3*2 lifts it.
        smooth = replace(post([]), materials=[Material("stone", 1, [0, 1])])
        self.assertEqual((self.held(smooth, "3", "right", "3", "foot"), self.held(smooth, "3", "right", "2.9")),
                         (True, False))
        self.assertEqual(self.wetted(post([]), "3", "right", "3", "foot")[1][1], "sum dead 0 6")

    def test_a_post_under_water(self) -> None:
        # The post is 2 wide and 4 high, and its top 2 under water: that lies on it with 2*2, and lifts it with 6*2
        # below. So it is lifted by 2*4, what it displaces.
        for words, up in ("6 right 6", -4), ("6 right 6 foot", 8):
            self.assertEqual(self.wetted(post([]), *words.split())[1][1], f"sum dead 0 {up}")

    def test_steps_ledges_and_beds(self) -> None:
        # Water 4 deep pushes with 8. On a step 2 wide and 2 below the surface it lies with 4, and under a ledge 1 wide
        # it lifts with 2. In the foot 2 wide it lifts with 4*2/2; what it does in a bed of two blocks is no sum.
        stepped = wall(box("foot", 0, 0, 4, 2), box("head", 2, 2, 4, 4))
        self.assertEqual(self.wetted(stepped, "4")[1][:2], ["water pushes right 8 left 0", "sum dead 8 -4"])
        ledged = wall(box("foot", 1, 0, 3, 2), box("head", 0, 2, 3, 4))
        self.assertEqual(self.wetted(ledged, "4")[1][:2], ["water pushes right 8 left 0", "sum dead 8 2"])
        two = wall(box("foot", 0, 0, 2, 2), box("head", 0, 2, 2, 4))
        model, said = self.wetted(two, "4", "beds")
        self.assertEqual(said[1], "sum dead 8 4")
        times = model.materials[0].weight
        lifts = [sum(load.force[1] for load in model.loads if load.block == name) / times for name in ("foot", "head")]
        self.assertEqual(lifts, [2, 2])

    def test_a_bed_behind_a_step_or_a_ledge(self) -> None:
        # The bed is 2 wide and 2 below the surface, from the end of the step or the ledge on: it lifts with 2*2/2, and
        # the ledge with 2*1 besides. On the foot act 4*4/2 or 4*2/2 from below, less the same 2, and 4 on the step.
        for foot, head, up in (box("foot", 0, 0, 4, 2), box("head", 2, 2, 4, 4), [2, 2]), \
                              (box("foot", 1, 0, 3, 2), box("head", 0, 2, 3, 4), [2, 4]):
            model = self.wetted(wall(foot, head), "4", "beds")[0]
            times = model.materials[0].weight
            self.assertEqual([sum(load.force[1] for load in model.loads if load.block == name) / times
                              for name in ("foot", "head")], up)

    def test_behind_a_bank(self) -> None:
        # A bank 1 high stands beside the post. Water 3 deep fills the ditch between them: it pushes with 3^2/2, and
        # with 2^2/2 if the bank lies at the post. A bank of 4 dams the water. In water of 8 a portal of 4 and 2 takes
        # (8^2 - 2^2)/2 from both sides, and stays dry inside.
        def beside(*blocks: Block) -> Model:
            return wall(box("post", 0, 0, 2, 4), *(replace(block, fixed=True) for block in blocks))

        ditch, at_it = beside(box("bank", -9, 0, -1, 1)), beside(box("bank", -9, 0, 0, 1))
        self.assertEqual([self.wetted(model, "3")[1][0] for model in (ditch, at_it)],
                         [f"water pushes right {push} left 0" for push in (4.5, 2)])
        self.wetted(beside(box("bank", -9, 0, -1, 4)), "3", status=70)
        portal = wall(box("left", 0, 0, 2, 4), box("right", 6, 0, 8, 4), box("lintel", 0, 4, 8, 6))
        said = self.wetted(portal, "8", "right", "8")[1]
        self.assertEqual((said[0], said[-1]), ("water pushes right 30 left 30", "dry below lintel"))

    def test_what_hangs_over_a_dry_opening(self) -> None:
        # All stones of an arch hang over its opening, but none does that stands above the water. A ledge hangs over
        # none, whether the water lies before it or on the other side, and neither does a lintel on piers that touch.
        arch = replace(example("arches/footbridge"), loads=[])
        self.assertEqual(self.wetted(arch, "200", "right", "200")[1][-1], "dry below v1 v2 v3 v4 v5 v6 v7")
        self.assertEqual(self.wetted(arch, "40", "right", "40")[1][-1], "dry below v1 v2 v6 v7")
        ledged = wall(box("foot", 1, 0, 3, 2), box("head", 0, 2, 3, 4))
        piers = wall(box("one", 0, 0, 2, 2), box("two", 2, 0, 5, 2), box("lintel", 0, 2, 5, 4))
        apart = wall(box("one", 0, 0, 2, 2), box("two", 3, 0, 5, 2), box("lintel", 0, 2, 8, 4))
        for model, words, dry in ((ledged, "4", []), (ledged, "3 right 3", []), (piers, "3 right 1", []),
                                  (apart, "3", ["dry below lintel"])):
            said = self.wetted(model, *words.split())[1]
            self.assertEqual([line for line in said if line.startswith("dry")], dry)

    def test_a_face_that_leans(self) -> None:
        # A face that leans back by 1 in 4: the water also lies on it, with the weight of the triangle above, 4*1/2. The
        # same of one that overhangs lifts it.
        for shift, up in (1, -2), (-1, 2):
            leaning = Block(name="b", material="stone", corners=[[0, 0], [6, 0], [6, 4], [shift, 4]])
            self.assertEqual(self.wetted(wall(leaning), "4")[1][1], f"sum dead 8 {up}")

    def test_a_block_under_water_in_an_earthquake(self) -> None:
        # 1 m by 2 m of 22 kN/m3 under water of 10 kN/m3: 24 kN are left, and the mass of 44. The water pushes each face
        # with 7/12*k*10*4 at 0.4*2: 24*0.5 = k*(44*1 + 2*18.67), so k is 0.1475. With one face wet, and the uplift of
        # both, 12 = k*(44 + 18.67) would be 0.1915.
        block = Model(2, [1, 0], [Material("stone", 22, [2, 1])], [],
                      [ground(-1000, 1000), box("post", 0, 0, 100, 200)], [])
        found = []
        for share in "147", "148":
            models.write(self.name, block)
            words = ["water", self.name, "10", "200", "right", "200", "foot", "quake", share, "1000"]
            with contextlib.redirect_stdout(io.StringIO()) as out, contextlib.redirect_stderr(io.StringIO()):
                self.assertEqual(earth.main(words), 0)
            models.put(self.name, out.getvalue())
            with contextlib.redirect_stdout(io.StringIO()) as out:
                variant.main(["share", self.name, share, "1000"])
            found.append(self.stands(models.model_of(out.getvalue())))
        self.assertEqual(found, [True, False])

    def test_a_flat_face_in_an_earthquake(self) -> None:
        # A face that rises by 12 on 24: the water lies on it with 24*12/2 and pushes with 12^2/2, and in an earthquake
        # with 7/12*12^2 more, as on any face that is 12 high.
        flat = Block(name="b", material="stone", corners=[[0, 0], [48, 0], [48, 12], [24, 12]])
        model = replace(wall(flat), version=2, sway=[1, 0])
        self.assertEqual(self.wetted(model, "12", "quake", "1", "1")[1][1], "sum dead 156 -144")

    def test_the_retaining_wall(self) -> None:
        # docs/worked/wall.md, step 10, water alone: with uplift it slides at 5*h^2 = 2/3*(59.4 - 6*h).
        wet = example("walls/dry-stone-retaining-wall")
        wet = replace(wet, loads=[])
        found = []
        for level in "244", "245":
            models.write(self.name, wet)
            words = ["water", self.name, "10", level, "foot"]
            with contextlib.redirect_stdout(io.StringIO()) as out, contextlib.redirect_stderr(io.StringIO()):
                self.assertEqual(earth.main(words), 0)
            found.append(self.stands(models.model_of(out.getvalue())))
        self.assertEqual(found, [True, False])

    def test_words_and_what_is_refused(self) -> None:
        for words in "3 left 2", "3 right", "3 foot beds foot", "3 quake 1 2", "":
            self.wetted(post([]), *words.split(), status=2)
        self.wetted(post([], [1, 0]), "3", status=2)
        self.wetted(post([]), "0", status=70)
        said = self.wetted(post([]), "5", status=70)[1]
        self.assertEqual(said, ["earth: water flows over post: let it stand as high on both sides, or no higher than "
                                "the top"])


if __name__ == "__main__":
    unittest.main()
