#!/usr/bin/env python3
"""Tests of travel.py, by hand and against other places.

    python3 tools/tests/test_travel.py

They call the program and `esolver`.
"""
import random
import unittest
from dataclasses import replace
from fractions import Fraction
from pathlib import Path
from unittest import mock

from helpers import Asked, at_random, example, ground, needs_esolver as setUpModule, post, refusing

import travel
from masonry import model as models, program
from masonry.console import Answer
from masonry.lp import linear
from masonry.lp.short_certificates import Rounding, Tried, short_forces
from masonry.model import Block, Load, Material, Model
from masonry.questions.results import Shares
from masonry.units import Size


class Travels(Asked):
    def travelled(self, model: Model, *words: str, status: int = 0) -> list[str]:
        models.write(self.name, model)
        return self.said(travel.main, self.name, *words, status=status)

    def test_the_footbridge(self) -> None:
        # By hand, with the mechanism of docs/worked/arch.md: v3 to v5 turn by 5830 about x = -62.683, so at x = -84 the
        # load of 10000 sinks by 5830*21.317, while the weights rise by 69231846240: 69231846240/(10000*5830*21.317).
        lines = self.travelled(example("arches/footbridge"), "1")
        self.assertEqual(lines[-1], "least at -84 on v6 144233013/2589125 = 55.7072")
        self.assertEqual(len(lines), 15)
        self.assertEqual(self.travelled(example("arches/footbridge"), "1", "-75")[-1],
                         "least of the given places at -75 on v5 144233013/1496000 = 96.4124")

    def test_kn_and_metres(self) -> None:
        """A load of 10000 forces of 0.0002 kN comes to 2 kN, an axle group of two of them to 4, with both on it or
        not; a length of 1 is 1 cm."""
        lines = self.travelled(example("arches/footbridge"), "1", "-84", "kN", "0.0002", "m", "0.01")
        self.assertEqual([*lines[:3], lines[-1]], [
            "forces in kN", "lengths in m", "at -0.84 on v6 144233013/2589125 = 111.414",
            "least of the given places at -0.84 on v6 144233013/2589125 = 111.414"])
        arch = example("arches/footbridge-with-two-loads")
        axles = replace(arch, loads=[replace(arch.loads[0], at=[-75, 90]), replace(arch.loads[1], at=[25, 90])])
        lines = self.travelled(axles, "1,2", "-184", "m", "0.01", "kN", "0.0002")
        self.assertEqual(lines[-1], "least of the given places at -1.84 off at -0.84 on v6 144233013/2589125 = 222.829")
        against = replace(axles, loads=[axles.loads[0], replace(axles.loads[1], force=[0, 10000])])
        self.travelled(against, "1,2", "kN", "1", status=70)
        self.assertEqual(travel.carries(Shares(Fraction(2, 3), Fraction(5, 3), None, True), Size(Fraction(1), 2)),
                         "carried 2/3 = 0.94280904 beyond 5/3 = 2.35702261")

    def test_loads_that_move_along_faces(self) -> None:
        """A push of 1 on a pile of two stones, 6 wide and 3 high each, of the weight 18 each, with the friction 1. At
        the height y of the upper stone, from 3 on, the whole tips at 36*3/y, and the upper stone at 18*3/(y - 3): at
        the top 18 both. The lower stone is pushed at y up to 3: 36 is the most, as both slide then. From the right it
        is the same."""
        for force, x in ([1, 0], 0), ([-1, 0], 6):
            pile = Model(None, None, [Material("stone", 1, [1, 1])], [], [
                ground(-9, 20), *(Block(name=name, material="stone", corners=[[0, y], [6, y], [6, y + 3], [0, y + 3]])
                                  for name, y in (("lower", 0), ("upper", 3)))], [Load("upper", "live", [x, 4], force)])
            lines = self.travelled(pile, "1", "faces")
            self.assertEqual(lines, ["at 0 on lower 36/1 = 36", "at 3 on lower 36/1 = 36", "at 3 on upper 18/1 = 18",
                                     "at 6 on upper 18/1 = 18", "least at 3 on upper 18/1 = 18"])
            self.assertEqual(self.travelled(pile, "1", "faces", "5", "m", "0.1")[1:],
                             ["at 0.5 on upper 18/1 = 18", "least of the given places at 0.5 on upper 18/1 = 18"])
        down = post([Load("post", "live", [0, 4], [0, -1])])
        self.travelled(down, "1", "faces", status=70)
        # A post 2 wide and 8 high, of the weight 16: at the height y it tips at 16/y, below 1 it slides at 16.
        tall = post([Load("post", "live", [0, 4], [1, 0])], None, 8)
        self.assertEqual([self.travelled(tall, "1", "faces", str(y))[-1].split(" = ")[1] for y in (0, 1, 2, 5, 8)],
                         ["16", "16", "8", "3.2", "2"])

    def test_a_slanting_load_on_a_ring(self) -> None:
        # It acts on the tops, so that its places are their corners alone; the least is that of the other solver with
        # the load drawn there.
        arch = example("arches/footbridge")
        slanting = replace(arch, loads=[replace(arch.loads[0], force=[3000, -10000])])
        lines = self.travelled(slanting, "1")
        self.assertEqual(lines[-1], "least at -134 on v6 103229251111/3062465250 = 33.7079")
        self.assertEqual(len(lines), 15)
        corner = next(y for x, y in next(one for one in arch.blocks if one.name == "v6").corners if x == -134)
        moved = replace(slanting, loads=[replace(slanting.loads[0], block="v6", at=[-134, corner])])
        self.assertEqual(self.structure(moved)[1].factor(1), Fraction(103229251111, 3062465250))

    def test_an_axle_group(self) -> None:
        # With both on it the arch carries 106.4 of each; where one has left it the other alone is the worst.
        arch = example("arches/footbridge-with-two-loads")
        axles = replace(arch, loads=[replace(arch.loads[0], at=[-75, 90]), replace(arch.loads[1], at=[25, 90])])
        lines = self.travelled(axles, "1,2")
        self.assertEqual(lines[-1], "least at -184 off at -84 on v6 144233013/2589125 = 55.7072")
        self.assertTrue(lines[-2].startswith("least with all on at "), lines[-2])
        self.assertEqual(lines[-2], "least with all on at -174 on v7 at -74 on v5 482209283/4534000 = 106.354")
        self.assertEqual(self.travelled(axles, "1,2", "-184", "-174")[-2:], [
            "least with all on of the given places at -174 on v7 at -74 on v5 482209283/4534000 = 106.354",
            "least of the given places at -184 off at -84 on v6 144233013/2589125 = 55.7072"])
        self.assertEqual(self.travelled(axles, "1,2", "-75")[1:], ["least of the given places unlimited"])
        moved = [replace(axles.loads[0], block="v7", at=[-174, 90]), replace(axles.loads[1], block="v5", at=[-74, 90])]
        self.assertEqual(self.structure(replace(axles, loads=moved))[1].factor(1), Fraction(482209283, 4534000))

    def test_a_beam_on_two_posts(self) -> None:
        # A beam from 0 to 30 and its weight of 60 at 15, over posts with their inner edges at 6 and 24, and their outer
        # ones at 4 and 26: a load at an end tips it about 4 or 26 at 60*11/4.
        blocks = [Block(name=name, material="stone", fixed=True, corners=[[x, 0], [x + 2, 0], [x + 2, 9], [x, 9]])
                  for name, x in (("left", 4), ("right", 24))]
        beam = Block(name="beam", material="stone", corners=[[0, 9], [30, 9], [30, 11], [0, 11]])
        model = Model(None, None, [Material("stone", 1, [1, 1])], [], [*blocks, beam],
                      [Load("beam", "live", [15, 11], [0, -1])])
        self.assertEqual(self.travelled(model, "1"), ["at 0 on beam 165/1 = 165", "at 30 on beam 165/1 = 165",
                                                     "least at 0 on beam 165/1 = 165"])
        self.assertEqual(self.travelled(model, "1", "2", "15")[-1],
                         "least of the given places at 2 on beam 330/1 = 330")
        self.assertEqual(self.travelled(model, "1", "2", "31")[1:],
                         ["at 31 off", "least of the given places at 2 on beam 330/1 = 330"])

    def test_a_load_that_is_spread(self) -> None:
        """The beam above under 2 of fill without weight. A load of 240 over 2 comes to it over 4: about x it tips
        the beam about 4 or 26 at 60*11/240 over 4 - x or x - 26. At 1 three quarters of it fall on the beam, their
        middle at 1.5: it tips at 60*11/240 over 3/4*(4 - 1.5)."""
        blocks = [Block(name=name, material="stone", fixed=True, corners=[[x, 0], [x + 2, 0], [x + 2, 9], [x, 9]])
                  for name, x in (("left", 4), ("right", 24))]
        beam = Block(name="beam", material="stone", corners=[[0, 9], [30, 9], [30, 11], [0, 11]])
        models.write(self.name, Model(None, None, [Material("stone", 1, [1, 1])], [], [*blocks, beam], []))
        spread = "spread", "13", "240", "2", "1/2"
        self.assertEqual(self.said(travel.main, self.name, *spread, "1", "2", "15", "27", "m", "0.1"), [
            "lengths in m", "at 0.1 on beam part 0.75 22/15 = 1.46667", "at 0.2 on beam 11/8 = 1.375",
            "at 1.5 on beam unlimited", "at 2.7 on beam 11/4 = 2.75",
            "least of the given places at 0.2 on beam 11/8 = 1.375"])
        self.assertEqual(self.said(travel.main, self.name, *spread, "2", "kN", "0.5")[1], "at 2 on beam 11/8 = 165")
        self.said(travel.main, self.name, *spread, "-9", status=70)

    def test_joints_that_are_shorter(self) -> None:
        # The beam above on posts whose joints lose 1/2 at each end, so that it tips about 4.5: at an end it carries
        # 60*(15 - 4.5)/4.5, at 2 it carries 60*10.5/2.5. No corner of the beam is cut.
        blocks = [Block(name=name, material="stone", fixed=True, corners=[[x, 0], [x + 2, 0], [x + 2, 9], [x, 9]])
                  for name, x in (("left", 4), ("right", 24))]
        beam = Block(name="beam", material="stone", corners=[[0, 9], [30, 9], [30, 11], [0, 11]])
        for force in 1, 7:
            model = Model(None, None, [Material("stone", 7, [1, 1])], [], [*blocks, beam],
                          [Load("beam", "live", [15, 11], [0, -force])])
            ends, at_two = 7 * 140 // force, 7 * 252 // force
            self.assertEqual(self.travelled(model, "1", "inset", "1/2"),
                             [*(f"at {x} on beam {ends}/1 = {ends}" for x in (0, 30)),
                              f"least at 0 on beam {ends}/1 = {ends}"])
            self.assertEqual(self.travelled(model, "1", "inset", "1/2", "2")[-1],
                             f"least of the given places at 2 on beam {at_two}/1 = {at_two}")

    def test_the_footbridge_with_a_centimetre_off(self) -> None:
        # docs/worked/arch.md, step 8, asks `v5` and `v6` one by one: 44.89 and 45.8251.
        lines = self.travelled(example("arches/footbridge"), "1", "inset", "1", "-84")
        self.assertEqual(lines[0], "at -84 on v6 272858964831607/5954353687500 = 45.8251")
        self.assertTrue(lines[1].startswith("at -84 on v5 carried ") and " = 44.8899" in lines[1], lines[1])

    def test_loads_that_slant_stay_at_their_height(self) -> None:
        # The post of 8 tips about its foot, now at 1.5: at (0, 4) the push [1, -1] turns it by 4 - 1.5, at (2, 4) by
        # 4.5. Its weight, less two corners of 1/8, holds it with 7.75 * 0.5.
        slanting = post([Load("post", "live", [0, 4], [1, -1])])
        lines = self.travelled(slanting, "1", "inset", "1/2")
        self.assertEqual([line.split(" = ")[1] for line in lines[:2]],
                         [f"{7.75 * 0.5 / 2.5:.6g}", f"{7.75 * 0.5 / 4.5:.6g}"])

    def test_no_place_is_worse_than_the_least(self) -> None:
        draws, worse = random.Random(3), 0
        for _ in range(12):
            model = at_random(draws, live=False)
            top = max(y for block in model.blocks for _, y in block.corners)
            number = len(model.loads) + 1
            model = replace(model, loads=[*model.loads, Load("s0-0", "live", [0, top], [0, -1])])
            if program.run("stand", self.written(model)).status:
                continue
            last = self.travelled(model, str(number))[-1]
            all_places = self.travelled(model, str(number), *map(str, range(-14, 15)))[-1]
            least, other = (None if "unlimited" in line else Fraction(line.split()[-3]) for line in (last, all_places))
            self.assertTrue(other is None or least is not None and least <= other, (last, all_places))
            worse += least is not None
        self.assertGreater(worse, 3)

    def written(self, model: Model) -> str:
        models.write(self.name, model)
        return self.name

    def test_loads_that_slant(self) -> None:
        # At the corner (0, 4) of the post the push [1, -1] turns it by 4 - 2 about its right foot, at (2, 4) by 4.
        slanting = post([Load("post", "live", [0, 4], [1, -1])])
        self.assertEqual(self.travelled(slanting, "1"), ["at 0 on post 4/1 = 4", "at 2 on post 2/1 = 2",
                                                        "least at 2 on post 2/1 = 2"])
        sloping = replace(slanting, blocks=[slanting.blocks[0], replace(slanting.blocks[1], corners=[
            [0, 0], [2, 0], [2, 4], [0, 5]])])
        self.travelled(sloping, "1", "1", status=70)

    def test_loads_that_slant_are_worst_at_a_ridge(self) -> None:
        """A post 2 wide with a ridge at (1, 5), of the weight 9, tips about its right foot at 9*1: a push to the right
        at the ridge has the arm 5, at the ends of the top 4. Both ends of the top are no worse place."""
        ridged = post([Load("post", "live", [0, 4], [1, 0])])
        ridged.blocks[1].corners = [[0, 0], [2, 0], [2, 4], [1, 5], [0, 4]]
        lines = self.travelled(ridged, "1")
        self.assertEqual(lines, ["at 0 on post 9/4 = 2.25", "at 1 on post 9/5 = 1.8", "at 2 on post 9/4 = 2.25",
                                 "least at 1 on post 9/5 = 1.8"])

    def test_the_least_of_shares(self) -> None:
        """What is carried everywhere is the least that is carried, and the least share beyond is beyond: 2 and 4 of
        (2, 5) and (3, 4). The one is rounded down, and the other up."""
        seats = travel.Seat(7, "post"),
        places = [travel.Place(seats, Shares(Fraction(low), Fraction(high), None, True))
                  for low, high in (("2", "5"), ("3", "4"))]
        least = travel.least(places)
        assert least is not None
        self.assertEqual(least.said(), "at 7 on post carried 2/1 = 2 beyond 4/1 = 4")
        thirds = Shares(Fraction(2, 3), Fraction(5, 3), None, True)
        self.assertEqual(travel.carries(thirds), "carried 2/3 = 0.66666666 beyond 5/3 = 1.66666667")

    def test_what_is_withheld(self) -> None:
        falling = post([Load("post", "dead", [9, 4], [0, -9]), Load("post", "live", [1, 4], [0, -1])])
        self.assertEqual(self.travelled(falling, "2", status=1)[-1], "least withheld: the dead loads collapse")
        real = program.run

        def refusing(*words: object) -> Answer:
            """Refuses all, and rejects all certificates, with the load at the left end."""
            far = words[0] in ("load", "check") and "at = [-84" in Path(str(words[1])).read_text()
            return Answer(7, "", "wide run 1 2 3 4 divide") if far else real(*words)

        with mock.patch.object(program, "run", refusing):
            lines = self.travelled(example("arches/footbridge"), "1", "-84", "-75", status=70)
        self.assertEqual(lines[-1], "least withheld: 2 of 3 places have no answer")

    def test_where_the_program_refuses_the_script_answers(self) -> None:
        asked: list[object] = []

        def counted(*words: object) -> Answer:
            asked.append(words[0])
            return refusing(*words)

        with mock.patch.object(program, "run", counted):
            lines = self.travelled(example("arches/footbridge"), "1", "-84", "0")
        # All places share the table of contacts.
        self.assertEqual((asked.count("contacts"), asked.count("load")), (1, 3))
        self.assertEqual(lines, ["at -84 on v6 144233013/2589125 = 55.7072", "at -84 on v5 144233013/2589125 = 55.7072",
                                 "at 0 on v4 unlimited",
                                 "least of the given places at -84 on v6 144233013/2589125 = 55.7072"])

    def test_a_scale_that_was_enough_is_tried_first(self) -> None:
        structure, _ = self.structure(post([]))
        dead, tried = linear.inner(structure, structure.dead), Tried()
        assert dead is not None
        short_forces(structure, dead.amounts, structure.dead, tried)
        self.assertIsNotNone(tried.bits)
        with mock.patch.object(Rounding, "least", side_effect=AssertionError):
            scale, parts = short_forces(structure, dead.amounts, structure.dead, tried)
        sums = [scale * amount for amount in structure.dead]
        for number, part in enumerate(parts):
            for row, amount in structure.column(number, part).items():
                sums[row] += amount
        self.assertEqual((structure.admits(parts), sums), (True, [0, 0, 0]))


if __name__ == "__main__":
    unittest.main()
