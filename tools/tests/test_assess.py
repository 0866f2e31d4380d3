#!/usr/bin/env python3
"""Tests of assess.py and of what it stands on, by hand and against the scripts that make one change.

    python3 tools/tests/test_assess.py

They call the program and `esolver`.
"""
import random
import time
import unittest
from dataclasses import replace
from fractions import Fraction
from pathlib import Path
from unittest import mock

from helpers import EXAMPLES, Asked, at_random, example, needs_esolver as setUpModule, post

import assess
import travel
from masonry import model as models, program, time_limit
from masonry.assessing import changes, trials
from masonry.assessing.changes import Drawing
from masonry.console import Answer, Progress, Refused
from masonry.model import Block, Load, Material, Model
from masonry.questions import slides
from masonry.time_limit import Spent

PUSH = Load("post", "live", [0, 4], [1, 0])


class Assessed(Asked):
    def assessed(self, model: Model, *words: str, status: int = 0) -> list[str]:
        models.write(self.name, model)
        self.count = getattr(self, "count", 0) + 1
        self.files = Path(self.folder, f"files-{self.count}")
        return self.said(assess.main, self.name, *words, "files", str(self.files), status=status)

    def rows(self, lines: list[str]) -> dict[str, list[str]]:
        """The figures of the table by their names."""
        cells = [line.strip("| ").split(" | ") for line in lines if line.startswith("| ")][1:]
        return {row[-1]: row[1:-2] for row in cells}

    def test_a_post_that_is_pushed_at_its_head(self) -> None:
        # The post of 8 tips at 8*1/4; with a tenth off each end of its foot at 8*(9/10)/4, less what the cut corners
        # weigh. With nine tenths of its weight it tips at 1.8. At half its height it slides at 8. It slides at 8 for
        # friction 1, and at 6.66 for 5/6. From the left it is the same.
        lines = self.assessed(post([PUSH]), "10")
        rows = self.rows(lines)
        self.assertEqual(rows["as-drawn"], ["20.00", "20.00"])
        self.assertEqual(rows["weight-0.9"], ["18.00", "18.00"])
        self.assertTrue(17.8 < float(rows["shorter"][0]) < 18)
        self.assertTrue(16 < float(rows["together"][0]) < 16.2)
        self.assertIn("load 1 at 0 0 on post (80.00 and 80.00)", next(one for one in lines if "No less" in one))
        self.assertIn("- No joint can slide, with this drawing and this friction.", lines)
        self.assertEqual(self.rows(self.assessed(post([PUSH]), "one"))["as-drawn"], ["2.000"])

    def test_loads_that_stay_are_told(self) -> None:
        # With a sway no load is moved. Moved by hand, the footbridge that sways carries less: 1.288 for 1.347, by a
        # linear program of its own.
        arch = replace(example("arches/footbridge"), version=2)
        for sway, stays in (None, False), ([1, 0], True):
            lines = self.assessed(replace(arch, sway=sway), "one")
            self.assertEqual(any("none was moved or asked alone" in line for line in lines), stays)
            self.assertEqual(any(name.startswith("load-1") for name in self.rows(lines)), not stays)
        there = replace(arch, sway=[1, 0], loads=[replace(arch.loads[0], block="v6", at=[-134, 59])])
        self.assertEqual(self.rows(lines)["as-drawn"], ["1.347"])
        self.assertEqual(self.structure(there)[1].factor(1), Fraction(9647564351, 7488352817))

    def test_what_is_left_out_is_told(self) -> None:
        # A post with seven dead loads, none of which is taken away; and one with a dead load, which doesn't sway
        # beside a live load, unless that is what it takes of the sway.
        seven = post([*(Load("post", "dead", [1, 4], [0, -k]) for k in range(1, 8)), PUSH])
        said = "- a dead load that is missing: more than 6 act straight down."
        self.assertIn(said, self.assessed(seven))
        self.assertNotIn(said, self.assessed(replace(seven, loads=seven.loads[1:])))
        sways = replace(post([Load("post", "dead", [0, 4], [0, -2]), PUSH]), version=2, sway=[1, 0])
        said = "- dead loads that sway, as that on post: beside live loads list what each takes of the sway."
        self.assertIn(said, self.assessed(sways))
        own = Load("post", "live", [0, 4], [2, 0])
        self.assertNotIn(said, self.assessed(replace(sways, loads=[*sways.loads[:1], own])))
        # A load on a top of which a joint takes a part isn't moved.
        stones = [Block(name="ground", material="stone", fixed=True, corners=[[0, -10], [10, -10], [10, 0], [0, 0]]),
                  Block(name="corbel", material="stone", corners=[[0, 0], [20, 0], [20, 2], [0, 2]]),
                  Block(name="wall", material="stone", corners=[[0, 2], [10, 2], [10, 30], [0, 30]])]
        corbel = replace(seven, blocks=stones, loads=[Load("corbel", "live", [12, 2], [0, -1])])
        self.assertIn("- live load 1 at another place: a joint is on its edge of corbel, or it is on none.",
                      self.assessed(corbel))

    def test_every_figure_has_its_certificate(self) -> None:
        rows = self.rows(self.assessed(example("arches/footbridge"), "0.0001"))
        for name, cells in rows.items():
            done = program.run("check", self.files / f"{name}.toml", self.files / f"{name}.cert")
            self.assertEqual(done.output, "accepted\n", name)
            form, _, scale, factor, *_ = (self.files / f"{name}.cert").read_text().split()
            if form != "stands":  # and two shares
                self.assertEqual((form, cells[0]), ("greatest", trials.rounded(int(factor) / int(scale))))
        # docs/worked/arch.md: at x = -84; and with the friction 1/2, on the same model by hand.
        self.assertEqual((rows["load-1-2-v6"], rows["load-1-2-v5"]), (["55.70"], ["55.70"]))
        smoother = example("arches/footbridge")
        smoother = replace(smoother, materials=[replace(smoother.materials[0], friction=[1, 2])])
        most = self.structure(smoother)[1].factor(1)
        assert isinstance(most, Fraction)
        self.assertEqual(rows["friction"], [trials.rounded(float(most))])

    def test_a_retaining_wall(self) -> None:
        # docs/worked/wall.md: it tips at (43.56 - 26.97)/4.5 of 3 kN. Nine tenths of its weight, or eleven of the
        # earth's push, change one of the two; with the friction 5/9 it slides at 33 - 27.
        rows = self.rows(self.assessed(example("walls/dry-stone-retaining-wall"), "0.0001"))
        self.assertEqual([rows[name][0] for name in ("as-drawn", "weight-0.9", "dead-1.1", "friction")],
                         ["11.06", trials.rounded((0.9 * 43.56 - 26.97) / 1.5),
                          trials.rounded((43.56 - 1.1 * 26.97) / 1.5), "6.000"])

    def test_a_facade_in_an_earthquake(self) -> None:
        # F/(1 + F/2) with half of the share upwards, on all weights (docs/use/scope.md); and docs/worked/facade.md
        # while it is built.
        rows = self.rows(self.assessed(example("walls/facade"), "order", str(EXAMPLES / "orders/facade-from-below")))
        sides = [Fraction(187865, 376192), Fraction(3562968, 7173881)]
        self.assertEqual(rows["as-drawn"], [trials.rounded(float(one)) for one in sides])
        self.assertEqual(rows["up"], [trials.rounded(float(one / (1 + one / 2))) for one in sides])
        self.assertEqual(rows["stage-5"], [trials.rounded(2273 / 4903), trials.rounded(2147 / 4903)])

    def test_a_joint_that_can_slide_is_told_and_no_other(self) -> None:
        asked: list[int] = []
        real = slides.Pressing.slide

        def slide(self: slides.Pressing, j: int, sign: int) -> slides.Slide | None:
            asked.append(j)
            return real(self, j, sign)

        with mock.patch.object(slides.Pressing, "slide", slide):
            lines = self.assessed(example("posts/post-on-a-gripped-stone"), "one")
        said = "- The joint of left-jamb and stone can slide from 0 on"
        self.assertTrue(any(line.startswith(said) for line in lines), lines)
        self.assertEqual(set(asked), {0})

    def test_without_a_limit(self) -> None:
        # Pressed in its middle a post has none, and none at an end of its top; but beyond a foot that is shorter by 0.1
        # it tips at some 0.9*8*0.9/0.1.
        rows = self.rows(self.assessed(post([Load("post", "live", [1, 4], [0, -1])])))
        self.assertEqual((rows["as-drawn"], rows.keys()), (["no limit"], {"as-drawn", "together"}))
        self.assertTrue(60 < float(rows["together"][0]) < 65)

    def test_a_load_that_travels(self) -> None:
        # The worst place alone is told, and it is that of the script that moves loads.
        rows = self.rows(self.assessed(example("arches/footbridge"), "travels"))
        told = [row for name, row in rows.items() if name.startswith("load-1-at-")]
        least = self.said(travel.main, self.name, "1")[-1]
        self.assertTrue(least.startswith("least at "), least)
        self.assertEqual(told, [[trials.rounded(float(least.split()[-1]))]])
        # All together may want another place, or another block there: so no more is carried than without the word.
        corners = self.rows(self.assessed(example("arches/footbridge")))
        self.assertLessEqual(float(rows["together"][0]), float(corners["together"][0]))

    def test_what_falls_and_what_only_stands(self) -> None:
        lines = self.assessed(example("walls/corbel-without-a-tail"), status=1)
        self.assertEqual(self.rows(lines), {"as-drawn": ["falls"]})
        self.assertEqual(self.rows(self.assessed(example("posts/standing-post"))), {"as-drawn": ["stands"]})
        self.assertFalse(any("safe " in line or line.endswith("safe.") for line in lines))

    def test_what_looks_odd(self) -> None:
        lines = self.assessed(replace(post([replace(PUSH, at=[0, 40])]), sway=None))
        self.assertIn("- live load 1 at 0 40 acts 36 off post.", lines)
        self.assertIn("- live loads of 1 to 1: if they were rounded, then by up to 50 %.", lines)

    def test_what_is_not_settled(self) -> None:
        real = program.run

        def late(*words: object) -> Answer:
            if words[0] == "load" and "weight-0.9.toml" in str(words[1]):
                raise Spent
            return real(*words)

        with mock.patch.object(program, "run", late):
            lines = self.assessed(post([PUSH]), "seconds", "7", status=70)
        self.assertTrue(any("| - | - | not settled in 7 s | weight-0.9 |" in line for line in lines), lines)
        self.assertNotIn("weights times 0.9;", next((line for line in lines if "all together" in line), ""))

    def test_words_and_files(self) -> None:
        for words in ["x"], ["0"], ["up"], ["inset", "0"], ["near", "1", "near", "1"], ["1", "one", "one"], ["1", "2"]:
            self.assessed(post([PUSH]), *words, status=2)
        models.write(self.name, Model())
        self.said(assess.main, self.name, "files", f"{self.folder}/none", status=70)
        self.assertFalse(Path(self.folder, "none").exists())
        models.write(self.name, post([PUSH]))
        self.said(assess.main, self.name, "files", self.folder, status=70)
        self.said(assess.main, self.name, "files", self.name, status=70)
        order = Path(self.folder, "order")
        order.write_text("nobody\n")
        self.said(assess.main, self.name, "order", str(order), "files", f"{self.folder}/none", status=70)
        self.assertFalse(Path(self.folder, "none").exists())


class Changed(unittest.TestCase):
    def loads(self, made: changes.Made, of: Model) -> list[Load]:
        return made(Drawing(of)).model.loads

    def test_a_load_goes_to_the_ends_of_its_top_and_to_both_stones(self) -> None:
        arch = example("arches/footbridge")
        bearings = models.bearings_of(program.answer("contacts", EXAMPLES / "arches/footbridge.toml"))
        said = [one.said for one in changes.places(arch, 0, bearings)]
        self.assertEqual(said, ["live load 1 at -29 103 on v5", "live load 1 at -29 103 on v4",
                                "live load 1 at -84 88 on v5", "live load 1 at -84 88 on v6"])

    def test_weights_stay_whole(self) -> None:
        made = changes.heavier(changes.LESS, [Material("stone", 1, [1, 1])], False)(Drawing(post([PUSH])))
        self.assertEqual((made.model.materials[0].weight, made.model.loads[0].force), (9, [10, 0]))
        self.assertEqual(made.scale.forces, 10)
        made = changes.heavier(changes.LESS, [Material("stone", 20, [1, 1])], False)(
            Drawing(replace(post([PUSH]), materials=[Material("stone", 20, [1, 1])])))
        self.assertEqual((made.model.materials[0].weight, made.scale.forces), (18, 1))

    def test_a_floor_that_is_missing_does_not_sway(self) -> None:
        floor, swaying = Load("post", "dead", [1, 4], [0, -6]), Load("post", "live", [1, 4], [12, 0])
        model = post([floor, swaying, PUSH], [2, 0])
        self.assertEqual(self.loads(changes.missing(floor), model), [PUSH])
        self.assertEqual(self.loads(changes.missing(floor), model.turned()), [PUSH.times(-1)])
        # Of two beams as heavy the other one still sways.
        beam, other = replace(floor, at=[0, 4]), replace(swaying, at=[0, 4])
        both = replace(model, loads=[floor, beam, other, swaying])
        self.assertEqual(self.loads(changes.missing(floor), both), [beam, other])
        self.assertEqual(self.loads(changes.missing(beam), both), [floor, swaying])
        self.assertEqual(self.loads(changes.heavier(changes.MORE, None, True), model),
                         [replace(floor, force=[0, -33]), replace(swaying, force=[66, 0]), PUSH.times(5)])

    def test_a_share_up(self) -> None:
        floor = Load("post", "dead", [1, 4], [0, -6])
        made = changes.partly(Fraction(-1, 2))(Drawing(post([floor, PUSH], [-1, 0])))
        self.assertEqual((made.model.sway, made.times), ([-2, -1], 2))
        self.assertEqual(made.model.loads, [floor, PUSH.times(2), replace(floor, kind="live", force=[0, -6])])
        with self.assertRaises(Refused):
            changes.partly(Fraction(1, 2000))(Drawing(post([], [1, 0])))

    def test_friction_that_is_no_short_fraction_is_rounded_down(self) -> None:
        self.assertEqual(changes.less([3, 5]), [1, 2])
        self.assertEqual(changes.less([997, 1000]), [83, 100])
        self.assertEqual(changes.less([1, 997]), [0, 1])

    def test_together_is_no_more_than_any_change(self) -> None:
        draws, seen = random.Random(11), 0
        for _ in range(12):
            test = Assessed()
            test.setUp()
            self.addCleanup(test.doCleanups)
            model = at_random(draws)
            models.write(test.name, model)
            if program.run("stand", test.name).status:
                continue
            table = program.answer("contacts", test.name)
            with Progress("test") as progress:
                found = trials.Assessment(trials.Wanted(test.name, Path(test.folder)), model, table, progress)
                self.assertTrue(found.all())
            for side, last in ((side, row) for row in found.last for side in (0, 1) if row.ends[side:side + 1] != []):
                if (end := last.ends[side]) is not None:
                    joined = [row.ends[side] for family in found.families for change, row in family if change.joins]
                    self.assertLessEqual(end.factor(), min(one.factor() for one in joined if one))
                    seen += 1
        self.assertGreater(seen, 6)


class Time(unittest.TestCase):
    def test_own_time_and_that_of_others_is_limited(self) -> None:
        def forever() -> None:
            while True:
                pass

        def others() -> None:
            time_limit.run(["sh", "-c", "while :; do :; done"])

        for work in (forever, others):
            before = time.process_time()
            with self.assertRaises(Spent), time_limit.within(1):
                work()
            self.assertLess(time.process_time() - before, 2)
        self.assertEqual(time_limit.run(["sh", "-c", "echo a; exit 3"]).returncode, 3)


if __name__ == "__main__":
    unittest.main()
