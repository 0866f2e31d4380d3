#!/usr/bin/env python3
"""Tests of earth.py, masonry/fill.py and masonry/open_faces.py, on trial wedges, hand statics and the worked wall of
docs/.

    python3 tools/tests/test_earth.py

The program is called where it is built, or PUNGIROE names one.
"""
import contextlib
import io
import random
import unittest
from collections.abc import Callable
from dataclasses import replace
from fractions import Fraction
from math import atan2, cos, hypot, pi, radians, sin, tan
from tempfile import TemporaryDirectory
from unittest import mock

import helpers  # puts tools/ where modules are found

import earth
import variant
from earth import Behind, Soil
from masonry import fill, program
from masonry.console import Refused, Words
from masonry.model import Block, Load, Material, Model, model_of, printed, put, share, write
from masonry.open_faces import Laid, Side, open_pieces, split, with_loads
from masonry.program import NOT_BUILT, built
from masonry.units import Scale, scale_of

GROUND = Block(name="ground", material="stone", fixed=True, corners=[[-900, -10], [900, -10], [900, 0], [-900, 0]])


def wall(*corners: list[list[int]], sway: list[int] | None = None) -> Model:
    """A wall of courses, on its ground."""
    blocks = [Block(name=f"c{number}", material="stone", corners=of) for number, of in enumerate(corners, 1)]
    return Model(2 if sway else None, sway, [Material("stone", 22, [2, 3])], [], [GROUND, *blocks], [])


def laid(model: Model, soil: Soil, start: tuple[float, float], kinds: tuple[str, str] = ("dead", "live")) -> Laid:
    behind = Behind(model, soil, start, kinds)
    behind.lay()
    return behind.laid


def about(of: Laid, kind: str, x: float, y: float) -> tuple[float, float, float]:
    """The sum of the forces of a kind, and their moment about a point, clockwise."""
    found = [0.0, 0.0, 0.0]
    for (_, kind_, (px, py)), (u, v) in of.sums.items():
        if kind_ == kind:
            found = [found[0] + u, found[1] + v, found[2] + u * (py - y) - v * (px - x)]
    return found[0], found[1], found[2]


def greatest(of: Callable[[float], float], low: float, high: float) -> float:
    """The greatest value of a function with one peak: first by steps, then by thirds."""
    steps = [low + (high - low) * k / 400 for k in range(401)]
    best = max(steps, key=of)
    low, high = best - (high - low) / 400, best + (high - low) / 400
    for _ in range(80):
        one, two = low + (high - low) / 3, high - (high - low) / 3
        low, high = (one, high) if of(one) < of(two) else (low, two)
    return of((low + high) / 2)


def by_wedges(soil: Soil, foot: tuple[float, float], top: tuple[float, float]) -> float:
    """The greatest thrust of all wedges between the back, from its foot to its top, and a plane through the foot."""
    lean = atan2(top[0] - foot[0], top[1] - foot[1])
    return greatest(lambda angle: of_wedge(soil, (top[0] - foot[0], top[1] - foot[1]), angle), soil.beta + 1e-6,
                    pi / 2 + min(lean, 0) - 1e-6)


def of_wedge(soil: Soil, back: tuple[float, float], angle: float) -> float:
    """The thrust of the wedge whose plane rises to the left by this angle; far below 0 if there is none.

    The wedge has its weight, with that of the surcharge, and what an earthquake makes of it. The plane presses on it at
    PHI from its normal, the back at DELTA from its own. What isn't known are the sizes of both forces.
    """
    (dx, dy), (bx, by), (px, py) = back, (-cos(soil.beta), sin(soil.beta)), (-cos(angle), sin(angle))
    # The plane, foot + t*p, meets the surface, top + s*b.
    area = px * by - py * bx
    s = (dx * py - dy * px) / area if area else -1
    if s < 0:
        return -1e30
    weight = soil.weight * abs(dx * (dy + s * by) - dy * (dx + s * bx)) / 2 + soil.surcharge * s * cos(soil.beta)
    load = soil.sideways * weight, -(1 - soil.upwards) * weight
    lean = atan2(dx, dy)
    # On the wedge: the back presses to the left, DELTA above the normal; the plane at PHI from its own, up the slope.
    wall = -cos(lean + soil.delta), sin(lean + soil.delta)
    plane = sin(angle - soil.phi), cos(angle - soil.phi)
    size = wall[0] * plane[1] - wall[1] * plane[0]
    thrust = (load[1] * plane[0] - load[0] * plane[1]) / size
    other = (load[0] * wall[1] - load[1] * wall[0]) / size
    return thrust if other > 0 and thrust > 0 else -1e30


class Coefficients(unittest.TestCase):
    def test_rankine(self) -> None:
        for degrees, wanted in (30, 1 / 3), (26, tan(radians(32)) ** 2), (45, tan(radians(22.5)) ** 2):
            self.assertAlmostEqual(Soil(18, radians(degrees), 0, 0).coefficient(0), wanted)

    def test_no_wedge_in_balance(self) -> None:
        soil = Soil(18, radians(30), 0, radians(20), sideways=0.3)
        self.assertLess(tan(radians(10)), 0.3)
        with self.assertRaises(Refused):
            soil.coefficient(0, soil.turned())


class Wedges(unittest.TestCase):
    """A back from (0, 0) to (60 * tan(lean), 60), of one block, against the greatest of all trial wedges."""

    def tried(self, soil: Soil, shift: int, surcharge: float = 0.0) -> None:
        model = wall([[0, 0], [90, 0], [90, 60], [shift, 60]], sway=[1, 0] if soil.sideways else None)
        found = laid(model, soil, (shift, 60))
        wanted = by_wedges(soil, (0, 0), (shift, 60))
        lean = atan2(shift, 60)
        dead, live = about(found, "dead", 0, 0), about(found, "live", 0, 0)
        both = dead[0] + live[0], dead[1] + live[1]
        with self.subTest(soil=soil, shift=shift):
            self.assertAlmostEqual(hypot(*both) / wanted, 1, 6)
            self.assertAlmostEqual(atan2(-both[1], both[0]), lean + soil.delta, 9)

    def test_at_rest_and_in_an_earthquake(self) -> None:
        draws = random.Random(3)
        for _ in range(120):
            phi = draws.uniform(20, 42)
            delta, beta = draws.uniform(0, phi), draws.uniform(-10, phi - 12)
            shift = round(60 * tan(radians(draws.uniform(-20, 20))))
            sideways = draws.choice((0.0, 0.05, 0.1))
            soil = Soil(18, radians(phi), radians(delta), radians(beta), draws.choice((0.0, 300.0)), sideways,
                        sideways * draws.choice((0.0, 0.5, -0.5)), draws.choice((1 / 3, 0.5, 0.6)))
            self.tried(soil, shift)

    def test_the_thrust_is_at_a_third_and_its_increment_where_it_is_said(self) -> None:
        for shift in -10, 0, 12:
            still = Soil(18, radians(30), radians(10), radians(5), 40)
            model = wall([[0, 0], [90, 0], [90, 60], [shift, 60]])
            found = laid(model, still, (shift, 60))
            for kind, part in ("dead", Fraction(1, 3)), ("live", Fraction(1, 2)):
                u, v, moment = about(found, kind, 0, 0)
                self.assertAlmostEqual(moment, u * float(part) * 60 - v * float(part) * shift)
            for height in 1 / 3, 0.5, 0.6:
                soil = Soil(18, radians(30), radians(10), radians(5), 40, 0.1, 0, height)
                moving = laid(wall([[0, 0], [90, 0], [90, 60], [shift, 60]], sway=[1, 0]), soil, (shift, 60))
                for kind, way in ("dead", height), ("live", max(height, 0.5)):
                    more = [x - y for x, y in zip(about(moving, kind, 0, 0), about(found, kind, 0, 0))]
                    self.assertAlmostEqual(more[2], more[0] * way * 60 - more[1] * way * shift)


class Backs(unittest.TestCase):
    def test_courses_along_one_line_are_one_back(self) -> None:
        """The corners of a leaning back, rounded to the grid."""
        ends = [(round(y * tan(radians(11))), y) for y in (0, 20, 40, 60)]
        courses = [[[a, b], [90, b], [90, d], [c, d]] for (a, b), (c, d) in zip(ends, ends[1:])]
        soil = Soil(18, radians(30), radians(20), radians(10))
        behind = Behind(wall(*courses), soil, (ends[-1][0], 60), ("dead", "live"))
        behind.lay()
        self.assertEqual(len(behind.planes), 1)
        u, v, _ = about(behind.laid, "dead", 0, 0)
        self.assertAlmostEqual(hypot(u, v) / by_wedges(soil, (0, 0), (ends[-1][0], 60)), 1, 6)

    def test_where_the_back_breaks_there_are_two_planes(self) -> None:
        model = wall([[-10, 0], [90, 0], [90, 30], [0, 30]], [[0, 30], [90, 30], [90, 60], [0, 60]])
        behind = Behind(model, Soil(18, radians(30), 0, 0), (0, 60), ("dead", "live"))
        self.assertEqual([round(tan(plane.lean), 6) for plane in behind.planes], [0, round(1 / 3, 6)])

    def test_earth_that_is_higher_than_the_wall_counts(self) -> None:
        """The surface rises from 20 above the wall's top. The line of the back meets it lower, further right."""
        soil = Soil(18, radians(30), 0, radians(20))
        behind = Behind(wall([[0, 0], [90, 0], [90, 60], [20, 60]]), soil, (20, 80), ("dead", "live"))
        self.assertAlmostEqual(behind.planes[0].top, 80)
        upright = Behind(wall([[0, 0], [90, 0], [90, 60], [0, 60]]), soil, (10, 80), ("dead", "live"))
        self.assertAlmostEqual(upright.planes[0].top, 80 + 10 * tan(radians(20)))

    def test_no_earth_lies_in_front(self) -> None:
        """On a toe in front of the wall, nor on what is right of where the surface begins."""
        model = wall([[0, 0], [90, 0], [90, 10], [0, 10]], [[0, 10], [40, 10], [40, 60], [0, 60]])
        self.assertAlmostEqual(about(laid(model, Soil(18, radians(30), 0, 0), (0, 60)), "dead", 0, 0)[1], 0)
        model = wall([[-20, 0], [90, 0], [90, 30], [-20, 30]], [[10, 30], [90, 30], [90, 60], [10, 60]])
        self.assertAlmostEqual(about(laid(model, Soil(18, radians(30), 0, 0), (0, 60)), "dead", 0, 0)[1], -18 * 20 * 30)

    def test_a_step_bears_the_earth_over_it(self) -> None:
        """A step 20 wide at 30 of 60: the earth on it weighs 20 * 30 * 18. Level, so nothing more pushes."""
        model = wall([[-20, 0], [90, 0], [90, 30], [-20, 30]], [[0, 30], [90, 30], [90, 60], [0, 60]])
        found = laid(model, Soil(18, radians(30), 0, 0, 300), (0, 60))
        u, v, moment = about(found, "dead", 90, 0)
        self.assertAlmostEqual(u, 3 * 60 ** 2)
        self.assertAlmostEqual(v, -18 * 20 * 30)
        self.assertAlmostEqual(moment, u * 20 + v * 100)
        self.assertAlmostEqual(about(found, "live", 0, 0)[2], 100 * 60 * 30)

    def test_behind_a_step_a_rising_surface_pushes_as_on_the_plane_through_the_heel(self) -> None:
        """So does the whole of the wall; the thrust is that of the greatest wedge."""
        model = wall([[-20, 0], [90, 0], [90, 30], [-20, 30]], [[0, 30], [90, 30], [90, 60], [0, 60]])
        soil = Soil(18, radians(35), 0, radians(15))
        u, v, moment = about(laid(model, soil, (0, 60)), "dead", 0, 0)
        top = 60 + 20 * tan(radians(15))
        wanted = by_wedges(soil, (-20, 0), (-20, top))
        self.assertAlmostEqual(u / wanted, 1, 6)
        self.assertAlmostEqual(v, -18 * 20 * (30 + top - 30) / 2)
        # The weight on the step, a strip and a triangle, is left of the heel of the upper course.
        weighs = 18 * (20 * 30 * -10 + 20 * (top - 60) / 2 * (-20 + 20 / 3))
        self.assertAlmostEqual((moment - weighs) / (wanted * top / 3), 1, 3)

    def test_a_slope_that_faces_up_takes_the_push_on_its_rise(self) -> None:
        """A sloping step in the middle, a sloping shoulder at the top, or both: it pushes as on an upright back."""
        soil = Soil(18, radians(30), 0, 0, 300)
        step = [[-20, 0], [90, 0], [90, 30], [0, 30], [-20, 20]], [[0, 30], [90, 30], [90, 60], [0, 60]]
        shoulder = [[0, 0], [90, 0], [90, 60], [20, 60], [0, 50]],
        both = step[0], [[0, 30], [90, 30], [90, 60], [20, 60], [0, 50]]
        for courses_, start in (step, (0, 60)), (shoulder, (20, 60)), (both, (20, 60)):
            found = laid(wall(*courses_), soil, start)
            for kind, push, high in ("dead", 3 * 60 ** 2, 20), ("live", 100 * 60, 30):
                u, v, moment = about(found, kind, 0, 0)
                self.assertAlmostEqual(u, push)
                weight = sum(-force[1] * at[0] for (_, of, at), force in found.sums.items() if of == kind)
                self.assertAlmostEqual(moment - weight, push * high, 3)

    def test_in_an_earthquake_the_earth_on_a_step_sways(self) -> None:
        model = wall([[-20, 0], [90, 0], [90, 30], [-20, 30]], [[0, 30], [90, 30], [90, 60], [0, 60]], sway=[1, 0])
        found = laid(model, Soil(18, radians(30), 0, 0, 0, 0.1), (0, 60), ("dead", "dead"))
        self.assertEqual([round(part) for part in about(found, "live", 0, 0)], [18 * 600, 0, 18 * 600 * 45])

    def test_what_can_not_be_reckoned_is_refused(self) -> None:
        soil = Soil(18, radians(30), 0, 0)
        for model, start in ((wall([[0, 0], [90, 0], [90, 60], [50, 60]]), (50, 60)), (wall(), (0, 60)),
                             (wall([[0, 0], [90, 0], [90, 60], [0, 60]]), (0, -60))):
            with self.assertRaises(Refused):
                laid(model, soil, start)

    def test_earth_on_both_sides_by_a_mirror(self) -> None:
        """A wall of 120 by 300: earth presses with 18/3 * 300^2/2 = 270000 at 100 on either side."""
        model, soil = wall([[0, 0], [120, 0], [120, 300], [0, 300]]), Soil(18, radians(30), 0, 0)
        model.loads = laid(model, soil, (0, 300)).loads()
        other = variant.mirrored(model)
        other.loads = laid(other, soil, (-120, 300)).loads()
        for loads, sense in (model.loads, 1), (variant.mirrored(other).loads, -1):
            self.assertAlmostEqual(sum(load.force[0] for load in loads) / (sense * 270000), 1, 3)
            self.assertAlmostEqual(sum(load.force[0] * load.at[1] for load in loads) / (sense * 27e6), 1, 3)
            self.assertEqual({load.at[0] for load in loads}, {0} if sense > 0 else {120})

    def test_a_hidden_edge_takes_no_earth(self) -> None:
        """Of two leaves the front one is hidden but for its top 20."""
        model = wall([[0, 0], [20, 0], [20, 40], [0, 40]], [[20, 0], [60, 0], [60, 60], [20, 60]])
        pieces = open_pieces(model, Side.LEFT)
        self.assertEqual([(one.block, one.start[1], one.end[1]) for one in pieces], [("c1", 40, 0), ("c2", 60, 40)])

    def test_earth_fills_the_gap_behind_a_buried_bank(self) -> None:
        # A bank of 20 that stands 10 behind a wall of 60 is buried: the push is 18/3*60^2/2. If it lies at the wall, or
        # reaches up to the surface, it takes the earth off the wall as far as it hides it.
        def push(right: int, high: int) -> float:
            model = wall([[0, 0], [40, 0], [40, 60], [0, 60]])
            model.blocks.append(Block(name="bank", material="stone", fixed=True,
                                      corners=[[-90, 0], [right, 0], [right, high], [-90, high]]))
            return about(laid(model, Soil(18, radians(30), 0, 0), (0, 60)), "dead", 0, 0)[0]

        self.assertAlmostEqual(push(-10, 20), 3 * 60 ** 2)
        self.assertAlmostEqual(push(0, 20), 3 * 40 ** 2)
        with self.assertRaises(Refused):
            push(-10, 60)

    def test_a_back_above_the_surface_takes_its_part(self) -> None:
        u, _, moment = about(laid(wall([[0, 0], [90, 0], [90, 60], [0, 60]]), Soil(18, radians(30), 0, 0), (0, 50)),
                             "dead", 0, 0)
        self.assertAlmostEqual(u, 3 * 50 ** 2)
        self.assertAlmostEqual(moment, u * 50 / 3)


class Fills(unittest.TestCase):
    def test_forces_at_whole_points_have_the_sum_and_the_moment(self) -> None:
        at, force = (Fraction(7, 3), Fraction(-5, 4)), (3.0, -7.0)
        parts = split(at, force)
        self.assertAlmostEqual(sum(x * v - y * u for (x, y), (u, v) in parts), 7 / 3 * -7 - -5 / 4 * 3)
        self.assertEqual([sum(part[axis] for _, part in parts) for axis in (0, 1)], list(force))

    def arch(self, *words: str, sway: list[int] | None = None) -> Laid:
        """Two blocks, whose backs fall from (0, 20) to either side, to (-30, 0) and (30, 0); the fill is 30 high."""
        model = wall([[0, 0], [30, 0], [0, 20]], [[0, 0], [0, 20], [-30, 0]], sway=sway)
        with mock.patch.object(fill, "answer"), mock.patch.object(fill, "read", lambda _: model):
            found, _, _ = fill.filled(["model", "2", "30", *words])
        result = Laid()
        for load in found.loads:
            (x, y), (u, v) = load.at, load.force
            result.add(load.block, load.kind, (Fraction(x), Fraction(y)), (u, v))
        return result

    def test_fill_weighs_and_pushes(self) -> None:
        """A block carries 2 * 30 * (10 + 30)/2 = 1200, at (2*30 + 10)/(30 + 10) * 10 = 17.5 from the crown, and the
        push is half of 2 * 20 * (10 + 30)/2 = 800."""
        found = self.arch("push", "1/2")
        for name, way in ("c1", 1), ("c2", -1):
            one = Laid({key: force for key, force in found.sums.items() if key[0] == name})
            u, v, moment = about(one, "dead", 0, 0)
            self.assertEqual((u, v), (-way * 400, -1200))
            # The pressures of the push are as 10 at the height 20, and 30 at 0.
            high = 20 / 3 * (30 + 2 * 10) / (30 + 10)
            self.assertAlmostEqual(moment, 1200 * way * 17.5 - way * 400 * high, delta=25)

    def test_fill_sways_at_its_centroid(self) -> None:
        found = self.arch(sway=[1, 0])
        one = Laid({key: force for key, force in found.sums.items() if key[0] == "c1"})
        # Between the back, y = 20 - 2x/3, and 30: a triangle 30 by 20 over a strip of 10.
        high = (2 * 300 * 25 + 2 * 300 * (20 - 20 / 3)) / 1200
        u, v, moment = about(one, "live", 0, 0)
        self.assertEqual((u, v), (1200, 0))
        self.assertAlmostEqual(moment / 1200, high, 2)
        lifted = self.arch(sway=[2, -1])
        self.assertEqual(about(lifted, "live", 0, 0)[:2], (2 * 2400, -2400))

    def test_what_is_said_of_the_push(self) -> None:
        """Each side's push is a half of 2 * 20 * (10 + 30)/2, as above: both sides, no push, and one side alone."""
        both = [[[0, 0], [30, 0], [0, 20]], [[0, 0], [0, 20], [-30, 0]]]
        push = ["push", "1/2"]
        tried: list[tuple[list[list[list[int]]], list[str], str]]
        tried = [(both, push, "push right 400 left 400"), (both, [], "push right 0 left 0"),
                 (both[:1], push, "push right 0 left 400"), (both[1:], push, "push right 400 left 0")]
        for blocks, words, wanted in tried:
            model = wall(*blocks)
            with mock.patch.object(fill, "answer"), mock.patch.object(fill, "read", lambda _: model):
                _, _, lines = fill.filled(["model", "2", "30", *words])
            self.assertEqual(lines[0], wanted)
        self.assertEqual(lines[1], "sum dead 400 -1200")

    def test_the_loads_of_the_file_keep_their_numbers(self) -> None:
        own, model = Load("c1", "live", [15, 10], [0, -7]), wall([[0, 0], [30, 0], [0, 20]])
        model.loads = [own]
        laid_ = Laid()
        laid_.add("c1", "live", (Fraction(1), Fraction(2)), (0.0, -5.0))
        made, scale, lines = with_loads(model, laid_)
        self.assertEqual(made.loads, [own, Load("c1", "live", [1, 2], [0, -5])])
        self.assertEqual((scale, lines), (Scale(), ["sum live 0 -5"]))

    def test_forces_are_multiplied_until_rounding_changes_little(self) -> None:
        """Of a push of 3000.3 and a surcharge of 7.75 the first is rounded by 0.01 %, the second by 3 %. Twice that is
        15.5, five times 38.75, which is rounded by 0.65 %, and ten times 77.5; 20 times is whole."""
        model = replace(wall([[0, 0], [30, 0], [0, 20]]), loads=[Load("c1", "dead", [1, 1], [2, -3])])
        laid_ = Laid()
        laid_.add("c1", "dead", (Fraction(0), Fraction(5)), (3000.3, 0.0))
        self.assertEqual(with_loads(model, laid_)[1], Scale())
        laid_.add("c1", "live", (Fraction(0), Fraction(7)), (7.75, 0.0))
        made, scale, lines = with_loads(model, laid_)
        self.assertEqual(scale.line(), "# All forces are multiplied by 20, all lengths by 1.\n")
        self.assertEqual((made.materials[0].weight, [one.force for one in made.loads]),
                         (440, [[40, -60], [60006, 0], [155, 0]]))
        self.assertEqual(lines[:2], ["sum dead 3000.3 0", "sum live 7.75 0"])
        self.assertIn("multiplied by 20,", lines[2])
        heavy = replace(model, materials=[replace(model.materials[0], weight=10**5)])
        with self.assertRaisesRegex(Refused, "changes the forces of a kind by 3.2 %"):
            with_loads(heavy, laid_)

    def test_sums_are_those_of_the_loads_as_they_are_written(self) -> None:
        laid_ = Laid()
        for x in range(9):
            laid_.add("c1", "dead", (Fraction(x), Fraction(0)), (0.0, -1000.4))
        self.assertEqual(with_loads(wall([[0, 0], [30, 0], [0, 20]]), laid_)[2], ["sum dead 0 -9000"])

    def test_a_load_spreads_evenly(self) -> None:
        """Over the crown, 4 wide, by a half to each side: half on either block. 15 to the right, all on one."""
        found = self.arch("spread", "1000", "0", "4", "1/2", "live")
        self.assertEqual(about(found, "live", 0, 0)[:2], (0, -1000))
        self.assertAlmostEqual(about(found, "live", 0, 0)[2], 0)
        parts = [v for (name, kind, _), (_, v) in found.sums.items() if (name, kind) == ("c1", "live")]
        self.assertEqual(sum(parts), -500)
        straight = self.arch("spread", "1000", "12", "4", "0", "live")
        self.assertAlmostEqual(about(straight, "live", 0, 0)[2], 12 * 1000)
        moved = self.arch("spread", "1000", "15", "0", "1/3", "live")
        self.assertEqual({name for name, kind, _ in moved.sums if kind == "live"}, {"c1"})
        with self.assertRaises(Refused):
            self.arch("spread", "1000", "35", "4", "1/2", "live")

    def test_a_load_spreads_by_its_slope_to_each_side(self) -> None:
        """A load at x = 10, 10 above two stones whose joint is at 12: with the slope 1/2 it reaches from 5 to 15, so
        the first takes 7/10; 2 wide, from 4 to 16, 8/12."""
        for width, part in ("0", 700), ("2", 1000 * 8 / 12):
            model = wall([[0, -5], [12, -5], [12, 0], [0, 0]], [[12, -5], [40, -5], [40, 0], [12, 0]])
            with mock.patch.object(fill, "answer"), mock.patch.object(fill, "read", lambda _: model):
                made, scale, _ = fill.filled(["model", "0", "10", "spread", "1000", "10", width, "1/2", "live"])
            taken = -sum(load.force[1] for load in made.loads if load.block == "c1")
            self.assertAlmostEqual(taken / float(scale.forces) / part, 1, 2)

    def test_words_that_make_no_sense(self) -> None:
        for words in (["push"], ["push", "x"], ["spread", "1", "2", "3", "4", "5"], ["heap"],
                      ["spread", "1", "2", "0", "0", "live"]):
            with self.assertRaises(Words):
                self.arch(*words)
        for words in (["m"], ["m", "18", "90", "0", "0", "0", "0"], ["m", "18", "30", "40", "0", "0", "0"],
                      ["m", "18", "30", "0", "0", "0", "300", "red"], ["m", "nan", "30", "0", "0", "0", "300"],
                      ["m", "18", "30", "0", "0", "0", "0", "live", "quake", "1", "10"]):
            with self.assertRaises(Words):
                earth.behind(words)


def courses(sway: list[int] | None = None, friction: tuple[int, int] = (2, 3)) -> Model:
    """The wall of docs/worked/wall.md: six courses, 120 thick at the foot and 60 at the head."""
    model = wall(*([[0, 50 * k], [120 - 10 * k, 50 * k], [110 - 10 * k, 50 * k + 50], [0, 50 * k + 50]]
                   for k in range(6)), sway=sway)
    model.materials[0].friction = list(friction)
    return model


class Worked(unittest.TestCase):
    """The worked wall, through the program where it is there, and else by hand statics of the lowest joint."""

    @staticmethod
    def carried(model: Model, soil: Soil, n: int, d: int) -> tuple[float, float]:
        """What is left against sliding and tipping at the lowest joint, at the share N/D of the sway."""
        behind = laid(model, soil, (0, 300), ("dead", "dead"))
        u, v, moment = about(behind, "dead", 120, 0)
        share_ = n / d
        # The wall weighs 594000, 43.56e6 about its toe; its centroid is at the height 79.2/59.4 m.
        sideways = 594000 * share_
        return (2 / 3 * (594000 - v) - u - sideways, 43.56e6 - moment - sideways * 7920 / 59.4)

    def at(self, height: float, index: int, surcharge: float = 0.0) -> float:
        low, high = 0.0, 0.3
        while high - low > 1e-6:
            middle = (low + high) / 2
            soil = Soil(18, radians(30), 0, 0, surcharge, middle, 0, height)
            left = self.carried(courses([1, 0]), soil, round(middle * 10**9), 10**9)[index]
            low, high = (middle, high) if left > 0 else (low, middle)
        return low

    def test_shares_by_hand(self) -> None:
        self.assertAlmostEqual(self.at(0.6, 0), 0.1132, 4)
        # At 2/3 both sides of 43.56 = 79.2*k + 27 + (81*KAE - 27)*2 are equal at 0.0915, where KAE is 0.3907.
        for height, wanted in (1 / 3, 0.126), (0.5, 0.106), (0.6, 0.097), (2 / 3, 0.0915):
            self.assertAlmostEqual(self.at(height, 1), wanted, 3)
        self.assertAlmostEqual(self.at(1 / 3, 0, 300), 0.083, 3)
        self.assertAlmostEqual(self.at(1 / 3, 1, 300), 0.087, 3)

    def test_without_a_height_the_increment_is_at_two_thirds(self) -> None:
        wanted = {(): "0.6667", ("0.6",): "0.6", ("1/3",): "0.3333"}
        self.assertEqual(Soil(18, 1, 0, 0).height, 2 / 3)
        for words, height in wanted.items():
            with mock.patch.object(earth, "answer"), mock.patch.object(earth, "read", lambda _: courses([1, 0])):
                made, _, lines = earth.behind(["m", "18", "30", "0", "0", "0", "300", "quake", "10", "100", *words])
            self.assertTrue(lines[0].endswith(f"in the earthquake 0.3966, increment at {height}"), lines[0])
            moment = sum(load.force[0] * load.at[1] - load.force[1] * load.at[0] for load in made.loads)
            # The static 270000 acts at 100, and 810000*KAE - 270000 = 51209 more at this part of 300.
            self.assertAlmostEqual(moment / (27e6 + 51209 * float(Fraction(words[0] if words else "2/3")) * 300), 1, 4)

    def test_a_surface_that_does_not_begin_at_the_back_of_the_top_course(self) -> None:
        """The wall's back is at 0, or leans from -60 at the foot to 0 at the head, or has a step of 20 at 150: a place
        in front of it, behind it or at the heel is another wall."""
        leaning = wall([[-60, 0], [90, 0], [90, 300], [0, 300]])
        stepped = wall([[-20, 0], [90, 0], [90, 150], [-20, 150]], [[0, 150], [90, 150], [90, 300], [0, 300]])
        tried = [(courses(), "0", "300", True), (courses(), "1", "250", True), (courses(), "60", "300", False),
                 (courses(), "-3", "300", False), (courses(), "0", "320", True), (leaning, "0", "300", True),
                 (leaning, "-10", "250", True), (leaning, "0", "250", False), (leaning, "3", "315", True),
                 (leaning, "6", "315", False), (stepped, "0", "300", True), (stepped, "-20", "300", False),
                 (stepped, "-20", "140", True)]
        for model, x, y, well in tried:
            with self.subTest((x, y)), mock.patch.object(earth, "answer"), \
                    mock.patch.object(earth, "read", lambda _: model):
                if well:
                    earth.behind(["m", "18", "35", "0", "0", x, y])
                else:
                    with self.assertRaisesRegex(Refused, "the top course there, is at"):
                        earth.behind(["m", "18", "35", "0", "0", x, y])

    @unittest.skipUnless(built(), NOT_BUILT)
    def test_a_surcharge_of_a_unit_counts_whole(self) -> None:
        """By hand, about the toe: (43.56e6 - 27e6)/(s/3 * 300 * 150) for a surcharge of s, with any s."""
        factors = set()
        for surcharge in "0.1", "1", "3", "30":
            with TemporaryDirectory() as folder:
                name, made = f"{folder}/wall.toml", f"{folder}/loaded.toml"
                write(name, courses())
                with contextlib.redirect_stdout(io.StringIO()) as out, contextlib.redirect_stderr(io.StringIO()):
                    self.assertEqual(earth.main([name, "18", "30", "0", "0", "0", "300", "dead", surcharge, "live"]), 0)
                put(made, out.getvalue())
                _, scale, factor = program.answer("load", made).split("\n")[1].split()
                factors.add(Fraction(int(factor), int(scale)) * Fraction(surcharge))
        for found in factors:
            self.assertAlmostEqual(float(found) / (16.56e6 / 15000), 1, 2)

    def test_the_first_line_says_by_what_all_forces_are_multiplied(self) -> None:
        """By 3, as the file says: kept. By 3 and, for a surcharge of 1/10, by more as well: the product."""
        with TemporaryDirectory() as folder:
            name = f"{folder}/wall.toml"
            put(name, Scale(Fraction(3), 7).line() + printed(courses()))
            for more in list[str](), ["dead", "0.1", "live"]:
                with mock.patch.object(earth, "answer"), contextlib.redirect_stdout(io.StringIO()) as out, \
                        contextlib.redirect_stderr(io.StringIO()):
                    self.assertEqual(earth.main([name, "18", "30", "0", "0", "0", "300", *more]), 0)
                made, times = model_of(out.getvalue()), 200 if more else 1
                self.assertEqual(scale_of(out.getvalue()), Scale(Fraction(3 * times), 7))
                self.assertEqual(made.materials[0].weight, 22 * times)
                push = sum(load.force[0] for load in made.loads if load.kind == "dead")
                self.assertAlmostEqual(push / (270000 * times), 1, 3)

    @unittest.skipUnless(built(), NOT_BUILT)
    def test_the_program(self) -> None:
        with TemporaryDirectory() as folder:
            name = f"{folder}/wall.toml"

            def said(model: Model, question: str) -> list[str]:
                with open(name, "w", encoding="ascii") as file:
                    file.write(printed(model))
                return program.run(question, name).output.split("\n")

            model = courses()
            behind = laid(model, Soil(18, radians(30), 0, 0, 300), (0, 300))
            model.loads = behind.loads()
            lines = said(model, "load")
            _, scale, factor = lines[1].split()
            self.assertEqual((lines[0], Fraction(int(factor), int(scale))), ("greatest", Fraction(92, 25)))
            for height, share_, wanted in (0.6, 966, "stands"), (0.6, 968, "collapses"), (1 / 3, 1131, "stands"), \
                    (1 / 3, 1133, "collapses"), (0.5, 1057, "stands"), (0.5, 1059, "collapses"):
                model = courses([1, 0])
                soil = Soil(18, radians(30), 0, 0, 0, share_ / 10000, 0, height)
                model.loads = laid(model, soil, (0, 300), ("dead", "dead")).loads()
                self.assertEqual(said(share(model, share_, 10000), "stand")[0], wanted)


if __name__ == "__main__":
    unittest.main()
