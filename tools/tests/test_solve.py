#!/usr/bin/env python3
"""Tests of solve.py and of masonry/lp/, which call `esolver` and the program.

    python3 tools/tests/test_solve.py

Small bases are worked by hand. 100 models drawn at random have the answers that the program's `stand` and `load` give.
Walls, facades, rubble and a swaying wall of fixed seeds have certificates that `check` accepts.
"""
import contextlib
import io
import math
import random
import unittest
from collections.abc import Callable, Sequence
from dataclasses import replace
from fractions import Fraction
from pathlib import Path
from unittest import mock

from helpers import Asked, ground, needs_esolver as setUpModule, post

import draw
import read
import solve
from masonry import model as models, numbers, program
from masonry.lp import lattice, linear, short_certificates as short
from masonry.lp.lattice import Lattice, Reduction, Step, Vector, inverted
from masonry.lp.programs import Found, Lacking, NoAnswer, Program, Row, Sign
from masonry.lp.supports import grows
from masonry.model import Block, Load, Material, Model
from masonry.questions.case import Case
from masonry.units import Dead, Scale, scale_of


class Lattices(unittest.TestCase):
    def test_a_long_vector_is_shortened_by_the_one_before_it(self) -> None:
        # (1, 0) and (4, 1), whose products are 1, 4 and 17: the second less four times the first is (0, 1).
        self.assertEqual(Reduction([[1, 4], [4, 17]]).rows, [[1, 0], [-4, 1]])

    def test_the_shorter_vector_comes_first(self) -> None:
        # (3, 0) and (1, 1), whose products are 9, 3 and 2: the second is much the shorter. (3, 0) less twice (1, 1) is
        # (1, -2).
        self.assertEqual(Reduction([[9, 3], [3, 2]]).rows, [[0, 1], [1, -2]])

    def test_nearest_plane_takes_off_whole_multiples(self) -> None:
        # (2, 0) and (-1, 3). (6, 7) less twice (-1, 3) is (8, 1), less four times (2, 0) is (0, 1).
        basis = [Vector({}, [2, 0], unknown=0), Vector({}, [-1, 3], unknown=1)]
        short = Step([], basis, Reduction([[4], [-2, 10]]), [], 1).cleared(Vector({}, [6, 7]))
        self.assertEqual(short.shadow, [0, 1])
        self.assertEqual(short.unknowns(2), [-4, -2])

    def test_sums_in_pivots(self) -> None:
        # (5, 7) is 11 times (1, 1) and -2 times (3, 2); of (1, 2, 0) and (0, 1, 1) a sum must be x, 2x + y, y.
        rows, divisor = inverted([[1, 1], [3, 2]], 2)
        self.assertEqual([sum(x * y for x, y in zip(row, (5, 7))) / divisor for row in rows or ()], [11, -2])
        rows, divisor = inverted([[1, 2, 0], [0, 1, 1]], 3)
        for sums, rest in ((3, 10, 4), False), ((3, 10, 5), True):
            times = [sum(x * y for x, y in zip(row, sums)) / divisor for row in rows or ()]
            self.assertEqual((times[:2] == [3, 4], times[2] != 0), (True, rest))
        self.assertIsNone(inverted([[1, 2], [2, 4]], 2)[0])

    def test_sums_grow_to_the_lattice_that_they_reach(self) -> None:
        # 6 and then 4 reach all even numbers; 10 adds nothing, 3 makes all whole ones.
        reached: list[list[int] | None] = [None]
        self.assertEqual([grows(reached, [x]) for x in (6, 4, 10, 3, 5)], [True, True, False, True, False])
        self.assertIn(reached[0], ([1], [-1]))

    def test_the_basis_of_one_sum(self) -> None:
        # 2x + 3y = 0: all multiples of (3, -2).
        found = Lattice([{0: 2}, {0: 3}], [[0]])
        self.assertIn([vector.unknowns(2) for vector in found.basis], ([[3, -2]], [[-3, 2]]))

    def test_a_vector_near_another(self) -> None:
        # (10, -6) has the sum 2; (9, -6) is the nearest without one.
        self.assertEqual(Lattice([{0: 2}, {0: 3}], [[0]]).near([10, -6]), [9, -6])

    def test_two_groups_of_sums(self) -> None:
        # x + 2y = 0 and 3y - z = 0: all multiples of (-2, 1, 3).
        found = Lattice([{0: 1}, {0: 2, 1: 3}, {1: -1}], [[0], [1]])
        self.assertEqual([[abs(x) for x in vector.unknowns(3)] for vector in found.basis], [[2, 1, 3]])

    def test_sums_that_nothing_changes(self) -> None:
        # 4x + 6y is even.
        step = Lattice([{0: 4}, {0: 6}], [[0]]).steps[0]
        with self.assertRaises(lattice.NoVector):
            step.cleared(Vector({0: 3}, []))


class Programs(unittest.TestCase):
    def test_a_greatest_value_and_its_duals(self) -> None:
        # x + y is greatest at (1, 3/2): it is a quarter of 2x + 4y, at most 8, and half of x, at most 1.
        rows = [Row({"x": 2, "y": 4}, Sign.MOST, 8), Row({"x": 1}, Sign.MOST, 1)]
        program = Program({"x": 1, "y": 1}, rows)
        found = program.closed()
        assert isinstance(found, Found)
        self.assertEqual((found.value("x"), found.value("y")), (1, Fraction(3, 2)))
        self.assertEqual(found.duals, [Fraction(1, 4), Fraction(1, 2)])
        # Twice these bound it by twice as much; without the first y has no bound, and with a sign turned there is none.
        for x, y, limit in ("1/2", "1", 5), ("0", "1", None), ("1/2", "-1", None):
            self.assertEqual(program.limit([Fraction(x), Fraction(y)]), limit)

    def test_what_esolver_says_is_worked_out_again(self) -> None:
        program = Program({"x": 1}, [Row({"x": 2}, Sign.MOST, 3)])
        for value, dual in (Fraction(2), Fraction(1, 2)), (Fraction(3, 2), Fraction(1)), (Fraction(1), Fraction(1, 2)):
            with mock.patch.object(Program, "best", lambda self: Found({"x": value}, [dual])):
                with self.assertRaises(NoAnswer):
                    program.closed()

    def test_no_values_and_no_limit(self) -> None:
        self.assertIs(Program({}, [Row({"x": 1}, Sign.EQUAL, -1)]).best(), Lacking.VALUES)
        self.assertIs(Program({}, [Row({}, Sign.EQUAL, -1)]).best(), Lacking.VALUES)
        self.assertIs(Program({"x": 1}, [Row({"x": 1}, Sign.LEAST, 1)]).best(), Lacking.LIMIT)


class Fractions(unittest.TestCase):
    def test_the_simplest_fraction(self) -> None:
        for low, high, simplest in (("3/10", "4/10", "1/3"), ("5/2", "7/2", "3"), ("0", "1/5", "0"),
                                    ("2/5", "2/5", "2/5"), ("31/10", "32/10", "16/5")):
            self.assertEqual(numbers.simplest(Fraction(low), Fraction(high)), Fraction(simplest))

    def test_decimals(self) -> None:
        third = Fraction(1, 3)
        ways: list[Callable[[Fraction], int]] = [round, math.floor, math.ceil]
        self.assertEqual([numbers.nine_digits(third, way) for way in ways], ["0.33333333", "0.33333333", "0.33333334"])
        self.assertEqual([numbers.nine_digits(-third, way) for way in ways[1:]], ["-0.33333334", "-0.33333333"])
        self.assertEqual([numbers.nine_digits(Fraction(x)) for x in ("5733/5", "0", "7", "12345678901")],
                         ["1146.6", "0", "7", "12345678901"])


class Scales(unittest.TestCase):
    def test_the_least_scale_that_works(self) -> None:
        for most in (0, 1, 5, 127):
            for bits in range(most + 1):
                self.assertEqual(short.least(lambda tried: tried if tried >= bits else None, most), bits)
            self.assertIsNone(short.least(lambda tried: None, most))


def rows(said: str) -> list[str]:
    """The lines of an answer without their decimals."""
    return [line.split(", ")[0] for line in said.splitlines()]


class Answers(Asked):
    """Questions about models in a folder of their own."""

    def asked(self, question: str, *more: str) -> tuple[int, list[str], str]:
        """The status, the lines of the answer and what stands on standard error."""
        out, err = io.StringIO(), io.StringIO()
        with contextlib.redirect_stdout(out), contextlib.redirect_stderr(err):
            status = solve.main([self.name, question, self.cert, *more])
        return status, rows(out.getvalue()), err.getvalue()

    def write(self, model: Model) -> None:
        models.write(self.name, model)

    def draw(self, *words: str) -> None:
        out = io.StringIO()
        with contextlib.redirect_stdout(out):
            draw.main(list(words))
        Path(self.name).write_text(out.getvalue())


def at_random(draws: random.Random) -> Model:
    """A wall of one to three courses of one to three stones, some beside one another, with loads or a sway."""
    pick, foot = draws.randint, 0
    blocks: list[Block] = []
    for course in range(pick(1, 3)):
        left, head = pick(-6, 6), foot + pick(2, 8)
        for number in range(pick(1, 3)):
            right, lean = left + pick(3, 12), pick(-1, 1)
            corners = [[left, foot], [right, foot], [right, head], [left, head]]
            if number == 0:
                corners[3][0] += lean
            blocks.append(Block(name=f"s{course}-{number}", material="stone", corners=corners))
            left = right
        foot = head
    loads = [Load(draws.choice(blocks).name, draws.choice(("dead", "live", "live")), [pick(-6, 20), pick(0, foot)],
                  [pick(-9, 9), pick(-9, 3)]) for _ in range(pick(0, 3))]
    sway = [pick(-2, 2), pick(-1, 1)] if draws.random() < 0.4 else None
    stone = Material("stone", pick(1, 5), [pick(1, 9), 10])
    return Model(2 if sway else None, sway, [stone], [], [ground(-30, 60), *blocks], loads)


class BesideTheProgram(Answers):
    def found(self, question: str) -> str | int:
        """The form and the factor that the program finds, as a line of an answer; 9 without a live load."""
        done = program.run(question, self.name)
        if done.status not in (0, 1):
            return done.status
        form, first, *_ = done.output.splitlines()
        if form != "greatest":
            return f"{form} accepted"
        _, scale, factor = first.split()
        return f"greatest {numbers.ratio(Fraction(int(factor), int(scale)))} accepted"

    def test_100_models_at_random(self) -> None:
        draws, forms = random.Random(2024), []
        for _ in range(100):
            model = at_random(draws)
            self.write(model)
            stands, carries = self.found("stand"), self.found("load")
            self.assertEqual(self.asked("stand")[:2], (0, [stands]))
            status, lines, _ = self.asked("load")
            self.assertEqual(status if status else lines[0], carries)
            forms.append(str(carries).split()[0])
            if forms[-1] == "greatest":
                self.shares(Fraction(str(carries).split()[1]))
        self.assertTrue({"greatest", "collapses", "unbounded"} < set(forms))

    def shares(self, factor: Fraction) -> None:
        """Both shares, as if no certificate of the factor fitted."""
        with contextlib.redirect_stdout(io.StringIO()) as out, contextlib.redirect_stderr(io.StringIO()):
            case = Case(self.name, self.cert, part=Fraction(1, 1000))
            top = linear.raised(case.structure)
            self.assertEqual(top.factor, factor)
            dead = case.dead_forces()
            assert dead is not None
            found = case.shares(top, dead)
        assert found.carried is not None and found.beyond is not None
        self.assertEqual([line.split()[0] for line in rows(out.getvalue())], ["stands", "carried", "beyond"])
        gap = Fraction(1, 1000) * (factor or 1)
        self.assertTrue(factor - gap <= found.carried <= factor < found.beyond <= factor + gap)


class Walls(Answers):
    def settled(self, question: str, *words: str) -> list[str]:
        """All that is said, in one word a line."""
        self.draw(*words)
        status, lines, err = self.asked(question)
        self.assertEqual(status, 0, err)
        self.assertTrue(all(line.endswith(" accepted") for line in lines), lines)
        return [line.split()[0] for line in lines]

    def test_coursed_stone(self) -> None:
        self.assertEqual(self.settled("stand", "coursed", "7", "8", "1"), ["stands"])
        self.assertEqual(self.settled("load", "coursed", "6", "6", "1"), ["greatest"])

    def test_a_swaying_wall(self) -> None:
        self.assertEqual(self.settled("load", "sway", "1", "0", "coursed", "6", "8", "4"), ["greatest"])

    def test_rubble(self) -> None:
        self.assertEqual(self.settled("stand", "rubble", "6", "1"), ["stands"])

    def test_facades(self) -> None:
        for seed in ("1", "2"):
            self.assertEqual(self.settled("load", "sway", "1", "0", "facade", seed), ["stands", "carried", "beyond"])

    def test_a_given_gap(self) -> None:
        self.draw("sway", "1", "0", "facade", "1")
        lines = self.asked("load", "2000")[1]
        carried, beyond = (Fraction(line.split()[1]) for line in lines[1:])
        self.assertTrue(carried < beyond < carried * Fraction(1003, 1000))

    def test_a_range(self) -> None:
        self.draw("sway", "1", "0", "wall", "2", "2")
        self.assertEqual(self.asked("range")[1][1], "reversed")


# A program that rejects certificates with a word in their first line, and asks the real one all else.
STAND_IN = """#!/bin/sh
if [ "$1" = check ] && head -n 1 "$3" | grep -q -e '{}'; then
    echo 'rejected by hand'
    exit {}
fi
exec '{}' "$@"
"""


class Rejections(Answers):
    """Nothing is announced that the program's `check` didn't accept."""

    def rejecting(self, word: str, status: int, question: str) -> tuple[int, list[str], dict[str, str]]:
        """What is said where `check` rejects certificates with this word, and what all certificates left begin with."""
        folder = Path(self.name).parent
        stand_in = folder / "program"
        stand_in.write_text(STAND_IN.format(word, status, Path(program.PROGRAM).resolve()))
        stand_in.chmod(0o700)
        with mock.patch.object(program, "PROGRAM", str(stand_in)):
            status, lines, _ = self.asked(question)
        left = {path.name: path.read_text().split()[0] for path in folder.glob("*.cert")}
        return status, [line for line in lines if line != "reversed"], left

    def test_what_is_always_rejected_is_never_announced(self) -> None:
        stone = [Material("stone", 1, [1, 1])]
        ground = Block(name="ground", material="stone", fixed=True, corners=[[0, -1], [9, -1], [9, 0], [0, 0]])
        for at in (0, 7):  # a post on the ground, and one that falls
            post = Block(name="post", material="stone", corners=[[at, 0], [at + 4, 0], [at + 4, 2], [at, 2]])
            for force in ([1, 0], [0, -1]):  # of the first a greatest factor, and none
                self.write(Model(None, None, stone, [], [ground, post], [Load("post", "live", [at + 1, 2], force)]))
                for question in "stand", "load", "range":
                    for status in 1, 0:
                        self.assertEqual(self.rejecting("", status, question), (70, [], {}))

    def test_a_greatest_factor_that_is_rejected_gives_way_to_shares(self) -> None:
        self.draw("sway", "1", "0", "wall", "2", "2")
        status, lines, left = self.rejecting("greatest", 6, "load")
        self.assertEqual((status, [line.split()[0] for line in lines]), (0, ["stands", "carried", "beyond"]))
        self.assertEqual(left, {"answer.cert": "stands", "answer-carried.cert": "stands",
                                "answer-beyond.cert": "collapses"})

    def test_models_of_shares_say_by_what_forces_are_multiplied_in_all(self) -> None:
        """By 3 in the file already, and by the denominator of the share, or a multiple: the weight was 1."""
        self.draw("sway", "1", "0", "wall", "2", "2")
        path = Path(self.name)
        path.write_text(Scale(Fraction(3), 5).line() + path.read_text())
        self.assertEqual(self.rejecting("greatest", 6, "load")[0], 0)
        for word in "carried", "beyond":
            name = path.with_name(f"answer-{word}.toml")
            times = models.read(name).materials[0].weight
            self.assertGreater(times, 1)
            self.assertEqual(scale_of(name.read_text()), Scale(Fraction(3 * times), 5))

    def test_two_shares_are_read_together(self) -> None:
        """The post of 8, 2 wide and 4 high, tips at the share 1/2: at the share s the ground bears 8 upwards and 8s to
        the left, 1 + 2s from its left end, and beyond 1/2 it turns about its right one."""
        self.write(post([], [1, 0]))
        path = Path(self.name)
        path.write_text(Scale(Fraction(3)).line() + path.read_text())
        self.assertEqual(self.rejecting("greatest", 6, "load")[0], 0)
        lines = self.said(read.main, self.name, self.cert)
        share = Fraction(lines[1].split()[1])
        self.assertTrue(Fraction(499, 1000) < share < Fraction(1, 2))
        self.assertEqual(lines[0], "multiplied forces 3")
        self.assertIn(f"force {float(-8 * share):.6g} 8 at {float(1 + 2 * share):.6g} 0 way", lines[2])
        self.assertEqual(lines[3].split()[0], "beyond")
        self.assertTrue(Fraction(1, 2) < Fraction(lines[3].split()[1]) < Fraction(501, 1000))
        self.assertTrue(lines[4].endswith(" hinge 2 0"), lines)
        lines = self.said(read.main, self.name, self.cert, "kN", "0.5")
        self.assertIn(f"force {float(-8 * share / 6):.6g} 1.33333 at", lines[2])
        # Those of another model aren't read with this one.
        changed, found = models.read(self.name), models.read(self.name).materials[0]
        self.assertEqual(len(read.shares_beside(changed, Dead(), self.cert)), 2)
        changed.materials[0] = replace(found, friction=[9, 10])
        self.assertEqual(read.shares_beside(changed, Dead(), self.cert), [])

    def test_a_share_that_is_rejected_is_missing(self) -> None:
        self.draw("sway", "1", "0", "wall", "2", "2")
        status, lines, left = self.rejecting("greatest\\|collapses", 1, "load")
        self.assertEqual((status, [line.split()[0] for line in lines]), (70, ["stands", "carried"]))
        self.assertEqual(left, {"answer.cert": "stands", "answer-carried.cert": "stands"})


class Irregular(Answers):
    def test_an_arch_of_20_irregular_voussoirs_has_no_certificate(self) -> None:
        draws, inner, outer = random.Random(1), 2000, 2400
        turns = [math.pi * (1 - (k + (draws.uniform(-0.3, 0.3) if 0 < k < 20 else 0)) / 20) for k in range(21)]
        ends = [[[round(r * math.cos(turn)), round(r * math.sin(turn))] for r in (inner, outer)] for turn in turns]
        springers = [[[x, -300], [x + 1000, -300], [x + 1000, 0], [x, 0]] for x in (-2700, 1700)]
        blocks = [Block(name=f"fixed{k}", material="stone", fixed=True, corners=one) for k, one in enumerate(springers)]
        for k, ((a, b), (c, d)) in enumerate(zip(ends, ends[1:])):
            blocks.append(Block(name=f"v{k}", material="stone", corners=[a, c, d, b]))
        self.write(Model(None, None, [Material("stone", 1, [7, 10])], [], blocks, []))
        status, lines, err = self.asked("stand")
        self.assertEqual((status, lines), (70, []))
        self.assertIn("there are no forces of 127 bits: whole forces that balance need ", err)


    def test_an_arch_of_64_voussoirs_is_refused_with_the_reason(self) -> None:
        """A corner of the polytope of forces, times its common denominator, is whole forces, of more than 127 bits. So
        no less than what is said is needed, and no more than these have."""
        self.draw("arch", "64", "800")
        status, lines, err = self.asked("load")
        self.assertEqual((status, [line.split()[0] for line in lines]), (70, ["beyond"]))
        need = int(err.split("a share carried wasn't found: there are no forces of 127 bits: whole forces that balance "
                             "need ")[1].split()[0])
        structure, _ = self.structure(models.read(self.name))
        amounts = linear.carried(structure, structure.dead)
        assert amounts is not None
        scale = math.lcm(*(amount.denominator for amount in amounts.values()))
        most = max(amount * (scale * max(abs(x) for x in structure.edges[k].part)) for k, amount in amounts.items())
        self.assertTrue(127 < need <= 1 + max(scale, int(most)).bit_length(), (need, most))
        self.assertEqual(err.count("a share carried wasn't found"), 1)


class Short(Answers):
    """Forces of short numbers, on a post that leans on nothing: its weight of 8, in sixths, on two bearings."""

    def setUp(self) -> None:
        super().setUp()
        stone = [Material("stone", 1, [1, 2])]
        post = Block(name="post", material="stone", corners=[[0, 0], [2, 0], [2, 4], [0, 4]])
        self.pushed, _ = self.structure(Model(None, None, stone, [], [ground(-9, 9), post],
                                              [Load("post", "dead", [0, 1], [2, 0])]))

    def balances(self, scale: int, parts: Sequence[tuple[int, int]]) -> None:
        sums = [scale * amount for amount in self.pushed.dead]
        for number, part in enumerate(parts):
            for row, amount in self.pushed.column(number, part).items():
                sums[row] += amount
        self.assertTrue(self.pushed.admits(parts) and scale > 0)
        self.assertEqual(sums, [0] * len(sums))

    def test_forces_at_a_corner_are_taken_as_they_are(self) -> None:
        amounts = linear.carried(self.pushed, self.pushed.dead)
        assert amounts is not None
        found = short.exact_forces(self.pushed, amounts)
        assert found is not None
        self.balances(*found)
        self.assertIsNone(short.exact_forces(self.pushed, amounts, 2**127))
        self.assertIsNone(linear.carried(self.pushed, [-amount for amount in self.pushed.dead]))

    def test_what_acts_along_a_joint_is_parted_within_both_cones(self) -> None:
        """The foot takes -12 along it, and its bearings press with 8 + 2 or 8 - 2 halves of 6: however it is parted,
        each keeps to half of what it presses with."""
        inner = linear.inner(self.pushed, self.pushed.dead)
        assert inner is not None
        rounding = short.Rounding(self.pushed, inner.amounts, self.pushed.dead)
        self.assertEqual([len(one.bearings) for one in rounding.unknowns], [1, 1, 2])
        self.balances(*rounding.least())

    def test_a_sparse_lattice_a_quick_one_and_then_a_thorough_one(self) -> None:
        inner = linear.inner(self.pushed, self.pushed.dead)
        assert inner is not None
        made: list[lattice.Kind] = []

        def refused(rounding: short.Rounding) -> short.Forces:
            made.append(rounding.lattice.kind)
            if rounding.lattice.kind is not lattice.Kind.THOROUGH:
                raise lattice.NoVector
            return least(rounding)

        least = short.Rounding.least
        self.balances(*short.short_forces(self.pushed, inner.amounts, self.pushed.dead))
        with mock.patch.object(short.Rounding, "least", refused):
            self.balances(*short.short_forces(self.pushed, inner.amounts, self.pushed.dead))
        # Nothing is dropped from so small a lattice when it is thinned.
        kinds = [kind for kind in lattice.Kind if kind is not lattice.Kind.SPARSE]
        self.assertEqual(made, kinds)
        with mock.patch.object(short, "SHORT", 1), mock.patch.object(short.Rounding, "least", autospec=True,
                                                                    side_effect=least) as tried:
            self.balances(*short.short_forces(self.pushed, inner.amounts, self.pushed.dead))
        self.assertEqual([one.args[0].lattice.kind for one in tried.call_args_list], kinds)

    def test_a_sparse_lattice_is_made_after_a_thinned_one_that_dropped_vectors(self) -> None:
        inner = linear.inner(self.pushed, self.pushed.dead)
        assert inner is not None
        found = short.Rounding(self.pushed, inner.amounts, self.pushed.dead).unknowns
        kept: short.Lattices = {}
        thinned = short.lattice_of(self.pushed, found, kept, lattice.Kind.THINNED)
        self.assertFalse(thinned.dropped)
        with self.assertRaises(lattice.NoVector):
            short.lattice_of(self.pushed, found, kept, lattice.Kind.SPARSE)
        thinned.dropped = True
        short.lattice_of(self.pushed, found, kept, lattice.Kind.SPARSE)

    def test_forces_found_at_one_scale_arent_lost_at_another(self) -> None:
        inner = linear.inner(self.pushed, self.pushed.dead)
        assert inner is not None
        rounding = short.Rounding(self.pushed, inner.amounts, self.pushed.dead)
        least, near = rounding.least(), rounding.near

        def cleared(scale: int, half: int) -> list[tuple[int, int]]:
            if scale < 2**20:
                raise lattice.NoVector
            return near(scale, half)

        with mock.patch.object(rounding, "near", cleared):
            found = rounding.least()
        self.balances(*found)
        self.assertLess(least[0], 2**20)


class Refusals(Answers):
    def test_wrong_words(self) -> None:
        self.write(at_random(random.Random(1)))
        words = ("stand", "5"), ("load", "x"), ("load", "0"), ("range", "1000001"), ("load", "\u00b2"), ("yield",)
        self.assertEqual([self.asked(*some)[0] for some in words], [2] * len(words))

    def test_no_live_load(self) -> None:
        self.write(replace(at_random(random.Random(1)), sway=None, loads=[]))
        self.assertEqual(self.asked("load")[0], 9)

    def test_no_model(self) -> None:
        self.assertEqual(self.asked("stand")[0], 3)


if __name__ == "__main__":
    unittest.main()
