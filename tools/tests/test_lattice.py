#!/usr/bin/env python3
"""Tests of masonry/lp/lattice.py and of the search for a scale, by hand. They call no other program.

    python3 tools/tests/test_lattice.py
"""
import unittest
from collections.abc import Sequence

import helpers  # puts tools/ where the modules are found

from masonry.lp.lattice import KEPT, Kind, SHADOW, Lattice, NoVector, Vector, divisible, packed, signs, unpacked
from masonry.lp.short_certificates import least
from masonry.lp.supports import Sums, Supports


def area(rows: Sequence[Sequence[int]]) -> int:
    """The area that two vectors span: 1 if they are a basis of all whole points, 2 if of every second one."""
    (a, b), (c, d) = rows
    return abs(a * d - b * c)


def vectors(*sums: Sums) -> list[Vector]:
    """Vectors of these sums, each of an unknown of its own."""
    return [Vector(one, signs(number), unknown=number) for number, one in enumerate(sums)]


class Combinations(unittest.TestCase):
    """Whole combinations of a few vectors."""

    def test_those_that_a_number_divides(self) -> None:
        units = [(4, [1, 0]), (6, [0, 1])]
        # 4x + 6y is 0 for the multiples of (3, -2), a multiple of 5 for a fifth of all points, and always even.
        self.assertIn(divisible(units, 0), ([[3, -2]], [[-3, 2]]))
        for modulus, fraction in (5, 5), (2, 1), (4, 2), (12, 6):
            found = divisible(units, modulus)
            self.assertEqual([(4 * x + 6 * y) % modulus for x, y in found], [0, 0])
            self.assertEqual(area(found), fraction)
        # A row whose number is 0 stays as it is; one alone that isn't 0 never comes to 0.
        self.assertEqual(divisible([(0, [7])], 0), [[7]])
        self.assertEqual(divisible([(3, [1])], 0), [])
        self.assertEqual(divisible([(3, [1])], 12), [[4]])

    def test_those_that_pivots_clear(self) -> None:
        # 4x + 6y comes to all even numbers: 3 is cleared twice, and 3 and 5 together if the sum of both is even.
        step = Lattice([{0: 4}, {0: 6}], [[0]]).steps[0]
        self.assertEqual([abs(one.sums[0]) for one in step.clearable(vectors({0: 3}))], [6])
        found = step.clearable(vectors({0: 3}, {0: 5}))
        self.assertEqual([one.sums.get(0, 0) % 2 for one in found], [0, 0])
        self.assertEqual(area([one.unknowns(2) for one in found]), 2)

    def test_those_that_no_pivot_clears(self) -> None:
        # Multiples of (1, 1) alone: never (1, 0), and (1, 0) and (0, 1) if there are as many of both.
        step = Lattice([{0: 1, 1: 1}], [[0, 1]]).steps[0]
        self.assertEqual(step.clearable(vectors({0: 1})), [])
        found = step.clearable(vectors({0: 1}, {1: 1}))
        self.assertIn([one.unknowns(2) for one in found], ([[1, 1]], [[-1, -1]]))


class Loads(unittest.TestCase):
    """The multiples of loads that whole vectors clear."""

    def test_of_one_load(self) -> None:
        # 4x + 6y + 3s is 0 only for an even s, and 2 is the least.
        found = [one.unknowns(3) for one in Lattice([{0: 4}, {0: 6}], [[0]]).reaching([{0: 3}])]
        self.assertEqual([(4 * x + 6 * y + 3 * s, abs(s)) for x, y, s in found], [(0, 2)])

    def test_of_two_groups_of_rows(self) -> None:
        # x + 2y + s = 0 and 3y - 6z + 4s = 0: s is a multiple of 3.
        lattice = Lattice([{0: 1}, {0: 2, 1: 3}, {1: -6}], [[0], [1]])
        found = [one.unknowns(4) for one in lattice.reaching([{0: 1, 1: 4}])]
        self.assertEqual([(x + 2 * y + s, 3 * y - 6 * z + 4 * s, abs(s)) for x, y, z, s in found], [(0, 0, 3)])

    def test_of_two_loads(self) -> None:
        # 2x + s + 3t is 0 if s + t is even: a half of all pairs.
        found = [one.unknowns(3) for one in Lattice([{0: 2}], [[0]]).reaching([{0: 1}, {0: 3}])]
        self.assertEqual([2 * x + s + 3 * t for x, s, t in found], [0, 0])
        self.assertEqual(area([(s, t) for _, s, t in found]), 2)

    def test_a_load_that_nothing_carries(self) -> None:
        self.assertEqual(Lattice([{0: 1}], [[0], [1]]).reaching([{1: 1}]), [])


class Quick(unittest.TestCase):
    """Lattices that keep fewer vectors. In a chain of single rows each column has sums in two neighbours."""

    def test_the_order_of_a_chain(self) -> None:
        # Row 2 alone has a column of its own. It supports row 1, and that row 0. None is poor: 1 reaches all that 2 do.
        found = Supports([{0: 1, 1: -1}, {0: 2, 1: 1}, {1: 1, 2: -1}, {2: 1}], [[0], [1], [2]])
        self.assertEqual((found.order, found.poor), ([0, 1, 2], set()))

    def test_a_poor_group(self) -> None:
        # Row 1 reaches even sums by its own column, and all with the column that it shares. So row 0 stands by itself.
        found = Supports([{0: 1, 1: 1}, {1: 2}], [[0], [1]])
        self.assertEqual((found.order, found.poor), ([0, 1], {1}))
        # Of two groups that are supported, the poorer comes first in the order, since others may enrich it.
        found = Supports([{0: 1}, {1: 3}, {0: 1, 1: 1}], [[0], [1]])
        self.assertEqual((found.order, found.poor), ([1, 0], set()))

    def test_no_support(self) -> None:
        # Nothing touches row 1 of the first; two rows of a group of the second have one column.
        for columns, groups in ([{0: 1}], [[1], [0]]), ([{0: 1, 1: 1}, {2: 1}], [[0, 1], [2]]):
            found = Supports(columns, groups)
            self.assertEqual((found.order, found.poor), ([1], {0}))

    def test_a_chain_is_cleared(self) -> None:
        columns: list[Sums] = [{0: 1}]
        for row in range(15):
            columns += [{row: 1, row + 1: -1}, {row: 3, row + 1: -5}]
        found = Lattice(columns, [[row] for row in range(16)], Kind.SPARSE)
        self.assertEqual(found.basis, [])
        whole = [7 * number % 5 for number in range(len(columns))]
        near = found.near(whole, {15: 4})
        self.assertEqual([sum(x * column.get(row, 0) for x, column in zip(near, columns)) for row in range(16)],
                         [0] * 15 + [-4])

    def test_none_is_sparse_where_most_groups_have_no_columns_of_their_own(self) -> None:
        columns = [{0: 1, 1: 1}, {0: 1, 1: -1}]
        with self.assertRaises(NoVector):
            Lattice(columns, [[0], [1]], Kind.SPARSE)
        self.assertEqual(Lattice(columns, [[0], [1]], Kind.QUICK).near([0, 0], {0: 2}), [-1, -1])

    def test_what_a_sparse_lattice_misses(self) -> None:
        # Row 2 reaches 4 by its own column. The only vectors that reach less there are combinations of one that
        # touches row 1 alone, once row 0 is used up, and of the column that rows 1 and 2 share.
        columns = [{2: 4}, {1: 1, 2: 1}, {0: 1, 1: 1}, {0: 1, 1: 2}, *({row: 1} for row in range(3, 8))]
        groups = [[row] for row in range(8)]
        with self.assertRaises(NoVector):
            Lattice(columns, groups, Kind.SPARSE).near([0] * 9, {2: 1})
        x, y, z, w, *_ = Lattice(columns, groups).near([0] * 9, {2: 1})
        self.assertEqual((z + w, y + z + 2 * w, 4 * x + y), (0, 0, -1))


    def test_a_thinned_lattice_drops_the_longest_vectors(self) -> None:
        # More columns touch row 0 than a thinned lattice clears there. What it keeps still clears all sums.
        columns = [{0: 1}, *({0: 1, 1: 2} for _ in range(2 * KEPT)), {1: 1}, {2: 1}, {3: 1}]
        groups = [[row] for row in range(4)]
        sparse, thinned = Lattice(columns, groups, Kind.SPARSE), Lattice(columns, groups, Kind.THINNED)
        self.assertEqual((sparse.dropped, thinned.dropped), (False, True))
        near = thinned.near([0] * len(columns), {0: 5, 1: 3})
        self.assertEqual([sum(x * column.get(row, 0) for x, column in zip(near, columns)) for row in range(4)],
                         [-5, -3, 0, 0])
        self.assertFalse(Lattice(columns[:KEPT], groups[:2], Kind.QUICK).dropped)


class Packed(unittest.TestCase):
    """Numbers of 64 bits in one."""

    def test_places(self) -> None:
        self.assertEqual((packed([1]), packed([0, 1]), packed([-1, 1])), (1, 2**64, 2**64 - 1))
        self.assertEqual(packed([2, -3]), 2 - 3 * 2**64)

    def test_sums_are_those_of_the_numbers(self) -> None:
        u, v = [2**62 - 1, -5, 0, 7], [-2**62, 4, -1, 2**61]
        self.assertEqual(unpacked(packed(u) + packed(v)), [-1, -1, -1, 7 + 2**61] + [0] * (SHADOW - 4))
        self.assertEqual(unpacked(3 * packed([-5, 7, -1]) - packed([1, 1])), [-16, 20, -3] + [0] * (SHADOW - 3))
        longest = [2**63 - 1, 1 - 2**63] * (SHADOW // 2)
        self.assertEqual(unpacked(packed(longest)), longest)


class Likely(unittest.TestCase):
    """The search for the least scale, which works from 37 bits on, with a scale that is likely."""

    def found(self, likely: int) -> tuple[int | None, list[int]]:
        tried: list[int] = []

        def works(bits: int) -> int | None:
            tried.append(bits)
            return bits if bits >= 37 else None

        return least(works, 127, lambda: likely), tried

    def test_a_scale_that_is_right_is_tried_first(self) -> None:
        self.assertEqual(self.found(37), (37, [127, 37, 36]))

    def test_a_scale_that_is_wrong_costs_time_alone(self) -> None:
        for likely in -5, 0, 20, 60, 127, 500:
            self.assertEqual(self.found(likely)[0], 37)

    def test_none_works(self) -> None:
        self.assertIsNone(least(lambda bits: None, 127, lambda: 3))


if __name__ == "__main__":
    unittest.main()
