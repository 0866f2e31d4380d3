"""Short whole vectors: a reduced basis of those whose sums are 0, and one near a given vector.

Nothing here is proved, and nothing is about masonry. There are unknowns, each with its column: what one of it adds to
the sums of some rows. The whole vectors of unknowns with the sum 0 in every row are a lattice. Its basis is made group
of rows by group of rows. At each group some of the shortest vectors that still have sums there are reduced together,
after Lenstra, Lenstra and Lovasz (1982); a few of them, the pivots, then clear those sums in all others, which Babai's
nearest plane (1986) keeps short. So the basis stays short where each column touches few groups.

A vector is held by its sums, by its shadow and by what it was made of. The shadow has few numbers, all products with
vectors of signs drawn at random: lengths and angles are measured on it, and so they are only about right. Its sums are
exact. Its unknowns are worked out where they are asked for.
"""
import random
import sys
from array import array
from collections.abc import Iterable, Sequence
from enum import Enum
from functools import cached_property, lru_cache
from heapq import heappop, heappush
from itertools import count
from math import gcd
from operator import mul
from typing import TypeVar

from masonry.lp.supports import Echelon, Sums, Supports, grows

TOGETHER, QUICK_TOGETHER = 24, 8  # so many vectors are reduced together, or a few more where the sums need them
SHADOW, QUICK_SHADOW = 64, 32  # the numbers of a shadow
FEW_POOR = 2  # a lattice may be sparse if at most one group of so many is poor
KEPT = 64  # so many vectors a thinned lattice clears at a group
LIGHT = 40  # bits of the least weight of sums beside lengths
SURE = 2**46  # multiples below this, found in floating point, are right to a small part of 1

Number = TypeVar("Number", int, float)


class NoVector(Exception):
    """No whole vector has these sums, or no lattice of this kind is made."""


class Kind(Enum):
    """A quick lattice is made in less time, and its vectors are longer. A sparse one is made in still less: it keeps no
    vector that touches only groups that stand by themselves, so it may not clear all sums that can be cleared, and has
    no basis. It's made only where half of the groups or more do. A thinned one is a sparse one that clears only the
    shortest vectors at each group, and drops the others."""

    THINNED = 1
    SPARSE = 2
    QUICK = 3
    THOROUGH = 4


class Vector:
    """A vector by its sums other than 0, its shadow, and the earlier vectors that it was made of, each with its
    multiple; or one of an unknown."""

    numbers = count()

    def __init__(self, sums: Sums, shadow: list[int], made_of: Sequence[tuple[int, "Vector"]] = (),
                 unknown: int | None = None) -> None:
        self.sums, self.shadow, self.made_of, self.unknown = sums, shadow, made_of, unknown
        self.number = next(Vector.numbers)
        self.size = max(max(shadow), -min(shadow)) if shadow else 0  # of the longest number of the shadow

    @cached_property
    def packed(self) -> int:
        """The shadow as one number, of which each of its own, less than 2^63 in size, takes 64 bits."""
        return packed(self.shadow)

    @cached_property
    def square(self) -> int:
        """The square of the shadow's length."""
        return squared(self.shadow)

    @cached_property
    def floats(self) -> list[float]:
        """The shadow in floating point."""
        return [*map(float, self.shadow)]

    def at(self, rows: Iterable[int]) -> list[int]:
        return [self.sums.get(row, 0) for row in rows]

    def unknowns(self, size: int) -> list[int]:
        """The amounts of the unknowns: what it was made of is followed back, the latest first."""
        found, times, waiting = [0] * size, {self.number: 1}, [(-self.number, self)]
        while waiting:
            _, vector = heappop(waiting)
            amount = times.pop(vector.number)
            if vector.unknown is not None:
                found[vector.unknown] = amount
            for multiple, part in vector.made_of:
                if part.number not in times:
                    times[part.number] = 0
                    heappush(waiting, (-part.number, part))
                times[part.number] += multiple * amount
        return found


def dot(u: Sequence[Number], v: Sequence[Number]) -> Number:
    total: Number = sum(map(mul, u, v))
    return total


def squared(u: Sequence[int]) -> int:
    return dot(u, u)


PLACES = sum(1 << 64 * k + 63 for k in range(SHADOW))  # the highest bit of each number of a packed shadow


def packed(shadow: Sequence[int]) -> int:
    """Numbers less than 2^63 in size as one, in which each takes 64 bits: sums of such are those of their numbers."""
    return (int.from_bytes(array("q", shadow).tobytes(), sys.byteorder) ^ PLACES) - PLACES


def unpacked(number: int) -> list[int]:
    return array("q", (number + PLACES ^ PLACES).to_bytes(8 * SHADOW, sys.byteorder)).tolist()


def combined(terms: Iterable[tuple[int, Vector]]) -> Vector:
    """The sum of vectors, each a number of times."""
    made_of = [term for term in terms if term[0]]
    if not made_of:
        return Vector({}, [0] * SHADOW)
    size = sum([abs(times) * vector.size for times, vector in made_of])
    if size < 1 << 63:
        total = sum([times * vector.packed for times, vector in made_of])
        found = Vector(summed(made_of), unpacked(total)[:len(made_of[0][1].shadow)], made_of)
        found.packed = total
        return found
    shadow = [0] * SHADOW
    for times, vector in made_of:
        shadow = [x + times * y for x, y in zip(shadow, vector.shadow)]
    return Vector(summed(made_of), shadow, made_of)


def summed(made_of: Iterable[tuple[int, Vector]]) -> Sums:
    """The sums of vectors, each a number of times."""
    sums: dict[int, int] = {}
    had = sums.get
    for times, vector in made_of:
        for row, amount in vector.sums.items():
            sums[row] = had(row, 0) + times * amount
    return {row: amount for row, amount in sums.items() if amount}


# Reduction


class Reduction:
    """LLL in whole numbers on the products of a basis: algorithm 2.6.7 of Cohen, A Course in Computational Algebraic
    Number Theory. `rows` is the unimodular matrix that makes the reduced basis of the given one."""

    def __init__(self, products: Sequence[Sequence[int]]) -> None:
        self.size, self.products = len(products), products
        self.rows = [[int(i == j) for j in range(self.size)] for i in range(self.size)]
        self.d = [1] + [0] * self.size  # the determinants of the leading products
        self.lam = [[0] * self.size for _ in range(self.size)]
        self.known = -1
        self.run()

    def run(self) -> None:
        k = 0
        while k < self.size:
            if k > self.known:
                self.take(k)
            if k:
                self.shorten(k, range(k - 1, k))
            if k and self.out_of_order(k):
                self.swap(k)
                k = max(1, k - 1)
            else:
                self.shorten(k, range(k - 1))
                k += 1

    def take(self, k: int) -> None:
        """The first step at a vector: its projections on those before it."""
        d, lam, mine = self.d, self.lam, self.lam[k]
        for j in range(k + 1):
            x, other = dot(self.products[k], self.rows[j]), lam[j]
            for i in range(j):
                x = (d[i + 1] * x - mine[i] * other[i]) // d[i]
            mine[j] = x
        d[k + 1] = mine[k]
        self.known = k

    def shorten(self, k: int, others: Sequence[int]) -> None:
        """Takes multiples of earlier vectors off, the last first, so that their projections are at most a half."""
        mine, row = self.lam[k], self.rows[k]
        for other in reversed(others):
            d, twice = self.d[other + 1], 2 * mine[other]
            if -d <= twice < d:
                continue
            q = (twice + d) // (2 * d)
            row = [x - q * y for x, y in zip(row, self.rows[other])]
            mine[other] -= q * d
            mine[:other] = [x - q * y for x, y in zip(mine, self.lam[other][:other])]
        self.rows[k] = row

    def out_of_order(self, k: int) -> bool:
        """Lovasz's condition, with 3/4, fails."""
        return 4 * self.d[k + 1] * self.d[k - 1] < 3 * self.d[k] ** 2 - 4 * self.lam[k][k - 1] ** 2

    def swap(self, k: int) -> None:
        d, lam, rows = self.d, self.lam, self.rows
        rows[k], rows[k - 1] = rows[k - 1], rows[k]
        lam[k][:k - 1], lam[k - 1][:k - 1] = lam[k - 1][:k - 1], lam[k][:k - 1]
        side = lam[k][k - 1]
        new = (d[k - 1] * d[k + 1] + side * side) // d[k]
        for i in range(k + 1, self.known + 1):
            x = lam[i][k]
            lam[i][k] = (d[k + 1] * lam[i][k - 1] - side * x) // d[k]
            lam[i][k - 1] = (new * x + side * lam[i][k]) // d[k + 1]
        d[k] = new

    # What Gram and Schmidt make of the reduced basis, in floating point.

    @cached_property
    def mu(self) -> list[list[float]]:
        return [[x / y for x, y in zip(row[:k], self.d[1:])] for k, row in enumerate(self.lam)]

    @cached_property
    def squares(self) -> list[float]:
        return [y / x for x, y in zip(self.d, self.d[1:])]


reduced = lru_cache(1000)(Reduction)  # of products that may come again


# Sums


class Step:
    """Vectors reduced together at a group of rows, with what Gram and Schmidt make of them in floating point.

    The first of them have no sums in the group. The last, the pivots, have independent ones: whole multiples of them
    clear the sums of other vectors there. Babai's nearest plane then keeps these short.
    """

    def __init__(self, group: Sequence[int], vectors: list[Vector], reduction: Reduction, inverse: list[list[int]],
                 divisor: int) -> None:
        self.group, self.vectors, self.inverse, self.divisor = group, vectors, inverse, divisor
        self.plain = sum(not any(vector.at(group)) for vector in vectors)  # how many have no sums in the group
        self.mu, self.squares = reduction.mu, reduction.squares
        self.shadows = [vector.floats for vector in vectors[:self.plain]]

    def multiples(self, vector: Vector) -> list[int]:
        """How many times each pivot has a vector's sums in the group."""
        sums, pivots = vector.at(self.group), len(self.vectors) - self.plain
        if not any(sums):
            return [0] * pivots
        times = [dot(row, sums) for row in self.inverse]
        if any(x % self.divisor for x in times) or any(times[pivots:]):
            raise NoVector
        return [x // self.divisor for x in times[:pivots]]

    def clearable(self, vectors: list[Vector]) -> list[Vector]:
        """A reduced basis of the whole combinations of vectors whose sums in the group whole multiples of the pivots
        have."""
        sums = [vector.at(self.group) for vector in vectors]
        mixed = [[int(i == k) for i in range(len(vectors))] for k in range(len(vectors))]
        for place, row in enumerate(self.inverse):
            amounts = [dot(row, one) for one in sums]
            modulus = abs(self.divisor) if place < len(self.vectors) - self.plain else 0
            mixed = divisible([(dot(times, amounts), times) for times in mixed], modulus)
        found = [combined(zip(times, vectors)) for times in mixed]
        products = [[dot(u.shadow, v.shadow) for v in found] for u in found]
        return [combined(zip(times, found)) for times in Reduction(products).rows] if len(found) > 1 else found

    def cleared(self, vector: Vector) -> Vector:
        """The vector without its sums in the group, and shortened: what is taken off is whole, but found in floating
        point, so where it's much it is looked for again."""
        for _ in range(20):
            taken = self.nearest(vector, self.multiples(vector))
            if any(taken):
                vector = combined([(1, vector), *((-x, other) for x, other in zip(taken, self.vectors))])
            if -SURE < min(taken, default=0) and max(taken, default=0) < SURE:
                break
        return vector

    def nearest(self, vector: Vector, pivots: list[int]) -> list[int]:
        """The multiples of all vectors to take off, those of the pivots given."""
        shadow = vector.floats
        parts: list[float] = []
        for other, mu in zip(self.shadows, self.mu):
            parts.append(sum(map(mul, shadow, other)) - sum(map(mul, mu, parts)))
        parts = [x / y for x, y in zip(parts, self.squares)]
        taken = [0] * self.plain + pivots
        for times, mu in zip(pivots, self.mu[self.plain:]):
            if times:
                parts = [x - times * y for x, y in zip(parts, mu)]
        for k in range(self.plain - 1, -1, -1):
            if times := round(parts[k]):
                taken[k] = times
                parts[:k] = [x - times * y for x, y in zip(parts, self.mu[k])]
        return taken


def divisible(numbered: list[tuple[int, list[int]]], modulus: int) -> list[list[int]]:
    """A basis of the whole combinations of some rows whose numbers come to a multiple of a modulus, or to 0 if that
    is 0: by Euclid's algorithm."""
    found: list[list[int]] = []
    last: tuple[int, list[int]] | None = None
    for number, row in numbered:
        while last and number:
            times = last[0] // number
            rest = [x - times * y for x, y in zip(last[1], row)]
            last, (number, row) = (number, row), (last[0] - times * number, rest)
        if number:
            last = number, row
        else:
            found.append(row)
    if last and modulus:
        times = modulus // gcd(modulus, last[0])
        found.append([times * x for x in last[1]])
    return found


def inverted(columns: Sequence[Sequence[int]], size: int) -> tuple[list[list[int]] | None, int]:
    """The inverse of some columns of a size: a matrix of whole numbers, and what to divide by. Multiplied by a sum of
    columns, it gives how many there are of each, and zeros. It is None where the columns aren't independent.

    Gauss and Jordan's elimination, with Bareiss's divisions, which leave no remainder.
    """
    table = [[column[k] for column in columns] + [int(i == k) for i in range(size)] for k in range(size)]
    last = 1
    for c in range(len(columns)):
        p = next((i for i in range(c, size) if table[i][c]), None)
        if p is None:
            return None, 1
        table[c], table[p] = table[p], table[c]
        for i in range(size):
            if i != c:
                table[i] = [(table[c][c] * x - table[i][c] * y) // last for x, y in zip(table[i], table[c])]
        last = table[c][c]
    return [row[len(columns):] for row in table], last


def parted(group: Sequence[int], vectors: list[Vector], bits: int) -> tuple[Step, int]:
    """Vectors with sums in a group, reduced together, as a step; and the bits of the weight with which that was done.

    The sums count as a part of a vector's length. Where they weigh enough, the pivots come last. Vectors of an unknown
    each are at right angles. Those of blocks of one shape have the same products, which are reduced once.
    """
    alone = all(vector.unknown is not None for vector in vectors)
    products = [[v.square if u is v else 0 if alone else dot(u.shadow, v.shadow) for v in vectors[:k + 1]]
                for k, u in enumerate(vectors)]
    sums = [vector.at(group) for vector in vectors]
    columns = [*zip(*sums)]
    while True:
        weighed = tuple([tuple([x + (dot(s, t) << bits) for x, t in zip(row, sums)])
                         for row, s in zip(products, sums)])
        reduction = reduced(weighed) if alone else Reduction(weighed)
        ends = [[dot(times, column) for column in columns] for times in reduction.rows]
        plain = sum(not any(end) for end in ends)
        inverse, divisor = inverted(ends[plain:], len(group))
        if inverse is not None and not any(map(any, ends[:plain])):
            made = [combined(zip(times, vectors)) for times in reduction.rows]
            return Step(group, made, reduction, inverse, divisor), bits
        bits *= 2


# The lattice


DRAWS, SIGNS = random.Random(0), list[list[int]]()


def signs(unknown: int) -> list[int]:
    """The signs drawn for an unknown, the same in all lattices."""
    while len(SIGNS) <= unknown:
        drawn = DRAWS.getrandbits(SHADOW)
        SIGNS.append([1 if drawn >> k & 1 else -1 for k in range(SHADOW)])
    return SIGNS[unknown]


class Lattice:
    """The whole vectors of unknowns that have no sums. Each row is in one of the groups."""

    def __init__(self, columns: Sequence[Sums], groups: Sequence[Sequence[int]], kind: Kind = Kind.THOROUGH) -> None:
        """A column is a dictionary from rows to amounts."""
        self.columns, self.groups, self.kind = columns, groups, kind
        self.steps: list[Step] = []
        self.bits = 0  # of the weight of sums at the last step
        self.basis: list[Vector] = []
        self.dropped = False  # vectors of a thinned lattice
        self.group_of = {row: g for g, group in enumerate(groups) for row in group}
        numbers = SHADOW if kind is Kind.THOROUGH else QUICK_SHADOW
        self.reduce([Vector(column, signs(j)[:numbers], unknown=j) for j, column in enumerate(columns)])

    def supports(self) -> Supports | None:
        """The order of the groups of a sparse lattice."""
        if self.kind not in (Kind.THINNED, Kind.SPARSE):
            return None
        found = Supports(self.columns, self.groups)
        if FEW_POOR * len(found.poor) > len(self.groups):
            raise NoVector
        return found

    def reduce(self, fresh: list[Vector]) -> None:
        """Uses up the groups, first the one that the fewest vectors touch; then those of a sparse lattice that have
        supports, in their order."""
        supports = self.supports()
        touching: list[dict[int, Vector]] = [{} for _ in self.groups]
        order = supports.order[:] if supports else []
        left = set(range(len(self.groups))).difference(order)
        while True:
            for vector in fresh:
                reached = self.reached(vector)
                for g in reached:
                    touching[g][vector.number] = vector
                if not reached:
                    self.basis.append(vector)
            if not left and not order:
                return
            g = min(left, key=lambda g: (len(touching[g]), g)) if left else order.pop(0)
            left.discard(g)
            taken = sorted(touching[g].values(), key=lambda vector: vector.square)
            for vector in taken:
                for other in self.reached(vector):
                    del touching[other][vector.number]
            fresh = self.cleared(self.groups[g], taken)
            if supports:
                fresh = [vector for vector in fresh if not supports.poor.isdisjoint(self.reached(vector))]

    def reached(self, vector: Vector) -> set[int]:
        """The groups in which a vector has sums."""
        return {self.group_of[row] for row in vector.sums}

    def cleared(self, group: Sequence[int], taken: list[Vector]) -> list[Vector]:
        """The vectors that take the place of those taken, without sums in the group."""
        first: list[Vector] = []
        others: list[Vector] = []
        reached: Echelon = [None] * len(group)
        bits = sum(max((abs(vector.sums.get(row, 0)) for vector in taken), default=0).bit_length() for row in group)
        most = TOGETHER if self.kind is Kind.THOROUGH else QUICK_TOGETHER
        for vector in taken:
            grew = grows(reached, vector.at(group))
            (first if grew or len(first) < min(6 + bits // 2, most) else others).append(vector)
        step, self.bits = parted(group, first, max(LIGHT, self.bits // 2))
        self.steps.append(step)
        if self.kind is Kind.THINNED and len(others) > KEPT:
            self.dropped = True
            del others[KEPT:]
        return step.vectors[:step.plain] + [step.cleared(vector) for vector in others]

    def reaching(self, loads: Sequence[Sums]) -> list[Vector]:
        """A basis of the whole multiples of some loads that whole vectors clear, with these: each load is one more
        unknown."""
        found = [Vector(load, signs(k), unknown=k) for k, load in enumerate(loads, len(self.columns))]
        for step in self.steps:
            found = [step.cleared(vector) for vector in step.clearable(found)]
        return found

    def near(self, whole: Sequence[int], rest: Sums | None = None) -> list[int]:
        """A vector near a whole one, which with a rest has no sums: those of both are cleared group by group."""
        sums: dict[int, int] = {**(rest or {})}
        for amount, column in zip(whole, self.columns):
            for row, x in column.items() if amount else ():
                sums[row] = sums.get(row, 0) + amount * x
        more = Vector({row: amount for row, amount in sums.items() if amount}, [0] * SHADOW)
        for step in self.steps:
            more = step.cleared(more)
        return [x + y for x, y in zip(whole, more.unknowns(len(whole)))]
