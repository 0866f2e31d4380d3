"""A linear program in fractions, and the statics of a structure written once more, for the tests alone.

Nothing here is taken from the scripts that are tested but the model and the table of contacts: forces are the normal
and tangential ones at each bearing, moments are about the origin, and the program is solved by the simplex method with
Bland's rule.
"""
from collections.abc import Sequence
from enum import Enum
from fractions import Fraction

from masonry.model import Bearing, Model


Vector = list[Fraction]


class Lacks(Enum):
    """Why there is no greatest value: no values, or values without end."""
    VALUES = "none"
    LIMIT = "unlimited"


def pivot(table: list[Vector], basis: list[int], r: int, c: int) -> None:
    table[r] = [x / table[r][c] for x in table[r]]
    for k, row in enumerate(table):
        if k != r and row[c]:
            table[k] = [x - row[c] * y for x, y in zip(row, table[r])]
    basis[r] = c


def climb(table: list[Vector], basis: list[int], size: int) -> bool:
    """Raises the goal, the last row with the opposite sign, by Bland's rule; whether it has a greatest value."""
    while True:
        c = next((j for j in range(size) if table[-1][j] < 0), None)
        if c is None:
            return True
        ratios = [(row[-1] / row[c], basis[k], k) for k, row in enumerate(table[:-1]) if row[c] > 0]
        if not ratios:
            return False
        pivot(table, basis, min(ratios)[2], c)


def greatest(goal: Vector, rows: Sequence[Vector], right: Vector) -> Fraction | Lacks:
    """The greatest goal of unknowns from 0 up whose rows come to the right side."""
    size, count = len(goal), len(rows)
    table = []
    for k, (row, end) in enumerate(zip(rows, right)):
        sign = -1 if end < 0 else 1
        table.append([sign * x for x in row] + [Fraction(k == j) for j in range(count)] + [sign * end])
    table.append([-sum((row[j] for row in table), Fraction(0)) if j < size or j == size + count else Fraction(0)
                  for j in range(size + count + 1)])
    basis = [size + k for k in range(count)]
    climb(table, basis, size)
    if table[-1][-1]:
        return Lacks.VALUES
    for k in range(count):
        if basis[k] >= size and (c := next((j for j in range(size) if table[k][j]), None)) is not None:
            pivot(table, basis, k, c)
    kept = [k for k in range(count) if basis[k] < size]
    table = [table[k][:size] + table[k][-1:] for k in kept] + [[-x for x in goal] + [Fraction(0)]]
    basis = [basis[k] for k in kept]
    for k, c in enumerate(basis):
        if table[-1][c]:
            pivot(table, basis, k, c)
    return table[-1][-1] if climb(table, basis, size) else Lacks.LIMIT


class Statics:
    """The sums of each free block: x, y and moment about the origin."""

    def __init__(self, model: Model, bearings: Sequence[Bearing]) -> None:
        self.model, self.bearings = model, bearings
        self.blocks = [block.name for block in model.free_blocks()]

    def sums(self, forces: Sequence[tuple[str, Sequence[Fraction | int], Sequence[Fraction | int]]]) -> Vector:
        """Of forces, each on a block, at a point."""
        found = [Fraction(0)] * (3 * len(self.blocks))
        for name, (x, y), (fx, fy) in forces:
            if name in self.blocks:
                row = 3 * self.blocks.index(name)
                for axis, amount in enumerate((fx, fy, x * fy - y * fx)):
                    found[row + axis] += amount
        return found

    def loads(self, live: bool) -> Vector:
        """The dead loads with the weights, or the live ones with the sway."""
        forces: list[tuple[str, Sequence[Fraction | int], Sequence[Fraction | int]]]
        forces = [(load.block, load.at, load.force) for load in self.model.loads if (load.kind == "live") == live]
        unit = {material.name: material.weight for material in self.model.materials}
        share = (self.model.sway or (0, 0)) if live else (0, -1)
        for block in self.model.free_blocks():
            area, centre = around(block.corners)
            forces.append((block.name, centre, [share[axis] * unit[block.material] * area for axis in (0, 1)]))
        return self.sums(forces)

    def force(self, bearing: Bearing, normal: int, along: int) -> Vector:
        """A force on both bodies: so many times the normal and the tangent, on the second body."""
        tx, ty = bearing.tangent
        fx, fy = along * tx - normal * ty, along * ty + normal * tx
        return self.sums([(bearing.first, bearing.at, (-fx, -fy)), (bearing.second, bearing.at, (fx, fy))])

    def columns(self, rough: bool) -> list[Vector]:
        """The forces of all bearings: both edges of each cone; or, without regard to friction, the normal and both
        tangents."""
        if rough:
            return [self.force(one, *part) for one in self.bearings for part in ((1, 0), (0, 1), (0, -1))]
        return [self.force(one, one.q, sign * one.p) for one in self.bearings for sign in (1, -1)]

    def factor(self, sign: int) -> Fraction | Lacks:
        """The greatest factor of the live loads, of either sign; the least one times -1 if the sign is -1."""
        live, columns = self.loads(True), self.columns(False)
        columns += [live, [-x for x in live]]
        goal = [Fraction(0)] * (len(columns) - 2) + [Fraction(sign), Fraction(-sign)]
        return greatest(goal, [[column[row] for column in columns] for row in range(len(live))],
                        [-x for x in self.loads(False)])

    def excess(self, numbers: Sequence[int], sign: int, top: Fraction, least: bool = False) -> Fraction | Lacks:
        """Without regard to friction, at factors from 0 to a greatest one: the greatest of q*T - p*N of some bearings,
        or of -T; or the least factor at which it isn't below 0, times -1."""
        live, columns = self.loads(True), self.columns(True)
        size, rows = len(columns) + 3, []
        for row in range(len(live)):
            rows.append([column[row] for column in columns] + [live[row], Fraction(0), Fraction(0)])
        rows.append([Fraction(0)] * len(columns) + [Fraction(1), Fraction(1), Fraction(0)])
        over = [Fraction(0)] * size
        for k in numbers:
            over[3 * k:3 * k + 3] = map(Fraction, (-self.bearings[k].p, sign * self.bearings[k].q,
                                                   -sign * self.bearings[k].q))
        right = [-x for x in self.loads(False)] + [top]
        if not least:
            return greatest(over, rows, right)
        goal = [Fraction(-(k == len(columns))) for k in range(size)]
        return greatest(goal, [*rows, over[:-1] + [Fraction(-1)]], [*right, Fraction(0)])


def around(corners: Sequence[Sequence[int]]) -> tuple[Fraction, Vector]:
    """The area of a polygon and its centroid, by sums about the origin."""
    pairs = list(zip(corners, [*corners[1:], corners[0]]))
    crosses = [Fraction(ax * by - ay * bx) for (ax, ay), (bx, by) in pairs]
    twice = sum(crosses, Fraction(0))
    centre = [sum((c * (a[axis] + b[axis]) for c, (a, b) in zip(crosses, pairs)), Fraction(0)) / (3 * twice)
              for axis in (0, 1)]
    return abs(twice) / 2, centre
