"""The statics of a model in whole numbers: its rows, the cones of its bearings, its loads, and motions.

Nothing here is proved. A structure's rows are the sums of its free blocks: x, y and moment, three for each, in order.
A force of a bearing has the whole parts (a, b). The edges of its cone are (q, p) and (q, -p), or (1, 0) without
friction. Forces are amounts of edges, a dictionary from the edges' numbers to fractions, or parts of all bearings. A
motion is a number for each row.
"""
from collections.abc import Iterator, Sequence
from dataclasses import dataclass
from fractions import Fraction

from masonry import model as models
from masonry.console import Refused
from masonry.model import Model

GREATEST = 2**127 - 1  # of the numbers of a certificate

Column = dict[int, int]  # what something adds to the rows, without zeros
Motion = Sequence[int]
Part = tuple[int, int]


class NotFound(Refused):
    """No such forces, or no such motion; says why."""


@dataclass(frozen=True)
class Edge:
    """An edge of a bearing's cone. `inset` is a thousand times the least amounts of both edges that allow for rounding
    both parts."""
    bearing: int
    part: Part
    inset: int
    column: Column


def work(load: Sequence[int] | Column, motion: Sequence[int | Fraction]) -> Fraction | int:
    """The power of a load, or of a column, on a motion."""
    items = load.items() if isinstance(load, dict) else enumerate(load)
    return sum(amount * motion[row] for row, amount in items)


class Structure:
    """A model's bearings, the edges of their cones, and the loads by rows, in sixths."""

    def __init__(self, model: Model, table: str) -> None:
        """`table` is what the program's `contacts` prints."""
        loads = models.wrenches(model)
        self.dead = [amount for dead, _ in loads.values() for amount in dead]
        self.live = [amount for _, live in loads.values() for amount in live]
        self.blocks = [range(row, row + 3) for row in range(0, len(self.dead), 3)]
        self.row_of = {name: 3 * number for number, name in enumerate(loads)}
        self.corner = {block.name: block.corners[0] for block in model.blocks}
        self.bearings = models.bearings_of(table)
        self.edges = [edge for number in range(len(self.bearings)) for edge in self.edges_of(number)]

    def edges_of(self, number: int) -> Iterator[Edge]:
        bearing = self.bearings[number]
        p, q = bearing.p, bearing.q
        inset = -(-1000 * (p + q) // (2 * p * q)) if p else 1000
        for part in ((q, p), (q, -p)) if p else ((1, 0),):
            yield Edge(number, part, inset, self.column(number, part))

    def column(self, number: int, part: Part) -> Column:
        """What a part (a, b) of a bearing adds to the rows."""
        bearing, (a, b) = self.bearings[number], part
        found: Column = {}
        tx, ty = bearing.tangent
        for name, side in (bearing.first, -1), (bearing.second, 1):
            if name in self.row_of:
                force = side * (b * tx - a * ty), side * (a * tx + b * ty)
                for axis, amount in enumerate(models.wrench(force, bearing.at, self.corner[name])):
                    if amount:
                        found[self.row_of[name] + axis] = amount
        return found

    def joints(self) -> dict[tuple[str, str], list[int]]:
        """The numbers of the bearings of each joint, by its two bodies."""
        found: dict[tuple[str, str], list[int]] = {}
        for number, bearing in enumerate(self.bearings):
            found.setdefault((bearing.first, bearing.second), []).append(number)
        return found

    def loads(self, d: int, n: int) -> list[int]:
        """So many times the dead and so many times the live loads."""
        return [d * x + n * y for x, y in zip(self.dead, self.live)]

    def admits(self, parts: Sequence[Part]) -> bool:
        return all(a >= 0 and bearing.p * a >= bearing.q * abs(b) for bearing, (a, b) in zip(self.bearings, parts))

    def resists(self, motion: Motion) -> bool:
        """Whether some bearing resists a motion."""
        return any(work(edge.column, motion) < 0 for edge in self.edges)
