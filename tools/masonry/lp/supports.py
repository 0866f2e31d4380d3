"""In which order groups of rows are used up, so that most need only columns of their own.

Nothing here is proved, and nothing is about masonry. Columns have sums in groups of rows, as in lattice.py, most of
them in one or two. In the order that is found each group comes before those that support it: the columns that it
shares with these, and those that it alone has, reach sums of every direction in it. If whole multiples of them reach
even all that any columns reach there, the group stands by itself. Else it is poor, as are groups without supports.
"""
from collections.abc import Iterator, Mapping, Sequence
from heapq import heappop, heappush

Sums = Mapping[int, int]  # by the rows' numbers, without zeros
Echelon = list[list[int] | None]  # a row, or None, for each place, as in Hermite's normal form


def grows(echelon: Echelon, sums: list[int]) -> bool:
    """Takes sums into the lattice of those reached, which is held in echelon form, and says whether it grew."""
    grew = False
    for place, row in enumerate(echelon):
        if row is None:
            if sums[place]:
                echelon[place] = sums
                return True
            continue
        before = abs(row[place])
        while sums[place]:
            q = row[place] // sums[place]
            row, sums = sums, [x - q * y for x, y in zip(row, sums)]
        grew = grew or abs(row[place]) != before
        echelon[place] = row
    return grew


def volume(echelon: Echelon) -> int:
    """The volume of a cell of the lattice; 0 where its rows don't reach every direction."""
    found = 1
    for place, row in enumerate(echelon):
        found *= 0 if row is None else abs(row[place])
    return found


class Supports:
    """The order of the groups with supports, the first to be used up first, and the poor groups. Those without supports
    come before them.

    The order is found from its end on: of the groups that those found support, the one whose own columns reach the
    greatest part of what any reach is next.
    """

    def __init__(self, columns: Sequence[Sums], groups: Sequence[Sequence[int]]) -> None:
        group_of = {row: g for g, group in enumerate(groups) for row in group}
        self.columns = [[(g, [column.get(row, 0) for row in groups[g]]) for g in {group_of[row] for row in column}]
                        for column in columns]
        self.touching: list[list[int]] = [[] for _ in groups]
        self.own: list[Echelon] = [[None] * len(group) for group in groups]  # reached by own columns
        reached: list[Echelon] = [[None] * len(group) for group in groups]
        for k, column in enumerate(self.columns):
            for g, sums in column:
                self.touching[g].append(k)
                grows(reached[g], sums)
                if len(column) == 1:
                    grows(self.own[g], sums)
        self.volumes = [*map(volume, reached)]
        self.poor = set(range(len(groups)))
        self.order = [*self.found()][::-1]

    def found(self) -> Iterator[int]:
        waiting: list[tuple[int, int]] = []
        for g in range(len(self.own)):
            self.offer(waiting, g)
        used = set[int]()
        while waiting:
            index, g = heappop(waiting)
            if g in used:
                continue
            used.add(g)
            if index == 1:
                self.poor.remove(g)
            yield g
            for other, sums in [one for k in self.touching[g] for one in self.columns[k]]:
                if other not in used and grows(self.own[other], sums):
                    self.offer(waiting, other)

    def offer(self, waiting: list[tuple[int, int]], g: int) -> None:
        """Puts a group that is supported among those that may be next."""
        if own := volume(self.own[g]):
            heappush(waiting, (own // self.volumes[g], g))
