"""Which stones fall: blocks that can begin to fall while all others stay, and what falls once these are gone.

Nothing here is proved. A motion that no bearing resists, and on which the dead loads gain power, is a certificate of a
collapse. It mostly moves nearly all blocks, since a little lifting costs little. So among the motions on which the
loads have the power 1 an exact linear program takes one of least extent. Then each of the blocks that it moves is held,
with all blocks that stay. If others still fall, there are fewer of them, and the search goes on with these. At the end
the others stand whichever is held: no part of the blocks falls while the rest is held.
"""
from collections.abc import Iterator, Sequence
from dataclasses import dataclass, replace

from masonry import model as models, program
from masonry.console import Telling
from masonry.lp import linear
from masonry.lp.short_certificates import motion_lines, short_motion
from masonry.model import Block, Model
from masonry.questions.case import Case
from masonry.questions.voice import Silent
from masonry.statics import Column, Structure, work


def freed(model: Model, names: Sequence[str]) -> Model:
    """The model in which only the blocks of these names are free, and all others are held."""
    there = set(names)
    return replace(model, blocks=[replace(block, fixed=block.name not in there) for block in model.blocks],
                   loads=[load for load in model.loads if load.block in there])


def names_of(model: Model) -> list[str]:
    return [block.name for block in model.free_blocks()]


def extents(block: Block, row: int) -> Iterator[tuple[Column, int]]:
    """The extent of a block's motion, by columns on which it does work, and how often each counts: the way of the
    middle of its outline, across and up, and that of a point half its size away when it turns; all times its area.
    Everything is doubled."""
    (ox, oy), xs, ys = block.corners[0], *zip(*block.corners)
    across, up = min(xs) + max(xs) - 2 * ox, min(ys) + max(ys) - 2 * oy
    size, area = max(max(xs) - min(xs), max(ys) - min(ys)), abs(models.twice_area(block.corners))
    for column in {row: 2, row + 2: -up}, {row + 1: 2, row + 2: across}, {row + 2: size}:
        yield {place: amount for place, amount in column.items() if amount}, area


@dataclass
class Search:
    """A model, and its table of contacts."""
    model: Model
    table: str
    progress: Telling

    def structure(self, names: Sequence[str]) -> Structure:
        """The structure in which only these blocks are free."""
        return Structure(freed(self.model, names), self.table)

    def motion(self, structure: Structure) -> list[int]:
        """A motion of least extent on which the dead loads gain power and that no bearing resists."""
        counted = [one for block in self.model.free_blocks() if block.name in structure.row_of
                   for one in extents(block, structure.row_of[block.name])]
        return linear.least_fall(structure, counted)

    def moved(self, names: Sequence[str]) -> list[str] | None:
        """The blocks among these that a motion of least extent moves, if only these are free; None if they stand."""
        structure = self.structure(names)
        if linear.stands(structure):
            return None
        motion = self.motion(structure)
        return [name for name, row in structure.row_of.items() if any(motion[row:row + 3])]

    def group(self) -> list[str] | None:
        """Blocks that fall, of which no part does; None if all stand."""
        names = self.moved(names_of(self.model))
        needed: set[str] = set()
        while names and (tried := next((name for name in names if name not in needed), None)):
            self.progress(f"{len(names)} blocks fall, and whether fewer do: {len(needed)} tried")
            fewer = self.moved([name for name in names if name != tried])
            if fewer is None:
                needed.add(tried)
            else:
                names = fewer
        return names

    def short(self, names: Sequence[str]) -> list[int]:
        """A motion of these blocks alone, in short numbers, for all free blocks."""
        structure = self.structure(names)
        found = short_motion(structure, self.motion(structure), lambda: linear.opening(structure),
                             lambda moves: work(structure.dead, moves) > 0)
        rows = structure.row_of
        return [x for name in names_of(self.model)
                for x in (found[rows[name]:rows[name] + 3] if name in rows else [0, 0, 0])]


def falls(model: Model, head: str, stem: str, progress: Telling) -> None:
    """Asks which blocks of a model, whose loads are all dead, fall, one group after the other. `head` is the first
    lines of the models that are written."""
    number = 1
    while names := names_of(model):
        case = Case(f"{stem}-{number}.toml", f"{stem}-{number}.cert", progress, Silent())
        models.put(case.name, head + models.printed(model))
        search = Search(model, program.answer("contacts", case.name), progress)
        group = search.group()
        if group is None:
            case.settled_stand()
            print(f"stays {' '.join(names)} accepted", flush=True)
            return
        case.accepted(case.name, case.cert, ["collapses", *motion_lines(search.short(group))])
        print(f"{'falls' if number == 1 else 'then falls'} {' '.join(group)} accepted", flush=True)
        model = model.built(name for name in names if name not in group)
        number += 1
    print("nothing stays")
