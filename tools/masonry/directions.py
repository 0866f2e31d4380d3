"""Short directions: corners are moved a little, so that each joint lies along a vector of small numbers.

Nothing here is proved. The numbers of a certificate grow with those of the joints' directions. All corners at one point
of the grid are one node, and move together. A line is what must stay straight: nodes of which one lies on an edge of a
body between its ends; or the two ends of an edge that two bodies have in common. Each line is turned into the short
direction that moves its nodes least, if one moves none of them farther than is allowed, counted from where it was
drawn. A node that lies on one other line may only go along that, so that all lines stay straight; one on two others
stays.
"""
from collections.abc import Iterable, Iterator, Sequence
from dataclasses import dataclass, field, replace
from fractions import Fraction
from math import ceil, gcd, hypot, isqrt

from masonry.model import COORDINATE, Model, twice_area
from masonry.open_faces import cross, is_convex, minus, overlap

SHORT = 12  # the greatest number of a short direction
TRIED = 12  # so many ways to turn a line are tried, where bodies would overlap or wouldn't be convex

Pair = tuple[int, int]


def primitive(vector: Pair) -> Pair:
    """The shortest whole vector of a direction."""
    common = gcd(*vector) or 1
    return vector[0] // common, vector[1] // common


def is_short(direction: Pair) -> bool:
    return max(abs(direction[0]), abs(direction[1])) <= SHORT


SHORT_ONES = [(a, b) for a in range(-SHORT, SHORT + 1) for b in range(SHORT + 1)
              if gcd(a, b) == 1 and (b > 0 or a > 0)]
# Of each of them a vector with which its cross product is 1.
BESIDE = {(a, b): next((x, y) for x in range(-SHORT, SHORT + 1) for y in range(-SHORT, SHORT + 1)
                       if a * y - b * x == 1) for a, b in SHORT_ONES}


@dataclass
class Line:
    """Nodes that stay on one line, by their numbers, in their order along it."""
    nodes: list[int]
    done: bool = False


@dataclass
class Turned:
    """Outlines, how many lines have been turned, how many are still in no short direction, and how far the farthest
    corner has moved."""
    outlines: dict[str, list[Pair]] = field(default_factory=dict)
    turned: int = 0
    left: int = 0
    moved: float = 0.0

    def line(self) -> str:
        return f"{self.turned} joints are turned into short directions, {self.left} left in long ones"


@dataclass
class Drawing:
    """Bodies by their nodes, where these are and were, and the lines."""
    bodies: dict[str, list[int]]
    at: list[Pair]
    drawn: list[Pair]
    lines: list[Line] = field(default_factory=list)

    def outline(self, name: str) -> list[Pair]:
        return [self.at[node] for node in self.bodies[name]]

    def direction(self, line: Line) -> Pair:
        return primitive(minus(self.at[line.nodes[-1]], self.at[line.nodes[0]]))

    def others(self, node: int, line: Line) -> list[Line]:
        """The other lines through a node that must stay as they are: those of three nodes or more, and those that are
        done."""
        return [one for one in self.lines if one is not line and node in one.nodes and (one.done or len(one.nodes) > 2)]


def drawing_of(outlines: dict[str, list[Pair]]) -> Drawing:
    points = list(dict.fromkeys(point for outline in outlines.values() for point in outline))
    number = {point: node for node, point in enumerate(points)}
    bodies = {name: [number[point] for point in outline] for name, outline in outlines.items()}
    found = Drawing(bodies, points, list(points))
    edges = [pair for nodes in bodies.values() for pair in zip(nodes, nodes[1:] + nodes[:1])]
    on = [between(points, *edge) for edge in edges]
    long = joined([set(nodes) for nodes in on if len(nodes) > 2])
    ends = [set(edge) for edge in edges]
    twice = [edge for k, edge in enumerate(ends) if len(on[k]) == 2 and edge in ends[:k]]
    lines = [*sorted(long, key=len, reverse=True), *(one for one in twice if not any(one <= other for other in long))]
    found.lines = [Line(sorted(nodes, key=lambda node: points[node])) for nodes in lines]
    return found


def between(points: Sequence[Pair], start: int, end: int) -> list[int]:
    """The nodes on an edge, its ends with them."""
    (a, b), (c, d) = points[start], points[end]
    return [node for node, (x, y) in enumerate(points)
            if min(a, c) <= x <= max(a, c) and min(b, d) <= y <= max(b, d) and (c - a) * (y - b) == (d - b) * (x - a)]


def joined(sets: list[set[int]]) -> list[set[int]]:
    """Sets of nodes on lines, joined where two have two nodes in common."""
    found: list[set[int]] = []
    for one in sets:
        while same := [other for other in found if len(other & one) > 1]:
            found = [other for other in found if other not in same]
            one = one.union(*same)
        found.append(one)
    return found


# How a line is turned

Moves = dict[int, Pair]
Guides = dict[int, Pair | None]  # along which vector a node may go, (0, 0) if it stays, None if nothing holds it


def guides_of(drawing: Drawing, line: Line) -> Guides:
    found: Guides = {}
    for node in line.nodes:
        others = drawing.others(node, line)
        found[node] = None if not others else drawing.direction(others[0]) if len(others) == 1 else (0, 0)
    return found


def place_on(at: Pair, guide: Pair | None, way: Pair, c: int) -> Pair | None:
    """Where a node goes on the line of the points whose cross product with a direction is c; None if it can't."""
    if guide is None:
        base = c * BESIDE[way][0], c * BESIDE[way][1]
        (x, y), size = minus(at, base), way[0] ** 2 + way[1] ** 2
        steps = (2 * (x * way[0] + y * way[1]) + size) // (2 * size)
        return base[0] + steps * way[0], base[1] + steps * way[1]
    off, turn = c - cross(way, at), cross(way, guide)
    if not off:
        return at
    return (at[0] + off // turn * guide[0], at[1] + off // turn * guide[1]) if turn and off % turn == 0 else None


def moves_onto(drawing: Drawing, guides: Guides, way: Pair, c: int) -> Moves | None:
    """Where all nodes of a line go; None if one can't."""
    found: Moves = {}
    for node, guide in guides.items():
        place = place_on(drawing.at[node], guide, way, c)
        if place is None:
            return None
        found[node] = place
    return found


def farthest(drawing: Drawing, moves: Moves) -> int:
    """The square of how far the farthest of these nodes is then from where it was drawn."""
    return max((x - drawing.drawn[node][0]) ** 2 + (y - drawing.drawn[node][1]) ** 2 for node, (x, y) in moves.items())


def ways(drawing: Drawing, line: Line, reach: Fraction) -> Iterator[tuple[int, int, Moves]]:
    """The ways to turn a line: the square of the farthest move, that of the direction's length, and where nodes go."""
    places, guides = [drawing.drawn[node] for node in line.nodes], guides_of(drawing, line)
    (u, v) = minus(places[-1], places[0])
    for way in SHORT_ONES:
        size = way[0] ** 2 + way[1] ** 2
        # Both ends together may leave the line by twice the reach.
        if cross(way, (u, v)) ** 2 > 4 * reach ** 2 * size:
            continue
        room = isqrt(ceil(reach ** 2 * size)) + 1
        products = [cross(way, at) for at in places]
        for c in range(max(products) - room, min(products) + room + 1):
            moves = moves_onto(drawing, guides, way, c)
            if moves is not None and (far := farthest(drawing, moves)) <= reach ** 2:
                yield far, size, moves


def is_sound(drawing: Drawing, moved: Iterable[int]) -> bool:
    """Whether bodies that have moved are convex, turn as before and overlap no other one, and whether the nodes of all
    their lines stand in their order."""
    nodes = set(moved)
    if any(abs(part) > COORDINATE for node in nodes for part in drawing.at[node]):
        return False
    for line in drawing.lines:
        if nodes & set(line.nodes):
            (u, v), places = drawing.direction(line), [drawing.at[node] for node in line.nodes]
            along = [x * u + y * v for x, y in places]
            if any(two <= one for one, two in zip(along, along[1:])) or len({cross((u, v), at) for at in places}) > 1:
                return False
    outlines = {name: drawing.outline(name) for name in drawing.bodies}
    names = [name for name, of in drawing.bodies.items() if nodes & set(of)]
    before = {name: [drawing.drawn[node] for node in drawing.bodies[name]] for name in outlines}
    return all(is_convex(outlines[name]) and twice_area(outlines[name]) * twice_area(before[name]) > 0
               for name in names) and not any(
        overlap(outlines[one], outlines[other]) and not overlap(before[one], before[other])
        for one in names for other in outlines if other != one)


def turned(drawing: Drawing, line: Line, reach: Fraction) -> bool:
    """Turns a line, if that can be done. No short direction needs more than a twelfth of its length, and a few units to
    meet whole points."""
    u, v = drawing.direction(line)
    found = sorted(ways(drawing, line, min(reach, Fraction(isqrt(u * u + v * v), 12) + 12)), key=lambda it: it[:2])
    before = list(drawing.at)
    for _, _, moves in found[:TRIED]:
        for node, place in moves.items():
            drawing.at[node] = place
        if is_sound(drawing, moves):
            return True
        drawing.at[:] = before
    return False


def in_short_directions(outlines: dict[str, list[Pair]], reach: Fraction) -> Turned:
    """These bodies, with joints in short directions where no corner moves farther than this for it."""
    drawing = drawing_of(outlines)
    for line in drawing.lines:
        line.done = is_short(drawing.direction(line))
    found = Turned()
    for line in drawing.lines:
        if not line.done:
            line.done = turned(drawing, line, reach)
            found.turned += line.done
            found.left += not line.done
    found.outlines = {name: drawing.outline(name) for name in drawing.bodies}
    found.moved = max((hypot(*minus(at, before)) for at, before in zip(drawing.at, drawing.drawn)), default=0.0)
    return found


def short(model: Model, reach: Fraction) -> tuple[Model, Turned]:
    """The model with its joints in short directions. A load at a corner of its block goes with it."""
    found = in_short_directions({block.name: [(x, y) for x, y in block.corners] for block in model.blocks}, reach)
    places = {(block.name, *at): now for block in model.blocks
              for at, now in zip(block.corners, found.outlines[block.name])}
    loads = [replace(load, at=list(places.get((load.block, *load.at), load.at))) for load in model.loads]
    blocks = [replace(block, corners=[list(at) for at in found.outlines[block.name]]) for block in model.blocks]
    return replace(model, blocks=blocks, loads=loads), found
