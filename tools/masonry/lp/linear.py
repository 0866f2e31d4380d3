"""The linear programs of a structure: what falls, how far the live loads can be raised, forces far inside the cones.

Nothing here is proved. Amounts of edges are a dictionary from the edges' numbers to fractions.
"""
from collections.abc import Iterable, Mapping, Sequence
from dataclasses import dataclass
from fractions import Fraction

from masonry.lp.programs import Exact, Found, Lacking, Program, Row, Sign
from masonry.numbers import lowest
from masonry.statics import Column, NotFound, Structure


Amounts = dict[int, Fraction]
ENOUGH = Fraction(1, 100)  # ten times the room for rounding, since an inset is a thousand times the least


def balance(structure: Structure, edges: Iterable[int], rest: Sequence[int],
            more: Mapping[str, Sequence[int]]) -> list[Row]:
    """The rows in which amounts of edges, and of more loads by name, come to the opposite of a rest. The amount of
    edge k is e and its number."""
    terms: list[dict[str, int]] = [{} for _ in rest]
    for k in edges:
        for row, amount in structure.edges[k].column.items():
            terms[row][f"e{k}"] = amount
    for name, load in more.items():
        for row, amount in enumerate(load):
            terms[row][name] = amount
    return [Row(one, Sign.EQUAL, -right) for one, right in zip(terms, rest)]


def amounts_of(found: Found, edges: Iterable[int]) -> Amounts:
    return {k: found.value(f"e{k}") for k in edges if found.value(f"e{k}")}


def stands(structure: Structure) -> bool:
    """Whether some forces carry the dead loads: if so, they are worked out again here, in fractions."""
    rows = balance(structure, range(len(structure.edges)), structure.dead, {})
    return isinstance(Program({}, rows).closed(), Found)


def fall(structure: Structure) -> list[int]:
    """A motion on which the dead loads gain power and that no bearing resists. They aren't carried."""
    zero, edges = [0] * len(structure.dead), range(len(structure.edges))
    rows = balance(structure, edges, zero, {"t": structure.dead})
    return lowest(Program({"t": 1}, rows, {"t": (0, 1)}).reached().duals)


def fall_anyway(structure: Structure) -> list[int]:
    """A motion on which the dead loads gain power and the live loads none, and that no bearing resists. No factor of
    the live loads, above 0 or below, is carried."""
    zero, edges = [0] * len(structure.dead), range(len(structure.edges))
    rows = balance(structure, edges, zero, {"t": structure.dead, "u": structure.live})
    return lowest(Program({"t": 1}, rows, {"t": (0, 1)}, ["u"]).reached().duals)


def least_fall(structure: Structure, counted: Sequence[tuple[Column, int]]) -> list[int]:
    """A motion on which the dead loads gain power and that no bearing resists, and of these, for their power, one on
    which the columns counted do the least work, of either sign, each so many times.

    It is the dual of how far the dead loads are raised, if each of these columns helps so many times to either side.
    """
    zero, edges = [0] * len(structure.dead), range(len(structure.edges))
    rows, bounds = balance(structure, edges, zero, {"t": structure.dead}), dict[str, tuple[Exact, Exact]]()
    for k, (column, most) in enumerate(counted):
        bounds[f"h{k}"] = -most, most
        for row, amount in column.items():
            rows[row].terms[f"h{k}"] = amount
    return lowest(Program({"t": 1}, rows, bounds).reached().duals)


def ends(structure: Structure) -> tuple[Fraction | None, Fraction | None] | None:
    """The least and the greatest factor of the live loads, None where there is no limit, also where the factor 0 isn't
    carried; no pair where none is carried. Both are closed by dual values."""
    rows = balance(structure, range(len(structure.edges)), structure.dead, {"t": structure.live})
    found = [Program({"t": sign}, rows, free=["t"]).closed() for sign in (-1, 1)]
    if Lacking.VALUES in found:
        return None
    low, high = (one.value("t") if isinstance(one, Found) else None for one in found)
    return low, high


@dataclass(frozen=True)
class Raised:
    """The greatest factor of the live loads, a motion that forbids more, and the amounts of edges."""
    factor: Fraction
    motion: list[int]
    amounts: Amounts


def raised(structure: Structure, most: int | None = None) -> Raised:
    """How far the live loads are raised, up to a greatest factor if one is given. The dead loads are carried. Where the
    live loads alone are carried too, factors rise without end, which esolver takes long to find without one."""
    edges, bounds = range(len(structure.edges)), dict[str, tuple[Exact, Exact]]()
    if most is not None:
        bounds["t"] = 0, most
    found = Program({"t": 1}, balance(structure, edges, structure.dead, {"t": structure.live}), bounds).reached()
    return Raised(found.value("t"), lowest(found.duals), amounts_of(found, edges))


def carried(structure: Structure, load: Sequence[int]) -> Amounts | None:
    """Forces that carry a load, at a corner of their polytope; None where there are none."""
    edges = range(len(structure.edges))
    found = Program({}, balance(structure, edges, load, {})).best()
    return amounts_of(found, edges) if isinstance(found, Found) else None


@dataclass(frozen=True)
class Inner:
    """Amounts of the edges that are of use, and the factor of the live loads. The forces are far inside their cones,
    unless it says that they are not."""
    amounts: Amounts
    factor: Fraction
    inside: bool = True


def lifted(structure: Structure, rest: Sequence[int], live: Sequence[int] | None = None, top: Fraction | None = None,
           edges: Sequence[int] | None = None) -> Inner | None:
    """Forces as far inside their cones as they can be that carry a rest, and with it a factor of live loads, up to
    `top`, where these are given. None where no forces carry the rest.

    Each edge has its inset times one amount and more; this amount is made as great as it can be, up to what is enough:
    more would take esolver far longer, and save a certificate few bits.
    """
    edges = range(len(structure.edges)) if edges is None else edges
    inset = [0] * len(rest)
    for k in edges:
        for row, amount in structure.edges[k].column.items():
            inset[row] += structure.edges[k].inset * amount
    more: dict[str, Sequence[int]] = {"m": inset, **({"t": live} if live else {})}
    bounds: dict[str, tuple[Exact, Exact]] = {"m": (0, ENOUGH)}
    if top is not None:
        bounds["t"] = (0, top)
    found = Program({"m": 1}, balance(structure, edges, rest, more), bounds).best()
    if not isinstance(found, Found):
        return None
    margin = found.value("m")
    amounts = {k: found.value(f"e{k}") + structure.edges[k].inset * margin for k in edges}
    return Inner({k: amount for k, amount in amounts.items() if amount}, found.value("t"), not edges or margin > 0)


def inner(structure: Structure, rest: Sequence[int], live: Sequence[int] | None = None, top: Fraction | None = None,
          edges: Sequence[int] | None = None) -> Inner | None:
    """The same, far inside their cones. If no forces are inside all cones, some edges are of no use, and another
    program finds them."""
    edges = range(len(structure.edges)) if edges is None else edges
    found = lifted(structure, rest, live, top, edges)
    return found if found is None or found.inside else inner_of_useful(structure, rest, live, top, edges)


def inner_of_useful(structure: Structure, rest: Sequence[int], live: Sequence[int] | None, top: Fraction | None,
                    edges: Sequence[int]) -> Inner | None:
    """Forces far inside the cones of those edges that are of use."""
    kept = useful(structure, rest, live, top, edges)
    if len(kept) == len(edges):
        raise NotFound("no forces inside the cones were found")
    return inner(structure, rest, live, top, kept)


def useful(structure: Structure, rest: Sequence[int], live: Sequence[int] | None, top: Fraction | None,
           edges: Sequence[int]) -> list[int]:
    """The edges in use by some forces that carry the rest: by those for a multiple of it that use the most.

    An amount is e + u, and u is at most 1, so that the sum of all u counts the edges in use.
    """
    rows = balance(structure, edges, [0] * len(rest), {"s": rest, **({"t": live} if live else {})})
    for k in edges:
        for row, amount in structure.edges[k].column.items():
            rows[row].terms[f"u{k}"] = amount
    if top is not None:
        rows.append(Row({"t": top.denominator, "s": -top.numerator}, Sign.MOST, 0))
    units: dict[str, tuple[Exact, Exact]] = {f"u{k}": (0, 1) for k in edges}
    found = Program(dict.fromkeys(units, 1), rows, {"s": (1, 10**12), **units}).reached()
    return [k for k in edges if found.value(f"u{k}") or found.value(f"e{k}")]


@dataclass(frozen=True)
class Opening:
    """A motion that no bearing resists, on which each edge gains at least the sum of its column's sizes, and the edges
    that can't gain any on such a motion."""
    motion: list[Fraction]
    still: list[int]


def opening(structure: Structure, still: bool = False) -> Opening:
    """The opening of a structure; with `still` among the motions on which the live loads do no work."""
    names = [f"y{row}" for row in range(len(structure.dead))]
    units: dict[str, tuple[Exact, Exact]] = {}
    rows = []
    for k, edge in enumerate(structure.edges):
        terms, units[f"u{k}"] = {names[row]: amount for row, amount in edge.column.items()}, (0, 1)
        rows.append(Row({**terms, f"u{k}": -sum(abs(amount) for amount in edge.column.values())}, Sign.LEAST, 0))
    if still:
        rows.append(Row({name: amount for name, amount in zip(names, structure.live) if amount}, Sign.EQUAL, 0))
    found = Program(dict.fromkeys(units, 1), rows, units, names).reached()
    return Opening([found.value(name) for name in names], [k for k, name in enumerate(units) if not found.value(name)])
