"""What is certified and announced: questions about a model, settled by the program or by linear programs.

Nothing here is proved: only the `accepted` of `check` counts. Nothing is announced, and no answer is given, that
`check` didn't accept; a certificate that it rejects never takes its place. docs/use/other_solvers.md explains the
method.
"""
from collections.abc import Callable, Sequence
from dataclasses import dataclass, field
from fractions import Fraction
from functools import cached_property
from math import ceil, floor

from masonry import console, model as models, program
from masonry.console import Refused, quiet
from masonry.lp import linear
from masonry.lp.linear import Amounts, Inner, Opening, Raised
from masonry.lp.programs import NoAnswer
from masonry.lp.short_certificates import (Forces, Lattices, NoForces, Tried, exact_forces, forces_lines,
                                           is_short, motion_lines, refute_all, short_forces, short_motion)
from masonry.model import Model
from masonry.numbers import nine_digits, ratio, simplest
from masonry.questions.results import Collapses, Greatest, Loaded, Shares, Standing, Stands, Unlimited
from masonry.questions.voice import Voice
from masonry.statics import GREATEST, Motion, NotFound, Structure, work
from masonry.units import Scale, dead_of, scale_of

MISSES = 3  # so many greatest factors without a certificate, and no more are looked for
FAR = 10**12  # a factor that few structures with a limit carry
PART = Fraction(1, 10**6)  # how far a share may be from the factor, as a part of it

# Lines


def motion_of(lines: Sequence[str]) -> list[int]:
    """The motion of a certificate."""
    return [int(part) for line in lines if line.startswith("move ") for part in line.split()[1:]]


def bits(lines: Sequence[str]) -> int:
    return max((int(word).bit_length() for line in lines for word in line.split()[1:]), default=0)


# The questions


@dataclass
class Known:
    """What cases with the same bodies and dead loads share: the table of contacts, forces for these loads, some far
    inside their cones and short ones, whether it is accepted that they stand, how many greatest factors in a row had no
    certificate, motions that no bearing resists, at which scales forces were found, which needn't be the least where no
    certificate is kept, and lattices of forces without a load."""
    table: str | None = None
    dead: Inner | None = None
    inner: Inner | None = None
    short: Forces | None = None
    stands: bool = False
    misses: int = 0
    motions: list[Motion] = field(default_factory=list)
    tried: dict[str, Tried] = field(default_factory=dict)
    lattices: Lattices = field(default_factory=dict)


class Case:
    """A model in a file, where its certificate goes, and what is told while that is found."""

    def __init__(self, name: str, cert: str, progress: console.Telling = quiet, voice: Voice | None = None,
                 part: Fraction = PART, known: Known | None = None) -> None:
        self.name, self.cert, self.stem = name, cert, cert.removesuffix(".cert")
        self.progress, self.voice, self.part = progress, voice or Voice(), part
        self.wide = False  # the program has refused what the script was then asked
        self.known = known or Known()

    @cached_property
    def structure(self) -> Structure:
        self.progress("the contacts")
        if self.known.table is None:
            self.known.table = program.answer("contacts", self.name)
        return Structure(self.model, self.known.table)

    @cached_property
    def model(self) -> Model:
        return models.read(self.name)

    @cached_property
    def opened(self) -> Opening:
        self.progress("a motion that opens the joints")
        return linear.opening(self.structure)

    def accepted(self, model: str, name: str, lines: list[str]) -> None:
        """Writes a certificate, which must be accepted: else nothing takes its place, and nothing is announced."""
        lines = [*lines, "end"]
        if bits(lines) > GREATEST.bit_length():
            raise NotFound(f"a certificate of {bits(lines)} bits")
        with models.beside(name) as new:
            new.write_text("\n".join([*lines, ""]))
            self.progress("the check")
            done = program.run("check", model, new)
            if (done.status, done.output) != (0, "accepted\n"):
                said = (done.output or done.error).strip()
                raise NotFound(f"the check of a certificate of {bits(lines)} bits says {said}")
        self.voice.note(f"{name}: {bits(lines)} bits")

    # By the program

    def asked(self, question: str) -> list[str] | None:
        """The certificate that the program finds, accepted; None where it refuses."""
        self.progress(f"the program's {question}")
        done = program.run(question, self.name)
        if done.status not in (0, 1):
            return None
        lines = done.output.splitlines()[:-1]
        self.accepted(self.name, self.cert, lines)
        return lines

    def settled_stand(self) -> Standing:
        """What the program's `stand` finds, or else the script."""
        lines = self.asked("stand")
        if lines is None:
            self.wide = True
            return self.stand()
        self.voice.say(f"{lines[0]} accepted")
        return Stands() if lines[0] == "stands" else Collapses(motion_of(lines))

    def settled_load(self) -> Loaded:
        """What the program's `load` finds, or else the script."""
        lines = self.asked("load")
        if lines is None:
            self.wide = True
            return self.load()
        if lines[0] == "greatest":
            _, scale, factor = lines[1].split()
            return self.told(Greatest(Fraction(int(factor), int(scale)), motion_of(lines)))
        self.voice.say(f"{lines[0]} accepted")
        return Unlimited() if lines[0] == "unbounded" else Collapses(motion_of(lines))

    def told(self, found: Greatest) -> Greatest:
        self.voice.say(f"greatest {ratio(found.factor)} accepted, {self.voice.decimals(found.factor)}")
        return found

    # By linear programs

    def collapse(self) -> Collapses:
        self.progress("a collapse")
        motion = short_motion(self.structure, linear.fall(self.structure), lambda: self.opened,
                              lambda moves: work(self.structure.dead, moves) > 0)
        self.accepted(self.name, self.cert, ["collapses", *motion_lines(motion)])
        self.voice.say("collapses accepted")
        return Collapses(motion)

    def dead_forces(self) -> Inner | None:
        """Forces that carry the dead loads, inside their cones where esolver finds such; None where there are none."""
        if self.known.dead is None:
            self.progress("forces for the dead loads")
            try:
                self.known.dead = linear.lifted(self.structure, self.structure.dead)
            except NoAnswer:
                corner = linear.carried(self.structure, self.structure.dead)
                self.known.dead = None if corner is None else Inner(corner, Fraction(0), inside=False)
        return self.known.dead

    def inner_dead(self, dead: Inner) -> Inner:
        """Forces for the dead loads far inside their cones."""
        if dead.inside:
            return dead
        if self.known.inner is None:
            self.progress("forces inside the cones for the dead loads")
            every = range(len(self.structure.edges))
            self.known.inner = linear.inner_of_useful(self.structure, self.structure.dead, None, None, every)
        if self.known.inner is None:
            raise NotFound("no forces for the dead loads were found")
        return self.known.inner

    def short_dead(self, dead: Inner) -> Forces:
        """Those that are found as they are, if they are short or at the edge of some cone; or else short ones near
        forces inside the cones."""
        if self.known.short is None:
            exact = exact_forces(self.structure, dead.amounts)
            self.known.short = (exact if exact and (is_short(exact) or not dead.inside)
                                else self.near_dead(dead, exact))
        return self.known.short

    def near_dead(self, dead: Inner, exact: Forces | None) -> Forces:
        """Short forces, or at least exact ones: the given ones, or those at a corner of their polytope."""
        try:
            return short_forces(self.structure, self.inner_dead(dead).amounts, self.structure.dead,
                                kept=self.known.lattices)
        except (NotFound, NoAnswer):
            corner = None if exact else linear.carried(self.structure, self.structure.dead)
            found = exact_forces(self.structure, corner) if corner else exact
            if found is None:
                raise
            return found

    def stands(self, dead: Inner) -> Stands:
        scale, parts = self.short_dead(dead)
        self.accepted(self.name, self.cert, ["stands", *forces_lines(scale, 0, parts)])
        self.voice.say("stands accepted")
        return Stands()

    def live_forces(self) -> Amounts | None:
        """Forces for the live loads alone. There are none if these gain power on a motion that no bearing resists."""
        if any(work(self.structure.live, motion) > 0 for motion in self.known.motions):
            return None
        self.progress("the live loads alone")
        return linear.carried(self.structure, self.structure.live)

    def stand(self) -> Standing:
        dead = self.dead_forces()
        return self.collapse() if dead is None else self.stands(dead)

    def load(self) -> Loaded:
        dead = self.dead_forces()
        if dead is None:
            return self.collapse()
        self.progress("the greatest factor")
        top = linear.raised(self.structure, FAR)
        if top.factor == FAR:
            live = self.live_forces()
            if live is not None:
                return self.unbounded(dead, live)
            top = linear.raised(self.structure)
        self.known.motions.append(top.motion)
        if self.known.misses < MISSES:
            try:
                found, self.known.misses = self.greatest(top), 0
                return found
            except (NotFound, NoAnswer, ArithmeticError) as fault:
                self.known.misses += 1
                about = nine_digits(top.factor)
                self.voice.note(f"solve: no certificate of the greatest factor, about {about}: {fault}")
        return self.shares(top, dead)

    def unbounded(self, dead: Inner, live: Amounts) -> Unlimited:
        scale, parts = self.short_dead(dead)
        factor, ray = exact_forces(self.structure, live) or self.short_ray()
        lines = ["unbounded", *forces_lines(scale, 0, parts), *forces_lines(0, factor, ray)]
        self.accepted(self.name, self.cert, lines)
        self.voice.say("unbounded accepted")
        return Unlimited()

    def short_ray(self) -> Forces:
        live = linear.inner(self.structure, self.structure.live)
        if live is None:
            raise NotFound("no forces for the live loads were found")
        return short_forces(self.structure, live.amounts, self.structure.live, self.known.tried.get("ray"),
                            self.known.lattices)

    def greatest(self, top: Raised) -> Greatest:
        """The certificate of the factor itself. No edge on which the motion gains power is in use there, and so all
        forces without these edges have this factor."""
        n, d, motion, structure = top.factor.numerator, top.factor.denominator, top.motion, self.structure
        if max(n, d, *(abs(part) for part in motion)) > GREATEST:
            raise NotFound("the factor or its motion is longer than 127 bits")
        self.progress("forces at the greatest factor")
        exact = exact_forces(structure, {k: d * x for k, x in top.amounts.items()}, max(n, d))
        scale, parts = exact or self.short_greatest(top)
        lines = ["greatest", *forces_lines(scale * d, scale * n, parts), *motion_lines(motion)]
        self.accepted(self.name, self.cert, lines)
        return self.told(Greatest(top.factor, motion))

    def short_greatest(self, top: Raised) -> Forces:
        structure, n, d = self.structure, top.factor.numerator, top.factor.denominator
        edges = [k for k, edge in enumerate(structure.edges) if not work(edge.column, top.motion)]
        found = linear.inner(structure, structure.dead, structure.live, None, edges)
        if found is None:
            raise NotFound("no forces at the greatest factor were found")
        return short_forces(structure, {k: d * x for k, x in found.amounts.items()}, structure.loads(d, n),
                            self.known.tried.get("greatest"), self.known.lattices)

    # Shares

    def shares(self, top: Raised, dead: Inner) -> Shares:
        """That the dead loads stand, and a share on each side of the factor."""
        carried = None
        try:
            if not self.known.stands:
                self.stands(dead)
                self.known.stands = True
        except (NotFound, ArithmeticError) as fault:
            self.lacks("a certificate that the dead loads stand", fault)
        try:
            refute_all(self.structure, self.known.lattices)
            carried = self.nearest("carried", top.factor, self.carried_below(top, dead))
        except NoForces as fault:
            self.lacks("a share carried", fault)
        beyond = self.nearest("beyond", top.factor, lambda gap: self.beyond(top, gap))
        return Shares(carried and carried[0], beyond and beyond[0], beyond and beyond[1], self.known.stands)

    def carried_below(self, top: Raised, dead: Inner) -> Callable[[Fraction], tuple[Fraction, None]]:
        """What settles a share at a distance below the factor, between forces at factors up to it."""
        self.progress("forces inside the cones below the factor")
        inside = linear.inner(self.structure, self.structure.dead, self.structure.live, top.factor)
        below = [Inner(self.inner_dead(dead).amounts, Fraction(0)), *([inside] if inside else []),
                 Inner(top.amounts, top.factor)]
        return lambda gap: (self.carried(top.factor, below, gap), None)

    def lacks(self, what: str, fault: Exception) -> None:
        self.voice.note(f"solve: {what} wasn't found: {fault}")

    def nearest(self, word: str, factor: Fraction, certified: Callable[[Fraction], tuple[Fraction, Motion | None]]
                ) -> tuple[Fraction, Motion | None] | None:
        """The share that is accepted at the least distance tried, or None."""
        part = self.part
        while True:
            try:
                self.progress(f"a share {word}")
                found = certified(part * (factor or 1))
                decimals = self.voice.decimals(found[0], floor if word == "carried" else ceil)
                self.voice.say(f"{word} {ratio(found[0])} accepted, {decimals}")
                return found
            except (NotFound, NoAnswer, ArithmeticError, Refused) as fault:
                part *= 8
                if part >= 1:
                    self.lacks(f"a share {word}", fault)
                    for end in "toml", "cert":
                        models.discard(f"{self.stem}-{word}.{end}")
                    return None

    def shared(self, word: str, share: Fraction, lines: Callable[[Model], list[str]]) -> Fraction:
        """Writes the model of a share, and its certificate, which must be accepted."""
        name = f"{self.stem}-{word}"
        model = models.share(self.model, share.numerator, share.denominator)
        scale = Scale(Fraction(models.multiple(self.model, model, share.denominator)))
        text = models.text_of(self.name)
        told = scale_of(text).times(scale).line() + dead_of(text).shared(share).line()
        models.put(name + ".toml", told + models.printed(model))
        self.accepted(name + ".toml", name + ".cert", lines(model))
        return share

    def carried(self, factor: Fraction, below: Sequence[Inner], gap: Fraction) -> Fraction:
        """A share below the factor, with forces between known ones at factors below it and above."""
        share = simplest(factor - gap, factor - gap / 2) if factor else factor
        low, high = next(pair for pair in zip(below, below[1:]) if pair[1].factor >= share)
        apart = high.factor - low.factor
        part = (share - low.factor) / apart if apart > 0 else Fraction(0)
        amounts = {k: (1 - part) * low.amounts.get(k, 0) + part * high.amounts.get(k, 0)
                   for k in {**low.amounts, **high.amounts}}
        return self.shared("carried", share, lambda model: self.standing(model, share, amounts))

    def standing(self, model: Model, share: Fraction, amounts: Amounts) -> list[str]:
        """The lines of forces that carry the dead loads of a share's model, near amounts for the share itself."""
        load = [amount for dead, _ in models.wrenches(model).values() for amount in dead]
        own = [x + share * y for x, y in zip(self.structure.dead, self.structure.live)]
        times = next((x / y for x, y in zip(load, own) if y), Fraction(1))
        wanted = {k: times * x for k, x in amounts.items() if x}
        scale, parts = short_forces(self.structure, wanted, load, self.known.tried.get("carried"), self.known.lattices)
        return ["stands", *forces_lines(scale, 0, parts)]

    def beyond(self, top: Raised, gap: Fraction) -> tuple[Fraction, Motion]:
        """A share above the factor, with a motion near the one that forbids more."""
        structure, least = self.structure, top.factor + gap / 2
        share = simplest(least, top.factor + gap)
        moves = short_motion(structure, top.motion, lambda: self.opened,
                             lambda y: work(structure.dead, y) + least * work(structure.live, y) > 0)
        return self.shared("beyond", share, lambda model: ["collapses", *motion_lines(moves)]), moves
