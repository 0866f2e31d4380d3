#!/usr/bin/env python3
"""Finds a certificate where the program refuses a model as too wide, and has the program check it.

    tools/solve.py MODEL stand CERT
    tools/solve.py MODEL load CERT [MICRO]
    tools/solve.py MODEL range CERT [MICRO]
    tools/solve.py MODEL between CERT
    tools/solve.py MODEL between CERT tie A X Y B U V [N D]
    tools/solve.py MODEL between CERT prop A X Y U V [N D]
    tools/solve.py MODEL stages CERT ORDER
    tools/solve.py MODEL slides [N D] [all]
    tools/solve.py MODEL friction CERT [N D]
    tools/solve.py MODEL falls CERT [N D]

and behind the words of load, range, between and slides maybe `kN FORCE`.

Nothing here is proved: only the `accepted` of `check` counts, and nothing is announced that `check` didn't accept.
`stand` and `load` ask what the program's own forms ask, and write the certificate to CERT. On standard output stands
its form, for `greatest` the factor, and `accepted`.

Where no certificate of the greatest factor fits into 127 bits, CERT says that the dead loads stand, and two shares of
the live loads come close to the factor. (CERT is without `.cert` at its end in these names.)

    CERT-carried.toml, CERT-carried.cert    `carried N/D accepted`: N/D of the live loads is carried
    CERT-beyond.toml, CERT-beyond.cert      `beyond N/D accepted`: N/D of the live loads isn't

Each model is the one that `tools/variant.py share MODEL N D` prints; `tools/read.py MODEL CERT` reads both. They are at
most MICRO millionths of the factor apart, 2 if no number is given and 1,000,000 at most; where nothing so near is
found, wider ones are tried.

`range` settles the model and then the reversed one, CERT-reversed.toml with CERT-reversed.cert; the program's `load`
answers where it can. What is found behind the line `reversed` is of that model.

`between` asks from which factor to which the live loads are carried, also where the factor 0 isn't. With `tie` it asks
for the force of a tie, which draws the point (X, Y) of the body A and the point (U, V) of the body B together, and with
`prop` for that of a prop, which pushes the block A at (X, Y) in the direction (U, V). Then N/D of the live loads and of
the sway act as dead, none if not given. A force below 0 acts the other way. Both ends come from an exact linear
program. The script makes a factor between them dead, writes that model to CERT.toml, whose first lines say which, and
certifies its range as `range` does. If CERT.toml is MODEL, all names begin with CERT-between in place of CERT. It
prints the ends as factors of MODEL itself, and those of a tie or a prop in
units of force. Where two shares are found for an end, the last line is `carried from A to B`.

`stages` asks which stages of an order of building stand, each by the program where it answers. Stage K of those that it
refuses, and of one that collapses, has its model in CERT-K.toml and its certificate in CERT-K.cert.

`slides` asks whether any joint can slide at a factor from 0 to N/D, or to the collapse load factor if that is less or
no N/D is given. It looks at all pressing forces that balance the loads, whatever the friction. A joint can slide if in
some of them |T| is at least the friction times N, also if both are 0. The script stops at the first joint that it
finds, since one is enough for the factor to be an upper bound alone; others may slide from lower factors on, and with
`all` it asks about every joint. For each that can slide, a line says between which factors, and with which N and T at
the least of these; then come all joints at the least factor of all. Or the line is `no joint can slide`. Then the
factor is no mere upper bound: docs/use/scope.md. This has no certificate; the script checks in fractions the dual
numbers that close each of its linear programs.

`friction` asks how much friction is needed, under N/D of the live loads and of the sway, none if not given: for a share
of all coefficients with which the structure stands, and a lesser one with which it falls. They are within a thousandth
of each other, or as near as the coefficients of a file can be.

    CERT-stands.toml, CERT-stands.cert      `friction times N/D = DECIMAL stands, accepted`
    CERT-falls.toml, CERT-falls.cert        `friction times N/D = DECIMAL falls, accepted`

Coefficients that a file can't hold are rounded down where it stands, and up where it falls. `no friction is needed` if
it stands without any. It is an answer for the model, in which a joint that slides also lifts: a real structure may need
more.

`falls` asks which stones fall, under N/D of the live loads and of the sway, none if not given. The first line has
blocks that can begin to fall together while all others stay: no joint resists this motion, and the loads gain power on
it. No part of them falls alone: if any one of them is held, and all that stay, the others stand, as an exact linear
program shows, which the script checks in fractions. Then these blocks are taken away, and `then falls` has what falls
next, until the rest stands. Others may be able to begin as well. That the first line has the fewest blocks isn't
claimed, nor that a real structure falls in this order.

    CERT-K.toml, CERT-K.cert                `falls NAME .. accepted`, or `stays NAME .. accepted`: line K

With `kN FORCE`, what a force of 1 of the structure is in kN, decimals are in kN, as for tools/read.py: the force of a
tie or a prop; N and T of joints; and instead of a factor what all live loads come to at it, unless a sway acts with
them. Fractions stay what they are. The first line says so. Nothing that is printed is a length, so there is no `m`.

The status is 0 where all that was asked is accepted, also for a collapse; 2 for wrong words, 9 without a live load, 70
where something wasn't found, with the reason on standard error; or that of `contacts`, which refuses the model.

`esolver` (QSopt_ex, Debian's package qsopt-ex) solves the linear programs. The environment variable PUNGIROE names the
program, which is else the script `pungiroe` in the folder above this one. Python 3.11 or later.
docs/use/other_solvers.md explains the method.
"""
import os
import re
import shutil
import sys
from collections.abc import Callable, Iterator, Sequence
from contextlib import contextmanager, nullcontext
from dataclasses import replace
from fractions import Fraction

from masonry import console, model as models, program
from masonry.console import Answer, Ended, Progress, Refused, Words
from masonry.lp.programs import MISSING
from masonry.model import Model
from masonry.numbers import fraction, whole
from masonry.questions import results
from masonry.questions.case import PART, Case, Known
from masonry.questions.voice import Voice
from masonry.units import Given, Scale, Size, dead_of, factor_in, scale_of, with_units

# The module of a question is imported where it is asked, since that takes time.

NO_LIVE = Answer(9, "", "no live load")
MICRO = 2  # how far two shares may be apart, in millionths, if no number is given


def stand(name: str, words: list[str], progress: Progress) -> int:
    cert, = counted(words, "stand CERT", 1)
    case_of(name, cert, progress).stand()
    return 0


def load(name: str, words: list[str], progress: Progress) -> int:
    case = live_case(name, words, "load CERT [MICRO] [kN FORCE]", progress)
    return 0 if results.is_whole(case.load()) else 70


def wide_range(name: str, words: list[str], progress: Progress) -> int:
    from masonry.questions import ranges

    case = live_case(name, words, "range CERT [MICRO] [kN FORCE]", progress)
    return 0 if ranges.ranged(case) else 70


def wide_between(name: str, words: list[str], progress: Progress) -> int:
    from masonry.questions import between

    words, given = with_units(words, 1, lengths=False)
    cert, rest = words[0] if words else "", words[1:]
    kind = rest[0] if rest else ""
    if len(rest) not in {"": (0,), "tie": (7, 9), "prop": (6, 8)}.get(kind, ()):
        raise Words("the form is MODEL between CERT [tie A X Y B U V [N D]] or [prop A X Y U V [N D]] [kN FORCE]")
    _, model = accepted(name)
    scale = scale_of(models.text_of(name))
    if kind:
        question = between.of_words(model, kind, rest[1:])
    elif model.has_live():
        question = between.Question(model, dead=dead_of(models.text_of(name)))
    else:
        raise Ended(NO_LIVE)
    if given.force:
        question = question.in_kn(given.force / scale.forces)
        print(*lines_of(given, None if kind else model), sep="\n", flush=True)
    question = replace(question, scale=scale.times(question.scale))
    if is_one(name, cert.removesuffix(".cert") + ".toml"):
        cert = cert.removesuffix(".cert") + "-between.cert"
        console.said(f"solve: {console.plain(name)} is MODEL itself: what is found is in {console.plain(cert)} and "
                     f"{console.plain(cert.removesuffix('.cert'))}.toml", 0)
    return 0 if between.between(question, cert, progress) else 70


def is_one(name: str, other: str) -> bool:
    """Whether two names are those of one file."""
    return "\0" not in other and os.path.realpath(name) == os.path.realpath(other)


def wide_stages(name: str, words: list[str], progress: Progress) -> int:
    from masonry.questions import stages

    cert, order = counted(words, "stages CERT ORDER", 2)
    accepted(name)
    stages.staged(name, cert, order, progress)
    return 0


def wide_slides(name: str, words: list[str], progress: Progress) -> int:
    from masonry.questions import slides

    words, given = with_units(words, 0, lengths=False)
    every = words[-1:] == ["all"]
    words = counted(words[:-1] if every else words, "slides [N D] [all] [kN FORCE]", 0, 2)
    wanted = fraction(words[0], words[1]) if words else None
    if wanted is not None and wanted < 0:
        raise Words("N must be at least 0")
    _, model = accepted(name)
    said = slides.Said()
    if given.force:
        unit = given.force / scale_of(models.text_of(name)).forces
        said = slides.Said(float(unit), factor_in(unit, model) if model.live_loads() else Size())
        print(*lines_of(given, model), sep="\n", flush=True)
    slides.slides(name, wanted, every, progress, said)
    return 0


def live_case(name: str, words: list[str], form: str, progress: Progress) -> Case:
    """A model with a live load, where its certificate goes, and in which unit its factors are told."""
    words, given = with_units(words, 1, lengths=False)
    counted(words, form, 1, 2)
    micro = whole(words[1], "MICRO", 1, 10**6) if words[1:] else MICRO
    case = case_of(name, words[0], progress, Fraction(micro, 2 * 10**6))
    if not case.model.has_live():
        raise Ended(NO_LIVE)
    if given.force:
        case.voice = Voice(factor_in(given.force / scale_of(models.text_of(name)).forces, case.model))
        print(*lines_of(given, case.model), sep="\n", flush=True)
    return case


def lines_of(given: Given, model: Model | None) -> list[str]:
    """The first lines, if what is printed is in kN: of factors of this model, if they are printed."""
    shares = ["factors as they are, since a sway acts with the live loads"]
    return given.lines() + (shares if model and any(model.sway or ()) else [])


def counted(words: list[str], form: str, *counts: int) -> list[str]:
    """The words after a question, which must be so many."""
    if len(words) not in counts:
        raise Words(f"the form is MODEL {form}")
    return words


# What follows CERT, without its `.cert`, in the names of the files that are written.
WRITTEN = r"(-carried|-beyond|-reversed|-stands|-falls|-\d+)*\.(cert|toml)"


def spared(read: Sequence[str], cert: str) -> None:
    """Refuses a CERT with which a file that is written could take the place of one that is read, or that is no regular
    file."""
    try:
        stem, place, *names = (os.path.realpath(it) for it in (cert.removesuffix(".cert"), cert, *read))
        taken = [called for called, name in zip(("MODEL", "ORDER"), names)
                 if name == place or re.fullmatch(re.escape(stem) + WRITTEN, name) and name != stem + ".toml"]
    except ValueError:  # no name of a file, as is said when it is opened
        return
    if taken:
        raise Words(f"CERT would take the place of {taken[0]}")
    models.writable(cert)


@contextmanager
def telling_of_old(cert: str) -> Iterator[None]:
    """Says at the end that a file of this name is still the one that was there before, if it is."""
    def which() -> int | None:
        return os.stat(cert).st_ino if "\0" not in cert and os.path.isfile(cert) else None

    before = which()
    try:
        yield
    except Words:
        before = None
        raise
    finally:
        if before is not None and which() == before:
            console.said(f"solve: {console.plain(cert)} is still what it was before", 0)


def accepted(name: str) -> tuple[str, Model]:
    """A model's table of contacts, and the model. Ends with what the program says of a model that it refuses; and
    refuses one in which nothing could fall."""
    return program.answer("contacts", name), models.read(name)


def case_of(name: str, cert: str, progress: Progress, part: Fraction = PART) -> Case:
    """The case of such a model, which is asked for and read once."""
    table, model = accepted(name)
    case = Case(name, cert, progress, part=part, known=Known(table))
    case.model = model
    return case


def needed_friction(name: str, words: list[str], progress: Progress) -> int:
    from masonry.questions import frictions

    cert, *rest = counted(words, "friction CERT [N D]", 1, 3)
    acting = fraction(rest[0], rest[1]) if rest else Fraction(0)
    _, model = accepted(name)
    frictions.needed(model, scale_of(models.text_of(name)), cert.removesuffix(".cert"), acting, progress)
    return 0


def which_fall(name: str, words: list[str], progress: Progress) -> int:
    from masonry.questions import between, falls, ranges

    cert, *rest = counted(words, "falls CERT [N D]", 1, 3)
    acting = fraction(rest[0], rest[1]) if rest else Fraction(0)
    (_, model), text = accepted(name), models.text_of(name)
    made, times = between.held(model, acting)
    head = ranges.head(scale_of(text).times(Scale(Fraction(times))),
                       dead_of(text).shared(acting) if model.has_live() else dead_of(text))
    falls.falls(made, head, cert.removesuffix(".cert"), progress)
    return 0


QUESTIONS: dict[str, Callable[[str, list[str], Progress], int]]
QUESTIONS = {"stand": stand, "load": load, "range": wide_range, "between": wide_between, "stages": wide_stages,
             "slides": wide_slides, "friction": needed_friction, "falls": which_fall}
OF_CERT = "stand", "load", "range", "between"  # which write the file CERT itself


def asked(words: list[str]) -> int:
    if len(words) < 2 or words[1] not in QUESTIONS:
        raise Words(f"after MODEL stands one of {', '.join(QUESTIONS)}")
    name, question, *rest = words
    if question != "slides" and rest:
        spared([name, *rest[1:]] if question == "stages" else [name], rest[0])
    if shutil.which("esolver") is None:
        raise Refused(MISSING)
    with Progress("solve") as progress, telling_of_old(rest[0]) if rest and question in OF_CERT else nullcontext():
        return QUESTIONS[question](name, rest, progress)


def main(words: list[str]) -> int:
    return console.ran(asked, "solve", __doc__, words)


if __name__ == "__main__":
    sys.exit(main(sys.argv[1:]))
