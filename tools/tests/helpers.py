"""What several tests share: scripts on models in folders of their own, small models, and where everything is.

A test imports this module before all of the scripts, since it puts tools/ where they are found.
"""
import contextlib
import io
import random
import shutil
import sys
import unittest
from collections.abc import Callable, Sequence
from pathlib import Path
from tempfile import TemporaryDirectory

TOOLS = Path(__file__).resolve().parents[1]
TOP, EXAMPLES = TOOLS.parent, TOOLS.parent / "examples"
sys.path.insert(0, str(TOOLS))

import reference_lp
import solve
from masonry import model as models, program
from masonry.console import Answer
from masonry.lp.programs import MISSING
from masonry.model import Block, Load, Material, Model
from masonry.statics import Structure


class Asked(unittest.TestCase):
    """Scripts on models in a folder of their own."""

    def setUp(self) -> None:
        folder = TemporaryDirectory()
        self.addCleanup(folder.cleanup)
        self.folder, self.name, self.cert = folder.name, f"{folder.name}/model.toml", f"{folder.name}/answer.cert"

    def said(self, main: Callable[[list[str]], int], *words: str, status: int = 0) -> list[str]:
        """The lines that a script prints, which ends with this status."""
        out, err = io.StringIO(), io.StringIO()
        with contextlib.redirect_stdout(out), contextlib.redirect_stderr(err):
            self.assertEqual(main(list(words)), status, (words, err))
        return out.getvalue().splitlines()

    def solved(self, model: Model, *words: str, status: int = 0) -> list[str]:
        models.write(self.name, model)
        return self.said(solve.main, self.name, *words, status=status)

    def structure(self, model: Model) -> tuple[Structure, reference_lp.Statics]:
        models.write(self.name, model)
        table = program.answer("contacts", self.name)
        return Structure(model, table), reference_lp.Statics(model, models.bearings_of(table))


def needs_program() -> None:
    """For setUpModule of tests that call the program: they are skipped if it would first be built."""
    if not program.built():
        raise unittest.SkipTest(program.NOT_BUILT)


def needs_esolver() -> None:
    """The same of tests that call esolver too."""
    needs_program()
    if not shutil.which("esolver"):
        raise unittest.SkipTest(MISSING)


def example(name: str) -> Model:
    return models.read(EXAMPLES / f"{name}.toml")


def ground(left: int, right: int) -> Block:
    return Block(name="ground", material="stone", fixed=True,
                 corners=[[left, -5], [right, -5], [right, 0], [left, 0]])


def post(loads: Sequence[Load], sway: models.Point | None = None, high: int = 4) -> Model:
    """A post 2 wide on the ground, of the weight 1 an area and the friction 1."""
    block = Block(name="post", material="stone", corners=[[0, 0], [2, 0], [2, high], [0, high]])
    return Model(2 if sway else None, sway, [Material("stone", 1, [1, 1])], [], [ground(-20, 20), block], list(loads))


def at_random(draws: random.Random, live: bool = True) -> Model:
    """A pile of one to four stones of four corners, some of two beside one another, with loads, and maybe a sway."""
    pick, blocks, foot, ends = draws.randint, [], 0, (-10, 10)
    for course in range(pick(1, 4)):
        head, lean = foot + pick(3, 9), pick(-2, 2)
        places = [ends[0] + pick(0, 3), ends[1] - pick(0, 3)]
        if pick(0, 3) == 0 and places[1] - places[0] > 8:
            places.insert(1, pick(places[0] + 3, places[1] - 3))
        for number, (left, right) in enumerate(zip(places, places[1:])):
            corners = [[left, foot], [right, foot], [right + lean, head], [left + lean, head]]
            blocks.append(Block(name=f"s{course}-{number}", material="stone", corners=corners))
        foot, ends = head, (places[0] + lean, places[-1] + lean)
    loads = [Load(draws.choice(blocks).name, "dead", [pick(-9, 9), pick(0, foot)], [pick(-30, 30), pick(-30, 9)])
             for _ in range(pick(0, 2))]
    if live:
        loads.append(Load(draws.choice(blocks).name, "live", [pick(-9, 9), pick(0, foot)], [pick(-9, 9), pick(-9, 9)]))
    sway = [pick(-2, 2), pick(-1, 1)] if draws.random() < 0.3 else None
    return Model(2 if sway else None, sway, [Material("stone", pick(1, 3), [pick(2, 9), 10])], [],
                 [ground(-30, 30), *blocks], loads)


REAL = program.run


def refusing(*words: object) -> Answer:
    """The program, which refuses `load` as too wide."""
    return Answer(7, "", "wide run 1 2 3 4 divide") if words[0] == "load" else REAL(*words)
