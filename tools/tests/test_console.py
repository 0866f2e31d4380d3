#!/usr/bin/env python3
"""Tests of masonry/console.py: what scripts say while they work.

    python3 tools/tests/test_console.py
"""
import os
import subprocess
import unittest
from collections.abc import Sequence
from pathlib import Path
from tempfile import TemporaryDirectory

from helpers import TOOLS

from masonry.model import Block, Load, Material, Model, Point, printed

SQUARE = [[0, 0], [2, 0], [2, 4], [0, 4]]


def post(weight: int = 1, loads: Sequence[Load] = (), sway: Point | None = None,
         corners: Sequence[Point] = SQUARE) -> Model:
    """The standing post of examples/posts, on its ground."""
    blocks = [Block(name="ground", material="stone", fixed=True, corners=[[-10, -1], [10, -1], [10, 0], [-10, 0]]),
              Block(name="post", material="stone", corners=corners)]
    return Model(2 if sway else None, sway, [Material("stone", weight, [1, 1])], [], blocks, list(loads))


class Waits(unittest.TestCase):
    """Scripts with a program that takes a while, and then refuses."""

    def test_what_is_at_work_is_said(self) -> None:
        with TemporaryDirectory() as folder:
            slow, model, dirs = (Path(folder, name) for name in ("slow", "model.toml", "dirs"))
            slow.write_text("#!/usr/bin/env bash\nsleep 1\necho no >&2\nexit 7\n")
            slow.chmod(0o755)
            model.write_text(printed(post(loads=[Load("post", "live", [0, y], [1, 0]) for y in (4, 2)])))
            dirs.write_text("dir 1 0\n")
            told = {**os.environ, "PUNGIROE": str(slow), "PUNGIROE_PATIENCE": "0"}
            for words in ("earth M 18 30 0 0 0 4", "earth fill M 20 9", "look M", "read M D", "variant inset M 1/4",
                          "travel M 1", "travel M 1 inset 1/4", "region M 1 2 D"):
                name, *rest = words.split()
                named = [{"M": str(model), "D": str(dirs)}.get(word, word) for word in rest]
                with self.subTest(words):
                    done = subprocess.run([TOOLS / f"{name}.py", *named], env=told, capture_output=True, text=True)
                    first = done.stderr.splitlines()[0]
                    self.assertRegex(first, f"^{name}: [01] s: the ")


if __name__ == "__main__":
    unittest.main()
