#!/usr/bin/env python3
"""5,000 command lines and models with mistakes in them, of a fixed seed, over all scripts that take models.

    python3 tools/tests/test_words.py

Whatever is asked, a script ends with a status, and where that is 2 or 70, standard error says in a line what is wrong.
No exception gets out. The scripts run in this process; the program and `esolver` are called once for the same words and
files.
"""
import contextlib
import importlib
import io
import os
import random
import re
import signal
import unittest
from pathlib import Path
from tempfile import TemporaryDirectory
from types import FrameType
from unittest import mock

from helpers import EXAMPLES, needs_esolver as setUpModule

from masonry import console, program
from masonry.console import Answer
from masonry.lp import programs

LINES = 4000
MODELS = 1000
SECONDS = 30  # that one of them may take

# Words that the scripts take. M, N, A, O, D, S and C are a model, one without a sway, an arch, an order, directions,
# measured corners and a certificate; T is a file to write.
FORMS = """
solve M stand T
solve M load T 2000
solve A load T kN 0.5
solve M range T
solve M between T
solve M between T tie post 0 4 ground -5 0 1 2
solve M between T prop post 0 4 1 0
solve M stages T O
solve M falls T 1 3
solve M slides
solve M slides 1 2
solve A slides 1 2 all kN 0.001
travel M 1
travel M 1,2 -1 0 1
travel M 1 inset 1/10 1
travel A 1 -84 kN 0.1 m 0.01
travel M 1 faces 2
travel A spread 200 50 20 1/2 0 10
region M 1 2 D
region M 1 2,sway D kN 0.5 csv
region M 1 2 D from 1/9 0 sector
read M C
read M C 0.001
read M C 0.001 kN 0.01 m 0.1
variant reversed M
variant stage M O 1
variant direction M 1 2 3 -4
variant share M 1 2
variant without M post
variant with M dead post 1 4 0 -1
variant inset M 1/4
variant short A 2
look M
look M 2 0.5
earth N 2 30 20 0 0 5
earth N 2 30 20 0 0 5 live 3 dead
earth M 2 30 20 0 0 5 quake 1 10
earth fill A 2 200
earth fill A 2 200 push 1/3 spread 5 0 4 1/2 live
survey S 0.1 0.02 short material stone 1 7 10 fixed ground
draw arch 6 400 short
draw ring 7 100 20 150
draw sway 1 0 wall 2 2 5
draw coursed 2 3 1 2
draw joint 1 3 rubble 2 3 1
draw bonded 2 3 1 8
draw facade 3
draw half 4 100 20
""".split("\n")[1:-1]

ODD = ("", "-1", "0", "1", "7", "-0", "1.5", "1e9", "1e400", "nan", "inf", "\u00b2", "\u0663", "x", "post", "ground",
       "sway", "tie", "M", "T", "A", "D", "9" * 20, "9" * 5000, "-" * 3, "1/0", "0/1", "1/2", ",", "1,", "1,1", "help",
       "a b", "\n", "\0", "\ud800", "../..", "m", "1000000", "-1000000", "0.000001", "csv", "kN", "live")
NUMBERS = ("0", "-1", "1", "2.5", "1000001", "-1000000", "10000000000", "9" * 40, "true", '"1"', "[]", "1e3", "nan")
TEXTS = ("", "[", "]", '"', "=", "\n", "[[block]]\n", "[[load]]\n", "fixed = true\n", "sway = [1, 0]\n", "\u00e9", "\0",
         "#")

MODEL = """version = 2
sway = [1, 0]

[[material]]
name = "stone"
weight = 1
friction = [1, 1]

[[block]]
name = "ground"
material = "stone"
fixed = true
corners = [[-10, -1], [10, -1], [10, 0], [-10, 0]]

[[block]]
name = "post"
material = "stone"
corners = [[0, 0], [2, 0], [2, 4], [0, 4]]

[[block]]
name = "cap"
material = "stone"
corners = [[0, 4], [2, 4], [2, 5], [0, 5]]

[[load]]
block = "post"
kind = "live"
at = [0, 4]
force = [1, 0]

[[load]]
block = "cap"
kind = "live"
at = [1, 5]
force = [0, -1]
"""

CORNERS = "block,material,x,y\n" + "".join(f"{block},stone,{x},{y}\n" for block, corners in (
    ("ground", ((-1, -0.1), (1, -0.1), (1, 0), (-1, 0))), ("post", ((0, 0), (0.2, 0), (0.2, 0.4), (0.01, 0.4))))
    for x, y in corners)


class TooLong(Exception):
    """A command line took too long."""


def alarmed(number: int, frame: FrameType | None) -> None:
    raise TooLong(f"more than {SECONDS} seconds")


class Mistakes(unittest.TestCase):
    def setUp(self) -> None:
        folder = TemporaryDirectory()
        self.addCleanup(folder.cleanup)
        self.folder = Path(folder.name)
        self.answers: dict[tuple[bytes | str, ...], Answer] = {}
        self.solved: dict[tuple[str, tuple[str, ...]], list[str]] = {}
        names = "model.toml", "still.toml", "arch.toml", "order", "dirs", "corners.csv", "model.cert", "out.cert"
        self.files = {letter: str(self.folder / name) for letter, name in zip("MNAODSCT", names)}
        self.fresh()
        signal.signal(signal.SIGALRM, alarmed)
        for module, name, stand_in in ((program, "run", self.program), (programs, "asked", self.asked)):
            patch = mock.patch.object(module, name, stand_in)
            patch.start()
            self.addCleanup(patch.stop)

    def fresh(self) -> None:
        """The files as they should be."""
        written = {"M": MODEL, "N": MODEL.partition("\n\n")[2], "O": "post\ncap\n", "S": CORNERS,
                   "D": "dir 1 0\ndir 1 1\ndir -3 2\n", "A": (EXAMPLES / "arches/footbridge.toml").read_text()}
        for letter, text in written.items():
            Path(self.files[letter]).write_text(text)
        Path(self.files["C"]).write_text(REAL_PROGRAM("load", self.files["M"]).output)

    # The program and esolver, asked once.

    def program(self, *words: object) -> Answer:
        key = tuple(self.contents(str(word)) for word in words)
        if key not in self.answers:
            self.answers[key] = REAL_PROGRAM(*words)
        return self.answers[key]

    def contents(self, word: str) -> bytes | str:
        if "/" not in word or "\0" in word:
            return word
        try:
            return Path(word).read_bytes()
        except (OSError, ValueError):
            return word

    def asked(self, text: str, way: list[str]) -> list[str]:
        key = text, tuple(way)
        if key not in self.solved:
            self.solved[key] = REAL_ASKED(text, way)
        return self.solved[key]

    # What is asked

    def words(self, form: str) -> list[str]:
        return [self.files.get(word, word) for word in form.split()]

    def run_script(self, words: list[str]) -> tuple[int, str]:
        """The status and what stands on standard error."""
        script, err = importlib.import_module(words[0]), io.StringIO()
        with contextlib.redirect_stdout(io.StringIO()), contextlib.redirect_stderr(err):
            signal.alarm(SECONDS)
            try:
                status = console.ran(script.main, words[0], script.__doc__, words[1:])
            finally:
                signal.alarm(0)
        return status, err.getvalue()

    def tried(self, words: list[str], what: str) -> int:
        try:
            status, err = self.run_script(words)
        except BaseException as fault:
            raise AssertionError(f"{words!r}\n{what}") from fault
        lines = [line for line in err.splitlines() if not re.match(r"\S*out\S*: \d+ bits|\w+: \d+ s:", line)]
        if status == 2 and len(words) > 1:
            self.assertEqual(len(lines), 1, (words, err))
        if status == 70:
            self.assertTrue(lines and lines[-1].startswith(words[0]), (words, err))
        self.assertTrue(0 <= status <= 70, words)
        return status

    # Mistakes

    def wrong_words(self, draws: random.Random) -> list[str]:
        words = self.words(draws.choice(FORMS))
        for _ in range(draws.choice((1, 1, 1, 2, 3))):
            place = draws.randrange(1, len(words) + 1)
            change = draws.randrange(5)
            odd = draws.choice(ODD)
            if change == 0 and place < len(words):
                del words[place]
            elif change == 1:
                words.insert(place, self.files.get(odd, odd))
            elif change == 2 and place < len(words):
                words[place], words[-1] = words[-1], words[place]
            else:
                words[place:place + 1] = [self.files.get(odd, odd)]
        return words

    def wrong_text(self, draws: random.Random, text: str) -> str:
        for _ in range(draws.choice((1, 1, 2, 3))):
            spots = [found.span() for found in re.finditer(r"-?\d+", text)]
            start, end = draws.choice(spots) if spots else (0, 0)
            place, change = draws.randrange(len(text) + 1), draws.randrange(5)
            if change < 2:
                text = text[:start] + draws.choice(NUMBERS) + text[end:]
            elif change == 2:
                text = text[:place] + text[place + draws.choice((1, 5, 40)):]
            elif change == 3:
                text = text[:place] + draws.choice(TEXTS) + text[place:]
            else:
                lines = text.splitlines(keepends=True)
                number = draws.randrange(len(lines) or 1)
                lines[number:number + 1] = lines[number:number + 1] * draws.choice((0, 2))
                text = "".join(lines)
        return text

    def test_each_form_is_one(self) -> None:
        for form in FORMS:
            self.fresh()
            self.assertIn(self.tried(self.words(form), "as it should be"), (0, 1), form)

    def test_an_empty_file_is_refused(self) -> None:
        """What a script leaves that refuses, in `tools/survey.py .. >m.toml`, is judged by no other."""
        for form in FORMS:
            words = self.words(form)
            if {self.files[letter] for letter in "MNA"}.isdisjoint(words):
                continue
            self.fresh()
            for letter in "MNA":
                Path(self.files[letter]).write_text("")
            # No load has a number, and a certificate isn't one of this model: these the program refuses, in its words.
            refused = {"region M 1 2 D": 15}.get(form, 1 if words[0] == "read" else 70)
            self.assertEqual(self.tried(words, "an empty file"), refused, form)

    def test_command_lines(self) -> None:
        draws, statuses = random.Random(61), set()
        for number in range(LINES):
            if number % 100 == 0:
                self.fresh()
            statuses.add(self.tried(self.wrong_words(draws), "good files"))
        self.assertTrue({0, 2, 70} < statuses, statuses)

    def test_files(self) -> None:
        draws, statuses = random.Random(62), set()
        for _ in range(MODELS):
            self.fresh()
            words = self.words(draws.choice(FORMS))
            letters = [letter for letter, name in self.files.items() if name in words and letter != "T"]
            if not letters:
                continue
            path = Path(self.files[draws.choice(letters)])
            text = self.wrong_text(draws, path.read_text())
            path.write_text(text)
            statuses.add(self.tried(words, text))
        self.assertTrue({0, 5, 70} < statuses, statuses)

    def run(self, result: unittest.TestResult | None = None) -> unittest.TestResult | None:
        """In a folder of its own: some of the names that scripts write to are odd."""
        before = os.getcwd()
        with TemporaryDirectory() as folder:
            os.chdir(folder)
            try:
                return super().run(result)
            finally:
                os.chdir(before)


REAL_PROGRAM, REAL_ASKED = program.run, programs.asked

if __name__ == "__main__":
    unittest.main()
