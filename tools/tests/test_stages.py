#!/usr/bin/env python3
"""Tests of solve.py's `stages`, and of where certificates go. They call the program and esolver.

    python3 tools/tests/test_stages.py
"""
import contextlib
import io
import os
import tempfile
import unittest
from pathlib import Path
from unittest import mock

from helpers import Asked, EXAMPLES, example, needs_esolver as setUpModule, refusing

import solve
from masonry import model as models, program
from masonry.console import Answer
from masonry.lp import programs


class Stages(Asked):
    def test_each_stage_by_the_program_or_the_script(self) -> None:
        corbel, order = str(EXAMPLES / "walls/counterweighted-corbel.toml"), str(EXAMPLES / "orders/weight-last")
        wanted = ["stage 1 stands accepted", "stage 2 collapses accepted"]
        self.assertEqual(self.said(solve.main, corbel, "stages", self.cert, order), wanted)
        self.assertEqual(sorted(path.name for path in Path(self.folder).iterdir()), ["answer-2.cert", "answer-2.toml"])
        real = program.run

        def refusing(*words: object) -> Answer:
            return Answer(7, "", "wide") if words[0] in ("stand", "stages") else real(*words)

        with mock.patch.object(program, "run", refusing):
            self.assertEqual(self.said(solve.main, corbel, "stages", self.cert, order), wanted)
        self.assertEqual(len(list(Path(self.folder).iterdir())), 4)
        done = program.run("check", f"{self.folder}/answer-2.toml", f"{self.folder}/answer-2.cert")
        self.assertEqual(done.output, "accepted\n")

    def test_an_order_with_a_fault(self) -> None:
        Path(self.folder, "order").write_text("roof\n")
        corbel = str(EXAMPLES / "walls/counterweighted-corbel.toml")
        self.said(solve.main, corbel, "stages", self.cert, f"{self.folder}/order", status=13)


class Places(Asked):
    """Where certificates go."""

    def test_no_file_takes_the_place_of_one_that_is_read(self) -> None:
        """Nor of a stage, of a share or of the reversed model, whose names are made of CERT."""
        corbel, order = example("walls/corbel"), f"{self.folder}/model-1.toml"
        Path(order).write_text("corbel\n")
        self.solved(corbel, "between", f"{self.folder}/model.cert")
        self.assertEqual(models.read(self.name), corbel)
        self.assertTrue(Path(self.folder, "model-between.toml").exists())
        self.solved(corbel, "load", self.name, status=2)
        self.solved(corbel, "stages", f"{self.folder}/model.cert", order, status=2)
        for stem in "model-2", "model-carried", "model-reversed-beyond", "model-reversed":
            self.name = f"{self.folder}/{stem}.toml"
            self.solved(corbel, "range", f"{self.folder}/model.cert", status=2)
            self.assertEqual(models.read(self.name), corbel)

    def test_what_is_no_regular_file_stays(self) -> None:
        pipe = Path(self.folder, "pipe")
        os.mkfifo(pipe)
        for question in "stand", "load", "range", "between":
            self.solved(example("walls/corbel"), question, str(pipe), status=70)
            self.solved(example("walls/corbel"), question, self.folder, status=70)
        self.assertTrue(pipe.is_fifo())

    def test_a_file_that_is_not_written_anew_stays_and_that_is_said(self) -> None:
        """Its factor needs two shares, and no certificate of the dead loads is accepted."""
        real = program.run

        def rejecting(*words: object) -> Answer:
            return real(*words) if words[0] != "check" else Answer(1, "rejected\n", "")

        for question in "stand", "load", "range":
            Path(self.cert).write_text("of another day\n")
            models.write(self.name, example("walls/corbel"))
            err = io.StringIO()
            with mock.patch.object(program, "run", rejecting), contextlib.redirect_stderr(err):
                self.assertEqual(solve.main([self.name, question, self.cert]), 70)
            self.assertEqual(Path(self.cert).read_text(), "of another day\n")
            self.assertIn(f"solve: {self.cert} is still what it was before", err.getvalue())
            self.assertEqual(sorted(it.name for it in Path(self.folder).glob(".*")), [])

    def test_a_folder_that_is_missing_is_not_told_as_a_missing_esolver(self) -> None:
        models.write(self.name, example("walls/corbel"))
        for folder, wanted in (f"{self.folder}/nowhere", "nowhere"), ("/proc", "denied|No such file|Read-only"):
            err = io.StringIO()
            with mock.patch.object(tempfile, "tempdir", folder), contextlib.redirect_stderr(err):
                self.assertEqual(solve.main([self.name, "stand", self.cert]), 70)
            self.assertRegex(err.getvalue(), wanted)
            self.assertNotIn("installed", err.getvalue())
        for there, said in ("/usr/bin/esolver", "^esolver: No such file"), (None, "isn't installed"):
            with mock.patch("subprocess.Popen", side_effect=FileNotFoundError(2, "No such file")), \
                    mock.patch("shutil.which", return_value=there), self.assertRaisesRegex(programs.NoAnswer, said):
                programs.asked("", [])


if __name__ == "__main__":
    unittest.main()
