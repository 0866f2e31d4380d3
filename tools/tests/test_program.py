#!/usr/bin/env python3
"""Tests of masonry/program.py: what is said before the program is built.

    python3 tools/tests/test_program.py
"""
import contextlib
import io
import unittest
from pathlib import Path
from tempfile import TemporaryDirectory
from unittest import mock

import helpers  # puts tools/ where modules are found

from masonry import program
from masonry.console import Answer


class Building(unittest.TestCase):
    def test_a_program_of_the_environment_is_built(self) -> None:
        with mock.patch.object(program, "PROGRAM", "/bin/true"):
            self.assertTrue(program.built())

    def test_the_first_call_says_that_the_program_is_built(self) -> None:
        with TemporaryDirectory() as folder:
            script, err = Path(folder, "pungiroe"), io.StringIO()
            script.write_text("#!/usr/bin/env bash\n[ \"${PUNGIROE_BUILD:-}\" = why ] && echo \"isn't built\" && exit\n"
                              "echo 'a line of the build' >&2\necho no >&2\nexit 3\n")
            script.chmod(0o755)
            program.tell_of_build.cache_clear()
            self.addCleanup(program.tell_of_build.cache_clear)
            with mock.patch.object(program, "SCRIPT", script), contextlib.redirect_stderr(err), \
                    mock.patch.object(program, "PROGRAM", str(script)):
                self.assertFalse(program.built())
                answers = [program.run("stand"), program.run("stand")]
        self.assertEqual(answers, [Answer(3, "", "no")] * 2)
        line, = err.getvalue().splitlines()
        self.assertTrue(line.startswith("pungiroe: the program isn't built, so it is proved and built first"), line)


if __name__ == "__main__":
    unittest.main()
