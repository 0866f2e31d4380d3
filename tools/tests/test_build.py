#!/usr/bin/env python3
"""Tests of build.py, on a folder of three small crates and a kit whose commands only write down how they were called.

    python3 tools/tests/test_build.py

No prover is run.
"""
import os
import shutil
import unittest
from collections.abc import Callable
from contextlib import redirect_stderr
from io import StringIO
from pathlib import Path
from tempfile import TemporaryDirectory
from unittest import mock

import helpers  # puts tools/ where modules are found

from upkeep import build
from upkeep.build import Clone, PROGRAM

HELP = "--crate-name --extern -L --antt-project --logic-built --jobs --incremental --toolchain -o, --statements"

# A prover that writes down the crate that it proves, and makes a library or an object with what it read. It refuses a
# crate in which a file says so, and edits one in which a file says so.
RATTLE = r"""#!/bin/bash
if [ "$2" = --help ]; then cat "$(dirname "$0")/help"; exit 0; fi
words=" $* "
name=${words#* --crate-name }; name=${name%% *}
made=${words##* -o }; made=${made%% *}
echo "$name $*" >>"$CALLS"
grep -q refuse src/* && exit 1
case $made in *.o) cat src/* >"$made" ;; *) mkdir -p "$made"; cat src/* >"$made/lib" ;; esac
if grep -q edit src/*; then echo "// once" >src/lib.rt; fi
exit 0
"""
LINK = r"""#!/bin/bash
echo "link $*" >>"$CALLS"
while [ "$1" != -o ]; do shift; done
printf '#!/bin/bash\necho words\nexit 2\n' >"$2"
chmod +x "$2"
"""
RT = r"""#!/bin/bash
name=$(basename "$PWD")
echo "rt $1 $name" >>"$CALLS"
grep -q refuse src/* && exit 1
if [ "$1" = run ]; then
    grep -q silent src/* && echo silent
    printf '#!/bin/bash\necho %s >&2\nexit 2\n' "$(grep -q silent src/* || echo words)" >"out/$name"
    chmod +x "out/$name"
    exec "out/$name"
fi
"""


class Folder:
    """Three crates, low, middle and the program, and a kit."""

    def __init__(self, room: str, depth: str = "clone") -> None:
        self.room, self.top, self.kit = Path(room), Path(room, depth), Path(room, "kit")
        self.calls = Path(room, "calls")
        for name, text in (("low", "low"), ("middle", "middle"), (PROGRAM, "program")):
            (self.top / "crates" / name / "src").mkdir(parents=True)
            self.write(name, text)
        lines = "# a comment", f"{PROGRAM}: middle low thiserror", "low:", "middle: low"
        (self.top / "crates.txt").write_text("\n".join(lines) + "\n", "ascii")
        for file in build.FILES:
            (self.kit / file).parent.mkdir(parents=True, exist_ok=True)
            (self.kit / file).write_text("here", "ascii")
        for called, text in (("rattle", RATTLE), ("rattle-link", LINK), ("rt", RT)):
            (self.kit / "bin" / called).write_text(text, "ascii")
            (self.kit / "bin" / called).chmod(0o755)
        (self.kit / "bin/help").write_text(HELP, "ascii")
        (self.kit / "KIT-ID").write_text(build.KITS[0] + "\n", "ascii")

    def write(self, name: str, text: str) -> None:
        root = "main.rt" if name == PROGRAM else "lib.rt"
        (self.top / "crates" / name / "src" / root).write_text(text, "ascii")

    def clone(self) -> Clone:
        return Clone(str(self.top), str(self.kit))

    def built(self, asked: str = "") -> tuple[bool, list[str], str]:
        """Whether a build goes well, the commands that it called, and what it said."""
        self.calls.write_text("", "ascii")
        clone, said = self.clone(), StringIO()
        os.makedirs(os.path.dirname(clone.log()), exist_ok=True)
        with open(clone.log(), "w", encoding="utf-8") as log, redirect_stderr(said), \
                mock.patch.dict(os.environ, {"CALLS": str(self.calls)}):
            well = build.built(clone, log, asked)
        return well, self.calls.read_text("ascii").splitlines(), said.getvalue()

    def proved(self) -> list[str]:
        """The crates that a build proves, in order."""
        well, calls, _ = self.built()
        assert well
        return [call.split()[0] for call in calls]


class Builds(unittest.TestCase):
    def setUp(self) -> None:
        room = TemporaryDirectory()
        self.addCleanup(room.cleanup)
        self.folder = Folder(room.name)

    def test_what_is_listed(self) -> None:
        clone = self.folder.clone()
        self.assertEqual(clone.listed(), {PROGRAM: ["middle", "low", "thiserror"], "low": [], "middle": ["low"]})
        self.assertEqual(clone.below(PROGRAM), ["low", "middle"])
        self.assertEqual((clone.below("middle"), clone.below("low")), (["low"], []))

    def test_the_lowest_comes_first_and_what_is_made_is_not_made_again(self) -> None:
        self.assertEqual(self.folder.proved(), ["low", "middle", PROGRAM, "link"])
        self.assertEqual(self.folder.proved(), [PROGRAM, "link"])
        self.assertTrue(os.access(self.folder.clone().program(), os.X_OK))

    def test_a_change_makes_what_stands_on_it(self) -> None:
        self.folder.proved()
        self.folder.write("middle", "another")
        self.assertEqual(self.folder.proved(), ["middle", PROGRAM, "link"])
        self.folder.write("low", "another")
        self.assertEqual(self.folder.proved(), ["low", "middle", PROGRAM, "link"])
        (self.folder.top / "crates/low/proofs").mkdir()
        self.assertEqual(self.folder.proved(), [PROGRAM, "link"])
        (self.folder.top / "crates/low/proofs/Lib.antt").write_text("", "ascii")
        self.assertEqual(self.folder.proved(), ["low", "middle", PROGRAM, "link"])
        listed = self.folder.top / "crates.txt"
        listed.write_text(listed.read_text("ascii").replace("middle: low", "middle: low either"), "ascii")
        self.assertEqual(self.folder.proved(), ["middle", PROGRAM, "link"])
        (self.folder.kit / "WHAT").write_text("another", "ascii")
        self.assertEqual(self.folder.proved(), ["low", "middle", PROGRAM, "link"])

    def test_the_sum_is_the_same_wherever_the_clone_and_the_kit_lie(self) -> None:
        with TemporaryDirectory() as room:
            other = Folder(room, "a/deeper/clone")
            shutil.move(other.kit, Path(room, "a", "kit"))
            other.kit = Path(room, "a", "kit")
            sums = [folder.clone().sum_of(PROGRAM) for folder in (self.folder, other)]
        self.assertEqual(sums[0], sums[1])

    def test_a_copy_at_another_depth_is_not_proved_again(self) -> None:
        self.folder.proved()
        deeper = self.folder.room / "a/b/c"
        shutil.copytree(self.folder.top, deeper)
        self.folder.top = deeper
        self.assertEqual(self.folder.proved(), [PROGRAM, "link"])

    def test_the_sum_tells_names_from_contents(self) -> None:
        sums = set()
        for name, text in (("a", "bc"), ("ab", "c"), ("a", "b"), ("b", "bc")):
            file = self.folder.top / f"crates/low/src/{name}.rt"
            file.write_text(text, "ascii")
            sums.add(self.folder.clone().sum_of("low"))
            file.unlink()
        self.assertEqual(len(sums), 4)

    def test_what_counts_as_made(self) -> None:
        self.folder.proved()
        clone = self.folder.clone()
        library, mark = Path(clone.library("low")), Path(clone.library("low")).parent / "sum"
        self.assertTrue(clone.is_made("low"))
        changes: list[Callable[[], object]]
        changes = [lambda: mark.write_text("", "ascii"), mark.unlink, lambda: shutil.rmtree(library)]
        for change in changes:
            change()
            self.assertFalse(self.folder.clone().is_made("low"))
            self.assertEqual(self.folder.proved(), ["low", PROGRAM, "link"])

    def test_a_crate_that_is_refused_ends_the_build(self) -> None:
        self.folder.write("middle", "refuse")
        well, calls, _ = self.folder.built()
        self.assertEqual((well, [call.split()[0] for call in calls]), (False, ["low", "middle"]))
        self.assertFalse(self.folder.clone().is_made("middle"))
        self.assertTrue(self.folder.clone().is_made("low"))
        self.folder.write("middle", "middle")
        self.assertEqual(self.folder.proved(), ["middle", PROGRAM, "link"])
        self.folder.write(PROGRAM, "refuse")
        self.assertFalse(self.folder.built()[0])

    def test_a_crate_that_is_refused_after_it_was_made_is_no_longer_made(self) -> None:
        self.folder.proved()
        self.folder.write("low", "refuse")
        self.assertFalse(self.folder.built()[0])
        self.assertFalse(self.folder.clone().is_made("low"))

    def test_an_edit_while_a_crate_is_proved_is_not_taken_for_proved(self) -> None:
        """The prover of `low` edits its file. The library is of the text before."""
        self.folder.write("low", "edit")
        well, _, said = self.folder.built()
        self.assertFalse(well)
        self.assertIn("a source has changed in the meantime", said)
        self.assertFalse(self.folder.clone().is_made("low"))
        self.assertFalse(os.path.exists(self.folder.clone().program()))
        self.assertEqual(self.folder.proved(), ["low", "middle", PROGRAM, "link"])

    def test_words_of_the_prover(self) -> None:
        clone = self.folder.clone()
        given = clone.words(PROGRAM, 1)
        self.assertEqual(given[:3], ["--crate-name", PROGRAM, "src/main.rt"])
        externs = [given[k + 1].split("=")[0] for k, word in enumerate(given) if word == "--extern"]
        self.assertEqual(externs, ["std", "thiserror", "middle", "low"])
        self.assertIn(f"dependency={self.folder.top}/crates/low/out/library", given)
        well, calls, _ = self.folder.built()
        self.assertIn("--statements", calls[0])
        (self.folder.top / "crates/low/out/incremental").mkdir(parents=True)
        self.folder.write("low", "another")
        calls = self.folder.built()[1]
        self.assertIn("--incremental out/incremental", calls[0])
        self.assertNotIn("--statements", calls[0])
        self.assertIn("--statements", calls[1])


class Orders(unittest.TestCase):
    def test_work_behind_a_crate(self) -> None:
        with TemporaryDirectory() as room:
            folder = Folder(room)
            clone, base = folder.clone(), build.LEAST_WORK
            behind = clone.work_behind(["low", "middle", PROGRAM])
        works = base + len("program"), base + len("middle"), base + len("low")
        self.assertEqual([behind[PROGRAM], behind["middle"], behind["low"]], [works[0], sum(works[:2]), sum(works)])

    def test_the_crate_with_the_most_work_behind_it_begins_first(self) -> None:
        with TemporaryDirectory() as room, mock.patch.object(build, "places", lambda: 1):
            folder = Folder(room)
            (folder.top / "crates/great/src").mkdir(parents=True)
            folder.write("great", "x" * 20_000)
            listed = folder.top / "crates.txt"
            listed.write_text("great:\n" + listed.read_text("ascii").replace("middle low", "middle low great"), "ascii")
            well, _, said = folder.built()
        self.assertTrue(well)
        self.assertEqual([line.split(": ")[-1] for line in said.splitlines()[2:]], ["great", "low", "middle", PROGRAM])

    def test_provers_are_shared_out(self) -> None:
        """Four provers: two to an urgent crate and one to each other one; none beyond that, but for urgent ones."""
        behind = {"a": 100, "b": 50, "c": 40, "d": 10}
        self.assertEqual(list(build.shared_out(["a", "b", "c", "d"], 4, behind, 100)), [("a", 2), ("b", 1), ("c", 1)])
        self.assertEqual(list(build.shared_out(["b"], 4, behind, 100)), [("b", 4)])
        self.assertEqual(list(build.shared_out(["a"], 0, behind, 100)), [("a", 2)])
        self.assertEqual(list(build.shared_out(["b"], 0, behind, 100)), [])


class ByRt(unittest.TestCase):
    WANTED = ["rt lib low", "rt lib middle", f"rt run {PROGRAM}"]

    def setUp(self) -> None:
        room = TemporaryDirectory()
        self.addCleanup(room.cleanup)
        self.folder = Folder(room.name)

    def test_an_unknown_kit(self) -> None:
        (self.folder.kit / "KIT-ID").write_text("rattle-kit-14a logic 0\n", "ascii")
        well, calls, said = self.folder.built()
        self.assertEqual((well, calls), (True, self.WANTED))
        self.assertIn("rt's own commands: the kit is rattle-kit-14a logic 0, with which this wasn't run before", said)
        self.assertEqual(self.folder.built("prover")[1][0].split()[0], "low")
        (self.folder.kit / "KIT-ID").unlink()
        self.assertEqual(self.folder.built()[1], self.WANTED)

    def test_a_word_that_the_prover_does_not_know(self) -> None:
        for word in build.WORDS:
            kept = [it for it in HELP.replace(",", "").split() if it != word]
            (self.folder.kit / "bin/help").write_text(" ".join(kept), "ascii")
            for asked in "", "prover":
                _, calls, said = self.folder.built(asked)
                self.assertEqual(calls, self.WANTED)
                self.assertIn(f"the prover doesn't know {word}", said)

    def test_a_file_that_the_kit_has_not(self) -> None:
        (self.folder.kit / "c/libos_c.a").unlink()
        _, calls, said = self.folder.built()
        self.assertEqual(calls, self.WANTED)
        self.assertIn("the kit has no c/libos_c.a", said)

    def test_it_can_be_asked_for(self) -> None:
        well, calls, said = self.folder.built("rt")
        self.assertEqual((well, calls), (True, self.WANTED))
        self.assertIn("by rt's own commands: BUILD_BY=rt", said)

    def test_what_rt_refuses_ends_the_build(self) -> None:
        for name, calls in ("low", 1), ("middle", 2), (PROGRAM, 3):
            self.folder.write(name, "refuse")
            well, found, _ = self.folder.built("rt")
            self.assertEqual((well, len(found)), (False, calls))
            self.folder.write(name, "well")

    def test_a_program_that_does_not_answer_is_not_built(self) -> None:
        self.folder.write(PROGRAM, "silent")
        self.assertFalse(self.folder.built("rt")[0])

    def test_another_word_is_told(self) -> None:
        said = StringIO()
        with mock.patch.dict(os.environ, {"BUILD_BY": "hand"}), redirect_stderr(said):
            self.assertEqual(build.main(), 2)
        self.assertEqual(said.getvalue(), "build: BUILD_BY may be rt or prover\n")


if __name__ == "__main__":
    unittest.main()
