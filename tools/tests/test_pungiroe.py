#!/usr/bin/env python3
"""Tests of the script pungiroe: that it never starts a program that isn't made from the sources that are there; and
that it says, without building, whether it would.

    python3 tools/tests/test_pungiroe.py

Each test has a clone of its own, with two small crates, and a build that makes a program of its source's text. So what
a call prints shows of which sources the program is made. Before a test begins, more than a second has passed since the
last change, so that the call relies on the time of the stamp's list.
"""
import os
import shutil
import subprocess
import time
import unittest
from collections.abc import Callable
from pathlib import Path
from tempfile import TemporaryDirectory
from unittest import mock

from helpers import TOP

from masonry import program

SOURCE, PROOF = "crates/pungiroe/src/main.rt", "crates/stack_low/proofs/Sums.antt"
PROGRAM = "crates/pungiroe/out/pungiroe"
FILES = {
    "crates.txt": "stack_low:\npungiroe: stack_low\n",
    SOURCE: "first",
    "crates/stack_low/src/lib.rt": "low",
    "crates/stack_low/specs/Lib.antt": "lib",
    PROOF: "sums",
    "crates/stack_low/proofs/sums/total/Answers.antt": "answers",
    "tools/upkeep/build.py": f"""#!/usr/bin/env bash
echo built >>builds
[ ! -e failing ] || exit 1
[ ! -e during ] || . ./during
mkdir -p crates/pungiroe/out
rm -f {PROGRAM}
printf '#!/usr/bin/env bash\\necho "$(printf %s "{{}}")" "$PWD" "$@"\\nexit 3\\n' >{PROGRAM}.new
sed "s/{{}}/$(cat {SOURCE})/" {PROGRAM}.new >{PROGRAM}
rm {PROGRAM}.new
chmod +x {PROGRAM}
""",
    # What reads the sources, so that a test sees whether they are read.
    "bin/sha256sum": "#!/usr/bin/env bash\necho read >>\"$SUMS\"\nexec /usr/bin/sha256sum \"$@\"\n",
}


class Clone:
    """A clone in a folder of its own, whose program is built, and whose stamp is a while old."""

    def __init__(self, top: Path) -> None:
        self.top = top
        for name, text in FILES.items():
            self.write(name, text)
        for name in ("tools/upkeep/build.py", "bin/sha256sum"):
            (top / name).chmod(0o755)
        shutil.copy(TOP / "pungiroe", top / "pungiroe")

    def write(self, name: str, text: str) -> None:
        path = self.top / name
        path.parent.mkdir(parents=True, exist_ok=True)
        path.write_text(text)

    def call(self, *words: str, cwd: Path | None = None, script: str | None = None,
             named: str | None = None) -> tuple[int, str]:
        """The status, and what is written to standard output. PUNGIROE names this program, or none."""
        path = f"{self.top}/bin:{os.environ['PATH']}"
        env = {name: value for name, value in os.environ.items() if name != "PUNGIROE"}
        env.update(PATH=path, SUMS=f"{self.top}/sums", **({"PUNGIROE": named} if named else {}))
        ran = subprocess.run([script or str(self.top / "pungiroe"), *words], cwd=cwd or self.top, env=env, text=True,
                             stdout=subprocess.PIPE, stderr=subprocess.PIPE)
        return ran.returncode, ran.stdout.strip()

    def lines(self, name: str) -> int:
        path = self.top / name
        return len(path.read_text().splitlines()) if path.exists() else 0


class Calls(unittest.TestCase):
    """A clone for each test. All of them are made and called before the first test, and again a while later."""
    folder: TemporaryDirectory[str]
    clones: dict[str, Clone]

    @classmethod
    def setUpClass(cls) -> None:
        cls.folder = TemporaryDirectory()
        names = unittest.defaultTestLoader.getTestCaseNames(cls)
        cls.clones = {name: Clone(Path(cls.folder.name, name)) for name in names}
        for clone in cls.clones.values():
            clone.call()
        time.sleep(2.1)
        for clone in cls.clones.values():
            clone.call()
            (clone.top / "sums").unlink()

    @classmethod
    def tearDownClass(cls) -> None:
        cls.folder.cleanup()

    def setUp(self) -> None:
        self.clone = self.clones[self._testMethodName]
        self.top = self.clone.top

    def then(self, text: str, builds: int) -> None:
        """The next call runs a program of this text, and so many builds have been made in all. A look before it says
        whether it builds."""
        wanted = self.clone.lines("builds") < builds
        self.assertEqual(self.why() != "", wanted)
        status, printed = self.clone.call("word", "two")
        self.assertEqual((status, printed), (3, f"{text} {self.top} word two"))
        self.assertEqual(self.clone.lines("builds"), builds)

    def why(self) -> str:
        """Why a call would build, by the script's own words to the others."""
        script = self.top / "pungiroe"
        with mock.patch.object(program, "SCRIPT", script), mock.patch.object(program, "PROGRAM", str(script)):
            return program.why_due()

    def replaced(self, name: str, change: Callable[[Path], object], text: str = "first", builds: int = 2) -> None:
        """After this change of a file, the program is built again, and then not again."""
        change(self.top / name)
        self.then(text, builds)
        self.then(text, builds)

    def test_nothing_is_read_if_nothing_changed(self) -> None:
        self.then("first", 1)
        self.assertEqual(self.clone.lines("sums"), 0)

    def test_why_the_program_is_built(self) -> None:
        (self.top / SOURCE).write_text("second")
        self.assertEqual(self.why(), "isn't made from the sources that are there")
        (self.top / PROGRAM).unlink()
        self.assertEqual(self.why(), "isn't built")

    def test_the_program_is_missing(self) -> None:
        self.replaced(PROGRAM, Path.unlink)

    def test_a_source_is_changed_in_place(self) -> None:
        self.replaced(SOURCE, lambda path: path.write_text("second"), "second")

    def test_a_source_is_changed_and_given_its_old_time(self) -> None:
        def change(path: Path) -> None:
            was = path.stat()
            path.write_text("other")
            os.utime(path, ns=(was.st_atime_ns, was.st_mtime_ns))
        self.replaced(SOURCE, change, "other")

    def test_a_source_is_replaced_by_an_older_file(self) -> None:
        def change(path: Path) -> None:
            older = self.top / "older"
            older.write_text("older")
            os.utime(older, (1, 1))
            older.rename(path)
        self.replaced(SOURCE, change, "older")

    def test_a_source_is_added(self) -> None:
        self.replaced("crates/stack_low/src/more.rt", lambda path: path.write_text("more"))

    def test_a_folder_is_added(self) -> None:
        def change(path: Path) -> None:
            path.parent.mkdir()
            path.write_text("more")
        self.replaced("crates/stack_low/src/more/one.rt", change)

    def test_a_source_is_removed(self) -> None:
        self.replaced(PROOF, Path.unlink)

    def test_a_source_is_renamed(self) -> None:
        self.replaced(PROOF, lambda path: path.rename(path.with_name("Totals.antt")))

    def test_the_list_of_crates_is_changed(self) -> None:
        self.replaced("crates.txt", lambda path: path.write_text("pungiroe:\n"))

    def test_a_crate_is_added(self) -> None:
        def change(path: Path) -> None:
            path.mkdir(parents=True)
            (path / "lib.rt").write_text("new")
        self.replaced("crates/stack_new/src", change)

    def test_a_source_is_touched(self) -> None:
        self.replaced(SOURCE, Path.touch, builds=1)

    def test_a_source_is_changed_back(self) -> None:
        (self.top / SOURCE).write_text("second")
        (self.top / SOURCE).write_text("first")
        self.then("first", 1)

    def test_the_proof_of_one_function_is_changed(self) -> None:
        self.replaced("crates/stack_low/proofs/sums/total/Answers.antt", lambda path: path.write_text(""),
                      builds=1)

    def test_a_source_is_changed_while_the_program_is_built(self) -> None:
        self.clone.write("during", f"rm during; sleep 1.1; printf third >{SOURCE}.new; mv {SOURCE}.new {SOURCE}")
        (self.top / SOURCE).write_text("second")
        self.then("third", 2)
        # That build began before the change: it may have read either.
        self.then("third", 3)
        self.then("third", 3)

    def another(self) -> None:
        """The program is that of another build, of the same size."""
        program = self.top / PROGRAM
        program.write_text(program.read_text().replace("first", "other"))

    def test_the_program_is_made_by_another_build(self) -> None:
        self.another()
        self.then("first", 2)
        (self.top / SOURCE).write_text("second")
        self.then("second", 3)

    def test_the_program_is_made_by_another_build_and_is_older(self) -> None:
        self.another()
        os.utime(self.top / PROGRAM, (1, 1))
        self.then("first", 2)

    def test_an_older_program_is_put_back_after_a_source_has_changed(self) -> None:
        older = (self.top / PROGRAM).read_text()
        (self.top / SOURCE).write_text("second")
        (self.top / PROGRAM).write_text(older)
        self.then("second", 2)
        (self.top / PROGRAM).write_text(older)
        self.then("second", 3)

    def test_the_bytes_of_the_program_change_and_its_size_and_time_stay(self) -> None:
        was = (self.top / PROGRAM).stat()
        self.another()
        os.utime(self.top / PROGRAM, ns=(was.st_atime_ns, was.st_mtime_ns))
        self.assertEqual((self.top / PROGRAM).stat().st_size, was.st_size)
        self.then("first", 2)

    def test_the_program_is_written_again_and_is_the_same(self) -> None:
        self.replaced(PROGRAM, lambda path: path.write_bytes(path.read_bytes()), builds=1)

    def test_the_stamp_is_missing(self) -> None:
        (self.top / f"{PROGRAM}.stamp").unlink()
        (self.top / f"{PROGRAM}.sources").unlink()
        self.then("first", 2)

    def test_the_stamp_is_missing_and_a_source_is_newer(self) -> None:
        (self.top / f"{PROGRAM}.stamp").unlink()
        self.replaced(SOURCE, lambda path: path.write_text("second"), "second")

    def test_the_stamp_is_torn(self) -> None:
        for name in (f"{PROGRAM}.stamp", f"{PROGRAM}.sources"):
            (self.top / name).write_text("")
        self.then("first", 2)

    def test_another_program_is_named(self) -> None:
        named = self.top / "named"
        named.write_text('#!/usr/bin/env bash\necho "named $*"\nexit 4\n')
        named.chmod(0o755)
        (self.top / SOURCE).write_text("second")
        self.assertEqual(self.clone.call("a", "b", named=str(named)), (4, "named a b"))
        # One that isn't there is no reason to start this one.
        self.assertEqual(self.clone.call(named=str(self.top / "absent"))[1], "")
        self.assertEqual(self.clone.lines("builds"), 1)

    def test_the_script_itself_is_named(self) -> None:
        self.assertEqual(self.clone.call(named=str(self.top / "pungiroe")), (3, f"first {self.top}"))

    def test_the_clone_is_copied_with_its_times_and_then_changed(self) -> None:
        copied = self.top / "copied"
        copied.mkdir()
        for name in ("crates", "crates.txt", "tools", "pungiroe"):
            subprocess.run(["cp", "-a", self.top / name, copied], check=True)
        (copied / SOURCE).write_text("copy")
        status, printed = self.clone.call(script=str(copied / "pungiroe"))
        self.assertEqual((status, printed), (3, f"copy {self.top}"))
        self.then("first", 1)

    def test_the_build_fails(self) -> None:
        (self.top / SOURCE).write_text("second")
        (self.top / "failing").touch()
        self.assertEqual(self.clone.call(), (70, ""))
        (self.top / "failing").unlink()
        self.then("second", 3)

    def test_it_is_called_by_a_link_and_from_elsewhere(self) -> None:
        elsewhere = self.top / "else where"
        elsewhere.mkdir()
        (elsewhere / "link").symlink_to("../pungiroe")
        for script in (str(elsewhere / "link"), "./link", "../pungiroe"):
            self.assertEqual(self.clone.call("a b", cwd=elsewhere, script=script), (3, f"first {elsewhere} a b"))
        self.assertEqual(self.clone.lines("builds"), 1)


if __name__ == "__main__":
    unittest.main()
