#!/usr/bin/env python3
"""Tests of .ci/run: what the checks need is installed where it is missing, and the gate runs whatever comes of that.

    python3 tools/tests/test_gate.py

Each test has a folder of its own, with a gate and an apt-get that only write down how they were called.
"""
import shutil
import subprocess
import unittest
from pathlib import Path
from tempfile import TemporaryDirectory

from helpers import TOP

APT = """#!/bin/bash
echo "$*" >>"$CALLS"
case $1 in update) exit $UPDATES ;; esac
[ $INSTALLS = late ] && grep -q update "$CALLS" && exit 0
exit $([ $INSTALLS = yes ]; echo $?)
"""
INSTALL = "install -y --no-install-recommends"


class Runs(unittest.TestCase):
    def setUp(self) -> None:
        folder = TemporaryDirectory()
        self.addCleanup(folder.cleanup)
        self.top, self.calls = Path(folder.name), Path(folder.name, "calls")
        for name in "bin", ".ci":
            (self.top / name).mkdir()
        shutil.copy(TOP / ".ci/run", self.top / ".ci/run")
        self.write("gate", "#!/bin/bash\necho gate >>\"$CALLS\"\nexit 3\n")
        for command in "bash", "dirname", "timeout", "grep":
            (self.top / "bin" / command).symlink_to(shutil.which(command) or "")

    def write(self, name: str, text: str) -> None:
        (self.top / name).write_text(text)
        (self.top / name).chmod(0o755)

    def called(self, has: str = "", installs: str = "yes", updates: str = "0", apt: bool = True) -> list[str]:
        """How apt-get and the gate are called, on a machine that has some commands."""
        for command in has.split():
            self.write(f"bin/{command}", "#!/bin/bash\n")
        if apt:
            self.write("bin/apt-get", APT)
        env = {"PATH": str(self.top / "bin"), "CALLS": str(self.calls), "INSTALLS": installs, "UPDATES": updates}
        done = subprocess.run([self.top / ".ci/run"], env=env, stdout=subprocess.PIPE, stderr=subprocess.PIPE)
        self.assertEqual((done.returncode, done.stdout), (3, b""), done.stderr)  # those of the gate
        return self.calls.read_text().splitlines()

    def test_nothing_is_installed_that_is_there(self) -> None:
        self.assertEqual(self.called("mypy esolver"), ["gate"])

    def test_what_is_missing_is_installed(self) -> None:
        self.assertEqual(self.called("mypy"), [f"{INSTALL} qsopt-ex", "gate"])

    def test_its_lists_are_brought_up_to_date_if_need_be(self) -> None:
        both = f"{INSTALL} mypy qsopt-ex"
        self.assertEqual(self.called(installs="late"), [both, "update", both, "gate"])

    def test_the_gate_runs_if_nothing_can_be_installed(self) -> None:
        self.assertEqual(self.called(installs="no", updates="1"), [f"{INSTALL} mypy qsopt-ex", "update", "gate"])

    def test_the_gate_runs_without_apt_get(self) -> None:
        self.assertEqual(self.called(apt=False), ["gate"])


if __name__ == "__main__":
    unittest.main()
