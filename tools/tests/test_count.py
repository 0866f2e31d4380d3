#!/usr/bin/env python3
"""Tests of count.py, on a small folder that is made up here.

    python3 tools/tests/test_count.py
"""
import unittest

import helpers  # puts tools/ where modules are found

from clones import Clones, SOURCE
from upkeep import count

TEST = '''import random

ALL = 7


class Tests:
    def test_loops(self):
        draws = random.Random(1)
        for _ in range(20):
            for _ in range(3):
                draws.randint(1, 2)
        for _ in range(ALL):
            draws.random()

    def test_none(self):
        for _ in range(9):
            pass
'''


class Counts(Clones):
    def test_crates(self) -> None:
        # Of the checker `law` and two functions `turning` have contracts, one of them private, and `helped` has none; a
        # test more, and four edits of three functions.
        self.put("crates/stack_checker/src/tests.rt", "#[test]\nfn tried() {\n}\n")
        self.put("crates/stack_checker/src/other.rt", SOURCE.replace("pub fn turning", "fn turning"))
        for name, of in ("1", "law.lib"), ("2", "law.lib"), ("3", "turning.lib"), ("4", "turning.other"):
            function, page = of.split(".")
            self.put(f"crates/stack_checker/must-fail/{name}.edit", f"# function {function}\nfile: src/{page}.rt\n")
        self.assertEqual(list(count.crates(self.top)), [
            "crate          pub  others  tests  edits  functions of edits  edits of pub",
            "stack_whole      0       0      0      0                   0             0",
            "stack_checker    3       1      1      4                   3             3",
            "stack_table      0       0      0      0                   0             0",
            "together         3       1      1      4                   3             3"])

    def examples(self) -> None:
        lists = {"rows": "# name status words\nposts 0 check a b\nslip 5 check a b\n\nnothing 2\n",
                 "made": "up 5 stand MADE/a\n",
                 "judged": "top 1 greatest 2/1 load a\n", "ranged": "ends 0 1/1 2/1 range a\n",
                 "staged": "all 0 2 stages a b\n", "bounded": "both yield a 1 2 c\n",
                 "expected/slip.err": "model overlap a b\n", "expected/up.err": "model range block 3 corners\n",
                 "posts/one.toml": "", "posts/two.toml": ""}
        for name, text in lists.items():
            self.put(f"examples/{name}", text)

    def test_rows(self) -> None:
        self.examples()
        lines = [line.split() for line in count.rows(self.top)]
        self.assertEqual(lines[1:3], [["check", "2", "0", "0", "0", "0", "0"], ["load", "0", "0", "1", "0", "0", "0"]])
        self.assertIn(["no", "words", "1", "0", "0", "0", "0", "0"], lines)
        self.assertEqual(lines[-3:], [["2", "1", "0", "0", "0", "0", "0"], ["5", "1", "1", "0", "0", "0", "0"],
                                      ["together", "3", "1", "1", "1", "1", "1"]])

    def test_faults_and_models(self) -> None:
        self.examples()
        self.assertEqual(list(count.faults(self.top)), [
            "line                       rows",
            "model overlap                 1",
            "model range block corners     1",
            "together                      2"])
        self.assertEqual([line.split()[-1] for line in count.models(self.top)], ["models", "2", "1", "3"])

    def test_rows_of_each_line_by_form(self) -> None:
        # One row of `check` names an overlap and one of `stand` a fault of the file; of neither is there a row of
        # `table`, and `stack` reads no model.
        self.examples()
        self.put("examples/expected/ends.err", "words\n")
        found = {line.rsplit(None, 10)[0]: line.split()[-10:] for line in count.forms(self.top)}
        heads = "check contacts load range sample stack stages stand table yield".split()
        self.assertEqual(found["line"], heads)
        cells = dict(zip(heads, found["model overlap"]))
        self.assertEqual([cells[form] for form in ("check", "table", "stack")], ["1", "0", "-"])
        self.assertEqual(dict(zip(heads, found["model .."]))["stand"], "1")
        self.assertEqual(count.line_of("wide least run 1 2 3 4 divide"), "wide least run")
        self.assertEqual(count.line_of("wide stage 4 end forces whole 12"), "wide end")

    def test_lines_without_numbers_and_names(self) -> None:
        for line, fault in (("wide stage 2 run 1 2 3 4 divide", "wide run"), ("wide dir 3 first", "wide first"),
                            ("certificate line 12", "certificate line"),
                            ("words", "words")):
            self.assertEqual(count.fault_of(line), fault)

    def test_refusals(self) -> None:
        # a line of another kind isn't counted; what stands in a written proof comes before the words in it; one goal is
        # shown false, and one search met a limit
        said = "rt: must-fail stack_a/b.edit: refused, as it must be"
        self.put("log", "\n".join((
            f"{said}: note: src/a.rt:1:1: it is not proved that what the function ensures holds when it returns (`x`)",
            f"{said}: ./proofs/f/Answers.antt:5:13: error: `g-requires`: as printed, the two types differ",
            f"{said}: note: src/a.rt:5:9: it is not proved that the invariant of the loop holds (`loop-i-init`); the "
            "facts known there allow values at which this goal is fal",
            f"{said}: note: src/a.rt:7:1: it is not proved that what the function ensures holds when it returns (`y`); "
            "`search` gave up at one of its limits",
            f"{said} (only by a limit of the prover, which gave no verdict)", "rt: stack_a proved")))
        self.assertEqual(list(count.refusals(str(self.top / "log"))), [
            "refused                   edits  shown false  limit of search  no proof",
            "by a limit of the prover      1            0                0         1",
            "at a clause                   2            0                1         1",
            "at an invariant               1            1                0         0",
            "at a written proof            1            0                0         1",
            "together                      5            1                1         3"])

    def test_plants(self) -> None:
        # two crates of one log each; the same body is tried once, and a note isn't counted
        said = ("planted-in={} untested={} no-ensures=0 proves={} same={} refused={} elsewhere={} not-judged={} "
                "not-source=3")
        self.put("a", "\n".join((
            "not-judged  src/a.rt:5 fn f: { a(1) }  (the tactics met a limit)",
            "not-judged  src/a.rt:9 fn g: { g() }  (the unchanged call did not prove, so no body that calls ..)",
            "refused     src/a.rt:5 fn f: { 0 }  (returns)", "note: 2 functions have a proof by hand",
            f"plants crate=stack_a {said.format(3, 1, 0, 2, 8, 1, 2)} not-run=0")))
        self.put("b", f"plants crate=stack_b {said.format(1, 0, 1, 0, 4, 0, 0)} not-run=0\n")
        lines = [line.split() for line in count.plants([str(self.top / name) for name in "ab"])]
        self.assertEqual(lines[1:4], [["stack_a", "3", "1", "13", "8", "2", "0", "1", "2"],
                                      ["stack_b", "1", "0", "5", "4", "0", "1", "0", "0"],
                                      ["together", "4", "1", "18", "12", "2", "1", "1", "2"]])
        self.assertEqual([line[-1] for line in lines[5:]], ["bodies", "1", "1", "2"])

    def test_draws(self) -> None:
        # 20 times and 7 times; the loop within isn't counted, and a test that draws nothing isn't listed.
        self.put("tools/tests/test_it.py", TEST)
        self.assertEqual([line.split() for line in count.random_tests(self.top)],
                         [["test", "draws"], ["test_it.py", "test_loops", "27"], ["together", "27"]])


if __name__ == "__main__":
    unittest.main()
