#!/usr/bin/env python3
"""Tests of lint.py and dead_code.py, on small folders that are made up here.

    python3 tools/tests/test_lint.py
"""
import unittest

import helpers  # puts tools/ where modules are found
from clones import CRATES, DEAD, SOURCE, Clones

from masonry.console import Refused
from upkeep import dead_code, lint


class Reached(Clones):
    def test_what_nothing_reaches(self) -> None:
        self.assertEqual(dead_code.dead_names(self.top), DEAD)

    def test_what_an_attribute_names_is_reached(self) -> None:
        self.put("crates/stack_checker/src/lib.rt",
                 SOURCE.replace("pub fn law", "#[tactic(auto, unfolding(crate::specs::Choice::spare))]\npub fn law"))
        self.assertEqual(dead_code.Library(self.top).dead()["crates/stack_checker/specs/Choice.antt"], ["Left"])

    def test_a_page_hands_a_name_on(self) -> None:
        self.put("crates/stack_checker/specs/Sizes.antt", "pub use Rattle.stack_whole.specs.Sizes.{weight}\n")
        self.put("crates/stack_checker/proofs/lib/law/Answers.antt",
                 "use Rattle.stack_checker.specs.Sizes.{weight}\n\nreturns : goal.returns\nreturns g c = weight\n")
        self.assertNotIn("crates/stack_whole/specs/Sizes.antt", dead_code.Library(self.top).dead())


class Lines(Clones):
    def test_the_longest_line_has_120_characters(self) -> None:
        # 120 of two bytes each are no more; tables and links are exempt on pages alone.
        self.put("crates/a/src/lib.rt", "λ" * 120 + "\n" + "λ" * 121 + "\n| " + "a" * 120 + "\n")
        self.put("docs/page.md", "| " + "a" * 120 + "\n[link](" + "a" * 120 + ")\n" + "a" * 121 + "\n")
        self.put("crates/a/out/made.rt", "a" * 121)
        self.put("docs/notes.txt", "a" * 121)
        self.assertEqual(lint.long_lines(self.top), [f"{place}: more than 120 characters" for place in (
            "crates/a/src/lib.rt:2", "crates/a/src/lib.rt:3", "docs/page.md:3")])


class Crates(Clones):
    def test_the_checker_names_no_crate_of_the_search(self) -> None:
        self.assertEqual(lint.searches(self.top), (2, []))

    def test_crates_txt_names_one(self) -> None:
        self.put("crates.txt", CRATES.replace("stack_whole:\n", "stack_whole: stack_table\n"))
        said = "crates.txt: stack_whole names stack_table, a crate of the search"
        self.assertEqual(lint.searches(self.top)[1], [said])

    def test_a_source_names_one(self) -> None:
        said = "crates/stack_whole/src/lib.rt:2: stack_table, a crate of the search, is above stack_checker"
        self.put("crates/stack_whole/src/lib.rt", "// stack_table isn't used\nuse stack_table::Table; // here\n")
        self.assertEqual(lint.searches(self.top)[1], [said])
        self.put("crates/stack_whole/src/lib.rt", "use stack_tables::Table; // stack_table\n")
        self.put("crates/stack_table/src/lib.rt", "use stack_table::Table;\n")
        self.assertEqual(lint.searches(self.top)[1], [])

    def test_without_these_crates_it_refuses(self) -> None:
        self.put("crates.txt", CRATES.replace("# Search", "# Searches"))
        with self.assertRaises(Refused):
            lint.searches(self.top)


class Looks(Clones):
    def test_each_name_that_nothing_reaches_is_told(self) -> None:
        lines, wrong = lint.looked(self.top)
        self.assertEqual(lines, ["no line has more than 120 characters", "each name is reached",
                                 "stack_checker rests on 1 crates, and none is of the search"])
        self.assertCountEqual(wrong, [f"{name}: nothing reaches {' '.join(of)}" for name, of in DEAD.items()])


if __name__ == "__main__":
    unittest.main()
