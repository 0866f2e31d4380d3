#!/usr/bin/env python3
"""Tests of definitions.py: that it finds all on which a definition rests, and nothing else.

    python3 tools/tests/test_definitions.py
"""
import contextlib
import io
import unittest
from pathlib import Path
from tempfile import TemporaryDirectory
from unittest import mock

import helpers  # puts tools/ where modules are found

from upkeep import definitions

LOW = """-- Lists of numbers.
use Rattle.std.specs.Prelude.{ℕ, List}
use Rattle.low.specs.declared.types.Point.{Point}

infixl 6 ◌⊕◌
-- the sum
abbrev pub ◌⊕◌ : ℕ → ℕ → ℕ
a ⊕ b = a + b

-- one after another
unfoldable pub ◌>>=◌ : List ℕ → List ℕ
xs >>= f = xs

-- two numbers at a point
pub record Pair : Type 0 where
  pub left : ℕ
  -- its other number
  pub right : Point

-- of either kind
pub data Kind : Type 0 where
  round : Kind
  flat : ℕ → Kind

-- nobody needs this
abbrev pub unused : ℕ
unused = 0

module _ (p : Pair) where
  -- inside
  abbrev pub inside : ℕ
  inside = p.left

  module _ (q : Pair) where
    -- further inside
    abbrev pub further : ℕ
    further = inside ⊕ 1
"""
HIGH = """-- What stands above.
use Rattle.low.specs.Low.{◌⊕◌, ◌>>=◌, Pair, round, unused}
use Rattle.low.specs.Low as low
use Rattle.low.proofs.Sums.{sums}

-- a use of an operator
abbrev pub doubled : ℕ → ℕ
doubled n = n ⊕ n

-- steps
abbrev pub stepped : ℕ → ℕ
stepped n = do
  m ← n
  m

-- of the first kind, by way of another name
abbrev pub IsRound : Kind → Type 0
IsRound k = k ≡ round

-- by another name of the page, and by a lemma file
abbrev pub reached : ℕ
reached = low.further sums

-- this cites unused only in a comment -- unused
abbrev pub quiet : ℕ
quiet = doubled 1 -- unused
"""


class Rests(unittest.TestCase):
    def setUp(self) -> None:
        folder = TemporaryDirectory()
        self.addCleanup(folder.cleanup)
        for name, text in (("low/specs/Low.antt", LOW), ("high/specs/High.antt", HIGH)):
            path = Path(folder.name, "crates", name)
            path.parent.mkdir(parents=True)
            path.write_text(text)
        patch = mock.patch.object(definitions, "TOP", Path(folder.name))
        patch.start()
        self.addCleanup(patch.stop)
        definitions.page_of.cache_clear()

    def printed(self, crate: str, name: str) -> str:
        said = io.StringIO()
        with contextlib.redirect_stdout(said):
            definitions.main([crate, name])
        return said.getvalue()

    def test_an_operator_with_its_comment_and_its_equation(self) -> None:
        self.assertEqual(self.printed("high", "doubled"), """== crates/low/specs/Low.antt

-- the sum
abbrev pub ◌⊕◌ : ℕ → ℕ → ℕ
a ⊕ b = a + b

== crates/high/specs/High.antt

-- a use of an operator
abbrev pub doubled : ℕ → ℕ
doubled n = n ⊕ n

== 2 definitions, 6 lines, on 2 pages
== elsewhere: Rattle.std.specs.Prelude: ℕ
""")

    def test_the_operator_of_a_block_of_steps(self) -> None:
        self.assertIn("unfoldable pub ◌>>=◌", self.printed("high", "stepped"))

    def test_a_case_brings_its_kind(self) -> None:
        wanted = "pub data Kind : Type 0 where\n  round : Kind\n  flat : ℕ → Kind\n"
        self.assertIn(wanted, self.printed("high", "IsRound"))

    def test_nested_sections_a_page_by_its_name_and_a_lemma_file(self) -> None:
        printed = self.printed("high", "reached")
        for line in ("module _ (p : Pair) where", "  module _ (q : Pair) where", "    further = inside ⊕ 1",
                     "  inside = p.left", "  -- its other number", "== elsewhere: Rattle.low.proofs.Sums: sums",
                     "== elsewhere: Rattle.low.specs.declared.types.Point: Point"):
            self.assertIn(line + "\n", printed)
        self.assertIn("== 5 definitions,", printed)

    def test_what_isnt_needed(self) -> None:
        for name in ("doubled", "stepped", "IsRound", "reached", "quiet"):
            self.assertNotIn("pub unused", self.printed("high", name))

    def test_a_name_that_isnt_there(self) -> None:
        with self.assertRaises(SystemExit):
            self.printed("high", "lowered")


if __name__ == "__main__":
    unittest.main()
