"""A small clone, made up here, whose crates hold definitions, lemmas and functions that nothing reaches."""
import unittest
from pathlib import Path
from tempfile import TemporaryDirectory

CRATES = """# What the crates are.

# Numbers
# whole numbers
stack_whole:

# Statics
# the checker
stack_checker: stack_whole num_traits

# Search
# tables
stack_table: stack_whole
"""

CHOICE = """-- What is chosen.
use Rattle.std.specs.Prelude.{ℕ, ◌≡◌}
use Rattle.stack_whole.specs.Sizes.{size as length}

-- the choice by its length
abbrev pub chosen : ℕ → ℕ
chosen n = length n

-- which is left; the case of a record that is
pub record Left (n : ℕ) : Type 0 where
  pub rest : ℕ

-- nothing cites it, and it cites what nothing else does
pub spare : (n : ℕ) → alone n ≡ n
spare n = refl

abbrev alone : ℕ → ℕ
alone n = n
"""

LEMMAS = """use Rattle.stack_checker.specs.Choice.{chosen, Left}

module _ (n : ℕ)
    (h : n ≡ n)
  where
    -- an answer cites it
    pub cited : chosen n ≡ n
    cited = inner n

    inner : (n : ℕ) → chosen n ≡ n
    inner n = refl
      where
        deeper : ℕ
        deeper = n

pub uncited : (n : ℕ) → Left n → ⊥
uncited n l = inner n
"""

SOURCE = """//! The checker.

ghost use Rattle.stack_checker.specs.Choice.{chosen, Left};

/// A law: Left isn't named but here, in a comment.
pub fn law()
    ensures { chosen 1 ≡ 1 }
{
    helped();
}

/// The law calls it.
fn helped() -> u32 {
    2
}

// It would be called by itself alone.
pub fn turning(n: u32) -> u32
    ensures { result ≡ chosen n }
{
    turning(n)
}

impl Display for Checker {
    fn fmt(&self) -> Result {
        put(self)
    }
}

fn put(c: &Checker) -> Result {
    Ok(())
}
"""

FILES = {"crates.txt": CRATES, "crates/stack_checker/specs/Choice.antt": CHOICE,
         "crates/stack_checker/proofs/Lemmas.antt": LEMMAS, "crates/stack_checker/src/lib.rt": SOURCE,
         "crates/stack_whole/specs/Sizes.antt":
             "abbrev pub size : ℕ → ℕ\nsize n = n\n\nabbrev pub weight : ℕ\nweight = 1\n",
         "crates/stack_checker/proofs/lib/law/Answers.antt":
             "use Rattle.stack_checker.proofs.Lemmas.{cited}\n\nreturns : goal.returns\nreturns g c = cited 1 refl\n"}
# By hand: the source names `chosen`, and that cites `size`; the answer names `cited`, and that cites `inner`.
DEAD = {"crates/stack_checker/specs/Choice.antt": ["Left", "spare", "alone"],
        "crates/stack_checker/proofs/Lemmas.antt": ["uncited"],
        "crates/stack_whole/specs/Sizes.antt": ["weight"],
        "crates/stack_checker/src/lib.rt": ["fn turning"]}


class Clones(unittest.TestCase):
    def setUp(self) -> None:
        folder = TemporaryDirectory()
        self.addCleanup(folder.cleanup)
        self.top = Path(folder.name)
        for name, text in FILES.items():
            self.put(name, text)

    def put(self, name: str, text: str) -> None:
        path = self.top / name
        path.parent.mkdir(parents=True, exist_ok=True)
        path.write_text(text)
