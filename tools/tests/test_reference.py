#!/usr/bin/env python3
"""Tests of reference.py, on a small folder that is made up here.

    python3 tools/tests/test_reference.py
"""
import sys
import unittest
from contextlib import redirect_stderr, redirect_stdout
from io import StringIO
from pathlib import Path
from tempfile import TemporaryDirectory

sys.path.insert(0, str(Path(__file__).resolve().parents[1]))

from upkeep import reference

LIB = """//! Posts.
mod laws;
mod post;

pub use laws::post_law;
pub use post::{Post, Width as Breadth, pushed};
"""
POST = """ghost use Rattle.std.specs.Prelude.{nothing};
ghost use Rattle.posts.specs.Pushed.{IsPushed as IsPushedOver, force};

/// A post.
pub struct Post {}

impl Post {
    /// How high it is,
    /// in units of the grid. Never 0.
    ///
    /// This isn't shown.
    pub fn height(&self) -> usize
        ensures { result ≡ force self.now }
    {
        1
    }

    /// Nobody outside calls this.
    fn hidden(&self) {}
}

/// What has a width | or none.
pub trait Width {
    /// Its width.
    fn width(&self) -> usize
        requires free { nothing }
        ensures small {
            IsPushedOver result
        }
        ensures even { nothing };
}

/// Not lent.
pub fn kept()
    ensures { IsPushedOver kept }
{
}

/// Pushes a post.
#[inline]
pub fn pushed(post: &Post) -> bool
    requires { nothing }
{
    true
}
"""
LAWS = """/// A law.
pub fn post_law()
    ensures first { IsPushedOver }
    ensures { nothing }
{}
"""
PUSHED = """-- What a push does to a post.
use Rattle.posts.specs.Way.{Way}

pub record IsPushed (n : Post) : Type 0 where
  -- which way it goes
  pub way : Way n
  pub plain : Post

-- how hard
abbrev pub force : Post
force = 1

-- nobody names this
pub record IsForgotten : Type 0 where
  pub other : Post
"""
WAY = """-- one of two ways
pub record Way (n : Post) : Type 0 where
  pub left : Post
"""


class Made(unittest.TestCase):
    def setUp(self) -> None:
        folder = TemporaryDirectory()
        self.addCleanup(folder.cleanup)
        self.top = Path(folder.name)
        self.write("crates.txt", "# The crates\n\n# posts | and pushes\nposts:\n# tests of posts\nposts_tests: posts\n")
        for name, text in (("lib", LIB), ("post", POST), ("laws", LAWS)):
            self.write(f"crates/posts/src/{name}.rt", text)
        self.write("crates/posts/specs/Pushed.antt", PUSHED)
        self.write("crates/posts/specs/Way.antt", WAY)
        self.write("docs/page.md", "")
        reference.page_of.cache_clear()

    def write(self, name: str, text: str) -> None:
        path = self.top / name
        path.parent.mkdir(parents=True, exist_ok=True)
        path.write_text(text)

    def rows(self, kind: str) -> list[str]:
        return [line for line in reference.page(self.top, kind).splitlines() if line.startswith(("| ", "## "))]


class Lists(Made):
    def test_what_a_crate_lends(self) -> None:
        """The law by the file's name, the methods of a lent type and of a lent trait, and no others."""
        self.assertEqual(self.rows("calls"), [
            "## posts", "| Call | What it gives | Clauses |", "| `post_law` | A law. | `first` |",
            "| `Post::height` | How high it is, in units of the grid. Never 0. |  |",
            "| `Width::width` | Its width. | `small`, `even`; needs `free` |",
            "| `pushed` | Pushes a post. | needs a condition |"])

    def test_what_clauses_name(self) -> None:
        """By their own names: the head of a page for its first, fields with a comment, and the record that is named."""
        self.assertEqual(self.rows("definitions"), [
            "## posts", "| Name | What it says | File |",
            "| `IsPushed` | What a push does to a post. | Pushed |",
            "| - `way` | which way it goes | |", "| `force` | how hard | Pushed |",
            "| `Way` | one of two ways | Way |"])


class Compared(Made):
    def said(self, *words: str) -> tuple[int, str]:
        with redirect_stdout(StringIO()) as out, redirect_stderr(StringIO()):
            return reference.main(words, self.top), out.getvalue()

    def test_pages_that_are_written_are_those_that_should_be(self) -> None:
        self.assertEqual(self.said("write"), (0, ""))
        self.assertEqual(self.said("compare"), (0, ""))

    def test_a_changed_comment_is_noticed(self) -> None:
        self.said("write")
        self.write("crates/posts/src/laws.rt", LAWS.replace("A law", "Another law"))
        status, told = self.said("compare")
        self.assertEqual((status, told.split()[0]), (1, "docs/proofs/calls.md"))

    def test_a_missing_page_is_noticed(self) -> None:
        self.assertEqual(self.said("compare")[0], 1)

    def test_other_words(self) -> None:
        self.assertEqual(self.said("print")[0], 2)
        self.assertEqual(self.said()[0], 2)


if __name__ == "__main__":
    unittest.main()
