#!/usr/bin/env python3
"""Tests of pages.py: what is right passes, and each kind of fault is found.

    python3 tools/tests/test_pages.py
"""
import contextlib
import io
import os
import unittest
from pathlib import Path
from tempfile import TemporaryDirectory
from unittest import mock

import helpers  # puts tools/ where modules are found

from upkeep import pages

GUIDE = """# Guide

## The range

**A short one.** It is short.

## If the answer is `wide`

## What "stands" doesn't mean

## 3. Look

| Step | What |
|---|---|
| 7 | seven |

## The range
"""


class Looks(unittest.TestCase):
    def setUp(self) -> None:
        self.folder = TemporaryDirectory()
        self.addCleanup(self.folder.cleanup)
        self.top = Path(self.folder.name)
        for name, text in (("docs/guide.md", GUIDE), ("examples/post.toml", "post\n"), ("tools/tool.py", "tool\n"),
                           ("pungiroe", '#!/usr/bin/env bash\necho "program $1"\n')):
            self.write(name, text)
        (self.top / "pungiroe").chmod(0o755)
        environment = {name: value for name, value in os.environ.items() if name != "PUNGIROE"}
        patch = mock.patch.dict(os.environ, environment, clear=True)
        patch.start()
        self.addCleanup(patch.stop)

    def write(self, name: str, text: str) -> None:
        path = self.top / name
        path.parent.mkdir(exist_ok=True)
        path.write_text(text)

    def look(self, text: str) -> list[str]:
        """The lines that are printed of a page of this text, but the last one."""
        self.write("docs/page.md", text)
        pages.read.cache_clear()
        printed = io.StringIO()
        with contextlib.redirect_stdout(printed):
            status = pages.main([str(self.top / "docs/page.md")], self.top)
        *lines, last = printed.getvalue().splitlines()
        self.assertEqual(status, 0 if last.endswith(" 0 faults") else 1)
        return lines

    def passes(self, text: str) -> None:
        self.assertEqual(self.look(text), [])

    def finds(self, text: str, *lines: str) -> None:
        self.assertEqual(self.look(text), list(lines))

    # Links

    def test_links_that_lead_somewhere(self) -> None:
        self.passes("[a](guide.md) [b](guide.md#the-range) [c](guide.md#the-range-1) [d](../examples/post.toml)\n"
                    "[e](guide.md#if-the-answer-is-wide) [f](guide.md#what-stands-doesnt-mean)\n"
                    "[g](https://example.org)\n"
                    "[h](#here)\n\n# Here\n\n`[i](nowhere.md)`\n\n```\n[j](nowhere.md)\n```\n")

    def test_a_file_that_is_missing(self) -> None:
        self.finds("# Page\n\n[a](guides.md)\n", "docs/page.md:3: no file guides.md")

    def test_a_link_over_two_lines(self) -> None:
        self.finds("See [a\nb](guides.md).\n\n[c](guide.md#the-range) and `[`\n\n[d](guides.md)\n",
                   "docs/page.md:2: no file guides.md", "docs/page.md:6: no file guides.md")

    def test_a_link_from_the_top(self) -> None:
        self.finds("[a](/docs/guide.md)\n", "docs/page.md:1: no file /docs/guide.md")

    def test_an_anchor_that_is_missing(self) -> None:
        self.finds("[a](guide.md#the-ranges)\n[b](guide.md#the-range-2)\n[c](#the-range)\n",
                   "docs/page.md:1: no anchor guide.md#the-ranges", "docs/page.md:2: no anchor guide.md#the-range-2",
                   "docs/page.md:3: no anchor #the-range")

    # Headings in words

    def test_headings_that_are_there(self) -> None:
        self.passes('See docs/guide.md, "The range" and "If the answer is `wide`". See guide.md ("A short one").\n'
                    'See guide.md, "What "stands"\ndoesn\'t mean", and guide.md, step 3.\n'
                    'See docs/guide.md, steps 3 and 7.\n'
                    'See "Here" below. It prints "nothing", and SOME-PAGE.md, "Elsewhere", is of the kit.\n\n## Here\n')

    def test_a_heading_that_is_missing(self) -> None:
        self.finds('# Page\n\nSee docs/guide.md,\n"The ranges".\n',
                   'docs/page.md:4: no heading "The ranges" in docs/guide.md')

    def test_a_second_heading_that_is_missing(self) -> None:
        self.finds('See guide.md, "The range" and "The hedge".\n',
                   'docs/page.md:1: no heading "The hedge" in docs/guide.md')

    def test_a_heading_of_this_page_that_is_missing(self) -> None:
        self.finds('See "There" below.\n\n## Here\n', 'docs/page.md:1: no heading "There" on this page')

    def test_a_step_that_is_missing(self) -> None:
        self.finds("See guide.md, step 4.\n", "docs/page.md:1: no step 4 in guide.md")

    def test_a_page_that_is_missing(self) -> None:
        self.finds('See docs/guides.md, "The range".\n', "docs/page.md:1: no page docs/guides.md")

    # Commands

    def test_commands_that_print_what_is_shown(self) -> None:
        self.passes("```\npicture\n\n$ ./pungiroe stand\nprogram stand\n"
                    "$ cat examples/post.toml tools/tool.py\npost\ntool\n"
                    "$ echo kept >file; word=two\n$ echo out; echo err >&2\nout\nerr\n```\n\n"
                    "1. Then:\n\n   ```\n   $ cat file\n   kept\n   $ seq 9\n   1\n   ..\n   5\n   ..\n   9\n"
                    "   $ for k in 1 2; do\n   >     echo $k $word\n   > done\n   1 two\n   2 two\n"
                    "   $ echo \\\n   > one\n   one\n   $ printf unended\n   unended\n   $ echo\n\n   ```\n\n"
                    "```\nno command\n```\n")

    def test_another_line(self) -> None:
        self.finds("# Page\n\n```\n$ seq 3\n1\n4\n3\n```\n",
                   "docs/page.md:4: $ seq 3", "    @@ -2 +2 @@", "    -4", "    +2")

    def test_a_line_that_is_missing(self) -> None:
        self.finds("```\n$ seq 2\n1\n```\n", "docs/page.md:2: $ seq 2", "    @@ -1,0 +2 @@", "    +2")

    def test_a_line_too_many(self) -> None:
        self.finds("```\n$ true\n1\n```\n", "docs/page.md:2: $ true", "    @@ -1 +0,0 @@", "    -1")

    def test_an_error_that_isnt_shown(self) -> None:
        self.finds("```\n$ echo err >&2\n```\n", "docs/page.md:2: $ echo err >&2", "    @@ -0,0 +1 @@", "    +err")

    def test_what_any_lines_dont_cover(self) -> None:
        self.assertNotEqual(self.look("```\n$ seq 9\n1\n..\n8\n```\n"), [])
        self.assertNotEqual(self.look("```\n$ seq 9\n..\n4\n3\n..\n```\n"), [])

    def test_commands_after_one_that_cant_be_read(self) -> None:
        lines = self.look("```\n$ echo (\n$ echo two\ntwo\n```\n")
        self.assertEqual([it for it in lines if not it.startswith(" ")], ["docs/page.md:2: $ echo ("])

    def test_commands_after_one_that_ends_all(self) -> None:
        lines = self.look("```\n$ echo one\none\n$ exit\n$ echo two\ntwo\n```\n")
        self.assertEqual([it for it in lines if it.startswith("docs")],
                         ["docs/page.md:4: $ exit", "docs/page.md:5: $ echo two"])

    def test_nothing_is_left_behind(self) -> None:
        before = sorted(self.top.rglob("*"))
        self.passes("```\n$ echo new >new; echo new >examples/new\n"
                    "$ echo new >examples/post.toml; rm tools/tool.py\n```\n")
        self.assertEqual([it for it in sorted(self.top.rglob("*")) if it.name != "page.md"], before)
        self.assertEqual((self.top / "examples/post.toml").read_text(), "post\n")

    def test_the_program_of_the_environment(self) -> None:
        self.write("other", "#!/usr/bin/env bash\necho other\n")
        (self.top / "other").chmod(0o755)
        with mock.patch.dict(os.environ, {"PUNGIROE": str(self.top / "other")}):
            self.passes("```\n$ ./pungiroe stand\nother\n```\n")

    def test_a_page_that_needs_esolver(self) -> None:
        text = "[a](guides.md)\n\n```\n$ tools/solve.py 2>&1 | grep -c solve\n0\n```\n"
        with mock.patch("shutil.which", return_value=None):
            self.finds(text, "docs/page.md:1: no file guides.md",
                       "skipped: the commands of docs/page.md, which need esolver")

    def test_all_pages_by_themselves(self) -> None:
        self.write("README.md", "[a](docs/nowhere.md)\n")
        self.write("examples/INDEX.md", "[a](../docs/nowhere.md)\n")
        printed = io.StringIO()
        with contextlib.redirect_stdout(printed):
            self.assertEqual(pages.main([], self.top), 1)
        self.assertEqual(printed.getvalue().splitlines(), [
            "README.md:1: no file docs/nowhere.md", "examples/INDEX.md:1: no file ../docs/nowhere.md",
            "2 links, 0 cited headings, 0 commands: 2 faults"])


if __name__ == "__main__":
    unittest.main()
