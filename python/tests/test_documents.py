"""The blocks of the pages run as they are written, and scripts/commands.py notices what doesn't."""
import pathlib
import tempfile
import unittest
from unittest import mock

import commands

# Pages that need only the programs. scripts/library_test.sh runs the blocks of LIBRARY, and
# scripts/page_test.sh those of PAGE.
PAGES = [page for page in commands.PAGES if page not in ("docs/LIBRARY.md", "docs/PAGE.md")]


class Documents(unittest.TestCase):
    """The pages as they are."""

    def test_blocks(self):
        for page in PAGES:
            outcomes = list(commands.run(page))
            self.assertTrue(outcomes, page)
            for done in outcomes:
                with self.subTest(block=done.block.place):
                    if done.skipped:
                        self.skipTest(done.skipped)
                    self.assertEqual(done.failed, "")


class Noticed(unittest.TestCase):
    """Pages with faults."""

    def setUp(self):
        scratch = tempfile.TemporaryDirectory()
        self.addCleanup(scratch.cleanup)
        self.page = pathlib.Path(scratch.name) / "page.md"

    def blocks(self, text):
        """The blocks of a page with this text."""
        self.page.write_text(text)
        return commands.blocks(str(self.page))

    def outcomes(self, text):
        """The texts of what failed and of what was skipped in a page with this text."""
        self.page.write_text(text)
        found = list(commands.run(str(self.page)))
        return [done.failed for done in found], [done.skipped for done in found]

    def test_runs(self):
        good = (
            "```console\n$ printf 'a 1\\nb\\nc\\n'\na ..\n..\nc\n$ true\n```\n",
            "```sh status=3\nexit 3\n```\n",
            "```sh\nexport WORD=kept\n```\n\n```console\n$ echo $WORD\nkept\n```\n",
            "```sh file=a/b.sh\n#!/bin/sh\necho b\n```\n\n```console\n$ a/b.sh\nb\n```\n",
            "```pycon\n>>> 1 + 1\n2\n```\n",
        )
        for text in good:
            with self.subTest(text=text):
                self.assertEqual("".join(self.outcomes(text)[0]), "")
        for text in (
            "```console\n$ echo a\nb\n```\n",
            "```console\n$ echo a\n```\n",
            "```sh\nfalse | cat\n```\n",
            "```sh status=3\nexit 4\n```\n",
            "```pycon\n>>> 1 + 1\n3\n```\n",
        ):
            with self.subTest(text=text):
                self.assertNotEqual("".join(self.outcomes(text)[0]), "")

    def test_skips(self):
        failed, skipped = self.outcomes("```sh needs=no-such-tool\nfalse\n```\n")
        self.assertEqual(failed, [""])
        self.assertIn("there is no no-such-tool", skipped[0])

    def test_block_faults(self):
        for text, says in (
            ("    bin/mcf\n", "without a fence"),
            ("```\nbin/mcf\n```\n", "doesn't say how"),
            ("```text\n$ bin/mcf\n```\n", "a text that has a command"),
            ("```sh not-run\nfalse\n```\n", "has no reason"),
            ("```c file=a.c\nint main;\n```\n", "no later block"),
            ("```console\nbin/mcf\n```\n", "no command"),
        ):
            with self.subTest(text=text):
                self.page.write_text(text)
                self.assertIn(says, "".join(commands.block_faults(str(self.page))))

    def test_commands(self):
        for command, says in (
            ("scripts/none.py check", "there is no scripts/none.py"),
            ("scripts/documents.py --gone", "scripts/documents.py has no --gone"),
            ("python3 scripts/words.py erase", "scripts/words.py has no erase"),
            ("sudo make everything", "make has no target everything"),
            ("bin/mcf solve --speed", "bin/mcf has no --speed"),
            ("tools/mcf_plan pairs a --each who --none", "tools/mcf_plan has no --none"),
            ("N=1 python3 bench/run.py simplex --runs 3", ""),
            ("mcf_one a.min --engine scaling", ""),
            ("crates/NAME/edits/WHAT.edit", ""),
            ("make -j test PREFIX=/usr", ""),
        ):
            with self.subTest(command=command):
                self.assertEqual(commands.command_fault(command), says)

    def test_links(self):
        self.page.write_text("# A b\n[a](#a-b) [b](#c) [d](none.md) [e](https://a.b/c.md)\n")
        found = " ".join(commands.link_faults(str(self.page)))
        self.assertIn("heading c", found)
        self.assertIn("none.md leads nowhere", found)
        self.assertNotIn("a-b", found)

    def test_reasons(self):
        with mock.patch.object(commands, "NOT_RUN", {("README.md", "nothing"): "why"}):
            self.assertIn("which NOT_RUN names", "".join(commands.faults([])))


if __name__ == "__main__":
    unittest.main()
