#!/usr/bin/env python3
"""Tests that scripts/edits.py reports an edit as refused only if it is. In a copy of a small crate,
it tries edits that change nothing, don't compile, wait for others, or can't be applied.

    scripts/edits_test.py
"""
import contextlib
import io
import pathlib
import shutil
import sys
import tempfile
import unittest
from unittest import mock

import build
from edits import groups, run
from edits.check import Lanes
from edits.log import GOAL, SHAPE, THROUGH, UNDECIDED

CRATE = "mcf_numbers"
COLUMN, COUNT = "file: src/column.rt\n", "file: src/count.rt\n"
# Its caller `write` waits for it.
ADD_ONE = COUNT + "old: *self = self.and_one();\nnew: *self = Count::zero();\n"
EDITS = {
    "together": {
        "add_one_starts_anew": ADD_ONE,
        "comment_in_entries": COLUMN + "old: &self.entries\nnew: &self.entries // all of them\n",
        "comment_in_write": COLUMN + "old: .add_one();\nnew: .add_one(); // once\n",
    },
    "not_compiled": {
        "add_one_starts_anew": ADD_ONE,
        "name_is_unknown": COLUMN + "old: &self.entries\nnew: &self.rows\n",
        "bracket_is_missing": COLUMN + "old: = entry;\nnew: = (entry;\n",
    },
    "not_applied": {
        "old_stands_twice": COUNT + "old: Count {}\nnew: Count { }\n",
        "old_stands_nowhere": COUNT + "old: Count { 1 }\nnew: Count {}\n",
        "new_is_missing": COUNT + "old: *self = self.and_one();\n",
    },
}


class Tried(unittest.TestCase):
    """Each test tries edits of the crate, as if none of its functions called another."""

    def tried(self, which):
        """The result of each edit, the report on each edit in its first check, and the closing
        lines with the status."""
        with tempfile.TemporaryDirectory(prefix="edits-test-") as room:
            top = pathlib.Path(room)
            shutil.copytree(
                build.TOP / "crates" / CRATE,
                top / "crates" / CRATE,
                ignore=shutil.ignore_patterns("out", "edits"),
            )
            below = " ".join(build.declared()[CRATE][1])
            (top / "crates.txt").write_text(f"{CRATE}: {below}\n")
            (top / "crates" / CRATE / "edits").mkdir()
            for name, words in EDITS[which].items():
                (top / "crates" / CRATE / "edits" / f"{name}.edit").write_text(words)
            first = {}
            with contextlib.ExitStack() as changed:
                changed.enter_context(mock.patch.object(build, "TOP", top))
                changed.enter_context(mock.patch.object(run, "KEPT", top / "kept"))
                changed.enter_context(mock.patch.object(groups.Calls, "calls", lambda *_: False))
                changed.enter_context(
                    mock.patch.object(run, "verdicts", noting(run.verdicts, first))
                )
                said = changed.enter_context(contextlib.redirect_stdout(io.StringIO()))
                found = run.Run(Lanes())
                run.Trial(found, CRATE).all()
                status = run.close(found)
        return (
            {label.split("/")[1]: it.what for label, it in found.verdicts.items()},
            first,
            said.getvalue().splitlines()[-2:],
            status,
        )

    def test_edit_that_changes_nothing_and_one_that_waits(self):
        ends, first, said, status = self.tried("together")
        wanted = {
            "add_one_starts_anew": GOAL,
            "comment_in_entries": THROUGH,
            "comment_in_write": UNDECIDED,
        }
        self.assertEqual(first, wanted)
        self.assertEqual(ends, {**wanted, "comment_in_write": THROUGH})
        self.assertEqual(said[1], "1 passed, 2 failed")
        self.assertEqual(status, 1)

    def test_edit_that_does_not_compile(self):
        ends, first, said, status = self.tried("not_compiled")
        self.assertEqual(first, {"add_one_starts_anew": UNDECIDED, "name_is_unknown": SHAPE})
        self.assertEqual(
            ends,
            {"add_one_starts_anew": GOAL, "name_is_unknown": SHAPE, "bracket_is_missing": SHAPE},
        )
        self.assertEqual(said[1], "1 passed, 2 failed")
        self.assertEqual(status, 1)

    def test_edit_that_cannot_be_applied(self):
        ends, _, said, status = self.tried("not_applied")
        self.assertEqual(set(ends.values()), {"BAD EDIT"})
        self.assertEqual(said[1], "0 passed, 3 failed")
        self.assertEqual(status, 1)


def noting(judge, first):
    """A judge that notes the report on each edit in its first check."""

    def judged(crate, group, texts, ended):
        found = judge(crate, group, texts, ended)
        for each, verdict in zip(group, found):
            first.setdefault(each.name, verdict.what)
        return found

    return judged


if __name__ == "__main__":
    sys.exit(0 if unittest.main(exit=False).result.wasSuccessful() else 1)
