"""Runs the Dask script of docs/MANY.md with a stand-in for Dask, if the library is built."""
import contextlib
import csv
import io
import os
import sys
import types
import unittest
from unittest import mock

import commands
from support import WithFolder

try:
    import mcf
except (ImportError, OSError):
    mcf = None
FLOW = "p min 2 1\nn 1 3\nn 2 -3\na 1 2 0 %s 5\n"


class Job:
    """A finished job, or one that killed its workers."""

    def __init__(self, work, path):
        self.status = "error" if path.stem == "killed" else "finished"
        self.result = lambda: work(path)


class Client:
    """A cluster that runs a job in this process when the caller asks for its result."""

    def __init__(self, **_):
        pass

    def __enter__(self):
        return self

    def __exit__(self, *_):
        pass

    def map(self, work, paths):
        """The jobs."""
        return [Job(work, path) for path in paths]


@unittest.skipUnless(mcf, "libmcf isn't built: the script for Dask")
class Many(WithFolder):
    """The script, run in a folder with instances."""

    def setUp(self):
        super().setUp()
        self.addCleanup(os.chdir, os.getcwd())
        os.chdir(self.folder)
        (self.folder / "jobs").mkdir()

    def test_the_script(self):
        blocks = commands.blocks("docs/MANY.md")
        (script,) = [block.text for block in blocks if block.words.get("file") == "many.py"]
        for name, text in (
            ("a b", FLOW % 4),
            ("blocked", FLOW % 2),
            ("faulty", FLOW % "x"),
            ("killed", FLOW % 3),
        ):
            self.put(f"jobs/{name}.min", text)
        (self.folder / "jobs" / "nowhere.min").symlink_to("nowhere")
        cluster, told = types.SimpleNamespace(Client=Client, as_completed=list), io.StringIO()
        with mock.patch.dict(sys.modules, {"dask": cluster, "dask.distributed": cluster}):
            with contextlib.redirect_stderr(told):
                exec(script, {"__name__": "__main__"})
        with open("log.csv", newline="") as log:
            rows = {
                row["instance"]: (row["status"], row["cost"], row["answer_sha256"])
                for row in csv.DictReader(log)
            }
        self.assertEqual([len(sha256) for _, _, sha256 in rows.values()], [64, 64, 64, 0, 0])
        self.assertEqual(
            {name: row[:2] for name, row in rows.items()},
            {
                "jobs/a b.min": ("0", "15"),
                "jobs/blocked.min": ("1", ""),
                "jobs/faulty.min": ("2", ""),
                "jobs/killed.min": ("3", ""),
                "jobs/nowhere.min": ("3", ""),
            },
        )
        answers = sorted(
            path.name for path in (self.folder / "jobs").iterdir() if path.suffix != ".min"
        )
        self.assertEqual(answers, ["a b.ans", "blocked.ans", "faulty.ans"])
        self.assertEqual((self.folder / "jobs" / "faulty.ans").read_text(), "r 4 number\n")
        self.assertIn("jobs/nowhere.min", told.getvalue())
