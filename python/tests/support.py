"""Helpers that the tests share: a run of the tool in this process, and folders of tables."""
import contextlib
import csv
import io
import pathlib
import stat
import tempfile
import unittest

from mcf_plan import cli
from mcf_plan.answer import answer_to
from mcf_plan.problem import NO_OPTIONS, Plan, Problem
from mcf_plan.programs import program

TOP = pathlib.Path(__file__).resolve().parents[2]
PLANS = TOP / "examples" / "plans"
# The results that tests compare: the tables. The picture depends on whether Graphviz is installed.
COMPARED = (
    "flows.csv",
    "stock.csv",
    "prices.csv",
    "pairs.csv",
    "groups.csv",
    "sums.csv",
    "bottleneck.csv",
)
PLACES = "name,supply\nMill,30\nWien,-18\nGraz,-12\n"
ROUTES = "from,to,least,most,cost\nMill,Wien,0,15,4\nMill,Graz,0,20,7\nGraz,Wien,0,10,2\n"


def run(*words):
    """Runs the tool. Returns its status, its standard output and its standard error."""
    said, told = io.TextIOWrapper(io.BytesIO(), "utf-8"), io.TextIOWrapper(io.BytesIO(), "utf-8")
    with contextlib.redirect_stdout(said), contextlib.redirect_stderr(told):
        status = cli.main([str(word) for word in words])
    texts = []
    for stream in (said, told):
        stream.flush()
        texts.append(stream.buffer.getvalue().decode("utf-8"))
    return status, texts[0], texts[1]


def rows_of(path, separator=","):
    """The rows of a table, as dicts by the heads of the columns."""
    with open(path, newline="", encoding="utf-8-sig") as table:
        return list(csv.DictReader(table, delimiter=separator))


def plan_of(tables, *words):
    """The plan of two tables, whose first rows have the heads, or None if no plan exists."""
    texts = {word: io.StringIO() for word in ("places", "routes")}
    for text, rows in zip(texts.values(), tables):
        csv.writer(text).writerows(rows)
    texts = {word: text.getvalue() for word, text in texts.items()}
    answer = answer_to(program("mcfplan"), ["flow", *words], texts)
    return Plan(Problem(answer, (None, None), NO_OPTIONS)) if answer.kind == "plan" else None


def with_more(rows, number, head, units):
    """A table of rows, of which a row has units more under a head."""
    changed, place = [list(row) for row in rows], rows[0].index(head)
    changed[number][place] = str(int(changed[number][place] or 0) + units)
    return changed


def last_limit(heads, row):
    """The head of the last limit of a row, if its last step has a limit."""
    limits = [head for head in heads if head.startswith("most")]
    costs = [head for head in heads if head.startswith("cost")]
    filled = [most for most, cost in zip(limits, costs) if row[heads.index(cost)]]
    return filled[-1] if filled and row[heads.index(filled[-1])] else None


def script(path, text):
    """Writes an executable shell script."""
    path.write_text("#!/bin/sh\n" + text)
    path.chmod(path.stat().st_mode | stat.S_IXUSR)


class WithFolder(unittest.TestCase):
    """A test with its own folder for tables and plans."""

    def setUp(self):
        scratch = tempfile.TemporaryDirectory()
        self.addCleanup(scratch.cleanup)
        self.folder = pathlib.Path(scratch.name)
        self.out = self.folder / "out"

    def put(self, name, text):
        """Writes a file with a text or with bytes."""
        (self.folder / name).write_bytes(text if isinstance(text, bytes) else text.encode())
        return self.folder / name

    def flow(self, places, routes, *more):
        """Runs `flow` on two tables."""
        return run(
            "flow",
            self.put("places.csv", places),
            self.put("routes.csv", routes),
            "-o",
            self.out,
            *more,
        )

    def made(self, name, places, routes, *words):
        """Makes a plan in a folder of this name."""
        self.out = self.folder / name
        self.flow(places, routes, *words)
        return self.out

    def pairs(self, costs, *more):
        """Runs `pairs` on a table."""
        return run("pairs", self.put("costs.csv", costs), "-o", self.out, *more)
