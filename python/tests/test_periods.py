"""The proved program on random tables over periods, beside plans by plain Python."""
import collections
import random
import unittest

from plain_periods import CROWDED, ROOMY, period_tables, random_period_problem
from plain_plans import is_bottleneck, why_no_plan, why_wrong_figures
from plain_ranges import why_wrong_passes, why_wrong_ranges, why_wrong_rooms, why_wrong_supplies
from random_tables import Notation
from test_planner import PROGRAM, Answering, repeated, rows_of

CASES, FIGURE_CASES, RANGE_CASES = 500, 60, 60
# The words of the rows that tell from what to what costs may change, and for how many units figures
# hold.
RANGE_WORDS = ("range", "keep range", "room range", "keep room range", "pass range", "supply range")


def faulty(places, routes, *faults):
    """Texts of places and of routes, and their faults: the table, the line, the column and what is
    wrong, with commas between them."""
    return places, routes, [tuple(fault.split(", ", 3)) for fault in faults]


# Tables with faults about periods. All faults of heads are told at once, and all of rows.
FAULTS = [
    faulty(
        "nmae,supply,perod\nA,1,Jan\nA,-1,\n",
        "from,to,most,cost,lead\nA,A,1,x,1\n",
        "places, 1, name, no such column",
        "places, 1, 1, nearly name",
        "routes, 1, lead, not read without period",
        "places, 1, 3, nearly period",
    ),
    faulty(
        "name,supply,period,keep most\nA,x,Jan,y\nA,-1,Feb,\n",
        "from,to,most,cost,lead,period\nA,B,1,x,1.5,May\n",
        "places, 2, supply, no number",
        "routes, 2, to, no such place",
        "routes, 2, cost, no number",
        "places, 2, keep most, no number",
        "routes, 2, period, no such period",
        "routes, 2, lead, no number of periods",
    ),
    faulty(
        "name,supply,period\nA,1,Jan\nA,-1,Jan\n",
        "from,to,most,cost\nA,A,1,1\n",
        "places, 3, period, named twice in a period",
    ),
    faulty(
        "name,supply,period,keep most,keep cost\nA,1,Jan,-1,\nA,-1,,x,y\n",
        "from,to,most,cost,lead\nA,A,1,1,1.5\nA,A,1,1,-1\n",
        "places, 2, keep most, below 0",
        "places, 3, period, named twice in a period",
        "places, 3, keep most, no number",
        "places, 3, keep cost, no number",
        "routes, 2, lead, no number of periods",
        "routes, 3, lead, no number of periods",
    ),
    faulty(
        "name,supply,period,first stock,last stock\nA,1,Jan,,2\nA,-1,Feb,2,-1\n",
        "from,to,most,cost,period\nA,A,1,1,March\n",
        "places, 2, last stock, not in the last period",
        "places, 3, first stock, not in the first period",
        "places, 3, last stock, below 0",
        "routes, 2, period, no such period",
    ),
    faulty(
        "name,supply\nA,0\n",
        "from,to,most,cost,lead\nA,A,1,1,1\n",
        "routes, 1, lead, not read without period",
    ),
    faulty(
        "name,supply,perod,keep most,keep-cost\nA,0,Jan,1,1\n",
        "from,to,most,cost,period,load\nA,A,1,1,Jan,1\n",
        "places, 1, keep most, not read without period",
        "routes, 1, period, not read without period",
        "places, 1, 3, nearly period",
        "places, 1, 5, nearly keep cost",
    ),
    faulty(
        "name,supply\nA,0\n",
        "from,to,most,cost,Periods\nA,A,1,1,Jan\n",
        "routes, 1, 5, nearly period",
    ),
    faulty(
        "name,supply,period\nA,0,Jan\n",
        "from,to,most,cost,lead\nA,A,1,1,1\nA,B,1,1,0\n",
        "routes, 3, to, no such place",
    ),
    faulty(
        "name,supply,period\nA,0,Jan\n",
        "from,to,most,cost,lead\nA,A,1,1,1\nA,A,1,1,0\n",
        "routes, 2, lead, arrives after the last period",
    ),
    faulty(
        "name,supply,period,keep most,keep cost\nA,0,Jan,,\nA,0,Feb,,-1\nA,0,March,,\n",
        "from,to,most,cost,most 2,cost 2,lead\nA,A,1,5,4,2,2\n",
        "places, 3, keep most, no limit, but a cost below 0",
        "routes, 2, cost, falling cost",
    ),
]


@unittest.skipUnless(PROGRAM.exists(), "bin/mcfplan isn't built")
class Periods(Answering):
    """Random problems over periods, whose tables are written in random ways."""

    def asked(self, rng, late, *more, kind=ROOMY):
        """A random problem, the rows of its tables by line, and the status and the rows of the
        answer with further options."""
        notation = Notation(rng)
        problem = random_period_problem(rng, notation, late, kind)
        texts = [notation.text(*table) for table in period_tables(rng, notation, problem)]
        tables = [rows_of(notation, *pair) for pair in zip(texts, ("name", "from"))]
        policy = problem.policy
        says_mark = notation.says_mark or (policy.penalty or 0) % 1 != 0
        words = ["--decimal", notation.mark] if says_mark else []
        words += ["--unused", "allow"] * policy.unused + ["--short", "allow"] * policy.short
        if policy.penalty is not None:
            words.append(f"--penalty={notation.plain(policy.penalty)}")
        return problem, texts, tables, *self.answered(["flow", *words, *more], texts)

    def lines(self, tables):
        """The lines of the rows below the heads of both tables."""
        return [sorted(table)[1:] for table in tables]

    def check_late(self, problem, tables, rows):
        """The faults of rows of routes that arrive too late."""
        lines = self.lines(tables)[1]
        late = [str(lines[number]) for number in problem.late_rows()]
        found = [(table, line, column) for table, line, column, *_ in rows.by_word["fault"]]
        self.assertEqual(found, [("routes", line, "lead") for line in late])

    def check(self, problem, tables, status, rows):
        """The answer to tables without faults of cells."""
        flat = problem.flat()
        best = None if flat.has_fault() else flat.least()
        self.assertEqual(status, 2 if flat.has_fault() else 0 if best else 1)
        if status == 0:
            told = problem.flat_plan(rows, self.lines(tables))
            self.assertIsNotNone(told)
            self.assertIsNone(why_no_plan(flat, told))
            self.assertEqual(rows.number("cost"), best[0])
            if not flat.names_penalty():
                self.assertEqual(rows.number("missing"), best[1])
        if status == 1:
            self.assertTrue(is_bottleneck(problem.policy, problem.flat_bottleneck(rows)))

    def test_random_problems(self):
        rng, statuses = random.Random(20261203), collections.Counter()
        for case in range(CASES):
            problem, texts, tables, status, rows = self.asked(rng, 0.1)
            with self.subTest(case=case, texts=texts, policy=problem.policy):
                if problem.late_rows():
                    self.assertEqual(status, 2)
                    self.check_late(problem, tables, rows)
                else:
                    self.check(problem, tables, status, rows)
                for word, table in zip(("places", "routes"), tables):
                    self.assertEqual(repeated(rows, word), table)
            statuses["late" if problem.late_rows() else status] += 1
            statuses["keep"] += any(cells[2] != "0" for cells in rows.by_word["keep"])
        self.assertLess(CASES / 25, min(statuses[key] for key in (0, 1, 2, "late", "keep")))

    def test_faults(self):
        for places, routes, wanted in FAULTS:
            with self.subTest(places=places, routes=routes):
                status, rows = self.answered(["flow", "--decimal", "."], [places, routes])
                found = [tuple(cells[:4]) for cells in rows.by_word["fault"]]
                self.assertEqual((status, found), (2, wanted))

    def test_marks(self):
        """Columns about periods show the mark before decimals, too; one that differs is a fault."""
        routes = "from;to;most;cost;lead\nA;B;;1;1\n"
        for supply, wanted in (("1", (0, [","], [])), ("1.5", (2, [""], ["2", "4"]))):
            places = f"name;supply;period;keep cost\nA;{supply};W1;1,5\nB;-1;W2;\n"
            with self.subTest(places=places):
                status, rows = self.answered(["flow"], [places, routes])
                faults = [cells[1:3] for cells in rows.by_word["fault"]]
                marks = [cells[0] for cells in rows.by_word["mark"]]
                self.assertEqual((status, marks, sum(faults, [])), wanted)

    def test_random_figures(self):
        rng, seen = random.Random(3), collections.Counter()
        while seen[0] < FIGURE_CASES:
            problem, texts, tables, status, rows = self.asked(rng, 0.0)
            seen[status] += 1
            if status == 0:
                flat = problem.flat()
                with self.subTest(texts=texts, policy=problem.policy):
                    told = problem.flat_plan(rows, self.lines(tables))
                    self.assertIsNone(why_wrong_figures(flat, told))

    def test_random_ranges(self):
        rng, seen = random.Random(11), collections.Counter()
        while seen[0] < RANGE_CASES:
            asked = self.asked(rng, 0.0, "--ranges", "yes", kind=CROWDED)
            problem, texts, tables, status, rows = asked
            seen[status] += 1
            if status == 0:
                flat = problem.flat()
                with self.subTest(texts=texts, policy=problem.policy):
                    told = problem.flat_plan(rows, self.lines(tables))
                    self.assertIsNotNone(told)
                    self.assertIsNone(why_wrong_ranges(flat, told))
                    self.assertIsNone(why_wrong_supplies(flat, told))
                    if flat.names_penalty() or not rows.number("missing"):
                        self.assertIsNone(why_wrong_rooms(flat, told))
                        self.assertIsNone(why_wrong_passes(flat, told))
                        seen.update({word: len(rows.by_word[word]) for word in RANGE_WORDS})
        self.assertLess(RANGE_CASES / 12, min(seen[word] for word in RANGE_WORDS))


if __name__ == "__main__":
    unittest.main()
