"""Compares the results of the plans of examples/plans/ with the stored ones; `store_examples.py`
stores the present results.

Each folder has tables and `expected/` with the results and messages. If the arguments aren't the
usual ones, call.txt has them.
"""
import os
import re

from mcf_plan.answer import answer_to
from mcf_plan.programs import program
from support import COMPARED, PLANS, TOP, WithFolder, plan_of, rows_of, run, with_more

# Examples that the tests solve again with one unit more and one unit less.
SOLVED_AGAIN = ("transport", "network", "degenerate")


class Examples(WithFolder):
    """The plans of examples/plans/."""

    def test_stored_results(self):
        for folder in example_folders():
            with self.subTest(folder=folder.name):
                results, stored = results_of(folder, self.folder / folder.name), folder / "expected"
                self.assertEqual(sorted(results), sorted(path.name for path in stored.iterdir()))
                for name, text in results.items():
                    self.assertEqual(text, (stored / name).read_text(encoding="utf-8"), name)

    @staticmethod
    def read(name):
        """The tables of an example."""
        words = ("places", "routes")
        texts = {word: (PLANS / name / f"{word}.csv").read_text("utf-8") for word in words}
        sheets = answer_to(program("mcfplan"), ["flow"], texts).sheets.values()
        return [[sheet.heads, *(cells for _, cells in sheet.rows)] for sheet in sheets]

    def test_one_more_unit_of_room(self):
        for name in SOLVED_AGAIN:
            places, routes = self.read(name)
            plan = plan_of([places, routes])
            for number, result in enumerate(plan.routes, 1):
                if result.free:
                    continue
                again = plan_of([places, with_more(routes, number, "most", 1)])
                with self.subTest(name=name, route=number):
                    self.assertLessEqual(plan.cost - again.cost, result.saves)
                    self.assertTrue(plan.cost - again.cost == result.saves or not result.is_exact)

    def test_one_more_unit_on_a_route(self):
        for name in SOLVED_AGAIN:
            places, routes = self.read(name)
            plan = plan_of([places, routes])
            for number in range(1, len(routes), 1 if len(routes) < 20 else 6):
                if plan.routes[number - 1].dearer is not None:
                    with self.subTest(name=name, route=number):
                        self.check_one_more(places, routes, plan, number)

    def check_one_more(self, places, routes, plan, number):
        """Checks the figure on one more unit on a route: with the least amount so high."""
        route, result = plan.problem.routes[number - 1], plan.routes[number - 1]
        more = int(result.carries + 1 - route.least)
        again = plan_of([places, with_more(routes, number, "least", more)])
        tail, head = (plan.places[end - 1].group for end in (route.tail, route.head))
        self.assertTrue(again is None or again.cost - plan.cost >= result.dearer)
        self.assertTrue(
            not result.dearer or tail != head or again.cost - plan.cost == result.dearer
        )

    def test_one_more_unit_at_a_place(self):
        for name in SOLVED_AGAIN:
            tables = self.read(name)
            plan = plan_of(tables)
            count = len(plan.places)
            begin = min(range(count), key=lambda number: plan.places[number].costs)
            for end in range(0, count, 1 if count < 20 else 6):
                for units in (1, -1):
                    with self.subTest(name=name, end=end, units=units):
                        self.check_units(tables, plan, begin, end, units)

    def check_units(self, tables, plan, begin, end, units):
        """Checks the figures on one more unit, and on units from one place to another."""
        figure = plan.places[end].costs - plan.places[begin].costs
        changed = with_more(tables[0], begin + 1, "supply", units)
        again = plan_of([with_more(changed, end + 1, "supply", -units), tables[1]])
        self.assertTrue(again is None or again.cost - plan.cost >= units * figure)
        self.assertTrue(
            plan.places[begin].group != plan.places[end].group
            or again.cost - plan.cost == units * figure
        )

    def test_the_degenerate_example_is_degenerate(self):
        rows = rows_of(PLANS / "degenerate" / "expected" / "flows.csv", ";")
        self.assertTrue(any(row["exact"] == "no" for row in rows))

    def test_functions_are_short(self):
        for file in (TOP / "python").rglob("*.py"):
            for name, body in re.findall(
                r"^ *def (\w+)(.*(?:\n(?:(?! *def |\S).*)?)*)",
                file.read_text(encoding="utf-8"),
                re.M,
            ):
                self.assertLess(len(body.rstrip().splitlines()), 40, name)


def example_folders():
    """The folders of examples/plans/ that have tables."""
    return sorted(path for path in PLANS.iterdir() if path.is_dir())


def call_of(folder):
    """The arguments of the call of an example, which runs in the example's folder."""
    if (folder / "call.txt").exists():
        return (folder / "call.txt").read_text(encoding="utf-8").split()
    if (folder / "places.csv").exists():
        return ["flow", "places.csv", "routes.csv"]
    return ["pairs", "costs.csv"]


def results_of(folder, out):
    """The tables and messages that the tool writes for an example."""
    here = os.getcwd()
    os.chdir(folder)
    try:
        status, said, told = run(*call_of(folder), "-o", out)
    finally:
        os.chdir(here)
    results = {"said.txt": f"{said}{told}status {status}\n"}
    results.update(
        {
            name: (out / name).read_text(encoding="utf-8-sig")
            for name in COMPARED
            if (out / name).exists()
        }
    )
    return results
