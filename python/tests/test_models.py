"""Compares plans from tables with all kinds of columns with glpsol, which gets the problem as a
linear program, and with networkx."""
import collections
import csv
import importlib.util
import io
import random
import re
import shutil
import subprocess
import unittest

from mcf_plan.results import THROUGH_RESULTS
from support import WithFolder, last_limit, plan_of, rows_of, with_more

GLPSOL = shutil.which("glpsol")


class Case:
    """Random places and routes that use all columns, as tables and as a linear program."""

    def __init__(self, seed, policy=None):
        draw = random.Random(seed)
        self.policy = policy or draw.choice(["", "unused", "short", "both"])
        self.penalty = draw.randint(0, 30)
        count = draw.randint(2, 5)
        self.supplies = [draw.randint(-6, 6) for _ in range(count)]
        if draw.random() < 0.7:
            self.supplies[-1] -= sum(self.supplies)
        self.bounds = [
            (
                (draw.randint(0, 2), draw.choice([None, draw.randint(4, 12)]), draw.randint(0, 5))
                if draw.random() < 0.5
                else None
            )
            for _ in range(count)
        ]
        self.routes = [self.route(draw, count) for _ in range(draw.randint(3, 9))]
        self.penalties = [
            draw.randint(0, 30) if supply < 0 and draw.random() < 0.5 else None
            for supply in self.supplies
        ]

    @staticmethod
    def route(draw, count):
        """A route: its ends, its least amount, its steps, and whether it goes both ways."""
        both = draw.random() < 0.3
        steps, cost = [], draw.randint(0, 9)
        for _ in range(draw.randint(1, 3)):
            steps.append((draw.randint(1, 6), cost))
            cost += draw.randint(0, 5)
        if draw.random() < 0.2:
            steps[-1] = (None, steps[-1][1])
        least = (
            0
            if both or draw.random() < 0.6
            else min(draw.randint(0, 4), sum(most or 9 for most, _ in steps))
        )
        return draw.randrange(count), draw.randrange(count), least, steps, both

    def tables(self):
        """The two tables."""
        places = ["name,supply,least,most,cost,penalty"]
        columns = zip(self.supplies, self.bounds, self.penalties)
        for number, (supply, bounds, penalty) in enumerate(columns):
            values = [supply, *(bounds or [None] * 3), penalty]
            cells = ",".join("" if value is None else str(value) for value in values)
            places.append(f"P{number},{cells}")
        routes = ["from,to,least,most,cost,most 2,cost 2,most 3,cost 3,both"]
        for tail, head, least, steps, both in self.routes:
            cells = [("" if most is None else str(most), str(cost)) for most, cost in steps] + [
                ("", "")
            ] * (3 - len(steps))
            routes.append(
                f"P{tail},P{head},{least},"
                + ",".join(",".join(pair) for pair in cells)
                + (",yes" if both else ",")
            )
        return "\n".join(places) + "\n", "\n".join(routes) + "\n"

    def program(self):
        """The linear program: a variable for each step and direction, a constraint for each
        place."""
        costs, rows, bounds, outs, ins = [], [], [], {}, {}
        for number, (tail, head, least, steps, both) in enumerate(self.routes):
            for step, (most, cost) in enumerate(steps):
                for way, (begin, end) in (("f", (tail, head)), ("b", (head, tail)))[
                    : 2 if both else 1
                ]:
                    name = f"{way}{number}_{step}"
                    costs.append((cost, name))
                    bounds.append(f"0 <= {name} <= {most}" if most is not None else f"{name} >= 0")
                    outs.setdefault(begin, []).append(name)
                    ins.setdefault(end, []).append(name)
            names = [f"f{number}_{step}" for step in range(len(steps))]
            rows.append(f"{' + '.join(names)} >= {least}")
        for number, (supply, bounded) in enumerate(zip(self.supplies, self.bounds)):
            rows.append(self.balance(number, supply, outs, ins, costs))
            if bounded:
                least, most, cost = bounded
                through = ins.get(number, []) + ([f"sent{number}"] if supply > 0 else [])
                rows.append(f"{sum_of([f't{number}'], through)} = 0")
                costs.append((cost, f"t{number}"))
                bounds += [f"t{number} >= {least}"] + (
                    [f"t{number} <= {most}"] if most is not None else []
                )
            if supply > 0:
                bounds.append(
                    f"0 <= sent{number} <= {supply}"
                    if self.policy in ("unused", "both")
                    else f"sent{number} = {supply}"
                )
            elif supply < 0:
                bounds.append(
                    f"0 <= lack{number} <= {-supply if self.policy in ('short', 'both') else 0}"
                )
        return program_text(costs, rows, bounds)

    def balance(self, number, supply, outs, ins, costs):
        """Flow conservation at a place: outflow = inflow + what the place sends - what it takes,
        without what is missing there."""
        out, come = outs.get(number, []), ins.get(number, [])
        if supply < 0:
            own = self.penalties[number]
            costs.append((self.penalty if own is None else own, f"lack{number}"))
            return f"{sum_of(out, come + [f'lack{number}'])} = {supply}"
        return f"{sum_of(out, come + [f'sent{number}'] * (supply > 0))} = 0"

    def is_one_sided(self):
        """Whether some places send and none takes, or some take and none sends."""
        return (max(self.supplies) > 0) != (min(self.supplies) < 0)

    def words(self):
        """The options."""
        words = ["--unused", "allow"] if self.policy in ("unused", "both") else []
        return words + (
            ["--short", "allow", "--penalty", str(self.penalty)]
            if self.policy in ("short", "both")
            else []
        )


def program_text(costs, rows, bounds):
    """The text of a linear program."""
    goal = " + ".join(f"{cost} {name}" for cost, name in costs) or "0 x"
    numbered = "\n".join(f" r{number}: {row}" for number, row in enumerate(rows))
    return (
        f"Minimize\n obj: {goal}\nSubject To\n{numbered}\nBounds\n"
        + "\n".join(f" {bound}" for bound in bounds)
        + "\nEnd\n"
    )


def sum_of(added, taken):
    """A sum of a linear program, in which each name occurs once."""
    counts = collections.Counter(added)
    counts.subtract(taken)
    return (
        " ".join(
            f"{'+' if count >= 0 else '-'} {abs(count)} {name}" for name, count in counts.items()
        )
        or "0 none"
    )


class OneMoreUnit(WithFolder):
    """The saving by one more unit of room (capacity), of routes with steps and in both directions,
    and of places."""

    WORDS = ("--unused", "allow", "--short", "allow", "--penalty", "40")

    def test_random_tables(self):
        seen = collections.Counter()
        for seed in range(100, 125):
            tables = [list(csv.reader(io.StringIO(text))) for text in Case(seed).tables()]
            for row in tables[0][1:]:
                row[1] = str(3 * int(row[1]))
            plan = plan_of(tables, *self.WORDS)
            for result, again in self.wider(*tables, plan) if plan else ():
                with self.subTest(seed=seed):
                    self.assertLessEqual(plan.cost - again.cost, result.saves)
                    self.assertTrue(plan.cost - again.cost == result.saves or not result.is_exact)
                    seen[result.is_exact, result.saves > 0] += 1
        self.assertTrue(seen[True, True] > 5 and seen[True, False] > 5, seen)

    def wider(self, places, routes, plan):
        """The results of plans with one more unit of room, for each limit."""
        for number, result in enumerate(plan.routes, 1):
            head = last_limit(routes[0], routes[number])
            if head:
                yield result, plan_of([places, with_more(routes, number, head, 1)], *self.WORDS)
        for number, result in enumerate(plan.places, 1):
            if result.through and places[number][3]:
                wider = with_more(places, number, "most", 1)
                yield result.through, plan_of([wider, routes], *self.WORDS)


@unittest.skipUnless(GLPSOL, "glpsol isn't there: what tables may ask, compared with it")
class WithGlpsol(WithFolder):
    """All columns at once."""

    def best(self, case):
        """The least cost by glpsol, or None if no plan exists."""
        program = self.put("case.lp", case.program())
        done = subprocess.run(
            [GLPSOL, "--lp", str(program), "-o", str(self.folder / "case.sol")],
            stdout=subprocess.PIPE,
            check=True,
            timeout=60,
        )
        text = (self.folder / "case.sol").read_text()
        if "OPTIMAL" not in text:
            self.assertTrue(
                "NO PRIMAL FEASIBLE" in done.stdout.decode()
                or "NO FEASIBLE" in done.stdout.decode()
                or "INFEASIBLE" in text
                or "UNDEFINED" in text,
                text,
            )
            return None
        return round(float(re.search(r"obj = (\S+)", text)[1]))

    def test_random_tables(self):
        plans = 0
        for seed in range(90):
            case = Case(seed)
            best = self.best(case)
            status, said, told = self.flow(*case.tables(), *case.words(), "--no-picture")
            with self.subTest(seed=seed):
                self.assertEqual(status, 1 if best is None else 0, case.tables())
                slip = "mcf_plan: warning: no supply is " if case.is_one_sided() else ""
                self.assertTrue(told.startswith(slip) and bool(told) == bool(slip), told)
                self.assertTrue(
                    best is None or f"cost {best}." in said, (best, said, case.tables())
                )
            plans += best is not None
        self.assertGreater(plans, 20)


@unittest.skipUnless(
    importlib.util.find_spec("networkx"),
    "networkx isn't there: the most flow at the least cost, compared with it",
)
class WithNetworkx(WithFolder):
    """The greatest flow at the least cost."""

    def test_random_networks(self):
        import networkx

        for seed in range(30):
            draw = random.Random(seed)
            count, graph = draw.randint(3, 7), networkx.DiGraph()
            graph.add_nodes_from(range(count))
            for _ in range(draw.randint(3, 14)):
                tail, head = draw.sample(range(count), 2)
                graph.add_edge(tail, head, capacity=draw.randint(1, 9), weight=draw.randint(0, 9))
            flows = networkx.max_flow_min_cost(graph, 0, count - 1)
            value, cost = sum(flows[0].values()) - sum(
                flows[node].get(0, 0) for node in flows
            ), networkx.cost_of_flow(graph, flows)
            places = "name,supply\n" + "".join(
                f"{node},{999 if node == 0 else -999 if node == count - 1 else 0}\n"
                for node in range(count)
            )
            routes = "from,to,most,cost\n" + "".join(
                f"{tail},{head},{edge['capacity']},{edge['weight']}\n"
                for tail, head, edge in graph.edges(data=True)
            )
            status, said, told = self.flow(places, routes, "--most-flow", "--no-picture")
            with self.subTest(seed=seed):
                self.assertEqual((status, told), (0, ""))
                self.assertIn(f"cost {cost}.", said)
                self.assertIn(f"{999 - value} stay at: 0 {999 - value}.", said)


class Columns(WithFolder):
    """The columns, one by one."""

    def test_steps(self):
        routes = (
            "from,to,least,most,cost,most 2,cost 2,most 3,cost 3\nA,B,0,3,1,2,4,,9\nA,B,0,4,5,,,,\n"
        )
        status, said, _ = self.flow("name,supply\nA,11\nB,-11\n", routes)
        self.assertEqual(status, 0)
        self.assertIn("cost 49.", said)
        self.assertEqual(
            [
                (row["carries"], row["total"], row["free"])
                for row in rows_of(self.out / "flows.csv")
            ],
            [("7", "29", ""), ("4", "20", "0")],
        )
        for cells, text in (
            (",3,5,2,4,,", "column cost 2: '4' is below the cost of the step before"),
            (",,5,2,6,,", "column most 2: the step before is without"),
            (",3,5,2,,,", "column cost 2: the number is empty"),
            (",3,5,-2,6,,", "column most 2: '-2' is below 0"),
        ):
            self.assertIn(
                text,
                self.flow(
                    "name,supply\nA,0\n",
                    f"from,to,least,most,cost,most 2,cost 2,most 3,cost 3\nA,A,{cells}\n",
                )[2],
            )

    def test_steps_that_limit_are_told_together(self):
        routes = "from,to,least,most,cost,most 2,cost 2\nA,B,,3,1,2,4\n"
        said = self.flow("name,supply\nA,11\nB,-11\n", routes)[1]
        self.assertIn("A must send 11, and can send only 5, over A -> B (5). Short by 6.", said)
        self.assertIn("1,send,route,,A,B,,5", (self.out / "bottleneck.csv").read_text())

    def test_places_with_bounds(self):
        places = "name,supply,most,cost\nA,9,,\nHub,0,5,2\nB,-9,,\n"
        routes = "from,to,most,cost\nA,Hub,,1\nHub,B,,1\nA,B,,7\n"
        status, said, _ = self.flow(places, routes)
        self.assertEqual(status, 0)
        self.assertIn("cost 48.", said)
        self.assertIn(
            (
                "Passing through places costs 10 of that.\nOne more unit of room would save most"
                " on:\n  Hub -> (through): 3\n"
            ),
            said,
        )
        rows = rows_of(self.out / "prices.csv")
        self.assertEqual(
            [rows[1][head] for head in THROUGH_RESULTS], ["5", "10", "0", "3", "yes", ""]
        )
        status, said, _ = self.flow(places, routes.replace("A,B,,7", "A,B,3,7"))
        self.assertEqual(status, 1)
        self.assertIn(
            (
                "A, Hub together must send 9, and can send only 8, over A -> B (3), through Hub"
                " (5). Short by 1."
            ),
            said,
        )
        self.assertIn("1,send,through,Hub,,,,5", (self.out / "bottleneck.csv").read_text())
        self.assertIn("≤ 5 pass", (self.out / "plan.svg").read_text(encoding="utf-8"))

    def test_both_ways(self):
        routes = "from,to,most,cost,both\nA,B,4,3,yes\nB,C,4,3,\nC,A,9,1,ja\n"
        status, said, _ = self.flow("name,supply\nA,5\nB,-4\nC,-1\n", routes)
        self.assertEqual(status, 0)
        self.assertEqual(
            [row["carries"] for row in rows_of(self.out / "flows.csv")], ["4", "0", "-1"]
        )
        self.assertIn(
            "<title>A -&gt; C: 1 of 9, either way, cost 1</title>",
            (self.out / "plan.svg").read_text(),
        )
        self.assertIn("cost 13.", said)
        for cells, text in (
            ("A,B,4,3,perhaps", "'perhaps' is neither yes nor no"),
            ("A,B,4,-3,yes", "has no least, and no cost below 0"),
        ):
            self.assertIn(
                text, self.flow("name,supply\nA,0\nB,0\n", f"from,to,most,cost,both\n{cells}\n")[2]
            )

    def test_a_step_beyond_the_limits(self):
        told = self.flow(
            "name,supply\nA,0\n", "from,to,most,cost,most 2,cost 2\nA,A,1,1,1,1000000000000001\n"
        )[2]
        self.assertIn("column cost: '1' or '1000000000000001' is beyond the limits", told)
