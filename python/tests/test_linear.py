"""Compares plans over periods, and choices that keep to groups, with linear programs, which glpsol
and scipy (HiGHS) solve. A linear program says each column by itself; it knows of no network."""
import collections
import importlib.util
import itertools
import random
import re
import shutil
import subprocess
import unittest

from support import WithFolder
from test_planner import PROGRAM, Answering

GLPSOL = shutil.which("glpsol")
PERIODS = ("Jan", "Feb", "Mar")
CASES = 120


class Linear:
    """A linear program with variables from 0 on, by their names: the cost of each, and rows, each a
    sum with least and greatest value (None: without a limit)."""

    def __init__(self):
        self.costs, self.rows = {}, []

    def variable(self, name, cost=0):
        """A new variable, at some cost for each unit."""
        self.costs[name] = cost
        return name

    def keep(self, low, high, *terms):
        """Keeps a sum of terms, which are pairs of factor and name, within a range."""
        total = collections.Counter()
        for factor, name in terms:
            total[name] += factor
        self.rows.append((low, high, total))

    def text(self):
        """The program as glpsol reads it."""
        lines = ["Minimize", f" cost: {summed(self.costs)}", "Subject To"]
        for low, high, total in self.rows:
            ends = (("=", low),) if low == high else ((">=", low), ("<=", high))
            lines += [f" {summed(total)} {sign} {end}" for sign, end in ends if end is not None]
        return "\n".join([*lines, "End", ""])

    def least_by_scipy(self):
        """The least cost by scipy, None if nothing keeps to all rows."""
        from scipy.optimize import linprog

        names, bounds = list(self.costs), []
        for low, high, total in self.rows:
            factors = [total[name] for name in names]
            bounds += [(factors, high)] if high is not None else []
            bounds += [([-factor for factor in factors], -low)] if low is not None else []
        found = linprog(
            [self.costs[name] for name in names],
            A_ub=[factors for factors, _ in bounds],
            b_ub=[most for _, most in bounds],
            method="highs",
        )
        assert found.status in (0, 2), found.message
        return round(found.fun) if found.status == 0 else None


def summed(factors):
    """A sum as glpsol reads it."""
    terms = [
        f"{'-' if factor < 0 else '+'} {abs(factor)} {name}" for name, factor in factors.items()
    ]
    return " ".join(terms) or "0 nothing"


class PeriodCase:
    """Random tables over periods, with integers in all columns, and what they mean."""

    def __init__(self, seed):
        self.draw = draw = random.Random(seed)
        self.count, self.span = draw.randint(2, 4), draw.randint(2, 3)
        self.unused, self.short = draw.random() < 0.4, draw.random() < 0.6
        self.penalty = draw.randint(5, 40)
        self.places = {
            key: self.place(*key) for key in itertools.product(range(self.count), range(self.span))
        }
        self.routes = [self.route() for _ in range(draw.randint(3, 8))]
        self.balance()

    def place(self, _, period):
        """What a place has in a period."""
        draw, maybe = self.draw, lambda *span: draw.randint(*span) if draw.random() < 0.3 else None
        keeps = draw.random() < 0.6
        return {
            "supply": draw.randint(-6, 6),
            "least": maybe(0, 1),
            "most": maybe(6, 15),
            "cost": maybe(0, 4),
            "keep most": draw.choice([None, 3, 8]) if keeps else None,
            "keep cost": draw.randint(0, 3) if keeps else None,
            "first stock": maybe(0, 4) if period == 0 else None,
            "last stock": maybe(0, 2) if period == self.span - 1 else None,
        }

    def route(self):
        """A route: its ends, its numbers, whether it goes both ways, its period and its lead."""
        draw, both = self.draw, self.draw.random() < 0.2
        least = 0 if both or draw.random() < 0.8 else 1
        period = draw.choice([None, None, *range(self.span)])
        lead = draw.randint(0, self.span - 1 - (period or 0))
        ends = draw.randrange(self.count), draw.randrange(self.count)
        return (*ends, least, draw.choice([None, 4, 9]), draw.randint(0, 9), both, period, lead)

    def net(self, place, period):
        """What a place gives in a period, with its first stock and less its last stock."""
        says = self.places[place, period]
        return says["supply"] + (says["first stock"] or 0) - (says["last stock"] or 0)

    def balance(self):
        """Lets one place give or want what others lack or leave, mostly."""
        if self.draw.random() < 0.8:
            total = sum(self.net(*key) for key in self.places)
            self.places[self.count - 1, self.span - 1]["supply"] -= total

    def tables(self):
        """Both tables."""
        heads = list(self.places[0, 0])
        places = [",".join(["name,period", *heads])]
        for (place, period), says in sorted(self.places.items(), key=lambda one: one[0][::-1]):
            cells = ("" if says[head] is None else str(says[head]) for head in heads)
            places.append(",".join([f"P{place}", PERIODS[period], *cells]))
        routes = ["from,to,least,most,cost,both,period,lead"]
        for tail, head, least, most, cost, both, period, lead in self.routes:
            limit, way = "" if most is None else most, "yes" if both else ""
            begins = "" if period is None else PERIODS[period]
            routes.append(f"P{tail},P{head},{least},{limit},{cost},{way},{begins},{lead}")
        return "\n".join(places) + "\n", "\n".join(routes) + "\n"

    def words(self):
        """The options."""
        words = ["--unused", "allow"] if self.unused else []
        return words + (["--short", "allow", f"--penalty={self.penalty}"] if self.short else [])

    def linear(self):
        """The linear program."""
        linear, leaves, comes = (
            Linear(),
            collections.defaultdict(list),
            collections.defaultdict(list),
        )
        for number, (tail, head, least, most, cost, both, period, lead) in enumerate(self.routes):
            for begin in range(self.span - lead) if period is None else [period]:
                for way, ends in (("there", (tail, head)), ("back", (head, tail)))[: 1 + both]:
                    name = linear.variable(f"{way}_{number}_{begin}", cost)
                    linear.keep(least, most, (1, name))
                    leaves[ends[0], begin].append((1, name))
                    comes[ends[1], begin + lead].append((1, name))
        for (place, period), says in self.places.items():
            if period + 1 < self.span and says["keep cost"] is not None:
                name = linear.variable(f"stock_{place}_{period}", says["keep cost"])
                linear.keep(0, says["keep most"], (1, name))
                leaves[place, period].append((1, name))
                comes[place, period + 1].append((1, name))
        for key, says in self.places.items():
            self.add_stock(linear, key, says, (leaves[key], comes[key]))
            self.add_place(linear, key, says, (leaves[key], comes[key]))
        return linear

    def add_stock(self, linear, key, says, moves):
        """Adds the stock of a place: first stock enters it in the first period, or stays; last
        stock leaves it in the last period, or is missing."""
        (place, period), (leaves, comes) = key, moves
        first, last = (says[head] or 0 for head in ("first stock", "last stock"))
        begins = linear.variable(f"begins_{place}_{period}")
        linear.keep(0 if self.unused else first, first, (1, begins))
        comes.append((1, begins))
        ends = linear.variable(f"ends_{place}_{period}")
        lacks = linear.variable(f"unfilled_{place}_{period}", self.penalty)
        linear.keep(last, last, (1, ends), (1, lacks))
        linear.keep(0, last if self.short else 0, (1, lacks))
        leaves.append((1, ends))

    def add_place(self, linear, key, says, moves):
        """Adds a place in a period: all that comes in and is given passes through it, and goes out
        or is taken."""
        (place, period), (leaves, comes), supply = key, moves, says["supply"]
        through = linear.variable(f"through_{place}_{period}", says["cost"] or 0)
        given = linear.variable(f"given_{place}_{period}")
        lacks = linear.variable(f"lacks_{place}_{period}", self.penalty)
        linear.keep(0 if self.unused or supply < 0 else supply, max(supply, 0), (1, given))
        linear.keep(0, max(-supply, 0) if self.short else 0, (1, lacks))
        linear.keep(0, 0, (-1, through), (1, given), *comes)
        # what is missing never passes through
        linear.keep(max(-supply, 0), max(-supply, 0), (1, through), (1, lacks), *negated(leaves))
        linear.keep(says["least"] or 0, says["most"], (1, through))


def negated(terms):
    """The opposite terms."""
    return [(-factor, name) for factor, name in terms]


class GroupCase:
    """A random roster with nested or disjoint groups of things, and what it means."""

    def __init__(self, seed):
        draw = random.Random(seed)
        persons, things = draw.randint(2, 6), draw.randint(3, 8)
        pairs = itertools.product(range(persons), range(things))
        self.costs = {pair: draw.randint(0, 20) for pair in pairs if draw.random() < 0.7}
        self.costs.setdefault((0, 0), 1)
        self.takes = [draw.choice([(0, 3), (1, 2), (1, 4)]) for _ in range(persons)]
        self.needs = [draw.choice([(0, 2), (1, 1), (1, 2)]) for _ in range(things)]
        middle = draw.randint(1, things - 1)
        spans = [(0, middle), (middle, things), (0, draw.randint(1, middle))]
        self.groups = [
            (range(*span), (draw.choice([0, 0, 1]), draw.randint(1, 2)))
            for span in dict.fromkeys(spans[: draw.randint(1, 3)])
        ]

    def tables(self):
        """Both tables."""
        costs = ["who,what,cost,takes,needs"]
        for (who, what), cost in self.costs.items():
            ranges = (f"{low}..{high}" for low, high in (self.takes[who], self.needs[what]))
            costs.append(",".join((f"W{who}", f"T{what}", str(cost), *ranges)))
        groups = ["group,what,least,most"]
        for number, (members, (low, high)) in enumerate(self.groups):
            known = [what for what in members if any(pair[1] == what for pair in self.costs)]
            groups += [f"g{number},T{what},{low},{high}" for what in known]
        return "\n".join(costs) + "\n", "\n".join(groups) + "\n"

    def linear(self):
        """The linear program."""
        linear = Linear()
        names = {pair: linear.variable("x_%d_%d" % pair, cost) for pair, cost in self.costs.items()}
        for name in names.values():
            linear.keep(0, 1, (1, name))
        for side, ranges in enumerate((self.takes, self.needs)):
            for number, (low, high) in enumerate(ranges):
                terms = [(1, name) for pair, name in names.items() if pair[side] == number]
                if terms:
                    linear.keep(low, high, *terms)
        for who, (members, (low, high)) in itertools.product(range(len(self.takes)), self.groups):
            terms = [(1, name) for pair, name in names.items() if pair[0] == who]
            held = [(1, name) for (w, what), name in names.items() if w == who and what in members]
            named = any(pair[1] in members for pair in self.costs)
            if terms and named and (held or low):
                linear.keep(low, high, *(held or [(0, terms[0][1])]))
        return linear


class Solver(WithFolder):
    """Cases with a solver of linear programs."""

    def by_glpsol(self, linear):
        """The least cost by glpsol, None if nothing keeps to all rows."""
        files = self.put("case.lp", linear.text()), self.folder / "case.sol"
        words = [GLPSOL, "--lp", str(files[0]), "-o", str(files[1])]
        done = subprocess.run(words, stdout=subprocess.PIPE, check=True, timeout=60, text=True)
        text = files[1].read_text()
        if "OPTIMAL" in text:
            return round(float(re.search(r"cost = (\S+)", text)[1]))
        self.assertRegex(done.stdout + text, "NO (PRIMAL )?FEASIBLE|INFEASIBLE|UNDEFINED")
        return None


@unittest.skipUnless(PROGRAM.exists(), "bin/mcfplan isn't built")
class WithLinearPrograms(Answering, Solver):
    """Answers of the program beside solvers of linear programs."""

    def compare(self, cases, asked, solve):
        """Compares the answers to random cases with a solver. `asked` returns the words and the
        tables of a case."""
        seen = collections.Counter()
        for case in cases:
            best = solve(case.linear())
            words, tables = asked(case)
            status, rows = self.answered(words, tables)
            with self.subTest(tables=case.tables(), words=words):
                self.assertEqual(status, 1 if best is None else 0)
                self.assertTrue(best is None or rows.number("cost") == best)
            seen[status] += 1
        self.assertLess(CASES / 10, min(seen[status] for status in (0, 1)), seen)

    def compare_periods(self, solve):
        """Compares plans over periods."""

        def asked(case):
            return ["flow", "--decimal", ".", *case.words()], case.tables()

        self.compare(map(PeriodCase, range(CASES)), asked, solve)

    def compare_groups(self, solve):
        """Compares choices that keep to groups."""

        def asked(case):
            costs, groups = case.tables()
            return ["pairs", "--groups", str(self.put("groups.csv", groups))], [costs]

        self.compare(map(GroupCase, range(CASES)), asked, solve)

    @unittest.skipUnless(GLPSOL, "glpsol isn't there: plans over periods, compared with it")
    def test_periods_by_glpsol(self):
        self.compare_periods(self.by_glpsol)

    @unittest.skipUnless(GLPSOL, "glpsol isn't there: rosters with groups, compared with it")
    def test_groups_by_glpsol(self):
        self.compare_groups(self.by_glpsol)

    @unittest.skipUnless(importlib.util.find_spec("scipy"), "scipy isn't there: periods beside it")
    def test_periods_by_scipy(self):
        self.compare_periods(Linear.least_by_scipy)

    @unittest.skipUnless(importlib.util.find_spec("scipy"), "scipy isn't there: groups beside it")
    def test_groups_by_scipy(self):
        self.compare_groups(Linear.least_by_scipy)


if __name__ == "__main__":
    unittest.main()
