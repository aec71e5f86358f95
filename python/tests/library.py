"""The tests of the package mcf, with the standard library alone, and with networkx and scipy if
they are installed. MCF_LIBRARY names the library."""
import copy
import doctest
import itertools
import math
import multiprocessing
import os
import pathlib
import pickle
import random
import shutil
import signal
import subprocess
import sys
import tempfile
import threading
import time
import tracemalloc
import unittest
from decimal import Decimal
from fractions import Fraction
from unittest import mock

TOP = pathlib.Path(__file__).resolve().parents[2]
sys.path.insert(0, str(TOP / "python"))
import mcf
import mcf._library
import mcf._limits
import mcf._numbers
import mcf._solving
import mcf.assignment
import mcf.simple
import mcf.transportation
from optional import installed

# Calls of networkx with mcf as a backend; what mcf refuses, networkx answers.
FALLING_BACK = """
import networkx as nx
import sys
if not hasattr(getattr(nx, "config", None), "backends"):
    print("no backends")
    sys.exit()
G = nx.DiGraph()
G.add_node("a", demand=-3)
G.add_node("b", demand=3)
G.add_edge("a", "b", weight=1 / 3, capacity=sys.maxsize)
own = nx.network_simplex(G)
try:
    nx.network_simplex(G, backend="mcf")
except NotImplementedError:
    print("refused")
nx.config.backend_priority = ["mcf"]
print(nx.network_simplex(G) == own, nx.min_cost_flow_cost(G) == own[0])
G.add_edge("a", "b", weight=0.25)
print(nx.network_simplex(G, backend="mcf")[0])
flow = nx.maximum_flow(G, "a", "b", flow_func=nx.algorithms.flow.dinitz)
print(flow[0] == sys.maxsize)
print(nx.minimum_cut_value(G, "a", "b") == sys.maxsize)
G.add_edge("a", "b", capacity=7)
print(nx.minimum_cut_value(G, "a", "b", backend="mcf"))
"""


def load_tests(loader, tests, pattern):
    """Adds the examples of the docstrings, and the tests of transport problems."""
    for name in ("assignments", "edited", "small", "transports"):
        tests.addTests(loader.loadTestsFromName(name))
    for module in (
        mcf,
        mcf._solving,
        mcf.assigning,
        mcf.assignment,
        mcf.simple,
        mcf.transportation,
    ):
        tests.addTests(
            doctest.DocTestSuite(
                module, optionflags=doctest.ELLIPSIS | doctest.IGNORE_EXCEPTION_DETAIL
            )
        )
    if installed("networkx"):
        tests.addTests(doctest.DocTestSuite("mcf.nx"))
    if installed("numpy"):
        tests.addTests(doctest.DocTestSuite("mcf.earth_mover"))
    return tests


INF = float("inf")

# Hostile doubles: random, ulps, signs, subnormals, wide spans, 1e16 as forbidden, infinities.
HOSTILE = (
    lambda chance: chance.random(),
    lambda chance: 1.0 + chance.randrange(4) * 2.0**-52,
    lambda chance: chance.choice((-1.0, 1.0)) * chance.randrange(3) * 0.1,
    lambda chance: chance.randrange(9) * 5e-324,
    lambda chance: chance.random() * 2.0 ** chance.randrange(-25, 25),
    lambda chance: chance.choice((1e16, chance.random(), chance.random())),
    lambda chance: chance.choice((1e15, -1e15, 0.0)) + chance.random(),
    lambda chance: chance.choice((INF, INF, chance.random())),
    lambda chance: chance.choice((-1, 1)) * 1e307 * (1 + chance.randrange(3) * 2.0**-52),
)


def _least(C):
    """The exact least sum, or None if each matching has an infinite entry."""
    n, m = C.shape
    table = [[None if c == INF else Fraction(float(c)) for c in row] for row in C.tolist()]
    if n > m:
        table, n, m = list(zip(*table)), m, n
    sums = []
    for order in itertools.permutations(range(m), n):
        entries = [table[i][j] for i, j in enumerate(order)]
        if None not in entries:
            sums.append(sum(entries))
    return min(sums, default=None)


def _taken(C, maximize):
    """The exact sum of the matching that the module finds, or None if it finds that there is none;
    for the greatest sum, with its sign changed."""
    try:
        rows, columns = mcf.linear_sum_assignment(C, maximize)
    except ValueError:
        return None
    assert len(rows) == min(C.shape) and len(set(columns.tolist())) == len(columns)
    assert rows.tolist() == sorted(set(rows.tolist()))
    total = sum(Fraction(float(c)) for c in C[rows, columns])
    return -total if maximize else total


def solve_by_place(supply):
    """A call for a pool of processes: no flow is feasible if the supply exceeds 3."""
    return mcf.solve([supply, -supply], [(0, 1, 3, 1)]).cost


class CostRanges(unittest.TestCase):
    """From what to what the cost of an arc may change while a flow stays least."""

    def least(self, problem, costs):
        supplies, src, dst, cap, _ = problem
        return mcf.solve_arrays(supplies, src, dst, cap, costs).cost

    def test_ends(self):
        """At each end the flow is least, and beyond it another flow costs less."""
        chance = random.Random(5)
        for _ in range(60):
            nodes, arcs = chance.randint(2, 5), chance.randint(1, 9)
            src, dst = ([chance.randrange(nodes) for _ in range(arcs)] for _ in range(2))
            cap = [chance.randint(0, 4) for _ in range(arcs)]
            cost = [chance.randint(-3, 6) for _ in range(arcs)]
            flow = [chance.randint(0, most) for most in cap]
            supplies = [0] * nodes
            for u, v, amount in zip(src, dst, flow):
                supplies[u] += amount
                supplies[v] -= amount
            problem = supplies, src, dst, cap, cost
            found = mcf.solve_arrays(*problem)
            ranges = mcf.cost_ranges(*problem, found.flow, found.prices)
            for k, (low, high) in enumerate(ranges):
                for end, outward in ((low, -1), (high, 1)):
                    for step, stays in ((0, True), (outward, False)):
                        if end is None:
                            continue
                        costs = cost[:k] + [end + step] + cost[k + 1 :]
                        total = sum(c * f for c, f in zip(costs, found.flow))
                        self.assertEqual(self.least(problem, costs) == total, stays)

    def test_numbers(self):
        problem = [0.5, -0.5], [0, 0], [1, 1], [math.inf, math.inf], [0.25, 1.5]
        found = mcf.cost_ranges(*problem, [0.5, 0], [0, -0.25], arcs=[1, 0])
        self.assertEqual(found, [(0.25, None), (None, 1.5)])
        with self.assertRaises(mcf.NotAccepted):
            mcf.cost_ranges(*problem, [0, 0.5], [0, -1.5])
        with self.assertRaises(IndexError):
            mcf.cost_ranges(*problem, [0.5, 0], [0, -0.25], arcs=[2])


class Tables(unittest.TestCase):
    """Plans from tables."""

    PLACES = "name;supply\nMühle;3\nStadt;-3\n"
    ROUTES = "from;to;most;cost\nMühle;Stadt;2;1,5\n"

    def test_plans(self):
        routes = self.ROUTES.replace(";2;", ";;")
        answer = mcf.plan_flow(self.PLACES.encode(), memoryview(routes.encode()))
        self.assertEqual(answer.kind, "plan")
        self.assertEqual(answer.rows()[:2], [["answer", "plan"], ["cost", "4.5"]])
        self.assertIn(["route", "2", "Mühle", "Stadt", "3"], [row[:5] for row in answer.rows()])

    def test_leaves(self):
        self.assertEqual(mcf.plan_flow(self.PLACES, self.ROUTES).kind, "no plan")
        options = {"unused": True, "short": True, "penalty": "0,5", "decimal": ","}
        answer = mcf.plan_flow(self.PLACES, self.ROUTES, **options)
        self.assertEqual(answer.rows()[1:3], [["cost", "1.5"], ["missing", "3"]])
        answer = mcf.plan_flow(self.PLACES, self.ROUTES, unused=True, short=True)
        self.assertEqual(answer.rows()[1:3], [["cost", "3"], ["missing", "1"]])

    def test_ranges(self):
        options = {"unused": True, "short": True, "penalty": "0,5", "decimal": ","}
        answer = mcf.plan_flow(self.PLACES, self.ROUTES, ranges=True, **options)
        self.assertEqual(answer.rows()[-1], ["range", "2", "Mühle", "Stadt", "1", ""])

    def test_faults(self):
        answer = mcf.plan_flow(self.PLACES, self.ROUTES.replace("Stadt", "Dorf"))
        self.assertEqual(answer.kind, "faults")
        self.assertEqual(answer.rows()[1][:4], ["fault", "routes", "2", "to"])
        for wrong in ({"decimal": ";"}, {"penalty": "much"}, {"penalty": ""}):
            with self.assertRaises(ValueError):
                mcf.plan_flow(self.PLACES, self.ROUTES, short=True, **wrong)

    def test_long(self):
        rows = "".join(f"A;B;{k};{k}\n" for k in range(30_000))
        answer = mcf.plan_flow("name;supply\nA;9\nB;-9\n", "from;to;most;cost\n" + rows)
        self.assertEqual(answer.rows()[1], ["cost", "26"])


class Rosters(unittest.TestCase):
    """Pairs of persons and things, from the text of a table."""

    COSTS = ";Früh;Spät\nAda;1;2,5\nBen;3;3,5\n"
    NARROW = "who,what,cost\nAda,day,1\nBen,day,1\n"

    def test_pairs(self):
        answer = mcf.plan_pairs(memoryview(self.COSTS.encode()))
        self.assertEqual(answer.kind, "plan")
        self.assertEqual(answer.rows()[:2], [["answer", "plan"], ["cost", "4.5"]])
        self.assertIn(["pair", "3", "3", "Ben", "Spät", "3.5"], answer.rows())
        self.assertIn(["thing", "1", "Früh"], answer.rows())

    def test_options(self):
        answer = mcf.plan_pairs(self.COSTS, decimal=",", each="both", maximise=True)
        self.assertEqual(answer.rows()[1], ["cost", "5.5"])
        answer = mcf.plan_pairs(self.NARROW)
        self.assertEqual(answer.kind, "no plan")
        self.assertIn(["person", "3", "Ben", "1"], answer.rows())
        self.assertEqual(mcf.plan_pairs(self.NARROW, each="what").kind, "plan")
        self.assertEqual(mcf.plan_pairs(self.NARROW, each="who"), answer)

    def test_groups(self):
        for least, kind in ((1, "plan"), (2, "no plan")):
            groups = f"group,who,least\nboth,Ada,{least}\nboth,Ben,\n"
            answer = mcf.plan_pairs(self.NARROW, each="what", groups=groups)
            self.assertEqual(answer.kind, kind)
        crossing = "group,who,most\nsome,Ada,1\nsome,Ben,\nothers,Ben,1\nothers,Cy,\n"
        costs = self.NARROW + "Cy,day,1\n"
        told = {
            how: mcf.plan_pairs(costs, each="what", groups=crossing, crossing=how).kind
            for how in ("refuse", "check")
        }
        self.assertEqual(told, {"refuse": "faults", "check": "plan"})

    def test_faults(self):
        self.assertEqual(mcf.plan_pairs(self.COSTS, decimal=".").kind, "faults")
        groups = "group,who,most\nboth,Ada,1\nboth,Cy,\n"
        self.assertEqual(mcf.plan_pairs(self.NARROW, each="what", groups=groups).kind, "faults")
        for wrong in ({"decimal": ";"}, {"each": "all"}):
            with self.assertRaises(ValueError):
                mcf.plan_pairs(self.COSTS, **wrong)


class Raised(unittest.TestCase):
    """Exceptions that pass from one process to another."""

    def raised(self):
        yield mcf.Refused(3, None, "cost", 10)
        yield mcf.Refused(None, "mill", "supply")
        yield mcf.Infeasible(["x"], "send", 1.5, 0, [2])
        yield mcf.Unbounded([1, 2])
        yield mcf.NotAccepted("a word")
        for supplies, arcs in (([0, 0], [(0, 1, 1, 10**16)]), ([1, -1], [])):
            with self.assertRaises(mcf.MCFError) as c:
                mcf.solve(supplies, arcs)
            yield c.exception

    def test_copies(self):
        for error in self.raised():
            error.note = "added"
            copies = [copy.copy(error), copy.deepcopy(error)]
            copies += [
                pickle.loads(pickle.dumps(error, protocol))
                for protocol in range(pickle.HIGHEST_PROTOCOL + 1)
            ]
            for other in copies:
                self.assertEqual(
                    (type(other), str(other), other.args, vars(other)),
                    (type(error), str(error), error.args, vars(error)),
                )

    def test_pool(self):
        with multiprocessing.Pool(2) as pool:
            self.assertEqual(pool.map_async(solve_by_place, [1, 2, 3]).get(20), [1, 2, 3])
            with self.assertRaises(mcf.Infeasible) as c:
                pool.map_async(solve_by_place, [1, 5, 2]).get(20)
            self.assertEqual((c.exception.must, c.exception.can), (5, 3))
            with self.assertRaises(mcf.Refused) as c:
                pool.map_async(solve_by_place, [1, 10**19]).get(20)
            self.assertEqual((c.exception.node, c.exception.reason), (0, "supply"))


def _greatest_prices(n, arcs, flow):
    """The greatest prices that aren't above 0 and leave no residual arc a reduced cost below 0."""
    residual = [(u, v, c) for (u, v, _, cap, c), f in zip(arcs, flow) if f < cap]
    residual += [(v, u, -c) for (u, v, low, _, c), f in zip(arcs, flow) if f > low]
    prices = [0] * n
    for _ in range(n):
        for u, v, c in residual:
            prices[u] = min(prices[u], prices[v] + c)
    return prices


class Solving(unittest.TestCase):
    def test_flow(self):
        r = mcf.solve({"s": 4, "t": -4}, [("s", "a", 2, 1), ("s", "t", None, 5), ("a", "t", 3, -1)])
        self.assertEqual((r.cost, r.flow, r.prices), (10, [2, 2, 2], {"s": 0, "t": -5, "a": -6}))
        self.assertTrue(r.verdict.accepted and r.verdict.number == 10)

    def test_lows_and_negative_costs(self):
        r = mcf.solve([0, 0], [(0, 1, 2, 5, -3), (1, 0, -4, 9, 1)])
        self.assertEqual((r.cost, r.flow), (-10, [5, 5]))
        self.assertEqual(mcf.solve(0, []).cost, 0)
        self.assertEqual(mcf.solve(3, []).prices, [0, 0, 0])

    def test_blocked(self):
        with self.assertRaises(mcf.Infeasible) as c:
            mcf.solve({"x": 1, "y": -1}, [("y", "x", 5, 3)])
        e = c.exception
        self.assertEqual((e.nodes, e.side, e.must, e.can, e.arcs), (["x"], "send", 1, 0, []))
        with self.assertRaises(mcf.Infeasible) as c:
            mcf.solve([3, -3], [(0, 1, 2, 1)])
        self.assertEqual((c.exception.must, c.exception.can, c.exception.arcs), (3, 2, [0]))
        with self.assertRaises(mcf.Infeasible):
            mcf.solve([1, 1], [])

    def test_unbounded(self):
        with self.assertRaises(mcf.Unbounded) as c:
            mcf.solve([0, 0, 0], [(0, 1, 4, 9), (1, 2, None, -3), (2, 1, None, 2)])
        self.assertEqual(sorted(c.exception.cycle), [1, 2])

    def test_zero_cycles_without_limits(self):
        self.assertEqual(
            mcf.solve([1, 0, -1], [(0, 1, None, 2), (1, 0, None, -2), (1, 2, None, 1)]).cost, 3
        )

    def test_flows_print_on_one_screen_and_compare(self):
        supplies, arcs = [100, -100], [(0, 1, 1, 1)] * 100
        flow = mcf.solve(supplies, arcs)
        self.assertEqual(
            repr(flow), "Flow(cost=100, flow=[1, 1, 1, 1, 1, 1, 1, 1, 1, 1, 1, 1, ...])"
        )
        self.assertEqual(flow, mcf.solve(supplies, arcs))
        self.assertNotEqual(flow, mcf.solve([99, -99], arcs))
        self.assertNotEqual(flow, 100)

    def test_refused(self):
        for arcs, place, reason in (
            ([(0, 1, 1, 1), (0, 1, 10**19, 1)], 1, "bound"),
            ([(0, 1, 5, 10**16)], 0, "cost"),
            ([(0, 2, 1, 1)], 0, "node"),
            ([(-1, 1, 1, 1)], 0, "node"),
            ([(0, 2**40, 1, 1)], 0, "node"),
            ([(0, 1, 5, 4, 1)], 0, "order"),
        ):
            with self.assertRaises(mcf.Refused) as c:
                mcf.solve([0, 0], arcs)
            self.assertEqual(
                (c.exception.arc, c.exception.node, c.exception.reason), (place, None, reason)
            )
        for supplies, node in (([0, 10**19], 1), ({"x": 10**18 + 1}, "x")):
            with self.assertRaises(mcf.Refused) as c:
                mcf.solve(supplies, [])
            self.assertEqual(
                (c.exception.arc, c.exception.node, c.exception.reason), (None, node, "supply")
            )

    def test_decimals(self):
        r = mcf.solve(
            [0.3, -0.3], [(0, 1, 0.1, 1.5), (0, 1, Decimal("0.2"), 2), (0, 1, 9, Fraction(7, 2))]
        )
        self.assertEqual((r.flow, r.cost), ([0.1, 0.2, 0], 0.55))

    def test_prices_of_engines(self):
        """All engines end with the greatest prices that aren't above 0, as a plain relaxation finds
        them in the residual network."""
        rng, flows = random.Random(7), 0
        for _ in range(300):
            n = rng.randint(2, 8)
            supplies = [rng.randint(0, 8)] + [0] * (n - 1)
            supplies[-1] -= supplies[0]
            arcs = []
            for _ in range(14):
                low = rng.randint(-3, 0)
                ends = rng.randrange(n), rng.randrange(n)
                arcs.append((*ends, low, low + rng.randint(0, 9), rng.randint(-5, 20)))
            found = set()
            for engine in ("cancel", "scaling", "simplex", "fast"):
                try:
                    r = mcf.solve(supplies, arcs, engine=engine)
                except mcf.Infeasible:
                    found.add(None)
                    continue
                found.add((r.cost, tuple(r.prices)))
                self.assertEqual(list(r.prices), _greatest_prices(n, arcs, r.flow))
            self.assertEqual(len(found), 1)
            flows += None not in found
        self.assertGreater(flows, 100)

    def test_engines(self):
        for engine in ("auto", "cancel", "simplex", "scaling", "sap", "fast"):
            for pricing in ("first", "best", "block", "wide"):
                r = mcf.solve(
                    [5, 0, -5],
                    [(0, 1, 9, 1), (1, 2, 9, 1), (0, 2, 3, 1)],
                    engine=engine,
                    pricing=pricing,
                    block=2,
                )
                self.assertEqual(r.cost, 7)
        for options in ({"engine": "none"}, {"pricing": "none"}, {"block": 1000001}):
            with self.assertRaises(ValueError):
                mcf.solve([0], [], **options)

    def test_what_solves_a_flow_problem(self):
        many, chosen = 2**14 + 1, mcf._solving.flow_choice
        for choice, engine, pricing, block in (
            (chosen(), 5, 0, 0),
            (chosen(block=64), 0, 0, 64),
            (chosen("scaling", "first"), 3, 1, 0),
        ):
            self.assertEqual(
                (choice.engine, choice.pricing, choice.block), (engine, pricing, block)
            )
        arcs = [(0, k, 1, k % 7) for k in range(1, many)]
        r = mcf.solve([many - 1] + [-1] * (many - 1), arcs)
        self.assertEqual((r.cost, r.verdict.accepted), (sum(arc[3] for arc in arcs), True))

    def test_great_costs(self):
        r = mcf.solve([10**18, -(10**18)], [(0, 1, 10**18, 10**15)])
        self.assertEqual((r.cost, r.verdict.number), (10**33, 10**33))
        self.assertEqual(
            mcf.solve([10**18, -(10**18)], [(0, 1, 10**18, -(10**15))]).cost, -(10**33)
        )

    def test_a_price_beyond_64_bits(self):
        for count in (9223, 9224):
            chain = [1] + [0] * (count - 1) + [-1], [(k, k + 1, 2, 10**15) for k in range(count)]
            if count == 9223:
                r = mcf.solve(*chain)
                self.assertEqual((r.cost, r.prices[-1]), (count * 10**15, -count * 10**15))
            else:
                self.assertRaisesRegex(OverflowError, "64 bits", mcf.solve, *chain)

    def test_assignment(self):
        C = [[4, 1, 3], [2, 0, 5], [3, 2, 2]]
        self.assertEqual(mcf.linear_sum_assignment(C), ([0, 1, 2], [1, 0, 2]))
        self.assertEqual(mcf.linear_sum_assignment(C, maximize=True), ([0, 1, 2], [0, 2, 1]))
        self.assertEqual(mcf.linear_sum_assignment([[4, 1, 2], [2, 0, 9]]), ([0, 1], [2, 1]))
        self.assertEqual(mcf.linear_sum_assignment([[4, 2], [1, 0], [5, 9]]), ([0, 1], [1, 0]))
        self.assertEqual(mcf.linear_sum_assignment([[1.5, 0.25], [0.5, 0.75]]), ([0, 1], [1, 0]))
        self.assertEqual(
            mcf.linear_sum_assignment([[Decimal("1.5"), Decimal("1.25")], [1, 1]]), ([0, 1], [1, 0])
        )
        self.assertEqual(
            mcf.linear_sum_assignment([[float("inf"), 2.0], [1.0, 9.0]]), ([0, 1], [1, 0])
        )
        for wrong in ([[1, float("inf")], [2, float("inf")]], [[float("nan")]], [[1, 2], [3]]):
            with self.assertRaises(ValueError):
                mcf.linear_sum_assignment(wrong)
        self.assertEqual(mcf.linear_sum_assignment([]), ([], []))
        with self.assertRaises(mcf.Refused) as c:
            mcf.linear_sum_assignment([[1, 2], [10**20, 3]])
        self.assertEqual((c.exception.arc, c.exception.reason), (2, "cost"))

    @unittest.skipUnless(installed("numpy"), "numpy isn't installed")
    def test_doubles(self):
        numpy = installed("numpy")
        inf = float("inf")
        # scipy 1.10 takes the diagonal, and so 1.0 where 0.75 is left.
        C = numpy.array([[1e16, 1e16, 1e16], [0.75, 1.0, 0.75], [1e16, 5.0, 3.0]])
        rows, columns = mcf.linear_sum_assignment(C)
        self.assertEqual((rows.tolist(), columns.tolist()), ([0, 1, 2], [1, 0, 2]))
        for entry, row, column in ((float("nan"), 1, 2), (-inf, 0, 1)):
            wrong = numpy.ones((2, 3))
            wrong[row, column] = entry
            place = "row %d, column %d" % (row, column)
            with self.assertRaisesRegex(ValueError, place):
                mcf.linear_sum_assignment(wrong)
        with self.assertRaisesRegex(ValueError, "infeasible"):
            mcf.linear_sum_assignment(numpy.array([[inf, 1.0], [inf, 2.0]]))
        rows, columns = mcf.linear_sum_assignment(numpy.array([[1.0, 5e-324], [5e-324, 1.0]]))
        self.assertEqual((rows.tolist(), columns.tolist()), ([0, 1], [1, 0]))

    @unittest.skipUnless(installed("numpy"), "numpy isn't installed")
    def test_hostile_doubles(self):
        numpy = installed("numpy")
        chance = random.Random(7)
        for kind in HOSTILE:
            for _ in range(40):
                n, m = chance.randrange(1, 6), chance.randrange(1, 6)
                C = numpy.array([[kind(chance) for _ in range(m)] for _ in range(n)])
                for layout in (C, numpy.asfortranarray(C), numpy.repeat(C, 2, 1)[:, ::2], C[::-1]):
                    self.assertEqual(_taken(layout, False), _least(layout))
                self.assertEqual(_taken(-C, True), _least(C))
                with numpy.errstate(over="ignore"):
                    D = C.astype(numpy.float32)
                if numpy.isfinite(D).all():
                    self.assertEqual(_taken(D, False), _least(D))

    def test_what_is_kept_of_great_matrices(self):
        mcf.linear_sum_assignment([[0] * 3] * 3)
        tracemalloc.start()
        for n in range(300, 306):
            matrix = [list(range(n))] * n
            self.assertEqual(len(set(mcf.linear_sum_assignment(matrix)[1])), n)
        del matrix
        # The thread of a call releases the caller's objects shortly after the call returns.
        end = time.monotonic() + 5
        while tracemalloc.get_traced_memory()[0] > 10**6 and time.monotonic() < end:
            time.sleep(0.01)
        kept, _ = tracemalloc.get_traced_memory()
        tracemalloc.stop()
        self.assertLess(kept, 10**6)

    def test_random_matrices(self):
        chance = random.Random(5)
        for _ in range(60):
            n = chance.randrange(1, 6)
            C = [[chance.randrange(-9, 10) for _ in range(n)] for _ in range(n)]
            least = min(sum(C[i][p[i]] for i in range(n)) for p in _orders(n))
            rows, columns = mcf.linear_sum_assignment(C)
            self.assertEqual(sum(C[i][j] for i, j in zip(rows, columns)), least)
            arcs = [(i, n + j, 1, C[i][j]) for i in range(n) for j in range(n)]
            self.assertEqual(mcf.solve([1] * n + [-1] * n, arcs).cost, least)

    def test_simple_takes_great_capacities(self):
        problem = mcf.SimpleMinCostFlow()
        problem.add_arcs_with_capacity_and_unit_cost([0, 1], [1, 0], [2**63 - 1] * 2, [3, 0])
        problem.set_nodes_supplies([0, 1], [5, -5])
        self.assertEqual((problem.solve(), problem.optimal_cost()), (problem.OPTIMAL, 15))
        problem.add_arc_with_capacity_and_unit_cost(1, 0, 2**63 - 1, -4)
        self.assertEqual(problem.solve(), problem.BAD_CAPACITY_RANGE)
        self.assertEqual((problem.error.arc, problem.error.value), (2, 2**63 - 1))

    def test_capacities_of_simple_problems_change(self):
        problem = mcf.SimpleMinCostFlow()
        arcs = problem.add_arcs_with_capacity_and_unit_cost([0, 0], [1, 1], [3, 9], [2, 5])
        problem.set_nodes_supplies([0, 1], [4, -4])
        self.assertEqual((problem.solve(), problem.optimal_cost()), (problem.OPTIMAL, 11))
        self.assertEqual(problem.prices(), [0, -5])
        problem.set_arc_capacity(arcs[0], 4)
        self.assertEqual((problem.solve(), problem.optimal_cost()), (problem.OPTIMAL, 8))
        problem.set_arcs_capacity(arcs, [1, 2])
        self.assertEqual((problem.capacity(0), problem.unit_cost(1)), (1, 5))
        self.assertEqual(problem.solve(), problem.INFEASIBLE)
        for arc in (-1, 2):
            self.assertRaises(ValueError, problem.set_arcs_capacity, [0, arc], [7, 7])
        self.assertEqual(problem.capacity(0), 1)

    def test_max_flow_with_min_cost(self):
        chance = random.Random(6)
        for _ in range(200):
            n, m = chance.randrange(1, 6), chance.randrange(9)
            supplies = [chance.randrange(-4, 5) for _ in range(n)]
            arcs = [
                (*chance.choices(range(n), k=2), chance.randrange(5), chance.randrange(-2, 9))
                for _ in range(m)
            ]
            problem = mcf.SimpleMinCostFlow()
            problem.set_nodes_supplies(list(range(n)), supplies)
            places = [problem.add_arc_with_capacity_and_unit_cost(*arc) for arc in arcs]
            self.assertEqual(problem.solve_max_flow_with_min_cost(), problem.OPTIMAL)
            # A unit that is sent earns more than all costs, which are at most 9 * 4 * 8.
            ends = [(n, v, b, 0) for v, b in enumerate(supplies) if b > 0]
            ends += [(v, n + 1, -b, 0) for v, b in enumerate(supplies) if b < 0]
            both = mcf.solve([0] * (n + 2), arcs + ends + [(n + 1, n, 10**9, -1000)])
            self.assertEqual(problem.maximum_flow(), both.flow[-1])
            self.assertEqual(problem.optimal_cost(), both.cost + 1000 * both.flow[-1])
            cost = sum(f * arc[3] for f, arc in zip(problem.flows(places), arcs))
            self.assertEqual(problem.optimal_cost(), cost)
            self.assertEqual(len(problem.prices()), n)
        problem.add_arc_with_capacity_and_unit_cost(0, 0, -1, 0)
        self.assertEqual(problem.solve_max_flow_with_min_cost(), problem.BAD_CAPACITY_RANGE)
        self.assertRaises(RuntimeError, problem.maximum_flow)

    def test_simple_maximum_flows(self):
        chance = random.Random(7)
        for _ in range(200):
            n, m = chance.randrange(2, 6), chance.randrange(12)
            problem = mcf.SimpleMaxFlow()
            ends = [chance.choices(range(n), k=m) for _ in range(2)]
            caps = [chance.choice((0, 1, 2, 5, 9, 2**63 - 1)) for _ in range(m)]
            caps = [min(c, 10**17) if 0 in (u, v) else c for u, v, c in zip(*ends, caps)]
            arcs = problem.add_arcs_with_capacity(*ends, caps)
            self.assertEqual(problem.solve(0, n - 1), problem.OPTIMAL)
            source, sink = problem.get_source_side_min_cut(), problem.get_sink_side_min_cut()
            self.assertEqual((min(source), max(sink), set(source) & set(sink)), (0, n - 1, set()))
            for side in (set(source), set(range(n)) - set(sink)):
                cut = sum(c for u, v, c in zip(*ends, caps) if u in side and v not in side)
                self.assertEqual(problem.optimal_flow(), cut)
            excess = [0] * n
            for u, v, c, f in zip(*ends, caps, problem.flows(arcs)):
                self.assertTrue(0 <= f <= c)
                excess[u] -= f
                excess[v] += f
            value = problem.optimal_flow()
            self.assertEqual(excess, [-value] + [0] * (n - 2) + [value])
        problem = mcf.SimpleMaxFlow()
        self.assertEqual((problem.solve(0, 3), problem.optimal_flow()), (problem.OPTIMAL, 0))
        arc = problem.add_arc_with_capacity(0, 1, 2**63 - 1)
        self.assertEqual(problem.solve(0, 1), problem.POSSIBLE_OVERFLOW)
        self.assertRaises(RuntimeError, problem.flow, arc)
        problem.set_arc_capacity(arc, 7)
        self.assertEqual((problem.solve(0, 1), problem.flow(arc)), (problem.OPTIMAL, 7))
        self.assertEqual((problem.num_nodes(), problem.num_arcs()), (2, 1))
        self.assertEqual((problem.tail(0), problem.head(0), problem.capacity(0)), (0, 1, 7))
        for ends in ((0, 0), (-1, 0), (0, 10**6)):
            self.assertEqual(problem.solve(*ends), problem.BAD_INPUT)
        problem.set_arcs_capacity([arc], [-1])
        self.assertEqual(problem.solve(0, 1), problem.BAD_INPUT)

    def test_simple_assignments(self):
        chance = random.Random(9)
        for _ in range(100):
            n = chance.randrange(1, 6)
            costs = [[chance.randrange(-9, 10) for _ in range(n)] for _ in range(n)]
            problem = mcf.SimpleLinearSumAssignment()
            ends = [[i for i in range(n) for _ in range(n)], list(range(n)) * n]
            problem.add_arcs_with_cost(*ends, [c for row in costs for c in row])
            self.assertEqual(problem.solve(), problem.OPTIMAL)
            rows, columns = mcf.linear_sum_assignment(costs)
            least = sum(costs[i][j] for i, j in zip(rows, columns))
            self.assertEqual(problem.optimal_cost(), least)
            mates = [problem.right_mate(i) for i in range(n)]
            self.assertEqual(sorted(mates), list(range(n)))
            left, right = problem.prices()
            for i in range(n):
                self.assertEqual(problem.assignment_cost(i), costs[i][mates[i]])
                self.assertEqual(left[i] + right[mates[i]], costs[i][mates[i]])
                self.assertTrue(all(left[i] + right[j] <= costs[i][j] for j in range(n)))
        problem = mcf.SimpleLinearSumAssignment()
        self.assertEqual((problem.solve(), problem.optimal_cost()), (problem.OPTIMAL, 0))
        problem.add_arc_with_cost(1, 0, 3)
        self.assertEqual((problem.num_nodes(), problem.num_arcs()), (2, 1))
        self.assertEqual((problem.left_node(0), problem.right_node(0), problem.cost(0)), (1, 0, 3))
        self.assertEqual(problem.solve(), problem.INFEASIBLE)
        self.assertRaises(RuntimeError, problem.right_mate, 0)
        problem.add_arc_with_cost(0, 1, 10**16)
        self.assertEqual(problem.solve(), problem.POSSIBLE_OVERFLOW)
        self.assertEqual((problem.error.arc, problem.error.value), (1, 10**16))

    def test_texts(self):
        self.assertEqual(mcf.solve_text(b"p min 2 1\n"), ("refusal", b"r 2 missing\n"))
        v = mcf.check_text(b"p min 2 1\na 1 2 0 1 1\n", b"s 1\nf 1 2 0\ny 1 0\ny 2 0\n")
        self.assertEqual((v.accepted, v.kind), (False, "rejected cost"))
        kind, answer = mcf.solve_text(b"p min 300000 0\n")
        self.assertEqual((kind, answer.count(b"\n")), ("flow", 300001))
        self.assertEqual(mcf.solve_text(b"")[1], b"r 1 no-p\n")

    def test_wrong_answers_are_not_accepted(self):
        problem = mcf._library.ArcArrays(
            mcf._solving.supplied([2, -2]),
            2,
            mcf._solving.packed([(0, 1, 0, 3, 5), (0, 1, 0, 1, 1)]),
            2,
        )
        self.assertEqual(
            problem.solve(mcf._library.choice_of("auto", "block", None), False), mcf._library.FLOW
        )
        self.assertTrue(problem.check())
        problem.told.low += 1
        self.assertEqual(problem.check().kind, "rejected cost")
        problem.told.low -= 1
        problem.flow[0], problem.flow[1] = 2, 0
        self.assertEqual(problem.check().kind, "rejected price")

    def test_threads(self):
        wrong = []

        def work(k):
            for _ in range(20):
                if mcf.solve([k, -k], [(0, 1, k, 3)]).cost != 3 * k:
                    wrong.append(k)

        threads = [threading.Thread(target=work, args=(k,)) for k in range(1, 9)]
        [t.start() for t in threads], [t.join() for t in threads]
        self.assertEqual(wrong, [])


def solved(supplies, arcs):
    """The cost, or the name of the exception."""
    try:
        return mcf.solve(supplies, arcs).cost
    except mcf.MCFError as error:
        return type(error).__name__


class WithoutLimits(unittest.TestCase):
    """Arcs without a capacity, in each way to write that."""

    def test_nothing_given_is_past_a_limit(self):
        bound = 10**18
        self.assertEqual(solved([1, -1], [(0, 1, None, 1), (0, 1, bound, 5)]), 1)
        self.assertEqual(solved([1, -1], [(0, 1, None, 1)] + [(0, 1, bound // 10, 5)] * 10), 1)
        self.assertEqual(
            solved([bound // 10] * 10 + [-bound], [(k, 10, None, k) for k in range(10)]),
            45 * bound // 10,
        )
        self.assertEqual(solved([bound, -bound], [(0, 1, None, 1)]), bound)
        self.assertEqual(
            solved([0, 0], [(0, 1, bound - 5, None, 1), (1, 0, bound - 5, bound, 1)]),
            2 * bound - 10,
        )
        self.assertEqual(solved([0, 0], [(0, 1, None, -2), (1, 0, bound, 1)]), -bound)
        self.assertEqual(
            solved([1, -1], [(0, 1, -bound, None, 1), (0, 1, -3, bound, 0)]), 1 - bound
        )

    def test_prices_of_an_arc_that_is_at_the_greatest_limit(self):
        bound = 10**18
        r = mcf.solve(
            [bound, -bound, 1, -1], [(0, 1, None, 1), (2, 1, 10, 5), (1, 3, 10, 0), (1, 2, 10, 0)]
        )
        self.assertEqual((r.cost, r.flow[0], r.verdict.accepted), (bound + 5, bound, True))
        self.assertGreaterEqual(1 - r.prices[0] + r.prices[1], 0)

    def test_an_arc_that_would_carry_too_much(self):
        bound = 10**18
        for supplies, arcs, place in (
            ([bound, bound, 0, -bound, -bound], [(0, 2, None, 1), (1, 2, None, 1)], 3),
            ([bound, 0, -bound], [(0, 1, 1, 9), (0, 1, None, 1), (1, 2, None, 1), (2, 1, 5, 5)], 0),
        ):
            if len(supplies) == 5:
                arcs = arcs + [(4, 4, 1, 1), (2, 3, None, 1), (3, 4, None, 1)]
                with self.assertRaises(mcf.Refused) as c:
                    mcf.solve(supplies, arcs)
                self.assertEqual((c.exception.arc, c.exception.reason), (place, "unlimited"))
            else:
                self.assertEqual(solved(supplies, arcs), 2 * bound)

    def test_all_that_a_small_limit_does(self):
        chance, seen = random.Random(8), {}
        for _ in range(2500):
            n = chance.randrange(1, 6)
            supplies = [chance.randrange(-4, 5) for _ in range(n)]
            supplies[-1] -= sum(supplies)
            arcs = []
            for _ in range(chance.randrange(9)):
                low = chance.choice((0, 0, 0, -2, 1, 3))
                cap = chance.choice((None, None, low + chance.randrange(7)))
                ends = chance.randrange(n), chance.randrange(n)
                arcs.append((*ends, low, cap, chance.randrange(-3, 9)))
            least = solved(supplies, arcs)
            limited = solved(supplies, [a[:3] + (7 if a[3] is None else a[3], a[4]) for a in arcs])
            with mock.patch.object(mcf._limits, "BOUND", 7):
                found = solved(supplies, arcs)
            if found == "Refused":
                self.assertTrue(limited == "Infeasible" or limited > least, (supplies, arcs))
            else:
                self.assertEqual(found, least, (supplies, arcs))
            kind = found if isinstance(found, str) else "flow"
            seen[kind] = seen.get(kind, 0) + 1
        self.assertTrue(
            all(seen[k] > 20 for k in ("flow", "Infeasible", "Unbounded", "Refused")), seen
        )


class Series:
    """A stand-in for the pandas class of that name."""

    def __init__(self, values, index):
        self.values, self.index = values, index

    def __iter__(self):
        return iter(self.values)

    def __len__(self):
        return len(self.values)

    def __getitem__(self, label):
        return dict(self.items())[label]

    def items(self):
        return zip(self.index, self.values)


class BySeries(unittest.TestCase):
    kinds = [Series] + ([installed("pandas").Series] if installed("pandas") else [])

    def test_labels(self):
        for kind in self.kinds:
            r = mcf.solve(kind([5, 0, -5], index=[1, 0, 2]), [(1, 2, 9, 1), (0, 2, 9, 2)])
            self.assertEqual((r.cost, r.flow, r.prices), (5, [5, 0], {1: 0, 0: 0, 2: -1}))
            r = mcf.solve(kind([5, 0, -5], index=[2, 1, 0]), [(2, 0, 9, 1)])
            self.assertEqual(r.flow, [5])
            r = mcf.solve(kind([0.5, -0.5], index=["a", "b"]), [("a", "c", 1, 1), ("c", "b", 1, 1)])
            self.assertEqual((r.cost, list(r.prices)), (1, ["a", "b", "c"]))
            with self.assertRaises(mcf.Infeasible) as c:
                mcf.solve(kind([1, -1], index=["a", "b"]), [])
            self.assertEqual(c.exception.nodes, ["a"])
            self.assertRaisesRegex(ValueError, "'a'", mcf.solve, kind([1, -1], ["a", "a"]), [])

    @unittest.skipUnless(installed("pandas"), "pandas isn't installed")
    def test_narrow_floats(self):
        supplies = installed("pandas").Series([0.1, -0.1], ["a", "b"], dtype="float32")
        self.assertEqual(mcf.solve(supplies, [("a", "b", 1, 1)]).flow, [0.1])


# A script for a process that gets a signal while the library works, which would take some seconds.
LASTING = """
import random, sys, time
sys.path.insert(0, %r)
import mcf
chance = random.Random(1)
matrix = [[chance.randrange(10**6) for _ in range(600)] for _ in range(600)]
print("ready", flush=True)
try:
    mcf.linear_sum_assignment(matrix, engine="cancel")
except KeyboardInterrupt:
    print("interrupted", mcf.solve([1, -1], [(0, 1, 1, 1)]).cost, flush=True)
"""


class Interrupted(unittest.TestCase):
    def test_a_lasting_call(self):
        script = LASTING % os.path.dirname(os.path.dirname(os.path.abspath(__file__)))
        with subprocess.Popen([sys.executable, "-c", script], stdout=subprocess.PIPE) as process:
            self.assertEqual(process.stdout.readline(), b"ready\n")
            time.sleep(0.5)
            process.send_signal(signal.SIGINT)
            begun = time.monotonic()
            said, _ = process.communicate(timeout=20)
            self.assertEqual((said, process.returncode), (b"interrupted 1\n", 0))
            self.assertLess(time.monotonic() - begun, 1)

    def test_what_is_raised_by_a_handler(self):
        class Late(Exception):
            pass

        def ring(*_):
            raise Late

        before = signal.signal(signal.SIGALRM, ring)
        try:
            matrix = [[(i * j) % 1009 for j in range(400)] for i in range(400)]
            signal.setitimer(signal.ITIMER_REAL, 0.2)
            self.assertRaises(Late, mcf.linear_sum_assignment, matrix, engine="cancel")
        finally:
            signal.setitimer(signal.ITIMER_REAL, 0)
            signal.signal(signal.SIGALRM, before)

    def test_a_time_limit(self):
        matrix = [[(i * j) % 1009 for j in range(400)] for i in range(400)]
        seen, begun = [], time.monotonic()
        with self.assertRaises(mcf.TimeLimit) as c, mcf.time_limit(0.3, progress=seen.append):
            mcf.linear_sum_assignment(matrix, engine="cancel")
        self.assertLess(time.monotonic() - begun, 2)
        self.assertEqual(str(c.exception), "no answer within 0.3 seconds")
        self.assertEqual(pickle.loads(pickle.dumps(c.exception)).seconds, c.exception.seconds)
        self.assertIsInstance(c.exception, TimeoutError)
        self.assertTrue(seen and sorted(seen) == seen)
        # The limit ends with its block.
        self.assertEqual(mcf.solve([1, -1], [(0, 1, 1, 1)]).cost, 1)

    def test_an_outer_time_limit(self):
        matrix = [[(i * j) % 1009 for j in range(400)] for i in range(400)]
        with mcf.time_limit(0.2), mcf.time_limit():
            self.assertRaises(mcf.TimeLimit, mcf.linear_sum_assignment, matrix, engine="cancel")
        for seconds in (0, -1, float("nan")):
            with self.assertRaisesRegex(ValueError, "above 0"), mcf.time_limit(seconds):
                pass

    def test_a_time_limit_in_a_thread(self):
        matrix, found = [[(i * j) % 1009 for j in range(400)] for i in range(400)], []

        def work():
            try:
                with mcf.time_limit(0.2):
                    mcf.linear_sum_assignment(matrix, engine="cancel")
            except mcf.TimeLimit as error:
                found.append(error)

        thread = threading.Thread(target=work)
        thread.start()
        thread.join(10)
        self.assertEqual(len(found), 1)

    def test_what_progress_raises(self):
        matrix = [[(i * j) % 1009 for j in range(400)] for i in range(400)]
        with mcf.time_limit(progress=lambda seconds: 1 / 0):
            self.assertRaises(ZeroDivisionError, mcf.linear_sum_assignment, matrix, engine="cancel")

    def test_errors_of_a_thread(self):
        called = mcf._waiting.called
        self.assertEqual(called(max, (3, 5), None), 5)
        self.assertRaises(TypeError, called, max, (3, "5"), None)
        with mock.patch("_thread.start_new_thread", side_effect=RuntimeError):
            self.assertEqual(called(max, (3, 5), None), 5)


def _orders(n):
    import itertools

    return itertools.permutations(range(n))


@unittest.skipUnless(installed("numpy"), "numpy isn't installed")
class WithNumpy(unittest.TestCase):
    def test_arrays(self):
        import numpy as np

        r = mcf.solve(np.array([4, 0, -4]), np.array([[0, 1, 3, 1], [1, 2, 3, -1], [0, 2, 9, 5]]))
        self.assertEqual((r.cost, r.flow), (5, [3, 3, 1]))
        rows, columns = mcf.linear_sum_assignment(np.array([[4, 1, 3], [2, 0, 5], [3, 2, 2]]))
        self.assertEqual((rows.tolist(), columns.tolist()), ([0, 1, 2], [1, 0, 2]))


@unittest.skipUnless(installed("networkx"), "networkx isn't installed")
class WithNetworkx(unittest.TestCase):
    def test_graph(self):
        import mcf.nx
        import networkx as nx

        G = nx.DiGraph()
        G.add_node("a", demand=-4)
        G.add_node("d", demand=4)
        G.add_edge("a", "b", weight=3, capacity=4)
        G.add_edge("a", "c", weight=6, capacity=10)
        G.add_edge("b", "d", weight=1, capacity=9)
        G.add_edge("c", "d", weight=2, capacity=5)
        self.assertEqual(mcf.nx.network_simplex(G), nx.network_simplex(G))

    def test_great_capacities(self):
        import mcf.nx
        import networkx as nx

        for great in (sys.maxsize, 2**63, 1.5e18, 1e19, 1e300, 10**400):
            G = nx.DiGraph([("a", "b"), ("b", "c"), ("c", "a")])
            nx.set_node_attributes(G, {"a": -4, "b": 1, "c": 3}, "demand")
            nx.set_edge_attributes(G, great, "capacity")
            nx.set_edge_attributes(G, 2, "weight")
            G.edges["c", "a"]["weight"] = -1
            self.assertEqual(mcf.nx.network_simplex(G), nx.network_simplex(G))
            H = nx.DiGraph(G.edges)
            nx.set_edge_attributes(H, {("a", "b"): great, ("b", "c"): 5}, "capacity")
            self.assertEqual(mcf.nx.maximum_flow_value(H, "a", "c"), 5)
            # The flow saturates a cycle of negative cost, whose capacity is beyond the limit here.
            G.edges["c", "a"]["weight"] = -9
            self.assertRaises(nx.NetworkXException, mcf.nx.network_simplex, G)
            with self.assertRaises(mcf.nx.NetworkXRefused) as c:
                mcf.nx.network_simplex(G)
            self.assertEqual(
                (c.exception.reason, c.exception.value), ("bound", mcf._numbers.exact(great))
            )

    def raised(self, call, *words, **options):
        """The name of networkx' exception, or the answer."""
        import networkx as nx

        try:
            return call(*words, **options)
        except nx.NetworkXException as error:
            return next(
                c.__name__ for c in type(error).__mro__ if c.__module__ == nx.exception.__name__
            )

    def test_capacity_scaling(self):
        import mcf.nx
        import networkx as nx

        chance, seen = random.Random(11), set()
        for turn in range(600):
            n = chance.randrange(1, 6)
            G = chance.choice((nx.DiGraph, nx.MultiDiGraph))([(0, 0), *nx.path_graph(n).edges])
            for u in G:
                G.nodes[u]["demand"] = chance.randrange(-3, 4)
            G.nodes[0]["demand"] -= sum(d for _, d in G.nodes(data="demand")) if turn % 9 else 0
            for _ in range(chance.randrange(12)):
                G.add_edge(chance.randrange(n), chance.randrange(n))
            for data in [e[-1] for e in G.edges(data=True)]:
                data["weight"] = chance.randrange(-2, 7)
                data["capacity"] = chance.choice((-1, 0, 2, 3, 5, 8, float("inf")))
            if not any(u != v and c > 0 for u, v, c in G.edges(data="capacity")):
                # There networkx answers 0, whatever the demands are.
                continue
            found = self.raised(mcf.nx.capacity_scaling, G)
            wanted = self.raised(nx.capacity_scaling, G)
            if not isinstance(wanted, str):
                found, wanted = found[0], wanted[0]
            self.assertEqual(found, wanted, (G.nodes(data=True), G.edges(data=True)))
            seen.add(wanted if isinstance(wanted, str) else "flow")
        self.assertEqual(seen, {"flow", "NetworkXUnfeasible", "NetworkXUnbounded"})
        self.assertEqual(mcf.nx.capacity_scaling(nx.DiGraph()), (0, {}))
        undirected = self.raised(mcf.nx.capacity_scaling, nx.Graph())
        self.assertEqual(undirected, "NetworkXNotImplemented")

    def test_maximum_flows_and_minimum_cuts(self):
        import mcf.nx
        import networkx as nx

        chance, seen = random.Random(12), set()
        for _ in range(600):
            n = chance.randrange(2, 7)
            G = chance.choice((nx.DiGraph, nx.Graph))()
            G.add_nodes_from(range(n))
            for _ in range(chance.randrange(14)):
                cap = chance.choice((0, 1, 2, 0.25, 1.5, 7, 9, float("inf")))
                G.add_edge(chance.randrange(n), chance.randrange(n), capacity=cap)
            wanted = self.raised(nx.minimum_cut, G, 0, n - 1)
            self.assertEqual(self.raised(mcf.nx.minimum_cut, G, 0, n - 1), wanted)
            seen.add(wanted if isinstance(wanted, str) else "flow")
            if isinstance(wanted, str):
                self.assertEqual(self.raised(mcf.nx.maximum_flow, G, 0, n - 1), wanted)
                continue
            value, flows = mcf.nx.maximum_flow(G, 0, n - 1)
            self.assertEqual(value, wanted[0])
            excess = dict.fromkeys(G, 0)
            for u in G:
                self.assertEqual(list(flows[u]), list(G[u]))
                for v, f in flows[u].items():
                    self.assertTrue(0 <= f <= G[u][v]["capacity"])
                    self.assertTrue(u == v or f == 0 or not flows[v].get(u))
                    excess[u] -= f
                    excess[v] += f
            self.assertEqual(excess, {**dict.fromkeys(G, 0), 0: -value, n - 1: value})
        self.assertEqual(seen, {"flow", "NetworkXUnbounded"})

    def test_arguments_of_maximum_flows(self):
        import mcf.nx
        import networkx as nx

        G = nx.DiGraph([(0, 1, {"capacity": 2})])
        for name in ("maximum_flow", "maximum_flow_value", "minimum_cut", "minimum_cut_value"):
            mine, theirs = getattr(mcf.nx, name), getattr(nx, name)
            for graph, words, options in (
                (G, (0, 1), {}),
                (G, (0, 1, "capacity", nx.algorithms.flow.dinitz), {}),
                (G, (0, 9), {}),
                (G, (9, 0), {}),
                (G, (0, 0), {}),
                (G, (0, 1), {"flow_func": "dinitz"}),
                (G, (0, 1), {"cutoff": 1}),
                (nx.MultiDiGraph(G), (0, 1), {}),
            ):
                self.assertEqual(
                    self.raised(mine, graph, *words, **options),
                    self.raised(theirs, graph, *words, **options),
                )

    def test_what_the_backend_leaves_to_networkx(self):
        import mcf.nx_backend
        import networkx as nx

        G = nx.DiGraph([(0, 1, {"capacity": 2})])
        backend = mcf.nx_backend.BackendInterface
        for name, words, options, is_taken in (
            ("network_simplex", (G,), {}, True),
            ("capacity_scaling", (), {"G": G}, True),
            ("maximum_flow", (G, 0, 1), {}, True),
            ("minimum_cut", (), {"flowG": G, "_s": 0, "_t": 1, "flow_func": None}, True),
            ("maximum_flow", (G, 0, 1, "capacity", max), {}, False),
            ("maximum_flow_value", (G, 0, 1), {"flow_func": max, "cutoff": 1}, False),
            ("minimum_cut_value", (G, 0, 1), {"residual": G}, False),
        ):
            for asked in (backend.can_run, backend.should_run):
                said = asked(name, words, options)
                self.assertEqual(said is True, is_taken, said)
        self.assertEqual(
            set(mcf.nx_backend.get_info()["functions"]) | {"NetworkXOverflow", "NetworkXRefused"},
            set(mcf.nx.__all__),
        )
        self.assertEqual(backend.maximum_flow(mcf.nx_backend.MCFGraph(G), 0, 1)[0], 2)

    def test_prices_beyond_64_bits(self):
        import mcf.nx
        import networkx as nx

        G = nx.path_graph(9225, nx.DiGraph)
        nx.set_edge_attributes(G, 10**15, "weight")
        nx.set_node_attributes(G, {0: -1, 9224: 1}, "demand")
        self.assertRaisesRegex(nx.NetworkXError, "64 bits", mcf.nx.network_simplex, G)

    def test_exceptions(self):
        import mcf.nx
        import networkx as nx

        G = nx.DiGraph()
        G.add_node("a", demand=-1)
        G.add_node("b", demand=1)
        G.add_edge("a", "b", weight=1 / 3, capacity=9)
        for call in (mcf.nx.network_simplex, mcf.nx.min_cost_flow, mcf.nx.min_cost_flow_cost):
            with self.assertRaises(nx.NetworkXException) as c:
                call(G)
            error = pickle.loads(pickle.dumps(c.exception))
            self.assertEqual(
                (error.ends, error.value, error.reason), (("a", "b"), 1 / 3, "cost"), str(error)
            )
        G.edges["a", "b"]["weight"] = float("nan")
        self.assertRaises(nx.NetworkXError, mcf.nx.network_simplex, G)
        self.assertRaises(nx.NetworkXNotImplemented, mcf.nx.network_simplex, G.to_undirected())

    def test_backend_falls_back(self):
        top = os.path.dirname(os.path.dirname(os.path.dirname(os.path.abspath(__file__))))
        with tempfile.TemporaryDirectory() as folder:
            about = os.path.join(folder, "yokdelm-0.dist-info")
            os.mkdir(about)
            shutil.copy(os.path.join(top, "packaging/python/entry_points.txt"), about)
            path = os.pathsep.join((folder, os.path.join(top, "python")))
            said = subprocess.run(
                [sys.executable, "-W", "ignore", "-c", FALLING_BACK],
                env=dict(os.environ, PYTHONPATH=path),
                stdout=subprocess.PIPE,
                check=True,
                timeout=60,
            ).stdout.split(b"\n")
        self.assertIn(
            said[:-1],
            (
                [b"no backends"],
                [b"refused", b"True True", b"0.75", b"True", b"True", b"7"],
            ),
        )


class Examples(unittest.TestCase):
    """The scripts of examples/matrices/ and examples/networks/, beside the outputs that are stored
    there."""

    def test_examples(self):
        folders = [TOP / "examples" / name for name in ("matrices", "networks")]
        scripts = sorted(script for folder in folders for script in folder.glob("*.py"))
        self.assertTrue(scripts)
        for script in scripts:
            with self.subTest(script=script.name):
                done = subprocess.run(
                    [sys.executable, str(script)],
                    env={**os.environ, "PYTHONPATH": str(TOP / "python")},
                    capture_output=True,
                    text=True,
                )
                self.assertEqual(done.stderr, "")
                self.assertEqual(done.stdout, script.with_suffix(".txt").read_text())


if __name__ == "__main__":
    unittest.main(argv=[sys.argv[0]], verbosity=0)
