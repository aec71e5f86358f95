"""The tests of arguments that are arrays and tables: `mcf.solve_arrays`, and frames and sparse
matrices for `mcf.solve`. Numpy, scipy and pandas serve if they are installed. MCF_LIBRARY names the
library."""
import doctest
import os
import pickle
import random
import sys
import threading
import unittest
from array import array
from decimal import Decimal
from fractions import Fraction

sys.path.insert(0, os.path.dirname(os.path.dirname(os.path.abspath(__file__))))
import mcf
import mcf._arrays
import mcf._judging
from optional import installed


def load_tests(loader, tests, pattern):
    """Adds the examples of the docstrings as tests."""
    for module in (mcf._arrays, mcf._judging):
        tests.addTests(doctest.DocTestSuite(module))
    return tests


numpy, scipy, pandas = map(installed, ("numpy", "scipy", "pandas"))


def outcome(call, *words, **options):
    """The cost, flow and prices as lists, or the exception's type and text."""
    try:
        r = call(*words, **options)
    except (mcf.MCFError, ValueError, TypeError, OverflowError) as error:
        return type(error), str(error)
    return r.cost, list(r.flow), list(r.prices)


def by_rows(supplies, src, dst, cap, cost, low=None):
    """The same instance for `mcf.solve`."""
    lows = [0] * len(src) if low is None else low
    return supplies, list(zip(src, dst, lows, cap, cost))


def kinds():
    """Functions that make a column of each kind from a list of whole numbers."""
    yield list
    yield tuple
    yield lambda values: array("q", values)
    yield lambda values: memoryview(array("q", values))
    yield iter
    if numpy:
        for dtype in ("i8", ">i8", "i4", "i2", "f8", "f4", "O"):
            yield lambda values, dtype=dtype: numpy.array(values, dtype=dtype)
        yield lambda values: numpy.repeat(numpy.array(values, dtype="i8"), 2)[::2]
        yield lambda values: numpy.array(values[::-1], dtype="i8")[::-1]


class ByColumns(unittest.TestCase):
    def test_all_kinds(self):
        chance, seen = random.Random(4), set()
        for _ in range(60):
            n, m = chance.randrange(1, 6), chance.randrange(9)
            supplies = [chance.randrange(-4, 5) for _ in range(n)]
            supplies[-1] -= sum(supplies)
            ends = [[chance.randrange(n) for _ in range(m)] for _ in range(2)]
            low = [chance.randrange(-2, 2) for _ in range(m)]
            cap = [least + chance.randrange(9) for least in low]
            columns = [supplies, *ends, cap, [chance.randrange(-5, 9) for _ in range(m)], low]
            wanted = outcome(mcf.solve, *by_rows(*columns))
            seen.add(type(wanted[0]))
            for kind in kinds():
                found = outcome(mcf.solve_arrays, *map(kind, columns))
                self.assertEqual(found, wanted)
        self.assertEqual(seen, {int, type})

    def test_kinds_of_results(self):
        words = [1, -1], [0], [1], [5], [3]
        r = mcf.solve_arrays(*words)
        self.assertEqual((r.flow, r.prices, r.cost), ([1], [0, -3], 3))
        r = mcf.solve_arrays(*map(array, "qqqqq", words))
        self.assertEqual((r.flow, r.prices), (array("q", [1]), array("q", [0, -3])))
        r = mcf.solve_arrays([0.5, -0.5], [0], [1], array("d", [1.5]), [3])
        self.assertEqual((r.flow, r.prices), (array("d", [0.5]), array("q", [0, -3])))
        if numpy:
            r = mcf.solve_arrays(numpy.array([1, -1]), *words[1:])
            self.assertEqual((type(r.flow), r.flow.dtype), (numpy.ndarray, numpy.int64))
            self.assertEqual((r.flow.tolist(), r.prices.tolist()), ([1], [0, -3]))
            r.flow[0] = 7
            r = mcf.solve_arrays(numpy.array([0.5, -0.5]), *words[1:])
            self.assertEqual((r.flow.tolist(), r.prices.tolist()), ([0.5], [0, -3]))
            empty = numpy.array([], dtype="i8")
            r = mcf.solve_arrays(empty, empty, empty, empty, empty)
            self.assertEqual((r.cost, r.flow.tolist(), r.prices.tolist()), (0, [], []))

    def test_results_compare_print_and_pickle(self):
        n = 100
        words = [n, -n], [0] * n, [1] * n, [1] * n, [1] * n
        r = mcf.solve_arrays(*words)
        self.assertEqual(
            repr(r), "ArrayFlow(cost=100, flow=[1, 1, 1, 1, 1, 1, 1, 1, 1, 1, 1, 1, ...])"
        )
        for other in (mcf.solve_arrays(*words), pickle.loads(pickle.dumps(r))):
            self.assertEqual(r, other)
        self.assertNotEqual(r, mcf.solve_arrays([99, -99], *words[1:]))
        self.assertEqual((r.success, r.message), (True, "least-cost flow, accepted by the checker"))
        r = mcf.solve_arrays(*words, check=False)
        self.assertEqual((r.success, r.verdict), (True, None))
        self.assertIn("not judged", r.message)
        if numpy:
            arrays = list(map(numpy.array, words))
            self.assertEqual(mcf.solve_arrays(*arrays), mcf.solve_arrays(*words))
            self.assertEqual(mcf.solve_arrays(*arrays), mcf.solve(*by_rows(*words)))

    def test_numbers_of_other_types(self):
        for words in (
            ([0.3, -0.3], [0, 0, 0], [1, 1, 1], [0.1, Decimal("0.2"), 9], [1.5, 2, Fraction(7, 2)]),
            ([1, -1], [0], [1], [None], [3]),
            ([1, -1], [0], [1], [float("inf")], [3]),
            ([1, -1], [0], [1], [1], [Decimal("1.5")]),
            ([10**18, -(10**18)], [0], [1], [10**18], [10**15]),
        ):
            wanted = outcome(mcf.solve, *by_rows(*words))
            self.assertEqual(outcome(mcf.solve_arrays, *words), wanted)
            if numpy:
                found = outcome(mcf.solve_arrays, numpy.array(words[0]), *words[1:])
                self.assertEqual(found, wanted)

    def test_exceptions(self):
        for words in (
            ([1, -1], [1], [0], [5], [3]),
            ([1, -1], [0], [1], [10**19], [3]),
            ([1, -1], [0], [1], [10**18 + 1], [3]),
            ([1, -1], [0], [1], [5], [10**15 + 1]),
            ([10**18 + 1, -1], [0], [1], [5], [3]),
            ([1, -1], [-1], [1], [5], [3]),
            ([1, -1], [0], [2], [5], [3]),
            ([1, -1], [0], [2**32 - 1], [5], [3]),
            ([1, -1], [0], [2**40], [5], [3]),
            ([1, -1], [0], [1], [5], [3], [6]),
            ([0, 0], [0, 1], [1, 0], [None, None], [-1, 0]),
            ([1, -1], [0], [1], [float("nan")], [3]),
            ([1, -1], ["a"], [1], [5], [3]),
            ([1, -1], [0.5], [1], [5], [3]),
        ):
            wanted = outcome(mcf.solve, *by_rows(*words))
            self.assertTrue(isinstance(wanted[0], type), words)
            self.assertEqual(outcome(mcf.solve_arrays, *words), wanted)
            if numpy:
                columns = [numpy.array(word) for word in words]
                self.assertEqual(outcome(mcf.solve_arrays, *columns)[0], wanted[0])
        self.assertRaises(ValueError, mcf.solve_arrays, [0], [0], [0], [1, 2], [0])
        self.assertRaises(ValueError, mcf.solve_arrays, [0], [], [], [], [], engine="none")
        for wrong in ({0: 1}, {1}, "1", b"1"):
            self.assertRaises(TypeError, mcf.solve_arrays, wrong, [], [], [], [])
        if numpy:
            square = numpy.zeros((2, 2), dtype="i8")
            self.assertRaises(ValueError, mcf.solve_arrays, square, [], [], [], [])

    def test_columns_that_another_thread_changes(self):
        for kind in (list, lambda values: array("q", values), numpy and numpy.array):
            if kind is None:
                continue
            n, m, is_over = 50, 2000, threading.Event()
            ends = [[k % n for k in range(m)], [(3 * k + 1) % n for k in range(m)]]
            columns = [kind(c) for c in ([0] * n, *ends, [5] * m, [1] * m)]

            def change(columns=columns, is_over=is_over):
                chance = random.Random(2)
                while not is_over.is_set():
                    column = chance.choice(columns)
                    column[chance.randrange(len(column))] = chance.choice((0, -7, 10**9, 2**62))

            thread = threading.Thread(target=change)
            thread.start()
            try:
                for _ in range(60):
                    outcome(mcf.solve_arrays, *columns)
            finally:
                is_over.set()
                thread.join()

    def test_engines(self):
        for engine in ("auto", "cancel", "simplex", "scaling", "sap", "fast"):
            r = mcf.solve_arrays([5, -5], [0, 0], [1, 1], [3, 9], [1, 2], engine=engine)
            self.assertEqual((r.cost, r.flow), (7, [3, 2]))


class Judging(unittest.TestCase):
    """Flows that anybody made."""

    problem = ([4, 0, -4], [0, 0, 1], [1, 2, 2], [2, 9, 3], [1, 5, 1])

    def test_verdicts(self):
        for flow, prices, kind in (
            ([2, 2, 2], [0, -4, -5], "accepted flow"),
            ([2, 2, 2], [7, 3, 2], "accepted flow"),
            ([0, 4, 0], [0, -4, -5], "rejected price"),
            ([2, 2, 2], [0, 0, 0], "rejected price"),
            ([2, 2, 1], [0, -4, -5], "rejected node"),
            ([3, 1, 3], [0, -4, -5], "rejected arc"),
            ([2, 2, -2], [0, -4, -5], "rejected arc"),
        ):
            for kind_of in kinds():
                made = [kind_of(column) for column in (*self.problem, flow, prices)]
                verdict = mcf.check_arrays(*made)
                self.assertEqual((verdict.kind, bool(verdict)), (kind, kind == "accepted flow"))
        self.assertEqual(mcf.check_arrays(*self.problem, [2, 2, 2], [0, -4, -5]).number, 14)

    def test_fractions(self):
        """All numbers may be fractions, and a capacity may be missing."""
        problem = ([1, -1], [0, 0], [1, 1], [None, 0.25], [Fraction(1, 3), 0.1])
        flow, prices = [0.75, 0.25], [0, Fraction(-1, 3)]
        verdict = mcf.check_arrays(*problem, flow, prices)
        self.assertEqual((verdict.kind, verdict.number), ("accepted flow", 0.275))
        self.assertEqual(mcf.check_arrays(*problem, flow, [0, 0]).kind, "rejected price")
        self.assertEqual(mcf.check_arrays(*problem, [0.5, 0.5], prices).kind, "rejected arc")
        # An arc without capacity is never full.
        free = ([10**17, -(10**17)], [0], [1], [float("inf")], [5])
        self.assertTrue(mcf.check_arrays(*free, [10**17], [0, -5]))
        self.assertFalse(mcf.check_arrays(*free, [10**17], [0, -6]))

    def test_refusals(self):
        flow, prices = [2, 2, 2], [0, -4, -5]
        for place, value, reason in (
            (0, [4, 0, -(10**19)], "supply"),
            (2, [1, 2, 7], "node"),
            (3, [2, 10**19, 3], "bound"),
            (3, [2, -1, 3], "order"),
            (4, [1, 5, 10**15 + 1], "cost"),
        ):
            words = [*self.problem[:place], value, *self.problem[place + 1 :]]
            with self.assertRaises(mcf.Refused) as c:
                mcf.check_arrays(*words, flow, prices)
            self.assertEqual(c.exception.reason, reason)
        for words, error in (
            ((*self.problem, flow, prices[:2]), ValueError),
            ((*self.problem, flow[:2], prices), ValueError),
            ((*self.problem, {0: 1}, prices), TypeError),
            ((*self.problem, None, prices), TypeError),
            ((*self.problem, flow, None), TypeError),
            ((*self.problem, flow, ["0", "1", "2"]), TypeError),
            ((*self.problem, flow, [0, 0, 10**19]), OverflowError),
        ):
            self.assertRaises(error, mcf.check_arrays, *words)

    def test_random(self):
        """The checker accepts what `solve_arrays` finds, and no other flow of another cost."""
        rng = random.Random(8)
        for _ in range(60):
            n, m = rng.randint(2, 6), rng.randint(1, 14)
            ends = [[rng.randrange(n) for _ in range(m)] for _ in range(2)]
            low = [rng.randint(-3, 2) for _ in range(m)]
            cap = [bound + rng.randint(0, 6) for bound in low]
            cost = [rng.randint(-9, 9) for _ in range(m)]
            flow = [rng.randint(*bounds) for bounds in zip(low, cap)]
            supplies = [0] * n
            for u, v, f in zip(*ends, flow):
                supplies[u] += f
                supplies[v] -= f
            words = (supplies, *ends, cap, cost)
            r = mcf.solve_arrays(*words, low)
            self.assertEqual(mcf.check_arrays(*words, r.flow, r.prices, low), r.verdict)
            is_least = sum(map(lambda c, f: c * f, cost, flow)) == r.cost
            self.assertEqual(bool(mcf.check_arrays(*words, flow, r.prices, low)), is_least)


class Frame:
    """A stand-in for a DataFrame."""

    def __init__(self, columns):
        self.table, self.columns = columns, list(columns)

    def __getitem__(self, name):
        return self.table[name]


class ByTables(unittest.TestCase):
    columns = {
        "tail": ["a", "a", "b"],
        "head": ["b", "c", "c"],
        "capacity": [2, None, 3],
        "cost": [1, 5, 1],
    }
    arcs = [("a", "b", 2, 1), ("a", "c", None, 5), ("b", "c", 3, 1)]

    def test_generators(self):
        supplies = {"a": 4, "c": -4}
        self.assertEqual(mcf.solve(supplies, iter(self.arcs)), mcf.solve(supplies, self.arcs))
        self.assertEqual(mcf.solve([1, -1], ((0, 1, 1, c) for c in (4, 3))).flow, [0, 1])

    def test_frames(self):
        supplies = {"a": 4, "c": -4}
        for make in [Frame] + ([pandas.DataFrame] if pandas else []):
            self.assertEqual(
                mcf.solve(supplies, make(self.columns)), mcf.solve(supplies, self.arcs)
            )
            lower = dict(self.columns, lower=[1, 0, 2])
            self.assertEqual(mcf.solve({"a": 2, "c": -2}, make(lower)).flow, [2, 0, 2])
            lacking = {k: v for k, v in self.columns.items() if k != "cost"}
            self.assertRaisesRegex(ValueError, "cost", mcf.solve, supplies, make(lacking))
        caps = dict(self.columns, capacity=[2.0, float("nan"), 3.0])
        self.assertEqual(mcf.solve(supplies, Frame(caps)).flow, [2, 2, 2])

    @unittest.skipUnless(scipy, "scipy isn't installed")
    def test_sparse_matrices(self):
        from scipy.sparse import coo_matrix, csr_matrix

        places = ([0, 0, 1], [1, 2, 2])
        costs = coo_matrix(([1, 5, 1], places), shape=(3, 3))
        caps = coo_matrix(([2, 9, 3], places), shape=(3, 3))
        for make in (coo_matrix, csr_matrix):
            r = mcf.solve([4, 0, -4], make(costs))
            self.assertEqual((r.cost, r.flow), (8, [4, 0, 4]))
            r = mcf.solve(numpy.array([4, 0, -4]), make(costs), capacities=make(caps))
            self.assertEqual((r.cost, r.flow), (14, [2, 2, 2]))
        # The arc from 0 to 2 costs 0.
        free = coo_matrix(([1, 1], ([0, 1], [1, 2])), shape=(3, 3))
        r = mcf.solve([4, 0, -4], free, capacities=caps)
        self.assertEqual((r.cost, r.flow), (0, [0, 4, 0]))
        twice = coo_matrix(([1, 1], ([0, 0], [1, 1])), shape=(3, 3))
        for words, options in (
            (([4, 0, -4], costs), {"capacities": free}),
            (([4, 0, -4], costs), {"capacities": twice}),
            (([4, -4], costs), {}),
        ):
            self.assertRaises(ValueError, mcf.solve, *words, **options)
        self.assertRaises(TypeError, mcf.solve, {"a": 1}, costs)
        self.assertRaises(TypeError, mcf.solve, [0], [], capacities=costs)


if __name__ == "__main__":
    unittest.main(argv=[sys.argv[0]], verbosity=0)
