"""The tests of transport plans and of the earth mover's distance. `library.py` runs them."""
import array
import math
import random
import unittest
from fractions import Fraction
from unittest import mock

import mcf
import mcf._library
import mcf.transportation
from optional import installed


def _random_problem(rng, rows, columns, forbidden):
    """Costs, supplies and demands of equal sums."""
    costs = [[rng.randrange(-9, 30) for _ in range(columns)] for _ in range(rows)]
    for row in costs:
        for j in range(columns):
            if rng.random() < forbidden:
                row[j] = None
    supplies, demands = [0] * rows, [0] * columns
    for _ in range(3 * (rows + columns)):
        amount = rng.randrange(4)
        supplies[rng.randrange(rows)] += amount
        demands[rng.randrange(columns)] += amount
    return costs, supplies, demands


def _by_arcs(costs, supplies, demands):
    """The least cost by explicit arcs, or None if no plan exists."""
    rows = len(supplies)
    arcs = [
        (i, rows + j, None, cost)
        for i, row in enumerate(costs)
        for j, cost in enumerate(row)
        if cost is not None
    ]
    try:
        return mcf.solve([*supplies, *(-d for d in demands)], arcs).cost
    except mcf.Infeasible:
        return None


class Transports(unittest.TestCase):
    def assert_least(self, plan, costs, supplies, demands):
        """The plan meets the masses, and the prices show it."""
        left, lacking = list(supplies), list(demands)
        for i, j, amount in plan.shipments:
            self.assertGreater(amount, 0)
            left[i] -= amount
            lacking[j] -= amount
            self.assertEqual(costs[i][j], plan.row_prices[i] + plan.column_prices[j])
        self.assertEqual((set(left), set(lacking)), ({0}, {0}))
        for i, row in enumerate(costs):
            for j, cost in enumerate(row):
                if cost is not None:
                    self.assertGreaterEqual(cost, plan.row_prices[i] + plan.column_prices[j])
        self.assertEqual(plan.cost, sum(costs[i][j] * amount for i, j, amount in plan.shipments))

    def assert_cut(self, error, costs, supplies, demands):
        """No allowed pair leaves the set, and its masses differ in the wrong direction."""
        inside, must = set(error.nodes), 0
        for kind, place in inside:
            must += supplies[place] if kind == "row" else -demands[place]
        sends = error.side == "send"
        self.assertEqual((error.must, error.can), (must if sends else -must, 0))
        self.assertGreater(error.must, 0)
        for i, row in enumerate(costs):
            for j, cost in enumerate(row):
                first, second = ("row", i) in inside, ("column", j) in inside
                if cost is not None:
                    self.assertFalse(first and not second if sends else second and not first)

    def assert_same_as_arcs(self, costs, supplies, demands):
        least = _by_arcs(costs, supplies, demands)
        try:
            plan = mcf.transport(costs, supplies, demands)
        except mcf.Infeasible as error:
            self.assertIsNone(least)
            self.assert_cut(error, costs, supplies, demands)
        else:
            self.assertEqual(plan.cost, least)
            self.assert_least(plan, costs, supplies, demands)

    def test_random(self):
        rng = random.Random(7)
        for _ in range(300):
            rows, columns = rng.randrange(1, 7), rng.randrange(1, 7)
            problem = _random_problem(rng, rows, columns, rng.choice((0, 0.2, 0.7)))
            if rng.random() < 0.1:
                problem[1][rng.randrange(rows)] += rng.randrange(-5, 5)
            self.assert_same_as_arcs(*problem)

    def test_not_shown(self):
        """Where the search shows nothing, explicit arcs give the same answers."""
        rng = random.Random(11)
        shows_nothing = mock.patch.object(
            mcf._library.TransportArrays, "solve", return_value=mcf._library.NOT_SHOWN
        )
        with shows_nothing:
            for _ in range(60):
                self.assert_same_as_arcs(*_random_problem(rng, 4, 5, rng.choice((0, 0.3, 0.7))))
            with mock.patch.object(mcf.transportation, "ARCS", 3):
                with self.assertRaises(mcf.Refused) as c:
                    mcf.transport([[1, 2], [3, 4]], [1, 1], [1, 1])
                self.assertEqual(c.exception.reason, "size")

    def test_numbers(self):
        plan = mcf.transport(
            [[1, float("inf")], [2**63 - 1, 2.0]], [3.0, 2], array.array("q", [3, 2])
        )
        self.assertEqual((plan.cost, plan.dense()), (7, [[3, 0], [0, 2]]))
        self.assertEqual(repr(plan), "Plan(cost=7, 2 shipments)")
        table = memoryview(array.array("q", [1, 2, 3, 1])).cast("B").cast("q", (2, 2))
        self.assertEqual(mcf.transport(table, [3, 4], [5, 2]).cost, 11)
        self.assertEqual(mcf.transport([], [], []).cost, 0)
        self.assertEqual(mcf.transport([[], []], [0, 0], []).dense(), [[], []])
        self.assertEqual(plan, mcf.transport([[1, None], [None, 2]], [3, 2], [3, 2]))
        large = 2**62
        self.assertEqual(mcf.transport([[5]], [large], [large]).cost, 5 * large)

    def test_refused(self):
        for costs, supplies, error in (
            ([[float("nan")]], [1], ValueError),
            ([[0.5, -float("inf")]], [1], ValueError),
            ([[Fraction(1, 2)]], [1], ValueError),
            ([[1]], [0.5], ValueError),
            ([[0.5], [2**53 + 1]], [1, 0], mcf.Refused),
            ([["a"]], [1], TypeError),
            ([[1, 2]], [1], ValueError),
            ([[1], [2, 3]], [1, 0], ValueError),
            ([[10**15 + 1]], [1], mcf.Refused),
            ([[2**70]], [1], mcf.Refused),
            ([[0.5], [10**400]], [1, 0], mcf.Refused),
            ([[1]], [2**63], mcf.Refused),
        ):
            with self.assertRaises(error):
                mcf.transport(costs, supplies, [1])
        with self.assertRaises(mcf.Refused) as c:
            mcf.transport([[1, 2], [3, -(10**15) - 1]], [1, 1], [1, 1])
        self.assertEqual((c.exception.reason, c.exception.ends), ("cost", (1, 1)))
        with self.assertRaises(mcf.Infeasible) as c:
            mcf.transport([[1]], [-1], [-1])
        self.assertEqual(c.exception.side, "take")

    def test_doubles(self):
        """Floats that aren't whole are fractions, exactly; infinite ones and None forbid pairs."""
        rng = random.Random(29)
        for _ in range(300):
            rows, columns = rng.randrange(1, 7), rng.randrange(1, 7)
            costs, supplies, demands = _random_problem(rng, rows, columns, rng.choice((0, 0.3)))
            unit = rng.choice((0.1, 2.0**-1070, 1e-9, 1e300, 1 / 3))
            for row in costs:
                row[:] = [
                    None if c is None else c * unit * rng.choice((1, 1 + 2**-52)) for c in row
                ]
            exact = [[None if c is None else Fraction(c) for c in row] for row in costs]
            given = [[rng.choice((None, math.inf)) if c is None else c for c in r] for r in costs]
            try:
                plan = mcf.transport(given, supplies, demands)
            except mcf.Infeasible as error:
                self.assertIsNone(
                    _by_arcs([[c and 1 for c in r] for r in exact], supplies, demands)
                )
                self.assert_cut(error, exact, supplies, demands)
            else:
                self.assert_least(plan, exact, supplies, demands)
        plan = mcf.transport([[0.5, 1], [True, 2.0]], [1, 1], [1, 1])
        self.assertEqual((plan.cost, plan.shipments), (2, [(0, 1, 1), (1, 0, 1)]))

    def test_limits(self):
        """Numbers at the limits and beyond them are answered rightly, or refused."""
        rng = random.Random(23)
        far = (10**15 + 1, -(10**15) - 1, -(2**63), 2**64, None)
        costs = (0, 1, -7, 10**15, 1 - 10**15, *far)
        masses = (0, 1, 7, 10**18, 2**62, 2**63 - 1, 2**63, -1, -(2**63), 10**40)
        refused = answered = 0
        for _ in range(600):
            rows, columns = rng.randrange(1, 4), rng.randrange(1, 4)
            few = rng.choice((5, 10))
            matrix = [[rng.choice(costs[:few]) for _ in range(columns)] for _ in range(rows)]
            supplies = [rng.choice(masses[: rng.choice((6, 10))]) for _ in range(rows)]
            demands = [0] * columns
            for supply in supplies:
                demands[rng.randrange(columns)] += supply
            beyond = any(c is not None and abs(c) > 10**15 for row in matrix for c in row)
            wide = any(abs(mass) > 2**63 - 1 for mass in supplies + demands)
            try:
                plan = mcf.transport(matrix, supplies, demands)
            except mcf.Refused:
                refused += 1
                self.assertTrue(beyond or wide)
            except mcf.Infeasible as error:
                self.assertFalse(beyond or wide)
                self.assert_cut(error, matrix, supplies, demands)
            else:
                answered += 1
                self.assertFalse(beyond or wide)
                self.assert_least(plan, matrix, supplies, demands)
        self.assertGreater(min(refused, answered), 50)


@unittest.skipUnless(installed("numpy"), "there is no numpy")
class TransportsOfArrays(unittest.TestCase):
    def test_layouts(self):
        """An array of any layout gives the plan of its lists."""
        np = installed("numpy")
        rng = np.random.default_rng(3)
        wide = rng.integers(0, 50, (6, 9))
        supplies, demands = np.array([5, 0, 7]), np.array([3, 3, 3, 3])
        for table in (
            np.ascontiguousarray(wide[:3, :4]),
            wide[:3, :4],
            wide[1:4, 5:9],
            wide[::2, :4],
            wide[:3, ::2][:, :4],
            wide[2::-1, :4],
            np.asfortranarray(wide[:3, :4]),
            wide[:3, :4].astype(np.int16),
            wide[:3, :4].astype(np.uint8),
            wide[:3, :4].astype(">i8"),
            wide[:3, :4].astype(object),
            wide[:3, :4].astype(float),
        ):
            plan = mcf.transport(table, supplies, demands)
            self.assertEqual(plan, mcf.transport(table.tolist(), [5, 0, 7], [3] * 4))
            dense = plan.dense()
            self.assertEqual(dense.sum(0).tolist(), demands.tolist())
            self.assertEqual(dense.sum(1).tolist(), supplies.tolist())
            self.assertEqual(int((dense * table.astype(int)).sum()), plan.cost)

    def test_in_place(self):
        np = installed("numpy")
        for wide in (np.arange(60).reshape(6, 10), np.arange(60).reshape(6, 10) / 7):
            costs = mcf.transportation.in_place(wide[1:4, 2:6], wide.dtype)
            self.assertTrue(np.shares_memory(costs.buffer, wide))
            self.assertEqual((costs.stride, costs.length), (10, 24))
            self.assertEqual(costs.are_doubles, wide.dtype == float)

    def test_doubles(self):
        """An array of floats gives the plan of its lists, in any layout."""
        np = installed("numpy")
        wide = np.random.default_rng(4).random((6, 9))
        for table in (wide[:3, :4], wide[::2, :4], wide[:3, ::2][:, :4], wide[2::-1, :4].T.T):
            for kind in (float, np.float32, ">f8"):
                given = (
                    np.asfortranarray(table.astype(kind)) if kind == ">f8" else table.astype(kind)
                )
                plan = mcf.transport(given, [5, 0, 7], [3, 3, 3, 3])
                self.assertEqual(plan, mcf.transport(given.tolist(), [5, 0, 7], [3] * 4))
                self.assertIsInstance(plan.cost, Fraction)
        with self.assertRaisesRegex(ValueError, "row 0, column 1"):
            mcf.transport(np.array([[0.5, np.nan]]), [1], [1, 0])

    def test_beyond(self):
        np = installed("numpy")
        for value, kind in (
            (10**15 + 1, np.int64),
            (-(2**63), np.int64),
            (2**63 + 1, np.uint64),
        ):
            with self.assertRaises(mcf.Refused):
                mcf.transport(np.array([[value]], dtype=kind), [1], [1])
        top = np.iinfo(np.int64).max
        with self.assertRaises(mcf.Infeasible):
            mcf.transport(np.array([[top, 1], [top, 1]]), [1, 1], [1, 1])


@unittest.skipUnless(installed("numpy"), "there is no numpy")
class EarthMover(unittest.TestCase):
    def assert_dual(self, a, b, M, G, log):
        np = installed("numpy")
        np.testing.assert_allclose(G.sum(1), a, atol=1e-12)
        np.testing.assert_allclose(G.sum(0), b, atol=1e-12)
        np.testing.assert_allclose((G * M).sum(), log["cost"], atol=1e-9)
        np.testing.assert_allclose(a @ log["u"] + b @ log["v"], log["cost"], atol=1e-9)
        self.assertTrue((log["u"][:, None] + log["v"][None] <= M + 1e-9).all())
        np.testing.assert_allclose(a @ log["u"], b @ log["v"], atol=1e-9)

    def test_random(self):
        """The dual variables show each plan; sums and shapes are those of POT."""
        np = installed("numpy")
        rng = np.random.default_rng(5)
        for n, m in ((1, 1), (3, 3), (4, 7), (20, 20), (12, 30)):
            M = rng.integers(0, 1000, (n, m)) / 64
            counts = rng.integers(0, 9, n).astype(float), rng.multinomial(5 * n, [1 / m] * m) / 1.0
            counts[0][0] += counts[1].sum() - counts[0].sum() + 100
            counts[1][0] += 100
            for a, b in (([], []), (np.full(n, 1 / n), np.full(m, 1 / m)), counts):
                G, log = mcf.emd(a, b, M, log=True)
                first = a if len(a) else np.full(n, 1 / n)
                second = b if len(b) else np.full(m, 1 / m)
                self.assert_dual(np.asarray(first), np.asarray(second), M, G, log)
                self.assertEqual(mcf.emd2(a, b, M), log["cost"])
                self.assertEqual((log["warning"], log["result_code"]), (None, 1))

    @unittest.skipUnless(installed("scipy"), "there is no scipy")
    def test_linear_program(self):
        np, optimize = installed("numpy"), installed("scipy.optimize")
        rng = np.random.default_rng(9)
        for n, m in ((2, 5), (6, 6), (7, 4)):
            M = rng.integers(0, 100, (n, m))
            a, b = rng.multinomial(64, [1 / n] * n) / 64, rng.multinomial(64, [1 / m] * m) / 64
            sums = np.vstack([np.kron(np.eye(n), np.ones(m)), np.kron(np.ones(n), np.eye(m))])
            found = optimize.linprog(M.ravel(), A_eq=sums, b_eq=np.concatenate([a, b]))
            self.assertAlmostEqual(mcf.emd2(a, b, M), found.fun)

    def assert_exact(self, a, b, M, G, log):
        """The plan is exactly least for the masses that it has."""
        np = installed("numpy")
        masses = mcf.earth_mover._masses(a, b, True)
        plan = mcf.transport(M, masses.supplies, masses.demands)
        self.assertEqual(float(plan.cost * masses.unit), log["cost"])
        exact = sum(Fraction(M[i, j]) * Fraction(G[i, j]) for i, j in np.argwhere(G))
        self.assertAlmostEqual(float(exact), log["cost"], delta=1e-12 * (abs(M) * G).sum())

    def test_random_doubles(self):
        """Random costs and masses: the plan has the masses, and its cost is the least, exactly."""
        np = installed("numpy")
        rng = np.random.default_rng(17)
        for n, m in ((1, 1), (1, 5), (6, 6), (30, 20), (50, 70)):
            points = rng.random((n, 1, 2)) - rng.random((1, m, 2))
            for M in (rng.random((n, m)), (points**2).sum(2), np.sqrt((points**2).sum(2))):
                a, b = rng.random(n), rng.random(m)
                for a, b in ((a / a.sum(), b / b.sum()), ([], [])):
                    G, log = mcf.emd(a, b, M, log=True)
                    first = a if len(a) else np.full(n, 1 / n)
                    second = b if len(b) else np.full(m, 1 / m)
                    self.assertLess(abs(log["a"] - first).max(), 1e-15)
                    self.assertLess(abs(log["b"] - second).max(), 1e-15)
                    self.assert_dual(log["a"], log["b"], M, G, log)
                    self.assertEqual(mcf.emd2(a, b, M), log["cost"])
                    if len(a):
                        self.assert_exact(a, b, M, G, log)

    def test_grids(self):
        """Distances on a grid, of which many sums are equal but for their last bits."""
        np = installed("numpy")
        rng = np.random.default_rng(3)
        places = np.argwhere(np.ones((7, 7))).astype(float)
        M = np.sqrt(((places[:, None] - places[None]) ** 2).sum(2))
        for _ in range(5):
            a, b = rng.integers(0, 99, 49) * 1.0, rng.integers(0, 99, 49) * 1.0
            a[0] += max(0, b.sum() - a.sum())
            b[0] += max(0, a.sum() - b.sum())
            G, log = mcf.emd(a, b, M, log=True)
            self.assertEqual((log["a"].tolist(), log["b"].tolist()), (a.tolist(), b.tolist()))
            self.assert_exact(a, b, M, G, log)

    def test_hostile_doubles(self):
        """Ulps, subnormals, great numbers and infinities beside small ones, against fractions."""
        np = installed("numpy")
        rng = np.random.default_rng(31)
        half = np.array([0.5, 0.5])
        for values in (
            [1.0, 1 + 2.0**-52, 1 + 2.0**-51],
            [0.0, -0.0, 5e-324, 1e-323, 2.2e-308],
            [1e16, 0.25, 0.125, 1e16 + 2],
            [-1.5, 1e-9, 3.0, -(2.0**-60)],
            [1.7e308, -1.7e308, 1.0e308],
        ):
            for _ in range(40):
                M = rng.choice(values, (2, 2))
                straight, across = (
                    Fraction(M[0, 0]) + Fraction(M[1, 1]),
                    Fraction(M[0, 1]) + Fraction(M[1, 0]),
                )
                self.assertEqual(mcf.emd2(half, half, M), float(min(straight, across) / 2))
                M[0, 0] = np.inf
                self.assertEqual(mcf.emd2(half, half, M), float(across / 2))

    def test_far_apart(self):
        """Costs whose bits span more than 118: the cost is within the gap of the least."""
        np = installed("numpy")
        rng, told = np.random.default_rng(300), 0
        for _ in range(200):
            M = np.ldexp(rng.random((2, 2)) - 0.3, rng.integers(-150, 151, (2, 2)))
            C = [list(map(Fraction, row)) for row in M.tolist()]
            a = int(rng.integers(1, 9))
            b, c = int(rng.integers(0, a + 1)), int(rng.integers(1, 9))
            supplies, demands = [a, c], [b, a + c - b]
            plans = (
                x * C[0][0] + (a - x) * C[0][1] + (b - x) * C[1][0] + (c - b + x) * C[1][1]
                for x in range(max(0, b - c), b + 1)
            )
            plan, least = mcf.transport(M, supplies, demands), min(plans)
            self.assertTrue(0 <= plan.cost - least <= plan.gap)
            self.assertLessEqual(plan.gap, (a + c) * Fraction(abs(M).max()) / 2**117)
            told += plan.gap > 0
            cost = sum(C[i][j] * amount for i, j, amount in plan.shipments)
            self.assertEqual(plan.cost, cost)
            other = mcf.emd2(supplies, demands, M)
            self.assertTrue(float(least) <= other <= float(least + plan.gap))
        self.assertGreater(told, 20)

    def test_masses(self):
        """Masses are kept where they can be, and rounded to units where not."""
        np = installed("numpy")
        M = np.array([[0.0, 1.0], [1.0, 0.0]])
        for a, b in (
            ([0.25, 0.75], [0.5, 0.5]),
            ([3, 4], [5, 2]),
            ([2.0**-60, 1], [1, 2.0**-60]),
        ):
            log = mcf.emd(a, b, M, log=True)[1]
            self.assertEqual((log["a"].tolist(), log["b"].tolist()), (list(a), list(b)))
        for a, b in (
            ([0.3, 0.7], [0.1, 0.9]),
            ([1, 2.0**-70], [0.5, 0.5]),
            ([0.1, 0.3], [0.3, 0.1]),
        ):
            log = mcf.emd(a, b, M, log=True)[1]
            self.assertLess(abs(log["a"] - a).max(), sum(a) * 2.0**-51)
            self.assertLess(abs(log["b"] - b).max(), sum(a) * 2.0**-51)
        masses = mcf.earth_mover._masses(np.array([0.3, 0.7]), np.array([0.1, 0.9 + 1e-9]), True)
        self.assertEqual((sum(masses.supplies), sum(masses.demands)), (2**52, 2**52))
        log = mcf.emd([1.0, 1.0], [3.0, 1.0], M, log=True, check_marginals=False)[1]
        self.assertEqual(log["b"].tolist(), [1.5, 0.5])

    def test_integers(self):
        np = installed("numpy")
        top = np.iinfo(np.int64).max
        self.assertEqual(
            mcf.emd2([1, 1], [1, 1], np.array([[top, 2], [2**53, top]])), 2**53 + 2.0
        )
        with self.assertRaisesRegex(ValueError, "2\\^53"):
            mcf.emd([1, 1], [1, 1], np.array([[0, 2**53 + 2], [1, 0]]))

    def test_options(self):
        np = installed("numpy")
        M = np.array([[0, 3], [3, 0]])
        cost, log = mcf.emd2([0.5, 0.5], [0.25, 0.75], M, return_matrix=True, center_dual=False)
        self.assertEqual((cost, log["G"].tolist()), (0.75, [[0.25, 0.25], [0.0, 0.5]]))
        targets = np.array([[0.25, 0.5], [0.75, 0.5]])
        self.assertEqual(mcf.emd2([0.5, 0.5], targets, M), [0.75, 0.0])
        infinite = mcf.emd([1, 1], [1, 1], [[np.inf, 1.5], [2.5, np.inf]])
        self.assertEqual(infinite.tolist(), [[0, 1], [1, 0]])
        self.assertEqual(mcf.emd2([0.5, 0.5], np.zeros((2, 0)), M), [])
        tiny = [5e-324, 1e-323]
        self.assertEqual(mcf.emd(tiny, tiny[::-1], M).tolist(), [[5e-324, 0], [5e-324, 5e-324]])
        self.assertRaises(OverflowError, mcf.emd2, [1e300], [1e300], [[1e300]])

    def test_refused(self):
        np = installed("numpy")
        half = [0.5, 0.5]
        for a, b, M, word in (
            ([0.25, 0.75], [0.5, 0.25], [[0, 1], [1, 0]], "sum"),
            ([0.25, 0.25], half, [[0, 1], [1, 0]], "sum"),
            (half, half, [[np.nan, 1.0], [1.0, 0.0]], "numbers"),
            (half, half, [[-np.inf, 1.0], [1.0, 0.0]], "numbers"),
            ([np.inf, 0.0], half, [[0, 1], [1, 0]], "finite"),
            (half, half, [[0, 1, 2], [1, 0, 2]], "shapes"),
            (half, half, [0, 1], "matrix"),
            (half, half, np.eye(2, dtype=np.longdouble), "float64"),
            (half, half, np.eye(2, dtype=complex), "float64"),
            (half, half, [["0", "1"], ["1", "0"]], "float64"),
        ):
            with self.assertRaisesRegex(ValueError, word):
                mcf.emd(a, b, M)
        for a in ([-1.0, 2.0], [-0.1, 1.1], [-1e-300, 1.0]):
            with self.assertRaises(mcf.Infeasible):
                mcf.emd(a, half, [[0, 1], [1, 0]])
        with self.assertRaises(mcf.Infeasible):
            mcf.emd(half, half, [[np.inf, 1.0], [np.inf, 0.0]])


def _unif(n):
    return [1 / n] * n


@unittest.skipUnless(installed("numpy"), "there is no numpy")
class Pot(unittest.TestCase):
    """What POT's own tests of `emd` and `emd2` ask, and the examples of its docstrings."""

    def test_docstrings(self):
        np = installed("numpy")
        half, M = [0.5, 0.5], [[0.0, 1.0], [1.0, 0.0]]
        np.testing.assert_allclose(mcf.emd(half, half, M), [[0.5, 0], [0, 0.5]])
        self.assertEqual(mcf.emd2(half, half, M), 0)

    def _points(self):
        x = installed("numpy").random.RandomState(42).randn(100, 2)
        return ((x[:, None] - x[None]) ** 2).sum(2)

    def test_dimension_and_mass_mismatch(self):
        M, a = self._points(), _unif(99)
        self.assertRaises(ValueError, mcf.emd, a, a, M)
        self.assertRaises(ValueError, mcf.emd, [100, *a[1:]], a, M[:99, :99])

    def test_emd_and_emd2(self):
        np = installed("numpy")
        M, u = self._points(), _unif(100)
        np.testing.assert_allclose(mcf.emd(u, u, M), np.eye(100) / 100)
        np.testing.assert_allclose(mcf.emd2(u, u, M), 0)

    def test_empty(self):
        np = installed("numpy")
        np.testing.assert_allclose(mcf.emd([], [], self._points()), np.eye(100) / 100)

    def test_one_dimension(self):
        """On a line the distance is the integral of what both sides have differently to a side."""
        np = installed("numpy")
        rng = np.random.RandomState(0)
        x, y = rng.randn(50), rng.randn(40)
        M = (x[:, None] - y[None]) ** 2
        G = mcf.emd(_unif(50), _unif(40), M)
        firsts, seconds = np.repeat(np.sort(x), 4), np.repeat(np.sort(y), 5)
        np.testing.assert_allclose((G * M).sum(), ((firsts - seconds) ** 2).mean())
        np.testing.assert_allclose(G.sum(1), _unif(50))
        np.testing.assert_allclose(G.sum(0), _unif(40))

    def test_dual_variables(self):
        np = installed("numpy")
        for seed in range(30):
            rng = np.random.RandomState(seed)
            n, m = rng.randint(1, 80), rng.randint(1, 80)
            a, b = rng.rand(n), rng.rand(m)
            if seed % 3 == 0:
                a[rng.rand(n) < 0.3] = 0
                b[rng.rand(m) < 0.3] = 0
                a[0] = b[0] = 1
            a, b = a / a.sum(), b / b.sum()
            x, y = rng.randn(n, 2), rng.randn(m, 2)
            M = ((x[:, None] - y[None]) ** 2).sum(2) if seed % 2 else rng.rand(n, m)
            with self.subTest(seed):
                G, log = mcf.emd(a, b, M, log=True)
                u, v = log["u"], log["v"]
                np.testing.assert_allclose(G.sum(1), a, atol=1e-14)
                np.testing.assert_allclose(G.sum(0), b, atol=1e-14)
                np.testing.assert_allclose(log["cost"], a @ u + b @ v, rtol=1e-9, atol=1e-13)
                np.testing.assert_allclose(log["cost"], (G * M).sum(), rtol=1e-9, atol=1e-15)
                reduced = M - u[:, None] - v[None]
                self.assertGreaterEqual(reduced.min(), -1e-12)
                self.assertLess(abs(reduced[G > 0]).max(), 1e-12)

    def test_negative_costs(self):
        np = installed("numpy")
        M = np.random.RandomState(1).randn(30, 40)
        a, b = _unif(30), _unif(40)
        np.testing.assert_allclose(mcf.emd2(a, b, M), mcf.emd2(a, b, M + 9) - 9)

    def test_zero_cost(self):
        np = installed("numpy")
        G = mcf.emd(_unif(5), _unif(7), np.zeros((5, 7)))
        np.testing.assert_allclose(G.sum(1), _unif(5))
