"""The tests of assignments with their prices. `library.py` runs them."""
import itertools
import math
import random
import unittest
from array import array
from fractions import Fraction

import mcf
from optional import installed

np = installed("numpy")


def least(costs, sign):
    """The least (or greatest) sum of any matching of the smaller side, by all permutations."""
    rows, columns = len(costs), len(costs[0])
    lines = costs if rows <= columns else list(zip(*costs))
    sums = (
        [line[j] for line, j in zip(lines, order)]
        for order in itertools.permutations(range(max(rows, columns)), min(rows, columns))
    )
    allowed = [sum(map(Fraction, found)) for found in sums if None not in found]
    return sign * min((sign * value for value in allowed), default=math.inf)


class Assignments(unittest.TestCase):
    def assert_shown(self, costs, found, sign):
        """Its prices show the assignment, by exact sums."""
        rows, columns = len(costs), len(costs[0])
        matched = list(zip(found.rows, found.columns))
        self.assertEqual(len(set(found.columns)), min(rows, columns))
        self.assertEqual(len(set(found.rows)), min(rows, columns))
        u, v = found.row_prices, found.column_prices
        for i in range(rows):
            for j in range(columns):
                if costs[i][j] is not None:
                    reduced = sign * (Fraction(costs[i][j]) - u[i] - v[j])
                    self.assertGreaterEqual(reduced, 0)
                    self.assertTrue(reduced == 0 or (i, j) not in matched)
                else:
                    self.assertNotIn((i, j), matched)
        prices, taken = (v, set(found.columns)) if rows < columns else (u, set(found.rows))
        if rows != columns:
            self.assertTrue(all(sign * price <= 0 for price in prices))
            self.assertTrue(all(price == 0 for k, price in enumerate(prices) if k not in taken))
        self.assertEqual(found.cost, sum(Fraction(costs[i][j]) for i, j in matched))

    def assert_infeasible(self, costs, error):
        """The certificate excludes every matching of the smaller side."""
        rows = [i for kind, i in error.nodes if kind == "row"]
        columns = [j for kind, j in error.nodes if kind == "column"]
        pairs = (
            (i, j) for i, line in enumerate(costs) for j, c in enumerate(line) if c is not None
        )
        if error.side == "send":
            self.assertTrue(all(j in columns for i, j in pairs if i in rows))
            self.assertEqual((error.must, error.can), (len(rows), len(columns)))
        else:
            self.assertTrue(all(i in rows for i, j in pairs if j in columns))
            self.assertEqual((error.must, error.can), (len(columns), len(rows)))
        self.assertGreater(error.must, error.can)

    def test_random(self):
        """Random matrices of each shape, with forbidden pairs, against all permutations."""
        rng, blocked = random.Random(12), 0
        doubles = (0.5, 0.1, 1e16, 5e-324, -2.5, 3.0, 1 + 2.0**-52, -0.0)
        for _ in range(500):
            shape = rng.randint(1, 5), rng.randint(1, 5)
            values = rng.choice((range(-9, 10), range(3), doubles[1:7], doubles[:3], doubles[4:]))
            forbidden = rng.choice((0, 0, 0.2, 0.5))
            costs = [
                [None if rng.random() < forbidden else rng.choice(values) for _ in range(shape[1])]
                for _ in range(shape[0])
            ]
            maximize = rng.random() < 0.3
            sign = -1 if maximize else 1
            try:
                found = mcf.assign(costs, maximize)
            except mcf.Infeasible as error:
                self.assertEqual(sign * least(costs, sign), math.inf)
                self.assert_infeasible(costs, error)
                blocked += 1
                continue
            if found.gap:
                # 1e16 and the least double lie too far apart.
                self.assertIn(5e-324, {c for line in costs for c in line})
                self.assert_near(costs, found, sign)
                continue
            self.assertEqual(found.cost, least(costs, sign))
            self.assert_shown(costs, found, sign)
        self.assertGreater(blocked, 15)

    def assert_near(self, costs, found, sign):
        """The cost is within the gap of the best, which is less than 2^-117 of the size of the
        greatest entry for each pair. The prices show it for rounded costs."""
        above = sign * (found.cost - least(costs, sign))
        finite = [c for line in costs for c in line if c is not None and math.isfinite(c)]
        size = max(map(abs, map(Fraction, finite)))
        self.assertTrue(0 <= above <= found.gap)
        self.assertTrue(0 < found.gap < len(found.rows) * size / 2**117)
        unit = (found.gap / len(found.rows) + Fraction(1, 2**1074)) * sign
        rounded = [
            [None if c is None else Fraction(c) // unit * unit for c in line] for line in costs
        ]
        pairs = list(zip(found.rows, found.columns))
        self.assertEqual(found.cost, sum(Fraction(costs[i][j]) for i, j in pairs))
        shown = sum(rounded[i][j] for i, j in pairs)
        others = found.row_prices, found.column_prices, 0
        self.assert_shown(rounded, mcf.assigning.Assignment(zip(*pairs), shown, *others), sign)

    def test_far_apart(self):
        """Bits that span up to 2^300 and more: the cost is within the gap of the best sum, by all
        permutations in fractions."""
        rng, told = random.Random(72), 0
        for _ in range(400):
            shape = rng.randint(1, 5), rng.randint(1, 5)
            span = rng.choice((60, 130, 300, 300, 900, 2000))
            costs = [
                [
                    None
                    if rng.random() < 0.1
                    else rng.choice((-1, 1, 1))
                    * math.ldexp(rng.choice((1, rng.random())), rng.randint(-span // 2, span // 2))
                    for _ in range(shape[1])
                ]
                for _ in range(shape[0])
            ]
            sign = rng.choice((1, 1, -1))
            try:
                found = mcf.assign(costs, sign < 0)
            except mcf.Infeasible as error:
                self.assert_infeasible(costs, error)
                continue
            if found.gap:
                told += 1
                self.assert_near(costs, found, sign)
            else:
                self.assertEqual(found.cost, least(costs, sign))
                self.assert_shown(costs, found, sign)
            infinite = [[sign * math.inf if c is None else c for c in line] for line in costs]
            rows, columns = mcf.linear_sum_assignment(infinite, sign < 0)
            cost = sum(Fraction(costs[i][j]) for i, j in zip(rows, columns))
            self.assertLessEqual(sign * (cost - least(costs, sign)), found.gap)
        self.assertGreater(told, 200)

    @unittest.skipUnless(np is not None, "there is no numpy")
    def test_arrays(self):
        rng = np.random.default_rng(2)
        for table in (rng.integers(-9, 9, (4, 6)), rng.random((6, 4)), rng.random((5, 5))):
            for costs in (table, np.asfortranarray(table), table[::-1], table[:, ::2], table[:2]):
                for maximize in (False, True):
                    found = mcf.assign(costs, maximize)
                    self.assert_shown(costs.tolist(), found, -1 if maximize else 1)
                    rows, columns = mcf.linear_sum_assignment(costs, maximize)
                    total = sum(map(Fraction, costs[rows, columns].tolist()))
                    self.assertEqual(found.cost, total)
        infinite = np.array([[np.inf, 1.5], [2.5, np.inf]])
        self.assertEqual(mcf.assign(infinite).cost, 4)
        self.assertEqual(mcf.assign(-infinite, True).cost, -4)
        self.assertEqual(mcf.assign(np.zeros((0, 3))).columns, [])

    @unittest.skipUnless(np is not None, "there is no numpy")
    def test_narrow_types(self):
        """The opposite of a type's least number, and of unsigned ones, doesn't fit the type."""
        for kind in "bhiBHI":
            least_of = int(np.iinfo(kind).min)
            table = np.array([[least_of, 3], [5, least_of]], dtype=kind)
            self.assertEqual(mcf.assign(table, True).cost, 8)
            self.assertEqual(mcf.assign(table).cost, 2 * least_of)
            lines = [list(line) for line in table]
            self.assertEqual(mcf.assign(lines, True).cost, 8)

    def test_refusals(self):
        for costs, error, word in (
            ([[1, 2], [3, 10**15 + 1]], mcf.Refused, "row 1, column 1"),
            ([[1, float("nan")]], ValueError, "row 0, column 1"),
            ([[1, 2], [3]], ValueError, "lengths"),
            ([[Fraction(1, 3)]], ValueError, "whole"),
            ([["1"]], TypeError, ""),
            ([[10**400, 0.5]], mcf.Refused, "cost"),
        ):
            self.assertRaisesRegex(error, word, mcf.assign, costs)
        # The cost is named with the caller's sign.
        for cost, word in (
            (-(10**15) - 1, "cost -1000000000000001 "),
            (-(2**63) + 1, "cost -1000000000000001 "),
            (-(2**63), "cost -1000000000000001 "),
            (2**70, "cost 1000000000000001 "),
        ):
            self.assertRaisesRegex(mcf.Refused, word, mcf.assign, [[1, cost]], True)
            if np is not None and cost < 2**63:
                table = np.array([[1, cost]])
                self.assertRaisesRegex(mcf.Refused, "cost -", mcf.assign, table, True)

    def test_buffers(self):
        table = memoryview(array("q", [4, 1, 2, 0])).cast("B").cast("q", (2, 2))
        self.assertEqual((mcf.assign(table).cost, mcf.assign(table, True).cost), (3, 4))

    def test_results(self):
        found = mcf.assign([[4, 1], [2, 0]])
        self.assertEqual(repr(found), "Assignment(cost=3, 2 pairs)")
        self.assertEqual(found, mcf.assign([[4, 1], [2, 0]]))
        self.assertNotEqual(found, mcf.assign([[4, 1], [2, 1]]))
        self.assertNotEqual(found, None)
        self.assertRaises(TypeError, hash, found)
        self.assertEqual(mcf.assign([]).cost, 0)
