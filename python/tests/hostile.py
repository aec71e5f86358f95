"""Calls the package mcf with hostile arguments: noise, numbers at the limits and beyond, numpy
arrays of all kinds, and objects that aren't numbers. Each call must return the right answer, or
raise an exception that names the fault. MCF_LIBRARY names the library."""
import collections
import itertools
import os
import random
import sys
import threading
import unittest
from decimal import Decimal
from fractions import Fraction
from types import MappingProxyType

sys.path.insert(0, os.path.dirname(os.path.dirname(os.path.abspath(__file__))))
import mcf

try:
    import numpy as np
except ImportError:
    np = None

BOUND, COST = 10**18, 10**15
AMOUNTS = (
    0,
    1,
    2,
    7,
    30,
    -1,
    -5,
    BOUND,
    BOUND - 1,
    -BOUND,
    BOUND + 1,
    -BOUND - 1,
    2**63 - 1,
    2**63,
    -(2**63),
    -(2**63) - 1,
    2**64,
    10**40,
)
COSTS = (
    0,
    1,
    2,
    30,
    -1,
    -7,
    COST,
    COST - 1,
    -COST,
    COST + 1,
    -COST - 1,
    2**63,
    -(2**63),
    2**64 + 1,
    -(10**40),
)


def fault(supplies, arcs):
    """The first fault: the arc, the node and the reason, as `Refused` has them."""
    total = 0
    for node, supply in enumerate(supplies):
        if abs(supply) > BOUND:
            return None, node, "supply"
    for place, (u, v, low, cap, cost) in enumerate(arcs):
        total += abs(cost) * max(abs(low), abs(cap))
        if not (0 <= u < len(supplies) and 0 <= v < len(supplies)):
            return place, None, "node"
        for reason, holds in (
            ("bound", max(abs(low), abs(cap)) > BOUND),
            ("order", cap < low),
            ("cost", abs(cost) > COST),
            ("total", total > 10**36),
        ):
            if holds:
                return place, None, reason
    return None


def least(supplies, arcs, answer):
    """Whether an answer is a feasible flow of the stated cost, and its prices certify that it is
    optimal."""
    left, flow, prices = list(supplies), answer.flow, answer.prices
    for (u, v, low, cap, cost), f in zip(arcs, flow):
        reduced = cost - prices[u] + prices[v]
        if not low <= f <= cap or f < cap and reduced < 0 or f > low and reduced > 0:
            return False
        left[u] -= f
        left[v] += f
    return not any(left) and answer.cost == sum(arc[4] * f for arc, f in zip(arcs, flow))


def problem_of(chance):
    """The supplies and arcs of a random problem. One problem in three has numbers beyond all
    limits."""
    n, wild = chance.randrange(5), chance.randrange(3)
    amounts, costs = (AMOUNTS[: (6, 10, 18)[wild]], COSTS[: (6, 9, 15)[wild]])
    supplies = [chance.choice(amounts) for _ in range(n)]
    if n and chance.randrange(4):
        supplies[-1] -= sum(supplies)
    beyond = [-1, n, 2**32 - 1, 2**32, 2**70]
    ends = (beyond if wild == 2 and chance.randrange(3) == 0 else []) + list(range(n)) * 3
    arcs = []
    for _ in range(chance.randrange(6) if ends else 0):
        bounds = [9, 8]
        if chance.randrange(9):
            bounds = sorted(chance.choice(amounts) for _ in range(2))
        arcs.append((chance.choice(ends), chance.choice(ends), *bounds, chance.choice(costs)))
    return supplies, arcs


# Calls that raise `Refused`: the number, the ends or the place in a matrix, and the message.
REFUSALS = (
    (
        lambda: mcf.solve([0, 0], [(0, 1, 5, 0.1234567890123457)]),
        0.1234567890123457,
        (0, 1),
        "arc 0 (0 to 1): cost 0.1234567890123457 is past the limit, 10^15 (numbers are "
        "multiplied by 10^16, to be whole)",
    ),
    (
        lambda: mcf.solve({"x": 10**19}, []),
        10**19,
        None,
        "node 'x': supply 10^19 is past the limit, 10^18",
    ),
    (
        lambda: mcf.solve({"x": 0}, [("x", "y", -1, 2e18, 1)]),
        2 * 10**18,
        ("x", "y"),
        "arc 0 ('x' to 'y'): bound 2000000000000000000 is past the limit, 10^18",
    ),
    (
        lambda: mcf.solve([0], [(0, 0, 2.5, 2, 1)]),
        (2.5, 2),
        (0, 0),
        "arc 0 (0 to 0): order, the lower bound 2.5 is above the capacity 2 (numbers are "
        "multiplied by 2, to be whole)",
    ),
    (
        lambda: mcf.solve([0, 0], [(0, 7, 1, 1)]),
        2,
        (0, 7),
        "arc 0 (0 to 7): node, there are 2, with numbers from 0",
    ),
    (
        lambda: mcf.solve(10**7, []),
        (10**6 + 1, 0),
        None,
        "size, 1000001 nodes and 0 arcs, where 1000000 and 10000000 may be",
    ),
    (
        lambda: mcf.linear_sum_assignment([[1e-300, 2]], engine="sap"),
        2,
        (0, 1),
        "row 0, column 1: cost 2 is past the limit, 10^15 (numbers are multiplied by "
        "10^300, to be whole)",
    ),
    (
        lambda: mcf.linear_sum_assignment([[1, 2], [-(10**16), 3]], True),
        -(10**16),
        (1, 0),
        "row 1, column 0: cost -10000000000000000 is past the limit, 10^15",
    ),
    (
        lambda: mcf.linear_sum_assignment([[1], [2], [10**16]]),
        10**16,
        (2, 0),
        "row 2, column 0: cost 10^16 is past the limit, 10^15",
    ),
    (
        lambda: mcf.solve([0, 0], [(0, 1, 5, 10**5000)]),
        10**5000,
        (0, 1),
        "arc 0 (0 to 1): cost 10^5000 is past the limit, 10^15",
    ),
    (
        lambda: mcf.solve([0, 0], [(0, 1, 5, Fraction(10**400, 3))]),
        float("inf"),
        (0, 1),
        "arc 0 (0 to 1): cost inf is past the limit, 10^15 (numbers are multiplied by 3, "
        "to be whole)",
    ),
)


class Numbers(unittest.TestCase):
    def kind_of(self, supplies, arcs, engine):
        """Solves a problem, compares the result with the definitions, and returns its kind."""
        problem = (supplies, arcs)
        try:
            answer = mcf.solve(supplies, arcs, engine=engine)
        except mcf.Refused as e:
            self.assertEqual((e.arc, e.node, e.reason), fault(supplies, arcs), problem)
            return e.reason
        except mcf.Infeasible as e:
            self.assertTrue(fault(supplies, arcs) is None and e.must > e.can, problem)
            return "blocked"
        self.assertIsNone(fault(supplies, arcs), problem)
        self.assertTrue(least(supplies, arcs, answer), (problem, answer))
        return "flow"

    def test_random_problems(self):
        chance, seen = random.Random(1), collections.Counter()
        for _ in range(4000):
            supplies, arcs = problem_of(chance)
            engine = chance.choice(("auto", "scaling", "fast", "cancel"))
            seen[self.kind_of(supplies, arcs, engine)] += 1
        for kind in ("flow", "blocked", "supply", "node", "bound", "order", "cost"):
            self.assertGreater(seen[kind], 20, seen)

    def test_totals(self):
        arcs = [(0, 1, BOUND, COST)] * 1000
        self.assertEqual(mcf.solve([0, 0], arcs).cost, 0)
        for more in ((0, 1, 1, 1), (0, 1, None, -1), (1, 0, -1, 0, 1)):
            with self.assertRaises(mcf.Refused) as c:
                mcf.solve([0, 0], arcs + [more])
            self.assertEqual((c.exception.arc, c.exception.node), (1000, None))

    def test_what_is_no_number(self):
        nan, inf = float("nan"), float("inf")
        for wrong in (
            nan,
            inf,
            -inf,
            "x",
            "",
            None,
            [],
            {},
            1j,
            Decimal("nan"),
            Decimal("inf"),
            Decimal("1e999999999"),
            "1e999999999",
            "1e-999999999",
            b"1",
        ):
            for arguments in (
                ([wrong, 0], []),
                ([0, 0], [(0, 1, 5, wrong)]),
                ([0, 0], [(0, 1, wrong, 5, 1)]),
                ({"a": wrong}, []),
            ):
                with self.assertRaises((ValueError, TypeError), msg=repr(arguments)):
                    mcf.solve(*arguments)
            with self.assertRaises((ValueError, TypeError), msg=repr(wrong)):
                mcf.linear_sum_assignment([[1, wrong], [wrong, 1]] if wrong != inf else [[inf]])
            if wrong is not None and wrong != inf:
                with self.assertRaises((ValueError, TypeError), msg=repr(wrong)):
                    mcf.solve([0, 0], [(0, 1, wrong, 5)])
            with self.assertRaises((ValueError, TypeError), msg=repr(wrong)):
                mcf.solve([0, 0], [(0, wrong, 5, 1)])

    def test_shapes(self):
        for arguments in (
            ([0, 0], [()]),
            ([0, 0], [(0, 1, 5)]),
            ([0, 0], [(0, 1, 0, 5, 1, 1)]),
            ([0, 0], [5]),
            ([0, 0], 5),
            (-1, []),
            (2.0, []),
            (None, []),
        ):
            with self.assertRaises((ValueError, TypeError), msg=repr(arguments)):
                mcf.solve(*arguments)
        for wrong in ([1, 2], [[1, 2], [3]], [[1], 2], 5, None, [[[1]]], "ab", {1: 2}):
            with self.assertRaises((ValueError, TypeError), msg=repr(wrong)):
                mcf.linear_sum_assignment(wrong)
            with self.assertRaises((ValueError, TypeError), msg=repr(wrong)):
                mcf.transport(wrong, [1, 1], [1, 1])
        for wrong in (5, None, "ab", [[1], [1]], [1], [1, None], ["1", 1], [1.5, 0.5]):
            with self.assertRaises((ValueError, TypeError), msg=repr(wrong)):
                mcf.transport([[1, 2], [3, 4]], wrong, [1, 1])
        for empty in ([], [[]], [[], []], ()):
            self.assertEqual(mcf.linear_sum_assignment(empty), ([], []))
        self.assertEqual(
            mcf.solve(MappingProxyType({"a": 1, "b": -1}), iter([("a", "b", 1, 1)])).flow, [1]
        )
        self.assertEqual(mcf.solve([], []).flow, [])
        self.assertEqual(mcf.solve({}, []).prices, {})

    def test_sets_and_texts_have_no_order(self):
        for wrong in ({4, -4}, frozenset((4, -4)), {4: 0, -4: 0}.keys()):
            self.assertRaises(TypeError, mcf.solve, wrong, [(0, 1, 5, 1)])
        for wrong in (["12", "34"], [b"12", b"34"], "12"):
            self.assertRaises((ValueError, TypeError), mcf.linear_sum_assignment, wrong)

    def test_numbers_of_nodes(self):
        for many in (10**6 + 1, 10**15, 10**40):
            with self.assertRaises(mcf.Refused) as c:
                mcf.solve(many, [])
            self.assertEqual(
                (c.exception.arc, c.exception.node, c.exception.reason), (None, None, "size")
            )

    def test_what_only_looks_like_a_number(self):
        class Lying:
            def __init__(self, answers):
                self.answers = iter(answers)

            def __index__(self):
                answer = next(self.answers)
                if isinstance(answer, Exception):
                    raise answer
                return answer

        for answers in ((ZeroDivisionError(),), ("5",), (None,), (1.5,), (TypeError(),)):
            for call in (
                lambda it: mcf.solve([it, 0], []),
                lambda it: mcf.solve([0, 0], [(0, it, 1, 1)]),
                lambda it: mcf.solve([0, 0], [(0, 1, it, 1)]),
                lambda it: mcf.linear_sum_assignment([[it]]),
                lambda it: mcf.transport([[it]], [1], [1]),
                lambda it: mcf.transport([[1]], [it], [1]),
                lambda it: mcf.transport([[1]], [1], [it]),
                lambda it: mcf.SimpleMinCostFlow().set_node_supply(0, it),
            ):
                self.assertRaises(
                    (ValueError, TypeError, ZeroDivisionError), call, Lying(answers * 9)
                )
        # The package asks the object once, though it would give another number the next time.
        self.assertEqual(
            mcf.solve(
                [Lying([3, 4, 5]), -3], [(0, Lying([1, 0, 7]), Lying([3, -1, 0]), Lying([2, 9]))]
            ).cost,
            6,
        )
        self.assertEqual(mcf.linear_sum_assignment([[Lying([3, -9]), 1], [1, 2]]), ([0, 1], [1, 0]))

    def test_choices(self):
        for options in (
            {"block": 0},
            {"block": -1},
            {"block": 2**32 + 1},
            {"block": "2"},
            {"engine": None},
            {"engine": []},
            {"pricing": 3},
        ):
            with self.assertRaises((ValueError, TypeError), msg=repr(options)):
                mcf.solve([0], [], **options)
        for form in (0, 3, 2**32 + 1, -1, None):
            with self.assertRaises((ValueError, TypeError), msg=form):
                mcf.solve_text(b"p min 1 0", form=form)

    def test_decimals(self):
        least_float = 5e-324
        self.assertEqual(
            mcf.solve([0.1, 0.2, -0.3], [(0, 2, None, 1), (1, 2, float("inf"), 0.1)]).cost, 0.12
        )
        self.assertEqual(mcf.solve([Fraction(1, 3), Fraction(-1, 3)], [(0, 1, 1, 3)]).cost, 1)
        for supplies, arcs in (
            ([least_float, -least_float, 1, -1], [(0, 1, 1, 1), (2, 3, 1, 1)]),
            ([0, 0], [(0, 1, 1e300, 1)]),
            ([0, 0], [(0, 1, 1, 1e300)]),
        ):
            self.assertRaises(mcf.Refused, mcf.solve, supplies, arcs)
        self.assertEqual(
            mcf.solve([least_float, -least_float], [(0, 1, least_float, 7)]).flow, [least_float]
        )

    def test_digits(self):
        chance = random.Random(6)
        matrix = [[chance.random() for _ in range(6)] for _ in range(6)]
        least = min(
            itertools.permutations(range(6)),
            key=lambda columns: sum(Fraction(matrix[i][j]) for i, j in enumerate(columns)),
        )
        self.assertEqual(mcf.linear_sum_assignment(matrix), (list(range(6)), list(least)))
        with self.assertRaises(mcf.Refused) as c:
            mcf.linear_sum_assignment(matrix, engine="sap")
        self.assertTrue(
            c.exception.reason == "cost"
            and c.exception.scale >= 10**15
            and mcf._numbers.said(c.exception.scale) in str(c.exception)
        )
        rounded = [[round(cost, 9) for cost in row] for row in matrix]
        whole = [[round(cost * 10**9) for cost in row] for row in matrix]
        self.assertEqual(mcf.linear_sum_assignment(rounded), mcf.linear_sum_assignment(whole))
        with self.assertRaises(mcf.Refused) as c:
            mcf.solve([0.5, -0.5], [(0, 1, 1, 0.1234567890123456), (0, 1, 1, 0.5000000000000001)])
        self.assertEqual(
            (c.exception.arc, c.exception.reason, c.exception.scale), (0, "cost", 10**16)
        )

    def test_what_is_said_of_a_refusal(self):
        for call, value, ends, words in REFUSALS:
            with self.assertRaises(mcf.Refused, msg=words) as c:
                call()
            self.assertEqual(
                (str(c.exception), c.exception.value, c.exception.ends), (words, value, ends)
            )
        self.assertLess(len(str(mcf.Refused(None, "x" * 10**6, "supply", 7**10000, 3))), 200)

    def test_texts_are_no_numbers(self):
        for wrong in ("5", "1/3", b"5", ""):
            for call in (
                lambda: mcf.solve([wrong, 0], []),
                lambda: mcf.solve([0, 0], [(0, 1, wrong, 1)]),
                lambda: mcf.linear_sum_assignment([[wrong, 2], [3, 4]]),
                lambda: mcf.linear_sum_assignment([[wrong, 0.5]]),
            ):
                self.assertRaisesRegex(TypeError, "a number is no text", call)
        for wrong in ({"from": 0, "to": 1, "cap": 1, "cost": 1}, {0, 1, 2, 3}, "0111", b"01110"):
            self.assertRaisesRegex(TypeError, "an arc is", mcf.solve, [0, 0], [wrong])

    def test_numbers_of_a_verdict_are_as_given(self):
        answer = mcf.solve([1.5, -1.5], [(0, 1, None, 1.5)])
        self.assertEqual((answer.cost, answer.verdict.number), (2.25, 2.25))

    def test_without_limits(self):
        self.assertEqual(
            mcf.solve([BOUND - 1, 1 - BOUND], [(0, 1, None, COST)]).cost, (BOUND - 1) * COST
        )
        self.assertEqual(mcf.solve([BOUND, -BOUND], [(0, 1, None, 1)]).cost, BOUND)
        self.assertRaises(mcf.Unbounded, mcf.solve, [0], [(0, 0, None, -1)])
        self.assertRaises(mcf.Refused, mcf.solve, [0, 0], [(0, 5, None, -1)])

    def test_simple(self):
        problem = mcf.SimpleMinCostFlow()
        for wrong in (-1, 10**6, 10**12, 1.5, "1", None):
            self.assertRaises((ValueError, TypeError), problem.set_node_supply, wrong, 1)
            self.assertRaises(
                (ValueError, TypeError), problem.add_arc_with_capacity_and_unit_cost, 0, wrong, 1, 1
            )
        for wrong in (1.5, "1", None):
            self.assertRaises((ValueError, TypeError), problem.set_node_supply, 0, wrong)
            self.assertRaises(
                (ValueError, TypeError), problem.add_arc_with_capacity_and_unit_cost, 0, 1, wrong, 1
            )
        self.assertRaises(
            ValueError, problem.add_arcs_with_capacity_and_unit_cost, [0], [1], [1, 2], [3]
        )
        self.assertRaises(
            ValueError,
            problem.add_arcs_with_capacity_and_unit_cost,
            [0, 5, -1],
            [1, 6, 0],
            [1, 1, 1],
            [3, 3, 3],
        )
        self.assertRaises(ValueError, problem.set_nodes_supplies, [0, -1], [1, 1])
        self.assertEqual((problem.num_arcs(), problem.num_nodes()), (0, 0))
        problem = mcf.SimpleMinCostFlow()
        self.assertEqual((problem.solve(), problem.optimal_cost()), (problem.OPTIMAL, 0))
        problem.add_arc_with_capacity_and_unit_cost(0, 1, 10**19, 10**16)
        self.assertEqual(problem.solve(), problem.BAD_CAPACITY_RANGE)
        self.assertRaises(RuntimeError, problem.optimal_cost)


class Texts(unittest.TestCase):
    def test_noise(self):
        chance = random.Random(2)
        for alphabet in (bytes(range(256)), b"\n", b"0123456789", b"p min 1\n", b"\0"):
            noise = bytes(chance.choices(alphabet, k=10**6))
            for text in (noise, b"p min 3 9\n" + noise, b"c " + noise):
                kind, answer = mcf.solve_text(text)
                self.assertTrue(kind == "refusal" and mcf.check_text(text, answer))
            self.assertFalse(mcf.check_text(b"p min 2 1\na 1 2 0 1 1\n", noise))

    def test_changed_texts(self):
        chance = random.Random(3)
        begin = (
            b"p min 4 5\nn 1 4\nn 4 -4\na 1 2 0 4 2\na 1 3 0 2 2\na 2 3 0 2 1\na 2 4 0 3 3\na 3 4 0"
            b" 5 1\n"
        )
        for _ in range(3000):
            text = bytearray(begin)
            for _ in range(chance.randrange(1, 4)):
                place = chance.randrange(len(text))
                text[place : place + chance.randrange(2)] = chance.choice(
                    (b"", b"-", b"9", b" ", b"\n", b"0", b"\xff", b"1000000000000000000")
                )
            kind, answer = mcf.solve_text(
                text,
                engine=chance.choice(("auto", "fast", "scaling")),
                form=chance.choice((1, 2)),
            )
            verdict = mcf.check_text(text, answer)
            self.assertTrue(verdict and verdict.kind == f"accepted {kind}", bytes(text))

    def test_kinds_of_bytes(self):
        text = b"p min 1 0\n"
        for other in (bytearray(text), memoryview(text), memoryview(text + text)[: len(text)]) + (
            (np.frombuffer(text, "u1"),) if np else ()
        ):
            self.assertEqual(mcf.solve_text(other), mcf.solve_text(text))
            self.assertTrue(mcf.check_text(other, bytearray(mcf.solve_text(text)[1])))
        for wrong in ("p min 1 0\n", 10, None, [1]):
            self.assertRaises(TypeError, mcf.solve_text, wrong)
            self.assertRaises(TypeError, mcf.check_text, text, wrong)


@unittest.skipUnless(np, "numpy isn't installed")
class Arrays(unittest.TestCase):
    def test_kinds_of_matrices(self):
        chance = random.Random(4)
        for _ in range(200):
            n, m = chance.randrange(1, 6), chance.randrange(1, 6)
            base = np.array([[chance.randrange(50) for _ in range(m)] for _ in range(n)])
            rows, columns = mcf.linear_sum_assignment(base)
            best = base[rows, columns].sum()
            great = -mcf_sum(-base)
            wide = np.full((2 * n, 3 * m), 99)
            wide[::2, ::3] = base
            kinds = [
                np.asfortranarray(base),
                wide[::2, ::3],
                base[::-1, ::-1],
                base.astype(">i4"),
                base[:, ::-1].astype("u1"),
            ]
            kinds += [
                base.astype(kind)
                for kind in ("i1", "i2", "u2", "i4", "u4", "u8", "f2", "f4", "f8", "g", "O")
            ]
            for kind in kinds:
                self.assertEqual(mcf_sum(kind), best, kind)
                self.assertEqual(mcf_sum(kind, maximize=True), great, kind)
            base.setflags(write=False)
            self.assertEqual(mcf_sum(base), best)
            self.assertEqual(mcf_sum(base.T), best)
            self.assertEqual(mcf_sum(np.asmatrix(base)), best)

    def test_masked_entries(self):
        table = np.ma.masked_equal([[1, 7], [2, 3]], 7)
        ones = np.ma.masked_array([1, 1])
        supplies = np.ma.masked_array([1, -1], mask=[True, False])
        calls = [
            (mcf.linear_sum_assignment, table),
            (mcf.assign, table),
            (mcf.transport, table, [1, 1], [1, 1]),
            (mcf.transport, table.data, ones, np.ma.masked_array([1, 1], mask=[False, True])),
            (mcf.emd, [0.5, 0.5], [0.5, 0.5], table),
            (mcf.emd2, [0.5, 0.5], np.ma.masked_equal([0.5, 0.5], 0.5), table.data),
            (mcf.solve_arrays, supplies, [0], [1], [5], [3]),
        ]
        for call, *words in calls:
            with self.assertRaisesRegex(ValueError, "an entry is masked", msg=call):
                call(*words)
        free = np.ma.masked_array(table.data)
        self.assertEqual(mcf_sum(free), 4)
        self.assertEqual(mcf.transport(free, ones, ones).cost, 4)

    def test_lists_of_numbers_of_numpy(self):
        chance = random.Random(7)
        for kind in ("i1", "u1", "i2", "u2", "i4", "u4", "i8", "u8", "f4", "f8"):
            for shape in ((4, 4), (2, 4), (4, 2)):
                low = 0 if kind[0] == "u" else -128
                table = np.array(
                    [
                        [chance.choice((low, low + 1, 0, 1, 2, 99, 127)) for _ in range(shape[1])]
                        for _ in range(shape[0])
                    ]
                ).astype(kind)
                plain = table.tolist()
                for rows in (list(table), [list(row) for row in table]):
                    for maximize in (False, True):
                        found = [
                            sum(
                                plain[i][j]
                                for i, j in zip(*mcf.linear_sum_assignment(matrix, maximize))
                            )
                            for matrix in (rows, plain)
                        ]
                        self.assertEqual(found[0], found[1], (kind, plain, maximize))
                supplies, arcs = np.array([3, -3]).astype("i1"), np.array([[0, 1, 9, 5]]).astype(
                    kind
                )
                self.assertEqual(mcf.solve(list(supplies), list(arcs)).cost, 15)
        for kind in ("f2", "f4", "f8", "g"):
            forbidden = [np.array([np.inf, 2], kind), np.array([1, 9], kind)]
            for rows in (forbidden, list(map(list, forbidden))):
                self.assertEqual(mcf.linear_sum_assignment(rows), ([0, 1], [1, 0]))
            for wrong in (np.nan, -np.inf):
                self.assertRaises(
                    ValueError,
                    mcf.linear_sum_assignment,
                    [np.array([wrong, 2], kind), np.array([1, 9], kind)],
                )
            self.assertEqual(mcf.solve([1, -1], [np.array([0, 1, np.inf, 0.25], kind)]).cost, 0.25)
        # A float stands for the decimal number that it prints as, which has few digits.
        self.assertEqual(mcf.solve([1, -1], [np.array([0, 1, np.inf, 0.1], "f4")]).cost, 0.1)

    def test_floats_of_arrays_are_what_they_print_as(self):
        for kind in ("f2", "f4", "f8", ">f4"):
            table = np.array([[0.1, 0.2], [0.3, 0.5]], kind)
            self.assertEqual(mcf.linear_sum_assignment(table)[1].tolist(), [1, 0])
            arcs = np.array([[0, 1, 0.5, 0.1], [0, 1, np.inf, 0.3]], kind)
            answer = mcf.solve(np.array([0.7, -0.7], kind), arcs)
            self.assertEqual((answer.cost, answer.flow), (0.11, [0.5, 0.2]))
        wide = np.array([["0.1", "0.2"], ["0.3", "0.5"]], dtype="U").astype("g")
        self.assertEqual(mcf.linear_sum_assignment(wide)[1].tolist(), [1, 0])
        self.assertEqual(mcf.solve([1, -1], np.array([[0, 1, 2, "0.1"]]).astype("g")).cost, 0.1)

    def test_arrays_that_are_changed_meanwhile(self):
        table, supplies, stopped = np.zeros((60, 60), int), np.array([5, -5]), threading.Event()
        arcs = np.array([[0, 1, 5, 1]] * 3)

        def change():
            while not stopped.is_set():
                table[:] = np.random.randint(-9, 9, table.shape)
                supplies[:] = supplies[::-1].copy()
                arcs[:, 2:] = np.random.randint(0, 9)

        thread = threading.Thread(target=change)
        thread.start()
        try:
            for _ in range(200):
                rows, columns = mcf.linear_sum_assignment(table)
                self.assertEqual(len(set(columns.tolist())), 60)
                try:
                    self.assertTrue(mcf.solve(supplies, arcs).verdict)
                except (mcf.Infeasible, mcf.Refused):
                    pass
        finally:
            stopped.set()
            thread.join()

    def test_what_is_no_matrix(self):
        for wrong in (
            np.zeros(3),
            np.zeros((2, 2, 2)),
            np.array(1),
            np.array([["a"]]),
            np.zeros((2, 2), "c16"),
            np.zeros((1, 1), "M8[s]"),
            np.array([[np.nan]]),
            np.array([[-np.inf]]),
            np.full((2, 2), np.inf),
            np.array([[None]]),
            np.array([[np.nan]], "O"),
        ):
            with self.assertRaises((ValueError, TypeError), msg=repr(wrong)):
                mcf.linear_sum_assignment(wrong)
        for shape in ((0, 0), (0, 3), (3, 0)):
            rows, columns = mcf.linear_sum_assignment(np.zeros(shape))
            self.assertEqual((rows.size, columns.size, rows.dtype), (0, 0, np.intp))
        for wrong in (
            np.full((2, 2), 2**63 - 1),
            np.full((2, 2), -(2**63)),
            np.full((2, 2), 2**64 - 1, "u8"),
        ):
            for maximize in (False, True):
                self.assertRaises(mcf.Refused, mcf.linear_sum_assignment, wrong, maximize)

    def test_kinds_of_arcs(self):
        arcs = np.array([[0, 1, 3, 1], [1, 2, 3, -1], [0, 2, 9, 5]])
        supplies = np.array([4, 0, -4])
        wide = np.zeros((6, 8), int)
        wide[::2, ::2] = arcs
        for kind in (
            arcs.astype("i1"),
            arcs.astype(">i8"),
            arcs.astype("f8"),
            arcs.astype("O"),
            wide[::2, ::2],
            np.asfortranarray(arcs),
            list(arcs),
        ):
            for amounts in (
                supplies,
                supplies.astype("f4"),
                np.repeat(supplies, 2)[::2],
                list(supplies),
            ):
                answer = mcf.solve(amounts, kind)
                self.assertEqual((answer.cost, answer.flow), (5, [3, 3, 1]))
        answer = mcf.solve(np.array([0.5, -0.5]), np.array([[0, 1, np.inf, 1.5]]))
        self.assertEqual((answer.cost, answer.flow), (0.75, [0.5]))
        for wrong in (
            np.array([[0, np.nan, 3, 1]]),
            np.array([[0, 1, np.nan, 1]]),
            np.array([[0, 1, 3, np.inf]]),
            np.array([[0.5, 1, 3, 1]]),
            np.zeros(4),
            np.zeros((2, 3)),
        ):
            with self.assertRaises((ValueError, TypeError), msg=repr(wrong)):
                mcf.solve([0, 0], wrong)
        self.assertEqual(mcf.solve([0, 0], np.zeros((0, 4))).flow, [])


def mcf_sum(matrix, **options):
    """The cost of a least-cost assignment of a matrix. Checks that the call left the matrix
    unchanged."""
    before = np.array(matrix)
    rows, columns = mcf.linear_sum_assignment(matrix, **options)
    assert np.array_equal(before, matrix) and len(set(columns.tolist())) == len(rows) == min(
        before.shape
    )
    return int(before[rows, columns].astype("i8").sum())


if __name__ == "__main__":
    unittest.main(argv=[sys.argv[0]], verbosity=0)
