"""The tests of problems that are changed and solved again: `mcf.Problem` beside `mcf.solve_arrays`.
Numpy serves if it is installed. MCF_LIBRARY names the library."""
import doctest
import os
import random
import sys
import unittest
from array import array
from fractions import Fraction

sys.path.insert(0, os.path.dirname(os.path.dirname(os.path.abspath(__file__))))
import mcf
import mcf.problem
from optional import installed

NAMES = ("supplies", "src", "dst", "cap", "cost", "low")
numpy = installed("numpy")


def load_tests(loader, tests, pattern):
    """Adds the examples of the docstrings as tests."""
    tests.addTests(doctest.DocTestSuite(mcf.problem))
    return tests


def kinds():
    """Functions that make a column of each kind from a list of whole numbers."""
    yield list
    yield lambda values: array("q", values)
    if numpy:
        yield lambda values: numpy.array(values, dtype="i8")


def outcome(call, *words, **options):
    """The cost and the prices as lists, or the exception's type and text."""
    try:
        r = call(*words, **options)
    except (mcf.MCFError, ValueError, TypeError, OverflowError) as error:
        return type(error), str(error)
    return r.cost, list(r.prices)


def begun(rng, column):
    """A random problem: often feasible, with loops and parallel arcs."""
    nodes, arcs = rng.randint(1, 12), rng.randint(0, 40)
    supplies = [0] * nodes
    for _ in range(rng.randint(0, 4)):
        amount = rng.randint(0, 9)
        supplies[rng.randrange(nodes)] += amount
        supplies[rng.randrange(nodes)] -= amount
    ends = [[rng.randrange(nodes) for _ in range(arcs)] for _ in range(2)]
    lows = [rng.choice((0, 0, 0, -3, 2)) for _ in range(arcs)]
    caps = [low + rng.randint(0, 20) for low in lows]
    costs = [rng.randint(-9, 30) for _ in range(arcs)]
    return mcf.Problem(*map(column, (supplies, *ends, caps, costs, lows)))


def change(rng, problem, column):
    """A random change, which may leave no feasible flow."""
    nodes, arcs = len(problem.column("supplies")), len(problem)
    some = [rng.randrange(arcs) for _ in range(rng.randint(0, 3))] if arcs else []
    which = rng.randrange(6)
    if which == 0:
        problem.set_costs(some, column([rng.randint(-20, 40) for _ in some]))
    elif which == 1:
        lows = problem.column("low")
        problem.set_capacities(some, column([int(lows[a]) + rng.randint(0, 20) for a in some]))
    elif which == 2:
        caps = problem.column("cap")
        problem.set_lows(some, column([int(caps[a]) - rng.randint(0, 20) for a in some]))
    elif which == 3:
        supplies = problem.column("supplies")
        u, v, amount = rng.randrange(nodes), rng.randrange(nodes), rng.randint(0, 9)
        problem.set_supplies([u], column([int(supplies[u]) + amount]))
        supplies = problem.column("supplies")
        problem.set_supplies([v], column([int(supplies[v]) - amount]))
    elif which == 4:
        count = rng.randint(0, 3)
        ends = [[rng.randrange(nodes) for _ in range(count)] for _ in range(2)]
        caps, costs = ([rng.randint(0, 20) for _ in range(count)] for _ in range(2))
        problem.add_arcs(*map(column, (*ends, caps, costs)))
    else:
        problem.remove_arcs(some)


class Again(unittest.TestCase):
    def test_random_changes(self):
        rng = random.Random(7)
        solved = blocked = 0
        for trial in range(int(os.environ.get("TRIALS", "400"))):
            column = list(kinds())[trial % len(list(kinds()))]
            problem = begun(rng, column)
            for step in range(12):
                given = [problem.column(name) for name in NAMES]
                check = bool(step % 2)
                found = outcome(problem.solve, check=check)
                self.assertEqual(found, outcome(mcf.solve_arrays, *given, check=check))
                if found[0] is mcf.Infeasible:
                    blocked += 1
                else:
                    solved += 1
                change(rng, problem, column)
        self.assertTrue(solved > blocked > 0)

    def test_kinds(self):
        for column in kinds():
            words = map(column, ([4, 0, -4], [0, 0, 1], [1, 2, 2], [2, 9, 3], [1, 5, 1]))
            problem = mcf.Problem(*words)
            self.assertEqual(type(problem.solve().flow), type(column([0])))
            problem.set_costs([2], [7])
            r = problem.solve()
            self.assertEqual((r.cost, list(r.flow)), (20, [0, 4, 0]))
            self.assertEqual(type(r.prices), type(column([0])))
            self.assertTrue(r.verdict.accepted)
            # The caller's buffers aren't the next hint.
            r.flow[0] = r.prices[0] = 9
            self.assertEqual(list(problem.solve().flow), [0, 4, 0])
            self.assertEqual(list(problem.column("cost")), [1, 5, 7])

    def test_other_numbers(self):
        problem = mcf.Problem([1, -1], [0, 0], [1, 1], [1, None], [2, 3])
        self.assertEqual(problem.solve().cost, 2)
        problem.set_costs([0], [Fraction(9, 2)])
        self.assertEqual(problem.solve().cost, 3)
        problem.set_supplies([0, 1], [1.5, -1.5])
        self.assertEqual(problem.solve().cost, 4.5)
        problem.remove_arcs([1])
        self.assertRaises(mcf.Infeasible, problem.solve)
        problem.add_arcs([0], [1], [2], [2**70])
        self.assertEqual(problem.column("cost"), [Fraction(9, 2), 2**70])
        self.assertRaises(mcf.Refused, problem.solve)

    def test_faults(self):
        problem = mcf.Problem([1, -1], [0], [1], [1], [2])
        for numbers in ([1], [-1], [0, 1]):
            self.assertRaises(IndexError, problem.set_costs, numbers, [0] * len(numbers))
            self.assertRaises(IndexError, problem.remove_arcs, numbers)
        self.assertRaises(ValueError, problem.set_costs, [0], [1, 2])
        self.assertRaises(ValueError, mcf.Problem, [0], [0], [0], [1], [1, 2])
        self.assertRaises(TypeError, problem.set_costs, [0.5], [1])
        self.assertEqual(problem.solve().cost, 2)
        problem.add_arcs([0], [5], [1], [1])
        self.assertRaises(mcf.Refused, problem.solve)
        problem.remove_arcs([1])
        self.assertEqual(problem.solve().cost, 2)
        self.assertEqual(repr(problem), "Problem(nodes=2, arcs=1)")


if __name__ == "__main__":
    unittest.main(argv=[sys.argv[0]], verbosity=0)
