"""The tests of the extension for small matrices. `library.py` runs them, if numpy and the extension
are there."""
import itertools
import random
import unittest
from fractions import Fraction
from unittest import mock

import mcf
import mcf._library
import mcf.assignment
from optional import installed

np = installed("numpy")
IS_BUILT = mcf._library.assign_small is not None


def outcome(matrix, maximize=False):
    """What a call returns or raises, as values that can be compared. Of several optima any may come
    back, so the exact sum stands for the pairs."""
    try:
        rows, columns = mcf.linear_sum_assignment(matrix, maximize)
    except Exception as error:
        return type(error), str(error)
    assert (np.diff(rows) > 0).all() and len(set(columns.tolist())) == len(columns)
    return rows.dtype, columns.dtype, len(rows), sum(map(Fraction, matrix[rows, columns].tolist()))


def without(matrix, maximize=False):
    """The outcome without the extension."""
    with mock.patch.object(mcf.assignment, "assign_small", None):
        return outcome(matrix, maximize)


@unittest.skipUnless(np is not None and IS_BUILT, "there is no numpy, or no extension")
class Small(unittest.TestCase):
    def assert_alike(self, matrix, maximize=False):
        found, other = outcome(matrix, maximize), without(matrix, maximize)
        self.assertEqual(found[:3], other[:3])
        if found[3:] != other[3:]:
            # Sums may differ where bits span more than 118.
            self.assertLessEqual(abs(found[3] - other[3]), mcf.assign(matrix, maximize).gap)

    def test_answers(self):
        """The extension answers what it is for."""
        for dtype in (np.int64, np.longlong, np.float64, np.float32):
            table = np.array([[4, 1, 3], [2, 0, 5], [3, 2, 2]], dtype=dtype)
            for matrix in (
                table,
                table.T,
                table[::-1],
                table[:, ::2],
                table[:2],
                np.asfortranarray(table),
            ):
                found = mcf._library.assign_small(matrix, False)
                self.assertIsNotNone(found)
                self.assertEqual([f.dtype for f in found], [np.intp] * 2)
                self.assert_alike(matrix)
        rows, columns = mcf._library.assign_small(np.array([[4, 1], [2, 0], [9, 9]]), False)
        self.assertEqual((rows.tolist(), columns.tolist()), ([0, 1], [1, 0]))
        rows, columns = mcf._library.assign_small(np.array([[4.0, 1.5], [2.0, 0.0]]), True)
        self.assertEqual((rows.tolist(), columns.tolist()), ([0, 1], [0, 1]))

    def test_leaves(self):
        """It leaves the rest to the module."""
        top = 2**63 - 1
        for matrix in (
            [[1, 2], [3, 4]],
            np.zeros((0, 3)),
            np.zeros((3, 0)),
            np.zeros(3),
            np.zeros((2, 2, 2)),
            np.zeros((51, 3)),
            np.zeros((3, 51)),
            np.zeros((2, 2), dtype=np.float16),
            np.zeros((2, 2), dtype=np.int32),
            np.zeros((2, 2), dtype=">f8"),
            np.zeros((2, 2), dtype=complex),
            np.array([[1, "a"], [2, 3]], dtype=object),
            np.array([[top, 1], [1, 1]]),
            np.array([[10**15 + 1, 1], [1, 1]]),
            np.array([[np.nan, 1], [1, 1]]),
            np.array([[-np.inf, 1], [1, 1]]),
            np.array([[np.inf, 1], [np.inf, 1]]),
            np.ma.masked_array([[1, 2], [3, 4]]),
            None,
        ):
            self.assertIsNone(mcf._library.assign_small(matrix, False))
        self.assertIsNone(mcf._library.assign_small(np.array([[-top, 1], [1, 1]]), True))
        for words in ((), (np.eye(2),), (np.eye(2), False, 1)):
            self.assertRaises(TypeError, mcf._library.assign_small, *words)

    def test_random(self):
        """Random matrices of all layouts have the same outcome as without it."""
        rng = random.Random(5)
        entries = (0.0, -0.0, 1.5, 1e16, 5e-324, 0.1, 3.0, np.inf, -np.inf, np.nan, 1e308)
        for _ in range(600):
            shape = rng.randint(1, 7), rng.randint(1, 7)
            if rng.random() < 0.5:
                flat = [rng.randint(-9, 9) for _ in range(shape[0] * shape[1])]
                table = np.array(flat, dtype=np.int64).reshape(shape)
                if rng.random() < 0.2:
                    table[0, 0] = rng.choice(
                        (2**63 - 1, -(2**63), 1 - 2**63, 10**15, -(10**15))
                    )
            else:
                weights = (9, 3, 9, 2, 1, 9, 9, 4, 0.1, 0.1, 1)
                flat = rng.choices(entries, weights, k=shape[0] * shape[1])
                table = np.array(flat).reshape(shape)
            if table.dtype == float and rng.random() < 0.3:
                with np.errstate(over="ignore"):
                    table = table.astype(np.float32)
            table = rng.choice((table, table.T, table[::-1, ::-1], np.asfortranarray(table)))
            self.assert_alike(table, rng.random() < 0.5)

    def test_least(self):
        """No permutation costs less."""
        rng = random.Random(6)
        for _ in range(100):
            n = rng.randint(1, 5)
            table = np.array([[rng.randint(-50, 50) for _ in range(n)] for _ in range(n)])
            rows, columns = mcf.linear_sum_assignment(table)
            least = min(
                sum(table[i, p[i]] for i in range(n)) for p in itertools.permutations(range(n))
            )
            self.assertEqual(table[rows, columns].sum(), least)
