"""Least-cost assignments, with the interface of scipy.optimize.linear_sum_assignment."""
import math
import struct
import sys
from array import array
from functools import lru_cache
from itertools import chain
from typing import Any, List, Optional, Sequence, Tuple, Union, overload

from ._errors import Cell, Infeasible, Refused
from ._library import (
    BLOCKED,
    CODES,
    FLOW,
    FORBIDDEN,
    INVALID_INPUT,
    DoubleArrays,
    MatrixArrays,
    PairArrays,
    assign_small,
    choice_of,
)
from ._limits import COST
from ._numbers import exact, is_float, limited, listed, refuse_masked, scale_of
from ._solving import flow_choice, solve_whole
from ._types import Matrix, Real

# The largest template to keep, in bytes. At most eight are kept.
KEPT = 2**20

FORBIDDEN_BYTES = FORBIDDEN.to_bytes(8, sys.byteorder)


@overload
def linear_sum_assignment(
    cost_matrix: Sequence[Sequence[Real]],
    maximize: bool = ...,
    *,
    engine: str = ...,
    check: bool = ...,
) -> Tuple[List[int], List[int]]:
    ...


@overload
def linear_sum_assignment(
    cost_matrix: Union[Matrix, Sequence[Matrix]],
    maximize: bool = ...,
    *,
    engine: str = ...,
    check: bool = ...,
) -> Tuple[Any, Any]:
    ...


def linear_sum_assignment(
    cost_matrix: Any, maximize: bool = False, *, engine: str = "auto", check: bool = True
) -> Tuple[Any, Any]:
    """Matches rows with columns at least cost, or at greatest cost.

    Floats are the numbers that their bits stand for, and the sum is exactly the least; where their
    bits span more than 118, it may be above the least by less than 2^-117 of the size of the
    greatest entry for each pair, as `assign` tells. Beside a Decimal or a Fraction, or with a named
    engine, a float counts as the decimal that it prints as, and the function scales all entries to
    whole numbers, exactly.

    Parameters
    ----------
    cost_matrix : sequence of sequences, or array
        The cost of matching each row with each column. An infinite entry forbids a pair; if the
        cost is maximized, minus infinity does.
    maximize : bool
        Whether to find the greatest cost instead of the least.
    engine : {'auto', 'sap', 'simplex', 'scaling', 'fast', 'cancel'}
        The algorithm. 'auto' searches the matrix directly, and uses 'sap' if the library accepts no
        answer of that search.
    check : bool
        Whether the checker judges the answer before the function returns it. The search on a
        matrix judges its answers in any case.

    Returns
    -------
    rows, columns
        The matched rows, ascending, and the column of each. They are numpy arrays if the matrix is
        one, and otherwise lists.

    Raises
    ------
    ValueError
        No matching covers all rows or all columns without an infinite entry; or an entry is a NaN,
        or the infinity that forbids nothing; or `cost_matrix` isn't a matrix.
    Refused
        A scaled entry is beyond 10^15.
    TypeError
        An entry isn't a number.

    Examples
    --------
    >>> linear_sum_assignment([[4, 1, 3], [2, 0, 5], [3, 2, 2]])
    ([0, 1, 2], [1, 0, 2])
    """
    refuse_masked(cost_matrix)
    if engine == "auto" and assign_small is not None:
        pair = assign_small(cost_matrix, maximize)
        if pair is not None:
            return pair
    table = _table(cost_matrix) if engine == "auto" else None
    found = _by_array(table, maximize) if table is not None else None
    if found is not None:
        return found
    flat, height, width, numpy = _flat(cost_matrix)
    if engine == "auto" and numpy is None and _are_doubles(flat):
        found = _by_floats(flat, height, width, maximize)
        if found is not None:
            return found
    cells = _cells(flat, maximize, width)
    try:
        pairs = _matched(cells, height, width, engine, check)
    except Refused as error:
        raise _at_cell(error, cells, width, maximize) from None
    first, second = [i for i, _ in pairs], [j for _, j in pairs]
    if numpy is not None:
        return numpy.array(first, dtype=numpy.intp), numpy.array(second, dtype=numpy.intp)
    return first, second


def _table(matrix: Any) -> Any:
    """The matrix as an array of doubles or of 64-bit integers, if it is an array of numbers that
    these can hold."""
    numpy = sys.modules.get("numpy") if hasattr(matrix, "__array__") else None
    if numpy is None:
        return None
    table = numpy.asarray(matrix)
    kind, size = table.dtype.kind, table.dtype.itemsize
    if table.ndim != 2 or size > 8:
        return None
    if kind == "f":
        return table.astype(numpy.float64, copy=False)
    if kind == "i" or (kind == "u" and size < 8):
        return table.astype(numpy.int64, copy=False)
    return None


def _by_array(table: Any, maximize: bool) -> Optional[Tuple[Any, Any]]:
    """Searches an array, in place where its layout allows it, by rows or by columns. Returns None
    for integers of which one is beyond the limit, or if the library accepts no answer of the
    search."""
    numpy = sys.modules["numpy"]
    costs = numpy.negative(table) if maximize else table
    is_whole = costs.dtype.kind == "i"
    if is_whole and costs.size and costs.max() == FORBIDDEN:
        return None
    is_turned = costs.flags.f_contiguous and not costs.flags.c_contiguous
    lines = costs.T if is_turned else costs
    rows, columns = lines.shape
    step, along = lines.strides
    if along != 8 or step % 8 or step < 8 * columns or not lines.flags.aligned:
        lines = numpy.ascontiguousarray(lines)
        step = 8 * columns
    arrays = MatrixArrays if is_whole else DoubleArrays
    problem = arrays(lines.ctypes.data, rows, columns, step // 8, lines)
    status = problem.assign()
    if status not in (FLOW, BLOCKED) and (is_whole or status != INVALID_INPUT):
        return None
    if status != FLOW:
        invalid = (tuple(cell) for cell in numpy.argwhere(~(costs > -math.inf)))
        raise _refusal(status, next(invalid, ()))
    found = numpy.frombuffer(problem.column_of, dtype=numpy.uint32).astype(numpy.intp)
    first = numpy.flatnonzero(found < columns)
    second = found[first]
    if is_turned:
        order = numpy.argsort(second, kind="stable")
        return second[order], first[order]
    return first, second


def _are_doubles(flat: List[Any]) -> bool:
    """Whether the entries are floats, or floats and ints that doubles hold exactly."""
    kinds = set(map(type, flat))
    if float not in kinds or not kinds <= {float, int, bool}:
        return False
    return all(abs(c) <= 2**53 for c in flat if type(c) is not float)


def _by_floats(
    flat: List[float], height: int, width: int, maximize: bool
) -> Optional[Tuple[List[int], List[int]]]:
    """Searches entries that are doubles, row by row. Returns None if the library accepts no answer
    of the search."""
    costs = array("d", [-c for c in flat] if maximize else flat)
    problem = DoubleArrays(costs.buffer_info()[0], height, width, width, costs)
    status = problem.assign()
    if status not in (FLOW, BLOCKED, INVALID_INPUT):
        return None
    if status != FLOW:
        invalid = (divmod(k, width) for k, c in enumerate(costs) if not c > -math.inf)
        raise _refusal(status, next(invalid, ()))
    found = problem.column_of
    rows = [row for row in range(height) if found[row] < width]
    return rows, [found[row] for row in rows]


def _refusal(status: int, invalid: Tuple[Any, ...]) -> Exception:
    """Why doubles have no answer. `invalid` is the row and the column of the first NaN or infinity
    that no cost may be."""
    if status == BLOCKED:
        return ValueError("cost matrix is infeasible")
    return ValueError("matrix contains invalid numeric entries: row %d, column %d" % invalid)


def _matched(
    cells: Any, height: int, width: int, engine: str, check: bool
) -> List[Tuple[int, int]]:
    """The matched pairs of row and column, by row."""
    found = _by_matrix(cells, height, width) if engine == "auto" and cells else None
    if found is not None:
        return found
    if height == width:
        return list(enumerate(_square(cells, height, engine, check)))
    if height < width:
        return _wide(cells, height, width, engine, check)
    turned = [cells[i * width + j] for j in range(width) for i in range(height)]
    return sorted((i, j) for j, i in _wide(turned, width, height, engine, check))


def _has_forbidden(cells: "array[int]") -> bool:
    """Whether an entry is the number that forbids a pair in the library. As a cost, that number is
    beyond the limit."""
    return cells.tobytes().find(FORBIDDEN_BYTES) >= 0 and FORBIDDEN in cells


def _by_matrix(cells: Any, height: int, width: int) -> Optional[List[Tuple[int, int]]]:
    """Searches the matrix directly for the pairs. Returns None if the library accepts no answer of
    the search, or if an entry is beyond the limit."""
    try:
        costs = cells
        if not isinstance(cells, array):
            costs = array("q", [FORBIDDEN if c is None else limited(c, COST) for c in cells])
        elif _has_forbidden(cells):
            return None
    except (TypeError, OverflowError):
        return None
    problem = MatrixArrays(costs.buffer_info()[0], height, width, width, costs)
    status = problem.assign()
    if status == BLOCKED:
        raise ValueError("cost matrix is infeasible")
    if status != FLOW:
        return None
    return [(row, column) for row, column in enumerate(problem.column_of) if column < width]


def _at_cell(error: Refused, cells: Any, width: int, maximize: bool) -> Refused:
    """A refusal that names the row and the column of the first entry beyond the limit."""
    if error.reason != "cost":
        return error
    place, cost = next((k, c) for k, c in enumerate(cells) if c is not None and abs(c) > COST)
    value = -cost if maximize else cost
    return Refused(place, None, "cost", 1, value, Cell(*divmod(place, width)))


def _flat(matrix: Any) -> Tuple[List[Any], int, int, Any]:
    """The entries row by row; the numbers of rows and columns; and the module numpy if the answer
    should be numpy arrays."""
    numpy = sys.modules.get("numpy") if hasattr(matrix, "__array__") else None
    if numpy is not None:
        table = numpy.asarray(matrix)
        if table.ndim != 2:
            raise ValueError("expected a matrix (2-D array), got a %d array" % table.ndim)
        if table.dtype.kind not in "buifO":
            raise TypeError(
                "Cannot cast array data from %r to dtype('float64') according to the rule 'safe'"
                % table.dtype
            )
        height, width = table.shape
        return listed(table.ravel()), height, width, numpy
    rows = list(matrix)
    if not all(hasattr(row, "__len__") and not isinstance(row, (str, bytes)) for row in rows):
        raise ValueError("expected a matrix (2-D array), got a 1 array")
    height, width = len(rows), len(rows[0]) if rows else 0
    if any(len(row) != width for row in rows):
        raise ValueError("expected a matrix: its rows have one length")
    return list(chain.from_iterable(rows)), height, width, None


def _cells(flat: List[Any], maximize: bool, width: int) -> Any:
    """The entries in whole numbers, None for an infinite one."""
    try:
        # This is three times as fast as array("q", flat), which before Python 3.10 also takes a
        # Decimal and drops its decimals.
        cells = array("q", struct.pack("%dq" % len(flat), *flat))
        # Negate Python's ints here, because a numpy int may wrap around.
        return array("q", [-c for c in cells]) if maximize else cells
    except (TypeError, OverflowError, struct.error):
        return _whole(flat, maximize, width)


def _whole(flat: List[Any], maximize: bool, width: int) -> List[Optional[int]]:
    """The entries in whole numbers, with None for an infinite one."""
    if set(map(type, flat)) == {float} and all(map(float.is_integer, flat)):
        flat = list(map(int, flat))
    else:
        worst = -math.inf if maximize else math.inf
        if any(is_float(c) and (math.isnan(c) or c == -worst) for c in flat):
            raise ValueError("matrix contains invalid numeric entries")
        exacts = [None if is_float(c) and c == worst else exact(c) for c in flat]
        scale = scale_of(c for c in exacts if c is not None)
        given, flat = flat, [None if c is None else int(c * scale) for c in exacts]
        for place, c in enumerate(flat):
            if c is not None and abs(c) > COST:
                cell = Cell(*divmod(place, width))
                raise Refused(place, None, "cost", scale, given[place], cell)
    return [None if c is None else -c for c in flat] if maximize else flat


def _template(n: int) -> "array[int]":
    """The pairs of a square matrix of n rows, with costs of 0."""
    halves = array("I", bytes(16 * n * n))
    halves[1::4] = array("I", range(1, n + 1)) * n
    for row in range(n):
        halves[4 * row * n : 4 * (row + 1) * n : 4] = array("I", [row + 1]) * n
    pairs = array("q")
    pairs.frombytes(memoryview(halves).cast("B"))
    return pairs


_kept_template = lru_cache(maxsize=8)(_template)


def _pairs(n: int) -> "array[int]":
    """The pairs of a square matrix of n rows, with costs of 0 for the caller to fill in. The pairs
    of a small matrix are kept for the next call."""
    return _kept_template(n)[:] if 16 * n * n <= KEPT else _template(n)


def _square(cells: Any, n: int, engine: str, check: bool) -> List[int]:
    """The column of each row."""
    if n == 0:
        return []
    try:
        costs = cells if isinstance(cells, array) else array("q", cells)
        where = None
        pairs = _pairs(n)
        pairs[1::2] = costs
    except (TypeError, OverflowError):
        where = [place for place, c in enumerate(cells) if c is not None]
        pairs = array(
            "q",
            chain.from_iterable(
                (place // n + 1 + ((place % n + 1) << 32), limited(cells[place], COST))
                for place in where
            ),
        )
    problem = PairArrays(n, n, pairs, len(pairs) // 2)
    status = problem.solve(choice_of(engine, "block", None), check)
    if status != FLOW:
        raise _why(status, problem, n)
    return _columns(problem.flow, where, n)


def _columns(flow: "array[int]", where: Optional[List[int]], n: int) -> List[int]:
    if where is not None:
        return [where[k] % n for k, f in enumerate(flow) if f]
    columns, data, end = [], flow.tobytes(), 8 * n
    for start in range(0, 8 * n * n, end):
        columns.append((data.index(1, start) - start) // 8)
    return columns


def _why(status: int, problem: PairArrays, n: int) -> Exception:
    if status == BLOCKED:
        return ValueError("cost matrix is infeasible")
    reason, count = CODES[problem.told.code], len(problem.flow)
    return Refused(None, None, reason, 1, (2 * n, count) if reason == "size" else None)


def _wide(cells: Any, n: int, m: int, engine: str, check: bool) -> List[Tuple[int, int]]:
    """The matched pairs of n rows and more columns. In the network each row sends 1 unit, and each
    column passes on at most 1 unit to an extra node."""
    where = [place for place, c in enumerate(cells) if c is not None]
    arcs = [(place // m, n + place % m, 0, 1, cells[place]) for place in where]
    arcs += [(n + column, n + m, 0, 1, 0) for column in range(m)]
    try:
        problem, _ = solve_whole([1] * n + [0] * m + [-n], arcs, flow_choice(engine), check)
    except Infeasible:
        raise ValueError("cost matrix is infeasible") from None
    return [divmod(place, m) for place, f in zip(where, problem.flow) if f]
