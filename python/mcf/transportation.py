"""Least-cost transport plans from the rows of a cost matrix to its columns."""
import math
import sys
from array import array
from fractions import Fraction
from operator import index, mul
from typing import Any, List, NamedTuple, Sequence, Tuple, Type, Union

from ._errors import Cell, Infeasible, NotAccepted, Refused
from ._library import (
    BLOCKED,
    FLOW,
    FORBIDDEN,
    INVALID_INPUT,
    SIDES,
    Costs,
    DoubleTransportArrays,
    TransportArrays,
    marked,
)
from ._limits import ARCS, COST
from ._numbers import exact, is_float, limited, refuse_masked
from ._solving import solve
from ._types import Array, Matrix, Real

# The row, the column and the amount of each entry of a plan.
Shipments = List[Tuple[int, int, int]]


class Plan:
    """A least-cost transport plan.

    Attributes
    ----------
    cost : int or Fraction
        The total cost: the sum of cost times amount. It is a Fraction if a cost isn't whole, or is
        a float beyond 10^15.
    gap : int or Fraction
        How far above the least the cost may be. It is 0, except where the bits of floats span more
        than 118.
    shipments : list of (row, column, amount)
        What goes from which row to which column, by row and column. No amount is 0.
    row_prices, column_prices : list of int or of Fraction
        The dual certificate: each allowed pair costs at least the sum of its prices, and each pair
        that the plan uses exactly that sum. So no plan costs less. Where the gap isn't 0, this
        holds of the costs rounded down to whole multiples of a power of 2.
    """

    __slots__ = ("cost", "gap", "shipments", "row_prices", "column_prices", "_numpy")

    def __init__(
        self,
        cost: Any,
        shipments: Shipments,
        row_prices: List[Any],
        column_prices: List[Any],
        numpy: Any = None,
        gap: Union[int, Fraction] = 0,
    ):
        self.cost, self.gap, self.shipments, self._numpy = cost, gap, shipments, numpy
        self.row_prices, self.column_prices = row_prices, column_prices

    def dense(self) -> Any:
        """The plan as a matrix: the amount for each row and each column.

        Returns
        -------
        array or list of lists
            A numpy array of 64-bit integers if the costs are a numpy array, and otherwise lists.

        Examples
        --------
        >>> transport([[1, 2], [3, 1]], [3, 4], [5, 2]).dense()
        [[3, 0], [2, 2]]
        """
        shape = (len(self.row_prices), len(self.column_prices))
        if self._numpy is not None:
            table = self._numpy.zeros(shape, dtype=self._numpy.int64)
            if self.shipments:
                rows, columns, amounts = zip(*self.shipments)
                table[list(rows), list(columns)] = amounts
            return table
        lists = [[0] * shape[1] for _ in range(shape[0])]
        for row, column, amount in self.shipments:
            lists[row][column] = amount
        return lists

    def __repr__(self) -> str:
        """The cost and how many pairs the plan uses."""
        return "Plan(cost=%r, %d shipments)" % (self.cost, len(self.shipments))

    def __eq__(self, other: object) -> bool:
        """Whether the other is a plan of the same cost, gap, amounts and prices."""
        if not isinstance(other, Plan):
            return NotImplemented
        return all(getattr(self, name) == getattr(other, name) for name in self.__slots__[:-1])

    # A plan holds mutable lists.
    __hash__ = None  # type: ignore[assignment]


def transport(
    costs: Union[Matrix, Sequence[Matrix], Sequence[Sequence[Union[Real, None]]]],
    supplies: Union[Sequence[Real], Array],
    demands: Union[Sequence[Real], Array],
    *,
    check: bool = True,
) -> Plan:
    """Finds a least-cost transport plan: how much each row of a cost matrix sends to each column.

    Each row sends its supply, and each column receives its demand. Supplies and demands are whole.
    Costs are whole, too, or they are floats, as the numbers that their bits stand for; the cost is
    exactly the least, except where the bits of floats span more than 118: there it may be above the
    least by up to the plan's gap. If a float isn't whole, or is beyond 10^15, the cost and the
    prices are fractions. A numpy array of 64-bit integers, or of 64-bit floats that aren't all
    whole, whose rows are contiguous, is read where it is, without a copy: no other thread may
    change it during the call.

    Parameters
    ----------
    costs : array, or sequence of sequences
        The cost of sending one unit from each row to each column. An entry that is None, infinite,
        or 2^63 - 1 forbids the pair.
    supplies : sequence or array
        What each row sends.
    demands : sequence or array
        What each column receives.
    check : bool
        Whether the checker judges an answer that is found by arcs. The search on the matrix judges
        its answers in any case.

    Returns
    -------
    Plan
        The plan, its cost, and prices that show that no plan costs less.

    Raises
    ------
    Infeasible
        No plan exists. The nodes of the exception, ('row', i) and ('column', j), are a cut: by
        'send', its rows may send to its columns alone, and supply more than these demand; by
        'take', its columns may receive from its rows alone, and demand more than these supply.
    Refused
        A whole cost is beyond 10^15, or a supply or a demand doesn't fit 64 bits; or the search
        shows no answer for whole costs, and there are too many pairs to solve them as arcs.
    NotAccepted
        The judge accepts no plan that the search found for floats. No such problem is known.
    ValueError
        A supply, a demand, or a cost that isn't a float, isn't whole; a cost is a NaN or
        -infinity; or `costs` isn't a matrix with a row for each supply and a column for each
        demand.
    TypeError
        An entry isn't a number.

    Examples
    --------
    >>> plan = transport([[1, 2], [3, 1]], [3, 4], [5, 2])
    >>> plan.cost, plan.shipments
    (11, [(0, 0, 3), (1, 0, 2), (1, 1, 2)])
    >>> plan.row_prices, plan.column_prices
    ([0, 2], [1, -1])
    >>> transport([[0.5, 0.75], [1.25, 1.5]], [3, 4], [5, 2]).cost
    Fraction(7, 1)
    >>> transport([[1, None], [1, None]], [3, 4], [5, 2])
    Traceback (most recent call last):
      ..
    mcf.Infeasible: 3 node(s) must send 2 and can send 0
    """
    refuse_masked(costs, supplies, demands)
    given_supplies, given_demands = _masses(supplies, 0), _masses(demands, len(supplies))
    matrix, numpy = matrix_of(costs, len(given_supplies), len(given_demands))
    problem = arrays_of(matrix)(matrix, given_supplies, given_demands)
    status = problem.solve()
    if status == BLOCKED:
        raise infeasible(problem, given_supplies, given_demands)
    if status == INVALID_INPUT:
        raise refused_cost(matrix)
    if status != FLOW and matrix.are_doubles:
        raise NotAccepted("the search found no plan that the judge accepts")
    if status != FLOW:
        return _by_arcs(matrix, given_supplies, given_demands, numpy, check)
    prices = problem.row_prices, problem.column_prices
    cost = total_of(prices, given_supplies, given_demands)
    if not matrix.are_doubles:
        return Plan(cost, problem.entries(), prices[0], prices[1], numpy)
    scale, shipments = problem.told.scale, problem.entries()
    rows, columns = ([scale.size() * price for price in line] for line in prices)
    gap, total = scale.gap(sum(given_supplies)), scale.size() * cost
    return Plan(
        exact_cost(matrix, shipments) if gap else total, shipments, rows, columns, numpy, gap
    )


def arrays_of(matrix: Costs) -> Type[TransportArrays]:
    """The call for a matrix."""
    return DoubleTransportArrays if matrix.are_doubles else TransportArrays


def total_of(prices: Tuple[List[int], List[int]], supplies: Any, demands: Any) -> int:
    """The cost of a plan that prices show to be least, in their unit."""
    return int(sum(map(mul, prices[0], supplies)) + sum(map(mul, prices[1], demands)))


def whole(value: Any) -> int:
    """A number as an int, which it has to be."""
    try:
        return index(value)
    except TypeError:
        number = exact(value)
    if not isinstance(number, int):
        raise ValueError("%r isn't a whole number" % (value,))
    return number


def _masses(masses: Any, first: int) -> "array[int]":
    """Supplies or demands as 64-bit numbers. `first` is the node of the first in a refusal."""
    numbers = [whole(mass) for mass in (masses.tolist() if hasattr(masses, "tolist") else masses)]
    for place, number in enumerate(numbers):
        if not -FORBIDDEN <= number <= FORBIDDEN:
            raise Refused(None, first + place, "supply", 1, number)
    return array("q", numbers)


def _entry(value: Any) -> int:
    """A cost as the library takes it."""
    if value is None or is_float(value) and value == math.inf:
        return FORBIDDEN
    number = whole(value)
    return number if number == FORBIDDEN else limited(number, COST)


def _is_whole(value: Any) -> bool:
    """Whether an entry is no float, or one that `_entry` takes."""
    return not is_float(value) or value == math.inf or abs(value) <= COST and value % 1 == 0


def _double(value: Any) -> float:
    """A cost as a double, which it has to be exactly."""
    if value is None:
        return math.inf
    number = value
    if not is_float(value):
        number = limited(whole(value), 2**1000)
        if number == FORBIDDEN:
            return math.inf
    if float(number) != number and number == number:
        raise Refused(None, None, "cost", 1, number)
    return float(number)


def matrix_of(costs: Any, rows: int, columns: int) -> Tuple[Costs, Any]:
    """The costs in memory, and the module numpy if they are its array."""
    numpy = sys.modules.get("numpy") if hasattr(costs, "__array__") else None
    if numpy is not None:
        table = numpy.asarray(costs)
        if table.ndim != 2:
            raise ValueError("costs aren't a matrix: %d dimensions" % table.ndim)
        _compare(table.shape, rows, columns)
        if table.dtype.kind == "i" and table.dtype.itemsize <= 8:
            return in_place(table, numpy.int64), numpy
        if table.dtype.kind == "f" and table.dtype.itemsize <= 8:
            return _floats(table), numpy
        costs = table.tolist()
    elif hasattr(costs, "tolist"):
        costs = costs.tolist()
    lists = [list(row) for row in costs]
    _compare((len(lists), len(lists[0]) if lists else columns), rows, columns)
    if any(len(row) != columns for row in lists):
        raise ValueError("costs aren't a matrix: their rows have different lengths")
    flat = [value for row in lists for value in row]
    are_doubles = not all(map(_is_whole, flat))
    numbers: Any = array("d", map(_double, flat)) if are_doubles else array("q", map(_entry, flat))
    return Costs(numbers, len(numbers), rows, columns, columns, are_doubles), numpy


def _floats(table: Any) -> Costs:
    """A numpy array of floats: as integers if all are whole and within the limit, or infinite."""
    import numpy

    finite = table < math.inf
    if not ((abs(table) <= COST) & (table == numpy.rint(table)) | (table == math.inf)).all():
        return in_place(table, numpy.float64)
    numbers = numpy.full(table.shape, FORBIDDEN)
    numbers[finite] = table[finite]
    return in_place(numbers, numpy.int64)


def _compare(shape: Tuple[int, ...], rows: int, columns: int) -> None:
    if tuple(shape) != (rows, columns):
        words = (*shape, rows, columns)
        raise ValueError("costs are %d x %d, for %d supplies and %d demands" % words)


def in_place(table: Any, dtype: Any) -> Costs:
    """A numpy array of 64-bit integers or of doubles where it is, or a copy if its rows aren't
    contiguous numbers of that type in ascending order."""
    import numpy

    rows, columns = table.shape
    down, right = table.strides
    fits = right == 8 and down >= 8 * columns and down % 8 == 0 and table.flags.aligned
    if table.dtype != dtype or rows < 2 or columns < 2 or not fits:
        table = numpy.ascontiguousarray(table, dtype=dtype)
        down = 8 * columns
    length = (rows - 1) * (down // 8) + columns if rows else 0
    return Costs(table, length, rows, columns, down // 8, dtype == numpy.float64)


def cost_at(matrix: Costs, row: int, column: int) -> Any:
    if isinstance(matrix.buffer, array):
        return matrix.buffer[row * matrix.stride + column]
    return matrix.buffer[row, column].item()


def exact_cost(matrix: Costs, shipments: Shipments) -> Fraction:
    """The cost of a plan, from the costs themselves."""
    terms = (Fraction(cost_at(matrix, i, j)) * amount for i, j, amount in shipments)
    return sum(terms, Fraction(0))


def refused_cost(matrix: Costs, sign: int = 1) -> ValueError:
    """The exception for the first cost that is beyond the limit, or isn't a number. The caller's
    costs have a sign before them."""
    for row in range(matrix.rows):
        for column in range(matrix.columns):
            cost, place = cost_at(matrix, row, column), row * matrix.columns + column
            if matrix.are_doubles and not cost > -math.inf:
                words = (sign * cost, row, column)
                return ValueError("%r isn't a cost: row %d, column %d" % words)
            if not matrix.are_doubles and abs(cost) > COST and cost != FORBIDDEN:
                return Refused(place, None, "cost", 1, sign * cost, Cell(row, column))
    # Another thread has changed the matrix since.
    return Refused(None, None, "cost")


def infeasible(
    problem: TransportArrays, supplies: Sequence[int], demands: Sequence[int]
) -> Infeasible:
    """The exception for the cut that an infeasible problem marks."""
    cut = marked(problem.row_prices), marked(problem.column_prices)
    return _infeasible(supplies, demands, cut, SIDES[problem.told.side])


def _infeasible(
    supplies: Sequence[int], demands: Sequence[int], cut: Tuple[List[int], List[int]], side: str
) -> Infeasible:
    """The exception for a cut, which no allowed pair leaves."""
    rows, columns = cut
    must = sum(supplies[i] for i in rows) - sum(demands[j] for j in columns)
    nodes: List[Any] = [("row", i) for i in rows] + [("column", j) for j in columns]
    return Infeasible(nodes, side, must if side == "send" else -must, 0, [])


class _Pairs(NamedTuple):
    """The allowed pairs, and their arcs."""

    places: List[Tuple[int, int]]
    arcs: List[Tuple[int, int, None, int]]


def _pairs(matrix: Costs) -> _Pairs:
    found = _Pairs([], [])
    for i in range(matrix.rows):
        for j in range(matrix.columns):
            cost = cost_at(matrix, i, j)
            if cost != FORBIDDEN:
                found.places.append((i, j))
                found.arcs.append((i, matrix.rows + j, None, cost))
    return found


def _by_arcs(
    matrix: Costs, supplies: Sequence[int], demands: Sequence[int], numpy: Any, check: bool
) -> Plan:
    """Solves the allowed pairs as arcs, after the search on the matrix showed nothing."""
    rows, columns = matrix.rows, matrix.columns
    if rows * columns > ARCS:
        raise Refused(None, None, "size", 1, (rows + columns, rows * columns))
    pairs = _pairs(matrix)
    try:
        flow = solve([*supplies, *(-demand for demand in demands)], pairs.arcs, check=check)
    except Infeasible as error:
        inside = (
            [v for v in error.nodes if v < rows],
            [v - rows for v in error.nodes if v >= rows],
        )
        raise _infeasible(supplies, demands, inside, error.side) from None
    shipments = [(i, j, amount) for (i, j), amount in zip(pairs.places, flow.flow) if amount]
    # The price of a column is that of its node, negated: there a reduced cost is cost + y_j - y_i.
    prices = list(flow.prices)
    return Plan(flow.cost, shipments, prices[:rows], [-price for price in prices[rows:]], numpy)
