"""Least-cost assignments with the prices that show them."""
from fractions import Fraction
from typing import Any, List, Sequence, Tuple, Union

from ._errors import Infeasible, NotAccepted
from ._library import (
    BLOCKED,
    FLOW,
    FORBIDDEN,
    INVALID_INPUT,
    Costs,
    DoubleArrays,
    MatrixArrays,
    at,
    marked,
)
from ._numbers import is_float, refuse_masked
from ._types import Matrix, Real
from .transportation import cost_at, matrix_of, refused_cost, whole


class Assignment:
    """A least-cost assignment of rows to columns.

    Attributes
    ----------
    rows, columns : list of int
        The matched rows, ascending, and the column of each: as many as the smaller side has.
    cost : int or Fraction
        The sum of the costs of the pairs, exactly: a Fraction if a cost isn't whole, or is a float
        beyond 10^15.
    gap : int or Fraction
        How far from the least, or the greatest, the cost may be. It is 0, except where the bits of
        floats span more than 118.
    row_prices, column_prices : list of int or of Fraction
        The dual certificate: each allowed pair costs at least the sum of its prices, and each pair
        of the assignment exactly that sum. On the larger side no price is above 0, and the prices
        of what isn't matched are 0. So no assignment costs less. If the assignment has the greatest
        cost, the opposite holds: at most, and below 0. Where the gap isn't 0, all that holds of the
        costs rounded down to whole multiples of a power of 2, or up for the greatest cost.
    """

    __slots__ = ("rows", "columns", "cost", "gap", "row_prices", "column_prices")

    def __init__(
        self,
        pairs: Tuple[List[int], List[int]],
        cost: Union[int, Fraction],
        row_prices: Sequence[Union[int, Fraction]],
        column_prices: Sequence[Union[int, Fraction]],
        gap: Union[int, Fraction] = 0,
    ):
        (self.rows, self.columns), self.cost, self.gap = pairs, cost, gap
        self.row_prices, self.column_prices = list(row_prices), list(column_prices)

    def __repr__(self) -> str:
        """The cost and the number of pairs."""
        return "Assignment(cost=%r, %d pairs)" % (self.cost, len(self.rows))

    def __eq__(self, other: object) -> bool:
        """Whether the other is an assignment of the same pairs, cost, gap and prices."""
        if not isinstance(other, Assignment):
            return NotImplemented
        return all(getattr(self, name) == getattr(other, name) for name in self.__slots__)

    # An assignment holds mutable lists.
    __hash__ = None  # type: ignore[assignment]


def assign(
    costs: Union[Matrix, Sequence[Matrix], Sequence[Sequence[Union[Real, None]]]],
    maximize: bool = False,
) -> Assignment:
    """Matches rows with columns at least cost, or at greatest cost, with prices that show it.

    The answer is exact, and judged: floats are the numbers that their bits stand for, all other
    entries are whole. Where the bits of floats span more than 118, its cost may be above the least
    by up to its gap, which is less than 2^-117 of the greatest entry's size for each pair.

    Parameters
    ----------
    costs : array, or sequence of sequences
        The cost of matching each row with each column. An entry that is None or infinite forbids
        the pair, as 2^63 - 1 does; if the cost is maximized, None and minus infinity do.
    maximize : bool
        Whether to find the greatest cost instead of the least.

    Returns
    -------
    Assignment
        The pairs, their exact cost, the gap and the prices.

    Raises
    ------
    Infeasible
        There is no such assignment. The nodes of the exception, ('row', i) and ('column', j), say
        why: by 'send', its rows have allowed pairs with its columns alone, and are more than
        these; by 'take', its columns with its rows alone.
    Refused
        A whole entry is beyond 10^15.
    NotAccepted
        The judge accepts no assignment that the search found. No such matrix is known.
    ValueError
        An entry is no number, or one that isn't a float isn't whole; or `costs` isn't a matrix.
    TypeError
        An entry isn't a number.

    Examples
    --------
    >>> found = assign([[4, 1, 3], [2, 0, 5], [3, 2, 2]])
    >>> found.columns, found.cost
    ([1, 0, 2], 5)
    >>> found.row_prices, found.column_prices
    ([2, 0, 1], [2, -1, 1])
    >>> assign([[0.5, 0.25], [0.75, 0.125]]).cost
    Fraction(5, 8)
    >>> assign([[1, None], [1, None]])
    Traceback (most recent call last):
      ..
    mcf.Infeasible: 3 node(s) must send 2 and can send 1
    """
    matrix, sign = _read(costs, maximize), -1 if maximize else 1
    kind = DoubleArrays if matrix.are_doubles else MatrixArrays
    problem = kind(at(matrix.buffer), matrix.rows, matrix.columns, matrix.stride, matrix)
    status = problem.assign()
    if status == BLOCKED:
        raise _infeasible(problem)
    if status == INVALID_INPUT:
        raise refused_cost(matrix, sign)
    if status != FLOW:
        raise NotAccepted("the search found no assignment that the judge accepts")
    return _found(problem, matrix, sign)


def _read(costs: Any, maximize: bool) -> Costs:
    """The matrix of costs to minimize."""
    is_array = hasattr(costs, "__array__")
    refuse_masked(costs)
    if is_array:
        import numpy

        costs = numpy.asarray(costs)
        if costs.ndim != 2:
            raise ValueError("costs aren't a matrix: %d dimensions" % costs.ndim)
        if maximize and costs.dtype.kind == "i":
            # In 64 bits, since the opposite of the least number of a type doesn't fit it.
            costs = costs.astype(numpy.int64)
        is_wide = costs.dtype.kind == "i" and bool((costs <= -FORBIDDEN).any())
        if maximize and costs.dtype.kind in "if" and not is_wide:
            costs, maximize = numpy.negative(costs), False
    lists: Any = costs
    if maximize or not is_array:
        lists = [list(row) for row in (costs.tolist() if hasattr(costs, "tolist") else costs)]
    if maximize:
        lists = [[_opposite(value) for value in row] for row in lists]
    columns = costs.shape[1] if is_array else len(lists[0]) if lists else 0
    return matrix_of(lists, len(lists), columns)[0]


def _opposite(value: Any) -> Any:
    """The cost to minimize in place of one to maximize."""
    if value is None or is_float(value):
        return None if value is None else -value
    number = whole(value)
    # The opposite of the least number would forbid the pair; this one is refused as that is.
    return FORBIDDEN + 1 if number == -FORBIDDEN else -number


def _found(problem: MatrixArrays, matrix: Costs, sign: int) -> Assignment:
    """The assignment that a call found, with exact numbers in the caller's sign."""
    unit: Union[int, Fraction] = sign
    gap: Union[int, Fraction] = 0
    number = Fraction if matrix.are_doubles else int
    pairs = [(i, j) for i, j in enumerate(problem.column_of) if j < matrix.columns]
    if isinstance(problem, DoubleArrays):
        unit, gap = sign * problem.scale.size(), problem.scale.gap(len(pairs))
    cost = sign * sum((number(cost_at(matrix, i, j)) for i, j in pairs), number(0))
    rows, columns = (
        [unit * price for price in prices] for prices in (problem.row_prices, problem.column_prices)
    )
    return Assignment(([i for i, _ in pairs], [j for _, j in pairs]), cost, rows, columns, gap)


def _infeasible(problem: MatrixArrays) -> Infeasible:
    """The exception for a cover: marked rows and columns that have all allowed pairs, and are fewer
    than the smaller side. So the other rows, or columns, outnumber those that they may have."""
    rows, columns = problem.row_prices, problem.column_prices
    covering = [("row", i) for i in marked(rows)], [("column", j) for j in marked(columns)]
    if len(rows) <= len(columns):
        side, others = "send", [("row", i) for i, mark in enumerate(rows) if not mark]
        few: List[Tuple[str, int]] = covering[1]
        nodes = others + few
    else:
        side, others = "take", [("column", j) for j, mark in enumerate(columns) if not mark]
        few = covering[0]
        nodes = few + others
    return Infeasible(nodes, side, len(others), len(few), [])
