"""Flow problems given as arrays of supplies, ends, capacities and costs."""
import struct
import sys
from array import array
from copy import copy
from itertools import repeat
from typing import AbstractSet as Set
from typing import Any, List, Mapping, Optional, Sequence, Tuple, Union

from ._library import BLOCKED, INVALID_INPUT, ArcArrays, Choice, Verdict
from ._limits import Arc, Limits
from ._numbers import listed, refuse_masked
from ._solving import NODE, Flow, as_node, blocked_by, flow_choice, refused_by, solve_rows
from ._types import Column, Numbers

# The values of a column: an array of 8-byte integers, or a numpy array of them.
Values = Any


class ArrayFlow(Flow[Any, Any]):
    """A least-cost flow as arrays.

    Attributes
    ----------
    cost : int or float
        The total cost.
    flow, prices : numpy.ndarray, array.array or list
        The flow on each arc and a price for each node, of the kind of the arguments. The prices are
        a dual certificate: they show that no feasible flow costs less.
    verdict : Verdict or None
        The checker's verdict; None if the checker wasn't asked.
    success : bool
        True: an instance without a flow of least cost raises an exception.
    message : str
        What the checker says of the flow.
    """

    __slots__ = ("_array",)
    flow: Any

    def __init__(self, found: Flow[Any, Any], flow: Any, prices: Any):
        super().__init__(found.cost, flow, found.verdict, (), None, 1)
        self._array = prices

    @property
    def prices(self) -> Any:
        return self._array

    def __repr__(self) -> str:
        first = listed(self.flow[:12])
        more = ", ..." if len(self.flow) > 12 else ""
        return "ArrayFlow(cost=%r, flow=[%s%s])" % (self.cost, ", ".join(map(repr, first)), more)

    def __eq__(self, other: object) -> bool:
        """Whether the other is a flow of the same cost, amounts and prices."""
        if not isinstance(other, Flow):
            return NotImplemented
        return self.cost == other.cost and all(
            bool(listed(mine) == listed(theirs))
            for mine, theirs in ((self.flow, other.flow), (self.prices, other.prices))
        )

    __hash__ = None  # type: ignore[assignment]


class Kind:
    """How columns are read and results are written: by numpy if a column is a numpy array, or an
    object like one; as array.array if a column is a buffer; and otherwise as lists."""

    def __init__(self, columns: Sequence[Any]):
        refuse_masked(*columns)
        is_numpy = any(hasattr(column, "__array__") for column in columns)
        self.numpy: Any = sys.modules.get("numpy") if is_numpy else None
        self.is_buffer = any(isinstance(column, (array, memoryview)) for column in columns)

    def whole(self, column: Any) -> Values:
        """The values as 8-byte integers. OverflowError or TypeError if they aren't whole numbers
        of that size."""
        if self.numpy is None:
            if isinstance(column, array) and column.typecode == "q":
                return column
            # array("q", column) also takes a Decimal before Python 3.10, and drops its decimals.
            try:
                return array("q", struct.pack("%dq" % len(column), *column))
            except struct.error:
                raise OverflowError from None
        values = self.numpy.asarray(column)
        if values.ndim != 1:
            raise ValueError("a column has one dimension, and not %d" % values.ndim)
        kind, most = values.dtype.kind, self.numpy.iinfo(self.numpy.int64).max
        if kind == "f":
            # Below this, a whole float prints all its digits.
            inside = abs(values) < 2.0 ** min(self.numpy.finfo(values.dtype).nmant + 1, 53)
            if not inside.all() or (values != self.numpy.floor(values)).any():
                raise OverflowError
        elif kind == "u" and values.size and int(values.max()) > most:
            raise OverflowError
        elif kind not in "iu":
            raise TypeError
        return self.numpy.ascontiguousarray(values, dtype=self.numpy.int64)

    def rows(self, ends: Sequence[Values], numbers: Sequence[Optional[Values]]) -> Any:
        """The arcs as the library takes them: 32 bytes each. The tails and heads count from 0, and
        lie within the library's type. A column of None is all 0."""
        if self.numpy is not None:
            names = ("src", "dst", "low", "cap", "cost")
            kinds = ("u4", "u4", "i8", "i8", "i8")
            rows = self.numpy.zeros(len(ends[0]), dtype=list(zip(names, kinds)))
            for name, values in zip(names, ends):
                self.numpy.add(values, 1, out=rows[name], casting="unsafe")
            for name, values in zip(names[2:], numbers):
                if values is not None:
                    rows[name] = values
            return rows
        halves = array("I", bytes(32 * len(ends[0])))
        for place, values in enumerate(ends):
            halves[place::8] = array("I", [v + 1 for v in values])
        words = array("q")
        words.frombytes(memoryview(halves).cast("B"))
        for place, values in enumerate(numbers, 1):
            if values is not None:
                words[place::4] = values
        return words

    def are_ends(self, values: Values) -> bool:
        """Whether each value fits the library's type for nodes."""
        if not len(values):
            return True
        least, most = (
            (values.min(), values.max()) if self.numpy is not None else (min(values), max(values))
        )
        return bool(least >= 0 and most <= NODE)

    def result(self, values: Any) -> Any:
        """Numbers as a result of this kind, without a copy of whole numbers in an array."""
        if isinstance(values, array):
            if self.numpy is not None:
                return self.numpy.frombuffer(values, dtype=self.numpy.int64)
            return values if self.is_buffer else values.tolist()
        if self.numpy is not None:
            return self.numpy.array(values)
        if not self.is_buffer:
            return values
        return array("q" if set(map(type, values)) <= {int} else "d", values)


def columns_of(*columns: Any, low: Any = None) -> List[Any]:
    """The columns and, at the end, the least amounts, which alone may be None: of one length."""
    if any(column is None for column in columns):
        raise TypeError("a column of numbers is no None")
    columns = (*columns, low)
    for column in columns:
        if isinstance(column, (Mapping, Set, str, bytes, bytearray)):
            raise TypeError("a column of numbers is no %s" % type(column).__name__)
    found = [
        column if column is None or hasattr(column, "__len__") else list(column)
        for column in columns
    ]
    if len({len(column) for column in found if column is not None}) > 1:
        raise ValueError("the columns of the arcs have one length")
    return found


def values_of(column: Any) -> List[Any]:
    return list(listed(column))


def _solve_whole(
    kind: Kind, supplies: Any, columns: Sequence[Any], choice: Choice, check: bool
) -> Tuple[ArcArrays, Optional[Verdict]]:
    """Solves an instance of whole numbers with capacities. OverflowError or TypeError before it is
    solved if it isn't one."""
    # A copy, so that no other thread writes to it during the call.
    amounts = copy(kind.whole(supplies))
    src, dst, cap, cost = map(kind.whole, columns[:4])
    low = None if columns[4] is None else kind.whole(columns[4])
    if not (kind.are_ends(src) and kind.are_ends(dst)):
        raise OverflowError
    rows = kind.rows((src, dst), (low, cap, cost))
    problem = ArcArrays(amounts, len(amounts), rows, len(src))
    named = {"src": src, "dst": dst, "low": low, "cap": cap, "cost": cost}
    return problem, answered(problem, problem.solve(choice, check), amounts, named, check)


def answered(
    problem: ArcArrays, status: int, amounts: Values, columns: Mapping[str, Any], check: bool
) -> Optional[Verdict]:
    """The checker's verdict on the flow of a problem that was solved, or None if it wasn't asked.
    It raises the exception of another status."""
    if status in (INVALID_INPUT, BLOCKED):
        lows = repeat(0) if columns["low"] is None else values_of(columns["low"])
        src, dst, cap, cost = (values_of(columns[name]) for name in ("src", "dst", "cap", "cost"))
        arcs: List[Arc] = list(zip(src, dst, lows, cap, cost))
        limits = Limits(arcs, [], set())  # type: ignore[arg-type]
        if status == INVALID_INPUT:
            raise refused_by(problem, values_of(amounts), limits)
        raise blocked_by(problem, values_of(amounts), arcs, limits, check)
    return problem.accepted() if check else None


def solve_arrays(
    supplies: Union[Numbers, Column],
    src: Union[Numbers, Column],
    dst: Union[Numbers, Column],
    cap: Union[Numbers, Column],
    cost: Union[Numbers, Column],
    low: Union[None, Numbers, Column] = None,
    *,
    engine: str = "fast",
    check: bool = True,
) -> ArrayFlow:
    """Solves a minimum-cost flow problem that is given as arrays.

    Whole numbers are read without Python objects for them: by one strided copy of each column into
    the library's rows. That holds for numpy arrays of integers, or of floats that are whole and
    below 2^53, and for arrays of the module array. Other numbers, and capacities that are infinite
    or None, are read as by `solve`. A pandas Series counts by place, whatever its labels are.

    Parameters
    ----------
    supplies : array of n numbers
        The supply of each node, which is negative for a demand. Nodes are 0 to n - 1.
    src, dst : arrays of m whole numbers
        The tail and the head of each arc.
    cap, cost : arrays of m numbers
        The capacity of each arc, and the cost of a unit.
    low : array of m numbers, optional
        The lower bound of each arc, by default 0.
    engine : {'fast', 'simplex', 'scaling', 'sap', 'cancel', 'auto'}
        The algorithm.
    check : bool
        Whether the checker judges the answer before the function returns it.

    Returns
    -------
    ArrayFlow
        A least-cost flow, with prices that show it: numpy arrays if an argument is one, arrays of
        the module array if an argument is one or a memoryview, and otherwise lists.

    Raises
    ------
    Infeasible, Unbounded, Refused, OverflowError, TypeError, ValueError
        As by `solve`; ValueError also if the columns of the arcs differ in length.

    Examples
    --------
    >>> r = solve_arrays([4, 0, -4], [0, 0, 1], [1, 2, 2], [2, 9, 3], [1, 5, 1])
    >>> r.cost, r.flow, r.prices
    (14, [2, 2, 2], [0, -4, -5])
    >>> from array import array
    >>> solve_arrays(array("q", [1, -1]), [0], [1], [5], [3]).flow
    array('q', [1])
    """
    supplies = columns_of(supplies)[0]
    columns = columns_of(src, dst, cap, cost, low=low)
    kind, choice = Kind([supplies, *columns]), flow_choice(engine)
    try:
        problem, verdict = _solve_whole(kind, supplies, columns, choice, check)
    except (OverflowError, TypeError):
        # Numbers that aren't whole or don't fit, or a price beyond 64 bits, which comes again.
        lists = [values_of(column) for column in columns if column is not None]
        lows = repeat(0) if low is None else lists[4]
        tails, heads = (list(map(as_node, ends)) for ends in lists[:2])
        rows = list(zip(tails, heads, lows, lists[2], lists[3]))
        found = solve_rows(None, values_of(supplies), rows, choice, check)
        return ArrayFlow(found, kind.result(found.flow), kind.result(found.prices))
    found = Flow(problem.told.number, [], verdict, (), None, 1)
    return ArrayFlow(found, kind.result(problem.flow), kind.result(problem.prices))
