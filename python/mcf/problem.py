"""Flow problems that are changed and solved again."""
from array import array
from copy import copy
from operator import index
from typing import Any, Dict, List, Optional, Sequence, Tuple, Union

from ._arrays import ArrayFlow, Kind, answered, columns_of, solve_arrays, values_of
from ._library import ArcArrays
from ._numbers import listed
from ._solving import Flow, flow_choice
from ._types import Column, Numbers

# The columns, and of the last three the place in a row of the library, in words of 8 bytes.
ENDS = ("src", "dst")
BOUNDS = {"low": 1, "cap": 2, "cost": 3}


class Problem:
    """A minimum-cost flow problem that is changed and solved again.

    The first `solve` starts from nothing, and each later one from the last answer, which is faster
    if little has changed since; if much has changed, it may take half as long again. Its result is
    right in any case, and its prices are the same as those of `solve_arrays`; of several least-cost
    flows it may be another one. That holds for whole numbers within 64 bits. With other numbers, or
    capacities that are infinite or None, each `solve` starts from nothing.

    Parameters
    ----------
    supplies, src, dst, cap, cost, low : arrays of numbers
        As for `solve_arrays`. They are copied.

    Examples
    --------
    >>> p = Problem([4, 0, -4], [0, 0, 1], [1, 2, 2], [2, 9, 3], [1, 5, 1])
    >>> p.solve().flow
    [2, 2, 2]
    >>> p.set_costs([1], [1])
    >>> p.add_arcs([0], [2], [1], [0])
    range(3, 4)
    >>> p.solve().flow
    [0, 3, 0, 1]
    """

    __slots__ = ("_kind", "_columns", "_rows", "_last")
    _kind: Kind
    # Each column as 8-byte integers, or as a list if it has other numbers.
    _columns: Dict[str, Any]
    # The arcs as the library takes them, or None before they are made.
    _rows: Any
    # The flow and the prices of the last answer.
    _last: Optional[Tuple["array[int]", "array[int]"]]

    def __init__(
        self,
        supplies: Union[Numbers, Column],
        src: Union[Numbers, Column],
        dst: Union[Numbers, Column],
        cap: Union[Numbers, Column],
        cost: Union[Numbers, Column],
        low: Union[None, Numbers, Column] = None,
    ):
        given, amounts = columns_of(src, dst, cap, cost, low=low), columns_of(supplies)[0]
        self._kind = Kind([amounts, *given])
        self._columns = {"supplies": self._read(amounts)}
        self._columns.update(self._arcs_of(given))
        self._rows = self._last = None

    def _read(self, column: Any) -> Any:
        """A copy of a column: 8-byte integers, or a list if it has other numbers."""
        try:
            return copy(self._kind.whole(column))
        except (OverflowError, TypeError):
            return values_of(column)

    def _arcs_of(self, given: Sequence[Any]) -> Dict[str, Any]:
        """The columns of arcs: tails, heads, capacities, costs and, if they aren't None, lower
        bounds."""
        src, dst, cap, cost, low = given
        low = array("q", bytes(8 * len(src))) if low is None else low
        found = zip((*ENDS, *BOUNDS), (src, dst, low, cap, cost))
        return {name: self._read(column) for name, column in found}

    def __len__(self) -> int:
        """The number of arcs."""
        return len(self._columns["cost"])

    def __repr__(self) -> str:
        return "Problem(nodes=%d, arcs=%d)" % (len(self._columns["supplies"]), len(self))

    def column(self, name: str) -> Any:
        """A copy of a column, of the kind of the arguments.

        Parameters
        ----------
        name : {'supplies', 'src', 'dst', 'low', 'cap', 'cost'}
        """
        column = copy(self._columns[name])
        return column if isinstance(column, list) else self._kind.result(column)

    def set_costs(self, arcs: Column, costs: Union[Numbers, Column]) -> None:
        """Changes the costs of some arcs.

        Parameters
        ----------
        arcs : array of k whole numbers
            Arcs count from 0, in their order.
        costs : array of k numbers

        Raises
        ------
        IndexError, ValueError
            There is no such arc, or the arrays differ in length. Nothing is changed then.
        """
        self._set("cost", arcs, costs)

    def set_capacities(self, arcs: Column, caps: Union[Numbers, Column]) -> None:
        """Changes the capacities of some arcs, as `set_costs` does their costs."""
        self._set("cap", arcs, caps)

    def set_lows(self, arcs: Column, lows: Union[Numbers, Column]) -> None:
        """Changes the lower bounds of some arcs, as `set_costs` does their costs."""
        self._set("low", arcs, lows)

    def set_supplies(self, nodes: Column, supplies: Union[Numbers, Column]) -> None:
        """Changes the supplies of some nodes, as `set_costs` does the costs of arcs."""
        self._set("supplies", nodes, supplies)

    def _places(self, numbers: Any, count: int) -> List[int]:
        """Numbers of arcs or nodes, which must be from 0 to below the count."""
        places = [index(place) for place in listed(columns_of(numbers)[0])]
        if places and not 0 <= min(places) <= max(places) < count:
            wrong = next(place for place in places if not 0 <= place < count)
            raise IndexError("%d is not from 0 to %d" % (wrong, count - 1))
        return places

    def _set(self, name: str, numbers: Any, values: Any) -> None:
        """Writes values of a column at some places."""
        places = self._places(numbers, len(self._columns[name]))
        new = self._read(columns_of(values)[0])
        if len(places) != len(new):
            raise ValueError("%d values for %d places" % (len(new), len(places)))
        if isinstance(new, list) and not isinstance(self._columns[name], list):
            self._columns[name] = values_of(self._columns[name])
        column = self._columns[name]
        for place, value in zip(places, values_of(new)):
            column[place] = value
        if isinstance(column, list):
            self._rows = None
        elif name in BOUNDS and self._rows is not None:
            # A row of numpy has fields, and is seen as four words.
            words = self._rows if self._kind.numpy is None else self._rows.view("i8")
            for place, value in zip(places, values_of(new)):
                words[4 * place + BOUNDS[name]] = value

    def add_arcs(
        self,
        src: Union[Numbers, Column],
        dst: Union[Numbers, Column],
        cap: Union[Numbers, Column],
        cost: Union[Numbers, Column],
        low: Union[None, Numbers, Column] = None,
    ) -> range:
        """Adds arcs after the others.

        Parameters
        ----------
        src, dst, cap, cost, low : arrays of numbers
            As for `solve_arrays`.

        Returns
        -------
        range
            The numbers of the new arcs.
        """
        before = len(self)
        for name, more in self._arcs_of(columns_of(src, dst, cap, cost, low=low)).items():
            self._columns[name] = self._joined(self._columns[name], more)
        self._rows = None
        if self._last is not None:
            self._last[0].extend([0] * (len(self) - before))
        return range(before, len(self))

    def _joined(self, column: Any, more: Any) -> Any:
        if isinstance(column, list) or isinstance(more, list):
            return values_of(column) + values_of(more)
        if self._kind.numpy is not None:
            return self._kind.numpy.concatenate([column, more])
        return column + more

    def remove_arcs(self, arcs: Column) -> None:
        """Removes arcs. Those after them move up, so that arcs count from 0 again.

        Parameters
        ----------
        arcs : array of whole numbers

        Raises
        ------
        IndexError
            There is no such arc. Nothing is removed then.
        """
        gone = set(self._places(arcs, len(self)))
        kept = [place for place in range(len(self)) if place not in gone]
        for name in (*ENDS, *BOUNDS):
            self._columns[name] = self._chosen(self._columns[name], kept)
        self._rows = None
        if self._last is not None:
            self._last = array("q", [self._last[0][place] for place in kept]), self._last[1]

    def _chosen(self, column: Any, places: List[int]) -> Any:
        if isinstance(column, list):
            return [column[place] for place in places]
        if self._kind.numpy is not None:
            return column[self._kind.numpy.array(places, dtype=self._kind.numpy.int64)]
        return array("q", [column[place] for place in places])

    def solve(self, *, check: bool = True) -> ArrayFlow:
        """Solves the problem as it is now, from the last answer if there is one.

        Parameters
        ----------
        check : bool
            Whether the checker judges the answer before the function returns it.

        Returns
        -------
        ArrayFlow
            As by `solve_arrays`.

        Raises
        ------
        Infeasible, Unbounded, Refused, OverflowError, TypeError, ValueError
            As by `solve_arrays`. The next `solve` then starts from the last answer before.
        """
        try:
            return self._solve_whole(check)
        except (OverflowError, TypeError):
            names = ("supplies", *ENDS, "cap", "cost", "low")
            found = solve_arrays(*(self._columns[name] for name in names), check=check)
            return ArrayFlow(
                found,
                self._kind.result(values_of(found.flow)),
                self._kind.result(values_of(found.prices)),
            )

    def _solve_whole(self, check: bool) -> ArrayFlow:
        """Solves a problem of whole numbers. OverflowError or TypeError if it isn't one."""
        columns = self._columns
        if any(isinstance(column, list) for column in columns.values()):
            raise TypeError
        if self._rows is None:
            ends = [columns[name] for name in ENDS]
            if not all(map(self._kind.are_ends, ends)):
                raise OverflowError
            self._rows = self._kind.rows(ends, [columns[name] for name in BOUNDS])
        # Copies, so that no other thread writes to them during the call.
        amounts, rows = copy(columns["supplies"]), copy(self._rows)
        problem = ArcArrays(amounts, len(amounts), rows, len(self))
        choice = flow_choice("fast")
        if self._last is None:
            status = problem.solve(choice, check)
        else:
            status = problem.solve_from(*self._last, choice, check)
        verdict = answered(problem, status, amounts, columns, check)
        self._last = problem.flow[:], problem.prices[:]
        found: Flow[Any, Any] = Flow(problem.told.number, [], verdict, (), None, 1)
        return ArrayFlow(found, self._kind.result(problem.flow), self._kind.result(problem.prices))
