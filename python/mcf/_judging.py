"""Flows and prices that anybody made: the checker judges them, and says how far costs may go."""
from array import array
from copy import copy
from itertools import repeat
from operator import mul
from typing import Any, Dict, List, NamedTuple, Optional, Sequence, Tuple, Union

from ._arrays import Kind, columns_of, values_of
from ._errors import NotAccepted
from ._library import INVALID_INPUT, VERDICTS, ArcArrays, RangeEnd, Verdict, failed
from ._limits import Arc, Limits
from ._numbers import exact, scale_of, unscaled
from ._solving import INFINITE, as_node, packed, refused_by, restored, scaled_rows, supplied
from ._types import Column, Numbers

# The flow of each arc, and the price of each node, as exact numbers.
Claim = Tuple[List[Any], List[Any]]
# The least and the greatest cost; None is no limit.
Range = Tuple[Optional[Union[int, float]], Optional[Union[int, float]]]


def check_arrays(
    supplies: Union[Numbers, Column],
    src: Union[Numbers, Column],
    dst: Union[Numbers, Column],
    cap: Union[Numbers, Column],
    cost: Union[Numbers, Column],
    flow: Union[Numbers, Column],
    prices: Union[Numbers, Column],
    low: Union[None, Numbers, Column] = None,
) -> Verdict:
    """Judges a flow with prices for a minimum-cost flow problem that is given as arrays.

    Whoever made them, the checker accepts exactly if the flow is feasible and the prices show that
    no feasible flow costs less: no residual arc has a reduced cost below 0.

    Parameters
    ----------
    supplies, src, dst, cap, cost, low
        The problem, as for `solve_arrays`.
    flow : array of m numbers
        The flow on each arc.
    prices : array of n numbers
        The price of each node. The reduced cost of an arc is its cost, plus the price of its head,
        minus that of its tail.

    Returns
    -------
    Verdict
        Its number is the cost of an accepted flow, or the number, from 1, of an arc or a node
        where the answer is wrong.

    Raises
    ------
    Refused
        The arrays have a fault, as for `solve_arrays`; or an arc without capacity has a flow of
        10^18 or more.
    OverflowError
        A flow or a price doesn't fit 64 bits, once all numbers are whole.
    TypeError, ValueError
        An argument is no column of numbers, or the lengths differ.

    Examples
    --------
    >>> problem = [4, 0, -4], [0, 0, 1], [1, 2, 2], [2, 9, 3], [1, 5, 1]
    >>> check_arrays(*problem, flow=[2, 2, 2], prices=[0, -4, -5])
    Verdict(accepted=True, kind='accepted flow', number=14, code='')
    >>> check_arrays(*problem, flow=[0, 4, 0], prices=[0, -4, -5]).kind
    'rejected price'
    """
    claimed = _claimed(supplies, (src, dst, cap, cost, flow), prices, low)
    status, told = claimed.problem.judged()
    claimed.refuse(status, told)
    number = claimed.total(told.number) if status == 0 else told.number
    return Verdict(status == 0, VERDICTS[told.kind], number, "")


def cost_ranges(
    supplies: Union[Numbers, Column],
    src: Union[Numbers, Column],
    dst: Union[Numbers, Column],
    cap: Union[Numbers, Column],
    cost: Union[Numbers, Column],
    flow: Union[Numbers, Column],
    prices: Union[Numbers, Column],
    low: Union[None, Numbers, Column] = None,
    *,
    arcs: Optional[Sequence[int]] = None,
) -> List[Range]:
    """Tells from what to what the cost of an arc may change while a flow stays least.

    The flow may be anybody's. The checker judges it first, as `check_arrays` does. All costs but
    that of the arc stay as they are. The ends are exact: beyond them the flow isn't least. (Ahuja,
    Magnanti and Orlin, Network Flows, section 9.11.)

    Parameters
    ----------
    supplies, src, dst, cap, cost, flow, prices, low
        The problem, a flow and its prices, as for `check_arrays`.
    arcs : sequence of ints, optional
        The arcs, from 0; by default all. Each takes at most two searches of the network.

    Returns
    -------
    list of pairs
        The least and the greatest cost of each arc; None for an end without a limit.

    Raises
    ------
    NotAccepted
        The checker rejects the flow.
    IndexError
        An arc isn't from 0 to m - 1.
    Refused, OverflowError, TypeError, ValueError
        As by `check_arrays`.

    Examples
    --------
    >>> problem = [4, 0, -4], [0, 0, 1], [1, 2, 2], [2, 9, 3], [1, 5, 1]
    >>> cost_ranges(*problem, flow=[2, 2, 2], prices=[0, -4, -5])
    [(None, 4), (2, None), (None, 4)]
    """
    claimed = _claimed(supplies, (src, dst, cap, cost, flow), prices, low)
    count = len(claimed.problem.flow)
    numbers = range(count) if arcs is None else [as_node(arc) for arc in arcs]
    if not all(0 <= number < count for number in numbers):
        raise IndexError("arcs are 0 to %d" % (count - 1))
    status, told, found = claimed.problem.ranges(array("I", [number + 1 for number in numbers]))
    claimed.refuse(status, told)
    if status == 1:
        raise NotAccepted(VERDICTS[told.kind])
    scale = claimed.scales.get("cost", 1)
    own = list(claimed.arcs)
    return [
        (_moved(own[k][4], scale, -1, ends.down), _moved(own[k][4], scale, 1, ends.up))
        for k, ends in zip(numbers, found)
    ]


def _moved(cost: int, scale: int, sign: int, end: RangeEnd) -> Optional[Union[int, float]]:
    """The end of a range, from how far the cost may change."""
    change = end.change()
    return None if change is None else unscaled(cost + sign * change, scale)


class Claimed(NamedTuple):
    """A problem in whole numbers with a claimed flow, its supplies, its arcs, and how many times
    the numbers of the arguments these are."""

    problem: ArcArrays
    supplies: List[int]
    arcs: Any
    scales: Dict[str, int]

    def refuse(self, status: int, told: Any) -> None:
        """Raises the exception for a status that is no verdict."""
        if status == INVALID_INPUT:
            self.problem.told = told
            listed: List[Arc] = list(self.arcs)
            limits = Limits(listed, [], set())  # type: ignore[arg-type]
            raise restored(refused_by(self.problem, self.supplies, limits), None, self.scales)
        if status > 1:
            raise failed(status)

    def total(self, number: int) -> Union[int, float]:
        """A total cost in the numbers of the arguments."""
        return unscaled(number, self.scales.get("total", 1))


def _claimed(supplies: Any, columns: Sequence[Any], prices: Any, low: Any) -> Claimed:
    """The problem with the claimed flow, which is the last of the columns."""
    supplies, prices = columns_of(supplies)[0], columns_of(prices)[0]
    columns = columns_of(*columns, low=low)
    if len(prices) != len(supplies):
        raise ValueError("%d nodes have %d prices" % (len(supplies), len(prices)))
    kind = Kind([supplies, prices, *columns])
    try:
        return _of_whole(kind, supplies, prices, columns)
    except (OverflowError, TypeError):
        # Numbers that aren't whole or don't fit.
        lists = [values_of(column) for column in columns if column is not None]
        lows = repeat(0) if low is None else lists[5]
        ends = (list(map(as_node, nodes)) for nodes in lists[:2])
        rows = list(zip(*ends, lows, lists[2], lists[3]))
        claim = [exact(f) for f in lists[4]], [exact(p) for p in values_of(prices)]
        return _of_any([exact(b) for b in values_of(supplies)], rows, claim)


def _of_whole(kind: Kind, supplies: Any, prices: Any, columns: Sequence[Any]) -> Claimed:
    """A problem of whole numbers. OverflowError or TypeError if one isn't whole or doesn't fit."""
    # A copy, so that no other thread writes to it during the call.
    amounts = copy(kind.whole(supplies))
    src, dst, cap, cost, flow = map(kind.whole, columns[:5])
    low = None if columns[5] is None else kind.whole(columns[5])
    if not (kind.are_ends(src) and kind.are_ends(dst)):
        raise OverflowError
    problem = ArcArrays(amounts, len(amounts), kind.rows((src, dst), (low, cap, cost)), len(src))
    total = sum(map(mul, values_of(cost), values_of(flow)))
    problem.claim(flow, kind.whole(prices), total)
    lows = repeat(0) if low is None else values_of(low)
    arcs = zip(values_of(src), values_of(dst), lows, values_of(cap), values_of(cost))
    return Claimed(problem, values_of(amounts), arcs, {})


def _of_any(supplies: List[Any], rows: Sequence[Tuple[Any, ...]], claim: Claim) -> Claimed:
    """A problem of exact numbers. An arc without capacity gets one that its flow doesn't reach:
    then it passes exactly if it would without."""
    rows = [
        (u, v, l, max(exact(l), f) + 1 if cap is None or cap == INFINITE else cap, c)
        for (u, v, l, cap, c), f in zip(rows, claim[0])
    ]
    # The flows scale as the bounds do, and the prices as the costs.
    amounts, arcs, units, costs = scaled_rows(supplies, rows)
    more, finer = (
        scale_of(value * scale for value in values) for values, scale in zip(claim, (units, costs))
    )
    units, costs = units * more, costs * finer
    arcs = [(u, v, l * more, cap * more, c * finer) for u, v, l, cap, c in arcs]
    amounts = [b * more for b in amounts]
    flow, prices = ([int(v * s) for v in values] for values, s in zip(claim, (units, costs)))
    problem = ArcArrays(supplied(amounts), len(amounts), packed(arcs), len(arcs))
    total = sum(arc[4] * f for arc, f in zip(arcs, flow))
    problem.claim(array("q", flow), array("q", prices), total)
    scales = {"cost": costs, "total": units * costs}
    scales.update(dict.fromkeys(("supply", "bound", "order"), units))
    return Claimed(problem, amounts, arcs, scales)
