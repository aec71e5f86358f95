"""Solves flow problems and has the checker judge every answer."""
import reprlib
import struct
from array import array
from collections import Counter
from itertools import chain
from operator import index
from typing import AbstractSet as Set
from typing import (
    Any,
    Dict,
    Generic,
    Hashable,
    Iterable,
    List,
    Mapping,
    Optional,
    Sequence,
    Tuple,
    Union,
    cast,
    overload,
)

from ._errors import Infeasible, MCFError, NotAccepted, Refused, Unbounded
from ._library import (
    BLOCKED,
    CODES,
    INVALID_INPUT,
    PRICE_OVERFLOW,
    SIDES,
    ArcArrays,
    Choice,
    Verdict,
    choice_of,
    failed,
    marked,
)
from ._limits import (
    BOUND,
    COST,
    NODES,
    Arc,
    Limited,
    Limits,
    binding,
    cycle_through,
    limited_arcs,
    lowered,
    residual_arcs,
)
from ._numbers import exact, is_float, limited, listed, scale_of, unscaled
from ._tables import is_frame, is_sparse, rows_of_frame, rows_of_sparse
from ._types import (
    Amount,
    Frame,
    Label,
    Number,
    Numbers,
    Prices,
    Real,
    Series,
    SparseMatrix,
    WholeArc,
)

# The greatest node number, from 0, that fits an argument of the library.
NODE = 2**32 - 2
INFINITE = float("inf")


class Flow(Generic[Amount, Prices]):
    """A least-cost flow.

    Attributes
    ----------
    cost
        The total cost.
    flow : list
        The flow on each arc.
    prices : list or dict
        A price for each node, in the order or by the labels of the supplies. The prices are a dual
        certificate: they show that no feasible flow costs less.
    verdict : Verdict or None
        The checker's verdict; None if the checker wasn't asked.
    success : bool
        True, as an instance without a least-cost flow raises an exception. With `message` it serves
        code that reads a result of scipy.optimize.
    message : str
        What the checker says of the flow.
    """

    __slots__ = ("cost", "flow", "verdict", "_prices", "_labels", "_scale")
    cost: Amount
    flow: List[Amount]
    verdict: Optional[Verdict]

    def __init__(
        self,
        cost: Amount,
        flow: List[Amount],
        verdict: Optional[Verdict],
        prices: Sequence[int],
        labels: Optional[Sequence[Hashable]],
        scale: int,
    ):
        self.cost, self.flow, self.verdict = cost, flow, verdict
        self._prices, self._labels, self._scale = prices, labels, scale

    @property
    def prices(self) -> Prices:
        values = [unscaled(price, self._scale) for price in self._prices]
        found = values if self._labels is None else dict(zip(self._labels, values))
        return cast(Prices, found)

    @property
    def success(self) -> bool:
        return True

    @property
    def message(self) -> str:
        if self.verdict is None:
            return "least-cost flow, not judged by the checker"
        return "least-cost flow, accepted by the checker"

    def __repr__(self) -> str:
        """The cost and the first amounts, which fit one screen for a flow of any size."""
        short = reprlib.Repr()
        short.maxlist = 12
        return "Flow(cost=%r, flow=%s)" % (self.cost, short.repr(self.flow))

    def __eq__(self, other: object) -> bool:
        """Whether the other is a flow of the same cost, amounts and prices."""
        if not isinstance(other, Flow):
            return NotImplemented
        mine, theirs = (self.cost, self.flow), (other.cost, other.flow)
        return mine == theirs and bool(self.prices == other.prices)

    # A flow holds mutable lists.
    __hash__ = None  # type: ignore[assignment]


def flow_choice(
    engine: str = "auto", pricing: Optional[str] = None, block: Optional[int] = None
) -> Choice:
    """The engine and its options that the caller asks for, by default `fast`."""
    is_asked = engine != "auto" or pricing is not None or block is not None
    return choice_of(engine if is_asked else "fast", pricing or "block", block)


def packed(arcs: Sequence[Limited]) -> bytes:
    """The arcs in the library's layout. A number beyond a limit stays beyond it."""
    try:
        numbers = [(u + 1, v + 1, low, cap, cost) for u, v, low, cap, cost in arcs]
        return struct.pack("=" + "IIqqq" * len(arcs), *chain.from_iterable(numbers))
    except struct.error:
        numbers = [
            (
                u + 1 if 0 <= u <= NODE else 0,
                v + 1 if 0 <= v <= NODE else 0,
                limited(low, BOUND),
                limited(cap, BOUND),
                limited(cost, COST),
            )
            for u, v, low, cap, cost in arcs
        ]
        return struct.pack("=" + "IIqqq" * len(arcs), *chain.from_iterable(numbers))


def supplied(supplies: Sequence[int]) -> "array[int]":
    try:
        return array("q", supplies)
    except OverflowError:
        return array("q", [limited(b, BOUND) for b in supplies])


def _must_and_can(
    supplies: Sequence[int], arcs: Sequence[Limited], nodes: List[int], side: str
) -> Tuple[int, int, List[int]]:
    """The amount that a set must send or take, the most that it can, and the arcs that limit it."""
    inside = set(nodes)
    sends = side == "send"
    must, can, limiting = sum(supplies[v] for v in inside), 0, []
    if not sends:
        must = -must
    for place, (u, v, low, cap, _) in enumerate(arcs):
        if (u in inside) != (v in inside):
            if (u in inside) == sends:
                can += cap
                limiting.append(place)
            else:
                must += low
    return must, can, limiting


def reached(
    arcs: Iterable[Tuple[Any, Any, Any]], flow: Iterable[Any], start: Any, is_onward: bool
) -> "set[Any]":
    """The nodes to which residual paths lead from a node, or from which they lead to it. An arc has
    its tail, its head and its capacity; its lower bound is 0."""
    near: Dict[Any, List[Any]] = {}
    for (tail, head, cap), amount in zip(arcs, flow):
        before, after = (tail, head) if is_onward else (head, tail)
        if amount < cap:
            near.setdefault(before, []).append(after)
        if amount > 0:
            near.setdefault(after, []).append(before)
    found, stack = {start}, [start]
    while stack:
        for node in near.get(stack.pop(), ()):
            if node not in found:
                found.add(node)
                stack.append(node)
    return found


def refused_by(problem: ArcArrays, supplies: Sequence[int], limits: Limits) -> Refused:
    """The exception for the first fault in the arrays."""
    reason, place = CODES[problem.told.code], problem.told.number - 1
    if reason == "size":
        return Refused(None, None, reason, 1, (len(supplies), len(limits.arcs)))
    if reason == "supply":
        return Refused(None, place, reason, 1, supplies[place])
    u, v, low, cap, cost = limits.arcs[place]
    value = {
        "bound": low if abs(low) > BOUND else cap,
        "order": (low, cap),
        "cost": cost,
        "node": len(supplies),
        "total": sum(abs(a[4]) * max(abs(a[2]), abs(a[3])) for a in limits.arcs[: place + 1]),
    }.get(reason)
    return Refused(place, None, reason, 1, value, (u, v))


def _limiting(place: int, arc: Arc) -> Refused:
    """The exception for an arc that would have to carry more than 10^18."""
    reason = "unlimited" if arc[3] is None else "bound"
    return Refused(place, None, reason, 1, arc[3], arc[:2])


def blocked_by(
    problem: ArcArrays, supplies: Sequence[int], given: Sequence[Arc], limits: Limits, check: bool
) -> MCFError:
    """The exception that says why no flow is feasible, or none with at most 10^18 on each arc."""
    nodes, side = marked(problem.prices), SIDES[problem.told.code]
    must, can, limiting = _must_and_can(supplies, limits.arcs, nodes, side)
    if check and must <= can:
        raise NotAccepted("a set of nodes doesn't block")
    for k in limiting:
        if k in limits.short:
            return _limiting(k, given[k])
    return Infeasible(nodes, side, must, can, limiting)


def _unbounded(
    limits: Limits, given: Sequence[Arc], flow: Sequence[int], bound: List[int]
) -> Unbounded:
    """The exception for an unbounded cost. Its cycle contains an arc of `bound`: an arc at a
    replaced capacity that no least-cost flow needs."""
    unlimited = [k for k in limits.opened if given[k][3] is None]
    for k in bound:
        cycle = cycle_through(k, limits, unlimited, flow)
        if cycle:
            return Unbounded(cycle)
    raise NotAccepted("a flow without limits goes round no cycle")


def _reprice(problem: ArcArrays, given: Sequence[Arc], limits: Limits) -> None:
    """Handles a flow with arcs at a capacity of 10^18 that isn't their own. Finds prices which show
    that the flow has least cost without these capacities too, or raises the reason why not."""
    prices, cycle = lowered(problem.prices, residual_arcs(limits, problem.flow))
    if not cycle:
        try:
            for node, price in enumerate(prices):
                problem.prices[node] = price
        except OverflowError:
            raise failed(PRICE_OVERFLOW) from None
        return
    free = [(a[0], a[1], a[4], k) for k, a in enumerate(given) if a[3] is None]
    _, turned = lowered([0] * len(prices), free)
    if turned:
        raise Unbounded([k for _, _, _, k in turned])
    k = next((k for _, _, _, k in cycle if k in limits.short), min(limits.short))
    raise _limiting(k, given[k])


def judged(problem: ArcArrays) -> Verdict:
    """The checker's verdict. Raises NotAccepted if the checker rejects the answer."""
    verdict = problem.check()
    if not verdict:
        raise NotAccepted(repr(verdict))
    return verdict


def solve_whole(
    supplies: Sequence[int], arcs: Sequence[Arc], choice: Choice, check: bool, beyond: float = 0
) -> Tuple[ArcArrays, Optional[Verdict]]:
    """Solves an instance of whole numbers whose nodes are numbered from 0. A capacity of None means
    no limit. A capacity above 10^18 counts as 10^18 if it is at most `beyond`.

    An arc without capacity gets one that some least-cost flow doesn't reach, but at most 10^18. The
    prices tell whether this mattered. If all these arcs have reduced costs of at least 0, the
    prices show that the flow has least cost without these capacities too. If one is below 0, there
    is a negative-cost cycle of arcs without capacity, unless it was 10^18 that bound the flow.
    """
    limits = limited_arcs(supplies, arcs, beyond)
    problem = ArcArrays(supplied(supplies), len(supplies), packed(limits.arcs), len(arcs))
    status = problem.solve(choice, check)
    if status == INVALID_INPUT:
        raise refused_by(problem, supplies, limits)
    if status == BLOCKED:
        raise blocked_by(problem, supplies, arcs, limits, check)
    verdict = problem.accepted() if check else None
    bound = binding(limits, problem.flow, problem.prices)
    if bound and not limits.short:
        raise _unbounded(limits, arcs, problem.flow, bound)
    if bound:
        _reprice(problem, arcs, limits)
        verdict = judged(problem) if check else None
    return problem, verdict


def _numbered(
    supplies: Mapping[Hashable, Any], arcs: List[Tuple[Any, ...]]
) -> Tuple[List[Hashable], List[Any], List[Tuple[Any, ...]]]:
    """The labels in order of first appearance, the supplies in that order, and the arcs by node
    numbers."""
    number: Dict[Hashable, int] = {label: place for place, label in enumerate(supplies)}
    ends = [
        (number.setdefault(arc[0], len(number)), number.setdefault(arc[1], len(number)))
        for arc in arcs
    ]
    labels = list(number)
    return (
        labels,
        [supplies.get(label, 0) for label in labels],
        [end + tuple(arc[2:]) for end, arc in zip(ends, arcs)],
    )


def _by_label(supplies: Any) -> Dict[Hashable, Any]:
    """A dict from an object with `items` that isn't a Mapping, such as a pandas Series."""
    labels, values = [], []
    for label, value in supplies.items():
        labels.append(label)
        values.append(value)
    found = dict(
        zip(labels, listed(supplies.to_numpy()) if hasattr(supplies, "to_numpy") else values)
    )
    if len(found) != len(labels):
        (twice, _), *_ = Counter(labels).most_common(1)
        raise ValueError("a label stands twice among the supplies: %r" % (twice,))
    return found


def _given(
    supplies: Any, arcs: List[Tuple[Any, ...]]
) -> Tuple[Optional[List[Hashable]], Any, List[Tuple[Any, ...]]]:
    """The labels, or None if the supplies have none; the supplies; and the arcs by node numbers."""
    if isinstance(supplies, Mapping):
        return _numbered(supplies, arcs)
    if hasattr(supplies, "items"):
        return _numbered(_by_label(supplies), arcs)
    if isinstance(supplies, Set):
        raise TypeError("supplies have an order, and a set has none")
    if not isinstance(supplies, int):
        return None, listed(supplies), arcs
    if supplies < 0:
        raise ValueError("there are no %d nodes" % supplies)
    # The library refuses one node beyond the limit just as it refuses any larger number.
    return None, [0] * min(supplies, NODES + 1), arcs


def _row(arc: Any) -> Tuple[Any, ...]:
    """An arc with its lower bound, by default 0."""
    if type(arc) not in (tuple, list) and isinstance(arc, (Mapping, Set, str, bytes)):
        raise TypeError(
            "an arc is (from, to, cap, cost) or (from, to, low, cap, cost), not %r" % (arc,)
        )
    if len(arc) == 5:
        return tuple(arc)
    if len(arc) != 4:
        raise ValueError("an arc has 4 or 5 values, and not %r" % (arc,))
    return arc[0], arc[1], 0, arc[2], arc[3]


def _rows(supplies: Any, arcs: Any, capacities: Any) -> List[Tuple[Any, ...]]:
    """The arcs of any argument for them, each with its lower bound."""
    if is_sparse(arcs):
        nodes = supplies if isinstance(supplies, int) else len(supplies)
        if isinstance(supplies, Mapping) or hasattr(supplies, "items"):
            raise TypeError("the nodes of a sparse matrix have numbers, and no labels")
        return rows_of_sparse(arcs, capacities, nodes)
    if capacities is not None:
        raise TypeError("capacities are for a sparse matrix of costs")
    if is_frame(arcs):
        return rows_of_frame(arcs)
    return [_row(arc) for arc in listed(arcs)]


def as_node(value: Any) -> int:
    """The number of a node as an int. An array of floats has it as a float."""
    try:
        return int(value) if is_float(value) and float(value).is_integer() else index(value)
    except TypeError:
        raise TypeError(
            "a node has a number from 0, where supplies are no dict, and not %r" % (value,)
        ) from None


def _are_whole(amounts: List[Any], rows: Sequence[Tuple[Any, ...]]) -> bool:
    """Whether all numbers are ints, except for capacities of None."""
    columns = list(zip(*rows))
    caps = columns.pop(3) if columns else ()
    return set(map(type, caps)) <= {int, type(None)} and all(
        set(map(type, column)) <= {int} for column in (amounts, *columns)
    )


def scaled_rows(
    amounts: List[Any], rows: Sequence[Tuple[Any, ...]]
) -> Tuple[List[int], List[Any], int, int]:
    """Supplies and arcs in whole numbers, and the factors by which amounts and costs were
    multiplied."""
    if _are_whole(amounts, rows):
        return amounts, list(rows), 1, 1
    exacts = [
        (
            u if type(u) is int else as_node(u),
            v if type(v) is int else as_node(v),
            exact(low),
            None if cap is None or cap == INFINITE else exact(cap),
            exact(cost),
        )
        for u, v, low, cap, cost in rows
    ]
    units = scale_of(
        chain(amounts, (a[2] for a in exacts), (a[3] for a in exacts if a[3] is not None))
    )
    costs = scale_of(a[4] for a in exacts)
    if units != 1 or costs != 1:
        amounts = [int(b * units) for b in amounts]
        exacts = [
            (u, v, int(low * units), None if cap is None else int(cap * units), int(cost * costs))
            for u, v, low, cap, cost in exacts
        ]
    return amounts, exacts, units, costs


def restored(error: Refused, labels: Optional[Sequence[Any]], scales: Dict[str, int]) -> Refused:
    """A refusal in the caller's labels and numbers."""
    named: Any = (lambda v: v) if labels is None else labels.__getitem__
    scale = scales.get(error.reason, 1)
    value = error.value
    if isinstance(value, tuple):
        value = tuple(unscaled(v, scale) for v in value)
    elif value is not None:
        value = unscaled(value, scale)
    node = None if error.node is None else named(error.node)
    ends = None if error.ends is None else (named(error.ends[0]), named(error.ends[1]))
    return Refused(error.arc, node, error.reason, scale, value, ends)


def solve_rows(
    labels: Optional[Sequence[Any]],
    given: Iterable[Any],
    rows: Sequence[Tuple[Any, ...]],
    choice: Choice,
    check: bool,
    beyond: float = 0,
) -> Flow[Any, Any]:
    """Solves an instance with numbers of any type, whose nodes are numbered and may have labels."""
    amounts, exacts, units, costs = scaled_rows([exact(b) for b in given], rows)
    try:
        problem, verdict = solve_whole(amounts, exacts, choice, check, beyond)
    except Infeasible as error:
        nodes = error.nodes if labels is None else [labels[v] for v in error.nodes]
        raise Infeasible(
            nodes, error.side, unscaled(error.must, units), unscaled(error.can, units), error.arcs
        ) from None
    except Refused as error:
        scales = {"cost": costs, "total": units * costs}
        scales.update(dict.fromkeys(("supply", "bound", "order", "unlimited"), units))
        raise restored(error, labels, scales) from None
    flow: List[Number] = list(problem.flow)
    if units != 1:
        flow = [unscaled(f, units) for f in problem.flow]
    cost = unscaled(problem.told.number, units * costs)
    if verdict is not None:
        verdict = verdict._replace(number=cost)
    return Flow(cost, flow, verdict, problem.prices, labels, costs)


@overload
def solve(
    supplies: Mapping[Label, int],
    arcs: Iterable[WholeArc[Label]],
    *,
    engine: str = ...,
    pricing: Optional[str] = ...,
    block: Optional[int] = ...,
    check: bool = ...,
) -> Flow[int, Mapping[Label, int]]:
    ...


@overload
def solve(
    supplies: Mapping[Label, Real],
    arcs: Union[Iterable[Sequence[Any]], Frame],
    *,
    engine: str = ...,
    pricing: Optional[str] = ...,
    block: Optional[int] = ...,
    check: bool = ...,
) -> Flow[Number, Mapping[Label, Number]]:
    ...


@overload
def solve(
    supplies: Series,
    arcs: Union[Iterable[Sequence[Any]], Frame],
    *,
    engine: str = ...,
    pricing: Optional[str] = ...,
    block: Optional[int] = ...,
    check: bool = ...,
) -> Flow[Number, Mapping[Any, Number]]:
    ...


@overload
def solve(
    supplies: Union[int, Sequence[int]],
    arcs: Iterable[WholeArc[int]],
    *,
    engine: str = ...,
    pricing: Optional[str] = ...,
    block: Optional[int] = ...,
    check: bool = ...,
) -> Flow[int, Sequence[int]]:
    ...


@overload
def solve(
    supplies: Union[int, Numbers],
    arcs: SparseMatrix,
    *,
    engine: str = ...,
    pricing: Optional[str] = ...,
    block: Optional[int] = ...,
    check: bool = ...,
    capacities: Optional[SparseMatrix] = ...,
) -> Flow[Number, Sequence[Number]]:
    ...


@overload
def solve(
    supplies: Union[int, Numbers],
    arcs: Union[Iterable[Sequence[Any]], Frame],
    *,
    engine: str = ...,
    pricing: Optional[str] = ...,
    block: Optional[int] = ...,
    check: bool = ...,
) -> Flow[Number, Sequence[Number]]:
    ...


def solve(
    supplies: Any,
    arcs: Any,
    *,
    engine: str = "auto",
    pricing: Optional[str] = None,
    block: Optional[int] = None,
    check: bool = True,
    capacities: Any = None,
) -> Flow[Any, Any]:
    """Solves a minimum-cost flow problem.

    The function scales numbers that aren't whole to whole numbers, exactly. A float counts as the
    decimal that it prints as.

    Parameters
    ----------
    supplies : sequence, mapping, Series or int
        The supply of each node, which is negative for a demand. A sequence or a numpy array has
        them by node (nodes are 0, 1, ..), a mapping by label. An int is the number of nodes, all
        without supply.
    arcs : iterable, DataFrame or sparse matrix
        (from, to, cap, cost) or (from, to, low, cap, cost) for each arc, or a numpy array of such
        rows. A cap that is None or infinite means no limit. A frame has the columns tail, head,
        capacity and cost, and may have the column lower; a missing capacity means no limit. A
        sparse matrix of scipy has the cost of an arc from i to j for each entry (i, j) that it
        stores; the arcs have no limit, unless `capacities` is given.
    engine : {'auto', 'simplex', 'scaling', 'fast', 'sap', 'cancel'}
        The algorithm. 'auto' is 'fast', unless `pricing` or `block` is given.
    pricing : {'block', 'first', 'best', 'wide'}, optional
        The pricing rule of the network simplex.
    block : int, optional
        The number of arcs in a block of the rule 'block'.
    check : bool
        Whether the checker judges the answer before the function returns it.
    capacities : sparse matrix, optional
        The capacities of the arcs in a sparse matrix of costs. Its stored entries are then the
        arcs, in their order, and one that stores no cost costs 0.

    Returns
    -------
    Flow
        A least-cost flow, with prices that show it. If all given numbers are ints, so are all its
        numbers.

    Raises
    ------
    Infeasible
        No flow is feasible. The exception names nodes that must send or take more than they can.
    Unbounded
        A negative-cost cycle has no limit.
    Refused
        A scaled number is beyond the limits: 10^18 for supplies and bounds, 10^15 for costs, and
        10^36 for the sum of costs times bounds.
    OverflowError
        A price doesn't fit 64 bits.
    TypeError, ValueError
        The arguments don't describe a flow problem.

    Examples
    --------
    >>> arcs = [("mill", "depot", 2, 1), ("mill", "shop", None, 5), ("depot", "shop", 3, 1)]
    >>> r = solve({"mill": 4, "shop": -4}, arcs)
    >>> r.cost, r.flow, r.prices
    (14, [2, 2, 2], {'mill': 0, 'shop': -5, 'depot': -4})
    >>> solve([2, -2], ((0, 1, 1, cost) for cost in (5, 3, 8))).flow
    [1, 1, 0]
    >>> solve([1, -1], [(1, 0, 5, 3)])
    Traceback (most recent call last):
      ..
    mcf.Infeasible: 1 node(s) must send 1 and can send 0
    """
    labels, given, rows = _given(supplies, _rows(supplies, arcs, capacities))
    return solve_rows(labels, given, rows, flow_choice(engine, pricing, block), check)
