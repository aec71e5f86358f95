"""Classes with the methods of OR-tools' SimpleMinCostFlow, SimpleMaxFlow and
SimpleLinearSumAssignment, solved by mcf."""
from array import array
from operator import index
from typing import Any, Iterable, List, Optional, Sequence, SupportsIndex, Tuple

from ._errors import Infeasible, MCFError, Refused
from ._library import BLOCKED, CODES, FLOW, PairArrays, choice_of
from ._limits import COST, NODES
from ._numbers import limited
from ._solving import Flow, flow_choice, reached, solve_rows
from ._types import Column

# The greatest capacity. If one above 10^18 might bind, mcf refuses the problem.
INT64 = 2**63 - 1


def _together(*columns: Column) -> Iterable[Tuple[SupportsIndex, ...]]:
    """The rows of columns, which must have the same length."""
    if len(set(map(len, columns))) != 1:
        raise ValueError("the sequences have one length")
    return zip(*columns)


def _node(node: SupportsIndex) -> int:
    """Checks a node number and returns it as an int."""
    number = index(node)
    if not 0 <= number < NODES:
        raise ValueError("a node has a number from 0 to %d, and not %d" % (NODES - 1, number))
    return number


def _capacities(arcs: Column, capacities: Column, count: int) -> List[Tuple[int, int]]:
    """The new capacities of arcs, by their numbers, which must exist."""
    found = [(index(k), index(cap)) for k, cap in _together(arcs, capacities)]
    for k, _ in found:
        if not 0 <= k < count:
            raise ValueError("there is no arc %d among %d" % (k, count))
    return found


def _greatest(nodes: int, ends: Tuple[int, int], rows: Sequence[Tuple[Any, ...]]) -> Flow[Any, Any]:
    """A flow of the greatest value from a source to a sink. Its last amount, on an extra arc from
    the sink to the source that costs -1, is the value."""
    source, sink = ends
    free = [row[:4] + (0,) for row in rows]
    free.append((sink, source, 0, None, -1))
    return solve_rows(None, [0] * nodes, free, flow_choice(), True, INT64)


class SimpleMinCostFlow:
    """Collects arcs and supplies by number and solves the problem, like
    ortools.graph.python.min_cost_flow.SimpleMinCostFlow. A call that raises adds nothing.

    >>> smcf = SimpleMinCostFlow()
    >>> arcs = smcf.add_arcs_with_capacity_and_unit_cost([0, 0, 1], [1, 2, 2], [4, 3, 4], [1, 5, 1])
    >>> smcf.set_nodes_supplies([0, 2], [5, -5])
    >>> smcf.solve() == smcf.OPTIMAL, smcf.optimal_cost(), smcf.flows(arcs)
    (True, 13, [4, 1, 4])
    """

    (
        NOT_SOLVED,
        OPTIMAL,
        FEASIBLE,
        INFEASIBLE,
        UNBALANCED,
        BAD_RESULT,
        BAD_COST_RANGE,
        BAD_CAPACITY_RANGE,
    ) = range(8)

    def __init__(self) -> None:
        self._arcs: List[Tuple[int, int, int, int]] = []
        self._supplies: List[int] = []
        self._answer: Optional[Flow[Any, Any]] = None
        self._sent = 0
        self.error: Optional[MCFError] = None

    def _reach(self, node: int) -> None:
        self._supplies += [0] * (node + 1 - len(self._supplies))

    def add_arc_with_capacity_and_unit_cost(
        self,
        tail: SupportsIndex,
        head: SupportsIndex,
        capacity: SupportsIndex,
        unit_cost: SupportsIndex,
    ) -> int:
        """Adds an arc and returns its number."""
        return self.add_arcs_with_capacity_and_unit_cost([tail], [head], [capacity], [unit_cost])[0]

    def add_arcs_with_capacity_and_unit_cost(
        self,
        tails: Column,
        heads: Column,
        capacities: Column,
        unit_costs: Column,
    ) -> List[int]:
        """Adds arcs from columns of the same length and returns their numbers."""
        arcs = [
            (_node(u), _node(v), index(cap), index(cost))
            for u, v, cap, cost in _together(tails, heads, capacities, unit_costs)
        ]
        for u, v, _, _ in arcs:
            self._reach(max(u, v))
        self._arcs += arcs
        return list(range(len(self._arcs) - len(arcs), len(self._arcs)))

    def set_node_supply(self, node: SupportsIndex, supply: SupportsIndex) -> None:
        """Sets the supply of a node. A negative supply is a demand."""
        self.set_nodes_supplies([node], [supply])

    def set_nodes_supplies(self, nodes: Column, supplies: Column) -> None:
        """Sets the supplies of nodes from columns of the same length."""
        for node, supply in [(_node(v), index(b)) for v, b in _together(nodes, supplies)]:
            self._reach(node)
            self._supplies[node] = supply

    def set_arc_capacity(self, arc: SupportsIndex, capacity: SupportsIndex) -> None:
        """Sets the capacity of an arc. Its other numbers stay."""
        self.set_arcs_capacity([arc], [capacity])

    def set_arcs_capacity(self, arcs: Column, capacities: Column) -> None:
        """Sets the capacities of arcs from columns of the same length."""
        for k, cap in _capacities(arcs, capacities, len(self._arcs)):
            u, v, _, cost = self._arcs[k]
            self._arcs[k] = u, v, cap, cost

    def num_nodes(self) -> int:
        """The number of nodes."""
        return len(self._supplies)

    def num_arcs(self) -> int:
        """The number of arcs."""
        return len(self._arcs)

    def tail(self, arc: int) -> int:
        """The node where an arc begins."""
        return self._arcs[arc][0]

    def head(self, arc: int) -> int:
        """The node where an arc ends."""
        return self._arcs[arc][1]

    def capacity(self, arc: int) -> int:
        """The capacity of an arc."""
        return self._arcs[arc][2]

    def unit_cost(self, arc: int) -> int:
        """The cost of a unit on an arc."""
        return self._arcs[arc][3]

    def supply(self, node: int) -> int:
        """The supply of a node."""
        return self._supplies[node]

    def solve(self) -> int:
        """Solves the problem and returns the status. If there is no flow, `error` has the exception
        that says why."""
        self._answer = self.error = None
        if sum(self._supplies) != 0:
            return self.UNBALANCED
        return self._solve(self._supplies, self._rows())

    def solve_max_flow_with_min_cost(self) -> int:
        """Solves the problem of least cost among the flows that carry as much as possible from the
        supplies to the demands, and returns the status. Supplies needn't be sent in full, nor
        demands be met, and they may differ in sum.

        >>> smcf = SimpleMinCostFlow()
        >>> arcs = smcf.add_arcs_with_capacity_and_unit_cost([0, 0], [1, 1], [3, 4], [5, 2])
        >>> smcf.set_nodes_supplies([0, 1], [6, -9])
        >>> smcf.solve_max_flow_with_min_cost() == smcf.OPTIMAL
        True
        >>> smcf.maximum_flow(), smcf.optimal_cost(), smcf.flows(arcs)
        (6, 18, [2, 4])
        """
        self._answer = self.error = None
        source = len(self._supplies)
        rows = self._rows()
        for node, supply in enumerate(self._supplies):
            if supply > 0:
                rows.append((source, node, 0, supply, 0))
            elif supply < 0:
                rows.append((node, source + 1, 0, -supply, 0))
        try:
            value = _greatest(source + 2, (source, source + 1), rows).flow[-1]
        except Refused as error:
            return self._bad(error)
        status = self._solve([0] * source + [value, -value], rows)
        self._sent = value
        return status

    def _rows(self) -> List[Tuple[Any, ...]]:
        return [(u, v, 0, cap, cost) for u, v, cap, cost in self._arcs]

    def _bad(self, error: Refused) -> int:
        """The status for a refusal, which becomes `error`."""
        self.error = error
        is_cost = error.reason in ("cost", "total")
        return self.BAD_COST_RANGE if is_cost else self.BAD_CAPACITY_RANGE

    def _solve(self, supplies: List[int], rows: List[Tuple[Any, ...]]) -> int:
        """Solves rows and returns the status."""
        self._sent = sum(b for b in supplies if b > 0)
        try:
            self._answer = solve_rows(None, supplies, rows, flow_choice(), True, INT64)
        except Infeasible as error:
            self.error = error
            return self.INFEASIBLE
        except Refused as error:
            return self._bad(error)
        return self.OPTIMAL

    def _solved(self) -> Flow[Any, Any]:
        if self._answer is None:
            raise RuntimeError("nothing is solved to optimality")
        return self._answer

    def optimal_cost(self) -> int:
        """The cost of the last flow."""
        return int(self._solved().cost)

    def maximum_flow(self) -> int:
        """The sum of the supplies that the last flow sends."""
        self._solved()
        return self._sent

    def prices(self) -> List[int]:
        """A price for each node, which show that the last flow costs least. For an arc that can
        carry more, the price of its tail is at most its cost plus the price of its head."""
        return [int(price) for price in self._solved().prices[: len(self._supplies)]]

    def flow(self, arc: int) -> int:
        """The flow on an arc."""
        return int(self._solved().flow[arc])

    def flows(self, arcs: Iterable[int]) -> List[int]:
        """The flows on arcs."""
        flow = self._solved().flow
        return [int(flow[arc]) for arc in arcs]


class _Arcs:
    """Arcs by number: two nodes, and a capacity or a cost."""

    def __init__(self) -> None:
        self._arcs: List[Tuple[int, int, int]] = []
        self._nodes = 0

    def _add(self, tails: Column, heads: Column, numbers: Column) -> List[int]:
        """Adds arcs from columns of the same length and returns their numbers."""
        arcs = [(_node(u), _node(v), index(c)) for u, v, c in _together(tails, heads, numbers)]
        self._nodes = max([self._nodes] + [max(u, v) + 1 for u, v, _ in arcs])
        self._arcs += arcs
        return list(range(len(self._arcs) - len(arcs), len(self._arcs)))

    def num_nodes(self) -> int:
        """The number of nodes; in an assignment, on each side."""
        return self._nodes

    def num_arcs(self) -> int:
        """The number of arcs; in an assignment, of allowed pairs."""
        return len(self._arcs)


class SimpleMaxFlow(_Arcs):
    """Collects arcs by number and finds a maximum flow, like
    ortools.graph.python.max_flow.SimpleMaxFlow. A call that raises adds nothing.

    >>> smf = SimpleMaxFlow()
    >>> arcs = smf.add_arcs_with_capacity([0, 0, 1], [1, 2, 2], [4, 3, 2])
    >>> smf.solve(0, 2) == smf.OPTIMAL, smf.optimal_flow(), smf.flows(arcs)
    (True, 5, [2, 3, 2])
    >>> smf.get_source_side_min_cut(), smf.get_sink_side_min_cut()
    ([0, 1], [2])
    """

    OPTIMAL, POSSIBLE_OVERFLOW, BAD_INPUT, BAD_RESULT = range(4)

    def __init__(self) -> None:
        super().__init__()
        self._ends = 0, 0
        self._answer: Optional[Flow[Any, Any]] = None
        self.error: Optional[MCFError] = None

    def add_arc_with_capacity(
        self, tail: SupportsIndex, head: SupportsIndex, capacity: SupportsIndex
    ) -> int:
        """Adds an arc and returns its number."""
        return self.add_arcs_with_capacity([tail], [head], [capacity])[0]

    def add_arcs_with_capacity(self, tails: Column, heads: Column, capacities: Column) -> List[int]:
        """Adds arcs from columns of the same length and returns their numbers."""
        return self._add(tails, heads, capacities)

    def set_arc_capacity(self, arc: SupportsIndex, capacity: SupportsIndex) -> None:
        """Sets the capacity of an arc."""
        self.set_arcs_capacity([arc], [capacity])

    def set_arcs_capacity(self, arcs: Column, capacities: Column) -> None:
        """Sets the capacities of arcs from columns of the same length."""
        for k, cap in _capacities(arcs, capacities, len(self._arcs)):
            self._arcs[k] = self._arcs[k][:2] + (cap,)

    def tail(self, arc: int) -> int:
        """The node where an arc begins."""
        return self._arcs[arc][0]

    def head(self, arc: int) -> int:
        """The node where an arc ends."""
        return self._arcs[arc][1]

    def capacity(self, arc: int) -> int:
        """The capacity of an arc."""
        return self._arcs[arc][2]

    def solve(self, source: SupportsIndex, sink: SupportsIndex) -> int:
        """Finds a maximum flow from a source to a sink and returns the status. BAD_INPUT means that
        they are the same node, that one is negative, or that a capacity is. POSSIBLE_OVERFLOW means
        that a capacity or the flow may be beyond 10^18; `error` has the exception that says why."""
        self._answer = self.error = None
        ends = index(source), index(sink)
        if ends[0] == ends[1] or not all(0 <= node < NODES for node in ends):
            return self.BAD_INPUT
        if any(cap < 0 for _, _, cap in self._arcs):
            return self.BAD_INPUT
        rows = [(u, v, 0, cap, 0) for u, v, cap in self._arcs]
        try:
            self._answer = _greatest(max(self._nodes, *[e + 1 for e in ends]), ends, rows)
        except Refused as error:
            self.error = error
            return self.POSSIBLE_OVERFLOW
        self._ends = ends
        return self.OPTIMAL

    def _flow(self) -> List[int]:
        if self._answer is None:
            raise RuntimeError("nothing is solved to optimality")
        return self._answer.flow

    def optimal_flow(self) -> int:
        """The value of the last flow."""
        return self._flow()[-1]

    def flow(self, arc: int) -> int:
        """The flow on an arc."""
        return self.flows([arc])[0]

    def flows(self, arcs: Iterable[int]) -> List[int]:
        """The flows on arcs."""
        flow = self._flow()[:-1]
        return [flow[arc] for arc in arcs]

    def get_source_side_min_cut(self) -> List[int]:
        """The nodes that a residual path reaches from the source, ascending."""
        return sorted(reached(self._arcs, self._flow(), self._ends[0], True))

    def get_sink_side_min_cut(self) -> List[int]:
        """The nodes from which a residual path leads to the sink, ascending."""
        return sorted(reached(self._arcs, self._flow(), self._ends[1], False))


class SimpleLinearSumAssignment(_Arcs):
    """Collects the costs of allowed pairs and finds a least-cost perfect matching, like
    ortools.graph.python.linear_sum_assignment.SimpleLinearSumAssignment. A call that raises adds
    nothing.

    >>> slsa = SimpleLinearSumAssignment()
    >>> arcs = slsa.add_arcs_with_cost([0, 0, 1, 1], [0, 1, 0, 1], [4, 1, 2, 5])
    >>> slsa.solve() == slsa.OPTIMAL, slsa.optimal_cost()
    (True, 3)
    >>> [slsa.right_mate(left) for left in range(slsa.num_nodes())]
    [1, 0]
    """

    OPTIMAL, INFEASIBLE, POSSIBLE_OVERFLOW = range(3)

    def __init__(self) -> None:
        super().__init__()
        self._mates: Optional[List[int]] = None
        self._costs: List[int] = []
        self._prices: Tuple[List[int], List[int]] = ([], [])
        self.error: Optional[MCFError] = None

    def add_arc_with_cost(
        self, left_node: SupportsIndex, right_node: SupportsIndex, cost: SupportsIndex
    ) -> int:
        """Allows a pair at a cost and returns its number."""
        return self.add_arcs_with_cost([left_node], [right_node], [cost])[0]

    def add_arcs_with_cost(
        self, left_nodes: Column, right_nodes: Column, costs: Column
    ) -> List[int]:
        """Allows pairs from columns of the same length and returns their numbers."""
        return self._add(left_nodes, right_nodes, costs)

    def left_node(self, arc: int) -> int:
        """The left node of a pair."""
        return self._arcs[arc][0]

    def right_node(self, arc: int) -> int:
        """The right node of a pair."""
        return self._arcs[arc][1]

    def cost(self, arc: int) -> int:
        """The cost of a pair."""
        return self._arcs[arc][2]

    def solve(self) -> int:
        """Finds a least-cost matching of all nodes and returns the status. POSSIBLE_OVERFLOW means
        that a number is beyond the limits; `error` has the exception that says which."""
        self._mates = self.error = None
        n = self._nodes
        pairs = array("q")
        for u, v, cost in self._arcs:
            pairs.frombytes(array("I", [u + 1, v + 1]).tobytes())
            pairs.append(limited(cost, COST))
        problem = PairArrays(n, n, pairs, len(self._arcs))
        status = problem.solve(choice_of("auto", "block", None), True)
        if status == BLOCKED:
            return self.INFEASIBLE
        if status != FLOW:
            self.error = self._refused(CODES[problem.told.code], problem.told.number - 1)
            return self.POSSIBLE_OVERFLOW
        chosen = sorted(self._arcs[k] for k, f in enumerate(problem.flow) if f)
        self._mates = [v for _, v, _ in chosen]
        self._costs = [cost for _, _, cost in chosen]
        right = [-price for price in problem.prices[n:]]
        # The library's arcs have a capacity of 1, so a chosen pair may cost less than the sum of
        # its prices. The price of its left node falls by the difference. All other pairs still
        # cost at least the sum of theirs.
        self._prices = [cost - right[v] for _, v, cost in chosen], right
        return self.OPTIMAL

    def _refused(self, reason: str, place: int) -> Refused:
        """The exception for numbers beyond the limits."""
        if reason != "cost":
            size = 2 * self._nodes, len(self._arcs)
            return Refused(None, None, reason, 1, size if reason == "size" else None)
        u, v, cost = self._arcs[place]
        return Refused(place, None, reason, 1, cost, (u, v))

    def _solved(self) -> List[int]:
        if self._mates is None:
            raise RuntimeError("nothing is solved to optimality")
        return self._mates

    def optimal_cost(self) -> int:
        """The cost of the last matching."""
        self._solved()
        return sum(self._costs)

    def right_mate(self, left_node: int) -> int:
        """The right node that a left node is matched with."""
        return self._solved()[left_node]

    def assignment_cost(self, left_node: int) -> int:
        """The cost of the pair of a left node."""
        self._solved()
        return self._costs[left_node]

    def prices(self) -> Tuple[List[int], List[int]]:
        """The prices of the left and of the right nodes. They show that the matching costs least:
        each pair costs at least the sum of the prices of its nodes, and a matched pair exactly
        that."""
        self._solved()
        return self._prices
