"""Drop-ins for the functions of networkx for minimum-cost flow, maximum flow and minimum cut, with
the same arguments, results and exceptions.

If several flows are optimal, these functions may return another one than networkx; a minimum cut is
the same. Some exceptions have extra attributes: `nodes`, `side`, `must` and `can` for an infeasible
graph, and `cycle` for an unbounded one.

An edge without capacity, or with an infinite one, has no limit. A capacity above 10^18, such as
sys.maxsize, is allowed unless more than 10^18 would have to flow there. Floats, Decimals and
Fractions are scaled to whole numbers, exactly. NetworkXRefused, a NetworkXError, means that a
scaled number is beyond the limits of mcf, though networkx takes it: 10^18 for demands and 10^15 for
weights. So floats of 16 digits, such as 1/3, are refused. NetworkXOverflow, another, means that a
price doesn't fit 64 bits.
"""
from typing import Any, Dict, List, NamedTuple, Optional, Sequence, Set, Tuple

import networkx as nx

from . import _errors
from ._errors import Infeasible, Unbounded
from ._limits import lowered
from ._numbers import exact, unscaled
from ._solving import INFINITE, Flow, flow_choice, reached, solve_rows
from ._types import Number

__all__ = [
    "NetworkXOverflow",
    "NetworkXRefused",
    "capacity_scaling",
    "max_flow_min_cost",
    "maximum_flow",
    "maximum_flow_value",
    "min_cost_flow",
    "min_cost_flow_cost",
    "minimum_cut",
    "minimum_cut_value",
    "network_simplex",
]

Flows = Dict[Any, Dict[Any, Any]]


class NetworkXRefused(nx.NetworkXError, _errors.Refused):  # type: ignore[misc]
    """Numbers of a graph are beyond the limits of mcf. The attributes are those of mcf.Refused."""


class NetworkXOverflow(nx.NetworkXError, OverflowError):  # type: ignore[misc]
    """A price of the flow doesn't fit 64 bits."""


def _solve(
    nodes: List[Any],
    demands: Sequence[Any],
    rows: Sequence[Tuple[Any, ...]],
    engine: str,
    check: bool,
) -> Flow[Any, Any]:
    """Solves rows whose ends are node numbers and whose capacities may be infinite."""
    supplies = [-d for d in demands]
    try:
        return solve_rows(nodes, supplies, rows, flow_choice(engine), check, INFINITE)
    except _errors.Refused as error:
        raise NetworkXRefused(
            error.arc, error.node, error.reason, error.scale, error.value, error.ends
        ) from None
    except OverflowError as error:
        raise NetworkXOverflow(str(error)) from None


def _exacts(values: Sequence[Any]) -> List[Any]:
    """The exact values of numbers. Infinite ones stay as they are."""
    if set(map(type, values)) <= {int}:
        return list(values)
    try:
        return [v if v == INFINITE else exact(v) for v in values]
    except ValueError as error:
        raise nx.NetworkXError(str(error)) from None


def _require_directed(G: Any) -> None:
    if not G.is_directed():
        raise nx.NetworkXNotImplemented("not implemented for undirected type")


def _require_finite(
    nodes: List[Any], demands: List[Any], edges: List[Any], costs: List[Any]
) -> None:
    """Raises the exceptions that networkx raises before it solves a graph."""
    for u, d in zip(nodes, demands):
        if abs(d) == INFINITE:
            raise nx.NetworkXError(f"node {u!r} has infinite demand")
    for e, w in zip(edges, costs):
        if abs(w) == INFINITE:
            raise nx.NetworkXError(f"edge {e[:-1]!r} has infinite weight")
    if sum(_exacts(demands)) != 0:
        raise nx.NetworkXUnfeasible("total node demand is not zero")


def network_simplex(
    G: Any,
    demand: str = "demand",
    capacity: str = "capacity",
    weight: str = "weight",
    *,
    engine: str = "auto",
    check: bool = True,
) -> Tuple[Number, Flows]:
    """networkx.network_simplex, solved by mcf, whose checker judges each answer.

    Parameters
    ----------
    G : networkx.DiGraph or networkx.MultiDiGraph
    demand, capacity, weight : str
        The names of the attributes for the demand of a node, and for the capacity and the cost of
        an edge.
    engine : str
        The algorithm: 'auto', 'simplex', 'scaling', 'fast', 'sap' or 'cancel'.
    check : bool
        Whether the checker judges the answer.

    Returns
    -------
    cost, flows
        The least cost, and the flow by tail and head, in a multigraph also by key.

    Raises
    ------
    NetworkXError, NetworkXNotImplemented, NetworkXUnfeasible, NetworkXUnbounded
        As networkx raises them.
    NetworkXRefused
        A number is beyond the limits of mcf.

    Examples
    --------
    >>> import networkx as nx
    >>> G = nx.DiGraph()
    >>> G.add_node("a", demand=-4)
    >>> G.add_node("b", demand=4)
    >>> G.add_edge("a", "b", capacity=9, weight=2)
    >>> network_simplex(G)
    (8, {'a': {'b': 4}, 'b': {}})
    """
    _require_directed(G)
    if len(G) == 0:
        raise nx.NetworkXError("graph has no nodes")
    nodes = list(G)
    number = {u: k for k, u in enumerate(nodes)}
    demands = [G.nodes[u].get(demand, 0) for u in nodes]
    edges = list(G.edges(data=True, keys=True) if G.is_multigraph() else G.edges(data=True))
    caps = [e[-1].get(capacity, INFINITE) for e in edges]
    costs = [e[-1].get(weight, 0) for e in edges]
    _require_finite(nodes, demands, edges, costs)
    for e, c in zip(edges, caps):
        if c < 0:
            raise nx.NetworkXUnfeasible(f"edge {e[:-1]!r} has negative capacity")
    rows = [
        (number[e[0]], number[e[1]], 0, c, w)
        for e, c, w in zip(edges, _exacts(caps), _exacts(costs))
    ]
    try:
        found = _solve(nodes, _exacts(demands), rows, engine, check)
    except Infeasible as error:
        raise _unfeasible("no flow satisfies all node demands", error) from None
    except Unbounded as error:
        cycle = [edges[k][:-1] for k in error.cycle]
        raise _unbounded("negative cycle with infinite capacity found", cycle) from None
    return found.cost, _by_edge(G, nodes, edges, found.flow)


def _unfeasible(text: str, error: Infeasible) -> Exception:
    """The exception of networkx for an infeasible graph, with what certifies that."""
    raised: Exception = nx.NetworkXUnfeasible(text)
    for name in ("nodes", "side", "must", "can"):
        setattr(raised, name, getattr(error, name))
    return raised


def _unbounded(text: str, cycle: List[Any]) -> Exception:
    """The exception of networkx for an unbounded cost, with the edges of a cycle."""
    raised: Exception = nx.NetworkXUnbounded(text)
    raised.cycle = cycle  # type: ignore[attr-defined]
    return raised


def capacity_scaling(
    G: Any,
    demand: str = "demand",
    capacity: str = "capacity",
    weight: str = "weight",
    heap: Any = None,
    *,
    engine: str = "auto",
    check: bool = True,
) -> Tuple[Number, Flows]:
    """networkx.capacity_scaling, solved by mcf, whose checker judges each answer.

    It differs from `network_simplex` as in networkx: an empty graph has the cost 0, an edge whose
    capacity isn't above 0 carries nothing, and an unbounded cost is found before an infeasible
    demand. It also takes fractions, for which the algorithm of networkx doesn't work. Where no edge
    can carry anything and a demand isn't 0, it raises NetworkXUnfeasible, and networkx answers 0.

    Parameters
    ----------
    G : networkx.DiGraph or networkx.MultiDiGraph
    demand, capacity, weight : str
        As for `network_simplex`.
    heap : class, optional
        The heap that networkx would use. This function needs none.
    engine, check
        As for `network_simplex`.

    Returns
    -------
    cost, flows
        As for `network_simplex`.

    Raises
    ------
    NetworkXNotImplemented, NetworkXUnfeasible, NetworkXUnbounded
        As networkx raises them.
    NetworkXError
        A weight is infinite, or a number is none.
    NetworkXRefused, NetworkXOverflow
        A number is beyond the limits of mcf.

    Examples
    --------
    >>> import networkx as nx
    >>> G = nx.DiGraph()
    >>> G.add_node("a", demand=-4)
    >>> G.add_node("b", demand=4)
    >>> G.add_edge("a", "b", capacity=9, weight=2)
    >>> capacity_scaling(G)
    (8, {'a': {'b': 4}, 'b': {}})
    """
    _require_directed(G)
    nodes = list(G)
    number = {u: k for k, u in enumerate(nodes)}
    demands = [G.nodes[u].get(demand, 0) for u in nodes]
    if any(abs(d) == INFINITE for d in demands) or sum(_exacts(demands)) != 0:
        raise nx.NetworkXUnfeasible("Sum of the demands should be 0.")
    edges = list(G.edges(data=True, keys=True) if G.is_multigraph() else G.edges(data=True))
    caps = _exacts([max(e[-1].get(capacity, INFINITE), 0) for e in edges])
    weights = [e[-1].get(weight, 0) for e in edges]
    for e, w in zip(edges, weights):
        if abs(w) == INFINITE:
            raised = nx.NetworkXError if w > 0 else nx.NetworkXUnfeasible
            raise raised(f"edge {e[:-1]!r} has infinite weight")
    costs = _exacts(weights)
    rows = [(number[e[0]], number[e[1]], 0, c, w) for e, c, w in zip(edges, caps, costs)]
    text = "Negative cost cycle of infinite capacity found. Min cost flow may be unbounded below."
    try:
        found = _solve(nodes, _exacts(demands), rows, engine, check)
    except Infeasible as error:
        free = [(u, v, w, k) for k, (u, v, _, c, w) in enumerate(rows) if c == INFINITE]
        _, turned = lowered([0] * len(nodes), free)
        if turned:
            raise _unbounded(text, [edges[arc[3]][:-1] for arc in turned]) from None
        raise _unfeasible("No flow satisfying all demands.", error) from None
    except Unbounded as error:
        raise _unbounded(text, [edges[k][:-1] for k in error.cycle]) from None
    return found.cost, _by_edge(G, nodes, edges, found.flow)


def _by_edge(G: Any, nodes: List[Any], edges: List[Any], flow: Sequence[Number]) -> Flows:
    """The flows as networkx returns them: by tail, by head, and in a multigraph by key."""
    flows: Flows = {u: {} for u in nodes}
    if G.is_multigraph():
        for e, f in zip(edges, flow):
            flows[e[0]].setdefault(e[1], {})[e[2]] = f
    else:
        for e, f in zip(edges, flow):
            flows[e[0]][e[1]] = f
    return flows


def min_cost_flow_cost(
    G: Any,
    demand: str = "demand",
    capacity: str = "capacity",
    weight: str = "weight",
    **options: Any,
) -> Number:
    """networkx.min_cost_flow_cost, solved by mcf."""
    return network_simplex(G, demand=demand, capacity=capacity, weight=weight, **options)[0]


def min_cost_flow(
    G: Any,
    demand: str = "demand",
    capacity: str = "capacity",
    weight: str = "weight",
    **options: Any,
) -> Dict[Any, Dict[Any, Any]]:
    """networkx.min_cost_flow, solved by mcf."""
    return network_simplex(G, demand=demand, capacity=capacity, weight=weight, **options)[1]


class _MaximumFlow(NamedTuple):
    """The value of a maximum flow, the arcs by their ends and capacities, and the flow on each. An
    undirected edge is two arcs. Capacities and flows are numbers of the graph."""

    value: Number
    arcs: List[Tuple[Any, Any, Any]]
    flow: List[Number]


def _require_ends(G: Any, s: Any, t: Any, flow_func: Any, others: Dict[str, Any]) -> None:
    """Raises the exceptions that networkx raises before it looks for a maximum flow."""
    if flow_func is not None and not callable(flow_func):
        raise nx.NetworkXError("flow_func has to be callable.")
    if others and flow_func is None:
        raise nx.NetworkXError(
            "You have to explicitly set a flow_func if you need to pass parameters via kwargs."
        )
    if G.is_multigraph():
        raise nx.NetworkXError("MultiGraph and MultiDiGraph not supported (yet).")
    for v in (s, t):
        if v not in G:
            raise nx.NetworkXError(f"node {v!s} not in graph")
    if s == t:
        raise nx.NetworkXError("source and sink are the same node")


def _by_networkx(
    name: str, ends: Tuple[Any, Any, Any], capacity: str, flow_func: Any, others: Dict[str, Any]
) -> Any:
    """What networkx' function of a name gives for parameters of a flow function, or None if there
    are none. Raises the exceptions that networkx raises before it looks for a maximum flow."""
    _require_ends(*ends, flow_func, others)
    if not others:
        return None
    return getattr(nx.algorithms.flow, name)(*ends, capacity, flow_func, **others)


def _maximum(G: Any, s: Any, t: Any, capacity: str, engine: str, check: bool) -> _MaximumFlow:
    """A maximum flow. Its value is the flow on an extra arc from t to s that costs -1 a unit, in a
    least-cost circulation."""
    nodes = list(G)
    number = {u: k for k, u in enumerate(nodes)}
    edges = [(u, v, data.get(capacity, INFINITE)) for u, v, data in G.edges(data=True)]
    arcs: List[Tuple[Any, Any, Any]] = []
    for (u, v, _), cap in zip(edges, _exacts([e[2] for e in edges])):
        if u != v and cap > 0:
            arcs.append((u, v, cap))
            if not G.is_directed():
                arcs.append((v, u, cap))
    rows: List[Tuple[Any, ...]] = [(number[u], number[v], 0, cap, 0) for u, v, cap in arcs]
    rows.append((number[t], number[s], 0, INFINITE, -1))
    try:
        *flow, value = _solve(nodes, [0] * len(nodes), rows, engine, check).flow
    except Unbounded:
        raise nx.NetworkXUnbounded("Infinite capacity path, flow unbounded above.") from None
    return _MaximumFlow(value, arcs, flow)


def maximum_flow_value(
    flowG: Any,
    _s: Any,
    _t: Any,
    capacity: str = "capacity",
    flow_func: Any = None,
    *,
    engine: str = "auto",
    check: bool = True,
    **others: Any,
) -> Number:
    """networkx.maximum_flow_value, solved by mcf. The parameters are those of `maximum_flow`.

    Examples
    --------
    >>> import networkx as nx
    >>> G = nx.DiGraph([("a", "b", {"capacity": 3}), ("b", "c", {"capacity": 2})])
    >>> maximum_flow_value(G, "a", "c")
    2
    """
    own: Optional[Number] = _by_networkx(
        "maximum_flow_value", (flowG, _s, _t), capacity, flow_func, others
    )
    if own is not None:
        return own
    return _maximum(flowG, _s, _t, capacity, engine, check).value


def maximum_flow(
    flowG: Any,
    _s: Any,
    _t: Any,
    capacity: str = "capacity",
    flow_func: Any = None,
    *,
    engine: str = "auto",
    check: bool = True,
    **others: Any,
) -> Tuple[Number, Flows]:
    """networkx.maximum_flow, solved by mcf, whose checker judges each answer.

    Parameters
    ----------
    flowG : networkx.DiGraph or networkx.Graph
    _s, _t
        The source and the sink.
    capacity : str
        The name of the attribute for the capacity of an edge. An edge without it has no limit.
    flow_func : callable, optional
        The function that networkx would use. mcf uses none. But if the call has parameters for it,
        such as `cutoff`, networkx solves the problem.
    engine, check
        As for `network_simplex`.

    Returns
    -------
    value, flows
        The value of a maximum flow, and the flow by tail and head.

    Raises
    ------
    NetworkXError, NetworkXUnbounded
        As networkx raises them.
    NetworkXRefused
        A number is beyond the limits of mcf.

    Examples
    --------
    >>> import networkx as nx
    >>> G = nx.DiGraph([("a", "b", {"capacity": 3}), ("b", "c", {"capacity": 2})])
    >>> maximum_flow(G, "a", "c")
    (2, {'a': {'b': 2}, 'b': {'c': 2}, 'c': {}})
    """
    own: Optional[Tuple[Number, Flows]] = _by_networkx(
        "maximum_flow", (flowG, _s, _t), capacity, flow_func, others
    )
    if own is not None:
        return own
    value, arcs, flow = _maximum(flowG, _s, _t, capacity, engine, check)
    flows: Flows = {u: dict.fromkeys(flowG[u], 0) for u in flowG}
    for (u, v, _), f in zip(arcs, flow):
        flows[u][v] = f
    # As in networkx, only one of two opposite arcs carries flow.
    for u, v, _ in arcs:
        both = min(flows[u][v], flows[v].get(u, 0))
        if both:
            flows[u][v], flows[v][u] = (
                _less(flows[u][v], both),
                _less(flows[v][u], both),
            )
    return value, flows


def _less(amount: Number, other: Number) -> Number:
    """The difference of two amounts, exactly as decimals."""
    if type(amount) is int and type(other) is int:
        return amount - other
    return unscaled(exact(amount) - exact(other), 1)


def minimum_cut_value(
    flowG: Any,
    _s: Any,
    _t: Any,
    capacity: str = "capacity",
    flow_func: Any = None,
    *,
    engine: str = "auto",
    check: bool = True,
    **others: Any,
) -> Number:
    """networkx.minimum_cut_value, solved by mcf. The parameters are those of `maximum_flow`.

    Examples
    --------
    >>> import networkx as nx
    >>> G = nx.DiGraph([("a", "b", {"capacity": 3}), ("b", "c", {"capacity": 2})])
    >>> minimum_cut_value(G, "a", "c")
    2
    """
    own: Optional[Number] = _by_networkx(
        "minimum_cut_value", (flowG, _s, _t), capacity, flow_func, others
    )
    if own is not None:
        return own
    return _maximum(flowG, _s, _t, capacity, engine, check).value


def minimum_cut(
    flowG: Any,
    _s: Any,
    _t: Any,
    capacity: str = "capacity",
    flow_func: Any = None,
    *,
    engine: str = "auto",
    check: bool = True,
    **others: Any,
) -> Tuple[Number, Tuple[Set[Any], Set[Any]]]:
    """networkx.minimum_cut, solved by mcf. The parameters are those of `maximum_flow`.

    Returns
    -------
    value, (source side, sink side)
        The capacity of a minimum cut, which is the value of a maximum flow; and the nodes on either
        side. Among the minimum cuts it is the one with the fewest nodes on the sink's side, as in
        networkx: those from which a residual path leads to the sink.

    Examples
    --------
    >>> import networkx as nx
    >>> G = nx.DiGraph([("a", "b", {"capacity": 3}), ("b", "c", {"capacity": 2})])
    >>> value, (source, sink) = minimum_cut(G, "a", "c")
    >>> value, sorted(source), sorted(sink)
    (2, ['a', 'b'], ['c'])
    """
    own: Optional[Tuple[Number, Tuple[Set[Any], Set[Any]]]] = _by_networkx(
        "minimum_cut", (flowG, _s, _t), capacity, flow_func, others
    )
    if own is not None:
        return own
    value, arcs, flow = _maximum(flowG, _s, _t, capacity, engine, check)
    sink = reached(arcs, map(exact, flow), _t, False)
    return value, (set(flowG) - sink, sink)


def max_flow_min_cost(
    G: Any, s: Any, t: Any, capacity: str = "capacity", weight: str = "weight", **options: Any
) -> Dict[Any, Dict[Any, Any]]:
    """networkx.max_flow_min_cost, solved by mcf."""
    value = maximum_flow_value(G, s, t, capacity=capacity, **options)
    H = nx.DiGraph(G)
    H.add_node(s, demand=-value)
    H.add_node(t, demand=value)
    return min_cost_flow(H, capacity=capacity, weight=weight, **options)
