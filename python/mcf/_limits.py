"""Arcs without capacity, or with a capacity beyond the library's limit: which capacities replace
theirs, and what an answer with these means for the original problem."""
from typing import Dict, List, NamedTuple, Optional, Sequence, Set, Tuple

BOUND, COST, NODES, ARCS = 10**18, 10**15, 10**6, 10**7

# The tail, head, lower bound, capacity and cost as ints. A capacity of None means no limit.
Arc = Tuple[int, int, int, Optional[int], int]
Limited = Tuple[int, int, int, int, int]


class Limits(NamedTuple):
    """The arcs as the library takes them; the indices of the arcs whose capacity was replaced; and
    those among them whose new capacity may bind where their own doesn't."""

    arcs: Sequence[Limited]
    opened: List[int]
    short: Set[int]


def limited_arcs(supplies: Sequence[int], arcs: Sequence[Arc], beyond: float) -> Limits:
    """Limits capacities to 10^18, but keeps those above `beyond`. An arc without capacity gets one
    that some least-cost flow doesn't reach, but at most 10^18."""
    opened = [k for k, a in enumerate(arcs) if a[3] is None or beyond and BOUND < a[3] <= beyond]
    short: Set[int] = set()
    if not opened:
        return Limits(arcs, [], short)  # type: ignore[arg-type]
    put: List[Limited] = list(arcs)  # type: ignore[arg-type]
    room = _room(supplies, arcs)
    for k in opened:
        u, v, low, cap, cost = arcs[k]
        needed = low + room if cap is None else cap
        if needed > BOUND:
            short.add(k)
        put[k] = (u, v, low, min(needed, BOUND), cost)
    return Limits(put, opened, short)


def _room(supplies: Sequence[int], arcs: Sequence[Arc]) -> int:
    """An amount that some least-cost flow, if one exists, stays below on every arc without
    capacity, counted above the arc's lower bound.

    Above the lower bounds, a flow consists of paths from nodes with remaining supply, and of
    cycles. In some least-cost flow all these cycles have negative cost. Each of them has an arc
    with a capacity and an arc of negative cost.
    """
    left, nodes = list(supplies), range(len(supplies))
    is_earning, earned, others = False, 0, 0
    for u, v, low, cap, cost in arcs:
        if low and u in nodes and v in nodes:
            left[u] -= low
            left[v] += low
        if cap is None:
            is_earning = is_earning or cost < 0
        elif cost < 0:
            earned += max(cap - low, 0)
        else:
            others += max(cap - low, 0)
    turned = earned + others if is_earning else earned
    return 1 + sum(b for b in left if b > 0) + turned


def binding(limits: Limits, flow: Sequence[int], prices: Sequence[int]) -> List[int]:
    """The arcs at a replaced capacity whose reduced cost is negative: there the prices don't show
    that a larger capacity gains nothing."""
    arcs = limits.arcs
    return [
        k
        for k in limits.opened
        if flow[k] == arcs[k][3] and arcs[k][4] - prices[arcs[k][0]] + prices[arcs[k][1]] < 0
    ]


def cycle_through(
    k: int, limits: Limits, unlimited: Sequence[int], flow: Sequence[int]
) -> List[int]:
    """A cycle of this arc and other arcs without capacity that carry flow; an empty list if there
    is none."""
    arcs = limits.arcs
    out: Dict[int, List[int]] = {}
    for j in unlimited:
        if flow[j] > arcs[j][2]:
            out.setdefault(arcs[j][0], []).append(j)
    end, start = arcs[k][:2]
    came = {start: -1}
    stack = [start]
    while stack and end not in came:
        for j in out.get(stack.pop(), ()):
            if arcs[j][1] not in came:
                came[arcs[j][1]] = j
                stack.append(arcs[j][1])
    cycle, node = [], end
    while came.get(node, -1) >= 0:
        cycle.append(came[node])
        node = arcs[came[node]][0]
    return [k] + cycle[::-1] if end in came else []


# A residual arc: its tail, head and cost, and the index of its arc in the problem.
Residual = Tuple[int, int, int, int]


def residual_arcs(limits: Limits, flow: Sequence[int]) -> List[Residual]:
    """The residual arcs of a flow if the arcs with a replaced capacity had none."""
    opened, found = set(limits.opened), []
    for k, ((u, v, low, cap, cost), f) in enumerate(zip(limits.arcs, flow)):
        if f < cap or k in opened:
            found.append((u, v, cost, k))
        if f > low:
            found.append((v, u, -cost, k))
    return found


def lowered(prices: Sequence[int], arcs: Sequence[Residual]) -> Tuple[List[int], List[Residual]]:
    """The greatest prices, at most the given ones, that leave no arc a negative reduced cost. If
    none exist, also a negative-cost cycle."""
    found = list(prices)
    into: Dict[int, List[Residual]] = {}
    for arc in arcs:
        into.setdefault(arc[1], []).append(arc)
    came: Dict[int, Residual] = {}
    active = set(range(len(found)))
    for _ in range(len(found)):
        changed = set()
        for v in active:
            for arc in into.get(v, ()):
                if found[arc[0]] > found[v] + arc[2]:
                    found[arc[0]] = found[v] + arc[2]
                    came[arc[0]] = arc
                    changed.add(arc[0])
        active = changed
    return found, _cycle_of(came, active.pop(), len(found)) if active else []


def _cycle_of(came: Dict[int, Residual], node: int, nodes: int) -> List[Residual]:
    """The cycle that is reached from a node whose price fell in the last round, along the arcs
    that lowered prices."""
    for _ in range(nodes):
        node = came[node][1]
    cycle = [came[node]]
    while cycle[-1][1] != node:
        cycle.append(came[cycle[-1][1]])
    return cycle
