"""Arcs from tables of other packages: frames with a column for each part of an arc, and sparse
matrices. Nothing here imports these packages."""
from typing import Any, Dict, List, Optional, Tuple

from ._numbers import listed

# The columns of a frame of arcs; the lower bound is optional.
COLUMNS = ("tail", "head", "capacity", "cost")
LOWER = "lower"


def is_frame(arcs: Any) -> bool:
    """Whether an object has named columns, as a DataFrame has."""
    return hasattr(arcs, "columns") and hasattr(arcs, "__getitem__")


def is_sparse(arcs: Any) -> bool:
    """Whether an object is a sparse matrix of scipy, or one like it."""
    return hasattr(arcs, "tocoo") and hasattr(arcs, "shape")


def _is_missing(value: Any) -> bool:
    """Whether a capacity is None, not a number, or pandas' NA, which is neither true nor false."""
    if value is None:
        return True
    try:
        return bool(value != value)
    except TypeError:
        return True


def rows_of_frame(frame: Any) -> List[Tuple[Any, ...]]:
    """The arcs of a frame. A missing capacity means no limit."""
    lacking = [name for name in COLUMNS if name not in frame.columns]
    if lacking:
        raise ValueError("a frame of arcs has a column for each %s" % ", ".join(lacking))
    tails, heads, caps, costs = (list(listed(frame[name])) for name in COLUMNS)
    lows = list(listed(frame[LOWER])) if LOWER in frame.columns else [0] * len(tails)
    return [
        (u, v, low, None if _is_missing(cap) else cap, cost)
        for u, v, low, cap, cost in zip(tails, heads, lows, caps, costs)
    ]


def _entries(matrix: Any) -> List[Tuple[int, int, Any]]:
    """The stored entries of a sparse matrix: row, column and value."""
    found = matrix.tocoo()
    return list(zip(found.row.tolist(), found.col.tolist(), listed(found.data)))


def _by_place(matrix: Any, name: str) -> Dict[Tuple[int, int], Any]:
    entries = _entries(matrix)
    found = {(i, j): value for i, j, value in entries}
    if len(found) != len(entries):
        raise ValueError("the matrix of %s stores an entry twice" % name)
    return found


def rows_of_sparse(costs: Any, capacities: Optional[Any], nodes: int) -> List[Tuple[Any, ...]]:
    """The arcs of a sparse matrix of costs: one from i to j for each stored entry (i, j), without
    limit, or with the capacities of another matrix."""
    for matrix in (costs, capacities):
        if matrix is not None and tuple(matrix.shape) != (nodes, nodes):
            raise ValueError(
                "a matrix of arcs has a row and a column for each of %d nodes, and not the shape %r"
                % (nodes, tuple(matrix.shape))
            )
    if capacities is None:
        return [(i, j, 0, None, cost) for i, j, cost in _entries(costs)]
    bounds, prices = _by_place(capacities, "capacities"), _by_place(costs, "costs")
    for place in prices:
        if place not in bounds:
            raise ValueError("there is a cost and no capacity from %d to %d" % place)
    return [(i, j, 0, cap, prices.get((i, j), 0)) for (i, j), cap in bounds.items()]
