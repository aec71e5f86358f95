"""The exceptions that the package raises for an instance."""
from typing import Any, List, NamedTuple, Optional, Tuple, Type

from ._limits import ARCS, BOUND, COST, NODES
from ._numbers import said
from ._types import Number

LIMITS = {
    "supply": BOUND,
    "bound": BOUND,
    "cost": COST,
    "total": BOUND**2,
    "unlimited": BOUND,
}


def _raised_again(kind: Type[BaseException], *words: Any) -> BaseException:
    """Makes an exception with its arguments alone. `copy` and `pickle` then restore its
    attributes."""
    return kind.__new__(kind, *words)


class MCFError(Exception):
    """The base class of the package's exceptions. Copies and pickles keep all attributes."""

    def __reduce__(self) -> Tuple[Any, ...]:
        return (_raised_again, (type(self),) + self.args, self.__dict__)


class Cell(NamedTuple):
    """A place in a matrix."""

    row: int
    column: int


class Refused(MCFError, ValueError):
    """The instance is beyond the limits.

    Attributes
    ----------
    arc, node
        Where the first fault is: the index of an arc, from 0, or the index or label of a node. At
        least one of them is None. For a matrix, `arc` is the index of the entry, row by row.
    reason : str
        What is wrong: 'size', 'supply', 'node', 'bound', 'order', 'cost' or 'total'; or
        'unlimited', if an arc without capacity would have to carry more than 10^18.
    scale : int
        The factor that made numbers of this kind whole.
    value
        The number that is beyond the limit, as the caller gave it. For 'order' it is the lower
        bound and the capacity, for 'size' the numbers of nodes and arcs, for 'node' the number of
        nodes, and otherwise None.
    ends
        The tail and the head of the arc. For a matrix, the row and the column.
    limit : int or None
        The greatest absolute value that such a number may have once it is whole.
    """

    def __init__(
        self,
        arc: Optional[int],
        node: Any,
        reason: str,
        scale: int = 1,
        value: Any = None,
        ends: Optional[Tuple[Any, Any]] = None,
    ):
        self.arc, self.node, self.reason, self.scale = arc, node, reason, scale
        self.value, self.ends, self.limit = value, ends, LIMITS.get(reason)
        super().__init__(self._where() + self._what() + self._whole())

    def _where(self) -> str:
        if isinstance(self.ends, Cell):
            return "row %d, column %d: " % self.ends
        if self.arc is not None:
            way = " (%s to %s)" % tuple(map(said, self.ends)) if self.ends else ""
            return "arc %d%s: " % (self.arc, way)
        return "node %s: " % said(self.node) if self.node is not None else ""

    def _what(self) -> str:
        if self.reason == "unlimited":
            return "unlimited, it would have to carry more than 10^18"
        if self.reason == "total":
            return "total, the sizes of costs times bounds add up to more than 10^36"
        if self.value is None:
            return self.reason
        if self.reason == "order":
            low, cap = map(said, self.value)
            return "order, the lower bound %s is above the capacity %s" % (low, cap)
        if self.reason == "node":
            return "node, there are %d, with numbers from 0" % self.value
        if self.reason == "size":
            nodes, arcs = map(said, self.value)
            return "size, %s nodes and %s arcs, where %d and %d may be" % (nodes, arcs, NODES, ARCS)
        return "%s %s is past the limit, %s" % (self.reason, said(self.value), said(self.limit))

    def _whole(self) -> str:
        if self.scale == 1:
            return ""
        return " (numbers are multiplied by %s, to be whole)" % said(self.scale)


class Infeasible(MCFError):
    """No flow is feasible.

    Attributes
    ----------
    nodes : list
        The set of nodes that is the infeasibility certificate, by number or label.
    side : {'send', 'take'}
        Whether the set can't send enough or can't take enough.
    must, can
        The amount that the set must send or take, and the most that it can.
    arcs : list of int
        The indices of the arcs that limit what the set can send or take.
    """

    def __init__(self, nodes: List[Any], side: str, must: Number, can: Number, arcs: List[int]):
        super().__init__(
            "%d node(s) must %s %s and can %s %s" % (len(nodes), side, must, side, can)
        )
        self.nodes, self.side, self.must, self.can, self.arcs = nodes, side, must, can, arcs


class Unbounded(MCFError):
    """The cost has no lower bound.

    Attributes
    ----------
    cycle : list of int
        The indices of the arcs of a negative-cost cycle whose arcs have no capacity.
    """

    def __init__(self, cycle: List[int]):
        super().__init__("a cycle of negative cost has no limit")
        self.cycle = cycle


class NotAccepted(MCFError):
    """The checker rejected the answer, so the package doesn't return it. This would be a bug
    outside the proofs."""


class TimeLimit(MCFError, TimeoutError):
    """The time that `time_limit` allows is up.

    Attributes
    ----------
    seconds : float
        The limit.
    """

    def __init__(self, seconds: float):
        super().__init__("no answer within %g seconds" % seconds)
        self.seconds = seconds
