"""The calls in docs/LIBRARY.md and in the docstrings, for mypy to check; as a program it checks
their results. Needs numpy, because some calls take its arrays. MCF_LIBRARY names the library."""
import os
import sys
from decimal import Decimal
from fractions import Fraction
from typing import Dict, List, Optional, Tuple, Union

import numpy as np

sys.path.insert(0, os.path.dirname(os.path.dirname(os.path.abspath(__file__))))
import mcf


def labels() -> None:
    """Ints give ints, and prices are found by label."""
    r = mcf.solve(
        {"mill": 4, "shop": -4},
        [("mill", "depot", 2, 1), ("mill", "shop", None, 5), ("depot", "shop", 3, 1)],
    )
    cost: int = r.cost
    flow: List[int] = r.flow
    price: int = r.prices["shop"]
    assert (cost, flow, price) == (14, [2, 2, 2], -5)
    supplies: Dict[str, int] = {"a": 1, "b": -1}
    arcs: List[Tuple[str, str, int, Optional[int], int]] = [("a", "b", 0, None, 3)]
    lower: int = mcf.solve(supplies, arcs, engine="scaling").prices["a"]
    assert lower == 0


def places() -> None:
    """A list of prices, if the supplies have no labels."""
    r = mcf.solve([4, -4], [(0, 1, 3, 2), (0, 1, 9, 5)])
    cost: int = r.cost
    price: int = r.prices[1]
    verdict: Optional[mcf.Verdict] = r.verdict
    assert (cost, price) == (11, -5) and verdict is not None and verdict.accepted
    assert mcf.solve(3, []).flow == []


def tables() -> None:
    """Plans from the texts of tables."""
    answer: mcf.PlanAnswer = mcf.plan_flow("name,supply\nA,1\nB,-1", b"from,to,most,cost\nA,B,,2")
    rows: List[List[str]] = answer.rows()
    assert (answer.kind, rows[1]) == ("plan", ["cost", "2"])
    answer = mcf.plan_pairs("who,what,cost\nA,X,1\nB,X,2", each="what", maximise=True)
    assert answer.rows()[1] == ["cost", "2"]


def decimals() -> None:
    """Other types of numbers, and arcs as lists."""
    r = mcf.solve([0.5, Decimal("-0.5")], [[0, 1, float("inf"), Fraction(3, 2)]])
    cost: float = r.cost
    price: float = r.prices[1]
    assert (cost, price) == (0.75, -1.5)
    named = mcf.solve({"a": 0.5, "b": -0.5}, [("a", "b", None, 1.5)])
    value: Union[int, float] = named.prices["b"]
    assert value == -1.5


def arrays() -> None:
    """Numpy arrays, for each argument that takes numbers."""
    r = mcf.solve(np.array([4, 0, -4]), np.array([[0, 1, 3, 1], [1, 2, 3, -1], [0, 2, 9, 5]]))
    cost: float = r.cost
    assert (cost, r.flow) == (5, [3, 3, 1])
    shown = (r.flow, r.prices)
    rows, columns = mcf.linear_sum_assignment(np.array([[4, 1, 3], [2, 0, 5], [3, 2, 2]]))
    assert (rows.tolist(), columns.tolist()) == ([0, 1, 2], [1, 0, 2])
    ends = mcf.cost_ranges([4, 0, -4], [0, 1, 0], [1, 2, 2], [3, 3, 9], [1, -1, 5], *shown)
    highest: Optional[Union[int, float]] = ends[2][1]
    assert highest is None
    plan: mcf.Plan = mcf.transport(np.array([[1, 2], [3, 1]]), np.array([3, 4]), [5, 2])
    shipments: List[Tuple[int, int, int]] = plan.shipments
    total: int = plan.cost
    assert (total, shipments) == (11, [(0, 0, 3), (1, 0, 2), (1, 1, 2)])
    costs = [[8, 6, 10, 9], [9, 12, 13, 7], [14, 9, 16, 5]]
    plan = mcf.transport(costs, [35, 50, 40], [45, 20, 30, 30])
    assert (plan.cost, len(plan.shipments)) == (1020, 6)
    assert mcf.emd2([0.5, 0.5], [0.25, 0.75], np.array([[0, 1], [1, 0]])) == 0.25
    smcf = mcf.SimpleMinCostFlow()
    arcs: List[int] = smcf.add_arcs_with_capacity_and_unit_cost(
        np.array([0, 0, 1]), np.array([1, 2, 2]), np.array([4, 3, 4]), np.array([1, 5, 1])
    )
    smcf.set_nodes_supplies(np.array([0, 2]), np.array([5, -5]))
    assert smcf.solve() == smcf.OPTIMAL and smcf.flows(arcs) == [4, 1, 4]


def columns() -> None:
    """Columns of arcs."""
    r = mcf.solve_arrays(np.array([4, -4]), [0, 0], [1, 1], np.array([3, 9]), [2, 5])
    success: bool = r.success
    said: str = r.message
    assert (r.cost, r.flow.tolist(), r.prices.tolist()) == (11, [3, 1], [0, -5])
    assert success and said and r == mcf.solve([4, -4], [(0, 1, 3, 2), (0, 1, 9, 5)])


def assignments() -> None:
    """Lists give lists."""
    rows, columns = mcf.linear_sum_assignment([[4, 1, 3], [2, 0, 5], [3, 2, 2]])
    first: List[int] = rows
    assert (first, columns) == ([0, 1, 2], [1, 0, 2])
    assert mcf.linear_sum_assignment([[1.5, float("inf")], [0.5, 1]], maximize=False)[1] == [0, 1]


def exceptions() -> None:
    """The attributes of the exceptions."""
    try:
        mcf.solve([1, -1], [(1, 0, 5, 3)])
    except mcf.Infeasible as error:
        must: float = error.must
        places: List[int] = error.arcs
        assert (must, places, error.side) == (1, [], "send")
    try:
        mcf.solve([0, 0], [(0, 1, 5, 10**16)])
    except mcf.Refused as refused:
        limit: Optional[int] = refused.limit
        assert (limit, refused.reason, refused.value) == (10**15, "cost", 10**16)


def texts() -> None:
    """Texts are bytes."""
    kind, answer = mcf.solve_text(b"p min 2 1")
    verdict = mcf.check_text(b"p min 2 1", answer)
    assert (kind, verdict.accepted, verdict.code) == ("refusal", True, "missing")


if __name__ == "__main__":
    for example in (
        labels,
        places,
        tables,
        decimals,
        arrays,
        columns,
        assignments,
        exceptions,
        texts,
    ):
        example()
