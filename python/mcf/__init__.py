"""Minimum-cost flow with proved answers.

`solve` takes supplies and arcs, and `solve_arrays` columns of them; a `Problem` of such columns is
changed and solved again. `linear_sum_assignment` and
`assign` take a cost matrix, `transport` one with supplies and demands, and `emd` and `emd2`
histograms, as POT's functions of these names do. `SimpleMinCostFlow`, `SimpleMaxFlow` and
`SimpleLinearSumAssignment` have the methods of OR-tools' classes, and `mcf.nx` takes networkx
graphs. The checker judges each answer before the package returns it, unless `check=False`; by
`check_arrays` it judges a flow that anybody made, and `cost_ranges` tells how far its costs may
change. `time_limit` limits how long calls may take. `solve_text` and `check_text` take texts in the
DIMACS formats, `plan_flow` tables of places and routes, and `plan_pairs` a table of persons and
things.
"""
from typing import Optional, Tuple, Union

from . import _library
from ._arrays import ArrayFlow, solve_arrays
from ._errors import Infeasible, MCFError, NotAccepted, Refused, TimeLimit, Unbounded
from ._judging import check_arrays, cost_ranges
from ._library import Verdict
from ._solving import Flow, solve
from ._waiting import time_limit
from .assigning import Assignment, assign
from .assignment import linear_sum_assignment
from .earth_mover import emd, emd2
from .problem import Problem
from .simple import SimpleLinearSumAssignment, SimpleMaxFlow, SimpleMinCostFlow
from .tables import PlanAnswer, plan_flow, plan_pairs
from .transportation import Plan, transport

__all__ = [
    "ArrayFlow",
    "Assignment",
    "Flow",
    "Infeasible",
    "MCFError",
    "NotAccepted",
    "Plan",
    "PlanAnswer",
    "Problem",
    "Refused",
    "SimpleLinearSumAssignment",
    "SimpleMaxFlow",
    "SimpleMinCostFlow",
    "TimeLimit",
    "Unbounded",
    "Verdict",
    "assign",
    "check_arrays",
    "check_text",
    "cost_ranges",
    "emd",
    "emd2",
    "linear_sum_assignment",
    "plan_flow",
    "plan_pairs",
    "solve",
    "solve_arrays",
    "solve_text",
    "time_limit",
    "transport",
]
__version__ = "1.0.0"


def solve_text(
    text: bytes,
    *,
    engine: str = "auto",
    pricing: str = "block",
    block: Optional[int] = None,
    form: Union[int, str] = "full",
) -> Tuple[str, bytes]:
    """Solves an instance text in a DIMACS format.

    Parameters
    ----------
    text : bytes
    engine, pricing, block
        As for `solve`, but 'auto' lets the library choose.
    form : {'full', 'sparse'}
        'full', or 1: the answer names every arc. 'sparse', or 2: it names only the arcs whose flow
        differs from their lower bound.

    Returns
    -------
    kind : str
        'flow', 'blocked' or 'refusal'.
    answer : bytes
        The answer text.

    Raises
    ------
    TypeError, ValueError
        The text isn't bytes, or an option has an unknown value.

    Examples
    --------
    >>> solve_text(b"p min 2 1")
    ('refusal', b'r 2 missing\\n')
    """
    status, answer = _library.solve_text(text, _library.choice_of(engine, pricing, block, form))
    return _library.KINDS[status], answer


def check_text(text: bytes, answer: bytes) -> Verdict:
    """Judges an answer text for an instance text.

    Parameters
    ----------
    text, answer : bytes

    Returns
    -------
    Verdict
        It accepts the answer exactly if the answer is correct.

    Examples
    --------
    >>> check_text(b"p min 2 1", b"r 2 missing")
    Verdict(accepted=True, kind='accepted refusal', number=2, code='missing')
    """
    return _library.check_text(text, answer)
