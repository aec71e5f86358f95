"""The earth mover's distance, with the interface of POT's `emd` and `emd2`. It needs numpy."""
import math
from fractions import Fraction
from typing import Any, Dict, List, NamedTuple, Tuple, Union

from ._errors import NotAccepted
from ._library import BLOCKED, FLOW, FORBIDDEN, INVALID_INPUT, Costs, DoubleTransportArrays
from ._numbers import refuse_masked
from .transportation import exact_cost, in_place, infeasible, total_of

# Masses have at most so many bits in their unit, so that their sum fits 64.
MASS_BITS = 62
# The sum of masses that aren't representable is made 2 to this power.
TOTAL_BITS = 52


class _Masses(NamedTuple):
    """Supplies and demands as whole numbers, and the number that one stands for."""

    supplies: Any
    demands: Any
    unit: Fraction


class _Solved(NamedTuple):
    """The arrays of a problem that is solved, and its masses."""

    costs: Costs
    problem: DoubleTransportArrays
    masses: _Masses

    def dense(self) -> Any:
        """The plan as a matrix."""
        import numpy

        plan = numpy.frombuffer(self.problem.plan, dtype=numpy.int64)
        lines = plan.view(numpy.uint32).reshape(-1, 4)[: self.problem.told.used]
        amounts = plan[1 : 2 * len(lines) : 2]
        G = numpy.zeros((len(self.masses.supplies), len(self.masses.demands)))
        G[lines[:, 0], lines[:, 1]] = _multiples(amounts, self.masses.unit)
        return G

    def cost(self) -> float:
        """The cost, rounded once."""
        return self._cost((self.problem.row_prices, self.problem.column_prices))

    def _cost(self, prices: Tuple[List[int], List[int]]) -> float:
        _, _, unit = self.masses
        scale = self.problem.told.scale
        if scale.is_rounded:
            return float(exact_cost(self.costs, self.problem.entries()) * unit)
        masses = self.masses.supplies.tolist(), self.masses.demands.tolist()
        return float(total_of(prices, *masses) * unit * scale.size())

    def log(self, center_dual: bool) -> Dict[str, Any]:
        """The log of POT, with the prices as dual variables, and the masses of the plan."""
        import numpy

        supplies, demands, unit = self.masses
        prices = self.problem.row_prices, self.problem.column_prices
        places = self.problem.told.scale.unit - 1074
        u, v = (numpy.ldexp(numpy.array(line, dtype=float), places) for line in prices)
        a, b = _multiples(supplies, unit), _multiples(demands, unit)
        total = a.sum() + b.sum()
        if center_dual and total > 0:
            shift = (b @ v - a @ u) / total
            u, v = u + shift, v - shift
        told = {"cost": self._cost(prices), "u": u, "v": v, "a": a, "b": b}
        return {**told, "warning": None, "result_code": 1}


def _multiples(numbers: Any, unit: Fraction) -> Any:
    """Multiples of a unit as doubles."""
    import numpy

    if unit < Fraction(1, 2**1000):
        # The unit alone may round to 0.
        return numpy.array([float(number * unit) for number in numbers.tolist()])
    return numbers * float(unit)


def emd(
    a: Any,
    b: Any,
    M: Any,
    numItermax: int = 100000,
    log: bool = False,
    center_dual: bool = True,
    numThreads: Union[int, str] = 1,
    check_marginals: bool = True,
) -> Any:
    """Solves the earth mover's distance problem: the plan of least cost that turns one histogram
    into another.

    The plan is exactly least: costs are the numbers that their bits stand for, and masses are whole
    multiples of a unit. Where the bits of finite costs span more than 118, its cost may be above
    the least by less than 2^-117 of the size of the greatest one, times the total mass. Masses are
    those given if these are multiples of one power of two, with at most 62 bits and equal sums.
    Equal masses in `a`, and equal ones in `b`, are the sum of `a` over their number. Otherwise `b`
    is scaled to the sum of `a`, as POT does, and the unit is the 2^52nd part of that sum: each mass
    is rounded down to units, and those that are left go one by one to the masses with the greatest
    remainders. So each mass then changes by less than a unit.

    Parameters
    ----------
    a : array of n floats
        The masses of the source, read as doubles; empty for equal ones of sum 1.
    b : array of m floats
        The masses of the target; empty for equal ones of sum 1.
    M : array of n x m floats or integers
        The costs. An infinite one forbids a pair. Doubles whose rows are contiguous are read where
        they are, without a copy: no other thread may change them during the call.
    numItermax : int
        Unused: the search decides by itself when it gives up.
    log : bool
        Whether to return the cost and the dual variables, too.
    center_dual : bool
        Whether to shift the dual variables as POT does, so that those of the source weigh as much
        as those of the target.
    numThreads : int or str
        Unused.
    check_marginals : bool
        Whether the sums have to be the same up to 7 decimals.

    Returns
    -------
    G : array of n x m floats
        The plan.
    log : dict
        If `log` is true: 'cost', the dual variables 'u' and 'v', the masses 'a' and 'b' that the
        plan has, 'warning' and 'result_code'.

    Raises
    ------
    ValueError
        The shapes or sums differ; a mass isn't finite, or a cost is a NaN or -infinity; or costs
        aren't representable: integers are beyond 2^53, or their type is wider than 64 bits.
    Infeasible
        A mass is negative, or the pairs that aren't forbidden don't suffice.
    NotAccepted
        The judge accepts no plan that the search found. No such problem is known.
    OverflowError
        `log` is true, and the cost is beyond doubles.

    Examples
    --------
    >>> a, b = [0.5, 0.5], [0.5, 0.5]
    >>> M = [[0.0, 1.0], [1.0, 0.0]]
    >>> emd(a, b, M)
    array([[0.5, 0. ],
           [0. , 0.5]])
    """
    a, b, M = _arguments(a, b, M)
    solved = _solved(a, b, M, check_marginals)
    G = solved.dense()
    return (G, solved.log(center_dual)) if log else G


def emd2(
    a: Any,
    b: Any,
    M: Any,
    processes: int = 1,
    numItermax: int = 100000,
    log: bool = False,
    return_matrix: bool = False,
    center_dual: bool = True,
    numThreads: Union[int, str] = 1,
    check_marginals: bool = True,
) -> Any:
    """The least cost of the earth mover's distance problem.

    Parameters
    ----------
    a, M, numItermax, center_dual, numThreads, check_marginals
        As for `emd`.
    b : array of m floats, or of m x k
        The masses of the target, or of k targets, one for each column.
    processes : int
        Unused.
    log : bool
        Whether to return the dual variables, too.
    return_matrix : bool
        Whether the log has the plan, as 'G'. Such a log is returned even if `log` is false.

    Returns
    -------
    cost : float, or a list for several targets
        The cost of a least-cost plan.
    log : dict
        As for `emd`, if `log` or `return_matrix` is true.

    Raises
    ------
    ValueError, Infeasible, NotAccepted
        As for `emd`.
    OverflowError
        The cost is beyond doubles.

    Examples
    --------
    >>> emd2([0.5, 0.5], [0.25, 0.75], [[0, 1], [1, 0]])
    0.25
    """
    import numpy

    refuse_masked(b)
    b = numpy.asarray(b, dtype=float)
    if b.ndim == 2 and b.shape[1] != 1:
        options = (numItermax, log, return_matrix, center_dual, numThreads, check_marginals)
        return [emd2(a, b[:, k], M, 1, *options) for k in range(b.shape[1])]
    a, b, M = _arguments(a, b.reshape(-1), M)
    solved = _solved(a, b, M, check_marginals)
    if not log and not return_matrix:
        return solved.cost()
    told = solved.log(center_dual)
    if return_matrix:
        told["G"] = solved.dense()
    return told["cost"], told


def _arguments(a: Any, b: Any, M: Any) -> Tuple[Any, Any, Any]:
    """Masses and costs as doubles, of shapes that fit."""
    import numpy

    refuse_masked(a, b, M)
    a, b, M = numpy.asarray(a, dtype=float), numpy.asarray(b, dtype=float), numpy.asarray(M)
    if M.ndim != 2:
        raise ValueError("M isn't a matrix: %d dimensions" % M.ndim)
    if M.dtype.kind not in "biuf" or M.dtype.itemsize > 8:
        raise ValueError("costs aren't representable: %s; use float64" % M.dtype)
    M = _doubles(M) if M.dtype.kind in "iu" else M.astype(float, copy=False)
    n, m = M.shape
    a = numpy.full(n, 1 / n) if a.size == 0 and n else a
    b = numpy.full(m, 1 / m) if b.size == 0 and m else b
    if a.shape != (n,) or b.shape != (m,):
        raise ValueError("M is %d x %d, for masses of shapes %s and %s" % (n, m, a.shape, b.shape))
    if not numpy.isfinite(a).all() or not numpy.isfinite(b).all():
        raise ValueError("masses have to be finite numbers")
    return a, b, M


def _doubles(M: Any) -> Any:
    """Integers as doubles, which they have to be exactly. The greatest of 64 bits is infinite."""
    costs = M.astype(float)
    if M.size and max(abs(int(M.min())), abs(int(M.max()))) > 2**53:
        forbidden = M == FORBIDDEN
        if ((M > 2**53) & ~forbidden).any() or int(M.min()) < -(2**53):
            raise ValueError("costs aren't representable: an integer is beyond 2^53; round it")
        costs[forbidden] = math.inf
    return costs


def _solved(a: Any, b: Any, M: Any, check_marginals: bool) -> _Solved:
    import numpy

    masses = _masses(a, b, check_marginals)
    costs = in_place(M, numpy.float64)
    problem = DoubleTransportArrays(costs, masses.supplies, masses.demands)
    status = problem.solve()
    if status == BLOCKED:
        raise infeasible(problem, masses.supplies.tolist(), masses.demands.tolist())
    if status == INVALID_INPUT:
        raise ValueError("costs have to be numbers, or infinite to forbid a pair")
    if status != FLOW:
        raise NotAccepted("the search found no plan that the judge accepts")
    return _Solved(costs, problem, masses)


def _masses(a: Any, b: Any, check_marginals: bool) -> _Masses:
    """The masses as whole numbers of one unit, with equal sums unless one is negative."""
    import numpy

    n, m = len(a), len(b)
    if n and m and (a == a[0]).all() and (b == b[0]).all() and a[0] > 0 and b[0] > 0:
        if check_marginals:
            _compare(a, b)
        count = math.gcd(n, m)
        unit = Fraction(a[0]) * count / m
        return _Masses(numpy.full(n, m // count), numpy.full(m, n // count), unit)
    both, unit = _whole(a.tolist() + b.tolist())
    supplies, demands = both[:n], both[n:]
    total, other = sum(supplies), sum(demands)
    most = max(total, other, max(both, default=0), -min(both, default=0))
    if total == other and most.bit_length() <= MASS_BITS:
        return _Masses(_longs(supplies), _longs(demands), unit)
    if check_marginals:
        _compare(a, b)
    if total <= 0 or other <= 0:
        # Signs alone are told then: a mass is below 0, or the sums differ.
        return _Masses(numpy.sign(a).astype(numpy.int64), numpy.sign(b).astype(numpy.int64), unit)
    unit = total * unit / 2**TOTAL_BITS
    return _Masses(_shared(supplies, total), _shared(demands, other), unit)


def _compare(a: Any, b: Any) -> None:
    """Refuses sums that differ, as POT does."""
    difference = float(a.sum() - b.sum())
    if not abs(difference) < 1.5e-7:
        raise ValueError("a and b have to have the same sum: they differ by %g" % difference)


def _whole(values: List[float]) -> Tuple[List[int], Fraction]:
    """Doubles as whole multiples of the greatest power of two that divides all of them."""
    ratios = [value.as_integer_ratio() for value in values]
    # Denominators are powers of two, so that the greatest is a multiple of each.
    below = max((ratio[1] for ratio in ratios), default=1)
    numbers = [number * (below // of) for number, of in ratios]
    bits = 0
    for number in numbers:
        bits |= number
    divisor = bits & -bits or 1
    if divisor > 1:
        numbers = [number // divisor for number in numbers]
    return numbers, Fraction(divisor, below)


def _longs(numbers: List[int]) -> Any:
    import numpy

    return numpy.array(numbers, dtype=numpy.int64)


def _shared(masses: List[int], total: int) -> Any:
    """Shares 2^52 units in the proportions of the masses: each gets its whole units, and those that
    are left go one by one to the masses with the greatest remainders. A mass below 0 stays so."""
    units, remainders = [], []
    for mass in masses:
        whole, remainder = divmod(mass << TOTAL_BITS, total)
        units.append(whole)
        remainders.append(remainder if mass > 0 else -1)
    order = sorted(range(len(masses)), key=remainders.__getitem__, reverse=True)
    for place in order[: max(0, 2**TOTAL_BITS - sum(units))]:
        units[place] += 1
    return _longs(units)
