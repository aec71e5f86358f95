"""Calls libmcf in this process through ctypes. Several threads can call it at once, because ctypes
releases the interpreter's lock."""
import ctypes
import ctypes.util
import os
import sys
from array import array
from fractions import Fraction
from typing import Any, Callable, Dict, List, NamedTuple, Optional, Sequence, Tuple, Union

from ._errors import NotAccepted
from ._waiting import called

(
    FLOW,
    BLOCKED,
    INVALID_INPUT,
    NO_MEMORY,
    BUFFER_TOO_SMALL,
    INVALID_CHOICE,
    PRICE_OVERFLOW,
    NOT_SHOWN,
) = range(8)
# The entry of a cost matrix that forbids a pair.
FORBIDDEN = 2**63 - 1
ENGINES = {"auto": 0, "cancel": 1, "simplex": 2, "scaling": 3, "sap": 4, "fast": 5}
PRICINGS = {"block": 0, "first": 1, "best": 2, "wide": 3}
CODES = (
    "",
    "kind",
    "fields",
    "problem",
    "number",
    "second-p",
    "before-p",
    "size",
    "node",
    "late-n",
    "twice",
    "supply",
    "bound",
    "order",
    "cost",
    "extra",
    "side",
    "total",
    "no-p",
    "missing",
)
VERDICTS = (
    "accepted flow",
    "accepted blocked",
    "accepted refusal",
    "rejected shape",
    "rejected kind",
    "rejected refusal",
    "rejected arc",
    "rejected node",
    "rejected price",
    "rejected cost",
    "rejected set",
)
SIDES = ("send", "take")
# A full answer text names every arc; a sparse one names the arcs whose flow differs from their
# lower bound.
FORMS: Dict[Union[int, str], int] = {"full": 1, "sparse": 2, 1: 1, 2: 2}
# The kind of an answer text, by the status of the call.
KINDS = ("flow", "blocked", "refusal")


# A call that may take a tenth of a second can be interrupted: one with more bytes of text or more
# arcs than this. For solving, a node counts as 8 arcs; for judging, 16 arcs count as one. A shorter
# call isn't worth a thread.
LASTING_ARCS, LASTING_BYTES = 2**16, 2**18


class Choice(ctypes.Structure):
    _fields_ = [
        ("engine", ctypes.c_uint32),
        ("pricing", ctypes.c_uint32),
        ("block", ctypes.c_uint32),
        ("form", ctypes.c_uint32),
        ("check", ctypes.c_uint32),
    ]


class Told(ctypes.Structure):
    _fields_ = [
        ("kind", ctypes.c_uint32),
        ("code", ctypes.c_uint32),
        ("negative", ctypes.c_uint32),
        ("low", ctypes.c_uint64),
        ("high", ctypes.c_uint64),
    ]

    @property
    def number(self) -> int:
        size = self.low + (self.high << 64)
        return int(-size if self.negative else size)


class FlowProblem(ctypes.Structure):
    _fields_ = [
        ("supplies", ctypes.c_void_p),
        ("nodes", ctypes.c_size_t),
        ("arcs", ctypes.c_void_p),
        ("arc_count", ctypes.c_size_t),
    ]


class Assignment(ctypes.Structure):
    _fields_ = [
        ("rows", ctypes.c_uint32),
        ("columns", ctypes.c_uint32),
        ("pairs", ctypes.c_void_p),
        ("pair_count", ctypes.c_size_t),
    ]


class CostMatrix(ctypes.Structure):
    _fields_ = [
        ("costs", ctypes.c_void_p),
        ("length", ctypes.c_size_t),
        ("rows", ctypes.c_size_t),
        ("columns", ctypes.c_size_t),
        ("stride", ctypes.c_size_t),
    ]


class TransportProblem(ctypes.Structure):
    _fields_ = [
        ("matrix", CostMatrix),
        ("supplies", ctypes.c_void_p),
        ("supply_count", ctypes.c_size_t),
        ("demands", ctypes.c_void_p),
        ("demand_count", ctypes.c_size_t),
    ]


class PlanOptions(ctypes.Structure):
    """How tables are read, what plans may leave, and whether ranges are told."""

    _fields_ = [
        ("decimal", ctypes.c_uint32),
        ("allow_unused", ctypes.c_uint32),
        ("allow_short", ctypes.c_uint32),
        ("ranges", ctypes.c_uint32),
        ("penalty", ctypes.c_char_p),
        ("penalty_length", ctypes.c_size_t),
        ("fill_down", ctypes.c_char_p),
        ("fill_down_length", ctypes.c_size_t),
    ]


class PairOptions(ctypes.Structure):
    """How a table of persons and things is read, which choice is best, and a table of groups."""

    _fields_ = [
        ("decimal", ctypes.c_uint32),
        ("each", ctypes.c_uint32),
        ("maximise", ctypes.c_uint32),
        ("crossing", ctypes.c_uint32),
        ("groups", ctypes.c_char_p),
        ("groups_length", ctypes.c_size_t),
        ("fill_down", ctypes.c_char_p),
        ("fill_down_length", ctypes.c_size_t),
    ]


class ShownFlow(ctypes.Structure):
    _fields_ = [
        ("flow", ctypes.c_void_p),
        ("arcs", ctypes.c_size_t),
        ("prices", ctypes.c_void_p),
        ("nodes", ctypes.c_size_t),
    ]


class RangeEnd(ctypes.Structure):
    """How far a cost may change in one direction."""

    _fields_ = [
        ("is_limited", ctypes.c_uint32),
        ("low", ctypes.c_uint64),
        ("high", ctypes.c_int64),
    ]

    def change(self) -> Optional[int]:
        """The number, or None without a limit."""
        return int(self.low + (self.high << 64)) if self.is_limited else None


class CostRange(ctypes.Structure):
    _fields_ = [("down", RangeEnd), ("up", RangeEnd)]


class Planned(ctypes.Structure):
    _fields_ = [("used", ctypes.c_size_t), ("side", ctypes.c_uint32)]


class Scale(ctypes.Structure):
    """The unit of prices of doubles, 2^(unit - 1074), and whether they show what is least of the
    costs rounded down to such units."""

    _fields_ = [("unit", ctypes.c_uint32), ("is_rounded", ctypes.c_uint32)]

    def size(self) -> Fraction:
        """The number that a unit stands for."""
        return Fraction(2) ** int(self.unit - 1074)

    def gap(self, amount: int) -> Fraction:
        """How much costs lose at most by being rounded down, times this amount."""
        return amount * (self.size() - Fraction(1, 2**1074)) if self.is_rounded else Fraction(0)


class PlannedDoubles(ctypes.Structure):
    _fields_ = [("used", ctypes.c_size_t), ("side", ctypes.c_uint32), ("scale", Scale)]


class Verdict(NamedTuple):
    """The checker's verdict on an answer.

    Attributes
    ----------
    accepted : bool
    kind : str
        The words that `mcfcheck` prints: 'accepted flow', 'accepted blocked' or 'accepted refusal',
        or what is wrong with the answer, for example 'rejected cost'.
    number
        The cost of an accepted flow, or the number of nodes of an accepted set. For other kinds it
        is a line, an arc or a node: see `mcf.h`.
    code : str
        For a refusal, what is wrong with the instance.
    """

    accepted: bool
    kind: str
    number: Union[int, float]
    code: str

    def __bool__(self) -> bool:
        return self.accepted


def _path() -> str:
    here = os.path.dirname(os.path.abspath(__file__))
    up = os.path.dirname
    beside = [
        os.path.join(here, "libmcf.so"),
        os.path.join(up(up(here)), "bin", "libmcf.so"),
        os.path.join(up(up(up(up(here)))), "lib", "libmcf.so"),
    ]
    named = os.environ.get("MCF_LIBRARY")
    for path in [named] if named else beside:
        if os.sep not in path or os.path.exists(path):
            return path
    # This comes last because find_library starts other programs.
    installed = None if named else ctypes.util.find_library("mcf")
    if installed:
        return installed
    raise ImportError(
        "libmcf.so isn't found: MCF_LIBRARY names it, or it stands beside the package mcf or where"
        " the linker looks"
    )


def _load() -> ctypes.CDLL:
    library = ctypes.CDLL(_path())
    size, word, at, by = ctypes.c_size_t, ctypes.c_uint32, ctypes.c_void_p, ctypes.POINTER
    rooms: List[Any] = [at, size, at, size]
    flow_problem, assignment = by(FlowProblem), by(Assignment)
    text: List[Any] = [ctypes.c_char_p, size]
    written: List[Any] = [at, size, by(size)]
    lines: List[Any] = [by(CostMatrix), at, size, *rooms]
    plans: List[Any] = [by(TransportProblem), at, size, *rooms]
    calls: Dict[str, List[Any]] = {
        "mcf_solve": [*text, by(Choice), *written],
        "mcf_check": [*text, *text, by(Told)],
        "mcf_plan_flow": [*text, *text, by(PlanOptions), *written],
        "mcf_plan_pairs": [*text, by(PairOptions), *written],
        "mcf_solve_arcs": [flow_problem, by(Choice), *rooms, by(Told)],
        "mcf_solve_arcs_from": [flow_problem, by(Choice), *rooms, by(Told)],
        "mcf_check_arcs": [flow_problem, *rooms, by(Told)],
        "mcf_solve_pairs": [assignment, by(Choice), *rooms, by(Told)],
        "mcf_check_pairs": [assignment, *rooms, by(Told)],
        "mcf_cost_ranges": [flow_problem, by(ShownFlow), by(Told), *rooms],
        "mcf_assign_matrix": lines,
        "mcf_transport_matrix": [*plans, by(Planned)],
        "mcf_transport_doubles": [*plans, by(PlannedDoubles)],
        "mcf_assign_doubles": [*lines, by(Scale)],
    }
    for name, arguments in calls.items():
        function = getattr(library, name)
        function.argtypes, function.restype = arguments, word
    return library


_lib = _load()


def _found_small() -> Optional[Callable[[Any, bool], Optional[Tuple[Any, Any]]]]:
    """The call for small matrices of numpy: it returns the matched rows and their columns, or None
    if it leaves a matrix to the caller. None if the extension isn't built, or not for this Python:
    `library/python/small.c` is for the stable interface of CPython 3.11 and later."""
    if sys.implementation.name != "cpython" or sys.version_info < (3, 11):
        return None
    try:
        from . import _small
    except ImportError:
        return None
    functions = _lib.mcf_assign_matrix, _lib.mcf_assign_doubles
    _small.bind(*(ctypes.cast(function, ctypes.c_void_p).value or 0 for function in functions))
    return _small.assign


assign_small = _found_small()


def choice_of(
    engine: str, pricing: str, block: Optional[int], form: Union[int, str] = "full"
) -> Choice:
    if block is not None and not 1 <= block <= 1000000:
        raise ValueError("a block has 1 to 1000000 arcs")
    try:
        return Choice(ENGINES[engine], PRICINGS[pricing], block or 0, FORMS[form], 0)
    except KeyError as error:
        raise ValueError("no such engine, pricing rule or form: %s" % error) from None


def failed(status: int) -> Exception:
    """The exception for a status that isn't an answer."""
    if status == NO_MEMORY:
        return MemoryError("mcf")
    if status == PRICE_OVERFLOW:
        return OverflowError("a price of the flow doesn't fit 64 bits")
    if status == NOT_SHOWN:
        return NotAccepted("the checker rejects the flow")
    return AssertionError("mcf: status %d" % status)


def bytes_of(text: Any) -> bytes:
    """The bytes of any object that holds bytes."""
    return text if isinstance(text, bytes) else memoryview(text).tobytes()


def _written(function: Any, texts: Sequence[bytes], options: Any) -> Tuple[int, bytes]:
    """The status of a call that writes a text, and this text. The call takes texts, each with its
    length, and options."""
    lent = [word for text in texts for word in (text, len(text))]
    size = sum(map(len, texts))
    used = ctypes.c_size_t()
    # The answer to tables repeats them, and has a row for each of their rows.
    room = 4096 + 12 * size
    while True:
        buffer = ctypes.create_string_buffer(room)
        words = (*lent, options, buffer, room, used)
        status = called(function, words, None) if size > LASTING_BYTES else function(*words)
        if status != BUFFER_TOO_SMALL:
            return status, ctypes.string_at(buffer, used.value)
        room = used.value


def solve_text(text: bytes, choice: Choice) -> Tuple[int, bytes]:
    """Solves an instance text, and returns the status and the answer text."""
    status, answer = _written(_lib.mcf_solve, [bytes_of(text)], choice)
    if status > INVALID_INPUT:
        raise failed(status)
    return status, answer


def plan_flow(places: bytes, routes: bytes, options: PlanOptions) -> Tuple[int, bytes]:
    """Plans the flow of two tables, and returns the status and the answer."""
    return _written(_lib.mcf_plan_flow, [places, routes], options)


def plan_pairs(costs: bytes, options: PairOptions) -> Tuple[int, bytes]:
    """Pairs persons with things by a table, and returns the status and the answer."""
    return _written(_lib.mcf_plan_pairs, [costs], options)


def check_text(text: bytes, answer: bytes) -> Verdict:
    """The checker's verdict on an answer text."""
    text, answer = bytes_of(text), bytes_of(answer)
    told = Told()
    status = _lib.mcf_check(text, len(text), answer, len(answer), told)
    if status == NO_MEMORY:
        raise failed(status)
    return Verdict(status == 0, VERDICTS[told.kind], told.number, CODES[told.code])


class Arrays:
    """A problem in arrays, with buffers for its answer: `flow` by arc and `prices` by node."""

    __slots__ = ("problem", "flow", "prices", "told", "_rooms", "_kept", "_solve", "_check")
    problem: Union[FlowProblem, Assignment]
    flow: "array[int]"
    prices: "array[int]"
    _kept: Any
    _solve: Any
    _check: Any

    def solve(self, choice: Choice, check: bool) -> int:
        """Solves the problem and returns the status: FLOW, BLOCKED or INVALID_INPUT. `told` has
        the details. If `check` is true, the checker judges a flow before the call returns it."""
        size = len(self.flow) + 8 * len(self.prices)
        choice.check = check
        words = (self.problem, choice, *self._rooms, self.told)
        status = self._call(self._solve, words, size)
        if status > INVALID_INPUT:
            raise failed(status)
        return int(status)

    def accepted(self) -> Verdict:
        """The checker's verdict on a flow that it judged before the call returned it."""
        return Verdict(True, VERDICTS[0], self.told.number, "")

    def check(self) -> Verdict:
        """The checker's verdict on the flow, the prices and the cost in `told`."""
        status, told = self.judged()
        if status > 1:
            raise failed(status)
        return Verdict(status == 0, VERDICTS[told.kind], told.number, "")

    def judged(self) -> Tuple[int, Told]:
        """The status of the checker's call, and what it tells: the verdict, or the first fault of
        the arrays."""
        told = Told(0, 0, self.told.negative, self.told.low, self.told.high)
        words = (self.problem, *self._rooms, told)
        return int(self._call(self._check, words, len(self.flow) // 16)), told

    def claim(self, flow: Any, prices: Any, cost: int) -> None:
        """Fills the buffers with a flow, prices and the flow's cost, for the checker. The flow and
        the prices are buffers of 8-byte integers, as many as the arrays have."""
        self.flow[:] = array("q", memoryview(flow).cast("B").tobytes())
        self.prices[:] = array("q", memoryview(prices).cast("B").tobytes())
        size = abs(cost)
        self.told = Told(0, 0, cost < 0, size & (2**64 - 1), size >> 64)

    def _call(self, function: Any, words: Tuple[Any, ...], size: int) -> Any:
        return called(function, words, self) if size > LASTING_ARCS else function(*words)

    def _room(self, arcs: int, nodes: int) -> None:
        self.flow = array("q", bytes(8 * arcs))
        self.prices = array("q", bytes(8 * nodes))
        self.told = Told()
        self._rooms = (at(self.flow), arcs, at(self.prices), nodes)


def at(buffer: Any) -> int:
    """The address of a buffer. An empty buffer only needs an address other than 0."""
    if isinstance(buffer, array):
        return int(buffer.buffer_info()[0]) or 8
    if isinstance(buffer, bytes):
        return ctypes.cast(ctypes.c_char_p(buffer), ctypes.c_void_p).value or 8
    return int(buffer.ctypes.data) or 8


class ArcArrays(Arrays):
    """A flow problem: supplies of 8 bytes each, and arcs of 32 bytes each as `struct mcf_arc`."""

    __slots__ = ()

    def __init__(self, supplies: Any, nodes: int, arcs: Any, arc_count: int):
        self._kept = (supplies, arcs)
        self.problem = FlowProblem(at(supplies), nodes, at(arcs), arc_count)
        self._solve, self._check = _lib.mcf_solve_arcs, _lib.mcf_check_arcs
        self._room(arc_count, nodes)

    def solve_from(
        self, flow: "array[int]", prices: "array[int]", choice: Choice, check: bool
    ) -> int:
        """The same as `solve`, from the flow and the prices of the answer to a similar problem."""
        self.flow[:], self.prices[:] = flow, prices
        self._solve = _lib.mcf_solve_arcs_from
        return self.solve(choice, check)

    def ranges(self, arcs: "array[int]") -> Tuple[int, Told, Any]:
        """The status of the call for the ranges of the costs of some arcs, numbered from 1, what it
        tells, and these ranges."""
        told = Told(0, 0, self.told.negative, self.told.low, self.told.high)
        found = (CostRange * len(arcs))()
        shown = ShownFlow(*self._rooms)
        words = (self.problem, shown, told, at(arcs), len(arcs), found, len(arcs))
        return int(self._call(_lib.mcf_cost_ranges, words, LASTING_ARCS + 1)), told, found


class PairArrays(Arrays):
    """An assignment problem: pairs of 16 bytes each as `struct mcf_pair`."""

    __slots__ = ()

    def __init__(self, rows: int, columns: int, pairs: Any, pair_count: int):
        self._kept = pairs
        self.problem = Assignment(rows, columns, at(pairs), pair_count)
        self._solve, self._check = _lib.mcf_solve_pairs, _lib.mcf_check_pairs
        self._room(pair_count, rows + columns)


class Priced:
    """Buffers for the prices of rows and of columns: of a word each for whole costs; for doubles of
    two, the low one, which has no sign, and the high one, in units of 2^(unit - 1074)."""

    __slots__ = ("_prices",)
    # How many words a price has.
    words = 1

    def __init__(self, rows: int, columns: int):
        self._prices = [array("q", bytes(self.words * 8 * size)) for size in (rows, columns)]

    @property
    def row_prices(self) -> List[int]:
        """The prices of rows, or their marks."""
        return self._numbers(self._prices[0])

    @property
    def column_prices(self) -> List[int]:
        """The prices of columns, or their marks."""
        return self._numbers(self._prices[1])

    def _numbers(self, words: "array[int]") -> List[int]:
        if self.words == 1:
            return words.tolist()
        lows = memoryview(words).cast("B").cast("Q")[::2].tolist()
        return [low + (high << 64) for low, high in zip(lows, words[1::2])]


class MatrixArrays(Priced):
    """A matrix of 64-bit integers at an address, with buffers for the column of each row and for
    prices."""

    __slots__ = ("matrix", "column_of", "_rooms", "_kept")

    def __init__(self, address: int, rows: int, columns: int, stride: int, kept: Any):
        length = (rows - 1) * stride + columns if rows else 0
        self.matrix = CostMatrix(address or 8, length, rows, columns, stride)
        self.column_of = array("I", bytes(4 * rows))
        super().__init__(rows, columns)
        self._kept = kept
        rooms = zip((self.column_of, *self._prices), (rows, rows, columns))
        self._rooms = tuple(word for room, size in rooms for word in (at(room), size))

    def assign(self) -> int:
        """Solves the matrix and returns the status: FLOW, BLOCKED, INVALID_INPUT or NOT_SHOWN. The
        library judges what it finds."""
        return self._call(_lib.mcf_assign_matrix, *self._rooms)

    def _call(self, function: Any, *words: Any) -> int:
        lasts = self.matrix.length > LASTING_ARCS
        words = (self.matrix, *words)
        status = called(function, words, self) if lasts else function(*words)
        if status in (NO_MEMORY, BUFFER_TOO_SMALL):
            raise failed(status)
        return int(status)


class DoubleArrays(MatrixArrays):
    """The same for a matrix of doubles."""

    __slots__ = ("scale",)
    words = 2

    def assign(self) -> int:
        self.scale = Scale()
        return self._call(_lib.mcf_assign_doubles, *self._rooms, ctypes.byref(self.scale))


class Costs(NamedTuple):
    """A cost matrix in memory: any buffer of 8-byte numbers that `at` takes, how many of them there
    are, how far apart its rows begin, and whether they are doubles."""

    buffer: Any
    length: int
    rows: int
    columns: int
    stride: int
    are_doubles: bool = False


class TransportArrays(Priced):
    """A cost matrix of 64-bit integers with supplies and demands, and buffers for a plan and for
    prices."""

    __slots__ = ("problem", "told", "plan", "_kept")
    told: Any

    def __init__(self, costs: Costs, supplies: Any, demands: Any):
        rows, columns = costs.rows, costs.columns
        self._kept = (costs, supplies, demands)
        matrix = CostMatrix(at(costs.buffer), costs.length, rows, columns, costs.stride)
        self.problem = TransportProblem(matrix, at(supplies), rows, at(demands), columns)
        self.told = self._nothing_told()
        # An entry is 16 bytes: its row, its column, and its amount.
        self.plan = array("q", bytes(16 * (rows + columns)))
        super().__init__(rows, columns)

    def _nothing_told(self) -> Any:
        return Planned()

    def solve(self) -> int:
        """Solves the problem and returns the status: FLOW, BLOCKED, INVALID_INPUT or NOT_SHOWN. The
        library judges what it finds."""
        return self._call(_lib.mcf_transport_matrix)

    def entries(self) -> List[Tuple[int, int, int]]:
        """The row, the column and the amount of each entry of the plan, in order."""
        rows = memoryview(self.plan).cast("B").cast("I")[: 4 * self.told.used]
        amounts = self.plan[1 : 2 * self.told.used : 2]
        return sorted(zip(rows[::4].tolist(), rows[1::4].tolist(), amounts))

    def _call(self, function: Any) -> int:
        matrix = self.problem.matrix
        rooms = zip(self._prices, (matrix.rows, matrix.columns))
        prices = (word for room, size in rooms for word in (at(room), size))
        words = (self.problem, at(self.plan), len(self.plan) // 2, *prices, self.told)
        lasts = matrix.length > LASTING_ARCS
        status = called(function, words, self) if lasts else function(*words)
        if status in (NO_MEMORY, BUFFER_TOO_SMALL):
            raise failed(status)
        return int(status)


class DoubleTransportArrays(TransportArrays):
    """The same for a matrix of doubles."""

    __slots__ = ()
    words = 2

    def _nothing_told(self) -> Any:
        return PlannedDoubles()

    def solve(self) -> int:
        return self._call(_lib.mcf_transport_doubles)


def marked(marks: Sequence[int]) -> List[int]:
    """The indices of the marks that are 1."""
    return [place for place, mark in enumerate(marks) if mark]
