"""The types of arguments and results, for type checkers."""
from typing import (
    Any,
    Collection,
    Iterable,
    Optional,
    Protocol,
    Sequence,
    SupportsFloat,
    SupportsIndex,
    Tuple,
    TypeVar,
    Union,
)

# Any real number: int, float, Decimal, Fraction, or a numpy number.
Real = Union[SupportsFloat, SupportsIndex]
Number = Union[int, float]
Label = TypeVar("Label")
Amount = TypeVar("Amount", bound=float, covariant=True)
Prices = TypeVar("Prices", covariant=True)
# An arc of whole numbers: its tail and head, an optional lower bound, its capacity and its cost.
WholeArc = Union[
    Tuple[Label, Label, Optional[int], int],
    Tuple[Label, Label, int, Optional[int], int],
]
# A collection of whole numbers, for example a numpy array.
Column = Collection[SupportsIndex]


class Array(Protocol):
    """A numpy array, or an object like one."""

    def __len__(self) -> int:
        """The number of rows."""

    def tolist(self) -> Any:
        """The entries, as nested lists."""


class Matrix(Protocol):
    """An object that numpy can convert to an array."""

    def __array__(self) -> Any:
        """The array."""


class Series(Protocol):
    """Numbers by label, like a pandas Series."""

    @property
    def index(self) -> Any:
        """The labels."""

    def items(self) -> Iterable[Tuple[Any, Any]]:
        """Pairs of a label and its number."""


class Frame(Protocol):
    """A table with a column for each part of an arc, like a pandas DataFrame."""

    @property
    def columns(self) -> Any:
        """The names of the columns."""

    def __getitem__(self, name: Any) -> Any:
        """The column of a name."""


class SparseMatrix(Protocol):
    """A sparse matrix of scipy, or an object like one."""

    @property
    def shape(self) -> Any:
        """The numbers of rows and columns."""

    def tocoo(self) -> Any:
        """The stored entries, as arrays `row`, `col` and `data`."""


Numbers = Union[Sequence[Real], Array]
