"""Scales numbers to whole numbers exactly. A float counts as the decimal that it prints as."""
import math
from fractions import Fraction
from operator import index
from typing import Any, Iterable, Union

Whole = Union[int, Fraction]


def is_float(value: Any) -> bool:
    """Whether a value is a float of Python or of numpy."""
    return isinstance(value, float) or getattr(getattr(value, "dtype", None), "kind", "") == "f"


def refuse_masked(*arrays: Any) -> None:
    """ValueError if an entry of a numpy array is masked: nothing says which number it is."""
    for values in arrays:
        mask: Any = getattr(values, "mask", None)
        if hasattr(mask, "any") and mask.any():
            raise ValueError("an entry is masked: say what it is, as by `filled(numpy.inf)`")


def listed(values: Any) -> Any:
    """A numpy array as a list, in which a float of any width is the decimal that it prints as.
    Other iterables stay as they are."""
    if not hasattr(values, "tolist"):
        return values
    dtype: Any = getattr(values, "dtype", None)
    # Wider floats keep their value, and print it.
    if getattr(dtype, "kind", "") == "f" and dtype.itemsize < 8:
        return values.astype(str).astype(float).tolist()
    return values.tolist()


def exact(value: Any) -> Whole:
    """A number as an int or a Fraction. An exponent of more than three digits is beyond all limits,
    so this doesn't expand it."""
    if type(value) is int:
        return value
    try:
        return index(value)
    except TypeError:
        pass
    if isinstance(value, (str, bytes, bytearray)):
        raise TypeError("a number is no text, as %r is" % (value,))
    if isinstance(value, Fraction):
        number = value
    else:
        text = repr(float(value)) if isinstance(value, float) else str(value)
        try:
            number = Fraction(
                text if len(text.upper().partition("E")[2].lstrip("+-0")) <= 3 else ""
            )
        except ValueError:
            raise ValueError("%r is no number within reach" % (value,)) from None
    return number.numerator if number.denominator == 1 else number


def scale_of(values: Iterable[Whole]) -> int:
    """The least factor that makes all values whole."""
    scale = 1
    for value in values:
        if type(value) is not int:
            scale = scale // math.gcd(scale, value.denominator) * value.denominator
    return scale


def unscaled(value: Any, scale: int) -> Union[int, float]:
    """The original value of a scaled number."""
    if scale == 1 and type(value) is int:
        return value
    number = Fraction(value, scale)
    if number.denominator == 1:
        return number.numerator
    try:
        return float(number)
    except OverflowError:
        return math.inf if number > 0 else -math.inf


def said(value: Any) -> str:
    """A number or a label as text for a message. Large powers of ten become `10^..`, and long text
    is shortened."""
    if type(value) is int and abs(value) >= 10**15:
        digits = int(math.log10(abs(value)))
        for exponent in (digits, digits + 1):
            if value == 10**exponent:
                return "10^%d" % exponent
        if digits >= 20:
            return "about %s10^%d" % ("-" if value < 0 else "", digits)
    text = repr(value)
    return text if len(text) <= 60 else text[:57] + "..."


def limited(value: int, limit: int) -> int:
    """The number, or one just beyond the limit instead: it fits 64 bits, and the library refuses it
    for the same reason."""
    return value if -limit <= value <= limit else (limit + 1 if value > 0 else -limit - 1)
