"""Numbers: exact values, and how tables, results and sentences write them."""
import decimal
import math
import re

# Enough digits for any sum of numbers that mcfplan reads; a value that isn't exact is an error.
decimal.setcontext(decimal.Context(prec=20_000, traps=[decimal.InvalidOperation, decimal.Inexact]))
MINUSES = "-\u2010\u2011\u2012\u2013\u2212\ufe63\uff0d"
SPOT = re.compile(r"[+-]?([0-9]+\.?[0-9]*|\.[0-9]+)([eE][+-]?[0-9]+)?")
NO_LIMIT = ("", "inf", "∞")
# A number with one mark and three digits after it: the mark may separate thousands or decimals.
EITHER = re.compile("[^0-9,.]*[1-9][0-9]{0,2}[.,][0-9]{3}")
# Other numbers: perhaps with a mark or blanks between thousands, and with one before decimals.
BETWEEN = r"([.,])[0-9]{3}(?:\1[0-9]{3})*|(?:[ '_\u00a0\u2009\u202f\u2019][0-9]{3})+"
MARKED = re.compile(f"[{MINUSES}+]?(?:[0-9]*|[0-9]{{1,3}}(?:{BETWEEN}))(?:([.,])[0-9]+)?")


class Figure(str):
    """A number as text, with a point before its decimals: from a workbook, or of a result."""


def mark_in(cell):
    """The mark before decimals that a cell shows, or None."""
    found = None if EITHER.fullmatch(cell) else MARKED.fullmatch(cell)
    thousands, mark = found.groups() if found else (None, None)
    return None if thousands == mark else mark or ".,".strip(thousands)


def value_of(cell, mark):
    """The value of a cell that is a number with this mark before decimals: its sign, its digits and
    the mark count, and nothing else."""
    if cell.isdecimal():
        return decimal.Decimal(cell)
    digits = "".join(c for c in cell if c in "0123456789" or c == mark).replace(mark, ".")
    return decimal.Decimal(("-" if cell[0] in MINUSES else "") + digits)


def number_in(cell):
    """The value of a cell of an answer, or None if it is empty."""
    return decimal.Decimal(cell) if cell else None


def figure(value):
    """A value as text, without trailing zeros; empty if it is None."""
    if value is None:
        return ""
    return Figure(format(decimal.Decimal(value).normalize(), "f") if value else "0")


def said(value, mark):
    """A value in a sentence, with this mark before decimals."""
    return figure(value).replace(".", mark)


def grouped(number, mark):
    """A figure with narrow spaces between thousands, for a page."""
    whole, point, decimals = str(number).partition(".")
    sign, digits = ("\u2212", whole[1:]) if whole.startswith("-") else ("", whole)
    if len(digits) > 4:
        digits = re.sub(r"(?<=\d)(?=(?:\d{3})+$)", "\u202f", digits)
    return sign + digits + (mark if point else "") + decimals


def coordinate_of(cell):
    """A coordinate of a place, or None if a cell is none."""
    text = "-" + cell[1:] if cell[:1] in tuple(MINUSES) else cell
    text = text if "." in text else text.replace(",", ".")
    number = float(text) if SPOT.fullmatch(text) else math.nan
    return number if math.isfinite(number) else None
