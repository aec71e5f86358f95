"""Plans from tables, as `mcfplan` makes them, from bytes to bytes."""
import csv
import io
from typing import List, NamedTuple, Optional, Sequence, Union

from . import _library

KINDS = ("plan", "no plan", "faults")
MARKS = (None, ".", ",")
EACH = (None, "who", "what", "both")
# What happens to groups that cross an earlier one, by their numbers.
CROSSING = ("refuse", "check")


class PlanAnswer(NamedTuple):
    """The answer to tables.

    Attributes
    ----------
    kind : {'plan', 'no plan', 'faults'}
    text : bytes
        The answer as the text of a table in UTF-8, byte for byte that of `mcfplan`, whose manual
        page describes the rows.
    """

    kind: str
    text: bytes

    def rows(self) -> List[List[str]]:
        """The rows of the answer. The first cell of each says what it is."""
        return list(csv.reader(io.StringIO(self.text.decode(), newline=""), strict=True))


def plan_flow(
    places: Union[bytes, str],
    routes: Union[bytes, str],
    *,
    decimal: Optional[str] = None,
    unused: bool = False,
    short: bool = False,
    penalty: Optional[Union[int, str]] = None,
    ranges: bool = False,
    fill_down: Sequence[str] = (),
) -> PlanAnswer:
    """Plans the flow between places at the least cost, from the texts of two tables.

    Parameters
    ----------
    places : bytes or str
        The text of a table with the columns name and supply, below 0 for a demand, and optionally
        least, most and cost of what passes through a place. Bytes are in UTF-8.
    routes : bytes or str
        The text of a table with the columns from, to, most and cost, and optionally least, both,
        most 2, cost 2 and so on. An empty most is no limit.
    decimal : {None, '.', ','}
        The mark before decimals; None for the one that the tables show.
    unused : bool
        Supplies may stay where they are.
    short : bool
        Demands may be missing.
    penalty : int or str, optional
        The cost of each missing unit, with a point before decimals unless `decimal` is ','.
        '1.500', which may be 1500, is no number unless `decimal` names a mark. Without a penalty,
        as little as possible is missing.
    ranges : bool
        Whether to tell from what to what the cost of each route may change while the plan stays
        least, which takes two searches for each route.
    fill_down : sequence of str
        The heads of columns in which an empty cell takes the one above.

    Returns
    -------
    PlanAnswer
        A plan that no plan in any units undercuts, or places that show why there is none, or all
        faults of the tables.

    Raises
    ------
    ValueError
        `decimal` is no mark, `penalty` is no number, or a head of `fill_down` isn't one line.
    MemoryError
        Memory runs out.

    Examples
    --------
    >>> places, routes = "name,supply\\nMill,3\\nTown,-3", "from,to,most,cost\\nMill,Town,5,1.5"
    >>> plan_flow(places, routes).rows()[:2]
    [['answer', 'plan'], ['cost', '4.5']]
    """
    if decimal not in MARKS:
        raise ValueError("the decimal mark is '.' or ',', or None")
    named = b"" if penalty is None else str(penalty).encode()
    if penalty is not None and not named:
        raise ValueError("the penalty is empty")
    mark = MARKS.index(decimal)
    heads = _lines_of(fill_down)
    numbers = mark, unused, short, ranges
    options = _library.PlanOptions(*numbers, named, len(named), heads, len(heads))
    status, text = _library.plan_flow(_text_of(places), _text_of(routes), options)
    if status == _library.INVALID_CHOICE:
        raise ValueError("the penalty is no number: %r" % penalty)
    if status > _library.INVALID_INPUT:
        raise _library.failed(status)
    return PlanAnswer(KINDS[status], text)


def plan_pairs(
    costs: Union[bytes, str],
    *,
    decimal: Optional[str] = None,
    each: Optional[str] = None,
    maximise: bool = False,
    groups: Union[bytes, str, None] = None,
    crossing: str = "refuse",
    fill_down: Sequence[str] = (),
) -> PlanAnswer:
    """Pairs persons with things at the least cost, from the text of a table.

    Parameters
    ----------
    costs : bytes or str
        The text of a list with the columns who, what and cost, and optionally takes and needs; or
        of a matrix with a person in each row and a thing in each column, and optionally a column
        takes and a row needs. An empty cell, x or a hyphen for a cost forbids the pair. Bytes are
        in UTF-8.
    decimal : {None, '.', ','}
        The mark before decimals; None for the one that the table shows.
    each : {None, 'who', 'what', 'both'}
        Who gets just one, where no cell says how many: each person, each thing, or both. None is
        each thing if the table has a number in takes or needs, and otherwise each person.
    maximise : bool
        Costs are values, and the pairs are worth as much as possible.
    groups : bytes or str, optional
        The text of a table with the columns group, who or what, and optionally least and most: each
        row puts a person or a thing into a group. Each thing gets so many persons of a group, or
        each person so many things. Without this text, there are no groups.
    crossing : {'refuse', 'check'}
        Groups that cross an earlier one, that is, have some of its members and not all, are faults;
        or they are left out, and the answer says who breaks them.
    fill_down : sequence of str
        The heads of columns in which an empty cell takes the one above.

    Returns
    -------
    PlanAnswer
        A choice of pairs that none undercuts, or persons and things that show why there is none, or
        all faults of the tables.

    Raises
    ------
    ValueError
        `decimal` is no mark, `each` or `crossing` is none of these words, `groups` is empty, or a
        head of `fill_down` isn't one line.
    MemoryError
        Memory runs out.

    Examples
    --------
    >>> plan_pairs(",day,night\\nAda,1,2.5\\nBen,3,3.5").rows()[:2]
    [['answer', 'plan'], ['cost', '4.5']]
    """
    if decimal not in MARKS:
        raise ValueError("the decimal mark is '.' or ',', or None")
    if each not in EACH:
        raise ValueError("each is 'who', 'what', 'both' or None, not %r" % each)
    if crossing not in CROSSING:
        raise ValueError("crossing is 'refuse' or 'check', not %r" % crossing)
    named = b"" if groups is None else _text_of(groups)
    if groups is not None and not named:
        raise ValueError("the table of groups is empty")
    numbers = MARKS.index(decimal), EACH.index(each), maximise, CROSSING.index(crossing)
    heads = _lines_of(fill_down)
    options = _library.PairOptions(*numbers, named, len(named), heads, len(heads))
    status, text = _library.plan_pairs(_text_of(costs), options)
    if status > _library.INVALID_INPUT:
        raise _library.failed(status)
    return PlanAnswer(KINDS[status], text)


def _lines_of(heads: Sequence[str]) -> bytes:
    """The bytes of a text with a head in each line."""
    if isinstance(heads, str) or any("\n" in head or not head for head in heads):
        raise ValueError("fill_down is a sequence of heads, each one line, not %r" % (heads,))
    return "\n".join(heads).encode()


def _text_of(table: Union[bytes, str]) -> bytes:
    """The bytes of a table."""
    return table.encode() if isinstance(table, str) else _library.bytes_of(table)
