"""Groups of rosters: what an answer tells of them, as a table, as lines and on the page."""
import collections

from .answer import cell_at
from .figures import Figure
from .page import Sheet, listed_rows
from .words import listed

# How many members of a group a person or a thing has: the group, whether the one that has them is a
# person or a thing, its name, their number, the least and the most as cells, and whether the number
# is within them.
Count = collections.namedtuple("Count", "group kind name count least most is_kept")
HEADS = ("group", "kind", "name", "count", "least", "most", "kept")
CROSSING = (
    "A minimum-cost flow keeps to groups that have no member in common, or that are one within the"
    " other."
)


def ranges_of(roster):
    """The least and the most of each group, as cells."""
    sheet, found = roster.group_sheet, {}
    for _, cells in sheet.rows:
        name, *ends = (cell_at(cells, sheet.place(head)) for head in ("group", "least", "most"))
        before = found.get(name, ("", ""))
        found[name] = tuple(one or other for one, other in zip(before, ends))
    return found


def counts_of(roster):
    """How many members of each group each person or thing has: of the groups that the plan keeps
    to, and then of those that were left out, where that is outside their range."""
    ranges, found = ranges_of(roster) if roster.group_sheet else {}, []
    for word, is_kept in (("group", True), ("broken", False)):
        for _, name, kind, owner, count in roster.answer.rows[word]:
            found.append(Count(name, kind, owner, count, *ranges[name], is_kept))
    return found


def write_groups(results, roster):
    """Writes groups.csv, if there are groups."""
    if roster.group_sheet:
        results.table("groups", roster.group_table, roster.group_sheet, HEADS, rows_of(roster))


def rows_of(roster):
    """The rows of groups.csv."""
    return [
        [
            *(one.group, one.kind, one.name),
            *(Figure(number) if number else "" for number in (one.count, one.least, one.most)),
            "yes" if one.is_kept else "no",
        ]
        for one in counts_of(roster)
    ]


def idle_lines(roster):
    """A line on the groups without numbers, if there are some."""
    ranges = ranges_of(roster) if roster.group_sheet else {}
    names = [name for name, ends in ranges.items() if not any(ends)]
    return [f"Groups without least and most ask for nothing: {listed(names)}."] if names else []


def left_out_lines(roster):
    """Lines on the groups that were left out."""
    found = [f"{name} (crosses {other})" for _, name, other in roster.answer.rows["crossing"]]
    return [f"Left out, so not kept to by the proof: {listed(found)}. {CROSSING}"] if found else []


def lines_of(roster):
    """Lines on the groups that were left out, and on who breaks them."""
    lines = left_out_lines(roster)
    if lines:
        broken = [one for one in counts_of(roster) if not one.is_kept]
        told = listed([f"{one.group} by {one.name} ({one.count})" for one in broken])
        lines.append(f"Broken in this plan: {told}." if broken else "Nobody breaks them.")
    return lines


def sheets_of(roster):
    """The table of groups on the page, if there are some."""
    rows = [("" if row[-1] == "yes" else "full", row) for row in rows_of(roster)]
    if not rows:
        return []
    rows, note = listed_rows(rows)
    meanings = ("", "who has members of the group", "", "of its members", "", "", "within both")
    return [Sheet("Groups", list(zip(HEADS, meanings)), rows, (), note)]
