"""The sums of a plan on its page."""
from .figures import figure
from .page import Sheet, listed_rows
from .sums import plus

PLACE_COLUMNS = [
    ("comes in", "over routes"),
    ("goes out", "over routes"),
    ("sends", "of its supply"),
    ("takes", "of its demand"),
    ("stays", "of its supply"),
    ("missing", "of its demand"),
]
TOTAL_COLUMN = ("total", "cost of what goes out")
ROUTE_COLUMNS = [
    ("lines", "so many routes"),
    ("carries", "in this plan"),
    ("total", "cost of what they carry"),
]
PAIR_COLUMNS = [("pairs", "so many"), ("total", "their cost")]


def flow_sheet(plan, sums):
    """The table of sums over places or over routes. What may stay, and what may be missing, is a
    column if the options allow it; the number of places is one if some have the same value."""
    if sums.table == "routes":
        return sums_sheet(sums, ROUTE_COLUMNS, range(3))
    problem, is_one = plan.problem, all(numbers[0] == 1 for _, numbers in sums.rows)
    chosen = [0] * (not is_one) + [1, 2, 3, 4] + [5] * problem.unused + [6] * problem.short + [7]
    columns = [("lines", "so many places"), *PLACE_COLUMNS, TOTAL_COLUMN]
    return sums_sheet(sums, [columns[place] for place in chosen], chosen)


def pair_sheet(sums):
    """The table of sums over pairs."""
    return sums_sheet(sums, PAIR_COLUMNS, range(2))


def sums_sheet(sums, columns, chosen):
    """The table of sums, with some of their numbers as columns."""
    rows, totals = [], [0] * len(chosen)
    for value, numbers in sums.rows:
        amounts, numbers = numbers[1:-1], [numbers[place] for place in chosen]
        totals = [*map(plus, totals, numbers)]
        kind = "idle" if amounts and not any(amounts) else ""
        rows.append((kind, [value, *map(figure, numbers)]))
    rows, note = listed_rows(rows)
    title, totals = f"Sums of {sums.table} by {sums.by}", ["", *map(figure, totals)]
    return Sheet(title, [(sums.by, ""), *columns], rows, totals, note)
