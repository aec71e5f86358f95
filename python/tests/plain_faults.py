"""Faults of cells in plain Python, by what the manual pages of mcf_plan and mcfplan say, for tables
of which some cells are spoiled."""
import re

# Cells that are no numbers, and what is wrong with them.
NO_NUMBERS = {
    "abc": "no number",
    "--5": "no number",
    "1 00": "no number",
    "5 t": "no number",
    "1e3": "exponent",
    "-2E-1": "exponent",
    "9" * 45: "too many digits",
}
NO_LIMITS = {"", "inf", "∞"}
ANSWERS = {"", "yes", "y", "x", "ja", "no", "0", "nein"}


def spoil(rng, tables):
    """Makes one to three cells of tables wrong. The last place keeps a name: without one, its row
    may be one of totals, which isn't read."""
    for _ in range(rng.randint(1, 3)):
        heads, rows = rng.choice(tables)
        column, row = rng.randrange(len(heads)), rng.choice(rows)
        if heads[column] in ("from", "to"):
            row[column] = rng.choice(["", "Nowhere"])
        elif heads[column] == "name":
            name = rng.choice(["", rng.choice(rows)[column]])
            row[column] = name or rows[0][column] * (row is rows[-1])
        elif heads[column] == "both":
            row[column] = "maybe"
        elif heads[column] == "cost" and "from" in heads and rng.random() < 0.3:
            row[column] = ""
        else:
            row[column] = rng.choice(list(NO_NUMBERS))


def cells_of(rows):
    """Each row below the heads, by its line, as cells by their heads."""
    heads, *others = sorted(rows.items())
    for line, cells in others:
        yield line, dict(zip((head.lower() for head in heads[1]), cells))


def place_faults(rows):
    """The faults of a table of places: lines, columns, and what is wrong."""
    names = set()
    for line, cells in cells_of(rows):
        name = cells["name"]
        if not name or name in names:
            yield line, "name", "named twice" if name else "empty name"
        names.add(name)
        for column in ("supply", "least", "most", "cost", "penalty"):
            if cells.get(column) in NO_NUMBERS:
                yield line, column, NO_NUMBERS[cells[column]]


def step_faults(cells):
    """The faults of a row's steps: columns, and what is wrong. The last step is the last that is
    written, or the first."""
    count = sum(re.fullmatch(r"cost( [0-9])?", column) is not None for column in cells)
    ends = ["", *(f" {number}" for number in range(2, count + 1))]
    steps = [(end, cells["most" + end], cells["cost" + end]) for end in ends]
    while len(steps) > 1 and not any(steps[-1][1:]):
        steps.pop()
    was_open = False
    for end, most, cost in steps:
        if was_open:
            yield "most" + end, "after a step without a limit"
        if most in NO_NUMBERS:
            yield "most" + end, NO_NUMBERS[most]
        if not cost or cost in NO_NUMBERS:
            yield "cost" + end, NO_NUMBERS.get(cost, "empty")
        was_open = most.lower() in NO_LIMITS and cost != ""


def route_faults(rows, names):
    """The faults of a table of routes between places with some names."""
    for line, cells in cells_of(rows):
        for column in ("from", "to"):
            if cells[column] not in names or not cells[column]:
                yield line, column, "no such place" if cells[column] else "empty name"
        if cells.get("both", "").lower() not in ANSWERS:
            yield line, "both", "neither yes nor no"
        if cells.get("least") in NO_NUMBERS:
            yield line, "least", NO_NUMBERS[cells["least"]]
        for fault in step_faults(cells):
            yield line, *fault


def cell_faults(places, routes):
    """The faults of both tables."""
    names = {cells["name"] for _, cells in cells_of(places)}
    found = [("places", *fault) for fault in place_faults(places)]
    return found + [("routes", *fault) for fault in route_faults(routes, names)]
