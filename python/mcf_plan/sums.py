"""Sums of a plan: over its places, its routes or its pairs, by the values of a column."""
import collections
import unicodedata

from .faults import Stop, shown
from .figures import Figure, figure, number_in
from .results import kept
from .roster import PAIR_HEADS
from .words import listed

# Sums by a column: the table of what is summed, the title of the column, and rows of a value and
# its sums, in the order of the table. The first sum is a number of lines, the last one a cost.
Sums = collections.namedtuple("Sums", "table by rows")
# The heads of sums over places and over routes, between the number of lines and the cost.
PLACE_SUMS = ("comes_in", "goes_out", "sends", "takes", "stays", "missing")
ROUTE_SUMS = ("carries",)
ENDS = ("from", "to")


def named(text):
    """A text as names of columns are compared."""
    return unicodedata.normalize("NFC", text).strip().casefold()


def place_of(name, table, sheet):
    """The place of the column of a table that has a name: as its title, or else as its head."""
    places = kept(sheet)
    for titles in ([table.title(title) for title in sheet.titles], sheet.heads):
        found = [place for place in places if named(titles[place]) == named(name)]
        if found:
            return found[0]
    return None


def columns_named(names, tables):
    """The columns with these names, each as the word of its table and its place there. Tables come
    with words and sheets. A name that no table has ends the run."""
    found = {}
    for name in names:
        places = {word: place_of(name, table, sheet) for word, table, sheet in tables}
        here = [(word, place) for word, place in places.items() if place is not None]
        if not here:
            titles = [
                shown(table.title(sheet.titles[place]))
                for _, table, sheet in tables
                for place in kept(sheet)
            ]
            raise Stop(f"--by {name}: there is no such column among {listed(titles, 24)}", 2)
        found.update(dict.fromkeys(here))
    return list(found)


def tables_of(problem):
    """The tables of places and of routes, with their words and sheets."""
    return [
        ("places", problem.place_table, problem.place_sheet),
        ("routes", problem.route_table, problem.route_sheet),
    ]


def plus(one, other):
    """The sum of two numbers, None if one of them is."""
    return None if None in (one, other) else one + other


def added(lines):
    """The sums of lists of numbers by their values, in the order of the lines."""
    found = {}
    for value, numbers in lines:
        before = found.get(value)
        found[value] = [*map(plus, before, numbers)] if before else numbers
    return list(found.items())


def ends_of(route, result):
    """The ends of a route, in the direction in which its amount goes."""
    return (route.head, route.tail) if result.carries < 0 else (route.tail, route.head)


def place_numbers(plan):
    """For each place: the number 1, or 0 for stock that isn't there; its inflow and outflow over
    routes, what it sends and takes, its surplus and shortage, and the cost of its outflow."""
    places = plan.problem.places
    ins, outs, costs = ([0] * (len(places) + 1) for _ in range(3))
    for route, result in zip(plan.problem.routes, plan.routes):
        tail, head = ends_of(route, result)
        outs[tail] += abs(result.carries)
        ins[head] += abs(result.carries)
        costs[tail] = plus(costs[tail], result.cost)
    numbers = []
    for number, (place, result) in enumerate(zip(places, plan.places), 1):
        stays, missing = result.stays, result.missing
        sends, takes = max(place.supply, 0) - stays, max(-place.supply, 0) - missing
        flows = [ins[number], outs[number], sends, takes, stays, missing]
        numbers.append([int(not place.is_quiet), *flows, costs[number]])
    return numbers


def flow_sums(plan, columns):
    """The sums of a plan: over the places by their names, then by further columns."""
    problem = plan.problem
    tables = {one[0]: one for one in tables_of(problem)}
    routes = zip(problem.routes, plan.routes)
    lines = {
        "places": list(zip(problem.places, place_numbers(plan))),
        "routes": [(route, [1, abs(result.carries), result.cost]) for route, result in routes],
    }
    found = []
    heads = ("name", "period") if problem.periods else ("name",)
    shown = [("places", problem.place_sheet.place(head)) for head in heads]
    for word, place in dict.fromkeys([*shown, *columns]):
        _, table, sheet = tables[word]
        values = (table.cell(line.line, line.cells, place) for line, _ in lines[word])
        if sheet.heads[place] == "period":
            values = (line.period if word == "places" else line.departs for line, _ in lines[word])
        if word == "routes" and sheet.heads[place] in ENDS:
            values = end_names(plan, ENDS.index(sheet.heads[place]))
        pairs = zip(values, (numbers for _, numbers in lines[word]))
        found.append(Sums(word, table.title(sheet.titles[place]), added(pairs)))
    return found


def end_names(plan, end):
    """The names of the places from which the routes' amounts go, or to which."""
    places = plan.problem.places
    for route, result in zip(plan.problem.routes, plan.routes):
        yield places[ends_of(route, result)[end] - 1].name


def flow_table(found):
    """The heads and the rows of sums.csv for the sums of a flow."""
    more = ROUTE_SUMS if any(one.table == "routes" for one in found) else ()
    rows, middle = [], (*PLACE_SUMS, *more)
    for table, by, sums in found:
        heads = PLACE_SUMS if table == "places" else ROUTE_SUMS
        for value, (count, *amounts, cost) in sums:
            cells = dict(zip(heads, map(figure, amounts)))
            cells = [cells.get(head, "") for head in middle]
            rows.append([table, by, value, Figure(count), *cells, figure(cost)])
    return ["table", "by", "value", "lines", *middle, "total"], rows


def pair_columns(names, roster):
    """The places of the columns of a list of pairs with these names. A matrix has the columns of
    its pairs."""
    if roster.is_list:
        tables = [("costs", roster.table, roster.sheet)]
        return [place for _, place in columns_named(names, tables)]
    for name in names:
        if named(name) not in PAIR_HEADS:
            raise Stop(f"--by {name}: pairs of a matrix have who, what and cost alone", 2)
    return [PAIR_HEADS.index(named(name)) for name in names]


def pair_sums(roster, columns):
    """The sums of chosen pairs: by things, by persons if one has several, by costs, then by further
    columns. Values without a pair are among them, except for costs."""
    places = dict(zip(PAIR_HEADS, range(3)))
    if roster.is_list:
        places = {head: roster.sheet.place(head) for head in PAIR_HEADS}
    shown = [places["what"], places["cost"], *columns]
    if len({pair.who for pair in roster.pairs}) < len(roster.pairs):
        shown.insert(1, places["who"])
    heads = {place: head for head, place in places.items()}
    return [pairs_by(roster, place, heads.get(place)) for place in dict.fromkeys(shown)]


def pairs_by(roster, place, head):
    """The sums of chosen pairs by the column at a place, which has this head if it is one of
    theirs."""
    table, lines = roster.table, [(pair, [1, number_in(pair.cost)]) for pair in roster.pairs]
    title = table.title(roster.sheet.titles[place]) if roster.is_list else head
    if head == "cost":
        lines.sort(key=lambda line: line[1][1])
        return Sums("pairs", title, added((figure(numbers[1]), numbers) for _, numbers in lines))
    if head:
        values = roster.persons if head == "who" else roster.things
        found = [(getattr(pair, head), numbers) for pair, numbers in lines]
    else:
        cells = {line: table.cell(line, cells, place) for line, cells in roster.sheet.rows}
        values, found = cells.values(), [(cells[int(pair.line)], n) for pair, n in lines]
    return Sums("pairs", title, added([*((value, [0, 0]) for value in values), *found]))


def pair_table(found):
    """The heads and the rows of sums.csv for the sums of pairs."""
    rows = [[one.by, value, *map(figure, numbers)] for one in found for value, numbers in one.rows]
    return ["by", "value", "pairs", "total"], rows
