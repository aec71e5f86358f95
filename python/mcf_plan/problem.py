"""The places and the routes of an answer, from the rows of its tables and from its results."""
import argparse
import collections
import itertools

from .answer import cell_at
from .faults import At, shown
from .figures import NO_LIMIT, Figure, coordinate_of, number_in, said, value_of

SPOT_HEADS = ("x", "y")
ENDS = ("from", "to")
BOUND_HEADS = ("least", "most", "cost")
NO = ("", "no", "n", "0", "false", "nein")
STAYS, MISSING, THROUGH, KEPT = "(stays)", "(missing)", "(through)", "(kept)"
# The options of a plan that is read again.
NO_OPTIONS = argparse.Namespace(unused=False, short=False, penalty=None, ranges=False)

# The least and the most flow through a place, and the cost of each unit there. A most of None means
# no limit.
Bounds = collections.namedtuple("Bounds", "least most cost")
# A part of a route's flow: at most `most` units at this cost each. Costs rise from step to step.
Step = collections.namedtuple("Step", "most cost")
# The result of a route, or of the flow through a place: the flow and its cost; the residual
# capacity (None without a limit); how much one more unit of capacity saves, and whether that is
# exact; what it costs at least to carry one more unit (None if it is full). The result of a place:
# what one more unit costs there, the group in which that is exact, how much stays there and is
# missing, and the RouteResult of the flow through it, if it has bounds.
RouteResult = collections.namedtuple("RouteResult", "carries cost free saves is_exact dearer")
PlaceResult = collections.namedtuple("PlaceResult", "costs group stays missing through")
# From what to what the cost of a route's first step may change while the plan stays least; None
# means no limit.
CostRange = collections.namedtuple("CostRange", "low high")


class Place(
    collections.namedtuple(
        "Place",
        "name supply spot bounds penalty line cells period is_stock",
        defaults=("", False),
    )
):
    """A place, in a period if there are periods. `bounds` limits the flow through it (its inflow
    and its supply) or is None; `penalty` is the cost of each unit that is missing there, or None if
    that of all places holds; `line` and `cells` are those of its table. `is_stock` says that its
    supply is its stock before the first period or after the last."""

    @property
    def label(self):
        """The name, and the period if there are periods."""
        return f"{self.name} ({self.period})" if self.period else self.name

    @property
    def is_quiet(self):
        """Whether it is about stock that isn't there, so that nothing is told of it."""
        return self.is_stock and not self.supply


class Route(
    collections.namedtuple(
        "Route",
        "tail head least steps both line cells departs arrives is_back",
        defaults=("", "", False),
    )
):
    """A route between two places, which are numbered from 1. `both` allows both directions. `line`
    and `cells` are those of its table. If there are periods, it departs in one and arrives in one,
    and may go back on the route of its line."""

    @property
    def most(self):
        """The capacity of the route. None means no limit."""
        return None if self.steps[-1].most is None else sum(step.most for step in self.steps)


class Problem:
    """The places and the routes of an answer. The cells of their numbers are numbers, since
    `mcfplan` has read them."""

    def __init__(self, answer, tables, options):
        self.answer, self.options, self.mark = answer, options, answer.mark
        self.place_table, self.route_table = tables
        self.place_sheet, self.route_sheet = answer.sheets["places"], answer.sheets["routes"]
        self.supply, self.demand = (number_in(answer.one(word)) for word in ("supply", "demand"))
        self.unused, self.short = options.unused, options.short
        self.penalty = value_of(options.penalty, self.mark) if options.penalty else None
        # The named periods; with those of first and last stock; and what places may keep from one
        # of these to the next, as routes.
        self.periods, self.times, self.stores = [], [], []
        self.places = self.all_places()
        self.numbers = {
            (place.name, place.period): number for number, place in enumerate(self.places, 1)
        }
        self.routes = self.all_routes()

    def all_places(self):
        """The places."""
        return [self.place(*row) for row in self.place_sheet.rows]

    def all_routes(self):
        """The routes."""
        sheet, found = self.route_sheet, []
        for line, cells in sheet.rows:
            ends = (self.numbers[cell_at(cells, sheet.place(head)), ""] for head in ENDS)
            both = cell_at(cells, sheet.place("both")).casefold() not in NO
            found.append(self.route(*ends, both, line, cells))
        return found

    def said(self, value):
        """A value in a sentence."""
        return said(value, self.mark)

    def number(self, sheet, cells, head):
        """The number under a head, 0 if the cell is empty."""
        return value_of(cell_at(cells, sheet.place(head)) or "0", self.mark)

    def limit(self, sheet, cells, head):
        """The number under a head, or None if it says that there is no limit."""
        cell = cell_at(cells, sheet.place(head))
        return None if cell.casefold() in NO_LIMIT else value_of(cell, self.mark)

    def place(self, line, cells):
        """The place of a row."""
        sheet = self.place_sheet
        bounds = None
        if any(cell_at(cells, sheet.place(head)) for head in BOUND_HEADS):
            most = self.limit(sheet, cells, "most")
            least, cost = (self.number(sheet, cells, head) for head in ("least", "cost"))
            bounds = Bounds(least, most, cost)
        return Place(
            cell_at(cells, sheet.place("name")),
            self.number(sheet, cells, "supply"),
            self.spot(cells),
            bounds,
            self.own_penalty(cells),
            line,
            cells,
        )

    def own_penalty(self, cells):
        """The penalty of a place, None if its cell is empty."""
        cell = cell_at(cells, self.place_sheet.place("penalty"))
        return value_of(cell, self.mark) if cell else None

    def names_penalty(self):
        """Whether a penalty is named, for all places or for some."""
        return self.penalty is not None or any(one.penalty is not None for one in self.places)

    def penalty_of(self, place):
        """The cost of each unit that is missing at a place, or None if none is named."""
        return self.penalty if place.penalty is None else place.penalty

    def spot(self, cells):
        """The position of a place, if the table has positions."""
        sheet = self.place_sheet
        if not sheet.has(SPOT_HEADS):
            return None
        return tuple(coordinate_of(cell_at(cells, sheet.place(head))) for head in SPOT_HEADS)

    def route(self, tail, head, both, line, cells):
        """The route of a row between two places."""
        sheet = self.route_sheet
        least, steps = self.number(sheet, cells, "least"), self.steps(sheet, cells)
        return Route(tail, head, least, steps, both, line, cells)

    def steps(self, sheet, cells):
        """The steps of a route: the first one, and those with filled cells."""
        found, heads = [], ("most", "cost")
        while not found or any(cell_at(cells, sheet.place(head)) for head in heads):
            found.append(
                Step(self.limit(sheet, cells, heads[0]), self.number(sheet, cells, heads[1]))
            )
            heads = tuple(f"{head} {len(found) + 1}" for head in ("most", "cost"))
        return tuple(found)

    def is_quiet(self, store):
        """Whether what a place may keep is stock that isn't there."""
        return any(self.places[end - 1].is_quiet for end in store[:2])

    def is_stock(self, store):
        """Whether what a place may keep is its first or its last stock."""
        return any(self.places[end - 1].is_stock for end in store[:2])

    def ends(self, route):
        """The names of a route's ends, with their periods if there are some."""
        return self.places[route.tail - 1].label, self.places[route.head - 1].label

    def route_results(self):
        """The results of the routes of a plan."""
        rows = self.answer.rows
        backs = {cells[0]: route_result(cells[3:]) for cells in rows["back"]}
        return [both_ways(route_result(cells[3:]), backs.get(cells[0])) for cells in rows["route"]]

    def store_results(self):
        """The results of what places keep in a plan."""
        return []

    def route_keys(self):
        """The lines of the routes, the names of their ends, and the periods in which they depart,
        which are empty if there are none."""
        ends = [(self.places[one.tail - 1], self.places[one.head - 1]) for one in self.routes]
        return [
            (str(one.line), tail.name, head.name, one.departs)
            for one, (tail, head) in zip(self.routes, ends)
        ]

    def store_keys(self):
        """The lines and the names of places that keep something, and the periods after which."""
        return [(str(one.line), self.places[one.tail - 1].name, one.departs) for one in self.stores]

    def place_keys(self):
        """The lines and the names of the places, and their periods."""
        return [(str(place.line), place.name, place.period) for place in self.places]

    def numbers_told(self, word, keys, count):
        """So many numbers that rows of the answer tell of each key, or None for a key that they
        don't. In a row they stand before the period, which the answer leaves out if there are no
        periods."""
        rows = []
        for cells in self.answer.rows[word]:
            begin = len(keys[0]) - 1
            end = begin + count
            key = (*cells[:begin], *(cells[end : end + 1] or [""]))
            rows.append((key, [*map(number_in, cells[begin:end])]))
        return told_in_turn(rows, keys)


class Plan:
    """The results of a plan for each route and each place."""

    def __init__(self, problem):
        self.problem, self.cost = problem, number_in(problem.answer.one("cost"))
        self.routes, self.stores = problem.route_results(), problem.store_results()
        groups, rows = {}, problem.answer.rows["place"]
        # A place of which nothing is told takes no number of a group.
        self.places = [
            place_result(cells[2:], {} if place.is_quiet else groups)
            for place, cells in zip(problem.places, rows)
        ]
        self.has_ranges = problem.options.ranges
        self.has_supplies = self.has_ranges and (
            problem.names_penalty() if problem.short else problem.unused
        )
        # Each range has its numbers, or is None if it isn't told: from what to what a cost may
        # change; for how many units one more unit of room saves what it saves; and what further
        # units of a supply or a demand cost, and how many.
        told = problem.numbers_told
        routes, stores, places = problem.route_keys(), problem.store_keys(), problem.place_keys()
        self.ranges = cost_ranges(problem.routes, told("range", routes, 2))
        self.store_ranges = cost_ranges(problem.stores, told("keep range", stores, 2))
        self.rooms = told("room range", routes, 1)
        self.store_rooms = told("keep room range", stores, 1)
        self.passes = told("pass range", places, 1)
        self.supplies = told("supply range", places, 2)

    def is_full(self, number):
        """Whether a route carries its whole capacity, and more than 0."""
        return self.routes[number].free == 0 and self.routes[number].carries != 0

    def unmet(self, is_supply):
        """The places where something stays (or is missing), with the amounts."""
        found = zip(self.problem.places, self.places)
        amounts = ((place, one.stays if is_supply else one.missing) for place, one in found)
        return [(place, amount) for place, amount in amounts if amount]

    def penalties(self):
        """The cost of what is missing."""
        found = self.unmet(is_supply=False)
        return sum(amount * (self.problem.penalty_of(place) or 0) for place, amount in found)


def check_spots(sheet, name, faults):
    """Notes the positions of places that are no numbers, if the table has positions."""
    for (line, cells), head in itertools.product(sheet.rows, SPOT_HEADS):
        cell = cell_at(cells, sheet.place(head))
        if sheet.has(SPOT_HEADS) and coordinate_of(cell) is None:
            text = (
                f"{shown(cell)} is no number (either all places have x and y, or leave the columns"
                " out)"
            )
            faults.add(At(name, line, head), "no spot", text, cell)


def told_in_turn(rows, keys):
    """What rows of an answer, which are pairs of a key and a value, tell of keys; None for a key
    that they don't. A key that stands several times, as that of routes of one row of a matrix
    between the same places may, has its values in turn."""
    found = collections.defaultdict(collections.deque)
    for key, value in rows:
        found[key].append(value)
    return [found[key].popleft() if found[key] else None for key in keys]


def route_result(cells):
    """The results of a route, from cells of an answer."""
    return RouteResult(*map(number_in, cells[:4]), cells[4] == "yes", number_in(cells[5]))


def cost_ranges(routes, changes):
    """The ranges of the costs of routes, by how much each may fall and rise; None for one of which
    that isn't told."""
    return [told and cost_range(route.steps[0].cost, *told) for route, told in zip(routes, changes)]


def cost_range(cost, down, up):
    """The range of a cost, by how much it may fall and rise."""
    return CostRange(None if down is None else cost - down, None if up is None else cost + up)


def both_ways(there, back):
    """The results of a route both ways whose two directions an answer tells one by one. One more
    unit goes the way that is used, or, if none is, the cheaper way."""
    if not back:
        return there
    carries = there.carries - back.carries
    last = max((there, back), key=lambda one: one.saves or 0)
    used = [there] * (carries >= 0) + [back] * (carries <= 0)
    return RouteResult(
        carries,
        None if None in (there.cost, back.cost) else there.cost + back.cost,
        None if there.free is None else there.free + there.carries - abs(carries),
        last.saves,
        last.is_exact,
        min((one.dearer for one in used if one.dearer is not None), default=None),
    )


def place_result(cells, groups):
    """The results of a place. Groups get numbers in the order in which places show them."""
    stays, missing, costs = map(number_in, cells[:3])
    group = Figure(groups.setdefault(cells[3], len(groups) + 1)) if cells[3] else ""
    through = route_result(cells[4:]) if cells[4] else None
    return PlaceResult(costs, group, stays, missing, through)
