"""Problems over periods in plain Python with fractions, by what the manual page of mcfplan says:
the problem without periods that stands for one, and the rows of an answer as rows of that one."""
import collections
from fractions import Fraction

from plain_plans import Place, Problem, Route, Rows
from random_tables import (
    LOOSE,
    NAMES,
    TIGHT,
    amount,
    joining_routes,
    place_table,
    random_places,
    random_policy,
    random_routes,
    route_table,
    with_penalties,
)

# A kind of problems over periods: how many periods they have, how often what a place may keep has
# no limit, and the kind of their places and routes.
PeriodKind = collections.namedtuple("PeriodKind", "periods open tables")
# In plans of the second kind, routes, places and stores are often full.
ROOMY = PeriodKind((1, 3), 0.5, LOOSE._replace(places=(1, 3), bounded=0.3))
CROWDED = PeriodKind((2, 3), 0.1, TIGHT._replace(places=(2, 3), routes=(3, 0), through=4))
# What may be kept of a stock beside it, if it has a limit: more than any plan keeps.
STOCK_ROOM = Fraction(10) ** 6
PERIODS = ("Jan", "Feb", "KW 48", "2", "März, 2. Hälfte")

# A row of places: the number of its place; the number of the period in which it holds, or None for
# each; what it says of the place; the most and the unit cost of what the place may keep, or None;
# the stock that is there before the first period, and that which is left after the last.
PlaceRow = collections.namedtuple("PlaceRow", "place period says keep first last")
# A row of routes: the number of its period, or None; what it says; after how many periods it
# arrives.
RouteRow = collections.namedtuple("RouteRow", "period says lead")
# What is kept, or sent: the word of its rows, the number of the row of the table, the periods in
# which it begins and ends, and the route of the problem without periods.
Move = collections.namedtuple("Move", "word row begin end route")

# The words of the rows of stores, departures and what goes back: of their figures, of the ranges of
# their costs, and of those of their room.
WAYS = (
    ("keep", "route", "back"),
    ("keep range", "range", "range"),
    ("keep room range", "room range", "room range"),
)


class PeriodProblem:
    """A problem over periods."""

    def __init__(self, names, periods, places, routes, policy):
        self.names, self.periods, self.policy = names, periods, policy
        self.places, self.routes = places, routes

    def times(self):
        """All periods, by their numbers: with -1 before those that are named if there is first
        stock, and with one after them if there is last stock."""
        begin = -1 if any(row.first for row in self.places) else 0
        return range(begin, len(self.periods) + any(row.last for row in self.places))

    def label(self, period):
        """The name of a period."""
        if period < 0:
            return "first stock"
        return self.periods[period] if period < len(self.periods) else "last stock"

    def row_in(self, place, period):
        """The number of the row that holds for a place in a period, or None. That of the first
        period holds for first stock, and that of the last one for last stock."""
        period = min(max(period, 0), len(self.periods) - 1)
        found = (
            number
            for number, row in enumerate(self.places)
            if row.place == place and row.period in (None, period)
        )
        return next(found, None)

    def place_in(self, place, period):
        """A place in a period; it gives and wants nothing if no row holds. A penalty is that of the
        last stock alone if there is some and the place gives something."""
        number = self.row_in(place, period)
        if number is None:
            return Place(self.names[place], Fraction(0), None)
        row = self.places[number]
        if period < 0:
            return Place(row.says.name, row.first, None)
        if period == len(self.periods):
            return Place(row.says.name, -row.last, None, row.says.penalty if row.last else None)
        if period == len(self.periods) - 1 and row.last and row.says.supply > 0:
            return row.says._replace(penalty=None)
        return row.says

    def number(self, place, period):
        """The number of a place in a period, from 0."""
        return (period - self.times()[0]) * len(self.names) + place

    def keeps(self, place, period):
        """What a place may keep after a period: anything, for nothing, of its first stock and for
        its last stock, and otherwise what its row says. None is nothing."""
        row = self.row_in(place, period)
        if period < 0 or period == len(self.periods) - 1:
            return self.stock_most(row, period < 0), Fraction(0)
        return None if row is None else self.places[row].keep

    def stock_most(self, row, is_first):
        """The most of a stock that may be kept. Without a cost below 0 it has no limit, and
        otherwise one that no plan fills."""
        costs = [step[1] for one in self.routes for step in one.says.steps]
        costs += [one.says.bounds[2] for one in self.places if one.says.bounds]
        costs += [one.keep[1] for one in self.places if one.keep]
        if min(costs, default=0) >= 0:
            return None
        if row is None:
            return STOCK_ROOM
        return STOCK_ROOM + (self.places[row].first if is_first else self.places[row].last)

    def stores(self):
        """What each place may keep from each period to the next."""
        for period in self.times()[:-1]:
            for place in range(len(self.names)):
                keep = self.keeps(place, period)
                if keep is not None:
                    ends = self.number(place, period), self.number(place, period + 1)
                    route = Route(*ends, Fraction(0), (keep,), False)
                    yield Move("keep", self.row_told(place, period), period, period + 1, route)

    def departures(self):
        """Each route in each period in which what is sent arrives in time, in each direction."""
        for period in range(len(self.periods)):
            for number, row in enumerate(self.routes):
                arrival = period + row.lead
                if row.period not in (None, period) or arrival >= len(self.periods):
                    continue
                ends = row.says.tail, row.says.head
                ways = [("route", *ends), ("back", *ends[::-1])][: 1 + row.says.both]
                for word, tail, head in ways:
                    tail, head = self.number(tail, period), self.number(head, arrival)
                    route = row.says._replace(tail=tail, head=head, both=False)
                    yield Move(word, number, period, arrival, route)

    def moves(self):
        return [*self.stores(), *self.departures()]

    def late_rows(self):
        """The numbers of the rows of routes whose departures all arrive too late."""
        last = len(self.periods) - 1
        return [
            number for number, row in enumerate(self.routes) if (row.period or 0) + row.lead > last
        ]

    def flat(self):
        """The problem without periods."""
        places = [
            self.place_in(place, period)
            for period in self.times()
            for place in range(len(self.names))
        ]
        return Problem(places, [move.route for move in self.moves()], self.policy)

    # ---- answers; `lines` has the lines of the rows of places, and those of the rows of routes

    def row_told(self, place, period):
        """The number of the row that holds for a place in a period, or else of the first that names
        the place."""
        row = self.row_in(place, period)
        return [each.place for each in self.places].index(place) if row is None else row

    def key(self, move, lines):
        """The cells by which a move is told: word, line, ends, and its periods."""
        ends = [self.names[end % len(self.names)] for end in move.route[:2]]
        line = lines[move.word != "keep"][move.row]
        names = ends[:1] if move.word == "keep" else ends
        return (move.word, str(line), *names, self.label(move.begin), self.label(move.end))

    def flat_ways(self, rows, lines, words):
        """The rows of stores, departures and what goes back, which begin with these words, as rows
        of routes without periods, which begin with the second of them; None if some are of no
        store and no departure."""
        told = collections.defaultdict(list)
        for word, count in dict(zip(words, (1, 2, 2))).items():
            for line, *cells in rows.by_word[word]:
                told[(word, line, *cells[:count], *cells[-2:])].append(cells[count:-2])
        flat, own = [], dict(zip(("keep", "route", "back"), words))
        for number, move in enumerate(self.moves()):
            word, *key = self.key(move, lines)
            found = told[(own[word], *key)]
            if found:
                cells = found.pop(0)
                most = move.route.steps[0][0]
                if own[word] == "keep" and most is not None and most >= STOCK_ROOM:
                    cells[2] = str(most - Fraction(cells[0])) if Fraction(cells[2]) > 0 else "0"
                flat.append([words[1], str(number), "", "", *cells])
        return None if any(told.values()) else flat

    @staticmethod
    def flat_places(rows, word):
        """The rows of places in periods with a word as rows of places without periods, numbered as
        the rows of all places are; None if some are of no place."""
        numbers = {
            (*cells[:2], cells[-1]): str(number)
            for number, cells in enumerate(rows.by_word["place"])
        }
        found = [(numbers.get((*cells[:2], cells[-1])), cells) for cells in rows.by_word[word]]
        if None in dict(found):
            return None
        return [[word, number, *cells[1:-1]] for number, cells in found]

    def has_all_places(self, rows, lines):
        """Whether the rows of places are those of all places in all periods, in order."""
        wanted = [
            [str(lines[0][self.row_told(place, period)]), name, self.label(period)]
            for period in self.times()
            for place, name in enumerate(self.names)
        ]
        return [[*cells[:2], cells[-1]] for cells in rows.by_word["place"]] == wanted

    def flat_plan(self, rows, lines):
        """The rows of a plan as rows of the problem without periods, or None if they aren't those
        of all stores, departures and places in periods, or ranges of these."""
        groups = [self.flat_ways(rows, lines, words) for words in WAYS]
        groups += [self.flat_places(rows, word) for word in ("place", "pass range", "supply range")]
        if None in groups or not self.has_all_places(rows, lines):
            return None
        if len(groups[0]) < len(self.moves()):
            return None
        words = ("answer", "cost", "missing", "supply", "demand")
        groups += [[[word, *cells] for cells in rows.by_word[word]] for word in words]
        return Rows(sum(groups, []))

    @staticmethod
    def flat_bottleneck(rows):
        """The rows of a bottleneck as rows without periods."""
        flat = [["side", *cells] for cells in rows.by_word["side"]]
        flat += [["place", *cells[:-1]] for cells in rows.by_word["place"]]
        for word in ("route", "back"):
            flat += [["route", *cells[:-2]] for cells in rows.by_word[word]]
        for line, name, *cells in rows.by_word["keep"]:
            flat.append(["route", line, name, name, *cells[:-2]])
        return Rows(flat)


# ---- random problems and their tables


def random_keep(rng, notation, kind):
    """What a place may keep: nothing, or so much at some cost."""
    if rng.random() < 0.3:
        return None
    most = None if rng.random() < kind.open else amount(rng, notation, 0, kind.tables.room)
    return most, amount(rng, notation, 0, 3)


def random_place_rows(rng, notation, names, count, kind):
    """The rows of places: one for each period, or one for each of some periods."""
    for place, name in enumerate(names):
        own = [None]
        if rng.random() < 0.7:
            own = sorted(rng.sample(range(count), rng.randint(1, count)))
        for period in own:
            (says,) = random_places(rng, notation, 1, kind.tables)
            supply = amount(rng, notation, -kind.tables.supply, kind.tables.supply)
            first = amount(rng, notation, 0, 5) if rng.random() < 0.3 else Fraction(0)
            last = amount(rng, notation, 0, 3) if rng.random() < 0.2 else Fraction(0)
            yield PlaceRow(
                place,
                period,
                says._replace(name=name, supply=supply),
                random_keep(rng, notation, kind),
                first if period in (None, 0) else Fraction(0),
                last if period in (None, count - 1) else Fraction(0),
            )


def balanced(rng, problem):
    """The problem, whose supplies sum to 0 if a row holds in just one period."""
    total = sum(place.supply for place in problem.flat().places)
    own = [number for number, row in enumerate(problem.places) if row.period is not None]
    if own and rng.random() < 0.8:
        number = rng.choice(own)
        row = problem.places[number]
        says = row.says._replace(supply=row.says.supply - total)
        problem.places[number] = row._replace(says=says)
    return problem


def all_periods(rows, count):
    """Rows that name each period, in the order of their numbers, or None."""
    named = dict.fromkeys(row.period for row in rows if row.period is not None)
    return rows if [*named] == [*range(count)] else None


def random_period_problem(rng, notation, late=0.0, kind=ROOMY):
    """A random problem over periods, whose rows name the periods in order."""
    count = rng.randint(*kind.periods)
    names = rng.sample(NAMES, rng.randint(*kind.tables.places))
    rows = None
    while rows is None:
        rows = all_periods([*random_place_rows(rng, notation, names, count, kind)], count)
    if rng.random() < 0.3:
        own = with_penalties(rng, notation, [row.says for row in rows])
        rows = [row._replace(says=says) for row, says in zip(rows, own)]
    routes, found = [], [*random_routes(rng, notation, len(names), kind.tables)]
    if kind.tables.joined:
        found += joining_routes(rng, notation, len(names), kind.tables)
    for says in found:
        lead = rng.choice([0, 0, 1, 1, 2])
        period = rng.randrange(count) if rng.random() < 0.4 else None
        if (period or 0) + lead >= count and rng.random() >= late:
            lead = count - 1 - (period or 0)
        routes.append(RouteRow(period, says, lead))
    periods = rng.sample(PERIODS, count)
    policy = random_policy(rng, notation)
    return balanced(rng, PeriodProblem(names, periods, rows, routes, policy))


def period_tables(rng, notation, problem):
    """Both tables, as heads and rows."""

    def stock(number):
        return notation.number(number) if number or rng.random() < 0.3 else ""

    heads, rows = place_table(rng, notation, [row.says for row in problem.places])
    for cells, row in zip(rows, problem.places):
        most, cost = row.keep or (None, None)
        cells += [
            "" if row.period is None else problem.periods[row.period],
            "" if most is None else notation.number(most),
            "" if cost is None else notation.number(cost),
            stock(row.first) if row.period in (None, 0) else "",
            stock(row.last) if row.period in (None, len(problem.periods) - 1) else "",
        ]
    heads = [*heads, "period", "keep most", "keep cost", "first stock", "last stock"]
    ends = [Place(name, Fraction(0), None) for name in problem.names]
    route_heads, route_rows = route_table(rng, notation, ends, [row.says for row in problem.routes])
    for cells, row in zip(route_rows, problem.routes):
        cells.append("" if row.period is None else problem.periods[row.period])
        cells.append(str(row.lead) if row.lead or rng.random() < 0.5 else "")
    return (heads, rows), ([*route_heads, "period", "lead"], route_rows)
