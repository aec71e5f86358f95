"""Random problems, and their tables in random notations."""
import collections
from fractions import Fraction

from plain_plans import Place, Policy, Problem, Route

NAMES = ("Mühle", "Ost, Tor 2", 'Werk "A"', "Graz", "x", "0", "Ham\u00adburg", "St. Pölten", "Öd;")

# What problems are like: how many places and routes they have; how great supplies, rooms of steps,
# and rooms of bounds may be; how many have bounds, and how many routes have costs of their own; and
# whether dear routes both ways join the places in turn.
Kind = collections.namedtuple("Kind", "places routes supply room through bounded own joined")
LOOSE = Kind((1, 5), (0, 3), 9, 12, 30, 0.4, 0.4, False)
TIGHT = Kind((2, 5), (6, 0), 12, 4, 9, 0.7, 0.9, True)


class Notation:
    """How tables are written: separator, mark before decimals, quotes, blanks, ends of lines."""

    def __init__(self, rng):
        self.rng = rng
        self.separator, self.mark = rng.choice([(",", "."), (";", ","), (";", "."), ("\t", ",")])
        self.end = rng.choice(["\n", "\r\n", "\r"])
        self.scale = rng.choice([1, 1, 10, 100])
        self.quotes, self.blanks = rng.random() * 0.5, rng.random() < 0.3
        self.says_mark = rng.random() < 0.5

    def number(self, value):
        """A number as a cell: with decimals, a sign, or blanks between thousands, as it comes."""
        rng, size = self.rng, abs(value)
        whole, part = divmod(size, 1)
        text = str(int(whole))
        if len(text) > 3 and rng.random() < 0.5:
            text = f"{int(whole):,}".replace(",", rng.choice(" '\u00a0\u202f"))
        if part:
            text += self.mark + str(int(part * self.scale)).zfill(len(str(self.scale)) - 1)
        if value < 0:
            return rng.choice("--−") + text
        return rng.choice(["", "", "", "+"]) + text

    def plain(self, value):
        """A number without blanks, for the command line."""
        whole, part = divmod(value, 1)
        decimals = str(int(part * self.scale)).zfill(len(str(self.scale)) - 1)
        return f"{int(whole)}{self.mark}{decimals}" if part else str(int(whole))

    def cell(self, text):
        """A cell, between quotes where it has to be, and sometimes otherwise."""
        special = any(c in text for c in (self.separator, '"', "\n", "\r"))
        if special or self.rng.random() < self.quotes:
            text = '"' + text.replace('"', '""') + '"'
        if self.blanks and self.separator != "\t":
            # No blank may follow a closing quote.
            text = f" {text}" if text.endswith('"') else f" {text} "
        return text

    def text(self, heads, rows):
        """A table: its columns in any order, columns of the planner's own, rows without cells, and
        a line above the heads."""
        rng = self.rng
        order = (
            rng.sample(range(len(heads)), len(heads))
            if rng.random() < 0.5
            else [*range(len(heads))]
        )
        titled = [head.upper() if rng.random() < 0.2 else head for head in heads]
        lines = [[titled[k] for k in order], *([row[k] for k in order] for row in rows)]
        if rng.random() < 0.2:
            lines = [line + ["note" if line is lines[0] else "n/a"] for line in lines]
        shown = self.lines(lines)
        if rng.random() < 0.15:
            shown.insert(0, rng.choice(["My tables", "My tables, as of; week 48"]))
        return self.joined(shown)

    def matrix(self, heads, rows):
        """A table whose first line has names."""
        return self.joined(self.lines([heads, *rows]))

    def lines(self, rows):
        """Rows as lines, and a row without cells."""
        shown = [self.separator.join(map(self.cell, row)) for row in rows]
        if self.rng.random() < 0.2:
            shown.insert(self.rng.randint(1, len(shown)), self.separator * self.rng.randint(0, 2))
        return shown

    def joined(self, lines):
        """The text of lines."""
        mark = "\ufeff" if self.rng.random() < 0.2 else ""
        return mark + self.end.join(lines) + (self.end if self.rng.random() < 0.8 else "")


def amount(rng, notation, low, high):
    """An amount, with as many decimals as the notation has."""
    scale = notation.scale if rng.random() < 0.5 else 1
    return Fraction(rng.randint(low * scale, high * scale), scale)


def random_places(rng, notation, count, kind):
    """Places whose supplies balance in most cases."""
    supplies = [amount(rng, notation, -kind.supply, kind.supply) for _ in range(count)]
    if rng.random() < 0.7:
        supplies[-1] -= sum(supplies)
    bounded = rng.random() < kind.bounded
    for name, supply in zip(rng.sample(NAMES, count), supplies):
        bounds = None
        if bounded and rng.random() < 0.6:
            least = amount(rng, notation, 0, 2)
            most = None if rng.random() < 0.4 else least + amount(rng, notation, 0, kind.through)
            bounds = least, most, amount(rng, notation, -2, 3)
        yield Place(name, supply, bounds)


def random_steps(rng, notation, first, kind):
    """Steps of rising cost; the last has no limit in some cases."""
    steps, cost = [], first
    for _ in range(rng.choice([1, 1, 1, 2, 3])):
        steps.append((amount(rng, notation, 0, kind.room), cost))
        cost += amount(rng, notation, 0, 4)
    if rng.random() < 0.15:
        steps[-1] = None, steps[-1][1]
    return tuple(steps)


def random_routes(rng, notation, count, kind):
    """Routes, some with least amounts, steps or both ways."""
    most, most_by_place = kind.routes
    for _ in range(rng.randint(1, most + most_by_place * count)):
        tail, head = rng.randrange(count), rng.randrange(count)
        both = rng.random() < 0.25
        low, has_own = 0 if both else -3, rng.random() < kind.own
        first = amount(rng, notation, low, 9) if has_own else Fraction(3)
        steps = random_steps(rng, notation, first, kind)
        room = sum(most for most, _ in steps if most is not None)
        least = Fraction(0)
        if not both and rng.random() < 0.2:
            least = min(amount(rng, notation, 0, 3), room if steps[-1][0] is not None else 3)
        yield Route(tail, head, least, steps, both)


def with_penalties(rng, notation, places):
    """Places of which most that want something have penalties of their own, and few others."""
    for place in places:
        share = 0.8 if place.supply < 0 else 0.2 if place.supply == 0 else 0.02
        own = amount(rng, notation, 0, 12) if rng.random() < share else None
        yield place._replace(penalty=own)


def random_policy(rng, notation):
    unused, short = rng.random() < 0.4, rng.random() < 0.4
    penalty = amount(rng, notation, 0, 12) if short and rng.random() < 0.5 else None
    return Policy(unused, short, penalty)


def joining_routes(rng, notation, count, kind):
    """Dear routes both ways between places in turn."""
    for head in range(1, count):
        room = amount(rng, notation, kind.supply, 2 * kind.supply)
        step = room, amount(rng, notation, 6, 9)
        yield Route(head - 1, head, Fraction(0), (step,), True)


def random_problem(rng, notation, kind=LOOSE):
    count = rng.randint(*kind.places)
    places = [*random_places(rng, notation, count, kind)]
    routes = [*random_routes(rng, notation, count, kind)]
    if kind.joined:
        routes += joining_routes(rng, notation, count, kind)
    if rng.random() < 0.3:
        places = [*with_penalties(rng, notation, places)]
    return Problem(places, routes, random_policy(rng, notation))


def round_problem(rng, notation):
    """A problem in which routes from the first place to itself may bring all amounts there are: a
    unit that passes there costs less than 0, no limit is named, and no other route has room."""
    count = rng.randint(1, 4)
    places, routes = [], []
    for name in rng.sample(NAMES, count):
        cost = amount(rng, notation, -9, 0 if places else -1)
        bounds = None if places and rng.random() < 0.5 else (Fraction(0), None, cost)
        places.append(Place(name, Fraction(0), bounds))
    for number in range(rng.randint(1, 5)):
        is_round, both = number == 0 or rng.random() < 0.4, rng.random() < 0.3
        ends = (0, 0) if is_round else (rng.randrange(count), rng.randrange(count))
        room = amount(rng, notation, 1, 6) if is_round else Fraction(0)
        step = room, amount(rng, notation, 0 if both else -2, 9)
        routes.append(Route(*ends, Fraction(0), (step,), both))
    return Problem(places, routes, Policy(False, False, None))


def limit(rng, notation, most):
    return notation.number(most) if most is not None else rng.choice(["", "inf", "∞", "INF"])


def place_table(rng, notation, places):
    """The heads and the rows of the table of places."""
    heads, rows = ["name", "supply"], []
    has_bounds = any(place.bounds for place in places)
    has_penalties = any(place.penalty is not None for place in places)
    heads += ["least", "most", "cost"] * has_bounds + ["penalty"] * has_penalties
    for place in places:
        row = [
            place.name,
            notation.number(place.supply) if place.supply or rng.random() < 0.5 else "",
        ]
        if place.bounds:
            least, most, cost = place.bounds
            # Three empty cells would be no bounds.
            row += [notation.number(least), limit(rng, notation, most), notation.number(cost)]
        elif has_bounds:
            row += ["", "", ""]
        if has_penalties:
            row.append("" if place.penalty is None else notation.number(place.penalty))
        rows.append(row)
    return heads, rows


def route_table(rng, notation, places, routes):
    """The heads and the rows of the table of routes."""
    depth = max(len(route.steps) for route in routes)
    heads = ["from", "to", "most", "cost"]
    for number in range(2, depth + 1):
        heads += [f"most {number}", f"cost {number}"]
    has_least, has_both = (any(values) for values in zip(*((r.least, r.both) for r in routes)))
    heads += ["least"] * has_least + ["both"] * has_both
    rows = []
    for route in routes:
        row = [places[route.tail].name, places[route.head].name]
        for most, cost in route.steps:
            row += [limit(rng, notation, most), notation.number(cost)]
        row += ["", ""] * (depth - len(route.steps))
        if has_least:
            row.append(notation.number(route.least) if route.least or rng.random() < 0.5 else "")
        if has_both:
            row.append(
                rng.choice(["yes", "Y", "x", "ja"] if route.both else ["", "no", "0", "Nein"])
            )
        rows.append(row)
    return heads, rows


def tables_of(rng, notation, problem):
    """Both tables, as heads and rows."""
    return (
        place_table(rng, notation, problem.places),
        route_table(rng, notation, problem.places, problem.routes),
    )
