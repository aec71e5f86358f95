"""Plans in plain Python with fractions, by what the manual page of mcfplan says: the least cost of
a problem, whether an answer's rows say a plan or a bottleneck, and what figures of a plan say."""
import collections
import itertools
from fractions import Fraction

# A place: its supply, the least, the most and the unit cost of what passes through it, or None, and
# the cost of each unit that is missing there, if it has one of its own.
Place = collections.namedtuple("Place", "name supply bounds penalty", defaults=[None])
# A route: its ends by number from 0, its least amount, its steps as pairs of most and unit cost (a
# most of None is no limit), and whether it is used both ways.
Route = collections.namedtuple("Route", "tail head least steps both")
# Whether supplies may stay, whether demands may be missing, and the cost of each missing unit at
# places that have none of their own.
Policy = collections.namedtuple("Policy", "unused short penalty")
# An arc, the row of a plan that tells what more room there saves (a word, a number from 0), and the
# way of which it is a step: such a row, and 1 if the way goes back, or 0.
Arc = collections.namedtuple("Arc", "tail head low cap cost row way", defaults=[None, None])

# More than any plan of a random problem carries, and more than any costs.
WIDE, GREAT = Fraction(10) ** 9, Fraction(10) ** 30


class Problem:
    """A problem as a network of arcs."""

    def __init__(self, places, routes, policy):
        self.places, self.routes, self.policy = places, routes, policy

    def has_fault(self):
        """Whether a route has no limit, and a cost is below 0; or a place that gives has a penalty;
        or one that wants something has none where others have one."""
        return self.earns_without_end() or any(map(self.has_wrong_penalty, self.places))

    def has_wrong_penalty(self, place):
        """Whether a place gives and has a penalty, or wants something and lacks one."""
        if place.supply > 0:
            return place.penalty is not None
        is_needed = self.policy.short and any(one.penalty is not None for one in self.places)
        return place.supply < 0 and is_needed and self.penalty_of(place) is None

    def penalty_of(self, place):
        """The cost of each unit that is missing at a place, or None if none is named."""
        return self.policy.penalty if place.penalty is None else place.penalty

    def names_penalty(self):
        """Whether a penalty is named, for all places or for some."""
        return any(self.penalty_of(place) is not None for place in self.places)

    def penalties(self, rows):
        """The cost of what rows tell to be missing."""
        told = zip(self.places, rows.by_word["place"])
        return sum((self.penalty_of(place) or 0) * Fraction(cells[3]) for place, cells in told)

    def earns_without_end(self):
        """Whether a route has no limit, and a cost is below 0."""
        costs = [step[1] for route in self.routes for step in route.steps]
        costs += [place.bounds[2] for place in self.places if place.bounds]
        open_routes = any(route.steps[-1][0] is None for route in self.routes)
        return open_routes and any(cost < 0 for cost in costs)

    def is_bounded(self, route):
        """Whether what passes through an end of the route has bounds."""
        return any(self.places[end].bounds for end in (route.tail, route.head))

    def entry(self, place):
        return ("in", place)

    def exit(self, place):
        return ("out", place) if self.places[place].bounds else ("in", place)

    def home(self, place):
        """Where a unit more of a place's supply comes in, or of its demand goes out."""
        return self.entry(place) if self.places[place].supply > 0 else self.exit(place)

    def steps_of(self, route, least):
        """The steps of a route as bounds of arcs. The least amount fills one after the other."""
        for number, (most, cost) in enumerate(route.steps):
            is_last = number == len(route.steps) - 1
            low = least if is_last else min(least, most)
            least = max(Fraction(0), least - low)
            yield low, WIDE if most is None else most, cost

    def route_arcs(self):
        """The arcs of routes: each step, in each direction."""
        for number, route in enumerate(self.routes):
            ways = [("route", route.tail, route.head, route.least)]
            if route.both:
                word = "back" if self.is_bounded(route) else "route"
                ways.append((word, route.head, route.tail, Fraction(0)))
            for is_back, (word, tail, head, least) in enumerate(ways):
                *steps, last = self.steps_of(route, least)
                row, way = (word, number), (word, number, is_back)
                for step in steps:
                    yield Arc(self.exit(tail), self.entry(head), *step, None, way)
                yield Arc(self.exit(tail), self.entry(head), *last, row, way)

    def arcs(self, lack, missing=None):
        """The arcs of routes, of bounds, and of what stays or is missing: each unit of that costs
        `lack` beside its penalty, and no more than `missing` is missing, if that is a number."""
        yield from self.route_arcs()
        demand = sum(max(Fraction(0), -place.supply) for place in self.places)
        yield Arc("sink", "source", demand, demand, 0)
        yield Arc("source", "lack", 0, demand if missing is None else missing, lack)
        for number, place in enumerate(self.places):
            if place.bounds:
                least, most, cost = place.bounds
                most = WIDE if most is None else most
                row = "place", number
                way = *row, 0
                yield Arc(self.entry(number), self.exit(number), least, most, cost, row, way)
            if place.supply > 0:
                stays = place.supply if self.policy.unused else Fraction(0)
                yield Arc("source", self.entry(number), place.supply - stays, place.supply, 0)
            if place.supply < 0:
                yield Arc(self.exit(number), "sink", Fraction(0), -place.supply, 0)
                short = -place.supply if self.policy.short else 0
                yield Arc("lack", self.exit(number), 0, short, self.penalty_of(place) or 0)

    def least(self):
        """The least cost and what is then missing, or None if there is no plan. Without a penalty
        as little as possible is missing."""
        lack = 0 if self.names_penalty() else GREAT
        arcs = [*self.arcs(lack)]
        flow = least_flow(arcs, [arc.low for arc in arcs])
        if flow is None:
            return None
        missing = sum(x for arc, x in zip(arcs, flow) if arc.tail == "lack")
        return cost_of_flow(arcs, flow) - lack * missing, missing


def cost_of_flow(arcs, flow):
    return sum(x * arc.cost for arc, x in zip(arcs, flow))


def least_flow(arcs, flow):
    """A circulation of least cost within the bounds, from any amounts within them, or None."""
    if any(arc.low > arc.cap for arc in arcs):
        return None
    flow = balanced(arcs, flow)
    if flow is not None:
        cancel(arcs, flow)
    return flow


def balanced(arcs, flow):
    """A circulation within the bounds, or None: augmentations from what amounts leave over to what
    they lack."""
    flow, excess = [*flow], collections.Counter()
    for arc, x in zip(arcs, flow):
        excess[arc.head] += x
        excess[arc.tail] -= x
    while any(amount > 0 for amount in excess.values()):
        begin = next(node for node, amount in excess.items() if amount > 0)
        path = path_to_lack(arcs, flow, begin, excess)
        if path is None:
            return None
        end = arcs[path[-1][0]].head if path[-1][1] else arcs[path[-1][0]].tail
        step = min([excess[begin], -excess[end], *(room(arcs, flow, *each) for each in path)])
        push(flow, path, step)
        excess[begin] -= step
        excess[end] += step
    return flow


def room(arcs, flow, k, forward):
    return arcs[k].cap - flow[k] if forward else flow[k] - arcs[k].low


def push(flow, path, step):
    for k, forward in path:
        flow[k] += step if forward else -step


def leaving(arcs, flow):
    """The residual arcs by their tails: number, direction, head."""
    found = collections.defaultdict(list)
    for k, arc in enumerate(arcs):
        if flow[k] < arc.cap:
            found[arc.tail].append((k, True, arc.head))
        if flow[k] > arc.low:
            found[arc.head].append((k, False, arc.tail))
    return found


def path_to_lack(arcs, flow, begin, excess):
    """A path of residual arcs to a node that lacks something."""
    near, came, waiting = leaving(arcs, flow), {begin: None}, collections.deque([begin])
    while waiting:
        node = waiting.popleft()
        if excess[node] < 0:
            path = []
            while came[node]:
                k, forward, node = came[node]
                path.append((k, forward))
            return path[::-1]
        for k, forward, head in near[node]:
            if head not in came:
                came[head] = k, forward, node
                waiting.append(head)
    return None


def cancel(arcs, flow):
    """Cancels residual cycles of negative cost until there is none."""
    while True:
        cycle = negative_cycle(arcs, flow)
        if cycle is None:
            return
        push(flow, cycle, min(room(arcs, flow, *each) for each in cycle))


def negative_cycle(arcs, flow):
    """A residual cycle of negative cost, or None (Bellman and Ford)."""
    near = leaving(arcs, flow)
    nodes = {end for arc in arcs for end in (arc.tail, arc.head)}
    distance, came, last = dict.fromkeys(nodes, Fraction(0)), {}, None
    for _ in nodes:
        last = None
        for tail in nodes:
            for k, forward, head in near[tail]:
                length = distance[tail] + (arcs[k].cost if forward else -arcs[k].cost)
                if length < distance[head]:
                    distance[head], came[head], last = length, (k, forward, tail), head
        if last is None:
            return None
    for _ in nodes:
        last = came[last][2]
    cycle, node = [], last
    while True:
        k, forward, node = came[node]
        cycle.append((k, forward))
        if node == last:
            return cycle


# ---- answers


class Rows:
    """The rows of an answer, by the word with which they begin."""

    def __init__(self, rows):
        self.by_word = collections.defaultdict(list)
        for word, *cells in rows:
            self.by_word[word].append(cells)

    def number(self, word):
        return Fraction(self.by_word[word][0][0])

    def of_kind(self):
        return self.by_word["answer"][0][0]

    def backs(self):
        """The rows of ways back, by the number of their route from 0."""
        lines = [cells[0] for cells in self.by_word["route"]]
        return {lines.index(cells[0]): cells for cells in self.by_word["back"]}


def ways_of(problem, rows):
    """Each route of the problem in each of its directions: its tail, its head, what it carries, the
    least that it has to, its steps, and whether its amount may be below 0."""
    backs = rows.backs()
    for number, (route, cells) in enumerate(zip(problem.routes, rows.by_word["route"])):
        is_signed = route.both and not problem.is_bounded(route)
        yield route.tail, route.head, Fraction(cells[3]), route.least, route.steps, is_signed
        if route.both and not is_signed:
            back = Fraction(backs[number][3])
            yield route.head, route.tail, back, Fraction(0), route.steps, False


def why_no_plan(problem, rows):
    """What is wrong with the rows of a plan: with its amounts, its cost, or what is missing; None
    if nothing is."""
    arrives, leaves, cost = collections.Counter(), collections.Counter(), Fraction(0)
    for tail, head, amount, least, steps, is_signed in ways_of(problem, rows):
        size = abs(amount) if is_signed else amount
        paid = cost_of(steps, size)
        if size < least or paid is None:
            return f"a route from {tail} to {head} carries {amount}"
        cost += paid
        arrives[head] += amount
        leaves[tail] += amount
    stays = [Fraction(cells[2]) for cells in rows.by_word["place"]]
    missing = [Fraction(cells[3]) for cells in rows.by_word["place"]]
    for number, place in enumerate(problem.places):
        gives, wants = max(place.supply, 0), max(-place.supply, 0)
        if not 0 <= stays[number] <= (gives if problem.policy.unused else 0):
            return f"place {number} keeps what it may not"
        if not 0 <= missing[number] <= (wants if problem.policy.short else 0):
            return f"place {number} lacks what it may not"
        passes = arrives[number] + gives - stays[number]
        if passes != leaves[number] + wants - missing[number]:
            return f"place {number} isn't balanced"
        if place.bounds:
            least, most, unit = place.bounds
            if passes < least or most is not None and passes > most:
                return f"place {number} passes too little or too much"
            cost += unit * passes
    cost += problem.penalties(rows)
    if (cost, sum(missing)) != (rows.number("cost"), rows.number("missing")):
        return f"the plan costs {cost}, and {sum(missing)} is missing"
    return None


def cost_of(steps, amount):
    """What an amount costs in steps that are filled in order, or None if it doesn't fit."""
    total = Fraction(0)
    for number, (most, unit) in enumerate(steps):
        is_last = number == len(steps) - 1
        part = amount if is_last else min(amount, most)
        if is_last and most is not None and part > most:
            return None
        total, amount = total + part * unit, amount - part
    return total


def is_bottleneck(policy, rows):
    """Whether what has to go away from the places of a bottleneck, with the least amounts that come
    here, is more than can go away, with what may stay; or so with what has to come."""
    gives, wants, least, most = Fraction(0), Fraction(0), Fraction(0), Fraction(0)
    for cells in rows.by_word["place"]:
        gives, wants = gives + Fraction(cells[4] or 0), wants + Fraction(cells[5] or 0)
        least, most = least + Fraction(cells[6] or 0), most + Fraction(cells[7] or 0)
    for cells in rows.by_word["route"] + rows.by_word["back"]:
        least, most = least + Fraction(cells[3] or 0), most + Fraction(cells[4] or 0)
    if rows.by_word["side"][0][0] == "send":
        return gives - wants + least > most + (gives if policy.unused else 0)
    return wants - gives + least > most + (wants if policy.short else 0)


# ---- figures of a plan

# What a row of a plan tells: the row, what its route carries or what passes through its place, at
# which steps, the cost of that, how much more may, what one more unit of room saves, whether it
# saves just that, and what it costs at least to carry one more.
Figures = collections.namedtuple("Figures", "row amount steps cost free saves exact dearer")


def unit_of(problem):
    """The greatest power of ten of which all amounts are multiples, and no more than 1."""
    amounts = [place.supply for place in problem.places]
    amounts += [most for route in problem.routes for most, _ in route.steps]
    amounts += [route.least for route in problem.routes]
    amounts += [amount for place in problem.places if place.bounds for amount in place.bounds[:2]]
    unit = Fraction(1)
    while any(amount % unit for amount in amounts if amount is not None):
        unit /= 10
    return unit


def passing(problem, rows):
    """What passes through each place: what arrives there, and what it gives."""
    amounts = [max(place.supply, Fraction(0)) for place in problem.places]
    for number, cells in enumerate(rows.by_word["place"]):
        amounts[number] -= Fraction(cells[2])
    for _, head, amount, *_ in ways_of(problem, rows):
        amounts[head] += amount
    return amounts


def figures_of(row, amount, steps, cells):
    """The figures in the last cells of a row. A cell is empty where nothing limits an amount, and
    where no more may be carried."""
    cost, free, saves, exact, dearer = cells[-5:]
    free, dearer = (Fraction(cell) if cell else None for cell in (free, dearer))
    cost, saves = Fraction(cost), Fraction(saves)
    return Figures(row, amount, steps, cost, free, saves, exact == "yes", dearer)


def told_figures(problem, rows):
    """The figures of routes, of ways back, and of places with bounds."""
    for number, cells in enumerate(rows.by_word["route"]):
        amount, steps = abs(Fraction(cells[3])), problem.routes[number].steps
        yield figures_of(("route", number), amount, steps, cells)
    for number, cells in rows.backs().items():
        amount, steps = Fraction(cells[3]), problem.routes[number].steps
        yield figures_of(("back", number), amount, steps, cells)
    amounts = passing(problem, rows)
    for number, cells in enumerate(rows.by_word["place"]):
        if problem.places[number].bounds:
            _, most, cost = problem.places[number].bounds
            yield figures_of(("place", number), amounts[number], ((most, cost),), cells)


def why_wrong_amounts(problem, rows):
    """What is wrong with the costs of rows, with what is free, or with what passes; None if nothing
    is."""
    total = problem.penalties(rows)
    for told in told_figures(problem, rows):
        total += told.cost
        mosts = [most for most, _ in told.steps]
        free = None if mosts[-1] is None else sum(mosts) - told.amount
        if (told.cost, told.free) != (cost_of(told.steps, told.amount), free):
            return f"{told.row} tells that {told.amount} costs {told.cost}, and {told.free} is free"
    for number, (amount, cells) in enumerate(zip(passing(problem, rows), rows.by_word["place"])):
        told = cells[6:]
        if Fraction(told[0]) != amount if problem.places[number].bounds else any(told):
            return f"place {number} passes {amount}, and {told} are told"
    return None if total == rows.number("cost") else f"rows cost {total} together"


class Margins:
    """The least costs of a problem with one unit more, if no more may be missing than in a plan;
    with a penalty, whatever is missing."""

    def __init__(self, problem, rows):
        self.unit = unit_of(problem)
        missing = None if problem.names_penalty() else rows.number("missing")
        self.arcs = [*problem.arcs(0, missing)]
        self.flow = least_flow(self.arcs, [arc.low for arc in self.arcs])

    def cost(self, arcs, flow):
        """The least cost of a circulation, from some amounts, or None."""
        flow = least_flow(arcs, flow)
        return None if flow is None else cost_of_flow(arcs, flow)

    def with_room(self, row):
        """The least cost with one more unit of room where a row tells what that saves."""
        arcs = self.arcs
        wider = [arc._replace(cap=arc.cap + self.unit) if arc.row == row else arc for arc in arcs]
        return self.cost(wider, self.flow)

    def with_more(self, way, amount, is_signed):
        """The least cost if a way has to carry one more unit than an amount, or None. A signed
        route then carries nothing in its other direction."""
        more, arcs = amount + self.unit, []
        for arc in self.arcs:
            if arc.way == way:
                arcs.append(arc._replace(head="way"))
                end = arc.head
            elif is_signed and arc.way and arc.way[:2] == way[:2]:
                arcs.append(arc._replace(cap=arc.low))
            else:
                arcs.append(arc)
        flow = [min(x, arc.cap) for arc, x in zip(arcs, self.flow)]
        return self.cost([*arcs, Arc("way", end, more, WIDE, Fraction(0))], [*flow, more])

    def with_unit(self, begin, end):
        """The least cost if one more unit comes in at one node and is taken out at another, or
        None."""
        one = Arc(end, begin, self.unit, self.unit, Fraction(0))
        return self.cost([*self.arcs, one], [*self.flow, self.unit])


def is_joined(problem, rows, row):
    """Whether both ends of a route are in one group, or None if groups of both aren't told."""
    word, number = row
    if word == "place":
        return None
    tail, head = problem.routes[number][:2] if word == "route" else problem.routes[number][1::-1]
    is_told = problem.home(tail) == problem.exit(tail) and problem.home(head) == problem.entry(head)
    groups = [cells[5] for cells in rows.by_word["place"]]
    return groups[tail] == groups[head] if is_told else None


def why_wrong_savings(problem, rows, margins):
    """What is wrong with what is told of one more unit of room; None if nothing is."""
    for told in told_figures(problem, rows):
        saves = (rows.number("cost") - margins.with_room(told.row)) / margins.unit
        if saves > told.saves or told.exact and saves != told.saves:
            return f"{told.row} saves {saves}, and {told.saves} is told (exact: {told.exact})"
        has_to_be = told.saves == 0 or is_joined(problem, rows, told.row)
        if has_to_be is not None and told.exact != has_to_be:
            return f"{told.row} isn't told to be exact where it has to be, or is elsewhere"
    return None


def used_ways(problem, rows, told):
    """The ways of a row in which it may carry one more unit than it does: on a route both ways the
    one in which it carries something, or either; and whether they are those of a signed route."""
    word, number = told.row
    route = problem.routes[number] if word == "route" else None
    if route is None or not route.both or problem.is_bounded(route):
        return [(word, number, int(word == "back"))], False
    amount = Fraction(rows.by_word["route"][number][3])
    return [(word, number, way) for way, sign in enumerate((1, -1)) if sign * amount >= 0], True


def why_wrong_rises(problem, rows, margins):
    """What is wrong with what is told of carrying one more unit; None if nothing is."""
    for told in told_figures(problem, rows):
        if (told.dearer is None) != (told.free == 0) or told.dearer is not None and told.dearer < 0:
            return f"{told.row} tells {told.dearer} where {told.free} is free"
        if told.dearer is None:
            continue
        ways, is_signed = used_ways(problem, rows, told)
        costs = [margins.with_more(way, told.amount, is_signed) for way in ways]
        least = min((cost for cost in costs if cost is not None), default=None)
        rise = None if least is None else (least - rows.number("cost")) / margins.unit
        if rise is not None and rise < told.dearer:
            return f"{told.row} costs {rise} more, and {told.dearer} is told"
        if told.dearer > 0 and is_joined(problem, rows, told.row) and rise != told.dearer:
            return f"{told.row} costs {rise} more, and {told.dearer} is told exactly"
    return None


def why_wrong_prices(problem, rows, margins):
    """What is wrong with what is told of one more unit from one place to another; None if nothing
    is."""
    told = [(Fraction(cells[4]), int(cells[5])) for cells in rows.by_word["place"]]
    for begin, end in itertools.permutations(range(len(told)), 2):
        rise, is_joined = told[end][0] - told[begin][0], told[begin][1] == told[end][1]
        least = margins.with_unit(problem.home(begin), problem.home(end))
        if least is None and not is_joined:
            continue
        costs = None if least is None else (least - rows.number("cost")) / margins.unit
        if costs is None or costs < rise or is_joined and costs != rise:
            return f"a unit from {begin} to {end} costs {costs}, and {rise} is told ({is_joined})"
    return None


def why_wrong_figures(problem, rows):
    """What is wrong with the figures of a plan; None if nothing is."""
    margins = Margins(problem, rows)
    return (
        why_wrong_amounts(problem, rows)
        or why_wrong_savings(problem, rows, margins)
        or why_wrong_rises(problem, rows, margins)
        or why_wrong_prices(problem, rows, margins)
    )
