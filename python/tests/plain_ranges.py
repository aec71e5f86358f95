"""Ranges of the costs of routes in plain Python with fractions, by what the manual page of mcfplan
says: at both ends of a range the plan stays least, and one unit of cost beyond them it doesn't."""
import functools
from fractions import Fraction

from plain_plans import Problem


def unit_of(numbers):
    """The greatest power of ten of which all numbers are multiples, and no more than 1."""
    unit = Fraction(1)
    while any(number % unit for number in numbers if number is not None):
        unit /= 10
    return unit


def unit_of_costs(problem):
    """The unit of all costs."""
    costs = [cost for route in problem.routes for _, cost in route.steps]
    costs += [place.bounds[2] for place in problem.places if place.bounds]
    return unit_of(costs + [place.penalty for place in problem.places] + [problem.policy.penalty])


def with_dearer(problem, number, change):
    """The problem in which each unit on a route costs so much more."""
    routes = list(problem.routes)
    steps = tuple((most, cost + change) for most, cost in routes[number].steps)
    routes[number] = routes[number]._replace(steps=steps)
    return Problem(problem.places, routes, problem.policy)


def stays_least(problem, rows, number, change):
    """Whether the plan is a least one if each unit on a route costs so much more."""
    changed = with_dearer(problem, number, change)
    if problem.routes[number].both and min(cost for _, cost in changed.routes[number].steps) < 0:
        return False
    amount = abs(Fraction(rows.by_word["route"][number][3]))
    return changed.least()[0] == rows.number("cost") + change * amount


def told_ranges(rows):
    """The routes whose ranges are told, by their numbers from 0, and by how much their costs may
    change: down and up, None without a limit."""
    lines = [cells[0] for cells in rows.by_word["route"]]
    for line, _, _, *ends in rows.by_word["range"]:
        yield lines.index(line), [Fraction(end) if end else None for end in ends]


def why_wrong_ranges(problem, rows, wide=Fraction(50)):
    """What is wrong with the ranges of a plan; None if nothing is. Where a range has no limit, a
    wide change is tried. Changes that earn without end aren't tried."""
    unit = unit_of_costs(problem)
    expected = [
        k for k, one in enumerate(problem.routes) if not one.both or not problem.is_bounded(one)
    ]
    if [number for number, _ in told_ranges(rows)] != expected:
        return "ranges of other routes are told"
    for number, ends in told_ranges(rows):
        for sign, end in zip((-1, 1), ends):
            inside = sign * (wide if end is None else end)
            tries = [(inside, True)] + [(inside + sign * unit, False)] * (end is not None)
            for change, is_in in tries:
                if with_dearer(problem, number, change).earns_without_end():
                    continue
                if stays_least(problem, rows, number, change) != is_in:
                    return f"route {number}: {ends} are told, and {change} is in it: {not is_in}"
    return None


def unit_of_amounts(problem):
    """The unit of all amounts."""
    amounts = [most for route in problem.routes for most, _ in route.steps]
    amounts += [route.least for route in problem.routes]
    amounts += [place.supply for place in problem.places]
    return unit_of(
        amounts + [bound for place in problem.places if place.bounds for bound in place.bounds[:2]]
    )


def wrong_end(problem, rows, changed, cost, most, wide=Fraction(50)):
    """What is wrong with a range: each of so many units costs so much, in the problem that is
    changed by them, and one more doesn't; None if nothing is. A range without a limit is tried for
    a wide one."""
    inside = Fraction(most) if most else wide
    tries = [(inside, True)] + [(inside + unit_of_amounts(problem), False)] * bool(most)
    for more, is_in in tries:
        least = changed(more).least()
        if (bool(least) and least[0] == rows.number("cost") + more * cost) != is_in:
            return f"{most} is told, and {more} is in it: {not is_in}"
    return None


def with_room(problem, number, more):
    """The problem with so many units more of room on a route."""
    routes = list(problem.routes)
    *steps, (most, cost) = routes[number].steps
    routes[number] = routes[number]._replace(steps=(*steps, (most + more, cost)))
    return Problem(problem.places, routes, problem.policy)


def with_place(problem, number, **changes):
    """The problem in which a place is changed."""
    places = list(problem.places)
    places[number] = places[number]._replace(**changes)
    return Problem(places, problem.routes, problem.policy)


def with_passing(problem, number, more):
    """The problem in which so many units more may pass through a place."""
    least, most, cost = problem.places[number].bounds
    return with_place(problem, number, bounds=(least, most + more, cost))


def with_supply(problem, number, more):
    """The problem in which a place gives, or wants, so many units more."""
    supply = problem.places[number].supply
    return with_place(problem, number, supply=supply + (more if supply > 0 else -more))


def told_by_line(rows, of, word):
    """What rows with a word tell, by the numbers from 0 of the rows of another word whose line they
    have: their last cells."""
    lines = [cells[0] for cells in rows.by_word[of]]
    return {lines.index(line): cells for line, *cells in rows.by_word[word]}


def why_wrong_rooms(problem, rows):
    """What is wrong with the ranges of room of a plan in which nothing is missing for want of room;
    None if nothing is. None is told of routes from a place back to it."""
    told = told_by_line(rows, "route", "room range")
    saves = [Fraction(cells[6] or 0) for cells in rows.by_word["route"]]
    loops = [route.tail == route.head for route in problem.routes]
    expected = [number for number, saving in enumerate(saves) if saving > 0 and not loops[number]]
    if sorted(told) != expected:
        return "ranges of room of other routes are told"
    for number, (*_, most) in told.items():
        route = problem.routes[number]
        if route.both and problem.is_bounded(route):
            continue
        changed = functools.partial(with_room, problem, number)
        if wrong := wrong_end(problem, rows, changed, -saves[number], most):
            return f"route {number}: {wrong}"
    return None


def why_wrong_passes(problem, rows):
    """What is wrong with the ranges of what passes through places, as of room on routes."""
    told = told_by_line(rows, "place", "pass range")
    saves = [Fraction((cells[9:] or [""])[0] or 0) for cells in rows.by_word["place"]]
    if sorted(told) != [number for number, saving in enumerate(saves) if saving > 0]:
        return "ranges of other places are told"
    for number, (*_, most) in told.items():
        changed = functools.partial(with_passing, problem, number)
        if wrong := wrong_end(problem, rows, changed, -saves[number], most):
            return f"place {number}: {wrong}"
    return None


def may_tell(policy, place, cost):
    """Whether something is told of further units of a supply or of a demand, each of which costs so
    much if it is: a further unit of another supply stays, and of another demand is missing."""
    if place.supply > 0:
        return cost < 0 if policy.unused else policy.short
    return place.supply < 0 and (policy.unused or policy.short)


def why_wrong_supplies(problem, rows):
    """What is wrong with the ranges of supplies and demands of a plan; None if nothing is. Of
    another supply, more of it stays, and of another demand, more of it is missing."""
    told, policy = told_by_line(rows, "place", "supply range"), problem.policy
    penalties = [
        policy.penalty if place.penalty is None else place.penalty for place in problem.places
    ]
    if (policy.short and not any(one is not None for one in penalties)) or not (
        policy.short or policy.unused
    ):
        return "ranges of supplies are told" if told else None
    for number, place in enumerate(problem.places):
        is_told, is_missed = number in told, policy.short and place.supply < 0
        other = penalties[number] if is_missed else 0
        _, cost, most = told.get(number, ("", str(other), ""))
        cost = Fraction(cost)
        if is_told and is_missed and cost >= other:
            return f"place {number}: {cost} is told, and its penalty is {other}"
        if not is_missed and is_told != bool(may_tell(policy, place, cost)):
            return f"place {number}: {cost} is told" if is_told else f"place {number}: none"
        changed = functools.partial(with_supply, problem, number)
        if place.supply and (wrong := wrong_end(problem, rows, changed, cost, most)):
            return f"place {number}: {wrong}"
    return None
