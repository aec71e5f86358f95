"""The results of a flow: tables, and a summary."""
from .answer import cell_at
from .figures import Figure, figure
from .problem import MISSING, STAYS, THROUGH
from .results import (
    FLOW_RESULTS,
    PLACE_PERIODS,
    PLACE_RESULTS,
    RANGE_RESULTS,
    ROOM_RESULTS,
    ROUTE_PERIODS,
    STOCK,
    SUPPLY_RESULTS,
    THROUGH_RESULTS,
)
from .words import TOLD_NAMES, count_of, listed

# A range that isn't told.
UNKNOWN = "unknown"
RANGES = (
    "The plan stays least while the cost of one route, of the first step if it has several, is"
    " within its range, and all other costs stay as they are."
)


def write_flows(results, plan):
    """Writes flows.csv: the routes in their order, with the columns of their table, and then what
    stays and what is missing."""
    problem = plan.problem
    has_periods = bool(problem.periods)
    groups = [FLOW_RESULTS] + [RANGE_RESULTS, ROOM_RESULTS] * plan.has_ranges
    groups += [ROUTE_PERIODS] * has_periods
    rows = []
    for number, (route, result) in enumerate(zip(problem.routes, plan.routes)):
        cells = result_cells(result) + range_cells(plan, plan.ranges[number])
        cells += room_cells(plan, result, plan.rooms[number])
        rows.append((route.line, route.cells, cells + [route.departs, route.arrives] * has_periods))
    for is_supply in (True, False):
        for place, amount in plan.unmet(is_supply):
            ends = {"from": place.name, "to": STAYS}
            if not is_supply:
                ends = {"from": MISSING, "to": place.name}
            penalty = 0 if is_supply else problem.penalty_of(place)
            cost = "" if penalty is None else figure(penalty * amount)
            cells = [ends.get(head, "") for head in problem.route_sheet.heads]
            more = [""] * (sum(map(len, groups)) - 2 - 2 * has_periods)
            more += [place.period, place.period] * has_periods
            rows.append((None, cells, [figure(amount), cost, *more]))
    results.after("flows", problem.route_table, problem.route_sheet, groups, rows)


def write_prices(results, plan):
    """Writes prices.csv: the places in their order, with the columns of their table. Where there is
    no first or last stock, nothing is told of it."""
    problem = plan.problem
    has_bounds = any(place.bounds for place in problem.places)
    groups = [PLACE_RESULTS] + [SUPPLY_RESULTS] * plan.has_supplies
    groups += [THROUGH_RESULTS] * has_bounds + [ROOM_RESULTS] * (has_bounds and plan.has_ranges)
    groups += [PLACE_PERIODS] * bool(problem.periods)
    rows = []
    for number, (place, result) in enumerate(zip(problem.places, plan.places)):
        if place.is_quiet:
            continue
        cells = [figure(result.costs), result.group, *supply_cells(plan, number)]
        if has_bounds:
            through = result.through
            cells += result_cells(through) if through else [""] * len(THROUGH_RESULTS)
            cells += room_cells(plan, through, plan.passes[number])
        cells += [place.period] * bool(problem.periods)
        rows.append((place.line, place.cells, cells))
    results.after("prices", problem.place_table, problem.place_sheet, groups, rows)


def write_stock(results, plan):
    """Writes stock.csv, if there are periods: what places keep from each to the next, and what of
    their first and last stock, if they have some."""
    problem = plan.problem
    if problem.periods:
        rows = []
        for number, (one, result) in enumerate(zip(problem.stores, plan.stores)):
            if problem.is_quiet(one):
                continue
            cells = result_cells(result) + range_cells(plan, plan.store_ranges[number])
            cells += room_cells(plan, result, plan.store_rooms[number])
            rows.append([problem.places[one.tail - 1].name, one.departs, one.arrives, *cells])
        heads = STOCK + (RANGE_RESULTS + ROOM_RESULTS) * plan.has_ranges
        results.table("stock", problem.place_table, problem.place_sheet, heads, rows)


def result_cells(result):
    """The results of a route, or of the flow through a place. Figures that are too great are
    empty."""
    exact = "" if result.saves is None else "yes" if result.is_exact else "no"
    return [*map(figure, result[:4]), exact, figure(result.dearer)]


def range_cells(plan, told):
    """From what to what the cost of a route may change, if the plan has ranges."""
    if not plan.has_ranges:
        return []
    return [UNKNOWN, UNKNOWN] if told is None else [*map(figure, told)]


def room_cells(plan, result, told):
    """For how many units more room each saves what one more does, on a route or in a place, if the
    plan has ranges. It is empty without a limit, and where room saves nothing."""
    if not plan.has_ranges:
        return []
    if not result or not result.saves:
        return [""]
    return [UNKNOWN] if told is None else [figure(told[0])]


def supply_cells(plan, number):
    """What each further unit of a supply or of a demand costs, and for how many units, if the plan
    tells that. The number of units is empty without a limit. Both are empty where more of a supply
    stays, and where demands may be missing."""
    if not plan.has_supplies:
        return []
    if told := plan.supplies[number]:
        return [*map(figure, told)]
    is_met = plan.problem.places[number].supply < 0 and not plan.problem.short
    return [UNKNOWN if is_met else ""] * 2


def write_bottlenecks(results, problem, bottlenecks):
    """Writes bottleneck.csv. For each bottleneck, the column `must` sums to the amount that it must
    send (or take), and the column `can` to the amount that it can."""
    rows = []
    for count, bottleneck in enumerate(bottlenecks, 1):
        begin = [Figure(count), bottleneck.side]
        rows += [
            [*begin, "place", problem.places[number - 1].label, "", "", figure(own), ""]
            for number, own in sorted(bottleneck.places.items())
        ]
        rows += [[*begin, *arc_cells(one), figure(one.least), ""] for one in bottleneck.forcing]
        rows += [[*begin, *arc_cells(one), "", figure(one.most)] for one in bottleneck.limiting]
    heads = ["bottleneck", "side", "kind", "name", "from", "to", "must", "can"]
    results.table("bottleneck", problem.route_table, problem.route_sheet, heads, rows)


def arc_cells(crossing):
    """A route, or the flow through a place, as cells."""
    if crossing.kind == "through":
        return ["through", *crossing.names, "", ""]
    return ["keep" if crossing.kind == "keep" else "route", "", *crossing.names]


def slips(problem):
    """Likely slips in tables that are readable. First stock counts as supply and last stock as
    demand, so they leave nothing to say."""
    column = problem.place_sheet.place("supply")
    if any(period.stock for period in problem.times):
        return []
    if problem.supply and not problem.demand:
        stays = ", and all that is sent stays" if problem.unused else ""
        return [
            f"no supply is below 0, so no place takes anything{stays}: was demand written as a"
            " positive number?"
        ]
    if problem.demand and not problem.supply:
        lacks = ", and all that is taken is missing" if problem.short else ""
        return [
            f"no supply is above 0, so no place sends anything{lacks}: was supply written as a"
            " negative number?"
        ]
    if not problem.supply and not all(cell_at(one.cells, column) for one in problem.places):
        return [
            "all supplies are empty or 0, so no place sends or takes anything: was one forgotten?"
        ]
    return []


def balance_sentence(problem):
    """The sentence that total supply and total demand differ."""
    supply, demand = problem.supply, problem.demand
    more, less, cure = (
        ("supply", "demand", "--unused allow lets it stay")
        if supply > demand
        else ("demand", "supply", "--short allow lets it be short")
    )
    return (
        f"{more} exceeds {less} by {problem.said(abs(supply - demand))}: the supplies add to"
        f" {problem.said(supply)}, the demands to {problem.said(demand)}, and they must be equal"
        f" ({cure})."
    )


def bottleneck_sentence(problem, bottleneck):
    """The sentence that these places must send (or take) N, but can only M, over these routes."""
    places = [problem.places[number - 1].label for number in sorted(bottleneck.places)]
    named, side = listed(places) + (" together" if len(places) > 1 else ""), bottleneck.side
    must = f"{named} must {side} {problem.said(bottleneck.must)}"
    if bottleneck.forcing:
        forcing = [route_text(problem, one, one.least) for one in bottleneck.forcing]
        must += f" (with the least of {listed(forcing)})"
    if not bottleneck.limiting:
        return f"{must}, and no route {'leads away' if side == 'send' else 'leads there'}."
    over = listed([route_text(problem, one, one.most) for one in bottleneck.limiting])
    short = problem.said(bottleneck.must - bottleneck.can)
    return (
        f"{must}, and can {side} only {problem.said(bottleneck.can)}, over {over}. Short by"
        f" {short}."
    )


def route_text(problem, crossing, amount):
    """A route, or the flow through a place, with an amount."""
    begin = "through " if crossing.kind == "through" else ""
    return f"{begin}{' -> '.join(crossing.names)} ({problem.said(amount)})"


def blocked_summary(blocked):
    """The lines that say why there is no plan."""
    lines = ["No plan exists, proved:"]
    if blocked.is_unbalanced:
        lines.append("  " + balance_sentence(blocked.problem))
    if blocked.is_unbalanced and blocked.bottlenecks:
        stays = "stays" if blocked.surplus > 0 else "is short"
        lines.append(f"Even if that {stays}, no plan exists, proved:")
    return lines + [
        "  " + bottleneck_sentence(blocked.problem, bottleneck)
        for bottleneck in blocked.bottlenecks[:TOLD_NAMES]
    ]


def flow_summary(plan):
    """The summary of a plan."""
    problem = plan.problem
    carrying = sum(1 for result in plan.routes if result.carries)
    full = sum(map(plan.is_full, range(len(plan.routes))))
    lines = [
        f"A least-cost plan, proved: cost {problem.said(plan.cost)}.",
        (
            f"{', '.join(count_of(*one) for one in counts(problem))}:"
            f" {carrying} {'carries' if carrying == 1 else 'carry'} something,"
            f" {full} {'is' if full == 1 else 'are'} full."
        ),
    ]
    lines += beside_lines(plan)
    saving = savings_of(plan)
    if saving:
        lines.append("One more unit of room would save most on:")
    for ends, result in saving[:5]:
        at_most = "" if result.is_exact else "at most "
        lines.append(f"  {' -> '.join(ends)}: {at_most}{problem.said(result.saves)}")
    return lines


def counts(problem):
    """How many places and routes there are, with the words for one and for several; and how many
    periods and departures, if there are periods."""
    places = len({place.name for place in problem.places}), "place", "places"
    routes = len(problem.routes)
    if not problem.periods:
        return [places, (routes, "route", "routes")]
    periods = len(problem.periods), "period", "periods"
    return [places, periods, (routes, "departure", "departures")]


def beside_lines(plan):
    """Lines on what stays, what is missing and what is kept, and on what it costs that amounts pass
    through places."""
    passing = sum(result.through.cost or 0 for result in plan.places if result.through)
    lines = unmet_lines(plan) + stock_lines(plan)
    cost = plan.problem.said(passing)
    return lines + ([f"Passing through places costs {cost} of that."] if passing else [])


def stock_lines(plan):
    """A line on what is kept from a period to the next, beside first and last stock, if there are
    periods."""
    problem = plan.problem
    if not problem.periods:
        return []
    found = zip(problem.stores, plan.stores)
    kept = [result for one, result in found if result.carries and not problem.is_stock(one)]
    if not kept:
        return ["Nothing is kept from a period to the next."]
    most = max(result.carries for result in kept)
    cost = problem.said(sum(result.cost or 0 for result in kept))
    return [f"What places keep costs {cost} of that; at most {problem.said(most)} at once."]


def savings_of(plan):
    """The routes and places where more capacity would save cost, the greatest savings first."""
    problem = plan.problem
    found = [(problem.ends(route), result) for route, result in zip(problem.routes, plan.routes)]
    found += [(problem.ends(one), result) for one, result in zip(problem.stores, plan.stores)]
    found += [
        ((place.label, THROUGH), result.through)
        for place, result in zip(problem.places, plan.places)
        if result.through
    ]
    return sorted(
        ((ends, result) for ends, result in found if result.saves), key=lambda pair: -pair[1].saves
    )


def unmet_lines(plan):
    """Lines on what stays and what is missing."""
    problem, lines = plan.problem, []
    for is_supply, is_allowed in ((True, problem.unused), (False, problem.short)):
        found = plan.unmet(is_supply)
        total = problem.said(sum(amount for _, amount in found))
        where = listed([f"{place.label} {problem.said(amount)}" for place, amount in found])
        if is_allowed and is_supply:
            lines.append(f"{total} stay at: {where}." if found else "Nothing stays.")
        elif is_allowed:
            cost = plan.penalties()
            cost = f", which costs {problem.said(cost)} of that" if cost else ""
            lines.append(
                f"{total} are missing at: {where}{cost}." if found else "Nothing is missing."
            )
    return lines
