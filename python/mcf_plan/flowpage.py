"""The page of a flow."""
from . import report, sumspage
from .caption import shown_number
from .figures import Figure, figure
from .notes import notes_of
from .page import Page, Share, Sheet, finding, listed_rows
from .problem import THROUGH
from .results import kept
from .scene import blocked_heading
from .words import listed

TOTAL_COLUMN = ("total", "cost of what it carries")
ROUTE_COLUMNS = [
    ("from", "where the route begins"),
    ("to", "where it ends"),
    ("least", "it carries no less"),
    ("most", "it carries no more; empty: no limit"),
    ("cost", "of each unit"),
    ("carries", "in this plan"),
    TOTAL_COLUMN,
    ("of its room", "what it carries of its most"),
    ("one more saves", "what one more unit of room saves"),
    ("exact", "whether it saves just that"),
    ("one more carried costs", "at least, if it has to carry one more; empty: full"),
]
DEPARTURE_COLUMNS = [("departs in", ""), ("arrives in", "")]
PERIOD_COLUMNS = [("period", "")]
RANGE_COLUMNS = [
    ("cost may fall to", "while this plan stays least; empty: no limit"),
    ("cost may rise to", "while this plan stays least; empty: no limit"),
]
ROOM_COLUMNS = [("saves for", "so many units of room more; empty: no limit")]
PLACE_COLUMNS = [
    ("name", ""),
    ("supply", "above 0 it sends, below 0 it takes"),
    ("one more costs", "what one more unit costs there"),
    ("group", "among places of one group that is exact"),
]
SUPPLY_COLUMNS = [
    ("more costs", "each further unit that it sends or wants"),
    ("for units", "so many further units cost that; empty: no limit"),
]
UNMET_COLUMNS = [("unmet", "what stays, or is missing")]
PENALTY_COLUMNS = [("penalty", "of each unit that is missing")]
THROUGH_COLUMNS = [
    ("passes", "what comes in and what is sent there"),
    ("passes at most", "empty: no limit"),
    ("passing costs", "in this plan"),
    ("one more saves", "what one more unit of room saves"),
    ("one more passing costs", "at least, if one more has to pass; empty: full"),
]
# What the column of first stock says.
FIRST_KEPT = "there before the first period, and kept for it"
# The heads of columns that the page always shows.
USED = ("from", "to", "least", "most", "cost", "name", "supply", "penalty", "x", "y", "period")


def own_columns(sheet):
    """The places of the planner's own columns of a table."""
    return [place for place in kept(sheet) if sheet.heads[place] not in USED]


def plan_page(plan, options, pictures, sums):
    """The page of a plan and its sums."""
    problem = plan.problem
    carrying = sum(1 for result in plan.routes if result.carries)
    full = sum(1 for number in range(len(plan.routes)) if plan.is_full(number))
    facts = [(Figure(count), many) for count, _, many in report.counts(problem)]
    facts += [
        (Figure(carrying), "carry something"),
        (Figure(full), "are full"),
    ]
    for is_supply, words in ((True, "stay"), (False, "are missing")):
        found = plan.unmet(is_supply)
        total = sum(amount for _, amount in found)
        facts += [(shown_number(problem, total, options.unit), words)] if found else []
    lead = warnings(problem) + ["No plan for these tables costs less."]
    lead += report.beside_lines(plan) + notes_of(problem)
    lead += [report.RANGES] * plan.has_ranges
    return Page(
        options.title or "A least-cost plan",
        f"Least cost: {shown_number(problem, plan.cost, options.currency)}",
        True,
        lead,
        facts,
        [],
        pictures,
        savings(plan)
        + [routes_sheet(plan), places_sheet(plan), *stock_sheets(plan)]
        + [sumspage.flow_sheet(plan, one) for one in sums],
    )


def warnings(problem):
    """Warnings about likely slips in the tables."""
    return [f"Warning: {line}" for line in report.slips(problem)]


def savings(plan):
    """The table of savings by one more unit of capacity."""
    rows = [
        ("full", [*ends, "exactly" if result.is_exact else "at most", figure(result.saves)])
        for ends, result in report.savings_of(plan)[:50]
    ]
    columns = [
        ("from", ""),
        ("to", ""),
        ("exact", "whether it saves just that"),
        ("one more unit saves", ""),
    ]
    return [Sheet("What one more unit of room saves", columns, rows)] if rows else []


def routes_sheet(plan):
    """The table of the routes."""
    problem, table, sheet = plan.problem, plan.problem.route_table, plan.problem.route_sheet
    own, rows = own_columns(sheet), []
    for number, route in enumerate(problem.routes):
        kind = "full" if plan.is_full(number) else "" if plan.routes[number].carries else "idle"
        cells = [table.cell(route.line, route.cells, place) for place in own]
        rows.append((kind, route_cells(plan, number) + cells))
    rows, note = listed_rows(rows)
    columns = ROUTE_COLUMNS + (RANGE_COLUMNS + ROOM_COLUMNS) * plan.has_ranges
    columns = DEPARTURE_COLUMNS * bool(problem.periods) + columns
    columns += [(table.title(sheet.titles[place]), "") for place in own]
    total = figure(sum(result.cost or 0 for result in plan.routes))
    totals = [""] * len(columns)
    totals[columns.index(TOTAL_COLUMN)] = total
    return Sheet("Routes", columns, rows, totals, note)


def route_cells(plan, number):
    """The cells of a route in the table of the routes."""
    problem, route, result = plan.problem, plan.problem.routes[number], plan.routes[number]
    exact = "exactly" if result.is_exact else "at most"
    costs = [step.cost for step in route.steps]
    names = [problem.places[number - 1].name for number in (route.tail, route.head)]
    return [
        *[route.departs, route.arrives] * bool(problem.periods),
        *names,
        figure(route.least),
        figure(route.most),
        figure(costs[0]) if len(costs) == 1 else " / ".join(map(problem.said, costs)),
        figure(result.carries),
        figure(result.cost),
        Share(100 * float(abs(result.carries)) / float(abs(route.most))) if route.most else "",
        figure(result.saves) if result.saves else "",
        exact if result.saves else "",
        figure(result.dearer),
        *report.range_cells(plan, plan.ranges[number]),
        *report.room_cells(plan, result, plan.rooms[number]),
    ]


def places_sheet(plan):
    """The table of the places."""
    problem, table, sheet = plan.problem, plan.problem.place_table, plan.problem.place_sheet
    own, rows = own_columns(sheet), []
    has_bounds = any(place.bounds for place in problem.places)
    has_unmet = problem.unused or problem.short
    has_penalties = any(place.penalty is not None for place in problem.places)
    for number, (place, result) in enumerate(zip(problem.places, plan.places)):
        if place.is_quiet:
            continue
        unmet = result.stays + result.missing
        cells = [place.period] * bool(problem.periods)
        cells += [place.name, figure(place.supply), figure(result.costs), result.group]
        cells += report.supply_cells(plan, number)
        cells += [figure(unmet) if unmet else ""] * has_unmet
        cells += [figure(place.penalty)] * has_penalties
        if has_bounds:
            cells += through_cells(place, result.through)
            cells += report.room_cells(plan, result.through, plan.passes[number])
        cells += [table.cell(place.line, place.cells, column) for column in own]
        rows.append(("", cells))
    rows, note = listed_rows(rows)
    columns = (
        PERIOD_COLUMNS * bool(problem.periods)
        + PLACE_COLUMNS
        + SUPPLY_COLUMNS * plan.has_supplies
        + UNMET_COLUMNS * has_unmet
        + PENALTY_COLUMNS * has_penalties
        + THROUGH_COLUMNS * has_bounds
        + ROOM_COLUMNS * (has_bounds and plan.has_ranges)
        + [(table.title(sheet.titles[place]), "") for place in own]
    )
    return Sheet("Places", columns, rows, (), note)


def stock_sheets(plan):
    """The table of what places keep, if there are periods: a row for each place that keeps
    something, and a column for each period, and for first stock."""
    problem, rows = plan.problem, {}
    for one, result in zip(problem.stores, plan.stores):
        if not problem.is_quiet(one):
            rows.setdefault(problem.places[one.tail - 1].name, {})[one.departs] = result.carries
    if not rows:
        return []
    columns = [("name", "")]
    for period in problem.times[:-1]:
        columns.append((period.name, FIRST_KEPT if period.stock else "kept after it"))
    cells = [
        [name, *(figure(kept.get(head)) for head, _ in columns[1:])] for name, kept in rows.items()
    ]
    found, note = listed_rows([("", row) for row in cells])
    return [Sheet("Stock", columns, found, (), note)]


def through_cells(place, through):
    """The cells on the flow through a place."""
    if not through:
        return [""] * len(THROUGH_COLUMNS)
    return [
        figure(through.carries),
        figure(place.bounds.most),
        figure(through.cost),
        figure(through.saves) if through.saves else "",
        figure(through.dearer),
    ]


def blocked_page(blocked, options, pictures):
    """The page for a problem without a plan."""
    problem = blocked.problem
    findings = [balance_finding(problem)] if blocked.is_unbalanced else []
    findings += [bottleneck_finding(problem, bottleneck) for bottleneck in blocked.bottlenecks]
    lead = warnings(problem)
    lead.append(
        "Whatever way amounts go, these places must send or take more than the routes around them"
        " carry."
    )
    return Page(
        options.title or "No plan exists",
        blocked_heading(blocked, options.unit),
        False,
        lead + notes_of(problem),
        [],
        findings,
        pictures,
        limiting_sheet(blocked),
    )


def balance_finding(problem):
    """The finding that supplies and demands aren't equal."""
    supply, demand = problem.supply, problem.demand
    figures = [
        ("supply", problem.said(supply)),
        ("demand", problem.said(demand)),
        ("short by", problem.said(abs(supply - demand))),
    ]
    cure = (
        "Make them equal; or let what is too much"
        f" {'stay: --unused' if supply > demand else 'be short: --short'} allow."
    )
    return finding("Supplies and demands must be equal.", figures, cure)


def bottleneck_finding(problem, bottleneck):
    """The finding on a bottleneck, and what would help."""
    short = problem.said(bottleneck.must - bottleneck.can)
    figures = [
        ("must", problem.said(bottleneck.must)),
        ("can", problem.said(bottleneck.can)),
        ("short by", short),
    ]
    what = "demand" if bottleneck.side == "take" else "supply"
    routes = [arc_text(one) for one in bottleneck.limiting]
    together = " together" if len(routes) > 1 else ""
    raise_them = (
        f"Give {listed(routes)} {short} more room{together}, or"
        if routes
        else "Give them a route, or"
    )
    return finding(
        report.bottleneck_sentence(problem, bottleneck),
        figures,
        f"{raise_them} move {short} of {what} elsewhere.",
    )


def arc_ends(crossing):
    """The ends of a route, or of the flow through a place."""
    return (*crossing.names, THROUGH) if crossing.kind == "through" else crossing.names


def arc_text(crossing):
    """A route, or the flow through a place, in a sentence."""
    return " -> ".join(arc_ends(crossing))


def limiting_sheet(blocked):
    """The routes that limit the bottlenecks."""
    rows = []
    for count, bottleneck in enumerate(blocked.bottlenecks, 1):
        for one in bottleneck.limiting:
            rows.append(("full", [f"{count}.", *arc_ends(one), figure(one.most), ""]))
        for one in bottleneck.forcing:
            rows.append(("", [f"{count}.", *arc_ends(one), "", figure(one.least)]))
    columns = [
        ("bottleneck", ""),
        ("from", ""),
        ("to", ""),
        ("most", "so the route limits the places"),
        ("least", "so it forces that upon them"),
    ]
    return [Sheet("Routes that limit them", columns, rows)] if rows else []
