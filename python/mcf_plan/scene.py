"""The content of the picture of a plan, or of the bottlenecks if no plan exists."""
import collections
import functools
import os

from .caption import shown_number

# With more than ALL_ROUTES routes, a picture leaves out those that carry nothing. If no plan exists
# and there are more than NEAR places, it has only those that block and their neighbours.
ALL_ROUTES, NEAR = 90, 60
# The most periods with a picture.
DRAWN = 60
# The greatest length of a name in a box, and the lengths of the beginning and the end of a cut
# name.
LONGEST, BEGIN, END = 24, 12, 11
# What marks a route in the picture, or a place.
KEYS = {"route": "route", "back": "route", "keep": "route", "through": "through", "hub": "hub"}
# A place: its name, the text of the name in its box, a note there, whether it sends, takes or
# passes on, and its spot on a map. A route: its two places by numbers from 0, its width, its kind
# (a word of COLOURS), its label and its title.
Node = collections.namedtuple("Node", "name short note kind spot")
Link = collections.namedtuple("Link", "tail head width kind label title")
# The content of a picture: groups are sets of nodes that block, notes are the legend's texts on
# routes by their kinds, and the caption is at the top.
Scene = collections.namedtuple(
    "Scene", "heading nodes links groups notes caption", defaults=(None,)
)


def plan_scenes(plan, caption):
    """The pictures of a plan: one of each period, up to a number, if there are periods."""
    return [plan_scene(plan, caption, period) for period in plan.problem.periods[:DRAWN] or [""]]


def plan_scene(plan, caption, period=""):
    """The picture of a plan, or of what departs in a period. It has all routes if there are few,
    and otherwise those that carry something or are shut."""
    problem, number_of = plan.problem, functools.partial(shown_number, plan.problem)
    widest, links = max((abs(result.carries) for result in plan.routes), default=0), []
    places = [place for place in problem.places if is_drawn(place, period)]
    here = [number for number, one in enumerate(problem.routes) if one.departs == period]
    for number in here:
        route, result = problem.routes[number], plan.routes[number]
        if len(here) <= ALL_ROUTES or result.carries or route.most == 0:
            kind = "full" if plan.is_full(number) else "flowing" if result.carries else "idle"
            link = plan_link(problem, route, result, kind, widest)
            links.append(link._replace(tail=link.tail % len(places), head=link.head % len(places)))
    left_out = len(here) - len(links)
    heading = period or f"A least-cost plan: cost {number_of(plan.cost, caption.currency)}"
    heading += f" ({left_out} idle routes aren't drawn)" if left_out else ""
    shorts, stock = short_names([place.name for place in places]), stock_in(plan, period)
    nodes = [
        node_of(problem, place, short, result.stays + result.missing, stock[place.name])
        for place, short, result in zip(places, shorts, results_in(plan, period))
    ]
    return Scene(
        heading,
        nodes,
        links,
        [],
        {
            "flowing": f"as wide as it carries (widest {number_of(widest, caption.unit)})",
            "full": "full",
        },
        caption,
    )


def is_drawn(place, period):
    """Whether a place is in the picture of a period, or in that of all if there are no periods."""
    return place.period == period and not place.is_stock


def results_in(plan, period):
    """The results of the places in the picture of a period."""
    found = zip(plan.problem.places, plan.places)
    return [result for place, result in found if is_drawn(place, period)]


def stock_in(plan, period):
    """The notes on what places have of their first stock in a period, and on what they keep after
    it, by their names."""
    problem, notes = plan.problem, collections.defaultdict(list)
    for store, result in zip(problem.stores, plan.stores):
        ends = [problem.places[end - 1] for end in store[:2]]
        amount = shown_number(problem, result.carries)
        if result.carries and is_drawn(ends[0], period):
            notes[ends[0].name].append(f"keeps {amount}")
        elif result.carries and ends[0].is_stock and is_drawn(ends[1], period):
            notes[ends[0].name].append(f"first stock {amount}")
    return notes


def plan_link(problem, route, result, kind, widest):
    """A route in the picture of a plan. A route that is used backward points that way."""
    turned, number_of = route.both and result.carries < 0, functools.partial(shown_number, problem)
    carries = abs(result.carries) if turned else result.carries
    (tail, head), names = (route.tail, route.head)[:: -1 if turned else 1], problem.ends(route)[
        :: -1 if turned else 1
    ]
    title = (
        f"{' -> '.join(names)}: {number_of(carries)} of {limits_text(problem, route)}, cost"
        f" {number_of(result.cost)}"
    )
    width = 1.4 + 7.6 * float(abs(carries)) / float(widest) if carries else 1
    label = number_of(carries) if carries else ""
    if label and route.arrives != route.departs:
        label += f" → {route.arrives}"
    return Link(tail - 1, head - 1, width, kind, label, title)


def blocked_scene(blocked, caption):
    """The picture if no plan exists. It shows the bottlenecks; if there are many places, it shows
    only those that block and their neighbours."""
    problem, amount = blocked.problem, functools.partial(shown_number, blocked.problem)
    marked = {}
    for bottleneck in blocked.bottlenecks:
        for kind, found in (("forces", bottleneck.forcing), ("limits", bottleneck.limiting)):
            marked.update({(KEYS[one.kind], one.line, one.names): kind for one in found})
    groups = [{number - 1 for number in one.places} for one in blocked.bottlenecks]
    links = []
    for route in problem.routes + problem.stores:
        kind = marked.get(("route", route.line, problem.ends(route)), "other")
        label = {
            "limits": f"≤ {amount(route.most)}",
            "forces": f"≥ {amount(route.least)}",
            "other": "",
        }[kind]
        title = f"{' -> '.join(problem.ends(route))}: {limits_text(problem, route)}"
        width = 1.2 if kind == "other" else 2.6
        links.append(Link(route.tail - 1, route.head - 1, width, kind, label, title))
    heading = blocked_heading(blocked, caption.unit)
    shorts = short_names([place.label for place in problem.places])
    nodes = [
        limited(
            node_of(problem, place, short),
            ("through", place.line, (place.label,)) in marked,
            place,
            amount,
        )
        for place, short in zip(problem.places, shorts)
    ]
    notes = {"limits": "limits them"} if marked else {}
    told = [number for number, place in enumerate(problem.places) if not place.is_quiet]
    scene = part_of(Scene(heading, nodes, links, groups, notes, caption), told)
    return near_scene(scene) if len(scene.nodes) > NEAR and any(groups) else scene


def blocked_heading(blocked, unit):
    """The reason why no plan exists, in one line."""
    problem, amount = blocked.problem, functools.partial(shown_number, blocked.problem, unit=unit)
    if blocked.is_unbalanced:
        return f"No plan exists: supply {amount(problem.supply)}, demand {amount(problem.demand)}"
    shorts, count = [one.must - one.can for one in blocked.bottlenecks], len(blocked.bottlenecks)
    several = f" in {count} bottlenecks" if count > 1 else ""
    return f"No plan exists: short by {amount(sum(shorts))}{several}"


def limited(node, is_limited, place, amount):
    """A place in the picture, with its bounds if they limit a bottleneck."""
    return (
        node._replace(
            note=", ".join(filter(None, [node.note, f"≤ {amount(place.bounds.most)} pass"]))
        )
        if is_limited
        else node
    )


def near_scene(scene):
    """The places of a scene that block, and their neighbours."""
    blocking = set().union(*scene.groups)
    near = sorted(
        blocking.union(
            *({link.tail, link.head} for link in scene.links if {link.tail, link.head} & blocking)
        )
    )
    left_out = len(scene.nodes) - len(near)
    heading = scene.heading + (f" ({left_out} places farther off aren't drawn)" if left_out else "")
    return part_of(scene._replace(heading=heading), near)


def part_of(scene, chosen):
    """A scene with some of its places, and the routes between them. All places that block are
    among them."""
    numbers = {node: number for number, node in enumerate(chosen)}
    links = [
        link._replace(tail=numbers[link.tail], head=numbers[link.head])
        for link in scene.links
        if link.tail in numbers and link.head in numbers
    ]
    return scene._replace(
        nodes=[scene.nodes[node] for node in chosen],
        links=links,
        groups=[{numbers[node] for node in group} for group in scene.groups],
    )


def node_of(problem, place, short, unmet=0, stock=()):
    """A place for the picture, with what is unmet there, and with notes on its stock."""
    kind = "sends" if place.supply > 0 else "takes" if place.supply < 0 else "passes"
    amount = functools.partial(shown_number, problem)
    note = f"{kind} {amount(abs(place.supply))}" if place.supply else ""
    word = "stays" if place.supply > 0 else "missing"
    notes = [note] * bool(note) + [f"{amount(unmet)} {word}"] * bool(unmet)
    return Node(place.label, short, ", ".join([*notes, *stock]), kind, place.spot)


def limits_text(problem, route):
    """The least and the greatest amount of a route."""
    least, most = (shown_number(problem, value) for value in (route.least, route.most))
    if route.both:
        return f"{most or 'any amount'}, either way"
    return f"{least} to {most}" if most else f"{least} or more"


def short_names(names):
    """The text of each name in its box. Long names keep their beginning and their end; names that
    would look alike keep the part that differs."""
    shorts = [cut(name, len(name) - END) for name in names]
    tell_apart(names, shorts, range(len(names)), 0)
    return shorts


def cut(name, begin):
    """A name. If it is too long, its beginning and its end, which starts with a word."""
    if len(name) <= LONGEST:
        return name
    rest = name[max(BEGIN, min(begin, len(name) - END)) :]
    return f"{name[:BEGIN]}…{rest}" if len(rest) <= END else f"{name[:BEGIN]}…{rest[:END - 1]}…"


def tell_apart(names, shorts, numbers, begin):
    """Shortens names that look alike at the place where they begin to differ."""
    alike = collections.defaultdict(list)
    for number in numbers:
        alike[shorts[number]].append(number)
    for group in alike.values():
        differ = len(os.path.commonprefix([names[number] for number in group]))
        if len(group) > 1 and differ > begin:
            for number in group:
                shorts[number] = cut(names[number], differ)
            tell_apart(names, shorts, group, differ)
