"""Why there is no plan: the bottleneck of an answer, taken apart."""
import collections

from .figures import number_in
from .problem import MISSING, STAYS

# Places that must send (or take) more than they can: the side, the places by numbers from 1 with
# what they send (or take), what they must and can, and what forces and what limits them.
Bottleneck = collections.namedtuple("Bottleneck", "side places must can forcing limiting")
# A route, or the flow through a place, out of a bottleneck or into it: its row in the table, from
# 1, the nodes of its ends, their names, and the least and the most that it carries there, as far as
# they count. `kind` is route, back, keep, through or hub.
Crossing = collections.namedtuple("Crossing", "kind line tail head names least most")
OTHER_SIDE = {"send": "take", "take": "send"}


def parts_of(nodes, arcs):
    """The parts of a set of nodes that arcs connect, in the order of the nodes."""
    near, found, seen = {node: [] for node in nodes}, [], set()
    for tail, head in arcs:
        if tail in near and head in near:
            near[tail].append(head)
            near[head].append(tail)
    for begin in nodes:
        part, waiting = set(), [begin]
        while waiting:
            node = waiting.pop()
            if node not in seen:
                seen.add(node)
                part.add(node)
                waiting += near[node]
        found += [part] if part else []
    return found


class Nodes:
    """The nodes of a problem: the places, by numbers from 1; a place with bounds has another node
    for what leaves it, after all places."""

    def __init__(self, problem):
        self.problem, count = problem, len(problem.places)
        self.exits = [
            number + count if place.bounds else number
            for number, place in enumerate(problem.places, 1)
        ]
        ends = [(route.tail, route.head) for route in problem.routes + problem.stores]
        ends += [(route.head, route.tail) for route in problem.routes if route.both]
        self.arcs = [(self.exits[tail - 1], head) for tail, head in ends]
        self.arcs += enumerate(self.exits, 1)
        self.every = set(range(1, count + 1)).union(self.exits)

    def of_rows(self, rows):
        """The nodes of the places of a bottleneck."""
        found = set()
        for _, name, entry, leaving, _, _, _, _, *period in rows:
            number = self.problem.numbers[name, "".join(period)]
            found |= {number} if entry == "yes" else set()
            found |= {self.exits[number - 1]} if leaving == "yes" else set()
        return found

    def place(self, node):
        """The number of a node's place."""
        return (node - 1) % len(self.problem.places) + 1

    def sends(self, node):
        """What a node sends; below 0, what it takes."""
        supply = self.problem.places[self.place(node) - 1].supply
        if self.exits[self.place(node) - 1] == self.place(node):
            return supply
        return max(supply, 0) if node == self.place(node) else min(supply, 0)

    def crossings(self, rows):
        """The routes and the places that lead out of a bottleneck or into it."""
        found = []
        for kind, (line, tail, head, least, most, *periods) in self.ways(rows):
            departs, arrives = periods or ("", "")
            found.append(self.link(kind, line, (tail, departs), (head, arrives), least, most))
        for line, name, least, most, period, after in rows["keep"]:
            found.append(self.link("keep", line, (name, period), (name, after), least, most))
        for line, name, _, _, _, _, least, most, *period in rows["place"]:
            number = self.problem.numbers[name, "".join(period)]
            ends, names = (number, self.exits[number - 1]), (self.label(number),)
            amounts = number_in(least), number_in(most)
            found.append(Crossing("through", int(line), *ends, names, *amounts))
        return found

    def ways(self, rows):
        """The rows of routes, and those of what goes back, with their words. Over periods, they are
        in the order of the departures."""
        found = [(kind, cells) for kind in ("route", "back") for cells in rows[kind]]
        if rows["back"] and self.problem.periods:
            periods = self.problem.periods
            found.sort(key=lambda way: (int(way[1][0]), periods.index(way[1][5]), way[0] == "back"))
        return found

    def label(self, number):
        """The label of a place by its number."""
        return self.problem.places[number - 1].label

    def link(self, kind, line, tail, head, least, most):
        """A route, or what a place keeps, from a place to another; places have their periods."""
        numbers = [self.problem.numbers[end] for end in (tail, head)]
        ends, names = (self.exits[numbers[0] - 1], numbers[1]), tuple(map(self.label, numbers))
        return Crossing(kind, int(line), *ends, names, number_in(least), number_in(most))

    def bottleneck(self, side, part, crossings, hub=False):
        """A part of a bottleneck as one, with what may stay, or be missing, if there is a hub. A
        place without first or last stock isn't among those of the stock."""
        mine = collections.Counter()
        for node in part:
            if not self.problem.places[self.place(node) - 1].is_quiet:
                mine[self.place(node)] += self.sends(node) * (1 if side == "send" else -1)
        outer, inner = ("head", "tail") if side == "send" else ("tail", "head")
        forcing = [one for one in crossings if one.least and getattr(one, outer) in part]
        limiting = [
            one for one in crossings if one.most is not None and getattr(one, inner) in part
        ]
        limiting += [
            self.hub_arc(side, node)
            for node in sorted(part, key=self.place)
            if hub and self.meets_hub(side, node)
        ]
        must = sum(mine.values()) + sum(one.least for one in forcing)
        can = sum(one.most for one in limiting)
        return Bottleneck(side, mine, must, can, forcing, limiting)

    def meets_hub(self, side, node):
        """Whether something may stay, or be missing, at a node."""
        return self.sends(node) > 0 if side == "send" else self.sends(node) < 0

    def hub_arc(self, side, node):
        """What may stay, or be missing, at a node."""
        place = self.problem.places[self.place(node) - 1]
        names = (place.label, STAYS) if side == "send" else (MISSING, place.label)
        return Crossing("hub", place.line, node, node, names, None, abs(place.supply))


def bottlenecks_of(problem, answer, unused, short):
    """The bottlenecks of an answer: its places, or all others, which then must take (or send) more
    than they can, whichever have fewer nodes. What isn't connected is told by itself, if it blocks
    by itself. If something may stay or be missing, the others don't block, and perhaps none is
    left."""
    nodes, side = Nodes(problem), answer.one("side")
    inside, crossings = nodes.of_rows(answer.rows["place"]), nodes.crossings(answer.rows)
    choices = {side: inside}
    if not (unused or short):
        choices[OTHER_SIDE[side]] = nodes.every - inside
    found = []
    for side, chosen in sorted(choices.items()):
        hub = unused if side == "send" else short
        parts = [
            nodes.bottleneck(side, part, crossings, hub)
            for part in parts_of(sorted(chosen), nodes.arcs)
        ]
        found.append([part for part in parts if part.must > part.can])
    return min(
        filter(None, found), key=lambda parts: sum(len(part.places) for part in parts), default=[]
    )


class Blocked:
    """The bottlenecks of a problem without a plan.

    If supplies and demands differ, all places together are one. Further ones may remain if what is
    too much may stay or be missing, which `answer_to` tells for further options.
    """

    def __init__(self, problem, answer_to):
        self.problem, answer, unused, short = problem, problem.answer, problem.unused, problem.short
        self.surplus = surplus = problem.supply - problem.demand
        self.is_unbalanced = (surplus > 0 and not unused) or (surplus < 0 and not short)
        if self.is_unbalanced:
            unused, short = unused or surplus > 0, short or surplus < 0
            answer = answer_to(unused, short)
        is_left = answer.kind == "no plan"
        self.bottlenecks = bottlenecks_of(problem, answer, unused, short) if is_left else []

    def all(self):
        """All bottlenecks, the balance first."""
        if not self.is_unbalanced:
            return self.bottlenecks
        nodes, side = Nodes(self.problem), "send" if self.surplus > 0 else "take"
        return [nodes.bottleneck(side, nodes.every, [])] + self.bottlenecks
