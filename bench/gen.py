#!/usr/bin/env python3
"""Makes instances of the minimum-cost flow problem in DIMACS `p min` form.

    python3 bench/gen.py FAMILY NODES [--seed S] [--output FILE] [--shown ANSWER]
                         [--max-cap C] [--max-cost C] [--degree D]

FAMILY
  assignment  as many rows as columns, NODES in all: each row has arcs to a few random
            columns, and to its column in a perfect matching
  dense, few, large, many, small, thin
            like netgen, but with 32 arcs a node; with two sources of twenty times the supply; with
            caps up to 10^9 and costs up to 10^8; with two thirds of the nodes as sources or sinks;
            with caps up to 10 and costs up to 100; with 3 arcs a node
  geo       points of a square, each with arcs to the six nearest; one depot sends to a tenth of
            them, to each also by an express arc
  goto      a long narrow grid on a torus, with arcs backward, sideways and some that
            leap ahead, through which one source sends to one sink
  gridgen   a wide grid with arcs to all eight neighbours, in which the nodes of
            the left column send to those of the right column
  long      a grid of 16 rows, whose left column sends to its right column
  netgen    a sparse transshipment net: chains from each source to one to three
            sinks make it feasible, and the other arcs are random; one node in a
            hundred is a source and one a sink
  plan      plants, depots and shops over 12 periods, with stock from period to period, and a market
            where anything can be had
  resting   the arcs of sparse and no supplies, so that the zero flow is optimal
  road      roads in both directions between near places of a map, one node in 64 a source
            and one a sink; the cost is the length, weighted by the class of the road
  sparse    like netgen, with one sink for each source
  star      hubs in a ring, each with leaves that send and take
  transp    a transportation problem: an arc from each node of the first half to
            each of the second

`--shown` takes only the arcs and caps of the family. It chooses prices, a cost
for each arc, a flow that these prices show to be optimal, and the supplies that
this flow meets. The correct answer goes to the file ANSWER.

The same words always give the same bytes, because the only source of randomness
is `random.Random(seed).random()`, whose sequence is the same in all versions of
Python.
"""
import argparse
import random
import sys


class Net:
    """The supplies and the arcs of an instance."""

    def __init__(self, nodes):
        self.supply = [0] * (nodes + 1)
        self.arcs = []

    def arc(self, source, target, cap, cost):
        self.arcs.append((source, target, cap, cost))

    def write(self, out, note):
        nodes = len(self.supply) - 1
        out.write(f"c {note}\np min {nodes} {len(self.arcs)}\n")
        out.writelines(f"n {node} {supply}\n" for node, supply in enumerate(self.supply) if supply)
        out.writelines(
            f"a {source} {target} 0 {cap} {cost}\n" for source, target, cap, cost in self.arcs
        )


def up_to(rnd, most):
    """A number from 1 to `most`."""
    return 1 + int(rnd() * most)


def shuffled(rnd, count):
    numbers = list(range(1, count + 1))
    for i in range(count - 1, 0, -1):
        j = int(rnd() * (i + 1))
        numbers[i], numbers[j] = numbers[j], numbers[i]
    return numbers


def netgen(nodes, rnd, words, most_sinks=3, ends=None, most_supply=None):
    net = Net(nodes)
    ends = ends or max(1, nodes // 100)
    order = shuffled(rnd, nodes)
    sinks = order[ends : 2 * ends]
    chains = [[source] for source in order[:ends]]
    for node in order[2 * ends :]:
        chains[int(rnd() * ends)].append(node)

    def carry(source, target, flow):
        cap = max(flow, up_to(rnd, words.max_cap))
        cost = words.max_cost if rnd() < 0.3 else up_to(rnd, words.max_cost)
        net.arc(source, target, cap, cost)

    for sink, chain in zip(sinks, chains):
        supply = up_to(rnd, most_supply or words.max_cap)
        net.supply[chain[0]] += supply
        for source, target in zip(chain, chain[1:]):
            carry(source, target, supply)
        shares, left = [], supply
        for _ in range(most_sinks - 1):
            share = int(rnd() * (left + 1)) if rnd() < 0.5 else 0
            left -= share
            shares.append((sinks[int(rnd() * ends)], share))
        for target, share in shares + [(sink, left)]:
            if share or target == sink:
                carry(chain[-1], target, share)
                net.supply[target] -= share
    while len(net.arcs) < words.degree * nodes:
        source, target = up_to(rnd, nodes), up_to(rnd, nodes)
        if source != target:
            net.arc(source, target, up_to(rnd, words.max_cap), up_to(rnd, words.max_cost))
    return net


def sparse(nodes, rnd, words):
    return netgen(nodes, rnd, words, most_sinks=1)


def resting(nodes, rnd, words):
    net = sparse(nodes, rnd, words)
    net.supply = [0] * len(net.supply)
    return net


def gridgen(nodes, rnd, words):
    net = Net(nodes)
    rows = max(2, int(nodes**0.5))
    columns = nodes // rows
    inner = rows * columns
    supplies = [up_to(rnd, words.max_cap) for _ in range(rows)]
    moves = [(-1, -1), (-1, 0), (-1, 1), (0, -1), (1, -1), (1, 0), (1, 1)]
    for row, supply in enumerate(supplies):
        net.supply[row * columns + 1] += supply
        net.supply[row * columns + columns] -= supply
        for column in range(columns):
            node = row * columns + 1 + column
            if column + 1 < columns:
                net.arc(
                    node,
                    node + 1,
                    max(supply, up_to(rnd, words.max_cap)),
                    up_to(rnd, words.max_cost),
                )
            for down, right in moves:
                if 0 <= row + down < rows and 0 <= column + right < columns:
                    target = node + down * columns + right
                    net.arc(node, target, up_to(rnd, words.max_cap), up_to(rnd, words.max_cost))
    for node in range(inner + 1, nodes + 1):
        net.arc(up_to(rnd, inner), node, up_to(rnd, words.max_cap), up_to(rnd, words.max_cost))
        net.arc(node, up_to(rnd, inner), up_to(rnd, words.max_cap), up_to(rnd, words.max_cost))
    return net


def goto(nodes, rnd, words):
    """A grid on a torus in the manner of Goldberg's generator."""
    net = Net(nodes)
    width = max(3, round((nodes - 2) ** (1 / 3)))
    length = max(2, (nodes - 2) // width)
    while width * length > nodes - 2:
        length -= 1
    inner = width * length
    source, sink = nodes - 1, nodes

    def at(column, row):
        return column % length * width + row % width + 1

    def wild(start, target, cap):
        net.arc(start, target, up_to(rnd, cap), up_to(rnd, words.max_cost))

    # three flows from each row make it feasible: straight ahead, drifting up and drifting down
    half = max(1, words.max_cap // 2)
    flows = [
        [half + int(rnd() * (words.max_cap - half + 1)) for _ in range(width)] for _ in range(3)
    ]
    for row in range(width):
        into = sum(flow[row] for flow in flows)
        net.supply[source] += into
        net.supply[sink] -= into
        net.arc(source, at(0, row), into, 1)
        out = (
            flows[0][row]
            + flows[1][(row - (length - 1)) % width]
            + flows[2][(row + length - 1) % width]
        )
        net.arc(at(length - 1, row), sink, out, 1)
    for column in range(length):
        for row in range(width):
            node = at(column, row)
            if column + 1 < length:
                for flow, drift in zip(flows, (0, 1, -1)):
                    through = flow[(row - drift * column) % width]
                    cap = through + int(rnd() * (through // 10 + 1))
                    net.arc(node, at(column + 1, row + drift), cap, up_to(rnd, words.max_cost))
            leap = 2 + int(rnd() * 7)
            wild(node, at(column + leap, row + int(rnd() * width)), words.max_cap // 8 + 1)
            wild(node, at(column - 1, row), words.max_cap)
            wild(node, at(column, row + 1), words.max_cap)
            wild(node, at(column, row - 1), words.max_cap)
            wild(node, at(int(rnd() * length), int(rnd() * width)), words.max_cap // 8 + 1)
    for node in range(inner + 1, nodes - 1):
        wild(up_to(rnd, inner), node, words.max_cap)
        wild(node, up_to(rnd, inner), words.max_cap)
    return net


def road(nodes, rnd, words):
    net = Net(nodes)
    columns = max(2, int(nodes**0.5))
    places = [
        ((v - 1) % columns + 0.8 * rnd(), (v - 1) // columns + 0.8 * rnd())
        for v in range(1, nodes + 1)
    ]
    # a tree of roads that lead left or up, and half as many further roads
    above, more = [0] * (nodes + 1), []
    for node in range(2, nodes + 1):
        near = ([node - 1] if (node - 1) % columns else []) + (
            [node - columns] if node > columns else []
        )
        if len(near) == 2 and rnd() >= 0.5:
            near.reverse()
        above[node] = near[0]
        if len(near) == 2 and rnd() < 0.5:
            more.append((node, near[1]))
    ends = max(1, nodes // 64)
    order = shuffled(rnd, nodes)
    for source, sink in zip(order[:ends], order[ends : 2 * ends]):
        supply = up_to(rnd, 100)
        net.supply[source] += supply
        net.supply[sink] -= supply
    # the flow if everything uses the tree, which makes the net feasible
    below = list(net.supply)
    for node in range(nodes, 1, -1):
        below[above[node]] += below[node]

    def build(start, end, carried):
        (x, y), (x_end, y_end) = places[start - 1], places[end - 1]
        length = ((x - x_end) ** 2 + (y - y_end) ** 2) ** 0.5
        kind = int(rnd() * 4)
        cost = 1 + int(1000 * length / (1 + kind))
        cap = 1 + int(rnd() * words.max_cap * (1 + kind) / 4)
        net.arc(start, end, max(cap, carried), cost)
        net.arc(end, start, max(cap, -carried), cost)

    for node in range(2, nodes + 1):
        build(node, above[node], below[node])
    for start, end in more:
        build(start, end, 0)
    return net


def assignment(nodes, rnd, words):
    net = Net(nodes)
    rows = nodes // 2
    for row, column in enumerate(shuffled(rnd, rows), 1):
        net.supply[row], net.supply[rows + column] = 1, -1
        others = {up_to(rnd, rows) for _ in range(words.degree - 1)}
        for target in sorted(others | {column}):
            net.arc(row, rows + target, 1, up_to(rnd, words.max_cost))
    return net


def transp(nodes, rnd, words):
    net = Net(nodes)
    half = nodes // 2
    for source in range(1, half + 1):
        net.supply[source] = up_to(rnd, words.max_cap)
    total = left = sum(net.supply)
    weights = [rnd() + 0.05 for _ in range(nodes - half)]
    weight = sum(weights)
    for sink, share in enumerate(weights, half + 1):
        taken = left if sink == nodes else min(int(total * (share / weight)), left)
        net.supply[sink] = -taken
        left -= taken
    for source in range(1, half + 1):
        for sink in range(half + 1, nodes + 1):
            net.arc(source, sink, net.supply[source], up_to(rnd, words.max_cost))
    return net


def few(nodes, rnd, words):
    return netgen(nodes, rnd, words, ends=2, most_supply=20 * words.max_cap)


def many(nodes, rnd, words):
    return netgen(nodes, rnd, words, ends=max(1, nodes // 3))


def with_words(words, **others):
    """The same options, with some replaced."""
    return argparse.Namespace(**{**vars(words), **others})


def small(nodes, rnd, words):
    return netgen(nodes, rnd, with_words(words, max_cap=10, max_cost=100))


def large(nodes, rnd, words):
    return netgen(nodes, rnd, with_words(words, max_cap=10**9, max_cost=10**8))


def thin(nodes, rnd, words):
    return netgen(nodes, rnd, with_words(words, degree=3))


def dense(nodes, rnd, words):
    return netgen(nodes, rnd, with_words(words, degree=32))


def long(nodes, rnd, words, rows=16):
    net = Net(nodes)
    columns = nodes // rows
    supplies = [up_to(rnd, words.max_cap) for _ in range(rows)]
    for row, supply in enumerate(supplies):
        net.supply[row * columns + 1] += supply
        net.supply[row * columns + columns] -= supply
    for row in range(rows):
        for column in range(columns):
            node = row * columns + column + 1
            if column + 1 < columns:
                cap = max(supplies[row], up_to(rnd, words.max_cap))
                net.arc(node, node + 1, cap, up_to(rnd, words.max_cost))
            for down, right in ((-1, 0), (1, 0), (0, -1), (1, 1), (-1, 1)):
                r, c = row + down, column + right
                if 0 <= r < rows and 0 <= c < columns:
                    cap, cost = up_to(rnd, words.max_cap), up_to(rnd, words.max_cost)
                    net.arc(node, r * columns + c + 1, cap, cost)
    return net


class Places:
    """Points of a square: plants, depots and shops."""

    def __init__(self, rnd, count):
        self.plants = [(rnd(), rnd()) for _ in range(max(1, count // 20))]
        self.depots = [(rnd(), rnd()) for _ in range(max(2, count // 8))]
        left = count - len(self.plants) - len(self.depots)
        self.shops = [(rnd(), rnd()) for _ in range(left)]

    def nearest(self, rnd, point, count):
        """The depots nearest to a point, among at most 200 of them."""
        depots = range(len(self.depots))
        if len(depots) > 200:
            depots = sorted({int(rnd() * len(depots)) for _ in range(200)})
        return sorted(depots, key=lambda i: squared(point, self.depots[i]))[:count]


def squared(one, other):
    """The squared distance of two points."""
    return (one[0] - other[0]) ** 2 + (one[1] - other[1]) ** 2


def length(one, other):
    """The distance of two points in a square of side 1,000."""
    return 1 + int(1000 * squared(one, other) ** 0.5)


# The demand of shops in each period, in hundredths of the mean: a wave over the year.
SEASONS = (100, 130, 152, 160, 152, 130, 100, 70, 48, 40, 48, 70)


def plan(nodes, rnd, words, periods=12):
    count = nodes // periods
    places, net = Places(rnd, count), Net(nodes)
    plants, depots = len(places.plants), len(places.depots)
    sink = nodes if periods * count < nodes else nodes - count + plants
    from_plants = [places.nearest(rnd, plant, 20) for plant in places.plants]
    to_shops = [places.nearest(rnd, shop, 5) for shop in places.shops]
    for period in range(periods):
        first = period * count + 1
        later = count if period + 1 < periods else 0
        plan_shops(net, rnd, places, first, later, to_shops, SEASONS[period % 12])
        for p, plant in enumerate(places.plants):
            for i in from_plants[p]:
                cost = length(plant, places.depots[i]) // 2 + int(rnd() * 50)
                net.arc(first + p, first + plants + i, 10**5, cost)
            if later:
                net.arc(first + p, first + p + later, 10**6, 30)
        for i in range(depots):
            node = first + plants + i
            if later:
                net.arc(node, node + later, 4000, 20 + int(rnd() * 20))
            for _ in range(3):
                other = first + plants + int(rnd() * depots)
                net.arc(node, other, 10**5, 300 + int(rnd() * 300))
    return plan_supplied(net, places, count, periods, sink)


def plan_shops(net, rnd, places, first, later, to_shops, season):
    """The shops of a period: their demands, the depots that supply them, and their stock."""
    depot = first + len(places.plants)
    for j, shop in enumerate(places.shops):
        node = depot + len(places.depots) + j
        net.supply[node] -= season * (5 + int(rnd() * 95)) // 100
        for i in to_shops[j]:
            net.arc(depot + i, node, 200, length(places.depots[i], shop))
        if later:
            net.arc(node, node + later, 100, 60)


def plan_supplied(net, places, count, periods, sink):
    """Sets the supplies of plants. They send a tenth more than the shops take, the same in each
    period. The rest ends at one node, which also sells anything at a high cost."""
    plants = len(places.plants)
    total = -sum(net.supply)
    each = total * 11 // 10 // (periods * plants) + 1
    for period in range(periods):
        for p in range(plants):
            net.supply[period * count + 1 + p] += each
    net.supply[sink] -= each * periods * plants - total
    for p in range(plants):
        for period in range(periods):
            net.arc(period * count + 1 + p, sink, 10**6, 0)
    for last in range(count, periods * count + 1, count):
        for node in range(last - len(places.shops) + 1, last + 1):
            if node != sink:
                net.arc(sink, node, 10**6, 5000)
    for node in range(periods * count + 1, len(net.supply)):
        if node != sink:
            net.arc(node, sink, 10**6, 1)
    return net


def geo(nodes, rnd, words):
    net = Net(nodes)
    points = [(rnd(), rnd()) for _ in range(nodes)]
    side = max(1, int((nodes / 3) ** 0.5))
    cells = {}
    for i, (x, y) in enumerate(points):
        cells.setdefault((int(x * side), int(y * side)), []).append(i)
    for i, point in enumerate(points):
        for j in neighbours(points, cells, side, i)[:6]:
            cost = 1 + int(words.max_cost * squared(point, points[j]) ** 0.5 * side / 10)
            net.arc(i + 1, j + 1, 50 + int(rnd() * 2000), cost)
            if rnd() < 0.5:
                net.arc(j + 1, i + 1, 50 + int(rnd() * 2000), cost)
    for node in range(2, nodes + 1):
        if rnd() < 0.1:
            net.supply[node] = -up_to(rnd, 20)
    net.supply[1] = -sum(net.supply)
    # the depot can also send everything by express
    for node in range(2, nodes + 1):
        if net.supply[node] < 0:
            cost = 2 * words.max_cost + int(rnd() * 2 * words.max_cost)
            net.arc(1, node, 10**6, cost)
    return net


def neighbours(points, cells, side, i):
    """Other points in the cells around a point, at least a dozen, the nearest first."""
    x, y = (int(coordinate * side) for coordinate in points[i])
    found = []
    for reach in range(1, side + 3):
        across = range(x - reach, x + reach + 1)
        around = ((a, b) for a in across for b in range(y - reach, y + reach + 1))
        found = [j for cell in around for j in cells.get(cell, ()) if j != i]
        if len(found) >= 12:
            break
    return sorted(found, key=lambda j: squared(points[i], points[j]))


def star(nodes, rnd, words):
    net = Net(nodes)
    hubs = max(2, int(nodes**0.5))
    for leaf in range(hubs + 1, nodes + 1):
        net.supply[leaf] = int(rnd() * 201) - 100
        for _ in range(2):
            hub = up_to(rnd, hubs)
            net.arc(leaf, hub, 150, up_to(rnd, 100))
            net.arc(hub, leaf, 150, up_to(rnd, 100))
    net.supply[1] -= sum(net.supply)
    for hub in range(1, hubs + 1):
        following = hub % hubs + 1
        net.arc(hub, following, 10**7, up_to(rnd, 50))
        net.arc(following, hub, 10**7, up_to(rnd, 50))
        for _ in range(6):
            other = up_to(rnd, hubs)
            if other != hub:
                net.arc(hub, other, 500 + int(rnd() * 5000), up_to(rnd, 1000))
    return net


FAMILIES = {
    "assignment": assignment,
    "dense": dense,
    "few": few,
    "geo": geo,
    "goto": goto,
    "gridgen": gridgen,
    "large": large,
    "long": long,
    "many": many,
    "netgen": netgen,
    "plan": plan,
    "resting": resting,
    "road": road,
    "small": small,
    "sparse": sparse,
    "star": star,
    "thin": thin,
    "transp": transp,
}


def show(net, rnd, words, out):
    """Gives the arcs of a net new costs and its nodes new supplies, for a flow that prices show to
    be optimal, and writes that answer. Half of the arcs carry nothing, a quarter carry their cap,
    and a quarter carry any amount."""
    prices = [0] + [-int(rnd() * 10 * words.max_cost) for _ in net.supply[1:]]
    net.supply = [0] * len(net.supply)
    total = 0
    flows = []
    for k, (source, target, cap, _) in enumerate(net.arcs):
        kind = rnd()
        reduced = up_to(rnd, words.max_cost) * (1 if kind < 0.5 else -1 if kind < 0.75 else 0)
        flow = 0 if reduced > 0 else cap if reduced < 0 else int(rnd() * (cap + 1))
        cost = prices[source] - prices[target] + reduced
        net.arcs[k] = (source, target, cap, cost)
        net.supply[source] += flow
        net.supply[target] -= flow
        flows.append(f"f {source} {target} {flow}\n")
        total += cost * flow
    out.write(f"s {total}\n")
    out.writelines(flows)
    out.writelines(f"y {node} {price}\n" for node, price in enumerate(prices) if node)


def main():
    parser = argparse.ArgumentParser(description="makes an instance in DIMACS `p min` form")
    parser.add_argument("family", choices=sorted(FAMILIES))
    parser.add_argument("nodes", type=int)
    parser.add_argument("--seed", type=int, default=1)
    parser.add_argument("--output")
    parser.add_argument("--shown", metavar="ANSWER")
    parser.add_argument("--max-cap", type=int, default=1000)
    parser.add_argument("--max-cost", type=int, default=10000)
    parser.add_argument("--degree", type=int, default=8)
    words = parser.parse_args()
    if words.nodes < 8:
        parser.error("an instance has at least 8 nodes")
    rnd = random.Random(words.seed).random
    net = FAMILIES[words.family](words.nodes, rnd, words)
    if words.shown:
        with open(words.shown, "w", encoding="ascii") as out:
            show(net, rnd, words, out)
    note = (
        f"{words.family}, {words.nodes} nodes, seed {words.seed}, caps to {words.max_cap}, "
        f"costs to {words.max_cost}, degree {words.degree}"
    )
    if words.output:
        with open(words.output, "w", encoding="ascii") as out:
            net.write(out, note)
    else:
        net.write(sys.stdout, note)


if __name__ == "__main__":
    main()
