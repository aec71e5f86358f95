"""Pictures of many places, as SVG: dots, with as many names and amounts as fit."""
import itertools
import math

from . import layout
from .drawing import (
    COLOURS,
    PAGE,
    QUIET,
    framed,
    growth_of,
    label_at,
    label_size,
    legend_of,
    tag_at,
    xml_text,
)
from .room import Room

DOTS = {"sends": "#5b9a52", "takes": "#4d7fb3", "passes": "#8a949e"}
# The radius of a dot; the distance between dots of a block; the greatest and the least distance
# between blocks; the most names and amounts to try.
ROUND, STEP, FAR, NEAR, TRIED = 3.4, 16, 220, 90, 1000


def dots_svgs(scenes, whole):
    """The pictures of scenes with many places, beside a scene that has all of their routes. The
    dots are on a map, or in blocks by their distance from the places that send."""
    spots = dot_spots(whole, weights_of(whole, important(whole)))
    drawn = [content_of(scene, spots) for scene in scenes]
    corners = [corner for _, edges in drawn for corner in (edges[:2], edges[2:])]
    edges = layout.edges_of(corners)
    return [
        framed(edges, scene, body, legend_of(scene, dot_swatch, route_sample), "dots")
        for scene, (body, _) in zip(scenes, drawn)
    ]


def important(scene):
    """The routes that matter."""
    return [link for link in scene.links if link.kind not in QUIET]


def content_of(scene, spots):
    """What a picture has, and the edges of that. Important routes are arrows."""
    chosen = important(scene)
    weights, blocking = weights_of(scene, chosen), set().union(*scene.groups)
    tags, edges = labels(scene, chosen, weights, spots, growth_of(layout.edges_of(spots)))
    body = [
        route(link.kind, link.width / 2, link.title, spots[link.tail], spots[link.head])
        for link in sorted(chosen, key=lambda link: (link.kind != "flowing", -link.width))
    ]
    for number, (node, (x, y)) in enumerate(zip(scene.nodes, spots)):
        edge = f' stroke="{COLOURS["limits"]}" stroke-width="2"' if number in blocking else ""
        told = f"{node.name}: {node.note}" if node.note else node.name
        body.append(
            f'<circle cx="{x:.1f}" cy="{y:.1f}" r="{ROUND if node.note else 2.2}"'
            f' fill="{DOTS[node.kind]}"{edge}><title>{xml_text(told)}</title></circle>'
        )
    return body + tags, edges


def weights_of(scene, links):
    """The importance of places. Places that block come first, then places with wide routes."""
    weights = [0.0] * len(scene.nodes)
    for link in links:
        weights[link.tail] += link.width
        weights[link.head] += link.width
    for node in set().union(*scene.groups):
        weights[node] += 1e9
    return weights


def route(kind, width, title, begin, end):
    """An arrow between two dots, with a bar before its head if the route is full."""
    far = math.hypot(end[0] - begin[0], end[1] - begin[1]) or 1
    dx, dy = (end[0] - begin[0]) / far, (end[1] - begin[1]) / far
    long, half = min(far / 2, 5 + 1.6 * width), 2 + width

    def at(back, aside):
        x, y = end[0] - dx * back - dy * aside, end[1] - dy * back + dx * aside
        return f"{x:.1f},{y:.1f}"

    base = ROUND + long
    corners = [at(far, width / 2), at(base, width / 2), at(base, half), at(ROUND, 0)]
    corners += [at(base, -half), at(base, -width / 2), at(far, -width / 2)]
    path = f"M{' L'.join(corners)} Z"
    if kind in ("full", "limits"):
        bar = [at(base + back, aside * (half + 1.5)) for back, aside in BAR]
        path += f" M{' L'.join(bar)} Z"
    return (
        f'<path class="{kind}" d="{path}" fill="{COLOURS[kind]}" fill-opacity="0.75">'
        f"<title>{xml_text(title)}</title></path>"
    )


# The corners of a bar: the distance before the head, and the side.
BAR = (1.5, 1), (1.5, -1), (3, -1), (3, 1)


def labels(scene, links, weights, spots, size):
    """The names of the most important places and the amounts of the widest routes, alternately, at
    spots that cover no dot and no other label. Also returns the edges of the whole."""
    room, lines = Room(), []
    for x, y in spots:
        room.take((x - ROUND, y - ROUND, x + ROUND, y + ROUND))
    nodes = [node for node in range(len(spots)) if weights[node]]
    nodes.sort(key=lambda node: -weights[node])
    told = sorted((link for link in links if link.label), key=lambda link: -link.width)
    for node, link in itertools.zip_longest(nodes[:TRIED], told[:TRIED]):
        if node is not None:
            name = scene.nodes[node].short
            wide, high = label_size(name, size)
            spot = room.first(spots_beside(spots[node], wide, high), (wide, high))
            lines += [tag_at(name, *spot, size, 'class="name"')] if spot else []
        if link is not None:
            wide, high = label_size(link.label, size)
            spot = room.first(spots_between(spots[link.tail], spots[link.head], wide), (wide, high))
            lines += [label_at(link, *spot, size)] if spot else []
    return lines, room.bounds()


def spots_between(begin, end, wide):
    """The possible spots for the amount of a route, if its arrow is long enough to see."""
    (ax, ay), (bx, by) = begin, end
    if math.hypot(bx - ax, by - ay) < wide + 20:
        return []
    return [(ax + (bx - ax) * part, ay + (by - ay) * part) for part in layout.PARTS]


def spots_beside(spot, wide, high):
    """The possible spots for the name of a dot: to the right, to the left, above and below."""
    x, y = spot
    aside, over = ROUND + 1 + wide / 2, ROUND + high / 2
    return [(x + aside, y), (x - aside, y), (x, y - over), (x, y + over)]


def dot_spots(scene, weights):
    """The spots of the dots."""
    spots = [node.spot for node in scene.nodes]
    links = [link[:2] for link in scene.links]
    starts = [number for number, node in enumerate(scene.nodes) if node.kind == "sends"]
    if spots and all(spots):
        task = layout.Task([(0, 0)] * len(spots), spots, links, [], starts)
        return [(box.x, box.y) for box in layout.map_boxes(task, (PAGE - 200) / len(spots) ** 0.5)]
    levels = layout.levels_of(len(scene.nodes), links, starts)
    blocks = [[] for _ in range(max(levels, default=-1) + 1)]
    # The most important dots of a block are at its right, where names have room.
    for node in sorted(range(len(levels)), key=lambda node: weights[node]):
        blocks[levels[node]].append(node)
    high = max(8, math.ceil(math.sqrt(len(levels))))
    wides = [math.ceil(len(block) / high) * STEP for block in blocks]
    between = min(FAR, max(NEAR, (PAGE - sum(wides)) / max(1, len(blocks))))
    # The distance of rows is the height of names, which are larger in a wider picture.
    down = STEP * growth_of((0, 0, sum(wides) + between * len(wides), 0))
    across, spots = 0, [None] * len(levels)
    for block, wide in zip(blocks, wides):
        for place, node in enumerate(block):
            spots[node] = across + place // high * STEP, place % high * down
        across += wide + between
    return spots


def dot_swatch(kind, x):
    """A dot of a kind, or one that blocks, for the legend."""
    edge = f' stroke="{COLOURS["limits"]}" stroke-width="2"' if kind == "blocks" else ""
    fill = DOTS["passes" if kind == "blocks" else kind]
    return f'<circle cx="{x + 11:.1f}" cy="-4" r="5" fill="{fill}"{edge}/>'


def route_sample(kind, x):
    """An arrow of a kind, for the legend."""
    return route(kind, 2.5, "", (x, -4), (x + 42, -4))
