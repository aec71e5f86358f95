"""The places of boxes and curves in a picture: by Graphviz if it is installed, otherwise by x and y
or in columns."""
import collections
import json
import math
import shutil
import subprocess
import time

# A box by its centre.
Box = collections.namedtuple("Box", "x y width height")
# The boxes of the nodes. For each link, its curve of cubic pieces, and the possible spots for its
# label, the best first.
Layout = collections.namedtuple("Layout", "boxes curves labels")
# The input of a layout: the sizes of boxes, spots on a map or None, links by their nodes from 0,
# and the size of each label or None.
Task = collections.namedtuple("Task", "sizes spots links labels starts")

# The most work for Graphviz, as places times places and links (this takes it about two seconds);
# its time limit in seconds; the greatest width of a picture in ranks. Springs lay out wider
# pictures, and nets with many routes in both directions.
WORK, PATIENCE, WIDEST = 16_000, 4, 2400
# The distance of places on a map; the gap between boxes; the most rounds to reach that gap; how
# often to reorder the columns.
SPREAD, APART, ROUNDS, SWEEPS = 235, 14, 60, 6
# The possible positions of a label along its link, as fractions of the link.
PARTS = 0.45, 0.55, 0.35, 0.65, 0.25, 0.75, 0.15, 0.85


def laid_out(task):
    """The layout of a task, by Graphviz if it is installed and fast enough."""
    program, count = shutil.which("dot"), len(task.sizes)
    if program and count * (count + len(task.links)) <= WORK:
        try:
            return by_graphviz(program, task)
        except (OSError, ValueError, LookupError, subprocess.SubprocessError):
            # If Graphviz fails, lay out the task without it.
            pass
    return straight(parted(map_boxes(task)) if task.spots else column_boxes(task), task)


# ---- Graphviz


def by_graphviz(program, task):
    """The layout by Graphviz: on a map, in ranks, or by springs."""
    until = time.monotonic() + PATIENCE
    if task.spots:
        return graphviz(program, ["-Kneato", "-n"], task, map_boxes(task), until)
    found = graphviz(program, ["-Kdot"], task, None, until)
    left, _, right, _ = edges_of([(box.x, box.y) for box in found.boxes])
    is_wide = right - left > WIDEST
    return graphviz(program, ["-Kneato"], task, None, until) if is_wide else found


def graphviz(program, words, task, boxes, until):
    """The layout by Graphviz, of boxes with or without fixed places on a map."""
    words = [program, *words, "-Tjson"]
    done = subprocess.run(
        words,
        input=graph_text(task, boxes).encode(),
        stdout=subprocess.PIPE,
        stderr=subprocess.DEVNULL,
        timeout=max(0.1, until - time.monotonic()),
        check=True,
    )
    return layout_of(json.loads(done.stdout.decode()), task)


def graph_text(task, boxes):
    """The graph in Graphviz's language. Lengths are in inches, and y points up."""
    # If there are few ranks of many places, they are farther apart, to keep the picture wide.
    ranks = 1 + max(levels_of(len(task.sizes), task.links, task.starts), default=0)
    apart = min(4, max(1.1, len(task.sizes) / ranks / 4))
    lines = [
        (
            f"digraph plan {{ rankdir=LR; nodesep=0.22; ranksep={apart:.1f}; overlap=prism;"
            ' splines=true; sep="+26"; esep="+6";'
        ),
        'node [shape=box, fixedsize=true, label=""]; edge [arrowhead=none, len=2.3, fontsize=11];',
    ]
    for node, (width, height) in enumerate(task.sizes):
        spot = f', pos="{boxes[node].x:.1f},{-boxes[node].y:.1f}"' if boxes else ""
        lines.append(f"n{node} [width={width / 72:.3f}, height={height / 72:.3f}{spot}];")
    for number, ((tail, head), label) in enumerate(zip(task.links, task.labels)):
        # Only the width of a label matters to Graphviz.
        text = f', xlabel="{"0" * max(1, round(label / 6.6))}"' if label else ""
        lines.append(f'n{tail} -> n{head} [id="{number}"{text}];')
    return "\n".join(lines) + "\n}\n"


def layout_of(graph, task):
    """Graphviz's layout."""
    boxes = [None] * len(task.sizes)
    for item in graph.get("objects", []):
        node = int(item["name"][1:])
        boxes[node] = Box(*pair_of(item["pos"]), *task.sizes[node])
    curves, labels = [None] * len(task.links), [None] * len(task.links)
    for item in graph.get("edges", []):
        number = int(item["id"])
        points = [pair_of(word) for word in item["pos"].split(";")[0].split(" ")]
        curves[number] = forward(points, boxes[task.links[number][0]])
        labels[number] = spots_along(curves[number])
        if "xlp" in item:
            labels[number].insert(0, pair_of(item["xlp"]))
    return Layout(boxes, curves, labels)


def pair_of(word):
    """A point of Graphviz, with y pointing down."""
    x, y = word.split(",")
    return float(x), -float(y)


def forward(points, tail):
    """A curve, reversed if needed to begin at the box of its tail."""

    def far(point):
        return math.hypot(point[0] - tail.x, point[1] - tail.y)

    return points if far(points[0]) <= far(points[-1]) else points[::-1]


# ---- Without it


def map_boxes(task, spread=SPREAD):
    """Boxes on a map, with y pointing up."""
    # The differences of halves don't overflow a float.
    xs, ys = [x / 2 for x, _ in task.spots], [y / 2 for _, y in task.spots]
    (left, right), (low, high), wide = (
        (min(xs), max(xs)),
        (min(ys), max(ys)),
        spread * math.sqrt(len(xs)) + 200,
    )
    scale = min(wide / max(right - left, 1e-9), wide * 0.72 / max(high - low, 1e-9))
    if left == right and low == high:
        scale = 1
    return [
        Box((x - left) * scale, (high - y) * scale, *size) for x, y, size in zip(xs, ys, task.sizes)
    ]


def levels_of(count, links, starts):
    """For each node, the number of links from the nearest start. Unreached nodes become new starts,
    first those without an incoming link."""
    after, heads = [[] for _ in range(count)], {head for _, head in links}
    for tail, head in links:
        after[tail].append(head)
    levels = {}
    roots = [node for node in range(count) if node not in heads]
    for begins in [starts, roots, *([node] for node in range(count))]:
        waiting = collections.deque((node, 0) for node in begins)
        while waiting:
            node, level = waiting.popleft()
            if node not in levels:
                levels[node] = level
                waiting.extend((head, level + 1) for head in after[node])
    return [levels[node] for node in range(count)]


def parted(boxes):
    """The same boxes, moved apart if they overlap."""
    boxes = list(boxes)
    for _ in range(ROUNDS):
        moved = False
        order = sorted(range(len(boxes)), key=lambda node: boxes[node].x - boxes[node].width / 2)
        for place, one in enumerate(order):
            for other in order[place + 1 :]:
                if boxes[other].x - boxes[other].width / 2 > edge_right(boxes[one]) + APART:
                    break
                steps = steps_apart(boxes[one], boxes[other])
                if steps:
                    (dx, dy), moved = steps, True
                    for node, sign in ((one, 1), (other, -1)):
                        box = boxes[node]
                        boxes[node] = box._replace(x=box.x + sign * dx, y=box.y + sign * dy)
        if not moved:
            break
    return boxes


def edge_right(box):
    """The right edge of a box."""
    return box.x + box.width / 2


def steps_apart(one, other):
    """How far the first of two overlapping boxes moves along the axis of the smaller overlap, while
    the second moves the other way. None if they don't overlap."""
    dx = (one.width + other.width) / 2 + APART - abs(one.x - other.x)
    dy = (one.height + other.height) / 2 + APART - abs(one.y - other.y)
    if dx <= 0.1 or dy <= 0.1:
        return None
    if dy <= dx:
        return 0, dy / 2 * (-1 if one.y < other.y else 1)
    return dx / 2 * (-1 if one.x < other.x else 1), 0


def columns_of(task):
    """The nodes in columns by their distance from the nodes that send. To have few crossings, each
    node is near the middle of its neighbours in the column before or after."""
    levels = levels_of(len(task.sizes), task.links, task.starts)
    columns = [[] for _ in range(max(levels, default=-1) + 1)]
    near, place = [[] for _ in levels], [0] * len(levels)
    for node, level in enumerate(levels):
        columns[level].append(node)
    for tail, head in task.links:
        near[tail].append(head)
        near[head].append(tail)

    def middle(node, is_forth):
        sign = 1 if is_forth else -1
        others = [place[other] for other in near[node] if sign * (levels[other] - levels[node]) < 0]
        return sum(others) / len(others) if others else place[node]

    for sweep in range(SWEEPS + 1):
        is_forth = sweep % 2 == 1
        for column in columns if is_forth else columns[::-1]:
            if sweep:
                column.sort(key=lambda node: (middle(node, is_forth), node))
            for number, node in enumerate(column):
                place[node] = (number + 0.5) / len(column)
    return columns


def column_boxes(task):
    """Boxes in columns."""
    columns, across, boxes = columns_of(task), 0, [None] * len(task.sizes)
    tallest = max(map(len, columns), default=0)
    for column in columns:
        wide = max(task.sizes[node][0] for node in column)
        step = 62 * min(3, max(1, tallest / len(column) * 0.8))
        for place, node in enumerate(column):
            boxes[node] = Box(
                across + wide / 2, (place - (len(column) - 1) / 2) * step, *task.sizes[node]
            )
        across += wide + 170
    return boxes


def straight(boxes, task):
    """The layout of boxes with fixed places. Links are lines, or curves if several join the same
    boxes or other boxes are between."""
    seen, curves = collections.Counter(), []
    for tail, head in task.links:
        nth = seen[min(tail, head), max(tail, head)]
        seen[min(tail, head), max(tail, head)] += 1
        past = around(boxes, boxes[tail], boxes[head])
        bow = (nth + 1) // 2 * 26 * (1 if nth % 2 else -1) * (1 if tail < head else -1)
        bow = past + nth * 26 if past else bow
        curves.append(
            loop_at(boxes[tail]) if tail == head else bowed(boxes[tail], boxes[head], bow)
        )
    return Layout(boxes, curves, [spots_along(curve) for curve in curves])


def around(boxes, one, other):
    """How far a link between two boxes, one above the other, bends around those between them."""
    if abs(one.x - other.x) >= (one.width + other.width) / 2:
        return 0
    between = [
        box.width
        for box in boxes
        if (box.y - one.y) * (box.y - other.y) < 0
        and abs(box.x - (one.x + other.x) / 2) < box.width / 2
    ]
    return max(between) / 2 + 20 if between else 0


def loop_at(box):
    """The curve of a link from a box to itself, at the upper right corner."""
    right, top = box.x + box.width / 2, box.y - box.height / 2
    return [(right - 14, top), (right - 14, top - 34), (right + 34, top + 10), (right, top + 10)]


def bowed(tail, head, bow):
    """A curve from one box to another, `bow` off the straight line in its middle."""
    dx, dy = head.x - tail.x, head.y - tail.y
    far = math.hypot(dx, dy) or 1
    over = tail.x + dx / 2 - dy / far * bow * 2, tail.y + dy / 2 + dx / far * bow * 2
    (ax, ay), (bx, by) = edge_of(tail, over), edge_of(head, over)
    return [
        (ax, ay),
        (ax + (over[0] - ax) * 2 / 3, ay + (over[1] - ay) * 2 / 3),
        (bx + (over[0] - bx) * 2 / 3, by + (over[1] - by) * 2 / 3),
        (bx, by),
    ]


def edge_of(box, to):
    """The point where the line from the middle of a box to a point leaves the box."""
    dx, dy = to[0] - box.x, to[1] - box.y
    part = min(
        box.width / 2 / abs(dx) if dx else math.inf, box.height / 2 / abs(dy) if dy else math.inf, 1
    )
    return box.x + dx * part, box.y + dy * part


# ---- Curves


def edges_of(points):
    """The least and the greatest x and y of points."""
    xs, ys = [x for x, _ in points] or [0], [y for _, y in points] or [0]
    return min(xs), min(ys), max(xs), max(ys)


def point_at(piece, part):
    """The point of a cubic piece at a fraction of it, from 0 to 1."""
    rest = 1 - part
    weights = rest**3, 3 * rest * rest * part, 3 * rest * part * part, part**3
    return tuple(
        sum(weight * point[axis] for weight, point in zip(weights, piece)) for axis in (0, 1)
    )


def samples(points, count=24):
    """Points along a curve of cubic pieces."""
    found = []
    for begin in range(0, len(points) - 3, 3):
        found += [point_at(points[begin : begin + 4], step / count) for step in range(count)]
    return found + [points[-1]]


def spots_along(points):
    """Spots along a curve: a little before its middle, then farther and farther away."""
    along = samples(points, 12)
    return [along[int(part * (len(along) - 1))] for part in PARTS]
