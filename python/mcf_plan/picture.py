"""The pictures of scenes, as SVG. They have boxes and arrows; for many places they have dots, or
rows if some places send and the others take."""
from . import layout, rows
from .dots import dots_svgs
from .drawing import (
    CENTRED,
    QUIET,
    SHADE,
    SOFT,
    arrow,
    box_at,
    box_swatch,
    framed,
    label_at,
    label_size,
    legend_of,
    order_of,
    path_of,
    shade_at,
    text_at,
    text_width,
    xml_text,
)
from .room import Room
from .together import slots_of, together

# With more places or routes than these, a picture has dots instead of boxes.
BOXES, CURVES = 300, 1500
# How far labels may reach into boxes, beside the text.
INNER = 3


def svg_of(scene):
    """The picture of a scene."""
    return svgs_of([scene])[0]


def svgs_of(scenes):
    """The pictures of scenes of the same places, each of which is at the same spot in all."""
    whole = together(scenes)
    if len(whole.nodes) > BOXES or len(whole.links) > CURVES:
        return dots_svgs(scenes, whole)
    if rows.are_better(whole):
        return [rows.rows_svg(scene, whole) for scene in scenes]
    found = layout.laid_out(task_of(whole))
    return [boxes_svg(scene, found, slots_of(scene, whole)) for scene in scenes]


def task_of(scene):
    """The task of laying out a scene."""
    spots = [node.spot for node in scene.nodes]
    starts = [number for number, node in enumerate(scene.nodes) if node.kind == "sends"]
    return layout.Task(
        [box_size(node) for node in scene.nodes],
        spots if spots and all(spots) else None,
        [link[:2] for link in scene.links],
        [label_size(link.label)[0] if link.label else None for link in scene.links],
        starts,
    )


def box_size(node):
    """The width and the height of a place's box."""
    wide = max(text_width(node.short, 13), text_width(node.note, 11))
    return max(44, wide + 16), 38 if node.note else 24


def boxes_svg(scene, found, slots):
    """The picture of a scene with boxes and curves, by a layout of perhaps more routes, among which
    those of the scene have these numbers."""
    boxes, curves = found.boxes, [found.curves[slot] for slot in slots]
    links, order = scene.links, order_of(scene.links)
    blocking = set().union(*scene.groups)
    body = shades(scene, boxes, curves)
    body += [arrow(links[k].kind, links[k].width, links[k].title, curves[k]) for k in order]
    body += [
        place_box(node, boxes[number], number in blocking)
        for number, node in enumerate(scene.nodes)
    ]
    body += free_labels(links, boxes, [found.labels[slot] for slot in slots])
    corners = [
        (box.x + sign * box.width / 2, box.y + sign * box.height / 2)
        for box in boxes
        for sign in (-1, 1)
    ]
    corners += [point for curve in found.curves for point in layout.samples(curve, 6)]
    return framed(layout.edges_of(corners), scene, body, legend_of(scene, box_swatch))


def free_labels(links, boxes, labels):
    """The labels of the routes, the widest first, at spots that cover no place and no other label.
    A label without such a spot is left out, because the arrow has the amount, too."""
    room, lines = Room(), []
    for box in boxes:
        wide, high = box.width / 2 - INNER, box.height / 2 - INNER
        room.take((box.x - wide, box.y - high, box.x + wide, box.y + high))
    for k in sorted(range(len(links)), key=lambda k: (links[k].kind in QUIET, -links[k].width)):
        spot = links[k].label and room.first(labels[k], label_size(links[k].label))
        if spot:
            lines.append(label_at(links[k], *spot))
    return lines


def place_box(node, box, blocks):
    """The box of a place, with its name and its note."""
    lines = [
        box_at(box, node.kind, blocks),
        text_at(box.x, box.y + (-3 if node.note else 4.5), 13, node.short),
    ]
    if node.note:
        more = f'{CENTRED} class="note" fill="{SOFT}"'
        lines.append(text_at(box.x, box.y + 12.5, 11, node.note, more))
    return "\n".join([f"<g><title>{xml_text(node.name)}</title>", *lines, "</g>"])


def shades(scene, boxes, curves):
    """The shade behind the places that block and the routes between them."""
    lines = []
    for group in scene.groups:
        for box in (boxes[number] for number in sorted(group)):
            grown = box._replace(width=box.width + 30, height=box.height + 30)
            lines.append(shade_at(grown, 18))
        lines += [
            f'<path class="shade" d="{path_of(points)}" \nfill="none" stroke="{SHADE}"'
            ' stroke-width="30" stroke-linecap="round"/>'
            for link, points in zip(scene.links, curves)
            if {link.tail, link.head} <= group
        ]
    return lines
