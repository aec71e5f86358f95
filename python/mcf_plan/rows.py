"""Pictures of many places that send and others that take, as SVG. Each route has a row, and the
rows are in columns. The rows of one place are together, beside its box. The place at the other end
may appear several times."""
import collections

from . import layout
from .drawing import (
    CENTRED,
    SOFT,
    arrow,
    box_at,
    box_swatch,
    framed,
    label_at,
    label_size,
    legend_of,
    line_between,
    text_at,
    text_width,
    xml_text,
)
from .together import slots_of

# With more places than MANY on a side, a picture has rows. Then: the height of a row; the least
# height of a block; the gap between blocks; the gap between columns; the greatest width; the most
# rows of a block.
MANY, ROW, LEAST, GAP, APART, WIDE, LONGEST = 20, 20, 36, 8, 40, 1440, 40
# The edge of a place that appears several times.
DASHED = ' stroke-dasharray="4 3"'

# The rows of one place: its number, and the numbers of its links.
Block = collections.namedtuple("Block", "node links")


def are_better(scene):
    """Whether rows suit a scene: many places send or take, no route continues from the end of
    another, and the places have no spots."""
    tails, heads = ({link[side] for link in scene.links} for side in (0, 1))
    is_map = all(node.spot for node in scene.nodes)
    return max(len(tails), len(heads)) > MANY and not tails & heads and not is_map


def rows_svg(scene, whole):
    """The picture of a scene, whose routes have the rows that they have in one with all routes."""
    tails, heads = ({link[side] for link in whole.links} for side in (0, 1))
    drawing = Rows(scene, whole, 0 if len(tails) <= len(heads) else 1)
    columns = columns_of(drawing.blocks, drawing.wide)
    body = []
    for number, column in enumerate(columns):
        top = 0
        for block in column:
            body += drawing.block(block, number * (drawing.wide + APART), top)
            top += height_of(block) + GAP
    edges = 0, 0, len(columns) * (drawing.wide + APART) - APART, max(map(total_of, columns))
    more = [(22, several_swatch, "stands several times")] if drawing.has_several() else []
    return framed(edges, scene, body, legend_of(scene, box_swatch, more=more), "rows")


class Rows:
    """The content of the picture of a scene, with a row for each route of another one that has all
    of its routes. The places of one side (0 is the side that sends) have blocks of rows."""

    def __init__(self, scene, whole, side):
        self.scene, self.whole, self.side = scene, whole, side
        self.drawn = dict(zip(slots_of(scene, whole), scene.links))
        self.blocks = blocks_of(whole, side)
        ends = [{link[end] for link in whole.links} for end in (0, 1)]
        ends[side] |= {block.node for block in self.blocks}
        self.widths = [
            14 + max(name_width(whole.nodes[node], end == side) for node in ends[end])
            for end in (0, 1)
        ]
        self.between = max(90, 56 + max(label_size(link.label)[0] for link in whole.links))
        self.wide = sum(self.widths) + self.between
        self.count = collections.Counter(block.node for block in self.blocks)
        self.count.update(link[1 - side] for link in whole.links)
        self.blocking = set().union(*scene.groups)

    def has_several(self):
        """Whether a place appears several times."""
        return max(self.count.values()) > 1

    def block(self, block, left, top):
        """A place, its routes, and the other ends of these."""
        high, lines = height_of(block), []
        ends = left + self.widths[0], left + self.widths[0] + self.between
        for place, number in enumerate(block.links):
            y, link = top + (place + 0.5) * high / len(block.links), self.drawn.get(number)
            if link:
                line = line_between(ends[0], y, ends[1])
                lines.append(arrow(link.kind, link.width, link.title, line))
            if link and link.label:
                lines.append(label_at(link, (ends[0] + ends[1]) / 2 - 6, y))
            other = self.whole.links[number][1 - self.side]
            lines.append(self.place(other, 1 - self.side, left, (y, ROW - 3)))
        return lines + [self.place(block.node, self.side, left, (top + high / 2, high))]

    def place(self, number, side, left, upright):
        """The box of a place on a side of its column, by its middle and its height. A box that is
        high enough has the note, too."""
        node, (y, high), wide = self.scene.nodes[number], upright, self.widths[side]
        x = left + (self.wide - wide / 2 if side else wide / 2)
        has_note, told = high >= LEAST and node.note, f"{node.name}: {node.note}"
        lines = [
            box_at(
                layout.Box(x, y, wide, high),
                node.kind,
                number in self.blocking,
                DASHED if self.count[number] > 1 else "",
            ),
            text_at(x, y + (-3 if has_note else 4), 12, node.short),
        ]
        if has_note:
            lines.append(text_at(x, y + 12, 11, node.note, f'{CENTRED} class="note" fill="{SOFT}"'))
        title = f"<title>{xml_text(told if node.note else node.name)}</title>"
        return "\n".join([f"<g>{title}", *lines, "</g>"])


def name_width(node, has_note):
    """The width of a place's texts."""
    note = text_width(node.note, 11) if has_note else 0
    return max(text_width(node.short, 12), note)


def blocks_of(scene, side):
    """The blocks of the places on a side, and of the places without a drawn route. A place with
    many routes has several blocks. The widest routes come first."""
    links, other = collections.defaultdict(list), {link[1 - side] for link in scene.links}
    for number, link in enumerate(scene.links):
        links[link[side]].append(number)
    blocks = []
    for node in range(len(scene.nodes)):
        found = sorted(links[node], key=lambda number: -scene.links[number].width)
        if found or node not in other:
            begins = range(0, max(1, len(found)), LONGEST)
            blocks += [Block(node, found[begin : begin + LONGEST]) for begin in begins]
    return blocks


def height_of(block):
    """The height of a block."""
    return max(LEAST, ROW * len(block.links))


def total_of(blocks):
    """The height of blocks below one another."""
    return sum(map(height_of, blocks)) + GAP * (len(blocks) - 1)


def columns_of(blocks, wide):
    """Blocks in columns: as many columns as make the picture twice as wide as high, or as fit."""
    most = max(1, int((WIDE + APART) / (wide + APART)))
    for count in range(1, most + 1):
        columns = split(blocks, count)
        if total_of(max(columns, key=total_of)) * 2 <= count * (wide + APART):
            break
    return columns


def split(blocks, count):
    """Splits blocks into this many columns of about the same height."""
    limit = max(total_of(blocks) / count, max(map(height_of, blocks)))
    while True:
        columns = [[]]
        for block in blocks:
            if columns[-1] and total_of([*columns[-1], block]) > limit:
                columns.append([])
            columns[-1].append(block)
        if len(columns) <= count:
            return columns
        limit *= 1.03


def several_swatch(x):
    """The box of a place that appears several times, for the legend."""
    return box_at(layout.Box(x + 11, -4, 22, 14), "takes", more=DASHED)
