"""Parts of pictures, as SVG: colours, texts, arrows, the frame and the legend."""
import functools
import html
import math
import unicodedata

from . import layout
from .words import count_of

FONT = 'font-family="DejaVu Sans, Verdana, Helvetica, sans-serif"'
INK, SOFT, SHADE = "#1f2933", "#52606d", "#f9d5cd"
COLOURS = {
    "full": "#c2410c",
    "limits": "#c2410c",
    "forces": "#c2410c",
    "flowing": "#3d6d94",
    "idle": "#b8c0c8",
    "other": "#8a949e",
}
FILLS = {"sends": "#dff0dc", "takes": "#dbe8f7", "passes": "#ffffff"}
KINDS = {"sends": "sends", "takes": "takes", "passes": "passes on"}
BLOCKS = "places that must send or take more than they can"
# The kinds of routes that matter less.
QUIET = ("idle", "other")
CENTRED, LEFT = 'text-anchor="middle"', 'text-anchor="start"'
# Pictures wider than this have larger headings and legends.
PAGE = 1400


# ---- Texts


def text_width(text, size):
    """The approximate width of a text, in pixels."""
    return sum(1.0 if unicodedata.east_asian_width(c) in "WF" else 0.62 for c in text) * size


def xml_text(text):
    """A text, escaped for SVG."""
    return html.escape(
        "".join(c if ord(c) not in (0xFFFE, 0xFFFF) else "?" for c in text), quote=False
    )


def text_at(x, y, size, text, more=CENTRED):
    """A text in SVG, centred by default."""
    return f'<text x="{x:.1f}" y="{y:.1f}" font-size="{size}" {more}>{xml_text(text)}</text>'


# ---- Places and routes


def order_of(links):
    """The numbers of links in drawing order: less important links first, then the widest ones."""
    return sorted(range(len(links)), key=lambda k: (links[k].kind not in QUIET, -links[k].width))


def box_at(box, kind, blocks=False, more=""):
    """The box of a place."""
    edge, wide = (COLOURS["limits"], 2.2) if blocks else (SOFT, 1.1)
    return (
        f'<rect class="{kind}" x="{box.x - box.width / 2:.1f}"'
        f' y="{box.y - box.height / 2:.1f}" width="{box.width:.1f}" height="{box.height:.0f}"'
        f' rx="6" fill="{FILLS[kind]}" stroke="{edge}" stroke-width="{wide}"{more}/>'
    )


def path_of(points):
    """A curve in SVG."""
    words = [f"{x:.1f},{y:.1f}" for x, y in points]
    rows = [" ".join(words[begin : begin + 6]) for begin in range(1, len(words), 6)]
    return f"M{words[0]} C" + "\n".join(rows)


def arrow(kind, width, title, points):
    """The curve of a route, its arrowhead, and a bar before it if the route is full."""
    colour = COLOURS[kind]
    points, corners, (dx, dy) = head_of(points, width)
    tips = " ".join(f"{x:.1f},{y:.1f}" for x, y in corners)
    bar = ""
    if kind in ("full", "limits"):
        x, y, half = points[-1][0] - 4 * dx, points[-1][1] - 4 * dy, 5 + 0.9 * width
        bar = (
            "\n<path"
            f' d="M{x - dy * half:.1f},{y + dx * half:.1f}'
            f' L{x + dy * half:.1f},{y - dx * half:.1f}"'
            f' stroke="{colour}" stroke-width="2.6"/>'
        )
    return (
        f'<g class="{kind}"><title>{xml_text(title)}</title>\n<path'
        f' d="{path_of(points)}"\nfill="none" stroke="{colour}"'
        f' stroke-width="{width:.1f}"/>\n<polygon points="{tips}"'
        f' fill="{colour}"/>{bar}</g>'
    )


def head_of(points, width):
    """A curve shortened for its arrowhead, the corners of the arrowhead, and its direction."""
    tip, before = points[-1], layout.samples(points)[-4]
    far = math.hypot(tip[0] - before[0], tip[1] - before[1]) or 1
    dx, dy = (tip[0] - before[0]) / far, (tip[1] - before[1]) / far
    long, wide = 7 + 1.5 * width, 3 + 0.95 * width
    base = tip[0] - dx * long, tip[1] - dy * long
    corners = [
        tip,
        (base[0] - dy * wide, base[1] + dx * wide),
        (base[0] + dy * wide, base[1] - dx * wide),
    ]
    bent = points[-2][0] - dx * long * 0.7, points[-2][1] - dy * long * 0.7
    return points[:-2] + [bent, (base[0] + dx, base[1] + dy)], corners, (dx, dy)


def line_between(x, y, to):
    """A horizontal line from a spot, as a curve."""
    return [(x + (to - x) * part / 3, y) for part in range(4)]


def label_size(text, size=1):
    """The width and the height of a label."""
    return (text_width(text, 11) + 6) * size, 15 * size


def label_at(link, x, y, size=1):
    """The label of a route."""
    more = f'class="{link.kind}" fill="{COLOURS[link.kind]}" font-weight="bold"'
    return tag_at(link.label, x, y, size, more)


def tag_at(text, x, y, size, more):
    """A text with a background of its own."""
    wide, high = label_size(text, size)
    return (
        f'<rect class="ground" x="{x - wide / 2:.1f}" y="{y - high / 2:.1f}" width="{wide:.1f}"'
        f' height="{high:.1f}" rx="5" fill="#ffffff" fill-opacity="0.88"/>\n'
        + text_at(x, y + 4 * size, round(11 * size, 1), text, f"{CENTRED} {more}")
    )


# ---- The whole


def names_of(scene):
    """The title of a picture and its description for those who can't see it."""
    title = f"{scene.caption.title}: " if scene.caption and scene.caption.title else ""
    places = count_of(len(scene.nodes), "place", "places")
    routes = count_of(len(scene.links), "route", "routes")
    return [
        f"<title>{xml_text(title + scene.heading)}</title>",
        f"<desc>Drawn are {places} and {routes}; the tables have all of them.</desc>",
    ]


def framed(edges, scene, body, legend, kind="boxes"):
    """A whole picture: its frame, its heading, its content and the legend below. `kind` is a class
    in the page's style sheet."""
    size = growth_of(edges)
    (lines, across), (headings, along) = legend, headings_of(scene)
    left, right = edges[0] - 32, edges[2] + 32
    top = edges[1] - 38 - (12 + 20 * len(headings)) * size
    bottom = edges[3] + 20 + 36 * size
    wide, high = max(left + 48 + max(across, along) * size, right) - left, bottom - top
    return (
        "\n".join(
            [
                (
                    f'<svg xmlns="http://www.w3.org/2000/svg" class="{kind}" role="img"'
                    f' width="{wide:.0f}" height="{high:.0f}"'
                    f' viewBox="{left:.1f} {top:.1f} {wide:.1f} {high:.1f}"'
                ),
                f'{FONT} fill="{INK}">',
                *names_of(scene),
                (
                    f'<rect class="ground" x="{left:.1f}" y="{top:.1f}" width="{wide:.1f}"'
                    f' height="{high:.1f}" fill="#ffffff"/>'
                ),
                at(left + 24, top + 32 * size, size, headings),
                *body,
                at(left + 24, bottom - 20 * size, size, lines),
                "</svg>",
            ]
        )
        + "\n"
    )


def at(x, y, size, lines):
    """Moves and scales lines that are drawn around 0, 0."""
    grown = f" scale({size:.2f})" if size != 1 else ""
    return "\n".join([f'<g transform="translate({x:.1f} {y:.1f}){grown}">', *lines, "</g>"])


def growth_of(edges):
    """The growth of texts in a picture that is wider than a page."""
    return max(1, (edges[2] - edges[0]) / PAGE)


def headings_of(scene):
    """The lines above a picture (the title, the heading, the tables) and their width."""
    caption = scene.caption
    texts = [caption.title, scene.heading, caption.source] if caption else [scene.heading]
    lines, wide = [], 0
    for text in filter(None, texts):
        size = 12 if lines else 17
        more = ' class="note"' + f' fill="{SOFT}"' if lines else ' font-weight="bold"'
        lines.append(text_at(0, 20 * len(lines), size, text, LEFT + more))
        wide = max(wide, text_width(text, size))
    return lines, wide


def sample(kind, x):
    """A route of a kind, for the legend."""
    return arrow(kind, 2.6 if kind == "limits" else 5, "", line_between(x, -4, x + 42))


def legend_of(scene, swatch, route=sample, more=()):
    """The legend of colours and marks, and where it ends. `swatch` draws a kind of places, or
    "blocks"; `route` draws a kind of routes. Each entry of `more` has the width of a drawing, a
    function that draws it at its origin, and words."""
    entries = [(22, functools.partial(swatch, kind), words) for kind, words in KINDS.items()]
    entries += [(44, functools.partial(route, kind), words) for kind, words in scene.notes.items()]
    entries += [(24, functools.partial(swatch, "blocks"), BLOCKS)] if scene.groups else []
    lines, x = [], 0
    for wide, drawn, words in [*entries, *more]:
        lines += [drawn(x), text_at(x + wide + 6, 0, 12, words, LEFT)]
        x += wide + 22 + text_width(words, 12)
    return lines, x


def box_swatch(kind, x):
    """A box of a kind, or the shade behind places that block, for the legend."""
    if kind == "blocks":
        return shade_at(layout.Box(x + 12, -4, 24, 16), 6)
    return box_at(layout.Box(x + 11, -4, 22, 14), kind)


def shade_at(box, round_by):
    """The shade behind a box."""
    return (
        f'<rect class="shade" x="{box.x - box.width / 2:.1f}" y="{box.y - box.height / 2:.1f}"'
        f' width="{box.width:.1f}" height="{box.height:.1f}" rx="{round_by}" fill="{SHADE}"/>'
    )
