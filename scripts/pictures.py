#!/usr/bin/env python3
"""Draws the pictures of docs/: the basis of each claim, speed, the crates, one pivot, the types
from bytes to bytes, and the phases of the engine `fast`.

    scripts/pictures.py write     writes docs/NAME.svg for each name in DRAWINGS
    scripts/pictures.py check     compares them with what `write` would write; status 1 if one
                                  differs

Speed comes from the table of docs/BENCH.md under "What the tools choose", the crates from
crates.txt. The drawings follow the reader's light or dark scheme.
"""
import html
import pathlib
import re
import sys
from typing import Dict, Iterable, List, NamedTuple, Sequence, Tuple

TOP = pathlib.Path(__file__).resolve().parent.parent
STYLE = """<style>
svg { font: 14px "DejaVu Sans", Verdana, Helvetica, sans-serif; }
text { fill: #1f2933; } .note { fill: #52606d; font-size: 12px; }
.box { fill: #ffffff; stroke: #3d6d94; } .proved { fill: #e3f1e6; stroke: #2f7d4f; }
.line { stroke: #52606d; fill: none; } .grid { stroke: #d5dbe1; } .one { stroke: #c2410c; }
.a { stroke: #3d6d94; } .b { stroke: #2f7d4f; } .c { stroke: #b45309; } .d { stroke: #7c3aed; }
.key { stroke-width: 2.5; fill: none; }
@media (prefers-color-scheme: dark) {
text { fill: #e4e7eb; } .note { fill: #9aa5b1; }
.box { fill: #1f2933; stroke: #7fb2dc; } .proved { fill: #173b29; stroke: #6cc08b; }
.line { stroke: #9aa5b1; } .grid { stroke: #3e4c59; } .one { stroke: #f59e6b; }
.a { stroke: #7fb2dc; } .b { stroke: #6cc08b; } .c { stroke: #f0b866; } .d { stroke: #b79cf7; }
}
</style>"""
ARROW = (
    '<defs><marker id="tip" markerWidth="8" markerHeight="8" refX="7" refY="4" orient="auto">'
    '<path d="M0,0 L8,4 L0,8" class="line"/></marker></defs>'
)


class Box(NamedTuple):
    """A box with its lines of text, the first of them larger, and the lines below the box."""

    x: int
    y: int
    width: int
    height: int
    kind: str
    lines: Sequence[str]
    below: Sequence[str] = ()


def drawing(width: int, height: int, title: str, parts: Iterable[str]) -> str:
    head = (
        f'<svg xmlns="http://www.w3.org/2000/svg" width="{width}" height="{height}"'
        f' viewBox="0 0 {width} {height}" role="img">\n<title>{html.escape(title)}</title>'
    )
    return "\n".join([head, STYLE, ARROW, *parts, "</svg>", ""])


def text(x: float, y: float, said: str, kind: str = "", anchor: str = "middle") -> str:
    mark = f' class="{kind}"' if kind else ""
    return f'<text x="{x:g}" y="{y:g}" text-anchor="{anchor}"{mark}>{html.escape(said)}</text>'


def boxed(box: Box) -> Iterable[str]:
    middle = box.x + box.width / 2
    yield (
        f'<rect x="{box.x}" y="{box.y}" width="{box.width}" height="{box.height}" rx="6"'
        f' class="{box.kind}"/>'
    )
    first = box.y + box.height / 2 + 5 - 9 * (len(box.lines) - 1)
    for k, line in enumerate(box.lines):
        yield text(middle, first + 18 * k, line, "note" if k else "")
    for k, line in enumerate(box.below):
        yield text(middle, box.y + box.height + 18 + 16 * k, line, "note")


def arrow(path: str) -> str:
    return f'<path d="{path}" class="line" marker-end="url(#tip)"/>'


# ---- what each claim rests on


def trust() -> str:
    boxes = [
        Box(10, 60, 120, 56, "box", ["tables"], ["yours"]),
        Box(180, 60, 130, 56, "box", ["instance"], ["made from tables:", "tested, not proved"]),
        Box(
            360,
            60,
            130,
            56,
            "proved",
            ["mcf", "proved"],
            ["rests on the prover", "and the compiler"],
        ),
        Box(540, 60, 120, 56, "box", ["answer"], ["flow and prices,", "or a blocking set"]),
        Box(
            710,
            60,
            130,
            56,
            "proved",
            ["mcfcheck", "proved"],
            ["rests on the same,", "and not on mcf"],
        ),
        Box(890, 60, 110, 56, "box", ["verdict"], ["accepted, only", "if the answer is right"]),
    ]
    parts = [
        text(
            510, 28, "To believe the verdict, trust the checker: not the solver, nor whoever ran it"
        )
    ]
    for box in boxes:
        parts += boxed(box)
    for left, right in zip(boxes, boxes[1:]):
        parts.append(arrow(f"M{left.x + left.width},88 L{right.x - 2},88"))
    parts.append(arrow("M245,60 C245,40 775,40 775,57"))
    return drawing(1010, 170, "What each claim rests on", parts)


# ---- speed


def ratios() -> Tuple[List[int], Dict[str, List[float]]]:
    """The sizes, as powers of 2, and the ratios of each family."""
    rest = (TOP / "docs" / "BENCH.md").read_text().partition("## What the tools choose")[2]
    rows = [line.strip("|").split("|") for line in re.findall(r"(?m)^\|.*\|$", rest)]
    sizes = [int(cell.strip()[2:]) for cell in rows[0][1:]]
    found = {}
    for row in rows[2:]:
        if len(row) != len(rows[0]):
            break
        found[row[0].strip()] = [float(cell) for cell in row[1:]]
    return sizes, found


def speed() -> str:
    sizes, families = ratios()
    left, top, step, unit, most = 60, 40, 66, 100, 2.1
    bottom = top + unit * most

    def place(k: int, ratio: float) -> str:
        return f"{left + step * k:g},{bottom - unit * ratio:g}"

    width = left + step * (len(sizes) - 1)
    parts = [text(left, 24, "time of mcf, as a part of LEMON's better method", anchor="start")]
    for ratio in (0, 0.5, 1, 1.5, 2):
        y = bottom - unit * ratio
        kind = "one" if ratio == 1 else "grid"
        parts.append(f'<path d="M{left},{y:g} L{width},{y:g}" class="{kind}"/>')
        parts.append(text(left - 10, y + 4, f"{ratio:g}", "note", "end"))
    for k, size in enumerate(sizes):
        parts.append(text(left + step * k, bottom + 20, f"2^{size}", "note"))
    parts.append(text((left + width) / 2, bottom + 40, "nodes", "note"))
    for kind, (family, row) in zip("abcd", families.items()):
        points = " ".join(place(k, ratio) for k, ratio in enumerate(row))
        parts.append(f'<polyline points="{points}" class="key {kind}"/>')
    for k, (kind, family) in enumerate(zip("abcd", families)):
        y = top + 18 + 20 * k
        parts.append(f'<path d="M{width + 24},{y - 4} l24,0" class="key {kind}"/>')
        parts.append(text(width + 54, y, family, anchor="start"))
    return drawing(width + 140, int(bottom) + 54, "Speed beside LEMON", parts)


# ---- crates


def stands_on() -> Dict[str, List[str]]:
    """The crates that programs and libraries depend on, each with the crates directly below it."""
    found = {}
    for line in (TOP / "crates.txt").read_text().splitlines():
        name, colon, below = line.partition(":")
        if colon and "test" not in name and "bench" not in name:
            found[name.split()[0]] = below.split()
    found = {name: [it for it in below if it in found] for name, below in found.items()}
    above = {name: {it for mid in below for it in found[mid]} for name, below in found.items()}
    return {name: [it for it in below if it not in above[name]] for name, below in found.items()}


def rows_of(below: Dict[str, List[str]]) -> List[List[str]]:
    """The crates by layers. Each crate is in the lowest layer above its dependencies."""
    height: Dict[str, int] = {}

    def visit(name: str) -> int:
        if name not in height:
            height[name] = 1 + max((visit(it) for it in below[name]), default=-1)
        return height[name]

    for name in below:
        visit(name)
    rows: List[List[str]] = [[] for _ in range(1 + max(height.values()))]
    for name in below:
        rows[height[name]].append(name)
    return rows


def crates() -> str:
    below = stands_on()
    rows = rows_of(below)
    wide, high, gap = 118, 34, 26
    width = max(len(row) for row in rows) * (wide + 14) + 20
    at: Dict[str, Tuple[float, int]] = {}
    for level, row in enumerate(rows):
        y = 20 + (len(rows) - 1 - level) * (high + gap)
        order = sorted(
            row, key=lambda name: sum(at[it][0] for it in below[name]) / (len(below[name]) or 1)
        )
        for k, name in enumerate(order):
            at[name] = (width * (k + 0.5) / len(row), y)
    parts = []
    for name, under in below.items():
        for it in under:
            (x, y), (u, v) = at[name], at[it]
            bend = f"C{x:g},{y + high + 16} {u:g},{v - 16} {u:g},{v}"
            parts.append(f'<path d="M{x:g},{y + high} {bend}" class="line"/>')
    for name, (x, y) in at.items():
        kind = "proved" if name in ("mcf", "mcfcheck", "mcf_c") else "box"
        parts += boxed(Box(int(x - wide / 2), y, wide, high, kind, [name]))
    return drawing(
        int(width),
        20 + len(rows) * (high + gap),
        "The crates, each above those that it stands on",
        parts,
    )


# ---- one pivot of the network simplex


Spots = Dict[str, Tuple[int, int]]
BEFORE: Spots = {
    "root": (170, 70),
    "1": (90, 140),
    "2": (250, 140),
    "3": (50, 210),
    "4": (130, 210),
    "5": (250, 210),
    "6": (130, 280),
    "7": (250, 280),
}
AFTER: Spots = {
    "root": (170, 70),
    "1": (90, 140),
    "2": (250, 140),
    "3": (90, 210),
    "5": (250, 210),
    "7": (250, 280),
    "6": (250, 350),
    "4": (250, 420),
}


def edge(spots: Spots, left: int, low: str, high: str, kind: str) -> str:
    """The tree arc from a node up to its parent."""
    (x, y), (u, v) = spots[low], spots[high]
    return f'<path d="M{left + x},{y} L{left + u},{v}" class="{kind}"/>'


def node(spots: Spots, left: int, name: str) -> Iterable[str]:
    x, y = spots[name]
    yield f'<circle cx="{left + x}" cy="{y}" r="17" class="box"/>'
    yield text(left + x, y + 5, name if name != "root" else "0")


def pivot() -> str:
    far = 380
    parts = [
        text(170, 28, "before"),
        text(far + 170, 28, "after"),
        text(130, 318, "inner", "note"),
        text(250, 318, "outer", "note"),
        text(222, 64, "apex, the root here", "note", "start"),
        text(120, 172, "leaving arc", "note", "start"),
        text(190, 270, "entering arc", "note"),
        text(far + 276, 424, "the stem from 6 to 4 is turned,", "note", "start"),
        text(far + 276, 442, "and its part has new depths and prices", "note", "start"),
    ]
    cycle = [("6", "4"), ("4", "1"), ("1", "root"), ("7", "5"), ("5", "2"), ("2", "root")]
    for low, high in cycle:
        parts.append(edge(BEFORE, 0, low, high, "key a" if low != "4" else "key c"))
    parts.append(edge(BEFORE, 0, "3", "1", "line"))
    parts.append('<path d="M130,280 L250,280" class="key b" stroke-dasharray="6 4"/>')
    for low, high in (("1", "root"), ("2", "root"), ("3", "1"), ("5", "2"), ("7", "5")):
        parts.append(edge(AFTER, far, low, high, "line"))
    parts.append(edge(AFTER, far, "6", "7", "key b"))
    parts.append(edge(AFTER, far, "4", "6", "key a"))
    for spots, left in ((BEFORE, 0), (AFTER, far)):
        for name in spots:
            parts += node(spots, left, name)
    return drawing(930, 460, "One pivot: a tree arc leaves, another enters, a part moves", parts)


# ---- from bytes to bytes


STAGES = (
    ("text", "bytes", "the caller's"),
    ("Reader", "lines, rows, arcs", "mcf_instance"),
    ("Instance", "bounds, costs, supplies", "mcf_flows"),
    ("Net", "widths, without lower bounds", "mcf_network"),
    ("Engine", "solve", "mcf_solver chooses it"),
    ("State, prices", "or NodeSet, Side", "mcf_network"),
    ("Answer", "full or sparse flow, or a set", "mcf_answer"),
    ("text", "bytes", "written to a sink"),
)


def walk() -> str:
    wide, high, gap, row = 200, 56, 46, 4
    parts = []
    spots = []
    for k, (name, what, whose) in enumerate(STAGES):
        down, across = divmod(k, row)
        place = across if down == 0 else row - 1 - across
        box = Box(
            10 + place * (wide + gap), 20 + down * 140, wide, high, "box", [name, what], [whose]
        )
        spots.append(box)
        parts += boxed(box)
    for one, two in zip(spots, spots[1:]):
        if one.y == two.y:
            way = 1 if two.x > one.x else -1
            begin = one.x + (one.width if way > 0 else 0)
            end = two.x + (0 if way > 0 else two.width)
            middle = one.y + high // 2
            parts.append(arrow(f"M{begin},{middle} L{end - 2 * way},{middle}"))
        else:
            x = one.x + one.width + 14
            y, v = one.y + high // 2, two.y + high // 2
            parts.append(arrow(f"M{one.x + wide},{y} L{x},{y} L{x},{v} L{two.x + wide + 2},{v}"))
    return drawing(row * (wide + gap), 260, "From bytes to bytes: the types on the way", parts)


# ---- the engine `fast`


def fast() -> str:
    boxes = {
        "start": Box(10, 90, 130, 56, "box", ["net", "sparse enough?"]),
        "simplex": Box(210, 20, 190, 56, "proved", ["network simplex", "watched every n/4 pivots"]),
        "refine": Box(210, 160, 190, 56, "box", ["price refinement", "are the prices e-optimal?"]),
        "phase": Box(450, 160, 190, 56, "box", ["phase at slack e", "augment, update prices"]),
        "finish": Box(690, 160, 170, 56, "box", ["finish", "look for exact prices"]),
        "judge": Box(910, 160, 130, 56, "proved", ["judge", "proved"]),
        "answer": Box(910, 20, 130, 56, "proved", ["greatest prices", "proved"]),
    }
    parts: List[str] = []
    for box in boxes.values():
        parts += boxed(box)
    for way in (
        "M140,104 C170,90 170,48 207,48",
        "M400,48 L907,48",
        "M305,76 L305,157",
        "M400,188 L447,188",
        "M640,188 L687,188",
        "M860,188 L907,188",
        "M975,160 L975,79",
        "M775,216 C775,262 305,262 305,219",
        "M910,174 C800,110 500,110 340,79",
    ):
        parts.append(arrow(way))
    parts += [
        text(312, 122, "a bad case", "note", "start"),
        text(650, 40, "no eligible arc is left", "note"),
        text(540, 262, "halve e, again", "note"),
        text(650, 96, "not right, or out of budget: the simplex solves it", "note"),
        text(983, 122, "right", "note", "start"),
    ]
    return drawing(1050, 280, "The phases of the engine fast", parts)


DRAWINGS = {
    "trust.svg": trust,
    "speed.svg": speed,
    "crates.svg": crates,
    "pivot.svg": pivot,
    "walk.svg": walk,
    "fast.svg": fast,
}


def main(words: List[str]) -> int:
    if words not in (["write"], ["check"]):
        sys.exit(__doc__)
    wrong = 0
    for name, draw in DRAWINGS.items():
        path = TOP / "docs" / name
        if words == ["write"]:
            path.write_text(draw())
        elif not path.exists() or path.read_text() != draw():
            print(f"pictures: docs/{name}: scripts/pictures.py write makes it anew")
            wrong = 1
    return wrong


if __name__ == "__main__":
    sys.exit(main(sys.argv[1:]))
