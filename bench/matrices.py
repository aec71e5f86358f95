#!/usr/bin/env python3
"""Times assignments of cost matrices, a tracker's frames and transport plans, called from Python,
beside scipy, dlib and POT. All calls of ours are judged.

    python3 bench/matrices.py [PART ..] [--most ROWS] [--seed N]

PART
  squares     matrices of 20 to 5,000 rows, by family
  rectangles  matrices with more columns than rows, and the reverse
  dlib        squares of integers, beside dlib, whose solve is timed alone
  frames      2,000 frames of a tracker: 20 to 200 boxes, 1 - IoU, pairs beyond a gate forbidden
  transport   optimal transport between points of the plane, beside POT
  memory      the peak of memory beside the matrix, in bytes an entry

Times are processor seconds, the least of some rounds in turn. A cell is our time over the peer's,
with the peer's milliseconds in brackets; `*` marks one above the goal. Costs must be equal, or ours
less, by exact sums. Needs numpy, scipy and the library; for `transport` POT (python3-pot), and for
`dlib` a C++ compiler and dlib (libdlib-dev).
"""
import argparse
import fractions
import os
import pathlib
import subprocess
import sys
import tempfile
import time

import numpy as np
from scipy.optimize import linear_sum_assignment

TOP = pathlib.Path(__file__).resolve().parent.parent
sys.path.insert(0, str(TOP / "python"))
import mcf

# The seconds after which no further round of a cell starts, and the most rounds.
SECONDS, ROUNDS = 3.0, 40
SQUARES = (20, 100, 200, 500, 1000, 2000, 3000, 5000)
RECTANGLES = ((100, 300), (100, 1000), (1000, 100), (1000, 3000), (500, 5000))
DLIB = (20, 100, 200, 500)
POINTS = (20, 50, 100, 200, 500, 1000)
# The greatest ratio to scipy's time for small matrices, for others, and for great random ones; and
# to POT's time.
GOALS = {"small": 1.2, "all": 0.8, "random": 0.2, "transport": 0.6}
# Families that a search has to go through whole are timed up to this many rows.
HARD = {"i * j": 1000, "rank 3": 3000}


def boxes(chance, count):
    """Boxes of a picture: left, top, right, bottom."""
    corner, size = chance.random((count, 2)) * 1000, chance.random((count, 2)) * 60 + 20
    return np.hstack([corner, corner + size])


def overlap(first, second):
    """Intersection over union, for each pair of boxes."""
    low = np.maximum(first[:, None, :2], second[None, :, :2])
    high = np.minimum(first[:, None, 2:], second[None, :, 2:])
    both = np.clip(high - low, 0, None).prod(axis=2)
    areas = [(b[:, 2] - b[:, 0]) * (b[:, 3] - b[:, 1]) for b in (first, second)]
    return both / (areas[0][:, None] + areas[1][None, :] - both)


def moved(chance, first, count):
    """The boxes of the next frame: those of this one, moved a little, in another order."""
    second = np.vstack([first, boxes(chance, max(0, count - len(first)))])[:count]
    second = second + chance.normal(0, 6, second.shape)
    second[:, 2:] = np.maximum(second[:, 2:], second[:, :2] + 5)
    return chance.permutation(second)


def distances(chance, rows, columns, power):
    """Distances between points of the unit square, or their squares."""
    first, second = chance.random((rows, 2)), chance.random((columns, 2))
    squares = ((first[:, None] - second[None]) ** 2).sum(axis=2)
    return squares if power == 2 else np.sqrt(squares)


def places(rows, columns):
    """The numbers of rows and columns, from 1, as a column and a row."""
    return np.arange(1, rows + 1)[:, None], np.arange(1, columns + 1)[None]


def with_forbidden(chance, matrix, part, value):
    """The matrix with a part of its entries replaced by a value; those of the diagonal stay."""
    spared = np.eye(*matrix.shape, dtype=bool)
    return np.where((chance.random(matrix.shape) < part) & ~spared, value, matrix)


def low_rank(chance, rows, columns):
    """Sums of three products of whole numbers."""
    numbers = chance.integers(0, 1000, (rows, 3)), chance.integers(0, 1000, (3, columns))
    return numbers[0] @ numbers[1]


def first_products(rows, columns):
    return places(rows, columns)[0] * places(rows, columns)[1]


def tracked(chance, rows, columns):
    first = boxes(chance, rows)
    return 1 - overlap(first, moved(chance, first, columns))


FAMILIES = {
    "int64, random": lambda c, n, m: c.integers(0, 10**6, (n, m)),
    "int64, random < 100": lambda c, n, m: c.integers(0, 100, (n, m)),
    "4 values": lambda c, n, m: c.integers(0, 4, (n, m)),
    "i * j mod 101": lambda c, n, m: first_products(n, m) % 101,
    "i * j": lambda c, n, m: first_products(n, m),
    "rank 3": low_rank,
    "abs(i - j)": lambda c, n, m: abs(places(n, m)[0] - places(n, m)[1]),
    "9 of 10 are 10^9": lambda c, n, m: with_forbidden(
        c, c.integers(0, 10**4, (n, m)), 0.9, 10**9
    ),
    "float64, random": lambda c, n, m: c.random((n, m)),
    "float32, random": lambda c, n, m: c.random((n, m), dtype=np.float32),
    "Euclidean": lambda c, n, m: distances(c, n, m, 1),
    "squared": lambda c, n, m: distances(c, n, m, 2),
    "1 - IoU": tracked,
    "half infinite": lambda c, n, m: with_forbidden(c, c.random((n, m)), 0.5, np.inf),
}


def exact_cost(matrix, pairs):
    """The sum of the entries of pairs, exactly."""
    return sum(fractions.Fraction(matrix[i, j].item()) for i, j in zip(*pairs))


def least(*calls):
    """The least processor seconds of each call, in rounds of all."""
    found, begun = [[] for _ in calls], time.monotonic()
    counts = [1] * len(calls)
    for turn in range(ROUNDS):
        for k, call in enumerate(calls):
            start = time.process_time()
            for _ in range(counts[k]):
                call()
            found[k].append((time.process_time() - start) / counts[k])
            if turn == 0:
                counts[k] = max(1, int(0.003 / max(found[k][0], 1e-6)))
        if time.monotonic() - begun > SECONDS:
            break
    return [min(times) for times in found]


def cell(ours, theirs, goal):
    """A cell of a table."""
    return f"{ours / theirs:.2f}{'*' if ours / theirs > goal else ''} ({theirs * 1e3:.3g})"


def compared(family, chance, rows, columns):
    """A cell for a matrix of a family."""
    matrix = FAMILIES[family](chance, rows, columns)
    ours, theirs = mcf.linear_sum_assignment(matrix), linear_sum_assignment(matrix)
    assert exact_cost(matrix, ours) <= exact_cost(matrix, theirs), family
    times = least(lambda: mcf.linear_sum_assignment(matrix), lambda: linear_sum_assignment(matrix))
    kind = "small" if min(rows, columns) < 100 else "all"
    if family.endswith("random") and min(rows, columns) >= 1000:
        kind = "random"
    return cell(*times, GOALS[kind])


def table(title, heads, rows):
    """Prints a table, row by row."""
    print(f"\n{title}\n\n| Costs | " + " | ".join(heads) + " |\n|" + "---|" * (len(heads) + 1))
    for name, cells in rows:
        print(f"| {name} |", end="", flush=True)
        for text in cells:
            print(f" {text} |", end="", flush=True)
        print()


def squares(words):
    sizes = [size for size in SQUARES if size <= words.most]

    def cells(family):
        for size in sizes:
            chance = np.random.default_rng(words.seed + size)
            far = size > HARD.get(family, size)
            yield "" if far else compared(family, chance, size, size)

    rows = ((family, cells(family)) for family in FAMILIES)
    table("Squares, beside scipy", [str(size) for size in sizes], rows)


def rectangles(words):
    shapes = [shape for shape in RECTANGLES if max(shape) <= words.most]
    families = [family for family in FAMILIES if family not in HARD]

    def cells(family):
        for shape in shapes:
            yield compared(family, np.random.default_rng(words.seed + shape[1]), *shape)

    rows = ((family, cells(family)) for family in families)
    table("Rectangles, beside scipy", [f"{n} x {m}" for n, m in shapes], rows)


def with_dlib(words):
    """Squares of integers, by families whose entries are integers."""
    peer = pathlib.Path(tempfile.mkdtemp()) / "peer"
    source = TOP / "bench/peers/assign/matrix.cc"
    built = subprocess.run(["g++", "-O3", "-DNDEBUG", source, "-o", peer], capture_output=True)
    if built.returncode:
        print("dlib: skipped: its program can't be built")
        return
    chance = np.random.default_rng(words.seed)
    families = [f for f in FAMILIES if FAMILIES[f](chance, 2, 2).dtype == np.int64]

    def cells(family):
        for size in DLIB:
            matrix = FAMILIES[family](np.random.default_rng(words.seed + size), size, size)
            matrix.tofile(peer.parent / "costs")
            rounds = str(min(ROUNDS, max(1, 2000000 // size**2)))
            command = [peer, peer.parent / "costs", str(size), rounds]
            seconds, cost = subprocess.check_output(command, text=True).split()
            assert exact_cost(matrix, mcf.linear_sum_assignment(matrix)) == int(cost), family
            ours = least(lambda: mcf.linear_sum_assignment(matrix))[0]
            yield cell(ours, float(seconds), GOALS["small" if size < 100 else "all"])

    rows = ((family, cells(family)) for family in families)
    table("Squares, beside dlib", [str(size) for size in DLIB], rows)


def frames(words):
    """A tracker that matches the boxes of each frame with those of the one before."""
    chance = np.random.default_rng(words.seed)
    matrices = []
    before = boxes(chance, 100)
    for _ in range(2000):
        after = moved(chance, before, int(chance.integers(20, 201)))
        costs = 1 - overlap(before, after)
        matrices.append(np.where(costs > 0.999, 1e5, costs))
        before = after
    ours, theirs = least(
        lambda: [mcf.linear_sum_assignment(matrix) for matrix in matrices],
        lambda: [linear_sum_assignment(matrix) for matrix in matrices],
    )
    print(f"\n2,000 frames, beside scipy: {cell(ours, theirs, GOALS['all'])}")


def transport(words):
    """Transport between points of the plane, by masses that are equal or random."""
    try:
        import ot
    except ImportError:
        print("transport: skipped: POT isn't installed (python3-pot)")
        return

    def cells(power, masses):
        for size in POINTS:
            chance = np.random.default_rng(words.seed + size)
            costs = distances(chance, size, size, power)
            a, b = np.ones((2, size)) if masses == "equal" else chance.random((2, size))
            a, b = a / a.sum(), b / b.sum()
            assert np.isclose(mcf.emd2(a, b, costs), ot.emd2(a, b, costs), rtol=1e-9)
            times = least(lambda: mcf.emd(a, b, costs), lambda: ot.emd(a, b, costs))
            yield cell(*times, 1.2 if size < 100 else GOALS["transport"])

    rows = [
        (f"{name}, {masses} masses", cells(power, masses))
        for name, power in (("Euclidean", 1), ("squared", 2))
        for masses in ("equal", "random")
    ]
    table("Transport, beside POT", [f"{size} points" for size in POINTS], rows)


PEAK = """
import sys
import numpy as np
sys.path[:0] = {paths!r}
import mcf, matrices
matrix = matrices.FAMILIES[{family!r}](np.random.default_rng(1), 3000, 3000)
with open("/proc/self/clear_refs", "w") as file: file.write("5")
def of(name): return [int(l.split()[1]) for l in open("/proc/self/status") if l.startswith(name)][0]
held = of("VmRSS")
mcf.linear_sum_assignment(matrix)
print((of("VmHWM") - held) * 1024 / matrix.size)
"""


def memory(_words):
    """The peak beside the matrix, each in a process of its own."""
    paths = [str(TOP / "python"), str(pathlib.Path(__file__).resolve().parent)]
    for family in ("int64, random", "float64, random", "Euclidean", "half infinite"):
        code = PEAK.format(paths=paths, family=family)
        done = subprocess.run(
            [sys.executable, "-c", code], capture_output=True, text=True, env=os.environ, check=True
        )
        print(f"memory, {family}, 3000 x 3000: {float(done.stdout):.1f} bytes an entry")


PARTS = {f.__name__: f for f in (squares, rectangles, frames, transport, memory)}
PARTS["dlib"] = with_dlib


def main():
    parser = argparse.ArgumentParser(
        description=__doc__, formatter_class=argparse.RawDescriptionHelpFormatter
    )
    parser.add_argument("parts", nargs="*", choices=[[], *PARTS], metavar="PART")
    parser.add_argument("--most", type=int, default=5000, help="the most rows or columns")
    parser.add_argument("--seed", type=int, default=1)
    words = parser.parse_args()
    for part in words.parts or PARTS:
        PARTS[part](words)


if __name__ == "__main__":
    main()
