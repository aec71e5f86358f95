#!/usr/bin/env python3
"""Times a problem that is solved again after ten costs have changed, beside LEMON's network simplex
from a kept graph.

    python3 bench/again.py [--family NAME] [--rounds N] [--changes N] [SIZE ..]

SIZE is nodes x degree, such as 5000x10 (bench/gen.py). Both sides make the same changes, and must
find the same costs. Times are CPU milliseconds, medians of the rounds: of `mcf.Problem` from its
last answer, unjudged and judged by the checker; of `mcf.solve_arrays` from nothing; and of LEMON
1.3.1 (bench/peers/lemon_again.cc). Needs the library (make library, or MCF_LIBRARY), g++ and
liblemon-dev; with numpy, the columns are arrays of it.
"""
import argparse
import pathlib
import statistics
import subprocess
import sys
import tempfile
import time
from array import array

TOP = pathlib.Path(__file__).resolve().parent.parent
sys.path.insert(0, str(TOP / "python"))
import mcf

try:
    import numpy
except ImportError:
    numpy = None


def column(values):
    return array("q", values) if numpy is None else numpy.array(values)


class Chance:
    """The generator of the peer."""

    def __init__(self):
        self.seed = 12345

    def below(self, most):
        self.seed = (self.seed * 6364136223846793005 + 1442695040888963407) % 2**64
        return (self.seed >> 33) % most


def read(path):
    """The columns of an instance: supplies, tails, heads, capacities and costs."""
    supplies, rows = [], []
    for line in path.read_text().splitlines():
        words = line.split()
        if words[0] == "p":
            supplies = [0] * int(words[2])
        elif words[0] == "n":
            supplies[int(words[1]) - 1] = int(words[2])
        elif words[0] == "a":
            rows.append(list(map(int, words[1:])))
    src, dst, _, cap, cost = zip(*rows)
    return supplies, [v - 1 for v in src], [v - 1 for v in dst], cap, cost


def timed(call):
    """The CPU milliseconds of a call, and its result."""
    start = time.process_time()
    result = call()
    return (time.process_time() - start) * 1e3, result


def ours(path, words, again, check):
    """The median of a round, and the sum of the costs."""
    columns = read(path)
    problem, chance = mcf.Problem(*map(column, columns)), Chance()
    arcs, most = len(problem), max(columns[4])
    problem.solve()
    times, total = [], 0
    for _ in range(words.rounds):
        changed = [(chance.below(arcs), 1 + chance.below(most)) for _ in range(words.changes)]

        def one():
            problem.set_costs(*zip(*changed))
            if again:
                return problem.solve(check=check)
            names = ("supplies", "src", "dst", "cap", "cost")
            return mcf.solve_arrays(*map(problem.column, names), check=check)

        taken, found = timed(one)
        times.append(taken)
        total += found.cost
    return statistics.median(times), total


def main():
    words = argparse.ArgumentParser(usage=__doc__.split("\n")[3].strip())
    words.add_argument("sizes", nargs="*", default=["60x10", "1000x5", "5000x10"])
    words.add_argument("--family", default="netgen")
    words.add_argument("--rounds", type=int, default=50)
    words.add_argument("--changes", type=int, default=10)
    words = words.parse_args()
    print("| Nodes x degree | again, unjudged | again, judged | from nothing, unjudged | LEMON |")
    print("|---|---|---|---|---|")
    with tempfile.TemporaryDirectory() as folder:
        peer, path = pathlib.Path(folder, "peer"), pathlib.Path(folder, "net.min")
        source = TOP / "bench" / "peers" / "lemon_again.cc"
        build = ["g++", "-O3", "-DNDEBUG", "-w", str(source), "-o", str(peer), "-llemon"]
        subprocess.run(build, check=True)
        for size in words.sizes:
            nodes, degree = size.split("x")
            generate = [words.family, nodes, "--degree", degree, "--output", str(path)]
            subprocess.run([sys.executable, TOP / "bench" / "gen.py", *generate], check=True)
            ask = [peer, path, str(words.rounds), str(words.changes)]
            said = subprocess.run(ask, check=True, capture_output=True, text=True).stdout.split()
            lemon, total = float(said[0]), int(said[1])
            found = [ours(path, words, *how) for how in ((1, False), (1, True), (0, False))]
            assert {cost for _, cost in found} == {total}, (found, total)
            cells = [f"{taken:.3g} ({taken / lemon:.2f})" for taken, _ in found]
            print(f"| {size} | {' | '.join(cells)} | {lemon:.3g} |", flush=True)


main()
