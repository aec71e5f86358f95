#!/usr/bin/env python3
"""Times calls of the Python module mcf, beside scipy and networkx if they are installed. The times
are processor seconds, the least of some rounds.

    python3 bench/python_calls.py [--rounds N]

Both must find the same costs. Needs Python 3.8 and the library (make library, or MCF_LIBRARY).
"""
import argparse
import importlib
import pathlib
import random
import sys
import time

TOP = pathlib.Path(__file__).resolve().parent.parent
sys.path.insert(0, str(TOP / "python"))
import mcf

# The least seconds of one round, and the seconds of a call's rounds after which no further round
# starts.
ROUND, ALL = 0.1, 20


def installed(name):
    try:
        return importlib.import_module(name)
    except ImportError:
        print(f"skipped: {name} isn't installed")
        return None


def least(call, rounds):
    """The least seconds of a call."""
    begun, found = time.process_time(), []
    call()
    count = max(1, int(ROUND / max(time.process_time() - begun, 1e-6)))
    for _ in range(rounds):
        start = time.process_time()
        for _ in range(count):
            call()
        found.append((time.process_time() - start) / count)
        if time.process_time() - begun > ALL:
            break
    return min(found)


def show(what, seconds):
    print(f"{what:56} {seconds * 1e6:12,.0f} us", flush=True)


def assignments(n, rounds):
    """Random dense assignments of n rows."""
    chance = random.Random(n)
    costs = [[chance.randrange(1, 1000) for _ in range(n)] for _ in range(n)]
    numpy, scipy = installed("numpy"), installed("scipy.optimize")
    for name, matrix in [("lists", costs)] + ([("numpy", numpy.array(costs))] if numpy else []):
        for check in (False, True):
            seconds = least(lambda: mcf.linear_sum_assignment(matrix, check=check), rounds)
            show(f"{n} x {n} from {name}, {'judged' if check else 'unjudged'}", seconds)
        if scipy:
            show(
                f"{n} x {n} from {name}, scipy",
                least(lambda: scipy.linear_sum_assignment(matrix), rounds),
            )
            ours, theirs = (
                sum(costs[i][j] for i, j in zip(*find(matrix)))
                for find in (mcf.linear_sum_assignment, scipy.linear_sum_assignment)
            )
            assert ours == theirs, (ours, theirs)


def nets(n, m, rounds):
    """Random nets of n nodes and m arcs: a ring that can carry all, and other arcs."""
    chance = random.Random(n)
    ends = [(v, (v + 1) % n) for v in range(n)] + list(
        {tuple(chance.sample(range(n), 2)) for _ in range(m - n)}
    )
    arcs = [
        (
            u,
            v,
            10**6 if k < n else chance.randrange(1, 100),
            chance.randrange(100 if k < n else 1, 1000),
        )
        for k, (u, v) in enumerate(dict.fromkeys(ends))
    ]
    supplies = [0] * n
    for _ in range(max(2, n // 8)):
        u, v = chance.sample(range(n), 2)
        amount = chance.randrange(1, 50)
        supplies[u] += amount
        supplies[v] -= amount
    size = f"{n} nodes, {len(arcs)} arcs"
    show(f"{size}, mcf.solve, judged", least(lambda: mcf.solve(supplies, arcs), rounds))
    networkx = installed("networkx")
    if networkx:
        from mcf import nx

        graph = networkx.DiGraph()
        graph.add_nodes_from((v, {"demand": -b}) for v, b in enumerate(supplies))
        graph.add_edges_from((u, v, {"capacity": cap, "weight": cost}) for u, v, cap, cost in arcs)
        show(
            f"{size}, mcf.nx.network_simplex, judged",
            least(lambda: nx.network_simplex(graph), rounds),
        )
        show(f"{size}, networkx", least(lambda: networkx.network_simplex(graph), rounds))
        assert mcf.solve(supplies, arcs).cost == networkx.network_simplex(graph)[0]


def main():
    words = argparse.ArgumentParser(
        description=__doc__, formatter_class=argparse.RawDescriptionHelpFormatter
    )
    words.add_argument(
        "--rounds", type=int, default=15, help="how many rounds at most; 15 where nothing is said"
    )
    rounds = words.parse_args().rounds
    for n in (50, 200):
        assignments(n, rounds)
    for n, m in ((10, 30), (2**10, 2**13), (2**12, 2**15)):
        nets(n, m, rounds)


main()
