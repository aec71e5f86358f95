#!/usr/bin/env python3
"""Explains why a network has no flow, and what would help.

A lake and a river send water to three towns by way of two stations. `mcf.Infeasible` names a set of
nodes that must send more than can leave it, or take more than can reach it, and the arcs that limit
it: together they show that no flow exists, so that a change elsewhere can't help. The script lets
the cheapest of these arcs carry what is lacking and solves again, until there is a flow.
"""
import mcf

SUPPLIES = {"lake": 60, "river": 30, "Ahlen": -25, "Borg": -35, "Celle": -30}
# From, to, capacity, cost.
PIPES = [
    ("lake", "north", 50, 2),
    ("river", "south", 40, 3),
    ("north", "south", 10, 1),
    ("north", "Ahlen", 30, 2),
    ("north", "Borg", 20, 4),
    ("south", "Borg", 20, 2),
    ("south", "Celle", 25, 3),
]


def explain(error, pipes):
    """Says in one sentence why there is no flow."""
    names = ", ".join(error.nodes)
    limits = ", ".join(f"{pipes[k][0]} to {pipes[k][1]} ({pipes[k][2]})" for k in error.arcs)
    print(f"{names} must {error.side} {error.must} and can {error.side} {error.can}: {limits}")


def widened(error, pipes):
    """The pipes, with room for what is lacking in the cheapest of those that limit the flow."""
    k = min(error.arcs, key=lambda k: pipes[k][3])
    tail, head, capacity, cost = pipes[k]
    more = error.must - error.can
    print(f"  {tail} to {head} gets {more} more")
    return pipes[:k] + [(tail, head, capacity + more, cost)] + pipes[k + 1 :]


def main():
    pipes = PIPES
    while True:
        try:
            found = mcf.solve(SUPPLIES, pipes)
            break
        except mcf.Infeasible as error:
            explain(error, pipes)
            pipes = widened(error, pipes)
    print(f"a flow of cost {found.cost}:")
    for (tail, head, capacity, _), amount in zip(pipes, found.flow):
        print(f"  {tail} to {head}: {amount} of {capacity}")


if __name__ == "__main__":
    main()
