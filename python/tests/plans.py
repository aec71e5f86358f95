#!/usr/bin/env python3
"""Finds least-cost plans of small random models by trying all of them, without code of the suite.

    python/tests/plans.py write     writes the rows of crates/mcf_plan_tests/src/tried.rt
    python/tests/plans.py check     compares them with what `write` would write; status 1 if they
                                    differ

A model has three places and three routes. A route has a least amount, and steps of rising cost that
are filled in order; the last step may be without a limit, and the route may go both ways. The
script tries all amounts in halves of a unit, up to one more than all supplies, demands and least
amounts together. It uses one in ten of the models without a plan.
"""
import itertools
import random
from fractions import Fraction

from table_rows import random_rows, write_or_check

COUNT, SEED = 16, 1
PLACES = 3
ROUTES = 3
# No route whose steps are all limited carries more.
MOST = 8


def charge(route, amount):
    """The cost of an amount on a route, or None if the route can't carry it."""
    charged = abs(amount) if route["both"] else amount
    if charged < route["least"]:
        return None
    cost = 0
    for most, price in route["steps"]:
        filled = min(charged, most)
        cost += price * filled
        charged -= filled
    if route["last_most"] is not None and charged > route["last_most"]:
        return None
    return cost + route["last_cost"] * charged


def least(supplies, routes):
    """The cost of a least-cost plan, or None if no plan exists."""
    reach = 1 + sum(map(abs, supplies)) + sum(abs(route["least"]) for route in routes)
    reach = max(reach, MOST)
    amounts = [Fraction(half, 2) for half in range(-2 * reach, 2 * reach + 1)]
    costs = [
        [(amount, cost) for amount in amounts if (cost := charge(route, amount)) is not None]
        for route in routes
    ]
    best = None
    for chosen in itertools.product(*costs[:-1]):
        left = list(supplies)
        for route, (amount, _) in zip(routes, chosen):
            left[route["tail"] - 1] -= amount
            left[route["head"] - 1] += amount
        last = routes[-1]
        tail, head = last["tail"] - 1, last["head"] - 1
        if any(left[place] for place in range(PLACES) if place not in (tail, head)):
            continue
        for amount in [left[tail]] if tail != head else [at for at, _ in costs[-1]]:
            cost = charge(last, amount)
            is_met = not left[tail] if tail == head else left[tail] == amount == -left[head]
            if is_met and cost is not None:
                total = cost + sum(cost for _, cost in chosen)
                best = total if best is None else min(best, total)
    return best


def random_model(rng):
    """A random model without a fault."""
    limited = rng.random() < 0.5
    routes = []
    for _ in range(ROUTES):
        both = rng.random() < 0.3
        low = 0 if both or not limited else -3
        prices = sorted(rng.randint(low, 6) for _ in range(2))
        stepped = rng.random() < 0.5
        tail, head = rng.sample(range(1, PLACES + 1), 2)
        routes.append(
            {
                "tail": tail,
                "head": head if rng.random() < 0.9 else tail,
                "least": 0 if both else rng.randint(-1 if not stepped else 0, 2),
                "steps": [(rng.randint(0, 3), prices[0])] if stepped else [],
                "last_most": rng.randint(0, 5) if limited or rng.random() < 0.5 else None,
                "last_cost": prices[1],
                "both": both,
            }
        )
    supplies = [rng.randint(-4, 4) for _ in range(PLACES - 1)]
    supplies.append(-sum(supplies) if rng.random() < 0.9 else rng.randint(-4, 4))
    return supplies, routes


def option(number):
    return "None" if number is None else f"Some({number})"


def route_lines(route, number):
    """A route of a row, in the layout of `rt fmt`."""
    values = {
        "tail": route["tail"],
        "head": route["head"],
        "first_step": number,
        "step_count": len(route["steps"]),
        "least": route["least"],
        "last_most": option(route["last_most"]),
        "last_cost": route["last_cost"],
        "both": str(route["both"]).lower(),
    }
    fields = [f"                {name}: {value}," for name, value in values.items()]
    return ["            RouteRow {", *fields, "            },"]


def row_lines(supplies, routes, cost):
    """A row of the table, in the layout of `rt fmt`."""
    steps = [route["steps"][0] if route["steps"] else (0, 0) for route in routes]
    return [
        "    TriedRow {",
        f"        supplies: {supplies},",
        "        steps: [",
        *(f"            Step {{ most: {most}, cost: {price} }}," for most, price in steps),
        "        ],",
        "        routes: [",
        *(line for number, route in enumerate(routes) for line in route_lines(route, number)),
        "        ],",
        f"        cost: {option(cost)},",
        "    },",
    ]


def random_case(rng):
    """A random model, and what its least plan costs."""
    supplies, routes = random_model(rng)
    return supplies, routes, least(supplies, routes)


if __name__ == "__main__":
    rows = random_rows(random.Random(SEED), COUNT, random_case, row_lines, 0.1)
    write_or_check(__doc__, "tried.rt", "TriedRow", COUNT, rows)
