#!/usr/bin/env python3
"""Finds least choices of small random rosters by trying all of them, without code of the suite.

    python/tests/rosters.py write     writes the rows of crates/mcf_plan_tests/src/chosen.rt
    python/tests/rosters.py check     compares them with what `write` would write; status 1 if they
                                      differ

A roster has three persons, three things and seven pairs. The script tries all subsets of the pairs.
It uses one in four of the rosters without a choice.
"""
import itertools
import random

from table_rows import random_rows, write_or_check

COUNT, SEED = 16, 1
PERSONS = THINGS = 3
PAIRS = 7


def is_met(ranges, ends):
    """Whether each number from 1 on occurs as often among the ends as its range says."""
    counts = [ends.count(number) for number in range(1, len(ranges) + 1)]
    return all(least <= count <= most for (least, most), count in zip(ranges, counts))


def least(takes, needs, pairs):
    """The value of a least choice, or None if no choice exists."""
    best = None
    for size in range(len(pairs) + 1):
        for chosen in itertools.combinations(pairs, size):
            persons = is_met(takes, [who for who, _, _ in chosen])
            if persons and is_met(needs, [what for _, what, _ in chosen]):
                value = sum(cost for _, _, cost in chosen)
                best = value if best is None else min(best, value)
    return best


def random_range(rng):
    """A range with numbers in it, narrow as often as not."""
    low = rng.randint(0, 2)
    return low, low + rng.choice([0, 0, 1, 2])


def random_roster(rng):
    """A random roster without a fault."""
    takes = [random_range(rng) for _ in range(PERSONS)]
    needs = [random_range(rng) for _ in range(THINGS)]
    ends = [(rng.randint(1, PERSONS), rng.randint(1, THINGS)) for _ in range(PAIRS)]
    pairs = [(who, what, rng.randint(-4, 9)) for who, what in ends]
    return takes, needs, pairs


def row_lines(takes, needs, pairs, value):
    """A row of the table, in the layout of `rt fmt`."""
    who, what, cost = (list(column) for column in zip(*pairs))
    return [
        "    ChosenRow {",
        f"        takes: {[list(span) for span in takes]},",
        f"        needs: {[list(span) for span in needs]},",
        f"        who: {who},",
        f"        what: {what},",
        f"        cost: {cost},",
        f"        value: {'None' if value is None else f'Some({value})'},",
        "    },",
    ]


def random_case(rng):
    """A random roster, and the value of its least choice."""
    takes, needs, pairs = random_roster(rng)
    return takes, needs, pairs, least(takes, needs, pairs)


if __name__ == "__main__":
    rows = random_rows(random.Random(SEED), COUNT, random_case, row_lines, 0.25)
    write_or_check(__doc__, "chosen.rt", "ChosenRow", COUNT, rows)
