#!/usr/bin/env python3
"""Compares the choices of random rosters with groups with all choices that there are, without code
of the suite.

    python/tests/group_choices.py PROGRAM [COUNT]     runs `PROGRAM pairs --groups ..`, as
                                                      `mcfplan` reads it

A roster has three persons, four things and eight pairs, and up to three groups. The script tries
all subsets of the pairs. Status 1 if an answer differs.
"""
import csv
import io
import itertools
import pathlib
import random
import subprocess
import sys
import tempfile

PERSONS = ["Anna", "Bert", "Cora"]
THINGS = ["Mo", "Di", "Mi", "Do"]
PAIRS, MOST = 8, 9


class Group:
    """Persons or things, and how many of them anyone has."""

    def __init__(self, name, of_things, members, least, most):
        self.name, self.of_things, self.members = name, of_things, members
        self.least, self.most = least, most

    def owners(self):
        """Those for which members are counted."""
        return PERSONS if self.of_things else THINGS

    def count(self, chosen, owner):
        """How many members one has by some pairs."""
        place = 1 if self.of_things else 0
        return sum(pair[1 - place] == owner and pair[place] in self.members for pair in chosen)

    def outside(self, chosen):
        """Those that have too few or too many, with their numbers."""
        counts = [(owner, self.count(chosen, owner)) for owner in self.owners()]
        return [(o, n) for o, n in counts if not self.least <= n <= self.most]

    def crosses(self, other):
        """Whether another group of the kind has some members of this one, and not all."""
        both = set(self.members) & set(other.members)
        return self.of_things == other.of_things and bool(both) and both != set(self.members)


def arranged(groups):
    """The groups that are kept, the greatest first, and the others with what they cross."""
    kept, left = [], []
    for group in sorted(groups, key=lambda group: -len(group.members)):
        crossed = next((other for other in kept if group.crosses(other)), None)
        if crossed is None:
            kept.append(group)
        else:
            left.append((group, crossed))
    return kept, left


def random_group(rng, name):
    """A group of either kind."""
    of_things = rng.random() < 0.6
    names = THINGS if of_things else PERSONS
    members = rng.sample(names, rng.randint(1, len(names)))
    least = rng.choice([0, 0, 0, 1])
    return Group(name, of_things, members, least, least + rng.choice([0, 1, 1, 2]))


def random_roster(rng):
    """The costs of pairs, the ranges of persons and things, and groups."""
    every = list(itertools.product(PERSONS, THINGS))
    costs = {pair: rng.randint(-4, 9) for pair in sorted(rng.sample(every, PAIRS))}
    takes = {name: (low := rng.randint(0, 1), low + rng.randint(1, 2)) for name in PERSONS}
    needs = {name: (low := rng.randint(0, 1), low + rng.randint(0, 1)) for name in THINGS}
    groups = [random_group(rng, f"g{k}") for k in range(rng.randint(1, 3))]
    return costs, takes, needs, groups


def least(costs, takes, needs, groups):
    """What a least choice that keeps to the groups costs, or None if there is none."""
    best = None
    for size in range(len(costs) + 1):
        for chosen in itertools.combinations(costs, size):
            held = all(
                low <= sum(pair[place] == name for pair in chosen) <= high
                for place, ranges in ((0, takes), (1, needs))
                for name, (low, high) in ranges.items()
            )
            if held and not any(group.outside(chosen) for group in groups):
                value = sum(costs[pair] for pair in chosen)
                best = value if best is None else min(best, value)
    return best


def texts(rng, costs, takes, needs, groups):
    """Both tables."""
    rows = ["who,what,cost,takes,needs"]
    for who, what in itertools.product(PERSONS, THINGS):
        cost = costs.get((who, what), "x")
        ranges = ("-".join(map(str, range_)) for range_ in (takes[who], needs[what]))
        rows.append(",".join((who, what, str(cost), *ranges)))
    lines = []
    for group in groups:
        said = rng.randrange(len(group.members))
        for place, member in enumerate(group.members):
            ends = f",{member}" if group.of_things else f"{member},"
            limits = f"{group.least},{group.most}" if place == said else ","
            lines.append((group, f"{group.name},{ends},{limits}"))
    told = "".join(line + "\n" for _, line in lines)
    return "\n".join(rows) + "\n", "group,who,what,least,most\n" + told


def answer_rows(program, folder, crossing, tables):
    """The status and the rows of an answer, without those of the tables."""
    for name, text in zip(("costs.csv", "groups.csv"), tables):
        (folder / name).write_text(text)
    words = ["--groups", folder / "groups.csv", "--crossing", crossing, folder / "costs.csv"]
    done = subprocess.run([program, "pairs", *words], capture_output=True, text=True)
    rows = list(csv.reader(io.StringIO(done.stdout)))
    return done.returncode, [row for row in rows if row[0] not in ("heads", "row", "mark")]


def kind_of(group):
    """What the owners of a group's members are."""
    return "person" if group.of_things else "thing"


def may_count(group, owner, pair):
    """Whether a pair gives a member of a group to an owner."""
    place = 1 if group.of_things else 0
    return pair[1 - place] == owner and pair[place] in group.members


def blocks(rows, ranges, groups):
    """Whether rows on those that compete tell why there is no choice: each row has a number of its
    own range, and the leasts add up to more than the mosts and the number of pairs."""
    side = next(row[1] for row in rows if row[0] == "side")
    leasts, mosts = 0, sum(row[0] == "pair" for row in rows)
    for word, asked in (("person", side == "send"), ("thing", side == "take")):
        for _, _, name, number in (row for row in rows if row[0] == word):
            if int(number) != ranges[word][name][0 if asked else 1]:
                return False
            leasts, mosts = leasts + asked * int(number), mosts + (not asked) * int(number)
    for _, _, name, kind, owner, number, word in (row for row in rows if row[0] == "group"):
        group = groups[name]
        is_least = word == "least"
        known = owner in group.owners() and kind == kind_of(group)
        if not known or int(number) != (group.least if is_least else group.most):
            return False
        leasts, mosts = leasts + is_least * int(number), mosts + (not is_least) * int(number)
    return leasts > mosts


def wrong(status, rows, roster, left):
    """What is wrong with an answer, or None."""
    costs, takes, needs, groups = roster
    kept = [group for group in groups if all(group is not other for other, _ in left)]
    best = least(costs, takes, needs, kept)
    if best is None:
        if status != 1 or rows[0] != ["answer", "no plan"]:
            return "there is no choice"
        ranges = {"person": takes, "thing": needs}
        told = blocks(rows, ranges, {group.name: group for group in kept})
        return None if told else "the leasts are not more than the mosts"
    if status != 0 or ["cost", str(best)] not in rows:
        return f"a least choice costs {best}"
    chosen = [tuple(row[3:5]) for row in rows if row[0] == "pair"]
    if sum(costs[pair] for pair in chosen) != best or any(g.outside(chosen) for g in kept):
        return "the pairs are no least choice"
    counts = [
        [group.name, kind_of(group), owner, str(group.count(chosen, owner))]
        for group in groups
        for owner in group.owners()
        if any(may_count(group, owner, pair) for pair in costs)
    ]
    if sorted(counts) != sorted(row[2:] for row in rows if row[0] == "group"):
        return "the counts are others"
    broken = [[g.name, kind_of(g), o, str(n)] for g, _ in left for o, n in g.outside(chosen)]
    if sorted(broken) != sorted(row[2:] for row in rows if row[0] == "broken"):
        return "others are broken"
    return None


def main():
    program, count = sys.argv[1], int(sys.argv[2]) if len(sys.argv) > 2 else 300
    rng, none, crossed = random.Random(1), 0, 0
    with tempfile.TemporaryDirectory() as name:
        folder = pathlib.Path(name)
        for number in range(count):
            roster = random_roster(rng)
            # the table names things in another order than the costs may
            kept, left = arranged(roster[3])
            tables = texts(rng, *roster)
            crossings = [[group.name, other.name] for group, other in left]
            status, rows = answer_rows(program, folder, "refuse", tables)
            told = [row[2:] for row in rows if row[0] == "crossing"]
            why = None
            if left:
                crossed += 1
                why = None if status == 2 and told == crossings else "groups cross"
                status, rows = answer_rows(program, folder, "check", tables)
                told = [row[2:] for row in rows if row[0] == "crossing"]
            why = why or (
                "others cross" if told != crossings else wrong(status, rows, roster, left)
            )
            none += status == 1
            if why:
                print(*tables, *rows, sep="\n")
                sys.exit(f"group_choices.py: roster {number}: {why}")
    told = f"{none} without a choice, {crossed} with groups that cross"
    print(f"group_choices.py: {count} rosters, {told}")


if __name__ == "__main__":
    main()
