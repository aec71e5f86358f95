"""Compares `mcfplan` with programs that read an instance: the part `plans` of run.py.

A net of the family netgen becomes two tables: its nodes are places with a supply, its arcs are
routes with a capacity and a cost. `mcfplan flow` reads the tables, plans and writes the answer as a
table; `mcf solve` and LEMON's network simplex read the net as an instance, solve it and write the
flow. GLPK's `glpsol`, if it is installed, reads small ones, and solves them as linear programs.
Costs must agree. The script prints the least processor seconds of several runs, the peak memory of
`mcfplan`, and its ratios to all of them.
"""
import os
import re
import shutil

import programs
import table
from table import OUT

# the numbers of nodes; a net has 8 arcs a node
SIZES = (2**4, 2**7, 2**10, 2**14, 2**17)
# the greatest ratio of `mcfplan` to `mcf solve`, from this size on: names, figures and both tables
# in the answer take most of the time, but at the greatest size
MOST, JUDGED = 6.0, 2**10
# the greatest number of nodes of a linear program: the next size takes minutes
MOST_LINEAR = 2**10
COST = re.compile(r'"cost","(-?[0-9]+)"')
OBJECTIVE = re.compile(r"\*.* obj = +(\S+)")


class Plan(table.Run):
    """The runs of `mcfplan`, whose answer names the cost in its second row."""

    cost_of = staticmethod(
        lambda lines: next((found[1] for found in map(COST.match, lines) if found), None)
    )


class Linear(table.Run):
    """The runs of `glpsol`, whose last line of progress names the cost in ten digits."""

    cost_of = staticmethod(
        lambda lines: str(
            int(float([found[1] for found in map(OBJECTIVE.match, lines) if found][-1]))
        )
    )


def tables_of(path, nodes):
    """The files of the tables of an instance."""
    files = [OUT / f"plan-{nodes}-{name}.csv" for name in ("places", "routes")]
    if all(file.exists() for file in files):
        return files
    supplies, routes = {}, ["from,to,least,most,cost"]
    for line in open(path, encoding="ascii"):
        fields = line.split()
        if fields[:1] == ["n"]:
            supplies[int(fields[1])] = fields[2]
        elif fields[:1] == ["a"]:
            tail, head, low, cap, cost = fields[1:]
            routes.append(f"Place {tail},Place {head},{low},{cap},{cost}")
    places = [f"Place {node},{supplies.get(node, 0)}" for node in range(1, nodes + 1)]
    for file, lines in zip(files, (["name,supply", *places], routes)):
        file.write_text("\n".join(lines) + "\n", encoding="ascii")
    return files


def measure(words, lemon, family_file):
    """Prints a table, and returns whether the ratios are within the limit. `lemon` is the LEMON
    program, if it could be built, and `family_file` makes the file of a family and a size."""
    if not words.built:
        programs.build("mcf", "mcfplan")
    print("| Routes | `mcfplan` | Peak | to `mcf solve` | to LEMON | to glpsol |")
    print("|---|---|---|---|---|---|")
    within, glpsol = True, shutil.which("glpsol")
    for nodes in SIZES:
        path = str(family_file("netgen", nodes))
        places, routes = tables_of(path, nodes)
        commands = {
            "mcfplan": [programs.built("mcfplan"), "flow", str(places), str(routes)],
            "mcf": [programs.built("mcf"), "solve", "--engine", "fast", path],
        }
        if lemon:
            commands["LEMON"] = [str(lemon), "ns", path, "-w", os.devnull]
        if glpsol and nodes <= MOST_LINEAR:
            # It replaces its output, even a device.
            commands["glpsol"] = [glpsol, "--mincost", path, "-o", str(OUT / "plans.solution")]
        kinds = {"mcfplan": Plan, "glpsol": Linear}
        runs = table.measured(commands, max(5, words.runs), kinds=kinds)
        plan, mcf = runs["mcfplan"], runs["mcf"]
        ratios = [
            f"{plan.seconds / runs[name].seconds:.2f}" if name in runs else ""
            for name in ("mcf", "LEMON", "glpsol")
        ]
        count = sum(1 for _ in open(routes, encoding="ascii")) - 1
        print(
            f"| {count} | {plan.seconds:.3f} s | {plan.peak:.0f} MB | {' | '.join(ratios)} |",
            flush=True,
        )
        within = within and (nodes < JUDGED or plan.seconds / mcf.seconds <= MOST)
    return within
