"""The part `table` of run.py compares `mcf solve`, with the options of the tools, with LEMON's
network simplex and cost scaling and dlib's assignment, over families and sizes.

The script prints the rows of a Markdown table, one for each instance. For `mcf solve` a row has the
options that the tools choose (`OPTIONS`), the least processor seconds of the whole process
(reading, solving, writing a flow in the sparse form), their ratio to the better of the peers, the
peak memory, and the ratio to the time of the size before. For LEMON's engines it has the same
seconds, with a fast reader and output of the nonzero flows; for dlib's engine those of a program
that writes only the cost. A program that takes too long at one size is left out at the next. Costs
must agree.
"""
import os
import pathlib
import resource
import subprocess
import sys
import tempfile
import time

import assignments
import programs

BENCH = pathlib.Path(__file__).resolve().parent
OUT = BENCH / "out"
# The options by which the tools and the modules solve a problem of a kind.
OPTIONS = {"min": ["--engine", "fast"], "asn": []}
PROGRAM = programs.built("mcf")

FLOWS = {family: range(10, 19) for family in ("netgen", "gridgen", "road", "goto")} | {
    "transp": (8, 9, 10)
}
DENSE = {"random": assignments.uniform, "mod 101": assignments.multiples}
DENSE_ROWS = (256, 512, 1024, 2048)
SPARSE_ROWS = (2**10, 2**12, 2**14, 2**16)
# a size is left out if the size before took more seconds than this
MOST = 30.0
# the seconds of the runs for a cell, and the least and the greatest number of runs
SECONDS, FEWEST, MOST_RUNS = 8, 1, 5
OURS = "mcf"


def cost_of(lines):
    """The cost that a program prints: on a line `s COST`, or in a word `cost=COST`."""
    for line in lines:
        if line.startswith("s "):
            return line.split()[1]
        for word in line.split():
            if word.startswith("cost="):
                return word.partition("=")[2]
    return None


class Run:
    """The processor seconds of some runs and the least of them, the greatest peak memory in
    megabytes, and the cost."""

    cost_of = staticmethod(cost_of)

    def __init__(self):
        self.seconds, self.peak, self.cost = float("inf"), 0.0, None
        self.each = []

    def again(self, command):
        with tempfile.TemporaryFile("w+") as out:
            process = subprocess.Popen(command, stdout=out)
            _, status, usage = os.wait4(process.pid, 0)
            process.returncode = os.waitstatus_to_exitcode(status)
            if status:
                sys.exit(f"{' '.join(command)} ended with status {process.returncode}")
            out.seek(0)
            self.cost = self.cost_of(out)
        self.each.append(usage.ru_utime + usage.ru_stime)
        self.seconds = min(self.seconds, self.each[-1])
        self.peak = max(self.peak, usage.ru_maxrss / 1024)


def measured(commands, most=MOST_RUNS, fewest=FEWEST, seconds=SECONDS, kinds=None):
    """Runs the commands in turn for some seconds, within the limits on the number of runs. Returns
    the measurements of each, in a `Run` or the kind that is named for it."""
    runs = {name: (kinds or {}).get(name, Run)() for name in commands}
    start = time.monotonic()
    for turn in range(most):
        if turn >= fewest and time.monotonic() - start > seconds:
            break
        for name, command in commands.items():
            runs[name].again(command)
    costs = {run.cost for run in runs.values()}
    if len(costs) > 1:
        sys.exit(f"the answers differ: {[(name, run.cost) for name, run in runs.items()]}")
    return runs


def cells(options, run, before, peers):
    """The cells for `mcf solve`. Its peak memory is unknown if it isn't above that of this script,
    which starts the process."""
    grown = f"{run.seconds / before:.1f}" if before else ""
    ratio = f"{run.seconds / min(peer.seconds for peer in peers):.2f}" if peers else ""
    own = resource.getrusage(resource.RUSAGE_SELF).ru_maxrss / 1024
    peak = f"{run.peak:.0f} MB" if run.peak > own + 1 else f"below {own:.0f} MB"
    return f"{' '.join(options) or 'auto'} | {run.seconds:.3f} s | {ratio} | {peak} | {grown}"


def rows(family, sizes, problem, file_of, peers_of):
    """The rows of a family, a line for each size. `file_of` makes the file of a size, and `problem`
    is the kind of its problem."""
    before = {}
    for size in sizes:
        path, options = str(file_of(size)), OPTIONS[problem]
        both = {OURS: [PROGRAM, "solve", *options, "--form", "2", path], **peers_of(path)}
        runs = measured(
            {name: command for name, command in both.items() if before.get(name, 0) <= MOST}
        )
        peers = [name for name in peers_of(path) if name in runs]
        if OURS in runs:
            shown = ", ".join(f"{name} {runs[name].seconds:.3f} s" for name in peers)
            print(
                (
                    f"| {family} | {size} | "
                    f"{cells(options, runs[OURS], before.get(OURS), [runs[p] for p in peers])}"
                    f" | {shown} |"
                ),
                flush=True,
            )
        before = {name: runs[name].seconds if name in runs else MOST + 1 for name in both}


def measure(words, lemon, family_file):
    """Prints the table. `lemon` is the LEMON program, if it could be built, and `family_file` makes
    the file of a family and a size."""
    if not words.built:
        programs.build("mcf")
    print(
        "| Family | Nodes or rows | Options | Whole | Ratio | Peak | Growth | Peers"
        " |\n|---|---|---|---|---|---|---|---|"
    )

    def of_lemon(path):
        words = ("ns", "cs") if lemon else ()
        return {f"LEMON {word}": [str(lemon), word, path, "-w", os.devnull] for word in words}

    for family, exponents in FLOWS.items():
        sizes = [2**exponent for exponent in exponents]
        rows(
            family,
            sizes,
            "min",
            lambda nodes: family_file(family, nodes),
            of_lemon,
        )
    dense = assignments.build("dense.cc", [])
    for name, arcs in DENSE.items():
        kind = "uniform" if name == "random" else "mod"
        rows(
            f"dense, {name}",
            DENSE_ROWS,
            "asn",
            lambda size: assignments.write(OUT / f"assign-{kind}-{size}.asn", size, arcs(size)),
            lambda path: {"dlib": [str(dense), path]} if dense else {},
        )
    rows(
        "sparse, 8 a row",
        SPARSE_ROWS,
        "asn",
        lambda size: assignments.write(
            OUT / f"assign-sparse-{size}.asn", size, assignments.sparse(size)
        ),
        of_lemon,
    )
    return True
