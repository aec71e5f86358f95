"""Compares whole processes of `mcf solve` with a LEMON program: the second half of the part
`simplex` of run.py, and its part `fast`.

All programs read the same file, solve it and write a flow with its prices to a file. The script
prints the least processor seconds of several runs, and their ratios. The simplex runs with both
rules for large nets, `wide` and `block`, and the limit applies to `wide`. The engine `fast` runs
beside LEMON's network simplex and cost scaling. One limit applies to its ratio to the better of
these, and one to its peak memory beside that of LEMON's network simplex, if both peaks are above
that of this script.
"""
import resource
import statistics

import programs
import table
from table import OUT, PROGRAM

# the seconds after which the runs of a case end, and the least number of runs
SECONDS, FEWEST = 120, 3
# for the simplex: the sizes, as powers of 2, and the size to which the limits apply
SIZES, JUDGED = (14, 16, 17), 16
LIMITS = {"netgen": 0.9, "gridgen": 1.1, "road": 1.0, "goto": 0.7}
# for the engine `fast`: the families, the sizes, and the greatest ratios by size and family
FAST_FAMILIES = ("netgen", "gridgen", "goto", "road", "plan", "star", "geo", "long")
FAST_FAMILIES += ("few", "many", "large", "small", "thin", "dense", "assignment")
FAST_SIZES = (10, 11, 12, 13, 14, 15, 16, 17, 18)
# from this size on for the first seed alone
FAST_ONCE = 16
# the ranges of sizes over which means are printed, and the seconds after which no further run of a
# case starts
FAST_MEANS = ((10, 15), (16, 18))
FAST_SECONDS = 8
MOST_SECONDS = {16: {"netgen": 0.6, "gridgen": 0.75, "goto": 0.35, "road": 0.9}}
# the greatest ratio of peak memory to LEMON's network simplex
MOST_MEMORY = 1.0
# an engine that took more seconds than this at a size is left out at the next size
MOST = 60.0


def solve(engine, *words):
    """The command that solves the file appended to it."""
    return [PROGRAM, "solve", "--engine", engine, "--form", "2", *words]


def by_lemon(peer, word, path):
    """The command by which LEMON solves a file."""
    return [str(peer), word, path, "-w", str(OUT / "peer.ans")]


def build(words):
    if not words.built:
        programs.build("mcf")


def measure(words, peer, instance_of):
    """Whether each ratio of the simplex is within its limit. `peer` is the LEMON program, and
    `instance_of` makes the file of a family and a size."""
    build(words)
    most = max(5, words.runs)
    print(f"simplex: {most} runs of each, whole processes")
    within = True
    for family, limit in LIMITS.items():
        for exponent in SIZES:
            path = str(instance_of(family, 2**exponent))
            commands = {
                rule: [*solve("simplex", "--pricing", rule), path] for rule in ("wide", "block")
            }
            runs = table.measured(
                {**commands, "LEMON": by_lemon(peer, "ns", path)}, most, FEWEST, SECONDS
            )
            wide, block, theirs = (runs[name].seconds for name in ("wide", "block", "LEMON"))
            print(
                f"simplex {family} 2^{exponent}, whole: wide {wide:.3f} s, block {block:.3f} s,"
                f" LEMON {theirs:.3f} s, ratios {wide / theirs:.2f} and {block / theirs:.2f}"
            )
            within = within and (exponent != JUDGED or wide / theirs <= limit)
    return within


def measure_fast(words, peer, instance_of):
    """Prints a table: by family and size, for each seed the ratio of `fast` to the better of
    LEMON's network simplex and cost scaling. Returns whether the ratios and the memory are within
    their limits."""
    build(words)
    sizes = words.exponents or FAST_SIZES
    within, found = True, []
    print("fast: whole processes, the ratio to the better of LEMON's, for seeds", *words.seeds)
    print("| Family | " + " | ".join(f"2^{exponent}" for exponent in sizes) + " |")
    print("|---|" + "---|" * len(sizes))
    for family in words.families or FAST_FAMILIES:
        print(f"| {family} |", end="", flush=True)
        before = {}
        for exponent in sizes:
            cases = []
            for seed in words.seeds[: None if exponent < FAST_ONCE else 1]:
                path = str(instance_of(family, 2**exponent, seed))
                case, seconds = fast_case(words, peer, path, before)
                cases += [case] if case else []
            before = seconds
            print("", ", ".join(case.text() for case in cases), end=" |", flush=True)
            within = within and all(case.is_within(family, exponent) for case in cases)
            found += [(exponent, case.ratio) for case in cases]
        print()
    for low, high in FAST_MEANS:
        ratios = [ratio for exponent, ratio in found if low <= exponent <= high and ratio]
        if ratios:
            print(
                f"2^{low} to 2^{high}: geometric mean {statistics.geometric_mean(ratios):.2f},"
                f" greatest {max(ratios):.2f}, above 0.9: {sum(r > 0.9 for r in ratios)} of"
                f" {len(ratios)}"
            )
    return within


def fast_case(words, peer, path, before):
    """The measured case of an instance, if `fast` is run, and the seconds of each command. Those
    that took too long at the size before aren't run."""
    commands = {
        "fast": [*solve("fast"), path],
        "LEMON ns": by_lemon(peer, "ns", path),
        "LEMON cs": by_lemon(peer, "cs", path),
    }
    runs = table.measured(
        {name: command for name, command in commands.items() if before.get(name, 0) <= MOST},
        max(5, words.runs),
        1,
        FAST_SECONDS,
    )
    seconds = {name: runs[name].seconds if name in runs else MOST + 1 for name in commands}
    return Case(runs) if "fast" in runs else None, seconds


class Case:
    """A measured case of `fast`: its seconds and peak memory, beside LEMON's."""

    def __init__(self, runs):
        theirs = [runs[name].each for name in ("LEMON ns", "LEMON cs") if name in runs]
        self.seconds = runs["fast"].seconds
        self.ratio = None
        if theirs:
            # neighbours in time, since the speed of a machine may change within a case
            better = zip(runs["fast"].each, min(theirs, key=statistics.median))
            self.ratio = statistics.median(our / their for our, their in better)
        own = resource.getrusage(resource.RUSAGE_SELF).ru_maxrss / 1024 + 1
        self.memory = (
            runs["fast"].peak / runs["LEMON ns"].peak
            if all(name in runs and runs[name].peak > own for name in ("fast", "LEMON ns"))
            else None
        )

    def text(self):
        """The cell: the ratio, or the seconds if LEMON is left out; then the ratio of memory if it
        is above its limit."""
        text = f"{self.ratio:.2f}" if self.ratio else f"{self.seconds:.1f} s"
        return text + (f" (memory {self.memory:.2f})" if (self.memory or 0) > MOST_MEMORY else "")

    def is_within(self, family, exponent):
        """Whether the case is within its limits."""
        most = MOST_SECONDS.get(exponent, {}).get(family)
        is_fast = most is None or self.ratio is None or self.ratio <= most
        return is_fast and (self.memory or 0) <= MOST_MEMORY
