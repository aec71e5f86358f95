#!/usr/bin/env python3
"""Compares parts of the suite, or all of them, with peers that do the same work.

    python3 bench/run.py [PART ...] [--runs N] [--nodes N] [--seeds N ..] [--families NAME ..]
                         [--exponents N ..] [--built]

PART
  answer    parses an answer of a million arcs and writes it again
  fast      solves nets of fifteen families and of rising size by the engine `fast`, beside the
            better of LEMON's network simplex and cost scaling, as whole processes with their peak
            memory; prints a table of the medians of the ratios of runs in turn, for all `--seeds`,
            from 2^16 nodes on for the first one; of these `--families` and sizes, as `--exponents`
            of 2, if they are named (skipped without LEMON)
  assign    solves assignments by the engine `sap`, beside dlib and LEMON, as whole processes; the
            script skips a missing library and says so
  check     judges such an answer for its instance
  feasible  finds a feasible flow, in nets of five families and of rising size, beside the time to
            read the same text
  matrices  assigns cost matrices, matches a tracker's frames and transports, called from Python,
            beside scipy and POT (bench/matrices.py); prints tables, without a limit
  net       builds the net of a million arcs, and visits the residual arcs of each node
  pieces    reads a text of 100 MB in pieces, beside reading it at once, as whole processes, with
            their peak memory
  plans     plans tables of 128 to a million routes, beside `mcf solve` and LEMON on the same nets
            as instances, as whole processes (bench/plans.py); prints a table
  raise     raises prices of a least-cost flow to the greatest ones, in nets of three families and
            of rising size
  read      reads an instance, and keeps it in 32 bytes an arc
  recover   recovers prices from a least-cost flow, in nets of three families and of rising size
  scaling   solves nets of five families and of rising size by cost scaling: first beside a program
            with the same steps, both without the seconds of the feasible flow, and then as a whole
            beside LEMON's (skipped without LEMON, which is the package liblemon-dev)
  simplex   solves nets of four families and of rising size by the network simplex, beside LEMON's,
            like scaling; then as whole processes: `mcf` and a LEMON program read a file, solve it
            and write the answer
  solve     solves an instance whose zero flow is optimal, without the seconds of the engine, beside
            a program that reads, copies and writes the same
  table     solves instances of all families and sizes with the options that the tools choose,
            beside LEMON's network simplex and cost scaling and dlib's assignment, as whole
            processes with their peak memory; prints a table, without a limit
  text      splits a text of lines into fields and reads each field as a number
  tree      swaps arcs of a spanning tree at random, in trees of rising size

The script proves and builds `mcf_bench`, builds each peer by `rustc -O` (LEMON's by `g++ -O3`),
makes the input, and runs the two on it in turn, N times each and at least 5. Both print their
results, which must agree, and their own seconds, which exclude the reading of the files. The script
prints the medians and their ratio; for a family also the ratio of each size's time to that of the
size before; for `net` also the memory that each further net adds to the peak. The status is 1 if a
figure is above its part's limit. `--nodes` is for the parts that have one size. `--built` uses the
program of the last build. Needs `rt`, `rustc` and Python 3; run it on an idle machine.
"""
import argparse
import os
import pathlib
import shutil
import statistics
import subprocess
import sys
import typing

import assignments
import pieces
import plans
import processes
import programs
import table

BENCH = pathlib.Path(__file__).resolve().parent
OUT = BENCH / "out"
PROGRAM = programs.built("mcf_bench")

NODES = 300_000
ARCS = 1_000_000
# the number of nodes that gives an instance of `resting` a million arcs
RESTING = 125_000
# the sizes of each family, as powers of 2
RECOVERED = {"netgen": (10, 12, 14, 16), "gridgen": (10, 12, 14, 16), "transp": (8, 9, 10)}
SEARCHED = {
    **{family: (10, 12, 14, 16) for family in ("netgen", "gridgen", "goto", "road")},
    "transp": (8, 9, 10),
}
SCALED = {family: (12, 14) for family in ("netgen", "gridgen", "goto", "road", "assignment")}
PIVOTED = {"netgen": (12, 14, 16), "gridgen": (12, 14), "road": (12, 14, 16), "goto": (12, 14)}
# the greatest ratio to LEMON for families where price updates gain nothing; the bounds on price
# rises forbid these
WITHOUT_UPDATES = {"assignment": 1}
# the number of random swaps to try, by the number of nodes of the tree
SWAPPED = {1_000: 300_000, 10_000: 300_000, 100_000: 300_000, 1_000_000: 1_000_000}
# the most bytes per arc of a net
NET_BYTES = 64


def make(script, path, *words):
    """Has a script write its output to a path, and returns the path."""
    if not path.exists():
        subprocess.run([sys.executable, str(BENCH / script), *map(str, words)], check=True)
    return path


def sparse(words):
    nodes = words.nodes or NODES
    path = OUT / f"sparse-{nodes}.min"
    return [("", [make("gen.py", path, "sparse", nodes, "--output", path)], 1)]


def resting(words):
    nodes = words.nodes or RESTING
    path = OUT / f"resting-{nodes}.min"
    return [("", [make("gen.py", path, "resting", nodes, "--output", path)], 1)]


def shown(words):
    nodes = words.nodes or NODES
    instance, answer = OUT / f"shown-{nodes}.min", OUT / f"shown-{nodes}.ans"
    make("shown.py", answer, nodes, ARCS, instance, answer)
    return instance, answer


def shown_pair(words):
    return [("", list(shown(words)), 1)]


def shown_answer(words):
    return [("", [shown(words)[1]], 1)]


def shown_instance(words):
    return [("", [shown(words)[0]], 1)]


def of_families(sizes):
    """Each family and size, with the repetitions of a step in one run: more for a small net."""
    for family, exponents in sizes.items():
        for exponent in exponents:
            yield family, 2**exponent, max(1, 2**14 >> exponent)


def family_instances(_words):
    for family, nodes, times in of_families(SEARCHED):
        path = OUT / f"{family}-{nodes}.min"
        yield f"{family} {nodes}", [make("gen.py", path, family, nodes, "--output", path)], times


def family_answers(_words):
    for family, nodes, times in of_families(RECOVERED):
        instance, answer = OUT / f"shown-{family}-{nodes}.min", OUT / f"shown-{family}-{nodes}.ans"
        make("gen.py", answer, family, nodes, "--output", instance, "--shown", answer)
        yield f"{family} {nodes}", [instance, answer], times


def family_file(family, nodes, seed=1):
    path = OUT / (f"{family}-{nodes}.min" if seed == 1 else f"{family}-{nodes}-{seed}.min")
    return make("gen.py", path, family, nodes, "--seed", seed, "--output", path)


def solved_instances(sizes):
    for family, nodes, _ in of_families(sizes):
        yield f"{family} {nodes}", [family_file(family, nodes)], 1


def scaled_instances(_words):
    return solved_instances(SCALED)


def pivoted_instances(_words):
    return solved_instances(PIVOTED)


def trees(_words):
    for nodes, rounds in SWAPPED.items():
        yield f"of {nodes} nodes", [nodes, rounds], 1


# for each part: the function that makes its cases, and the greatest ratio. A case has a name, the
# paths or numbers of its input, and the repetitions of a step in one run.
PARTS = {
    "answer": (shown_answer, 1.2),
    "check": (shown_pair, 1.25),
    "feasible": (family_instances, 1.25),
    "net": (shown_instance, 1.2),
    "raise": (family_answers, 1.25),
    "read": (sparse, 1.2),
    "recover": (family_answers, 1.25),
    "scaling": (scaled_instances, 1.25),
    "simplex": (pivoted_instances, None),
    "solve": (resting, 1.25),
    "text": (sparse, 1.1),
    "tree": (trees, 1.25),
}
REPEATED = {"feasible", "net", "raise", "recover"}
# the parts with LEMON as a peer: the word of LEMON's driver for the algorithm, and the greatest
# ratio
LEMON = {"scaling": ("cs", 9), "simplex": ("ns", 2.5)}
# the parts with their own modules
WHOLE = ("assign", "fast", "matrices", "pieces", "plans", "table")
# the parts with LEMON as their only peer
LEMON_ALONE = {"simplex"}
# the seconds to leave out beside a peer of our own
LEFT_OUT = {"scaling": "feasible_seconds"}


def has_lemon():
    """Whether a compiler exists and finds LEMON."""
    asked = ["g++", "-fsyntax-only", "-include", "lemon/cost_scaling.h", "-x", "c++", os.devnull]
    return bool(shutil.which("g++")) and subprocess.run(asked, capture_output=True).returncode == 0


def lemon_program():
    """Builds the LEMON program."""
    program = OUT / "lemon-peer"
    source = BENCH / "peers" / "lemon_mcf.cc"
    subprocess.run(
        ["g++", "-O3", "-DNDEBUG", "-o", str(program), str(source), "-llemon"], check=True
    )
    return program


class Peer(typing.NamedTuple):
    """A peer of a part: its words before the input, and the greatest ratio."""

    name: str
    command: list
    limit: float
    left_out: str | None = None

    def seconds(self, times):
        return times["seconds"] - (times[self.left_out] if self.left_out else 0)

    def most(self, family):
        """The greatest ratio for a family."""
        return WITHOUT_UPDATES.get(family, self.limit) if self.name == "LEMON" else self.limit


def peers_of(part, limit):
    """Builds the peers of a part: a program of our own, LEMON, or both."""
    peers = []
    if part not in LEMON_ALONE:
        program = OUT / f"{part}-peer"
        source = BENCH / "peers" / f"{part}.rs"
        subprocess.run(
            ["rustc", "--edition", "2024", "-O", "-o", str(program), str(source)], check=True
        )
        peers.append(Peer("the peer", [str(program)], limit, LEFT_OUT.get(part)))
    if part in LEMON and not has_lemon():
        print(f"{part}: LEMON is left out, as it isn't there (liblemon-dev)")
    elif part in LEMON:
        word, most = LEMON[part]
        peers.append(Peer("LEMON", [str(lemon_program()), word], most))
    return peers


def run(command):
    """Runs a program. Returns its results, and its seconds by their names."""
    done = subprocess.run(command, check=True, capture_output=True, text=True)
    if command[0] == str(OUT / "lemon-peer"):
        return lemon_found(done.stdout.split())
    found, *times = done.stdout.splitlines()
    return found, {name: float(seconds) for name, seconds in (line.split() for line in times)}


def lemon_found(words):
    """The results and seconds in a line of LEMON's driver. Its seconds are those of solving
    alone."""
    values = dict(word.split("=") for word in words if "=" in word)
    found = f"cost {values['cost']}" if "OPTIMAL" in words else "blocked"
    return found, {"seconds": float(values["solve"])}


def peak_of(command):
    """The peak memory of a program, in bytes."""
    process = subprocess.Popen(command, stdout=subprocess.DEVNULL)
    _, status, usage = os.wait4(process.pid, 0)
    if status:
        sys.exit(f"{command[0]} ended with status {status}")
    return usage.ru_maxrss * 1024


def compare(ours, peers, runs):
    """The seconds of each run of both programs, by their names. The first run of each is a
    warm-up."""
    times = []
    for turn in range(runs + 1):
        found, our_times = run(ours)
        peer_found, peer_times = run(peers)
        if found != peer_found:
            sys.exit(f"the answers differ: {found!r} and {peer_found!r}")
        if turn:
            times.append((our_times, peer_times))
    print(f"  {found}")
    return times


def measure(part, words):
    """Runs each case of a part beside its peers. Returns whether all figures are within the part's
    limit."""
    if part == "assign":
        return assignments.measure(words)
    if part == "fast":
        return measure_fast(words)
    if part == "matrices":
        return measure_matrices()
    if part == "pieces":
        return pieces.measure(words)
    if part == "plans":
        return plans.measure(words, lemon_program() if has_lemon() else None, family_file)
    if part == "table":
        return table.measure(words, lemon_program() if has_lemon() else None, family_file)
    maker, limit = PARTS[part]
    peers = peers_of(part, limit)
    if not peers:
        return True
    program = [PROGRAM, part]
    runs = max(5, words.runs)
    print(f"{part}: {runs} runs of each")
    within = True
    before = {}
    for name, paths, times in maker(words):
        inputs = [*map(str, paths), *([str(times)] if part in REPEATED else [])]
        family = name.split(" ")[0]
        for peer in peers:
            seconds = compare(program + inputs, peer.command + inputs, runs)
            ours = statistics.median(peer.seconds(our_times) for our_times, _ in seconds) / times
            theirs = (
                statistics.median(peer.seconds(peer_times) for _, peer_times in seconds) / times
            )
            grown = (
                f", {ours / before[peer.name, family]:.1f} times as long as before"
                if (peer.name, family) in before
                else ""
            )
            before[peer.name, family] = ours
            label = f"{part} {name}".strip()
            print(
                f"{label}: ours {ours:.4f} s, {peer.name} {theirs:.4f} s, ratio"
                f" {ours / theirs:.2f}{grown}"
            )
            within = within and ours / theirs <= peer.most(family)
        if part == "feasible":
            reading = statistics.median(
                run([program[0], "read", inputs[0]])[1]["seconds"] for _ in range(runs)
            )
            print(f"  reading the text: {reading:.4f} s, of which this is {ours / reading:.2f}")
        if part == "net":
            size = net_bytes("ours", program, paths)
            net_bytes("the peer", peers[0].command, paths)
            within = within and size <= NET_BYTES
    if part == "simplex":
        within = processes.measure(words, peers[-1].command[0], family_file) and within
    return within


def measure_fast(words):
    """The part `fast`, which is skipped without LEMON."""
    if not has_lemon():
        print("fast: left out, as LEMON isn't there (liblemon-dev)")
        return True
    return processes.measure_fast(words, lemon_program(), family_file)


def measure_matrices():
    """The part `matrices`, by a Python that has numpy and scipy, or none."""
    for python in (sys.executable, "/usr/bin/python3"):
        asked = [python, "-c", "import numpy, scipy.optimize"]
        if subprocess.run(asked, capture_output=True).returncode == 0:
            return subprocess.run([python, str(BENCH / "matrices.py")]).returncode == 0
    print("matrices: left out, as no Python here has numpy and scipy")
    return True


def net_bytes(name, program, paths):
    """The bytes per arc by which each further net raises the peak, once the nets outweigh the
    reading."""
    few, more = 3, 7
    peaks = [peak_of([*program, *map(str, paths), str(nets)]) for nets in (few, more)]
    size = (peaks[1] - peaks[0]) / (more - few) / ARCS
    print(f"  {name}: {size:.1f} bytes an arc")
    return size


def main():
    parser = argparse.ArgumentParser(description="compares parts of the suite with peers")
    parser.add_argument("parts", nargs="*", choices=[[], *sorted([*PARTS, *WHOLE])], metavar="PART")
    parser.add_argument("--runs", type=int, default=9)
    parser.add_argument("--nodes", type=int)
    parser.add_argument("--seeds", type=int, nargs="+", default=[1], help="of the part `fast`")
    parser.add_argument("--families", nargs="+", help="of the part `fast`")
    parser.add_argument("--exponents", type=int, nargs="+", help="of the part `fast`")
    parser.add_argument("--built", action="store_true")
    words = parser.parse_args()
    OUT.mkdir(exist_ok=True)
    if not words.built:
        programs.build("mcf_bench")
    above = [part for part in words.parts or sorted([*PARTS, *WHOLE]) if not measure(part, words)]
    if above:
        sys.exit(f"above its limit: {', '.join(above)}")


if __name__ == "__main__":
    main()
