"""The part `assign` of run.py: `mcf solve --engine sap` beside dlib and LEMON, as whole processes.

The peer is dlib's assignment for dense instances, with uniform costs and with costs (i * j) mod
101, and LEMON's network simplex for sparse instances with 8 arcs a row. The smallest sparse size
has twelve instances, because one says little: the limits apply to the first one and to the mean.
The answer has the sparse form, which names the arcs that carry something; the peers write only the
cost. The script prints the least processor seconds of several runs. It skips a peer without its
library, and the whole part if the program has no engine `sap`, and says so.
"""
import os
import pathlib
import random
import subprocess
import sys
import tempfile

import programs

BENCH = pathlib.Path(__file__).resolve().parent
OUT = BENCH / "out"
PROGRAM = programs.built("mcf")

# the numbers of rows of the instances, and the greatest ratio to the peer
DENSE = dict.fromkeys((256, 512, 1024, 2048), 0.85)
SPARSE = {2**12: 0.6, 2**14: 0.5, 2**16: 0.4}
# the number of instances of a size, if it isn't one
INSTANCES = {2**12: 12}
DEGREE = 8
MAX_COST = 1_000_000


def write(path, rows, arcs):
    """Writes an instance with these arcs and with as many columns as rows, unless the file
    exists."""
    if path.exists():
        return path
    arcs = list(arcs)
    with open(path, "w") as out:
        out.write(f"p asn {2 * rows} {len(arcs)}\n")
        out.writelines(f"n {row}\n" for row in range(1, rows + 1))
        out.writelines(f"a {row} {rows + column} {cost}\n" for row, column, cost in arcs)
    return path


def uniform(rows):
    rnd = random.Random(rows)
    every = range(1, rows + 1)
    return ((i, j, rnd.randrange(1, MAX_COST + 1)) for i in every for j in every)


def multiples(rows):
    every = range(1, rows + 1)
    return ((i, j, i * j % 101) for i in every for j in every)


def sparse(rows, seed=None):
    """The arcs of sparse instances. Each row has an arc to its column in a hidden matching, so that
    a perfect matching exists."""
    rnd = random.Random(rows if seed is None else seed)
    hidden = rnd.sample(range(1, rows + 1), rows)
    for i in range(1, rows + 1):
        for j in {hidden[i - 1], *(rnd.randrange(1, rows + 1) for _ in range(DEGREE - 1))}:
            yield i, j, rnd.randrange(1, MAX_COST + 1)


# for each kind: the peer's source, the library to link it with, and the instances
KINDS = {
    "dlib": ("dense.cc", [], [("uniform", uniform, DENSE), ("mod", multiples, DENSE)]),
    "LEMON": ("sparse.cc", ["-llemon"], [("sparse", sparse, SPARSE)]),
}


def build(source, libraries):
    """Builds the peer, and returns its path, or None if that fails."""
    peer = OUT / f"assign-{pathlib.Path(source).stem}-peer"
    command = [
        "g++",
        "-O3",
        "-DNDEBUG",
        str(BENCH / "peers" / "assign" / source),
        "-o",
        str(peer),
        *libraries,
    ]
    try:
        done = subprocess.run(command, capture_output=True)
    except FileNotFoundError:
        return None
    return None if done.returncode else peer


def timed(command):
    """The line of the cost that a program writes, and the processor seconds that it takes,
    including those of the kernel."""
    with tempfile.TemporaryFile("w+") as out:
        process = subprocess.Popen(command, stdout=out)
        _, status, usage = os.wait4(process.pid, 0)
        process.returncode = os.waitstatus_to_exitcode(status)
        if status:
            sys.exit(f"{command[0]} ended with status {process.returncode}")
        out.seek(0)
        return (
            next((line.rstrip("\n") for line in out if line.startswith("s ")), None),
            usage.ru_utime + usage.ru_stime,
        )


def instances(name, arcs, rows):
    """The files of a family and a size: one with the size as its seed, and any further ones with
    other seeds."""
    yield write(OUT / f"assign-{name}-{rows}.asn", rows, arcs(rows))
    for seed in range(1, INSTANCES.get(rows, 1)):
        yield write(OUT / f"assign-{name}-{rows}-{seed}.asn", rows, arcs(rows, seed))


def compare(ours, peer, runs):
    """Runs both in turn. Returns the least seconds of each, which other running programs affect
    least."""
    times = []
    for _ in range(runs):
        (found, our_time), (peer_found, peer_time) = timed(ours), timed(peer)
        if found != peer_found:
            sys.exit(f"the answers differ: {found!r} and {peer_found!r}")
        times.append((our_time, peer_time))
    return [min(column) for column in zip(*times)]


def measure(words, engine="sap"):
    """Whether each ratio is within its limit."""
    if not words.built:
        programs.build("mcf")
    shown = subprocess.run([PROGRAM, "solve", "--help"], capture_output=True, text=True)
    if engine not in shown.stdout:
        print(f"assign: skipped, the program has no engine {engine}")
        return True
    runs = max(5, words.runs)
    within = True
    for library, (source, libraries, families) in KINDS.items():
        peer = build(source, libraries)
        if peer is None:
            print(f"assign: skipped beside {library}, which is not there")
            continue
        print(f"assign: {runs} runs of each, whole processes, beside {library}")
        for name, arcs, sizes in families:
            for rows, limit in sizes.items():
                ratios = []
                for path in instances(name, arcs, rows):
                    ours, peers = compare(
                        [PROGRAM, "solve", "--engine", engine, "--form", "2", str(path)],
                        [str(peer), str(path)],
                        runs,
                    )
                    ratios.append(ours / peers)
                    print(
                        f"assign {name} {rows}: ours {ours:.4f} s, {library} {peers:.4f} s, ratio"
                        f" {ratios[-1]:.2f}"
                    )
                mean = sum(ratios) / len(ratios)
                if len(ratios) > 1:
                    print(f"assign {name} {rows}: {len(ratios)} instances, mean ratio {mean:.2f}")
                within = within and ratios[0] <= limit and mean <= limit
    return within
