"""The part `pieces` of run.py compares reading a text in pieces with reading it at once, as whole
processes.

The text has 100 MB. Its last arc is missing, so that nothing is solved: `mcf solve` reads it in
pieces and refuses it, and `mcfcheck` reads it at once and accepts the refusal. The script prints
the least processor seconds of several runs, and the peak memory of each program.
"""
import os
import pathlib
import random
import subprocess
import sys

import programs

BENCH = pathlib.Path(__file__).resolve().parent
OUT = BENCH / "out"
NODES, ARCS = 100_000, 4_200_000
LIMIT = 1.1


def write():
    """Writes the text and its answer, a refusal."""
    text, answer = OUT / "pieces.min", OUT / "pieces.ans"
    if not text.exists():
        rnd = random.Random(1)
        with open(text, "w") as out:
            out.write(f"p min {NODES} {ARCS}\n")
            for _ in range(ARCS - 1):
                out.write(
                    f"a {rnd.randint(1, NODES)} {rnd.randint(1, NODES)} 0"
                    f" {rnd.randint(1, 9999)} {rnd.randint(1, 9999)}\n"
                )
        answer.write_text(f"r {ARCS + 1} missing\n")
    return text, answer


def timed(command, want):
    """The processor seconds that a program takes, including those of the kernel, and its peak
    memory in megabytes."""
    process = subprocess.Popen(command, stdout=subprocess.DEVNULL)
    _, status, usage = os.wait4(process.pid, 0)
    process.returncode = os.waitstatus_to_exitcode(status)
    if process.returncode != want:
        sys.exit(f"{command[0]} ended with status {process.returncode}")
    return usage.ru_utime + usage.ru_stime, usage.ru_maxrss / 1024


def measure(words):
    """Whether reading in pieces is within its limit."""
    mcf, mcfcheck = map(programs.built, ("mcf", "mcfcheck"))
    text, answer = write()
    if not words.built:
        programs.build("mcf", "mcfcheck")
    runs = max(5, words.runs)
    print(
        f"pieces: {runs} runs of each, whole processes, of a text of"
        f" {text.stat().st_size / 1e6:.0f} MB"
    )
    in_turn = [
        (timed([mcf, "solve", str(text)], 2), timed([mcfcheck, str(text), str(answer)], 0))
        for _ in range(runs)
    ]
    (ours, our_peak), (other, other_peak) = (tuple(map(min, zip(*done))) for done in zip(*in_turn))
    print(
        f"pieces: in pieces {ours:.4f} s and {our_peak:.0f} MB, at once {other:.4f} s and"
        f" {other_peak:.0f} MB, ratio {ours / other:.2f}"
    )
    return ours / other <= LIMIT
