#!/usr/bin/env python3
"""Runs `make test` and `make edits`, and writes their times into docs/GATE.md.

    scripts/gate_table.py             both steps, then the table
    scripts/gate_table.py STEP        one step, such as `make edits`
    scripts/gate_table.py --table     the table alone, of the steps that bin/gate.log holds

The script prints the output of the steps, each line after the minutes passed, and keeps it in
bin/gate.log, with what each crate's checks took of a processor. Cached proofs and tries take no
time, so a complete table needs a run after `make clean`, with an empty cache of the kit.
"""
import collections
import datetime
import os
import pathlib
import re
import subprocess
import sys
import threading
import time

TOP = pathlib.Path(__file__).resolve().parent.parent
PAGE, LOG = TOP / "docs" / "GATE.md", TOP / "bin" / "gate.log"
BEGIN, END = "<!-- table -->\n", "<!-- end of table -->\n"
STEPS = ("make test", "make edits")


class Watch(threading.Thread):
    """Reads every second how long the prover's processes of each crate run, on Linux."""

    def __init__(self):
        super().__init__(daemon=True)
        self.ended = threading.Event()
        # by process the name of its crate, whether it is about tests, and its seconds
        self.seen = {}

    def run(self):
        while not self.ended.wait(1):
            for stat in pathlib.Path("/proc").glob("[0-9]*/stat"):
                try:
                    self.look(stat)
                except OSError:
                    pass

    def look(self, stat):
        """Notes a process, if it is one of the prover's."""
        words = (stat.parent / "cmdline").read_text().split("\0")
        if "rattle" in words[0] and "--crate-name" in words:
            numbers = stat.read_text().rpartition(")")[2].split()
            ticks = int(numbers[11]) + int(numbers[12])
            key = stat.parent.name, numbers[19]
            crate = words[words.index("--crate-name") + 1]
            self.seen[key] = crate, "--test" in words, ticks / os.sysconf("SC_CLK_TCK")

    def minutes(self):
        """The minutes of a processor by crate: of its proof, and of its tests'."""
        found = collections.defaultdict(lambda: [0.0, 0.0])
        for crate, is_test, seconds in self.seen.values():
            found[crate][is_test] += seconds / 60
        return found


def run(step):
    """Runs a step, prints and keeps what it prints; returns its status."""
    start, used, watch = time.monotonic(), os.times(), Watch()
    pipe, both = subprocess.PIPE, subprocess.STDOUT
    watch.start()
    with subprocess.Popen(step.split(), cwd=TOP, stdout=pipe, stderr=both, text=True) as ran:
        for line in ran.stdout:
            keep(f"{(time.monotonic() - start) / 60:6.1f}  {line}")
    watch.ended.set()
    if step == STEPS[0]:
        for crate, (proof, tests) in watch.minutes().items():
            keep(f"{crate}: proved in {proof:.1f} minutes, its tests in {tests:.1f}\n")
    now = os.times()
    took = now.children_user - used.children_user + now.children_system - used.children_system
    clock = (time.monotonic() - start) / 60
    keep(f"`{step}` {clock:.0f} minutes by the clock and {took / 60:.0f} of a processor\n")
    return ran.returncode


def keep(line):
    """Prints a line, and writes it to the log."""
    print(line, end="", flush=True)
    LOG.parent.mkdir(exist_ok=True)
    with open(LOG, "a") as log:
        log.write(line)


def rows(log):
    """The rows of the table: what a crate's proofs take of a processor, and its edits."""
    took = re.findall(r"(?m)^(\w+): proved in ([\d.]+) minutes, its tests in ([\d.]+)$", log)
    proofs = {crate: minutes for crate, *minutes in took}
    tried = re.findall(r"(\w+): \d+ edits by (\d+) checks, ([\d.]+) minutes", log)
    tries = {crate: (checks, minutes) for crate, checks, minutes in tried}
    for line in (TOP / "crates.txt").read_text().splitlines():
        crate = (line.split(":")[0].split() or [""])[0]
        if crate:
            count = len(list((TOP / "crates" / crate / "edits").glob("*.edit")))
            checks, minutes = tries.get(crate, ("", "") if not count else ("kept", ""))
            proof, tests = ("" if it == "0.0" else it for it in proofs.get(crate, ("kept", "")))
            yield f"| {crate} | {proof} | {tests} | {count or ''} | {checks} | {minutes} |"


def write_table():
    """Writes the table, and the lines above it, into the page."""
    log = LOG.read_text()
    version = subprocess.run(["rt", "version"], capture_output=True, text=True, check=True).stdout
    took = re.findall(r"(?m)^`.*$", log)
    made = [
        f"Measured on {datetime.date.today()} by `scripts/gate_table.py`,"
        f" {len(os.sched_getaffinity(0))} processors, {version.strip()}:",
        ";\n".join(took) + ".",
        "",
        "| Crate | minutes of a processor: proof | its tests | edits | checks | minutes |",
        "|---|---|---|---|---|---|",
        *rows(log),
        "",
    ]
    head, _, rest = PAGE.read_text().partition(BEGIN)
    PAGE.write_text(head + BEGIN + "\n".join(made) + END + rest.partition(END)[2])


def main(words):
    if words != ["--table"]:
        LOG.unlink(missing_ok=True)
        for step in words or STEPS:
            status = run(step)
            if status:
                return status
    if not words or words == ["--table"]:
        write_table()
    return 0


if __name__ == "__main__":
    sys.exit(main(sys.argv[1:]))
