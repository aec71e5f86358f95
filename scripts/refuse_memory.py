#!/usr/bin/env python3
"""Refuses each allocation of each test, or of a program on each example, in turn.

    python3 scripts/refuse_memory.py [NAME ...] [--only WORD] [--most N] [--minutes N] [--built]

NAME is a crate with tests; without one, all of them. `rt test` proves, builds and tests each
(`--built` uses the tests as they were built last). Then each test, or with `--only` each whose name
contains WORD, runs with its first allocation refused, then with its second, and so on, until a run
meets no refusal, or up to the Nth (by default 5,000). A run is right if it ends as with ample
memory, or with an out-of-memory error; tests of borrowed data compare it themselves after the
error. A line for each test has the number of runs that met a refusal, of those that ended with the
error, and of those that completed. The status is 1 if a run is wrong, or if anything isn't run:
tests aren't built, no test's name contains WORD, or so many minutes have passed since the first
run.

NAME may also be mcf, mcfcheck or mcfplan: then the program of bin/ runs on each example, mcf with
each engine, mcfplan with ranges and with demands that may be missing, and on words without an
instance. A run is right if it does the same as with ample memory, or prints only `NAME: out of
memory`, with status 3. A line is printed for each engine.

Needs `rt`, `cc`, Python 3 and a C library whose `malloc` can be replaced.
"""
import argparse
import collections
import pathlib
import re
import subprocess
import sys
import tempfile
import time

HERE = pathlib.Path(__file__).resolve().parent
CRATES, BIN, EXAMPLES = (HERE.parent / name for name in ("crates", "bin", "examples"))
ENGINES = ("auto", "cancel", "simplex", "scaling", "fast", "sap")
PLANS = EXAMPLES / "plans"
PROGRAMS = ("mcf", "mcfcheck", "mcfplan")
WITHOUT_TABLES = ([], ["flow"], ["flow", "--none"], ["pairs", "none.csv"])
WITHOUT_INSTANCE = (
    ["--version"],
    ["solve", "--help"],
    ["solve", "--none"],
    ["solve", "--block", "0"],
    [],
)
MET = b"memory was refused\n"
SPEAKS_OF_MEMORY = re.compile(rb"error: .*([Mm]emory|AllocError|AllocFailed)")


def with_tests():
    """The crates with tests, those of the command line first."""
    found = [
        it.name
        for it in CRATES.iterdir()
        if any("#[test]" in file.read_text() for file in it.glob("src/**/*.rt"))
    ]
    return sorted(found, key=lambda name: (name != "mcf_suite_tests", name))


def run(program, test, refused, shim):
    """Runs a test once. Returns whether the run met a refusal, and how it ended: well, without
    memory, or wrong."""
    environment = {"PATH": "/usr/bin:/bin", "LD_PRELOAD": str(shim), "REFUSED": str(refused)}
    try:
        ran = subprocess.run(
            [program, test],
            env=environment,
            stdout=subprocess.PIPE,
            stderr=subprocess.STDOUT,
            timeout=120,
        )
    except subprocess.TimeoutExpired:
        return True, "wrong", b"it had not ended after 120 seconds"
    if ran.returncode == 0:
        return MET in ran.stdout, "well", ran.stdout
    failed_so = b"its result gives status 1" in ran.stdout and SPEAKS_OF_MEMORY.search(ran.stdout)
    return MET in ran.stdout, "without memory" if failed_so else "wrong", ran.stdout


def judge(program, test, most, until, shim):
    """Refuses each allocation of a test in turn. Returns whether it reached all, and no run was
    wrong."""
    ends = {"well": 0, "without memory": 0, "wrong": 0}
    in_time = True
    for refused in range(1, most + 1):
        if time.monotonic() > until:
            print(f"  {test}: FAILED: the time is over at allocation {refused}")
            in_time = False
            break
        met, end, said = run(program, test, refused, shim)
        if not met and end == "well":
            break
        ends[end] += 1
        if end == "wrong":
            print(f"  {test}: allocation {refused}: wrong\n{said.decode(errors='replace')}")
    else:
        print(f"  {test}: stopped at allocation {most}, which may not be the last")
    print(
        (
            f"  {test}: {sum(ends.values())} refusals, {ends['without memory']} out of memory,"
            f" {ends['well']} well, {ends['wrong']} wrong"
        ),
        flush=True,
    )
    return in_time and not ends["wrong"]


def calls(name):
    """The calls of a program, in groups: the name of each group, and the words of its calls."""
    instances = sorted(path for path in EXAMPLES.iterdir() if path.suffix in (".min", ".asn"))
    if name == "mcfplan":
        places, costs = sorted(PLANS.glob("*/places.csv")), sorted(PLANS.glob("*/costs.csv"))
        flows = [["flow", path, path.with_name("routes.csv")] for path in places]
        return {
            f"{name} flow --ranges": [[*words, "--ranges"] for words in flows],
            f"{name} flow --short allow": [[*words, "--short", "allow"] for words in flows],
            f"{name} pairs": [["pairs", path] for path in costs],
            f"{name} without tables": WITHOUT_TABLES,
        }
    if name == "mcfcheck":
        return {name: [[path, path.with_suffix(".ans")] for path in instances]}
    by = {
        f"{name} --engine {it}": [
            ["solve", "--engine", it, "--form", form, path] for path in instances for form in "12"
        ]
        for it in ENGINES
    }
    return {**by, f"{name} without an instance": WITHOUT_INSTANCE}


def run_program(name, words, refused, shim):
    """Runs a program once. Returns whether the run met a refusal, its status, and its two
    outputs."""
    environment = {
        "PATH": "/usr/bin:/bin",
        **({"LD_PRELOAD": str(shim), "REFUSED": str(refused)} if refused else {}),
    }
    ran = subprocess.run(
        [BIN / name, *words],
        env=environment,
        stdin=subprocess.DEVNULL,
        capture_output=True,
        timeout=120,
    )
    return MET in ran.stderr, (ran.returncode, ran.stdout, ran.stderr.replace(MET, b""))


def refuse_each(name, words, most, until, shim):
    """Refuses each allocation of a call of a program in turn. Returns how its runs ended."""
    ends, want, ample = (
        collections.Counter(),
        (3, b"", f"{name}: out of memory\n".encode()),
        run_program(name, words, 0, shim)[1],
    )
    for refused in range(1, most + 1):
        met, did = run_program(name, words, refused, shim)
        end = "well" if did == ample else "without memory" if did == want else "wrong"
        if end == "wrong":
            print(f"  {name} {words}: allocation {refused}: wrong: {did}")
        ends[end] += met or end == "wrong"
        if not met:
            break
        if time.monotonic() > until:
            ends["out of time"] += 1
            break
    return ends


def judge_program(name, most, until, shim):
    """Refuses each allocation of each call of a program in turn. Returns whether it reached all,
    and no run was wrong."""
    failed = 0
    for group, each in calls(name).items():
        ends = sum(
            (refuse_each(name, words, most, until, shim) for words in each), collections.Counter()
        )
        late = ends.pop("out of time", 0)
        failed += ends["wrong"] + late
        print(
            (
                f"  {group}: {sum(ends.values())} refusals, {ends['without memory']} out of memory,"
                f" {ends['well']} well, {ends['wrong']} wrong"
                + (f"; FAILED: the time is over in {late} calls" if late else "")
            ),
            flush=True,
        )
    return failed == 0


def judge_tests(name, words, until, shim):
    """Refuses each allocation of each requested test of a crate in turn. Returns the number of
    these tests, and whether all were right."""
    program = CRATES / name / "out" / f"{name}_tests"
    if not program.exists():
        print(f"{name}: FAILED: its tests aren't built; `make test` builds them")
        return 0, False
    listed = subprocess.run([program, "--list"], check=True, capture_output=True, text=True).stdout
    tests = [it for it in re.findall(r"^(.*): test$", listed, re.M) if words.only in it]
    print(name, flush=True)
    return len(tests), all([judge(program, test, words.most, until, shim) for test in tests])


def main():
    parser = argparse.ArgumentParser(
        description=__doc__, formatter_class=argparse.RawDescriptionHelpFormatter
    )
    parser.add_argument("names", nargs="*", metavar="NAME")
    parser.add_argument("--only", default="", metavar="WORD")
    parser.add_argument("--most", type=int, default=5000)
    parser.add_argument("--minutes", type=float, default=float("inf"))
    parser.add_argument("--built", action="store_true")
    words = parser.parse_args()
    right, tried, until = True, 0, float("inf")
    with tempfile.TemporaryDirectory() as room:
        shim = pathlib.Path(room) / "refuse_memory.so"
        subprocess.run(
            ["cc", "-O1", "-shared", "-fPIC", "-o", shim, HERE / "refuse_memory.c", "-ldl"],
            check=True,
        )
        for name in words.names or with_tests():
            is_program = name in PROGRAMS
            if not words.built and not is_program:
                folder = CRATES / name
                subprocess.run(["rt", "test"], cwd=folder, check=True, stdout=subprocess.DEVNULL)
            until = min(until, time.monotonic() + 60 * words.minutes)
            if is_program:
                count, well = 1, judge_program(name, words.most, until, shim)
            else:
                count, well = judge_tests(name, words, until, shim)
            right, tried = right and well, tried + count
    if right and not tried:
        print(f"FAILED: no test has {words.only} in its name")
    return 0 if right and tried else 1


if __name__ == "__main__":
    sys.exit(main())
