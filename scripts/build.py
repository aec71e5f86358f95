#!/usr/bin/env python3
"""Proves the crates that the programs depend on, and builds the programs into bin/; or proves all.

`rt ci` does both, on a copy of these crates in bin/proofs/ without the edits that must fail. It
proves independent crates in parallel, with their tests, from scratch, each once; `make test` reuses
the result, if the kit keeps it. A line reports each proved crate, and how many are left. Each
program goes into bin/ as soon as it is built, and runs on an example. Built libraries go to
crates/mcf_c/out/rlib/, for scripts/module.sh. bin/proofs.log has the output of `rt ci`. If no
source has changed since the last time, the script only runs the programs on the example.

With --all it proves every crate with its tests, runs the tests, and runs each program as two
compilers build it; the tests go into out/ of their crates. It does so even if no source has
changed.

Usage: scripts/build.py [CRATE ..]        programs or libraries; mcfcheck, mcf, mcfplan by default
       scripts/build.py --all
       scripts/build.py --stamp CRATE  prints a hash of the kit and of the sources of a crate and of
                                       all below it, and proves nothing
"""
import hashlib
import os
import pathlib
import re
import shutil
import signal
import subprocess
import sys
import time

TOP = pathlib.Path(__file__).resolve().parent.parent
BIN = TOP / "bin"
COPY = BIN / "proofs"
LOG = BIN / "proofs.log"
# The gate takes libraries in out/rlib/ of a crate alone.
LIBRARIES = TOP / "crates" / "mcf_c" / "out" / "rlib"
# The example on which each program that users get runs once. The run must end with status 0.
EXAMPLE = "examples/transport"
WORDS = {
    "mcfcheck": [EXAMPLE + ".min", EXAMPLE + ".ans"],
    "mcf": ["solve", EXAMPLE + ".min"],
    "mcfplan": [
        "flow",
        "examples/plans/transport/places.csv",
        "examples/plans/transport/routes.csv",
    ],
}


def declared():
    """The crates of crates.txt, each with the words after its name and the crates it depends on."""
    found = {}
    for line in (TOP / "crates.txt").read_text().splitlines():
        names, colon, below = line.split("#")[0].partition(":")
        if colon:
            name, *kinds = names.split()
            found[name] = kinds, below.split()
    return found


def crates():
    """The crates of crates.txt, each with the repository's crates that it depends on."""
    found = declared()
    return {name: [b for b in below if b in found] for name, (_, below) in found.items()}


def closure(below, names):
    """The named crates and all below them."""
    found, waiting = set(), list(names)
    while waiting:
        name = waiting.pop()
        if name not in found:
            found.add(name)
            waiting += below[name]
    return found


def is_program(name):
    """Whether a crate is a program."""
    return (TOP / "crates" / name / "src" / "main.rt").exists()


def kit():
    """The line of the kit."""
    return subprocess.run(["rt", "version"], capture_output=True, check=True).stdout


def stamp(names):
    """A hash of the sources of crates, and of what proves them."""
    sum_ = hashlib.sha256(kit() + (TOP / "crates.txt").read_bytes())
    for name in sorted(names):
        folder = TOP / "crates" / name
        for path in sorted(
            p
            for part in ("src", "specs", "proofs")
            for p in (folder / part).rglob("*")
            if p.is_file()
        ):
            sum_.update(str(path.relative_to(TOP)).encode() + b"\0" + path.read_bytes())
    return sum_.hexdigest()


def stamp_file(name):
    """The file with the stamp of the sources from which a crate was built."""
    return BIN / f"{name}.sources"


def is_built(name, now):
    """Whether a crate is built from the sources with this stamp."""
    made = BIN / name if is_program(name) else LIBRARIES / f"{name}.rlib"
    return made.exists() and stamp_file(name).exists() and stamp_file(name).read_text() == now


def stale(names):
    """The libraries that aren't built from their current sources."""
    below = crates()
    return sorted(name for name in names if not is_built(name, stamp(closure(below, [name]))))


class Progress:
    """Prints lines with the elapsed time. On a terminal, each line replaces the previous one,
    unless that one stays."""

    def __init__(self):
        self.begun = time.time()
        self.live = sys.stdout.isatty()
        self.is_open = False

    def show(self, text):
        spent = int(time.time() - self.begun)
        line = f"{spent // 60}:{spent % 60:02} {text}"
        print("\r\033[K" + line if self.live else line, end="" if self.live else "\n", flush=True)
        self.is_open = self.live

    def tell(self, text):
        """Prints a line that stays."""
        self.show(text)
        self.end()

    def end(self):
        if self.is_open:
            print()
        self.is_open = False


def copy_crates(names):
    """Puts the crates into the copy, as the top of a separate repository."""
    if COPY.exists():
        shutil.rmtree(COPY)
    for name in names:
        shutil.copytree(
            TOP / "crates" / name,
            COPY / "crates" / name,
            ignore=shutil.ignore_patterns("out", "edits"),
        )
    lines = (TOP / "crates.txt").read_text().splitlines(keepends=True)
    (COPY / "crates.txt").write_text(
        "".join(line for line in lines if (line.split(":")[0].split() or [""])[0] in names)
    )
    shutil.copy(TOP / "HANDLES", COPY)
    (COPY / ".git").mkdir()


def put(name):
    """Puts the built files of a crate where they belong, and runs it if it is a program. Returns
    whether that succeeded."""
    made = COPY / "crates" / name / "out"
    if (made / name).is_file():
        shutil.copy(made / name, BIN / f"{name}.new")
        os.replace(BIN / f"{name}.new", BIN / name)
        return run(name)
    library = made / "rlib" / f"{name}.rlib"
    if library.is_dir():
        shutil.rmtree(LIBRARIES / f"{name}.rlib", ignore_errors=True)
        shutil.copytree(library, LIBRARIES / f"{name}.rlib")
    return True


def put_tests(name):
    """Puts a crate's built tests into its folder."""
    made, folder = COPY / "crates" / name / "out" / f"{name}_tests", TOP / "crates" / name / "out"
    if made.is_file():
        folder.mkdir(parents=True, exist_ok=True)
        shutil.copy(made, folder)


def run(name):
    """Runs a program on the example, or without words if users don't get it. Returns whether that
    succeeded."""
    return (
        subprocess.run(
            [BIN / name, *WORDS.get(name, [])], cwd=TOP, stdout=subprocess.DEVNULL
        ).returncode
        == 0
    )


def prove(stamps, progress):
    """Proves crates and builds programs in the copy, and puts the results where they belong, a
    library with the stamp of its sources. Returns whether all of it succeeded."""
    left = set(stamps)
    progress.show(f"proving {len(left)} crates")
    how = {
        "cwd": COPY,
        "stdout": subprocess.PIPE,
        "stderr": subprocess.STDOUT,
        "text": True,
        "errors": "replace",
    }
    with open(LOG, "w") as log, subprocess.Popen(["rt", "ci"], **how) as gate:
        try:
            for line in gate.stdout:
                log.write(line)
                log.flush()
                told = re.match(r"rt: (\w+) (proved$|is kept: )", line)
                if told:
                    left.discard(told[1])
                    take(told[1], len(left), progress)
                    if not is_program(told[1]):
                        stamp_file(told[1]).write_text(stamps[told[1]])
                tests = re.match(r"rt: (\w+): its tests (?:are proved|passed)$", line)
                if tests:
                    put_tests(tests[1])
        except BaseException:
            gate.terminate()
            raise
    return gate.returncode == 0 and not left


def take(name, left, progress):
    """Puts the built files of a proved crate where they belong, and reports it."""
    if not put(name):
        progress.end()
        sys.exit(f"bin/{name} doesn't end as it should on {EXAMPLE}")
    if name in WORDS:
        progress.tell(f"bin/{name} is proved, built and run on {EXAMPLE}; {left} crates are left")
    else:
        progress.show(f"{name} is proved; {left} crates are left")


def renew(programs):
    """Runs programs that are built from the current sources, and updates their times. Returns
    whether all exist and succeed."""
    if not all(run(name) for name in programs):
        return False
    for name in programs:
        os.utime(BIN / name)
    return True


def build(names, is_whole):
    """Proves crates and what they depend on, and puts the results where they belong. Returns
    whether that succeeded."""
    below, progress = crates(), Progress()
    stamps = {name: stamp(closure(below, [name])) for name in closure(below, names)}
    if not is_whole and all(is_built(name, now) for name, now in stamps.items()):
        programs = [name for name in names if is_program(name)]
        progress.show(f"running {', '.join(programs)}")
        if renew(programs):
            progress.end()
            return True
    for name in stamps:
        stamp_file(name).unlink(missing_ok=True)
    try:
        copy_crates(stamps)
        done = prove(stamps, progress)
    finally:
        progress.end()
        shutil.rmtree(COPY, ignore_errors=True)
    said = LOG.read_text().splitlines(keepends=True)
    if not done:
        print("".join(said[-40:]), end="")
        print("not all is proved, or built; what rt ci said is in bin/proofs.log")
        return False
    for name, now in stamps.items():
        stamp_file(name).write_text(now)
    if is_whole:
        print(
            "".join(line for line in said if "its tests passed" in line), said[-1], sep="", end=""
        )
    if {"mcfcheck", "mcf"} <= set(names):
        (BIN / "programs.kit").write_bytes(kit())
    return True


def main():
    words = sys.argv[1:]
    is_whole, is_asked = words == ["--all"], words[:1] == ["--stamp"]
    names = [*crates()] if is_whole else words[is_asked:] or [*WORDS]
    lacking = [name for name in names if name not in crates()]
    if lacking:
        sys.exit(f"build.py: {lacking[0]} is no crate of crates.txt")
    if is_asked:
        print(stamp(closure(crates(), names)))
        return
    for number in (signal.SIGHUP, signal.SIGINT, signal.SIGTERM):
        if signal.getsignal(number) != signal.SIG_IGN:
            signal.signal(number, lambda number, _: sys.exit(128 + number))
    BIN.mkdir(exist_ok=True)
    sys.exit(0 if build(names, is_whole) else 1)


if __name__ == "__main__":
    main()
