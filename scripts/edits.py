#!/usr/bin/env python3
"""Mutation tests: tries the edits that must fail, crates/NAME/edits/*.edit. The prover must refuse
each at a goal.

    scripts/edits.py [--jobs N] [CRATE ..]     all crates that have edits, if none is named

One check judges a group of edits to functions that don't call one another, since it reports on
every function; an edit that it leaves undecided goes into a smaller group, and finally runs alone.
The result of an edit is `refused at a goal`, which alone passes; `refused for its shape`, if it
doesn't compile or removes what a proof names; `THROUGH`, if the crate is proved with it; or
`undecided`. Refusals are cached in bin/edits/ by a checksum of their inputs, so that a later run
tries what changed; bin/edits/CRATE.log has the output of the last run's checks. The crates below
are used as `make` built them. The status is 1 if an edit isn't refused at a goal.
"""
import argparse
import signal
import sys

import build
from edits import run
from edits.check import Lanes


def with_edits():
    return sorted(path.parent.name for path in (build.TOP / "crates").glob("*/edits"))


def main():
    parser = argparse.ArgumentParser(
        description=__doc__, formatter_class=argparse.RawDescriptionHelpFormatter
    )
    parser.add_argument("crates", nargs="*", metavar="CRATE")
    parser.add_argument("--jobs", type=int, metavar="N", help="checks at once, at most")
    words = parser.parse_args()
    if words.jobs is not None and words.jobs < 1:
        parser.error("--jobs is at least 1")
    crates = sorted(set(words.crates)) or with_edits()
    for name in crates:
        if name not in with_edits():
            sys.exit(f"edits.py: {name} has no edits")
    every = build.crates()
    old = build.stale(build.closure(every, [below for name in crates for below in every[name]]))
    if old:
        sys.exit(
            f"edits.py: {', '.join(old)}: not built, or older than its sources; run make first"
        )
    for number in (signal.SIGHUP, signal.SIGINT, signal.SIGTERM):
        signal.signal(number, lambda number, _: sys.exit(128 + number))
    sys.exit(run.try_all(crates, Lanes(words.jobs)))


if __name__ == "__main__":
    main()
