#!/usr/bin/env python3
"""Finds in seconds what `rt ci` and `make edits` would refuse after many minutes: files of crates
that aren't in the layout of `rt fmt`, and edits that can't be applied.

    scripts/layout.py    lists both; status 1 if there is one. `make lint` calls this
"""
import subprocess
import sys
from typing import List

import build
from edits import edit
from edits.check import kit_folder


def unformatted() -> List[str]:
    """What `rattle fmt --check` says of the files of all crates."""
    files = sorted(
        path
        for name in build.crates()
        for part in edit.PARTS
        for ending in ("*.rt", "*.antt")
        for path in (build.TOP / "crates" / name / part).rglob(ending)
    )
    ran = subprocess.run(
        [kit_folder() / "bin" / "rattle", "fmt", "--check", *files],
        cwd=build.TOP,
        capture_output=True,
        text=True,
    )
    said = (ran.stdout + ran.stderr).splitlines()
    return (said or ["rattle fmt fails"]) if ran.returncode else []


def inapplicable() -> List[str]:
    """The edits that can't be applied, each with the reason."""
    folders = sorted(path.parent for path in (build.TOP / "crates").glob("*/edits"))
    return [
        f"{label}: {why}" for folder in folders for label, why in edit.read_all(folder)[1].items()
    ]


def main() -> int:
    wrong = unformatted() + inapplicable()
    print("\n".join(wrong) or "layout: each file is in layout, and each edit applies")
    return 1 if wrong else 0


if __name__ == "__main__":
    sys.exit(main())
