#!/usr/bin/env python3
"""Writes the results of the plans of examples/plans/ and the pictures of docs/ from the present
code. Review the changes before you commit them."""
import os
import pathlib
import shutil
import sys
import tempfile

sys.path[:0] = [
    str(pathlib.Path(__file__).resolve().parent),
    str(pathlib.Path(__file__).resolve().parents[1]),
]
from support import TOP  # noqa: E402
from test_examples import example_folders, results_of  # noqa: E402

# The pictures of docs/ by their plans, and the date in them, in seconds since 1970.
PICTURES = {"network": "plan.svg", "network-blocked": "plan-blocked.svg"}
DATE = "1795737600"


def main():
    """Writes all results and pictures."""
    os.environ["SOURCE_DATE_EPOCH"] = DATE
    for folder in example_folders():
        shutil.rmtree(folder / "expected", ignore_errors=True)
        (folder / "expected").mkdir()
        with tempfile.TemporaryDirectory() as scratch:
            for name, text in results_of(folder, pathlib.Path(scratch)).items():
                (folder / "expected" / name).write_text(text, encoding="utf-8")
            if folder.name in PICTURES:
                shutil.copy(f"{scratch}/plan.svg", TOP / "docs" / PICTURES[folder.name])


if __name__ == "__main__":
    main()
