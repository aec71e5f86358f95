"""Finds the programs of the suite, and has `mcfplan` answer texts of tables."""
import os
import pathlib
import shutil
import subprocess
import sys

from . import life
from .faults import trouble

TOP = pathlib.Path(__file__).resolve().parents[2]
# The tables that an option of `mcfplan` names.
OPTIONAL = ("groups",)


def program(name, folder=None):
    """The path of a program: in `folder` or MCF_BIN if one is given, and otherwise beside this
    tool, in the repository's bin/, or on the path."""
    folder = folder or os.environ.get("MCF_BIN")
    folders = [folder] if folder else [pathlib.Path(sys.argv[0]).resolve().parent, TOP / "bin"]
    for candidate in folders:
        path = pathlib.Path(candidate, name)
        if path.is_file() and os.access(path, os.X_OK):
            return str(path.resolve())
    found = None if folder else shutil.which(name)
    if found:
        return found
    raise trouble(
        f"the program {name} isn't in {' or '.join(map(str, folders))}"
        + ("" if folder else " nor on the path")
        + ": build it with `make`, or name its folder with --programs"
    )


def run(words, output):
    """Runs a program with its standard output in an open file. Returns its status and its standard
    error."""
    try:
        done = subprocess.run(
            words, stdin=subprocess.DEVNULL, stdout=output, stderr=subprocess.PIPE
        )
    except OSError as error:
        raise trouble(f"{words[0]} can't be run: {error.strerror}")
    return done.returncode, done.stderr.decode("utf-8", "replace").strip()


def answer_bytes(path, words, texts, scratch):
    """The answer of `mcfplan`, at this path, to texts of tables by their words, and its status: 0
    for a plan, 1 if there is none, 2 for faults. The texts are written into an empty folder."""
    files = []
    for word, text in texts.items():
        file = scratch / f"{word}.csv"
        file.write_bytes(text.encode("utf-8"))
        files += [f"--{word}"] * (word in OPTIONAL) + [str(file)]
    with open(scratch / "answer.csv", "wb") as output, life.doing("mcfplan plans"):
        status, told = run([path, *words, *files], output)
    if status not in (0, 1, 2):
        raise trouble(f"mcfplan gave no answer (status {status}): {told}")
    return status, (scratch / "answer.csv").read_bytes()
