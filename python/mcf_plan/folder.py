"""The folder of results. A run writes it completely or not at all."""
import contextlib
import os
import pathlib
import shutil
import signal

from .faults import Stop, trouble
from .scene import DRAWN

# The files of a plan, also of earlier versions. A run doesn't touch a folder that has any other
# file.
RESULTS = (
    "answer.csv",
    "asked.json",
    "flows.csv",
    "prices.csv",
    "stock.csv",
    "pairs.csv",
    "groups.csv",
    "sums.csv",
    "bottleneck.csv",
    "plan.xlsx",
    "plan.svg",
    *(f"plan-{number}.svg" for number in range(1, DRAWN + 1)),
    "plan.json",
    "report.html",
    "instance.min",
    "instance.asn",
    "answer.ans",
)
# The files of a comparison.
COMPARISON = ("compare.csv", "compare.html")
# How the files begin of which one shows that a folder is the tool's own.
BEGINS = {
    "answer.csv": '"answer","',
    "plan.json": '{\n"format": ',
    "compare.csv": "figure",
}


@contextlib.contextmanager
def results_in(name, files=RESULTS):
    """A new folder beside the named one, which it replaces at the end. If the run fails, the new
    folder is removed. Results have these names."""
    target = pathlib.Path(os.path.realpath(name))
    check_target(name, target, files)
    part = target.with_name(f".{target.name}.part-{os.getpid()}")
    try:
        try:
            target.parent.mkdir(parents=True, exist_ok=True)
            part.mkdir()
        except OSError as error:
            raise trouble(f"the folder {name} can't be made: {error.strerror}")
        yield part
        swap(part, target)
    finally:
        shutil.rmtree(part, ignore_errors=True)


def check_target(name, target, files):
    """Ends the run if the folder has a file that isn't such a result and might be lost."""
    if target.exists() and not target.is_dir():
        raise trouble(f"the folder {name} can't be made: there is a file of this name")
    names = sorted(path.name for path in target.iterdir()) if target.exists() else []
    foreign = [name for name in names if name not in files]
    if foreign:
        raise Stop(
            (
                f"the folder {name} has files that are no results, such as {foreign[0]}: name a"
                " folder of its own with -o"
            ),
            2,
        )
    if names and not any(begins(target / name, text) for name, text in BEGINS.items()):
        raise Stop(
            (
                f"the folder {name} has {names[0]}, and no {files[0]} of this tool, by which it"
                " would be an earlier result: name a folder of its own with -o"
            ),
            2,
        )
    if target == pathlib.Path.cwd() or target.name == "":
        raise Stop(f"the folder {name} can't be replaced: name another with -o", 2)


def swap(part, target):
    """Moves the new folder to its place and removes an earlier one. No signal interrupts this."""
    old = part.with_name(part.name + ".old")
    held = signal.pthread_sigmask(signal.SIG_BLOCK, {signal.SIGINT, signal.SIGTERM, signal.SIGHUP})
    try:
        if target.exists():
            os.rename(target, old)
        try:
            os.rename(part, target)
        except OSError:
            if old.exists():
                os.rename(old, target)
            raise
        shutil.rmtree(old, ignore_errors=True)
    finally:
        signal.pthread_sigmask(signal.SIG_SETMASK, held)


def begins(path, text):
    """Whether a file begins with a text, perhaps after a byte-order mark."""
    try:
        with open(path, encoding="utf-8-sig", errors="replace") as file:
            return file.read(len(text)) == text
    except OSError:
        return False
