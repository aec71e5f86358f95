"""The programs to measure, which `scripts/build.py` proves and builds."""
import pathlib
import subprocess
import sys

TOP = pathlib.Path(__file__).resolve().parent.parent


def built(name):
    """The path of a built program."""
    return str(TOP / "bin" / name)


def build(*names):
    """Proves and builds programs, if that isn't done."""
    subprocess.run(
        [sys.executable, str(TOP / "scripts" / "build.py"), *names],
        check=True,
        stdout=subprocess.DEVNULL,
    )
