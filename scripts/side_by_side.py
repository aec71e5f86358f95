#!/usr/bin/env python3
"""Runs commands side by side, and prints the output of each when all have ended.

    scripts/side_by_side.py COMMAND ..     each is one word, a line for the shell

All commands run to their end. The status is 1 if one of them fails. The outputs of those that fail
come last, each followed by a line that names it, so that the end of a log tells what failed.
"""
import subprocess
import sys
import tempfile


def main(lines):
    if not lines:
        sys.exit(__doc__)
    runs = []
    for line in lines:
        out = tempfile.TemporaryFile()
        runs.append((line, out, subprocess.Popen(line, shell=True, stdout=out, stderr=out)))
    ended = [(process.wait(), line, out) for line, out, process in runs]
    for status, line, out in sorted(ended, key=lambda run: run[0] != 0):
        out.seek(0)
        sys.stdout.buffer.write(out.read())
        sys.stdout.flush()
        if status:
            print(f"failed, with status {status}: {line}", flush=True)
    return 1 if any(status for status, _, _ in ended) else 0


if __name__ == "__main__":
    sys.exit(main(sys.argv[1:]))
