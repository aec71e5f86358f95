#!/usr/bin/env python3
"""Runs all steps of CI in order, and closes with a table.

    scripts/ci.py            every step; .ci/run calls this
    scripts/ci.py --quick    the steps that take seconds over what is built, and `rt check` of each
                             crate whose files differ from the last commit that upstream has, or
                             from HEAD if there is no upstream; `make quick` calls this

A step whose tools are missing is skipped, and the table gives the reason; it also lists what a step
reports that it skipped. Nothing is installed. A failing step fails the run. The last line is
`N passed, M failed, K skipped`.
"""
import collections
import pathlib
import re
import shutil
import subprocess
import sys
import time
from typing import Deque, List, NamedTuple, Optional, Tuple

TOP = pathlib.Path(__file__).resolve().parent.parent
BROWSERS = ("chromium", "chromium-browser", "google-chrome", "firefox", "firefox-esr")


class Step(NamedTuple):
    """The command to run, and the tools that it needs: one of each tuple."""

    name: str
    command: Tuple[str, ...]
    tools: Tuple[Tuple[str, ...], ...] = ()


class Result(NamedTuple):
    step: Step
    status: str
    minutes: float
    skipped: List[str]
    # the last lines that it printed
    end: List[str]


KIT = (("rt",),)
LINT = Step("formatters and linters", ("make", "lint"))
TOOLS = Step("tools", ("make", "tools-test"), (("python3",),))
PAGE = Step("page in node", ("scripts/page_test.sh",))
STEPS = (
    LINT,
    Step("proofs, tests, programs, tools, page in node", ("make", "test"), KIT),
    Step("edits that must fail", ("make", "edits"), KIT),
    Step("library", ("make", "library"), (*KIT, ("cc",))),
    Step("library from C, C++, Rust, Python", ("make", "library-test"), (("cc",),)),
    Step("packages", ("make", "dist"), (("ar",),)),
    Step("packages installed: archive, wheel, .deb", ("make", "dist-test")),
    Step("page in browsers", ("env", "SLACK=5", "make", "page-test"), (("node",), BROWSERS)),
)


def lacking(step: Step) -> Optional[str]:
    """The first missing tool of a step, or None."""
    for names in step.tools:
        if not any(shutil.which(name) for name in names):
            return f"there is no {' or '.join(names)}"
    return None


def run(step: Step) -> Result:
    """Runs a step, prints its output, and collects what it reports as skipped."""
    why = lacking(step)
    if why:
        print(f"ci: {step.name}: skipped: {why}", flush=True)
        return Result(step, "skipped", 0, [why], [])
    print(f"ci: {step.name}: {' '.join(step.command)}", flush=True)
    begun, skipped = time.monotonic(), []
    end: Deque[str] = collections.deque(maxlen=40)
    pipe, both = subprocess.PIPE, subprocess.STDOUT
    with subprocess.Popen(
        step.command, cwd=TOP, stdout=pipe, stderr=both, text=True, errors="replace"
    ) as process:
        assert process.stdout
        for line in process.stdout:
            print(line, end="", flush=True)
            end.append(line)
            found = re.match(r"[\w. -]+: skipped: (.*)", line)
            if found:
                skipped.append(found[1])
    minutes = (time.monotonic() - begun) / 60
    status = "failed" if process.returncode else "passed"
    return Result(step, status, minutes, skipped, list(end))


def changed() -> List[str]:
    """The crates whose files differ from the last commit of the upstream branch, or from HEAD."""

    def git(*words: str) -> str:
        done = subprocess.run(("git", *words), cwd=TOP, capture_output=True, text=True)
        return done.stdout if done.returncode == 0 else ""

    base = git("merge-base", "HEAD", "@{upstream}").strip() or "HEAD"
    files = git("diff", "--name-only", base) + git("ls-files", "--others", "--exclude-standard")
    rows = (TOP / "crates.txt").read_text().splitlines()
    listed = [line.split(":")[0].split()[0] for line in rows if ":" in line]
    touched = set(re.findall(r"^crates/(\w+)/(?:src|specs|proofs)/", files, re.M))
    return [name for name in listed if name in touched]


def quick() -> List[Step]:
    """The steps of `--quick`: those that take seconds, and the checks of changed crates."""
    check = "cd crates/{} && rt check"
    checks = [Step(f"{name}", ("sh", "-c", check.format(name)), KIT) for name in changed()]
    return [LINT, TOOLS, PAGE, *checks]


def table(results: List[Result]) -> None:
    """Prints the last lines of failed steps, a line for each step, and one for each thing that
    wasn't run."""
    for result in results:
        if result.status == "failed":
            print(f"\nci: {result.step.name}: failed; its last lines:\n{''.join(result.end)}")
    print("\nci: step | result | minutes")
    for result in results:
        print(f"ci: {result.step.name} | {result.status} | {result.minutes:.1f}")
        for why in result.skipped:
            print(f"ci:     not run: {why}")


def main(words: List[str]) -> int:
    if words not in ([], ["--quick"]):
        sys.exit(__doc__)
    results = [run(step) for step in (quick() if words else STEPS)]
    table(results)
    count = {
        word: sum(r.status == word for r in results) for word in ("passed", "failed", "skipped")
    }
    print(f"{count['passed']} passed, {count['failed']} failed, {count['skipped']} skipped")
    return 1 if count["failed"] else 0


if __name__ == "__main__":
    sys.exit(main(sys.argv[1:]))
