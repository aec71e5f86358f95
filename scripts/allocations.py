#!/usr/bin/env python3
"""Checks by pattern what no clause states about memory: code without an allocator argument doesn't
allocate, no failed allocation is ignored, and only `mcf_numbers` makes and raises counts.

    scripts/allocations.py      lists each place in crates/*/src that breaks one of these rules,
                                except those named here; status 1 if there is one

A vector gives access to its own allocator (`.allocator()`), so a call without an allocator could
grow another vector. A call that may grow returns whether it did; code ignores that result if the
call is a statement by itself, is bound to `_`, or goes to `.ok()`."""
import re
import sys
from pathlib import Path

TOP = Path(__file__).resolve().parent.parent

# The places that request an allocator, and how often. A table of arcs that becomes wide requests
# the allocator of its narrow form.
ALLOCATORS = {"mcf_flows/src/arc_table.rt": 2}

# The places that ignore a result. They reserve memory at the start, and call only if it suffices.
DROPPED = {
    "mcf_engine/src/heap.rt": "self.entries.push",
    "mcf_offers/src/offers.rt": "self.heap.push",
}

# The project's own calls that share a name with a growing call, but return nothing.
OWN = {
    "done.insert",
    "matching.extend",
    "partial.extend",
    "path.push",
    "queue.insert",
    "refine.push",
    "seen.insert",
    "self.marks.insert",
    "self.push",
    "self.queue.push",
    "self.reached.insert",
    "self.steps.push",
    "set.insert",
    "settled.insert",
    "state.push",
}

GROWS = re.compile(
    r"((?:[\w:]+|\))(?:\s*\.\s*\w+(?:\(\))?)*)\s*\.\s*(push|push_back|push_front|push_str|reserve"
    r"|try_reserve|resize|extend|extend_from_slice|append|insert)\s*\("
)


def bare(text):
    """The text with comments, strings and characters blanked out, at the same places."""

    def blanks(found):
        return re.sub(r"[^\n]", " ", found.group())

    return re.sub(r"//[^\n]*|\"(?:\\.|[^\"\\])*\"|b?'(?:\\.|[^'\\])'", blanks, text)


def past(text, opening):
    """The place after the parenthesis that closes the one at a place."""
    depth = 0
    for place in range(opening, len(text)):
        depth += {"(": 1, ")": -1}.get(text[place], 0)
        if depth == 0:
            return place + 1
    return len(text)


def dropped(text):
    """Each call that may grow and whose result is ignored: its place, and the call."""
    for found in GROWS.finditer(text):
        after = text[past(text, found.end() - 1) :].lstrip()
        before = re.split(r"[;{}]|=>", text[: found.start()])[-1].strip()
        call = re.sub(r"\s", "", f"{found.group(1)}.{found.group(2)}")
        if re.match(r"\.\s*ok\s*\(\s*\)\s*;", after) or (
            after.startswith(";") and (before == "" or re.fullmatch(r"let\s+_\s*(:.*)?=", before))
        ):
            yield found.start(), call


def look(file):
    """The violations of the rules in a file, each with its place."""
    name = file.relative_to(TOP / "crates").as_posix()
    text = bare(file.read_text(encoding="utf-8"))
    asked = [found.start() for found in re.finditer(r"\.\s*allocator\s*\(", text)]
    if len(asked) != ALLOCATORS.get(name, 0):
        for place in asked or [0]:
            yield place, f"allocators asked for here: {len(asked)}"
    for place, call in dropped(text):
        if call not in OWN and DROPPED.get(name) != call:
            yield place, f"the answer of {call} is dropped"
    if not name.startswith("mcf_numbers/"):
        for found in re.finditer(r"\bCount\s*\{", text):
            yield found.start(), "a Count is made by hand"


def main():
    """Checks all crates."""
    broken = 0
    for file in sorted(TOP.glob("crates/*/src/**/*.rt")):
        text = file.read_text(encoding="utf-8")
        for place, what in look(file):
            line = text.count("\n", 0, place) + 1
            print(f"{file.relative_to(TOP)}:{line}: {what}")
            broken += 1
    for file in sorted(TOP.glob("crates/*/proofs/**/Proof.antt")):
        if file.relative_to(TOP).parts[1] != "mcf_numbers":
            print(f"{file.relative_to(TOP)}: a proof below the contracts")
            broken += 1
    return 1 if broken else 0


if __name__ == "__main__":
    sys.exit(main())
