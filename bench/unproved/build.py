#!/usr/bin/env python3
"""Builds a program by plain `rustc`, without its contracts, in half a minute, to measure or to try
a change before it is proved.

    bench/unproved/build.py PROGRAM [--planner|--tests CRATE] [--of FOLDER] [--keep FOLDER] [-- ..]
    PROGRAM ENGINE FILE      solves the instance in FILE by an engine, and writes the answer, as
                             `mcf solve --engine ENGINE --form 2 FILE`
    PROGRAM flow|pairs ..    with --planner: as `mcfplan`, with its options and statuses
    PROGRAM [WORD]           with --tests: runs the tests of a crate, or those with a word in their
                             names; status 1 if one fails

The script removes contracts, ghost items and tactics from the crates that the program calls and
from those below them, and compiles the rest as modules of one program over `kit.rs`. That file
replaces the parts of the kit's library that differ from Rust's; if a crate uses a new part, add it
there. `--of` names another checkout to compare with, and `--keep` a folder for the generated
sources; flags are rustc's. Nothing is proved, and sums may wrap. The kit's compiler uses other
layouts for some structs, so only the proved program (`bench/run.py`) decides between two variants.
"""
import argparse
import pathlib
import re
import subprocess
import sys
import tempfile

HERE = pathlib.Path(__file__).resolve().parent
CHECKOUT = HERE.parents[1]
# the main file of a program, and the crates that it calls
SOLVER = "main.rs", ["mcf_solver"]
PLANNER = "planner.rs", ["mcf_range_text", "mcf_pair_text", "mcf_planner"]
TESTS = "tests.rs"


def tokens(text):
    """Splits a text into comments, strings, characters and the rest: pieces of (kind, text)."""
    shape = re.compile(
        r"""(?P<comment>//[^\n]*|/\*.*?\*/)"""
        r"""|(?P<string>b?"(?:\\.|[^"\\])*"|b?'(?:\\.[^']*|[^'\\])')"""
        r"""|(?P<word>[A-Za-z_][A-Za-z_0-9]*)|(?P<other>.)""",
        re.S,
    )
    for found in shape.finditer(text):
        yield found.lastgroup, found.group()


def closing(pieces, at):
    """The place after the bracket that closes the one at a place."""
    depth = 0
    while True:
        kind, text = pieces[at]
        if kind == "other":
            depth += text in "([{"
            depth -= text in ")]}"
        at += 1
        if depth == 0:
            return at


def next_solid(pieces, at):
    """The place of the next piece that isn't blank."""
    while at < len(pieces) and pieces[at][1].isspace():
        at += 1
    return at


def lines_of(pieces):
    """The line ends of pieces."""
    return "\n" * sum(text.count("\n") for _, text in pieces)


def strip(text):
    """The same lines without comments, contracts and ghosts."""
    pieces = [
        ("other", "\n" * t.count("\n") or " ") if k == "comment" else (k, t)
        for k, t in tokens(text)
    ]
    made, at = [], 0
    while at < len(pieces):
        kind, piece = pieces[at]
        start = at
        if kind == "word" and piece in ("requires", "ensures"):
            at = next_solid(pieces, at + 1)
            if pieces[at][1] == "*":
                at = next_solid(pieces, at + 1)
            if pieces[at][0] == "word":
                at = next_solid(pieces, at + 1)
            at = closing(pieces, at)
            made.append(lines_of(pieces[start:at]))
            after = next_solid(pieces, at)
            # a method of a trait without a body ends with its clauses
            if pieces[after][1] not in ("{", ";", "requires", "ensures", ","):
                made.append(";")
        elif kind == "word" and piece == "prove" and pieces[at + 1][1] == "!":
            at = closing(pieces, at + 2)
            at = next_solid(pieces, at) + 1
            made.append(lines_of(pieces[start:at]))
        elif kind == "word" and piece == "ghost":
            while pieces[at][1] not in (";", ","):
                at = closing(pieces, at) if pieces[at][1] in "([{" else at + 1
            at += 1
            made.append(lines_of(pieces[start:at]))
        else:
            made.append(piece)
            at += 1
    return "".join(made)


def translated(text, crate, crates):
    """Translates a module of a crate into a module of the program."""
    text = strip(text)
    # a ghost field was public
    text = re.sub(r"pub\s*(?=\n\s*\})", "", text)
    text = re.sub(r"#!?\[tactic\([^\]]*\)\]", "", text)
    text = re.sub(r"#\[error\([^\]]*\)\]", "", text)
    text = re.sub(r"use std::marker::Model;|use thiserror::Error;", "", text)
    text = re.sub(
        r"impl(<[^{>]*>)? Model for [^{]*\{\s*\}", lambda m: "\n" * m.group().count("\n"), text
    )
    text = re.sub(
        r"#\[derive\(([^)]*)\)\]",
        lambda m: "#[derive(%s)]"
        % ", ".join(w for w in re.split(r",\s*", m.group(1)) if w not in ("Drop", "Error")),
        text,
    )
    # Rust's `clone` can't fail
    text = re.sub(r"-> Result<([^{;]*), AllocError>\s*\{(\s*)Ok\(\*self\)", r"-> \1 {\2*self", text)
    text = re.sub(r"\.(collect|to_vec)\((?=[^)])", r".\1_in(", text)
    text = re.sub(r"(?<![:\w])crate::", f"crate::{crate}::", text)
    text = re.sub(r"(?<![:\w])(%s)::" % "|".join(crates), r"crate::\1::", text)
    text = re.sub(r"(?<![:\w])(std|memchr|itoa)::", r"crate::kit::\1::", text)
    return "use crate::kit::prelude::*; " + text


def with_tests(text):
    """A module with its tests as public functions, and their names."""
    names = re.findall(r"#\[test\]\s*fn (\w+)", text)
    text = re.sub(r"#\[test\]\s*fn ", "pub fn ", text)
    text = re.sub(r"#\[cfg\(test\)\]\s*mod ", "pub mod ", text)
    return re.sub(r"\bassert(_eq|_ne)?!\(\s*\w+;", r"test\1!(", text), names


def calls_of(crate, folder):
    """Makes the tests of a crate public, and returns a function that runs them all."""
    calls = []
    for path in sorted((folder / crate).rglob("*.rs")):
        text, names = with_tests(path.read_text())
        path.write_text(text)
        module = "::".join(path.relative_to(folder).with_suffix("").parts)
        calls += [f'    told.run("{name}", {module}::{name});\n' for name in names]
    return "fn run_all(told: &mut Told) {\n" + "".join(calls) + "}\n"


def crates_below(checkout, tops):
    """Crates and their dependencies, each after its own dependencies."""
    needs = {}
    for line in (checkout / "crates.txt").read_text().splitlines():
        name, _, rest = line.partition("#")[0].partition(":")
        if name.strip():
            needs[name.split()[0]] = rest.split()
    found = []

    def add(name):
        if name in needs and name not in found:
            for need in needs[name]:
                add(need)
            found.append(name)

    for top in tops:
        add(top)
    return found


def generate(checkout, program, folder):
    """Writes the sources of a program into a folder."""
    root, tops = program
    crates = crates_below(checkout, tops)
    for crate in crates:
        for source in (checkout / "crates" / crate / "src").rglob("*.rt"):
            name = source.relative_to(checkout / "crates" / crate / "src").with_suffix(".rs")
            path = folder / crate / ("mod.rs" if str(name) == "lib.rs" else name)
            path.parent.mkdir(parents=True, exist_ok=True)
            path.write_text(translated(source.read_text(), crate, crates))
    (folder / "kit.rs").write_text((HERE / "kit.rs").read_text())
    main = (HERE / root).read_text() + "".join(f"mod {crate};\n" for crate in crates)
    (folder / "main.rs").write_text(main + (calls_of(tops[0], folder) if root == TESTS else ""))


def main():
    words = argparse.ArgumentParser(usage=__doc__.split("\n")[3].strip())
    words.add_argument("program", type=pathlib.Path)
    words.add_argument("--planner", action="store_true")
    words.add_argument("--tests", metavar="CRATE")
    words.add_argument("--of", type=pathlib.Path, default=CHECKOUT)
    words.add_argument("--keep", type=pathlib.Path)
    at = sys.argv.index("--") if "--" in sys.argv else len(sys.argv)
    given, flags = words.parse_args(sys.argv[1:at]), sys.argv[at + 1 :]
    program = PLANNER if given.planner else SOLVER
    if given.tests:
        program = TESTS, [given.tests]
    with tempfile.TemporaryDirectory() as made:
        folder = given.keep or pathlib.Path(made)
        generate(given.of.resolve(), program, folder)
        command = [
            "rustc",
            "--edition",
            "2021",
            "-O",
            "-C",
            "codegen-units=1",
            "-C",
            "panic=abort",
            "-A",
            "warnings",
            "-g",
        ]
        sys.exit(
            subprocess.run(
                [*command, *flags, "-o", str(given.program), str(folder / "main.rs")]
            ).returncode
        )


main()
