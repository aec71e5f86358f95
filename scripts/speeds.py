#!/usr/bin/env python3
"""Sums up the measurements of docs/BENCH.md in two tables of the page itself: of all speeds, and of
the means that docs/speed.svg draws.

    scripts/speeds.py write     writes both tables
    scripts/speeds.py check     compares them with what `write` would write; status 1 if they differ
"""
import pathlib
import re
import statistics
import sys
from typing import Iterable, List, NamedTuple, Tuple

PAGE = pathlib.Path(__file__).resolve().parent.parent / "docs" / "BENCH.md"
Table = Tuple[List[str], List[List[str]]]


class Speed(NamedTuple):
    """A row of the table of all speeds: what is measured, beside what, and where its ratios stand:
    below a heading, in tables whose first row begins with these cells, in the columns and rows that
    fit. `over` names the column that the others are divided by, if they are no ratios."""

    what: str
    peer: str
    heading: str
    first: str
    columns: str
    rows: str
    why: str
    in_brackets: bool = False
    over: str = ""


INTEGERS = r"int64|values|i \* j|rank|abs|10\^9"
SPEEDS = (
    Speed(
        "flow problems of 15 families by `fast`, up to 2^15 nodes",
        "LEMON, the better of network simplex and cost scaling",
        "Flow problems",
        r"Family \| (2\^8|2\^10 .*2\^15 \|$)",
        r"2\^(8|9|1[0-5])$",
        "",
        "",
    ),
    Speed(
        "flow problems of 8 families by `fast`, from 2^16 to 2^18 nodes",
        "LEMON",
        "Flow problems",
        r"Family \| 2\^8",
        r"2\^1[6-8]$",
        "",
        "long at 2^16 and 2^18, by one run",
    ),
    Speed(
        "assignments by `sap`, 256 to 2,048 rows, dense",
        "dlib",
        "Assignments",
        "Costs, arcs",
        "Ratio",
        "dense",
        "",
    ),
    Speed(
        "assignments by `sap`, 2^12 to 2^16 rows, 8 arcs a row",
        "LEMON's network simplex",
        "Assignments",
        "Costs, arcs",
        "Ratio",
        "8 a row",
        "",
    ),
    Speed(
        "square matrices of integers, 20 to 5,000 rows",
        "scipy",
        "From Python",
        r"Costs \| 20 \| 100 \| 200 \| 500 \| 1000",
        "",
        INTEGERS,
        "ties (`i * j`), and 20 microseconds of a call",
    ),
    Speed(
        "square matrices of doubles, 20 to 5,000 rows",
        "scipy",
        "From Python",
        r"Costs \| 20 \| 100 \| 200 \| 500 \| 1000",
        "",
        "float|Euclid|squared|IoU|infinite",
        "an exact judge, and rounding to whole costs",
    ),
    Speed(
        "rectangular matrices, 100 x 300 to 1000 x 3000",
        "scipy",
        "From Python",
        r"Costs \| 100 x 300",
        "",
        "",
        "the same; ties (`i * j mod 101`)",
    ),
    Speed(
        "matrices of integers, 20 to 500 rows",
        "dlib, without the copy that it needs",
        "From Python",
        r"Costs \| 20 \| 100 \| 200 \| 500 \|$",
        "",
        INTEGERS,
        "ties; calls of small matrices; `abs(i - j)` wasn't examined",
    ),
    Speed(
        "transport between 20 to 1,000 points",
        "POT",
        "From Python",
        r"Costs \| 20 points",
        "",
        "",
        "random masses, rounded to exact units in Python",
    ),
    Speed(
        "tables of 128 to 8,192 routes by `mcfplan`",
        "glpsol",
        "Plans from tables",
        "Routes",
        "glpsol",
        "",
        "",
    ),
    Speed(
        "tables of 128 to 1,048,576 routes by `mcfplan`",
        "LEMON on the bare net",
        "Plans from tables",
        "Routes",
        "LEMON",
        "",
        "places are found by name, and figures told of each row",
    ),
    Speed(
        "nets of 10 to 4,096 nodes by `mcf.solve`",
        "networkx",
        "From Python",
        "Random net",
        "judged",
        "",
        "",
        over="networkx",
    ),
    Speed(
        "nets of 60 to 5,000 nodes, solved again",
        "LEMON's network simplex, which keeps its graph",
        "Solved again",
        "Nodes, arcs",
        "again",
        "",
        "each call reads all arrays",
        in_brackets=True,
    ),
)


def tables(text: str, heading: str) -> List[Table]:
    """The tables between a heading and the next: the first row, and the others, of which each takes
    an empty first cell from the row above it."""
    part = re.search(rf"(?ms)^(#+) {re.escape(heading)}$(.*?)(?=^#|\Z)", text)
    if not part:
        sys.exit(f"speeds: docs/BENCH.md has no heading {heading}")
    found: List[Table] = []
    for block in re.findall(r"(?m)(?:^\|.*\|\n)+", part[2]):
        lines = [line.strip("|").split("|") for line in block.splitlines()]
        head, _, *rows = [[cell.strip() for cell in line] for line in lines]
        for above, row in zip(rows, rows[1:]):
            row[0] = row[0] or above[0]
        found.append((head, rows))
    return found


def numbers(cell: str, in_brackets: bool) -> List[float]:
    """The numbers of a cell in brackets, or those outside."""
    inside = "".join(re.findall(r"\((.*?)\)", cell))
    said = inside if in_brackets else re.sub(r"\(.*?\)", "", cell)
    found = re.findall(r"\d[\d,]*\d\b(?!\.)|\d+\.\d+|\d+", said)
    return [float(it.replace(",", "")) for it in found]


def ratios(text: str, speed: Speed) -> Iterable[float]:
    for head, rows in tables(text, speed.heading):
        if not re.match(speed.first, " | ".join(head) + " |"):
            continue
        over = [k for k, name in enumerate(head) if speed.over and re.search(speed.over, name)]
        for row in rows:
            if not re.search(speed.rows, row[0]):
                continue
            by = numbers(row[over[0]], False)[0] if over else 1.0
            for k, name in enumerate(head):
                if k > 0 and k not in over and re.search(speed.columns, name):
                    yield from (it / by for it in numbers(row[k], speed.in_brackets))


def all_speeds(text: str) -> str:
    """The table of all speeds."""
    lines = ["| What | Beside | Ratio | Above 1 |", "|---|---|---|---|"]
    for speed in SPEEDS:
        found = list(ratios(text, speed))
        if not found:
            sys.exit(f"speeds: docs/BENCH.md has no ratio of {speed.what}")
        why = speed.why if max(found) > 1 else ""
        of = f"{min(found):.2f} to {max(found):.2f}, mean {statistics.geometric_mean(found):.2f}"
        link = speed.heading.lower().replace(" ", "-")
        lines.append(f"| [{speed.what}](#{link}) | {speed.peer} | {of} | {why} |")
    return "\n".join(lines) + "\n"


def means(text: str) -> str:
    """The geometric means by family and size."""
    [(head, rows)] = [it for it in tables(text, "Flow problems") if "2^18" in it[0]][:1]
    lines = ["| " + " | ".join(head) + " |", "|---" * len(head) + "|"]
    for row in rows[:4]:
        cells = [f"{statistics.geometric_mean(numbers(cell, False)):.2f}" for cell in row[1:]]
        lines.append("| " + " | ".join([row[0], *cells]) + " |")
    return "\n".join(lines) + "\n"


def written(text: str) -> str:
    """The page with both tables, each between its marks."""
    for name, made in (("speeds", all_speeds(text)), ("means", means(text))):
        begin, end = f"<!-- {name} -->\n", f"<!-- end of {name} -->\n"
        head, found, rest = text.partition(begin)
        if not found or end not in rest:
            sys.exit(f"speeds: docs/BENCH.md lacks the marks of {name}")
        text = head + begin + made + end + rest.partition(end)[2]
    return text


def main(words: List[str]) -> int:
    text = PAGE.read_text()
    if words == ["write"]:
        PAGE.write_text(written(text))
    elif words != ["check"]:
        sys.exit("usage: scripts/speeds.py write|check")
    elif written(text) != text:
        print("speeds: scripts/speeds.py write makes the tables of docs/BENCH.md anew")
        return 1
    return 0


if __name__ == "__main__":
    sys.exit(main(sys.argv[1:]))
