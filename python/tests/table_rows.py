"""The rows of a table of a Rattle test, which a script writes, or compares with what it would
write."""
import pathlib
import sys

TESTS = pathlib.Path(__file__).resolve().parents[2] / "crates/mcf_plan_tests/src"


def random_rows(rng, count, made, row_lines, kept_without_value):
    """The lines of `count` rows of random cases. A case ends with its value, or with None; of the
    cases without a value this part is kept."""
    lines, found = [], 0
    while found < count:
        case = made(rng)
        if case[-1] is not None or rng.random() < kept_without_value:
            lines += row_lines(*case)
            found += 1
    return lines


def write_or_check(usage, file, kind, count, lines):
    """Writes the lines into the table of a file of `mcf_plan_tests`, or compares them, as the word
    of the command line says."""
    if sys.argv[1:] not in (["write"], ["check"]):
        sys.exit(usage)
    table = TESTS / file
    before = table.read_text()
    head, opening, rest = before.partition(f"const ROWS: [{kind}; {count}] = [\n")
    _, closing, tail = rest.partition("\n];\n")
    if not opening or not closing:
        sys.exit(f"{table} has no table of {count} rows")
    after = head + opening + "\n".join(lines) + closing + tail
    if sys.argv[1] == "write":
        table.write_text(after)
    elif before != after:
        sys.exit(f"{table} differs from what {sys.argv[0]} writes")
