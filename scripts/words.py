#!/usr/bin/env python3
"""The words and numbers that the code defines and that other languages repeat.

    scripts/words.py write     writes library/words.json, from the code
    scripts/words.py check     compares library/words.json, and each place that repeats a fact, with
                               the code; status 1 if one differs

The code defines each fact once: fault codes, statuses, verdicts, engines, pricing rules, forms,
limits, the version. A place that repeats it is a `Place` below: the matches of a regular expression
in a part of a file must be the fact, in the same order.
"""
import collections
import json
import pathlib
import re
import sys

TOP = pathlib.Path(__file__).resolve().parent.parent
MADE = "library/words.json"
CHOOSING = "crates/mcf_c/src/choosing.rt"
ASKING = "crates/mcf_asking/src/asking.rt"
LIMITS = "crates/mcf_flows/src/limits.rt"
HEADER = "library/mcf.h"
PYTHON = "python/mcf/_library.py"
PAGE = "page/module.js"
WORD, QUOTED = r"[\w-]+", r"[\"']([\w -]*)[\"']"

# A repetition in a file: the matches of `each` between `begin` and `end` must be `wanted`.
Place = collections.namedtuple("Place", "path begin end each wanted")


def text_of(path):
    return (TOP / path).read_text()


def part_of(path, begin, end):
    """The text of a file after `begin`, which must occur in it, up to `end`."""
    _, found, rest = text_of(path).partition(begin)
    if not found:
        sys.exit(f"words: {path} has no {begin!r}")
    return rest.partition(end)[0]


# ---- the facts of the code


def by_number(path, begin, arm):
    """The names in the arms of a function, in the order of their numbers."""
    found = re.finditer(arm, part_of(path, begin, "\n}"))
    return [row["name"] for row in sorted(found, key=lambda row: int(row["number"]))]


def chosen(function):
    """The choices in the order of their numbers in C, from 0 on."""
    arm = r"(?P<number>\d+) => Some\(\w+::(?P<name>\w+)\)"
    return [name.lower() for name in by_number(CHOOSING, f"fn {function}(", arm)]


def verdicts():
    """The words that `mcfcheck` prints for each verdict, in the order of C's numbers."""
    arm = r"Verdict::(?P<name>\w+)(?:\(_\))? => (?P<number>\d+)"
    cases = by_number("crates/mcf_c/src/verdicts.rt", "fn kind_number(", arm)
    printing = text_of("crates/mcf_checker/src/printing.rt")
    words = dict(re.findall(r'Verdict::(\w+)[^"]*?"(\w+ \w+)', printing))
    return [words[case] for case in cases]


def statuses():
    """The statuses of the C calls, from 0 on. A judging call has other words for 0 and 1."""
    text = text_of("crates/mcf_c/src/statuses.rt")
    rows = {int(number): name for name, number in re.findall(r"const (\w+): u32 = (\d+);", text)}
    rows.update({0: "FLOW", 1: "BLOCKED"})
    return [rows[number].lower() for number in sorted(rows)]


def listed(name):
    """The words of an option of the command line."""
    return re.findall(r'"(\w+)"', part_of(ASKING, f"static {name}:", ";\n").partition("=")[2])


def limits():
    rows = re.findall(r"pub const (\w+)_LIMIT: \w+ = ([0-9_]+);", text_of(LIMITS))
    return {name.lower(): int(number) for name, number in rows}


def facts():
    return {
        "version": part_of("crates/mcf_suite/src/version.rt", '"mcf ', "\\n"),
        "codes": re.findall(r'Code::\w+ => "([a-z-]+)"', text_of("crates/mcf_flows/src/code.rt")),
        "statuses": statuses(),
        "verdicts": verdicts(),
        "engines": chosen("engine_of"),
        "pricings": chosen("pricing_of"),
        "engine words": listed("ENGINES"),
        "pricing words": listed("RULES"),
        "form words": listed("FORMS"),
        "limits": limits(),
    }


# ---- the places that repeat them


def in_header(fact):
    """The enumerations of mcf.h, whose members name their numbers."""
    pricings = [*fact["pricings"][:-1], "wide blocks"]
    for name, first, words in (
        ("status", 0, fact["statuses"]),
        ("code", 1, fact["codes"]),
        ("engine", 0, fact["engines"]),
        ("pricing", 0, pricings),
        ("kind", 0, fact["verdicts"]),
    ):
        members = ["MCF_" + re.sub("[ -]", "_", word).upper() for word in words]
        wanted = [f"{member} = {number}" for number, member in enumerate(members, first)]
        yield Place(HEADER, f"enum mcf_{name} {{", "};", r"MCF_\w+ = \d+", wanted)


def in_modules(fact):
    """The lists of the Python module, of the page's module, and of the tool that explains
    refusals."""
    codes = ["", *fact["codes"]]
    statuses = [word.upper() for word in fact["statuses"][1:]]
    yield Place(PYTHON, "(\n    FLOW", ") = range(", r"\w+", statuses)
    yield Place(PYTHON, "CODES = (", ")\n", QUOTED, codes)
    yield Place(PYTHON, "VERDICTS = (", ")\n", QUOTED, fact["verdicts"])
    yield Place(PYTHON, "ENGINES = {", "}", QUOTED, fact["engines"])
    yield Place(PYTHON, "PRICINGS = {", "}", QUOTED, fact["pricings"])
    yield Place(PAGE, "const CODES = [", "];", QUOTED, codes)
    yield Place(PAGE, "const KINDS = [", "];", QUOTED, fact["verdicts"])
    yield Place(PAGE, "const ENGINES = [", "];", QUOTED, fact["engines"])
    key = r"(?:^|[ ,{])'?([\w-]+)'?: '"
    yield Place("page/words.js", "export const CODES = {", "};", key, fact["codes"])
    power = {name: f"10**{len(str(limit)) - 1}" for name, limit in fact["limits"].items()}
    for path, begin, end, names in (
        ("python/mcf/_limits.py", "BOUND, COST, NODES, ARCS = ", "\n", "bound cost node arc"),
        ("python/mcf_explain/reading.py", "_LIMIT = (", ")\n", "node arc bound cost total"),
    ):
        yield Place(path, begin, end, r"10\*\*\d+", [power[name] for name in names.split()])


def in_commands(fact):
    """The words of the command line that other files offer or use."""
    engines, rules, forms = (fact[f"{name} words"] for name in ("engine", "pricing", "form"))
    for path, begin, end, words in (
        ("scripts/refuse_memory.py", "ENGINES = (", ")", engines),
        ("completion/mcf.bash", "--engine) echo ", " ;;", engines),
        ("completion/mcf.bash", "--pricing) echo ", " ;;", rules),
        ("completion/mcf.bash", "--form) echo ", " ;;", forms),
        ("completion/_mcf", ":engine:(", ")'", engines),
        ("completion/_mcf", ":rule:(", ")'", rules),
        ("completion/_mcf", ":form:(", ")'", forms),
        (ASKING, "solve [--engine ", "]", engines),
        (ASKING, "[--pricing ", "]", rules),
    ):
        yield Place(path, begin, end, WORD, words)


def in_texts(fact):
    """The version, and the limits as texts spell them."""
    limit = fact["limits"]
    power = {name: f"10^{len(str(number)) - 1}" for name, number in limit.items()}
    for path, begin, end in (
        (ASKING, '.version("', '"'),
        ("python/mcf/__init__.py", '__version__ = "', '"'),
        ("library/rust/Cargo.toml", 'version = "', '"'),
        ("library/rust/Cargo.lock", 'name = "mcf"\nversion = "', '"'),
        ("crates/mcf_suite/specs/Serving.antt", 'version_text = codes "mcf ', "\\n"),
        ("scripts/examples.sh", "= 'mcf ", "'"),
    ):
        yield Place(path, begin, end, r"[\w.]+", [fact["version"]])
    sizes = [f"{limit['node']:,}", f"{limit['arc']:,}"]
    amounts = [power["bound"], power["cost"], power["total"]]
    yield Place(HEADER, "beyond the limits: at most", "in sum", r"\d+,[\d,]*\d", sizes)
    yield Place(HEADER, "beyond the limits: at most", "in sum", r"10\^\d+", amounts)
    yield Place("man/mcf.1", ".SH LIMITS", ".SH ANSWERS", r"\d+,[\d,]*\d", sizes)
    twice = [power["bound"]] * 2 + [power["cost"]] * 2 + [power["total"]]
    yield Place("man/mcf.1", ".SH LIMITS", ".SH ANSWERS", r"10\^\d+", twice)


def wrong_places(fact):
    """A line for each place that differs from the code."""
    for repeat in (in_header, in_modules, in_commands, in_texts):
        for place in repeat(fact):
            found = re.findall(place.each, part_of(place.path, place.begin, place.end))
            if found != place.wanted:
                says, has = " ".join(found), " ".join(place.wanted)
                yield f"{place.path}, {place.begin.strip()} {says}: the code has {has}"


def main(words):
    fact = facts()
    text = json.dumps(fact, indent=2) + "\n"
    if words == ["write"]:
        (TOP / MADE).write_text(text)
        return 0
    if words != ["check"]:
        sys.exit(__doc__)
    wrong = [*wrong_places(fact)]
    if not (TOP / MADE).exists() or text_of(MADE) != text:
        wrong.append(f"{MADE}: scripts/words.py write makes it anew")
    for line in wrong:
        print(f"words: {line}")
    if not wrong:
        print("words: each place says what the code says")
    return 1 if wrong else 0


if __name__ == "__main__":
    sys.exit(main(sys.argv[1:]))
