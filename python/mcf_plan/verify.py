"""Whether the tables of a plan give the answer that its folder has: `mcf_plan verify FOLDER`."""
import argparse
import csv
import io
import itertools
import os
import pathlib

from . import asked
from .answer import Answer
from .commands import Asking
from .faults import bad_table, shown
from .figures import number_in, said
from .tables import Reading
from .words import line_of

UNCHANGED = (
    "All files are as they were at the run: mcfplan or this tool is another, or asked.json was"
    " changed."
)


def verify_command(options, _):
    """Runs `verify`: returns its lines, and the status, which is 0 if both answers are the same
    bytes, and otherwise 1."""
    folder, before, kept = options.folder, asked.read(options.folder), answer_in(options.folder)
    asking = asking_again(before, options)
    found, word = asking.planned(), "value" if before.options.get("maximise") else "cost"
    changed = changed_files(before, asking, folder, kept)
    if found.data != kept:
        lines = [
            f"The tables give another answer than {folder} has{difference(found, kept, word)}."
        ]
        return lines + (changed or [UNCHANGED]) + [first_difference(found.data, kept, folder)], 1
    told = f"plan, {word} {cost_in(found)}" if found.kind == "plan" else found.kind
    words, is_the_run = asked.options_text(before), asked.sha256_of(kept) == before.answer_sha256
    lines = [f"The tables give this answer, proved: {told}{words and f', by {words}'}."]
    return lines + [f"{line}{' It says the same.' * is_the_run}" for line in changed], 0


def answer_in(folder):
    """The bytes of a folder's answer."""
    try:
        return pathlib.Path(folder, "answer.csv").read_bytes()
    except OSError as error:
        raise bad_table(f"{folder}: this is no folder of a plan: answer.csv: {error.strerror}")


def asking_again(before, options):
    """The tables of a plan, read as its run read them: those that the options name, or else those
    of the run."""
    names, named = [file.name for file in before.tables], options.tables
    if named and len(named) != len(names):
        text = f"{options.folder}: this plan is of {len(names)} files: {', '.join(names)}; name"
        raise bad_table(f"{text} each of them, or none")
    gone = [name for name in names if not named and not os.path.exists(name)]
    if gone:
        hint = "if it was moved, name the tables after the folder"
        raise bad_table(f"{line_of(gone[0])}: this table of {options.folder} isn't there: {hint}")
    again = argparse.Namespace(
        command=before.command, tables=named or names, programs=options.programs, **before.options
    )
    return Asking(again, Reading(again.decimal, again.encoding, again.map, again.fill_down))


def changed_files(before, asking, folder, kept):
    """A sentence on each file whose SHA-256 isn't that of the run."""
    names = [*asking.options.tables, os.path.join(folder, "answer.csv")]
    sums = [table.sha256 for table in asking.tables[: len(names) - 1]] + [asked.sha256_of(kept)]
    old = [file.sha256 for file in before.tables] + [before.answer_sha256]
    return [
        f"{line_of(name)} has changed since the run: its SHA-256 is another."
        for name, now, was in zip(names, sums, old)
        if now != was
    ]


def cost_in(answer):
    """The cost in an answer, empty if there is no plan."""
    if answer.kind == "plan":
        return said(number_in(answer.one("cost")), answer.mark)
    return {"no plan": ""}[answer.kind]


def difference(found, kept, word):
    """In words, by their costs, how an answer differs from the bytes of another."""
    try:
        new, old = cost_in(found), cost_in(Answer(kept))
    except (ArithmeticError, LookupError, TypeError, ValueError, csv.Error):
        return ", whose answer.csv can't be read"
    texts = [f"{word} {cost}" if cost else "that no plan exists" for cost in (new, old)]
    if new == old:
        return f": {texts[0]}, too"
    return f": {texts[0]}, and not {old if new and old else texts[1]}"


def first_difference(data, kept, folder):
    """A sentence on the first row in which two answers differ."""
    texts = (one.decode("utf-8", "replace").replace("\0", "\ufffd") for one in (data, kept))
    rows = (csv.reader(io.StringIO(text, newline="")) for text in texts)
    for number, pair in enumerate(itertools.zip_longest(*rows, fillvalue=[]), 1):
        if pair[0] != pair[1]:
            cells = itertools.zip_longest(*pair)
            at = next(place for place, (one, other) in enumerate(cells) if one != other)
            after = f", after {shown(' '.join(pair[0][:at]))}" if at else ""
            new, old = (shown(",".join(row[at:])) if row[at:] else "nothing" for row in pair)
            return (
                f"The first row that differs is row {number}{after}: {new}, and in {folder} {old}."
            )
    return f"All rows are the same, and written otherwise in {folder}."
