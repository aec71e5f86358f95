"""Plans side by side: `mcf_plan compare PLAN PLAN ..`."""
import csv
import os

from . import comparepage
from .diff import CHANGED, TOLD, Folder, by_name, name_text
from .faults import bad_table
from .figures import figure
from .folder import COMPARISON, results_in
from .problem import MISSING, STAYS
from .words import line_of

BYTE_ORDER_MARK = b"\xef\xbb\xbf"
# What stands on the terminal where a plan doesn't have a route or a pair, or where there is none.
NONE = "-"
# The figures that are left out if they are 0 in all plans.
RARE = ("stays", "missing", "cost of what is missing", "cost of what is kept")
# What plans don't do alike if they can't be compared by their costs, by whether they are flows.
DIFFERING = {True: "deliver the same at each place", False: "have each thing as often"}


class Comparison:
    """Some plans with their labels, what each row says of all of them, and how rows are written.
    Rows of figures have a name and a number of each plan, rows of routes or pairs a key, as in
    `diff`; None is what a plan doesn't have."""

    def __init__(self, names):
        self.plans, self.labels = [Folder(name) for name in names], labels_of(names)
        for name, plan in zip(names, self.plans):
            if plan.is_flow != self.plans[0].is_flow:
                kinds = ["flow" if one.is_flow else "pairs" for one in (self.plans[0], plan)]
                raise bad_table(f"{names[0]} is a plan of {kinds[0]}, {name} one of {kinds[1]}")
        self.is_flow = self.plans[0].is_flow
        self.mark = next((plan.mark for plan in self.plans if plan.mark), ".")
        self.figures = list(figures_of(self.plans))
        parts = [parts_of(plan) for plan in self.plans]
        keys = {key: None for one in parts for key in one}
        none = [None if plan.cost is None else 0 for plan in self.plans]
        self.parts = [
            (key, [one.get(key, zero if is_unmet(key) else None) for one, zero in zip(parts, none)])
            for key in keys
        ]

    def can_differ(self):
        """Whether at least two of the plans exist."""
        return sum(plan.cost is not None for plan in self.plans) > 1

    def difference(self, values):
        """How far the numbers of plans are apart, where a route that isn't there carries 0."""
        known = [value or 0 for value, plan in zip(values, self.plans) if plan.cost is not None]
        return max(known) - min(known) if known else 0

    def differing(self):
        """The routes or pairs in which plans differ, those that differ most first."""
        found = [row for row in self.parts if self.difference(row[1])]
        return sorted(found, key=lambda row: (-self.difference(row[1]), row[0]))

    def notes(self):
        """Lines on plans that were changed, or don't exist, or deliver different amounts."""
        pairs = zip(self.labels, self.plans)
        lines = [f"{label}: {CHANGED}" for label, plan in pairs if plan.is_changed]
        lines += [
            f"{label}: no plan exists: {' '.join(plan.why_not)}"
            for label, plan in zip(self.labels, self.plans)
            if plan.cost is None
        ]
        delivered = [plan.delivered for plan in self.plans if plan.cost is not None]
        if any(one != delivered[0] for one in delivered):
            words = f"These plans don't {DIFFERING[self.is_flow]}"
            lines.append(f"{words}: mind that where you compare what they cost.")
        return lines

    def text(self, value):
        """A number on the terminal."""
        return NONE if value is None else figure(value).replace(".", self.mark)

    def lines(self):
        """The lines for the terminal: all figures, and the routes or pairs that differ most."""
        found, word = self.differing(), "amounts" if self.is_flow else "pairs"
        rows = [(name_text(key), values) for key, values in found[:TOLD]]
        told = f"{len(found)} of {len(self.parts)} {word} differ"
        lines = self.table([("", self.labels)], self.figures) + self.notes()
        if not self.can_differ():
            return lines
        if not found:
            return lines + [told + "."]
        lines += [told + (", most of all:" if len(found) > TOLD else ":")]
        more = [f"and {len(found) - TOLD} more (-o FOLDER writes all)"] * (len(found) > TOLD)
        return lines + self.table([("", self.labels)], rows) + more

    def table(self, heads, rows):
        """The lines of a table: names on the left, then a column for each plan."""
        cells = heads + [(name, [self.text(value) for value in values]) for name, values in rows]
        columns = [[name for name, _ in cells], *zip(*(texts for _, texts in cells))]
        wide = [max(map(len, column)) for column in columns]
        return [
            "  ".join([name.ljust(wide[0]), *(one.rjust(w) for one, w in zip(texts, wide[1:]))])
            for name, texts in cells
        ]

    def write(self, folder, first):
        """Writes compare.csv, with a byte-order mark if the tables of the first plan have one, and
        compare.html."""
        encoding = "utf-8-sig" if has_mark(first) else "utf-8"
        ends, word = (("from", "to"), "carries") if self.is_flow else (("who", "what"), "pair")
        rows = [["figure", *ends, *self.labels]]
        rows += [[name, "", "", *values] for name, values in self.figures]
        rows += [[word, *key[:2], *values] for key, values in self.parts]
        with open(folder / "compare.csv", "w", newline="", encoding=encoding) as output:
            writer = csv.writer(
                output, delimiter=";" if self.mark == "," else ",", lineterminator="\n"
            )
            writer.writerows([self.cell(value) for value in row] for row in rows)
        text = comparepage.Writer(self).html(comparepage.page_of(self))
        (folder / "compare.html").write_text(text, encoding="utf-8")

    def cell(self, value):
        """A cell of compare.csv."""
        return value if isinstance(value, str) else figure(value).replace(".", self.mark)


def labels_of(names):
    """The labels of plans: the names of their folders, or paths if two have the same name."""
    short = [line_of(os.path.basename(os.path.abspath(name))) for name in names]
    return short if len(set(short)) == len(short) else [line_of(name) for name in names]


def has_mark(name):
    """Whether the tables of a plan begin with a byte-order mark."""
    for table in ("flows.csv", "pairs.csv", "bottleneck.csv"):
        try:
            with open(os.path.join(name, table), "rb") as file:
                return file.read(3) == BYTE_ORDER_MARK
        except OSError:
            pass
    return False


def figures_of(plans):
    """The figures of plans: names with a number for each, None if there is no plan. What stays, is
    missing or is kept is among them if it isn't 0 for all."""
    totals = [("cost", [plan.cost for plan in plans])]
    if plans[0].is_flow:
        totals += [
            (name, [sum(amounts(plan).values()) for plan in plans])
            for name, amounts in (
                ("delivered", lambda plan: plan.delivered),
                ("stays", lambda plan: plan.stays),
                ("missing", lambda plan: plan.missing),
            )
        ]
        totals.append(("cost of what is missing", [plan.penalties for plan in plans]))
        totals.append(("cost of what is kept", [plan.keeping for plan in plans]))
    names = dict.fromkeys(name for plan in plans for name in plan.counts)
    totals += [(name, [plan.counts.get(name) for plan in plans]) for name in names]
    for name, numbers in totals:
        if any(numbers) or name not in RARE:
            exist = [plan.cost is not None for plan in plans]
            yield name, [one if exists else None for one, exists in zip(numbers, exist)]


def parts_of(plan):
    """What each route of a plan carries, or each pair that is chosen, by keys; and what stays at
    places and is missing there."""
    unmet = [(name, STAYS, amount) for name, amount in plan.stays.items()]
    unmet += [(MISSING, name, amount) for name, amount in plan.missing.items()]
    return by_name([*plan.parts, *unmet])


def is_unmet(key):
    """Whether a key is of what stays at a place or is missing there."""
    return key[0] == MISSING or key[1] == STAYS


def compare_command(options, _):
    """Runs `compare`: returns the lines and the status, which is 0 whether or not plans differ."""
    found = Comparison(options.plans)
    if options.folder:
        with results_in(options.folder, COMPARISON) as folder:
            found.write(folder, options.plans[0])
    return found.lines(), 0
