"""The pairs of an answer: their table, and the summary."""
from . import groups, notes
from .competitions import competitions_of
from .figures import Figure
from .roster import PAIR_HEADS
from .sums import pair_columns
from .words import TOLD_NAMES, count_of, listed


def notes_of(roster):
    """Notes on how the table was read. All columns of a matrix are used."""
    table, sheet = roster.table, roster.sheet
    lines = notes.prepared_lines([table, roster.group_table])
    lines += notes.alike_lines(persons=roster.persons, things=roster.things)
    lines, words = lines + groups.idle_lines(roster), []
    words += [("costs", table, sheet)] if roster.is_list else []
    words += [("groups", roster.group_table, roster.group_sheet)] if roster.group_sheet else []
    used = [("costs", place) for place in pair_columns(roster.options.by, roster)]
    lines += notes.carried_lines(*zip(*words), used) if words else []
    cells = notes.number_cells("costs", table, sheet)
    return lines + notes.reading_lines(cells, roster, roster.options.decimal)


def write_pairs(results, roster):
    """Writes pairs.csv by persons, with the lines of the table if it is a list."""
    heads = PAIR_HEADS
    rows = [[pair.who, pair.what, Figure(pair.cost)] for pair in roster.pairs]
    if roster.is_list:
        table, heads = roster.table, [roster.table.title(title) for title in roster.sheet.titles]
        rows = [
            [table.cell(int(pair.line), cells, place) for place in range(len(heads))]
            for pair, cells in ((pair, roster.cells_of(pair)) for pair in roster.pairs)
        ]
    results.table("pairs", roster.table, roster.sheet, heads, rows)


def summary(roster):
    """The summary of the chosen pairs."""
    which, word = "Least-cost pairs", "cost"
    if roster.options.maximise:
        which, word = "Pairs of the greatest value", "value"
    persons, things = len(roster.persons), len(roster.things)
    return [
        f"{which}, proved: {word} {roster.said(roster.cost())}.",
        (
            f"{count_of(persons, 'person', 'persons')}, {count_of(things, 'thing', 'things')}:"
            f" {count_of(len(roster.pairs), 'pair', 'pairs')}."
        ),
        *left_lines(roster),
        *groups.lines_of(roster),
    ]


def left_lines(roster):
    """Lines on the persons without a thing, and on the things that are left over."""
    lines = []
    for text, side, taken in (
        ("Without a thing", roster.persons, {pair.who for pair in roster.pairs}),
        ("Left over", roster.things, {pair.what for pair in roster.pairs}),
    ):
        left = [name for name in side if name not in taken]
        lines += [f"{text}: {listed(left)}."] if left else []
    return lines + both_hint(roster)


def both_hint(roster):
    """A hint, if persons get nothing because no number of the table says that they must."""
    if roster.is_plain or roster.options.each:
        return []
    taking = {pair.who for pair in roster.pairs} | roster.numbered()
    count = sum(1 for name in roster.persons if name not in taking)
    told = count_of(count, "person gets", "persons get")
    return [
        f"{told} nothing, and no number of the table says that they must: with --each both each"
        " gets one, if that can be."
    ] * (count > 0)


def blocked_lines(roster):
    """Lines that say why no such pairs exist."""
    lines = ["No such pairs exist, proved:"]
    lines += ["  " + found.sentence() for found in competitions_of(roster)[:TOLD_NAMES]]
    return lines + groups.left_out_lines(roster) + each_hint(roster)


def each_hint(roster):
    """A hint, if there are more persons than things and each person must get one. Whether each
    thing can get one isn't known."""
    is_who = roster.answer.one("side") == "send" and roster.is_plain
    if is_who and roster.options.each != "what" and len(roster.persons) > len(roster.things):
        return [
            "With --each what each thing would get a person, if that can be, and persons may be"
            " left over."
        ]
    return []


def write_bottlenecks(results, roster):
    """Writes bottleneck.csv. For each competition, the column `must` sums to the number that its
    persons must take (or its things need), with the leasts of groups, and the column `can` to the
    number that is possible."""
    rows = []
    for count, found in enumerate(competitions_of(roster), 1):
        begin, kinds = Figure(count), ("person", "thing")[:: 1 if found.side == "send" else -1]
        rows += [[begin, kinds[0], name, Figure(number), ""] for name, number in found.must]
        rows += [[begin, kinds[1], name, "", Figure(number)] for name, number in found.can]
        rows += [[begin, "pair", ", ".join(pair), "", Figure(1)] for pair in found.pairs]
        for group, name, number, is_least in found.groups:
            ends = (Figure(number), "") if is_least else ("", Figure(number))
            rows.append([begin, "group", f"{group}, {name}", *ends])
    heads = ["bottleneck", "kind", "name", "must", "can"]
    results.table("bottleneck", roster.table, roster.sheet, heads, rows)
