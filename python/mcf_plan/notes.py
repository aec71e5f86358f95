"""Notes on how the tables were read: the columns that are carried along, and numbers that may be
read in two ways."""
import collections
import re

from .answer import cell_at
from .faults import shown
from .figures import EITHER, figure, mark_in, value_of
from .problem import SPOT_HEADS
from .results import kept
from .roster import is_list
from .sums import columns_named, tables_of
from .words import count_of, listed

# The most carried columns to name.
NAMED = 24
KNOWN = {
    "places": ("name", "supply", "least", "most", "cost", "penalty"),
    "routes": ("from", "to", "least", "most", "cost", "both"),
    "costs": ("who", "what", "cost", "takes", "needs"),
    "groups": ("group", "who", "what", "least", "most"),
}
# The heads that are read if the table of places has a column of periods.
PERIODS = {
    "places": ("period", "keep most", "keep cost", "first stock", "last stock"),
    "routes": ("period", "lead"),
}
# What no minimum-cost flow can do: heads that planners give it, its words, and what can.
INTEGERS = "a mixed-integer solver such as HiGHS"
CONSTRAINTS = "a constraint solver such as OR-Tools CP-SAT"
NO_FLOW = (
    (
        "rest, rest time, rest hours, min rest, ruhezeit",
        "keep rest times between shifts",
        CONSTRAINTS,
    ),
    (
        "consecutive, max consecutive, in a row, max in a row, in folge, max in folge",
        "limit consecutive shifts",
        CONSTRAINTS,
    ),
    (
        "window, time window, earliest, latest, opening hours, zeitfenster, öffnungszeiten",
        "keep time windows",
        CONSTRAINTS,
    ),
    (
        "not with, excludes, incompatible, nicht mit",
        "keep apart what excludes each other",
        CONSTRAINTS,
    ),
    (
        "lot, lot size, batch, batch size, pallet size, multiple of, los, losgröße, losgrösse,"
        " palettengröße, palettengrösse",
        "send lots of one size",
        INTEGERS,
    ),
    (
        "fixed cost, setup, setup cost, opening cost, fixkosten, rüstkosten",
        "charge for using something at all",
        INTEGERS,
    ),
    (
        "least if used, min if used, min lot, minimum lot, min order, minimum order, minimum order"
        " quantity, moq, mindestlos, mindestmenge, mindestabnahme",
        "say 'nothing, or at least so much'",
        INTEGERS,
    ),
    ("discount, rebate, rabatt, staffelpreis", "let costs fall with the amount", INTEGERS),
    (
        "tour, tours, sequence, stops, max stops, vehicle capacity, reihenfolge, fahrzeugkapazität",
        "plan tours",
        "a vehicle-routing solver such as VROOM",
    ),
)
# What a table says otherwise than by a column of its own: the word of the table, heads that
# planners give it, and how it is said.
OTHERWISE = (
    ("places", "demand, demands, need, bedarf, nachfrage", "a demand is a supply below 0"),
    (
        "places",
        "lat, latitude, breite, breitengrad",
        "in the picture it is y if you say so: --map y={name}",
    ),
    (
        "places",
        "lon, long, lng, longitude, länge, längengrad",
        "in the picture it is x if you say so: --map x={name}",
    ),
    (
        "costs",
        "day, date, week, skill, qualification, tag, datum, woche, qualifikation",
        "how many of each one a person or a thing gets, a table of groups says (--groups)",
    ),
)
# The names of each table, and what stands for one in a row of totals.
NAMES = {"places": ("name",), "routes": ("from", "to"), "costs": ("who", "what")}
TOTALS = (
    "total, totals, sum, grand total, subtotal, gesamt, gesamtsumme, gesamtergebnis, summe,"
    " insgesamt, zwischensumme"
).split(", ")
# The heads of what isn't read as a number.
WORDS = {"name", "from", "to", "both", "who", "what", "takes", "needs", "group", *SPOT_HEADS}
WORDS |= {"period"}


def known_heads(word, sheet):
    """The heads of a table that are read."""
    found, step = list(KNOWN[word]), 2
    while word == "routes" and f"most {step}" in sheet.heads:
        found += [f"most {step}", f"cost {step}"]
        step += 1
    found += PERIODS.get(word, ())
    return found + (list(SPOT_HEADS) if word == "places" and sheet.has(SPOT_HEADS) else [])


def carried(word, table, sheet):
    """The columns of a table that `mcfplan` doesn't read, which are carried along to the results:
    each as the word of its table and its place there, with its name. Columns of earlier results
    aren't among them, because the tool writes them again."""
    return [
        ((word, place), shown(table.title(sheet.titles[place]))[1:-1] or f"column {place + 1}")
        for place in kept(sheet)
        if sheet.heads[place] not in known_heads(word, sheet)
        and (sheet.titles[place] or any(cell_at(cells, place) for _, cells in sheet.rows))
    ]


def carried_lines(words, tables, sheets, used):
    """A line on the columns that are carried along and not used, if there are any, and one on each
    on what no minimum-cost flow can do. The used ones are those of sums."""
    columns = [column for one in zip(words, tables, sheets) for column in carried(*one)]
    names = listed(list(dict.fromkeys(name for one, name in columns if one not in used)), NAMED)
    lines = [f"Columns carried along, not used: {names}."] if names else []
    lines += [
        line for name in dict.fromkeys(name for _, name in columns) for line in beyond_lines(name)
    ]
    named = [(word, name) for (word, place), name in columns if (word, place) not in used]
    has_own = has_otherwise(dict(zip(words, sheets)))
    return lines + [
        f"Column {name}: {told.format(name=name)}."
        for word, name in named
        for table, heads, told in OTHERWISE
        if word == table and plain_head(name) in heads.split(", ") and not has_own[told]
    ]


def has_otherwise(sheets):
    """Whether tables say what the columns of OTHERWISE would, or don't need it: positions, and
    groups, which count only where persons take several things."""
    costs = sheets.get("costs")
    takes = costs and any(cell_at(cells, costs.place("takes")) for _, cells in costs.rows)
    is_said = {
        "demand": False,
        "lat": "places" in sheets and sheets["places"].has(SPOT_HEADS),
        "lon": "places" in sheets and sheets["places"].has(SPOT_HEADS),
        "day": "groups" in sheets or not takes,
    }
    return {told: is_said[heads.split(", ")[0]] for _, heads, told in OTHERWISE}


def plain_head(name):
    """A head as it is compared, without a unit between brackets after it."""
    return re.sub("[-_ ]+", " ", re.sub(r"[(\[].*", "", name)).strip().casefold()


def beyond_lines(name):
    """A line on a column, if its name is that of what no minimum-cost flow can do."""
    return [
        f"Column {name}: a minimum-cost flow can't {what}; {other} can."
        for heads, what, other in NO_FLOW
        if plain_head(name) in heads.casefold().split(", ")
    ]


def reading_lines(cells, problem, decimal):
    """A line on the first cell that may be read in two ways, if there is one, and on what decides:
    an option, or the first cell that shows the mark. Cells come with their tables and lines."""
    cells, mark = list(cells), problem.mark
    either = next((one for one in cells if EITHER.fullmatch(one[2])), None)
    shows = next((one for one in cells if mark_in(one[2]) == mark), None)
    if not either:
        return []
    (table, line, cell), told = either, ", as --decimal says" if decimal else ""
    if shows and not decimal:
        told = (
            f", since {shown(shows[2])} ({shows[0].name}, line {shows[1]}) has decimals after"
            f" {shown(mark)}"
        )
    value = figure(value_of(cell, mark))
    return [f"{shown(cell)} ({table.name}, line {line}) is read as {value}{told}."]


def number_cells(word, table, sheet):
    """The cells of a table that are numbers, with the table and their lines."""
    places = range(1, len(sheet.heads))
    if word != "costs" or is_list(sheet):
        heads = set(known_heads(word, sheet)) - WORDS
        places = [place for place, head in enumerate(sheet.heads) if head in heads]
    for line, cells in sheet.rows:
        for place in places:
            if table.figure(line, cells, place) is None:
                yield table, line, cell_at(cells, place)


def changed_lines(word, table, answer, columns):
    """Lines on what `mcfplan` changed in a table before it read it: a matrix or a sheet of wishes
    became a list, a row of totals was left out, columns were filled down. Columns come as the user
    names them, by their heads in lower case."""
    lines = [
        f"{table.name} is a matrix: it is read as a list of"
        f" {count_of(int(count), 'route', 'routes')} without a limit, from the places on the left"
        " to those above."
        for name, count in answer.rows["list"]
        if name == word
    ]
    for name, count, needs in answer.rows["wishes"]:
        lines += wish_lines(table, int(count), needs) if name == word else []
    lines += [
        f"{table.name}, line {line} is left out: it has the sums of the lines above"
        f" ({listed([shown(cell) for cell in table.fields(int(line)) if cell])})."
        for name, line in answer.rows["left out"]
        if name == word
    ]
    lines += [
        f"{table.name}, column {columns.get(head.lower(), head)}:"
        f" {count_of(int(count), 'empty cell takes', 'empty cells take')} the value above."
        for name, head, count in answer.rows["filled"]
        if name == word and count != "0"
    ]
    return lines + unsummed_lines(word, table, answer)


def unsummed_lines(word, table, answer):
    """A line on a last row that may be one of totals, and isn't left out, since its numbers aren't
    the sums of those above."""
    found = {one: name_cells(one, sheet) for one, sheet in answer.sheets.items() if one in NAMES}
    names = found.pop(word, [])
    if len(names) < 2 * len(NAMES.get(word, "")) or not names:
        return []
    (line, cells), count = answer.sheets[word].rows[-1], len(NAMES[word])
    own, others = list(filter(None, names[-count:])), set(names[:-count]).union(*found.values())
    if not own or not others.isdisjoint(own) or not set(map(str.casefold, own)) <= set(TOTALS):
        return []
    told = listed([shown(cell) for cell in cells if cell])
    return [
        f"{table.name}, line {line} may be a row of totals ({told}), but its numbers aren't the"
        " sums of those above: make them so, or remove it."
    ]


def name_cells(word, sheet):
    """The cells of a table that are names, row by row; none if it lacks a column of names."""
    places = [sheet.place(head) for head in NAMES[word]]
    if None in places:
        return []
    return [cell_at(cells, place) for _, cells in sheet.rows for place in places]


def wish_lines(table, count, needs):
    """Lines on a sheet of wishes that became a list, and on what its column needs says."""
    return [
        f"{table.name} is a sheet of wishes: it is read as a list of"
        f" {count_of(count, 'wish', 'wishes')}, of which a first one costs 1, a second one 2 and so"
        " on.",
        f"The number {shown(needs)} of column needs holds for each thing."
        if needs
        else "No column needs says how many persons a thing takes, such as 0..28: each takes one.",
    ]


def prepared_lines(tables):
    """The notes of tables on what was changed before they were read."""
    return [line for table in tables if table for line in table.notes + table.changes]


def alike_lines(**words):
    """Lines on what has names that differ in capitals or blanks alone, by a word for it."""
    lines = []
    for word, names in words.items():
        found = collections.defaultdict(list)
        for name in names:
            found["".join(name.split()).lower()].append(name)
        alike = [" and ".join(map(shown, same)) for same in found.values() if len(same) > 1]
        lines += [f"Read as different {word}: {listed(alike)}."] if alike else []
    return lines


def supply_lines(problem):
    """A line on empty supplies, if there are some."""
    sheet = problem.place_sheet
    count = sum(1 for _, cells in sheet.rows if not cell_at(cells, sheet.place("supply")))
    return (
        [f"{count_of(count, 'empty supply is', 'empty supplies are')} read as 0."] if count else []
    )


def penalty_lines(problem):
    """A line on penalties that count for nothing, if there are some."""
    if problem.short or all(place.penalty is None for place in problem.places):
        return []
    return ["Penalties aren't used, since no demand may be short (--short allow lets it be short)."]


def notes_of(problem):
    """The notes on the tables of places and routes."""
    words, tables = ("places", "routes"), (problem.place_table, problem.route_table)
    sheets = problem.place_sheet, problem.route_sheet
    cells = [cell for one in zip(words, tables, sheets) for cell in number_cells(*one)]
    names = dict.fromkeys(place.name for place in problem.places)
    lines = prepared_lines(tables) + alike_lines(places=names, periods=problem.periods)
    lines += supply_lines(problem) + penalty_lines(problem)
    used = columns_named(problem.options.by, tables_of(problem))
    lines += carried_lines(words, tables, sheets, used)
    return lines + reading_lines(cells, problem, problem.options.decimal)
