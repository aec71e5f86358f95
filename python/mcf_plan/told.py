"""The sentences about faults that `mcfplan` found."""
import difflib
import functools
import re

from .answer import FORBIDDEN, Sheet, cell_at
from .faults import At, shown
from .figures import mark_in, value_of
from .notes import number_cells
from .periods import LAST
from .problem import check_spots
from .roster import is_list
from .tables import BLANKS, LOOKED
from .words import count_of, listed

# The heads that each table needs.
NEEDED = {
    "places": ("name", "supply"),
    "routes": ("from", "to", "most", "cost"),
    "costs": ("who", "what", "cost"),
    "groups": ("group",),
}
NOTHING = (
    " is read: the heads are {heads}{split}, with {lines} below; a list has the"
    " columns who, what and cost, a matrix things in its first line and persons in its first column"
)
WISHES = (
    "; if these are wishes, call the column of the names who (--map who=NAME) and those of the"
    " wishes 1, 2 and so on, or write a list with a line who, what, cost for each wish"
)
BEYOND = "{this} is beyond the limits, by itself or in total (LIMITS in `man mcf`)"
NUMBERED = (
    "; the row that says how many persons each thing needs begins with needs, the column of how"
    " many things a person takes has the head takes"
)
# What is wrong, as `mcfplan` calls it, perhaps with its column, and the sentence.
SENTENCES = {
    "quote not closed": "a quote that isn't closed",
    "text after a quote": (
        "something after the closing quote (a quote within quotes is written twice)"
    ),
    "no such column": (
        "there is no such column among {heads}{split}{below}; {like}the table needs"
        " {needed}; where a head has another name, say so: --map {column}=NAME"
    ),
    "nearly": "there is no such column; is {meant} meant? Call it so, or otherwise",
    "not read without": "it isn't read, since there is no column {meant}",
    "two such columns": "there are two such columns",
    "both decimal marks": (
        "some decimals follow a point, others a comma: {other} and {cell}; write them in one way,"
        " or say --decimal"
    ),
    "beyond the last head": "a cell beyond the last head: {cell}",
    "empty name": "the name is empty{merged}",
    "control character": "the name {cell} has a line break or another control character",
    "named twice": "a thing {cell} is already in column {place}",
    "named twice: name": "a place {cell} is already on line {first}",
    "named twice: what": "the pair of {pair} is already on line {first}",
    "named twice: 1": "a person {cell} is already on line {first}",
    "named twice: who": "a person {cell} is already on line {first}",
    "no such place": "there is no place {cell}{near}",
    "empty": "the number is empty; write 0 for none",
    "exponent": "{cell} is written with an exponent; write all its digits",
    "either of two numbers": (
        "{cell} may be {digits} or a number with three decimals: say --decimal , or --decimal ."
        " (what stands before decimals)"
    ),
    "other decimal mark": "{cell} isn't written with {mark} before decimals{says}",
    "no number": "{cell} is no number{wishes}{range}",
    "too many digits": "{cell} has too many digits",
    "too great": BEYOND,
    "beyond the limits": BEYOND,
    "after a step without a limit": "the step before is without a limit",
    "neither yes nor no": "{cell} is neither yes nor no",
    "falling cost": (
        "{cell} is below the cost of the step before: units that get cheaper with more of them make"
        " no minimum-cost flow"
    ),
    "below 0": "{cell} is below 0, and this step adds to the one before",
    "below 0: most": "{cell} is below 0, and the route has more steps or is used both ways",
    "below 0: penalty": "{cell} is below 0",
    "below 0: keep most": "{cell} is below 0",
    "below 0: first stock": "{cell} is below 0",
    "below 0: last stock": "{cell} is below 0",
    "named twice in a period": (
        "an earlier line of this place holds in this period, too; a line without a period holds in"
        " each"
    ),
    "no such period": "there is no period {cell} in the table of places{near}",
    "no number of periods": "{cell} is no number of periods: write a whole number from 0 on",
    "not in the first period": (
        "a first stock is there before the first period, and this line holds in a later one"
    ),
    "not in the last period": (
        "a last stock is left after the last period, and this line holds in an earlier one"
    ),
    "arrives after the last period": (
        "what departs by this line arrives after the last period: give it another period, or a"
        " smaller lead"
    ),
    "a penalty, but a supply above 0": (
        "a penalty is the cost of what is missing, and this place sends: leave the cell empty; or"
        " is the sign of the supply wrong?{stock}"
    ),
    "no penalty, but other places have one": (
        "this is empty, and other places have a penalty: give each place that takes one, or say"
        " --penalty N for all that have none{stock}"
    ),
    "both ways with a least amount or a cost below 0": (
        "a route that is used both ways has no least, and no cost below 0"
    ),
    "no limit, but a cost below 0": (
        "this is empty, so without a limit, and a cost is below 0: a round trip could earn without"
        " end; give a most"
    ),
    "least above most": "least {least} is greater than most {most}",
    "least above most: most": "{most} is below 0, and without a column least the least is 0",
    "no number or range": "{cell} is no number, and no range such as 2..3{date}",
    "two different numbers": "an earlier line has another number: this is {cell}",
    "no column who or what": (
        "there is no column who and no column what among {heads}{split}: each line"
        " names a person (who) or a thing (what) of a group"
    ),
    "no person or thing": "the line names no person (who) and no thing (what)",
    "a person and a thing": (
        "the line names a person and a thing: a group is of persons or of things, and a line has"
        " one of them"
    ),
    "not in the costs: who": "there is no person {cell} in the costs{near}",
    "not in the costs: what": "there is no thing {cell} in the costs{near}",
    "named twice in groups": "the group has {cell} on line {first} already",
    "persons and things": (
        "{cell} is of the other kind than an earlier line of the group: a group is of persons or of"
        " things"
    ),
    "no whole number": "{cell} is no whole number from 0 on",
    "least above most in groups": "the group's least is greater than its most",
    "crosses another group": (
        "{cell} has some members of {other_group}, and not all: a minimum-cost flow keeps only to"
        " groups that have no member in common, or that are one within the other; --crossing check"
        " leaves {cell} out, and says who breaks it"
    ),
    "too many places": "with {cell}, there are too many persons, things and groups",
    "no group": "there is no line below the heads, and so no group",
    "no thing": "no thing" + NOTHING,
    "no person": "no person" + NOTHING,
}
# Reminders of how a last stock counts, by faults.
LAST_STOCK = {
    "a penalty, but a supply above 0": (
        " The penalty of a last stock stands on a line for the last period"
    ),
    "no penalty, but other places have one": "; a last stock is a demand, too",
}
RANGE = re.compile("[0-9]+ ?([.][.]|-|–) ?[0-9]+")
DATE = re.compile(r"[0-9]{4}-|\.\s?\w{3}")
# What is wrong with a title that isn't read, and the head that it is about.
TITLE = re.compile("(nearly|not read without) (.*)")


class Teller:
    """Tells the faults of an answer about tables, which have these words there."""

    def __init__(self, words, tables, options, faults):
        self.tables, self.options, self.faults = dict(zip(words, tables)), options, faults
        self.sheets, self.rows, self.shows, self.done = {}, {}, [], set()
        self.crossed, self.has_wishes = {}, False

    def tell(self, answer):
        """Notes all faults of an answer, and positions of places that are no numbers."""
        self.sheets = {word: answer.sheets.get(word, Sheet(1, [""])) for word in self.tables}
        self.rows = {word: {} for word in self.tables}
        for word, sheet in self.sheets.items():
            for line, cells in sheet.rows:
                self.rows[word].setdefault(line, []).append(cells)
        faults = answer.rows["fault"] + second_rows(answer)
        self.crossed = {int(line): other for line, _, other in answer.rows["crossing"]}
        self.has_wishes = bool(answer.rows["wishes"])
        tables = zip(self.tables, self.tables.values(), self.sheets.values()) if faults else ()
        cells = (cell for table in tables for cell in number_cells(*table))
        self.shows = [(mark_in(one[2]), *one) for one in cells if mark_in(one[2])]
        for word, line, *more in faults:
            if word == "options" or not word and self.options.penalty:
                text = BEYOND.format(this="this")
                self.faults.add(At(f"--penalty {self.options.penalty}", ""), more[1], text)
            else:
                self.note(word or "places", int(line or 0), *more)
        if "places" in self.tables:
            check_spots(self.sheets["places"], self.tables["places"].name, self.faults)

    def note(self, word, line, head, what, cell, period=""):
        """Notes a fault. The first one of a kind tells all; of columns that a table lacks, too. A
        fault of a cell counts once, in whichever periods it is. The head may be spelled as the
        table has it; a sheet of wishes has no column of things."""
        column, cell = self.located(word, line, head.lower(), what, cell)
        is_lacking, here = what == "no such column", (word, line, what, column)
        kind = word, what, is_lacking or column.isdecimal() or column
        if period and here in self.done:
            return
        self.done.add(here)
        if not (is_lacking and kind in self.done):
            text = "" if kind in self.done else self.text(word, line, column, what, cell)
            text += f" (in period {shown(period)})" if text and period not in ("", LAST) else ""
            shown_column = "" if self.has_wishes and column == "what" else column
            self.faults.add(At(self.tables[word].name, line, shown_column), what, text, cell)
        self.done.add(kind)

    def row(self, word, line, head, cell):
        """The cells of a row. Of those that share a line, as wishes do, it is the first with a cell
        below a head, if there is one."""
        rows, place = self.rows[word].get(line, [[]]), self.sheets[word].place(head)
        return next((one for one in rows if cell_at(one, place) == cell), rows[0])

    def located(self, word, line, head, what, cell):
        """The column and the cell of a fault. One of steps is in the first step that costs less
        than the one before, or whose most is below 0; a mark may stand in a column about periods,
        told by its place."""
        sheet, cells = self.sheets[word], self.row(word, line, head, cell)
        if TITLE.fullmatch(what):
            return shown(cell)[1:-1], cell
        if what == "both decimal marks" and word in ("places", "routes") and head.isdecimal():
            return sheet.heads[int(head) - 1], cell
        if what == "least above most" and word != "groups" and not sheet.has(["least"]):
            return "most", cell
        if what not in ("falling cost", "below 0"):
            return "takes" if head == str((sheet.place("takes") or -1) + 1) else head, cell
        heads = [head, *(f"{head} {number}" for number in range(2, len(cells)))]
        steps = [cell_at(cells, sheet.place(one)) for one in heads]
        mark = self.options.decimal or next((one[0] for one in self.shows), ".")
        values = [value_of(step, mark) if step[-1:].isdigit() else 0 for step in steps]
        least = values[:1] + values if what == "falling cost" else [0] * len(values)
        place = [value < bound for value, bound in zip(values, least)].index(True)
        return heads[place], steps[place]

    def text(self, word, line, column, what, cell):
        """The sentence about a fault."""
        what, meant = TITLE.fullmatch(what).groups() if TITLE.fullmatch(what) else (what, "")
        sheet, table, row = self.sheets[word], self.tables[word], self.row(word, line, column, cell)
        heads = {"what": ["who", "what"], "most": ["least", "most"], "1": sheet.heads[:1]}
        if word == "groups":
            heads = {"who": ["group", "who"], "what": ["group", "what"]}
        under = functools.partial(filled, sheet, heads.get(column, [column]))
        parts = {
            "cell": lambda: shown(cell),
            "this": lambda: " or ".join(map(shown, [cell] if cell else under(row))) or "this",
            "pair": lambda: " and ".join(map(shown, under(row))),
            "first": lambda: next(n for n, one in sheet.rows if under(one) == under(row)),
            "place": lambda: sheet.titles.index(cell, 1) + 1,
            "least": lambda: "".join(map(shown, filled(sheet, ["least"], row))) or "0",
            "most": lambda: " + ".join(map(shown, filled(sheet, ["most"], row))),
            "digits": lambda: re.sub("[,.]", "", cell),
            "mark": lambda: shown(self.options.decimal or "."),
            "says": lambda: ", as --decimal says" if self.options.decimal else "",
            "other": lambda: self.other(mark_in(cell)),
            "near": lambda: self.near_name(cell, column),
            "other_group": lambda: shown(self.crossed[line]),
            "stock": lambda: stock_hint(sheet, row, what),
            "date": lambda: "; was it taken for a date?" if DATE.search(cell) else "",
            "merged": lambda: self.merged(word, line, column),
            "wishes": lambda: self.wishes(word),
            "range": lambda: self.range(word, cell),
            "meant": lambda: shown(meant),
            "column": lambda: column,
            "heads": lambda: listed([shown(table.title(title)) for title in sheet.titles]),
            "split": lambda: "" if table.book else f" (split at {shown(table.separator(sheet))})",
            "lines": lambda: count_of(len(sheet.rows), "line", "lines"),
            "below": lambda: self.line_with(word),
            "like": lambda: self.looks_like(word),
            "needed": lambda: ", ".join(NEEDED[word]),
        }
        keys = (f"{what} in {word}", f"{what}: {column}", what)
        sentence = next((SENTENCES[key] for key in keys if key in SENTENCES), what)
        return re.sub(r"\{(\w+)\}", lambda found: str(parts[found[1]]()), sentence)

    def other(self, mark):
        """The first cell that shows another mark before decimals, and where it is."""
        table, line, cell = next(one[1:] for one in self.shows if one[0] != mark)
        return f"{shown(cell)} ({table.name}, line {line})"

    def names(self, head="name"):
        """The names of the places or the periods, or of the persons or the things of a table of
        costs."""
        sheet = self.sheets["costs" if head in ("who", "what") else "places"]
        if head in ("who", "what") and not is_list(sheet):
            return sheet.titles[1:] if head == "what" else [cells[0] for _, cells in sheet.rows]
        return [cell_at(cells, sheet.place(head)) for _, cells in sheet.rows]

    def near_name(self, name, column):
        """A hint at a name of a place, a period, a person or a thing that is like one that isn't
        there."""
        head = column if column in ("who", "what", "period") else "name"
        names = list(filter(None, dict.fromkeys(self.names(head))))
        near = [other for other in names if other.casefold() == name.casefold()]
        near = near or difflib.get_close_matches(name, names[:10_000], 1)
        return f"; is {shown(near[0])} meant?" if near else ""

    def line_with(self, word):
        """A hint at a line below the heads that has those which the table needs; or, below a
        title, at one that may have the heads, since it has as many words and no number."""
        ends, needed = f'[{re.escape(self.tables[word].separators)}"]', set(NEEDED[word])
        is_title = len(list(filter(None, self.sheets[word].titles))) < len(needed)
        for line, cells in self.sheets[word].rows[:LOOKED]:
            found = [cell.strip(BLANKS) for cell in re.split(ends, ",".join(cells))]
            if {cell.casefold() for cell in found} >= needed:
                return f", but in line {line}: make that the first line"
            found = list(filter(None, found))
            if is_title and len(found) >= len(needed) and all(map(has_letter, found)):
                heads = listed([shown(self.tables[word].title(cell)) for cell in found])
                return f"; perhaps line {line} has the heads: {heads}"
        return ""

    def looks_like(self, word):
        """A hint at what a table without its columns may be."""
        if word == "places" and self.sheets[word].has(("from", "to")):
            return "this looks like the table of routes, which comes second; "
        return self.matrix() if word == "routes" else ""

    def matrix(self):
        """A hint at a matrix of costs from places to the same ones, whose names aren't those of
        the table of places, and at a column there that has them."""
        routes, places, names = self.sheets["routes"], self.sheets["places"], self.names()
        heads, lefts = [*filter(None, routes.titles[1:])], {cells[0] for _, cells in routes.rows}
        is_list = not set(NEEDED["routes"]).isdisjoint(routes.heads)
        if is_list or len(heads) < 2 or 2 * sum(head in lefts for head in heads) < len(heads):
            return ""
        other = next((head for head in heads if head not in names), "")
        columns = [
            self.tables["places"].title(title)
            for place, title in enumerate(places.titles)
            if other in (cell_at(cells, place) for _, cells in places.rows)
        ]
        told = f", which stands in column {columns[0]}" if columns else ""
        return f"this looks like a matrix, but no place has the name {shown(other)}{told}; "

    def merged(self, word, line, column):
        """A hint at merged cells, if a cell above in the column has a name, which may stand there
        several times."""
        sheet = self.sheets[word]
        place = None if column == "name" or column.isdecimal() else sheet.place(column)
        if not any(cell_at(cells, place) for number, cells in sheet.rows if number < line):
            return ""
        title = shown(self.tables[word].title(sheet.titles[place]))
        return f"; if cells are merged in the spreadsheet, say --fill-down {title}"

    def range(self, word, cell):
        """A hint at where ranges stand in a matrix of costs, if a cell is one."""
        is_range = word == "costs" and not is_list(self.sheets[word]) and RANGE.fullmatch(cell)
        return NUMBERED if is_range else ""

    def wishes(self, word):
        """A hint at a sheet of wishes, if most filled cells of a matrix are words."""
        sheet = self.sheets[word]
        cells = [cell for _, row in sheet.rows for cell in row[1:] if cell.lower() not in FORBIDDEN]
        are_words = 2 * sum(cell[:1].isalpha() for cell in cells) > len(cells)
        return WISHES if word == "costs" and not is_list(sheet) and are_words else ""


def stock_hint(sheet, row, what):
    """A reminder of how a last stock counts, if a row of places has one."""
    return LAST_STOCK[what] if cell_at(row, sheet.place(LAST)) else ""


def has_letter(cell):
    """Whether a cell has a letter, so that it is no number."""
    return any(map(str.isalpha, cell))


def second_rows(answer):
    """Faults, as an answer has them, of rows of a sheet of wishes whose person an earlier row
    has."""
    lines, found = {}, {}
    for line, cells in answer.sheets["costs"].rows if answer.rows["wishes"] else ():
        if lines.setdefault(cells[0], line) != line:
            found[line] = ["costs", str(line), "who", "named twice", cells[0]]
    return list(found.values())


def filled(sheet, heads, row):
    """The filled cells of a row below these heads, and below those of further steps."""
    found = zip((re.sub("(most|cost) [0-9]+", r"\1", head) for head in sheet.heads), row)
    return [cell for head, cell in found if cell and head in heads]
