"""The persons, the things and the pairs of an answer, from the rows of its table and from its
results."""
import collections

from .answer import FORBIDDEN, cell_at
from .figures import number_in, said

PAIR_HEADS = ("who", "what", "cost")
# A chosen pair, or one that counts one more: its line, the number of its column in a matrix, its
# person, its thing, and its cost.
Pair = collections.namedtuple("Pair", "line column who what cost")


def is_list(sheet):
    """Whether a table of persons and things is a list of pairs, and no matrix."""
    return sum(head in sheet.heads for head in PAIR_HEADS) > 1


class Roster:
    """The table of persons and things of an answer, and the pairs that it tells. The table is plain
    if it doesn't say how many a person takes or a thing needs."""

    def __init__(self, answer, tables, options):
        self.answer, self.options, self.mark = answer, options, answer.mark
        self.table, self.group_table = [*tables, None][:2]
        self.sheet, self.group_sheet = answer.sheets["costs"], answer.sheets.get("groups")
        self.is_list = is_list(self.sheet)
        self.is_plain = not self.is_filled("takes") and not (
            self.is_list and self.is_filled("needs")
        )
        self.persons, self.things, self.allowed = {}, {}, []
        # The cells of a list by their lines and things: the wishes of a person share a line.
        what = self.sheet.place("what")
        self.rows = {(line, cell_at(cells, what)): cells for line, cells in self.sheet.rows}
        self.pairs = [Pair(*cells) for cells in answer.rows["pair"]]
        (self.read_list if self.is_list else self.read_matrix)()
        orders = [
            {name: at for at, name in enumerate(side)} for side in (self.persons, self.things)
        ]
        self.pairs.sort(key=lambda pair: (orders[0][pair.who], orders[1][pair.what]))

    def read_list(self):
        """Reads the names of a list, and the pairs that it allows."""
        places = [self.sheet.place(head) for head in PAIR_HEADS]
        for _, cells in self.sheet.rows:
            self.allow(*(cell_at(cells, place) for place in places))

    def read_matrix(self):
        """Reads the names of a matrix, and the pairs that it allows."""
        for _, cells in self.sheet.rows:
            if cells[0].lower() == "needs":
                self.is_plain = self.is_plain and not any(cells[1:])
                continue
            for place, title in enumerate(self.sheet.titles[1:], 1):
                if title and self.sheet.heads[place] != "takes":
                    self.allow(cells[0], title, cell_at(cells, place))

    def allow(self, who, what, cost):
        """Notes a person and a thing, and their pair if the cell of its cost doesn't forbid it."""
        self.persons[who] = self.things[what] = None
        if cost.lower() not in FORBIDDEN:
            self.allowed.append((who, what))

    def cells_of(self, pair):
        """The cells of a pair of a list."""
        return self.rows[int(pair.line), pair.what]

    def numbered(self):
        """The persons with a number of things that they take."""
        takes, who = self.sheet.place("takes"), self.sheet.place("who") if self.is_list else 0
        rows = (cells for _, cells in self.sheet.rows if cell_at(cells, takes))
        return {cell_at(cells, who) for cells in rows}

    def is_filled(self, head):
        """Whether a cell below a head isn't empty."""
        place = self.sheet.place(head)
        return any(cell_at(cells, place) for _, cells in self.sheet.rows)

    def said(self, value):
        """A value in a sentence."""
        return said(value, self.mark)

    def cost(self):
        """The cost of all pairs."""
        return number_in(self.answer.one("cost"))
