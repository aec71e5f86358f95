"""Reads an answer of `mcfplan`: a table whose rows begin with a word."""
import collections
import csv
import io
import pathlib
import tempfile

from .faults import trouble
from .programs import answer_bytes

csv.field_size_limit(1 << 30)
KINDS = {0: "plan", 1: "no plan", 2: "faults"}
# The cells that forbid a pair.
FORBIDDEN = ("", "x", "-", "–", "—")


class Sheet:
    """A table in an answer: the line and the titles of its heads, and its rows as lines and
    cells."""

    def __init__(self, line, titles):
        self.head_line, self.titles, self.rows = line, titles, []
        self.heads = [title.lower() for title in titles]

    def narrow(self, width):
        """Leaves out the columns beyond this number, if it is one."""
        del self.titles[width or len(self.titles) :], self.heads[width or len(self.heads) :]

    def place(self, head):
        """The place of the column with a head, or None."""
        return self.heads.index(head) if head in self.heads else None

    def has(self, heads):
        """Whether all these heads have columns."""
        return set(heads) <= set(self.heads)


class Answer:
    """An answer: its bytes, its kind, its rows by their first words, the mark before decimals, and
    the tables by their words."""

    def __init__(self, data):
        self.data, self.rows, self.sheets = data, collections.defaultdict(list), {}
        for word, *cells in csv.reader(io.StringIO(data.decode("utf-8"), newline="")):
            self.rows[word].append(cells)
        self.kind = self.one("answer")
        # The mark of the tables, if they show one, and the one by which numbers are written.
        self.shown_mark = self.one("mark") if self.rows["mark"] else ""
        self.mark = self.shown_mark or "."
        for name, line, *titles in self.rows["heads"]:
            self.sheets[name] = Sheet(int(line), titles)
        for name, line, *cells in self.rows["row"]:
            self.sheets[name].rows.append((int(line), cells))
        if self.kind != "faults" and not self.sheets:
            raise ValueError("an answer without its tables")

    def one(self, word):
        """The cell after a word that begins one row."""
        ((cell,),) = self.rows[word]
        return cell


def answer_to(program, words, texts):
    """The answer of `mcfplan` to texts of tables by their words."""
    with tempfile.TemporaryDirectory() as scratch:
        status, data = answer_bytes(program, words, texts, pathlib.Path(scratch))
    try:
        answer = Answer(data)
        if answer.kind == KINDS[status]:
            return answer
    except (KeyError, ValueError, csv.Error):
        pass
    raise trouble(f"mcfplan ended with status {status}, and its answer can't be read")


def cell_at(cells, place):
    """The cell at a place of a row, empty if the row is shorter or the place is None."""
    return cells[place] if place is not None and place < len(cells) else ""
