"""The texts of tables: of files and of sheets, with the heads that the options name."""
import collections
import csv
import hashlib
import io
import itertools
import pathlib
import re
import unicodedata

from .answer import cell_at
from .faults import At, bad_table, shown
from .figures import Figure
from .workbook import is_workbook, sheets_of

# How to read tables: the mark before decimals, the encoding, the user's heads by the wanted ones,
# and the columns to fill down.
Reading = collections.namedtuple(
    "Reading", "decimal encoding heads fill_down", defaults=(None, None, {}, ())
)

# The blanks at the ends of cells that don't count.
BLANKS = (
    "\t\n\v\f\r"
    " \u00a0\u1680\u2000\u2001\u2002\u2003\u2004\u2005\u2006\u2007\u2008\u2009\u200a"
    "\u2028\u2029\u202f\u205f\u3000\ufeff"
)
SEPARATOR_LINE = re.compile(r'"?sep=([^" \n])"?[^\S\n]*(?=\n|$)', re.IGNORECASE)
# The separators that heads show by themselves.
SEPARATORS = ",;\t"
# The place of the costs in the list of a matrix, after both ends and the limit.
MATRIX_COST = 3
# The place of the first own column in the list of a sheet of wishes, after person, thing and cost.
OWN = 3
# The number of lines that aren't blank among which the heads are.
LOOKED = 10
# The first bytes of other kinds of files.
OTHER_FILES = {
    b"\x1f\x8b": "this is compressed (gzip): unpack it first",
    b"\xd0\xcf\x11\xe0": "this is an old Excel workbook: save it as .xlsx, or as CSV UTF-8",
    b"%PDF": "this is a PDF; a table is a workbook or CSV",
}


class Table:
    """A table as a text in UTF-8, in Unicode normal form C, whose lines end with line feeds: as
    `mcfplan` reads all of them. `has_mark` says whether its file has a byte-order mark; `own` has
    the user's titles by those that replace them in the text; `figures` has the numbers of a sheet
    by their lines and places, `width` the number of its columns; `sha256` is that of its file, once
    it was read. If an answer reads it as a matrix of costs, `matrix` has the heads of that, and
    `columns` the places of those that stand once; if as a sheet of wishes, `matrix` has the heads
    of that, and `places` those of its own columns, by their places in the list. `notes` say how the
    table was found, and `changes` what the answer changed in it."""

    def __init__(self, name, text, has_mark=False, book=None, figures=None):
        self.name, self.has_mark, self.book, self.figures = name, has_mark, book, figures or {}
        self.width, self.matrix, self.columns, self.places = None, [], {}, {}
        self.notes, self.changes = [], []
        self.text, self.own, self.sha256 = unicodedata.normalize("NFC", with_feeds(text)), {}, None
        if not self.text.strip(BLANKS):
            raise bad_table(
                f"{name}, line 1: the table is empty; its first line has the heads of the columns"
            )
        named = SEPARATOR_LINE.match(self.text.lstrip(BLANKS))
        self.separators = SEPARATORS + (named[1] if named else "")

    def head_lines(self):
        """The lines among which the heads are, and their numbers from 1."""
        numbered = enumerate(self.text.split("\n"), 1)
        found = (one for one in numbered if one[1].strip(BLANKS + self.separators + '"'))
        return list(itertools.islice(found, LOOKED))

    def call(self, titles):
        """Gives columns with titles of the user's their wanted heads, each in the first line that
        has its title, and columns that have one of these heads another one. Returns the heads whose
        titles no line has."""
        lines, found = self.text.split("\n"), collections.defaultdict(list)
        for head, title in titles.items():
            field = self.field_of([title])
            numbers = (number for number, line in self.head_lines() if field.search(line))
            found[next(numbers, 0)].append(head)
        missing = found.pop(0, [])
        for number, heads in found.items():
            named = [(titles[head], head) for head in heads]
            named += [(head, f"own {head}") for head in heads]
            lines[number - 1] = self.named(lines[number - 1], named)
        self.text = "\n".join(lines)
        return missing

    def named(self, line, named):
        """A line whose fields of some titles are other heads, which `own` notes. Titles come with
        their heads."""

        def other(field):
            head = named[field.lastindex - 3][1]
            self.own[head] = field[field.lastindex].replace('""', '"')
            return field[1] + field[2] + head

        return self.field_of([title for title, _ in named]).sub(other, line)

    def field_of(self, titles):
        """The pattern of a field that is one of some titles, perhaps between quotes."""
        plain = (unicodedata.normalize("NFC", title).replace('"', '""') for title in titles)
        any_title = "|".join(f"({re.escape(title)})" for title in plain)
        end, quote = f"[{re.escape(self.separators)}]", '[ \u00a0]*"?[ \u00a0]*'
        return re.compile(f"(^|{end})({quote})(?:{any_title})(?={quote}(?:{end}|$))", re.IGNORECASE)

    def separator(self, sheet):
        """The separator by which the text has the heads of a sheet."""
        titles = self.matrix or sheet.titles
        known = self.separators[len(SEPARATORS) :] + SEPARATORS
        return next((m for m in known if self.fields(sheet.head_line, m) == titles), ",")

    def fields(self, line, mark=None):
        """The cells of the row that begins in a line, by a separator, or by the one that splits it
        into most."""
        text = self.text.split("\n", line - 1)[-1]
        rows = (
            next(csv.reader(io.StringIO(text, newline=""), delimiter=one, skipinitialspace=True))
            for one in mark or self.separators
        )
        return max(([cell.strip(BLANKS) for cell in row] for row in rows), key=len)

    def become_matrix(self, sheet):
        """Notes that an answer reads the table as a matrix of costs, whose list it has."""
        self.matrix = self.fields(sheet.head_line)
        counts = collections.Counter(self.matrix)
        self.columns = {head: place for place, head in enumerate(self.matrix) if counts[head] == 1}

    def become_wishes(self, sheet):
        """Notes that an answer reads the table as a sheet of wishes, whose list it has: after the
        person, the thing and the cost stand the sheet's own columns, in their order."""
        self.matrix = self.fields(sheet.head_line)
        heads, titles = iter(enumerate(self.matrix)), sheet.titles[OWN:]
        own = [next((k for k, head in heads if head == title), None) for title in titles]
        self.places = dict(enumerate(own, OWN))
        sheet.narrow(self.width and OWN + sum(k is not None and k < self.width for k in own))

    def figure(self, line, cells, place):
        """The number that the sheet has in a cell of a row of the answer, or None."""
        if self.places:
            place = self.places.get(place)
        elif self.matrix:
            place = self.columns.get(cells[1]) if place == MATRIX_COST else None
        return self.figures.get((line, place))

    def cell(self, line, cells, place):
        """A cell of a row of the answer: a figure if the sheet has a number there."""
        found = self.figure(line, cells, place)
        return cell_at(cells, place) if found is None else found

    def title(self, title):
        """A title as the user has it."""
        return self.own.get(title, title)


def head_in(tables, column):
    """The head in the texts of tables of a column that the user names by its title or its head."""
    named = unicodedata.normalize("NFC", column).strip(BLANKS)
    owned = (pair for table in tables for pair in table.own.items())
    return next((head for head, own in owned if own.casefold() == named.casefold()), named)


def with_feeds(text):
    """A text whose lines all end with line feeds."""
    return re.sub("\r\n?", "\n", text)


def bytes_of(path):
    """The bytes of a file that may be a table."""
    try:
        data = pathlib.Path(path).read_bytes()
    except OSError as error:
        raise bad_table(f"{path}: cannot be read: {error.strerror}")
    for begin, text in OTHER_FILES.items():
        if data.startswith(begin):
            raise bad_table(f"{path}: {text}")
    return data


def text_of(path, data, encoding, faults):
    """The text of a file. If the file isn't UTF-8 and no option names an encoding, reads it as
    Windows-1252 and notes a fault."""
    encoding = "utf-16" if data[:2] in (b"\xff\xfe", b"\xfe\xff") else encoding or "utf-8"
    try:
        text = data.decode(encoding)
    except LookupError:
        raise bad_table(f"there is no encoding {shown(encoding)}")
    except UnicodeError as error:
        if encoding != "utf-8":
            raise bad_table(not_text(path, encoding))
        text = data.decode("windows-1252", "replace")
        line = with_feeds(text[: error.start]).count("\n") + 1
        part = with_feeds(text).split("\n")[line - 1].strip()
        faults.add(
            At(str(path), line),
            "encoding",
            "this isn't in UTF-8, but perhaps in Windows-1252 (ANSI), which reads"
            f" {shown(part)}: in Excel, save as CSV UTF-8; or say --encoding windows-1252",
        )
    if "\0" in text:
        raise bad_table(not_text(path, encoding))
    return text.lstrip("\ufeff")


def not_text(path, encoding):
    """The sentence that a file isn't text in an encoding."""
    name = "UTF-8" if encoding == "utf-8" else encoding
    return f"{path}: this isn't text in {name}; save the table as CSV in UTF-8"


def sheet_with(path, sheets, wanted, reading):
    """The table of the sheet with a row that has most of the wanted heads."""
    own = {reading.heads.get(head, head).casefold() for head in wanted}
    ranks = [
        max((len(own & {cell.casefold() for cell in row}) for row in rows[:LOOKED]), default=-1)
        for _, rows in sheets
    ]
    if max(ranks, default=-1) < 0:
        raise bad_table(f"{path}: the workbook is empty")
    title, rows = sheets[ranks.index(max(ranks))]
    text, mark = io.StringIO(), reading.decimal or "."
    # Commas are what the first row shows as the separator, whatever its cells have in them.
    others = [""] * sum(cell.count(";") + cell.count("\t") for cell in rows[0])
    csv.writer(text, lineterminator="\n").writerows(
        [cell.replace(".", mark) if isinstance(cell, Figure) else cell for cell in row]
        for row in [rows[0] + others] + rows[1:]
    )
    figures = {
        (line, place): cell
        for line, row in enumerate(rows, 1)
        for place, cell in enumerate(row)
        if isinstance(cell, Figure)
    }
    found = Table(f"{path}, sheet {title}", text.getvalue(), False, path, figures)
    found.width = max(map(len, rows))
    if max(ranks) == 0 and len(sheets) > 1:
        found.notes.append(
            f"{path}: no sheet has one of the heads"
            f" {', '.join(reading.heads.get(head, head) for head in wanted)}; {title} is read, of"
            f" the sheets {', '.join(name for name, _ in sheets)}."
        )
    return found


def tables_of(paths, wanted, reading, faults):
    """The tables of some files, each with its wanted heads. Tables without a file are sheets of the
    workbook."""
    found, books = [], {}
    for path, heads in zip(list(paths) + [paths[-1]] * (len(wanted) - len(paths)), wanted):
        data = bytes_of(path)
        if is_workbook(data):
            if path not in books:
                books[path] = sheets_of(path, data)
            found.append(sheet_with(path, books[path], heads, reading))
        elif len(paths) < len(wanted):
            raise bad_table(
                f"{path}: this is no workbook with two sheets: name the table of routes, too"
            )
        else:
            text = text_of(path, data, reading.encoding, faults)
            begins = data.startswith((b"\xef\xbb\xbf", b"\xff\xfe", b"\xfe\xff"))
            found.append(Table(str(path), text, begins))
        found[-1].sha256 = hashlib.sha256(data).hexdigest()
    missing = [table.call(reading.heads) for table in found]
    for head, own in reading.heads.items():
        if all(head in heads for heads in missing):
            others = "".join(f", nor in {table.name}" for table in found[:-1])
            faults.add(
                At(found[-1].name, 1, own),
                "map",
                f"there is no such column, which --map {head}={own} names{others}",
            )
    return found
