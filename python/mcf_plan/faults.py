"""The exceptions that end a run without a plan, and the faults of tables by their kinds."""
import collections

# The place of a cell: the name of its table, its line, and its column by head or by number from 1.
# Without a column it is a whole line, without a line the whole table.
At = collections.namedtuple("At", "table line column", defaults=("",))
# How many further cells of one kind a message names.
TOLD_CELLS = 4


class Stop(Exception):
    """Ends the run without a plan, with a text for standard error and the exit status."""

    def __init__(self, text, status):
        super().__init__(text)
        self.status = status


def bad_table(text):
    """A `Stop` for a fault in a table."""
    return Stop(text, 2)


def trouble(text):
    """A `Stop` for anything that isn't a fault of the tables."""
    return Stop(text, 3)


def shown(cell):
    """A cell in quotes, shortened, with unprintable characters spelt out."""
    cell = cell if len(cell) <= 40 else cell[:37] + "..."
    return "'" + "".join(c if c.isprintable() else spelt(ord(c)) for c in cell) + "'"


def spelt(code):
    """A character by its number. Bytes that aren't text are the last bytes of surrogates."""
    is_byte = code <= 0xFF or 0xDC80 <= code <= 0xDCFF
    return f"\\x{code & 0xFF:02x}" if is_byte else f"\\u{code:04x}"


class Kind:
    """The faults of one kind: the first one, their number, and the cells and lines of some more."""

    def __init__(self, text):
        self.text, self.count, self.more = text, 0, {}

    def add(self, line, cell):
        """Counts a fault."""
        self.count += 1
        if self.count > 1 and len(self.more) < TOLD_CELLS:
            self.more.setdefault(cell, line)

    def told(self):
        """The line that reports these faults."""
        if self.count == 1:
            return self.text
        cells = ", ".join(
            f"{shown(cell) + ' ' if cell else ''}in line {line}" for cell, line in self.more.items()
        )
        return f"{self.text} ({self.count} such cells; also {cells})"


class Faults:
    """The faults of tables, which the run reports together, one line for each kind."""

    def __init__(self):
        self.kinds = {}

    def add(self, at, kind, text, cell=""):
        """Notes a fault in a table."""
        key = at.table, kind, "" if str(at.column).isdecimal() else at.column
        where = at.table + (f", line {at.line}" if at.line else "")
        where += f", column {at.column}" if at.column else ""
        self.kinds.setdefault(key, Kind(f"{where}: {text}")).add(at.line, cell)

    def end(self, notes=()):
        """Ends the run if there was a fault, with notes on how the tables were read."""
        if self.kinds:
            raise bad_table("\n".join([*(kind.told() for kind in self.kinds.values()), *notes]))
