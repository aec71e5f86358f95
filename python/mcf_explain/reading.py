"""The faults of an instance: the first one as `mcf` finds it, and the later ones as far as
possible."""
import collections
import re

FIELD, WHOLE = re.compile(rb"[^ \t\r]+"), re.compile(rb"[+-]?[0-9]+")
NODE_LIMIT, ARC_LIMIT, AMOUNT_LIMIT, COST_LIMIT, TOTAL_LIMIT = (
    10**6,
    10**7,
    10**18,
    10**15,
    10**36,
)

# A line that is neither a comment nor blank: its number, its bytes, the places where its fields
# begin, and the fields.
Row = collections.namedtuple("Row", "number line starts fields")
# A fault: a code of `mcf`, the row (None after the last line), the number of the field, and facts
# that the sentence on it needs.
Fault = collections.namedtuple("Fault", "code number row field known")


def rows_of(data):
    """The rows of a text, one by one."""
    begin, number = 0, 0
    while begin < len(data):
        end = data.find(b"\n", begin)
        end = len(data) if end < 0 else end
        line, number, begin = data[begin:end], number + 1, end + 1
        found = [(match.start(), match[0]) for match in FIELD.finditer(line)]
        if found and not found[0][1].startswith(b"c"):
            yield Row(number, line, [start for start, _ in found], [field for _, field in found])


class Reader:
    """What was read before a line. After a faulty problem line the sizes are unknown, and nothing
    is compared with them."""

    def __init__(self):
        self.problem = self.nodes = self.arcs = None
        self.header, self.named, self.arc_lines, self.first_arc, self.total = None, {}, 0, None, 0

    def fault(self, row):
        """The first fault of a row, or None. Without a fault, the row counts as read."""
        kind = row.fields[0]
        if kind not in (b"p", b"n", b"a"):
            return self.made("kind", row, 0)
        found = self.form_fault(row, kind) or {
            b"p": self.header_fault,
            b"n": self.node_fault,
            b"a": self.arc_fault,
        }[kind](row)
        self.take(row, kind)
        return found

    def made(self, code, row, field):
        """Makes a fault of a row, with the facts known there."""
        known = {
            "problem": self.problem,
            "nodes": self.nodes,
            "arcs": self.arcs,
            "arc_lines": self.arc_lines,
            "header": self.header,
            "named": self.named,
            "first_arc": self.first_arc,
        }
        return Fault(code, row.number, row, field, known)

    def counts(self, kind):
        """The valid numbers of fields."""
        both = {b"p": (4, 4), b"n": (3, 2), b"a": (6, 4)}[kind]
        return both if self.problem is None else both[:1] if self.problem == b"min" else both[1:]

    def form_fault(self, row, kind):
        """A fault of the fields, the problem, the numbers, or the order of lines."""
        if len(row.fields) not in self.counts(kind):
            return self.made("fields", row, min(len(row.fields) - 1, max(self.counts(kind))))
        if kind == b"p" and row.fields[1] not in (b"min", b"asn"):
            return self.made("problem", row, 1)
        wrong = next(
            (
                k
                for k in range(2 if kind == b"p" else 1, len(row.fields))
                if not WHOLE.fullmatch(row.fields[k])
            ),
            None,
        )
        if wrong is not None:
            return self.made("number", row, wrong)
        if (kind == b"p") == (self.header is not None):
            return self.made("second-p" if kind == b"p" else "before-p", row, 0)
        return None

    def header_fault(self, row):
        """A fault of the sizes in a problem line."""
        for field, limit in ((2, NODE_LIMIT), (3, ARC_LIMIT)):
            if not 0 <= int(row.fields[field]) <= limit:
                return self.made("size", row, field)
        return None

    def end_fault(self, row, places):
        """A fault of the nodes that a line names."""
        wrong = next(
            (
                k
                for k in places
                if self.nodes is not None and not 1 <= int(row.fields[k]) <= self.nodes
            ),
            None,
        )
        return None if wrong is None else self.made("node", row, wrong)

    def node_fault(self, row):
        """A fault of a node line that has the right form."""
        found = self.end_fault(row, (1,))
        if found or self.first_arc:
            return found or self.made("late-n", row, 0)
        if int(row.fields[1]) in self.named:
            return self.made("twice", row, 1)
        return (
            self.made("supply", row, 2)
            if len(row.fields) == 3 and abs(int(row.fields[2])) > AMOUNT_LIMIT
            else None
        )

    def arc_fault(self, row):
        """A fault of an arc line that has the right form."""
        found, numbers = self.end_fault(row, (1, 2)), [int(field) for field in row.fields[1:]]
        if found:
            return found
        if len(numbers) == 5:
            wrong = next((k for k in (3, 4) if abs(numbers[k - 1]) > AMOUNT_LIMIT), None)
            if wrong or numbers[2] > numbers[3]:
                return self.made("bound" if wrong else "order", row, wrong or 3)
        if abs(numbers[-1]) > COST_LIMIT:
            return self.made("cost", row, len(numbers))
        if self.arcs is not None and self.arc_lines >= self.arcs:
            return self.made("extra", row, 0)
        if len(numbers) == 3 and (numbers[0] not in self.named or numbers[1] in self.named):
            return self.made("side", row, 1 if numbers[0] not in self.named else 2)
        past = self.total + weight(numbers) > TOTAL_LIMIT
        return self.made("total", row, 5) if past and len(numbers) == 5 else None

    def take(self, row, kind):
        """Counts a row as read."""
        good = [field if WHOLE.fullmatch(field) else None for field in row.fields[1:]]
        if kind == b"p" and self.header is None:
            self.header = row
            self.problem = (
                row.fields[1] if len(row.fields) > 1 and row.fields[1] in (b"min", b"asn") else None
            )
            sizes = [
                int(field) if field is not None and 0 <= int(field) <= limit else None
                for field, limit in zip(good[1:3], (NODE_LIMIT, ARC_LIMIT))
            ]
            self.nodes, self.arcs = (
                sizes if len(sizes) == 2 and len(row.fields) == 4 else (None, None)
            )
        elif kind == b"n" and good and good[0] is not None:
            self.named.setdefault(int(good[0]), row.number)
        elif kind == b"a":
            self.arc_lines += 1
            self.first_arc = self.first_arc or row.number
            if self.problem == b"min" and len(good) == 5 and None not in good:
                self.total += weight([int(field) for field in good])


def weight(numbers):
    """The absolute value of an arc's cost times the greater absolute value of its bounds."""
    return abs(numbers[4]) * max(abs(numbers[2]), abs(numbers[3])) if len(numbers) == 5 else 0


def faults_of(data):
    """The faults of a text, one by one."""
    reader = Reader()
    for row in rows_of(data):
        found = reader.fault(row)
        if found:
            yield found
    after = data.count(b"\n") + (not data.endswith(b"\n") and data != b"") + 1
    known = {"arcs": reader.arcs, "arc_lines": reader.arc_lines, "header": reader.header}
    if reader.header is None:
        yield Fault("no-p", after, None, 0, known)
    elif reader.arcs is not None and reader.arc_lines < reader.arcs:
        yield Fault("missing", after, None, 0, known)
