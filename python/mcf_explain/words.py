"""The sentence on a fault, and its usual cause."""
import re

from mcf_plan.words import count_of

# The first bytes of files of other kinds.
MAGIC = {
    b"\x1f\x8b": (
        "the file is compressed by gzip: unpack it first, as in  gunzip < FILE | mcf solve"
    ),
    b"BZh": "the file is compressed by bzip2: unpack it first",
    b"\xfd7zXZ": "the file is compressed by xz: unpack it first",
    b"\x28\xb5\x2f\xfd": "the file is compressed by zstd: unpack it first",
    b"PK\x03\x04": "the file is a zip archive, or a workbook",
    b"\x7fELF": "the file is a program",
    b"\xef\xbb\xbf": (
        "the file begins with a byte-order mark, as some editors write it: save it as UTF-8 without"
        " one, or  tail -c +4 FILE"
    ),
    b"\xff\xfe": "the file is in UTF-16: save it as plain text",
    b"\xfe\xff": "the file is in UTF-16: save it as plain text",
    b"{": "the file is JSON",
    b"<": "the file is XML or HTML",
    b"NAME": "the file is a linear program in MPS: mcf reads the DIMACS form of minimum-cost flow",
}
PROBLEMS = {
    b"max": (
        "a maximum flow: mcf takes min and asn; with cost -1 on an arc from sink to source, and no"
        " supplies, it is a problem of least cost"
    ),
    b"sp": "a problem of shortest paths: mcf takes min and asn",
    b"edge": "a graph to be coloured or matched: mcf takes min and asn",
    b"col": "a graph to be coloured: mcf takes min and asn",
}
SHAPES = {
    (b"p", None): "p min NODES ARCS",
    (b"n", b"min"): "n ID SUPPLY",
    (b"n", b"asn"): "n ID",
    (b"a", b"min"): "a FROM TO LOW CAP COST",
    (b"a", b"asn"): "a FROM TO COST",
}


def text(field):
    """A field in quotes, printable."""
    shown = field.decode("utf-8", "backslashreplace")
    shown = "".join(c if c.isprintable() else f"\\x{ord(c):02x}" for c in shown)
    return "'" + (shown if len(shown) <= 40 else shown[:37] + "...") + "'"


def magic_of(data):
    """The kind of a file, by its first bytes."""
    found = next((words for begin, words in MAGIC.items() if data.startswith(begin)), None)
    if not found and b"\r" in data and b"\n" not in data:
        return "lines end with CR alone, as on old Macintoshes:  tr '\\r' '\\n' < FILE"
    return found or ("the file isn't text" if b"\0" in data else None)


def kind_words(fault):
    """For a line that begins with none of p, n, a."""
    field = fault.row.fields[0]
    cause = None
    if field.lower() in (b"p", b"n", b"a"):
        cause = "the words are in small letters"
    elif field[:1] in (b"#", b"%", b"/", b"*"):
        cause = "comments begin with c"
    elif field in (b"s", b"f", b"y", b"i", b"x", b"r", b"v", b"g"):
        cause = "this is a line of an answer: were instance and answer exchanged?"
    elif b"," in fault.row.line or b";" in fault.row.line:
        cause = "this looks like a table: mcf_plan reads tables"
    elif len(field) > 1 and field[:1] in (b"p", b"n", b"a"):
        cause = "there is a blank after the letter"
    return (
        (
            f"{text(field)} begins no line of an instance: lines begin with p, n or a, and comments"
            " with c"
        ),
        cause,
    )


def fields_words(fault):
    """For a line with too many or too few fields."""
    kind, problem = fault.row.fields[0], fault.known["problem"]
    shapes = (
        [SHAPES[b"p", None]]
        if kind == b"p"
        else [SHAPES[kind, word] for word in (b"min", b"asn") if problem in (None, word)]
    )
    cause, count = None, len(fault.row.fields)
    if (kind, problem, count) == (b"n", b"asn", 3):
        cause = "a node line of an assignment names a row, and has no supply"
    elif (kind, problem, count) == (b"a", b"min", 4):
        cause = "LOW and CAP are missing: an arc of an assignment (p asn) has neither"
    elif (kind, problem, count) == (b"a", b"min", 5):
        cause = "LOW is missing: without a lower bound it is 0"
    elif (kind, problem, count) == (b"a", b"asn", 6):
        cause = "an arc of an assignment (p asn) has neither LOW nor CAP"
    elif kind == b"p" and count == 3:
        cause = "the word min or asn, or one of the numbers, is missing"
    return f"the line has {count} fields; such a line is {' or '.join(shapes)}", cause


def number_words(fault):
    """For a field that should be a whole number."""
    field = fault.row.fields[fault.field]
    cause = None
    if re.fullmatch(rb"[+-]?[0-9]*[.,][0-9]+", field):
        cause = (
            "numbers are whole: multiply all costs, or all amounts, by 10, 100 or 1000 (mcf_plan"
            " does that for tables)"
        )
    elif re.fullmatch(rb"[+-]?[0-9.]+[eE][+-]?[0-9]+", field):
        cause = "write all digits of a number"
    elif field.lower().lstrip(b"+-") in (b"inf", b"infinity", b"infinite", b"nan", b"none"):
        cause = (
            "no number means that there is no limit: give as CAP what all supplies add to, if no"
            " cost is below 0"
        )
    return f"{text(field)} is no whole number", cause


def side_words(fault):
    """For an arc of an assignment that doesn't go from a row to a column."""
    tail, head = (int(field) for field in fault.row.fields[1:3])
    rows = "rows are the nodes with a node line"
    if fault.field == 1:
        return (
            f"node {tail} is a column, and an arc goes from a row to a column; {rows}",
            "are the ends exchanged?" if head in fault.known["named"] else None,
        )
    return f"node {head} is a row, and an arc goes from a row to a column; {rows}", None


def last_words(fault):
    """For a text that ends too early."""
    arcs, lines = fault.known["arcs"], fault.known["arc_lines"]
    if fault.code == "no-p":
        return "there is no problem line, p min NODES ARCS or p asn NODES ARCS", None
    return (
        (
            f"the problem line (line {fault.known['header'].number}) says"
            f" {count_of(arcs, 'arc', 'arcs')}, and there {'is' if lines == 1 else 'are'} {lines}"
        ),
        "was the text cut off?",
    )


def problem_words(fault):
    """For a problem that `mcf` doesn't solve."""
    word = fault.row.fields[1]
    cause = (
        "the words are in small letters" if word.lower() in (b"min", b"asn") else PROBLEMS.get(word)
    )
    return f"the problem {text(word)} is neither min nor asn", cause


def size_words(fault):
    """For a number of nodes or arcs beyond the limits."""
    what = "nodes from 0 to 1000000" if fault.field == 2 else "arcs from 0 to 10000000"
    return f"{text(fault.row.fields[fault.field])} isn't a number of {what}", None


def node_words(fault):
    """For a node that doesn't exist."""
    number = int(fault.row.fields[fault.field])
    which = (
        "the node"
        if fault.row.fields[0] == b"n"
        else "the first end"
        if fault.field == 1
        else "the second end"
    )
    return (
        f"{which} is {number}; nodes are 1 to {fault.known['nodes']}",
        "nodes count from 1" if number == 0 else None,
    )


def twice_words(fault):
    """For a second line of the same node."""
    number = int(fault.row.fields[1])
    return f"node {number} has a node line already, line {fault.known['named'][number]}", None


def limit_words(fault):
    """For a number beyond the limits."""
    what, limit = {"supply": ("supplies", 18), "bound": ("bounds", 18), "cost": ("costs", 15)}[
        fault.code
    ]
    cause = (
        "where no limit is meant, give as CAP what all supplies add to, if no cost is below 0"
        if fault.code == "bound"
        else None
    )
    return (
        (
            f"{text(fault.row.fields[fault.field])} is beyond the {what} that mcf takes,"
            f" -10^{limit} to 10^{limit}"
        ),
        cause,
    )


def order_words(fault):
    """For bounds with nothing between them."""
    low, cap = (int(field) for field in fault.row.fields[3:5])
    return f"LOW, {low}, is greater than CAP, {cap}", "are LOW and CAP exchanged?"


def place_words(fault):
    """For a line in a wrong place, or one too many."""
    known = fault.known
    header = f"line {known['header'].number}" if known["header"] else ""
    return {
        "second-p": (
            f"this is a second problem line; the first is {header}",
            "were two instances put into one file?",
        ),
        "before-p": ("this line stands before the problem line, which comes first", None),
        "late-n": (
            (
                f"this node line stands after an arc line (line {known['first_arc']}): node lines"
                " come first"
            ),
            None,
        ),
        "extra": (
            (
                f"this is arc line {known['arc_lines'] + 1}, and the problem line ({header}) says"
                f" {count_of(known['arcs'] or 0, 'arc', 'arcs')}"
            ),
            None,
        ),
        "total": (
            (
                "with this arc the sizes of costs, times the greater size of LOW and CAP, add to"
                " more than 10^36"
            ),
            "are bounds great where no limit is meant?",
        ),
    }[fault.code]


WORDS = {
    "kind": kind_words,
    "fields": fields_words,
    "problem": problem_words,
    "number": number_words,
    "size": size_words,
    "node": node_words,
    "twice": twice_words,
    "supply": limit_words,
    "bound": limit_words,
    "cost": limit_words,
    "order": order_words,
    "side": side_words,
    "no-p": last_words,
    "missing": last_words,
}


def said_of(fault):
    """The sentence on a fault, and its usual cause or None."""
    return WORDS.get(fault.code, place_words)(fault)
