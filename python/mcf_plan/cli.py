"""The command line."""
import argparse
import os
import pathlib
import re
import signal
import sys

from .commands import flow_command, pairs_command
from .compare import compare_command
from .diff import diff_command
from .faults import Stop, trouble
from .results import Results
from .tables import Reading, with_feeds
from .verify import verify_command
from .words import line_of

HEADS = (
    "name",
    "supply",
    "x",
    "y",
    "from",
    "to",
    "least",
    "most",
    "cost",
    "penalty",
    "both",
    "who",
    "what",
    "takes",
    "needs",
    "group",
    "period",
    "keep most",
    "keep cost",
    "first stock",
    "last stock",
    "lead",
)
# The head of a step after the first.
STEP = re.compile("^(most|cost) (?:[2-9]|[1-9][0-9]+)$")
# The options for reading of commands that have none.
NO_READING = {"map": [], "decimal": None, "encoding": None, "fill_down": []}
STATUSES = (
    "Status 0: a plan, proved. 1: no plan exists, proved. 2: a bad table or a wrong call. 3:"
    " anything else. 130: interrupted. Of verify, 0: the same answer, proved. 1: another one."
)


class Parser(argparse.ArgumentParser):
    """A parser that reports a usage error as one clear text, with status 2."""

    def error(self, message):
        self.print_usage(sys.stderr)
        raise Stop(message, 2)


def options_of(words):
    """The options in the words of the command line."""
    parser = Parser(
        prog="mcf_plan",
        description="Plans from tables: mcfplan makes them, by a proof.",
        epilog=STATUSES,
    )
    commands = parser.add_subparsers(dest="command", metavar="flow|pairs|diff|compare|verify")
    add_flow(commands.add_parser("flow", help="a least-cost flow over routes between places"))
    add_pairs(commands.add_parser("pairs", help="least-cost pairs of persons and things"))
    add_diff(commands.add_parser("diff", help="compare two plans"))
    add_compare(commands.add_parser("compare", help="put plans side by side"))
    add_verify(
        commands.add_parser("verify", help="whether the tables of a plan give the answer it has")
    )
    options = parser.parse_args(words)
    if not options.command:
        parser.error("say what is planned: flow or pairs; or say diff, compare or verify")
    if options.command == "flow" and len(options.tables) > 2:
        parser.error("flow takes two tables, or a workbook")
    if options.command == "compare" and len(options.plans) < 2:
        parser.error("compare takes two folders of plans or more")
    if options.xlsx:
        Results.check("--xlsx")
    return options


def add_flow(command):
    """Adds the words and options of `flow`."""
    command.add_argument(
        "tables",
        metavar="PLACES [ROUTES]",
        nargs="+",
        help=(
            "a table with the columns name and supply (optionally x and y), and one with the"
            " columns from, to, most and cost (optionally least); or a workbook with both as sheets"
        ),
    )
    add_common(command, flow_command)
    for word, text in (
        ("--unused", "supplies may stay where they are"),
        ("--short", "demands may be short, as little as can be or by --penalty"),
    ):
        command.add_argument(word, choices=("allow", "refuse"), default="refuse", help=text)
    command.add_argument(
        "--most-flow",
        action="store_true",
        help="send as much as possible, at the least cost: --unused allow --short allow",
    )
    command.add_argument(
        "--penalty", metavar="N", help="the cost of each missing unit, unless its place has one"
    )
    command.add_argument(
        "--ranges",
        action="store_true",
        help="also write from what to what the cost of each route may change, and for how many"
        " units figures hold",
    )
    command.add_argument("--no-picture", action="store_true", help="draw no picture")


def add_pairs(command):
    """Adds the words and options of `pairs`."""
    command.add_argument(
        "tables",
        metavar="COSTS",
        nargs=1,
        help="a table with the columns who, what and cost; a matrix; or a sheet of wishes",
    )
    add_common(command, pairs_command)
    command.add_argument(
        "--each",
        choices=("who", "what", "both"),
        help=(
            "who must get exactly one: each person (the default, unless the tables have takes or"
            " needs), each thing, or both"
        ),
    )
    command.add_argument(
        "--groups",
        metavar="FILE",
        help=(
            "a table of groups, with the columns group, who or what, and optionally least and most:"
            " how many things of a group each person gets, or persons of a group each thing"
        ),
    )
    command.add_argument(
        "--crossing",
        choices=("check", "refuse"),
        help=(
            "a group that shares some members with another one, and not all, and isn't greater:"
            " leave it out and say who breaks it; or refuse it (the default)"
        ),
    )
    command.add_argument(
        "--maximise",
        "--maximize",
        action="store_true",
        help="the costs are values: find the greatest sum",
    )


def add_diff(command):
    """Adds the words and options of `diff`."""
    command.add_argument("old", metavar="OLD", help="the folder of the first plan")
    command.add_argument("new", metavar="NEW", help="the folder of the second")
    command.add_argument("--all", action="store_true", help="list all differences")
    command.set_defaults(act=diff_command, xlsx=False, **NO_READING)


def add_compare(command):
    """Adds the words and options of `compare`."""
    command.add_argument("plans", metavar="PLAN", nargs="+", help="the folders of the plans")
    command.add_argument(
        "-o", "--output", dest="folder", metavar="FOLDER", help="the folder for tables and a page"
    )
    command.set_defaults(act=compare_command, xlsx=False, **NO_READING)


def add_verify(command):
    """Adds the words and options of `verify`."""
    command.add_argument("folder", metavar="FOLDER", help="the folder of a plan")
    command.add_argument(
        "tables",
        metavar="TABLE",
        nargs="*",
        default=[],
        help="its tables, if they were moved; by default those that its run read",
    )
    add_programs(command)
    command.set_defaults(act=verify_command, xlsx=False, **NO_READING)


def add_programs(command):
    """Adds the option for the folder of `mcfplan`."""
    command.add_argument(
        "--programs",
        metavar="FOLDER",
        help="the folder of mcfplan, if not beside this tool, in bin/ or on the path",
    )


def add_common(command, act):
    """Adds the options of all commands that make a plan."""
    command.add_argument(
        "-o",
        "--output",
        dest="folder",
        metavar="FOLDER",
        required=True,
        help="the folder for the results",
    )
    add_programs(command)
    add_reading(command)
    add_writing(command)
    command.add_argument(
        "--by",
        action="append",
        default=[],
        metavar="COLUMN",
        help="also write sums by the values of this column of a table",
    )
    command.set_defaults(act=act)


def add_reading(command):
    """Adds the options for reading tables."""
    command.add_argument(
        "--decimal",
        choices=(",", "."),
        help="the decimal mark, if the tables don't show it",
    )
    command.add_argument(
        "--encoding", help="the encoding of the tables, such as windows-1252; UTF-8 by default"
    )
    command.add_argument(
        "--map",
        action="append",
        default=[],
        metavar="HEAD=NAME|FILE",
        help="the column NAME of the tables is the column HEAD; a file has a line for each column",
    )
    command.add_argument(
        "--fill-down",
        action="append",
        default=[],
        metavar="COLUMN",
        help="an empty cell of this column takes the value above it, as merged cells mean it",
    )


def add_writing(command):
    """Adds the options for writing results."""
    command.add_argument(
        "--xlsx",
        action="store_true",
        help="also write the tables as a workbook; this is the default if a workbook was read",
    )
    command.add_argument("--title", type=line_of, help="the title of the page and of the picture")
    command.add_argument(
        "--currency",
        type=line_of,
        default="",
        help="the currency of costs, for the page and the picture",
    )
    command.add_argument(
        "--unit", type=line_of, default="", help="the unit of amounts, for the page and the picture"
    )
    command.add_argument(
        "--guard-formulas",
        action="store_true",
        help="write ' before cells that a spreadsheet would read as a formula",
    )


def reading_of(options):
    """How to read tables, from the options."""
    named = [one for word in options.map for one in named_in(word, options.encoding)]
    wrong = [
        (at, word)
        for at, word in named
        if STEP.sub(r"\1", word.split("=")[0]) not in HEADS or not word.partition("=")[2].strip()
    ]
    if wrong:
        text = f"say {'--map ' * (not wrong[0][0])}HEAD=NAME, where HEAD is one of"
        raise Stop(f"--map {' '.join(filter(None, wrong[0]))}: {text} {', '.join(HEADS)}", 2)
    heads = dict(word.split("=", 1) for _, word in named)
    return Reading(options.decimal, options.encoding, heads, options.fill_down)


def named_in(word, encoding):
    """What a word after `--map` names: itself, or the lines of a file, with where they are. The
    file is in UTF-8, or in the encoding of the tables."""
    if "=" in word:
        return [("", word)]
    try:
        data = pathlib.Path(word).read_bytes()
        try:
            text = data.decode("utf-8-sig")
        except UnicodeError:
            text = data.decode(encoding or "utf-8-sig")
    except (LookupError, OSError, UnicodeError) as error:
        why = getattr(error, "strerror", None) or f"this isn't text in {encoding or 'UTF-8'}"
        raise Stop(f"--map {word}: say --map HEAD=NAME, or name a file of such lines: {why}", 2)
    numbered = enumerate((line.strip() for line in with_feeds(text).split("\n")), 1)
    return [(f"{word}, line {number}:", line) for number, line in numbered if line]


def prepare():
    """Opens closed streams, makes any text printable, and lets a signal end the run with its
    status, after tidying up."""
    for number in range(3):
        try:
            os.fstat(number)
        except OSError:
            os.open(os.devnull, os.O_RDWR)
    for stream in (sys.stdout, sys.stderr):
        if stream:
            stream.reconfigure(errors="backslashreplace")
    if signal.getsignal(signal.SIGINT) != signal.SIG_IGN:
        signal.signal(signal.SIGINT, signal.default_int_handler)
    for number in (signal.SIGTERM, signal.SIGHUP):
        signal.signal(number, ended_by)


def ended_by(number, _):
    """Ends the run by a signal."""
    raise Stop(f"ended by {signal.Signals(number).name}", 128 + number)


def told(text, status):
    """Prints on standard error why there is no plan, and returns the status."""
    try:
        print(
            "\n".join(f"mcf_plan: {line}" for line in text.split("\n")), file=sys.stderr, flush=True
        )
    except (OSError, MemoryError):
        sys.stderr = None
    return status


def said(lines):
    """Prints the summary on standard output."""
    try:
        print("\n".join(lines), flush=True)
    except OSError as error:
        sys.stdout = None
        raise trouble(
            f"the plan is in its folder, and the summary can't be written: {error.strerror}"
        )


def main(words):
    """Runs the command of the words, and returns the exit status."""
    try:
        prepare()
        options = options_of(words)
        lines, status = options.act(options, reading_of(options))
        said(lines)
        return status
    except Stop as stop:
        return told(str(stop), stop.status)
    except KeyboardInterrupt:
        return told("interrupted", 130)
    except MemoryError:
        return told("out of memory", 3)
    except OSError as error:
        return told(f"{error.filename or 'a file'}: {error.strerror}", 3)
    except Exception as error:  # Status 1 would say that no plan exists.
        return told(
            (
                f"a fault of this tool, which please report: {type(error).__name__}:"
                f" {' '.join(str(error).split())}"
            ),
            3,
        )
