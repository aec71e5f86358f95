"""The command line of mcf_explain."""
import pathlib
import sys
import tempfile

from mcf_plan import life
from mcf_plan.cli import Parser, prepare
from mcf_plan.faults import Stop, trouble
from mcf_plan.programs import program, run

from .reading import faults_of
from .words import magic_of, said_of

# The most further faults of a kind to report, and the most characters of a line to show.
TOLD, SHOWN = 3, 100


def shown_line(fault):
    """The line of a fault with a caret below it. A long line is cut."""
    if not fault.row:
        return []
    start = (
        fault.row.starts[fault.field]
        if fault.field < len(fault.row.starts)
        else len(fault.row.line)
    )
    before, after = (
        part.decode("utf-8", "backslashreplace")
        for part in (fault.row.line[:start], fault.row.line[start:])
    )
    before, after = (
        "".join(
            c if c.isprintable() else " " if c == "\t" else f"\\x{ord(c):02x}"
            for c in part.rstrip("\r")
        )
        for part in (before, after)
    )
    before = before if len(before) <= SHOWN else "..." + before[-SHOWN + 3 :]
    after = after if len(after) <= SHOWN else after[: SHOWN - 3] + "..."
    return ["    " + before + after, "    " + " " * len(before) + "^"]


def first_lines(name, fault, data):
    """All lines about the first fault."""
    sentence, cause = said_of(fault)
    lines = [
        f"{name}: line {fault.number}: {sentence} (mcf: r {fault.number} {fault.code})"
    ] + shown_line(fault)
    magic = magic_of(data) if fault.number == 1 or b"\n" not in data else None
    usual = magic or cause
    return lines + ([f"Usual cause: {usual}{'' if usual.endswith('?') else '.'}"] if usual else [])


def further_lines(faults):
    """The lines about later faults: some of each kind, and the number of the others."""
    kinds = {}
    for fault in faults:
        lines, _ = kinds.setdefault(fault.code, ([], [0, 0]))
        if len(lines) < TOLD:
            lines.append(f"line {fault.number}: {said_of(fault)[0]} ({fault.code})")
        kinds[fault.code][1][:] = kinds[fault.code][1][0] + 1, fault.number
    told = []
    for code, (lines, (count, last)) in kinds.items():
        told += lines + (
            [f"and {count - len(lines)} more of {code}, the last in line {last}"]
            if count > len(lines)
            else []
        )
    return (["Further on, where mcf doesn't look any more:"] if told else []) + told


def agreement(checker, data, fault):
    """Warns if `mcfcheck` doesn't accept the first fault as the refusal."""
    with tempfile.TemporaryDirectory() as scratch, tempfile.TemporaryFile() as output:
        instance, answer = pathlib.Path(scratch, "instance"), pathlib.Path(scratch, "answer")
        instance.write_bytes(data)
        answer.write_text(f"r {fault.number} {fault.code}\n" if fault else "r 1 kind\n")
        with life.doing("mcfcheck judges the answer"):
            status, told = run([checker, str(instance), str(answer)], output)
        output.seek(0)
        words = output.read().decode("utf-8", "replace").split()[:2]
    if (status, words[:1]) not in ((0, ["accepted"]), (1, ["rejected"])):
        raise trouble(f"mcfcheck gave no verdict (status {status}): {told}")
    is_right = status == 0 if fault else words == ["rejected", "kind"]
    return (
        []
        if is_right
        else [
            "MCF SEES IT OTHERWISE: mcfcheck doesn't accept what is said here. Believe mcf; please"
            " report the instance."
        ]
    )


def explained(name, data, checker):
    """The lines to print, and the status."""
    faults = faults_of(data)
    with life.doing("reads the instance"):
        first = next(faults, None)
        lines = (
            [f"{name}: mcf refuses nothing here."]
            if first is None
            else first_lines(name, first, data)
        )
        rest = (
            [] if first is None or (magic_of(data) and first.number == 1) else further_lines(faults)
        )
    against = agreement(checker, data, first) if checker else []
    unsure = (
        [] if checker else ["(mcfcheck isn't there, so this wasn't compared with what mcf says.)"]
    )
    return lines + rest + unsure + against, 3 if against else 0 if first is None else 2


def checker_in(folder):
    """The path of mcfcheck, or None if it doesn't exist and no folder was named."""
    try:
        return program("mcfcheck", folder)
    except Stop:
        if folder:
            raise
        return None


def data_of(file):
    """The bytes of a file, or of standard input."""
    try:
        return sys.stdin.buffer.read() if file is None else pathlib.Path(file).read_bytes()
    except OSError as error:
        raise trouble(f"{file}: {error.strerror}")


def main(words):
    """Runs the command of the words, and returns the exit status: 0 without a fault, 2 with one, 3
    for anything else."""
    parser = Parser(
        prog="mcf_explain",
        description="Why mcf refuses an instance: the first fault in words, and all further ones.",
    )
    parser.add_argument(
        "file", nargs="?", metavar="FILE", help="the instance; without it, standard input"
    )
    parser.add_argument("--programs", metavar="FOLDER", help="where mcfcheck is")
    try:
        prepare()
        if hasattr(sys, "set_int_max_str_digits"):
            sys.set_int_max_str_digits(0)
        options = parser.parse_args(words)
        lines, status = explained(
            options.file or "standard input", data_of(options.file), checker_in(options.programs)
        )
        print("\n".join(lines), flush=True)
        return status
    except Stop as stop:
        # 2 is the status of an instance that has a fault.
        text, status = str(stop), max(stop.status, 3)
    except KeyboardInterrupt:
        text, status = "interrupted", 130
    except MemoryError:
        text, status = "out of memory", 3
    except OSError as error:
        sys.stdout = None
        text, status = f"{error.filename or 'the output'}: {error.strerror}", 3
    print(f"mcf_explain: {text}", file=sys.stderr)
    return status
