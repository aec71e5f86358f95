"""What the plan of a folder was asked of: its asked.json, by which `verify` asks again."""
import collections
import hashlib
import json
import os
import pathlib
import shlex

from .faults import Stop, bad_table
from .words import line_of

NAME, FORMAT = "asked.json", 1
# The options that change what `mcfplan` reads or answers, with their types: those of all commands,
# of which `map` has the user's heads by the wanted ones, and those of each.
TEXT = (str, type(None))
READING = {"decimal": TEXT, "encoding": TEXT, "map": dict, "fill_down": list}
OPTIONS = {
    "flow": {**READING, "unused": bool, "short": bool, "penalty": TEXT, "ranges": bool},
    "pairs": {**READING, "each": TEXT, "crossing": TEXT, "maximise": bool},
}
# Options without a word.
FLAGS = ("ranges", "maximise")
# The values of options that have few, and the most files of each command.
CHOICES = {
    "decimal": (None, ",", "."),
    "each": (None, "who", "what", "both"),
    "crossing": (None, "check", "refuse"),
}
FILES = {"flow": 2, "pairs": 2}
# The command, the files of its tables, its options, and the SHA-256 of answer.csv.
Asked = collections.namedtuple("Asked", "command tables options answer_sha256")
File = collections.namedtuple("File", "name sha256")


def sha256_of(data):
    """The SHA-256 of bytes."""
    return hashlib.sha256(data).hexdigest()


def note(folder, asking, answer):
    """Writes asked.json for a run and the bytes of its answer. All options are as `Asking` has
    them: supplies may stay, or may not."""
    options = {name: getattr(asking.options, name) for name in OPTIONS[asking.command]}
    options["map"] = asking.reading.heads
    files = [
        File(os.path.abspath(path), table.sha256)._asdict()
        for path, table in zip(asking.options.tables, asking.tables)
    ]
    asked = Asked(asking.command, files, options, sha256_of(answer))
    text = json.dumps({"format": FORMAT, **asked._asdict()}, indent=1)
    (folder / NAME).write_text(text + "\n", encoding="utf-8")


def read(name):
    """What the plan of a folder was asked of."""
    path = pathlib.Path(name, NAME)
    try:
        found = json.loads(path.read_bytes())
        if found.pop("format") == FORMAT:
            found["tables"] = [File(**one) for one in found["tables"]]
            if is_well_formed(Asked(**found)):
                return Asked(**found)
    except FileNotFoundError:
        is_plan = path.with_name("answer.csv").exists()
        why = ", as an older version made it: make the plan again" if is_plan else ""
        raise bad_table(f"{name}: this folder has no {NAME}{why}")
    except OSError as error:
        raise bad_table(f"{name}: its {NAME} can't be read: {error.strerror}")
    except (AttributeError, LookupError, RecursionError, TypeError, ValueError):
        pass
    raise bad_table(f"{name}: its {NAME} isn't as this version writes it: make the plan again")


def answer_sha256_of(name):
    """The SHA-256 of the answer of the run that made the plan of a folder, or None if that isn't
    known."""
    try:
        return read(name).answer_sha256
    except Stop:
        return None


def options_text(asked):
    """The options as on the command line, except those that have their default."""
    words = []
    for name, value in asked.options.items():
        values = value if isinstance(value, list) else [value]
        values = [f"{head}={own}" for head, own in value.items()] if name == "map" else values
        for one in filter(None, values):
            said = [] if name in FLAGS else ["allow" if one is True else one]
            words += [f"--{name.replace('_', '-')}", *said]
    return line_of(shlex.join(words))


def is_well_formed(asked):
    """Whether all parts of what was read have their types."""
    kinds, options = OPTIONS[asked.command], asked.options
    texts = [text for file in asked.tables for text in file]
    texts += [*options["map"].values(), *options["fill_down"]]
    return (
        0 < len(asked.tables) <= FILES[asked.command]
        and options.keys() == kinds.keys()
        and all(isinstance(options[name], kind) for name, kind in kinds.items())
        and all(options.get(name) in values for name, values in CHOICES.items())
        and all(isinstance(text, str) for text in texts)
    )
