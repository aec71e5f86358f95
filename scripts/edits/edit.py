"""Edits that must fail: their files, and what each changes of its crate."""
import dataclasses
import pathlib
import re
import subprocess
import tempfile
from typing import Dict, List, Set, Tuple

from edits import source

PARTS = ("src", "specs", "proofs")
Place = Tuple[str, source.Key]


class BadEdit(Exception):
    """An edit that can't be applied."""


@dataclasses.dataclass
class Edit:
    """An edit of a crate: its texts by file, and the bodies that it changes."""

    crate: str
    name: str
    words: str
    texts: Dict[str, str]
    # none where it changes more than the bodies of functions
    places: Dict[Place, str] = dataclasses.field(default_factory=dict)
    # what keeps it from being laid out, if anything does
    unread: str = ""
    # whether only a check of its own can tell of it
    is_alone: bool = False
    # the edits for which it was left undecided
    avoids: Set[str] = dataclasses.field(default_factory=set)

    @property
    def label(self) -> str:
        return f"{self.crate}/{self.name}"


def applied(words: str, folder: pathlib.Path) -> Dict[str, str]:
    """The texts of the files that an edit changes."""
    path, old, pairs = "", "", 0
    texts: Dict[str, str] = {}
    for line in words.split("\n"):
        key, colon, value = line.partition(":")
        value = value[1:] if value.startswith(" ") else value
        if key == "file" and colon:
            path = value.strip()
            if not path.startswith(tuple(part + "/" for part in PARTS)) or ".." in path:
                raise BadEdit(f"`file: {path}` is none below src/, specs/ or proofs/")
        elif key == "old" and colon:
            old = value
        elif key == "new" and colon:
            if not path or not old:
                raise BadEdit("a line `new:` without `file:` and `old:` before it")
            text = texts[path] if path in texts else read(folder / path)
            if text.count(old) != 1:
                raise BadEdit(f"`old: {old}` stands {text.count(old)} times in {path}, not once")
            texts[path], old, pairs = text.replace(old, value), "", pairs + 1
        elif line.strip():
            raise BadEdit(f"a line that begins with none of file:, old:, new:: {line}")
    if old or not pairs:
        raise BadEdit("an `old:` without `new:`" if old else "it has no pair of `old:` and `new:`")
    return texts


def read(path: pathlib.Path) -> str:
    try:
        return path.read_text()
    except (OSError, UnicodeDecodeError) as error:
        raise BadEdit(f"{path.name} can't be read: {error}") from error


def read_all(folder: pathlib.Path) -> Tuple[List[Edit], Dict[str, str]]:
    """The edits of a crate's folder by their names, and what is wrong with those that can't be
    applied."""
    found, wrong = [], {}
    for path in sorted((folder / "edits").iterdir()):
        label = f"{folder.name}/{path.stem}"
        try:
            if path.suffix != ".edit":
                raise BadEdit("its name doesn't end in .edit")
            words = read(path)
            found.append(Edit(folder.name, path.stem, words, applied(words, folder)))
        except BadEdit as error:
            wrong[label] = str(error)
    return found, wrong


def lay_out(edits: List[Edit], folder: pathlib.Path, rattle: pathlib.Path) -> None:
    """Lays the texts of edits out, as a check wants them, and finds the bodies that each
    changes."""
    with tempfile.TemporaryDirectory(prefix="mcf-edits-") as room:
        files = {}
        for edit in edits:
            for path in edit.texts:
                files[edit.name, path] = pathlib.Path(room) / edit.name / path
                files[edit.name, path].parent.mkdir(parents=True, exist_ok=True)
                files[edit.name, path].write_text(edit.texts[path])
        said = ""
        if files:
            ran = subprocess.run(
                [rattle, "fmt", "--write", *files.values()], capture_output=True, text=True
            )
            said = ran.stdout + ran.stderr
        for edit in edits:
            for path in edit.texts:
                edit.texts[path] = files[edit.name, path].read_text()
                told = re.search(rf"{re.escape(str(files[edit.name, path]))}(.*)", said)
                edit.unread = edit.unread or (f"{path}{told[1]}" if told else "")
            edit.places = places(edit, folder)
            edit.is_alone = not edit.places


def places(edit: Edit, folder: pathlib.Path) -> Dict[Place, str]:
    """The bodies that an edit changes; none where it changes anything else, or a function without
    a contract, by which it changes what holds of others."""
    found: Dict[Place, str] = {}
    for path, text in edit.texts.items():
        before, outside = source.bodies((folder / path).read_text())
        after, now = source.bodies(text)
        if not path.startswith("src/") or outside != now or before.keys() != after.keys():
            return {}
        found.update({(path, key): body for key, body in after.items() if body != before[key]})
    promise = all(promises((folder / path).read_text(), key) for path, key in found)
    return found if promise else {}


def promises(text: str, key: source.Key) -> bool:
    """Whether a function has a contract, of its own or its trait's."""
    function = source.functions(text)[key]
    head = "\n".join(text.split("\n")[function.head : function.body + 1])
    return "ensures" in head or " for " in function.owner
