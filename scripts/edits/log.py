"""What the log of a check says of edited functions."""
import dataclasses
import re
from typing import Dict, List, Set, Tuple

from edits import source

GOAL, SHAPE, THROUGH, UNDECIDED = (
    "refused at a goal",
    "refused for its shape",
    "THROUGH",
    "undecided",
)
GONE = re.compile(
    r"has no `|is not in scope|has no field|was not admitted|is no name|operand is missing"
    r"|expected the end|cannot continue|cannot be read"
)


@dataclasses.dataclass(frozen=True)
class Verdict:
    """What came of an edit, and why."""

    what: str
    why: str = ""

    def __str__(self) -> str:
        return f"{self.what}: {self.why}" if self.why else self.what


@dataclasses.dataclass(frozen=True)
class Spot:
    """An edited function in the texts that were checked."""

    path: str
    function: source.Function


class Log:
    """What a check said, in parts."""

    def __init__(self, text: str, status: int):
        self.status = status
        self.lines = text.rstrip("\n").split("\n")
        self.told: Dict[str, str] = dict(re.findall(r"^fn (\S+): (.*)$", text, re.M))
        self.waits: Dict[str, str] = dict(re.findall(r"^impl (\S+): (not proved.*)$", text, re.M))
        self.open_goals = [
            (path, int(line), f"{path}:{line}: it is not proved that {what}")
            for path, line, what in re.findall(
                r"^note: (?:\./)?(src/\S+?):(\d+):\d+: it is not proved that (.*)$", text, re.M
            )
        ]
        self.errors: List[Tuple[str, int, str]] = [
            (path, int(line), what)
            for path, line, what in re.findall(
                r"^(?:\./)?((?:src|specs|proofs)/\S+?):(\d+):\d+: error(.*)$", text, re.M
            )
        ]

    def paths(self, crate: str, spot: Spot) -> List[str]:
        """The names by which the log may tell of a function: one, but where the log's reader can't
        tell two impls apart. What a type has stands by the type's own module there."""
        module = re.sub(r"^src/(?:(?:lib|main)\.rt$)?|(?:/mod)?\.rt$", "", spot.path)
        inside = "::".join([crate, *filter(None, module.split("/"))])
        kind, trait = spot.function.owner_words
        owner = f"{kind[:1].upper() + kind[1:]}{trait}(?:\\+[^:]*)?::" if kind else ""
        pattern = re.compile(rf"((?:\w+::)*?){owner}{spot.function.name}")
        matches = [match for match in map(pattern.fullmatch, self.told) if match]
        found = [match[0] for match in matches if match[1] == f"{inside}::"]
        if kind and not found:
            found = [match[0] for match in matches]
        if len(found) > 1 and not trait:
            bare = spot.function.owner.startswith("impl<")
            found = [path for path in found if ("+" in path) != bare] or found
        return found

    def goals(self, folder: str, path: str = "") -> List[str]:
        """The goals that aren't proved of the proofs in a folder, of one function or of all."""
        found = [
            f"{file}:{line}{what}"
            for file, line, what in self.errors
            if file.startswith(folder) and not is_unread(file, what)
        ]
        return found + [
            f"{name}: {what}"
            for name, what in self.told.items()
            if "did not prove" in what and path in ("", name)
        ]

    def gone(self, folder: str) -> List[str]:
        """The texts below a folder that can't be read, as they name what is gone."""
        return [
            f"{file}:{line}{what}"
            for file, line, what in self.errors
            if file.startswith(folder) and is_unread(file, what)
        ]

    def of_function(self, crate: str, spot: Spot) -> Verdict:
        """What came of one edited function among others."""
        first, last = spot.function.first + 1, spot.function.last + 1
        for path, line, what in self.errors:
            if path == spot.path and first <= line <= last and is_unread(path, what):
                return Verdict(SHAPE, f"{path}:{line}{what}")
        for path, line, what in self.open_goals:
            if path == spot.path and first <= line <= last:
                return Verdict(GOAL, what)
        paths = self.paths(crate, spot)
        if len(paths) != 1:
            return Verdict(UNDECIDED, "the log doesn't tell of its function")
        path = paths[0]
        folder = f"proofs/{path.split('::', 1)[1].replace('::', '/')}/"
        for what, found in ((GOAL, self.goals(folder, path)), (SHAPE, self.gone(folder))):
            if found:
                return Verdict(what, found[0])
        if self.told[path].startswith("proved"):
            return Verdict(THROUGH, f"{path} is proved")
        return Verdict(UNDECIDED, self.told[path])

    def of_all(self) -> Verdict:
        """What came of an edit that was tried alone."""
        if self.status == 0:
            return Verdict(THROUGH, "the crate is proved")
        unread = self.gone("src/") + self.gone("specs/")
        if unread:
            return Verdict(SHAPE, unread[0])
        if self.status != 1 or not self.lines[-1].startswith("logic="):
            return Verdict(UNDECIDED, f"status {self.status}: {self.lines[-1]}")
        goals = [what for _, _, what in self.open_goals] + self.goals("")
        if goals:
            return Verdict(GOAL, goals[0])
        gone = self.gone("proofs/")
        return Verdict(SHAPE, gone[0]) if gone else Verdict(UNDECIDED, "no goal is told")

    def reachable(self, path: str) -> Set[str]:
        """The functions that aren't proved for which one may wait, over others."""
        found, waiting = set(), [path]
        while waiting:
            now = waiting.pop()
            said = self.told.get(now, "") + self.waits.get(now, "")
            for name in re.findall(r"`([\w:+]+)`", said):
                name = name if "::" in name else f"{now}::{name}"
                if name not in found:
                    found.add(name)
                    waiting.append(name)
        return found


def is_unread(path: str, what: str) -> bool:
    """Whether an error says that a text can't be read, or names what is gone, and not that a goal
    isn't proved."""
    return bool(GONE.search(what)) or not path.startswith("proofs/") and not what.startswith(": `")


def worst(verdicts: List[Verdict]) -> Verdict:
    """What came of an edit of several functions: a goal of any of them is one of the edit."""
    order = [GOAL, SHAPE, UNDECIDED, THROUGH]
    return min(verdicts, key=lambda it: order.index(it.what))
