"""Edits put into groups, each of which one check can judge."""
import pathlib
from typing import Dict, List, Tuple

from edits import source
from edits.edit import Edit

File = Tuple[Dict[source.Key, source.Function], Dict[source.Key, str]]


class Calls:
    """Which edited functions of a crate may call one another, by their texts."""

    def __init__(self, folder: pathlib.Path):
        self.folder = folder
        self.known: Dict[str, File] = {}

    def file(self, path: str) -> File:
        """The functions of a file, and their bodies."""
        if path not in self.known:
            text = (self.folder / path).read_text()
            self.known[path] = source.functions(text), source.bodies(text)[0]
        return self.known[path]

    def calls(self, one: Edit, other: Edit) -> bool:
        """Whether a function that one edits, before or after, names one that the other edits."""
        for (path, key), after in one.places.items():
            before = self.file(path)[1][key]
            for theirs, their_key in other.places:
                if source.calls(before + "\n" + after, self.file(theirs)[0][their_key]):
                    return True
        return False

    def are_apart(self, one: Edit, other: Edit) -> bool:
        """Whether one check can judge both."""
        if one.is_alone or other.is_alone:
            return False
        if one.name in other.avoids or other.name in one.avoids:
            return False
        if one.places.keys() & other.places.keys():
            return False
        return not self.calls(one, other) and not self.calls(other, one)


def grouped(edits: List[Edit], calls: Calls, most: int) -> List[List[Edit]]:
    """Groups of at most so many edits, each edit in the first where it may be."""
    groups: List[List[Edit]] = []
    for edit in edits:
        for group in groups:
            if len(group) < most and all(calls.are_apart(edit, other) for other in group):
                group.append(edit)
                break
        else:
            groups.append([edit])
    return groups


def texts(group: List[Edit], folder: pathlib.Path) -> Dict[str, str]:
    """The files of a crate with all edits of a group."""
    if len(group) == 1:
        return dict(group[0].texts)
    changed: Dict[str, Dict[source.Key, str]] = {}
    for edit in group:
        for (path, key), body in edit.places.items():
            changed.setdefault(path, {})[key] = body
    return {
        path: source.with_bodies((folder / path).read_text(), new) for path, new in changed.items()
    }
