"""The functions of a Rattle file, found by its layout."""
import dataclasses
import re
from typing import Dict, List, Optional, Tuple

FUNCTION = re.compile(r'( *)(?:pub(?:\([a-z]+\))? )?(?:const )?(?:extern "C" )?fn (\w+)')
OWNER = re.compile(r"(?:pub(?:\([a-z]+\))? )?(?:impl|trait)\b")
Key = Tuple[str, str, int]


@dataclasses.dataclass(frozen=True)
class Function:
    """Where a function stands: its lines, from 0, and who owns it."""

    owner: str  # the line of its `impl` or `trait`, empty for none
    name: str
    first: int  # that of its comment or attributes, where it has any
    head: int
    body: int  # the line that opens its body
    last: int

    @property
    def owner_words(self) -> Tuple[str, str]:
        """The type and the trait of its owner, empty where there is none."""
        bare = self.owner
        while re.search(r"<[^<>]*>", bare):
            bare = re.sub(r"<[^<>]*>", "", bare)
        bare = re.sub(r"^(?:pub(?:\([a-z]+\))? )?(?:impl|trait)\b|\{.*|\bwhere\b.*", "", bare)
        trait, is_of_trait, kind = bare.partition(" for ")
        last = [(re.findall(r"\w+", part.split(":")[0]) or [""])[-1] for part in (kind, trait)]
        return (last[0], last[1]) if is_of_trait else (last[1], "")


def ends(lines: List[str], head: int, indent: str) -> Optional[Tuple[int, int]]:
    """The lines that open and close the body of the function that begins at a line."""
    for at in range(head, len(lines)):
        line = lines[at]
        if not line.strip() or at > head and line.startswith(indent + "}"):
            return None
        if not line.startswith(indent + " ") and line.endswith("{"):
            return next(
                ((at, end) for end in range(at + 1, len(lines)) if lines[end] == indent + "}"),
                None,
            )
        if not line.startswith(indent + " ") and line.endswith(("{}", ";")):
            return None
    return None


def functions(text: str) -> Dict[Key, Function]:
    """The functions with a body, in their order."""
    lines, owner, at = text.split("\n"), "", 0
    found: Dict[Key, Function] = {}
    while at < len(lines):
        line = lines[at]
        if OWNER.match(line):
            owner = line
        elif line == "}":
            owner = ""
        begins = FUNCTION.match(line)
        where = ends(lines, at, begins[1]) if begins else None
        if begins and where:
            of = owner if begins[1] else ""
            count = sum(key[:2] == (of, begins[2]) for key in found)
            first = at
            while lines[first - 1].strip().startswith(("///", "#[")):
                first -= 1
            found[of, begins[2], count] = Function(of, begins[2], first, at, *where)
            at = where[1]
        at += 1
    return found


def bodies(text: str) -> Tuple[Dict[Key, str], str]:
    """The text of each function's body, and all that stands outside of bodies."""
    lines, done = text.split("\n"), 0
    inside: Dict[Key, str] = {}
    outside: List[str] = []
    for key, function in functions(text).items():
        outside += lines[done : function.body + 1]
        inside[key] = "\n".join(lines[function.body + 1 : function.last])
        done = function.last
    return inside, "\n".join(outside + lines[done:])


def with_bodies(text: str, changed: Dict[Key, str]) -> str:
    """The text with other bodies of some functions."""
    lines = text.split("\n")
    for key, function in reversed(list(functions(text).items())):
        if key in changed:
            lines[function.body + 1 : function.last] = changed[key].split("\n")
    return "\n".join(lines)


def calls(body: str, function: Function) -> bool:
    """Whether a body names a function as if it called it. A path that begins with another type is
    no call of it."""
    code = re.sub(r"//[^\n]*", "", body)
    kind = function.owner_words[0]
    for before in re.findall(rf"(\w+(?:::<[^<>]*>)?::)?\b{function.name}\b(?:::<[^()]*>)?\(", code):
        word = before.split("::")[0]
        is_type = word[:1].isupper() and len(word) > 1
        if not is_type or word in ("Self", kind):
            return True
    return False
