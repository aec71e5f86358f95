"""The commands that documents show: whether they run as written, and whether what they name exists.

The tag of a fenced block says how it runs, in a folder that looks like the repository:

    sh        bash runs the block; a later block has the variables that it exports
    console   bash runs each line after "$ "; the lines below must be its output, where ".." stands
              for any text, and a line ".." for any lines
    pycon     doctest runs the session
    text      nothing runs it

Words after the tag say more. `file=NAME` saves the block, of any language, as a file for later
blocks. `needs=TOOL,..` skips the block if a command is missing, or the library (`libmcf`), or a
package of Python (`python.NAME`). `status=N` is the exit status that a block of `sh` must end with.
`not-run` marks commands that don't run here; NOT_RUN has the reasons.

In a manual page, the examples that begin with "$ " are blocks of `console`, in a folder that also
has the instances of examples/. A file that they show by `cat`, and that doesn't exist, is made.
"""
import contextlib
import os
import pathlib
import re
import shutil
import subprocess
import tempfile
from typing import Dict, Iterator, List, NamedTuple, Optional, Tuple

TOP = pathlib.Path(__file__).resolve().parent.parent
# The pages whose blocks run.
PAGES = (
    "README.md",
    "docs/AUDIT.md",
    "docs/LIBRARY.md",
    "docs/MANY.md",
    "docs/PAGE.md",
    "examples/README.md",
    "examples/plans/README.md",
    "man/mcf.1",
    "man/mcf_explain.1",
    "man/mcf_plan.1",
    "man/mcfcheck.1",
)
# Those that run in the repository itself, because they build something.
IN_REPOSITORY = ("docs/PAGE.md",)
RUNS, SAVED = ("sh", "console", "pycon"), ("c", "cpp", "python", "rust", "sh", "toml", "snakemake")
# The blocks of commands that don't run here, by their page and how they begin.
NOT_RUN = {
    ("README.md", "make"): "it takes twenty minutes; .ci/run runs it, and install_test.sh installs",
    ("docs/LIBRARY.md", "sudo apt install"): "scripts/dist_test.sh installs each package",
    ("docs/MANY.md", "parallel --sshlogin one,two,:"): "it needs two other machines",
    ("docs/PAGE.md", "python3 -m http.server -d bin"): "the server runs until it is stopped",
}
# The most seconds of a command, and of one that builds.
SECONDS, BUILDING = 100, 3600
# The characters that manual pages escape.
ROFF = {"-": "-", "\\": "\\", "(rs": "\\", "(aq": "'"}


class Block(NamedTuple):
    """A fenced block: where it stands, its tag, the words after the tag, and its text."""

    page: str
    line: int
    tag: str
    words: Dict[str, str]
    text: str

    @property
    def place(self) -> str:
        return f"{self.page}:{self.line}"

    @property
    def is_not_run(self) -> bool:
        return "not-run" in self.words

    def begins(self, page: str, text: str) -> bool:
        return self.page == page and self.text.startswith(text)


class Outcome(NamedTuple):
    """What became of a block: `skipped` and `failed` say why, or are empty."""

    block: Block
    skipped: str = ""
    failed: str = ""


def is_manual(page: str) -> bool:
    return page.endswith(".1")


def examples(page: str) -> List[Block]:
    """The examples of a manual page that begin with a command."""
    text = (TOP / page).read_text(encoding="utf-8")
    found = []
    for match in re.finditer(r"(?ms)^\.nf\n(\$ .*?)^\.fi$", text):
        shown = re.sub(r"\\(-|\\|\(rs|\(aq)", lambda escape: ROFF[escape[1]], match[1])
        found.append(Block(page, text.count("\n", 0, match.start()) + 1, "console", {}, shown))
    return found


def blocks(page: str) -> List[Block]:
    """The fenced blocks of a page, or the examples of a manual page."""
    if is_manual(page):
        return examples(page)
    found: List[Block] = []
    head, first, body = None, 0, [""]
    for number, line in enumerate((TOP / page).read_text(encoding="utf-8").splitlines(), 1):
        if head is None and line.startswith("```"):
            head, first, body = line[3:].split(), number, []
        elif head is not None and line == "```":
            words = dict(word.partition("=")[::2] for word in head[1:])
            found.append(Block(page, first, (head or [""])[0], words, "\n".join(body) + "\n"))
            head = None
        elif head is not None:
            body.append(line)
    return found


# ---- running


def has_module(name: str) -> bool:
    return subprocess.run(["python3", "-c", f"import {name}"], capture_output=True).returncode == 0


def lacking(block: Block, folder: pathlib.Path) -> str:
    """Which of the things that a block needs is missing, as a reason, or an empty text."""
    for name in filter(None, block.words.get("needs", "").split(",")):
        kind, _, package = name.partition(".")
        if name == "libmcf":
            there, why = (folder / "bin" / "libmcf.so").exists(), "the library isn't built"
        elif kind == "python" and package:
            there, why = has_module(package), f"python3 has no {package}"
        else:
            there, why = shutil.which(name) is not None, f"there is no {name}"
        if not there:
            return f"{block.page}, line {block.line}: {why}"
    return ""


class Place(NamedTuple):
    """Where the blocks of a page run, and a folder for what must not lie there."""

    folder: pathlib.Path
    scratch: pathlib.Path


def fill(folder: pathlib.Path) -> None:
    """Makes a folder that looks like the repository: links to its folders, and a bin/ of its own
    with links to what is built. MCF_BIN names another folder of programs."""
    (folder / "bin").mkdir(parents=True)
    programs = pathlib.Path(os.environ.get("MCF_BIN", TOP / "bin"))
    libraries = ("mcf.h", "libmcf.a", "libmcf.so", "libmcf.so.1")
    built = [programs / name for name in ("mcf", "mcfcheck", "mcfplan")]
    for path in built + [TOP / "bin" / name for name in libraries]:
        if path.exists():
            (folder / "bin" / path.name).symlink_to(path.resolve())
    for name in ("examples", "library", "python", "tools"):
        (folder / name).symlink_to(TOP / name)


def install(scratch: pathlib.Path) -> None:
    """Puts programs and tools on the path, and the instances of examples/ into the folder."""
    (scratch / "exported").write_text('export PATH="$PWD/bin:$PWD/tools:$PATH"\n')
    for instance in (TOP / "examples").glob("*.min"):
        (scratch / "repository" / instance.name).symlink_to(instance)


@contextlib.contextmanager
def place_of(page: str) -> Iterator[Place]:
    """Where the blocks of a page run: a temporary folder, or the repository."""
    with tempfile.TemporaryDirectory() as name:
        scratch = pathlib.Path(name)
        if page in IN_REPOSITORY:
            yield Place(TOP, scratch)
        else:
            fill(scratch / "repository")
            if is_manual(page):
                install(scratch)
            yield Place(scratch / "repository", scratch)


def bash(command: str, place: Place, *options: str) -> "subprocess.CompletedProcess[str]":
    """Runs a command by bash, with the variables that earlier commands of the page exported."""
    state = place.scratch / "exported"
    kept = {k: v for k, v in os.environ.items() if k not in ("MCF_LIBRARY", "MCF_LOG")}
    # The tools look for the programs beside their own files, not beside the links to them.
    kept["MCF_BIN"] = str(place.folder / "bin")
    script = f'[ ! -f "{state}" ] || . "{state}"; trap \'export -p > "{state}"\' EXIT\n{command}'
    return subprocess.run(
        ["bash", *options, "-c", script],
        cwd=place.folder,
        env=kept,
        stdin=subprocess.DEVNULL,
        capture_output=True,
        text=True,
        timeout=BUILDING if place.folder == TOP else SECONDS,
    )


def pattern(shown: str) -> str:
    """The regular expression of an output that a page shows."""
    lines = []
    for line in shown.splitlines(True):
        if line == "..\n":
            lines.append(r"(?:.*\n)*")
        else:
            lines.append(re.escape(line).replace(re.escape(".."), ".*"))
    return "".join(lines)


def sessions(text: str) -> Iterator[Tuple[str, str]]:
    """The commands of a block of `console`, each with the output below it."""
    for part in re.split(r"(?m)^\$ ", text)[1:]:
        command, _, shown = part.partition("\n")
        yield command, shown


def console_failure(block: Block, place: Place) -> str:
    """Runs the commands of a block of `console`, and returns the first difference, or an empty
    text."""
    for command, shown in sessions(block.text):
        file = place.folder / command[len("cat ") :]
        is_made = is_manual(block.page) and re.fullmatch(r"cat [\w.]+", command)
        if is_made and not file.exists():
            file.write_text(shown, encoding="utf-8")
        done = bash(command, place)
        printed = done.stdout + done.stderr
        if not re.fullmatch(pattern(shown), printed):
            return f"`{command}` prints\n{printed}and the page shows\n{shown}"
    return ""


def failure(block: Block, place: Place) -> str:
    """Runs a block, and returns what was wrong, or an empty text."""
    if block.tag == "console":
        return console_failure(block, place)
    command = block.text
    if block.tag == "pycon":
        session = place.scratch / "session.txt"
        session.write_text(block.text, encoding="utf-8")
        command = f'python3 -m doctest "{session}"'
    done = bash(command, place, "-e", "-o", "pipefail")
    if done.returncode == int(block.words.get("status", 0)):
        return ""
    return f"ends with status {done.returncode}:\n{command}{done.stdout}{done.stderr}"


def outcome(block: Block, place: Place) -> Optional[Outcome]:
    """Saves or runs a block; None if it is a text or isn't run."""
    if block.is_not_run or (block.tag not in RUNS and "file" not in block.words):
        return None
    why = lacking(block, place.folder)
    if why:
        return Outcome(block, skipped=why)
    if "file" in block.words:
        path = place.folder / block.words["file"]
        path.parent.mkdir(parents=True, exist_ok=True)
        path.write_text(block.text, encoding="utf-8")
        path.chmod(0o755 if block.text.startswith("#!") else 0o644)
        return Outcome(block)
    try:
        return Outcome(block, failed=failure(block, place))
    except subprocess.TimeoutExpired:
        return Outcome(block, failed=f"takes too long:\n{block.text}")


def run(page: str) -> Iterator[Outcome]:
    """Runs the blocks of a page in order."""
    with place_of(page) as place:
        for block in blocks(page):
            done = outcome(block, place)
            if done:
                yield done


def run_all(pages: List[str]) -> int:
    """Runs pages, and prints what was skipped and what failed; the number of failures."""
    ran = failed = 0
    for page in pages:
        for done in run(page):
            if done.skipped:
                print(f"documents: skipped: {done.skipped}")
            elif done.failed:
                print(f"documents: {done.block.place}: {done.failed}")
            failed += bool(done.failed)
            ran += not done.skipped
    print(f"documents: {ran} blocks run, {failed} failed")
    return failed


# ---- what must hold of the text of pages


def block_faults(page: str) -> Iterator[str]:
    """The faults of the blocks of a page that runs, as texts."""
    found = blocks(page)
    text = (TOP / page).read_text(encoding="utf-8")
    for number, line in enumerate(re.sub(r"(?ms)^```.*?^```$", blank, text).splitlines(), 1):
        if line.startswith("    "):
            yield f"{page}:{number}: a block without a fence"
    for at, block in enumerate(found):
        later = "".join(other.text for other in found[at + 1 :] if other.tag in RUNS)
        # A command names a file, its folder, or the program that looks for it.
        name = re.sub(r"(?s)[/.].*|file$", "", block.words.get("file", "")).lower()
        if block.is_not_run:
            if not any(block.begins(*key) for key in NOT_RUN):
                yield f"{block.place}: not-run, and NOT_RUN of scripts/commands.py has no reason"
        elif "file" in block.words:
            if block.tag not in SAVED or name not in later:
                yield f"{block.place}: no later block runs {block.words['file']}"
        elif block.tag not in (*RUNS, "text"):
            yield f"{block.place}: the tag `{block.tag}` doesn't say how the block runs"
        elif block.tag == "console" and not block.text.startswith("$ "):
            yield f"{block.place}: the first line is no command"
        elif block.tag == "text" and re.search(r"(?m)^(\$ |bin/|tools/|make\b)", block.text):
            yield f"{block.place}: a text that has a command"


def blank(match: "re.Match[str]") -> str:
    """As many empty lines as the match has."""
    return "\n" * match[0].count("\n")


def options_of(path: pathlib.Path) -> str:
    """The texts in which the options of a program or script stand. `mcf_one` passes those of
    `mcf`."""
    names = (path.name, "mcf") if path.name == "mcf_one" else (path.name,)
    manuals = [TOP / "man" / f"{name}.1" for name in names]
    sources = manuals if manuals[0].exists() else [path]
    return "".join(source.read_text(encoding="utf-8") for source in sources).replace("\\-", "-")


def script_fault(words: List[str]) -> str:
    """What a command line names that its script, program or tool doesn't have."""
    name = words[0]
    path = TOP / "tools" / name if name.startswith("mcf") else TOP / name
    if name.startswith("bin/") or name in ("mcf", "mcfcheck"):
        path = TOP / "man" / (path.name + ".1")
    if not path.exists():
        return f"there is no {name}"
    if not path.is_file():
        return ""
    text = options_of(path.with_suffix("") if path.suffix == ".1" else path)
    for word in words[1:]:
        option = re.match(r"--[a-z][a-z-]*", word)
        is_verb = path.suffix == ".py" and re.fullmatch("[a-z]+", word)
        if (option or is_verb) and (option[0] if option else word) not in text:
            return f"{name} has no {word}"
    return ""


def command_fault(command: str) -> str:
    """What a command line names that doesn't exist, or an empty text."""
    words = command.split()
    while words and (words[0] in ("sudo", "env", "python3", "$") or re.match(r"\w+=", words[0])):
        words = words[1:]
    if not words:
        return ""
    if words[0] == "make":
        targets = set(re.findall(r"(?m)^([a-z-]+):", (TOP / "Makefile").read_text()))
        wanted = [word for word in words[1:] if re.fullmatch("[a-z][a-z-]*", word)]
        gone = [word for word in wanted if word not in targets]
        return f"make has no target {gone[0]}" if gone else ""
    folders = "scripts|bench|page|tools|python|library|examples|completion|packaging|man|docs"
    is_named = re.match(rf"((?:{folders})/|\.ci/|bin/mcf(check)?$|mcf(check|_\w+)?$)", words[0])
    if not is_named or re.search(r"[*{<]|[A-Z]{3}|\.\.|^mcf_(?!plan$|explain$|one$)", words[0]):
        return ""
    # Words that aren't a command, such as "python/mcf_plan and" of a span, name a path alone.
    return script_fault(words)


def spans(page: str) -> Iterator[Tuple[int, str]]:
    """The code spans of a page, and the command lines of its blocks, by line."""
    text = (TOP / page).read_text(encoding="utf-8")
    bare = re.sub(r"(?ms)^```.*?^```$", blank, text)
    for match in re.finditer(r"`([^`]+)`", bare):
        yield bare.count("\n", 0, match.start()) + 1, match[1]
    for block in blocks(page):
        for number, line in enumerate(block.text.splitlines(), block.line + 1):
            if block.tag == "sh" or line.startswith("$ "):
                for part in re.split(r"[|;&]+", line):
                    yield number, part


def link_faults(page: str) -> Iterator[str]:
    """The relative links of a page whose file or heading doesn't exist."""
    text = (TOP / page).read_text(encoding="utf-8")
    for path, heading in re.findall(r"\]\((?!https?:)([^)#\s]*)(?:#([^)\s]*))?\)", text):
        target = (TOP / page).parent / path if path else TOP / page
        if not target.exists():
            yield f"{page}: the link to {path} leads nowhere"
        elif heading and heading not in headings(target):
            yield f"{page}: {path} has no heading {heading}"


def headings(path: pathlib.Path) -> List[str]:
    """The anchors of a page: those of its headings, and those that HTML names."""
    text = path.read_text(encoding="utf-8")
    titles = re.findall(r"(?m)^#+ (.*)$", text)
    anchors = [re.sub(r"[^\w -]", "", title.lower()).replace(" ", "-") for title in titles]
    return anchors + re.findall(r'<a id="([^"]*)">', text)


def faults(generated: List[str]) -> Iterator[str]:
    """The faults of all handwritten pages, as texts."""
    pages = [str(path.relative_to(TOP)) for path in TOP.glob("*.md")]
    pages += [str(path.relative_to(TOP)) for path in TOP.glob("docs/*.md")]
    pages += [page for page in PAGES if page not in pages and not is_manual(page)]
    for page in sorted(set(pages) - set(generated)):
        for line, span in spans(page):
            why = command_fault(span.strip())
            if why:
                yield f"{page}:{line}: `{span.strip()}`: {why}"
        yield from link_faults(page)
    for page in PAGES:
        yield from () if is_manual(page) else block_faults(page)
    shown = [block for page in PAGES for block in blocks(page) if block.is_not_run]
    for key in NOT_RUN:
        if not any(block.begins(*key) for block in shown):
            yield f"{key[0]} has no block that begins with `{key[1]}`, which NOT_RUN names"
