#!/usr/bin/env python3
"""Generates documents from the code and the spec files.

    scripts/documents.py write     writes DEFINITIONS, CONTRACTS, HEADLINE, CHOSEN, RUNS, MADE,
                                   PLANS and TABLES in docs/
    scripts/documents.py check     lists those that differ from what `write` would write, public
                                   names without a comment, pages that are too long, commands and
                                   links of pages that lead nowhere, and blocks that don't say how
                                   they run (scripts/commands.py); status 1 if there is one
    scripts/documents.py run [PAGE ..]
                                   runs the blocks of these pages, or of all pages that run

scripts/headline.md, chosen.md, runs.md, made.md, plans.md and tables.md have the handwritten parts
of the last six; a line there that begins with `@` is a placeholder for a generated part.
"""
import collections
import pathlib
import re
import sys
import textwrap

import commands

TOP = pathlib.Path(__file__).resolve().parent.parent
CRATES = TOP / "crates"
DOCS = TOP / "docs"
WORD = r"[A-Za-z_][A-Za-z0-9_'-]*"


def fence(language, text):
    return f"```{language}\n{text.rstrip()}\n```\n"


def wrapped(text):
    """Paragraphs in lines of at most 100 characters; a list or a block stays as it is."""

    def filled(paragraph):
        is_prose = not re.match(r"```|- |\d\. |\||#", paragraph)
        return (
            textwrap.fill(paragraph, 100, break_long_words=False, break_on_hyphens=False)
            if is_prose
            else paragraph
        )

    return "\n\n".join(map(filled, re.split(r"\n\n+", text.strip())))


def words(text):
    """The names in a text, each once, in order of appearance."""
    return list(dict.fromkeys(re.findall(WORD, text)))


# ---- spec files

NAME = rf"(?:{WORD}|◌\S+◌)"
SIGNATURE = re.compile(rf"(?:(?:abbrev|unfoldable|pub|record|data)\s+)*({NAME})\s*(?:[:({{]|$)")
USE = re.compile(r"^(?:pub )?use Rattle\.(\w+)\.specs\.([\w.]+?)\.\{(.*)\}$")

Definition = collections.namedtuple("Definition", "crate module name note source text is_private")
Module = collections.namedtuple("Module", "crate name note imports is_private")


def parted(comment):
    """A comment without its source line, and the source that it names, if any."""
    sources = [line.removeprefix("Source: ") for line in comment if line.startswith("Source: ")]
    return (
        " ".join(line for line in comment if line and not line.startswith("Source: ")),
        (sources or [""])[-1],
    )


def split_file(crate, path):
    """A spec file as a module and its definitions in order. A line `-- Source: ..` names the source
    of a definition; the one at the head applies to each definition without its own."""
    is_private = path.parent.name == "Private"
    found, imports, head, comment, name, body = [], {}, None, [], None, []

    def close():
        nonlocal name, body, comment
        if name:
            note, source = parted(comment)
            text = "\n".join(body).rstrip()
            found.append(
                Definition(crate, path.stem, name, note, source or head[1], text, is_private)
            )
            comment = []
        name, body = None, []

    for line in path.read_text().splitlines():
        use = USE.match(line)
        if use:
            for part in use[3].split(","):
                was, _, now = part.strip().partition(" as ")
                imports[now.strip() or was] = (use[1], use[2], was)
        if head is None and not line.startswith("--"):
            head, comment = parted(comment), []
        elif line.startswith("--"):
            close()
            comment.append(line.lstrip("- ").strip())
        elif not line.strip():
            close()
            comment = []
        elif line[0].isspace():
            body.append(line)
        elif not line.startswith(("use ", "pub use ", "infix")):
            is_new = SIGNATURE.match(line)
            if (
                is_new
                and is_new[1] != name
                and re.match(rf"(abbrev|unfoldable|pub|record|data)\b|{WORD} :", line)
            ):
                close()
                name = is_new[1]
            body.append(line)
    close()
    return Module(crate, path.stem, head[0], imports, is_private), found


def crates():
    """The crates that have definitions, in the order of crates.txt."""
    listed = (
        line.split(":")[0].split()[0]
        for line in (TOP / "crates.txt").read_text().splitlines()
        if ":" in line
    )
    return [name for name in listed if (CRATES / name / "specs").is_dir()]


def spec_files(crate):
    """The spec files of a crate that have definitions, public ones first."""
    files = (
        path
        for path in (CRATES / crate / "specs").glob("**/*.antt")
        if path.stem not in ("Lib", "Private")
    )
    return sorted(files, key=lambda path: (path.parent.name == "Private", path.stem))


def read_specs():
    """All definitions by crate, module and name, and the modules by crate and name."""
    definitions, modules = {}, {}
    for crate in crates():
        for path in spec_files(crate):
            module, found = split_file(crate, path)
            modules[crate, path.stem] = module
            definitions.update({(crate, path.stem, d.name): d for d in found})
    return definitions, modules


# ---- source files

Item = collections.namedtuple("Item", "owner name trait note text has_clauses is_public")
IMPL = re.compile(r"(?:pub )?(impl|trait)(?:<[^{]*?>)? (?:([\w:<>, ']+) for )?(\w+)")


def end_of(lines, first, indent):
    """The line after the head of a function, and the part of that line which belongs to the head.
    The head ends at a line with only a brace, at a brace that ends its line, or at a semicolon."""
    for place in range(first, len(lines)):
        line = lines[place]
        if line in (indent + "{", indent + "{}"):
            return place, []
        if line.endswith(" {") and (place == first or line.startswith(indent + ")")):
            return place, [line.removesuffix(" {")]
        if line.endswith(";"):
            return place, [line.removesuffix(";")]
    sys.exit(f"a function without an end: {lines[first]}")


def seen_of(lines):
    """The text of a type that callers see: all of it for an enum or a type with only public fields,
    and otherwise nothing."""
    fields = [line.strip() for line in lines[1:-1] if not line.strip().startswith(("//", "#["))]
    is_open = (
        lines[0].startswith(("pub enum", "pub type"))
        or fields
        and all(f.startswith("pub ") for f in fields)
    )
    return "\n".join(lines) if is_open else ""


def items_of(path):
    """The items of a source file in order: functions, methods and types, each with its comment and
    its text."""
    lines = path.read_text().splitlines()
    found, note, owner, trait, kind = [], [], None, None, None
    place = 0
    while place < len(lines):
        line = lines[place]
        text = line.strip()
        indent = line[: len(line) - len(text)] if text else ""
        is_fact = text.startswith("ghost ") and not text.startswith("ghost use")
        if text.startswith("///") or kind == "trait" and text.startswith("// "):
            note.append(text.lstrip("/").removeprefix(" "))
        elif indent == "" and IMPL.match(text) and text.endswith("{"):
            kind, trait, owner = IMPL.match(text).groups()
            if kind == "trait":
                found.append(Item(None, owner, None, note, "", False, text.startswith("pub ")))
            note = []
        elif line == "}":
            owner, trait, kind, note = None, None, None, []
        elif re.match(r'(pub )?(extern "C" )?fn \w', text) and len(indent) == (4 if owner else 0):
            last, tail = end_of(lines, place, indent)
            head = [part[len(indent) :] for part in lines[place:last] + tail]
            has_clauses = any(re.match(r"\s+(requires|ensures)\b", part) for part in head)
            is_public = (
                text.startswith("pub ") or kind == "trait" or trait is not None and has_clauses
            )
            name = re.search(r"fn (\w+)", text)[1]
            found.append(Item(owner, name, trait, note, "\n".join(head), has_clauses, is_public))
            place, note = last, []
        elif owner and is_fact and (trait != "Model" or text.startswith("ghost Value")):
            last = next(i for i in range(place, len(lines)) if lines[i].endswith(";"))
            body = "\n".join(part[len(indent) :] for part in lines[place : last + 1])
            found.append(Item(owner, None, trait or kind, note, body, True, True))
            place, note = last, []
        elif indent == "" and re.match(r"pub (struct|enum|type|const) \w", text):
            ends = (
                i
                for i in range(place, len(lines))
                if lines[i].endswith(("}", ";")) and lines[i][0] != " "
            )
            last = next(ends)
            name = re.match(r"pub \w+ (\w+)", text)[1]
            found.append(
                Item(None, name, None, note, seen_of(lines[place : last + 1]), False, True)
            )
            place, note = last, []
        elif not text.startswith("#["):
            note = []
        place += 1
    return found


def exported(crate):
    """The names of its own that a crate exports, in the order of its lib.rt, and the comment at the
    head of that file."""
    text = (CRATES / crate / "src" / "lib.rt").read_text()
    heads = (
        line.removeprefix("//!").removeprefix(" ")
        for line in text.splitlines()
        if line.startswith("//!")
    )
    names = []
    for path, group in re.findall(r"^pub use ([\w:]+?)(?:::\{([^}]*)\})?;", text, re.M | re.S):
        if not path.startswith("mcf_"):
            names += re.findall(r"\w+", group) if group else [path.split("::")[-1]]
    # The exports of a static library to C are in its modules.
    for path in sorted((CRATES / crate / "src").glob("*.rt")):
        names += (
            re.findall(
                (
                    r"^#\[(?:repr\(C\)\]\n#\[derive.*\]\npub struct|unsafe\(no_mangle\)\]\npub"
                    r" extern \"C\" fn) (\w+)"
                ),
                path.read_text(),
                re.M,
            )
            if is_static(crate)
            else []
        )
    return "\n".join(heads), names + re.findall(r"^pub (?:struct|enum|fn) (\w+)", text, re.M)


def is_static(crate):
    """Whether a crate is a static library for C."""
    return re.search(rf"^{crate} staticlib:", (TOP / "crates.txt").read_text(), re.M) is not None


def libraries():
    """The crates that have definitions and public calls."""
    return [crate for crate in crates() if (CRATES / crate / "src" / "lib.rt").exists()]


def public_items(crate):
    """The public items in the files of a crate, in order."""
    files = sorted((CRATES / crate / "src").glob("**/*.rt"))
    return [item for path in files for item in items_of(path) if item.is_public]


# ---- docs/DEFINITIONS.md

DEFINITIONS_HEAD = """# Definitions

Made by `scripts/documents.py write` from the comments of the spec files, `crates/*/specs/*.antt`.
Don't edit it by hand.

Nodes, arcs and lines count from 1. Numbers are whole and have no bound. The *source* is where a
reader finds the notion: AMO is Ahuja, Magnanti and Orlin, *Network Flows* (1993), by section; CLRS
is Cormen, Leiserson, Rivest and Stein, *Introduction to Algorithms*; Knuth is *The Art of Computer
Programming*; DIMACS is the text format of the First DIMACS Implementation Challenge; "textbook" is
what each textbook has; "own" is a choice of this project, and [DECISIONS.md](DECISIONS.md) has its
reason. A module in `specs/Private/` says what a loop or a private type keeps; no public clause
cites it, and it names no source.
"""


def row(*cells):
    return "| " + " | ".join(cell.replace("|", "\\|") for cell in cells) + " |"


def definitions_page():
    """Each definition in words, with its source."""
    definitions, modules = read_specs()
    parts = [DEFINITIONS_HEAD]
    for crate in dict.fromkeys(module.crate for module in modules.values()):
        parts.append(f"## {crate}\n")
        for module in (m for m in modules.values() if m.crate == crate):
            here = [d for d in definitions.values() if (d.crate, d.module) == (crate, module.name)]
            columns = 3 if any(d.source for d in here) else 2
            table = [("Name", "In words", "Source"), ("---",) * 3] + [
                (f"`{d.name}`", d.note, d.source) for d in here
            ]
            title = f"{'Private.' if module.is_private else ''}{module.name}"
            parts.append(f"### {title}\n\n{wrapped(module.note)}\n")
            parts.append("\n".join(row(*cells[:columns]) for cells in table) + "\n")
    return "\n".join(parts)


# ---- docs/CONTRACTS.md

BY_HAND = "## What is only tested"
CONTRACTS_HEAD = """# Contracts

Made by `scripts/documents.py write` from the comments and the clauses of the public functions. What
is under the last heading is written by hand, and kept. Don't edit the rest by hand.

What stands in a clause is proved: `requires` is what a caller must know, `ensures` what holds at
the end. Each function is also proved safe (no index out of range, no sum that wraps, no cast that
loses bits) and to return. The names in clauses are told in [DEFINITIONS.md](DEFINITIONS.md), and
the symbols in [HEADLINE.md](HEADLINE.md). Crates that only test or measure aren't here.
"""


def said(note):
    """A comment of the code as paragraphs of a page, with its headings in bold."""
    return (
        wrapped("\n".join(re.sub(r"^#+ (.*)", r"**\1.**\n", line) for line in note)) + "\n"
        if note
        else ""
    )


def facts_of(items):
    """The facts of each trait of a type, or of the trait itself."""
    for trait in dict.fromkeys(item.trait for item in items if item.name is None):
        facts = [item for item in items if item.name is None and item.trait == trait]
        text = "\n".join(
            "".join(f"// {line}\n" for line in item.note) + item.text for item in facts
        )
        yield ("" if trait in ("trait", "Model") else f"As `{trait}`:\n\n") + fence("rust", text)


def contracts_of(crate):
    """A crate's public items, each with its comment and its clauses."""
    head, names = exported(crate)
    items = public_items(crate)
    yield f"## {crate}\n\n{wrapped(head)}\n"
    for name in names:
        methods = [item for item in items if item.owner == name]
        yield f"### `{name}`\n"
        for item in [item for item in items if item.owner is None and item.name == name][:1]:
            yield from filter(
                None, [said(item.note), fence("rust", item.text) if item.text else ""]
            )
        yield from facts_of(methods)
        for item in methods:
            if item.name:
                yield f"#### `{name}::{item.name}`" + (
                    f", of `{item.trait}`" if item.trait else ""
                ) + "\n"
                yield from filter(None, [said(item.note), fence("rust", item.text)])


def contracts_page():
    """The page with the comment and the proved clauses of each public function. The page's
    handwritten part on what is only tested stays."""
    text = (DOCS / "CONTRACTS.md").read_text()
    made = "\n".join(part for crate in libraries() for part in contracts_of(crate))
    return CONTRACTS_HEAD + "\n" + made + "\n" + text[text.index(BY_HAND) :]


# ---- docs/HEADLINE.md and the pages after it

Part = collections.namedtuple("Part", "clauses names")

# The functions whose contracts are the theorem.
FUNCTIONS = {
    "solve_text": ("mcf_solver", "solving.rt"),
    "check": ("mcf_checker", "checking.rt"),
    "run": ("mcf_solver", "running.rt"),
    "serve": ("mcf_suite", "serving.rt"),
    "judge": ("mcf_checker", "command.rt"),
    "plan_tables": ("mcf_flow_tables", "flow_answer.rt"),
}

# What PLANS names and TABLES defines, in the order in which TABLES needs it.
TABLE_NAMES = """
IsTableOf IsBrokenText
cells_of mcf_reading.head_faults mcf_reading.read_heads place_columns route_columns all_step_columns
mcf_reading.settled_mark number_cells
is_filled cell_at read_number read_amount read_penalty is_no_limit read_limit is_yes way_kind
number_of
mcf_reading.name_kind no_place_kind mcf_reading.cell_faults
scales_of great_faults planner_faults IsProperPlanner steps_in rows_in
numbers_of is_bounded
IsBeyondInStage limited IsShownIn mcf_flow_tables.origin_in
prepared_places prepared_routes done_to AreFilled lacking
tells_periods IsPeriodTableAnswer
"""

# The content of a part: the definitions that these clauses cite, these definitions, and all that
# they need, except those of an earlier part and those that a later part names here.
PARTS = {
    "core": Part(
        {
            "solve_text": ["answer", "accepted", "refused", "none"],
            "check": ["exact", "least", "none"],
        },
        [],
    ),
    "rules": Part(
        {"solve_text": ["wants"], "check": ["wants"]},
        ["IsChosenFlow", "IsChosen", "HasForm", "written", "IsAnswer"],
    ),
    "runs": Part({"run": None, "serve": None, "judge": None}, []),
    "made": Part({}, ["HasMadeFlow", "HasShapedFlow", "IsMadeBy"]),
    "plans": Part({"plan_tables": None}, []),
    "tables": Part({}, TABLE_NAMES.split()),
}

# The definitions that the page names without their text. For the verdict, a clause of `check` says
# that it accepts exactly if the answer text is correct. A table has the words of codes. The manual
# page explains command lines.
LEAVES = {
    "verdict",
    "code_word",
    "Asks",
    "IsMcf",
    "printed",
    "sent_said",
    "moved_said",
    "price_said",
    "member_said",
}


def bare(name):
    """A name without its crate, which stands before it where several crates have the name."""
    return name.rpartition(".")[2]


def clauses_of(text):
    """The clauses of a function by their names."""
    found = re.findall(
        r"^    ensures (\w*) ?\{(.*?)(?=^    (?:ensures|requires)|\Z)", text, re.M | re.S
    )
    return {name: clause for name, clause in found}


def signature(function):
    """The signature and the clauses of one of the functions, as in the code."""
    crate, file = FUNCTIONS[function]
    return next(
        item.text for item in items_of(CRATES / crate / "src" / file) if item.name == function
    )


class Specs:
    """All definitions, in the order in which a reader needs them."""

    def __init__(self):
        self.definitions, self.modules = read_specs()
        later = {bare(name) for part in PARTS.values() for name in part.names}
        self.orders, self.part_of = {}, {}
        for part, roots in PARTS.items():
            stops = LEAVES | later - set(map(bare, roots.names))
            order = self.orders[part] = []
            for key in list(self.cited(roots.clauses)) + [
                k for n in roots.names for k in self.named(n)
            ]:
                self.visit(key, stops, part, order)

    def named(self, name):
        crate = name.rpartition(".")[0]
        return [
            key
            for key, d in self.definitions.items()
            if d.name == bare(name) and crate in ("", d.crate) and not d.is_private
        ]

    def cited(self, clauses):
        """The definitions that clauses of functions cite, by the `ghost use` lines of their
        files."""
        for function, names in clauses.items():
            crate, file = FUNCTIONS[function]
            found = clauses_of(signature(function))
            text = " ".join(
                clause for name, clause in found.items() if names is None or name in names
            )
            source = (CRATES / crate / "src" / file).read_text()
            uses = re.findall(
                r"^ghost use Rattle\.(mcf_\w+)\.specs\.(\w+)\.\{(.*)\};$", source, re.M
            )
            imported = {
                word: (of, module, word) for of, module, group in uses for word in words(group)
            }
            yield from (
                imported[word] for word in words(text) if imported.get(word) in self.definitions
            )

    def needs(self, key):
        """The definitions that one definition names, in order, and the types of the code that it
        names, as crate and path."""
        crate, module, _ = key
        imports = self.modules[crate, module].imports
        for word in words(self.definitions[key].text):
            if (crate, module, word) in self.definitions:
                yield crate, module, word
            elif word in imports:
                of, path, was = imports[word]
                if path.startswith("Private."):
                    sys.exit(
                        f"{crate} {module}: what a reader must read rests on {of} {path}.{was},"
                        " which is private"
                    )
                yield of, path, was

    def visit(self, key, stops, part, order):
        """Adds a definition and then, depth first, what it needs that the page doesn't have yet."""
        if key in self.part_of or key[2] in stops or key not in self.definitions:
            return
        self.part_of[key] = part
        order.append(key)
        for needed in self.needs(key):
            self.visit(needed, stops, part, order)

    def types(self, part):
        """The types of the code that the definitions of a part name, as crate and path."""
        paths = {(of, path) for key in self.orders[part] for of, path, _ in self.needs(key)}
        found = {(of, re.match(r"declared\.(.*?)(?:\.TheVariants)?$", path)) for of, path in paths}
        return sorted({(of, path[1]) for of, path in found if path})

    def text(self, key):
        """A definition with its comment. A name that an import renamed becomes its own name again,
        a case gets the name of its type before it, and a constant of the code becomes a number."""
        definition = self.definitions[key]
        text = definition.text
        for now, (of, path, was) in self.modules[key[:2]].imports.items():
            if path.endswith(".TheConstants"):
                number = constant(of, path, was)
                argument = f"({number})" if " " in number else number
                text = re.sub(rf"(?<=\w ){now}\b", argument, text)
                text = re.sub(rf"\b{now}\b", number, text)
            elif now != was:
                own = f"{path.split('.')[-2]}.{was}" if path.endswith(".TheVariants") else was
                text = re.sub(rf"(?<![\w'-]){re.escape(now)}(?![\w'-])", own, text)
        note = textwrap.wrap(definition.note, 97)
        return "\n".join([f"-- {line}" for line in note] + [text])


def constant(crate, path, name):
    """The number of a constant of the code, as a power of ten if it is large. A constant without a
    number keeps its name."""
    file = CRATES / crate / "src" / f"{path.split('.')[-2]}.rt"
    found = re.search(rf"pub const {name}: \w+ = ([0-9_]+);", file.read_text())
    digits = found[1].replace("_", "") if found else ""
    is_power = len(digits) > 9 and digits.rstrip("0") == "1"
    return f"10 ^ {len(digits) - 1}" if is_power else found[1] if found else name


def type_text(crate, path):
    """The text of a struct or enum of the code, with its comment."""
    *modules, name = path.split(".")
    pattern = (
        r"((?:^///[^\n]*\n)*)(?:^#\[[^\n]*\n)*(^pub(?:\(crate\))? (?:struct|enum)"
        rf" {name}\b.*?(?:^\}}|;$))"
    )
    for file in (CRATES / crate / "src").glob(f"**/{modules[-1]}.rt"):
        item = re.search(pattern, file.read_text(), re.M | re.S)
        if item:
            return item[1] + item[2]
    sys.exit(f"{crate} has no type {path}")


def models():
    """The views by which clauses see values, by the names of the types that define one. A name that
    an import renamed becomes its own name again."""
    files = [
        path for crate in libraries() for path in sorted((CRATES / crate / "src").glob("**/*.rt"))
    ]
    for path in files:
        for name, body in re.findall(
            r"^impl Model for (\w+) \{\n(.*?)^\}", path.read_text(), re.M | re.S
        ):
            if value := re.search(r"ghost Value = \{ (.*?) \}", body):
                renamed = {now: was for was, now in re.findall(r"(\w+) as (\w+)", body)}
                yield name, re.sub(r"\w+", lambda m: renamed.get(m[0], m[0]), value[1])


class Page:
    """A page from a template. Lines of the template that begin with `@` become generated parts."""

    def __init__(self, specs, template):
        self.specs = specs
        self.told = set()
        lines = (TOP / "scripts" / template).read_text().splitlines()
        self.text = "".join(
            (self.made(line) if line.startswith("@") else line) + "\n" for line in lines
        )

    def made(self, line):
        kind, *rest = line.removeprefix("@").split(" ")
        return getattr(self, kind)(*rest).rstrip("\n")

    def contract(self, function):
        return fence("rust", signature(function))

    def chapter(self, part, *modules):
        """The definitions of a part in these modules, in the order in which a reader needs them."""
        keys = [key for key in self.specs.orders[part] if f"{key[0]}/{key[1]}" in modules]
        self.told.update(keys)
        files = dict.fromkeys(f"`{key[0]}/specs/{key[1]}.antt`" for key in keys)
        return (
            wrapped(f"From {', '.join(files)}:")
            + "\n\n"
            + fence("", "\n\n".join(map(self.specs.text, keys)))
        )

    def types(self, part, *more):
        """The types of the code that the definitions of a part name, and the types in `more`,
        without fault codes and constants. CONTRACTS has the comments on fields and cases."""
        earlier = list(PARTS)[: list(PARTS).index(part)]
        known = {kind for other in earlier for kind in self.specs.types(other)} | {
            ("mcf_flows", "code.Code")
        }
        kinds = [
            kind
            for kind in self.specs.types(part)
            if kind not in known and kind[0] in crates() and not kind[1].endswith("TheConstants")
        ]
        texts = [type_text(*kind) for kind in kinds + [tuple(m.split("/")) for m in more]]
        return fence("rust", re.sub(r"(?m)^ +///.*\n", "", "\n\n".join(texts)))

    def models(self, *names):
        """The views of the values of these types."""
        seen = dict(models())
        return "\n".join(
            [row("Type", "Seen as"), row("---", "---")]
            + [row(f"`{n}`", f"`{seen[n]}`") for n in names]
        )

    def codes(self):
        """The codes of faults with their words and meanings."""
        text = self.specs.definitions["mcf_flows", "Codes", "code_word"].text
        spelled = dict(re.findall(r'^code_word (\w+) = codes "(.*)"', text, re.M))
        cases = re.findall(r"    /// (.*)\n    (\w+),", type_text("mcf_flows", "code.Code"))
        rows = [row(f"`{case}`", f"`{spelled[case]}`", note) for note, case in cases]
        return "\n".join([row("Code", "Word", "What is wrong"), row("---", "---", "---")] + rows)

    def count(self, part):
        """The number of definitions of a part, and of their lines."""
        keys = self.specs.orders[part]
        lines = sum(len(self.specs.text(key).splitlines()) for key in keys)
        return f"{len(keys)} definitions in {lines} lines, comments among them"


def page(template, *parts):
    """A page that must contain some parts completely."""
    specs = Specs()
    made = Page(specs, template)
    missing = [key for part in parts for key in specs.orders[part] if key not in made.told]
    if missing:
        sys.exit(
            f"scripts/{template} has no chapter for " + ", ".join(".".join(key) for key in missing)
        )
    return re.sub(rf"\{{({'|'.join(PARTS)})\}}", lambda m: made.count(m[1]), made.text)


PAGES = {
    "DEFINITIONS.md": definitions_page,
    "CONTRACTS.md": contracts_page,
    "HEADLINE.md": lambda: page("headline.md", "core"),
    "CHOSEN.md": lambda: page("chosen.md", "rules"),
    "RUNS.md": lambda: page("runs.md", "runs"),
    "MADE.md": lambda: page("made.md", "made"),
    "PLANS.md": lambda: page("plans.md", "plans"),
    "TABLES.md": lambda: page("tables.md", "tables"),
}


# The most words of a page.
LENGTHS = {"README.md": 600, "docs/HEADLINE.md": 8000, "docs/PLANS.md": 8000}


def faults():
    """The faults of the documents, as texts."""
    for name, most in LENGTHS.items():
        count = len((TOP / name).read_text().split())
        if count > most:
            yield f"{name} has {count} words, and may have {most}"
    yield from commands.faults([f"docs/{name}" for name in PAGES])
    for name, made in PAGES.items():
        if not (DOCS / name).exists() or (DOCS / name).read_text() != made():
            yield f"docs/{name} isn't what `scripts/documents.py write` writes today"
    for d in read_specs()[0].values():
        if not d.is_private and not d.note:
            yield f"crates/{d.crate}/specs/{d.module}.antt: {d.name} has no comment"
    for crate in libraries():
        names = exported(crate)[1]
        for item in public_items(crate):
            if item.name and not item.note and (item.owner or item.name) in names:
                yield f"{crate}: {item.name} is public, and has no comment"


def main():
    if sys.argv[1:] == ["write"]:
        for name, made in PAGES.items():
            (DOCS / name).write_text(made())
    elif sys.argv[1:] == ["check"]:
        found = list(faults())
        print("\n".join(found) or "documents: as the code and the spec files say")
        sys.exit(1 if found else 0)
    elif sys.argv[1:2] == ["run"]:
        sys.exit(1 if commands.run_all(sys.argv[2:] or list(commands.PAGES)) else 0)
    else:
        sys.exit(__doc__)


if __name__ == "__main__":
    main()
