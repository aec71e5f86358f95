#!/usr/bin/env python3
"""Keeps comments of crates/ within 100 columns, in code, definitions and proofs. `rt fmt` doesn't.

    scripts/comments.py check    names each longer line; a part of `make lint`
    scripts/comments.py write    wraps each paragraph that has one again
"""
import pathlib
import re
import sys
import textwrap
from typing import Iterator, List

TOP = pathlib.Path(__file__).resolve().parent.parent
WIDTH = 100
# A comment's indent, mark and text. The mark is up to three slashes in Rattle's code, and two
# hyphens elsewhere.
COMMENT = re.compile(r"( *)(///|//!|//|--)(?: (.*))?$")


def sources() -> Iterator[pathlib.Path]:
    """The files whose comments to wrap."""
    for suffix in ("rt", "antt"):
        for part in ("src", "specs", "proofs"):
            yield from sorted((TOP / "crates").glob(f"*/{part}/**/*.{suffix}"))


def paragraph(lines: List[str], first: int) -> int:
    """The end of the comment's paragraph that begins at a line."""
    head = COMMENT.match(lines[first])
    assert head
    last = first + 1
    while last < len(lines):
        next_ = COMMENT.match(lines[last])
        if not next_ or next_.groups()[:2] != head.groups()[:2] or not next_[3]:
            break
        if re.match(r"#|```|[-*|] |Source: ", next_[3]):
            break
        last += 1
    return last


def laid_out(lines: List[str]) -> List[str]:
    """The lines of a file, with each comment's paragraph that is too wide wrapped again."""
    made, at, is_code = [], 0, False
    while at < len(lines):
        head = COMMENT.match(lines[at])
        is_code ^= bool(head and (head[3] or "").startswith("```"))
        if not head or not head[3] or is_code:
            made.append(lines[at])
            at += 1
            continue
        end = paragraph(lines, at)
        if all(len(line) <= WIDTH for line in lines[at:end]):
            made += lines[at:end]
        else:
            mark = f"{head[1]}{head[2]} "
            words = " ".join(line[len(mark) :].strip() for line in lines[at:end])
            made += textwrap.wrap(
                words,
                WIDTH,
                initial_indent=mark,
                subsequent_indent=mark,
                break_long_words=False,
                break_on_hyphens=False,
            )
        at = end
    return made


def main(words: List[str]) -> int:
    if words not in (["check"], ["write"]):
        sys.exit(__doc__)
    wide = 0
    for path in sources():
        text = path.read_text()
        lines = text.split("\n")
        if words == ["write"]:
            made = "\n".join(laid_out(lines))
            if made != text:
                path.write_text(made)
            continue
        for number, line in enumerate(lines, 1):
            if COMMENT.match(line) and len(line) > WIDTH:
                print(f"{path.relative_to(TOP)}:{number}: a comment of {len(line)} columns")
                wide += 1
    return 1 if wide else 0


if __name__ == "__main__":
    sys.exit(main(sys.argv[1:]))
