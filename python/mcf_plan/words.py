"""Sentences for people."""

# The most names in a sentence.
TOLD_NAMES = 8


def listed(texts, most=TOLD_NAMES):
    """The first texts, and the number of the others. Commas separate them, or semicolons if one of
    them has a comma."""
    more, first = len(texts) - most, texts[:most]
    mark = "; " if any(", " in text for text in first) else ", "
    return mark.join(first) + (f" and {more} more" if more > 0 else "")


def count_of(number, one, many):
    """A number and its noun."""
    return f"{number} {one if number == 1 else many}"


def line_of(text):
    """A text of the command line, or the name of a file, as one line that a page can show. Bytes
    that aren't text become "?"."""
    text = "".join(" " if ord(c) < 32 or ord(c) == 127 else c for c in text)
    return text.encode("utf-8", "replace").decode("utf-8").strip()
