"""The page of a plan: one file that works offline, for a browser, a mail or a printer."""
import collections
import html
import os
import pathlib
import shlex

from . import asked
from .figures import Figure, grouped
from .words import line_of

# A page: its title, its headline, whether a plan exists, the text below the headline, facts as
# pairs of a value and its words, findings as paragraphs, pictures, and sheets.
Page = collections.namedtuple("Page", "title headline is_plan lead facts findings pictures sheets")
# A table of the page. Columns are pairs of a head and its meaning; rows are pairs of a class and
# cells; totals are below the rows.
Sheet = collections.namedtuple("Sheet", "title columns rows totals note", defaults=((), ""))
# A cell that shows a part of a whole, in percent.
Share = collections.namedtuple("Share", "percent")
# The most rows of a table, since a browser is slow with more.
LISTED = 5000

# What a picture is called, and how it moves.
LENS = "Picture: + and - zoom, as the wheel does with Ctrl; arrows move, 0 shows the whole picture"
PROVED = (
    "mcfplan wrote answer.csv from the texts of the tables, and it is proved that mcfplan writes"
    " nothing that isn't right: from the bytes of these texts to the bytes of answer.csv. How files"
    " and sheets became texts, and this page of the answer, isn't proved, but tested."
)
VERIFY = (
    "<code>mcf_plan verify FOLDER</code> has mcfplan answer the tables again, and compares that,"
    " byte for byte, with answer.csv. Without the folder of this plan, <code>mcf_plan {}</code>"
    " gives the same answer.csv for the same tables."
)


def text(value):
    """A text, escaped for HTML."""
    return html.escape(str(value))


class Writer:
    """Assembles a page from its parts."""

    def __init__(self, folder, mark, caption):
        self.asked, self.mark, self.caption = asked.read(folder), mark, caption

    def html(self, page):
        """The whole page."""
        here = pathlib.Path(__file__).resolve().parent
        style, script = (
            (here / name).read_text(encoding="utf-8") for name in ("page.css", "page.js")
        )
        title = f"{text(self.caption.title)}<br>" if self.caption.title else ""
        parts = [f'<h1{"" if page.is_plan else " class=none"}>{title}{text(page.headline)}</h1>']
        parts += (
            [f'<p class="soft">{text(self.caption.source)}</p>']
            + [f"<p>{text(line)}</p>" for line in page.lead]
            + [self.seal()]
            + self.facts(page)
            + page.findings
            + self.pictures(page)
        )
        parts += [self.section(sheet) for sheet in page.sheets] + [self.proof()]
        head = [
            "<!DOCTYPE html>",
            '<html lang="en">',
            '<meta charset="utf-8">',
            '<meta name="viewport" content="width=device-width">',
        ]
        head += [f"<title>{text(page.title)}</title>", f"<style>\n{style}</style>"]
        return "\n".join(head + parts + [f"<script>\n{script}</script>", "</html>"]) + "\n"

    def facts(self, page):
        """The boxes below the headline."""
        boxes = "".join(
            f"<li><b>{text(self.figure(value))}</b>{text(words)}</li>"
            for value, words in page.facts
        )
        return [f'<ul class="facts">{boxes}</ul>'] if boxes else []

    @staticmethod
    def pictures(page):
        """The pictures with their buttons."""
        zooms = "".join(
            f'<button type="button" data-zoom="{factor}" title="{words}">{sign}</button>'
            for factor, sign, words in (
                ("0.7", "+", "nearer"),
                ("1.43", "\u2212", "farther"),
                ("0", "\u21ba", "all of it"),
            )
        )
        lines = [
            '<div class="picture" tabindex="0" role="group"'
            f' aria-label="{LENS}">{picture}<div class="zoom">{zooms}</div></div>'
            for picture in page.pictures
        ]
        word = "Pictures" if len(lines) > 1 else "Picture"
        return [f"<h2>{word}</h2>\n{lines[0]}", *lines[1:]] if lines else []

    def seal(self):
        """The line below the headline: the answer that is proved."""
        return (
            '<p class="soft">Proved, from the tables to answer.csv'
            f" <code>{self.asked.answer_sha256[:16]}</code>"
            ' (<a href="#proved">what that means</a>)</p>'
        )

    def figure(self, value):
        """A value in the notation of the page."""
        return grouped(value, self.mark) if isinstance(value, Figure) else value

    def cell(self, value):
        """A cell of a table."""
        if isinstance(value, Share):
            return (
                f'<td class="number" data-value="{value.percent:.1f}"><span class="share"'
                f' style="--part: {value.percent:.0f}%"></span>{value.percent:.0f} %</td>'
            )
        if isinstance(value, Figure):
            return f'<td class="number" data-value="{value}">{text(self.figure(value))}</td>'
        return f"<td>{text(value)}</td>"

    def section(self, sheet):
        """A table with its tools."""
        numeric = [
            any(isinstance(cells[column], (Figure, Share)) for _, cells in sheet.rows)
            for column in range(len(sheet.columns))
        ]
        heads = "".join(
            f'<th{" class=number" if number else ""} title="{text(meaning)}">{text(head)}</th>'
            for (head, meaning), number in zip(sheet.columns, numeric)
        )
        rows = "\n".join(
            f'<tr{f" class={kind}" if kind else ""}>'
            + "".join(self.cell_in(value, number) for value, number in zip(cells, numeric))
            + "</tr>"
            for kind, cells in sheet.rows
        )
        totals = "".join(map(self.cell, sheet.totals))
        foot = f'<tfoot data-mark="{self.mark}"><tr>{totals}</tr></tfoot>' if totals else ""
        box = (
            '<label><input type="checkbox"> only what carries something</label>'
            if any(kind == "idle" for kind, _ in sheet.rows)
            else ""
        )
        tools = (
            '<div class="tools"><input type="search" placeholder="filter" aria-label="filter">'
            + box
            + '<span class="soft count"></span></div>'
            if len(sheet.rows) > 5
            else ""
        )
        note = f'<p class="soft">{text(sheet.note)}</p>' if sheet.note else ""
        return (
            f'<section><h2>{text(sheet.title)}</h2>{note}{tools}\n<div class="sheet">'
            f'<table aria-label="{text(sheet.title)}">\n<thead><tr>{heads}</tr></thead>\n<tbody>\n'
            f"{rows}\n</tbody>{foot}</table></div></section>"
        )

    def cell_in(self, value, is_number):
        """A cell of a column; None if it is empty among numbers."""
        return (
            '<td class="number" data-value=""></td>'
            if is_number and value == ""
            else self.cell(value)
        )

    def proof(self):
        """The section on what is proved, and what is trusted, with the checksums of the files."""
        names = [line_of(os.path.basename(file.name)) for file in self.asked.tables]
        call = shlex.join([self.asked.command, *names, "-o", "FOLDER"])
        call = f"{call} {asked.options_text(self.asked)}".strip()
        sums = [file.sha256 for file in self.asked.tables] + [self.asked.answer_sha256]
        sums = "".join(
            f"<dt>{text(name)}</dt><dd><code>{sha256}</code></dd>"
            for name, sha256 in zip([*names, "answer.csv"], sums)
        )
        return (
            f'<section id="proved"><h2>What is proved</h2><p>{text(PROVED)}</p>'
            f"<p>{VERIFY.format(text(call))}</p>"
            f'<dl>{sums}</dl><p class="soft">These are SHA-256, of the tables as they were read and'
            " of their answer.</p></section>"
        )


def finding(sentence, figures, cure):
    """A bottleneck: its sentence, its figures in words, and what would help."""
    parts = " &middot; ".join(
        f'<b{" class=short" if words == "short by" else ""}>{text(words)} {text(number)}</b>'
        for words, number in figures
    )
    after = f'<p class="soft">{text(cure)}</p>' if cure else ""
    return f'<div class="finding"><p>{parts}</p><p>{text(sentence)}</p>{after}</div>'


def listed_rows(rows):
    """The rows of a table to list, and a note on the others. If there are very many rows, those
    that carry nothing are left out."""
    if len(rows) <= LISTED:
        return rows, ""
    chosen = [row for row in rows if row[0] != "idle"][:LISTED]
    return (
        chosen,
        (
            f"{len(chosen)} of {len(rows)} lines: of so many, only such as carry something. All"
            " stand in the table of this folder."
        ),
    )
