"""The page of plans side by side."""
from . import page
from .caption import Caption, date_of_run
from .figures import Figure, figure
from .page import Page, Sheet, listed_rows, text

FROM = (
    "All figures are those of the answers of these plans, which have these SHA-256."
    " <code>mcf_plan verify FOLDER</code> has mcfplan answer the tables of a plan again, and"
    " compares."
)


class Writer(page.Writer):
    """Assembles the page of a comparison, which has answers in place of one."""

    def __init__(self, comparison):
        source = f"{date_of_run()}: {', '.join(comparison.labels)}"
        self.comparison, self.mark = comparison, comparison.mark
        self.caption = Caption("", source, "", "")

    def seal(self):
        """The line below the headline: which answers these are."""
        return (
            '<p class="soft">From the answers of these plans (<a href="#answers">which these'
            " are</a>)</p>"
        )

    def proof(self):
        """The section with the checksums of the answers."""
        found = self.comparison
        sums = "".join(
            f"<dt>{text(label)}</dt><dd><code>{plan.sha256}</code></dd>"
            for label, plan in zip(found.labels, found.plans)
        )
        return f'<section id="answers"><h2>Answers</h2><p>{FROM}</p><dl>{sums}</dl></section>'


def page_of(comparison):
    """The page of a comparison."""
    word, found = "amounts" if comparison.is_flow else "pairs", comparison.differing()
    plans = len(comparison.plans)
    facts = [(Figure(plans), "plans"), (Figure(len(comparison.parts)), word)]
    facts += [(Figure(len(found)), "differ")] if comparison.can_differ() else []
    title = f"{plans} plans side by side"
    sheets = [figures_sheet(comparison), parts_sheet(comparison, found)]
    return Page(title, title, True, comparison.notes(), facts, [], [], sheets)


def figures_sheet(comparison):
    """The table of the figures."""
    columns = [("figure", ""), *((label, "") for label in comparison.labels)]
    rows = [("", [name, *map(figure, values)]) for name, values in comparison.figures]
    return Sheet("Figures", columns, rows)


def parts_sheet(comparison, differing):
    """The table of the routes or pairs: those that differ, most of all first, then the others; and
    by how much, if at least two plans exist."""
    ends = ["from", "to"] if comparison.is_flow else ["who", "what"]
    others = [row for row in comparison.parts if not comparison.difference(row[1])]
    columns, rows = [(head, "") for head in [*ends, *comparison.labels]], []
    for key, values in differing + others:
        rows.append(("" if any(values) else "idle", [*key[:2], *map(figure, values)]))
        if comparison.can_differ():
            rows[-1][1].append(figure(comparison.difference(values)))
    if comparison.can_differ():
        columns.append(("differ by", "the greatest less the least; not there: 0"))
    rows, note = listed_rows(rows)
    return Sheet("Amounts" if comparison.is_flow else "Pairs", columns, rows, (), note)
