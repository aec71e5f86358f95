"""The page of pairs."""
from . import groups, pairs, sumspage
from .caption import shown_number
from .competitions import competitions_of
from .figures import Figure
from .page import Page, Sheet, finding, listed_rows


def plan_page(roster, options, sums):
    """The page of chosen pairs and their sums."""
    facts = [
        (Figure(len(roster.persons)), "persons"),
        (Figure(len(roster.things)), "things"),
        (Figure(len(roster.pairs)), "pairs"),
    ]
    rows, note = listed_rows(
        [("", [pair.who, pair.what, Figure(pair.cost)]) for pair in roster.pairs]
    )
    total = ["", "", Figure(roster.answer.one("cost"))]
    lead = [f"No other choice of pairs {'is worth more' if options.maximise else 'costs less'}."]
    word = "Greatest value" if options.maximise else "Least cost"
    return Page(
        options.title or "A plan of pairs",
        f"{word}: {shown_number(roster, roster.cost(), options.currency)}",
        True,
        lead + pairs.left_lines(roster) + groups.lines_of(roster) + pairs.notes_of(roster),
        facts,
        [],
        [],
        [Sheet("Pairs", [("who", ""), ("what", ""), ("cost", "")], rows, total, note)]
        + groups.sheets_of(roster)
        + [sumspage.pair_sheet(one) for one in sums],
    )


def blocked_page(roster, options):
    """The page for a roster without such pairs."""
    findings, shorts = [], []
    for one in competitions_of(roster):
        short = one.needs - one.gets
        shorts.append(f"short by {short}")
        figures = [("must", one.needs), ("can", one.gets), ("short by", short)]
        findings.append(finding(one.sentence(), figures, ""))
    return Page(
        options.title or "No such pairs exist",
        f"No such pairs exist: {', '.join(shorts[:3])}",
        False,
        groups.left_out_lines(roster) + pairs.each_hint(roster) + pairs.notes_of(roster),
        [],
        findings,
        [],
        [],
    )
