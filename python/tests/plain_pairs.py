"""Rosters in plain Python with fractions, by what the manual page of mcfplan says: the least cost,
tables in random notations, and whether an answer's rows say a choice, or who competes."""
import collections
from fractions import Fraction

from plain_plans import WIDE, Arc, cost_of_flow, least_flow

# A roster: what cells say of how many each person takes and each thing needs (None, a number, or a
# pair of the least and the most), the costs of the allowed pairs, who gets just one (None if that
# isn't said), and whether costs are values.
Roster = collections.namedtuple("Roster", "persons things takes needs pairs each maximise")


class Ranges:
    """How many each person of a roster takes, and each thing needs: the least and the most."""

    def __init__(self, roster):
        sayings = [*roster.takes, *roster.needs]
        has_said = any(saying is not None for saying in sayings)
        each = roster.each or ("what" if has_said else "who")
        self.takes = [person_range(saying, each != "what") for saying in roster.takes]
        self.needs = [thing_range(saying, each != "who") for saying in roster.needs]


def person_range(saying, has_to):
    """A single number is the most that a person takes."""
    if isinstance(saying, tuple):
        return saying
    most = 1 if saying is None else saying
    return min(most, int(has_to)), most


def thing_range(saying, has_to):
    """A single number is what a thing needs."""
    if isinstance(saying, tuple):
        return saying
    return (int(has_to), 1) if saying is None else (saying, saying)


def least_cost(roster):
    """The cost of the best choice, or None if there is none. Of values, it is the greatest."""
    ranges, sign = Ranges(roster), -1 if roster.maximise else 1
    arcs = [Arc("source", ("who", k), *span, 0) for k, span in enumerate(ranges.takes)]
    arcs += [Arc(("what", k), "sink", *span, 0) for k, span in enumerate(ranges.needs)]
    for (who, what), cost in roster.pairs.items():
        arcs.append(Arc(("who", who), ("what", what), 0, 1, sign * cost))
    arcs.append(Arc("sink", "source", 0, WIDE, 0))
    flow = least_flow(arcs, [Fraction(arc.low) for arc in arcs])
    return None if flow is None else sign * cost_of_flow(arcs, flow)


def why_no_choice(roster, rows):
    """What is wrong with the rows of a choice; None if nothing is."""
    chosen = [(cells[2], cells[3]) for cells in rows.by_word["pair"]]
    pairs = [(roster.persons.index(who), roster.things.index(what)) for who, what in chosen]
    if len(set(pairs)) < len(pairs) or not all(pair in roster.pairs for pair in pairs):
        return "a pair is chosen twice, or isn't allowed"
    costs = [Fraction(cells[4]) for cells in rows.by_word["pair"]]
    if costs != [roster.pairs[pair] for pair in pairs] or sum(costs) != rows.number("cost"):
        return "the costs are others"
    ranges = Ranges(roster)
    for place, spans in enumerate((ranges.takes, ranges.needs)):
        counts = collections.Counter(pair[place] for pair in pairs)
        if not all(least <= counts[k] <= most for k, (least, most) in enumerate(spans)):
            return "someone takes, or something needs, another number"
    return None


def are_competing(roster, rows):
    """Whether the persons that are told must take more than the things that are told can give, and
    other things one each; or so with things that need more than persons can take."""
    ranges, told = Ranges(roster), (rows.by_word["person"], rows.by_word["thing"])
    names = (roster.persons, roster.things)
    who, what = ({one.index(cells[1]) for cells in two} for one, two in zip(names, told))
    if rows.by_word["side"][0][0] == "send":
        asked, given = sum(ranges.takes[k][0] for k in who), sum(ranges.needs[k][1] for k in what)
        other = [pair for pair in roster.pairs if pair[0] in who and pair[1] not in what]
    else:
        asked, given = sum(ranges.needs[k][0] for k in what), sum(ranges.takes[k][1] for k in who)
        other = [pair for pair in roster.pairs if pair[1] in what and pair[0] not in who]
    return asked > given + len(other) and len(other) == len(rows.by_word["pair"])


# ---- random rosters, and their tables

NAMES = ("Anna", 'Ben "B"', "Zoë", "x1", "0", "St. Pölten", "7/5", "Öd")


def random_saying(rng):
    """What a cell says of how many, or None."""
    least = rng.randint(0, 2)
    return rng.choice([None, least, (least, least + rng.randint(0, 2))])


def random_cost(rng, notation):
    scale = notation.scale if rng.random() < 0.3 else 1
    return Fraction(
        rng.randint(-2 * scale, 1200 * scale if rng.random() < 0.1 else 9 * scale), scale
    )


def random_roster(rng, notation):
    persons, things = (tuple(rng.sample(NAMES, rng.randint(1, 5))) for _ in range(2))
    ranged, density = rng.random() < 0.5, rng.choice([0.4, 0.7, 1])
    sayings = [
        [random_saying(rng) if ranged else None for _ in names] for names in (persons, things)
    ]
    pairs = {
        (who, what): random_cost(rng, notation)
        for who in range(len(persons))
        for what in range(len(things))
        if rng.random() < density
    }
    each = rng.choice([None, None, "who", "what", "both"])
    return Roster(persons, things, *sayings, pairs, each, rng.random() < 0.4)


def said(rng, saying):
    """A cell that says how many."""
    if saying is None:
        return ""
    if isinstance(saying, tuple):
        return rng.choice(["..", "-", " to ", " – "]).join(map(str, saying))
    return str(saying)


def cost_cell(rng, notation, roster, pair):
    cost = roster.pairs.get(pair)
    return rng.choice(["", "x", "X", "-", "–"]) if cost is None else notation.number(cost)


def list_table(rng, notation, roster):
    """The roster as a list: a row for each allowed pair, for some of the others, and for all that
    have none. Numbers stand in the first row of each name, or in all."""
    pairs = [
        (who, what) for who in range(len(roster.persons)) for what in range(len(roster.things))
    ]
    rows, seen = [], set()
    for who, what in rng.sample(pairs, len(pairs)):
        is_new = ("who", who) not in seen or ("what", what) not in seen
        if is_new or (who, what) in roster.pairs or rng.random() < 0.2:
            takes = roster.takes[who] if ("who", who) not in seen or rng.random() < 0.5 else None
            needs = roster.needs[what] if ("what", what) not in seen or rng.random() < 0.5 else None
            seen |= {("who", who), ("what", what)}
            cells = [said(rng, takes), said(rng, needs)]
            cost = cost_cell(rng, notation, roster, (who, what))
            rows.append([roster.persons[who], roster.things[what], cost, *cells])
    heads = ["who", "what", "cost", "takes", "needs"]
    if not any(row[3] or row[4] for row in rows) and rng.random() < 0.7:
        heads, rows = heads[:3], [row[:3] for row in rows]
    return notation.text(heads, rows)


def matrix_table(rng, notation, roster):
    """The roster as a matrix, with a column or a row of numbers where there are some."""
    heads = [rng.choice(["", "Costs"]), *roster.things]
    rows = [
        [name, *(cost_cell(rng, notation, roster, (who, k)) for k in range(len(roster.things)))]
        for who, name in enumerate(roster.persons)
    ]
    if any(saying is not None for saying in roster.needs):
        needs = ["needs", *(said(rng, saying) for saying in roster.needs)]
        rows.insert(rng.randint(0, len(rows)), needs)
    if any(saying is not None for saying in roster.takes):
        takes = {name: said(rng, saying) for name, saying in zip(roster.persons, roster.takes)}
        heads, rows = [*heads, "takes"], [[*row, takes.get(row[0], "")] for row in rows]
    return notation.matrix(heads, rows)


def table_of(rng, notation, roster):
    return rng.choice([list_table, matrix_table])(rng, notation, roster)
