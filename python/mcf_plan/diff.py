"""Comparison of two plans: `mcf_plan diff OLD NEW`."""
import collections
import csv
import pathlib

from .answer import Answer
from .asked import answer_sha256_of, sha256_of
from .bottlenecks import bottlenecks_of
from .competitions import competitions_of
from .faults import bad_table
from .figures import said
from .periods import problem_of
from .problem import KEPT, NO_OPTIONS, Plan
from .report import balance_sentence, bottleneck_sentence
from .roster import Roster
from .words import TOLD_NAMES, listed

# What is told of a plan whose answer isn't that of its run.
CHANGED = (
    "Its answer.csv has changed since the run, so nothing of it is proved: mcf_plan verify says"
    " what differs."
)
# The most lines of a kind to print, unless the options ask for all.
TOLD = 20


def by_name(parts):
    """Amounts by names. Repeated names get numbers."""
    seen, found = collections.Counter(), {}
    for *names, amount in parts:
        key = tuple(names)
        seen[key] += 1
        found[key + (seen[key],)] = amount
    return found


def name_text(key):
    """The name of a part."""
    *names, count = key
    return " -> ".join(names) + (f" ({count})" if count > 1 else "")


class Folder:
    """The plan of a folder, from its answer: its cost, or why there is none; what each route
    carries and each place keeps, or each chosen pair; what stays and what is missing at places, and
    what it costs that something is missing or kept; how many there are of what; the SHA-256 of the
    answer, and whether it is another one than that of the run."""

    def __init__(self, name):
        try:
            answer = Answer((pathlib.Path(name) / "answer.csv").read_bytes())
            self.mark, self.stays, self.missing, self.delivered = answer.shown_mark, {}, {}, {}
            self.counts, self.sha256 = {}, sha256_of(answer.data)
            self.is_changed = answer_sha256_of(name) not in (None, self.sha256)
            self.is_flow, self.cost, self.parts = not answer.rows["persons"], None, []
            self.penalties = self.keeping = 0
            (self.read_flow if self.is_flow else self.read_pairs)(answer)
        except OSError as error:
            raise bad_table(f"{name}: this is no folder of a plan: answer.csv: {error.strerror}")
        except (
            ArithmeticError,
            AttributeError,
            IndexError,
            KeyError,
            TypeError,
            ValueError,
            csv.Error,
        ):
            raise bad_table(f"{name}: its answer.csv can't be read")

    def read_flow(self, answer):
        """Reads a plan of routes, or why there is none."""
        problem = problem_of(answer, (None, None), NO_OPTIONS)
        if answer.kind != "plan":
            self.why_not = why_not(problem)
            return
        plan = Plan(problem)
        self.cost = plan.cost
        self.parts = [
            (*problem.ends(route), result.carries)
            for route, result in zip(problem.routes, plan.routes)
        ]
        self.parts += [
            (problem.places[store.tail - 1].label, KEPT, result.carries)
            for store, result in zip(problem.stores, plan.stores)
            if not problem.is_quiet(store)
        ]
        self.keeping = sum(result.cost or 0 for result in plan.stores)
        self.stays, self.missing = (
            {place.label: amount for place, amount in plan.unmet(is_supply)}
            for is_supply in (True, False)
        )
        passing = [place.through for place in plan.places if place.through]
        costs = [result.cost for result in plan.routes + plan.stores + passing]
        self.penalties = 0 if None in costs else plan.cost - sum(costs)
        carrying = sum(1 for result in plan.routes if result.carries)
        full = sum(map(plan.is_full, range(len(plan.routes))))
        self.counts = {
            "routes": len(plan.routes),
            "routes that carry something": carrying,
            "full routes": full,
        }
        self.delivered = {
            place.label: -place.supply - self.missing.get(place.label, 0)
            for place in problem.places
            if place.supply < 0
        }

    def read_pairs(self, answer):
        """Reads chosen pairs, or why there are none."""
        roster = Roster(answer, (None,), NO_OPTIONS)
        if answer.kind != "plan":
            found = competitions_of(roster)[:TOLD_NAMES]
            self.why_not = [one.sentence() for one in found]
            return
        self.cost = roster.cost()
        self.parts = sorted((pair.who, pair.what, 1) for pair in roster.pairs)
        self.delivered = collections.Counter(what for _, what, _ in self.parts)
        taking = {who for who, _, _ in self.parts}
        self.counts = {
            "pairs": len(self.parts),
            "persons without a thing": len(roster.persons) - len(taking),
            "things left over": len(roster.things) - len(self.delivered),
        }


def why_not(problem):
    """The sentences that say why there is no plan. If supplies and demands differ, the answer
    doesn't say whether something may stay or be missing: what blocks even then is told."""
    differ = problem.supply != problem.demand
    found = bottlenecks_of(problem, problem.answer, differ, differ)
    if not found:
        return [balance_sentence(problem)]
    return [bottleneck_sentence(problem, one) for one in found[:TOLD_NAMES]]


class Comparison:
    """Two plans, with numbers in the notation of the new plan's tables."""

    def __init__(self, old, new, show_all):
        self.plans, self.show_all = {"old": old, "new": new}, show_all
        self.mark = new.mark or old.mark or "."

    def text(self, value):
        """A number."""
        return said(value, self.mark)

    def lines(self):
        """All lines of the comparison."""
        old, new = self.plans.values()
        lines = [line for word, plan in self.plans.items() for line in self.plan_lines(word, plan)]
        if None in (old.cost, new.cost):
            return lines
        lines += self.delivery(old.delivered, new.delivered)
        difference = new.cost - old.cost
        verb = "rises" if difference > 0 else "falls"
        lines.append(
            f"The cost {verb} by {self.text(abs(difference))}." if difference else "The cost stays."
        )
        return lines + self.changes(old.parts, new.parts)

    def delivery(self, before, after):
        """Lines about different deliveries, which make the costs of the plans incomparable."""
        if before == after:
            return []
        was, now = (self.text(sum(amounts.values())) for amounts in (before, after))
        told = (
            f"Both deliver {was} in all, but not the same at each place"
            if was == now
            else f"The old plan delivers {was} in all, the new one {now}"
        )
        lines = self.changes([*before.items()], [*after.items()])
        return [f"{told}: mind that where you compare what they cost.", "By place " + lines[0]] + (
            lines[1:]
        )

    def plan_lines(self, word, plan):
        """Lines on the cost of a plan, what stays and what is missing, or on why there is none."""
        changed = [f"  {CHANGED}"] if plan.is_changed else []
        if plan.cost is None:
            return [f"{word}: no plan exists: {' '.join(plan.why_not)}", *changed]
        lines = [f"{word}: cost {self.text(plan.cost)}", *changed]
        for side, words, none in (
            ("stays", "stay at", "Nothing stays."),
            ("missing", "are missing at", "Nothing is missing."),
        ):
            if any(getattr(other, side) for other in self.plans.values()):
                found = getattr(plan, side)
                where = [f"{name} {self.text(amount)}" for name, amount in found.items()]
                where = listed(where, len(where) if self.show_all else TOLD_NAMES)
                if side == "missing" and plan.penalties:
                    where += f", which costs {self.text(plan.penalties)} of that"
                total = self.text(sum(found.values()))
                lines.append(f"  {total} {words}: {where}." if found else f"  {none}")
        return lines

    def changes(self, old, new):
        """Lines about parts that differ, the greatest changes first."""
        before, after = by_name(old), by_name(new)
        keys = {**before, **after}
        differing = [key for key in keys if before.get(key, 0) != after.get(key, 0)]
        differing.sort(key=lambda key: (-abs(after.get(key, 0) - before.get(key, 0)), key))
        lines = [f"{len(differing)} of {len(keys)} differ" + (":" if differing else ".")]
        for key in differing if self.show_all else differing[:TOLD]:
            was, now = before.get(key), after.get(key)
            difference = (now or 0) - (was or 0)
            words = ["not there" if value is None else self.text(value) for value in (was, now)]
            sign = "+" if difference > 0 else ""
            lines.append(
                f"  {name_text(key)}: {words[0]}, now {words[1]} ({sign}{self.text(difference)})"
            )
        if len(differing) > TOLD and not self.show_all:
            lines.append(f"  and {len(differing) - TOLD} more (--all lists them)")
        return lines


def diff_command(options, _):
    """Runs `diff`: returns the lines and the status, which is 0 whether or not the plans differ."""
    old, new = Folder(options.old), Folder(options.new)
    if old.is_flow != new.is_flow:
        kinds = ["flow" if one.is_flow else "pairs" for one in (old, new)]
        raise bad_table(f"{options.old} is a plan of {kinds[0]}, {options.new} one of {kinds[1]}")
    return Comparison(old, new, options.all).lines(), 0
