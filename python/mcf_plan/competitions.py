"""Who competes if there are no pairs: the answer, taken apart."""
import collections

from .bottlenecks import OTHER_SIDE, parts_of
from .words import count_of, listed


class Competition:
    """Persons who must take more than they can (the side is send), or things that need more than
    they can get: these with their least numbers, those of the other side with their greatest
    numbers, and the pairs beside them, each of which counts one more. Several pairs of one name
    count as its number. Of groups, the leasts count with the former, and the mosts with the latter:
    each comes as a group, the one that has its members, a number, and whether it is the least."""

    def __init__(self, side, must, can, pairs, groups=()):
        self.side, self.can, self.pairs, self.groups = side, list(can), [], list(groups)
        self.must = [(name, number) for name, number in must if number]
        others = collections.defaultdict(list)
        for pair in pairs:
            others[pair[1 if side == "send" else 0]].append(pair)
        for name, found in others.items():
            if len(found) > 1:
                self.can.append((name, len(found)))
            else:
                self.pairs += found
        self.needs = sum(number for _, number in self.must + self.bounds(True))
        self.gets = sum(number for _, number in self.can + self.bounds(False)) + len(self.pairs)

    def bounds(self, least):
        """The leasts of groups, or their mosts, as names and numbers."""
        found = [one for one in self.groups if one[3] == least]
        return [(f"{group} of {name}", number) for group, name, number, _ in found]

    def sentence(self):
        """The sentence that these persons compete for too few things, or that these things can get
        too few persons."""
        names, others = (listed([name for name, _ in side]) for side in (self.must, self.can))
        if self.groups:
            return self.with_groups()
        is_send, count = self.side == "send", len(self.must)
        if not self.can and not self.pairs:
            return f"{names} can get nothing." if is_send else f"Nobody may do {names}."
        if not self.pairs and all(number == 1 for _, number in self.must + self.can):
            if is_send:
                things = count_of(len(self.can), "thing", "things")
                return f"{count} persons compete for {things}: {names} can only get {others}."
            persons = count_of(len(self.can), "person", "persons")
            return f"{count} things compete for {persons}: only {others} may do {names}."
        parts = self.parts(self.can)
        verb = "must take" if is_send else "need" if count > 1 else "needs"
        return (
            f"{names} {verb} {self.needs}{' together' if count > 1 else ''}, and can"
            f" {'take' if is_send else 'get'} only {self.gets}: {listed(parts)}. Short by"
            f" {self.needs - self.gets}."
        )

    def parts(self, can):
        """Names with their numbers, and the pairs beside them."""
        numbers = [f"{name} ({number})" for name, number in can]
        return numbers + [" with ".join(pair) for pair in self.pairs]

    def with_groups(self):
        """The sentence that these persons, things and groups allow no choice together."""
        musts = [f"{name} ({number})" for name, number in self.must + self.bounds(True)]
        cans = self.parts(self.can + self.bounds(False))
        by = f" by {listed(cans)}" if cans else ""
        return (
            f"No choice keeps to these together: at least {self.needs} for {listed(musts)}; at most"
            f" {self.gets}{by}. Short by {self.needs - self.gets}."
        )


def competitions_of(roster):
    """The competitions of an answer: of those that it names, or of all others, whichever are fewer.
    What no pair connects is told by itself, if it competes by itself.

    The others compete, too, if there are as many persons as things, and one for each: then all of
    both sides must be in a pair."""
    side = roster.answer.one("side")
    persons, things = (
        {name: int(number) for _, name, number in roster.answer.rows[word]}
        for word in ("person", "thing")
    )
    groups = [
        (name, owner, int(number), word == "least")
        for _, name, _, owner, number, word in roster.answer.rows["group"]
    ]
    if groups:
        sides = persons.items(), things.items()
        must, can = sides[:: 1 if side == "send" else -1]
        return [Competition(side, must, can, [(one.who, one.what) for one in roster.pairs], groups)]
    choices = {side: (persons, things)}
    if roster.is_plain and len(roster.persons) == len(roster.things):
        choices[OTHER_SIDE[side]] = [
            {name: 1 for name in every if name not in inside}
            for every, inside in ((roster.persons, persons), (roster.things, things))
        ]
    found = [competing(roster, side, *names) for side, names in sorted(choices.items())]
    return min(
        filter(None, found),
        key=lambda found: sum(len(one.must) + len(one.can) for one in found),
        default=[],
    )


def competing(roster, side, *sides):
    """The competitions among persons and things that pairs connect. Of both sides, the names come
    with their numbers."""
    nodes = [(kind, name) for kind in (0, 1) for name in sides[kind]]
    parts = parts_of(nodes, [((0, who), (1, what)) for who, what in roster.allowed])
    found = [competition(roster, side, sides, part) for part in parts]
    return [one for one in found if one.needs > one.gets]


def competition(roster, side, sides, part):
    """The competition of persons and things, as pairs of 0 or 1 and their names."""
    must = 0 if side == "send" else 1
    lists = [
        [(name, number) for name, number in sides[kind].items() if (kind, name) in part]
        for kind in (must, 1 - must)
    ]
    pairs = [(pair.who, pair.what) for pair in roster.pairs]
    return Competition(side, *lists, [pair for pair in pairs if (must, pair[must]) in part])
