"""Tests of pairs and rosters, and of messages about persons who compete."""
import itertools
import random

from support import WithFolder, rows_of

MATRIX = ";Mo;Di;takes\nAnna;1;2;0..2\nBert;3;;1\nneeds;1;2;\n"


class Pairs(WithFolder):
    """Each person gets one thing."""

    def test_a_list(self):
        status, said, _ = self.pairs("who,what,cost\nB,X,3\nA,X,1\nA,Y,2\n")
        self.assertEqual(status, 0)
        self.assertEqual((self.out / "pairs.csv").read_text(), "who,what,cost\nB,X,3\nA,Y,2\n")
        self.assertIn("cost 5", said)

    def test_a_matrix_with_things_left_over(self):
        status, said, _ = self.pairs('\u2193;X;Y;Z\nAnn\u00e9;4;1;\n"B; C";2;;9\n')
        self.assertEqual(status, 0)
        self.assertEqual(
            (self.out / "pairs.csv").read_text(encoding="utf-8"),
            'who;what;cost\nAnn\u00e9;Y;1\n"B; C";X;2\n',
        )
        self.assertIn("Left over: Z.", said)

    def test_competing(self):
        status, said, _ = self.pairs("who,what,cost\nA,X,1\nB,X,1\nC,Y,1\nC,Z,1\n")
        self.assertEqual(status, 1)
        self.assertIn("2 persons compete for 1 thing: A, B can only get X.", said)
        self.assertEqual(
            (self.out / "bottleneck.csv").read_text(),
            "bottleneck,kind,name,must,can\n1,person,A,1,\n1,person,B,1,\n1,thing,X,,1\n",
        )

    def test_more_persons_than_things(self):
        status, said, _ = self.pairs(",X,Y\nA,1,1\nB,1,1\nC,1,1\n")
        self.assertEqual(status, 1)
        self.assertIn(
            "3 persons compete for 2 things: A, B, C can only get X, Y.\n"
            "With --each what each thing would get a person, if that can be, and persons may be"
            " left over.\n",
            said,
        )

    def test_no_hint_at_what_was_asked(self):
        groups = self.put("groups.csv", "group,who,least\ntwo,A,\ntwo,B,2\n")
        words = ["--groups", groups, "--each", "what"]
        status, said, _ = self.pairs("who,what,cost\nA,X,1\nB,X,1\n", *words)
        self.assertEqual(status, 1)
        self.assertNotIn("With --each", said)

    def test_a_person_without_a_thing(self):
        self.assertIn("B can get nothing.", self.pairs(",X,Y\nA,1,1\nB,,\n")[1])

    def test_a_name_on_both_sides(self):
        self.assertEqual(self.pairs("who,what,cost\nA,A,1\n")[0], 0)

    def test_a_cost_beyond_the_limits(self):
        for costs, begins in (
            (
                "who,what,cost\n\nA,X,1000000000000001\n",
                "costs.csv, line 3, column cost: '1000000000000001' is beyond",
            ),
            (
                ",X,Y\nA,1,1000000000000001\n",
                "costs.csv, line 2, column 3: '1000000000000001' is beyond",
            ),
        ):
            status, _, told = self.pairs(costs)
            self.assertEqual(status, 2)
            self.assertIn(begins, told)


class Each(WithFolder):
    """The option that says which side must be matched completely."""

    def nurses(self, count, shifts, shut=()):
        """A matrix of nurses and shifts with a pattern of costs. The shifts in `shut` are forbidden
        for everybody."""
        lines = [";" + ";".join(f"Schicht {shift}" for shift in range(shifts))]
        for nurse in range(count):
            lines.append(
                f"Schwester {nurse};"
                + ";".join(
                    "X" if shift in shut else str((nurse * 7 + shift * 11) % 13)
                    for shift in range(shifts)
                )
            )
        return "\n".join(lines) + "\n"

    def test_sixty_nurses_for_fifty_shifts(self):
        status, said, _ = self.pairs(self.nurses(60, 50))
        self.assertEqual(status, 1)
        self.assertIn("60 persons compete for 50 things", said)
        status, said, _ = self.pairs(self.nurses(60, 50), "--each", "what")
        self.assertEqual(status, 0)
        self.assertIn("50 pairs.\nWithout a thing: Schwester ", said)
        self.assertEqual(len({row["what"] for row in rows_of(self.out / "pairs.csv", ";")}), 50)

    def test_a_shift_that_nobody_may_do(self):
        for each in ([], ["--each", "what"], ["--each", "both"]):
            status, said, _ = self.pairs(self.nurses(60, 60, shut=[17]), *each)
            self.assertEqual(status, 1)
            self.assertIn("  Nobody may do Schicht 17.\n", said)
            self.assertEqual(
                (self.out / "bottleneck.csv").read_text(),
                "bottleneck;kind;name;must;can\n1;thing;Schicht 17;1;\n",
            )

    def test_things_that_want_for_persons(self):
        said = self.pairs(",X,Y\nA,1,2\nB,,\nC,,\n", "--each", "what")[1]
        self.assertIn("2 things compete for 1 person: only A may do X, Y.", said)

    def test_both(self):
        self.assertEqual(self.pairs(",X,Y\nA,1,1\nB,1,1\n", "--each", "both")[0], 0)
        self.assertEqual(self.pairs(",X\nA,1\nB,1\n", "--each", "both")[0], 1)

    def test_the_greatest_value(self):
        status, said, _ = self.pairs(",X,Y\nA,1,2.5\nB,3,3.5\n", "--maximise")
        self.assertEqual(status, 0)
        self.assertIn("Pairs of the greatest value, proved: value 5.5.", said)
        self.assertEqual((self.out / "pairs.csv").read_text(), "who,what,cost\nA,Y,2.5\nB,X,3\n")


class TakesAndNeeds(WithFolder):
    """Persons who take several things, and things that need several persons."""

    def test_a_matrix(self):
        status, said, _ = self.pairs(MATRIX)
        self.assertEqual(status, 1)
        self.assertIn("  Di needs 2, and can get only 1: Anna with Di. Short by 1.\n", said)
        status, said, _ = self.pairs(MATRIX.replace("needs;1;2", "needs;1;1-2"))
        self.assertEqual(status, 0)
        self.assertEqual(
            (self.out / "pairs.csv").read_text(), "who;what;cost\nAnna;Mo;1\nAnna;Di;2\n"
        )

    def test_a_list(self):
        costs = "who,what,cost,takes,needs\nA,X,1,2,2\nA,Y,1,,\nB,X,5,,2\nB,Y,2,1,1\nC,Y,9,,\n"
        status, said, _ = self.pairs(costs)
        self.assertEqual(
            (status, "cost 7." in said, "Without a thing: C." in said), (0, True, True)
        )
        self.assertIn("this is '3'", self.pairs(costs.replace("B,X,5,,2", "B,X,5,,3"))[2])

    def test_what_is_no_range(self):
        for cell, text in (
            ("two", "'two' is no number"),
            ("3-2", "'3-2' is no number"),
            ("2026-03-02", "was it taken for a date?"),
            ("02. Mrz", "for a date?"),
        ):
            self.assertIn(text, self.pairs(MATRIX.replace("0..2", cell))[2])

    def test_persons_who_must_take_more_than_they_can(self):
        status, said, _ = self.pairs(",X,Y,takes\nA,1,1,2-3\nB,1,,1-1\nneeds,0-1,0-1,\n")
        self.assertEqual(status, 1)
        self.assertIn(
            "A, B must take 3 together, and can take only 2: X (1), Y (1). Short by 1.", said
        )

    def test_against_every_choice(self):
        draw = random.Random(5)
        for case in range(30):
            people, goods = draw.randint(1, 3), draw.randint(1, 3)
            cost = {
                pair: draw.randint(-4, 9)
                for pair in itertools.product(range(people), range(goods))
                if draw.random() < 0.8
            }
            takes, needs = (
                [sorted((draw.randint(0, 2), draw.randint(0, 3))) for _ in range(count)]
                for count in (people, goods)
            )
            sign = draw.choice((1, -1))
            rows = ["," + ",".join(f"T{thing}" for thing in range(goods)) + ",takes"]
            rows += [
                f"P{who},"
                + ",".join(str(cost.get((who, thing), "X")) for thing in range(goods))
                + ",%d-%d" % tuple(takes[who])
                for who in range(people)
            ]
            rows += ["needs," + ",".join("%d-%d" % tuple(need) for need in needs) + ","]
            status, said, told = self.pairs(
                "\n".join(rows) + "\n", *(["--maximise"] if sign < 0 else [])
            )
            best = best_of(cost, takes, needs, sign)
            with self.subTest(case=case, rows=rows):
                self.assertEqual((status, told), (1 if best is None else 0, ""))
                self.assertTrue(best is None or f" {best}." in said, (best, said))


def best_of(cost, takes, needs, sign):
    """The least (or the greatest) cost among all sets of pairs that keep the ranges."""
    found = []
    for count in range(len(cost) + 1):
        for chosen in itertools.combinations(cost, count):
            counts = [
                sum(1 for pair in chosen if pair[side] == number)
                for side, ranges in ((0, takes), (1, needs))
                for number in range(len(ranges))
            ]
            if all(least <= count <= most for count, (least, most) in zip(counts, takes + needs)):
                found.append(sign * sum(cost[pair] for pair in chosen))
    return sign * min(found) if found else None
