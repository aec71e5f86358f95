"""Tests of rosters with groups as the tool shows them."""
import unittest

from support import WithFolder, rows_of

COSTS = "who,what,cost\n" + "".join(
    f"{who},{what},{cost}\n"
    for who, costs in {"Ada": (1, 2, 3), "Ben": (2, 2, 2), "Cy": (5, 1, 4)}.items()
    for what, cost in zip(("Mo", "Tu", "We"), costs)
)


class Groups(WithFolder):
    """Rosters with groups."""

    def grouped(self, text, *more):
        """Runs `pairs` with groups."""
        return self.pairs(COSTS, "--groups", self.put("groups.csv", text), *more)

    def test_a_group_of_things(self):
        status, said, _ = self.grouped("group,what,most\nearly,Mo,1\nearly,Tu,\n", "--each", "what")
        self.assertEqual((status, "Left out" in said), (0, False))
        rows = rows_of(self.out / "groups.csv")
        self.assertEqual({row["kept"] for row in rows}, {"yes"})
        self.assertTrue(all(int(row["count"]) <= 1 for row in rows), rows)
        self.assertIn("<h2>Groups", (self.out / "report.html").read_text(encoding="utf-8"))

    def test_groups_that_cross(self):
        text = "group,what,most\nearly,Mo,1\nearly,Tu,\nlate,Tu,0\nlate,We,\n"
        status, _, told = self.grouped(text)
        self.assertEqual(status, 2)
        self.assertIn("has some members of", told)
        status, said, told = self.grouped(text, "--crossing", "check")
        self.assertEqual(status, 0, told)
        self.assertIn("Left out, so not kept to by the proof: late (crosses early).", said)
        self.assertIn("Broken in this plan: late by ", said)

    def test_no_choice(self):
        status, said, _ = self.grouped("group,what,least\nearly,Mo,1\nearly,Tu,\n")
        self.assertEqual(status, 1)
        self.assertIn(
            "No choice keeps to these together: at least 3 for early of Ada (1), early of Ben (1),"
            " early of Cy (1); at most 2 by Mo (1), Tu (1). Short by 1.",
            said,
        )
        rows = rows_of(self.out / "bottleneck.csv")
        sums = [sum(int(row[head] or 0) for row in rows) for head in ("must", "can")]
        self.assertEqual(sums, [3, 2])

    def test_a_wrong_call(self):
        status, _, told = self.pairs(COSTS, "--crossing", "check")
        self.assertEqual(
            (status, told), (2, "mcf_plan: --crossing check: it comes with --groups FILE\n")
        )


if __name__ == "__main__":
    unittest.main()
