"""Tests of the comparison of two plans."""
import os

from support import PLACES, PLANS, ROUTES, WithFolder, run
from test_examples import call_of, example_folders

# Places and routes with decimals, steps and both directions. A smaller capacity of one route leaves
# 1.5 units missing.
DECIMAL_PLACES = "name;supply\nMill;30,5\nWien;-18,5\nGraz;-12\n"
DECIMAL_ROUTES = (
    "from;to;most;cost;most 2;cost 2;both\nMill;Wien;15;4,25;2;5,5;\nMill;Graz;20;7;;;yes\n"
    "Graz;Wien;10;2;;;\n"
)


class Diff(WithFolder):
    """`mcf_plan diff`."""

    def test_two_plans(self):
        old, new = self.made("old", PLACES, ROUTES), self.made(
            "new", PLACES, ROUTES.replace("15,4", "18.5,4") + "Mill,Wien,0,1,1\n"
        )
        status, said, told = run("diff", old, new)
        self.assertEqual((status, told), (0, ""))
        self.assertEqual(
            said,
            (
                "old: cost 171\nnew: cost 153\nThe cost falls by 18.\n4 of 4 differ:\n"
                "  Graz -> Wien: 3, now 0 (-3)\n"
                "  Mill -> Graz: 15, now 12 (-3)\n  Mill -> Wien: 15, now 17 (+2)\n  Mill -> Wien"
                " (2): not there, now 1 (+1)\n"
            ),
        )
        self.assertIn("The cost stays.\n0 of 3 differ.", run("diff", old, old)[1])

    def test_what_is_missing_and_what_stays(self):
        old = self.made("old", DECIMAL_PLACES, DECIMAL_ROUTES)
        narrow = DECIMAL_ROUTES.replace("20;7", "12;7")
        words = ["--short", "allow", "--unused", "allow"]
        status, said, _ = run("diff", old, self.made("new", DECIMAL_PLACES, narrow, *words))
        self.assertEqual(status, 0)
        self.assertEqual(
            said,
            (
                "old: cost 172,25\n  Nothing stays.\n"
                "  Nothing is missing.\nnew: cost 158,75\n"
                "  1,5 stay at: Mill 1,5.\n  1,5 are missing at: Wien 1,5.\n"
                "The old plan delivers 30,5 in all, the new one 29: mind that where you compare"
                " what they cost.\nBy place 1 of 2 differ:\n  Wien: 18,5, now 17 (-1,5)\n"
                "The cost falls by 13,5.\n2 of 3 differ:\n  Graz -> Wien: 1,5, now 0 (-1,5)\n"
                "  Mill -> Graz: 13,5, now 12 (-1,5)\n"
            ),
        )
        dear = self.made("dear", DECIMAL_PLACES, narrow, *words, "--penalty", "2")
        said = run("diff", old, dear)[1]
        self.assertIn(
            "new: cost 61\n  30,5 stay at: Mill 30,5.\n"
            "  30,5 are missing at: Wien 18,5, Graz 12, which costs 61 of that.\n",
            said,
        )
        self.assertLess(said.index("the new one 0: mind that"), said.index("The cost falls"))

    def test_as_much_delivered_at_other_places(self):
        routes, words = "from,to,most,cost\nA,B,2,1\nA,C,2,1\n", ["--short", "allow"]
        old = self.made("old", "name,supply\nA,2\nB,-2\nC,-1\n", routes, *words)
        new = self.made("new", "name,supply\nA,2\nB,0\nC,-2\n", routes)
        self.assertIn("Both deliver 2 in all, but not the same at each", run("diff", old, new)[1])

    def test_an_answer_that_is_none(self):
        old = self.made("old", PLACES, ROUTES)
        answer = (old / "answer.csv").read_bytes()
        lines = answer.splitlines(keepends=True)
        for number, line in enumerate(lines):
            cells = line.strip(b'"\n').split(b'","')
            for changed in (b"", b'"', b'"answer","plan"\n', line[:-1]):
                self.check_changed(old, lines, number, changed)
            for place in range(len(cells)):
                for cell in (b"x", b"", b"-"):
                    changed = cells[:place] + [cell] + cells[place + 1 :]
                    row = b'"' + b'","'.join(changed) + b'"\n'
                    self.check_changed(old, lines, number, row)
        for text in (b"", b"{}", answer[:-20], b"\xff"):
            (old / "answer.csv").write_bytes(text)
            self.assertIn("old: its answer.csv can't be read", run("diff", old, old)[2])

    def check_changed(self, old, lines, number, line):
        """Compares a folder with itself whose answer has another line."""
        changed = b"".join(lines[:number] + [line] + lines[number + 1 :])
        (old / "answer.csv").write_bytes(changed)
        status, _, told = run("diff", old, old)
        self.assertIn(status, (0, 2), (line, told))

    def test_each_example(self):
        for folder in example_folders():
            here, out = os.getcwd(), self.folder / folder.name
            os.chdir(folder)
            try:
                status = run(*call_of(folder), "-o", out)[0]
            finally:
                os.chdir(here)
            with self.subTest(folder=folder.name):
                found, said, told = run("diff", out, out)
                self.assertEqual(found, 2 if status == 2 else 0, told)
                text = {0: "The cost stays.\n0 of ", 1: "no plan exists: "}
                self.assertIn(text.get(status, ""), said)

    def test_a_plan_that_cannot_be(self):
        old, new = self.made("old", PLACES, ROUTES), self.made(
            "new", PLACES, ROUTES.replace("20", "2")
        )
        status, said, _ = run("diff", old, new)
        self.assertEqual(status, 0)
        self.assertIn(
            "old: cost 171\nnew: no plan exists: Mill must send 30, and can send only 17, over"
            " Mill -> Wien (15), Mill -> Graz (2). Short by 13.\n",
            said,
        )
        more = self.made("more", PLACES.replace("30", "31"), ROUTES)
        self.assertIn(
            "exists: supply exceeds demand by 1: the supplies add to 31, the demands to 30, and"
            " they must be equal (--unused allow lets it stay).\n",
            run("diff", old, more)[1],
        )

    def test_pairs_that_cannot_be(self):
        for costs, text in (
            (",X,Y\nA,,2\nB,,2\n", "exists: Nobody may do X.\n"),
            (
                ",X,Y\nA,,2\nB,,2\nC,,1\n",
                "exists: 3 persons compete for 1 thing: A, B, C can only get Y.\n",
            ),
        ):
            self.pairs(costs)
            self.assertIn(text, run("diff", self.out, self.out)[1])

    def test_folders_that_are_none(self):
        old = self.made("old", PLACES, ROUTES)
        self.assertEqual(run("diff", old, self.folder)[0], 2)
        (old / "answer.csv").unlink()
        self.assertIn("old: this is no folder of a plan", run("diff", old, old)[2])

    def test_a_plan_and_pairs(self):
        old = self.made("old", PLACES, ROUTES)
        self.out = self.folder / "pairs"
        self.pairs((PLANS / "roster-blocked" / "costs.csv").read_text(encoding="utf-8"))
        self.assertIn("is a plan of flow, ", run("diff", old, self.out)[2])
