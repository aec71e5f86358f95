"""Tests of plans side by side."""
import hashlib
import re

from support import PLACES, PLANS, ROUTES, WithFolder, run
from test_diff import DECIMAL_PLACES, DECIMAL_ROUTES

STOCK = "name,period,supply,keep most,keep cost\nMill,Mo,5,,\nHub,,,9,1\nWien,Tu,-5,,\n"
LEAD = "from,to,most,cost,lead\nMill,Hub,,4,\nHub,Wien,,4,\nMill,Wien,,12,1\n"


class Compare(WithFolder):
    """`mcf_plan compare`."""

    def plans(self):
        """Four plans: two that differ, one with penalties for what is missing, and none."""
        narrow = DECIMAL_ROUTES.replace("20;7", "12;7")
        words = ["--short", "allow", "--unused", "allow", "--penalty", "20"]
        return [
            self.made("wide", DECIMAL_PLACES, DECIMAL_ROUTES),
            self.made("new", DECIMAL_PLACES, DECIMAL_ROUTES + "Mill;Wien;1;3;;;\n"),
            self.made("narrow", DECIMAL_PLACES, narrow, *words),
            self.made("none", DECIMAL_PLACES, narrow),
        ]

    def test_plans(self):
        status, said, told = run("compare", *self.plans())
        self.assertEqual((status, told), (0, ""))
        self.assertEqual(
            said,
            "                               wide     new  narrow  none\n"
            "cost                         172,25  166,25  188,75     -\n"
            "delivered                      30,5    30,5      29     -\n"
            "stays                             0       0     1,5     -\n"
            "missing                           0       0     1,5     -\n"
            "cost of what is missing           0       0      30     -\n"
            "routes                            3       4       3     -\n"
            "routes that carry something       3       4       2     -\n"
            "full routes                       1       2       2     -\n"
            "none: no plan exists: Mill must send 30,5, and can send only 29, over Mill -> Wien"
            " (17), Mill -> Graz (12). Short by 1,5.\n"
            "These plans don't deliver the same at each place: mind that where you compare what"
            " they cost.\n"
            "5 of 6 amounts differ:\n"
            "                   wide   new  narrow  none\n"
            "(missing) -> Wien     0     0     1,5     -\n"
            "Graz -> Wien        1,5   0,5       0     -\n"
            "Mill -> (stays)       0     0     1,5     -\n"
            "Mill -> Graz       13,5  12,5      12     -\n"
            "Mill -> Wien (2)      -     1       -     -\n",
        )

    def test_the_table_and_the_page(self):
        plans, folder = self.plans(), self.folder / "compared"
        for _ in range(2):
            self.assertEqual(run("compare", *plans, "-o", folder)[0], 0)
        self.assertEqual(
            sorted(path.name for path in folder.iterdir()), ["compare.csv", "compare.html"]
        )
        table = (folder / "compare.csv").read_text(encoding="utf-8")
        self.assertTrue(
            table.startswith(
                "figure;from;to;wide;new;narrow;none\ncost;;;172,25;166,25;188,75;\n"
                "delivered;;;30,5;30,5;29;\n"
            )
        )
        self.assertTrue(
            table.endswith(
                "carries;Mill;Wien;17;17;17;\ncarries;Mill;Graz;13,5;12,5;12;\n"
                "carries;Graz;Wien;1,5;0,5;0;\ncarries;Mill;Wien;;1;;\n"
                "carries;Mill;(stays);0;0;1,5;\ncarries;(missing);Wien;0;0;1,5;\n"
            ),
            table,
        )
        page = (folder / "compare.html").read_text(encoding="utf-8")
        self.assertIn("<h1>4 plans side by side</h1>", page)
        self.assertIn('<td class="number" data-value="172.25">172,25</td>', page)
        for plan in plans:
            self.assertIn(hashlib.sha256((plan / "answer.csv").read_bytes()).hexdigest(), page)

    def test_more_than_twenty(self):
        ends = [f"M{number}" for number in range(30)]
        routes = "from,to,most,cost\n" + "".join(f"A,{end},,1\n" for end in ends)
        plans = [
            self.made(
                name,
                f"name,supply\nA,{30 * amount}\n" + "".join(f"{end},-{amount}\n" for end in ends),
                routes,
            )
            for name, amount in (("a", 1), ("b", 2))
        ]
        said = run("compare", *plans)[1]
        self.assertIn("30 of 30 amounts differ, most of all:\n", said)
        self.assertTrue(said.endswith("\nand 10 more (-o FOLDER writes all)\n"))
        self.assertEqual(len(re.findall("^A -> M", said, re.M)), 20)
        self.assertIn("0 of 30 amounts differ.\n", run("compare", plans[0], plans[0])[1])

    def test_one_plan_alone(self):
        routes = "from,to,most,cost\nA,B,2,1\n"
        plans = [
            self.made(name, f"name,supply\nA,{amount}\nB,-{amount}\n", routes)
            for name, amount in (("a", 2), ("b", 3))
        ]
        said = run("compare", *plans, "-o", self.folder / "c")[1]
        self.assertIn("b: no plan exists: ", said)
        self.assertNotIn("differ", said)
        page = (self.folder / "c/compare.html").read_text(encoding="utf-8")
        self.assertIn("b: no plan exists: ", page)
        self.assertNotIn("differ", page)

    def test_tables_with_a_byte_order_mark(self):
        plan = self.made("plan", "\ufeff" + PLACES, "\ufeff" + ROUTES)
        for _ in range(2):
            self.assertEqual(run("compare", plan, plan, "-o", self.folder / "c")[0], 0)
        self.assertTrue((self.folder / "c/compare.csv").read_bytes().startswith(b"\xef\xbb\xbffig"))

    def test_folders_of_the_same_name(self):
        (self.folder / "a").mkdir()
        (self.folder / "b").mkdir()
        plans = [self.made(f"{name}/plan", PLACES, ROUTES) for name in "ab"]
        self.assertIn(f"  {plans[0]}  {plans[1]}\n", run("compare", *plans)[1])

    def test_an_answer_that_was_changed(self):
        one, other = (self.made(name, PLACES, ROUTES) for name in ("one", "other"))
        text = (other / "answer.csv").read_text(encoding="utf-8")
        changed = text.replace('"cost","171"', '"cost","17"')
        (other / "answer.csv").write_text(changed, encoding="utf-8")
        told = (
            "ts answer.csv has changed since the run, so nothing of it is proved: mcf_plan verify"
        )
        self.assertIn(f"\nother: I{told}", run("compare", one, other)[1])
        said = run("diff", one, other)[1]
        self.assertIn(f"\nnew: cost 17\n  I{told}", said)
        self.assertEqual(said.count("has changed"), 1)
        (other / "asked.json").unlink()
        self.assertNotIn("has changed", run("compare", one, other)[1])

    def test_what_places_keep(self):
        plans = [self.made("much", STOCK, LEAD), self.made("less", STOCK.replace("9", "2"), LEAD)]
        run("compare", *plans, "-o", self.folder / "c")
        self.assertEqual(
            (self.folder / "c/compare.csv").read_text(encoding="utf-8"),
            "figure,from,to,much,less\ncost,,,45,54\ndelivered,,,5,5\n"
            "cost of what is kept,,,5,2\nroutes,,,5,5\nroutes that carry something,,,2,3\n"
            "full routes,,,0,0\ncarries,Mill (Mo),Hub (Mo),5,2\ncarries,Mill (Tu),Hub (Tu),0,0\n"
            "carries,Hub (Mo),Wien (Mo),0,0\ncarries,Hub (Tu),Wien (Tu),5,2\n"
            "carries,Mill (Mo),Wien (Tu),0,3\ncarries,Hub (Mo),(kept),5,2\n",
        )
        self.assertIn("\n  Hub (Mo) -> (kept): 5, now 2 (-3)\n", run("diff", *plans)[1])

    def test_pairs(self):
        plans = []
        for name, words in (("least", []), ("most", ["--maximise"])):
            self.out = self.folder / name
            self.pairs(",X,Y,Z\nA,1,5,3\nB,2,9,2\n", *words)
            plans.append(self.out)
        self.assertEqual(
            run("compare", *plans)[1],
            "                         least  most\ncost                         3    12\n"
            "pairs                        2     2\npersons without a thing      0     0\n"
            "things left over             1     1\n"
            "These plans don't have each thing as often: mind that where you compare what they"
            " cost.\n4 of 4 pairs differ:\n        least  most\nA -> X      1     -\n"
            "A -> Z      -     1\nB -> Y      -     1\nB -> Z      1     -\n",
        )
        run("compare", *plans, "-o", self.folder / "c")
        table = (self.folder / "c/compare.csv").read_text(encoding="utf-8")
        self.assertTrue(table.startswith("figure,who,what,least,most\ncost,,,3,12\n"))
        self.assertIn("\npair,A,X,1,\n", table)

    def test_wrong_calls(self):
        plan = self.made("plan", PLACES, ROUTES)
        self.out = self.folder / "pairs"
        self.pairs((PLANS / "roster" / "costs.csv").read_text(encoding="utf-8"))
        for words, text in (
            ([plan], "compare takes two folders of plans or more"),
            ([plan, self.out], "is a plan of flow, "),
            ([plan, self.folder], "this is no folder of a plan"),
            ([plan, plan, "-o", plan], "has files that are no results, such as answer.csv"),
        ):
            status, _, told = run("compare", *words)
            self.assertEqual(status, 2, told)
            self.assertIn(text, told)
        self.assertTrue((plan / "answer.csv").exists())
        run("compare", plan, plan, "-o", self.folder / "c")
        status, _, told = self.flow(PLACES, ROUTES, "-o", self.folder / "c")
        self.assertEqual(status, 2)
        self.assertIn("has files that are no results, such as compare.csv", told)
