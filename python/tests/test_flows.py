"""Tests of flow plans, and of the messages if no plan exists."""
import itertools
import random

from support import PLACES, ROUTES, WithFolder, rows_of

# Numbers beyond the limits of `mcf`, and the line of the table that caused them.
BEYOND_FLOWS = [
    (
        "name,supply\n\nA,1000000000000000001\nB,-1000000000000000001\n",
        "from,to,least,most,cost\n",
        "places.csv, line 3, column supply: '1000000000000000001' is beyond",
    ),
    (
        PLACES,
        "from,to,least,most,cost\n\nMill,Wien,0,1000000000000000001,1\n",
        "routes.csv, line 3, column most: '0' or '1000000000000000001' is beyond",
    ),
    (
        PLACES,
        "from,to,least,most,cost\nMill,Wien,-" + "9" * 30 + ",1,1\n",
        f"routes.csv, line 2, column least: '-{'9' * 30}' is beyond",
    ),
    (
        PLACES,
        "from,to,least,most,cost\nMill,Wien,-" + "9" * 40 + ",1,1\n",
        f"routes.csv, line 2, column least: '-{'9' * 36}...' has too many digits",
    ),
    (
        PLACES,
        ROUTES + "Mill,Wien,5,4,1\n",
        "routes.csv, line 5, column least: least '5' is greater than most '4'",
    ),
    (
        PLACES,
        "cost,from,to,least,most\n" + "9" * 30 + ",Mill,Wien,0,1\n",
        f"routes.csv, line 2, column cost: '{'9' * 30}' is beyond",
    ),
    (
        PLACES,
        "from,to,least,most,cost\n" + "Mill,Wien,0,1000000000000000000,1000000000000000\n" * 1001,
        "routes.csv, line 1002, column cost: '1000000000000000' is beyond",
    ),
]
# Other spellings of the tables PLACES and ROUTES, with the same meaning.
SAME_PLACES = [
    "\ufeffname,supply\nMill,30\nWien,-18\nGraz,-12\n",
    "Name;Supply\r\nMill;30\r\nWien;-18\r\nGraz;-12\r\n",
    "supply\tname\n30\tMill\n-18\tWien\n-12\tGraz",
    (
        '\nname , supply ,note\n\n"Mill","+30","a ""big"" one,\nby the river"\n Wien ,'
        " -018\n,,\nGraz,-12,"
    ),
    "name,supply\rMill,30\rWien,-18\rGraz,-12\r",
]


class Flows(WithFolder):
    """Plans, and the messages if none exists."""

    def test_a_plan(self):
        status, said, told = self.flow(PLACES, ROUTES)
        self.assertEqual((status, told), (0, ""))
        self.assertIn("cost 171", said)
        self.assertEqual(
            (self.out / "flows.csv").read_text(),
            (
                "from,to,least,most,cost,carries,total,free,one_more_saves,exact,"
                "one_more_carried_costs\n"
                "Mill,Wien,0,15,4,15,60,0,5,yes,\nMill,Graz,0,20,7,15,105,5,0,yes,0\n"
                "Graz,Wien,0,10,2,3,6,7,0,yes,0\n"
            ),
        )
        self.assertEqual(
            (self.out / "prices.csv").read_text(),
            "name,supply,one_more_costs,group\nMill,30,0,1\nWien,-18,9,1\nGraz,-12,7,1\n",
        )

    def test_ranges(self):
        places = PLACES + "Hub,0\n"
        routes = "from,to,most,cost,both,most 2,cost 2\n" + (
            "Mill,Wien,15,4,,,\nMill,Graz,20,7,yes,,\nGraz,Wien,10,2,,5,3\nGraz,Hub,1,0,,,\n"
        )
        self.assertEqual(self.flow(places, routes, "--ranges")[0], 0)
        rows = rows_of(self.out / "flows.csv")
        told = [(row["cost_may_fall_to"], row["cost_may_rise_to"]) for row in rows]
        self.assertEqual(told, [("", "9"), ("2", ""), ("-3", ""), ("", "")])
        page = (self.out / "report.html").read_text()
        self.assertIn("The plan stays least while the cost of one route", page)
        self.flow(places.replace("supply", "supply,most"), routes, "--ranges")
        self.assertEqual(rows_of(self.out / "flows.csv")[1]["cost_may_rise_to"], "")
        bounded = "name,supply,most\nMill,30,40\nWien,-18,\nGraz,-12,\nHub,0,\n"
        self.flow(bounded, routes, "--ranges")
        self.assertEqual(rows_of(self.out / "flows.csv")[1]["cost_may_rise_to"], "unknown")
        again = (self.out / "flows.csv").read_text()
        self.assertEqual(self.flow(bounded, again)[0], 0)
        self.assertNotIn("cost_may", (self.out / "flows.csv").read_text())

    def test_tables_that_mean_the_same(self):
        for places in SAME_PLACES:
            with self.subTest(places=places):
                status, said, told = self.flow(places, ROUTES)
                self.assertEqual((status, told), (0, ""))
                self.assertIn("cost 171", said)

    def test_results_are_written_as_the_tables_are(self):
        self.flow(SAME_PLACES[0], ROUTES.replace(",", ";"))
        self.assertTrue(
            (self.out / "prices.csv").read_bytes().startswith(b"\xef\xbb\xbfname,supply")
        )
        self.assertTrue((self.out / "flows.csv").read_bytes().startswith(b"from;to;"))

    def test_numbers_beyond_the_limits(self):
        for places, routes, begins in BEYOND_FLOWS:
            with self.subTest(begins=begins):
                status, said, told = self.flow(places, routes)
                self.assertEqual((status, said), (2, ""))
                self.assertIn(begins, told)

    def test_supply_exceeds_demand(self):
        status, said, _ = self.flow(
            "name,supply\nA,9\nB,-7\n", "from,to,least,most,cost\nA,B,0,9,1\n"
        )
        self.assertEqual(status, 1)
        self.assertIn("supply exceeds demand by 2: the supplies add to 9, the demands to 7", said)
        self.assertEqual([row["must"] for row in rows_of(self.out / "bottleneck.csv")], ["9", "-7"])

    def test_demand_exceeds_supply(self):
        status, said, _ = self.flow(
            "name,supply\nA,4\nB,-7\n", "from,to,least,most,cost\nA,B,0,9,1\n"
        )
        self.assertEqual(status, 1)
        self.assertIn("demand exceeds supply by 3: the supplies add to 4, the demands to 7", said)

    def test_places_that_must_send(self):
        status, said, _ = self.flow(
            "name,supply\nA,5\nB,0\nC,-5\n", "from,to,least,most,cost\nA,B,0,4,1\nB,C,0,9,1\n"
        )
        self.assertEqual(status, 1)
        self.assertIn("A must send 5, and can send only 4, over A -> B (4).", said)

    def test_places_that_must_take(self):
        routes = "from,to,least,most,cost\nA,B,0,9,1\nB,C,0,9,1\nC,D,0,3,1\nB,D,0,1,1\n"
        status, said, _ = self.flow("name,supply\nA,5\nB,0\nC,0\nD,-5\n", routes)
        self.assertEqual(status, 1)
        self.assertIn("D must take 5, and can take only 4, over C -> D (3), B -> D (1).", said)

    def test_places_that_nothing_leads_to(self):
        self.assertIn(
            "C must take 2, and no route leads there.",
            self.flow("name,supply\nA,2\nB,0\nC,-2\n", "from,to,least,most,cost\nA,B,0,4,1\n")[1],
        )

    def test_a_least_amount_that_is_too_much(self):
        routes = "from,to,least,most,cost\nB,A,2,3,1\nA,B,0,1,1\n"
        status, said, _ = self.flow("name,supply\nA,0\nB,0\n", routes)
        self.assertEqual(status, 1)
        self.assertIn(
            "A must send 2 (with the least of B -> A (2)), and can send only 1, over A -> B (1).",
            said,
        )
        rows = rows_of(self.out / "bottleneck.csv")
        self.assertEqual(
            [(row["kind"], row["must"], row["can"]) for row in rows],
            [("place", "0", ""), ("route", "2", ""), ("route", "", "1")],
        )

    def test_two_bottlenecks(self):
        places = "name,supply\nA,5\nB,-5\nC,6\nD,-6\n"
        said = self.flow(places, "from,to,least,most,cost\nA,B,0,4,1\nC,D,0,4,1\n")[1]
        self.assertIn("A must send 5, and can send only 4", said)
        self.assertIn("C must send 6, and can send only 4", said)
        self.assertEqual(
            {row["bottleneck"] for row in rows_of(self.out / "bottleneck.csv")}, {"1", "2"}
        )

    def test_results_of_an_earlier_run_are_removed(self):
        self.flow(PLACES, ROUTES)
        self.flow(PLACES, ROUTES.replace("20", "2"))
        self.assertFalse((self.out / "flows.csv").exists())
        self.assertTrue((self.out / "bottleneck.csv").exists())

    def test_loops_and_parallel_routes(self):
        routes = ROUTES + "Mill,Wien,0,2,5\nGraz,Graz,0,3,-7\nGraz,Graz,1,3,7\n"
        self.assertEqual(self.flow(PLACES, routes)[0], 0)
        rows = rows_of(self.out / "flows.csv")
        self.assertEqual([row["carries"] for row in rows], ["15", "13", "1", "2", "3", "1"])
        self.assertEqual(rows[4]["one_more_saves"], "7")
        self.assertEqual(
            [row["one_more_carried_costs"] for row in rows], ["", "0", "0", "", "", "7"]
        )

    def test_tables_without_rows(self):
        status, said, _ = self.flow("name,supply\n", "from,to,least,most,cost\n")
        self.assertEqual(status, 0)
        self.assertIn("cost 0", said)


class Unbalanced(WithFolder):
    """Tables whose supplies and demands have different sums."""

    PLACES = "name,supply\nA,9\nB,4\nC,-7\nD,-3\n"
    ROUTES = "from,to,most,cost\nA,C,9,2\nA,D,9,5\nB,C,9,1\nB,D,2,1\n"

    def test_what_stays(self):
        status, said, told = self.flow(self.PLACES, self.ROUTES, "--unused", "allow")
        self.assertEqual((status, told), (0, ""))
        self.assertIn("cost 19.", said)
        self.assertIn("3 stay at: A 3.", said)
        self.assertEqual(
            (self.out / "flows.csv").read_text().splitlines()[-1], "A,(stays),,,3,0,,,,"
        )

    def test_demands_that_are_written_as_supplies(self):
        places, routes = "name,supply\nA,5\nB,5\n", "from,to,most,cost\nA,B,,1\n"
        slip = "no supply is below 0, so no place takes anything"
        status, said, told = self.flow(places, routes, "--unused", "allow")
        self.assertEqual(status, 0)
        self.assertNotIn(slip, said)
        self.assertIn(f"mcf_plan: warning: {slip}, and all that is sent stays: was", told)
        page = (self.out / "report.html").read_text(encoding="utf-8")
        self.assertIn(f"<p>Warning: {slip}, and all that is sent stays: was demand", page)
        status, _, told = self.flow(places, routes)
        self.assertEqual(status, 1)
        self.assertIn(f"mcf_plan: warning: {slip}: was demand", told)
        page = (self.out / "report.html").read_text(encoding="utf-8")
        self.assertIn(f"<p>Warning: {slip}: was demand", page)
        for fine in ("name,supply\nA,0\nB,0\n", "name,supply\nA,5\nB,-5\n"):
            self.assertEqual(self.flow(fine, routes)[2], "")

    def test_what_is_missing(self):
        places = self.PLACES.replace("A,9", "A,1")
        status, said, told = self.flow(places, self.ROUTES, "--short", "allow")
        self.assertEqual((status, told), (0, ""))
        self.assertIn("cost 6.", said)
        self.assertIn("5 are missing at: ", said)
        self.assertEqual(
            sum(
                int(row["carries"])
                for row in rows_of(self.out / "flows.csv")
                if row["from"] == "(missing)"
            ),
            5,
        )
        self.assertTrue(
            all(int(row["one_more_costs"]) < 9 for row in rows_of(self.out / "prices.csv"))
        )

    def test_a_penalty(self):
        places = self.PLACES.replace("A,9", "A,1")
        for penalty, cost in (("10", "56"), ("0,5", "8,5"), ("0", "6")):
            with self.subTest(penalty=penalty):
                status, said, _ = self.flow(
                    places, self.ROUTES, "--short", "allow", "--penalty", penalty, "--decimal", ","
                )
                self.assertEqual(status, 0)
                self.assertIn(f"cost {cost}.", said)
                total = sum(
                    float(row["total"].replace(",", "."))
                    for row in rows_of(self.out / "flows.csv")
                    if row["from"] == "(missing)"
                )
                self.assertEqual(total, 5 * float(penalty.replace(",", ".")))

    def test_a_penalty_is_written_as_in_the_tables(self):
        places, words = self.PLACES.replace("A,9", "A,1"), ["--short", "allow", "--penalty"]
        semicolons = self.ROUTES.replace(",", ";").replace("A;D;9;5", "A;D;9;5,5")
        for routes, penalty, cost in (
            (semicolons, "1,500", "13,5"),
            (semicolons, "1.500", None),
            (self.ROUTES, "1,5", "13,5"),
            (self.ROUTES, "1.5", "13.5"),
            (self.ROUTES, "1.500", None),
            (self.ROUTES.replace("A,D,9,5", "A,D,9,5.5"), "1.500", "13.5"),
            (self.ROUTES.replace("A,D,9,5", "A,D,9,5.5"), "1,5", None),
        ):
            with self.subTest(routes=routes, penalty=penalty):
                status, said, told = self.flow(places, routes, *words, penalty)
                self.assertEqual(status, 2 if cost is None else 0)
                expected = f"cost {cost}." if cost else f"--penalty {penalty}: this is no cost"
                self.assertIn(expected, said + told)

    def test_a_penalty_that_is_none(self):
        for words in (
            ["--penalty", "3"],
            ["--short", "allow", "--penalty", "much"],
            ["--short", "allow", "--penalty", "-1"],
            ["--short", "allow", "--penalty", ""],
            ["--short", "allow", "--penalty", "1" + 40 * "0"],
            ["--short", "allow", "--penalty", "1" + 15 * "0" + ".1", "--decimal", "."],
            ["--short", "allow", "--penalty", "1" + 14 * "0" + "1"],
        ):
            status, _, told = self.flow(self.PLACES, self.ROUTES, *words)
            self.assertEqual(status, 2)
            self.assertIn("mcf_plan: --penalty", told)

    def test_as_much_as_can_be(self):
        status, said, _ = self.flow(
            "name,supply\nA,9\nB,-5\nC,-9\n",
            "from,to,most,cost\nA,B,9,1\nA,C,3,8\n",
            "--unused",
            "allow",
            "--short",
            "allow",
        )
        self.assertEqual(status, 0)
        for text in ("cost 29.", "1 stay at: A 1.", "6 are missing at: C 6."):
            self.assertIn(text, said)

    def test_as_much_as_can_be_beside_penalties(self):
        """At a penalty of 1, nothing is sent over a route that costs 4."""
        places = "name,supply,penalty\nA,9,\nB,-5,1\n"
        routes = "from,to,most,cost\nA,B,3,4\n"
        status, said, told = self.flow(places, routes, "--most-flow")
        self.assertEqual((status, said, self.out.exists()), (2, "", False))
        self.assertIn("mcf_plan: --most-flow: places have penalties", told)
        status, said, _ = self.flow(places.replace("5,1", "5,"), routes, "--most-flow")
        self.assertEqual(status, 0)
        self.assertIn("2 are missing at: B 2.", said)

    def test_a_bottleneck_beside_the_balance(self):
        places, routes = "name,supply\nA,9\nB,-5\nC,-9\n", "from,to,most,cost\nA,B,4,1\nA,C,9,1\n"
        status, said, _ = self.flow(places, routes)
        self.assertEqual(status, 1)
        self.assertIn(
            (
                "  demand exceeds supply by 5: the supplies add to 9, the demands to 14, and they"
                " must be equal (--short allow lets it be short)."
            ),
            said,
        )
        self.assertNotIn("Even if", said)
        status, said, _ = self.flow(places.replace("A,9", "A,19"), routes)
        self.assertEqual(status, 1)
        self.assertIn("  supply exceeds demand by 5", said)
        self.assertIn(
            (
                "Even if that stays, no plan exists, proved:\n"
                "  B must take 5, and can take only 4, over A -> B (4). Short by 1."
            ),
            said,
        )
        self.assertEqual(
            {row["bottleneck"] for row in rows_of(self.out / "bottleneck.csv")}, {"1", "2"}
        )

    def test_what_may_stay_and_is_lacking(self):
        status, said, _ = self.flow(
            self.PLACES.replace("A,9", "A,1"), self.ROUTES, "--unused", "allow"
        )
        self.assertEqual(status, 1)
        self.assertIn("demand exceeds supply by 5", said)

    def test_what_stays_with_least_amounts(self):
        status, said, _ = self.flow(
            "name,supply\nA,2\nB,0\nC,-1\n",
            "from,to,least,most,cost\nA,B,1,4,1\nB,C,0,1,1\nA,C,3,4,1\n",
            "--unused",
            "allow",
        )
        self.assertEqual(status, 1)
        self.assertIn("must", said)


class Bottlenecks(WithFolder):
    """Bottlenecks of random tables, as places that must send (or take) more than they can."""

    def test_random_tables(self):
        draw, seen = random.Random(7), 0
        for case in range(120):
            supplies = [draw.randint(-5, 5) for _ in range(draw.randint(2, 6))]
            supplies[0] -= draw.choice((1, 1, 0)) * sum(supplies)
            routes = [self.route(draw, len(supplies)) for _ in range(2 * len(supplies))]
            words = draw.choice(([], [], ["--unused", "allow"], ["--short", "allow"]))
            places = "".join(f"P{number},{supply}\n" for number, supply in enumerate(supplies))
            lines = "".join(
                f"P{tail},P{head},{least or ''},{most},1,{'yes' if both else ''}\n"
                for tail, head, least, most, both in routes
            )
            status = self.flow(
                f"name,supply\n{places}",
                f"from,to,least,most,cost,both\n{lines}",
                *words,
                "--no-picture",
            )[0]
            for rows in self.bottlenecks() if status == 1 else ():
                with self.subTest(case=case, rows=rows):
                    self.check(rows, supplies, routes)
                    seen += 1
        self.assertGreater(seen, 60)

    @staticmethod
    def route(draw, count):
        """A route: its ends, its bounds, and whether it goes both ways."""
        both, most = draw.random() < 0.2, draw.randint(0, 3)
        least = 0 if both or draw.random() < 0.8 else draw.randint(0, most)
        return (*draw.sample(range(count), 2), least, most, both)

    def bottlenecks(self):
        """The rows of each bottleneck."""
        rows = rows_of(self.out / "bottleneck.csv")
        return [list(group) for _, group in itertools.groupby(rows, lambda row: row["bottleneck"])]

    def check(self, rows, supplies, routes):
        """Checks a bottleneck by the tables."""
        sign = 1 if rows[0]["side"] == "send" else -1
        inside = {int(row["name"][1:]) for row in rows if row["kind"] == "place"}
        must, can = (sum(int(row[head] or 0) for row in rows) for head in ("must", "can"))
        hub = [int(row["can"]) for row in rows if "(" in row["from"] + row["to"]]
        forced, limited = 0, sum(hub)
        for tail, head, least, most, both in routes:
            ends = [(tail, head, least)] + [(head, tail, 0)] * both
            for begin, end, bound in ends:
                if (begin in inside) != (end in inside):
                    leads_on = (begin in inside) == (sign > 0)
                    forced, limited = (
                        (forced, limited + most) if leads_on else (forced + bound, limited)
                    )
        self.assertEqual(must, forced + sign * sum(supplies[number] for number in inside))
        self.assertEqual(can, limited)
        self.assertGreater(must, can)
        mine = [sign * supplies[number] for number in inside if sign * supplies[number] > 0]
        self.assertIn(sorted(hub), ([], sorted(mine)))
