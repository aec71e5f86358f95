"""Tests of plans over periods as the tool shows them."""
import re
import unittest

from support import WithFolder, rows_of, run

PLACES = """name,period,supply,keep most,keep cost,first stock,last stock
Brewery,,100,,,,
Depot,,0,100,0.5,20,10
Kiel,May,-60,10,1,,
Kiel,June,-90,10,1,,
Kiel,July,-100,,,,
"""
ROUTES = """from,to,most,cost,lead,both
Brewery,Depot,120,2,1,
Depot,Kiel,90,1,0,yes
Brewery,Kiel,40,5,,
"""
# One row stands for the mill in all periods, and one for each route in all; one route goes both
# ways.
WAYS = (
    """name,period,supply,most,keep most,keep cost
Mill,,9.5,5.5,3,1
Shop,May,-4,,0.5,0.5
Shop,June,-8,,2,0.5
Shop,July,-7,,,
Port,May,3,,1,0
Port,June,-2,,,
Port,July,5,,,
""",
    """from,to,most,cost,lead,both
Mill,Shop,5,2,,
Mill,Port,,3,1,
Shop,Port,4,1,,yes
Mill,Shop,9,6,,
""",
)
# A matrix, of which two columns are the same place.
MATRIX = (
    """name;period;supply;most;cost;keep most;keep cost
Mill;;12;;;;
Depot;;0;6;0,5;1;1
Shop;May;-3;;;;
Shop;June;-9;;;;
Port;;-2;;;;
""",
    ";Mill;Depot;Shop;Port;Port\nMill;;1;9;8;8\nDepot;;;2;3;3,5\n",
)
# The heads of what is told for so many units.
SAVES, FURTHER = ("one_more_saves_for",), ("more_costs", "more_costs_for")


def filled(path, keys, heads, separator=","):
    """The cells under heads of those rows of a table in which one of them is filled, by the cells
    under keys."""
    found = {}
    for row in rows_of(path, separator):
        cells = tuple(row[head] for head in heads)
        if any(cells):
            found[tuple(row[head] for head in keys)] = cells
    return found


class Periods(WithFolder):
    """Plans over periods."""

    def test_a_plan(self):
        status, said, _ = self.flow(PLACES, ROUTES, "--unused", "allow")
        self.assertEqual(status, 0)
        self.assertEqual(
            said,
            "A least-cost plan, proved: cost 950.\n"
            "3 places, 3 periods, 11 departures: 8 carry something, 2 are full.\n"
            "60 stay at: Brewery (July) 60.\nNothing is kept from a period to the next.\n",
        )
        flows = rows_of(self.out / "flows.csv")
        self.assertEqual(
            [flows[1][head] for head in ("from", "carries", "departs_in", "arrives_in")],
            ["Brewery", "70", "June", "July"],
        )
        self.assertEqual([flows[3][head] for head in ("from", "to")], ["Kiel", "Depot"])
        sums = [row for row in rows_of(self.out / "sums.csv") if row["by"] == "period"]
        self.assertEqual([row["takes"] for row in sums], ["0", "60", "90", "100", "10"])
        pictures = sorted(path.name for path in self.out.glob("*.svg"))
        self.assertEqual(pictures, ["plan-1.svg", "plan-2.svg", "plan-3.svg"])
        page = (self.out / "report.html").read_text(encoding="utf-8")
        self.assertEqual(page.count('<div class="picture"'), 3)

    def test_again_into_the_same_folder(self):
        self.flow(PLACES, ROUTES, "--unused", "allow")
        plain = "name,supply\nA,1\nB,-1\n", "from,to,most,cost\nA,B,1,1\n"
        self.assertEqual(self.flow(*plain)[0], 0)
        self.assertEqual(sorted(path.name for path in self.out.glob("*.svg")), ["plan.svg"])

    def test_a_matrix_of_costs(self):
        """Its routes share the lines of its rows, and two of them may join the same places."""
        places = "name,period,supply\nA,,3\nB,May,-1\nB,June,-1\nC,,-2\n"
        status, _, told = self.flow(places, ";A;B;C;C\nA;;1,5;2;3\n")
        self.assertEqual(status, 0, told)
        flows = rows_of(self.out / "flows.csv", ";")
        self.assertEqual(
            [(row["to"], row["cost"], row["carries"], row["departs_in"]) for row in flows],
            [
                ("B", "1,5", "1", "May"),
                ("B", "1,5", "1", "June"),
                ("C", "2", "2", "May"),
                ("C", "2", "2", "June"),
                ("C", "3", "0", "May"),
                ("C", "3", "0", "June"),
            ],
        )

    def test_for_how_many_units(self):
        """Each number stands at the departure, the store or the place, and the period, of which the
        answer tells it."""
        self.assertEqual(self.flow(*WAYS, "--unused", "allow", "--ranges")[0], 0)
        self.assertEqual(
            filled(self.out / "flows.csv", ("from", "to", "cost", "departs_in"), SAVES),
            {("Mill", "Shop", "2", "June"): ("0.5",), ("Port", "Shop", "1", "July"): ("1",)},
        )
        self.assertEqual(
            filled(self.out / "stock.csv", ("name", "period"), SAVES),
            {("Shop", "May"): ("2",), ("Port", "May"): ("2",)},
        )
        self.assertEqual(
            filled(self.out / "prices.csv", ("name", "in_period"), SAVES),
            {("Mill", "May"): ("0.5",)},
        )
        self.assertEqual(
            filled(self.out / "prices.csv", ("name", "in_period"), FURTHER),
            {
                ("Shop", "May"): ("4", "0"),
                ("Port", "May"): ("-3", "0.5"),
                ("Shop", "June"): ("6", "0"),
                ("Port", "June"): ("5", "0"),
                ("Shop", "July"): ("2", "2"),
            },
        )
        page = (self.out / "report.html").read_text(encoding="utf-8")
        for words in ("so many units of room more", "so many further units cost that"):
            self.assertIn(words, page)

    def test_for_how_many_units_by_a_matrix(self):
        self.assertEqual(self.flow(*MATRIX, "--unused", "allow", "--ranges")[0], 0)
        for name in ("flows", "stock"):
            self.assertEqual(filled(self.out / f"{name}.csv", ("total",), SAVES, ";"), {})
        self.assertEqual(
            filled(self.out / "prices.csv", ("name", "in_period"), SAVES, ";"),
            {("Depot", "June"): ("3",)},
        )
        self.assertEqual(
            filled(self.out / "prices.csv", ("name", "in_period"), FURTHER, ";"),
            {
                ("Shop", "May"): ("3,5", "1"),
                ("Port", "May"): ("4,5", "1"),
                ("Shop", "June"): ("9", "1"),
                ("Port", "June"): ("8", "1"),
            },
        )

    def test_stock_beside_a_cost_below_0(self):
        """What is kept of a stock has a limit there, which isn't told."""
        places = "name,supply,period,first stock,keep most,keep cost\nW,,Jan,5,9,-1\nW,-2,Feb,,,\n"
        status, _, told = self.flow(places, "from,to,most,cost\n", "--unused", "allow")
        self.assertEqual(status, 0, told)
        self.assertEqual(
            [(row["period"], row["keeps"], row["free"]) for row in rows_of(self.out / "stock.csv")],
            [("first stock", "2", ""), ("Jan", "2", "7")],
        )

    def test_first_and_last_stock(self):
        """Each has a period of its own, of which the tables tell where there is stock. Pictures are
        of named periods."""
        status, _, told = self.flow(PLACES, ROUTES, "--unused", "allow")
        self.assertEqual(status, 0, told)
        self.assertEqual(
            [list(row.values())[:4] for row in rows_of(self.out / "stock.csv")],
            [
                ["Depot", "first stock", "May", "20"],
                ["Depot", "May", "June", "0"],
                ["Kiel", "May", "June", "0"],
                ["Depot", "June", "July", "0"],
                ["Kiel", "June", "July", "0"],
                ["Depot", "July", "last stock", "10"],
            ],
        )
        prices = [(row["name"], row["in_period"]) for row in rows_of(self.out / "prices.csv")]
        self.assertEqual(prices[0], ("Depot", "first stock"))
        self.assertEqual(prices[-1], ("Depot", "last stock"))
        self.assertEqual(len(prices), 11)
        groups = [int(row["group"]) for row in rows_of(self.out / "prices.csv")]
        self.assertEqual(sorted(set(groups)), [1, 2, 3])
        sums = [row for row in rows_of(self.out / "sums.csv") if row["by"] == "name"]
        self.assertEqual(
            [(row["value"], row["lines"], row["sends"], row["takes"]) for row in sums],
            [("Brewery", "3", "240", "0"), ("Depot", "5", "20", "10"), ("Kiel", "3", "0", "250")],
        )
        notes = [
            re.findall(">((?:first stock|keeps) [^<]*)<", path.read_text(encoding="utf-8"))
            for path in sorted(self.out.glob("*.svg"))
        ]
        self.assertEqual(notes, [["first stock 20"], [], ["keeps 10"]])
        page = (self.out / "report.html").read_text(encoding="utf-8")
        rows = re.findall("<tr><td>(?:first|last) stock</td><td>([^<]*)</td>", page)
        self.assertEqual(rows, ["Depot", "Depot"])
        self.assertIn("there before the first period, and kept for it", page)
        table = page[page.index('<table aria-label="Stock"') :].split("</table>")[0]
        self.assertEqual(re.findall("<tr><td>([^<]*)</td>", table), ["Depot", "Kiel"])

    def test_penalties(self):
        """If a place sends in the last period, its penalty there is that of the last stock."""
        places = "name,period,supply,last stock,penalty\nDepot,Jan,,,\nDepot,Feb,3,5,7\n"
        routes = "from,to,most,cost\nDepot,Depot,,1\n"
        self.assertEqual(self.flow(places, routes, "--short", "allow")[0], 0)
        page = (self.out / "report.html").read_text(encoding="utf-8")
        table = page[page.index('<table aria-label="Places"') :].split("</table>")[0]
        column = re.findall("<th [^>]*>([^<]*)", table).index("penalty")
        rows = [re.findall("<td[^>]*>([^<]*)", row) for row in table.split("<tr>")[2:]]
        found = [(cells[0], cells[column]) for cells in rows]
        self.assertEqual(found, [("Jan", ""), ("Feb", ""), ("last stock", "7")])

    def test_no_plan_with_stock(self):
        """Places without first or last stock aren't told of among those that block, and aren't
        drawn in their stock's periods."""
        places = PLACES.replace("July,-100", "July,-160")
        self.assertEqual(self.flow(places, ROUTES, "--unused", "allow")[0], 1)
        rows = [row for row in rows_of(self.out / "bottleneck.csv") if row["kind"] == "place"]
        self.assertEqual(
            [(row["name"], row["must"]) for row in rows if "stock" in row["name"]],
            [("Depot (first stock)", "-20"), ("Depot (last stock)", "10")],
        )
        drawn = (self.out / "plan.svg").read_text(encoding="utf-8")
        self.assertEqual(
            [name for name in re.findall("<title>([^<]*)</title>", drawn) if "stock" in name],
            [
                "Depot (first stock) -&gt; Depot (May): 0 or more",
                "Depot (July) -&gt; Depot (last stock): 0 or more",
                "Depot (first stock)",
                "Depot (last stock)",
            ],
        )

    def test_plans_side_by_side(self):
        """Plans are compared in what they take of first stock and leave as last stock."""
        more = PLACES.replace("0.5,20,10", "0.5,25,10")
        old = self.made("old", PLACES, ROUTES, "--unused", "allow")
        status, said, _ = run("diff", old, self.made("new", more, ROUTES, "--unused", "allow"))
        self.assertEqual(status, 0)
        self.assertIn("  Depot (first stock) -> (kept): 20, now 25 (+5)\n", said)
        self.assertIn(" of 17 differ:\n", said)

    def test_periods_called_as_stock(self):
        """Named periods may be called as those of stock are."""
        for place in ("2", ""):
            places = PLACES.replace("May,-60", "last stock,-30").replace("July", "first stock")
            places = places.replace("0.5,20,10", f"0.5,{place},{place}")
            with self.subTest(place=place):
                status, _, told = self.flow(places, ROUTES, "--unused", "allow")
                self.assertEqual(status, 0, told)
                self.assertEqual(len(list(self.out.glob("*.svg"))), 3)

    def test_stock_is_no_slip(self):
        """All demands may be met from first stock, and all supplies may be left as last stock."""
        routes = "from,to,most,cost\nShop,Shop,,1\n"
        for rows in ("Shop,May,-3,3,\nShop,June,-2,,\n", "Shop,May,5,,\nShop,June,3,,3\n"):
            with self.subTest(rows=rows):
                places = f"name,period,supply,first stock,last stock\n{rows}"
                words = ["--short", "allow", "--unused", "allow"]
                status, _, told = self.flow(places, routes, *words)
                self.assertEqual((status, told), (0, ""))

    def test_what_is_kept(self):
        places = PLACES.replace("May,-60", "May,-10").replace("July,-100", "July,-140")
        status, said, told = self.flow(places, ROUTES, "--unused", "allow")
        self.assertEqual(status, 0, told)
        kept = sum(float(row["keeps"]) for row in rows_of(self.out / "stock.csv"))
        self.assertGreater(kept, 0)
        self.assertIn("What places keep costs ", said)

    def test_no_plan(self):
        places = PLACES.replace("July,-100", "July,-160")
        status, said, _ = self.flow(places, ROUTES, "--unused", "allow")
        self.assertEqual(status, 1)
        self.assertIn("Kiel (July)", said)
        rows = rows_of(self.out / "bottleneck.csv")
        self.assertIn(("Brewery (July)", "Kiel (July)"), [(row["from"], row["to"]) for row in rows])


if __name__ == "__main__":
    unittest.main()
