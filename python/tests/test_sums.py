"""Tests of sums.csv, and of the sums on the page."""
import collections
import decimal
import itertools

from support import PLACES, PLANS, ROUTES, WithFolder, rows_of
from test_models import Case

# Two regions; a road both ways that carries from B to A; decimals after commas.
GERMAN_PLACES = "Ort;supply;Region\nA;-2,5;Süd\nB;7,25;Nord\nC;-6;Süd\n"
GERMAN_ROUTES = (
    "Von;to;most;cost;both;Art\nA;B;9;1,5;yes;Bahn\nB;C;5;2;;\nA;C;4;0,75;;Bahn\nC;A;1;3;;Schiff\n"
)
HEADS = ("--map", "name=Ort", "--map", "from=Von")


def number(cell):
    """The number in a cell, 0 if it is empty."""
    return decimal.Decimal(cell.replace(",", ".") or "0")


class Sums(WithFolder):
    """Sums of flows and of pairs."""

    def sums(self, separator=","):
        """The rows of sums.csv."""
        return rows_of(self.out / "sums.csv", separator)

    def text(self):
        """The text of sums.csv."""
        return (self.out / "sums.csv").read_text(encoding="utf-8")

    def test_places(self):
        self.flow(PLACES, ROUTES)
        self.assertEqual(
            self.text(),
            "table,by,value,lines,comes_in,goes_out,sends,takes,stays,missing,total\n"
            "places,name,Mill,1,0,30,30,0,0,0,165\nplaces,name,Wien,1,18,0,0,18,0,0,0\n"
            "places,name,Graz,1,15,3,0,12,0,0,6\n",
        )

    def test_columns(self):
        words = ["--by", "Region", "--by", "art", "--by", "Von", "--by", "to", "--short", "allow"]
        self.flow(GERMAN_PLACES, GERMAN_ROUTES, *HEADS, *words)
        self.assertEqual(
            self.text(),
            "table;by;value;lines;comes_in;goes_out;sends;takes;stays;missing;carries;total\n"
            "places;Ort;A;1;2,5;0;0;2,5;0;0;;0\nplaces;Ort;B;1;0;7,25;7,25;0;0;0;;13,25\n"
            "places;Ort;C;1;4,75;0;0;4,75;0;1,25;;0\n"
            "places;Region;S\u00fcd;2;7,25;0;0;7,25;0;1,25;;0\n"
            "places;Region;Nord;1;0;7,25;7,25;0;0;0;;13,25\n"
            "routes;Art;Bahn;2;;;;;;;2,5;3,75\nroutes;Art;;1;;;;;;;4,75;9,5\n"
            "routes;Art;Schiff;1;;;;;;;0;0\nroutes;Von;B;2;;;;;;;7,25;13,25\n"
            "routes;Von;A;1;;;;;;;0;0\nroutes;Von;C;1;;;;;;;0;0\n"
            "routes;to;A;2;;;;;;;2,5;3,75\nroutes;to;C;2;;;;;;;4,75;9,5\n",
        )

    def check(self, separator=","):
        """Checks the sums over places, and over routes by their ends, against the other tables."""
        ins, outs, costs = (collections.Counter() for _ in range(3))
        stays, missing = collections.Counter(), collections.Counter()
        for row in rows_of(self.out / "flows.csv", separator):
            carries, ends = number(row["carries"]), (row["from"], row["to"])
            if ends[1] == "(stays)":
                stays[ends[0]] += carries
            elif ends[0] == "(missing)":
                missing[ends[1]] += carries
            else:
                tail, head = ends if carries >= 0 else ends[::-1]
                outs[tail] += abs(carries)
                ins[head] += abs(carries)
                costs[tail] += number(row["total"])
        rows = [row for row in self.sums(separator) if row["table"] == "places"]
        for place in rows_of(self.out / "prices.csv", separator):
            name, supply = place["name"], number(place["supply"])
            row = next(row for row in rows if row["value"] == name)
            sends, takes = max(supply, 0) - stays[name], max(-supply, 0) - missing[name]
            wanted = [ins[name], outs[name], sends, takes, stays[name], missing[name], costs[name]]
            self.assertEqual([number(cell) for cell in [*row.values()][4:10]], wanted[:6], name)
            self.assertEqual(number(row["total"]), wanted[6], name)
            self.assertEqual(ins[name] + sends, outs[name] + takes, name)
        for end, amounts in (("from", outs), ("to", ins)):
            found = [row for row in self.sums(separator) if row["by"] == end]
            self.assertEqual(
                {row["value"]: number(row["carries"]) for row in found if number(row["carries"])},
                {name: amount for name, amount in amounts.items() if amount},
            )

    def test_sums_of_random_plans(self):
        for seed in range(40):
            case = Case(seed, "both")
            with self.subTest(seed=seed):
                places, routes = case.tables()
                words = ["--unused", "allow", "--short", "allow", "--by", "from", "--by", "to"]
                status = self.flow(places, routes, *words, "--penalty", str(case.penalty))[0]
                if status == 0:
                    self.check()

    def test_a_column_of_both_tables(self):
        places, routes = PLACES.replace("supply", "supply,Typ"), ROUTES.replace("cost", "cost,typ")
        self.flow(places.replace("30", "30,x"), routes, "--by", "TYP", "--by", "typ")
        self.assertEqual(
            [(row["table"], row["by"], row["value"], row["lines"]) for row in self.sums()[3:]],
            [("places", "Typ", "x", "1"), ("places", "Typ", "", "2"), ("routes", "typ", "", "3")],
        )

    def test_titles_come_before_heads(self):
        routes = "Von,to,from,most,cost\nMill,Wien,a,,1\nMill,Graz,b,,1\n"
        self.flow(PLACES, routes, "--map", "from=Von", "--by", "from")
        self.assertEqual([row["value"] for row in self.sums()[3:]], ["a", "b"])
        self.flow(PLACES, routes.replace("from", "x"), "--map", "from=Von", "--by", "from")
        self.assertEqual([row["by"] for row in self.sums()[3:]], ["Von"])

    def test_no_such_column(self):
        self.flow(PLACES, ROUTES)
        for places in (PLACES, PLACES.replace("30", "31")):
            status, _, told = self.flow(places, ROUTES, "--by", "week")
            self.assertEqual(status, 2)
            self.assertIn("--by week: there is no such column among 'name', 'supply', 'from'", told)
            self.assertTrue((self.out / "flows.csv").exists())
        status, _, told = self.pairs(",X,Y\nA,1,2\n", "--by", "X")
        self.assertEqual(
            (status, told),
            (2, "mcf_plan: --by X: pairs of a matrix have who, what and cost alone\n"),
        )

    def test_no_plan_has_no_sums(self):
        self.flow(PLACES.replace("30", "31"), ROUTES)
        self.assertFalse((self.out / "sums.csv").exists())

    def test_a_cost_that_is_too_great_is_no_sum(self):
        great = "1" + "0" * 15
        places = f"name,supply,r\nA,{great}0,x\nB,-{great}0,x\nC,1,y\nD,-1,y\n"
        routes = f"from,to,most,cost\nA,B,,{great}\nC,D,,1\n"
        self.flow(places, routes, "--by", "r")
        totals = {row["value"]: row["total"] for row in self.sums()}
        self.assertIn(totals["A"], ("", "1" + "0" * 31))
        self.assertEqual(totals["x"], totals["A"])
        self.assertEqual(totals["y"], "1")

    def test_pairs(self):
        costs = (PLANS / "wishes" / "costs.csv").read_text(encoding="utf-8")
        self.pairs(costs, "--by", "class", "--by", "who", "--by", "what")
        rows, chosen = self.sums(), rows_of(self.out / "pairs.csv")
        self.assertEqual(
            [*dict.fromkeys(row["by"] for row in rows)], ["what", "cost", "class", "who"]
        )
        for title, group in itertools.groupby(rows, lambda row: row["by"]):
            counts = collections.Counter(row[title] for row in chosen)
            for row in group:
                costs = [number(one["cost"]) for one in chosen if one[title] == row["value"]]
                self.assertEqual(
                    (int(row["pairs"]), number(row["total"])), (counts[row["value"]], sum(costs))
                )

    def test_persons_with_two_things(self):
        costs = (
            "who;Ding;cost;takes;day\nA;X;1,5;2..2;Mo\nA;Y;10;;Di\nB;Z;9;1..3;Mi\nB;W;2;;Mo\n"
            "B;Y;3,25;;Do\nC;W;1;0..0;Fr\n"
        )
        self.pairs(costs, "--map", "what=Ding", "--by", "Day", "--each", "what")
        self.assertEqual(
            self.text(),
            "by;value;pairs;total\nDing;X;1;1,5\nDing;Y;1;10\nDing;Z;1;9\nDing;W;1;2\n"
            "who;A;2;11,5\nwho;B;2;11\nwho;C;0;0\n"
            "cost;1,5;1;1,5\ncost;2;1;2\ncost;9;1;9\ncost;10;1;10\n"
            "day;Mo;2;3,5\nday;Di;1;10\nday;Mi;1;9\nday;Do;0;0\nday;Fr;0;0\n",
        )

    def test_a_thing_without_a_person(self):
        self.pairs(",X,Y,Z\nA,7,3,\nB,2,7,1\n", "--by", "who", "--maximise")
        self.assertEqual(
            self.text(),
            "by,value,pairs,total\nwhat,X,1,7\nwhat,Y,1,7\nwhat,Z,0,0\ncost,7,2,14\n"
            "who,A,1,7\nwho,B,1,7\n",
        )

    def test_the_page(self):
        self.flow(GERMAN_PLACES, GERMAN_ROUTES, *HEADS, "--by", "Region", "--short", "allow")
        page = (self.out / "report.html").read_text(encoding="utf-8")
        self.assertIn("<h2>Sums of places by Ort</h2>", page)
        sheet = page[page.index('<table aria-label="Sums of places by Region">') :]
        self.assertEqual(sheet[: sheet.index("</thead>")].count("<th "), 8)
        self.assertIn('title="so many places">lines</th>', sheet)
        self.pairs(",X,Y\nA,1,2\nB,1,2\n")
        page = (self.out / "report.html").read_text(encoding="utf-8")
        self.assertIn("<h2>Sums of pairs by cost</h2>", page)
        self.assertNotIn("only what carries something", page)
