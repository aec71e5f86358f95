"""Tests of the messages about tables that can't be read as intended."""
import html
import importlib.util
import json
import pathlib
import re
import shutil
import unittest

from mcf_plan import tables
from mcf_plan.answer import Sheet
from mcf_plan.figures import Figure
from support import PLACES, ROUTES, WithFolder, rows_of, run

# Tables with options, the expected status and message, and what the page shows. The tests of the
# browser page use the same list.
RULES = json.loads((pathlib.Path(__file__).parent / "rules.json").read_text(encoding="utf-8"))


class Rules(WithFolder):
    """The list of rules: how tables are read, and the messages."""

    def said_of(self, rule, *more):
        """The message of the tool about the tables of a rule, and its status."""
        for name in ("places", "routes", "costs", "groups"):
            if name in rule:
                table = rule[name]
                self.put(
                    f"{name}.csv",
                    table["latin1"].encode("latin-1") if isinstance(table, dict) else table,
                )
        words = ["pairs", "costs.csv"] if "costs" in rule else ["flow", "places.csv", "routes.csv"]
        words = words[:1] + [self.folder / word for word in words[1:]]
        words += ["--groups", self.folder / "groups.csv"] if "groups" in rule else []
        status, said, told = run(*words, *rule.get("options", []), *more, "-o", self.out)
        return status, (said + told).replace(f"{self.folder}/", "")

    def shown(self):
        """The lines of the page and of its picture."""
        page = (self.out / "report.html").read_text(encoding="utf-8")
        parts = re.sub("</?(b|br|a|code)( [^>]*)?>", " ", page)
        return html.unescape(re.sub("(<[^>]*>)+", "\n", parts))

    def test_what_is_said(self):
        for rule in RULES:
            with self.subTest(says=rule["says"]):
                status, said = self.said_of(rule)
                self.assertEqual(status, rule["status"], said)
                for text in rule["says"]:
                    self.assertIn(text, said)
                self.assertEqual(self.out.exists(), status != 2)
                for text in rule.get("shows", ()):
                    self.assertIn(text, self.shown())
                shutil.rmtree(self.out, ignore_errors=True)


class BadTables(WithFolder):
    """Messages about tables that can't be read as intended."""

    def test_each_kind_of_fault_is_told_once(self):
        places = "name,supply\n" + "".join(f"A{k},x{k}\n" for k in range(300)) + "A1,1\n"
        routes = ROUTES + "".join(f"A1,B{k},0,1,1e{k}\n" for k in range(300))
        told = self.flow(places, routes)[2].replace(f"{self.folder}/", "").splitlines()
        self.assertEqual(
            told,
            [
                (
                    "mcf_plan: places.csv, line 2, column supply: 'x0' is no number (300 such"
                    " cells; also 'x1' in line 3, 'x2' in line 4, 'x3' in line 5, 'x4' in line 6)"
                ),
                "mcf_plan: places.csv, line 302, column name: a place 'A1' is already on line 3",
                (
                    "mcf_plan: routes.csv, line 2, column from: there is no place 'Mill' (3 such"
                    " cells; also 'Mill' in line 3, 'Graz' in line 4)"
                ),
                (
                    "mcf_plan: routes.csv, line 2, column to: there is no place 'Wien' (303 such"
                    " cells; also 'Graz' in line 3, 'Wien' in line 4, 'B0' in line 5, 'B1' in"
                    " line 6)"
                ),
                (
                    "mcf_plan: routes.csv, line 5, column cost: '1e0' is written with an exponent;"
                    " write all its digits (300 such cells; also '1e1' in line 6, '1e2' in line 7,"
                    " '1e3' in line 8, '1e4' in line 9)"
                ),
            ],
        )

    def test_a_missing_table(self):
        self.assertEqual(run("pairs", self.folder / "none.csv", "-o", self.out)[0], 2)

    def test_wrong_calls(self):
        for words in (
            [],
            ["flow"],
            ["flow", "a.csv", "b.csv"],
            ["pears", "a.csv", "-o", "x"],
            ["pairs", "a.csv", "b.csv", "-o", "x"],
        ):
            with self.subTest(words=words):
                self.assertEqual(run(*words)[0], 2)

    def test_heads_and_encodings_that_are_none(self):
        for words, text in (
            (["--map", "supply="], "--map supply=: say --map HEAD=NAME"),
            (["--map", "most 1=A"], "--map most 1=A: say --map HEAD=NAME"),
            (["--map", "most 10=A"], "there is no such column, which --map most 10=A names"),
            (["--encoding", "undefined"], "places.csv: this isn't text in undefined"),
            (["--encoding", "none"], "there is no encoding 'none'"),
        ):
            with self.subTest(words=words):
                status, _, told = self.flow(PLACES, ROUTES, *words)
                self.assertEqual(status, 2)
                self.assertIn(text, told)

    def test_a_table_is_never_written_over(self):
        places, routes = self.put("places.csv", PLACES), self.put("flows.csv", ROUTES)
        status, _, told = run("flow", places, routes, "-o", self.folder)
        self.assertEqual(status, 2)
        self.assertIn("has files that are no results", told)
        self.assertEqual(routes.read_text(), ROUTES)


class Reading(WithFolder):
    """The forms of tables that planners have."""

    def total(self, costs, *more, places="name;supply\nA;2,5\nB;-2,5\n"):
        """The cost of a plan over one route of this cost."""
        status, said, told = self.flow(places, f"from;to;most;cost\nA;B;;{costs}\n", *more)
        self.assertEqual((status, told), (0, ""))
        return said.split(": cost ")[1].split(".\n")[0].replace(",", ".")

    def test_decimals_are_exact(self):
        self.assertEqual(self.total("0,000001"), "0.0000025")

    def test_results_have_the_mark_of_the_tables(self):
        self.total("12,50")
        self.assertEqual(
            (self.out / "flows.csv").read_text(),
            "from;to;most;cost;carries;total;free;one_more_saves;exact;one_more_carried_costs\n"
            "A;B;;12,50;2,5;31,25;;0;yes;0\n",
        )
        self.assertEqual(
            (self.out / "prices.csv").read_text(),
            "name;supply;one_more_costs;group\nA;2,5;0;1\nB;-2,5;12,5;1\n",
        )

    def test_encodings(self):
        places, routes = "name,supply\nGr\u00fcn,1\nB,-1\n", "from,to,most,cost\nGr\u00fcn,B,,1\n"
        for encoding, more in (("cp1252", ["--encoding", "windows-1252"]), ("utf-16", [])):
            with self.subTest(encoding=encoding):
                status, said, told = self.flow(
                    places.encode(encoding), routes.encode(encoding), *more
                )
                self.assertEqual((status, told), (0, ""))
                self.assertIn("Gr\u00fcn", (self.out / "flows.csv").read_text(encoding="utf-8-sig"))
        self.assertIn(
            "there is no encoding 'ansi?'", self.flow(places, routes, "--encoding", "ansi?")[2]
        )

    def test_own_heads(self):
        places, routes = "Ort;Angebot;name\nA;1;x\nB;-1;y\n", "Von;Nach;Max;Preis\nA;B;5;3\n"
        words = [
            word
            for pair in (
                "name=Ort",
                "supply=Angebot",
                "from=von",
                "to=Nach",
                "most=Max",
                "cost=Preis",
            )
            for word in ("--map", pair)
        ]
        self.assertEqual(self.flow(places, routes, *words)[0], 0)
        self.assertEqual(
            (self.out / "flows.csv").read_text().splitlines()[0],
            "Von;Nach;Max;Preis;carries;total;free;one_more_saves;exact;one_more_carried_costs",
        )
        self.assertEqual(
            (self.out / "prices.csv").read_text().splitlines()[0],
            "Ort;Angebot;name;one_more_costs;group",
        )
        self.assertIn('"heads","places","1","name","supply","own name"\n', self.answer())
        told = self.flow(places, routes, *words, "--map", "least=Mindest")[2]
        self.assertIn(
            "column Mindest: there is no such column, which --map least=Mindest names", told
        )
        for wrong in ("name", "nome=Ort"):
            self.assertIn(
                f"--map {wrong}: say --map HEAD=NAME", self.flow(places, routes, "--map", wrong)[2]
            )

    def answer(self):
        """The answer in the folder."""
        return (self.out / "answer.csv").read_text(encoding="utf-8")

    def test_own_heads_in_a_file(self):
        routes = ROUTES.replace("from,to", "Von,Nach")
        heads = self.put("heads.txt", "\ufefffrom=Von\r\n\nto=Nach\n")
        self.assertEqual(self.flow(PLACES, routes, "--map", heads)[0], 0)
        asked = json.loads((self.out / "asked.json").read_text())["options"]["map"]
        self.assertEqual(asked, {"from": "Von", "to": "Nach"})
        self.put("heads.txt", "from=Von\nnach=Nach\n")
        told = self.flow(PLACES, routes, "--map", heads)[2]
        self.assertIn("heads.txt, line 2: nach=Nach: say HEAD=NAME, where HEAD is one of", told)
        heads.write_bytes("cost=Kosten (€)\r\n".encode("windows-1252"))
        euros = ROUTES.replace("most,cost", "most,Kosten (€)").encode("windows-1252")
        words = ["--map", heads, "--encoding", "windows-1252"]
        self.assertEqual(self.flow(PLACES, euros, *words)[0], 0)
        told = self.flow(PLACES, routes, "--map", heads)[2]
        self.assertIn("name a file of such lines: this isn't text in UTF-8", told)
        told = self.flow(PLACES, routes, "--map", "no-file")[2]
        self.assertIn("--map no-file: say --map HEAD=NAME, or name a file of such lines", told)

    def test_filled_down_and_totals_again(self):
        routes = "from,to,most,cost\nMill,Wien,15,4\n,Graz,20,7\nGraz,Wien,10,2\n,,45,13\n"
        self.assertEqual(self.flow(PLACES, routes, "--fill-down", "from")[0], 0)
        rows = rows_of(self.out / "flows.csv")
        self.assertEqual([row["from"] for row in rows], ["Mill", "Mill", "Graz"])
        text = "plan, cost 171, by --fill-down from."
        self.assertIn(text, run("verify", self.out)[1])
        page = (self.out / "report.html").read_text()
        self.assertIn("line 5 is left out: it has the sums of the lines above", page)

    def test_own_heads_between_quotes_and_below_other_lines(self):
        places = 'Stand;\n\n"Ort ""A"""; "supply";Name\nA;1;x\nB;-1;y\n'
        routes = "sep=|\nvon|to|most|cost\nA|B||3\n"
        words = ["--map", 'name=Ort "A"', "--map", "from=Von"]
        self.assertEqual(self.flow(places, routes, *words)[0], 0)
        self.assertEqual(
            (self.out / "prices.csv").read_text().splitlines()[:2],
            ['"Ort ""A""";supply;Name;one_more_costs;group', "A;1;x;0;1"],
        )
        self.assertEqual(
            (self.out / "flows.csv").read_text().splitlines()[:2],
            [
                "sep=|",
                "von|to|most|cost|carries|total|free|one_more_saves|exact|one_more_carried_costs",
            ],
        )

    def test_two_ways_to_write_an_accent(self):
        places, routes = (
            "name,supply\nOrle\u0301ans,1\nB,-1\n",
            "from,to,most,cost\nOrl\xe9ans,B,,1\n",
        )
        self.assertEqual(self.flow(places, routes)[0], 0)

    def test_results_are_tables_again(self):
        self.flow(
            PLACES,
            ROUTES.replace("cost\n", "cost,=A1\n").replace(",4\n", ",4,=HYPERLINK(1)\n"),
            "--guard-formulas",
        )
        once = (self.out / "flows.csv").read_text()
        self.assertIn("from,to,least,most,cost,'=A1,carries,", once)
        self.assertIn("Mill,Wien,0,15,4,'=HYPERLINK(1),15,60,0,5,yes,\n", once)
        self.assertEqual(
            run(
                "flow", self.out / "prices.csv", self.out / "flows.csv", "-o", self.folder / "again"
            )[0],
            0,
        )
        self.assertEqual((self.folder / "again" / "flows.csv").read_text(), once)

    def test_own_columns_that_are_called_as_results_are(self):
        self.flow(PLACES, ROUTES.replace("cost\n", "cost,total\n").replace(",4\n", ",4,mine\n"))
        self.assertIn(
            "Mill,Wien,0,15,4,mine,15,60,0,5,yes,\n", (self.out / "flows.csv").read_text()
        )

    def test_no_limit(self):
        routes = (
            "from,to,least,most,cost\nMill,Wien,3,,4\nMill,Graz,,20,7\n"
            "Graz,Wien,,inf,0\nWien,Graz,-2,,0\n"
        )
        status, said, _ = self.flow(PLACES, routes)
        self.assertEqual(status, 0)
        self.assertIn("cost 120.", said)
        self.assertEqual(
            [(row["carries"], row["free"]) for row in rows_of(self.out / "flows.csv")][:2],
            [("30", ""), ("0", "20")],
        )

    def test_forbidden_pairs(self):
        for mark in ("", "X", "x", "-", "\u2013"):
            with self.subTest(mark=mark):
                self.assertEqual(self.pairs(f",X,Y\nA,1,5\nB,1,{mark}\n")[0], 0)
                self.assertEqual(
                    (self.out / "pairs.csv").read_text(), "who,what,cost\nA,Y,5\nB,X,1\n"
                )
                self.assertEqual(
                    self.pairs(f"who,what,cost,note\nA,X,1,p\nA,Y,5,q\nB,X,1,r\nB,Y,{mark},s\n")[0],
                    0,
                )
                self.assertEqual(
                    (self.out / "pairs.csv").read_text(), "who,what,cost,note\nA,Y,5,q\nB,X,1,r\n"
                )

    def test_own_heads_among_earlier_results(self):
        """Columns of earlier results stay if one of them is read, by another head. Heads of two
        lines don't hide what separates them."""
        results = ";carries;total;free;one_more_saves;exact;one_more_carried_costs"
        heads = f"from;to;most;cost{results}"
        routes = f'{heads};"a\r\nnote"\r\nA;B;5;0;0;7;5;0;no;8;x\r\n'
        status = self.flow("name,supply\nA,2\nB,-2\n", routes, "--map", "cost=total")[0]
        expected = f'{heads};"a\nnote"{results}\nA;B;5;0;0;7;5;0;no;8;x;2;14;3;0;yes;0\n'
        self.assertEqual((status, (self.out / "flows.csv").read_text()), (0, expected))

    def test_costs_with_decimals_of_pairs(self):
        self.assertIn("cost 0,3.", self.pairs(";X;Y\nA;0,1;0,7\nB;0,3;0,2\n")[1])
        self.assertEqual((self.out / "pairs.csv").read_text(), "who;what;cost\nA;X;0,1\nB;Y;0,2\n")

    def test_a_workbook_with_a_sheet_of_wishes(self):
        heads, wanted = ["Pupils; 8a", "who", Figure("1"), Figure("2"), "needs"], ("who", "what")
        rows = [heads, ["x", "Ann", "Choir", "Chess", Figure("2")], ["y", "Ben", "Choir", "", ""]]
        table = tables.sheet_with("plan.xlsx", [("a", rows)], wanted, tables.Reading())
        sheet = Sheet(1, ["who", "what", "cost", "Pupils; 8a", "needs", ""])
        table.become_wishes(sheet)
        self.assertEqual(sheet.heads, ["who", "what", "cost", "pupils; 8a", "needs"])
        self.assertEqual(table.figure(2, ["Ann", "Choir", "1", "x", "2"], 4), Figure("2"))
        self.assertEqual(table.figure(3, ["Ben", "Choir", "1", "y", "2"], 4), None)
        self.assertEqual(table.separator(sheet), ",")


@unittest.skipUnless(importlib.util.find_spec("openpyxl"), "openpyxl isn't there: workbooks")
class Workbooks(WithFolder):
    """Excel workbooks."""

    def book(self, **sheets):
        """A workbook with these sheets."""
        import openpyxl

        book = openpyxl.Workbook()
        book.remove(book.active)
        for title, rows in sheets.items():
            sheet = book.create_sheet(title)
            for line, row in enumerate(rows, 1):
                for column, value in enumerate(row, 1):
                    sheet.cell(line, column).value = value
                    if isinstance(value, str) and value.endswith("GmbH"):
                        sheet.cell(line, column).data_type = "s"
        book.save(self.folder / "plan.xlsx")
        return self.folder / "plan.xlsx"

    def test_two_sheets(self):
        import openpyxl

        book = self.book(
            Strecken=[
                ["from", "to", "most", "cost", "Spediteur"],
                ["A", "B", None, 8.07, "=1+1 GmbH"],
                ["A", "B", 1000, 0.1, None],
            ],
            Orte=[
                ["Liste der Orte"][1:] + ["name", "supply"],
                ["A", 1500.5],
                [None, None],
                ["B", -1500.5],
            ],
        )
        status, said, told = run("flow", book, "-o", self.out)
        self.assertEqual((status, told), (0, ""), told)
        self.assertIn("cost 4139.035.", said)
        made = openpyxl.load_workbook(self.out / "plan.xlsx")
        self.assertEqual(made.sheetnames, ["flows", "prices", "sums"])
        rows = list(made["flows"].iter_rows(values_only=True))
        self.assertEqual(
            rows[1], ("A", "B", None, 8.07, "=1+1 GmbH", 500.5, 4039.035, None, 0, "yes", 0)
        )
        self.assertEqual(made["flows"]["E2"].data_type, "s")

    def test_numbers_as_spreadsheets_have_them(self):
        places = [["name", "supply"], [101, 0.1 + 0.2], ["B", -0.3], ["C", 7.0], ["D", -7]]
        routes = [
            ["from", "to", "most", "cost"],
            ["101", "B", None, 8.07 * 3],
            ["C", "D", 1e9, 1e-7],
        ]
        status, said, told = run("flow", self.book(a=places, b=routes), "-o", self.out)
        self.assertEqual((status, told), (0, ""))
        self.assertIn("cost 7.2630007.", said)
        self.assertIn("101,0.3,", (self.out / "prices.csv").read_text(encoding="utf-8-sig"))

    def test_separators_in_heads_add_no_columns(self):
        places = [["name", "Menge; t", "note"], ["A", 1, "x"], ["B", -1, "y"]]
        book = self.book(a=places, b=[["from", "to", "most", "cost"], ["A", "B", None, 2]])
        self.assertEqual(run("flow", book, "-o", self.out, "--map", "supply=Menge; t")[0], 0)
        self.assertEqual(
            (self.out / "prices.csv").read_text(encoding="utf-8-sig"),
            "name,Menge; t,note,one_more_costs,group\nA,1,x,0,1\nB,-1,y,2,1\n",
        )

    def test_numbers_and_texts_of_a_workbook(self):
        import openpyxl

        places = [
            ["Liste; Stand; 2026"],
            ["name", "supply", "Nr\n2"],
            ["A", 1.234, 7],
            ["B", -1.234, "8"],
        ]
        routes = [["from", "to", "most", "cost"], ["A", "B", None, "2,5"]]
        book = self.book(a=places, b=routes)
        self.assertIn("'2,5' isn't written with '.'", run("flow", book, "-o", self.out)[2])
        status, said, told = run("flow", book, "-o", self.out, "--decimal", ",")
        self.assertEqual((status, told), (0, ""))
        self.assertIn("cost 3,085.", said)
        self.assertIn('A,"1,234",7,0,1\n', (self.out / "prices.csv").read_text(encoding="utf-8"))
        rows = openpyxl.load_workbook(self.out / "plan.xlsx")["prices"].iter_rows(values_only=True)
        self.assertEqual(
            list(rows)[:3],
            [
                ("name", "supply", "Nr 2", "one_more_costs", "group"),
                ("A", 1.234, 7, 0, 1),
                ("B", -1.234, "8", 2.5, 1),
            ],
        )

    def test_a_formula_without_its_value(self):
        book = self.book(a=[["name", "supply"], ["A", "=1+1"]], b=[["from", "to", "most", "cost"]])
        self.assertIn(
            "sheet a, line 2: a formula whose value isn't stored, '=1+1'",
            run("flow", book, "-o", self.out)[2],
        )

    def test_faults_name_the_sheet(self):
        book = self.book(a=[["name", "supply"], ["A", "many"]], b=[["from", "to", "most", "cost"]])
        self.assertIn(
            "plan.xlsx, sheet a, line 2, column supply: 'many' is no number",
            run("flow", book, "-o", self.out)[2],
        )

    def test_sheets_without_heads(self):
        rows = [["Places", ""], ["Ort", "Menge"], ["A", 1]]
        said = run("flow", self.book(a=rows, b=[["Von", "Nach"]]), "-o", self.out)[2]
        self.assertIn(
            "among 'Places', ''; perhaps line 2 has the heads: 'Ort', 'Menge'; the table needs",
            said,
        )
        told = (
            "plan.xlsx: no sheet has one of the heads name, supply; a is read, of the sheets a, b."
        )
        self.assertIn(told, said)

    def test_a_workbook_is_written_where_it_is_asked_for(self):
        self.assertEqual(self.flow(PLACES, ROUTES, "--xlsx")[0], 0)
        self.assertTrue((self.out / "plan.xlsx").exists())

    def test_filters_and_formats_of_a_workbook(self):
        import openpyxl

        routes = ROUTES.replace(",4\n", ",4.25\n").replace("Mill,Wien,0,15", "Mill,Wien,0,15000")
        self.flow(PLACES.replace("30", "30000").replace("-18", "-29988"), routes, "--xlsx")
        sheet = openpyxl.load_workbook(self.out / "plan.xlsx")["bottleneck"]
        self.assertEqual(sheet.auto_filter.ref, sheet.dimensions)
        self.flow(PLACES, routes, "--xlsx")
        sheet = openpyxl.load_workbook(self.out / "plan.xlsx")["flows"]
        formats = [sheet.cell(2, column).number_format for column in (1, 6, 7)]
        self.assertEqual(formats, ["General", "#,##0", "#,##0.0"])
        self.assertGreater(sheet.column_dimensions["K"].width, 20)

    def test_one_table_of_text(self):
        self.assertIn(
            "this is no workbook with two sheets",
            run("flow", self.put("places.csv", PLACES), "-o", self.out)[2],
        )

    def test_a_zip_archive_that_is_none(self):
        self.assertIn("can't be read as an Excel workbook", self.flow(b"PK\x03\x04 no", ROUTES)[2])
