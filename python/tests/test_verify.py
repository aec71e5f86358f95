"""Tests of `mcf_plan verify`: whether the tables of a plan give the answer of its folder."""
import importlib.util
import json
import os
import re
import shutil
import threading
import unittest

from mcf_plan.asked import sha256_of
from support import PLACES, ROUTES, WithFolder, run, script
from test_examples import call_of, example_folders

# Tables whose words and marks need options, and two whose costs are values.
OWN_PLACES = "Ort;supply\nM\u00fchle;1,5\nWien;-2\n".encode("windows-1252")
OWN_ROUTES = "von;to;most;cost\nM\u00fchle;Wien;2;1,250\n".encode("windows-1252")
OWN_WORDS = ["--encoding", "windows-1252", "--map", "name=Ort", "--map", "from=von"]
OWN_WORDS += ["--short", "allow", "--penalty", "7,5"]
VALUES = ",X,Y\nA,1,4\nB,2,3\n"


class Verify(WithFolder):
    """`mcf_plan verify`."""

    def verify(self, *tables):
        """Verifies the plan. Returns the status and the lines, without the folder's name."""
        status, said, told = run("verify", self.out, *tables)
        self.assertEqual(said and told, "")
        return status, (said or told).replace(f"{self.folder}/", "").splitlines()

    def refused(self, text, *tables):
        """Verifies a plan where that is a fault, which one line reports."""
        status, lines = self.verify(*tables)
        self.assertEqual((status, len(lines)), (2, 1), lines)
        self.assertIn(text, lines[0])

    def asked(self):
        """What asked.json has."""
        return json.loads((self.out / "asked.json").read_bytes())

    def tamper(self, old, new):
        """Makes a plan, and replaces a text in its answer."""
        shutil.rmtree(self.out, ignore_errors=True)
        self.flow(PLACES, ROUTES)
        text = (self.out / "answer.csv").read_text()
        self.assertIn(old, text)
        (self.out / "answer.csv").write_text(text.replace(old, new))

    def test_the_same_answer(self):
        for routes, text in ((ROUTES, "plan, cost 171"), (ROUTES.replace("20", "2"), "no plan")):
            self.flow(PLACES, routes)
            self.assertEqual(self.verify(), (0, [f"The tables give this answer, proved: {text}."]))
        self.pairs(VALUES)
        self.assertEqual(self.verify()[1], ["The tables give this answer, proved: plan, cost 4."])
        self.pairs(VALUES, "--maximise", "--each", "both")
        text = "The tables give this answer, proved: plan, value 6, by --each both --maximise."
        self.assertEqual(self.verify()[1], [text])
        self.pairs(",X\nA,1\nB,1\n")
        self.assertEqual(self.verify(), (0, ["The tables give this answer, proved: no plan."]))

    def test_the_options_of_the_run_are_taken_again(self):
        self.assertEqual(self.flow(OWN_PLACES, OWN_ROUTES, *OWN_WORDS)[0], 0)
        words = "--encoding windows-1252 --map name=Ort --map from=von --short allow --penalty 7,5"
        text = f"The tables give this answer, proved: plan, cost 5,625, by {words}."
        self.assertEqual(self.verify(), (0, [text]))
        for words in (["--unused", "allow", "--decimal", "."], ["--most-flow"]):
            self.flow(PLACES.replace("30", "31"), ROUTES, *words)
            self.assertEqual(self.verify()[0], 0, words)
        self.flow(PLACES, ROUTES, "--ranges")
        text = "The tables give this answer, proved: plan, cost 171, by --ranges."
        self.assertEqual(self.verify(), (0, [text]))
        self.pairs(VALUES, "--each", "what")
        self.assertEqual((self.verify()[0], self.asked()["options"]["each"]), (0, "what"))

    def test_all_examples(self):
        for folder in example_folders():
            here = os.getcwd()
            os.chdir(folder)
            try:
                made = run(*call_of(folder), "-o", self.out)[0]
            finally:
                os.chdir(here)
            if made != 2:
                with self.subTest(folder=folder.name):
                    self.assertEqual(self.verify()[0], 0)

    def test_a_changed_table_that_says_the_same(self):
        self.flow(PLACES, ROUTES)
        self.put("routes.csv", ROUTES.replace("Graz,0", "Graz , 0"))
        self.assertEqual(
            self.verify(),
            (
                0,
                [
                    "The tables give this answer, proved: plan, cost 171.",
                    "routes.csv has changed since the run: its SHA-256 is another. It says the"
                    " same.",
                ],
            ),
        )

    def test_a_changed_cost(self):
        self.flow(PLACES, ROUTES)
        self.put("routes.csv", ROUTES.replace("20,7", "20,8"))
        self.assertEqual(
            self.verify(),
            (
                1,
                [
                    "The tables give another answer than out has: cost 186, and not 171.",
                    "routes.csv has changed since the run: its SHA-256 is another.",
                    "The first row that differs is row 2, after 'cost': '186', and in out '171'.",
                ],
            ),
        )

    def test_columns_in_another_order(self):
        self.flow(PLACES, ROUTES)
        lines = [line.split(",") for line in ROUTES.splitlines()]
        self.put("routes.csv", "".join(",".join([*line[::-1]]) + "\n" for line in lines))
        status, lines = self.verify()
        self.assertEqual(
            (status, lines[0]),
            (1, "The tables give another answer than out has: cost 171, too."),
        )
        self.assertIn("after 'heads routes 1': 'cost,most,least,to,from', and in out '", lines[2])

    def test_another_verdict(self):
        self.flow(PLACES, ROUTES)
        self.put("routes.csv", ROUTES.replace("20", "2"))
        status, lines = self.verify()
        text = "The tables give another answer than out has: that no plan exists, and not cost 171."
        self.assertEqual((status, lines[0]), (1, text))

    def test_moved_tables(self):
        self.flow(PLACES, ROUTES)
        for name in ("places.csv", "routes.csv"):
            (self.folder / name).rename(self.folder / f"moved {name}")
        self.refused("places.csv: this table of out isn't there: if it was moved, name")
        tables = [self.folder / f"moved {name}.csv" for name in ("places", "routes")]
        self.assertEqual(self.verify(*tables)[0], 0)
        self.refused("this plan is of 2 files: places.csv, routes.csv; name each", tables[0])
        self.refused("cannot be read: No such file", tables[0], self.folder / "none.csv")

    def test_a_folder_of_tables_that_moved_with_its_plan(self):
        (self.folder / "there").mkdir()
        self.flow(PLACES, ROUTES)
        self.out.rename(self.folder / "there" / "out")
        self.out = self.folder / "there" / "out"
        self.assertEqual(self.verify()[0], 0)

    def test_tables_with_faults(self):
        self.flow(PLACES, ROUTES)
        self.put("routes.csv", ROUTES.replace("15,4", "15,x"))
        self.refused("routes.csv, line 2, column cost: 'x' is no number")

    def test_a_tampered_answer(self):
        texts = {
            '"cost","171"': ('"cost","170"', ": cost 171, and not 170."),
            '"answer","plan"': ('"answer","no plan"', ": cost 171, and not that no plan exists."),
            '"Wien","15"': ('"Wien","14"', ": cost 171, too."),
            '"answer"': ("answer", ": cost 171, too."),
            '"plan"': ('"faults"', ", whose answer.csv can't be read."),
            '"171"': ('"x"', ", whose answer.csv can't be read."),
            '"mark"': ('"\0', ", whose answer.csv can't be read."),
        }
        for old, (new, text) in texts.items():
            self.tamper(old, new)
            status, lines = self.verify()
            self.assertEqual((status, len(lines)), (1, 3), lines)
            self.assertEqual(lines[0], f"The tables give another answer than out has{text}")
            self.assertEqual(
                lines[1], "out/answer.csv has changed since the run: its SHA-256 is another."
            )

    def test_the_first_row_that_differs(self):
        for old, new, text in (
            ('"answer"', "answer", "All rows are the same, and written otherwise in out."),
            ('"mark",""\n', "", "'mark,', and in out 'heads,places,1,name,supply'."),
            ('"10","2"\n', '"10","2"\n"more"\n', "row 21: nothing, and in out 'more'."),
            ('"Wien","15","60"', '"Wien","15","6"', ", after 'route 2 Mill Wien 15': '60,0,5"),
        ):
            self.tamper(old, new)
            self.assertIn(text, self.verify()[1][2])

    def test_another_answer_of_the_same_files(self):
        self.flow(PLACES, ROUTES)
        text = (self.out / "answer.csv").read_text().replace('"171"', '"172"')
        script(self.folder / "mcfplan", f"cat {self.put('answer', text)}")
        status, said, _ = run("verify", self.out, "--programs", self.folder)
        self.assertEqual(status, 1)
        self.assertIn("\nAll files are as they were at the run: mcfplan or ", said)

    def test_no_plan_of_this_version(self):
        self.flow(PLACES, ROUTES)
        whole = (self.out / "asked.json").read_text()
        for old, new in (
            ('"format": 1', '"format": 2'),
            ('"flow"', '"solve"'),
            ('"flow"', "[]"),
            ('"penalty": null', '"penalty": 7'),
            ('"penalty": null', '"programs": "/tmp"'),
            ('"decimal": null', '"decimal": "auto"'),
            ('"map": {}', '"map": {"most": 1}'),
            ('"tables": [', '"tables": [{"name": "/tmp/t.csv", "sha256": ""},'),
            ('"tables": [', '"tables": [7,'),
            ('"tables": [', '"tables": [], "none": ['),
            ('"name"', '"path"'),
            ("{", ""),
        ):
            (self.out / "asked.json").write_text(whole.replace(old, new, 1))
            self.refused("out: its asked.json isn't as this version writes it: make the plan again")
        (self.out / "asked.json").unlink()
        self.refused("out: this folder has no asked.json, as an older version made it: make the")
        (self.out / "asked.json").mkdir()
        self.refused("out: its asked.json can't be read: Is a directory")
        (self.out / "asked.json").rmdir()
        (self.out / "answer.csv").unlink()
        self.refused("out: this folder has no asked.json")
        (self.out / "asked.json").write_text(whole)
        self.refused("out: this is no folder of a plan: answer.csv: No such file")

    def test_trouble(self):
        self.flow(PLACES, ROUTES)
        script(self.folder / "mcfplan", "echo mcfplan: out of memory >&2; exit 3")
        status, said, told = run("verify", self.out, "--programs", self.folder)
        self.assertEqual((status, said, len(told.splitlines())), (3, "", 1))

    def test_what_was_asked(self):
        self.flow(OWN_PLACES, OWN_ROUTES, *OWN_WORDS, "--title", "Week 7")
        found = self.asked()
        self.assertEqual(found["format"], 1)
        self.assertEqual(
            found["tables"],
            [
                {"name": str(self.folder / name), "sha256": sha256_of(data)}
                for name, data in (("places.csv", OWN_PLACES), ("routes.csv", OWN_ROUTES))
            ],
        )
        self.assertEqual(
            found["options"],
            {
                "decimal": None,
                "encoding": "windows-1252",
                "map": {"name": "Ort", "from": "von"},
                "fill_down": [],
                "unused": False,
                "short": True,
                "penalty": "7,5",
                "ranges": False,
            },
        )
        answer = (self.out / "answer.csv").read_bytes()
        self.assertEqual(found["answer_sha256"], sha256_of(answer))

    def test_the_page_names_the_files(self):
        self.put("R&D.csv", ROUTES)
        names = [self.put("places.csv", PLACES), self.folder / "R&D.csv"]
        run("flow", *names, "-o", self.out, "--most-flow", "--map", "most=Most")
        text = (self.out / "report.html").read_text()
        for name, path in (
            ("places.csv", self.folder / "places.csv"),
            ("R&amp;D.csv", self.folder / "R&D.csv"),
            ("answer.csv", self.out / "answer.csv"),
        ):
            sha256 = sha256_of(path.read_bytes())
            self.assertIn(f"<dt>{name}</dt><dd><code>{sha256}</code></dd>", text)
        self.assertIn("<code>mcf_plan verify FOLDER</code>", text)
        words = "-o FOLDER --map most=Most --unused allow --short allow"
        self.assertIn(
            f"<code>mcf_plan flow places.csv &#x27;R&amp;D.csv&#x27; {words}</code>", text
        )
        self.assertNotIn(str(self.folder), text)

    def test_the_sum_is_that_of_the_bytes_that_were_read(self):
        names = [self.put("places.csv", PLACES), self.folder / "pipe"]
        os.mkfifo(names[1])
        writer = threading.Thread(target=names[1].write_text, args=(ROUTES,))
        writer.start()
        self.assertEqual(run("flow", *names, "-o", self.out)[0], 0)
        writer.join()
        self.assertEqual(self.asked()["tables"][1]["sha256"], sha256_of(ROUTES.encode()))
        self.assertEqual(self.verify(names[0], self.put("routes.csv", ROUTES))[0], 0)


@unittest.skipUnless(importlib.util.find_spec("openpyxl"), "openpyxl isn't there: workbooks")
class Workbooks(WithFolder):
    """Plans of workbooks."""

    def book(self, name, *sheets):
        """A workbook with sheets of these texts. Digits are numbers."""
        import openpyxl

        book = openpyxl.Workbook()
        book.remove(book.active)
        for text in sheets:
            sheet = book.create_sheet()
            for line in text.splitlines():
                cells = line.split(",")
                sheet.append([float(c) if re.fullmatch("-?[0-9.]+", c) else c for c in cells])
        book.save(self.folder / name)
        return self.folder / name

    def test_a_workbook_of_two_sheets(self):
        book = self.book("book.xlsx", PLACES, ROUTES.replace("15,4", "15,4.5"))
        self.assertEqual(run("flow", book, "-o", self.out)[0], 0)
        self.assertEqual(len(json.loads((self.out / "asked.json").read_bytes())["tables"]), 1)
        text = "The tables give this answer, proved: plan, cost 178.5.\n"
        self.assertEqual(run("verify", self.out), (0, text, ""))
        self.book("book.xlsx", PLACES, ROUTES)
        status, said, _ = run("verify", self.out)
        self.assertEqual(status, 1)
        self.assertIn("another answer than", said)
        self.assertIn(": cost 171, and not 178.5.\n", said)

    def test_a_workbook_and_a_text(self):
        names = [self.book("book.xlsx", PLACES), self.put("routes.csv", ROUTES)]
        self.assertEqual(run("flow", *names, "-o", self.out)[0], 0)
        self.assertEqual(run("verify", self.out)[0], 0)
