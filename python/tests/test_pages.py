"""Tests of the page of a plan, in Chromium if it is installed."""
import hashlib
import html.parser
import json
import os
import random
import re
import shutil
import subprocess
import time
import unittest
import xml.etree.ElementTree
from unittest import mock

from support import PLACES, ROUTES, WithFolder, run

CHROMIUM = (
    shutil.which("chromium") or shutil.which("chromium-browser") or shutil.which("google-chrome")
)
# A script that acts on a page in the browser and reports the result in the title.
TRIED = """
const said = {}, table = document.querySelectorAll("section table")[1];
const seen = () => Array.from(table.tBodies[0].rows).filter(row => !row.hidden);
const column = number => seen().map(row => row.cells[number].textContent);
const heads = table.querySelectorAll("thead th"), svg = document.querySelector(".picture svg");
const tools = table.closest("section").querySelector(".tools");
const foot = () => Array.from(table.tFoot.rows[0].cells).map(cell => cell.textContent);
said.total = foot();
heads[5].click();
said.down = column(5);
heads[5].click();
said.up = column(5);
heads[0].click();
said.names = column(0);
tools.querySelector("input[type=search]").value = "mill wien";
tools.querySelector("input[type=search]").dispatchEvent(new Event("input"));
said.filtered = column(0).concat(column(1));
said.part = foot();
tools.querySelector("input[type=search]").value = "";
tools.querySelector("input[type=checkbox]").click();
said.carrying = column(5);
said.count = tools.querySelector(".count").textContent;
said.carried = foot();
tools.querySelector("input[type=checkbox]").click();
said.again = foot();
const wide = () => Number(svg.getAttribute("viewBox").split(" ")[2]), before = wide();
document.querySelector(".zoom button").click();
said.nearer = wide() / before;
document.querySelectorAll(".zoom button")[2].click();
said.whole = wide() / before;
document.title = "said " + JSON.stringify(said);
"""


class Balanced(html.parser.HTMLParser):
    """A parser that notes unclosed tags and the addresses that a page would fetch."""

    def __init__(self):
        super().__init__()
        self.open, self.wrong, self.fetched = [], [], []

    def handle_starttag(self, tag, attributes):
        self.fetched += [
            value
            for name, value in attributes
            if name in ("src", "href") and not value.startswith("#")
        ]
        if tag not in ("meta", "input", "br"):
            self.open.append(tag)

    def handle_endtag(self, tag):
        if not self.open or self.open.pop() != tag:
            self.wrong.append(tag)


class Pages(WithFolder):
    """report.html."""

    def page(self):
        """The text of the page. Checks that it is well formed and fetches nothing."""
        text = (self.out / "report.html").read_text(encoding="utf-8")
        parser = Balanced()
        parser.feed(text)
        self.assertEqual((parser.open, parser.wrong, parser.fetched), ([], [], []))
        self.assertEqual(
            re.findall('https?://[^"]*', text), ["http://www.w3.org/2000/svg"] * text.count("<svg")
        )
        return text

    def test_a_plan(self):
        self.flow(
            PLACES.replace("Mill", "M & <b>"),
            ROUTES.replace("Mill", "M & <b>")
            .replace("cost", "cost,carrier")
            .replace(",4\n", ",4,Ann\u00e9\n"),
            "--currency",
            "EUR",
            "--title",
            "Week 7",
        )
        text = self.page()
        for part in (
            "<title>Week 7</title>",
            "<h1>Week 7<br>Least cost: 171 EUR</h1>",
            "M &amp; &lt;b&gt;",
            "Ann\u00e9",
            "No plan for these tables costs less.",
            '<table aria-label="Routes">',
            (
                "<tr class=full><td>M &amp; &lt;b&gt;</td><td>Wien</td><td>exactly</td><td"
                ' class="number" data-value="5">5</td></tr>'
            ),
        ):
            self.assertIn(part, text)
        answer = (self.out / "answer.csv").read_bytes()
        self.assertIn(hashlib.sha256(answer).hexdigest(), text)

    def test_numbers_as_the_tables_have_them(self):
        self.flow("name;supply\nA;12500\nB;-12500\n", "from;to;most;cost\nA;B;;1,25\n")
        self.assertIn("<h1>Least cost: 15\u202f625</h1>", self.page())
        self.assertIn('<td class="number" data-value="1.25">1,25</td>', self.page())

    def test_costs_that_rise_by_steps(self):
        routes = "from;to;most;cost;most 2;cost 2\nA;B;2;3,92;;5,92\n"
        self.flow("name;supply\nA;2,5\nB;-2,5\n", routes)
        self.assertIn("<td>3,92 / 5,92</td>", self.page())

    def test_title_date_and_tables(self):
        with mock.patch.dict(os.environ, SOURCE_DATE_EPOCH="1700000000"):
            self.flow(PLACES.replace("30", "31"), ROUTES, "--title", "R & D", "--unit", "hl")
            for part in (
                "<h1 class=none>R &amp; D<br>No plan exists: supply 31 hl, demand 30 hl</h1>",
                '<p class="soft">2023-11-14: places.csv, routes.csv</p>',
            ):
                self.assertIn(part, self.page())
            self.pairs(",X,Y\nA,1,2\nB,,2\n", "--title", "Rota")
            self.assertIn("<h1>Rota<br>Least cost: 3</h1>", self.page())
            self.assertIn('<p class="soft">2023-11-14: costs.csv</p>', self.page())

    def test_titles_and_names_of_files_with_any_bytes(self):
        places, routes = self.folder / os.fsdecode(b"\xe9\x01.csv"), self.put("routes.csv", ROUTES)
        try:
            places.write_text(PLACES)
        except OSError:
            self.skipTest("names of files are text here")
        title = os.fsdecode(b"K\xe9\nW")
        status, _, told = run("flow", places, routes, "-o", self.out, "--title", title)
        self.assertEqual((status, told), (0, ""))
        self.assertIn("<h1>K? W<br>Least cost: 171</h1>", self.page())
        self.assertIn(": ? .csv, routes.csv</p>", self.page())
        xml.etree.ElementTree.parse(self.out / "plan.svg")

    def test_columns_that_are_carried_along_are_named(self):
        line = "<p>Columns carried along, not used: carrier, min lot.</p>"
        routes = ROUTES.replace("cost\n", "cost,carrier,min lot\n")
        self.flow(PLACES, routes)
        self.assertIn(line, self.page())
        self.flow(PLACES.replace("30", "99"), routes)
        self.assertIn(line, self.page())
        self.pairs("who,what,cost,skill\nA,X,1,high\n")
        self.assertIn("<p>Columns carried along, not used: skill.</p>", self.page())

    def test_what_the_summary_says_of_stock_and_of_passing(self):
        places = "name,period,supply,cost,keep cost\nA,Mo,5,,\nB,,,1,2\nC,Tu,-5,,\n"
        said = self.flow(places, "from,to,most,cost\nA,B,,1\nB,C,,1\n", "--ranges")[1]
        for line in ("What places keep costs 10 of that", "Passing through places costs 10 of"):
            self.assertIn(f"\n{line}", said)
            self.assertIn(f"<p>{line}", self.page())
        self.assertIn("The plan stays least while", self.page())

    def test_what_blocks(self):
        self.flow("name,supply\nA,5\nB,-5\n", "from,to,most,cost\nA,B,4,1\n")
        text = self.page()
        for part in (
            "<h1 class=none>No plan exists: short by 1</h1>",
            "<b>must 5</b> &middot; <b>can 4</b> &middot; <b class=short>short by 1</b>",
            "Give A -&gt; B 1 more room, or move 1 of supply elsewhere.",
        ):
            self.assertIn(part, text)

    def test_pairs(self):
        self.pairs(",X,Y\nA,1,2\nB,,2\n")
        self.assertIn("<h1>Least cost: 3</h1>", self.page())
        self.pairs(",X,Y\nA,,2\nB,,2\n")
        self.assertIn("No such pairs exist: short by 1", self.page())

    def test_three_thousand_places(self):
        draw = random.Random(3)
        amounts = [draw.randint(1, 40) for _ in range(3000)]
        places = ["name,supply,x,y"] + [
            f"Ort {k},{-amounts[k] if k % 10 else sum(amounts[k + 1:k + 10])},"
            f"{draw.random():.4f},{draw.random():.4f}"
            for k in range(3000)
        ]
        routes = ["from,to,most,cost"] + [
            f"Ort {k - k % 10},Ort {k},,{draw.randint(1, 99)}.5" for k in range(3000) if k % 10
        ]
        routes += [
            f"Ort {draw.randrange(3000)},Ort"
            f" {draw.randrange(3000)},{draw.randint(1, 60)},{draw.randint(1, 40)}.25"
            for _ in range(17300)
        ]
        begun = time.monotonic()
        status, said, told = self.flow("\n".join(places), "\n".join(routes))
        self.assertEqual((status, told), (0, ""))
        self.assertIn("3000 places, 20000 routes", said)
        self.assertLess(time.monotonic() - begun, 40)
        text = self.page()
        self.assertEqual(text.count("<circle"), 3003)
        self.assertIn("of 20000 lines: of so many, only such as carry something.", text)

    def test_no_picture(self):
        self.flow(PLACES, ROUTES, "--no-picture")
        self.assertNotIn("<svg", self.page())

    def in_chromium(self, page):
        """The title of a page, which its script sets, after the browser has run it."""
        done = subprocess.run(
            [
                CHROMIUM,
                "--headless=new",
                "--no-sandbox",
                "--disable-gpu",
                f"--user-data-dir={self.folder / 'profile'}",
                "--dump-dom",
                page.as_uri(),
            ],
            stdout=subprocess.PIPE,
            stderr=subprocess.DEVNULL,
            timeout=60,
            check=True,
        )
        said = re.search("<title>said (.*)</title>", done.stdout.decode())[1]
        return json.loads(html.unescape(said))

    @unittest.skipUnless(CHROMIUM, "Chromium isn't there: what the page does")
    def test_in_chromium(self):
        routes = ROUTES.replace(",4\n", ",-4000.25\n").replace(",7\n", ",7.5\n")
        self.flow(PLACES, routes + "Wien,Graz,0,9,9\nMill,Mill,0,9,9\nGraz,Mill,0,9,9\n")
        tried = self.put(
            "tried.html", self.page().replace("</script>\n</html>", TRIED + "</script>\n</html>")
        )
        said = self.in_chromium(tried)
        self.assertEqual(said["down"], ["15", "15", "3", "0", "0", "0"])
        self.assertEqual(said["up"], ["0", "0", "0", "3", "15", "15"])
        self.assertEqual(said["names"], ["Graz", "Graz", "Mill", "Mill", "Mill", "Wien"])
        self.assertEqual(said["filtered"], ["Mill", "Wien"])
        self.assertEqual(
            (sorted(said["carrying"]), said["count"]), (["15", "15", "3"], "3 of 6 lines")
        )
        whole, part = "\u221259\u202f885.25", "\u221260\u202f003.75"
        for name, lines, total in (
            ("total", "", whole),
            ("part", "of 1 of 6 lines", part),
            ("carried", "of 3 of 6 lines", whole),
            ("again", "", whole),
        ):
            self.assertEqual(said[name], [lines, *[""] * 5, total, *[""] * 4], name)
        self.assertAlmostEqual(said["nearer"], 0.7)
        self.assertAlmostEqual(said["whole"], 1)
