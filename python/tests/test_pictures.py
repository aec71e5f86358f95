"""Tests of the picture, with Graphviz if it is installed, and without it."""
import datetime
import itertools
import math
import os
import re
import xml.etree.ElementTree
from unittest import mock

from mcf_plan import drawing, layout, picture, scene
from support import PLACES, ROUTES, WithFolder, rows_of, script

# The kinds of routes, and the beginning of an arrow between dots: the seven corners of its line and
# head.
KINDS = ("flowing", "full", "idle")
ARROW = r'<path class="(?:flowing|full)" d="M[-0-9.]+,[-0-9.]+(?: L[-0-9.]+,[-0-9.]+){6} Z'
# Long names, and their short forms in boxes: their ends, or the part where they differ.
LONG_NAMES = (
    (
        [
            "Zentrallager für alkoholfreie Getränke München Ost",
            "Zentrallager für alkoholfreie Getränke München West",
            "Zentrallager für alkoholfreie Getränke Passau",
        ],
        ["Zentrallager…München Ost", "Zentrallager…ünchen West", "Zentrallager…änke Passau"],
    ),
    (
        [
            "Markt der Genossenschaft Oberbayern im Landkreis 1 Süd",
            "Markt der Genossenschaft Oberbayern im Landkreis 2 Süd",
            "Markt der Genossenschaft Niederbayern im Landkreis 2 Süd",
        ],
        ["Markt der Ge…kreis 1 Süd", "Markt der Ge…Oberbayern…", "Markt der Ge…Niederbaye…"],
    ),
    (
        ["just twenty-four letters", "ß" * 25],
        ["just twenty-four letters", "ß" * 12 + "…" + "ß" * 11],
    ),
)


def rectangles(drawn, kind):
    """The edges of the rectangles of a class, in their order."""
    root = xml.etree.ElementTree.fromstring(drawn)
    found = [item for item in root.iter("{http://www.w3.org/2000/svg}rect")]
    rows = [
        [float(item.get(name)) for name in ("x", "y", "width", "height")]
        for item in found
        if item.get("class") == kind
    ]
    return [(x, y, x + wide, y + high) for x, y, wide, high in rows]


def overlap(one, other, within=0.11):
    """Whether two rectangles overlap by more than their rounded edges."""
    return (
        other[0] + within < one[2]
        and one[0] + within < other[2]
        and other[1] + within < one[3]
        and one[1] + within < other[3]
    )


def scene_in(period, count):
    """A scene of one of some periods, of which no two have the same routes, kinds and notes."""
    half = count // 2
    nodes = [
        scene.Node(
            f"P{k}",
            f"P{k}",
            f"keeps {10 ** (k + period)}"[:12] if (k + period) % 3 else "",
            "passes" if (k + period) % 4 == 0 else "sends" if k < half else "takes",
            None,
        )
        for k in range(count)
    ]
    links = [
        scene.Link(k, half + k * 7 % half, 1.5 + (k + period) % 5, "flowing", str(10**period), "")
        for k in range(half)
        if (k + period) % 3
    ]
    return scene.Scene(f"Month {period}", nodes, links, [], {})


class Pictures(WithFolder):
    """The picture, with Graphviz if it is installed, and without it."""

    def drawn(self, places, routes):
        """Draws the picture, and returns its texts."""
        self.flow(places, routes)
        return self.texts()

    def texts(self):
        """The texts of the last picture."""
        root = xml.etree.ElementTree.parse(self.out / "plan.svg").getroot()
        return [element.text for element in root.iter("{http://www.w3.org/2000/svg}text")]

    def test_with_and_without_graphviz(self):
        routes = (
            ROUTES + "Mill,Wien,0,2,5\nGraz,Graz,0,3,-7\nWien,Graz,0,3,1\nR & D <x>,Mill,0,1,1\n"
        )
        spots = "name,supply,x,y\nMill,30,0,0\nWien,-18,5.5,-2\nGraz,-12,5.5,-2\nR & D <x>,0,1,1\n"
        path = os.environ["PATH"]
        self.addCleanup(os.environ.__setitem__, "PATH", path)
        for place, table in (
            (path, spots.replace(",x,y", ",a,b")),
            ("", spots.replace(",x,y", ",a,b")),
            ("", spots),
        ):
            os.environ["PATH"] = place
            with self.subTest(path=place, table=table):
                texts = self.drawn(table, routes)
                for text in ("Mill", "Wien", "Graz", "R & D <x>", "sends 30", "takes 18", "15"):
                    self.assertIn(text, texts)

    def test_without_places_and_at_one_spot(self):
        self.drawn("name,supply\n", "from,to,least,most,cost\n")
        self.assertIn(
            "A", self.drawn("name,supply,x,y\nA,0,3,3\n", "from,to,least,most,cost\nA,A,0,1,-1\n")
        )

    def test_spots_as_far_and_as_near_as_numbers_can_be(self):
        for spots in (
            ((-1e308, 0), (1e308, 1e308), (0, -1e308)),
            ((0, 0), (5e-324, 1e-300), (0, 1)),
            ((0, 5e-324), (0, 0), (0, 0)),
        ):
            boxes = layout.map_boxes(layout.Task([(60, 38)] * 3, spots, [], [], []))
            self.assertTrue(
                all(math.isfinite(box.x) and math.isfinite(box.y) for box in boxes), spots
            )

    def test_columns_begin_where_no_route_leads_to(self):
        for links, starts, levels in (
            ([(2, 0), (2, 1)], [], [1, 1, 0]),
            ([(2, 0), (0, 1)], [0], [0, 1, 0]),
            ([(0, 1), (1, 0)], [], [0, 1, 0]),
        ):
            self.assertEqual(layout.levels_of(3, links, starts), levels)

    def test_what_blocks(self):
        texts = self.drawn("name,supply\nA,5\nB,-5\n", "from,to,least,most,cost\nA,B,0,4,1\n")
        self.assertIn("\u2264 4", texts)
        self.assertIn("No plan exists: short by 1", texts)

    def test_what_is_drawn_of_a_balance(self):
        texts = self.drawn("name,supply\nA,5\nB,-3\n", "from,to,most,cost\nA,B,4,1\n")
        self.assertIn("No plan exists: supply 5, demand 3", texts)
        self.assertNotIn("limits them", texts)

    def test_many_places_are_dots(self):
        places = "name,supply\n" + "".join(f"A{k},1\nB{k},-1\n" for k in range(200))
        self.flow(places, "from,to,most,cost\n" + "".join(f"A{k},B{k},1,1\n" for k in range(200)))
        text = (self.out / "plan.svg").read_text()
        self.assertEqual(text.count("<title>A1: sends 1</title>"), 1)
        self.assertGreater(text.count("<circle"), 400)

    def test_dots_have_arrows_names_amounts_and_a_legend(self):
        spots = [(k % 23 * 1.0, k // 23 * 0.7) for k in range(400)]
        for on_map in (True, False):
            nodes = [
                scene.Node(f"Ort {k}", f"Ort {k}", "", "passes", spots[k] if on_map else None)
                for k in range(400)
            ]
            links = [
                scene.Link(k, (k + 75) % 400, 1.4 + k % 8, KINDS[k % 3], str(k + 1000), f"to {k}")
                for k in range(400)
            ]
            links.append(scene.Link(7, 230, 90, "flowing", "999999", "the widest"))
            notes = {"flowing": "as wide as it carries (widest 999999)", "full": "full"}
            drawn = picture.svg_of(scene.Scene("", nodes, links, [{5}], notes))
            texts = re.findall("<text [^>]*>([^<]*)</text>", drawn)
            # The picture names the places that block first, then the ends of the widest route.
            self.assertLessEqual({"Ort 5", "Ort 7", "Ort 230", "999999"}, set(texts))
            self.assertLessEqual({*notes.values(), "passes on", drawing.BLOCKS}, set(texts))
            self.assertEqual(
                len(re.findall(ARROW, drawn)), 2 + sum("idle" != x.kind for x in links)
            )
            self.assertGreater(len(texts), 60 if on_map else 30)
            tags = rectangles(drawn, "ground")
            for one, other in itertools.combinations(tags[1:], 2):
                self.assertFalse(overlap(one, other), (one, other))
            for tag in tags[1:]:
                self.assertTrue(tags[0][0] <= tag[0] and tag[2] <= tags[0][2], tag)

    def test_of_many_places_those_near_what_blocks_are_drawn(self):
        places = "name,supply\nA,5\nB,0\nC,-5\n" + "".join(f"P{k},0\n" for k in range(100))
        texts = self.drawn(
            places,
            "from,to,most,cost\nA,B,4,1\nB,C,5,1\n" + "".join(f"B,P{k},9,1\n" for k in range(100)),
        )
        self.assertIn("No plan exists: short by 1 (101 places farther off aren't drawn)", texts)
        self.assertEqual([text for text in texts if text in ("A", "B", "C", "P1")], ["A", "B"])

    def test_a_graphviz_that_takes_too_long_is_as_good_as_none(self):
        script(self.folder / "dot", "exec sleep 20")
        path = f"{self.folder}:{os.environ['PATH']}"
        with mock.patch.dict(os.environ, PATH=path), mock.patch.object(layout, "PATIENCE", 0.2):
            self.assertEqual(self.flow(PLACES, ROUTES)[0], 0)
        self.assertIn(">sends 30</text>", (self.out / "plan.svg").read_text())

    def test_of_many_places_graphviz_isnt_started(self):
        script(self.folder / "dot", f"echo started >> {self.folder}/started; exit 1")
        path = f"{self.folder}:{os.environ['PATH']}"
        for count, starts in ((40, True), (260, False)):
            rows = [f"P{k},{1 if k % 2 else -1},{k % 16},{k // 16}\n" for k in range(count)]
            routes = [f"P{k + 1},P{k},1,1\n" for k in range(0, count, 2)]
            routes += [f"P{k},P{j},1,1\n" for k in range(count) for j in range(7)]
            with mock.patch.dict(os.environ, PATH=path):
                texts = self.drawn(
                    "name,supply,x,y\n" + "".join(rows), "from,to,most,cost\n" + "".join(routes)
                )
            self.assertEqual((self.folder / "started").exists(), starts, count)
            self.assertLessEqual({f"P{k}" for k in range(count)}, set(texts))
            (self.folder / "started").unlink(missing_ok=True)

    def test_boxes_of_a_map_and_in_columns_dont_overlap(self):
        sizes = [(60 + 2 * k, 38) for k in range(60)]
        links = [(k, k + 1 - k % 3) for k in range(59)]
        for spots in (None, [(k % 7, k % 11) for k in range(60)]):
            task = layout.Task(sizes, spots, links, [None] * 59, [0])
            with mock.patch.dict(os.environ, PATH=""):
                boxes = layout.laid_out(task).boxes
            for one, other in itertools.combinations(boxes, 2):
                self.assertFalse(
                    abs(one.x - other.x) < (one.width + other.width) / 2
                    and abs(one.y - other.y) < (one.height + other.height) / 2,
                    spots,
                )

    def test_labels_of_routes_cover_no_place_and_no_other_label(self):
        spots = [(k % 4, k // 4 * 0.4) for k in range(16)]
        nodes = [
            scene.Node(f"Werk {k} München", f"Werk {k}", "sends 12000", "sends", spots[k])
            for k in range(16)
        ]
        links = [
            scene.Link(k, j, 1 + k % 7, "flowing", f"{131.75 * (k + j + 1):.2f}", "")
            for k, j in itertools.permutations(range(16), 2)
            if (k + j) % 3
        ]
        with mock.patch.dict(os.environ, PATH=""):
            drawn = picture.svg_of(scene.Scene("", nodes, links, [], {}))
        boxes = rectangles(drawn, "sends")[:16]
        labels = rectangles(drawn, "ground")[1:]
        self.assertGreater(len(labels), 12)
        for number, label in enumerate(labels):
            for box in boxes:
                self.assertFalse(overlap(label, box, 3), (label, box))
            for other in labels[:number]:
                self.assertFalse(overlap(label, other), (label, other))

    def test_long_names_are_cut_where_they_are_alike(self):
        for names, shorts in LONG_NAMES:
            self.assertEqual(scene.short_names(names), shorts)
        places = "".join(f"{name},{sign}\n" for name, sign in zip(LONG_NAMES[0][0], (2, -1, -1)))
        routes = "".join(f"{LONG_NAMES[0][0][0]},{name},1,1\n" for name in LONG_NAMES[0][0][1:])
        texts = self.drawn("name,supply\n" + places, "from,to,most,cost\n" + routes)
        self.assertLessEqual(set(LONG_NAMES[0][1]), set(texts))
        for name in LONG_NAMES[0][0]:
            self.assertIn(f"<title>{name}</title>", (self.out / "plan.svg").read_text())

    def test_many_that_send_and_many_that_take_are_rows(self):
        places = "".join(f"Werk {k},{k % 3 + 1}\nMarkt {k},{-(k % 3) - 1}\n" for k in range(150))
        routes = "".join(
            f"Werk {k},Markt {j},{1 + j % 2},{abs(k - j) % 7 + 1}\n"
            for k, j in itertools.product(range(150), repeat=2)
            if abs(k - j) < 20
        )
        texts = self.drawn("name,supply\n" + places, "from,to,most,cost\n" + routes)
        drawn = (self.out / "plan.svg").read_text()
        for name in ("Werk", "Markt"):
            self.assertLessEqual({f"{name} {k}" for k in range(150)}, set(texts))
        left, top, wide, high = map(float, re.search('viewBox="(.*?)"', drawn)[1].split())
        # On a page 1310 px wide the names are at least 9 px high, and the picture fills the page.
        self.assertGreater(12 * 1310 / wide, 9)
        self.assertGreater(wide, 900)
        carried = sum(row["carries"] != "0" for row in rows_of(self.out / "flows.csv"))
        self.assertEqual(drawn.count('<g class="f') - 2, carried)
        boxes = rectangles(drawn, "sends")[:-1] + rectangles(drawn, "takes")[:-2]
        for one, other in itertools.combinations(boxes, 2):
            self.assertFalse(overlap(one, other), (one, other))

    def test_few_that_send_or_take_are_boxes(self):
        for count, kind in ((20, "boxes"), (21, "rows")):
            nodes = [scene.Node(f"P{k}", f"P{k}", "", "passes", None) for k in range(count + 2)]
            links = [scene.Link(0, k + 1, 2, "flowing", "2", "") for k in range(count)]
            for turned in (False, True):
                ends = [link._replace(tail=link.head, head=link.tail) for link in links]
                drawn = picture.svg_of(scene.Scene("", nodes, ends if turned else links, [], {}))
                self.assertIn(f'<svg xmlns="http://www.w3.org/2000/svg" class="{kind}"', drawn)
                for node in nodes:
                    self.assertIn(f">{node.name}</text>", drawn)

    def test_places_keep_their_spots_over_periods(self):
        spot = '<(?:rect class="(?:sends|takes|passes)" x|circle cx)="([^"]*)" c?y="([^"]*)"'
        for count, kind in ((10, "boxes"), (60, "rows"), (400, "dots")):
            scenes = [scene_in(period, count) for period in range(3)]
            with mock.patch.dict(os.environ, PATH=""):
                drawn = picture.svgs_of(scenes)
            for shown, text in zip(scenes, drawn):
                with self.subTest(kind=kind, period=shown.heading):
                    self.assertIn(f'<svg xmlns="http://www.w3.org/2000/svg" class="{kind}"', text)
                    self.assertIn(f">{shown.heading}</text>", text)
                    arrows = re.findall('<(?:g|path) class="flowing"', text)
                    self.assertEqual(len(arrows), len(shown.links))
                    for look in (spot, 'viewBox="[^"]*"'):
                        self.assertEqual(re.findall(look, text), re.findall(look, drawn[0]))

    def test_title_date_tables_and_units(self):
        places, routes = "name;supply\nA;12500\nB;-12500\n", "from;to;most;cost\nA;B;;1,25\n"
        words = ("--title", "Week <7>", "--currency", "\u20ac", "--unit", "hl")
        with mock.patch.dict(os.environ, SOURCE_DATE_EPOCH="1700000000"):
            self.flow(places, routes, *words)
            texts = self.texts()
            self.assertEqual(
                texts[:3],
                [
                    "Week <7>",
                    "A least-cost plan: cost 15\u202f625 \u20ac",
                    "2023-11-14: places.csv, routes.csv",
                ],
            )
            self.assertIn("as wide as it carries (widest 12\u202f500 hl)", texts)
            self.assertIn("sends 12\u202f500", texts)
            root = xml.etree.ElementTree.parse(self.out / "plan.svg").getroot()
            self.assertEqual(root.get("role"), "img")
            self.assertEqual(
                [item.text for item in root[:2]],
                [
                    "Week <7>: A least-cost plan: cost 15\u202f625 \u20ac",
                    "Drawn are 2 places and 1 route; the tables have all of them.",
                ],
            )
            self.flow(places, routes.replace(";;", ";1;"), *words)
            self.assertEqual(self.texts()[1], "No plan exists: short by 12\u202f499 hl")
            self.flow(places, routes)
            self.assertEqual(self.texts()[0], "A least-cost plan: cost 15\u202f625")
        self.flow(places, routes)
        self.assertIn(f"{datetime.date.today()}: places.csv, routes.csv", self.texts())
        with mock.patch.dict(os.environ, SOURCE_DATE_EPOCH="soon"):
            status, _, told = self.flow(places, routes)
            self.assertEqual(status, 2)
            self.assertIn("SOURCE_DATE_EPOCH=soon: this is no date in seconds since 1970", told)

    def test_a_graphviz_that_fails_is_as_good_as_none(self):
        path = f"{self.folder}:{os.environ['PATH']}"
        for text in ("exit 1", "echo '{'", 'echo \'{"objects": [{"name": "n7", "pos": "1,1"}]}\''):
            script(self.folder / "dot", text)
            with self.subTest(text=text), mock.patch.dict(os.environ, PATH=path):
                self.assertEqual(self.flow(PLACES, ROUTES)[0], 0)
                self.assertIn(">sends 30</text>", (self.out / "plan.svg").read_text())
