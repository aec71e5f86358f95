"""Tests with a program that is missing, fails, or prints what is no answer."""
import re

from mcf_plan.answer import answer_to
from mcf_plan.programs import program
from support import COMPARED, PLACES, ROUTES, WithFolder, script

ANSWER = 'echo \'"answer","{}"\'; exit {}'


class Programs(WithFolder):
    """A program that is missing, fails, or prints what is no answer."""

    def told(self, text):
        """The output of the tool with this program."""
        script(self.folder / "mcfplan", text)
        status, said, told = self.flow(PLACES, ROUTES, "--programs", self.folder)
        self.assertEqual((status, said), (3, ""))
        self.assertEqual([path for path in COMPARED if (self.out / path).exists()], [])
        return told

    def test_missing(self):
        status, _, told = self.flow(PLACES, ROUTES, "--programs", self.folder)
        self.assertEqual(status, 3)
        self.assertIn("the program mcfplan isn't in", told)

    def test_no_answer(self):
        text = "mcfplan: out of memory"
        self.assertIn(text, self.told(f"echo '{text}' >&2; exit 3"))
        self.assertIn("status -9", self.told("kill -9 $$"))

    def test_an_answer_that_is_none(self):
        for text in ("", "echo", "echo s 171", ANSWER.format("plan", 0), "printf '\\377'"):
            self.assertIn("can't be read", self.told(text), text)

    def test_an_answer_of_another_status(self):
        for kind, status in (("plan", 1), ("plan", 2), ("no plan", 0), ("faults", 0)):
            text = f"mcfplan ended with status {status}, and its answer can't be read"
            self.assertIn(text, self.told(ANSWER.format(kind, status)))

    def test_figures_that_are_too_great_are_empty(self):
        answer = answer_to(
            program("mcfplan"), ["flow"], {"places": PLACES, "routes": ROUTES}
        ).data.decode()
        answer = re.sub(r'("route"(?:,"[^"]*"){4}),.*', r'\1,"","","","",""', answer)
        answer = re.sub(r'("place"(?:,"[^"]*"){4}),.*', r'\1,"","","","","","","",""', answer)
        script(self.folder / "mcfplan", f"cat {self.put('answer', answer)}")
        status, said, told = self.flow(PLACES, ROUTES, "--programs", self.folder)
        self.assertEqual((status, told), (0, ""))
        self.assertIn("cost 171.\n3 places, 3 routes: 3 carry something, 0 are full.\n", said)
        self.assertIn("Mill,Wien,0,15,4,15,,,,,\n", (self.out / "flows.csv").read_text())
        self.assertIn("Wien,-18,,\n", (self.out / "prices.csv").read_text())

    def test_the_answer_is_kept_byte_for_byte(self):
        script(
            self.folder / "mcfplan", f"exec {program('mcfplan')} \"$@\" | tee {self.folder}/kept"
        )
        self.assertEqual(self.flow(PLACES, ROUTES, "--programs", self.folder)[0], 0)
        kept = (self.folder / "kept").read_bytes()
        self.assertEqual((self.out / "answer.csv").read_bytes(), kept)
