"""Tests of mcf_explain: its explanations of instances, and that they agree with mcf."""
import contextlib
import io
import random
import re
import subprocess
import sys

from mcf_explain import cli
from mcf_plan.programs import program
from support import TOP, WithFolder, script

GOOD = "p min 3 2\nn 1 4\nn 3 -4\na 1 2 0 9 1\na 2 3 0 9 1\n"
ASSIGNMENT = "p asn 4 3\nn 1\nn 2\na 1 3 5\na 2 3 1\na 2 4 2\n"
# A text, and its explanation: the first fault, and its usual cause.
SAID = [
    (b"\xef\xbb\xbfp min 1 0\n", "r 1 kind", "the file begins with a byte-order mark"),
    (b"\x1f\x8b\x08\x00\x00", "r 1 kind", "the file is compressed by gzip"),
    (b"PK\x03\x04", "r 1 kind", "the file is a zip archive"),
    (b"# from a spreadsheet\np min 1 0\n", "r 1 kind", "comments begin with c"),
    (b"P min 1 0\n", "r 1 kind", "the words are in small letters"),
    (b"p MIN 1 0\n", "r 1 problem", "the words are in small letters"),
    (b"p max 1 0\n", "r 1 problem", "a maximum flow"),
    (b"p min 2 1\rn 1 1\rn 2 -1\ra 1 2 0 1 1\r", "r 1 fields", "lines end with CR alone"),
    (b"name,supply\nA,1\n", "r 1 kind", "mcf_plan reads tables"),
    (b"s 14\nf 1 2 3\n", "r 1 kind", "were instance and answer exchanged?"),
    (b"pmin 1 0\n", "r 1 kind", "there is a blank after the letter"),
    (b"p min 1 0\nn 1 2.5\n", "r 2 number", "multiply all costs, or all amounts, by 10"),
    (b"p min 1 1\na 1 1 0 inf 1\n", "r 2 number", "give as CAP what all supplies add to"),
    (b"p min 1 1\na 1 1 0 1e3 1\n", "r 2 number", "write all digits"),
    (b"p min 1 1\na 1 1 1\n", "r 2 fields", "LOW and CAP are missing"),
    (b"p asn 2 1\nn 1 1\n", "r 2 fields", "a node line of an assignment names a row"),
    (b"p asn 2 1\nn 1\na 2 1 7\n", "r 3 side", "are the ends exchanged?"),
    (b"p min 2 1\na 0 1 0 1 1\n", "r 2 node", "nodes count from 1"),
    (b"p min 2 1\na 1 2 3 1 1\n", "r 2 order", "are LOW and CAP exchanged?"),
    (b"p min 2 2\na 1 2 0 1 1\n", "r 3 missing", "was the text cut off?"),
    (b"p min 1 0\np min 1 0\n", "r 2 second-p", "were two instances put into one file?"),
]


class Explain(WithFolder):
    """The explanations."""

    def explained(self, data):
        """The explanation of a text, and the status."""
        lines, status = cli.explained("text", data, program("mcfcheck"))
        return "\n".join(lines), status

    def test_causes(self):
        for data, refusal, cause in SAID:
            with self.subTest(data=data):
                said, status = self.explained(data)
                self.assertEqual(status, 2, said)
                self.assertIn(f"(mcf: {refusal})", said)
                self.assertIn(cause, said)
                self.assertNotIn("?.", said)

    def test_the_place(self):
        said, _ = self.explained(b"p min 4 1\n\ta 1 9 0 3 2\r\n")
        self.assertEqual(
            said,
            (
                "text: line 2: the second end is 9; nodes are 1 to 4 (mcf: r 2 node)\n     a 1 9 0"
                " 3 2\n         ^"
            ),
        )

    def test_all_further_faults(self):
        said, _ = self.explained(b"p min 2 9\nn 1 x\nn 1 3\n" + b"a 1 3 0 1 1\n" * 7 + b"q\n")
        self.assertEqual(
            said.split("\n")[3:],
            [
                "Further on, where mcf doesn't look any more:",
                "line 3: node 1 has a node line already, line 2 (twice)",
                "line 4: the second end is 3; nodes are 1 to 2 (node)",
                "line 5: the second end is 3; nodes are 1 to 2 (node)",
                "line 6: the second end is 3; nodes are 1 to 2 (node)",
                "and 4 more of node, the last in line 10",
                (
                    "line 11: 'q' begins no line of an instance: lines begin with p, n or a, and"
                    " comments with c (kind)"
                ),
                "line 12: the problem line (line 1) says 9 arcs, and there are 7 (missing)",
            ],
        )

    def test_after_a_faulty_problem_line(self):
        self.assertNotIn(
            "Further", self.explained(b"p min x 2\nn 1 3\na 1 2 0 1 1\na 1 2 0 1 1\n")[0]
        )

    def test_examples(self):
        for path in sorted((TOP / "examples").glob("*.[ma][is]n")):
            with self.subTest(path=path.name):
                said, status = self.explained(path.read_bytes())
                answer = path.with_suffix(".ans").read_text().split("\n")[0]
                self.assertIn(
                    f"(mcf: {answer})" if answer.startswith("r") else "mcf refuses nothing here.",
                    said,
                )
                self.assertEqual(status, 2 if answer.startswith("r") else 0)

    def test_changed_texts_agree_with_mcf(self):
        draw = random.Random(9)
        pieces = [
            b"p",
            b"n",
            b"a",
            b"c",
            b"0",
            b"1",
            b"4",
            b"-1",
            b"+2",
            b"\n",
            b" ",
            b"\t",
            b"x",
            b"min",
            b"asn",
            b"9" * 19,
            b"9" * 16,
            b"p min 2 1\n",
            b"n 2\n",
            b"\r",
        ]
        for case in range(250):
            data = (GOOD if draw.random() < 0.5 else ASSIGNMENT).encode()
            for _ in range(draw.randint(1, 3)):
                begin = draw.randrange(len(data) + 1)
                data = (
                    data[:begin]
                    + draw.choice(pieces) * draw.randint(0, 1)
                    + data[begin + draw.randint(0, 3) :]
                )
            with self.subTest(data=data):
                said, status = self.explained(data)
                self.assertIn(status, (0, 2), said)

    def test_a_refusal_that_mcfcheck_does_not_accept(self):
        script(self.folder / "mcfcheck", "echo rejected refusal; exit 1")
        for text in (GOOD, "x\n"):
            lines, status = cli.explained("text", text.encode(), program("mcfcheck", self.folder))
            self.assertEqual(status, 3)
            self.assertIn("MCF SEES IT OTHERWISE", lines[-1])

    def test_the_command(self):
        tool = [sys.executable, str(TOP / "tools" / "mcf_explain")]
        path = self.put("bad.min", "p min 1 0\nn 2 1\n")
        for words, data in (([str(path)], b""), ([], path.read_bytes())):
            done = subprocess.run(tool + words, input=data, stdout=subprocess.PIPE, timeout=60)
            self.assertEqual(done.returncode, 2)
            self.assertTrue(re.match(rb".*: line 2: the node is 2; nodes are 1 to 1", done.stdout))
        for words in ([str(self.folder / "none")], ["a", "b"]):
            with contextlib.redirect_stderr(io.StringIO()):
                self.assertEqual(
                    subprocess.run(tool + words, stderr=subprocess.PIPE, timeout=60).returncode, 3
                )
