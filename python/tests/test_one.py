"""Tests of mcf_one: one instance solved and judged, and the log of many."""
import csv
import hashlib
import itertools
import os
import shutil
import signal
import subprocess
import time

from mcf_plan.programs import program
from support import TOP, WithFolder, script

TOOL = str(TOP / "tools" / "mcf_one")
FLOW = "p min 2 1\nn 1 3\nn 2 -3\na 1 2 0 4 5\n"


class One(WithFolder):
    """The script, run by each shell that is installed."""

    def run_one(self, *words, **variables):
        """Runs the script. Returns its status and its output."""
        environment = {
            **os.environ,
            "MCF_BIN": os.path.dirname(program("mcf")),
            **{name: str(value) for name, value in variables.items()},
        }
        done = subprocess.run(
            [self.shell, self.tool, *map(str, words)],
            stdout=subprocess.PIPE,
            stderr=subprocess.PIPE,
            env=environment,
            timeout=60,
        )
        return done.returncode, done.stdout.decode()

    def setUp(self):
        super().setUp()
        self.shell, self.tool = "/bin/sh", TOOL

    def test_statuses(self):
        for shell in filter(None, map(shutil.which, ("dash", "bash"))):
            self.shell = shell
            for name, text, status, verdict in (
                ("a b (1).min", FLOW, 0, "accepted flow 15"),
                ("blocked.min", FLOW.replace("4 5", "2 5"), 1, "accepted blocked 1"),
                ("pairs.asn", "p asn 2 1\nn 1\na 1 2 7\n", 0, "accepted flow 7"),
                ("bad.min", "p min 1 0\nx\n", 2, "accepted refusal 2 kind"),
                ("no.dot.here/plain", FLOW, 0, "accepted flow 15"),
            ):
                with self.subTest(shell=shell, name=name):
                    (self.folder / name).parent.mkdir(exist_ok=True)
                    path = self.put(name, text)
                    answer = path.with_suffix(".ans")
                    self.assertEqual(self.run_one(path), (status, f"{status} {path} {verdict}\n"))
                    self.assertTrue(answer.exists())
                    answer.unlink()
            self.assertEqual(self.run_one(self.folder / "none.min")[0], 3)
            answer = self.put("done.ans", "s 15\n")
            self.assertEqual(
                self.run_one(answer), (3, f"3 {answer} no answer: this is the name of one\n")
            )
            self.assertEqual(answer.read_text(), "s 15\n")
            self.assertEqual(self.run_one()[0], 3)

    def test_names_that_begin_with_a_hyphen(self):
        for shell in filter(None, map(shutil.which, ("dash", "bash"))):
            self.shell = shell
            self.put("-x.min", FLOW)
            here = os.getcwd()
            os.chdir(self.folder)
            try:
                for word in ("--help", "-h"):
                    usage = "usage: mcf_one INSTANCE [OPTION of mcf solve ..]\n"
                    self.assertEqual(self.run_one(word), (0, usage))
                no_answer = "3 ./--none no answer: mcf ended with status 3\n"
                self.assertEqual(self.run_one("--none"), (3, no_answer))
                self.assertEqual(os.listdir(), ["-x.min"])
                accepted = "0 ./-x.min accepted flow 15\n"
                self.assertEqual(self.run_one("-x.min", MCF_LOG="-log"), (0, accepted))
                self.assertEqual(sorted(os.listdir()), ["-log", "-x.ans", "-x.min"])
            finally:
                os.chdir(here)
            for name in ("-log", "-x.ans"):
                (self.folder / name).unlink()

    def test_where_the_programs_are(self):
        path = self.put("a.min", FLOW)
        for programs in ("beside/tools", "be low/bin"):
            folder = self.folder / programs
            tools = folder.parent / "tools"
            folder.mkdir(parents=True)
            tools.mkdir(exist_ok=True)
            self.tool = shutil.copy(TOOL, tools)
            for name in ("mcf", "mcfcheck"):
                shutil.copy(program(name), folder)
            self.assertEqual(
                self.run_one(path, MCF_BIN="", PATH="/usr/bin:/bin"),
                (0, f"0 {path} accepted flow 15\n"),
            )

    def test_options_go_to_mcf(self):
        path = self.put("a.min", FLOW)
        self.run_one(path, "--form", "2")
        self.assertTrue((self.folder / "a.ans").read_text().startswith("v 2\n"))

    def test_an_answer_that_is_rejected(self):
        script(self.folder / "mcf", "echo s 14")
        shutil.copy(program("mcfcheck"), self.folder / "mcfcheck")
        path = self.put("a.min", FLOW)
        self.assertEqual(self.run_one(path, MCF_BIN=self.folder), (3, f"3 {path} rejected arc 1\n"))
        self.assertEqual(
            sorted(entry.name for entry in self.folder.glob("a.*")), ["a.ans.rejected", "a.min"]
        )

    def run_one_with(self, path, **variables):
        """Starts the script in its own process group."""
        return subprocess.Popen(
            ["/bin/sh", TOOL, str(path)],
            env=dict(os.environ, MCF_BIN=str(self.folder), **variables),
            start_new_session=True,
            stdout=subprocess.PIPE,
            stderr=subprocess.DEVNULL,
        )

    def test_signals_leave_nothing(self):
        begun = self.folder / "begun"
        script(self.folder / "mcf", f"touch '{begun}'; exec sleep 60")
        path = self.put("a.min", FLOW)
        ends = ((signal.SIGTERM, 143), (signal.SIGINT, 130), (signal.SIGHUP, 129))
        logs = ({}, {"MCF_LOG": str(self.folder / "a.log")})
        for (number, status), log in itertools.product(ends, logs):
            with self.subTest(number=number), self.run_one_with(path, **log) as process:
                while not begun.exists():
                    time.sleep(0.05)
                time.sleep(0.1)
                os.killpg(process.pid, number)
                begun.unlink()
                self.assertEqual(
                    (process.wait(20), [entry.name for entry in self.folder.glob("a.*")]),
                    (status, ["a.min"]),
                )

    def test_the_log_of_many(self):
        names = [f'job "{number}", a.min' for number in range(40)]
        for number, name in enumerate(names):
            self.put(name, FLOW if number % 4 else FLOW.replace("4 5", "2 5"))
        log = self.folder / "log.csv"
        environment = dict(os.environ, MCF_BIN=os.path.dirname(program("mcf")), MCF_LOG=str(log))
        subprocess.run(
            ["xargs", "-r", "-0", "-n", "1", "-P", "8", TOOL],
            input="\0".join(str(self.folder / name) for name in names).encode(),
            env=environment,
            stdout=subprocess.PIPE,
            timeout=60,
        )
        with open(log, newline="") as table:
            rows = sorted(csv.DictReader(table), key=lambda row: row["instance"])
        self.assertEqual(
            [row["instance"] for row in rows], sorted(str(self.folder / name) for name in names)
        )
        self.assertEqual(
            sorted({(row["status"], row["cost"]) for row in rows}), [("0", "15"), ("1", "")]
        )
        for row in rows:
            answer = row["instance"][:-4] + ".ans"
            self.assertEqual(
                row["answer_sha256"], hashlib.sha256(open(answer, "rb").read()).hexdigest()
            )
            self.assertEqual(len(row["instance_sha256"]), 64)
            self.assertTrue(row["kilobytes"].isdigit() or not os.path.exists("/usr/bin/time"))
