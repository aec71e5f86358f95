"""Tests of exit statuses, signals, refused memory, and of folders, which the tool writes completely
or not at all."""
import os
import pty
import resource
import shutil
import signal
import subprocess
import sys
import time
from unittest import mock

from mcf_plan import commands
from mcf_plan.programs import program
from support import PLACES, ROUTES, TOP, WithFolder, script

TOOL = [sys.executable, str(TOP / "tools" / "mcf_plan")]


class Statuses(WithFolder):
    """The tool as a process."""

    def words(self, *more):
        """The arguments for two tables that have a plan."""
        tables = [str(self.put("places.csv", PLACES)), str(self.put("routes.csv", ROUTES))]
        return TOOL + ["flow", *tables, "-o", str(self.out), *more]

    def left(self):
        """The names in the test's folder besides the tables."""
        return sorted(
            path.name
            for path in self.folder.iterdir()
            if path.suffix != ".csv" and not path.name.startswith("mcf")
        )

    def test_want_of_memory_never_says_that_no_plan_exists(self):
        for size in range(20_000, 61_000, 5_000):

            def limit(size=size):
                resource.setrlimit(resource.RLIMIT_AS, (size * 1024, size * 1024))

            with self.subTest(size=size):
                done = subprocess.run(
                    self.words(),
                    stdout=subprocess.PIPE,
                    stderr=subprocess.PIPE,
                    preexec_fn=limit,
                    timeout=60,
                )
                self.assertIn(done.returncode, (0, 3), done.stderr)
                self.assertEqual(self.left(), ["out"] if done.returncode == 0 else [])
                subprocess.run(["rm", "-rf", str(self.out)], check=True)

    def test_closed_streams(self):
        done = subprocess.run(["sh", "-c", '"$@" <&- >&- 2>&-', "sh", *self.words()], timeout=60)
        self.assertEqual((done.returncode, self.left()), (0, ["out"]))

    def test_a_full_device(self):
        with open("/dev/full", "wb") as full:
            done = subprocess.run(self.words(), stdout=full, stderr=subprocess.PIPE, timeout=60)
        self.assertEqual(done.returncode, 3)
        self.assertIn(b"the summary can't be written", done.stderr)

    def test_signals(self):
        script(self.folder / "mcfplan", "sleep 60")
        for number, status in ((signal.SIGINT, 130), (signal.SIGTERM, 143)):
            with self.subTest(number=number), subprocess.Popen(
                self.words("--programs", str(self.folder)), stderr=subprocess.PIPE
            ) as process:
                while not self.left():
                    time.sleep(0.05)
                process.send_signal(number)
                told = process.stderr.read()
                self.assertEqual(
                    (process.wait(20), len(told.splitlines()), self.left()), (status, 1, [])
                )

    def test_an_interrupt_while_modules_are_imported(self):
        self.put("argparse.py", "import os, time; os.kill(os.getpid(), 2); time.sleep(9)")
        environment = {**os.environ, "PYTHONPATH": f"{self.folder}:{TOP / 'python'}"}
        tools = TOP / "tools"
        for words in (
            [tools / "mcf_plan"],
            [tools / "mcf_explain"],
            ["-m", "mcf_plan"],
            ["-m", "mcf_explain"],
        ):
            done = subprocess.run(
                [sys.executable, *words, "--help"], stderr=subprocess.PIPE, env=environment
            )
            self.assertEqual((done.returncode, done.stderr), (130, b""), words)

    def test_an_interrupt_that_is_ignored_stays_so(self):
        words = self.words()
        script(self.folder / "mcfplan", f'kill -INT $PPID; exec {program("mcfplan")} "$@"')
        words = ["sh", "-c", "trap '' INT; exec \"$@\"", "sh", *words, "--programs", self.folder]
        self.assertEqual(subprocess.run(words, stdout=subprocess.PIPE).returncode, 0)

    def test_any_other_fault_is_told_in_one_line(self):
        with mock.patch.object(commands, "problem_of", side_effect=TypeError("one\ntwo")):
            status, said, told = self.flow(PLACES, ROUTES)
        self.assertEqual(
            (status, said, told),
            (3, "", "mcf_plan: a fault of this tool, which please report: TypeError: one two\n"),
        )
        self.assertEqual(self.left(), [])

    def test_a_sign_of_life_on_a_terminal(self):
        script(self.folder / "mcfplan", "sleep 1.5; exit 3")
        ours, theirs = pty.openpty()
        with subprocess.Popen(self.words("--programs", str(self.folder)), stderr=theirs) as process:
            process.wait(20)
        os.close(theirs)
        told = os.read(ours, 10_000).decode()
        os.close(ours)
        self.assertIn("mcf_plan: mcfplan plans .. 1 s", told)


class Folders(WithFolder):
    """The folder of the results."""

    def test_a_folder_with_other_files_is_left_alone(self):
        self.out.mkdir()
        (self.out / "notes.txt").write_text("mine")
        status, said, told = self.flow(PLACES, ROUTES)
        self.assertEqual((status, said), (2, ""))
        self.assertIn("has files that are no results, such as notes.txt", told)
        self.assertEqual([path.name for path in self.out.iterdir()], ["notes.txt"])

    def test_a_folder_of_others_with_names_of_results_is_left_alone(self):
        self.out.mkdir()
        for others in ({"report.html": "mine"}, {"report.html": "mine", "answer.csv": "{}"}):
            for name, text in others.items():
                (self.out / name).write_text(text)
            status, said, told = self.flow(PLACES, ROUTES)
            self.assertEqual((status, said), (2, ""))
            self.assertIn("and no answer.csv of this tool, by which it would be an earlier", told)
            self.assertEqual({path.name for path in self.out.iterdir()}, set(others))
            self.assertEqual((self.out / "report.html").read_text(), "mine")

    def test_an_empty_folder_and_an_earlier_result_are_taken(self):
        self.out.mkdir()
        self.assertEqual(self.flow(PLACES, ROUTES)[0], 0)
        self.assertEqual(self.flow(PLACES, ROUTES.replace("20", "2"))[0], 1)
        self.assertEqual(self.pairs(",X\nA,1\n")[0], 0)
        self.assertEqual(self.flow(PLACES, ROUTES)[0], 0)
        shutil.rmtree(self.out)
        self.out.mkdir()
        record = '{\n"format": 2,\n"kind": "flow",\n"instance": "instance.min",\n'
        for name, text in {"plan.json": record, "answer.ans": "s 1\n"}.items():
            (self.out / name).write_text(text)
        self.assertEqual(self.flow(PLACES, ROUTES)[0], 0)
        self.assertFalse((self.out / "plan.json").exists())

    def test_a_run_that_fails_leaves_the_results_of_the_one_before(self):
        self.flow(PLACES, ROUTES)
        before = {path.name: path.read_bytes() for path in self.out.iterdir()}
        script(self.folder / "mcfplan", "exit 3")
        self.assertEqual(self.flow(PLACES, ROUTES, "--programs", self.folder)[0], 3)
        self.assertEqual({path.name: path.read_bytes() for path in self.out.iterdir()}, before)

    def test_a_link_to_a_folder_stays_one(self):
        (self.folder / "there").mkdir()
        self.out.symlink_to("there")
        self.assertEqual(self.flow(PLACES, ROUTES)[0], 0)
        self.assertTrue(self.out.is_symlink() and (self.folder / "there" / "flows.csv").exists())

    def test_no_picture(self):
        self.assertEqual(self.flow(PLACES, ROUTES, "--no-picture")[0], 0)
        self.assertFalse((self.out / "plan.svg").exists())
