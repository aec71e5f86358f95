"""The proved program on random tables, beside plans and pairs by plain Python."""
import collections
import csv
import io
import os
import pathlib
import random
import subprocess
import unittest

from plain_faults import cell_faults, spoil
from plain_pairs import are_competing, least_cost, random_roster, table_of, why_no_choice
from plain_plans import (
    Rows,
    is_bottleneck,
    passing,
    told_figures,
    ways_of,
    why_no_plan,
    why_wrong_figures,
)
from plain_ranges import why_wrong_passes, why_wrong_ranges, why_wrong_rooms, why_wrong_supplies
from random_tables import TIGHT, Notation, random_problem, round_problem, tables_of
from support import TOP, WithFolder

PROGRAM = pathlib.Path(os.environ.get("MCF_BIN") or TOP / "bin") / "mcfplan"
PLAN_CASES, FIGURE_CASES, ROUND_CASES, PAIR_CASES = 600, 150, 60, 600
RANGE_CASES = 60


def repeated(rows, word):
    """The rows of a table that an answer repeats, by their lines."""
    told = [cells for kind in ("heads", "row") for cells in rows.by_word[kind]]
    return {int(line): cells for table, line, *cells in told if table == word}


def rows_of(notation, text, head):
    """The rows of a text that aren't blank, by their lines, from the first that has a head on, or
    all if none has."""
    reader = csv.reader(
        io.StringIO(text.lstrip("\ufeff"), newline=""),
        delimiter=notation.separator,
        skipinitialspace=True,
    )
    rows = {reader.line_num: [cell.strip() for cell in row] for row in reader}
    rows = {line: row for line, row in rows.items() if any(row)}
    starts = (line for line, row in rows.items() if head in map(str.lower, row))
    first = next(starts, min(rows))
    return {line: row for line, row in rows.items() if line >= first}


class Answering(WithFolder):
    """Answers of the program to texts."""

    def answered(self, words, texts):
        """The status of the program, and its rows."""
        files = [self.folder / f"table{number}.csv" for number in range(len(texts))]
        for file, text in zip(files, texts):
            file.write_bytes(text.encode())
        done = subprocess.run([PROGRAM, *words, *files], capture_output=True, check=False)
        self.assertEqual(done.stderr, b"")
        rows = csv.reader(io.StringIO(done.stdout.decode(), newline=""), strict=True)
        return done.returncode, Rows(rows)


@unittest.skipUnless(PROGRAM.exists(), "bin/mcfplan isn't built")
class Plans(Answering):
    """Random problems, whose tables are written in random ways."""

    def answer(self, problem, notation, texts, *more):
        """The status of the program, and its rows."""
        policy = problem.policy
        says_mark = notation.says_mark or (policy.penalty or 0) % 1 != 0
        words = ["--decimal", notation.mark] if says_mark else []
        words += ["--unused", "allow"] * policy.unused + ["--short", "allow"] * policy.short
        if policy.penalty is not None:
            words.append(f"--penalty={notation.plain(policy.penalty)}")
        return self.answered(["flow", *words, *more], texts)

    def tables(self, rng, notation, problem, spoiled=0.0):
        """The texts of both tables, and their rows by line. Some of the tables are spoiled."""
        tables = tables_of(rng, notation, problem)
        if rng.random() < spoiled:
            spoil(rng, tables)
        texts = [notation.text(*table) for table in tables]
        return texts, [rows_of(notation, *pair) for pair in zip(texts, ("name", "from"))]

    def check(self, problem, status, rows):
        """The answer to tables without faults of cells."""
        best = None if problem.has_fault() else problem.least()
        self.assertEqual(status, 2 if problem.has_fault() else 0 if best else 1)
        if status == 0:
            self.assertIsNone(why_no_plan(problem, rows))
            self.assertEqual(rows.number("cost"), best[0])
            # With a penalty, least plans may differ in what is missing.
            if not problem.names_penalty():
                self.assertEqual(rows.number("missing"), best[1])
        if status == 1:
            self.assertTrue(is_bottleneck(problem.policy, rows))

    def test_random_problems(self):
        rng, statuses = random.Random(20261129), collections.Counter()
        for case in range(PLAN_CASES):
            notation = Notation(rng)
            problem = random_problem(rng, notation)
            texts, tables = self.tables(rng, notation, problem, 0.2)
            status, rows = self.answer(problem, notation, texts)
            faults = cell_faults(*tables)
            statuses["cells" if faults else status] += 1
            with self.subTest(case=case, texts=texts, policy=problem.policy):
                if faults:
                    told = rows.by_word["fault"]
                    found = [(table, int(line), *cells[:2]) for table, line, *cells in told]
                    self.assertEqual((status, sorted(found)), (2, sorted(faults)))
                else:
                    self.check(problem, status, rows)
                for word, table in zip(("places", "routes"), tables):
                    self.assertEqual(repeated(rows, word), table)
        self.assertLess(PLAN_CASES / 12, min(statuses[status] for status in (0, 1, 2, "cells")))

    def planned_problem(self, rng, *more):
        """A random problem that has a plan, its texts, and the rows of its answer."""
        while True:
            notation = Notation(rng)
            problem = random_problem(rng, notation, TIGHT)
            texts, _ = self.tables(rng, notation, problem)
            status, rows = self.answer(problem, notation, texts, *more)
            if status == 0:
                return problem, texts, rows

    def test_random_figures(self):
        rng, seen = random.Random(2), collections.Counter()
        for case in range(FIGURE_CASES):
            problem, texts, rows = self.planned_problem(rng)
            with self.subTest(case=case, texts=texts, policy=problem.policy):
                self.assertIsNone(why_no_plan(problem, rows))
                self.assertIsNone(why_wrong_figures(problem, rows))
                for told in told_figures(problem, rows):
                    seen[told.row[0], told.saves > 0, told.exact] += 1
                    seen[told.row[0], bool(told.dearer)] += 1
        self.assertLess(FIGURE_CASES / 3, seen["route", True, True])
        for word in ("route", "back", "place"):
            self.assertLess(1, min(seen[word, True, True], seen[word, True, False]))
            self.assertLess(FIGURE_CASES / 10, seen[word, True])

    def test_random_ranges(self):
        rng, seen = random.Random(3), 0
        for case in range(RANGE_CASES):
            problem, texts, rows = self.planned_problem(rng, "--ranges", "yes")
            with self.subTest(case=case, texts=texts, policy=problem.policy):
                self.assertIsNone(why_wrong_ranges(problem, rows))
                if problem.names_penalty() or not rows.number("missing"):
                    self.assertIsNone(why_wrong_rooms(problem, rows))
                    self.assertIsNone(why_wrong_passes(problem, rows))
                    seen += len(rows.by_word["pass range"])
                self.assertIsNone(why_wrong_supplies(problem, rows))
        self.assertLess(0, seen)

    def test_a_demand_below_its_penalty(self):
        """A further unit of the demand costs 4.6, and its penalty is 5. Nothing is missing, so that
        routes don't fix the price of what is."""
        places = (
            "name,supply,least,most,cost,penalty\nX,-2.7,1.7,9.7,0.6,5\nY,5.4,2,,-2,\n"
            "Z,,0,8.2,-1.2,\n"
        )
        routes = (
            "from,to,most,cost,both\nY,Z,1.1,1,yes\nY,Y,1,3,\nZ,Y,0.9,-2,\nX,X,1,1.9,\n"
            "X,Y,18.5,6,yes\nY,Z,24,7.9,yes\n"
        )
        words = ["flow", "--unused", "allow", "--short", "allow", "--penalty", "8"]
        status, rows = self.answered([*words, "--ranges", "yes"], [places, routes])
        self.assertEqual((status, rows.by_word["supply range"]), (0, [["2", "X", "4.6", "2.7"]]))

    def test_figures_of_all_amounts(self):
        """In some of these plans, all amounts pass through a place without a limit."""
        rng, seen = random.Random(20261201), collections.Counter()
        for case in range(ROUND_CASES):
            notation = Notation(rng)
            problem = round_problem(rng, notation)
            texts, _ = self.tables(rng, notation, problem)
            status, rows = self.answer(problem, notation, texts)
            with self.subTest(case=case, texts=texts):
                self.assertEqual(status, 0)
                self.assertIsNone(why_no_plan(problem, rows))
                self.assertIsNone(why_wrong_figures(problem, rows))
                rooms = sum(steps[0][0] for *_, steps, _ in ways_of(problem, rows))
                fills = passing(problem, rows)[0] == rooms
                for told in told_figures(problem, rows):
                    seen[fills, told.saves > 0, told.exact] += 1
        self.assertLess(ROUND_CASES / 3, seen[True, True, True])


@unittest.skipUnless(PROGRAM.exists(), "bin/mcfplan isn't built")
class Pairs(Answering):
    """Random rosters, whose tables are written in random ways."""

    def answer(self, roster, notation, text):
        """The status of the program, and its rows."""
        words = ["--decimal", notation.mark] if notation.says_mark else []
        words += ["--each", roster.each] if roster.each else []
        words += ["--maximise", "yes"] if roster.maximise else []
        return self.answered(["pairs", *words], [text])

    def test_random_rosters(self):
        rng, statuses = random.Random(20261129), collections.Counter()
        for case in range(PAIR_CASES):
            notation = Notation(rng)
            roster = random_roster(rng, notation)
            text = table_of(rng, notation, roster)
            status, rows = self.answer(roster, notation, text)
            statuses[status] += 1
            with self.subTest(case=case, text=text, roster=roster):
                best = least_cost(roster)
                self.assertEqual(status, 1 if best is None else 0)
                if status == 0:
                    self.assertIsNone(why_no_choice(roster, rows))
                    self.assertEqual(rows.number("cost"), best)
                if status == 1:
                    self.assertTrue(are_competing(roster, rows))
                self.assertEqual(repeated(rows, "costs"), rows_of(notation, text, "who"))
        self.assertLess(PAIR_CASES / 10, min(statuses[status] for status in range(2)))


if __name__ == "__main__":
    unittest.main()
